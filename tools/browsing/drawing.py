"""A picture of links, in which items can be clicked and what an answer says is marked."""
import re

import dot


class Marks:
    """How the parts of a picture are drawn: the items with their addresses, and in classes of the page's style the steps that the view
    closes, the items of a question, the way between them, and what rests on an item or on what it rests. dot.py draws with it."""

    def __init__(self, address, composite):
        self.address, self.composite = address, composite
        self.asked, self.path, self.before, self.after, self.items = (), set(), set(), set(), set()

    def take_path(self, part):
        """Marks the way of a chain."""
        self.path = {tuple(map(self.split, map(part.shown.text, part.shown.ends(link)))) for link in part.path}

    @staticmethod
    def split(text):
        return tuple(text.split("."))

    def classes_of(self, name):
        """Returns the classes of an item."""
        told = (("asked", self.asked), ("before", self.before), ("after", self.after))
        return [word for word, names in told if name in names]

    def drawn(self, words, name=None):
        """Returns the attributes of a part with these classes, which has the name of an item or has none."""
        return (f' class="{" ".join(words)}"' if words else "") + (f' URL="{self.address(name)}"' if name else "")

    def of_box(self, export, instance):
        kind, module = export.closed[instance]
        words = ["path"] * any(first[0] == instance == second[0] for first, second in self.path)
        return self.drawn(words + ["closed"] * (module in self.composite and kind == "leaf"))

    def of_oval(self, port):
        name = ".".join(port)
        words = ["path"] * any(port in link for link in self.path)
        return self.drawn(words + self.classes_of(name), name if name in self.items else None)

    def of_arrow(self, link, named):
        name = ".".join(link[0])
        words = ["path"] * (link in self.path)
        return self.drawn(words + (self.classes_of(name) if named else []), name if named else None)


def svg_of(picture, part, marks):
    """Returns the picture of a part as an element of HTML, drawn by Graphviz."""
    export = dot.Export(list(part.lines()))
    marks.items = export.items
    text = "\n".join(dot.run_picture(export, marks)) + "\n"
    svg = picture.svg(text.encode(), "The run under the view")
    return re.sub(r'<a xlink:href="([^"]*)"[^>]*>', r'<a href="\1">', svg)
