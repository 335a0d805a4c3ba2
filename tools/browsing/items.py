"""The items that a view shows, and a search among them. A million names are one text, which is searched as a whole."""
import re

# How many names a search looks at, at most.
COUNTED = 1000
NAME = re.compile(r"[A-Za-z0-9_-]{1,64}\.[A-Za-z0-9_-]{1,64}")
SIGNS = re.compile(r"[A-Za-z0-9_.-]+")
# How many bytes a name has at most, with the end of its line.
LONGEST = 130


class Found:
    """What a search found: the first names, how many there are, and whether there are more than were counted."""

    def __init__(self, names, total):
        self.names, self.total, self.is_cut = names, min(total, COUNTED), total > COUNTED


class Items:
    """Names of items in their order."""

    def __init__(self, names):
        """Takes names as bytes."""
        self.text = b"\n" + b"".join(name + b"\n" for name in names)
        self.folded, self.count = self.text.lower(), len(names)

    def has(self, name):
        return b"\n" + name.encode() + b"\n" in self.text

    def line_at(self, place):
        """Returns the name around a place of the text, and where it ends."""
        start, end = self.text.rfind(b"\n", 0, place + 1) + 1, self.text.index(b"\n", place + 1)
        return self.text[start:end].decode(), end

    def holding(self, text):
        """Yields the names that have a text in them, in capitals or not."""
        wanted = text.lower().encode() if SIGNS.fullmatch(text) else b"\0"
        place = self.folded.find(wanted, 1)
        while place >= 0:
            name, end = self.line_at(place)
            yield name
            place = self.folded.find(wanted, end)

    def first(self, count):
        """Returns the first names."""
        return self.text[1 : 1 + count * LONGEST].decode().split("\n")[: min(count, self.count)]

    def search(self, text, count):
        """Returns the names that have a text in them: that name itself first, and then the others in their order."""
        if not text:
            return Found(self.first(count), self.count)
        names, total = [text] if NAME.fullmatch(text) and self.has(text) else [], 0
        for total, name in enumerate(self.holding(text), 1):
            if len(names) < count and name != text:
                names.append(name)
            if total > COUNTED:
                break
        return Found(names, total)
