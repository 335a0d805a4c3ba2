#!/usr/bin/env python3
"""Draws the labels of two items part by part, with what the two share in grey. The picture is for Graphviz.

  python3 tools/two_labels.py SPEC LABELS ITEM ITEM | dot -Tsvg > picture.svg

A row has the parts of one label, in the order of its bits: what kind of label it is; each step, with the chain number before it where
the module is on a cycle; and the ending, with its own chain number. A box has the word for the part, its bits, and what they say. The
zero bits that fill the last byte stand at the end, so a row has the bits of the hexadecimal digits beside it.

Two labels share the parts with which both begin. Where their chain numbers differ, they share the continuing steps that both take.
Where both name one production of one instance, they share the production, and part at its positions or edges.

This tool is no part of what is proved. It refuses a label that is none of the specification, and does not try the rest of the label
file; `wfprov ask` does. It needs Python's standard library alone.
"""
import html
import os
import sys

sys.path.insert(0, os.path.dirname(os.path.abspath(__file__)))
import dot
import labels as label_file
import terminal
from label_bits import Bits
from terminal import Wrong

GREY, BARE, LEFT = ' bgcolor="gray80"', ' border="0"', ' border="0" align="left"'


class Cell:
    """What a part of a label says: a text, and what has to be the same in another label that shares it. Of a chain number this is the
    number. `shared` is the text that is shared, and `own` the text that is not."""

    def __init__(self, what, text):
        self.what, self.shared, self.own = what, "", text

    def share(self):
        self.shared, self.own = self.own, ""

    def texts(self):
        """Returns the texts that are there, each with whether it is shared."""
        return [(text, shared) for text, shared in ((self.shared, True), (self.own, False)) if text]


class Part:
    """A part of a label: the word for it, its bits, and its cells."""

    def __init__(self, word, bits, *cells):
        self.word, self.bits, self.cells = word, bits, cells


def part_of(bits, word, *cells):
    """Returns a part with the bits that were read since the last."""
    taken, bits.taken = " ".join(bits.taken), []
    return Part(word, taken, *cells)


def at(held, number, what, owner):
    """Returns the element of a list with this number, where the owner has one."""
    if number >= len(held):
        raise Wrong(f"{owner} has no {what} {number}")
    return held[number]


def continuing_steps(count):
    """Returns a number of continuing steps in words."""
    return f"{count} continuing step{'s' * (count != 1)}"


def continuing(spec):
    """Returns for each module that leads back to itself its continuing step, as the production and the position."""
    steps = {}
    for production in spec.productions:
        for position in spec.ways_back(production):
            if production.head in steps:
                raise Wrong(f"`{production.head}` leads back to itself in two ways, so `wfprov check` refuses the specification")
            steps[production.head] = production, position
    return steps


def after(steps, module, count):
    """Returns the module to which so many continuing steps lead."""
    around = []
    while not around or module != around[0]:
        around.append(module)
        production, position = steps[module]
        module = production.body[position]
    return around[count % len(around)]


def port_parts(spec, bits):
    """Yields the parts of the label of an input or an output of the run, of which the first bit was read."""
    start = spec.modules[spec.start]
    side, ports = ("output", start.outputs) if bits.take(1) == "1" else ("input", start.inputs)
    yield part_of(bits, "kind", Cell(side, f"{side} of the run"))
    port = at(ports, bits.number(), side, spec.start)
    yield part_of(bits, side, Cell(port, port))


def production_at(spec, module, bits):
    """Returns the production of a module that the next number names, and a cell that tells it."""
    number = at(spec.modules[module].productions, bits.number(), "alternative", module)
    return spec.productions[number], Cell(("production", number), f"{module} by production {number}")


def ending(production, bits, cell):
    """Returns the part that names an edge of a production."""
    edges = [(".".join(first), ".".join(second)) for first, second in production.links if first[0] and second[0]]
    edge = at(edges, bits.number(), "edge", f"a production of {production.head}")
    return part_of(bits, "ending", cell, Cell(edge, f"edge {edge[0]} to {edge[1]}"))


def edge_parts(spec, bits):
    """Yields the parts of the label of what an edge carries, of which the first bit was read."""
    yield part_of(bits, "kind", Cell("edge", "carried by an edge"))
    module, steps = spec.start, continuing(spec)
    while True:
        if module in steps:
            count = bits.number()
            yield part_of(bits, "chain number", Cell(count, continuing_steps(count)))
            module = after(steps, module, count)
        goes_on = bits.take(1) == "1"
        production, cell = production_at(spec, module, bits)
        if not goes_on:
            yield ending(production, bits, cell)
            return
        position = at(list(production.body), bits.number(), "position", f"a production of {production.head}")
        if steps.get(module) == (production, position):
            raise Wrong(f"a step along the cycle of {module} stands alone, and belongs to the chain number before it")
        yield part_of(bits, "step", cell, Cell(position, f"position {position}"))
        module = production.body[position]


def parts_of(spec, label):
    """Returns the parts of a label, and behind them the bits that fill the last byte."""
    bits = Bits(label)
    parts = list(edge_parts(spec, bits) if bits.take(1) == "1" else port_parts(spec, bits))
    if bits.take(bits.end()):
        parts.append(part_of(bits, "filling"))
    return parts


def share_chain(one, other):
    """Marks of two chain numbers that differ the continuing steps that both take."""
    less, more = sorted((one, other), key=lambda cell: cell.what)
    if less.what:
        less.share()
        more.shared, more.own = continuing_steps(less.what), f"{more.what - less.what} more"


def share(first, second):
    """Marks what the parts of two labels share."""
    cells = ([cell for part in parts for cell in part.cells] for parts in (first, second))
    for one, other in zip(*cells):
        if isinstance(one.what, int) and isinstance(other.what, int) and one.what != other.what:
            share_chain(one, other)
        if one.what != other.what:
            return
        one.share()
        other.share()


def texts_of(parts):
    """Returns what parts say, in order, each with whether it is shared."""
    return [text for part in parts for cell in part.cells for text in cell.texts()]


def plain(text):
    """Returns a text of a file as one that has no meaning in the picture's table."""
    return html.escape(terminal.escaped(text))


def cell(text, width=1, shared=False, more=""):
    """Returns a cell of the picture's table, so many columns wide."""
    span = f' colspan="{width}"' if width > 1 else ""
    return f"<td{span}{GREY if shared else ''}{more}>{text}</td>"


def rows_of(parts, item, label):
    """Yields the rows of a label: the words for its parts, with the item; their bits, with the bytes; and what they say."""
    words, bits, says = [cell(plain(item), more=LEFT)], [cell(label.hex(), more=LEFT)], [cell("", more=BARE)]
    for part in parts:
        texts = texts_of([part])
        width = max(len(texts), 1)
        words.append(cell(f'<font point-size="9">{part.word}</font>', width, more=BARE))
        bits.append(cell(part.bits, width, bool(texts) and all(shared for _, shared in texts), "" if texts else ' rowspan="2"'))
        says.extend(cell(text, shared=shared) for text, shared in texts)
    yield from (words, bits, says)


def picture(labels):
    """Yields the lines of the picture of two labels, each with its item, its bytes and its parts."""
    width = sum(shared for _, shared in texts_of(labels[0][2]))
    below = [cell("", more=BARE), cell("shared by both" if width else "nothing is shared", width or 1, width > 0, BARE)]
    yield "digraph labels {"
    yield '  "labels" [shape=plain fontname=Helvetica fontsize=11 label=<'
    yield '    <table border="0" cellborder="1" cellspacing="0" cellpadding="5">'
    for item, label, parts in labels:
        yield from (f"      <tr>{''.join(row)}</tr>" for row in rows_of(parts, item, label))
    yield from (f"      <tr>{''.join(row)}</tr>" for row in ([cell("", more=BARE)], below))
    yield "    </table>>];"
    yield "}"


def picture_of(spec_path, labels_path, items):
    """Returns the lines of the picture of the labels that a label file has of two items."""
    spec = dot.read_spec(spec_path)
    entries = label_file.entries_of(terminal.read_bytes(labels_path))
    held = {name.decode("utf-8", "backslashreplace"): label for name, label in entries}
    rows = []
    for item in items:
        if item not in held:
            raise Wrong(f"`{item}` is no item of {labels_path}")
        try:
            rows.append((item, held[item], parts_of(spec, held[item])))
        except Wrong as wrong:
            raise Wrong(f"the label of `{item}` is none of {spec_path}: {wrong}") from None
    share(rows[0][2], rows[1][2])
    return picture(rows)


def work(words):
    if len(words) != 4:
        raise Wrong("the words are not SPEC LABELS ITEM ITEM; see --help")
    terminal.write("\n".join(picture_of(words[0], words[1], words[2:])) + "\n")


if __name__ == "__main__":
    sys.exit(terminal.run("two_labels.py", __doc__, work))
