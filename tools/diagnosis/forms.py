"""What JSON values SPEC, VIEW and a line of EVENTS are, as docs/FORMATS.md lists their members, and what other forms take of them.

A part keeps the nodes of its names, so that a rule can say where it is broken. A value of another form is the fault `WrongShape`, with
the member of the table that it stands in.
"""
import difflib
import json
import re

from diagnosis.faults import Fault
from diagnosis.files import Span

# The members that a form knows.
MODULE, PRODUCTION, DEPS = ("name", "in", "out"), ("head", "body", "edges", "in", "out"), ("module", "pairs")
SPEC, VIEW = ("start", "modules", "productions", "deps", "versions"), ("expand", "deps")
AUTO, PACKAGE = ("states", "start", "accept", "moves"), ("package", "start", "modules", "productions", "deps", "loops")
WRITTEN = {"object": "an object", "list": "a list", "text": "a text", "number": "a whole number"}
# The forms of the lists, by the members that they are, and a member that the objects of such a list have.
ITEMS = {
    "modules": '[{"name":"MODULE","in":["INPUT"],"out":["OUTPUT"]},..]',
    "productions": '[{"head":"MODULE","body":[["POSITION","MODULE"]]},..]',
    "deps": '[{"module":"MODULE","pairs":[["INPUT","OUTPUT"],..]},..]',
    "versions": "[[9,3],..]",
    "accept": "[0,..]",
    "moves": '[[0,"MODULE",1],..]',
    "loops": '[["MODULE",0,1],..]',
    "body": '[["POSITION","MODULE"],..]',
    "edges": '[["POSITION.OUTPUT","POSITION.INPUT"],..]',
    "pairs": '[["INPUT","OUTPUT"],..]',
}
# The kinds of the items of a list of three, by the member that is a list of such lists.
ROWS = {"moves": ("number", "text", "number"), "loops": ("text", "number", "number")}
OBJECTS = {"modules": "name", "productions": "head", "deps": "module"}
# The members that an object has which lacks a member, by its name.
FORMS = {"name": MODULE, "head": PRODUCTION, "body": PRODUCTION, "module": DEPS, "pairs": DEPS, "start": SPEC, "modules": SPEC}
# Two words that stand for a pair, with a sign between.
TWO_WORDS = re.compile(r"\s*([^\s,;:=<>]+?)\s*(?:->|=>|[,;:=>]|\s)\s*([^\s,;:=<>]+)\s*")
HOW = {
    "object": "Write an object there, with its members between `{` and `}`.",
    "list": "Write a list there, between `[` and `]`; a list of nothing is `[]`.",
    "text": "Write a text there, between double quotes.",
    "number": "Write a whole number there, as `2`.",
}


class Shape:
    """Takes values of the forms that are wanted, in one member of the table, and refuses others by that member. `known` has the members of
    an object whose form is none of those above."""

    def __init__(self, member, known=()):
        self.member, self.known = member, known

    def wrong(self, node, what, mend):
        return Fault("WrongShape" if self.member is None else f"WrongShape {self.member}", what, mend, node)

    def take(self, node, kind, place):
        """Returns a node of this kind."""
        if node.kind != kind:
            raise self.wrong(node, f"`{place}` is {node.called()}, and {WRITTEN[kind]} belongs there.", in_its_place(node, kind, place))
        return node

    def member_of(self, node, name, kind, place):
        """Returns a member that has to be there."""
        found = node.member(name)
        if found is None:
            owner, like = f"`{place}`" if place else "The file", like_member(node, name, self.known or FORMS.get(name, ()))
            what = f"{owner} has no member `{name}`, which is {WRITTEN[kind]}.{f' It has a member `{like}`: is that the one?' if like else ''}"
            mend = f"Write `{name}` in the place of `{like}`, or add" if like else "Add"
            raise self.wrong(Span(node.at, node.at + 1), what, f"{mend} a member `{name}`. docs/FORMATS.md has an example of each.")
        return self.take(found, kind, f"{place}.{name}" if place else name)

    def items(self, node, name, kind, place):
        """Returns the items of a member that is a list, with their places; there are none where the member is not there."""
        found, place = node.member(name), f"{place}.{name}" if place else name
        parts = [] if found is None else self.take(found, "list", place).value
        if kind == "list" and is_row(name, parts):
            held = "three" if name in ROWS else f"two {WRITTEN[parts[0].kind].split()[-1]}s"
            what = f"`{place}` is a list of {held}, and a list of such lists belongs there."
            raise self.wrong(parts[0], what, f"Put a list around it: `[{as_row(parts)}]`.")
        return [(self.take(part, kind, f"{place}[{k}]"), f"{place}[{k}]") for k, part in enumerate(parts)]

    def texts(self, node, name, place):
        return [part for part, _ in self.items(node, name, "text", place)]

    def row(self, node, kinds, place):
        """Returns the items of a list that has one of each of these kinds, in order."""
        if len(node.value) != len(kinds):
            number, more = ("two", "pairs") if len(kinds) == 2 else ("three", "ones")
            what = f"`{place}` is a list of {len(node.value)}, and a list of {number} belongs there."
            raise self.wrong(node, what, f"Write exactly {number} parts; further {more} are lists of their own, with commas between.")
        return [self.take(part, kind, f"{place}[{k}]") for k, (part, kind) in enumerate(zip(node.value, kinds))]

    def two(self, node, kind, place):
        """Returns the two items of a list of two."""
        return self.row(node, (kind, kind), place)

    def number(self, node, place):
        """Returns the whole number that a node is."""
        found = self.take(node, "number", place).whole()
        if found is None:
            what = f"`{place}` is `{node.value}`, and a whole number without sign, fraction or exponent belongs there."
            raise self.wrong(node, what, HOW["number"])
        return found

    def pairs(self, node, name, place):
        """Returns the two texts of each item of a list, each with the item and its place."""
        return [(*self.two(part, "text", at), part, at) for part, at in self.items(node, name, "list", place)]

    def end(self, node, place, other=None):
        """Returns the position and the port that a text with a dot names. The other part of its pair is that of the head, if it is given."""
        if "." not in node.value:
            what = f"`{place}` is `{node.value}`, and a position and a port with a dot between belong there."
            mend = f"Write the position before it, and a dot, as `u.{node.value or 'x'}`."
            if other is not None and "." in other.value:
                mend = "Exchange the two: in `in` the port of the head stands first, and in `out` it stands second."
            raise self.wrong(node, what, mend)
        return End(node)


def is_row(member, parts):
    """Whether the items of a list are those of one list of two or three, which belongs into a list."""
    if member in ROWS:
        return tuple(part.kind for part in parts) == ROWS[member]
    return len(parts) == 2 and all(part.kind in ("text", "number") and not TWO_WORDS.fullmatch(part.value) for part in parts)


def as_row(parts):
    """Returns the list of some texts or numbers, as it is written."""
    return f"[{','.join(part.value if part.kind == 'number' else json.dumps(part.value) for part in parts)}]"


def in_its_place(node, kind, place):
    """Returns what to write in place of a value of another form."""
    member, _, item = place.rpartition(".")[2].partition("[")
    if kind == "list" and node.kind == "text":
        return text_as_list(node.value, member, item)
    if kind == "list" and node.kind == "word" and place == "expand":
        return "Take the member away, and every composite module is expanded; or list the names of those that are to be, as `[\"NAME\"]`."
    if kind == "text" and node.value == "null":
        names = place.startswith("the report.names")
        return f"Write a {'name' if names else 'text'} there, between double quotes{': each position of the body has an instance' if names else ''}."
    if kind == "list" and node.kind == "object":
        values = [part.value for _, part in node.value if part.kind == "text"]
        if item and len(values) == len(node.value) == 2:
            return f"Write a list of two texts there: `{json.dumps(values, separators=(',', ':'))}`."
        return f"Write a list there, of the form `{as_list(node, member)}`."
    if kind == "text" and node.kind in ("number", "word"):
        return f'Put it between double quotes: `"{node.value}"`.'
    if kind == "number" and node.kind == "text" and node.value.isdecimal():
        return f"Write it without quotes: `{node.value}`."
    if kind == "list" and node.kind == "number" and member == "accept":
        return f"Put it into a list: `[{node.value}]`."
    return HOW[kind]


def text_as_list(value, member, item):
    """Returns what to write in place of a text, where a list belongs: a pair, in a list of pairs, or names."""
    two, names = TWO_WORDS.fullmatch(value), re.split(r"[\s,;]+", value.strip())
    if item and two and member not in ROWS:
        return f"Write a list of two texts there: `{json.dumps(two.groups(), separators=(',', ':'))}`."
    if item and member in ITEMS:
        return f"Write a list of {'three' if member in ROWS else 'two'} there, as in `{ITEMS[member]}`."
    if member in ITEMS:
        return f"Write a list there, of the form `{ITEMS[member]}`."
    return f"Put {'it' if len(names) == 1 else 'them'} into a list: `{json.dumps(names, separators=(',', ':'))}`."


def as_list(node, member):
    """Returns the list that an object is meant as, or the form of the list that belongs there."""
    texts = [json.dumps([name.value, part.value]) for name, part in node.value if part.kind == "text"]
    if member in ("body", "edges", "in", "out", "pairs") and texts and len(texts) == len(node.value) and len(texts) <= 8:
        return f"[{','.join(texts)}]"
    known = [name.value for name, _ in node.value]
    if member == "names" and 0 < len(texts) == len(known) <= 8:
        return json.dumps([part.value for _, part in node.value], separators=(",", ":"))
    if member == "expand" and 0 < len(known) <= 8:
        return json.dumps([name.value for name, part in node.value if part.value not in ("false", "null")], separators=(",", ":"))
    if member in OBJECTS and OBJECTS[member] in known:
        return "[{..}]"
    return ITEMS.get(member, '["NAME",..]')


def like_member(node, name, known):
    """Returns the name of a member that may be meant as one that is missing: one that the form does not know, or a near one; or nothing."""
    unknown = [key.value[:64] for key, _ in node.value if key.value not in known]
    close = difflib.get_close_matches(name, unknown, 1, 0.5)
    return close[0] if close else unknown[0] if len(unknown) == 1 else ""


class End:
    """An end of a link at a position: what stands before the first dot, and behind it."""

    def __init__(self, node):
        self.node = node
        self.position, _, self.port = node.value.partition(".")


class ModulePart:
    def __init__(self, shape, node, place):
        self.node = node
        self.name = shape.member_of(node, "name", "text", place)
        self.inputs, self.outputs = shape.texts(node, "in", place), shape.texts(node, "out", place)


class ProductionPart:
    """A production: its head, the positions with their modules, and its links, each with the item of the list."""

    def __init__(self, shape, node, place):
        self.node = node
        self.head = shape.member_of(node, "head", "text", place)
        self.body_node = shape.member_of(node, "body", "list", place)
        self.body = [(position, module) for position, module, _, _ in shape.pairs(node, "body", place)]
        self.edges = [(shape.end(a, f"{at}[0]"), shape.end(b, f"{at}[1]"), part) for a, b, part, at in shape.pairs(node, "edges", place)]
        self.entries = [(a, shape.end(b, f"{at}[1]", a), part) for a, b, part, at in shape.pairs(node, "in", place)]
        self.exits = [(shape.end(a, f"{at}[0]", b), b, part) for a, b, part, at in shape.pairs(node, "out", place)]


class DepsPart:
    def __init__(self, shape, node, place):
        self.node = node
        self.module = shape.member_of(node, "module", "text", place)
        shape.member_of(node, "pairs", "list", place)
        self.pairs = [(a, b) for a, b, _, _ in shape.pairs(node, "pairs", place)]


class VersionPart:
    def __init__(self, shape, node, place):
        self.node = node
        self.modules, self.productions = (shape.number(part, f"{place}[{k}]") for k, part in enumerate(shape.two(node, "number", place)))


def top(node, what):
    """Returns a node that is an object."""
    if node.kind != "object":
        mend = "Put its members between `{` and `}`."
        if what == "a view" and node.kind == "list" and all(part.kind == "text" for part in node.value[:8]):
            mend = f"Write the list as a member `expand`, if these modules are to be expanded: `{{\"expand\":{names_of(node.value)}}}`."
        raise Fault("WrongShape top", f"the file holds {node.called()}, and {what} is an object.", mend, node)
    return node


def names_of(nodes):
    """Returns a list of texts as it is written, or its form where it is long."""
    return json.dumps([node.value for node in nodes], separators=(",", ":")) if len(nodes) <= 8 else "[..]"


class GrammarParts:
    """The parts of a specification but for its versions, of which there are none here."""

    def __init__(self, node):
        self.node, self.versions = node, []
        self.start = Shape("start").member_of(node, "start", "text", "")
        shape = Shape("modules")
        shape.member_of(node, "modules", "list", "")
        self.modules = [ModulePart(shape, part, at) for part, at in shape.items(node, "modules", "object", "")]
        shape = Shape("productions")
        self.productions = [ProductionPart(shape, part, at) for part, at in shape.items(node, "productions", "object", "")]
        self.deps = deps_of(node)


class SpecParts(GrammarParts):
    """The parts of a specification."""

    def __init__(self, node):
        super().__init__(top(node, "a specification"))
        shape = Shape("versions")
        self.versions = [VersionPart(shape, part, at) for part, at in shape.items(node, "versions", "list", "")]


def deps_of(node):
    shape = Shape("deps")
    return [DepsPart(shape, part, at) for part, at in shape.items(node, "deps", "object", "")]


class ViewParts:
    """The parts of a view: the names that it expands, or None where it expands all, and the modules to which it gives pairs."""

    def __init__(self, node):
        self.node = top(node, "a view")
        self.expand = None if node.member("expand") is None else Shape("expand").texts(node, "expand", "")
        self.deps = deps_of(node)
