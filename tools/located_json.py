"""Reads JSON and keeps where each value stands.

`read` takes a text of RFC 8259 and returns its value as a `Node`, or raises `NotJson` with what is wrong and where. What is JSON is what
`wfprov` takes as JSON: at most 127 levels of nesting, no number that is too great for a floating-point number, no surrogate that stands
alone, and nothing beyond the standard (Python's own reader takes `NaN`). Of a member that is given twice the last value counts.

Places are numbers of signs from the beginning of the text. The module needs Python's standard library alone.
"""
import math
import re

DEEPEST = 127
SPACE = re.compile(r"[ \t\n\r]*")
PLAIN = re.compile(r'[^"\\\x00-\x1f]*')
NUMBER = re.compile(r"-?(?:0|[1-9][0-9]*)(?:\.[0-9]+)?(?:[eE][+-]?[0-9]+)?")
WHOLE = re.compile(r"0|[1-9][0-9]{0,19}")
HEX = re.compile(r"[0-9A-Fa-f]{4}")
WORD = re.compile(r"[A-Za-z]+")
ESCAPES = {'"': '"', "\\": "\\", "/": "/", "b": "\b", "f": "\f", "n": "\n", "r": "\r", "t": "\t"}
WORDS = {"true": True, "false": False, "null": None}
CALLED = {"object": "an object", "list": "a list", "text": "a text", "number": "a number", "word": "a word"}


class NotJson(Exception):
    """Why a text is no JSON, in words, and the place. `opened` has the places of the lists and objects that are not closed there."""

    def __init__(self, what, at, opened=()):
        super().__init__(what)
        self.what, self.at, self.opened = what, at, list(opened)


class Node:
    """A value of JSON. The kind is object, list, text, number or word; the value of an object is the list of its members, as names with
    values, which are nodes; that of a number is its spelling. It begins at `at` and ends before `end`."""

    __slots__ = ("kind", "value", "at", "end")

    def __init__(self, kind, value, at, end):
        self.kind, self.value, self.at, self.end = kind, value, at, end

    def member(self, name):
        """Returns the last member of an object with this name, or None."""
        found = None
        for key, value in self.value:
            if key.value == name:
                found = value
        return found

    def whole(self):
        """Returns the whole number below 2^64 that is written without sign, fraction and exponent, or None."""
        if self.kind != "number" or not WHOLE.fullmatch(self.value):
            return None
        number = int(self.value)
        return number if number < 1 << 64 else None

    def called(self):
        """Returns what kind of value it is, in words."""
        if self.kind == "word":
            return f"`{self.value}`"
        return CALLED[self.kind]


class Reader:
    """The text, the place up to which it was read, and where the lists and objects begin that are open there."""

    def __init__(self, text):
        self.text, self.at, self.open = text, 0, []

    def next_sign(self):
        """Passes over blanks and returns the next sign, or nothing at the end."""
        self.at = SPACE.match(self.text, self.at).end()
        return self.text[self.at : self.at + 1]

    def wrong(self, wanted):
        """Returns the fault that something is wanted where another sign stands."""
        sign = self.text[self.at : self.at + 1]
        if not sign:
            return NotJson(f"the text ends where {wanted} is to stand", self.at, self.open)
        return NotJson(f"{wanted} is to stand here, and here is `{sign}`{HINTS.get(sign, '')}", self.at, self.open)

    def value(self):
        """Reads a value."""
        sign = self.next_sign()
        if sign in OPENED:
            return self.opened(sign)
        if sign == '"':
            return self.quoted()
        if sign and sign in "-0123456789":
            return self.number()
        return self.word()

    def word(self):
        begun, found = self.at, WORD.match(self.text, self.at)
        if not found:
            raise self.wrong("a value")
        if found[0] not in WORDS:
            raise NotJson(f"`{found[0]}` is no value of JSON: a text stands between double quotes", begun)
        self.at = found.end()
        return Node("word", found[0], begun, self.at)

    def number(self):
        begun, found = self.at, NUMBER.match(self.text, self.at)
        if not found:
            raise NotJson("a number has a digit behind its sign", begun)
        self.at = found.end()
        left = self.text[self.at : self.at + 1]
        if left and left in "0123456789":
            raise NotJson("a number does not begin with 0 and a digit behind it", begun)
        if left and left in ".eE":
            raise NotJson("a number has digits behind its point and behind its `e`", begun)
        if math.isinf(float(found[0])):
            raise NotJson("a number is too great", begun)
        return Node("number", found[0], begun, self.at)

    def opened(self, sign):
        """Reads a list or an object, of which the first sign comes next."""
        if len(self.open) == DEEPEST:
            raise NotJson(f"lists and objects are nested more than {DEEPEST} deep", self.at)
        begun = self.at
        self.open.append(begun)
        self.at += 1
        kind, closing, part = OPENED[sign]
        value = self.parts(closing, part)
        self.open.pop()
        return Node(kind, value, begun, self.at)

    def parts(self, closing, part):
        """Reads parts with commas between, and the closing sign."""
        found = []
        if self.next_sign() == closing:
            self.at += 1
            return found
        while True:
            found.append(part(self))
            sign = self.next_sign()
            if sign == ":" and closing == "]" and found[-1].kind == "text":
                raise NotJson(f"`{found[-1].value}` is the name of a member, and stands in a list", found[-1].at, self.open)
            if sign not in (",", closing):
                raise self.wrong(f"a comma or `{closing}`")
            comma = self.at
            self.at += 1
            if sign == closing:
                return found
            if self.next_sign() == closing:
                raise NotJson(f"a comma stands before `{closing}`, and nothing comes behind it", comma)

    def named(self):
        """Reads a member of an object."""
        if self.next_sign() != '"':
            raise self.wrong("the name of a member, in double quotes,")
        name = self.quoted()
        if self.next_sign() != ":":
            raise self.wrong("a colon behind the name of a member")
        self.at += 1
        return name, self.value()

    def quoted(self):
        """Reads a text, of which the first quote comes next."""
        begun, found = self.at, []
        self.at += 1
        while True:
            plain = PLAIN.match(self.text, self.at)
            found.append(plain[0])
            self.at = plain.end()
            sign = self.text[self.at : self.at + 1]
            if sign == '"':
                self.at += 1
                return Node("text", "".join(found), begun, self.at)
            if sign != "\\":
                raise self.unended(begun, sign)
            found.append(self.escape())

    def unended(self, begun, sign):
        if sign == "\n" or not sign:
            return NotJson("a text begins here, and no quote ends it on this line" if sign else "a text begins here, and no quote ends it", begun)
        return NotJson(f"the sign U+{ord(sign):04X} stands in a text, where it is written as an escape", self.at)

    def escape(self):
        """Reads an escape, of which the backslash comes next."""
        begun, sign = self.at, self.text[self.at + 1 : self.at + 2]
        self.at += 2
        if sign in ESCAPES:
            return ESCAPES[sign]
        if sign != "u":
            raise NotJson(f"`\\{sign}` is no escape", begun)
        code = self.code(begun)
        if 0xD800 <= code < 0xDC00 and self.text[self.at : self.at + 2] == "\\u":
            self.at += 2
            low = self.code(begun)
            if 0xDC00 <= low < 0xE000:
                return chr(0x10000 + ((code - 0xD800) << 10) + low - 0xDC00)
            code = 0xD800
        if 0xD800 <= code < 0xE000:
            raise NotJson("an escape is half of a sign, without the other half", begun)
        return chr(code)

    def code(self, begun):
        found = HEX.match(self.text, self.at)
        if not found:
            raise NotJson("`\\u` has four hexadecimal digits behind it", begun)
        self.at = found.end()
        return int(found[0], 16)


OPENED = {"[": ("list", "]", Reader.value), "{": ("object", "}", Reader.named)}
HINTS = {
    "'": "; texts stand between double quotes",
    **dict.fromkeys("\u201c\u201d\u201e\u2018\u2019\u00ab\u00bb", "; texts stand between straight double quotes"),
    "/": "; JSON has no comments",
    "#": "; JSON has no comments",
    "\ufeff": ", a byte order mark; save the file without one",
    "=": "; a colon stands between name and value",
}


def read(text):
    """Returns the value of a text of JSON."""
    reader = Reader(text)
    value = reader.value()
    if reader.next_sign():
        raise NotJson(f"more stands behind the end of the {value.kind}: a file holds one value", reader.at)
    return value
