"""Which files of several runs have one content, and what a name means over all runs.

A content is known by a checksum: its kind and its digits. `sha1$AB..`, `SHA-1:ab..` and forty hexadecimal digits alone are one content.
Two checksums of one kind are of one content or of two. Of two kinds nobody can say, and so where a file has none.
"""
import functools
import hashlib
import re
from typing import NamedTuple, Tuple

from file_table import File, refuse, refuse_several

# The kinds of checksums that are known by how many hexadecimal digits they have.
KINDS = {32: "md5", 40: "sha1", 56: "sha224", 64: "sha256", 96: "sha384", 128: "sha512"}
CHECKSUM = re.compile("(?:([A-Za-z][A-Za-z0-9_-]*)[$:=])?(?:([0-9A-Fa-f]+)|(.*))", re.S)
# While all files are read, the place of one is a number: that of its run, and its own in so many bits.
BITS = 32
# Up to how many names the lines are found by their text.
FEW = 16


@functools.lru_cache(None)
def kind_of(name, length, is_hex):
    """Returns the kind of a checksum: its name and its length, and that it is no hexadecimal number."""
    name = name.lower().replace("-", "").replace("_", "") if name else KINDS.get(length, "") if is_hex else ""
    return f"{name}/{length}{'' if is_hex else '/text'}"


def content_of(checksum):
    """Returns the content that a checksum says, its kind and its digits with a space between, or an empty text where it has no digits."""
    name, digits, text = CHECKSUM.fullmatch(checksum).groups()
    if digits:
        return f"{kind_of(name, len(digits), True)} {digits.lower()}"
    return text and f"{kind_of(name, len(text), False)} {text}"


# The contents of an empty file.
EMPTY = frozenset(content_of(hashlib.new(kind, usedforsecurity=False).hexdigest()) for kind in KINDS.values())


def mask_of(signs):
    """Returns a number with a bit for each sign that is true, the first one last."""
    return int(bytes(map(bool, reversed(signs))).translate(b"01" + bytes(254)) or b"0", 2)


def bits_of(mask):
    """Returns the places of the bits of a number."""
    return [place for place, sign in enumerate(bin(mask)[:1:-1]) if sign == "1"]


class Known:
    """What is known of the files of a run, by their numbers, in bits: which have one item, which are given from outside, which are of a kind, and
    which have a content that another run has too. A value from outside with neither path nor checksum, such as a number, is given by no run."""

    def __init__(self, values, contents):
        kinds = [content.partition(" ")[0] for content in contents]
        self.simple = mask_of([" " not in items for *_, items in values])
        self.given = mask_of([not action and (path or checksum) for _, _, path, checksum, action, _, _ in values])
        self.kinds = {kind: mask_of([kind == other for other in kinds]) for kind in set(kinds)}
        self.shared, self.contents = 0, {}

    def share(self, number, content):
        """Notes that another run has the content of a file."""
        self.shared |= 1 << number
        self.contents[number] = content


class Meant(NamedTuple):
    """A file that a name means: whether the name is its path or its name in the record, its place, how it is shown, and its content."""

    is_exact: bool
    place: Tuple[int, int]
    shown: str
    content: str


class Names:
    """The names of a call. A name means files of any run, or of one run where `RUN:` stands before it."""

    def __init__(self, names, runs):
        self.parts, self.sums, self.meant = {}, {}, {name: {} for name in names}
        known = {run.name for run in runs}
        for name in self.meant:
            self.want(name, name, None)
            for at, sign in enumerate(name):
                if sign == ":" and name[:at] in known:
                    self.want(name[at + 1:], name, name[:at])
        # A text that stands in each line with a file that a part means, or in all lines where there are many parts.
        self.signs = [needle_of(part) for part in self.parts] if len(self.parts) <= FEW else [""]

    def want(self, part, name, run):
        """Notes that what a part of a name means is to be found, in any run or in one."""
        for meant, text in ((self.parts, part), (self.sums, content_of(part))):
            if text:
                meant.setdefault(text, []).append((part, name, run))

    def look(self, number, run, values, contents):
        """Notes which names mean files of a run."""
        for place, (fields, content) in enumerate(zip(values, contents)):
            line = "\t".join(fields).casefold()
            if any(sign in line for sign in self.signs):
                self.look_at((number, place), run, File(fields), content)

    def look_at(self, place, run, file, content):
        """Notes which names mean a file."""
        found = [wanted for part in {*file.names()} & self.parts.keys() for wanted in self.parts[part]]
        for part, name, only in found + self.sums.get(content, []):
            if only in (None, run.name):
                is_exact = part in (file.identity, file.path)
                self.meant[name][place] = Meant(is_exact, place, f"`{run.name}:{file.name()}`", content)

    def places(self, name, folder):
        """Returns the places of the files that a name means. Several are taken where they have one content."""
        every = list(self.meant[name].values())
        found = [meant for meant in every if meant.is_exact] or every
        if not found:
            refuse(folder, f"`{name}` is no file, checksum or action of its runs")
        if len(found) > 1 and (len({meant.content for meant in found}) > 1 or not found[0].content):
            refuse_several(folder, name, [meant.shown for meant in found])
        return tuple(meant.place for meant in found)


def needle_of(part):
    """Returns a text that stands in each line with a file that a part of a name means, however the checksum, or an action and its role, are written."""
    return max(re.split("[$:=]", part)[-1].split(" "), key=len).casefold()


class Index:
    """The files of all runs: what is known of those of each run, and the places of each content that several runs have."""

    def __init__(self, folder, runs, names):
        self.folder, self.runs, self.names, self.known, self.places = folder, runs, Names(names, runs), [], {}
        first, again = {}, {}
        for number, run in enumerate(runs):
            values = run.values()
            contents = [content_of(fields[3]) for fields in values]
            self.known.append(Known(values, contents))
            self.names.look(number, run, values, contents)
            for place, content in enumerate(contents, number << BITS):
                before = first.setdefault(content, place)
                if before != place and content:
                    again.setdefault(content, [before]).append(place)
        for content, places in again.items():
            self.share(content, [(place >> BITS, place & (1 << BITS) - 1) for place in places])
        self.has_empty = not EMPTY.isdisjoint(self.places)

    def share(self, content, places):
        """Notes the places of a content, if several runs have it."""
        if len({run for run, _ in places}) > 1:
            self.places[content] = places
            for run, number in places:
                self.known[run].share(number, content)

    def file(self, name):
        """Returns the places of the files that a name means."""
        return self.names.places(name, self.folder)
