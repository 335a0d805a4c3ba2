#!/usr/bin/env python3
"""Turns a label file into lines of text, and such lines back into the label file; and picks entries of one by their names.

  python3 tools/labels.py lines LABELS            writes the lines of a label file
  python3 tools/labels.py file [LINES]            writes the label file of lines, which are read from standard input without LINES
  python3 tools/labels.py pick LABELS NAMES ..    writes the label file of those entries alone whose names stand in the files NAMES

The first line is `head` and the 36 bytes of the head in hexadecimal digits. Each further line is the name of an item, a space, and
its label in hexadecimal digits, in the order of the file. So labels can be kept in a table or a database, and the label file be made
of them again, byte for byte. `decide` takes labels in these digits.

A label file that is damaged may have entries whose names are those of no item. A byte of such a name that is no printable sign of
ASCII, a space or a backslash is written as `\\xHH`, an empty name as nothing before the space, and the name `head` as `\\x68ead`.

`pick` keeps the head and the order of the entries. In NAMES there are spaces or ends of lines between the names, so QUERIES is such a
file; a name that no entry has is passed over. `ask` answers from the entries of the two names of a question alone, so over what was
picked for QUERIES it answers QUERIES as over the whole file. LABELS is read once, a piece at a time, and may be longer than `ask` takes;
what is held is the names that are wanted and the entries that were picked.
  --sha256 DIGEST  behind `pick`: a file with another digest is refused, so that all that is picked comes of the same bytes.

This tool is no part of what is proved: whether a file is a label file of a grammar is told by `ask`. It needs Python's standard
library alone.
"""
import array
import hashlib
import os
import re
import sys

sys.path.insert(0, os.path.dirname(os.path.abspath(__file__)))
import terminal
from terminal import Wrong

HEAD = 36
MAGIC = b"WFL1"
PIECE = 1 << 20
# The bytes of the longest entry.
LONGEST = 1 + 255 + 2 + 65535
DIGITS = re.compile("(?:[0-9A-Fa-f]{2})*")
HIDDEN = re.compile(rb"[^!-\[\]-~]")
ESCAPE = re.compile(rb"\\x([0-9A-Fa-f]{2})")
NAME = re.compile(rb"(?:[!-\[\]-~]|\\x[0-9A-Fa-f]{2})*")


class NotWhole(Wrong):
    """An entry of a label file that is not whole, with the number of the bytes before it."""

    def __init__(self, offset):
        super().__init__(f"the entry at byte {offset} is not whole")
        self.offset = offset


def head_of(labels):
    """Returns the head of a label file."""
    if labels[:4] != MAGIC or len(labels) < HEAD:
        raise Wrong("the file does not begin with the head of a label file")
    return labels[:HEAD]


def entries_of(labels, at=HEAD, before=0):
    """Yields the names and the labels of the entries of a label file, each as bytes: from `at` on, of a file with so many bytes before."""
    while at < len(labels):
        begun = at
        length = labels[at]
        name = labels[at + 1 : at + 1 + length]
        at += 1 + length
        size = int.from_bytes(labels[at : at + 2], "big")
        label = labels[at + 2 : at + 2 + size]
        if len(name) < length or len(labels) < at + 2 or len(label) < size:
            raise NotWhole(before + begun)
        at += 2 + size
        yield name, label


def goes_out(label):
    """Returns whether a label is that of an output of the run: it begins with the bits 01."""
    return label[:1] != b"" and label[0] >> 6 == 1


def name_word(name):
    """Returns the bytes of a name as a word of a line."""
    if name == b"head":
        return "\\x68ead"
    return HIDDEN.sub(lambda found: b"\\x%02x" % found[0][0], name).decode()


def lines_of(labels):
    """Yields the lines of a label file."""
    yield f"head {head_of(labels).hex()}"
    for name, label in entries_of(labels):
        yield f"{name_word(name)} {label.hex()}"


def bytes_of(digits, number):
    """Returns the bytes of hexadecimal digits."""
    if not DIGITS.fullmatch(digits):
        raise Wrong(f"line {number}: `{digits}` is not hexadecimal digits, two for each byte")
    return bytes.fromhex(digits)


def name_of(word, number):
    """Returns the bytes of the name that a word of a line stands for."""
    written = word.encode()
    if not NAME.fullmatch(written):
        raise Wrong(f"line {number}: `{word}` is no name: of other signs than those that can be printed, `\\xHH` stands there")
    return ESCAPE.sub(lambda found: bytes.fromhex(found[1].decode()), written)


def words_in(text, needs_head=True):
    """Yields the words of the lines of a text, with their numbers. A line may end with a carriage return. The first line is that of the head,
    or may be it where none is needed."""
    lines = text.split("\n")
    for number, line in enumerate(lines[:-1] if lines[-1] == "" else lines, 1):
        words = line[:-1].split(" ") if line.endswith("\r") else line.split(" ")
        is_head, wants_head = words[0] == "head", needs_head and number == 1
        if len(words) != 2 or (wants_head and not is_head) or (is_head and number > 1):
            raise Wrong(f"line {number}: not {'`head`' if wants_head else 'a name'} and hexadecimal digits with one space between")
        yield number, words


def entry_of(name, label):
    """Returns the bytes of an entry."""
    return bytes([len(name)]) + name + len(label).to_bytes(2, "big") + label


def file_of(text):
    """Yields the parts of the label file of lines."""
    for number, words in words_in(text):
        told = bytes_of(words[1], number)
        if number == 1:
            if told[:4] != MAGIC or len(told) != HEAD:
                raise Wrong("line 1: these digits are not the head of a label file")
            yield told
            continue
        name = name_of(words[0], number)
        if len(name) > 255 or len(told) > 65535:
            raise Wrong(f"line {number}: the name has more than 255 bytes, or the label more than 65,535")
        yield entry_of(name, told)


def labels_in(text):
    """Yields the names and the labels of lines, each as bytes. The line of the head may be left out."""
    for number, words in words_in(text, needs_head=False):
        if words[0] != "head":
            yield name_of(words[0], number), bytes_of(words[1], number)


def pieces_of(path):
    """Yields the bytes of a file, a piece at a time."""
    try:
        with open(path, "rb") as file:
            while piece := file.read(PIECE):
                yield piece
    except OSError as error:
        raise Wrong(f"{path}: {terminal.reason(error)}") from None


def names_in(paths):
    """Returns the names in files that have spaces or ends of lines between them."""
    names = set()
    for path in paths:
        try:
            with open(path, "rb") as file:
                for line in file:
                    names.update(line.split())
        except OSError as error:
            raise Wrong(f"{path}: {terminal.reason(error)}") from None
    return names


class Picked:
    """The entries of a label file, given in pieces, whose names are wanted, as a label file, with their numbers in the whole one, and its SHA-256."""

    def __init__(self, pieces, wanted):
        self.wanted, self.count, self.labels, self.numbers = wanted, 0, bytearray(), array.array("Q")
        digest, data, before = hashlib.sha256(), b"", 0
        for piece in pieces:
            digest.update(piece)
            data += piece
            at = 0 if self.labels else self.begin(data)
            at = self.take(data, at, len(data) - LONGEST)
            data, before = data[at:], before + at
        if not self.labels:
            self.begin(data)
        for name, label in entries_of(data, 0, before):
            self.take_last(name, label)
        self.digest = digest.hexdigest()

    def begin(self, data):
        """Takes the head, and returns where the first entry begins."""
        self.labels += head_of(data)
        return HEAD

    def take(self, data, at, stop):
        """Takes the entries that begin before `stop`, each of which is whole, and returns where the next one begins."""
        wanted, number = self.wanted, self.count
        while at < stop:
            behind = at + 1 + data[at]
            end = behind + 2 + (data[behind] << 8 | data[behind + 1])
            if data[at + 1 : behind] in wanted:
                self.labels += data[at:end]
                self.numbers.append(number)
            number += 1
            at = end
        self.count = number
        return at

    def take_last(self, name, label):
        """Takes one of the entries near the end of the file."""
        if name in self.wanted:
            self.labels += entry_of(name, label)
            self.numbers.append(self.count)
        self.count += 1


def pick(digest, path, names):
    """Picks the entries with these names of a label file, which must have this digest where one is given."""
    picked = Picked(pieces_of(path), names)
    if digest not in (None, picked.digest):
        raise Wrong(f"{path}: its SHA-256 is {picked.digest}, and not {digest}: it is another file, or has changed")
    return picked


def work(words):
    if words[:1] == ["lines"] and len(words) == 2:
        terminal.write("".join(line + "\n" for line in lines_of(terminal.read_bytes(words[1]))))
    elif words[:1] == ["file"] and len(words) <= 2:
        whole = b"".join(file_of(terminal.read_text(*words[1:])))
        if not whole:
            raise Wrong("line 1: there is none, and the head of the label file stands there")
        terminal.write(whole)
    elif words[:2] == ["pick", "--sha256"] and len(words) >= 5:
        terminal.write(pick(words[2].lower(), words[3], names_in(words[4:])).labels)
    elif words[:1] == ["pick"] and len(words) >= 3 and words[1] != "--sha256":
        terminal.write(pick(None, words[1], names_in(words[2:])).labels)
    else:
        raise Wrong("the words are not `lines LABELS`, `file [LINES]` or `pick [--sha256 DIGEST] LABELS NAMES ..`; see --help")


if __name__ == "__main__":
    sys.exit(terminal.run("labels.py", __doc__, work))
