#!/usr/bin/env python3
"""Answers questions about items through a package, without the specification and the view.

  python3 tools/consult.py PACKAGE LABELS QUERIES

PACKAGE is what `wfprov package` wrote of a view, LABELS has labels of items of the specification of that view, and QUERIES has a question
in each line, two items with a space between. The answers are those of `ask` under the view, one a line: `yes` if the second item rests on
the first, `no`, `hidden`, `clash`, or `unknown` where LABELS has no item of a name.

LABELS is a label file, of any length, or a text with the name of an item, a space and its label in hexadecimal digits in each line, as
`labels.py lines` writes it. The line of the head may be left out, and so may items that nobody asks about: then who answers by this tool
needs no more than their labels. The labels of the items that are asked about are looked up in LABELS. For each pair of labels
`wfprov consult PACKAGE HEX HEX` is called once, as many at a time as there are processors, and reads PACKAGE each time, which therefore
is a regular file. Of many questions `ask` is the quicker way, for whoever has the specification.

What `consult` says of two labels is proved. This tool lies outside of that, and so does what it takes for granted: that LABELS has for each
item its own label, and that LABELS and PACKAGE are of one specification. Neither file can tell: the head of a label file has a digest of
its specification, and a package has none. A label that is none over PACKAGE is refused, and another may be read as that of another item.

The program is the one that is built in this repository, or the one that the variable WFPROV names, or the first in PATH. The tool needs
Python's standard library alone.
"""
import itertools
import os
import sys

sys.path.insert(0, os.path.dirname(os.path.abspath(__file__)))
import labels as label_file
import terminal
import wfprov
from across.asking import side_by_side
from terminal import Wrong

WORDS = {wfprov.Verdict.HIDDEN_1: "hidden", wfprov.Verdict.HIDDEN_2: "hidden"}


def questions_in(path):
    """Yields the two items of each line of a file of questions. A line that is empty asks nothing."""
    lines = terminal.read_text(path).split("\n")
    for number, line in enumerate(lines, 1):
        line = line[:-1] if line.endswith("\r") else line
        if line and not wfprov.QUERY.fullmatch(f"{line}\n"):
            raise Wrong(f"{path} line {number}: a question is two names of items with a space between")
        if line:
            yield tuple(line.split(" "))


def entries_in(path, names):
    """Yields the names and the labels of the entries of a label file that have some names, or those of all lines of a text."""
    pieces = label_file.pieces_of(path)
    first = next(pieces, b"")
    if first.startswith(label_file.MAGIC):
        yield from label_file.entries_of(bytes(label_file.Picked(itertools.chain((first,), pieces), names).labels))
        return
    try:
        text = b"".join((first, *pieces)).decode("utf-8")
    except UnicodeDecodeError:
        raise Wrong(f"{path}: neither a label file nor lines of names and labels") from None
    try:
        yield from label_file.labels_in(text)
    except Wrong as wrong:
        raise Wrong(f"{path} {wrong}") from None


def labels_of(path, names):
    """Returns the labels that a label file, or a text of lines, has of some names."""
    found, wanted = {}, {name.encode() for name in names}
    for name, label in entries_in(path, wanted):
        if name in wanted and name.decode() in found:
            raise Wrong(f"{path}: two items have the name `{name.decode()}`")
        if name in wanted:
            found[name.decode()] = label
    return found


class Asker:
    """The program over a package, with the labels of items."""

    def __init__(self, package, labels):
        self.package, self.labels = package, labels

    def answer(self, pair):
        """Returns the answer to a question about two items that have labels."""
        try:
            verdict = wfprov.consult(self.package, *(self.labels[name] for name in pair))
        except wfprov.Refused as refused:
            if refused.place not in ("label 1", "label 2"):
                raise Wrong(f"{self.package}: {refused.message}") from None
            name = pair[refused.place == "label 2"]
            raise Wrong(f"the label of `{name}` is none over {self.package}: {refused.message}") from None
        except (wfprov.Ended, wfprov.NoProgram) as error:
            raise Wrong(f"wfprov: {error}") from None
        return WORDS.get(verdict, verdict.value)

    def answers(self, questions):
        """Returns the answers to questions, of which the program is asked each once for the same labels."""
        asked = {}
        for pair in questions:
            if self.labels.keys() >= set(pair):
                asked.setdefault(tuple(self.labels[name] for name in pair), pair)
        told = dict(zip(asked, side_by_side(self.answer, asked.values())))
        return [told.get(tuple(self.labels.get(name) for name in pair), "unknown") for pair in questions]


def work(words):
    if len(words) != 3:
        raise Wrong("the words are not PACKAGE LABELS QUERIES; see --help")
    questions = list(questions_in(words[2]))
    asker = Asker(words[0], labels_of(words[1], {name for pair in questions for name in pair}))
    terminal.write("".join(f"{answer}\n" for answer in asker.answers(questions)))


if __name__ == "__main__":
    sys.exit(terminal.run("consult.py", __doc__, work))
