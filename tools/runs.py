#!/usr/bin/env python3
"""Keeps runs in a folder, and answers questions about files over all of them.

  python3 tools/runs.py add FOLDER NAME SPEC VIEW LABELS TABLE [EVENTS]      adds a run of this name; VIEW may be `-`, which shows everything
  python3 tools/runs.py list FOLDER                     the runs, each with the first digits of the SHA-256 of its five files
  python3 tools/runs.py check FOLDER [NAME ..]          whether the runs are as they were when they were added; status 1 where one is not
  python3 tools/runs.py ask FOLDER FIRST SECOND         whether SECOND rests on FIRST: `yes`, `no`, `hidden` or `unknown`
  python3 tools/runs.py ask FOLDER QUESTIONS            the same for each line of a file: two names, a tab between
  python3 tools/runs.py impact FOLDER FILE              the files that rest on FILE, one a line: its run, a tab, its path
  python3 tools/runs.py lineage FOLDER FILE             the files on which FILE rests

These words may stand before FOLDER:
  --apart CHECKSUM   runs do not pass files of this content on; `empty` means files without content. It may be given several times
  --possible         of `impact` and `lineage`: also the files of which it is not known, with a tab and `hidden` or `unknown` behind them
  --once             of `impact` and `lineage`: of files of one content one line, for the first that was made, or else the first

A run passes a file on to each other run that has a file of the same checksum: the two are one content, and each rests on the other. So a
file rests on another if it does so in one run, as files.py says, or through several runs, of which each passes a file on to the next.

A name means files as files.py takes it, in any run, or in one where `RUN:` stands before it. Forty digits and `sha1$` before them are one
checksum. A name that means several files is refused, with a list of them, unless all of them have one checksum.

  hidden    a view hides whether there is a way: that of a run on the way, or that of FIRST or SECOND
  unknown   there is none that is known, and one where a file from outside of its run may be one of another run, since one of the two
            has no checksum, or both have checksums of different kinds

Files without content have one checksum, so they join runs that have nothing else in common: an answer may be `yes` for that alone, and
is never `no` for it. Where it is, standard error says so.

An add copies the files, tries them with the program, and gives the run its place in one step: an add that is interrupted adds nothing. To
take a run out, remove its folder. In each run the answers are those of `wfprov`, one program a run, as many at a time as there are
processors; what this tool adds is which items are which files, and which files have one checksum. It is no part of what is proved.

The program is the one that is built in this repository, or the one that the variable WFPROV names. It needs Python's standard library
alone.
"""
import os
import signal
import sys

sys.path.insert(0, os.path.dirname(os.path.abspath(__file__)))
import terminal
from across import keeping
from across.asking import Answers, side_by_side
from across.contents import EMPTY, Index, content_of
from across.listing import Listing, once
from across.search import answered, together
from file_table import named_in, refuse

TOOL = "runs.py"
FLAGS, APART = ("--possible", "--once"), "--apart"
# How many words each kind of call has from the folder on, and which options.
LISTS = (2,), {APART, *FLAGS}
KINDS = {
    "add": ((6, 7), set()),
    "list": ((1,), set()),
    "check": (range(1, sys.maxsize), set()),
    "ask": ((2, 3), {APART}),
    "impact": LISTS,
    "lineage": LISTS,
}
# What leaves out what is so by an empty file alone.
WITHOUT_EMPTY = "with `--apart empty` runs do not pass such files on"


class Call:
    """The words of a call: its kind, the options before the folder, and the words from the folder on."""

    def __init__(self, words):
        self.kind, self.words, self.options, self.apart = "".join(words[:1]), words[1:], set(), frozenset()
        while self.words and self.words[0] in (APART, *FLAGS):
            self.take_option(self.words.pop(0))
        counts, options = KINDS.get(self.kind, ((), set()))
        if len(self.words) not in counts or not self.options <= options:
            refuse("call", "the words are add, list, check, ask, impact or lineage with FOLDER and more; see --help")

    def take_option(self, word):
        """Takes a word that stands before the folder."""
        self.options.add(word)
        if word == APART and self.words:
            checksum = self.words.pop(0)
            self.apart |= EMPTY if checksum == "empty" else {content_of(checksum)}


def add(folder, name, *paths):
    """Adds a run. A signal that ends it is an interruption, after which nothing is left."""
    for number in (signal.SIGTERM, signal.SIGHUP):
        signal.signal(number, signal.default_int_handler)
    sources = dict(zip((*keeping.WORDS, keeping.EVENTS), paths))
    keeping.add(folder, name, {word: None if (word, path) == ("view", "-") else path for word, path in sources.items()})


def list_runs(folder):
    """Lists the runs of a folder. Of one whose digests cannot be read the name is written alone."""
    lines = []
    for run in keeping.runs_in(folder):
        try:
            digests = [run.kept.get(word, "-")[:12] for word in (*keeping.WORDS, keeping.EVENTS)]
        except terminal.Wrong:
            digests = []
        lines.append("\t".join([terminal.escaped(run.name), *digests]) + "\n")
    terminal.write("".join(lines))


def check(folder, *names):
    """Says of each run whether it is as it was, and returns the status."""
    runs = keeping.runs_in(folder)
    for name in sorted(set(names) - {run.name for run in runs}):
        refuse(folder, f"it has no run `{name}`")
    runs = [run for run in runs if not names or run.name in names]
    faults = side_by_side(keeping.faults, runs)
    lines = [(run.name, line) for run, told in zip(runs, faults) for line in told or ["ok"]]
    terminal.write("".join(f"{terminal.escaped(name)}\t{terminal.escaped(line)}\n" for name, line in lines))
    return 1 if any(faults) else 0


def note(what, count, mend):
    """Notes on standard error what is not said by the answers, if there is any."""
    if count:
        terminal.complain(TOOL, f"{what}: {count}; {mend}")


def ask(call):
    """Answers questions."""
    folder, *names = call.words
    pairs = [names] if len(names) == 2 else list(named_in(*names))
    index = Index(folder, keeping.runs_in(folder), [name for pair in pairs for name in pair])
    pairs = [(index.file(first), index.file(second)) for first, second in pairs]
    asked = {}
    for first, second in pairs:
        asked.setdefault(first, {})[second] = None
    answers = Answers(index.runs)
    told = together(answers, [answered(index, answers, first, list(seconds), call.apart) for first, seconds in asked.items()])
    for seconds, (words, _) in zip(asked.values(), told):
        seconds.update(zip(seconds, words))
    terminal.write("".join(asked[first][second] + "\n" for first, second in pairs))
    note("answers that are `yes` by an empty file alone", sum(thin for _, thin in told), WITHOUT_EMPTY)


def text_of(line):
    """Returns a line of a list as text."""
    return "\t".join([terminal.escaped(line.run), terminal.escaped(line.name), *([] if line.word == "yes" else [line.word])]) + "\n"


def related(call):
    """Lists the files that rest on one, or those on which it rests."""
    folder, name = call.words
    index = Index(folder, keeping.runs_in(folder), [name])
    listing = Listing(index, Answers(index.runs, call.kind == "lineage"), index.file(name), call.apart, "--possible" in call.options)
    lines = once(listing.lines()) if "--once" in call.options else listing.lines()
    terminal.write("".join(map(text_of, lines)))
    note("files that views hide, and that may belong to these", listing.hidden, "`--possible` lists them")
    note("files of other runs that may belong to these, for all that checksums say", listing.unknown, "`--possible` lists them, and what they bring")
    note("files that are listed by an empty file alone", listing.thin, WITHOUT_EMPTY)


def work(words):
    """Does what the words ask for, and returns the status."""
    call = Call(words)
    if call.kind in ("ask", "impact", "lineage"):
        return (ask if call.kind == "ask" else related)(call)
    return {"add": add, "list": list_runs, "check": check}[call.kind](*call.words)


if __name__ == "__main__":
    sys.exit(terminal.run(TOOL, __doc__, work))
