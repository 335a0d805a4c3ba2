#!/usr/bin/env python3
"""Answers questions about files, by the table that an importer wrote beside SPEC and EVENTS.

  python3 tools/files.py ask SPEC VIEW LABELS TABLE FIRST SECOND     whether SECOND rests on FIRST
  python3 tools/files.py ask SPEC VIEW LABELS TABLE QUESTIONS        the same for each line of a file: two names, a tab between
  python3 tools/files.py impact SPEC VIEW LABELS TABLE FILE          the files that rest on FILE, one a line, in the order of TABLE
  python3 tools/files.py lineage SPEC VIEW LABELS TABLE FILE         the files on which FILE rests
  python3 tools/files.py made TABLE WORD                             the files that were made by a tool, a version or a container

A name is the path of a file as TABLE has it, the end of a path behind a `/`, a checksum, the name that the record has for the file, an
item, or the name of an action, which means the file that it made. `ACTION ROLE` is the one that it made in that role. A name that means
several files is refused, with a list of them, and so is one of an action that made none.
  WORD of `made` is the name of an action or a tool, or stands in the SOFTWARE of an action.
  --trace  before the other words: EVENTS stands in the place of LABELS, and the answers are those of `wfprov trace`.

A file rests on another if any item of the one rests on any item of the other. All questions of a call go to the program at once, so
the answers are proved; what this tool adds is which items are which files. A file that the view hides is not listed, and the answer to
a question on one is `hidden`; what rests on such a file, or on what it rests, is refused.

The program is the one that is built in this repository, or the one that the variable WFPROV names. It needs Python's standard library
alone.
"""
import os
import sys

sys.path.insert(0, os.path.dirname(os.path.abspath(__file__)))
import terminal
from file_table import Asker, Table, listed, questions


def work(words):
    """Answers what the words ask for."""
    command = "trace" if words[:1] == ["--trace"] else "ask"
    words = words[1:] if command == "trace" else words
    kind, rest = words[:1], words[1:]
    if kind == ["made"] and len(rest) == 2:
        terminal.write(listed(Table(rest[0]).made(rest[1])))
        return
    if not (kind == ["ask"] and len(rest) in (5, 6) or kind in (["impact"], ["lineage"]) and len(rest) == 5):
        raise terminal.Wrong("call: the words are ask, impact or lineage with SPEC VIEW LABELS TABLE and names, or made TABLE WORD; see --help")
    table, asker = Table(rest[3]), Asker(command, *rest[:3])
    if kind == ["ask"]:
        pairs = questions(table, rest[4]) if len(rest) == 5 else [(table.file(rest[4]), table.file(rest[5]))]
        terminal.write("".join(answer + "\n" for answer in asker.answers(pairs)))
        return
    terminal.write(listed(asker.related(table, table.file(rest[4]), kind == ["lineage"], "files.py")))


if __name__ == "__main__":
    sys.exit(terminal.run("files.py", __doc__, work))
