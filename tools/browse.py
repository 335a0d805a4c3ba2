#!/usr/bin/env python3
"""Opens a page for a reviewer, on which questions about a run are asked by clicks.

  python3 tools/browse.py SPEC EVENTS VIEW [VIEW ..]

The tool prints an address. A browser on this machine shows the page there: the run under a view, which is chosen among those given.
Click an item and then another, and the page answers whether the second rests on the first: by `wfprov ask`, with what the answer says
in words. Each further click asks about another item and the same first one, until you begin anew. A `yes` has the chain that
`wfprov explain` writes, which is shown once `wfprov verify` has accepted it. Of one item the page shows on what it rests and what rests
on it. Each answer has the commands that give it again, and can be kept as a page of page.py.

A run of at most 200 links is drawn whole, by Graphviz, or listed where that is not installed. Of a larger one what surrounds the question
is drawn, and items are found by parts of their names. Items and steps that the view hides are not on the page.

The page is for one reader on one machine. It is served on 127.0.0.1 alone, at a port that the system gives, and behind a token: whoever
has the address can ask what you can. It has no script, and nothing on it comes from elsewhere. The tool opens the files of the call, and
no other for anybody. It ends by Ctrl-C, with its terminal, by SIGTERM, and when its standard input hangs up.

All answers are about the files as they were when the tool began. They must be regular files. The bytes of the files, and the label file
of the run, are kept in the folder for temporary files, as files without names.

The program is the one that is built in this repository, or the one that the variable WFPROV names, or the first in PATH. This tool is no
part of what is proved. It needs Linux and Python's standard library alone.
"""
import os
import secrets
import sys

sys.path.insert(0, os.path.dirname(os.path.abspath(__file__)))
import terminal
from browsing import serving
from browsing.desk import Desk
from browsing.program import Program


def work(words):
    if len(words) < 3:
        raise terminal.Wrong("the words are not SPEC EVENTS VIEW [VIEW ..]; see --help")
    serving.hear_signals()
    program = Program(words[0], words[1], words[2:])
    try:
        server = serving.Server(secrets.token_urlsafe(32), Desk(program).serve)
        terminal.write(f"{server.address}\n")
        serving.serve_until_ended(server)
    finally:
        program.close()


if __name__ == "__main__":
    sys.exit(terminal.run("browse.py", __doc__, work))
