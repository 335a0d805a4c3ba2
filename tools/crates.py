#!/usr/bin/env python3
"""Writes a picture of the crates for Graphviz: which crate stands on which.

  python3 tools/crates.py [CRATES]     reads CRATES, and crates.txt of the repository where none is given

A crate has an arrow to each crate that it uses and that none of the others that it uses stands on. Crates of the kit are left out. Behind
the name of a crate on which nothing stands the word `staticlib` may stand.
"""
import os
import re
import sys

TOP = os.path.dirname(os.path.dirname(os.path.abspath(__file__)))
sys.path.insert(0, os.path.dirname(os.path.abspath(__file__)))
import terminal
from terminal import Wrong

NAME = re.compile(r"([A-Za-z0-9_-]+)( staticlib)?")


def uses_in(path):
    """Returns for each crate of a file the crates of the file that it uses."""
    uses = {}
    for number, line in enumerate(terminal.read_text(path).splitlines(), 1):
        head, colon, used = line.partition("#")[0].strip().partition(":")
        name = NAME.fullmatch(head.strip())
        if colon and not name:
            raise Wrong(f"{path}: line {number}: `{head}` is no name of a crate")
        if colon:
            uses[name[1]] = used.split()
    return {name: [other for other in used if other in uses] for name, used in uses.items()}


def below(uses, path):
    """Returns for each crate all crates on which it stands."""
    found, left = {}, dict(uses)
    while left:
        ready = [name for name, used in left.items() if all(other in found for other in used)]
        if not ready:
            raise Wrong(f"{path}: crates stand on one another in a circle: {', '.join(left)}")
        for name in ready:
            found[name] = set(left.pop(name))
            found[name].update(*(found[other] for other in uses[name]))
    return found


def picture(uses, found):
    """Yields the lines of the picture, from the crates that each uses and those on which it stands."""
    yield "digraph crates {"
    yield "  node [shape=box fontname=Helvetica fontsize=10 height=0.25];"
    yield "  edge [arrowsize=0.6 color=gray40];"
    for name, used in uses.items():
        yield f'  "{name}";'
        for other in used:
            if not any(other in found[between] for between in used):
                yield f'  "{name}" -> "{other}";'
    yield "}"


def work(words):
    if len(words) > 1:
        raise Wrong("at most one CRATES; see --help")
    path = words[0] if words else os.path.join(TOP, "crates.txt")
    uses = uses_in(path)
    terminal.write("\n".join(picture(uses, below(uses, path))) + "\n")


if __name__ == "__main__":
    sys.exit(terminal.run("crates.py", __doc__, work))
