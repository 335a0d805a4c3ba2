#!/usr/bin/env python3
"""Times how `ask` opens a label file of a specification with 64 earlier versions.

The specification has close to 16 MiB: modules in plenty, in one chain of bodies. It is tried without versions, and with 64 of which each
has all of its modules and productions, so that each digest is over the whole text. The label file is that of a run that was
only started, and there is one query: what is timed is reading the specification and its digests.

It prints the seconds of the processor, the least of three in turns, and how many times as long as without versions it takes. It ends
with 1 where the two answers differ, and judges nothing else.

Call it from anywhere, after the program was built: bench/versions.py [--small] [--program FILE]
"""

import json
import sys
import tempfile
from pathlib import Path

from measure import called, run_for_use

VERSIONS = 64
PORTS = 64
HEADS = 1000
TURNS = 3


def name_of(kind, k):
    """A name of 36 letters."""
    return f"{kind}{k:05}".ljust(36, "x")


def module(k):
    """A module with all its ports."""
    return {
        "name": name_of("M", k),
        "in": [name_of("i", j) for j in range(PORTS)],
        "out": [name_of("o", j) for j in range(PORTS)],
    }


def production(k):
    """The production of a module: the next one of the chain alone."""
    return {
        "head": name_of("M", k),
        "body": [["p", name_of("M", k + 1)]],
        "in": [[name_of("i", j), "p." + name_of("i", j)] for j in range(PORTS)],
        "out": [["p." + name_of("o", j), name_of("o", j)] for j in range(PORTS)],
    }


def specification(heads, versions):
    """The text of the specification, with so many versions."""
    value = {
        "start": name_of("M", 0),
        "modules": [module(k) for k in range(heads + 1)],
        "productions": [production(k) for k in range(heads)],
        "versions": [[heads + 1, heads]] * versions,
    }
    return json.dumps(value, separators=(",", ":")).encode()


def main():
    program, small = called(__doc__, "one tenth of the length")
    heads = HEADS // 10 if small else HEADS
    with tempfile.TemporaryDirectory() as name:
        folder = Path(name)
        (folder / "view").write_text("{}")
        (folder / "events").write_text('{"start":"r"}\n')
        (folder / "queries").write_text(f"r.{name_of('i', 0)} r.{name_of('o', 0)}\n")
        specs = {"without": specification(heads, 0), "with": specification(heads, VERSIONS)}
        least, answers = {}, {}
        for which, text in specs.items():
            (folder / which).write_bytes(text)
        _, labels, _ = run_for_use([program, "ingest", "without", "events"], folder)
        (folder / "labels").write_bytes(labels)
        for _ in range(TURNS):
            for which in specs:
                used, out, _ = run_for_use([program, "ask", which, "view", "labels", "queries"], folder)
                least[which] = min(least.get(which, used["processor"]), used["processor"])
                answers[which] = out
        length = len(specs["with"]) / (1 << 20)
        print(f"A specification of {length:.1f} MiB: {least['without']:.3f} s without versions, {least['with']:.3f} s with {VERSIONS}, {least['with'] / least['without']:.1f} times as long")
        if answers["with"] != answers["without"]:
            sys.exit("the answers differ")


if __name__ == "__main__":
    main()
