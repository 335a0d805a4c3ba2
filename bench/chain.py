#!/usr/bin/env python3
"""Times `trace` of the built program on long chains of repetitions.

The module `L` repeats: it is done by a `W`, an `L` and a `W`, or by a `T`. `W` exchanges two ways and `T` keeps them. A
run repeats 12,500, 25,000, 50,000 and 100,000 times and then ends, so the derivation is as deep as it is long. It is
traced without queries and with 100 of them, a part of which goes through the whole chain.

It prints seconds, events a second, milliseconds a query and microseconds a query for each thousand links, and sets the
time without queries beside that of `wc -l`, `sha256sum` and Python's JSON reader on the same events, measured in the
same run. Short times are the least of three. It judges nothing but that the answers are those of the definition: an
item of repetition c on the first way comes from the first input exactly if c is odd.

Call it from anywhere, after the program was built: bench/chain.py [--small] [--program FILE]
"""

import json
import sys
import tempfile
from pathlib import Path

from measure import called, others, read_lines, run

QUERIES = 100


def two(name):
    return {"name": name, "in": ["x1", "x2"], "out": ["y1", "y2"]}


def straight(body, edges):
    """A production of L through the first and the last of these positions, way by way."""
    first, last = body[0][0], body[-1][0]
    return {
        "head": "L",
        "body": body,
        "edges": [[f"{a}.y{k}", f"{b}.x{k}"] for a, b in edges for k in (1, 2)],
        "in": [[f"x{k}", f"{first}.x{k}"] for k in (1, 2)],
        "out": [[f"{last}.y{k}", f"y{k}"] for k in (1, 2)],
    }


SPEC = {
    "start": "L",
    "modules": [two("L"), two("W"), two("T")],
    "productions": [
        straight([["w", "W"], ["l", "L"], ["v", "W"]], [("w", "l"), ("l", "v")]),
        straight([["t", "T"]], []),
    ],
    "deps": [
        {"module": "W", "pairs": [["x1", "y2"], ["x2", "y1"]]},
        {"module": "T", "pairs": [["x1", "y1"], ["x2", "y2"]]},
    ],
}


def write_events(path, length):
    """A run of so many repetitions. Gives its number of events."""
    with open(path, "w") as out:
        out.write('{"start":"l0"}\n')
        for k in range(length):
            out.write(f'{{"expand":"l{k}","production":0,"names":["w{k}","l{k + 1}","v{k}"]}}\n')
        out.write(f'{{"expand":"l{length}","production":1,"names":["t"]}}\n')
    return length + 2


def write_queries(path, length):
    """Queries from the first input to items all along the chain. Gives the answers."""
    answers = []
    with open(path, "w") as out:
        for q in range(QUERIES):
            c = q * (length - 1) // (QUERIES - 1)
            out.write(f"l0.x1 w{c}.y1\n")
            answers.append("yes" if c % 2 == 1 else "no")
    return answers


def links(length):
    """How many links the run has: edges, entries and exits of each repetition and of the end, and the pairs of W and T."""
    return length * (4 + 2 + 2) + 4 + 2 * (2 * length) + 2


def trace(program, folder, queries):
    """Runs `trace`. Gives the seconds, the peak of memory in bytes and the answers."""
    seconds, peak, out, _ = run([program, "trace", "spec", "view", "events", queries], folder)
    return seconds, peak, out.splitlines()


def measure(program, folder, length):
    events = folder / "events"
    count = write_events(events, length)
    answers = write_queries(folder / "queries", length)
    (folder / "none").write_text("")
    base = min(trace(program, folder, "none")[0] for _ in range(3))
    seconds, memory, told = trace(program, folder, "queries")
    if told != answers:
        sys.exit("the answers are not those of the definition")
    each = (seconds - base) / QUERIES
    print(
        f"{length} repetitions, {count} events, {links(length)} links: {base:.2f} s without queries,"
        f" {count / base:.0f} events a second; {each * 1e3:.2f} ms a query,"
        f" {each * 1e9 / links(length):.1f} microseconds for a thousand links; peak {memory / 1e6:.0f} MB"
    )
    beside = others(events, read_lines)
    print("  beside " + ", ".join(f"{name}: {base / other:.1f} times" for name, other in beside.items()))


def main():
    program, is_small = called(__doc__, "lengths divided by 100, to try the script")
    with tempfile.TemporaryDirectory(prefix="wfprov-bench-") as name:
        folder = Path(name)
        (folder / "spec").write_text(json.dumps(SPEC))
        (folder / "view").write_text("{}")
        for length in [125, 250, 500, 1000] if is_small else [12500, 25000, 50000, 100000]:
            measure(program, folder, length)


if __name__ == "__main__":
    main()
