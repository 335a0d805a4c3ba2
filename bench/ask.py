#!/usr/bin/env python3
"""Times `ask` of the built program on label files of long chains of repetitions and of one wide run.

The chains are those of bench/chain.py, with 100,000 and 1,000,000 repetitions; the wide run is that of bench/trace.py,
with 98,461 expansions and 871,383 instances. Each is labelled by `ingest`.

It prints the seconds without queries and the microseconds a query in the mean of 100,000, and sets them beside
`sha256sum` on the same label file and beside a query of `trace` on the same run, measured in the same run. Times without
queries are the least of three. It judges the answers: on a chain an item of repetition c on the first way comes from the
first input exactly if c is odd; on the wide run the first 20 answers must be those of `trace`.

Call it from anywhere, after the program was built: bench/ask.py [--small] [--program FILE]
"""

import json
import random
import sys
import tempfile
from pathlib import Path

import chain
import trace
from measure import called, clock, run, run_for_bytes
from subprocess import DEVNULL, run as call

QUERIES = 100000
TRACED = 20


def ask(program, folder, queries):
    """Runs `ask`. Gives the seconds, the peak of memory in bytes and the answers."""
    seconds, peak, out, _ = run([program, "ask", "spec", "view", "labels", queries], folder)
    return seconds, peak, out.splitlines()


def label(program, folder):
    """Writes the label file of the run. Gives its length."""
    labels = run_for_bytes([program, "ingest", "spec", "events"], folder)[2]
    (folder / "labels").write_bytes(labels)
    return len(labels)


def measure(program, folder, title, queries, answers):
    """Times the queries, of which the first answers are known. The others are only counted."""
    length = label(program, folder)
    (folder / "queries").write_text("".join(queries))
    (folder / "few").write_text("".join(queries[:TRACED]))
    (folder / "none").write_text("")
    base = min(ask(program, folder, "none")[0] for _ in range(3))
    seconds, peak, told = ask(program, folder, "queries")
    if told[: len(answers)] != answers or len(told) != len(queries):
        sys.exit(f"{title}: the answers are not those of the definition")
    each = (seconds - base) / len(queries)
    plain = min(chain.trace(program, folder, "none")[0] for _ in range(3))
    traced = (chain.trace(program, folder, "few")[0] - plain) / TRACED
    digest = clock(lambda: call(["sha256sum", folder / "labels"], stdout=DEVNULL, check=True))
    print(
        f"{title}: {length} bytes of labels: {base:.2f} s without queries, {each * 1e6:.1f} microseconds a query,"
        f" {told.count('yes')} yes, {told.count('no')} no, {told.count('unknown')} unknown; peak {peak / 1e6:.0f} MB"
    )
    print(f"  beside sha256sum of the labels: {base / digest:.1f} times; a query of trace: {traced / each:.0f} times as long")


def measure_chain(program, folder, length, draw):
    (folder / "spec").write_text(json.dumps(chain.SPEC))
    chain.write_events(folder / "events", length)
    places = [draw.randrange(length) for _ in range(QUERIES)]
    queries = [f"l0.x1 w{c}.y1\n" for c in places]
    measure(program, folder, f"{length} repetitions", queries, ["yes" if c % 2 == 1 else "no" for c in places])


def measure_wide(program, folder, size):
    draw = random.Random(1)
    (folder / "spec").write_text(json.dumps(trace.make_spec(size, draw)))
    _, _, items = trace.make_events(size, draw, folder / "events")
    trace.make_queries(items, QUERIES, draw, folder / "made")
    queries = (folder / "made").read_text().splitlines(keepends=True)
    (folder / "few").write_text("".join(queries[:TRACED]))
    measure(program, folder, "wide run", queries, chain.trace(program, folder, "few")[2])


def main():
    program, is_small = called(__doc__, "small runs, to try the script")
    with tempfile.TemporaryDirectory(prefix="wfprov-bench-") as name:
        folder = Path(name)
        (folder / "view").write_text("{}")
        for length in [1000, 10000] if is_small else [100000, 1000000]:
            measure_chain(program, folder, length, random.Random(length))
        measure_wide(program, folder, trace.Size(is_small))


if __name__ == "__main__":
    main()
