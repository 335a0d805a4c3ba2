#!/usr/bin/env python3
"""Times `ingest` of the same reports in three orders: as the run goes, at random with each fiftieth twice, and in reverse.

Each workload is a folder with the files `spec` and `events`; its name is that of the workload. With no folder, the chains
of bench/chain.py are made, with 100,000 and 1,000,000 repetitions. The orders are drawn with a fixed seed.

It prints a Markdown table: the seconds of the processor of each order, the least of five in turns, how many times as long
as in order it takes, and the peak of memory in bytes for each instance. It ends with 1 where the label files of two orders
have not the same entries, and judges nothing else.

Call it from anywhere, after the program was built: bench/reports.py [--program PATH] [--turns N] [--small] [FOLDER..]
"""

import argparse
import json
import random
import sys
import tempfile
from pathlib import Path

import chain
from measure import PROGRAM, built, run_for_use

HEAD = 36
REPEATED = 50
SEED = 20


def entries_in(labels):
    """The entries of a label file, in order of their bytes."""
    entries, at = [], HEAD
    while at < len(labels):
        named = at + 1 + labels[at]
        behind = named + 2 + int.from_bytes(labels[named : named + 2], "big")
        entries.append(labels[at:behind])
        at = behind
    return sorted(entries)


def at_random(lines):
    """The lines at random, with each fiftieth of them twice."""
    mixed = lines + lines[::REPEATED]
    random.Random(SEED).shuffle(mixed)
    return mixed


ORDERS = {"in order": list, "at random": at_random, "in reverse": lambda lines: lines[::-1]}


def instances_in(lines):
    """How many instances the events of lines make."""
    return sum(len(json.loads(line).get("names", "r")) for line in lines)


def measured(program, folder, work, turns):
    """What each order used, the least of the seconds and the greatest peak; the label files are compared."""
    lines = (folder / "events").read_bytes().splitlines(keepends=True)
    for order, reorder in ORDERS.items():
        (work / order).write_bytes(b"".join(reorder(lines)))
    used, first = {}, None
    for turn in range(turns):
        for order in ORDERS:
            now, labels, _ = run_for_use([program, "ingest", str(folder / "spec"), str(work / order)], work)
            before = used.get(order, now)
            used[order] = {name: pick(before[name], now[name]) for name, pick in (("processor", min), ("peak", max))}
            if turn == 0:
                entries = entries_in(labels)
                first = first or entries
                if entries != first:
                    sys.exit(f"{folder.name}: the items have other labels {order}")
    return used, instances_in(lines)


def made(folder, small):
    """The folders of the chains."""
    for count in (1000, 10000) if small else (100000, 1000000):
        place = folder / f"CHAIN-{count}"
        place.mkdir()
        (place / "spec").write_text(json.dumps(chain.SPEC))
        chain.write_events(place / "events", count)
        yield place


def main():
    words = argparse.ArgumentParser(description=__doc__.splitlines()[0])
    words.add_argument("--program", default=str(PROGRAM))
    words.add_argument("--turns", type=int, default=5)
    words.add_argument("--small", action="store_true", help="chains of 1,000 and 10,000 repetitions")
    words.add_argument("folders", nargs="*", type=Path)
    args = words.parse_args()
    program = built(args.program)
    with tempfile.TemporaryDirectory() as room:
        folders = [folder.resolve() for folder in args.folders] or list(made(Path(room), args.small))
        print("| Run | Instances | Order | `ingest` | Beside in order | Bytes an instance |\n|---|---|---|---|---|---|")
        for folder in folders:
            with tempfile.TemporaryDirectory() as work:
                used, count = measured(program, folder, Path(work), args.turns)
            for order, now in used.items():
                ratio = now["processor"] / used["in order"]["processor"]
                print(f"| {folder.name} | {count:,} | {order} | {now['processor']:.3f} s | {ratio:.2f} | {now['peak'] / count:.0f} |")


if __name__ == "__main__":
    main()
