#!/usr/bin/env python3
"""Times `trace` of the built program on one large run, without queries and with 10, 100 and 1,000 of them.

It makes a grammar without recursion and a finished run of it in a folder of its own. The module `S` is expanded to a
tree of instances: `S` to 60 `A`, each `A` to 40 `B`, each `B` to 40 `C`, and each `C` by one of 900 productions of 8
positions, drawn with a fixed seed. Each body splits its input, works side by side and joins the results. At full size
that are 98,461 expansions and 871,383 instances.

It prints seconds, events a second, microseconds a query and the peak of memory an instance, and sets the time beside
that of `wc -l`, `sha256sum` and Python's JSON reader on the same events, measured in the same run. How long reading the
events takes alone is measured on the same run without its last event, which is refused as soon as it is read. Short
times are the least of three. It judges nothing.

Call it from anywhere, after the program was built: bench/trace.py [--small] [--keep FOLDER] [--program FILE]
"""

import argparse
import json
import random
import shutil
import tempfile
from pathlib import Path

from measure import PROGRAM, built, others, read_lines, run

WORKERS = 6


class Size:
    """How many instances stand side by side in the bodies of S, A and B, or of more levels, and how many productions the last level has."""

    def __init__(self, small, widths=None):
        self.widths = widths or ([4, 4, 4] if small else [60, 40, 40])
        self.productions = 10 if small else 900


def wide_module(name, count, inputs):
    """A splitter or a joiner with one port on one side and `count` on the other."""
    many = [f"p{k}" for k in range(count)]
    return {"name": name, "in": ["x"] if inputs == 1 else many, "out": many if inputs == 1 else ["y"]}


def wide_body(head, worker, count, split, join, order):
    """A body that splits the input, works side by side and joins the results in the given order."""
    names = [f"w{k}" for k in range(count)]
    return {
        "head": head,
        "body": [["s", split]] + [[n, worker] for n in names] + [["j", join]],
        "edges": [[f"s.p{k}", f"{n}.x"] for k, n in enumerate(names)]
        + [[f"{n}.y", f"j.p{order[k]}"] for k, n in enumerate(names)],
        "in": [["x", "s.x"]],
        "out": [["j.y", "y"]],
    }


def make_spec(size, draw):
    """The specification. Each body has modules that stand behind its head in the list."""
    heads = ["S", *"ABCDEF"[: len(size.widths)]]
    modules = [{"name": h, "in": ["x"], "out": ["y"]} for h in heads]
    modules.append({"name": "W", "in": ["x"], "out": ["y"]})
    productions = []
    for level, count in enumerate(size.widths + [WORKERS]):
        split, join = f"split{level}", f"join{level}"
        modules.append(wide_module(split, count, 1))
        modules.append(wide_module(join, count, count))
        worker = heads[level + 1] if level + 1 < len(heads) else "W"
        for _ in range(1 if level < len(size.widths) else size.productions):
            order = list(range(count))
            draw.shuffle(order)
            productions.append(wide_body(heads[level], worker, count, split, join, order))
    squares = sum(len(p["body"]) ** 2 for p in productions)
    assert squares <= 65536 and len(productions) <= 1024 and len(modules) <= 1024
    return {"start": "S", "modules": modules, "productions": productions}


def make_events(size, draw, path):
    """Writes a finished run, level by level. Gives the numbers of events, instances and the names of some items."""
    widths = size.widths + [WORKERS]
    made, lines = 1, 1
    level_names = ["n0"]
    items = []
    with open(path, "w") as out:
        out.write('{"start":"n0"}\n')
        for level, count in enumerate(widths):
            below = []
            for name in level_names:
                names = [f"n{made + k}" for k in range(count + 2)]
                made += count + 2
                production = level if level < len(size.widths) else level + draw.randrange(size.productions)
                event = {"expand": name, "production": production, "names": names}
                out.write(json.dumps(event, separators=(",", ":")) + "\n")
                lines += 1
                below.extend(names[1:-1])
                items.append(f"{names[1]}.y")
                items.append(f"{names[0]}.p{draw.randrange(count)}")
            level_names = below
    return lines, made, items


def make_queries(items, count, draw, path):
    """Writes queries: a quarter from the input of the run, a quarter to its output, and half between drawn items."""
    with open(path, "w") as out:
        for k in range(count):
            first, second = draw.choice(items), draw.choice(items)
            if k % 4 == 0:
                first = "n0.x"
            elif k % 4 == 1:
                second = "n0.y"
            out.write(f"{first} {second}\n")


def trace(program, events, queries, folder, wanted=0):
    """Runs `trace`. Gives the seconds, the peak of memory in bytes and the answers."""
    seconds, peak, out, _ = run([program, "trace", "spec", "view", events, queries], folder, wanted)
    return seconds, peak, out.splitlines()


def main():
    words = argparse.ArgumentParser(description=__doc__.splitlines()[0])
    words.add_argument("--small", action="store_true", help="a run of 85 expansions, to try the script")
    words.add_argument("--keep", help="make the files in this folder and leave them there")
    words.add_argument("--program", default=str(PROGRAM))
    args = words.parse_args()
    program = built(args.program)
    folder = Path(args.keep or tempfile.mkdtemp(prefix="wfprov-bench-"))
    folder.mkdir(exist_ok=True)
    try:
        measure(program, folder, Size(args.small))
    finally:
        if not args.keep:
            shutil.rmtree(folder)


def measure(program, folder, size):
    draw = random.Random(1)
    (folder / "spec").write_text(json.dumps(make_spec(size, draw)))
    (folder / "view").write_text("{}")
    events = folder / "events"
    lines, instances, items = make_events(size, draw, events)
    length = events.stat().st_size
    print(f"events: {lines}, instances: {instances}, bytes of events: {length}")

    (folder / "none").write_text("")
    # A last line that is no event: the program ends when the run was taken.
    (folder / "longer").write_text(events.read_text() + "x\n")
    reading = min(trace(program, "longer", "none", folder, wanted=2)[0] for _ in range(3))
    base = min(trace(program, "events", "none", folder)[0] for _ in range(3))
    print(f"specification and events read, run taken: {reading:.2f} s, {lines / reading:.0f} events a second")
    print(f"links and index made: {base - reading:.2f} s")
    print(f"trace without queries: {base:.2f} s, {lines / base:.0f} events a second, {length / base / 1e6:.1f} MB a second")

    peak = 0
    for count in (10, 100, 1000):
        make_queries(items, count, draw, folder / "queries")
        seconds, memory, answers = trace(program, "events", "queries", folder)
        assert len(answers) == count
        peak = max(peak, memory)
        print(
            f"trace with {count} queries: {seconds:.2f} s"
            f" ({answers.count('yes')} yes, {answers.count('no')} no, {answers.count('unknown')} unknown),"
            f" {(seconds - base) / count * 1e6:.0f} microseconds a query"
        )
    print(f"peak of memory: {peak / 1e6:.0f} MB, {peak / instances:.0f} bytes an instance")

    for name, seconds in others(events, read_lines).items():
        print(f"{name} on the events: {seconds:.3f} s; trace without queries takes {base / seconds:.1f} times as long")


if __name__ == "__main__":
    main()
