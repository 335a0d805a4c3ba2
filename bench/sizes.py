#!/usr/bin/env python3
"""Compares the bytes of label files with the bytes of the events that they were written from.

A label file has an entry for each item: three bytes, the name of the item and its label. An event is one line, however many
edges its production has. So what decides is the number of edges of a production. This script takes the examples, loops with
1, 8 and 64 edges a turn, and a production with 4,032 edges; and with --largest the longest loop of 64 edges whose label file
`ask` takes, one turn more, which it refuses, and the time and memory of both.

It judges that `ask` answers from each file but the last, and that it refuses this one as too long.

Call it from anywhere, after the program was built: bench/sizes.py [--largest] [--program FILE]
"""
import argparse
import json
import subprocess
import sys
import tempfile
from pathlib import Path

from measure import PROGRAM, built, run_for_use

TOP = Path(__file__).resolve().parent.parent
EXAMPLES = ["line", "phylogeny-once", "phylogeny", "twisting", "pair", "mapping-cwl", "mapping-nextflow"]
MOST = 1 << 30


def ports(letter, count):
    return [f"{letter}{k}" for k in range(count)]


def module(name, count):
    return {"name": name, "in": ports("x", count), "out": ports("y", count)}


def production(head, body, count):
    """The positions of a body one behind the other, each joined to the next by so many edges."""
    return {
        "head": head,
        "body": body,
        "edges": [[f"{a}.y{k}", f"{b}.x{k}"] for (a, _), (b, _) in zip(body, body[1:]) for k in range(count)],
        "in": [[f"x{k}", f"{body[0][0]}.x{k}"] for k in range(count)],
        "out": [[f"{body[-1][0]}.y{k}", f"y{k}"] for k in range(count)],
    }


def specification(body, count):
    """`L` is done by this body, or by a `T`."""
    modules = [module(name, count) for name in ("L", "W", "T")]
    return {"start": "L", "modules": modules, "productions": [production("L", body, count), production("L", [["t", "T"]], count)]}


def write_loop(folder, count, turns):
    """Writes a loop of so many turns with so many edges each."""
    (folder / "spec").write_text(json.dumps(specification([["w", "W"], ["l", "L"]], count)))
    with open(folder / "events", "w", encoding="ascii") as out:
        out.write('{"start":"l0"}\n')
        for k in range(turns):
            out.write(f'{{"expand":"l{k}","production":0,"names":["w{k}","l{k + 1}"]}}\n')


def write_long(folder):
    """Writes a run of one step that is done by 64 steps, one behind the other, with 64 edges between two."""
    (folder / "spec").write_text(json.dumps(specification([[f"p{k}", "W"] for k in range(64)], 64)))
    names = json.dumps([f"w{k}" for k in range(64)], separators=(",", ":"))
    (folder / "events").write_text(f'{{"start":"l0"}}\n{{"expand":"l0","production":0,"names":{names}}}\n')


def label(program, folder, spec, events):
    """Writes the label file of a run, and returns its length."""
    with open(folder / "labels", "wb") as out:
        subprocess.run([program, "ingest", spec, events], cwd=folder, stdout=out, check=True)
    return (folder / "labels").stat().st_size


def report(title, events, labels, note=""):
    print(f"{title}: {events:,} bytes of events, {labels:,} of labels, {labels / events:.2f} times{note}", flush=True)


def ask(program, folder, spec, wanted=0):
    """Asks one question of the label file. Returns what the call used and its message."""
    (folder / "view").write_text("{}")
    (folder / "queries").write_text("l0.x0 l0.y0\n")
    used, _, message = run_for_use([program, "ask", spec, "view", "labels", "queries"], folder, wanted)
    return used, message


def measure(program, folder, title, spec="spec", events="events"):
    size = label(program, folder, spec, events)
    report(title, (folder / events).stat().st_size, size)
    ask(program, folder, spec)


def size_of_loop(program, folder, turns):
    write_loop(folder, 64, turns)
    return label(program, folder, "spec", "events")


def find_longest(program, folder):
    """Finds how many turns a label file of at most 2^30 bytes has. Far out each turn adds the same number of bytes, or a few more."""
    turns = 700_000
    size = size_of_loop(program, folder, turns)
    while True:
        more = size_of_loop(program, folder, turns + 1) - size
        steps = (MOST - size) // more
        if steps == 0:
            return turns
        turns += steps
        size = size_of_loop(program, folder, turns)


def measure_largest(program, folder):
    """The longest loop of 64 edges a turn whose labels are short enough for `ask`, and one turn more."""
    longest = find_longest(program, folder)
    for turns, wanted in ((longest, 0), (longest + 1, 2)):
        size = size_of_loop(program, folder, turns)
        used, message = ask(program, folder, "spec", wanted)
        if wanted and message != "refused: labels: TooLong\n":
            sys.exit(f"{turns} turns: {message}")
        note = f"; ask: {used['seconds']:.1f} s, {used['peak'] / 1e6:,.0f} MB {message.strip()}"
        report(f"loop of {turns:,} turns with 64 edges each", (folder / "events").stat().st_size, size, note)


def main():
    words = argparse.ArgumentParser(description=__doc__.splitlines()[0])
    words.add_argument("--largest", action="store_true", help="also find the largest label file that ask takes")
    words.add_argument("--program", default=str(PROGRAM))
    args = words.parse_args()
    program = built(args.program)
    with tempfile.TemporaryDirectory() as name:
        folder = Path(name)
        for example in EXAMPLES:
            measure(program, folder, example, *(str(TOP / "examples" / example / part) for part in ("spec", "events")))
        for count in (1, 8, 64):
            write_loop(folder, count, 100_000)
            measure(program, folder, f"loop of 100,000 turns, {count} edge{'s' if count > 1 else ''} each")
        write_long(folder)
        measure(program, folder, "one step done by 64 steps with 4,032 edges")
        if args.largest:
            measure_largest(program, folder)


if __name__ == "__main__":
    main()
