#!/usr/bin/env python3
"""Compares what `ingest` takes for the reports of a run in another order with what it takes for them in order.

burst.py wide writes a specification whose steps hand on 64 items each, so that a label file is many times as large as the
reports. burst.py order NAME writes the lines of its standard input in another order: `last` has the start behind all other
reports, and `reversed` has each report before the one that its instance needs. burst.py beside PROGRAM SPEC EVENTS OTHER
labels both files in turns, and ends with 1 where OTHER takes more than so many times the seconds of the processor or the
peak of memory, or where the two label files have not the same entries. burst.py drill PROGRAM SPEC EXPANSIONS compares what
`drill` takes with what `ingest` takes for the same run, in the same way: `drill` labels as many items, and need not hold them.

The least of the turns is what a call takes without what else the machine does. At least 3 turns are taken, and further ones while
a limit is exceeded, up to 15.
"""

import argparse
import json
import sys
import tempfile
from pathlib import Path

sys.path.append(str(Path(__file__).resolve().parent.parent / "bench"))
from measure import run_for_use
from reports import entries_in

PORTS = 64
TURNS = 3
MOST_TURNS = 15
ORDERS = {"last": lambda lines: lines[1:] + lines[:1], "reversed": lambda lines: lines[::-1]}


def ports(side):
    """The names of the ports of one side."""
    return [f"{side}{k}" for k in range(PORTS)]


def module(name):
    """A module with all ports."""
    return {"name": name, "in": ports("x"), "out": ports("y")}


def pairs(first, then):
    """Each port of one list with the port of the other in its place."""
    return [[a, b] for a, b in zip(first, then)]


def inner(position, side):
    """The ports of one side of a position."""
    return [f"{position}.{name}" for name in ports(side)]


def production(head, body):
    """The positions of a body, one behind the other."""
    names = [name for name, _ in body]
    edges = [edge for a, b in zip(names, names[1:]) for edge in pairs(inner(a, "y"), inner(b, "x"))]
    made = {"head": head, "body": body, "edges": edges}
    return made | {"in": pairs(ports("x"), inner(names[0], "x")), "out": pairs(inner(names[-1], "y"), ports("y"))}


def wide():
    """A chain whose steps hand on all of their items."""
    rules = [production("S", [["u", "L"]]), production("L", [["w", "W"], ["l", "L"]]), production("L", [["t", "W"]])]
    return {"start": "S", "modules": [module(name) for name in ("S", "L", "W")], "productions": rules}


def least(program, words, used, work):
    """What one more turn puts, and the least that any turn took."""
    now, text, _ = run_for_use([program, *words], work)
    return {name: min(now[name], used.get(name, now[name])) for name in ("processor", "peak")}, text


def too_much(args, used, other, than):
    """Where a call took more than it may."""
    for name, most in (("processor", args.seconds), ("peak", args.memory)):
        times = other[name] / used[name]
        if most and times > most:
            yield f"{times:.2f} times the {name} of {than}, more than {most}"


def in_turns(args, first, second, than, work):
    """Where the second call took more than it may, and the texts of both."""
    used, other = {}, {}
    for turn in range(1, MOST_TURNS + 1):
        used, text = least(args.program, first, used, work)
        other, another = least(args.program, second, other, work)
        wrong = list(too_much(args, used, other, than))
        if turn >= TURNS and not wrong:
            break
    return wrong, text, another


def beside(args):
    """What is wrong with the other order; nothing where it is as it should be."""
    ordered, other = ["ingest", args.spec, args.events], ["ingest", args.spec, args.other]
    with tempfile.TemporaryDirectory() as work:
        wrong, labels, others = in_turns(args, ordered, other, "the same in order", work)
    if entries_in(labels) != entries_in(others):
        yield "other entries"
    yield from wrong


def drill(args):
    """What is wrong with `drill` beside `ingest`; nothing where it is as it should be."""
    with tempfile.TemporaryDirectory() as work:
        view, events = Path(work) / "view", Path(work) / "events"
        view.write_text("{}")
        _, lines, _ = run_for_use([args.program, "gen", args.spec, args.expansions, "1"], work)
        events.write_bytes(lines)
        labelled, drilled = ["ingest", args.spec, str(events)], ["drill", args.spec, str(view), args.expansions, "1"]
        wrong, _, _ = in_turns(args, labelled, drilled, "`ingest` over the same run", work)
    yield from wrong


def main():
    words = argparse.ArgumentParser(description=__doc__.splitlines()[0])
    calls = words.add_subparsers(dest="call", required=True)
    calls.add_parser("wide")
    calls.add_parser("order").add_argument("name", choices=ORDERS)
    tried = {"beside": calls.add_parser("beside"), "drill": calls.add_parser("drill")}
    for call, files in (("beside", ("program", "spec", "events", "other")), ("drill", ("program", "spec"))):
        for name in files:
            tried[call].add_argument(name, type=lambda path: str(Path(path).resolve()))
        tried[call].add_argument("--seconds", type=float, help="how many times the seconds it may take; no limit where this is left out")
        tried[call].add_argument("--memory", type=float, help="how many times the peak of memory it may take")
    tried["drill"].add_argument("expansions")
    args = words.parse_args()
    if args.call == "wide":
        json.dump(wide(), sys.stdout)
    elif args.call == "order":
        sys.stdout.buffer.writelines(ORDERS[args.name](sys.stdin.buffer.readlines()))
    else:
        wrong = list(beside(args) if args.call == "beside" else drill(args))
        if wrong:
            sys.exit(f"burst.py: {args.call}: {'; '.join(wrong)}")


if __name__ == "__main__":
    main()
