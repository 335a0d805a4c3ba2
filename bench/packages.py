#!/usr/bin/env python3
"""Sets `package`, `consult` and `compare` beside `view` and `decide`, on workflows of a few modules and at the limits, and tries large packages.

It measures

- `package` beside `view` of the same view, with the bytes that each writes;
- `consult` beside `decide` of the same two labels;
- `compare` beside two calls of `view`, one of each view;
- packages of up to 128 MiB that are none, beside ones of half the size: a million modules and more, lists in lists, one long text, and
  many loops.

The workflow at the limits has 1,009 modules of 64 ports on each side, of which 992 have a thousand given pairs each. The seconds are those
of the processor, each the least of some turns, and the peaks of memory are the greatest. It prints a Markdown table. With `--judge` the
script ends with 1 where a ratio, a time or a peak is above the limit beside it. It always ends with 1 where two commands contradict.

Call it from anywhere, after the program was built: bench/packages.py [--program PATH] [--turns N] [--judge] [--small]
"""

import argparse
import json
import sys
import tempfile
from pathlib import Path

from beside import in_words
from measure import PROGRAM, built, run_for_use

TOP = Path(__file__).resolve().parent.parent
# How many times the seconds of what stands beside it a work takes at most; of `package` at the limits the seconds, and how many times the
# memory of `view`, which reads the same files.
CONSULT, COMPARE, DOUBLE, SECONDS, MEMORY = 1.3, 1.5, 2.6, 2, 1.1
PORTS, PARTS, STEPS, PAIRS = 64, 16, 62, 1000
MOST = 134_217_728


def inner(position, ports):
    return [f"{position}.{port}" for port in ports]


def series(head, positions):
    """A production that leads each input through all positions, one behind the other, to the output of its number."""
    ins, outs = [f"a{k}" for k in range(PORTS)], [f"b{k}" for k in range(PORTS)]
    names = [name for name, _ in positions]
    edges = [list(pair) for one, next_one in zip(names, names[1:]) for pair in zip(inner(one, outs), inner(next_one, ins))]
    entries = [list(pair) for pair in zip(ins, inner(names[0], ins))]
    exits = [list(pair) for pair in zip(inner(names[-1], outs), outs)]
    return {"head": head, "body": [list(position) for position in positions], "edges": edges, "in": entries, "out": exits}


def at_the_limits(parts):
    """A specification of a start module, so many parts of it, and their steps, each with a thousand given pairs."""
    ins, outs = [f"a{k}" for k in range(PORTS)], [f"b{k}" for k in range(PORTS)]
    steps = [f"t{part}-{step}" for part in range(parts) for step in range(STEPS)]
    names = ["S", *(f"c{part}" for part in range(parts)), *steps]
    bodies = [series("S", [(f"p{part}", f"c{part}") for part in range(parts)])]
    bodies += [series(f"c{part}", [(f"q{step}", f"t{part}-{step}") for step in range(STEPS)]) for part in range(parts)]
    pairs = [[ins[k % PORTS], outs[k // PORTS]] for k in range(PAIRS)]
    modules = [{"name": name, "in": ins, "out": outs} for name in names]
    return {"start": "S", "modules": modules, "productions": bodies, "deps": [{"module": name, "pairs": pairs} for name in steps]}


def hostile(size):
    """Texts of about so many bytes that are no package, by their names."""
    head = b'{"package":1,"start":"m0","productions":[],"deps":[],'
    module = b'{"name":"m0","in":[],"out":[]}'
    loop = b'["m0",0,0]'

    def many(part, count):
        return b",".join([part] * count)

    return {
        "modules": head + b'"loops":[],"modules":[' + many(module, size // (len(module) + 1)) + b"]}",
        "loops": head + b'"modules":[' + module + b'],"loops":[' + many(loop, size // (len(loop) + 1)) + b"]}",
        "lists in lists": b"[" * (size // 2) + b"]" * (size // 2),
        "one text": head + b'"modules":[],"loops":[],"note":"' + b"x" * size + b'"}',
    }


class Table:
    def __init__(self, program, turns):
        self.program, self.turns, self.over = program, turns, []
        print("| Workflow | Work | Beside | Seconds | Beside | Ratio | At most | Peak |\n|---|---|---|---:|---:|---:|---:|---:|")

    def used(self, folder, kinds):
        """The least seconds and the greatest peak of some calls in turns, and their texts. A kind may be several calls."""
        times, peaks, texts = {}, {}, {}
        for _ in range(self.turns):
            for kind, (wanted, *calls) in kinds.items():
                runs = [run_for_use([self.program, *words], folder, wanted) for words in calls]
                texts[kind] = b"".join(out for _, out, _ in runs) + b"".join(message.encode() for _, _, message in runs)
                times[kind] = min(sum(used["processor"] for used, _, _ in runs), times.get(kind, float("inf")))
                peaks[kind] = max(*(used["peak"] for used, _, _ in runs), peaks.get(kind, 0), 0)
        return times, peaks, texts

    def tell(self, title, work, beside, times, peak, most):
        ratio = times[0] / times[1] if times[1] else float("nan")
        if most is not None and not ratio <= most:
            self.over.append(f"{title}, {work}: {ratio:.2f} times, and at most {most} are allowed")
        cells = [title, work, beside, *map(in_words, times), f"{ratio:.2f}", "-" if most is None else str(most), f"{peak / 1e6:.0f} MB"]
        print("| " + " | ".join(cells) + " |", flush=True)


def tell_workflow(table, title, folder, coarse, is_limit):
    """The lines of a workflow: the files `spec`, `view`, `coarse`, and the words of two labels."""
    (folder / "coarse").write_text(json.dumps(coarse))
    view = ["view", "spec", "view"]
    times, peaks, texts = table.used(folder, {"package": (0, ["package", "spec", "view"]), "view": (0, view)})
    (folder / "package").write_bytes(texts["package"])
    table.tell(title, f"`package`, {len(texts['package']):,} bytes", f"`view`, {len(texts['view']):,} bytes", [times["package"], times["view"]], peaks["package"], None)
    if is_limit and (times["package"] > SECONDS or peaks["package"] > MEMORY * peaks["view"]):
        table.over.append(f"{title}, `package`: {times['package']:.2f} s, and {peaks['package'] / 1e6:.0f} MB where `view` holds {peaks['view'] / 1e6:.0f} MB")
    labels = ["20", "60"]
    times, peaks, texts = table.used(folder, {"consult": (0, ["consult", "package", *labels]), "decide": (0, ["decide", "spec", "view", *labels])})
    if texts["consult"] != texts["decide"]:
        sys.exit(f"{title}: `consult` says {texts['consult']}, and `decide` {texts['decide']}")
    table.tell(title, "`consult`", "`decide`", [times["consult"], times["decide"]], peaks["consult"], CONSULT)
    two = (0, view, ["view", "spec", "coarse"])
    times, peaks, _ = table.used(folder, {"compare": (0, ["compare", "spec", "view", "coarse"]), "views": two})
    table.tell(title, "`compare`", "`view` of both", [times["compare"], times["views"]], peaks["compare"], COMPARE)


def tell_hostile(table, folder, size):
    """The lines of large packages that are none, each beside one of half the size."""
    # The head and the ends of a text take less than 200 bytes.
    whole, half = hostile(size - 200), hostile((size - 200) // 2)
    for kind in whole:
        (folder / "whole").write_bytes(whole[kind])
        (folder / "half").write_bytes(half[kind])
        times, peaks, texts = table.used(folder, {name: (2, ["consult", name, "20", "60"]) for name in ("whole", "half")})
        work = f"{len(whole[kind]):,} bytes: {texts['whole'].decode().strip()}"
        table.tell(f"{kind}, no package", work, "half of it", [times["whole"], times["half"]], peaks["whole"], DOUBLE)


def main():
    words = argparse.ArgumentParser(description=__doc__.splitlines()[0])
    words.add_argument("--program", default=str(PROGRAM))
    words.add_argument("--turns", type=int, default=3, help="how often each call is made")
    words.add_argument("--judge", action="store_true", help="end with 1 where a figure is above its limit")
    words.add_argument("--small", action="store_true", help="small files, to try the script")
    args = words.parse_args()
    table = Table(built(args.program), args.turns)
    with tempfile.TemporaryDirectory(prefix="wfprov-bench-") as name:
        for title, coarse in (("phylogeny", {"expand": ["Main"]}), ("twisting", {"expand": ["S"]})):
            folder = Path(name) / title
            folder.mkdir()
            (folder / "spec").write_bytes((TOP / "examples" / title / "spec").read_bytes())
            (folder / "view").write_text("{}")
            tell_workflow(table, title, folder, coarse, False)
        folder = Path(name) / "limits"
        folder.mkdir()
        (folder / "spec").write_text(json.dumps(at_the_limits(2 if args.small else PARTS), separators=(",", ":")))
        (folder / "view").write_text("{}")
        tell_workflow(table, "at the limits", folder, {"expand": ["S"]}, not args.small)
        tell_hostile(table, folder, 1_000_000 if args.small else MOST)
    if args.judge and table.over:
        sys.exit("\n".join(table.over))


if __name__ == "__main__":
    main()
