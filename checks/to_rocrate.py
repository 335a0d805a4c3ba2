#!/usr/bin/env python3
"""Tries tools/to_rocrate.py: a run that becomes a crate, and is read back by tools/from_rocrate.py, gets the same answers on its items.

  python3 checks/to_rocrate.py PROGRAM CASES SEED

The runs are those of the examples, runs that `gen` makes of the phylogeny, and random bodies whose modules join some of their ports. Each
pair of items is asked for, before by `trace` under the view of the run, and afterwards by `ask`.
"""
import collections
import json
import os
import random
import subprocess
import sys
import tempfile

HERE = os.path.dirname(os.path.dirname(os.path.abspath(__file__)))
sys.path.insert(0, os.path.join(HERE, "tools"))
import dot
import from_rocrate
import terminal
import to_rocrate

EXAMPLES = ("line", "phylogeny-once", "phylogeny", "mapping-cwl", "mapping-nextflow")
MOST_ITEMS = 30


def ran(program, *words):
    """Returns what the program writes."""
    done = subprocess.run([program, *words], stdout=subprocess.PIPE, stderr=subprocess.PIPE, check=False)
    if done.returncode:
        raise AssertionError(f"wfprov {words[0]}: {done.stderr.decode().strip()}")
    return done.stdout


def put(path, content):
    """Writes a file, and returns its path."""
    with open(path, "wb") as file:
        file.write(content if isinstance(content, bytes) else content.encode())
    return path


def random_spec(draw):
    """Returns a specification of one body. A module gives its outputs, or some of them, by some of its inputs."""
    heads = [f"h{number}" for number in range(draw.randint(1, 3))]
    loose, modules, links, body, pairs = [("", head) for head in heads], [], [], [], []
    count = draw.randint(1, 7)
    for number in range(count):
        draw.shuffle(loose)
        wanted = len(loose) if number == count - 1 else min(len(loose), draw.randint(1, 3))
        taken, loose = loose[:wanted], loose[wanted:]
        inputs, results = [f"i{place}" for place in range(wanted)], [f"o{place}" for place in range(draw.randint(1, 3))]
        modules.append({"name": f"M{number}", "in": inputs, "out": results})
        body.append([f"p{number}", f"M{number}"])
        links += [(start, (f"p{number}", port)) for start, port in zip(taken, inputs)]
        loose += [(f"p{number}", port) for port in results]
        if draw.random() < 0.6:
            pairs.append({"module": f"M{number}", "pairs": [[a, b] for a in inputs for b in results if draw.random() < 0.6]})
    ends = [f"e{number}" for number in range(len(loose))]
    production = {"head": "Main", "body": body, "edges": [[".".join(a), ".".join(b)] for a, b in links if a[0]],
                  "in": [[a[1], ".".join(b)] for a, b in links if not a[0]], "out": [[".".join(a), end] for a, end in zip(loose, ends)]}
    return {"start": "Main", "modules": [{"name": "Main", "in": heads, "out": ends}, *modules], "productions": [production], "deps": pairs}


def answers(program, command, paths, pairs, folder):
    """Returns the answers to pairs of items."""
    queries = put(os.path.join(folder, "queries"), "".join(f"{a} {b}\n" for a, b in pairs))
    return ran(program, command, *paths, queries).decode().split()


def try_run(program, draw, paths, counts):
    """Tries a run, given by its specification, view and events. One that is not finished must be refused."""
    export = dot.Export(dot.lines_in(ran(program, "export", *paths).decode()))
    pending = [name for name, (kind, _) in export.closed.items() if kind == "pending"]
    try:
        entities = to_rocrate.crate_of(export)
    except terminal.Wrong as wrong:
        if not pending or str(wrong) != f"pending {pending[0]}: it was not expanded, and a crate tells what was done":
            raise
        counts["runs that are refused, as they are not finished"] += 1
        return
    with tempfile.TemporaryDirectory() as folder:
        crate = put(os.path.join(folder, "crate"), json.dumps({"@graph": entities}))
        made = from_rocrate.actions.imported(from_rocrate.Import(from_rocrate.Crate(crate)).record)
        spec, events = put(os.path.join(folder, "spec"), made.spec), put(os.path.join(folder, "events"), made.events)
        labels, view = put(os.path.join(folder, "labels"), ran(program, "ingest", spec, events)), put(os.path.join(folder, "view"), "{}")
        items = {row[2]: row[6] for row in (line.split("\t") for line in made.table.splitlines()) if row[0] == "value"}
        if items.keys() != export.items:
            raise AssertionError(f"the items are others: {sorted(items.keys() ^ export.items)[:4]}")
        names = sorted(items) if len(items) <= MOST_ITEMS else draw.sample(sorted(items), MOST_ITEMS)
        pairs = [(a, b) for a in names for b in names]
        before = answers(program, "trace", paths, pairs, folder)
        after = answers(program, "ask", (spec, view, labels), [(items[a], items[b]) for a, b in pairs], folder)
        for pair, want, got in zip(pairs, before, after):
            counts[want] += 1
            if want != got:
                raise AssertionError(f"the answer to {' '.join(pair)} was {want}, and is {got} after the way back")
    counts["runs"] += 1


def runs_of(program, cases, seed, folder):
    """Yields what each run is called, and its specification, view and events."""
    empty = put(os.path.join(folder, "empty"), "{}")
    for example in EXAMPLES:
        paths = [os.path.join(HERE, "examples", example, name) for name in ("spec", "view", "events")]
        yield example, paths
        yield f"{example} in full", [paths[0], empty, paths[2]]
    phylogeny = [os.path.join(HERE, "examples", "phylogeny", name) for name in ("spec", "view")]
    for number in range(seed, seed + cases):
        draw = random.Random(number)
        if number % 4 == 0:
            events = put(os.path.join(folder, "events"), ran(program, "gen", phylogeny[0], str(draw.randint(1, 12)), str(number)))
            yield f"seed {number}", [*phylogeny, events]
            continue
        spec = random_spec(draw)
        names = [f"x{place}" for place in range(len(spec["productions"][0]["body"]))]
        events = f'{{"start":"r"}}\n{json.dumps({"expand": "r", "production": 0, "names": names}, separators=(",", ":"))}\n'
        yield f"seed {number}", [put(os.path.join(folder, "spec"), json.dumps(spec)), empty, put(os.path.join(folder, "events"), events)]


def main(words):
    """Tries all runs, and tells how many there were."""
    counts = collections.Counter()
    with tempfile.TemporaryDirectory() as folder:
        for title, paths in runs_of(words[0], int(words[1]), int(words[2]), folder):
            try:
                try_run(words[0], random.Random(title), paths, counts)
            except (AssertionError, terminal.Wrong) as error:
                print(f"{title}: {error}")
                return 1
    for name in sorted(counts):
        print(f"  {name}: {counts[name]}")
    return 0


if __name__ == "__main__":
    sys.exit(main(sys.argv[1:]))
