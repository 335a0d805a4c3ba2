#!/usr/bin/env python3
"""Times tools/runs.py on 1,000 runs of 1,000 items: what it takes to add them, and to answer over all of them.

The runs are of the phylogeny, with 998 items each, and each item is a file with a checksum of its own. Each run reads the tree that the run
before it made, and all read one configuration. So the first sequences and the last tree are joined by all runs, one behind the other,
and the configuration joins all of them at once. Timed are the adds, in one process; whether the last tree rests on the first sequences,
and the other way round; what rests on the configuration; and on what the last tree rests.

It prints the seconds by the clock, those of the processor with the programs that tools/runs.py calls, the peak of memory of any of these, and
how many lines came. It ends with 1 where the answers are not `yes` and `no`.

Call it from anywhere, after the program was built: bench/across.py [--small] [--program FILE]
"""
import hashlib
import os
import subprocess
import sys
import tempfile
import time
from pathlib import Path

from measure import called, run_for_use

TOP = Path(__file__).resolve().parent.parent
sys.path.insert(0, str(TOP / "tools"))
import labels
from across import keeping

SPEC = str(TOP / "examples/phylogeny/spec")


def label(program, folder):
    """Makes a run of 998 items, and returns their names."""
    for words, name in ((["gen", SPEC, "496", "1"], "events"), (["ingest", SPEC, "events"], "labels")):
        with open(folder / name, "wb") as out:
            subprocess.run([program, *words], cwd=folder, stdout=out, check=True)
    return [name.decode() for name, _ in labels.entries_of((folder / "labels").read_bytes())]


def table(number, names):
    """The table of a run of this number."""
    contents = {"n0.seqs": f"tree {number - 1}", "n0.tree": f"tree {number}", "n0.cfg": "configuration"}
    rows = ["#wfprov files 1"]
    for place, name in enumerate(names):
        digest = hashlib.sha256(contents.get(name, f"{number} {name}").encode()).hexdigest()
        made = "" if name in ("n0.seqs", "n0.cfg") else f"step {place}"
        rows.append(f"value\t{number}-{place}\tresults/{number}/part{place % 20}/{name}\tsha256${digest}\t{made}\t{'made' if made else ''}\t{name}")
    return "\n".join(rows) + "\n"


def add_all(folder, names, count):
    """Adds so many runs, and returns the seconds."""
    begun = time.perf_counter()
    for number in range(count):
        (folder / "table").write_text(table(number, names))
        files = {"spec": SPEC, "view": None, "labels": str(folder / "labels"), "table": str(folder / "table")}
        keeping.add(str(folder / "store"), f"run {number}", files)
    return time.perf_counter() - begun


def asked(folder, what, *words):
    """Asks over all runs, tells what it took, and returns what was written."""
    used, out, _ = run_for_use([sys.executable, str(TOP / "tools/runs.py"), words[0], str(folder / "store"), *words[1:]], folder)
    lines = out.count(bytes([10]))
    print(f"{what}: {used['seconds']:.1f} s, {used['processor']:.1f} s of the processor, {used['peak'] / 1e6:.0f} MB, {lines:,} lines")
    return out.decode()


def main():
    program, small = called(__doc__, "20 runs")
    os.environ["WFPROV"] = program
    count = 20 if small else 1000
    with tempfile.TemporaryDirectory() as name:
        folder = Path(name)
        names = label(program, folder)
        print(f"{count:,} runs of {len(names)} items are added: {add_all(folder, names, count):.1f} s")
        first, last = "run 0:n0.seqs", f"run {count - 1}:n0.tree"
        told = asked(folder, "the last tree and the first sequences", "ask", first, last)
        told += asked(folder, "the other way round", "ask", last, first)
        asked(folder, "what rests on the configuration", "impact", "run 0:n0.cfg")
        asked(folder, "on what the last tree rests", "lineage", last)
    return told != "yes\nno\n"


if __name__ == "__main__":
    sys.exit(main())
