#!/usr/bin/env python3
"""Times the questions of tools/wfprov.py beside those of a plain `ask`.

A run of the phylogeny with 100,000 expansions, made by `gen`, is labelled. A store is opened on it, and 1,000,000 pairs of items are
asked of it at once, then 10,000 pairs one at a time. Beside them `ask` answers the same pairs from a file. It prints the seconds, and
the microseconds a pair without those for opening the label file, each the least of three.

It judges that the answers are the same.

Call it from anywhere, after the program was built: bench/module.py [--small] [--program FILE]
"""
import random
import subprocess
import sys
import tempfile
import time
from pathlib import Path

from measure import called

TOP = Path(__file__).resolve().parent.parent
sys.path.insert(0, str(TOP / "tools"))
import wfprov

SPEC = str(TOP / "examples/phylogeny/spec")


def timed(work):
    """The least time of three tries, and what the last gave."""
    best = None
    for _ in range(3):
        begun = time.perf_counter()
        found = work()
        seconds = time.perf_counter() - begun
        best = seconds if best is None else min(best, seconds)
    return best, found


def write_run(program, folder, expansions):
    """Writes a run and its label file, and returns the names of its items."""
    for words, name in ((["gen", SPEC, str(expansions), "1"], "events"), (["ingest", SPEC, "events"], "labels")):
        with open(folder / name, "wb") as out:
            subprocess.run([program, *words], cwd=folder, stdout=out, check=True)
    (folder / "view").write_text("{}")
    entries, _ = wfprov.entries_in((folder / "labels").read_bytes()[wfprov.HEAD :])
    return [entry.name for entry in entries]


def ask_plainly(program, folder, pairs):
    (folder / "queries").write_text("".join(f"{first} {second}\n" for first, second in pairs))
    words = [program, "ask", SPEC, "view", "labels", "queries"]
    return timed(lambda: subprocess.run(words, cwd=folder, stdout=subprocess.PIPE, check=True).stdout.decode().split())


def main():
    program, small = called(__doc__, "1,000 expansions and 10,000 pairs")
    count, few = (10_000, 1_000) if small else (1_000_000, 10_000)
    with tempfile.TemporaryDirectory() as name:
        folder = Path(name)
        names = write_run(program, folder, count // 10)
        draw = random.Random(1)
        pairs = [(draw.choice(names), draw.choice(names)) for _ in range(count)]
        opening, _ = ask_plainly(program, folder, [])
        plain, answers = ask_plainly(program, folder, pairs)
        print(f"ask: {opening:.3f} s to open the label file; {count:,} pairs {plain:.3f} s, {(plain - opening) / count * 1e6:.2f} microseconds each")
        files = [SPEC, str(folder / "view"), str(folder / "labels")]
        with wfprov.Answers(*files, program=program) as store:
            seconds, found = timed(lambda: store.ask(pairs))
            single, _ = timed(lambda: [store.ask([pair])[0] for pair in pairs[:few]])
        if [answer.value for answer in found] != answers:
            sys.exit("the answers differ")
        print(f"the module: {count:,} pairs at once {seconds:.3f} s, {seconds / count * 1e6:.2f} microseconds each")
        print(f"the module: {few:,} pairs one at a time {single:.3f} s, {single / few * 1e6:.1f} microseconds each")


if __name__ == "__main__":
    main()
