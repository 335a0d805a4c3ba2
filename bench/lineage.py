#!/usr/bin/env python3
"""Sets `lineage`, `impact`, `explain` and `verify` beside `ask` and `trace`, which answer the same questions, as ratios with their limits.

Each workload is a folder with the files `spec` and `events`; its name is that of the workload. It may hold `view`, too: without it the
default view `{}` is taken. With no folder, these are made: the chains of bench/chain.py and the refinements of examples/phylogeny, each
with 100,000 and with 1,000,000 rounds, and the wide run of bench/trace.py. Of each it measures

- `lineage` and `impact` beside `ask` with the same questions, for each entry of the label file a query of it and the item: the whole
  calls, and what an entry and a query take more than `ask` without queries, which opens the label file. `lineage` is called with the
  first output of the run, `impact` with the first input, and both with an item that is drawn with a fixed seed;
- `explain` beside `trace` with the same question: from the first input to an item that rests on it, which is an output of the run where
  one does, to one that does not, and to the item that was drawn;
- `verify` of the longest of these chains beside `trace` without queries.

And of the chains of bench/chain.py, whatever folders are given:

- that `explain` writes the chain through 100,000 rounds whole: it is worked out here from the specification;
- `verify` of a chain of 1,000,000 items beside `trace` without queries, and an item of it beside an item of its first quarter, each
  without what `verify` of an empty chain takes: where this is 1, the time is linear.

The seconds are those of the processor, each the least of five in turns, and the peaks of memory are the greatest. A peak below that of
the small process that starts a command, some 15 MB, is not seen. It prints a Markdown table. A ratio is rounded to two digits, and with
`--judge` the script ends with 1 where one is above the limit beside it, or where a run is too short to tell. It always ends with 1 where
two commands contradict each other.

Call it from anywhere, after the program was built: bench/lineage.py [--program PATH] [--turns N] [--judge] [--small] [FOLDER..]
"""

import argparse
import json
import random
import sys
import tempfile
from pathlib import Path

import chain
from beside import in_words, make_workloads
from measure import PROGRAM, built, run_for_use

TOP = Path(__file__).resolve().parent.parent
sys.path.append(str(TOP / "tools"))
import labels

SEED = 1
# How many times the seconds of what stands beside it a work takes at most, or its memory. Rounds of the loop, and items of the chain.
ENTRY, MEMORY, EXPLAINED, VERIFIED, LINEAR = 0.5, 1, 1.5, 1.5, 1.5
ROUNDS, ITEMS = 100_000, 1_000_000
HEADS = ["Run", "Entries", "Work", "Beside", "Seconds", "Beside", "Ratio", "At most", "Peak", "Beside", "Ratio", "At most"]


class Table:
    """The lines of the table, which are printed as they come, and the ratios that are above their limits or cannot be judged."""

    def __init__(self):
        self.over = []
        print("| " + " | ".join(HEADS) + " |\n" + "|---" * 4 + "|---:" * 8 + "|")

    def ratio(self, line, two, most):
        """The cells of a ratio with its limit, which may be none."""
        if two is None:
            return ["-", "-"]
        found = f"{two[0] / two[1]:.2f}" if min(two) > 0 else "-"
        if most is not None and found == "-":
            self.over.append(f"{', '.join(line)}: too short to be judged")
        elif most is not None and float(found) > most:
            self.over.append(f"{', '.join(line)}: {found} times, and at most {most} are allowed")
        return [found, "-" if most is None else str(most)]

    def tell(self, line, seconds, most, peaks=None, most_memory=None):
        """Prints a line: the run, its entries, a work and what stands beside it; the seconds of both, and their peaks of memory."""
        cells = [*line, *map(in_words, seconds), *self.ratio([line[0], *line[2:]], seconds, most)]
        cells += [f"{peak / 1e6:.0f} MB" for peak in peaks] if peaks else ["-", "-"]
        print("| " + " | ".join(cells + self.ratio([line[0], *line[2:], "memory"], peaks, most_memory)) + " |", flush=True)


class Run:
    """A workload: the files in a folder of its own, and the names of the entries of its label file."""

    def __init__(self, program, given, folder, turns):
        self.program, self.title, self.folder, self.turns = program, given.name, folder, turns
        for name in ("spec", "events", "view"):
            if (given / name).is_file():
                (folder / name).symlink_to((given / name).resolve())
            elif name == "view":
                (folder / name).write_text("{}")
        (folder / "none").write_text("")
        self.longest = b""

    def take_labels(self):
        """Makes the label file. A label begins with 00 where it is that of an input of the run, and with 01 where it is that of an output."""
        file = self.called("ingest", "spec", "events")
        (self.folder / "labels").write_bytes(file)
        self.names, ends = [], {0b00: [], 0b01: []}
        for name, label in labels.entries_of(file):
            self.names.append(name)
            ends.get(label[0] >> 6, []).append(name)
        self.outputs, self.drawn = ends[0b01], random.Random(SEED).choice(self.names)
        self.first_in, self.first_out = (next(iter(ends[bits]), self.drawn) for bits in (0b00, 0b01))

    def called(self, *words):
        """The text of one call."""
        return run_for_use([self.program, *words], self.folder)[1]

    def used(self, kinds):
        """What some calls take, each the least seconds and the greatest peak of some in turns, and their texts."""
        times, peaks, texts = {}, {}, {}
        for _ in range(self.turns):
            for kind, words in kinds.items():
                now, texts[kind], _ = run_for_use([self.program, *words], self.folder)
                times[kind] = min(now["processor"], times.get(kind, now["processor"]))
                peaks[kind] = max(now["peak"], peaks.get(kind, 0))
        return times, peaks, texts

    def line(self, work, beside):
        return [self.title, f"{len(self.names):,}", work, beside]

    def stop(self, what):
        sys.exit(f"{self.title}: {what}")

    def tell_listings(self, table):
        """The lines of `lineage` and `impact`."""
        calls = [("lineage", self.first_out), ("impact", self.first_in), ("lineage", self.drawn), ("impact", self.drawn)]
        for command, item in dict.fromkeys(calls):
            self.tell_listing(table, command, item)

    def tell_listing(self, table, command, item):
        with open(self.folder / "queries", "wb") as out:
            out.writelines(name + b" " + item + b"\n" if command == "lineage" else item + b" " + name + b"\n" for name in self.names)
        ask = ["ask", "spec", "view", "labels"]
        kinds = {"list": [command, "spec", "view", "labels", item.decode()], "ask": [*ask, "queries"], "open": [*ask, "none"]}
        times, peaks, texts = self.used(kinds)
        listed, count = texts["list"].splitlines(), len(self.names)
        if listed != [name for name, answer in zip(self.names, texts["ask"].splitlines(), strict=True) if answer == b"yes"]:
            self.stop(f"`{command}` of {item.decode()} lists something else than `ask` answers with yes")
        work = f"`{command}` of {item.decode()}, {len(listed):,} listed"
        whole, beside = [times[kind] for kind in ("list", "ask")], [peaks[kind] for kind in ("list", "ask")]
        table.tell(self.line(work, "`ask` with a query for each entry"), whole, None, beside, MEMORY)
        each = [(times[kind] - times["open"]) / count for kind in ("list", "ask")]
        table.tell(self.line(f"an entry by `{command}` of {item.decode()}", "a query of `ask`"), each, ENTRY)

    def questions(self):
        """Some questions, as two items: one through the run, one that is answered no, and one on the item that was drawn."""
        rest = self.called("impact", "spec", "view", "labels", self.first_in.decode()).splitlines()
        before = self.called("lineage", "spec", "view", "labels", self.drawn.decode()).splitlines()
        known = set(rest)
        far = [name for name in self.outputs if name in known] or rest[-1:]
        others = [name for name in self.names if name not in known and name != self.first_in]
        found = [(self.first_in, name) for name in far[:1]] + [(before[0], self.drawn)] * bool(before)
        return dict.fromkeys(found + [(self.first_in, name) for name in random.Random(SEED).sample(others, min(len(others), 1))])

    def tell_explain(self, table, first, second):
        """The line of `explain` of a question. The longest chain is kept."""
        (self.folder / "queries").write_bytes(first + b" " + second + b"\n")
        files, words = ["spec", "view", "events"], [first.decode(), second.decode()]
        times, peaks, texts = self.used({"explain": ["explain", *files, *words], "trace": ["trace", *files, "queries"]})
        text, answer = texts["explain"], texts["trace"].strip()
        if (answer == b"yes") != (text.count(b"\n") > 1) or answer not in (b"yes", text.strip()):
            self.stop(f"`explain` of {' and '.join(words)} contradicts `trace`, which says {answer.decode()}")
        self.longest = max(self.longest, text if answer == b"yes" else b"", key=len)
        told = f"a chain of {text.count(b'via '):,} steps" if answer == b"yes" else answer.decode()
        both = [[taken[kind] for kind in ("explain", "trace")] for taken in (times, peaks)]
        table.tell(self.line(f"`explain` of {' and '.join(words)}: {told}", "`trace` with this query"), both[0], EXPLAINED, both[1])

    def tell_verify(self, table):
        """The line of `verify` of the longest chain, which it has to accept. Gives its seconds."""
        (self.folder / "chain").write_bytes(self.longest)
        files = ["spec", "view", "events"]
        times, peaks, texts = self.used({"verify": ["verify", *files, "chain"], "trace": ["trace", *files, "none"]})
        if texts["verify"] != b"yes\n":
            self.stop(f"`verify` says {texts['verify'].decode().strip()} of a chain")
        items = self.longest.count(b"\n") // 2 + 1
        both = [[taken[kind] for kind in ("verify", "trace")] for taken in (times, peaks)]
        table.tell(self.line(f"`verify` of a chain of {items:,} items", "`trace` without queries"), both[0], VERIFIED, both[1])
        return times["verify"], items


class Loop(Run):
    """A run of bench/chain.py of so many rounds, and the chain through all of them."""

    def __init__(self, program, folder, turns, rounds):
        (folder / "given").mkdir()
        given = folder / "given" / f"loop of {rounds:,} rounds"
        given.mkdir()
        (given / "spec").write_text(json.dumps(chain.SPEC))
        chain.write_events(given / "events", rounds)
        super().__init__(program, given, folder, turns)
        # Four edges of each round, and the inputs and outputs of the run.
        self.rounds, self.names = rounds, range(4 * rounds + 4)
        self.longest = "".join(f"{line}\n" for line in self.lines()).encode()

    def lines(self):
        """The lines of the chain from l0.x1, worked out: each `W` leads from one way to the other, and `T` keeps to the way."""
        way = 1
        yield "l0.x1"
        for k in range(self.rounds):
            way = 3 - way
            yield from (f"via w{k}", f"w{k}.y{way}")
        yield from ("via t", f"l{self.rounds}.y{way}")
        for k in reversed(range(self.rounds)):
            way = 3 - way
            yield from (f"via v{k}", f"l{k}.y{way}")

    def try_whole(self):
        """Whether `explain` writes this chain."""
        if self.called("explain", "spec", "view", "events", "l0.x1", "l0.y1") != self.longest:
            self.stop("`explain` does not write the chain through all rounds")

    def tell_linear(self, table):
        """The lines of `verify` of the chain, and of an item of it beside an item of its first quarter."""
        whole, items = self.tell_verify(table)
        part = (items // 4) * 2 - 1
        (self.folder / "part").write_bytes(b"".join(self.longest.splitlines(keepends=True)[:part]))
        verify = ["verify", "spec", "view", "events"]
        times, _, texts = self.used({"part": [*verify, "part"], "none": [*verify, "none"]})
        if texts != {"part": b"yes\n", "none": b"no 1\n"}:
            self.stop("`verify` of the first quarter of the chain, or of an empty file, says something else")
        each = [(whole - times["none"]) / items, (times["part"] - times["none"]) / (part // 2 + 1)]
        table.tell(self.line(f"an item of {items:,} by `verify`", f"an item of {part // 2 + 1:,}"), each, LINEAR)


def workloads(program, folder, small):
    """The folders of the workloads that are made."""
    made = make_workloads(folder, small)
    for rounds in (1000, 10_000) if small else (100_000, 1_000_000):
        one = folder / f"phylogeny of {rounds:,}"
        one.mkdir()
        (one / "spec").symlink_to(TOP / "examples/phylogeny/spec")
        (one / "events").write_bytes(run_for_use([program, "gen", "spec", str(rounds), "1"], one)[1])
        made.append(one)
    return made


def tell_workload(table, run):
    """The lines of a workload."""
    run.take_labels()
    run.tell_listings(table)
    for first, second in run.questions():
        run.tell_explain(table, first, second)
    if run.longest:
        run.tell_verify(table)


def called(about, small):
    """What a script on workloads is called with, by what it says of itself first."""
    words = argparse.ArgumentParser(description=about.splitlines()[0])
    words.add_argument("--program", default=str(PROGRAM))
    words.add_argument("--turns", type=int, default=5, help="how often each call is made")
    words.add_argument("--judge", action="store_true", help="end with 1 where a ratio is above its limit")
    words.add_argument("--small", action="store_true", help=small)
    words.add_argument("folders", nargs="*", metavar="FOLDER", type=Path, help="a workload")
    return words.parse_args()


def runs(kind, program, args, name):
    """Yields the workloads that are given, or made in a folder, one after the other, each as a run of this kind in a folder of its own."""
    made = Path(name) / "made"
    made.mkdir()
    for given in args.folders or workloads(program, made, args.small):
        with tempfile.TemporaryDirectory(dir=name) as own:
            yield kind(program, given.resolve(), Path(own), args.turns)


def main():
    args = called(__doc__, "small runs and chains, to try the script")
    program, table, scale = built(args.program), Table(), 100 if args.small else 1
    with tempfile.TemporaryDirectory(prefix="wfprov-bench-") as name:
        for run in runs(Run, program, args, name):
            tell_workload(table, run)
        with tempfile.TemporaryDirectory(dir=name) as own:
            Loop(program, Path(own), args.turns, ROUNDS // scale).try_whole()
        with tempfile.TemporaryDirectory(dir=name) as own:
            Loop(program, Path(own), args.turns, ITEMS // scale // 2).tell_linear(table)
    print(f"the chain through {ROUNDS // scale:,} rounds came out whole")
    if args.judge and table.over:
        sys.exit("\n".join(table.over))


if __name__ == "__main__":
    main()
