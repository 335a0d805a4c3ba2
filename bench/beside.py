#!/usr/bin/env python3
"""Sets the built program beside a plain program with the same command line, on the same files in one run.

The plain program is any that takes `ingest SPEC EVENTS`, `ask SPEC VIEW LABELS QUERIES`, `trace SPEC VIEW EVENTS QUERIES`,
`export SPEC VIEW EVENTS`, `gen SPEC N SEED` and `drill SPEC VIEW N SEED` and writes the same bytes. It is no part of this
repository, and is given by its path.

Each workload is a folder with the files `spec` and `events`. It may hold `view` and `queries`, too: without `view` the
default view `{}` is taken, and without `queries` pairs of items are drawn from the label file with a fixed seed: a million,
or as many as `--queries` says. On a large run 100,000 queries take less time than opening the label file differs by from
one call to the next, and say little. The folder's name is that of the workload. With no folder, the chains of
bench/chain.py are made, with 100,000 and 1,000,000 repetitions, and the wide run of bench/trace.py.

It measures, in seconds of the processor, each the least of five, for which the two programs take turns:

- `ingest`,
- `ask` without queries, which opens the label file, and what a query takes more,
- `trace` without queries, which makes the graph, and what a query takes more, in the mean of the first 20,
- `export`,
- `gen` and `drill` with as many expansions as EVENTS has.

bench/lineage.py measures `lineage` and `impact`, beside `ask`.

It prints a Markdown table with the ratios and the peaks of memory, which are the greatest of the five; a peak below that
of the small process that starts a command, some 15 MB, is not seen. It ends with 1
where the label files, the answers of both programs, or those of `ask` and of `trace` are not the same to the byte, and
judges nothing else.

Call it from anywhere, after the program was built:
bench/beside.py --plain PATH [--program PATH] [--turns N] [--queries N] [--only COMMAND,..] [--small] [FOLDER..]
"""

import argparse
import json
import os
import random
import sys
import tempfile
from array import array
from pathlib import Path

import chain
import trace
from measure import PROGRAM, built, run_for_use

QUERIES = 1_000_000
TRACED = 20
COMMANDS = ["ingest", "ask", "trace", "export", "gen", "drill"]
SEED = "1"
HEAD = 36


def places_in(labels):
    """Where the entries of a label file begin, in order."""
    places, at, end = array("Q"), HEAD, len(labels)
    while at < end:
        places.append(at)
        at += 1 + labels[at]
        at += 2 + (labels[at] << 8 | labels[at + 1])
    return places


def drawn(labels, count):
    """So many queries on the items of a label file, as bytes. No name but those that are drawn is taken out of the file."""
    chosen = random.Random(1).choices(places_in(labels), k=2 * count)
    names = [labels[at + 1 : at + 1 + labels[at]] for at in chosen]
    return b"".join(b"%b %b\n" % pair for pair in zip(names[::2], names[1::2]))


class Both:
    """A workload, and what the two programs take on it."""

    def __init__(self, programs, given, folder, args):
        self.programs = programs
        self.title = given.name
        self.folder = folder
        self.turns = args.turns
        self.queries = args.queries
        for name in ["spec", "events"]:
            (folder / name).symlink_to((given / name).resolve())
        self.put("view", given, lambda: b"{}")
        (folder / "none").write_text("")

    def put(self, name, given, made):
        """The file of this name of the workload, or else one of these bytes."""
        if (given / name).is_file():
            (self.folder / name).symlink_to((given / name).resolve())
        else:
            (self.folder / name).write_bytes(made())

    def taken(self, *words):
        """What both programs take for a command: the seconds of the processor and the peak of memory of each, and their text."""
        times, peaks, texts = [[], []], [0, 0], set()
        for _ in range(self.turns):
            for k, program in enumerate(self.programs):
                used, out, _ = run_for_use([program, *words], self.folder)
                times[k].append(used["processor"])
                peaks[k] = max(peaks[k], used["peak"])
                texts.add(out)
        if len(texts) != 1:
            sys.exit(f"{self.title}: `{words[0]}` of the two programs wrote different bytes")
        return [min(t) for t in times], peaks, texts.pop()

    def tell(self, work, times, peaks):
        """A line of the table."""
        ratio = f"{times[0] / times[1]:.1f}" if min(times) > 0 else "-"
        cells = [self.title, work, *[in_words(t) for t in times], ratio, *[f"{p / 1e6:.0f} MB" for p in peaks]]
        print("| " + " | ".join(cells) + " |", flush=True)

    def tell_with_queries(self, work, words, queries, count):
        """The lines of a command without queries and of what one of so many takes more. Gives the answers."""
        base, peaks, _ = self.taken(*words, "none")
        self.tell(f"`{words[0]}` without queries: {work}", base, peaks)
        times, peaks, answers = self.taken(*words, queries)
        if answers.count(b"\n") != count:
            sys.exit(f"{self.title}: `{words[0]}` did not answer {count} queries")
        each = [(t - b) / count for t, b in zip(times, base)]
        self.tell(f"`{words[0]}`, a query in the mean of {count:,}", each, peaks)
        return answers

    def measure(self, given, commands):
        """The lines of these commands. `ingest` comes first: the others want its label file."""
        times, peaks, labels = self.taken("ingest", "spec", "events")
        self.tell("`ingest`", times, peaks)
        (self.folder / "labels").write_bytes(labels)
        answers = self.measure_ask(given, labels) if {"ask", "trace"} & set(commands) else b""
        if "trace" in commands:
            self.measure_trace(answers)
        if "export" in commands:
            times, peaks, _ = self.taken("export", "spec", "view", "events")
            self.tell("`export`", times, peaks)
        count = str((self.folder / "events").read_bytes().count(b'"expand"'))
        for command, words in [("gen", ["spec"]), ("drill", ["spec", "view"])]:
            if command in commands:
                times, peaks, _ = self.taken(command, *words, count, SEED)
                self.tell(f"`{command}`", times, peaks)

    def measure_ask(self, given, labels):
        self.put("queries", given, lambda: drawn(labels, self.queries))
        queries = (self.folder / "queries").read_bytes()
        (self.folder / "few").write_bytes(b"".join(queries.splitlines(keepends=True)[:TRACED]))
        words = ["ask", "spec", "view", "labels"]
        return self.tell_with_queries("the label file is opened", words, "queries", queries.count(b"\n"))

    def measure_trace(self, answers):
        words, few = ["trace", "spec", "view", "events"], answers.splitlines(keepends=True)[:TRACED]
        if self.tell_with_queries("the graph is made", words, "few", len(few)) != b"".join(few):
            sys.exit(f"{self.title}: `trace` and `ask` answer differently")


def in_words(seconds):
    """Seconds, in the unit that fits."""
    if seconds <= 0:
        return "too short"
    if seconds >= 0.001:
        return f"{seconds:.3f} s"
    return f"{seconds * 1e6:.2f} microseconds"


def make_chain(folder, length):
    """The chain of so many repetitions, in a folder of its own. Gives the folder."""
    one = folder / f"chain of {length:,}"
    one.mkdir()
    (one / "spec").write_text(json.dumps(chain.SPEC))
    chain.write_events(one / "events", length)
    return one


def make_wide_run(folder, is_small):
    """The wide run, in a folder of its own. Gives the folder."""
    one = folder / "wide run"
    one.mkdir()
    size, draw = trace.Size(is_small), random.Random(1)
    (one / "spec").write_text(json.dumps(trace.make_spec(size, draw)))
    trace.make_events(size, draw, one / "events")
    return one


def make_workloads(folder, is_small):
    """The chains and the wide run, each in a folder of its own. Gives the folders."""
    lengths = [1000, 10000] if is_small else [100000, 1000000]
    return [make_chain(folder, length) for length in lengths] + [make_wide_run(folder, is_small)]


def main():
    words = argparse.ArgumentParser(description=__doc__.splitlines()[0])
    words.add_argument("--plain", required=True, help="the plain program")
    words.add_argument("--program", default=str(PROGRAM))
    words.add_argument("--turns", type=int, default=5, help="how often each command is run by each program")
    words.add_argument("--queries", type=int, default=QUERIES, help="how many queries are drawn for a workload that has none")
    words.add_argument("--only", default=",".join(COMMANDS), help="the commands that are measured, `ingest` always")
    words.add_argument("--small", action="store_true", help="small runs where no folder is given, to try the script")
    words.add_argument("folders", nargs="*", metavar="FOLDER", type=Path, help="a workload")
    args = words.parse_args()
    plain = str(Path(args.plain).resolve())
    if not os.access(plain, os.X_OK):
        sys.exit(f"{plain} is no program")
    programs = [built(args.program), plain]
    print("| Workload | Work | This program | The plain program | Ratio | Peak | Peak of the plain program |")
    print("|---|---|---|---|---|---|---|")
    with tempfile.TemporaryDirectory(prefix="wfprov-bench-") as name:
        folder = Path(name)
        (folder / "made").mkdir()
        for k, given in enumerate(args.folders or make_workloads(folder / "made", args.small)):
            own = folder / str(k)
            own.mkdir()
            Both(programs, given, own, args).measure(given, args.only.split(","))


if __name__ == "__main__":
    main()
