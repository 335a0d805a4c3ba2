#!/usr/bin/env python3
"""Sets `ask` beside 2-hop labels, which answer the same queries from an index over the items of one finished run.

bench/peers/two_hop.rs makes this index of what `export` writes: pruned landmark labelling, in plain Rust, built here by
`rustc -O`. It answers the queries by numbers of items, which are looked up before the clock runs, and with names: then it
reads the lines of QUERIES, looks both names up in a table, and writes lines, as `ask` does. Such an index is of one view of
one run. It has to be made anew after the next event, where a label of `ask` stays.

Each workload is a folder, as for bench/beside.py, and its run must be finished. With no folder, the chains of
bench/chain.py are made, with 10,000 and 100,000 repetitions, and the wide run of bench/trace.py.

It prints a Markdown table, in seconds of the processor. To make the labels is for `ask` to call `ingest` and to open the
label file; for the index to build it from links of numbers in memory, and with names the table as well, without `export`
and without reading what it writes. The bytes of an item are for `ask` those of the label file, with names. What a query
takes is for `ask` the least of the calls with all queries less the least of those with none; the index answers all queries
as often in one process, and the least counts.

It ends with 1 where the answers are not the same to the byte, and with `--judge` also where `ask` is not ahead of the index
with names on a run of more than 50,000 expansions.

Call it from anywhere, after the program was built:
bench/peers.py [--program PATH] [--turns N] [--queries N] [--judge] [--small] [FOLDER..]
"""

import argparse
import subprocess
import sys
import tempfile
from pathlib import Path

from beside import QUERIES, drawn, make_chain, make_wide_run
from foundations import find_rustc
from measure import PROGRAM, built, run, run_for_use

SOURCE = Path(__file__).resolve().parent / "peers/two_hop.rs"
JUDGED = 50_000
HEADS = ["Workload", "Items", "Queries", "Yes", "What answers", "Made in", "Bytes an item", "A query", "Beside `ask`"]


def build(folder):
    """Builds the program of the index. Gives its path."""
    rustc = find_rustc()
    if rustc is None:
        sys.exit("there is no rustc")
    program = folder / "two_hop"
    subprocess.run([rustc, "-O", "--edition", "2021", "-o", str(program), str(SOURCE)], check=True)
    return str(program)


class Workload:
    """A workload in a folder of its own: the files, and what `ask` and the index take."""

    def __init__(self, program, given, folder, args):
        self.program, self.title, self.folder, self.turns = program, given.name, folder, args.turns
        for name in ("spec", "events", "view", "queries"):
            if (given / name).is_file():
                (folder / name).symlink_to((given / name).resolve())
        if not (folder / "view").exists():
            (folder / "view").write_text("{}")
        (folder / "none").write_text("")
        self.made, labels = self.least("ingest", "spec", "events")
        (folder / "labels").write_bytes(labels)
        if not (folder / "queries").exists():
            (folder / "queries").write_bytes(drawn(labels, args.queries))
        self.label_bytes = len(labels)
        self.count = (folder / "queries").read_bytes().count(b"\n")
        self.expansions = (folder / "events").read_bytes().count(b'"expand"')

    def least(self, *words):
        """The least seconds of the processor that a command takes, and its text."""
        runs = [run_for_use([self.program, *words], self.folder)[:2] for _ in range(self.turns)]
        return min(used["processor"] for used, _ in runs), runs[-1][1]

    def ask(self):
        """The seconds of `ingest` and of opening the label file, and those of a query. The answers are kept."""
        words = ["ask", "spec", "view", "labels"]
        opened, _ = self.least(*words, "none")
        all_of_it, self.answers = self.least(*words, "queries")
        return self.made + opened, (all_of_it - opened) / self.count

    def index(self, peer):
        """What the program of the index told, by its words. Its answers have to be those of `ask`."""
        with open(self.folder / "export", "wb") as out:
            subprocess.run([self.program, "export", "spec", "view", "events"], cwd=self.folder, stdout=out, check=True)
        text = run([peer, "export", "queries", "answers", str(self.turns)], self.folder)[2]
        (self.folder / "export").unlink()
        if (self.folder / "answers").read_bytes() != self.answers:
            sys.exit(f"{self.title}: `ask` and 2-hop labels answer differently")
        return {word: float(value) for word, value in map(str.split, text.splitlines())}

    def tell(self, peer):
        """The lines of the table. Gives how many times the seconds of `ask` a query takes by the index with names."""
        made, each = self.ask()
        told = self.index(peer)
        number, name = told["number"] / told["pairs"], told["name"] / self.count
        rows = [
            ("`ask`", made, self.label_bytes, each),
            ("2-hop labels by number", told["labels"], told["bytes"], number),
            ("2-hop labels with names", told["labels"] + told["table"], told["bytes"] + told["names"], name),
        ]
        begin = [self.title, f"{told['items']:,.0f}", f"{self.count:,}", f"{self.answers.count(b'yes'):,}"]
        for what, seconds, size, query in rows:
            cells = [what, f"{seconds:.3f} s", f"{size / told['items']:.0f}", f"{query * 1e9:.0f} ns", f"{query / each:.2f}"]
            print("| " + " | ".join(begin + cells) + " |", flush=True)
        return name / each


def make_workloads(folder, is_small):
    """The chains and the wide run, each in a folder of its own. Gives the folders."""
    lengths = [1000, 2000] if is_small else [10_000, 100_000]
    return [make_chain(folder, length) for length in lengths] + [make_wide_run(folder, is_small)]


def called():
    words = argparse.ArgumentParser(description=__doc__.splitlines()[0])
    words.add_argument("--program", default=str(PROGRAM))
    words.add_argument("--turns", type=int, default=5, help="how often each call is made, and the queries are answered")
    words.add_argument("--queries", type=int, default=QUERIES, help="how many queries are drawn for a workload that has none")
    words.add_argument("--judge", action="store_true", help="end with 1 where `ask` is behind the index with names on a large run")
    words.add_argument("--small", action="store_true", help="small runs where no folder is given, to try the script")
    words.add_argument("folders", nargs="*", metavar="FOLDER", type=Path, help="a workload")
    return words.parse_args()


def main():
    args = called()
    program, behind = built(args.program), []
    with tempfile.TemporaryDirectory(prefix="wfprov-bench-") as name:
        folder = Path(name)
        peer = build(folder)
        (folder / "made").mkdir()
        print("| " + " | ".join(HEADS) + " |\n|---|---:|---:|---:|---|---:|---:|---:|---:|")
        for given in args.folders or make_workloads(folder / "made", args.small):
            with tempfile.TemporaryDirectory(dir=name) as own:
                workload = Workload(program, given, Path(own), args)
                times = workload.tell(peer)
            if workload.expansions > JUDGED and times <= 1:
                behind.append(f"{workload.title}: the index with names takes {times:.2f} times the seconds of `ask`")
    if args.judge and behind:
        sys.exit("\n".join(behind))


if __name__ == "__main__":
    main()
