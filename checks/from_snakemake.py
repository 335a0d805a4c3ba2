#!/usr/bin/env python3
"""Tries tools/from_snakemake.py on random runs: what `trace` and `ask` answer of files is what can be reached in the run.

  python3 checks/from_snakemake.py PROGRAM CASES SEED

A run is made up of jobs with files, folders and logs, and written as Snakemake would record it. On what each file rests is noted as it is
made, and each answer on two files is compared with that.
"""
import base64
import collections
import json
import os
import random
import subprocess
import sys
import tempfile

sys.path.insert(0, os.path.join(os.path.dirname(os.path.dirname(os.path.abspath(__file__))), "tools"))
import from_snakemake
import terminal

MOST_PAIRS, MOST_NAME = 600, 100


class Run:
    """A random run: the records of its files, and on what each file rests."""

    def __init__(self, draw):
        self.draw, self.records, self.rests, self.counts = draw, {}, {}, collections.Counter()
        self.there = [f"data/s{number}.txt" for number in range(draw.randint(1, 4))]
        self.sources, self.folders = list(self.there), {}
        for number in range(draw.randint(1, 25)):
            self.job(number)
        self.rests.update((source, frozenset()) for source in self.sources)

    def job(self, number):
        """Adds a job, whose rule is often one of earlier jobs."""
        draw = self.draw
        used = draw.sample(self.there[-12:], min(len(self.there), draw.randint(0, 4)))
        used_sources = [file for file in used if file in self.sources]
        rests = set()
        for file in used:
            for read in (file, *self.folders.get(file, ())):
                rests |= {read} | self.rests.get(read, frozenset())
        long = "x" * draw.choice([0, 0, 0, 120])
        files = [f"out/{long}{number}.{place}" for place in range(draw.choice([1, 1, 2, 3]))]
        logs = [f"logs/{number}.log"] if draw.random() < 0.3 else []
        entry = {"rule": f"r{draw.randint(0, 3)}", "input": sorted(used), "log": logs, "incomplete": False, "job_hash": draw.getrandbits(40),
                 "shellcmd": f"command {number}", "starttime": number * 10.0, "endtime": number * 10.0 + 5, "input_checksums": {}}
        for file in files:
            self.records[file] = entry
        self.counts["sources read"] += len(used_sources)
        made = files + logs
        if draw.random() < 0.15:
            # What the folder has in it is told by those that read it, each at least once.
            inner = [f"{files[0]}/part{place}" for place in range(draw.randint(1, 3))]
            self.folders[files[0]] = inner
            made += inner
            self.rests.update((file, frozenset(rests)) for file in inner)
            for place, file in enumerate(inner):
                up = f"up/{number}.{place}"
                self.records[up] = {**entry, "rule": "up", "input": [file], "log": [], "shellcmd": f"up {file}", "starttime": number * 10.0 + 6,
                                    "endtime": number * 10.0 + 7}
                self.rests[up] = frozenset(rests | {file})
            self.counts["folders"] += 1
        self.rests.update((file, frozenset(rests)) for file in made)
        self.there += made

    def write(self, folder):
        """Writes the records."""
        for file, entry in self.records.items():
            name = base64.urlsafe_b64encode(file.encode()).decode()
            parts = [name[start:start + MOST_NAME - 1] for start in range(0, len(name), MOST_NAME - 1)]
            path = os.path.join(folder, ".snakemake", "metadata", *("@" + part for part in parts[:-1]), parts[-1])
            os.makedirs(os.path.dirname(path), exist_ok=True)
            with open(path, "w", encoding="utf-8") as text:
                json.dump(entry, text)


def ran(program, *words):
    """Returns what the program writes."""
    done = subprocess.run([program, *words], stdout=subprocess.PIPE, stderr=subprocess.PIPE, check=False)
    if done.returncode:
        raise AssertionError(f"wfprov {words[0]}: {done.stderr.decode().strip()}")
    return done.stdout


def one_case(program, seed, counts):
    """Tries one run."""
    draw = random.Random(seed)
    run = Run(draw)
    counts.update(run.counts)
    with tempfile.TemporaryDirectory() as folder:
        run.write(folder)
        path = {word: os.path.join(folder, word) for word in ("spec", "events", "table", "view", "labels", "queries")}
        from_snakemake.work([folder, path["spec"], path["events"], path["table"]])
        with open(path["table"], encoding="utf-8") as text:
            items = {row[1]: row[6] for row in (line.rstrip("\n").split("\t") for line in text) if row[0] == "value"}
        read = {file for entry in run.records.values() for file in entry["input"]}
        wanted = {file for file in run.rests if file not in run.sources or file in read}
        if items.keys() != wanted:
            raise AssertionError(f"the files are others: {sorted(items.keys() ^ wanted)[:4]}")
        pairs = [(a, b) for a in items for b in items]
        pairs = pairs if len(pairs) <= MOST_PAIRS else draw.sample(pairs, MOST_PAIRS)
        with open(path["view"], "w", encoding="utf-8") as text:
            text.write("{}")
        with open(path["queries"], "w", encoding="utf-8") as text:
            text.write("".join(f"{items[a]} {items[b]}\n" for a, b in pairs))
        with open(path["labels"], "wb") as text:
            text.write(ran(program, "ingest", path["spec"], path["events"]))
        for word, source in (("trace", "events"), ("ask", "labels")):
            answers = ran(program, word, path["spec"], path["view"], path[source], path["queries"]).decode().split()
            for (a, b), answer in zip(pairs, answers):
                want = "yes" if a in run.rests[b] else "no"
                counts[want] += word == "ask"
                if answer != want:
                    raise AssertionError(f"{word} answers {answer} to {a} {b}, and {want} is wanted")
    counts["files"] += len(items)


def main(words):
    program, cases, seed = words[0], int(words[1]), int(words[2])
    counts = collections.Counter()
    for number in range(seed, seed + cases):
        try:
            one_case(program, number, counts)
        except (AssertionError, terminal.Wrong) as error:
            print(f"seed {number}: {error}")
            return 1
    for name in sorted(counts):
        print(f"  {name}: {counts[name]}")
    return 0


if __name__ == "__main__":
    sys.exit(main(sys.argv[1:]))
