#!/usr/bin/env python3
"""Tries tools/from_nextflow.py on random manifests of nf-prov: what `trace` and `ask` answer of files is what can be reached in the run.

  python3 checks/nextflow_manifest.py PROGRAM CASES SEED

A run is made up of tasks with files, folders, values that are no files, files of operators, and cached tasks, and written as nf-prov would. On
what each file rests is noted as it is made, and each answer on two files is compared with that: in half of the runs with the assumption that
operators hand on values as they are, and in the others without it.
"""
import collections
import json
import os
import random
import subprocess
import sys
import tempfile

sys.path.insert(0, os.path.join(os.path.dirname(os.path.dirname(os.path.abspath(__file__))), "tools"))
import from_nextflow
import terminal

MOST_PAIRS, WORK, RESULTS, TEXT = 600, "/scratch/work", "/scratch/results", "/opt/shared"
FOLDER, INNER = "/data/ref", "/data/ref/x.fa"


class Run:
    """A random run: its tasks as a manifest has them, and on what each file rests."""

    def __init__(self, draw):
        self.draw, self.tasks, self.rests, self.counts = draw, {}, {}, collections.Counter()
        places = draw.choices(["/data", "s3://bucket/a", f"{WORK}/stage-77/x"], k=draw.randint(1, 4))
        self.sources = [FOLDER, INNER, *(f"{place}/s{number}.fq" for number, place in enumerate(places)), TEXT]
        self.there, self.folders, self.given, self.known, self.read = self.sources[:-1], {FOLDER: [INNER]}, {}, {}, set()
        self.equal, self.shares, self.published = draw.random() < 0.5, draw.random() < 0.3, {f"{WORK}/other": f"{RESULTS}/other"}
        self.rests.update((source, frozenset()) for source in self.sources)
        for number in range(1, draw.randint(3, 25)):
            self.task(number)

    def closed(self, files):
        """Returns files, what is in those that are folders, and on what they rest."""
        found = [inner for file in files for inner in (file, *self.folders.get(file, ()))]
        return frozenset(found).union(*(self.rests[file] for file in found))

    def operator(self, number):
        """Makes a file of an operator, which rests on all that was read and made before."""
        file = self.draw.choice([f"{WORK}/tmp/{number:02x}/collected.txt", f"{RESULTS}/info/{number}.yml"])
        self.rests[file] = self.closed(self.known)
        self.counts["files of operators"] += 1
        return file

    def used(self, number):
        """Returns the files that a task reads, and the other values that it got."""
        draw = self.draw
        files = draw.sample(self.there[-12:], min(len(self.there), draw.randint(0, 4)))
        files += [self.operator(number)] if draw.random() < 0.1 else []
        got = draw.choice([None, None, {"id": f"s{number}"}, "plain", f"v{draw.randint(0, 3)}", {"id": "m", "file": draw.choice(self.there)}])
        texts = [json.dumps(got)] * (got is not None)
        named = [got["file"]] if isinstance(got, dict) and "file" in got else []
        if self.shares and number > 2 and draw.random() < 0.2:
            files.append(TEXT)
            texts.append(json.dumps(TEXT))
        return files, named, got, texts

    def task(self, number):
        """Adds a task."""
        draw, place = self.draw, f"{WORK}/{number:02x}/{self.draw.getrandbits(120):030x}"
        used, named, got, texts = self.used(number)
        process = draw.choice(["", "A:", "A:B:"]) + f"P{draw.randint(0, 3)}"
        came = list(self.known) if texts and not self.equal else [value for text in texts for value in self.given.get(text, ())]
        rests = self.closed([*used, *named, *came])
        files = [f"{place}/{number}.{part}" for part in range(draw.choice([0, 1, 1, 2, 3]))]
        outputs = [{"name": "x", "emit": "one", "value": file} for file in files[:1]] + [{"name": "y", "value": files[1:]}]
        if draw.random() < 0.2:
            self.folders[f"{place}/out"] = []
            files.append(f"{place}/out")
            outputs.append({"name": "out", "emit": "out", "value": f"{place}/out"})
        outputs += [{"name": "passed", "value": used[0]}] if used and draw.random() < 0.1 else []
        title = f"{process} ({number})"
        gave = [TEXT] * (self.shares and (number < 3 or draw.random() < 0.2))
        gave += filter(None, [draw.choice([None, None, got, f"v{draw.randint(0, 3)}"])])
        outputs += [{"name": "v", "emit": "v", "value": value} for value in gave]
        anew = [json.dumps(value) for value in gave if json.dumps(value) not in texts]
        self.write(number, title, process, [self.shown(file) for file in used], got, outputs)
        self.note([*used, *named], files, rests, {text: f"{title}/v {text}" for text in anew})

    def shown(self, file):
        """Returns the path by which a task names a file: that at which it was published, sometimes."""
        return self.published.get(file, file) if self.draw.random() < 0.5 else file

    def write(self, number, title, process, used, got, outputs):
        """Writes a task as the manifest has it."""
        inputs = [{"name": "reads", "value": used[:2]}, *({"name": "more", "value": file} for file in used[2:])]
        inputs += [{"name": "meta", "value": got}] * (got is not None)
        self.tasks[str(number)] = {"id": str(number), "name": title, "process": process, "cached": self.draw.random() < 0.1, "inputs": inputs,
                                   "outputs": outputs}
        self.counts["tasks"] += 1

    def note(self, used, files, rests, values):
        """Notes what a task read and made, and on what that rests."""
        self.read.update(used)
        self.rests.update((file, rests) for file in [*files, *values.values()])
        self.known.update(dict.fromkeys([*files, *used, *values.values()]))
        self.there += files
        for text, value in values.items():
            self.given.setdefault(text, []).append(value)
        for file in files:
            if file not in self.folders and self.draw.random() < 0.2:
                self.published[file] = f"{RESULTS}/bam/{os.path.basename(file)}"
        if files and files[-1] in self.folders and self.draw.random() < 0.7:
            inner = f"{files[-1]}/part.txt"
            self.folders[files[-1]].append(inner)
            self.rests[inner] = rests
            self.there.append(inner)
            self.known[inner] = None
            if self.draw.random() < 0.3:
                self.published[inner] = f"{RESULTS}/parts/{self.counts['tasks']}.txt"
                self.read.add(inner)

    def manifest(self):
        """Returns the manifest. A part of a folder is in it if a task read it."""
        inner = {file for folder in self.folders.values() for file in folder}
        self.rests = {file: rests for file, rests in self.rests.items() if file in self.read or file not in inner and file not in self.sources}
        self.rests = {file: rests & self.rests.keys() for file, rests in self.rests.items()}
        tasks = self.tasks if self.draw.random() < 0.5 else list(self.tasks.values())
        return {"pipeline": {}, "published": [{"source": source, "target": target} for source, target in self.published.items()], "tasks": tasks}


def ran(program, *words):
    """Returns what the program writes."""
    done = subprocess.run([program, *words], stdout=subprocess.PIPE, stderr=subprocess.PIPE, check=False)
    if done.returncode:
        raise AssertionError(f"wfprov {words[0]}: {done.stderr.decode().strip()}")
    return done.stdout


def imported(run, path):
    """Returns the items of the files of a run by their names, with SPEC and EVENTS written."""
    for word, value in (("manifest", run.manifest()), ("view", {})):
        with open(path[word], "w", encoding="utf-8") as text:
            json.dump(value, text)
    from_nextflow.complain = lambda line: None
    from_nextflow.work(["--assume", "values-equal"] * run.equal + [path[word] for word in ("manifest", "spec", "events", "table")])
    with open(path["table"], encoding="utf-8") as text:
        items = {row[1]: row[6] for row in (line.rstrip("\n").split("\t") for line in text) if row[0] == "value" and not row[1].startswith("all before ")}
    if items.keys() != run.rests.keys():
        raise AssertionError(f"the files are others: {sorted(items.keys() ^ run.rests.keys())[:4]}")
    return items


def one_case(program, folder, seed, counts):
    """Tries one run."""
    draw = random.Random(seed)
    run = Run(draw)
    path = {word: os.path.join(folder, word) for word in ("manifest", "spec", "events", "table", "view", "labels", "queries")}
    items = imported(run, path)
    pairs = [(a, b) for a in items for b in items]
    pairs = pairs if len(pairs) <= MOST_PAIRS else draw.sample(pairs, MOST_PAIRS)
    with open(path["queries"], "w", encoding="utf-8") as text:
        text.write("".join(f"{items[a]} {items[b]}\n" for a, b in pairs))
    with open(path["labels"], "wb") as text:
        text.write(ran(program, "ingest", path["spec"], path["events"]))
    for word, source in (("trace", "events"), ("ask", "labels")):
        answers = ran(program, word, path["spec"], path["view"], path[source], path["queries"]).decode().split()
        for (a, b), answer in zip(pairs, answers):
            want = "yes" if a in run.rests[b] else "no"
            counts[f"{want}, {'values equal' if run.equal else 'nothing assumed'}"] += word == "ask"
            if answer != want:
                raise AssertionError(f"{word} answers {answer} to {a} {b}, and {want} is wanted")
    counts.update(run.counts)


def main(words):
    program, cases, seed = words[0], int(words[1]), int(words[2])
    counts = collections.Counter()
    with tempfile.TemporaryDirectory() as folder:
        for number in range(seed, seed + cases):
            try:
                one_case(program, folder, number, counts)
            except (AssertionError, terminal.Wrong) as error:
                print(f"seed {number}: {error}")
                return 1
    for name in sorted(counts):
        print(f"  {name}: {counts[name]}")
    return 0


if __name__ == "__main__":
    sys.exit(main(sys.argv[1:]))
