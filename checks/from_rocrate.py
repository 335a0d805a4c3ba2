#!/usr/bin/env python3
"""Tries tools/from_rocrate.py on random runs: what `trace` and `ask` answer of files is what can be reached in the run.

  python3 checks/from_rocrate.py PROGRAM CASES SEED

A run is made up of actions, with failures, files that several read, folders, collections, files of one content, and workflows in a workflow,
and written as a crate. On what each file rests is noted as it is made, and each answer on two files is compared with that.
"""
import collections
import json
import os
import random
import subprocess
import sys
import tempfile

sys.path.insert(0, os.path.join(os.path.dirname(os.path.dirname(os.path.abspath(__file__))), "tools"))
import from_rocrate
import terminal

MOST_PAIRS = 600
FAILED, NEVER = "http://schema.org/FailedActionStatus", "PotentialActionStatus"


def referring(names):
    """Returns a reference to each name."""
    return [{"@id": name} for name in names]


class Run:
    """A random run: the entities of its crate, and on what each value rests. `values` has what an entity stands for."""

    def __init__(self, draw):
        self.draw, self.entities, self.rests, self.counts = draw, {}, {}, collections.Counter()
        self.values, self.folders, self.made, self.used, self.done, self.counter = {}, {}, {}, {}, [], 0
        self.there = [self.source(number) for number in range(draw.randint(1, 5))]
        self.sources = list(self.there)
        for _ in range(draw.randint(1, 20)):
            if draw.random() < 0.1:
                self.twins()
            else:
                self.action(self.draw.choice([None] * 7 + [FAILED, NEVER]), ())
        self.is_workflow = draw.random() < 0.6
        if self.is_workflow:
            self.workflow()
        self.counts["workflows"] += self.is_workflow

    def entity(self, identity, kind, **members):
        """Adds an entity."""
        self.entities[identity] = {"@id": identity, "@type": kind, **members}
        return identity

    def source(self, number):
        """Adds what comes from outside."""
        kind = self.draw.choice(["File", "PropertyValue", "checksum"])
        name = {"File": f"data/s{number}.txt", "PropertyValue": f"#s{number}", "checksum": f"{number + 1:040x}"}[kind]
        self.values[name] = [name]
        return self.entity(name, "File" if kind == "checksum" else kind)

    def collected(self, names):
        """Returns references to names, some of them by a collection, or by one in another."""
        if len(names) < 2 or self.draw.random() < 0.7:
            return referring(names)
        self.counter += 1
        inner = self.entity(f"#c{self.counter}", "Collection", hasPart=referring(names[1:]))
        if self.draw.random() < 0.5:
            return referring([self.entity(f"#d{self.counter}", "Collection", hasPart=referring([names[0], inner]))])
        return referring([names[0], inner])

    def action(self, status, shared):
        """Adds an action, which makes these files too."""
        draw, number = self.draw, len(self.made)
        name = f"#a{number}"
        used = draw.sample(self.there[-12:], min(len(self.there), draw.randint(0, 4)))
        used = [value for value in used if value not in shared]
        everything = [value for file in used for read in (file, *self.folders.get(file, ())) for value in self.values[read]]
        rests = frozenset(everything).union(*(self.rests.get(value, ()) for value in everything))
        files = [self.entity(f"out/{number}.{place}", "File") for place in range(draw.randint(1, 3))]
        inner = []
        if draw.random() < 0.15:
            files.append(f"out/{number}/")
            inner = [self.entity(f"out/{number}/part{place}", "File") for place in range(draw.randint(0, 3))]
            self.entity(files[-1], "Dataset", hasPart=referring(inner[:1]))
            self.folders[files[-1]] = inner
            self.counts["folders"] += 1
        members = {"actionStatus": status} if status else draw.choice([{}, {"actionStatus": {"@id": "http://schema.org/CompletedActionStatus"}}])
        self.entity(name, "CreateAction", name=f"a{number % 7}", instrument={"@id": f"#t{number % 4}"}, object=self.collected(used),
                    result=self.collected(files + list(shared)), **members)
        self.used[name], self.made[name] = used, files + list(shared)
        if status:
            self.counts["actions that did not end"] += 1
            return
        self.done.append(name)
        for file in files + inner:
            self.values[file], self.rests[file] = [file], rests
        for file in shared:
            self.values.setdefault(file, []).append(f"{file} of {name}")
            self.rests[f"{file} of {name}"] = rests
        self.there += files + inner

    def twins(self):
        """Adds two actions that make a file of one content."""
        shared = self.entity(f"{len(self.made) + 1000:040x}", "File")
        self.action(None, [shared])
        self.action(None, [shared])
        self.there.append(shared)
        self.counts["files of one content"] += 1

    def workflow(self):
        """Makes all actions those of steps of a workflow, and of workflows in it."""
        draw, inner = self.draw, [f"#w{number}" for number in range(self.draw.choice([0, 0, 1, 2, 3]))]
        runs = {run: [] for run in ["#main", *inner]}
        for name in self.made:
            runs[draw.choice(list(runs))].append(name)
        runs["#main"] += inner
        is_told, is_organized, notes = draw.random() < 0.8, draw.random() < 0.7, []
        for run, members in reversed(list(runs.items())):
            flow = "#flow" if run == "#main" else draw.choice(["#sub1", "#sub2"])
            steps = [f"{flow}/{number}" for number in range(3)]
            tools = [f"#t{number}" for number in range(4)] + (["#sub1", "#sub2"] if run == "#main" else [])
            self.entity(flow, ["ComputationalWorkflow", "HowTo"], step=referring(steps), hasPart=referring(tools))
            of_step = collections.defaultdict(list)
            for member in members:
                of_step[draw.choice(steps)].append(member)
            controls = [self.entity(f"{run}/control{step[-1]}", "ControlAction", instrument={"@id": step}, object=referring(of_step[step]))
                        for step in of_step if is_told]
            if is_organized and is_told:
                self.entity(f"{run}/organize", "OrganizeAction", instrument={"@id": "#engine"}, object=referring(controls), result={"@id": run})
            own, own_notes = [member for member in members if member in self.made], []
            made = [file for member in own for file in self.made[member] if member in self.done]
            used = list(dict.fromkeys(file for member in (self.made if run == "#main" else own) for file in self.used[member]))
            outer = [file for file in used if file in self.sources] if run == "#main" else [file for file in used if file not in made]
            parts = [part for file in made for part in (file, *self.folders.get(file, ()))]
            steps_made = [value for part in parts for value in self.values[part] if " of " not in value or value.split(" of ")[1] in own]
            if run == "#main":
                steps_made = [value for value in self.rests if value not in notes]
            if run == "#main" or is_told and is_organized:
                read = [value for file in outer for part in (file, *self.folders.get(file, ())) for value in self.values[part]]
                own_notes = self.note(f"#note-{run[1:]}", read + steps_made)
                notes += own_notes
            self.entity(run, "CreateAction", instrument={"@id": flow}, object=self.collected(outer),
                        result=referring(made + (notes if run == "#main" else own_notes)))

    def note(self, name, everything):
        """Returns what a run of a workflow gives out, and no step made, or nothing. It rests on what the run read and its steps made."""
        names = [name, f"{name}-2"][:self.draw.choice([0, 0, 0, 1, 2])]
        for given in names:
            self.entity(given, "PropertyValue")
            self.values[given], self.rests[given] = [given], frozenset(everything).union(*(self.rests.get(value, ()) for value in everything))
        self.counts["values that no step made"] += len(names)
        return names

    def wanted(self):
        """Returns the values that the table must have."""
        read = {file for files in self.used.values() for file in files}
        return set(self.rests) | {source for source in self.sources if source in read}

    def write(self, folder):
        """Writes the crate."""
        graph = list(self.entities.values())
        self.draw.shuffle(graph)
        with open(os.path.join(folder, "ro-crate-metadata.json"), "w", encoding="utf-8") as text:
            json.dump({"@context": "https://w3id.org/ro/crate/1.1/context", "@graph": graph}, text)


def ran(program, *words):
    """Returns what the program writes."""
    done = subprocess.run([program, *words], stdout=subprocess.PIPE, stderr=subprocess.PIPE, check=False)
    if done.returncode:
        raise AssertionError(f"wfprov {words[0]}: {done.stderr.decode().strip()}")
    return done.stdout


def imported(crate, path):
    """Returns the items of a crate by their names, with SPEC and EVENTS written."""
    made = from_rocrate.actions.imported(from_rocrate.Import(from_rocrate.Crate(crate)).record)
    for word, text in (("spec", made.spec), ("events", made.events)):
        with open(path[word], "w", encoding="utf-8") as file:
            file.write(text)
    return {row[1]: row[6] for row in (line.split("\t") for line in made.table.splitlines()) if row[0] == "value"}


def one_case(program, seed, counts):
    """Tries one run."""
    draw = random.Random(seed)
    run = Run(draw)
    with tempfile.TemporaryDirectory() as folder:
        run.write(folder)
        path = {word: os.path.join(folder, word) for word in ("spec", "events", "view", "labels", "queries")}
        if not run.wanted():
            return
        items = imported(os.path.join(folder, "ro-crate-metadata.json"), path)
        if items.keys() != run.wanted():
            raise AssertionError(f"the files are others: {sorted(items.keys() ^ run.wanted())[:4]}")
        pairs = [(a, b) for a in items for b in items]
        pairs = pairs if len(pairs) <= MOST_PAIRS else draw.sample(pairs, MOST_PAIRS)
        with open(path["view"], "w", encoding="utf-8") as text:
            text.write("{}")
        with open(path["queries"], "w", encoding="utf-8") as text:
            text.write("".join(f"{items[a]} {items[b]}\n" for a, b in pairs))
        with open(path["labels"], "wb") as text:
            text.write(ran(program, "ingest", path["spec"], path["events"]))
        for word, source in (("trace", "events"), ("ask", "labels")):
            answers = ran(program, word, path["spec"], path["view"], path[source], path["queries"]).decode().split()
            for (a, b), answer in zip(pairs, answers):
                want = "yes" if a in run.rests.get(b, ()) else "no"
                counts[want] += word == "ask"
                if answer != want:
                    raise AssertionError(f"{word} answers {answer} to {a} {b}, and {want} is wanted")
    counts.update(run.counts)
    counts["files"] += len(items)


def main(words):
    program, cases, seed = words[0], int(words[1]), int(words[2])
    counts = collections.Counter()
    for number in range(seed, seed + cases):
        try:
            one_case(program, number, counts)
        except (AssertionError, terminal.Wrong) as error:
            print(f"seed {number}: {error}")
            return 1
    for name in sorted(counts):
        print(f"  {name}: {counts[name]}")
    return 0


if __name__ == "__main__":
    sys.exit(main(sys.argv[1:]))
