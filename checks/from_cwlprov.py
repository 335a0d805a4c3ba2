#!/usr/bin/env python3
"""Tries tools/from_cwlprov.py on random runs: what `trace` and `ask` answer of files is what can be reached in the run.

  python3 checks/from_cwlprov.py PROGRAM CASES SEED

A random workflow is run here: tools, scattered steps, workflows in it, scattered too, expressions that hand on one of their files, and
steps that are skipped. The run is written as a packed document and as the files that cwltool would write, and imported. What each file
rests on was noted when it was made, and each answer on two files is compared with that. Where the import says that a file may have come
through an expression in several ways, and of an expression in a scattered workflow, of which the record does not say which element it
read, `yes` may stand for `no`.
"""
import collections
import json
import os
import random
import subprocess
import sys
import tempfile
import uuid

sys.path.insert(0, os.path.join(os.path.dirname(os.path.dirname(os.path.abspath(__file__))), "tools"))
import from_cwlprov
import terminal

MOST_PAIRS = 600


class Value:
    """A file: the name that the import gives it, the entity that an execution would read, and how it came here by expressions."""

    def __init__(self, name, content, entity=None, through=()):
        self.name, self.content, self.entity, self.through = name, content, entity, tuple(through)


class File:
    """A file of CWLProv while it is written."""

    def __init__(self):
        self.parts = {member: {} for member in ("activity", "wasAssociatedWith", "entity", "hadMember", "used", "specializationOf",
                                                "wasGeneratedBy", "wasEndedBy")}

    def add(self, member, entry, name=None):
        table = self.parts[member]
        table[name or f"_:id{len(table)}"] = entry


class Case:
    """A random workflow, its run, and on what each file rests."""

    def __init__(self, draw):
        self.draw, self.rests, self.processes, self.files, self.counts = draw, {}, {}, {}, collections.Counter()
        self.run_id = self.fresh()
        process = self.workflow("main", draw.randint(1, 3), draw.randint(2, 7), 1)
        primary = self.files["primary.cwlprov.json"] = File()
        self.activity(primary, self.run_id, "wfprov:WorkflowRun", "wf:main")
        inputs = {port: self.outside(primary, port) for port in process["inputs"]}
        self.run(process, inputs, primary, "", {})

    def fresh(self):
        return "id:" + str(uuid.UUID(int=self.draw.getrandbits(128)))

    def outside(self, file, port):
        """Makes the files of an input of the run."""
        found = []
        for _ in range(self.draw.randint(1, 3)):
            entity = self.fresh()
            value = Value(entity, f"data:{self.draw.getrandbits(160):040x}")
            self.entity(file, entity, value.content)
            self.rests[entity] = frozenset()
            found.append(value)
        self.use(file, self.run_id, [value.name for value in found], f"wf:main/{port}")
        return found

    def entity(self, file, name, content):
        file.add("entity", {"prov:type": {"$": "wf4ever:File"}, "cwlprov:basename": f"{content[5:12]}.txt"}, name)
        file.add("specializationOf", {"prov:specificEntity": name, "prov:generalEntity": content})

    def activity(self, file, name, kind, plan, **more):
        file.add("activity", {"prov:type": {"$": kind}, **more}, name)
        file.add("wasAssociatedWith", {"prov:activity": name, "prov:plan": plan})

    def use(self, file, activity, entities, role):
        """Notes that an execution used files, as an array where they are several."""
        whole = entities[0]
        if len(entities) > 1:
            whole = self.fresh()
            file.add("entity", {"prov:type": {"$": "prov:Collection"}}, whole)
            for entity in entities:
                file.add("hadMember", {"prov:collection": whole, "prov:entity": entity})
        file.add("used", {"prov:activity": activity, "prov:entity": whole, "prov:role": {"$": role}})

    def workflow(self, identity, inputs, steps, depth):
        """Makes a random workflow."""
        process = {"id": identity, "inputs": [f"i{number}" for number in range(inputs)], "steps": {}, "outputs": {}}
        self.processes[identity] = process
        there = [("", port) for port in process["inputs"]]
        for number in range(steps):
            name = f"s{number}" if self.draw.random() < 0.8 else f"s{number}_2"
            kind = self.draw.choice(["tool", "tool", "tool", "each", "each", "expression"] + ["flow", "flows"] * (depth > 0))
            ports = {f"p{port}": self.draw.sample(there, min(len(there), self.draw.choice([1, 1, 2]))) for port in range(self.draw.randint(1, 2))}
            skipped = kind in ("tool", "each") and self.draw.random() < 0.15
            step = process["steps"][name] = {"kind": kind, "in": ports, "skipped": skipped, "run": f"{identity}-{name}"}
            if kind in ("flow", "flows"):
                self.workflow(step["run"], len(ports), self.draw.randint(1, 3), depth - 1)
                step["in"] = {f"i{place}": sources for place, sources in enumerate(ports.values())}
            there += [(name, "o")] * (not skipped)
        process["outputs"] = {"o": [self.draw.choice([end for end in there if end[0]] or there)]}
        return process

    def run(self, process, inputs, file, path, numbers):
        """Runs a workflow, and returns the files of its output."""
        there = {("", port): values for port, values in inputs.items()}
        for name, step in process["steps"].items():
            if step["skipped"]:
                self.counts["skipped"] += 1
                continue
            given = {port: [value for end in ends for value in there[end]] for port, ends in step["in"].items()}
            there[name, "o"] = getattr(self, "run_" + step["kind"])(process, name, step, given, file, path, numbers)
        return [value for end in process["outputs"]["o"] for value in there[end]]

    def turns(self, given):
        """Returns what comes to each execution of a step that is scattered over its first input."""
        first = next(iter(given))
        return [{**given, first: [value]} for value in given[first]]

    def title(self, process, name, numbers):
        """Returns the name of an execution with the number that cwltool gives it."""
        key = process["id"], name
        numbers[key] = numbers.get(key, 0) + 1
        return name if numbers[key] == 1 else f"{name}_{numbers[key]}"

    def run_tool(self, process, name, step, given, file, path, numbers):
        title, activity = self.title(process, name, numbers), self.fresh()
        self.activity(file, activity, "wfprov:ProcessRun", f"wf:main/{title}")
        made = Value(self.fresh(), f"data:{self.draw.getrandbits(160):040x}")
        made.entity, rests = made.name, set()
        for port, values in given.items():
            entities = []
            for value in values:
                entity = value.entity or self.fresh()
                self.entity(file, entity, value.content)
                entities.append(entity)
                for read in (value.name, *value.through):
                    rests |= {read} | self.rests[read]
            self.use(file, activity, entities, f"wf:main/{title}/{port}")
        self.rests[made.name] = frozenset(rests)
        self.entity(file, made.name, made.content)
        file.add("wasGeneratedBy", {"prov:entity": made.name, "prov:activity": activity, "prov:role": {"$": f"wf:main/{title}/o"}})
        file.add("wasEndedBy", {"prov:activity": activity})
        return [made]

    def run_each(self, process, name, step, given, file, path, numbers):
        self.counts["scattered"] += 1
        return [value for turn in self.turns(given) for value in self.run_tool(process, name, step, turn, file, path, numbers)]

    def run_expression(self, process, name, step, given, file, path, numbers):
        """Hands on one file. The record says nothing of it, so what it gives rests on all that came to it."""
        self.counts["expressions"] += 1
        self.counts["expressions in workflows"] += bool(path)
        self.activity(file, self.fresh(), "wfprov:ProcessRun", "wf:main/")
        values = [value for values in given.values() for value in values]
        own = f"{path}{name}/o"
        self.rests[own] = frozenset().union(*({read} | self.rests[read] for value in values for read in (value.name, *value.through)))
        chosen = self.draw.choice(values)
        # What is read behind it is the file itself, if an execution made it, and what the expression gave.
        if chosen.entity:
            return [Value(chosen.name, chosen.content, chosen.entity, [own])]
        return [Value(own, chosen.content)]

    def run_flow(self, process, name, step, given, file, path, numbers):
        return self.run_inner(name, step, [given], file, path)

    def run_flows(self, process, name, step, given, file, path, numbers):
        self.counts["scattered workflows"] += 1
        return self.run_inner(name, step, self.turns(given), file, path)

    def run_inner(self, name, step, turns, file, path):
        """Runs a workflow inside once or more. The file of a later turn repeats those of earlier ones, as cwltool has it."""
        activity, numbers, parts, found, inner = self.fresh(), {}, [], [], File()
        for number, given in enumerate(turns, 1):
            title = name if number == 1 else f"{name}_{number}"
            own = f"workflow_20{title}.{activity[3:]}.cwlprov.json"
            parts.append({"prov:type": {"$": "wfprov:ProcessRun"}})
            parts.append({"prov:has_provenance": [{"$": f"provenance:{own}"}]})
            self.activity(inner, activity, "wfprov:WorkflowRun", "wf:main")
            found += self.run(self.processes[step["run"]], given, inner, f"{path}{title}/", numbers)
            self.files[own] = File()
            self.files[own].parts = json.loads(json.dumps(inner.parts))
        file.add("activity", parts, activity)
        file.add("wasAssociatedWith", {"prov:activity": activity, "prov:plan": f"wf:main/main/{name}"})
        return found

    def document(self):
        """Returns the packed document."""
        graph = []
        for identity, process in self.processes.items():
            def source(end):
                return f"#{identity}/{'/'.join(filter(None, end))}"
            steps = []
            for name, step in process["steps"].items():
                entry = {"id": f"#{identity}/{name}", "run": f"#{step['run']}", "out": [f"#{identity}/{name}/o"],
                         "in": [{"id": f"#{identity}/{name}/{port}", "source": [source(end) for end in ends]} for port, ends in step["in"].items()]}
                entry.update({"scatter": entry["in"][0]["id"]} if step["kind"] in ("each", "flows") else {})
                entry.update({"when": "$(false)"} if step["skipped"] else {})
                steps.append(entry)
                if step["kind"] in ("tool", "each", "expression"):
                    graph.append({"class": "ExpressionTool" if step["kind"] == "expression" else "CommandLineTool", "id": f"#{step['run']}",
                                  "inputs": [{"id": f"#{step['run']}/{port}"} for port in step["in"]], "outputs": [{"id": f"#{step['run']}/o"}]})
            graph.append({"class": "Workflow", "id": f"#{identity}", "inputs": [{"id": f"#{identity}/{port}"} for port in process["inputs"]],
                          "outputs": [{"id": f"#{identity}/o", "outputSource": [source(end) for end in process["outputs"]["o"]]}], "steps": steps})
        return {"cwlVersion": "v1.2", "$graph": graph}


def written(case, folder):
    """Writes the folder of a run."""
    files = {os.path.join("workflow", "packed.cwl"): case.document()}
    files.update({os.path.join("metadata", "provenance", name): file.parts for name, file in case.files.items()})
    for name, value in files.items():
        path = os.path.join(folder, name)
        os.makedirs(os.path.dirname(path), exist_ok=True)
        with open(path, "w", encoding="utf-8") as text:
            json.dump(value, text)


def ran(program, *words):
    """Returns what the program writes."""
    done = subprocess.run([program, *words], stdout=subprocess.PIPE, stderr=subprocess.PIPE, check=False)
    if done.returncode:
        raise AssertionError(f"wfprov {words[0]}: {done.stderr.decode().strip()}")
    return done.stdout


def one_case(program, seed, counts):
    """Tries one run."""
    draw = random.Random(seed)
    case = Case(draw)
    counts.update(case.counts)
    with tempfile.TemporaryDirectory() as folder:
        written(case, folder)
        path = {word: os.path.join(folder, word) for word in ("spec", "events", "table", "view", "labels", "queries")}
        said = []
        from_cwlprov.complain = said.append
        from_cwlprov.work([folder, path["spec"], path["events"], path["table"]])
        with open(path["table"], encoding="utf-8") as text:
            items = {row[1]: row[6] for row in (line.rstrip("\n").split("\t") for line in text) if row[0] == "value"}
        is_coarse = any("through an ExpressionTool, in" in line for line in said) or case.counts["expressions in workflows"] > 0
        counts["runs in which some answers are coarse"] += is_coarse
        missing = {name for name in case.rests if name not in items and name.startswith("id:")}
        if missing:
            raise AssertionError(f"files are not there: {sorted(missing)[:3]}")
        names = [name for name in items if name in case.rests]
        pairs = [(a, b) for a in names for b in names]
        pairs = pairs if len(pairs) <= MOST_PAIRS else draw.sample(pairs, MOST_PAIRS)
        with open(path["view"], "w", encoding="utf-8") as text:
            text.write("{}")
        with open(path["queries"], "w", encoding="utf-8") as text:
            text.write("".join(f"{items[a]} {items[b]}\n" for a, b in pairs))
        with open(path["labels"], "wb") as text:
            text.write(ran(program, "ingest", path["spec"], path["events"]))
        for word, source in (("trace", "events"), ("ask", "labels")):
            answers = ran(program, word, path["spec"], path["view"], path[source], path["queries"]).decode().split()
            for (a, b), answer in zip(pairs, answers):
                want = "yes" if a in case.rests[b] else "no"
                counts[want] += word == "ask"
                counts["coarse answers"] += answer != want
                if answer != want and not (want == "no" and is_coarse):
                    raise AssertionError(f"{word} answers {answer} to {a} {b}, and {want} is wanted")


def main(words):
    program, cases, seed = words[0], int(words[1]), int(words[2])
    counts = collections.Counter()
    for number in range(seed, seed + cases):
        try:
            one_case(program, number, counts)
        except (AssertionError, terminal.Wrong) as error:
            print(f"seed {number}: {error}")
            return 1
    for name in sorted(counts):
        print(f"  {name}: {counts[name]}")
    return 0


if __name__ == "__main__":
    sys.exit(main(sys.argv[1:]))
