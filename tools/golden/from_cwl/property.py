#!/usr/bin/env python3
"""Tries tools/from_cwl.py on random workflows, and compares answers with reachability in the workflows themselves.

  python3 tools/golden/from_cwl/property.py PROGRAM [CASES [SEED]]

For each case it makes a workflow and a run of it, writes both as a CWL document and a record, imports them, and asks PROGRAM by
`trace`, and by `ingest` and `ask`, whether one value rests on another. The values are the inputs and outputs of the run, the outputs
of each execution of a step, and the elements of each scattered array. What is expected is computed here, from the workflow that was
made: neither from the document nor with anything of the tool. It prints what it has seen, and ends with 1 at the first difference.
"""
import importlib.util
import json
import os
import random
import subprocess
import sys
import tempfile
from collections import Counter

HERE = os.path.dirname(os.path.abspath(__file__))
MOST_PAIRS = 100
MOST_EXECUTIONS = 40
STEPS = ("align", "sort.bam", "count_2", "count", "plot", "copy-1", "close-1", "gather-2", "constant-1", "split", "next", "none", "each")


def tool():
    """Returns the tool as a module."""
    sys.dont_write_bytecode = True
    plan = importlib.util.spec_from_file_location("from_cwl", os.path.join(HERE, "..", "..", "from_cwl.py"))
    module = importlib.util.module_from_spec(plan)
    plan.loader.exec_module(module)
    return module


class Tool:
    def __init__(self, name, draw):
        self.name, self.steps = name, None
        self.inputs = [f"i{number}" for number in range(draw.randint(0, 3))]
        self.outputs = [f"o{number}" for number in range(draw.choice((0, 1, 1, 1, 2, 2, 3)))]


class Flow:
    """A workflow: `steps` gives for each step what it runs, the givers of its inputs, and the input it is scattered over; `ends` gives
    the givers of each output. A giver is a step, or "", and a port."""

    def __init__(self, name, draw, choices):
        self.name, self.steps, self.ends = name, {}, {}
        self.inputs = [f"w{number}" for number in range(draw.randint(1, 3))]
        values = [("", port) for port in self.inputs]
        for step in draw.sample(STEPS, draw.randint(1, 5)):
            process = draw.choice(choices)
            sources = {port: self.draw_givers(draw, values) for port in process.inputs}
            several = [port for port, givers in sources.items() if givers]
            scatter = draw.choice(several) if several and draw.random() < 0.25 else None
            self.steps[step] = process, sources, scatter
            values += [(step, port) for port in process.outputs]
        for number in range(draw.randint(1, 3)):
            self.ends[f"e{number}"] = [draw.choice(values) for _ in range(draw.choice((1, 1, 1, 2)))]
        self.outputs = list(self.ends)
        order = list(self.steps)
        draw.shuffle(order)
        self.steps = {step: self.steps[step] for step in order}

    @staticmethod
    def draw_givers(draw, values):
        return [draw.choice(values[-6:]) for _ in range(draw.choice((0, 1, 1, 1, 1, 1, 2, 3)))]

    def uses(self):
        """Returns for each giver the ports that read it."""
        found = {}
        for step, (_, sources, _) in self.steps.items():
            for port, givers in sources.items():
                for giver in givers:
                    found.setdefault(giver, []).append((step, port))
        for end, givers in self.ends.items():
            for giver in givers:
                found.setdefault(giver, []).append(("", end))
        return found


def draw_flow(draw):
    """Returns a workflow of up to three levels."""
    choices = [Tool(f"t{number}", draw) for number in range(draw.randint(2, 4))]
    for number in range(draw.randint(0, 3)):
        choices.append(Flow(f"f{number}", draw, choices))
    if len(choices) > 4:
        choices += choices[4:]
    return Flow("main", draw, choices)


class Document:
    """A workflow as a CWL document, in one of two styles: lists with whole ids, or maps with short ones."""

    def __init__(self, flow, draw):
        self.draw, self.whole, self.done = draw, draw.random() < 0.5, {}
        self.add(flow)
        self.value = {"cwlVersion": "v1.2", "$graph": list(self.done.values())}

    def parts(self, owner, entries):
        if self.whole:
            return [dict(entry, id=f"#{owner}/{name}") for name, entry in entries.items()]
        return entries

    def source(self, owner, giver):
        short = "/".join(filter(None, giver))
        return f"#{owner}/{short}" if self.whole else short

    def sources(self, owner, givers):
        texts = [self.source(owner, giver) for giver in givers]
        return texts[0] if len(texts) == 1 and self.draw.random() < 0.7 else texts

    def add(self, process):
        if process.name in self.done:
            return
        inputs = self.parts(process.name, {port: {"type": "Any"} for port in process.inputs})
        if process.steps is None:
            outputs = self.parts(process.name, {port: {"type": "Any"} for port in process.outputs})
            self.done[process.name] = {"class": "CommandLineTool", "id": "#" + process.name, "inputs": inputs, "outputs": outputs}
            return
        self.done[process.name] = None
        uses = process.uses()
        ends = {end: {"type": "Any", "outputSource": self.sources(process.name, givers)} for end, givers in process.ends.items()}
        steps = {step: self.step(process.name, step, uses, *parts) for step, parts in process.steps.items()}
        self.done[process.name] = {"class": "Workflow", "id": "#" + process.name, "inputs": inputs,
                                   "outputs": self.parts(process.name, ends), "steps": self.parts(process.name, steps)}
        for inner, _, _ in process.steps.values():
            self.add(inner)

    def step(self, owner, step, uses, process, sources, scatter):
        entries = {}
        for port, givers in sources.items():
            if givers:
                entries[port] = {"source": self.sources(owner, givers)}
            elif self.draw.random() < 0.7:
                entries[port] = self.draw.choice(({"default": 1}, {"valueFrom": "$(1 + 1)"}))
        used = [port for port in process.outputs if (step, port) in uses or self.draw.random() < 0.6]
        prefix = f"#{owner}/{step}/" if self.whole else ""
        found = {"run": "#" + process.name, "in": self.parts(f"{owner}/{step}", entries), "out": [prefix + port for port in used]}
        if scatter:
            found["scatter"] = [prefix + scatter] if self.draw.random() < 0.5 else prefix + scatter
        return found


def reached(onward, value):
    """Returns the values that rest on a value."""
    found, waiting = set(), [value]
    while waiting:
        for taker in onward.get(waiting.pop(), ()):
            if taker not in found:
                found.add(taker)
                waiting.append(taker)
    return found


class Reference:
    """A run of a workflow: the record of it, which values rest directly on which, and the item that each value has in wfprov. A value
    is the path of an execution, `in`, `out` or `item`, and a port."""

    def __init__(self, flow, draw):
        self.draw, self.record, self.onward, self.items, self.joined, self.seen = draw, [], {}, {}, {}, Counter()
        self.flow(flow, "", "run", {port: f"run.{port}" for port in flow.outputs})
        self.record.append({"step": ".", "name": "run"})
        draw.shuffle(self.record)
        for port in flow.inputs:
            self.items["", "in", port] = f"run.{port}"
        for port in flow.outputs:
            self.items["", "out", port] = f"run.{port}"

    def link(self, giver, taker):
        self.onward.setdefault(giver, []).append(taker)

    def flow(self, flow, path, name, outer):
        """Adds an execution of a workflow, whose outputs are the items `outer` where a reader outside names them."""
        uses = flow.uses()
        inside = path + "/" if path else ""

        def value(giver):
            return (inside + giver[0], "out", giver[1]) if giver[0] else (path, "in", giver[1])
        for end, givers in flow.ends.items():
            for giver in givers:
                self.link(value(giver), (path, "out", end))
            self.seen["several sources"] += len(givers) > 1
        for step, (process, sources, scatter) in flow.steps.items():
            own = inside + step
            child = self.name()
            for port, givers in sources.items():
                for giver in givers:
                    self.link(value(giver), (own, "in", port))
                self.seen["several sources"] += len(givers) > 1
                self.seen["inputs without a source"] += not givers
            items = {}
            for port in process.outputs:
                readers = uses.get((step, port), [])
                exits = len(readers) == 1 and not readers[0][0] and len(flow.ends[readers[0][1]]) == 1
                items[port] = outer[readers[0][1]] if exits else f"{child}.{port}"
                self.items[own, "out", port] = items[port]
                self.seen["values with several readers"] += len(readers) > 1
                self.seen["outputs without a reader"] += not readers
            if scatter:
                self.scatter(process, own, child, scatter)
            else:
                self.record.append({"step": own, "name": child})
                self.execute(process, own, child, items)

    def name(self):
        return f"x{self.seen.total()}-{len(self.record)}"

    def execute(self, process, path, name, items):
        self.seen["executions"] += 1
        if process.steps is not None:
            self.seen["executions of subworkflows"] += 1
            self.flow(process, path, name, items)
            return
        for port in process.inputs:
            for output in process.outputs:
                self.link((path, "in", port), (path, "out", output))

    def scatter(self, process, path, name, scattered):
        """Adds the executions of a scattered step: each has its own element, and the whole results rest on the array, too. The results
        of an empty array rest on what they would rest on with an element."""
        count = self.draw.randint(0, 3)
        self.seen["scattered steps"] += 1
        self.record.append({"step": path, "name": name, "elements": count})
        for output in process.outputs:
            self.link((path, "in", scattered), (path, "out", output))
        for number in range(count):
            own, child = f"{path}/{number}", self.name()
            self.record.append({"step": own, "name": child})
            for port in process.inputs:
                self.link((path, "in", port), (own, "in", port))
            for output in process.outputs:
                self.link((own, "out", output), (path, "out", output))
                self.items[own, "out", output] = f"{child}.{output}"
            self.items[own, "in", scattered] = f"{name}-split-{number}.item"
            self.execute(process, own, child, {output: f"{child}.{output}" for output in process.outputs})
        if not count:
            self.seen["empty arrays"] += 1
            for port, output in self.pairs(process):
                self.link((path, "in", port), (path, "out", output))

    def pairs(self, process):
        """Returns the inputs and outputs of a process that one execution of it joins, where each scattered step has one element."""
        if process.steps is None:
            return [(port, output) for port in process.inputs for output in process.outputs]
        if process.name not in self.joined:
            onward = {}
            for step, (inner, sources, scatter) in process.steps.items():
                pairs = self.pairs(inner) + [(scatter, output) for output in inner.outputs] * bool(scatter)
                for port, output in pairs:
                    for giver in sources[port]:
                        onward.setdefault(giver, []).append((step, output))
            for end, givers in process.ends.items():
                for giver in givers:
                    onward.setdefault(giver, []).append(("", "", end))
            self.joined[process.name] = [(port, value[2]) for port in process.inputs
                                         for value in reached(onward, ("", port)) if len(value) == 3]
        return self.joined[process.name]

    def questions(self):
        """Returns pairs of different items, each with what is expected: of each answer at most so many."""
        values, found = list(self.items), []
        for first in values:
            after = reached(self.onward, first)
            found += [(self.items[first], self.items[second], "yes" if second in after else "no")
                      for second in values if self.items[first] != self.items[second]]
        sides = [[pair for pair in found if pair[2] == answer] for answer in ("yes", "no")]
        return [pair for side in sides for pair in self.draw.sample(side, min(len(side), MOST_PAIRS))]


def call(program, *words):
    """Returns what the program writes."""
    ended = subprocess.run([program, *words], capture_output=True, check=False)
    if ended.returncode:
        raise SystemExit(f"`{' '.join(words)}` ended with {ended.returncode}: {ended.stderr.decode()}")
    return ended.stdout


def draw_case(draw):
    """Returns a workflow and a run of it that is not too long."""
    while True:
        flow = draw_flow(draw)
        reference = Reference(flow, draw)
        if reference.seen["executions"] <= MOST_EXECUTIONS:
            return flow, reference


def main(words):
    program, cases, seed = words[0], int(words[1]) if len(words) > 1 else 1000, int(words[2]) if len(words) > 2 else 1
    importer, seen = tool(), Counter()
    with tempfile.TemporaryDirectory() as work:
        spec, view, events, queries, labels = (os.path.join(work, name) for name in ("spec", "view", "events", "queries", "labels"))
        for number in range(cases):
            draw = random.Random(f"{seed} {number}")
            flow, reference = draw_case(draw)
            document = Document(flow, draw).value
            pairs = reference.questions()
            texts = importer.imported(json.loads(json.dumps(document)), json.loads(json.dumps(reference.record)), None, [])
            lines = "".join(f"{first} {second}\n" for first, second, _ in pairs)
            for path, text in zip((spec, events, view, queries), (*texts, "{}", lines)):
                with open(path, "w", encoding="utf-8") as file:
                    file.write(text)
            with open(labels, "wb") as file:
                file.write(call(program, "ingest", spec, events))
            for command, run in (("trace", events), ("ask", labels)):
                answers = call(program, command, spec, view, run, queries).decode().split()
                for pair, answer in zip(pairs, answers, strict=True):
                    if answer != pair[2]:
                        raise SystemExit(f"case {number} of seed {seed}: {' '.join(pair)}, and `{command}` answers {answer}: "
                                         f"{json.dumps(document)} {json.dumps(reference.record)}")
            seen.update(answer for _, _, answer in pairs)
            seen.update({what: count for what, count in reference.seen.items() if count})
            seen.update({"cases with " + what: 1 for what, count in reference.seen.items() if count and what != "executions"})
    print(f"{cases} workflows, {seen['yes'] + seen['no']} pairs: {seen['yes']} yes, {seen['no']} no")
    for what in sorted(what for what in seen if what not in ("yes", "no") and not what.startswith("cases")):
        print(f"{seen[what]} {what}" + (f", in {seen['cases with ' + what]} workflows" if what != "executions" else ""))


if __name__ == "__main__":
    main(sys.argv[1:])
