#!/usr/bin/env python3
"""Tries tools/from_nextflow.py on random pipelines: what `trace` and `ask` answer on the imported files is what can be reached.

  python3 checks/from_nextflow.py PROGRAM CASES SEED

A pipeline is made up of processes with their tasks, operators, and channels. It is written as a trace and a DAG. Beside it stands a
graph of its results, made from the pipeline itself and not from what is imported, and each answer is compared with a search in it. In
that graph a task reads all that it may have read, or, in every second pipeline, by tags.
"""
import collections
import os
import random
import subprocess
import sys
import tempfile

sys.path.insert(0, os.path.join(os.path.dirname(os.path.dirname(os.path.abspath(__file__))), "tools"))
import from_nextflow
import terminal

ALONE, TOGETHER = ("map", "filter", "flatMap", "view"), ("collect", "groupTuple", "toList", "first")
FORMS = {"dot": "DOT", "older": "older Mermaid", "newer": "newer Mermaid with labels", "newest": "newer Mermaid without labels"}


class Pipeline:
    """A random pipeline: vertices by number, each with a kind and a label, and edges with labels."""

    def __init__(self, draw, form):
        self.draw, self.form = draw, form
        self.kinds, self.labels, self.edges = {}, {}, []
        self.tags, self.tasks, self.lost = {}, [], set()
        self.feeders, self.groups = [], 0
        for _ in range(draw.randint(0, 3)):
            self.vertex("source", draw.choice(["Channel.fromPath", "Channel.of", "params.in"]), True)
        for _ in range(draw.randint(1, 6)):
            draw.choice([self.plain, self.plain, self.operator, self.chain, self.chain, self.meeting])()
        if not self.tasks:
            self.plain()
        self.finish()
        self.lost = {task for task in self.tasks[1:] if draw.random() < 0.08}

    def vertex(self, kind, label, feeds):
        number = len(self.kinds)
        self.kinds[number], self.labels[number] = kind, label
        if feeds:
            self.feeders.append(number)
        return number

    def edge(self, source, target, channel, through=None):
        """Adds a channel's way to a reader, now and then through an operator with one input and one output."""
        label = channel if self.form != "newest" else ""
        if through is None and self.draw.random() < 0.2:
            through = self.draw.choice(ALONE + TOGETHER)
        if through:
            middle = self.vertex("operator", through if self.form != "newest" else "", False)
            self.edges += [(source, middle, label), (middle, target, self.draw.choice(["", "z"]) if self.form == "dot" else label)]
        else:
            self.edges.append((source, target, label))

    def read(self, target):
        """Lets a vertex read a channel of an earlier one: one that is there, or a new one, which may have no label."""
        feeders = [number for number in self.feeders if number != target]
        if feeders:
            source = self.draw.choice(feeders)
            self.edge(source, target, self.draw.choice(["a", "b", "out.c", ""]))

    def process(self, tags, feeds=True):
        """Adds a process with the tasks of these tags, where a number stands for an index, and None for a task without either."""
        number = self.vertex("process", None, feeds)
        self.labels[number] = self.draw.choice(["", "", "W:", "W:V:"]) + f"P{number}"
        self.tags[number] = tags
        self.tasks += [(number, tag) for tag in tags]
        return number

    def plain(self):
        """Adds a process of one task or some, or of none."""
        tags = self.draw.choice([[None], [1, 2, 3], ["only"], ["x y", 2], []] if self.tasks else [[None]])
        number = self.process(tags)
        for _ in range(self.draw.randint(0, 3)):
            self.read(number)

    def operator(self):
        """Adds an operator with several inputs or several outputs, or without an output."""
        if not self.feeders:
            return self.plain()
        number = self.vertex("operator", self.draw.choice(["join", "mix", "combine", "branch"]) if self.form != "newest" else "", False)
        inputs = self.draw.randint(1, 3)
        for _ in range(inputs):
            self.read(number)
        outputs = self.draw.choice([0, 1, 2]) if inputs > 1 else self.draw.choice([0, 2])
        if outputs == 1:
            self.feeders.append(number)
        elif outputs == 2:
            for _ in range(2):
                self.edge(number, self.vertex("final", "", False), "")
            self.feeders.append(number)
        return number

    def fresh_tags(self):
        self.groups += 1
        return [f"t{self.groups}.{number}" for number in range(self.draw.randint(2, 4))]

    def chain(self):
        """Adds processes one behind the other, most with the same tags. Some feed another process too."""
        tags = self.fresh_tags()
        members = []
        length = self.draw.randint(1, 4)
        for place in range(length):
            own = tags if self.draw.random() < 0.8 else tags[1:]
            number = self.process(self.draw.sample(own, len(own)), False)
            for _ in range(self.draw.randint(0 if members else 1, 2) if place else self.draw.randint(0, 2)):
                self.read(number)
            if members:
                self.follow(members[-1], number)
            members.append(number)
        self.feeders.append(members[-1])
        if length > 1 and self.draw.random() < 0.3:
            self.edge(self.draw.choice(members[:-1]), self.process([None]), self.draw.choice(["k", "side"]))

    def follow(self, before, number):
        """Lets a process feed the next one of a chain, by one or two ways."""
        ways = [self.draw.choice([None, None, self.draw.choice(ALONE), self.draw.choice(TOGETHER)]) for _ in range(self.draw.choice([1, 1, 2]))]
        labels = self.draw.sample(["k", "l", "m"], len(ways))
        for way, label in zip(ways, labels):
            if way is None:
                self.edges.append((before, number, label if self.form != "newest" else ""))
            else:
                self.edge(before, number, label, way)
        if self.draw.random() < 0.4:
            self.edge(before, self.vertex("final", "", False), self.draw.choice([labels[0], "side"]))

    def meeting(self):
        """Adds two processes that feed a third one, all with the same tags."""
        tags = self.fresh_tags()
        ends = [self.process(tags, False) for _ in range(2)]
        third = self.process(tags, False)
        for number in ends:
            self.read(number)
            self.edges.append((number, third, "a" if self.form != "newest" else ""))
        self.feeders.append(third)

    def finish(self):
        """Lets vertices that feed nothing, or nothing but others, end in outputs of the workflow, or stay unused."""
        read = {source for source, _, _ in self.edges}
        for number in list(self.feeders):
            if number not in read and self.kinds[number] == "operator" or self.draw.random() < (0.5 if number in read else 0.8):
                self.edge(number, self.vertex("final", "", False), self.draw.choice(["a", "d"]))
        touched = {number for source, target, _ in self.edges for number in (source, target)}
        for number in [number for number in self.kinds if number not in touched]:
            if self.form in ("newest", "newer") or self.kinds[number] == "source" and self.form == "dot":
                self.edge(number, self.vertex("final", "", False), "a")
        self.draw.shuffle(self.edges)


def identifier(pipeline, number):
    return ("p" if pipeline.form in ("dot", "older") else "v") + str(number)


def written_vertex(pipeline, number):
    """Returns the line of a vertex."""
    name, kind, label = identifier(pipeline, number), pipeline.kinds[number], pipeline.labels[number]
    if pipeline.form == "dot":
        shape = 'shape=point,label="",fixedsize=true,width=0.1' if kind == "source" else "shape=point"
        shape = 'shape=circle,label="",fixedsize=true,width=0.1' if kind == "operator" else shape
        return f'{name} [label="{label}"];' if kind == "process" else f"{name} [{shape}" + (f',xlabel="{label}"' if label else "") + "];"
    if pipeline.form == "older":
        return {"process": f"{name}[{label}]", "operator": f"{name}([{label}])"}.get(kind, f"{name}(({label or ' '}))")
    if kind == "operator":
        return f"{name}([{label}])" if label else f"{name}(( ))"
    return f"{name}([{label.split(':')[-1]}])" if kind == "process" else f'{name}["{label or " "}"]'


def written_dag(pipeline):
    """Returns the text of the DAG."""
    lines = []
    if pipeline.form == "dot":
        named = {number for edge in pipeline.edges for number in edge[:2]}
        lines += ['digraph "dag" {', "rankdir=TB;"] + [written_vertex(pipeline, n) for n in pipeline.kinds if n not in named]
        for source, target, label in pipeline.edges:
            lines += [written_vertex(pipeline, source), written_vertex(pipeline, target)]
            lines.append(f"{identifier(pipeline, source)} -> {identifier(pipeline, target)}" + (f' [label="{label}"]' if label else "") + ";")
        return "\n".join(lines + ["}"]) + "\n"
    lines.append("flowchart TD" if pipeline.form == "older" else "flowchart TB")
    for number, kind in pipeline.kinds.items():
        around = pipeline.labels[number].split(":")[:-1] if kind == "process" and pipeline.form != "older" else []
        lines += [f"    subgraph {name}" for name in around] + ["    " + written_vertex(pipeline, number)] + ["    end" for _ in around]
    for source, target, label in pipeline.edges:
        lines.append(f"    {identifier(pipeline, source)} -->" + (f"|{label}|" if label else "") + f" {identifier(pipeline, target)}")
    return "\n".join(lines) + "\n"


def written_trace(pipeline):
    """Returns the text of the trace. Some tasks failed before they were completed, some came from a cache, and some have no result."""
    draw, columns = pipeline.draw, pipeline.draw.choice(["name", "name process tag"])
    lines = ["task_id\tstatus\t" + "\t".join(columns.split())]
    for number, tag in draw.sample(pipeline.tasks, len(pipeline.tasks)):
        process = pipeline.labels[number]
        fields = [process if tag is None else f"{process} ({tag})"]
        if columns != "name":
            fields += [process, tag if isinstance(tag, str) else "-"]
        lost = [[draw.choice(["FAILED", "ABORTED", "RUNNING"])], ["FAILED", "FAILED"]]
        for status in draw.choice(lost if (number, tag) in pipeline.lost else [["COMPLETED"], ["CACHED"], ["FAILED", "COMPLETED"]]):
            lines.append("\t".join([str(len(lines)), status] + fields))
    return "\n".join(lines) + "\n"


def alive(pipeline):
    """Returns the tasks of each process that came to an end."""
    return {number: [tag for tag in tags if (number, tag) not in pipeline.lost] for number, tags in pipeline.tags.items()}


class Expected:
    """The graph of the values, made from the pipeline itself: on which each rests, where tasks read all, or what has their tag."""

    def __init__(self, pipeline, pairs):
        self.pipeline, self.pairs, self.alive, self.rests = pipeline, pairs, alive(pipeline), {}
        self.incoming = collections.defaultdict(list)
        for source, target, label in pipeline.edges:
            self.incoming[target].append((source, label))
        for number in pipeline.kinds:
            if pipeline.kinds[number] == "source":
                self.rests[identifier(pipeline, number)] = frozenset()
        self.settled = set()
        for number in pipeline.tags:
            self.settle(number)

    def feeders(self, number):
        """Returns the channels that come to a process, behind operators and processes without tasks."""
        found, seen, waiting = set(), set(), [number]
        while waiting:
            for source, label in self.incoming[waiting.pop()]:
                if self.pipeline.kinds[source] == "source" or self.pipeline.tags.get(source):
                    found.add((source, label))
                elif source not in seen:
                    seen.add(source)
                    waiting.append(source)
        return found

    def settle(self, number):
        """Finds on what the results of a process rest, those of the processes before it first."""
        if number in self.settled:
            return
        self.settled.add(number)
        feeders = self.feeders(number)
        for source, _ in feeders:
            if source in self.pipeline.tags:
                self.settle(source)
        for tag in self.alive[number]:
            rests = set()
            for source, label in feeders:
                for value in self.given(source, label, tag):
                    rests |= {value} | self.rests[value]
            for label in self.labels(number):
                self.rests[self.name(number, tag, label)] = frozenset(rests)

    def given(self, source, label, tag):
        """Returns the values that a task reads of a channel."""
        if source not in self.pipeline.tags:
            return [identifier(self.pipeline, source)]
        tags = self.alive[source]
        if self.pairs and isinstance(tag, str) and tag in tags:
            tags = [tag]
        return [self.name(source, other, label or "out") for other in tags]

    def labels(self, number):
        """Returns the labels of the channels of a process."""
        return {label or "out" for source, _, label in self.pipeline.edges if source == number} or {"out"}

    def name(self, number, tag, label):
        """Returns the name of a value."""
        return self.pipeline.labels[number] + ("" if tag is None else f" ({tag})") + f"/{label}"


def ran(program, *words):
    """Returns what the program writes, or fails."""
    done = subprocess.run([program, *words], stdout=subprocess.PIPE, stderr=subprocess.PIPE, check=False)
    if done.returncode:
        raise AssertionError(f"wfprov {words[0]}: {done.stderr.decode().strip()}")
    return done.stdout


def items_of(path):
    """Returns the item of each value of a table, but for those of whole channels."""
    with open(path, encoding="utf-8") as text:
        rows = [line.rstrip("\n").split("\t") for line in text]
    return {row[1]: row[6] for row in rows if row[0] == "value" and not row[1].startswith("all of ")}


def one_case(program, folder, seed, counts):
    """Tries one pipeline, with the assumption or without."""
    draw = random.Random(seed)
    pipeline = Pipeline(draw, draw.choice(list(FORMS)))
    pairs = draw.random() < 0.5
    path = {word: os.path.join(folder, word) for word in ("trace", "dag", "spec", "events", "table", "view", "labels", "queries")}
    for word, text in (("trace", written_trace(pipeline)), ("dag", written_dag(pipeline)), ("view", "{}")):
        with open(path[word], "w", encoding="utf-8") as file:
            file.write(text)
    from_nextflow.complain = lambda line: None
    from_nextflow.work(["--assume", "tags-pair"] * pairs + [path[word] for word in ("trace", "dag", "spec", "events", "table")])
    expected = Expected(pipeline, pairs)
    items = items_of(path["table"])
    if items.keys() != expected.rests.keys():
        raise AssertionError(f"the values are others: {sorted(items.keys() ^ expected.rests.keys())[:4]}")
    questions = [(first, second) for first in items for second in items]
    questions = questions if len(questions) <= 400 else draw.sample(questions, 400)
    with open(path["queries"], "w", encoding="utf-8") as file:
        file.write("".join(f"{items[first]} {items[second]}\n" for first, second in questions))
    with open(path["labels"], "wb") as file:
        file.write(ran(program, "ingest", path["spec"], path["events"]))
    for word, source in (("trace", "events"), ("ask", "labels")):
        told = ran(program, word, path["spec"], path["view"], path[source], path["queries"]).decode().split()
        for (first, second), answer in zip(questions, told):
            want = "yes" if first in expected.rests[second] else "no"
            counts[f"answered {want}, " + ("by tags" if pairs else "without an assumption")] += word == "ask"
            if answer != want:
                raise AssertionError(f"{word} answers {answer} to {first} {second}, and {want} is wanted")
    counts["pipelines as " + FORMS[pipeline.form]] += 1
    counts["processes"] += len(pipeline.tags)
    counts["processes without tasks"] += sum(not tags for tags in pipeline.tags.values())
    counts["tasks that have no result"] += len(pipeline.lost)


def main(words):
    program, cases, seed = words[0], int(words[1]), int(words[2])
    counts = collections.Counter()
    with tempfile.TemporaryDirectory() as folder:
        for case in range(cases):
            try:
                one_case(program, folder, seed * 1000000 + case, counts)
            except (AssertionError, terminal.Wrong) as error:
                print(f"pipeline {case} of seed {seed}: {error}", file=sys.stderr)
                return 1
    print(f"{cases} pipelines of seed {seed}")
    for what in sorted(counts):
        print(f"  {what}: {counts[what]}")
    return 0


if __name__ == "__main__":
    sys.exit(main(sys.argv[1:]))
