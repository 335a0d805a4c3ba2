#!/usr/bin/env python3
"""Turns the trace and the DAG of a Nextflow pipeline, or its manifest by nf-prov, into SPEC and EVENTS of wfprov, and a table of its results.

  nextflow run PIPELINE -with-trace TRACE -with-dag DAG
  python3 tools/from_nextflow.py [--assume tags-pair] [--coarse] TRACE DAG SPEC EVENTS TABLE
  python3 tools/from_nextflow.py [--assume values-equal] [--coarse] MANIFEST SPEC EVENTS TABLE

MANIFEST is what the plugin nf-prov writes: its manifest (the format `legacy`), which tells which task read and made which file, or its
RO-Crate (`wrroc`), which tools/from_rocrate.py reads. With it nothing that is said of TRACE and DAG below holds.

TRACE is the trace file: tab separated, with its header, with the columns `name` and `status`; the columns `process`, `tag` and
`container` are used where they are there. DAG is the graph as DOT, as Mermaid in the older or the newer form, or as HTML with Mermaid in
it; its text tells which.

What becomes of the tasks
  COMPLETED, CACHED    an action, under the name of the task. A second task of a name is `NAME #2`, and so on. What it put on each of the
                       channels of its process is a value, `NAME/LABEL`; a channel without a label is `out`.
  FAILED, ABORTED      the action `NAME failed`, also where the task was tried again or ignored: it has no result
  NEW, PENDING, SUBMITTED, RUNNING    the action `NAME never`, which came to no end and has no result
  The workflows A and B of a process A:B:C are groups, so they become modules where the run can be cut so.

How coarse an answer is. The DAG tells which process feeds which, and the trace does not tell which task fed which. So a task is taken to
have read all that the tasks of the processes before it gave, and all outputs of a task rest on all that it read. `yes` means that a way
leads through the processes, and perhaps no task took it. `no` means that no way leads. Standard error names each process and what its
tasks are taken to have read. What a process with several tasks gave is gathered: `channel PROCESS.LABEL` is an action that makes
`PROCESS.LABEL` of it.
  --assume tags-pair   A task with a tag takes, of each process before it that has tasks with this tag, what these tasks gave, and nothing
                       of others. So samples stay apart, also where a report reads all of them. Whether a pipeline pairs by tags its
                       author knows: one that pairs channels as they come may swap samples, and this option would hide it.
  --coarse             as tools/from_actions.py has it
  - Operators hand on all that comes to them. A process without tasks does so too, since its results may come from elsewhere
    (`storeDir`).
  - A channel with no maker, as of Channel.fromPath, came from outside: the value `ID-LABEL`, by its ID and label in the DAG.
  - Without the column `tag`, a number in the parentheses of a task's name may be its index, so it is no tag.

What becomes of a manifest
  a task         an action, under its name; a second task of a name is `NAME #2`. One with `cached` is a cached one; nf-prov leaves out those that
                 failed. The workflows A and B of a process A:B:C are groups.
  a file         what begins with `/` or a scheme, as `s3:`. It is a value, named by its path in the work folder; PATH is that at which it was
                 published, if it was. A file that was read or published, in a folder that a task made or in the folder of a task, is of that
                 task. Who read a folder read each file in it that is in the manifest. A task did not make what it also read.
  from outside   a file that no task made, unless an operator may have made it
  another value  that a task gave and did not get is a value, `TASK/ROLE VALUE`. So is a path outside the work folder that several tasks gave.

The manifest does not tell what operators, as `map` and `collectFile`, made. What is taken as coarsely as it allows is said on standard error,
by process: it is taken to rest on all that the tasks before its first reader read and made, by the numbers of the tasks.
  - A value that is no file and that a task got. With `--assume values-equal` the operators hand on values as they are: it is what each
    earlier task gave that is equal, and if none did, it came from outside. A pipeline with a `meta` in all its tasks has it all over, so
    samples stay apart with the assumption alone.
  - A file that no task made and that stands in the work folder, or in the folder around all that was published. If the work folder stands
    in that one too, the folders are meant in which something was published.
It is assumed that operators make files nowhere else.

TABLE is as tools/from_actions.py describes it.

Refused, with the file and the line: a process that the DAG lacks or has twice; another status; a cycle; a line that Nextflow does not
write; HTML without Mermaid; an operator without an input; an end with two edges. Of a manifest, with the task: a file that two tasks made, one
that is named by a place at which several were published, and what is no manifest. And what tools/from_actions.py refuses. Nothing is written then.

This tool is no part of what is proved. It needs Python's standard library alone.
"""
import html
import os
import re
import sys

sys.path.insert(0, os.path.dirname(os.path.abspath(__file__)))
import actions
import from_rocrate
import nextflow_manifest
import outputs
import terminal

STATES = {"COMPLETED": "done", "CACHED": "cached", "FAILED": "failed", "ABORTED": "failed",
          "NEW": "never", "PENDING": "never", "SUBMITTED": "never", "RUNNING": "never"}
# The assumption that may be made, by how many paths there are.
ASSUMPTIONS = {5: "tags-pair", 4: "values-equal"}
USAGE = ("the words are [--assume tags-pair] [--coarse] TRACE DAG SPEC EVENTS TABLE, or [--assume values-equal] [--coarse] MANIFEST SPEC EVENTS TABLE;"
         " see --help")
# Operators of Nextflow, by which the newer form of Mermaid tells them from processes.
OPERATORS = frozenset(
    "map flatMap flatten filter transpose view dump set tap branch multiMap"
    " buffer collate collect collectFile combine concat count countBy countFasta countFastq countJson countLines cross distinct first"
    " groupBy groupTuple ifEmpty last max merge min mix join randomSample reduce splitCsv splitFasta splitFastq splitJson splitText"
    " subscribe sum take toDouble toFloat toInteger toList toLong toSortedList unique until".split())


def refuse(place, what):
    """Refuses what stands at a place."""
    raise terminal.Wrong(f"{place}: {what}")


def lines_of(path):
    """Yields the lines of a file with their places."""
    try:
        with open(path, "rb") as file:
            for number, line in enumerate(file, 1):
                place = f"{path} line {number}"
                try:
                    yield place, line.decode("utf-8").rstrip("\n").removesuffix("\r")
                except UnicodeDecodeError:
                    refuse(place, "the text is not UTF-8")
    except OSError as error:
        refuse(path, terminal.reason(error))


def mermaid_in(path, lines):
    """Returns the lines of the Mermaid that stands in HTML."""
    found, inside = [], False
    for place, line in lines:
        if not inside and re.search(r"<(pre|div)[^>]*class=[\"']?mermaid", line):
            inside, line = True, line.partition(">")[2]
        if inside and re.search("</(pre|div)>", line):
            return found + [(place, html.unescape(line.partition("</")[0]).strip())]
        if inside:
            found.append((place, html.unescape(line)))
    return refuse(path, "the HTML has no Mermaid in it, as newer releases of Nextflow write it")


# The trace.


def header(place, line):
    """Returns the number of each column."""
    words = line.split("\t")
    columns = {}
    for number, word in enumerate(words):
        if columns.setdefault(word.strip(), number) != number:
            refuse(place, f"the column `{word.strip()}` stands twice")
    for word in ("name", "status"):
        if word not in columns:
            refuse(place, f"the header of a trace has a column `{word}`, and this has none")
    return columns


def named_task(place, name):
    """Returns the process and the tag that the name of a task tells. A number may be an index, so it is no tag."""
    process, behind, rest = name.partition(" (")
    if not process or behind and not rest.endswith(")"):
        refuse(place, f"`{name}` is no name of a task, as `PROCESS` or `PROCESS (TAG)`")
    tag = rest[:-1] if behind else ""
    return process, None if tag == "" or re.fullmatch("[0-9]+", tag) else tag


def task_of(place, fields, columns):
    """Returns the process and the tag of a task, or None for no tag, by the columns that are there."""
    name = fields[columns["name"]]
    process, tag = named_task(place, name)
    if "process" in columns:
        process = fields[columns["process"]]
        if name != process and not name.startswith(f"{process} ("):
            refuse(place, f"the task `{name}` is not one of the process `{process}` that its line tells")
    if "tag" in columns:
        tag = fields[columns["tag"]]
        tag = None if tag in ("", "-") else tag
        if tag is not None and name != f"{process} ({tag})":
            refuse(place, f"the task `{name}` has not the tag `{tag}` that its line tells")
    return process, tag


class Task:
    """A task of the trace: its process, its tag or None, its name, which differs from all others, its state, its container and its place."""

    def __init__(self, process, tag, name, state, container, place):
        self.process, self.tag, self.name, self.state, self.container, self.place = process, tag, name, state, container, place

    def happened(self):
        """Returns whether its results are there."""
        return self.state in ("done", "cached")


class Trace:
    """For each process its tasks, in order."""

    def __init__(self, path):
        self.tasks, self.counts = {}, {}
        lines = lines_of(path)
        place, line = next(lines, (f"{path} line 1", ""))
        columns = header(place, line)
        width = len(line.split("\t"))
        for place, line in lines:
            fields = line.split("\t")
            if len(fields) != width:
                refuse(place, f"the line has {len(fields)} fields, and the header {width}")
            self.take(place, fields, columns)

    def take(self, place, fields, columns):
        """Takes the line of one task. A later task of a name gets a number."""
        name, status = fields[columns["name"]], fields[columns["status"]]
        process, tag = task_of(place, fields, columns)
        if status not in STATES:
            refuse(place, f"the status `{status}` is none of a task")
        name = name if STATES[status] in ("done", "cached") else f"{name} {STATES[status]}"
        count = self.counts[name] = self.counts.get(name, 0) + 1
        container = fields[columns["container"]] if "container" in columns else ""
        task = Task(process, tag, name if count == 1 else f"{name} #{count}", STATES[status], container.strip("-"), place)
        self.tasks.setdefault(process, []).append(task)


# The DAG.


class Vertex:
    """A vertex: its kind is `process`, `operator` or `end`, and later `source` or `final` for an end."""

    def __init__(self, identifier, kind, label, place):
        self.identifier, self.kind, self.label, self.place = identifier, kind, label, place
        self.incoming, self.outgoing = [], []


class Edge:
    """An edge between two vertices, with its label."""

    def __init__(self, source, target, label, place):
        self.source, self.target, self.label, self.place = source, target, label, place
        target.incoming.append(self)
        source.outgoing.append(self)


class Dag:
    """The vertices with their edges, in the order of the file."""

    def __init__(self, path):
        self.vertices, found = {}, []
        lines = [(place, line.strip()) for place, line in lines_of(path) if line.strip()]
        if lines and re.match("<!doctype html|<html", lines[0][1], re.IGNORECASE):
            lines = [(place, line) for place, line in mermaid_in(path, lines) if line]
        place, line = lines[0] if lines else (f"{path} line 1", "")
        if line.startswith("digraph"):
            found = read_dot(self, lines)
        elif re.fullmatch("flowchart (TD|TB|LR|BT|RL)", line):
            found = read_mermaid(self, lines[1:])
        else:
            refuse(place, "a DAG begins with `digraph` (DOT) or `flowchart` (Mermaid), and this does not")
        for place, source, target, label in found:
            self.connect(place, source, target, label)
        self.set_ends()
        self.refuse_cycle()

    def declare(self, identifier, kind, label, place):
        """Takes a vertex. DOT repeats it at each of its edges."""
        vertex = self.vertices.setdefault(identifier, Vertex(identifier, kind, label, place))
        if (vertex.kind, vertex.label) != (kind, label):
            refuse(place, f"`{identifier}` is another vertex than before ({vertex.place})")

    def connect(self, place, source, target, label):
        """Takes an edge."""
        for identifier in (source, target):
            if identifier not in self.vertices:
                refuse(place, f"`{identifier}` is no vertex of the DAG")
        Edge(self.vertices[source], self.vertices[target], label, place)

    def set_ends(self):
        """Tells sources and final outputs apart, and refuses vertices with edges that have no meaning."""
        for vertex in self.vertices.values():
            if vertex.kind == "operator" and not vertex.incoming:
                refuse(vertex.place, f"the operator `{vertex.identifier}` has no input")
            if vertex.kind != "end":
                continue
            if vertex.incoming and vertex.outgoing:
                refuse(vertex.place, f"`{vertex.identifier}` is an end, and has edges on both sides")
            if len(vertex.incoming) > 1:
                refuse(vertex.place, f"`{vertex.identifier}` is an end that nothing reads, and {len(vertex.incoming)} edges lead to it")
            vertex.kind = "final" if vertex.incoming else "source"

    def refuse_cycle(self):
        """Refuses a cycle, with an edge on it."""
        waiting = {vertex: len(vertex.incoming) for vertex in self.vertices.values()}
        ready = [vertex for vertex, number in waiting.items() if number == 0]
        while ready:
            vertex = ready.pop()
            del waiting[vertex]
            for edge in vertex.outgoing:
                waiting[edge.target] -= 1
                if waiting[edge.target] == 0:
                    ready.append(edge.target)
        if waiting:
            way, passed = next(iter(waiting)), {}
            while way not in passed:
                passed[way] = next(edge for edge in way.incoming if edge.source in waiting)
                way = passed[way].source
            edge = passed[way]
            refuse(edge.place, f"the edge from `{edge.source.identifier}` to `{edge.target.identifier}` is on a cycle")


ATTRIBUTE = r'(?:shape|label|xlabel|fixedsize|width)=(?:"[^"]*"|[^\s",\]]+)'
DOT_LINE = re.compile(rf'(\w+)(?: -> (\w+))?(?: \[({ATTRIBUTE}(?:, ?{ATTRIBUTE})*)\])?;?')
DOT_KINDS = {None: "process", "point": "end", "circle": "operator"}


def attributes(text):
    """Returns the attributes of a line of DOT."""
    pairs = re.findall(r'(\w+)=("[^"]*"|[^\s",\]]+)', text or "")
    return {key: value.strip('"') for key, value in pairs}


def dot_vertex(dag, place, identifier, given):
    """Takes a vertex of DOT, whose shape tells its kind."""
    shape = given.get("shape")
    if shape not in DOT_KINDS:
        refuse(place, f"`{identifier}` has the shape `{shape}`, which is none of a process, an operator or an end")
    label = given.get("label", "") if shape is None else given.get("xlabel", "")
    if shape is None and not label:
        refuse(place, f"the process `{identifier}` has no label")
    dag.declare(identifier, DOT_KINDS[shape], label, place)


def read_dot(dag, lines):
    """Takes the vertices of DOT, and returns the edges."""
    found, (place, line) = [], lines[0]
    if not re.fullmatch(r'digraph (?:"[^"]*"|\w+) ?\{', line):
        refuse(place, "the first line of DOT is not `digraph \"NAME\" {`")
    if lines[-1][1] != "}":
        refuse(lines[-1][0], "the last line of DOT is not `}`")
    for place, line in lines[1:-1]:
        if re.fullmatch("rankdir=(TB|TD|LR|BT|RL);?", line):
            continue
        match = DOT_LINE.fullmatch(line)
        if not match:
            refuse(place, f"`{line}` is no line of DOT that Nextflow writes")
        identifier, target, given = match[1], match[2], attributes(match[3])
        if target is None:
            dot_vertex(dag, place, identifier, given)
        elif given.keys() <= {"label"}:
            found.append((place, identifier, target, given.get("label", "")))
        else:
            refuse(place, f"`{line}` is no edge that Nextflow writes")
    return found


MERMAID_EDGE = re.compile(r"(\w+) -->(?:\|([^|]*)\|)? ?(\w+)")
MERMAID_SHAPES = {
    "quoted": re.compile(r'(\w+)\["([^"]*)"\]'), "square": re.compile(r'(\w+)\[([^"\[\](]+)\]'),
    "round": re.compile(r"(\w+)\(\[([^\[\]]+)\]\)"), "ring": re.compile(r"(\w+)\(\((.*)\)\)"),
}
SUBGRAPH = re.compile(r'subgraph (?:"([^"\[\]]+?)(?: \[[^"\[\]]*\])?"|([\w:]+)(?: ?\[[^\[\]]*\])?)')
OLDER = {"square": "process", "round": "operator", "ring": "end"}
NEWER = {"quoted": "end", "round": "process", "ring": "operator"}


def mermaid_shape(line):
    """Returns the shape, the vertex and the label of a line, and None if it is no vertex."""
    for shape, pattern in MERMAID_SHAPES.items():
        match = pattern.fullmatch(line)
        if match:
            return shape, match[1], match[2].strip()
    return None


def read_mermaid(dag, lines):
    """Takes the vertices of Mermaid, and returns the edges. A box without quotes or a ring with a label stands in the older form alone."""
    shapes = [mermaid_shape(line) for _, line in lines]
    older = any(shape and (shape[0] == "square" or shape[0] == "ring" and shape[2]) for shape in shapes)
    found, around = [], []
    for (place, line), shape in zip(lines, shapes):
        edge, subgraph = MERMAID_EDGE.fullmatch(line), SUBGRAPH.fullmatch(line)
        if edge:
            found.append((place, edge[1], edge[3], edge[2] or ""))
        elif shape and shape[0] in (OLDER if older else NEWER):
            mermaid_vertex(dag, place, shape, around, older)
        elif subgraph and not older:
            around.append((place, full_name((subgraph[1] or subgraph[2]).strip(), around)))
        elif line == "end" and around:
            around.pop()
        else:
            refuse(place, f"`{line}` is no line of Mermaid in the {'older' if older else 'newer'} form that Nextflow writes")
    if around:
        refuse(around[-1][0], "the subgraph has no `end`")
    return found


def full_name(name, around):
    """Returns the full name of a process or a subgraph: with a colon it is full, and otherwise it stands behind that of the subgraph around."""
    outer = around[-1][1] if around else ""
    return name if ":" in name or not outer else f"{outer}:{name}" if name else outer


def mermaid_vertex(dag, place, shape, around, older):
    """Takes a vertex of Mermaid. In the newer form the subgraphs around a process are the beginning of its name."""
    form, identifier, label = shape
    kind = (OLDER if older else NEWER)[form]
    if kind == "process" and not older and label in OPERATORS:
        kind = "operator"
    dag.declare(identifier, kind, full_name(label, around) if kind == "process" else label, place)


# The record of actions.


class Converter:
    """Makes the record of actions of a trace and a DAG that were read."""

    def __init__(self, trace, dag, dag_path, pairs):
        self.trace, self.dag, self.pairs = trace, dag, pairs
        self.record, self.notes, self.channels, self.feeding = actions.Record(), {}, {}, {}
        self.processes = [vertex for vertex in dag.vertices.values() if vertex.kind == "process"]
        self.match(dag_path)
        for vertex in dag.vertices.values():
            if vertex.kind == "source":
                label = vertex.label or next((edge.label for edge in vertex.outgoing), "")
                name = f"{vertex.identifier}-{label}" if label else vertex.identifier
                self.record.add_value(actions.Value(vertex.identifier, name, "", True, vertex.place))
        for vertex in self.processes:
            for task in trace.tasks.get(vertex.label, []):
                self.add_values(vertex, task)
        for vertex in self.processes:
            for task in trace.tasks.get(vertex.label, []):
                self.add_task(vertex, task)

    def match(self, dag_path):
        """Refuses a process that the DAG lacks or has twice. One that the trace lacks hands on what comes to it."""
        known = {}
        if not self.processes:
            refuse(f"{dag_path} line 1", "the DAG has no process")
        for vertex in self.processes:
            other = known.setdefault(vertex.label, vertex)
            if other is not vertex:
                refuse(vertex.place, f"the process `{vertex.label}` stands twice in the DAG, and before on {other.place}")
            if vertex.label not in self.trace.tasks:
                self.notes[f"{vertex.label}: the trace has no task of it: it is taken to have handed on all that came to it"] = True
        for process, tasks in self.trace.tasks.items():
            if process not in known:
                refuse(tasks[0].place, f"the DAG has no process `{process}`")

    @staticmethod
    def ports(vertex):
        """Returns the labels of the channels of a process. What has no label is `out`, and so is what nothing reads."""
        return list(dict.fromkeys(edge.label or "out" for edge in vertex.outgoing)) or ["out"]

    @staticmethod
    def group(process):
        """Returns the workflows around a process, as its name tells them."""
        parts = process.split(":")[:-1]
        return [(part, ":".join(parts[:number])) for number, part in enumerate(parts, 1)]

    def add_values(self, vertex, task):
        """Takes what a task put on its channels."""
        for port in self.ports(vertex) if task.happened() else ():
            self.record.add_value(actions.Value(f"{task.name}/{port}", place=task.place))

    def add_task(self, vertex, task):
        """Takes a task as an action."""
        used = [(label or "out", value) for maker, label in self.feeders(vertex) for value in self.read(vertex, task, maker, label)]
        made = [(port, f"{task.name}/{port}") for port in self.ports(vertex)] if task.happened() else []
        self.record.add_action(actions.Action(task.name, task.process, list(dict.fromkeys(used)), made, self.group(task.process),
                                              task.state, task.container, task.place))

    def feeders(self, vertex):
        """Returns the channels that come to a process, each its maker and its label, through operators and processes without tasks."""
        if vertex not in self.feeding:
            found, waiting, seen = [], list(vertex.incoming), set()
            while waiting:
                edge = waiting.pop(0)
                if edge.source.kind == "source" or edge.source.kind == "process" and edge.source.label in self.trace.tasks:
                    found.append((edge.source, edge.label))
                elif edge.source not in seen:
                    seen.add(edge.source)
                    waiting += edge.source.incoming
            self.feeding[vertex] = list(dict.fromkeys(found))
        return self.feeding[vertex]

    def read(self, vertex, task, maker, label):
        """Returns what a task is taken to have read of a channel."""
        if maker.kind == "source":
            return [maker.identifier]
        tasks = [other for other in self.trace.tasks[maker.label] if other.happened()]
        if self.pairs and task.tag is not None and any(other.tag == task.tag for other in tasks):
            tasks = [other for other in tasks if other.tag == task.tag]
        elif len(tasks) > 1:
            self.notes[f"{vertex.label}: each of its tasks is taken to have read all that the tasks of `{maker.label}` gave"] = True
            return [self.channel(maker, label or "out", tasks)]
        return [f"{other.name}/{label or 'out'}" for other in tasks]

    def channel(self, maker, port, tasks):
        """Returns what a process put on a channel as a whole."""
        name = f"{maker.label}.{port}"
        if name not in self.channels:
            self.channels[name] = f"all of {name}"
            self.record.add_value(actions.Value(self.channels[name], place=maker.place))
            self.record.add_action(actions.Action(f"channel {name}", "channel", [(port, f"{task.name}/{port}") for task in tasks],
                                                  [("all", self.channels[name])], self.group(maker.label), place=maker.place))
        return self.channels[name]


def complain(line):
    """Says on standard error what is coarse."""
    terminal.complain("from_nextflow.py", line)


def by_manifest(path, equal):
    """Returns the record and the notes of a manifest of nf-prov, or of its crate, and the file that was read."""
    path = os.path.join(path, from_rocrate.FILE) if os.path.isdir(path) else path
    value = nextflow_manifest.load(path)
    if "@graph" in value and equal:
        refuse("call", "`values-equal` is an assumption on a manifest, and this is an RO-Crate")
    if "@graph" in value:
        made = from_rocrate.Import(from_rocrate.Crate(path))
    elif "tasks" in value:
        made = nextflow_manifest.Manifest(value, path, equal)
    else:
        refuse(path, "this is neither a manifest of nf-prov, which has `tasks`, nor an RO-Crate, which has `@graph`")
    return made.record, made.notes, path


def parsed(words):
    """Returns the assumption, whether what cannot be cut is to be coarse, and the paths."""
    assumed, coarse, paths, given = "", False, [], iter(words)
    for word in given:
        if word == "--assume":
            assumed = next(given, "")
            if assumed not in ASSUMPTIONS.values():
                refuse("call", f"`{assumed}` is no assumption; `tags-pair` and `values-equal` are")
        elif word == "--coarse":
            coarse = True
        else:
            paths.append(word)
    if assumed not in ("", ASSUMPTIONS.get(len(paths))) or len(paths) not in ASSUMPTIONS or any(path.startswith("--") for path in paths):
        refuse("call", USAGE)
    return assumed, coarse, paths


def work(words):
    """Imports what the words name."""
    assumed, coarse, paths = parsed(words)
    if len(paths) == 4:
        record, notes, read = by_manifest(paths[0], bool(assumed))
    else:
        converter = Converter(Trace(paths[0]), Dag(paths[1]), paths[1], bool(assumed))
        record, notes, read = converter.record, converter.notes, None
    made = actions.imported(record, coarse)
    outputs.write_all(list(zip(paths[-3:], (made.spec, made.events, made.table))), paths[:2] if read is None else [read])
    for note in [*notes, *made.notes]:
        complain(note)


if __name__ == "__main__":
    sys.exit(terminal.run("from_nextflow.py", __doc__, work))
