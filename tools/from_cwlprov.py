#!/usr/bin/env python3
"""Turns a run that CWLProv describes into SPEC and EVENTS of wfprov, and a table that says which item is which file.

  cwltool --provenance FOLDER WORKFLOW JOB
  python3 tools/from_cwlprov.py [--coarse] [--workflow DOCUMENT] FOLDER SPEC EVENTS TABLE

FOLDER is what cwltool writes: its metadata/provenance/primary.cwlprov.json, the files that this names beside it, and its
workflow/packed.cwl, in place of which --workflow names another packed document. In place of FOLDER the primary file may be given, and
then --workflow must be. Where the record says of an input of the run nothing, workflow/primary-job.json does, if it is there.

The record says which execution used and made which file. The document says from where each input of a step may come. The two are
compared. A file that an execution used is
  - what another execution made, where the record has it under the same name of an entity,
  - otherwise what has the same content, among all that the document lets come there. Where these are several, all of them are taken,
  - otherwise, where `valueFrom` or an expression made it, all that the document lets come there.
So scattered steps stay apart, in whatever form they are scattered, also where the step is a workflow. What is taken for more than the
record may mean is said on standard error, step by step.
  - The record does not say what an ExpressionTool read and made. One is taken to have read all that the document lets come to it, and
    to have made what comes from it. Where it is scattered, its executions are one.
  - What a step reads for `when` or for `valueFrom` alone counts as what its executions read: all that may come there.
  - A step that was skipped, or did not come to be run, has no execution, and is not there. But where what it makes was used, as after
    --cachedir and --parallel, of which cwltool records no executions, it is taken to have read all that the document lets come to it.
  - An execution that has no end and made nothing failed. cwltool does not record that one failed which made what it should.
  - An array is its members, and an empty one is nothing, as is an input to which nothing came. A folder is a value, and so is each file in
    it.

TABLE is as tools/from_actions.py describes it. The name of an action is the path of its step, with the number that the record gives it, as
`each_2/sort_2`; ID is the name of the entity, PATH the name of the file without folders, CHECKSUM its SHA-1 as `sha1$HEX`. SOFTWARE is what
DockerRequirement and SoftwareRequirement name.

Refused, with both places: an execution of a step that the document does not have; an input that its tool does not have; a file that came
from elsewhere than the document lets it come from. Also a file that is missing or no CWLProv, and what tools/from_actions.py refuses.
Nothing is written then.

This tool is no part of what is proved. It needs Python's standard library alone.
"""
import json
import os
import re
import sys
from urllib.parse import unquote

sys.path.insert(0, os.path.dirname(os.path.abspath(__file__)))
import actions
import outputs
import terminal

HEAD = ""
# What cwltool writes where nothing came to an input.
NOTHING = "cwlprov:None"


def refuse(place, what):
    """Refuses what stands at a place."""
    raise terminal.Wrong(f"{place}: {what}")


def load(path, read):
    """Returns the JSON object of a file, whose path is noted among those that were read."""
    read.append(path)
    try:
        value = json.loads(terminal.read_text(path))
    except json.JSONDecodeError as error:
        refuse(f"{path}: line {error.lineno}", f"no JSON: {error.msg}")
    except (ValueError, RecursionError) as error:
        refuse(path, f"no JSON: {error}")
    return value if isinstance(value, dict) else refuse(path, "no JSON object")


def listed(value):
    """Returns a value as a list: an absent one is empty, and what is no list stands alone."""
    return [] if value is None else value if isinstance(value, list) else [value]


def named(value, place):
    """Returns the entries of a list of objects with `id`, or of a map of them, each with its id."""
    if isinstance(value, dict):
        return [(name, entry if isinstance(entry, dict) else {"source": entry}) for name, entry in value.items()]
    found = []
    for entry in listed(value):
        entry = {"id": entry} if isinstance(entry, str) else entry
        if isinstance(entry, dict) and isinstance(entry.get("$import"), str):
            refuse(place, f"the step `{last(entry['$import'])}` is not in it: cwltool leaves out a step that has the name of an input or an output")
        if not isinstance(entry, dict) or not isinstance(entry.get("id"), str):
            refuse(place, "an entry has no `id`")
        found.append((entry["id"], entry))
    return found


def last(text):
    """Returns the last part of an id."""
    return text.rpartition("/")[2].rpartition("#")[2]


class Step:
    """A step: its name, the id of what it runs, and for each input the texts of its sources and whether `valueFrom` changes it."""

    def __init__(self, name, run, entry, place):
        self.name, self.run, self.place = name, run, place
        self.sources, self.changed = {}, set()
        for identity, given in named(entry.get("in"), place):
            port = last(identity)
            self.sources[port] = [text for text in listed(given.get("source", given.get("outputSource"))) if isinstance(text, str)]
            if given.get("valueFrom") is not None:
                self.changed.add(port)
        self.is_conditional = entry.get("when") is not None
        self.is_scattered = bool(listed(entry.get("scatter")))


class Process:
    """A workflow or a tool: its class, its inputs, the sources of its outputs, its steps, and its software in words."""

    def __init__(self, identity, given, place):
        self.identity, self.given, self.place = identity, given, place
        self.kind = given.get("class")
        self.inputs = {last(name) for name, _ in named(given.get("inputs"), place)}
        self.outputs = {last(name): [text for text in listed(entry.get("outputSource", entry.get("source"))) if isinstance(text, str)]
                        for name, entry in named(given.get("outputs"), place)}
        self.steps = {}

    def end(self, source):
        """Returns the step and the port that a source names. The step is HEAD for an input of the workflow."""
        text = source[1:] if source.startswith("#") else source
        if text.startswith(self.identity + "/"):
            text = text[len(self.identity) + 1:]
        step, _, port = text.rpartition("/")
        step = last(step) if step else HEAD
        if step == HEAD and port not in self.inputs or step != HEAD and step not in self.steps:
            refuse(self.place, f"the source `{source}` is neither an input nor an output of a step")
        return step, port

    def software(self):
        """Returns the container and the packages of a tool."""
        found = []
        for part in ("requirements", "hints"):
            given = self.given.get(part)
            entries = given.items() if isinstance(given, dict) else [(entry.get("class"), entry) for entry in listed(given) if isinstance(entry, dict)]
            for kind, entry in entries:
                if kind == "DockerRequirement" and isinstance(entry, dict):
                    found.append(str(entry.get("dockerPull") or entry.get("dockerImageId") or ""))
                if kind == "SoftwareRequirement" and isinstance(entry, dict):
                    packages = entry.get("packages")
                    packages = packages.items() if isinstance(packages, dict) else [(package.get("package"), package) for package in listed(packages)]
                    found += [" ".join([str(name), *map(str, listed((package or {}).get("version")))]) for name, package in packages]
        return "; ".join(filter(None, found))


class Document:
    """A packed document: its processes by their ids, and its workflow."""

    def __init__(self, value, path):
        self.path, self.processes = path, {}
        graph = value.get("$graph")
        for identity, entry in named(graph if graph is not None else [{"id": "#main", **value}], path):
            self.add(identity[1:] if identity.startswith("#") else identity, entry)
        workflows = [name for name, process in self.processes.items() if process.kind == "Workflow"]
        if not workflows:
            refuse(path, "the document has no workflow")
        self.start = "main" if "main" in workflows else workflows[0]

    def add(self, identity, given):
        """Takes a process, and what is embedded in its steps."""
        place = f"{self.path}: #{identity}"
        if identity in self.processes:
            refuse(place, "the process is there twice")
        process = self.processes[identity] = Process(identity, given, place)
        for name, entry in named(given.get("steps"), place):
            step, run = last(name), entry.get("run")
            if isinstance(run, dict):
                inner = run.get("id", f"{identity}/{step}/run")
                inner = inner[1:] if inner.startswith("#") else inner
                self.add(inner, run)
                run = "#" + inner
            if not isinstance(run, str):
                refuse(place, f"the step `{step}` runs nothing")
            process.steps[step] = Step(step, run[1:] if run.startswith("#") else run, entry, f"{place}/{step}")

    def run_of(self, step):
        """Returns the process that a step runs."""
        if step.run not in self.processes:
            refuse(step.place, f"it runs `{step.run}`, which is not in the document")
        return self.processes[step.run]


def texts(entry, member):
    """Returns the texts of a member of an object of PROV-JSON, each plain or typed."""
    values = [value.get("$") if isinstance(value, dict) else value for value in listed(entry.get(member))]
    return [value for value in values if isinstance(value, str)]


def entries_of(value, member):
    """Returns the objects of a member of a file of PROV-JSON, each with its name."""
    found = value.get(member, {})
    return [(name, entry) for name, parts in (found.items() if isinstance(found, dict) else ()) for entry in listed(parts) if isinstance(entry, dict)]


class Entities:
    """What the files of a record say of entities: members, contents, names; and what executions used and made, in which role."""

    def __init__(self):
        self.members, self.content, self.names, self.used, self.made, self.ended, self.folders, self.empty = {}, {}, {}, {}, {}, set(), set(), {NOTHING}

    def take(self, value):
        """Takes what a file says. Files of nested workflows repeat what others say."""
        for _, entry in entries_of(value, "hadMember"):
            for whole, part in zip(texts(entry, "prov:collection"), texts(entry, "prov:entity")):
                self.members.setdefault(whole, {})[part] = True
        for _, entry in entries_of(value, "specializationOf"):
            for special, general in zip(texts(entry, "prov:specificEntity"), texts(entry, "prov:generalEntity")):
                self.content[special] = general
        for name, entry in entries_of(value, "entity"):
            self.names.update({name: text for text in texts(entry, "cwlprov:basename")})
            kinds = texts(entry, "prov:type")
            if any(kind.endswith((":Folder", ":Dictionary", ":EmptyDictionary")) for kind in kinds):
                self.folders.add(name)
            elif "prov:EmptyCollection" in kinds:
                self.empty.add(name)
            if "prov:value" in entry and not name.startswith("data:"):
                self.content.setdefault(name, "value " + json.dumps(entry["prov:value"], sort_keys=True))
        for member, table in (("used", self.used), ("wasGeneratedBy", self.made)):
            for _, entry in entries_of(value, member):
                for activity, entity in zip(texts(entry, "prov:activity"), texts(entry, "prov:entity")):
                    role = unquote(last((texts(entry, "prov:role") or [""])[0]))
                    table.setdefault(activity, {})[entity, role] = True
        self.ended.update(name for _, entry in entries_of(value, "wasEndedBy") for name in texts(entry, "prov:activity"))

    def parts(self, entity):
        """Returns the members of an array, of arrays in it too; what is no array is its own only part. A folder is a part, and its files are. An
        empty array has none, and so has nothing."""
        found, waiting, seen = [], [entity], set()
        while waiting:
            name = waiting.pop()
            if name in seen:
                continue
            seen.add(name)
            if name not in self.members and name not in self.empty or name in self.folders:
                found.append(name)
            waiting += reversed(list(self.members.get(name, ())))
        return found

    def same(self, entity):
        """Returns what tells the content of an entity."""
        return self.content.get(entity, entity if entity.startswith("data:") else None)


def files_in(given):
    """Yields the name and the checksum of each file in an input of a run: of arrays, of folders, and of files beside files too."""
    waiting = [given]
    while waiting:
        here = waiting.pop()
        if isinstance(here, dict):
            if here.get("class") == "File":
                yield tuple(word if isinstance(word, str) else "" for word in (here.get("basename"), here.get("checksum")))
            here = [here[part] for part in ("secondaryFiles", "listing") if part in here] if "class" in here else list(here.values())
        waiting += reversed(here) if isinstance(here, list) else []


class Execution:
    """An execution of a workflow: its process, its path and groups, the executions of its steps, the one around it and its step there."""

    def __init__(self, process, path, group, outer=None, step=None):
        self.process, self.path, self.group, self.outer, self.step = process, path, group, outer, step
        self.leaves, self.inner = {}, {}


class Reading:
    """Reads the executions of a record from its files, beside which may stand a list of the inputs of the run."""

    def __init__(self, path, document, read, job=None):
        self.document, self.read, self.path, self.folder, self.job = document, read, path, os.path.dirname(path), job or {}
        self.entities, self.seen, self.start = Entities(), set(), None
        self.top = Execution(document.processes[document.start], "", ())
        self.waiting = [(path, self.top)]
        for file, execution in self.waiting:
            self.file(file, execution)
        if self.start is None:
            refuse(path, "it has no execution of a workflow")

    def file(self, path, execution):
        """Takes a file, which is that of an execution of a workflow."""
        value = load(path, self.read)
        if not entries_of(value, "activity"):
            refuse(path, "no file of CWLProv: it has no `activity`")
        self.entities.take(value)
        plans = {}
        for _, entry in entries_of(value, "wasAssociatedWith"):
            plans.update(zip(texts(entry, "prov:activity"), texts(entry, "prov:plan")))
        kinds, files = {}, {}
        for name, entry in entries_of(value, "activity"):
            kinds.setdefault(name, set()).update(texts(entry, "prov:type"))
            files.setdefault(name, []).extend(os.path.join(self.folder, os.path.basename(text.partition(":")[2]))
                                              for text in texts(entry, "prov:has_provenance") if text.endswith(".json"))
        for name, kind in kinds.items():
            if "wfprov:WorkflowRun" in kind and execution is self.top and self.start is None:
                self.start = name
            elif "wfprov:ProcessRun" in kind and (name not in self.seen or files[name]):
                self.seen.add(name)
                self.step(name, unquote(last(plans.get(name, ""))), files[name], execution, f"{path}: {name}")

    def step(self, activity, title, files, execution, place):
        """Takes an execution of a step. Those of an ExpressionTool have no step in the record, and are not needed."""
        steps = execution.process.steps
        stem, _, number = title.rpartition("_")
        name = title if title in steps else stem if number.isdecimal() and stem in steps else None
        if not title:
            return
        if name is None:
            refuse(place, f"the execution `{title}` is one of no step of {execution.process.place}")
        step = steps[name]
        if self.document.run_of(step).kind != "Workflow":
            execution.leaves.setdefault(name, []).append((activity, title))
            return
        if not files:
            refuse(place, f"the execution `{title}` of a workflow names no file of its own")
        for number, file in enumerate(sorted(dict.fromkeys(files), key=numbered), len(execution.inner.get(name, [])) + 1):
            title = name if number == 1 else f"{name}_{number}"
            inner = Execution(self.document.run_of(step), f"{execution.path}{title}/", execution.group + ((name, title),), execution, step)
            execution.inner.setdefault(name, []).append(inner)
            self.waiting.append((file, inner))


def numbered(path):
    """Returns the key by which the files of a scattered step are sorted: that of a later element repeats those of earlier ones."""
    found = re.search(r"_([0-9]+)\.[^.]*\.cwlprov\.json$", path)
    return int(found[1]) if found and not re.search(r"_20[^_]*$", path.rpartition(".cwlprov")[0].rpartition(".")[0]) else 0, path


class Import:
    """Makes the record of actions of a reading. What an ExpressionTool made, or a step whose executions are not in the record, is a value
    under the name of its step and port; it is there if an execution or the run used it."""

    def __init__(self, reading):
        self.reading, self.entities, self.document = reading, reading.entities, reading.document
        self.record, self.notes, self.by_port, self.maker, self.origins = actions.Record(), {}, {}, {}, {}
        self.lazy, self.waiting = {}, []
        self.executions = [reading.top]
        for execution in self.executions:
            for inner in execution.inner.values():
                self.executions += inner
        steps = [(execution, step) for execution in self.executions for step in execution.process.steps.values()]
        for execution, step in steps:
            self.make(execution, step)
        self.take_inputs()
        for execution, step in steps:
            self.use(execution, step)
        self.take_results()
        for execution, step in self.waiting:
            self.imply(execution, step)

    def note(self, step, what):
        """Notes that something is coarse, once for each step."""
        self.notes.setdefault((step.place, what), True)

    def value(self, entity, title, outside=False):
        """Takes a value, once, and returns its identity."""
        if entity not in self.record.values:
            content = self.entities.same(entity) or ""
            checksum = "sha1$" + content.partition(":")[2] if content.startswith("data:") else ""
            self.record.add_value(actions.Value(entity, self.entities.names.get(entity, title), checksum, outside))
        return entity

    def make(self, execution, step):
        """Takes what the executions of a step made."""
        process = self.document.run_of(step)
        if process.kind == "ExpressionTool" or process.kind != "Workflow" and not execution.leaves.get(step.name):
            for port in process.outputs:
                name = f"{execution.path}{step.name}/{port}"
                self.by_port[execution, step.name, port] = [name]
                self.lazy[name] = execution, step, process.kind == "ExpressionTool"
        for activity, title in execution.leaves.get(step.name, []):
            for entity, role in self.entities.made.get(activity, {}):
                if role not in process.outputs:
                    refuse(f"{self.reading.path}: {activity}", f"it made something in the role `{role}`, and {process.place} has no such output")
                for part in self.entities.parts(entity):
                    self.make_part(execution, step, activity, title, role, part)

    def make_part(self, execution, step, activity, title, role, part):
        """Takes a value that an execution made. What stands for its content alone gets a name of its own."""
        name = part if part.startswith("id:") and part not in self.maker else f"{execution.path}{title}/{role}/{part}"
        self.maker[name] = activity, role
        self.by_port.setdefault((execution, step.name, role), []).append(self.value(name, f"{execution.path}{title}/{role}"))
        if name != part:
            self.entities.content.setdefault(name, self.entities.same(part))

    def take_inputs(self):
        """Takes what came from outside: what the run itself used."""
        top, used = self.reading.top, self.entities.used.get(self.reading.start, {})
        for entity, role in used:
            if role not in top.process.inputs:
                refuse(f"{self.reading.path}: {self.reading.start}",
                       f"the run used something in the role `{role}`, and {top.process.place} has no such input")
            found = self.by_port.setdefault((top, HEAD, role), [])
            found += [self.value(part, role, True) for part in self.entities.parts(entity)]
        for port in sorted(top.process.inputs):
            if (top, HEAD, port) not in self.by_port:
                self.by_port[top, HEAD, port] = self.given_files(port) or [self.value(f"input {port}", f"input {port}", True)]

    def given_files(self, port):
        """Returns the files that the run was given at an input, by its list of inputs. They are told there where no execution is recorded."""
        files = list(files_in(self.reading.job.get(port)))
        names = [f"input {port}" if len(files) == 1 else f"input {port} {number}" for number in range(1, len(files) + 1)]
        for name, (path, checksum) in zip(names, files):
            self.record.add_value(actions.Value(name, path, checksum, True))
        return names

    def origin(self, execution, end):
        """Returns the values that a source may give, by the document."""
        key = (execution, *end)
        if key not in self.origins:
            self.origins[key] = []
            step, port = end
            if step == HEAD and execution.outer:
                found = self.sources(execution.outer, execution.step.sources.get(port, []))
            elif step != HEAD and self.document.run_of(execution.process.steps[step]).kind == "Workflow":
                found = [value for inner in execution.inner.get(step, []) for value in self.sources(inner, inner.process.outputs.get(port, []))]
            else:
                found = self.by_port.get(key, [])
            self.origins[key] = list(dict.fromkeys(found))
        return self.origins[key]

    def sources(self, execution, sources):
        """Returns the values that several sources may give."""
        return list(dict.fromkeys(value for source in sources for value in self.origin(execution, execution.process.end(source))))

    def revived(self, names):
        """Takes values that the record does not have under a name of their own, with the steps that made them, and returns them."""
        for name in names:
            execution, step, _ = self.lazy[name]
            if name not in self.record.values:
                for port in self.document.run_of(step).outputs:
                    self.value(f"{execution.path}{step.name}/{port}", f"{execution.path}{step.name}/{port}")
                self.waiting.append((execution, step))
        return list(names)

    def imply(self, execution, step):
        """Takes a step that the record has no execution of, or says nothing of, as one action that read all that may come to it."""
        process = self.document.run_of(step)
        what = "the record does not say what this ExpressionTool read" if process.kind == "ExpressionTool" else "it is used, and has no execution"
        self.note(step, what + ": it is taken to have read all that may come to it")
        used = [(port, value) for port, sources in step.sources.items() for value in self.taken(self.sources(execution, sources))]
        made = [(port, f"{execution.path}{step.name}/{port}") for port in process.outputs]
        self.record.add_action(actions.Action(execution.path + step.name, tool_of(step), used, made, execution.group, software=process.software()))

    def taken(self, values):
        """Returns values, all of which are there then."""
        self.revived([value for value in values if value in self.lazy])
        return values

    def use(self, execution, step):
        """Takes the executions of a tool as actions."""
        process = self.document.run_of(step)
        if process.kind in ("Workflow", "ExpressionTool"):
            return
        allowed = {port: self.sources(execution, sources) for port, sources in step.sources.items()}
        for activity, title in execution.leaves.get(step.name, []):
            self.action(execution, step, activity, title, allowed)

    def action(self, execution, step, activity, title, allowed):
        """Takes an execution of a tool as an action."""
        process, place = self.document.run_of(step), f"{self.reading.path}: {activity}"
        used, recorded = {}, set()
        for entity, role in self.entities.used.get(activity, {}):
            if role not in process.inputs and role not in step.sources:
                refuse(place, f"it used something in the role `{role}`, and {process.place} has no such input")
            recorded.add(role)
            for part in self.entities.parts(entity):
                used.update({(role, value): True for value in self.meant(step, role, part, allowed.get(role, []), place)})
        for port, values in allowed.items():
            if port not in recorded:
                used.update({(port, value): True for value in self.unrecorded(step, port, values)})
        made = [(role, value) for value, (maker, role) in self.maker.items() if maker == activity] if activity in self.entities.made else []
        state = "done" if activity in self.entities.ended or made else "failed"
        self.record.add_action(actions.Action(execution.path + title, tool_of(step), list(used), made, execution.group, state,
                                              process.software(), place))

    def unrecorded(self, step, port, values):
        """Returns what came to an input of which the record says nothing. A step that may have been skipped gave nothing there."""
        values = [value for value in values if value not in self.lazy or self.lazy[value][2] or not self.lazy[value][1].is_conditional]
        if values and port not in self.document.run_of(step).inputs:
            self.note(step, f"`{port}` is read for `when` or `valueFrom` alone: its executions are taken to have read all that may come there")
        elif len(values) > 1 and step.is_scattered:
            self.note(step, f"the record does not say what came to `{port}`: all that may come there is taken")
        return self.taken(values)

    def meant(self, step, role, entity, allowed, place):
        """Returns the values that an entity may be which an execution used."""
        there = [value for value in allowed if value not in self.lazy]
        expressions = [value for value in allowed if value in self.lazy and self.lazy[value][2]]
        missing = [value for value in allowed if value in self.lazy and not self.lazy[value][2]]
        if entity in self.maker and (entity in there or expressions):
            self.note_ways(step, role, (entity in there) + len(expressions))
            return [entity] + self.revived(expressions)
        if entity in self.maker and role not in step.changed:
            refuse(place, f"it used `{entity}` in the role `{role}`, which {self.maker[entity][0]} made, "
                          f"and {step.place}/{role} lets it come from elsewhere")
        content = self.entities.same(entity)
        alike = [value for value in there if content is not None and self.entities.same(value) == content]
        if len(alike) > 1:
            self.note(step, f"several values that may come to `{role}` have one content: each of them is taken")
        if alike or expressions:
            self.note_ways(step, role, bool(alike) + len(expressions))
            return alike + self.revived(expressions)
        if missing:
            return self.revived(missing) + (there if role in step.changed else [])
        return self.computed(step, role, entity, there, place)

    def note_ways(self, step, role, count):
        """Notes that a file may have come through this or that expression, or through none."""
        if count > 1:
            self.note(step, f"what came to `{role}` may have come through an ExpressionTool, in {count} ways: each of them is taken")

    def computed(self, step, role, entity, there, place):
        """Returns what an entity may be that is no value of the record: all that may come there, or a constant of the document."""
        if there and role not in step.changed and entity in self.entities.names:
            refuse(place, f"it used `{entity}` in the role `{role}`, and nothing that {step.place}/{role} lets come there has its content")
        if there:
            self.note(step, f"what came to `{role}` was computed: all that may come there is taken")
            return there
        if step.sources.get(role):
            refuse(place, f"it used `{entity}` in the role `{role}`, and nothing that {step.place}/{role} lets come there is in the record")
        return [self.value(entity, f"{step.name}/{role}", True)]

    def take_results(self):
        """Takes what the run gave out, where the record has no execution that made it."""
        top = self.reading.top
        for entity, role in self.entities.made.get(self.reading.start, {}):
            allowed = self.sources(top, top.process.outputs.get(role, []))
            for part in self.entities.parts(entity):
                content = self.entities.same(part)
                there = [value for value in allowed if value not in self.lazy and content is not None and self.entities.same(value) == content]
                known = part in self.record.values or there
                self.revived([value for value in allowed if value in self.lazy and (self.lazy[value][2] or not known)])
            if len(allowed) == 1 == len(self.entities.parts(entity)) and allowed[0] in self.lazy:
                self.name_result(self.record.values[allowed[0]], *self.entities.parts(entity))

    def name_result(self, value, entity):
        """Gives the name and the checksum of what the run gave out to the only value that it can be."""
        content = self.entities.same(entity) or ""
        value.path = self.entities.names.get(entity, value.path)
        value.checksum = "sha1$" + content.partition(":")[2] if content.startswith("data:") else ""


def tool_of(step):
    """Returns the name of the tool that a step runs. One that is embedded has the name of the step."""
    return step.name if step.run.endswith(f"/{step.name}/run") else last(step.run)


def words_of(words):
    """Returns whether --coarse is there, the document or None, and the other words."""
    coarse, document, rest = False, None, []
    given = iter(words)
    for word in given:
        if word == "--coarse":
            coarse = True
        elif word == "--workflow":
            document = next(given, None) or refuse("call", "`--workflow` needs a DOCUMENT; see --help")
        elif word.startswith("--"):
            refuse("call", f"`{word}` is no option; see --help")
        else:
            rest.append(word)
    if len(rest) != 4:
        refuse("call", "the words are [--coarse] [--workflow DOCUMENT] FOLDER SPEC EVENTS TABLE; see --help")
    return coarse, document, rest


def complain(line):
    """Says on standard error what is coarse."""
    terminal.complain("from_cwlprov.py", line)


def work(words):
    """Imports what the words name."""
    coarse, document, (record, *places) = words_of(words)
    read, job = [], None
    if os.path.isdir(record):
        document = document or os.path.join(record, "workflow", "packed.cwl")
        job = os.path.join(record, "workflow", "primary-job.json")
        record = os.path.join(record, "metadata", "provenance", "primary.cwlprov.json")
    if document is None:
        refuse("call", "a file of CWLProv alone does not say what its steps may read: --workflow must name the packed document")
    job = load(job, read) if job and os.path.exists(job) else None
    made = Import(Reading(record, Document(load(document, read), document), read, job))
    imported = actions.imported(made.record, coarse)
    outputs.write_all(list(zip(places, (imported.spec, imported.events, imported.table))), read)
    for place, what in made.notes:
        complain(f"{place}: {what}")
    for note in imported.notes:
        complain(note)


if __name__ == "__main__":
    sys.exit(terminal.run("from_cwlprov.py", __doc__, work))
