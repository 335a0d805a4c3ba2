#!/usr/bin/env python3
"""Turns a run that an RO-Crate describes into SPEC and EVENTS of wfprov, and a table that says which item is which file.

  python3 tools/from_rocrate.py [--coarse] CRATE SPEC EVENTS TABLE

CRATE is a file ro-crate-metadata.json, or the folder in which it lies, of the profiles Process Run Crate, Workflow Run Crate and Provenance
Run Crate. The entities of its `@graph` alone are read, and no file that they name.

What becomes of the record
  an action      a CreateAction, ActivateAction or UpdateAction: `object` is what it used, `result` what it made, `instrument` its tool.
                 Each result rests on each object. One with FailedActionStatus made nothing, one with PotentialActionStatus never ran, and
                 one without `actionStatus` came to its end, as the profiles say.
  a value        what an action used or made: a file, a folder, a PropertyValue. ID is its `@id`, PATH its `alternateName` or, of a file or
                 a folder, its `@id`; CHECKSUM is `sha1$HEX` or `sha256$HEX`, by `sha1`, `sha256`, or an `@id` that ends in the digits.
  a collection   its members, by `hasPart`
  a folder       a Dataset is a value, and so is what it has by `hasPart`, and each file of the record whose path leads through it
  a role         the name of the parameter of the tool that stands in `exampleOfWork`
  a workflow     where actions of its steps are recorded, its own action is none: its `object` came from outside, and its `result` is
                 what they made. Steps are known by ControlAction and OrganizeAction, and by `hasPart` of the workflow.
  a group        the run of the workflow and the step to which an action belongs, for nested workflows too
  from outside   what is used, and no action made. Where steps of a workflow are recorded, it must be an `object` of the workflow, or the
                 value of a parameter to which no ParameterConnection leads, which is a constant. Nothing else is read of connections.
SOFTWARE is the version of the tool and its `containerImage`.

Taken as coarsely as the record allows, and said on standard error:
  - A file that is named by its checksum may stand for several that have the same content. Who read one is taken to have read all.
  - What a workflow gave out and no step made is taken to rest on all that the workflow read and all that its steps made.

Refused, with the place: what is no crate; an entity that is there twice, or is named and not there; an action without a tool, of another
status, or of two steps; an UpdateAction that reads and makes one file; a used value that nothing made or whose maker failed, and which
did not come from outside; files of one checksum by which an action would read what comes of what it makes; and what
tools/from_actions.py refuses. Nothing is written then.

This tool is no part of what is proved. It needs Python's standard library alone.
"""
import json
import os
import re
import sys
from urllib.parse import unquote

sys.path.insert(0, os.path.dirname(os.path.abspath(__file__)))
import actions
import outputs
import terminal

FILE = "ro-crate-metadata.json"
ACTIONS = {"CreateAction", "ActivateAction", "UpdateAction"}
STATES = {"CompletedActionStatus": "done", "FailedActionStatus": "failed", "PotentialActionStatus": "never", "": "done"}
DIGITS = {40: "sha1", 64: "sha256"}


def refuse(place, what):
    """Refuses what stands at a place."""
    raise terminal.Wrong(f"{place}: {what}")


def load(path):
    """Returns the JSON value of a file."""
    try:
        return json.loads(terminal.read_text(path))
    except json.JSONDecodeError as error:
        return refuse(f"{path}: line {error.lineno}", f"no JSON: {error.msg}")
    except (ValueError, RecursionError) as error:
        return refuse(path, f"no JSON: {error}")


def listed(value):
    """Returns a value as a list: an absent one is empty, and what is no list stands alone."""
    return [] if value is None else value if isinstance(value, list) else [value]


def last(text):
    """Returns the last part of an id."""
    return re.split("[/#:]", text.rstrip("/"))[-1]


class Crate:
    """The entities of a metadata file, by their ids."""

    def __init__(self, path):
        self.path, self.entities, self.inside = path, {}, {}
        value = load(path)
        graph = value.get("@graph") if isinstance(value, dict) else None
        if not isinstance(graph, list):
            refuse(path, "no RO-Crate: it has no list `@graph`")
        for number, entry in enumerate(graph):
            if not isinstance(entry, dict) or not isinstance(entry.get("@id"), str):
                refuse(f"{path}: @graph {number}", "the entity has no `@id`")
            if entry["@id"] in self.entities:
                refuse(self.place(entry["@id"]), "the entity is there twice")
            self.entities[entry["@id"]] = entry
        for name in self.entities:
            if self.is_file(name) and "://" not in name and not name.startswith("#"):
                plain = self.plain(name)
                for end in (place for place, sign in enumerate(plain) if place and sign == "/"):
                    self.inside.setdefault(plain[:end], []).append(name)

    def place(self, name):
        """Returns the place of an entity."""
        return f"{self.path}: {name}"

    def plain(self, name):
        """Returns the path that an id is."""
        return name[2:].rstrip("/") if name.startswith("./") else name.rstrip("/")

    def kinds(self, name):
        """Returns the types of an entity, each without what stands before its name."""
        return {last(text) for text in listed(self.entities.get(name, {}).get("@type")) if isinstance(text, str)}

    def of_kind(self, *kinds):
        """Returns the entities of one of these types."""
        return [name for name in self.entities if self.kinds(name).intersection(kinds)]

    def is_file(self, name):
        """Returns whether an entity is a file or a folder."""
        return bool(self.kinds(name) & {"File", "MediaObject", "Dataset"})

    def references(self, name, member):
        """Returns the ids of a member that refers to entities."""
        found = {}
        for value in listed(self.entities.get(name, {}).get(member)):
            if not isinstance(value, dict) or not isinstance(value.get("@id"), str):
                refuse(self.place(name), f"`{member}` has something that is no reference such as {{\"@id\":\"..\"}}")
            found[value["@id"]] = True
        return list(found)

    def text(self, name, *members):
        """Returns the first text or number that one of these members has, or an empty text."""
        for member in members:
            for value in listed(self.entities.get(name, {}).get(member)):
                if isinstance(value, (str, int, float)) and not isinstance(value, bool) and value != "":
                    return str(value)
        return ""

    def title(self, name):
        """Returns the name of an entity in words."""
        return self.text(name, "name") or last(name) or name

    def parts(self, name, member):
        """Returns what an action has in `object` or `result`, with members of collections in their places, and what folders have in them."""
        found, waiting, seen = {}, self.references(name, member)[::-1], set()
        while waiting:
            part = waiting.pop()
            if part in seen:
                continue
            seen.add(part)
            if part not in self.entities:
                refuse(self.place(name), f"`{member}` leads to `{part}`, which is no entity of the record")
            kinds = self.kinds(part)
            if "Collection" not in kinds or "hasPart" not in self.entities[part]:
                found[part] = True
            if kinds & {"Collection", "Dataset"}:
                waiting += self.references(part, "hasPart")[::-1]
            if "Dataset" in kinds:
                waiting += self.inside.get(self.plain(part), [])[::-1]
        return list(found)

    def checksum(self, name):
        """Returns the checksum of an entity, as its kind and its digits, or an empty text."""
        for kind in DIGITS.values():
            if self.text(name, kind):
                return f"{kind}${self.text(name, kind)}"
        return f"{DIGITS[len(last(name))]}${last(name)}" if self.is_named_by_content(name) else ""

    def is_named_by_content(self, name):
        """Returns whether the id of an entity is a checksum."""
        return len(last(name)) in DIGITS and re.fullmatch("[0-9a-f]+", last(name)) is not None


class Steps:
    """Which action is one of which step, and which runs of workflows are recorded by their steps."""

    def __init__(self, crate, runs):
        self.crate, self.runs = crate, runs
        self.workflow_of, self.tools, self.step_of, self.run_of = {}, {}, {}, {}
        for name in crate.entities:
            if crate.kinds(name) & {"ComputationalWorkflow", "HowTo"} or crate.entities[name].get("step") is not None:
                steps = crate.references(name, "step")
                self.workflow_of.update(dict.fromkeys(steps, name))
                self.tools[name] = {tool for step in steps for tool in crate.references(step, "workExample")} | set(crate.references(name, "hasPart"))
        for name in crate.of_kind("OrganizeAction"):
            self.organize(name)
        for name in crate.of_kind("ControlAction"):
            self.control(name)
        self.whole = []
        self.whole = [run for run in runs if self.is_recorded(run)]

    def organize(self, name):
        """Takes an action by which an engine ran a workflow."""
        results = self.crate.references(name, "result")
        if len(results) != 1 or results[0] not in self.runs:
            refuse(self.crate.place(name), "the `result` of an OrganizeAction must be one action, that of a workflow")
        for control in self.crate.references(name, "object"):
            if "ControlAction" in self.crate.kinds(control):
                if self.run_of.setdefault(control, results[0]) != results[0]:
                    refuse(self.crate.place(control), f"it belongs to the runs `{self.run_of[control]}` and `{results[0]}`")

    def control(self, name):
        """Takes an action by which an engine ran a step."""
        steps = self.crate.references(name, "instrument")
        if len(steps) != 1:
            refuse(self.crate.place(name), "the `instrument` of a ControlAction must be one step")
        for action in self.crate.references(name, "object"):
            if action not in self.runs:
                refuse(self.crate.place(name), f"`object` leads to `{action}`, which is no action of the record")
            if action in self.step_of:
                refuse(self.crate.place(action), f"it belongs to two steps, by `{self.step_of[action][1]}` and `{name}`")
            self.step_of[action] = steps[0], name

    def tools_of(self, action):
        """Returns the tools of an action."""
        return self.crate.references(action, "instrument")

    def is_recorded(self, run):
        """Returns whether an action is the run of a workflow of whose steps actions are recorded."""
        workflows = [tool for tool in self.tools_of(run) if tool in self.tools]
        if any(self.run_of.get(control) == run for _, control in self.step_of.values()):
            return True
        return any(self.workflow_of.get(step) in workflows for step, _ in self.step_of.values()) or any(
            tool in self.tools[workflow] for workflow in workflows for other in self.runs if other != run for tool in self.tools_of(other))

    def around(self, action):
        """Returns the runs of which an action may be that of a step: one, unless the record leaves it open."""
        step, control = self.step_of.get(action, (None, None))
        if control in self.run_of:
            return [self.run_of[control]]
        if step in self.workflow_of:
            return [run for run in self.whole if run != action and self.workflow_of[step] in self.tools_of(run)]
        tools = set(self.tools_of(action))
        return [run for run in self.whole if run != action and any(tools & self.tools.get(workflow, set()) for workflow in self.tools_of(run))]

    def above(self, action):
        """Returns all runs around an action, the nearest first."""
        found, waiting = {}, self.around(action)
        for run in waiting:
            if run == action:
                refuse(self.crate.place(action), "the runs around it stand in a circle")
            if run not in found:
                found[run] = True
                waiting += self.around(run)
        return list(found)

    def group(self, action):
        """Returns the runs and steps around an action, from the outermost."""
        found, here = [], action
        while True:
            if here in self.step_of:
                found.append(("step", self.step_of[here][0]))
            around = self.around(here)
            if len(around) != 1:
                return found[::-1]
            here = around[0]
            found.append(("workflow", here))


class Import:
    """Makes the record of actions of a crate."""

    def __init__(self, crate):
        self.crate, self.record, self.notes = crate, actions.Record(), []
        self.runs = dict.fromkeys(crate.of_kind(*ACTIONS))
        if not self.runs:
            refuse(crate.path, "there is no CreateAction in it")
        self.steps = Steps(crate, self.runs)
        self.leaves = [run for run in self.runs if run not in self.steps.whole]
        self.states = {run: self.state(run) for run in self.runs}
        self.used = {run: crate.parts(run, "object") for run in self.runs}
        self.made = {run: crate.parts(run, "result") for run in self.runs}
        self.names = self.titles()
        self.makers, self.failed = {}, {}
        for run in self.leaves:
            for value in self.made[run]:
                (self.makers if self.states[run] == "done" else self.failed).setdefault(value, []).append(run)
        self.first = dict.fromkeys(value for run in self.steps.whole if not self.steps.above(run) for value in self.used[run])
        self.targets = {target for name in crate.of_kind("ParameterConnection") for target in crate.references(name, "targetParameter")}
        self.refuse_merged()
        self.late = self.unmade()
        self.take_values()
        for run in self.leaves:
            self.add(run, self.reads(run), self.made[run])
        for run in dict.fromkeys(self.late.values()):
            self.add_whole(run)

    def state(self, run):
        """Returns the state of an action, and refuses one of which the record says too little."""
        place, status = self.crate.place(run), listed(self.crate.entities[run].get("actionStatus"))
        status = [value.get("@id") if isinstance(value, dict) else value for value in status] or [""]
        if len(status) != 1 or not isinstance(status[0], str) or last(status[0]) not in STATES:
            refuse(place, "`actionStatus` is none of CompletedActionStatus, FailedActionStatus and PotentialActionStatus")
        if not self.steps.tools_of(run):
            refuse(place, "the action has no `instrument`, which is its tool")
        if "UpdateAction" in self.crate.kinds(run):
            both = set(self.crate.parts(run, "object")) & set(self.crate.parts(run, "result"))
            if both or not self.crate.parts(run, "result"):
                refuse(place, "an UpdateAction must have other files in `result` than in `object`: what it changed has one name for both")
        return STATES[last(status[0])]

    def titles(self):
        """Returns a name for each action: its `name`, with its id where others have the same."""
        found = {}
        for run in self.runs:
            found.setdefault(self.crate.text(run, "name"), []).append(run)
        return {run: name if name and len(runs) == 1 else f"{name} {run}".strip() for name, runs in found.items() for run in runs}

    def sources(self, value):
        """Returns the actions that made a value, and None where it came from outside too."""
        return self.makers.get(value, []) + [None] * (value in self.first)

    def is_merged(self, value):
        """Returns whether a value stands for several that have the same content."""
        return len(self.sources(value)) > 1 and self.crate.is_named_by_content(value)

    def identities(self, value):
        """Returns the values of the record that an entity stands for."""
        return [self.identity(value, maker) for maker in self.sources(value)] if self.is_merged(value) else [value]

    def identity(self, value, maker):
        """Returns the name of a value by its maker."""
        if not self.is_merged(value):
            return value
        return f"{value} from outside" if maker is None else f"{value} of {maker}"

    def refuse_merged(self):
        """Refuses files of one checksum by which an action would read what comes of what it makes."""
        live = [run for run in self.leaves if self.states[run] == "done"]
        before = {run: {maker for value in self.used[run] for maker in self.makers.get(value, [])} for run in live}
        after, left = {run: [] for run in live}, {run: len(makers) for run, makers in before.items()}
        for run, makers in before.items():
            for maker in makers:
                after[maker].append(run)
        ready = [run for run in live if not left[run]]
        for run in ready:
            del left[run]
            for other in after[run]:
                left[other] -= 1
                if not left[other]:
                    ready.append(other)
        for value in self.makers:
            readers = [run for run in left if value in self.used[run]]
            makers = [run for run in self.makers[value] if run in left]
            if readers and makers and self.crate.is_named_by_content(value):
                refuse(self.crate.place(value), "all files of this content are one in the record, and an action would read what comes of what it "
                       f"makes: `{self.names[makers[0]]}` makes it, and `{self.names[readers[0]]}` reads it")

    def take_values(self):
        """Takes what actions made, and what came from outside."""
        for value, runs in self.makers.items():
            for run in runs if self.is_merged(value) else runs[:1]:
                self.value(value, run, False)
            if self.is_merged(value):
                self.notes.append(f"{self.crate.place(value)}: {len(self.sources(value))} files of this content are one in the record: "
                                  "who read one is taken to have read all")
        for value in self.first:
            self.value(value, None, True)
        for value, run in self.late.items():
            self.value(value, run, False)
            self.notes.append(f"{self.crate.place(run)}: no step made `{value}`: it is taken to rest on all that the workflow read and its steps made")
        for run in self.steps.whole + self.leaves:
            for value in self.used[run]:
                self.need(run, value)

    def need(self, run, value):
        """Takes what an action used and none made as from outside, where the record allows it."""
        if value in self.makers or value in self.record.values and self.late.get(value) not in self.steps.above(run):
            return
        if value in self.failed:
            self.record.add_value(actions.Value(value, place=self.crate.place(value)))
        elif not self.steps.around(run) or self.is_constant(run, value) and value not in self.late:
            self.value(value, None, True)
        elif self.states[run] == "done" or run in self.steps.whole:
            refuse(self.crate.place(run), f"it used `{value}`, which no action made, and which the workflow did not get")

    def is_constant(self, run, value):
        """Returns whether a value is one of a parameter to which the workflow leads nothing. It has connections, but none there."""
        parameters = self.parameters(run, value, "input")
        return bool(self.targets) and bool(parameters) and not self.targets.intersection(parameters)

    def parameters(self, run, value, side):
        """Returns the parameters of the tool of an action for which a value stands."""
        own = [parameter for tool in self.steps.tools_of(run) for parameter in self.crate.references(tool, side)]
        found = self.crate.references(value, "exampleOfWork")
        return [parameter for parameter in found if parameter in own or not own]

    def role(self, run, value, side):
        """Returns the role of a value."""
        parameters = self.parameters(run, value, side)
        return self.crate.title(parameters[0]) if len(parameters) == 1 else {"input": "object", "output": "result"}[side]

    def value(self, value, maker, outside):
        """Takes a value."""
        path = self.crate.text(value, "alternateName") or (unquote(value) if self.crate.is_file(value) else "")
        identity = self.identity(value, maker)
        if identity in self.record.values:
            known = self.record.values[identity]
            known.outside = known.outside or outside
            return
        self.record.add_value(actions.Value(identity, path, self.crate.checksum(value), outside, self.crate.place(value)))

    def software(self, run):
        """Returns the versions of the tools of an action, and its container."""
        found = []
        for tool in self.steps.tools_of(run):
            version = self.crate.text(tool, "softwareVersion", "version")
            found.append(f"{self.crate.title(tool)} {version}" if version else "")
        for image in listed(self.crate.entities[run].get("containerImage")):
            name = image.get("@id") if isinstance(image, dict) else image
            if isinstance(name, str):
                registry, tag = self.crate.text(name, "registry"), self.crate.text(name, "tag")
                found.append((registry + "/" if registry else "") + (self.crate.text(name, "name") or name) + (":" + tag if tag else ""))
        return "; ".join(filter(None, found))

    def reads(self, run):
        """Returns what an action used, with the roles."""
        return [(self.role(run, value, "input"), name) for value in self.used[run] for name in self.identities(value)]

    def add(self, run, reads, made):
        """Takes an action."""
        tool = ", ".join(map(self.crate.title, self.steps.tools_of(run)))
        makes = [(self.role(run, value, "output"), self.identity(value, run)) for value in made]
        self.record.add_action(actions.Action(self.names[run], tool, reads, makes, self.steps.group(run), self.states[run], self.software(run),
                                              self.crate.place(run)))

    def unmade(self):
        """Returns what runs of workflows gave out and no step made, each with its run, which is the innermost."""
        found = {}
        for run in sorted(self.steps.whole, key=lambda run: -len(self.steps.above(run))):
            for value in self.made[run] if self.states[run] == "done" else ():
                if value in self.makers or value in self.first or value in self.used[run]:
                    continue
                for other in self.failed.get(value, [])[:1]:
                    refuse(self.crate.place(run), f"it gave out `{value}`, and `{self.names[other]}`, which makes it, has the state {self.states[other]}")
                found.setdefault(value, run)
        return found

    def add_whole(self, run):
        """Takes the run of a workflow as an action that made what no step of it made."""
        inner = [other for other in self.leaves if self.states[other] == "done" and run in self.steps.above(other)]
        reads = self.reads(run) + [(self.role(run, value, "input"), self.identity(value, other)) for other in inner for value in self.made[other]]
        self.add(run, list(dict.fromkeys(reads)), [value for value, other in self.late.items() if other == run])


def work(words):
    """Imports what the words name."""
    coarse = "--coarse" in words
    paths = [word for word in words if word != "--coarse"]
    if len(paths) != 4 or any(path.startswith("--") for path in paths):
        refuse("call", "the words are [--coarse] CRATE SPEC EVENTS TABLE; see --help")
    path = os.path.join(paths[0], FILE) if os.path.isdir(paths[0]) else paths[0]
    made = Import(Crate(path))
    imported = actions.imported(made.record, coarse)
    outputs.write_all(list(zip(paths[1:], (imported.spec, imported.events, imported.table))), [path])
    for note in [*made.notes, *imported.notes]:
        terminal.complain("from_rocrate.py", note)


if __name__ == "__main__":
    sys.exit(terminal.run("from_rocrate.py", __doc__, work))
