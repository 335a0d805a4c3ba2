#!/usr/bin/env python3
"""Turns a packed CWL document, and a record of a run of it, into SPEC and EVENTS of wfprov.

  python3 tools/from_cwl.py WORKFLOW SPEC
  python3 tools/from_cwl.py WORKFLOW --run RECORD SPEC EVENTS

WORKFLOW is JSON of CWL v1.0, v1.1 or v1.2: a `$graph` whose workflow is `#main` or its only one, or one Workflow with embedded tools.
Lists with `id` and maps are both read. SPEC, and EVENTS where a record is given, are written; nothing is written where something is
refused. Types of values are not checked. Processes of the `$graph` that the run cannot reach are left out.

What becomes of what
  A Workflow is a composite module. A CommandLineTool or ExpressionTool is an atomic one with all pairs: each of its outputs rests on
  each of its inputs. A step is a position. What several steps run is one module. `source` and `outputSource` are the links.
  A value with several readers goes through a copying module (`copy-N`, with N outputs). An input with several sources is fed by a
  gathering module (`gather-N`, with N inputs). A value without a reader ends in a closing module (`close`). A workflow output that is
  a workflow input goes through a copying module, too.
  An input of a tool that no step gives a source has no port: `default` and `valueFrom` alone are constants. Where another step gives
  it a source, and where the step runs a workflow, a module without inputs feeds it (`constant`). A step input that the tool does not
  declare is an input of its module where the step has a `valueFrom`, which may read it.

Scatter over one input
  A step that runs TOOL on each element of its input X becomes the module TOOL-each-X, which repeats. Each turn takes one element off
  the array: `split` gives it as `item` and the others as `rest`, `each` runs the whole step on the item, `next` is TOOL-each-X on the
  rest, and for each output a gathering module joins the result of `each` with those of `next`. TOOL-none-X ends the loop where no
  element is left.
  What an answer then says: let M be the name of the step's execution. M-split-K.item is element K, counted from 0. A result of element
  K rests on its own item, on the array, and on the other inputs of the step as TOOL has it. It does not rest on the item or on the
  results of another element. An array is one item. The whole result M.P rests on the results of all elements, and in any case on the
  array, since its length does. What reads an array rests on all of its elements, also where a second scatter takes it apart again. The
  result of an empty array is said to rest on what it would rest on with an element: a safe view has one answer for every length.

Names
  The name of a module is the id of its process without `#`, and that of a step or port the last part of its id. Each `.`, and each `/`
  in the id of a process, becomes `_`. What then has more than 64 bytes, or other signs than letters, digits, `_` and `-`, is refused,
  and so are two names that become one. A process without an id has the id WORKFLOW/STEP/run, and a document without one `main`.

The record of a run
  RECORD is a JSON list with an object for each execution, in any order. Other members than these are ignored.
    step      the path of the step: names of steps with `/` between, as in WORKFLOW. The run itself is `.`. The executions of a
              scattered step are the parts 0, 1, 2 below it: `[{"step":".","name":"r"}, {"step":"map","name":"m","elements":1},
              {"step":"map/0","name":"m0"}, {"step":"map/0/sort","name":"s0"}]`
    name      the name of its instance in EVENTS, as it stands: 1 to 64 letters, digits, `_` or `-`, no two alike
    elements  of a scattered step alone: the number of its elements
  Or RECORD is metadata/provenance/primary.cwlprov.json in a folder of CWLProv. The files that it names, beside it, are read, too, and
  each execution is named by its UUID. CWLProv does not say which execution of a scattered step belongs to which element, so scattered
  steps are refused there. cwltool does not say which step an execution of an ExpressionTool belongs to, so a workflow with more than
  one such step is refused there.
  The tool names the other instances: M-POSITION in the execution M of a workflow; M-split-K, M-next-K, M-none, and M-POSITION-K for
  the copying and gathering modules of turn K, in the execution M of a scattered step.
  The output P of the execution M is the item M.P. If its only reader is an output of the workflow around it, the item is that output,
  and is named by the execution of that workflow.

What is refused, with its place
  `when`, `loop`, `pickValue`, scatter over several inputs or over one without a source, expressions in `source`, `valueFrom` that
  reads `inputs` where the step runs a workflow, sources that are not there, workflow outputs without `outputSource`, steps that wait
  for one another, workflows that run themselves, processes that are not in the document, and other classes. More than 64 ports on a
  side or 64 positions in a body, and what else is more than wfprov takes. Executions that the workflow has no step for, that are
  missing, or that are listed twice. The message is `from_cwl.py: PLACE: what is wrong`, and the status 2.

This tool is no part of what is proved. It needs Python's standard library alone.
"""
import json
import os
import re
import sys
from collections import deque
from urllib.parse import unquote

sys.path.insert(0, os.path.dirname(os.path.abspath(__file__)))
import from_cwlprov
import outputs
import terminal

VERSIONS = ("v1.0", "v1.1", "v1.2")
TOOLS = ("CommandLineTool", "ExpressionTool")
NAME = re.compile(r"[A-Za-z0-9_-]{1,64}")
MOST_PORTS = MOST_POSITIONS = 64
MOST_MODULES = MOST_PRODUCTIONS = 1024
MOST_SQUARES = 65536
MOST_INSTANCES = MOST_BYTES = 16777216
HEAD = ""


class Wrong(terminal.Wrong):
    """What is refused: the place and what is wrong there."""

    def __init__(self, place, what):
        super().__init__(f"{place}: {what}")


def distinct_members(pairs):
    """Returns the members of a JSON object, none of which may be given twice."""
    found = dict(pairs)
    if len(found) < len(pairs):
        seen = set()
        twice = next(name for name, _ in pairs if name in seen or seen.add(name))
        raise ValueError(f"the member `{twice}` is given twice in one object")
    return found


def load(path, read):
    """Returns the JSON value of a file, and notes its path among those that were read."""
    read.append(path)
    try:
        with open(path, encoding="utf-8") as text:
            return json.load(text, object_pairs_hook=distinct_members)
    except OSError as error:
        raise Wrong(path, terminal.reason(error)) from None
    except UnicodeDecodeError:
        raise Wrong(path, "the text is not UTF-8") from None
    except json.JSONDecodeError as error:
        raise Wrong(f"{path}: line {error.lineno}", f"no JSON: {error.msg}") from None
    except ValueError as error:
        raise Wrong(path, str(error)) from None
    except RecursionError:
        raise Wrong(path, "the text is nested too deeply") from None


def named(text, place):
    """Returns the name of wfprov that an id becomes."""
    name = text.replace(".", "_").replace("/", "_")
    if not NAME.fullmatch(name):
        raise Wrong(place, f"`{text}` becomes no name of 1 to 64 letters, digits, `_` or `-`")
    return name


def put(names, name, value, place):
    """Adds a name, which must not be there."""
    if name in names:
        raise Wrong(place, f"the name `{name}` is there twice")
    names[name] = value


def entries_of(value, place, short):
    """Returns the objects of a list with `id`, or of a map, each with its id. What is no object in a map is its member `short`."""
    if isinstance(value, dict):
        return [(name, given if isinstance(given, dict) else {short: given}) for name, given in value.items()]
    if value is not None and not isinstance(value, list):
        raise Wrong(place, "neither a list nor a map")
    found = []
    for number, given in enumerate(value or []):
        given = {"id": given} if isinstance(given, str) else given
        if isinstance(given, dict) and isinstance(given.get("$import"), str):
            raise Wrong(f"{place} entry {number}", f"`{given['$import']}` is not in it: cwltool leaves out a step that has the name of an input or an output")
        if not isinstance(given, dict) or not isinstance(given.get("id"), str):
            raise Wrong(f"{place} entry {number}", "has no `id`")
        found.append((given["id"], given))
    return found


def within(identity, prefix, place):
    """Returns the rest of an id behind the prefix of the process or step that it is part of. An id without `#` has no prefix."""
    if not identity.startswith("#"):
        return identity
    if not identity.startswith(prefix):
        raise Wrong(place, f"`{identity}` does not begin with `{prefix}`")
    return identity[len(prefix):]


def last_part(identity, prefix, place):
    """Returns the last part of the id of a step or port."""
    title = within(identity, prefix, place)
    if "/" in title or not title:
        raise Wrong(place, f"`{identity}` is no id of a part of `{prefix}`")
    return title


def listed(value):
    """Returns a value as a list: an absent one is empty, and what is no list stands alone."""
    if value is None:
        return []
    return value if isinstance(value, list) else [value]


def classes(value):
    """Returns the classes of a list or map of requirements."""
    if isinstance(value, dict):
        return list(value)
    return [str(entry.get("class")) for entry in listed(value) if isinstance(entry, dict)]


class Step:
    """A step: its name, its name in the document, its place, the id of what it runs, its inputs with their sources, the inputs whose
    `valueFrom` reads other inputs, whether it has any `valueFrom`, the input it is scattered over, and its outputs."""

    def __init__(self, title, given, process):
        self.title, self.given = title, given
        self.place = f"{process.place}/{title}"
        self.name = named(title, self.place)
        for member in ("when", "loop"):
            if given.get(member) is not None:
                raise Wrong(self.place, f"`{member}` has no counterpart in wfprov")
        for member in ("requirements", "hints"):
            for kind in classes(given.get(member)):
                if kind.endswith("Loop"):
                    raise Wrong(self.place, f"`{kind}` has no counterpart in wfprov")
        self.sources, self.reading, self.computes = {}, [], False
        for identity, entry in entries_of(given.get("in"), f"{self.place}: in", "source"):
            self.take(identity, entry, process)
        self.outputs = {}
        for identity, _ in entries_of(given.get("out"), f"{self.place}: out", "type"):
            title = last_part(identity, f"{process.prefix}{self.title}/", self.place)
            put(self.outputs, title, True, f"{self.place}/{title}")
        self.scatter = self.scattered(process)

    def take(self, identity, entry, process):
        """Takes an input of the step."""
        title = last_part(identity, f"{process.prefix}{self.title}/", self.place)
        place = f"{self.place}/{title}"
        put(self.sources, title, process.givers(entry, "source", place), place)
        expression = entry.get("valueFrom")
        self.computes |= expression is not None
        if isinstance(expression, str) and re.search(r"\binputs\b", expression):
            self.reading.append(place)

    def scattered(self, process):
        """Returns the input over which the step is scattered, or None."""
        names = self.given.get("scatter")
        if names is None:
            return None
        names = listed(names)
        if len(names) != 1 or not isinstance(names[0], str):
            method = self.given.get("scatterMethod") or "scatter"
            raise Wrong(self.place, f"{method} over {len(names)} inputs has no counterpart: one input can be scattered")
        title = last_part(names[0], f"{process.prefix}{self.title}/", self.place)
        if not self.sources.get(title):
            raise Wrong(self.place, f"the scattered input `{title}` has no source")
        return title


class Process:
    """A workflow or tool: its name, its inputs and outputs with their names, and of a workflow its steps and the sources of its outputs.
    Steps and ports are found by the last parts of their ids as they stand in the document."""

    def __init__(self, identity, given, prefix=None):
        self.place = f"#{identity}"
        self.prefix = prefix or f"#{identity}/"
        self.name = named(identity, self.place)
        kind = given.get("class")
        self.is_workflow = kind == "Workflow"
        if not self.is_workflow and kind not in TOOLS:
            raise Wrong(self.place, f"the class is `{kind}`, and not Workflow, CommandLineTool or ExpressionTool")
        self.identity, self.given = identity, given
        self.inputs, self.outputs, self.sources, self.steps, self.linked, self.names = {}, {}, {}, {}, {}, {}
        for side, ports in (("inputs", self.inputs), ("outputs", self.outputs)):
            for part, entry in entries_of(given.get(side), f"{self.place}: {side}", "type"):
                title = last_part(part, self.prefix, self.place)
                ports[title] = self.name_of(title)
                if side == "outputs" and self.is_workflow:
                    self.sources[title] = self.ends(entry, f"{self.place}/{title}")

    def name_of(self, title):
        """Returns the name of a port, which no other port may have."""
        place = f"{self.place}/{title}"
        name = named(title, place)
        put(self.names, name, title, place)
        return name

    def ends(self, entry, place):
        """Returns the sources of a workflow output."""
        givers = self.givers(entry, "outputSource", place)
        if not givers:
            raise Wrong(place, "the workflow output has no `outputSource`")
        return givers

    def givers(self, entry, member, place):
        """Returns the ports that a source names: each the name of its step, or HEAD, and that of the port."""
        if entry.get("pickValue") is not None:
            raise Wrong(place, "`pickValue` has no counterpart in wfprov")
        if entry.get("linkMerge") not in (None, "merge_nested", "merge_flattened"):
            raise Wrong(place, f"`linkMerge` is `{entry['linkMerge']}`, and neither merge_nested nor merge_flattened")
        return [self.giver(text, place) for text in listed(entry.get(member))]

    def giver(self, text, place):
        """Returns the port that a text names."""
        if not isinstance(text, str):
            raise Wrong(place, "a source is no text")
        if "$(" in text or "${" in text:
            raise Wrong(place, f"the source `{text}` is an expression, and no id")
        parts = within(text, self.prefix, place).split("/")
        if len(parts) > 2 or not all(parts):
            raise Wrong(place, f"the source `{text}` is neither a workflow input nor an output of a step")
        return (HEAD, *parts)[-2:]

    def keep_linked(self):
        """Keeps the inputs that are ports: of a tool those that some step gives a source, declared or read by a `valueFrom` alone."""
        if not self.is_workflow:
            extra = {title: self.name_of(title) for title in self.linked if title not in self.inputs}
            self.inputs = {title: name for title, name in self.inputs.items() if title in self.linked} | extra


class Document:
    """The processes that the run of a document can reach, in the order in which steps come to them, and in one in which what a
    workflow runs stands before it."""

    def __init__(self, value):
        self.given, self.processes, self.bottom_up = {}, {}, []
        self.start = self.read(value)
        self.reach()
        for process in self.processes.values():
            for step in process.steps.values():
                self.join(step)
        for process in self.processes.values():
            process.keep_linked()

    def read(self, value):
        """Takes the processes of the document, and returns the id of its workflow."""
        if not isinstance(value, dict):
            raise Wrong("document", "no JSON object")
        if value.get("cwlVersion") not in VERSIONS:
            raise Wrong("document", f"cwlVersion is `{value.get('cwlVersion')}`, and not one of {', '.join(VERSIONS)}")
        if "$graph" not in value:
            identity = value.get("id", "main")
            if not isinstance(identity, str) or value.get("class") != "Workflow":
                raise Wrong("document", "neither a `$graph` nor a Workflow")
            identity = identity.removeprefix("#")
            self.given[identity] = value, "#" if "id" not in value else None
            return identity
        if not isinstance(value["$graph"], list):
            raise Wrong("document", "the `$graph` is no list")
        for identity, given in entries_of(value["$graph"], "$graph", "class"):
            put(self.given, identity.removeprefix("#"), (given, None), f"#{identity.removeprefix('#')}")
        workflows = [identity for identity, (given, _) in self.given.items() if given.get("class") == "Workflow"]
        if "main" not in workflows and len(workflows) != 1:
            raise Wrong("document", f"no Workflow `#main`, and {len(workflows)} others")
        return "main" if "main" in workflows else workflows[0]

    def reach(self):
        """Reads the processes that the start reaches, each once, and refuses one that runs itself."""
        waiting, entered = [(self.start, "enter")], set()
        while waiting:
            identity, turn = waiting.pop()
            if turn == "leave":
                entered.remove(identity)
                self.bottom_up.append(identity)
            elif identity in entered:
                raise Wrong(f"#{identity}", "the workflow runs itself")
            elif identity not in self.processes:
                process = self.processes[identity] = Process(identity, *self.given[identity])
                entered.add(identity)
                waiting.append((identity, "leave"))
                waiting += [(step.run, "enter") for step in reversed(self.steps_of(process))]

    def steps_of(self, process):
        """Reads and returns the steps of a process."""
        if not process.is_workflow:
            return []
        for identity, given in entries_of(process.given.get("steps"), f"{process.place}: steps", "run"):
            step = Step(last_part(identity, process.prefix, process.place), given, process)
            put(process.steps, step.name, step, step.place)
            step.run = self.run_of(step, process)
        return list(process.steps.values())

    def run_of(self, step, process):
        """Returns the id of what a step runs, and takes an embedded process."""
        run = step.given.get("run")
        if isinstance(run, dict):
            identity = run.get("id", f"{process.identity}/{step.title}/run")
            if not isinstance(identity, str):
                raise Wrong(step.place, "the `id` of what it runs is no text")
            put(self.given, identity.removeprefix("#"), (run, None), f"{step.place}: run")
            return identity.removeprefix("#")
        if not isinstance(run, str) or not run.startswith("#") or run[1:] not in self.given:
            raise Wrong(step.place, f"it runs `{run}`, which is not in the document")
        return run[1:]

    def join(self, step):
        """Checks a step against what it runs, and notes there which inputs have sources."""
        process = self.processes[step.run]
        if process.is_workflow and step.reading:
            raise Wrong(step.reading[0], "`valueFrom` reads `inputs`, and the step runs a workflow")
        for title, sources in step.sources.items():
            if title not in process.inputs and (process.is_workflow or not step.computes):
                raise Wrong(f"{step.place}/{title}", f"`{process.place}` has no such input")
            if sources:
                process.linked[title] = True
        for title in step.outputs:
            if title not in process.outputs:
                raise Wrong(f"{step.place}/{title}", f"`{process.place}` has no such output")


class Module:
    """A module: its name, its ports, and for each output the bits of the inputs on which it rests."""

    def __init__(self, name, inputs, outputs, rests=None):
        self.name, self.inputs, self.outputs = name, list(inputs), list(outputs)
        self.every = (1 << len(self.inputs)) - 1
        self.rests = rests or dict.fromkeys(self.outputs, self.every)

    def has_every_pair(self):
        """Returns whether each output rests on each input."""
        return all(bits == self.every for bits in self.rests.values())

    def pairs(self):
        """Returns the pairs of an input and an output that rests on it."""
        return [[a, b] for place, a in enumerate(self.inputs) for b in self.outputs if self.rests[b] >> place & 1]


class Body:
    """A body while it is wired: its positions, and for each port that takes a value those that give it. HEAD is the head's position."""

    def __init__(self, head, place, library):
        self.head, self.place, self.library = head, place, library
        self.positions, self.takes, self.links, self.counts = {}, {}, [], {}

    def add(self, kind, ports=None):
        """Adds a helping module, and returns its position: its kind and the next number that no step has taken."""
        number = self.counts.get(kind, 0) + 1
        while f"{kind}-{number}" in self.positions:
            number += 1
        self.counts[kind] = number
        self.positions[f"{kind}-{number}"] = self.library.helper(kind, ports, self.place)
        return f"{kind}-{number}"

    def wire(self):
        """Gives each port exactly one link, by way of helping modules."""
        uses = {(HEAD, port): [] for port in self.head.inputs}
        for position, module in self.positions.items():
            uses.update({(position, port): [] for port in module.outputs})
        for taker, givers in self.takes.items():
            self.gather(taker, givers, uses)
        for giver, takers in uses.items():
            self.spread(giver, takers)
        if not self.positions:
            raise Wrong(self.place, "the workflow has neither steps nor ports")
        if len(self.positions) > MOST_POSITIONS:
            raise Wrong(self.place, f"the body has {len(self.positions)} positions, the modules that copy, gather and close among them, "
                                    f"and at most {MOST_POSITIONS} are allowed")

    def gather(self, taker, givers, uses):
        """Leads the givers of a port to it."""
        if len(givers) == 1:
            uses[givers[0]].append(taker)
        elif not givers:
            uses[self.add("constant"), "y"] = [taker]
        else:
            self.limit(taker, len(givers), "sources")
            position = self.add("gather", len(givers))
            for number, giver in enumerate(givers, 1):
                uses[giver].append((position, f"x{number}"))
            uses[position, "y"] = [taker]

    def spread(self, giver, takers):
        """Leads a value to its readers."""
        if len(takers) == 1 and (giver[0], takers[0][0]) != (HEAD, HEAD):
            self.links.append((giver, takers[0]))
        elif not takers:
            self.links.append((giver, (self.add("close"), "x")))
        else:
            self.limit(giver, len(takers), "readers")
            position = self.add("copy", len(takers))
            self.links.append((giver, (position, "x")))
            self.links += [((position, f"y{number}"), taker) for number, taker in enumerate(takers, 1)]

    def limit(self, port, count, what):
        """Refuses a port that is linked too often."""
        if count > MOST_PORTS:
            raise Wrong("/".join((self.place, *filter(None, port))), f"it has {count} {what}, and at most {MOST_PORTS} are allowed")

    def rests(self):
        """Returns for each output of the head the bits of the inputs on which it rests. The links must lead from no position to it."""
        feeds = dict(self.links)
        carried = {feeds[HEAD, port]: 1 << place for place, port in enumerate(self.head.inputs)}
        waits = {position: len(module.inputs) for position, module in self.positions.items()}
        for position, _ in carried:
            waits[position] -= 1
        ready = [position for position, count in waits.items() if not count]
        for position in ready:
            module = self.positions[position]
            given = [carried[position, port] for port in module.inputs]
            for output in module.outputs:
                taker = feeds[position, output]
                carried[taker] = self.joined(given, module.rests[output])
                if taker[0] != HEAD:
                    waits[taker[0]] -= 1
                    if not waits[taker[0]]:
                        ready.append(taker[0])
        self.no_circle(waits)
        return {output: carried[HEAD, output] for output in self.head.outputs}

    @staticmethod
    def joined(given, bits):
        """Returns what an output carries that rests on the inputs of these bits."""
        found = 0
        for place, sources in enumerate(given):
            if bits >> place & 1:
                found |= sources
        return found

    def no_circle(self, waits):
        """Refuses steps that wait for one another. Before each position that waits another one waits: the way back comes to a circle."""
        before = {taker[0]: giver[0] for giver, taker in self.links if waits.get(taker[0]) and waits.get(giver[0])}
        if not before:
            return
        position, seen = next(iter(before)), {}
        while position not in seen:
            seen[position] = len(seen)
            position = before[position]
        steps = {taker[0] for taker in self.takes}
        circle = [step for step in self.positions if step in steps and seen.get(step, -1) >= seen[position]]
        raise Wrong(f"{self.place}/{circle[0]}", "the step waits for its own output: " + ", ".join(f"`{step}`" for step in circle))

    def production(self):
        """Returns the production of the body."""
        def dotted(port):
            return ".".join(port)
        inner = [link for link in self.links if link[0][0] != HEAD and link[1][0] != HEAD]
        return {"head": self.head.name, "body": [[position, module.name] for position, module in self.positions.items()],
                "edges": [[dotted(giver), dotted(taker)] for giver, taker in inner],
                "in": [[giver[1], dotted(taker)] for giver, taker in self.links if giver[0] == HEAD],
                "out": [[dotted(giver), taker[1]] for giver, taker in self.links if taker[0] == HEAD]}


class Loop:
    """The modules and bodies of a scattered step: `turn` takes one element, `none` ends."""

    def __init__(self, inner, port, place, library):
        array = 1 << inner.inputs.index(port)
        rests = {output: bits | array for output, bits in inner.rests.items()}
        self.module = Module(f"{inner.name}-each-{port}", inner.inputs, inner.outputs, rests)
        none = Module(f"{inner.name}-none-{port}", inner.inputs, inner.outputs, rests)
        library.add(self.module, place)
        library.add(none, place, atomic=True)
        self.turn, self.none = Body(self.module, place, library), Body(self.module, place, library)
        self.none.positions["none"] = none
        self.turn.positions.update(split=library.helper("split", None, place), each=inner, next=self.module)
        self.turn.takes["split", "array"] = [(HEAD, port)]
        for name in inner.inputs:
            for position, part in (("each", "item"), ("next", "rest")):
                self.turn.takes[position, name] = [("split", part) if name == port else (HEAD, name)]
            self.none.takes["none", name] = [(HEAD, name)]
        for name in inner.outputs:
            self.turn.takes[HEAD, name] = [("each", name), ("next", name)]
            self.none.takes[HEAD, name] = [("none", name)]
        for body in (self.turn, self.none):
            body.wire()


class Library:
    """The modules and bodies of a specification. A body is found by the id of its workflow, a loop by the id of what it runs and the
    input over which it is scattered."""

    HELPERS = {"close": (["x"], []), "constant": ([], ["y"]), "split": (["array"], ["item", "rest"])}

    def __init__(self, document):
        self.modules, self.atomic, self.helpers, self.loops, self.bodies = {}, [], {}, {}, {}
        self.document, self.of = document, {}
        for identity, process in document.processes.items():
            self.of[identity] = Module(process.name, process.inputs.values(), process.outputs.values())
            self.add(self.of[identity], process.place)
        for identity in document.bottom_up:
            process = document.processes[identity]
            if process.is_workflow:
                self.bodies[identity] = self.body(process)
        self.start = self.of[document.start].name
        self.productions = [self.bodies[identity] for identity in document.processes if identity in self.bodies]
        self.productions += [body for loop in self.loops.values() for body in (loop.turn, loop.none)]
        self.numbers = {id(body): number for number, body in enumerate(self.productions)}
        self.limit()

    def add(self, module, place, atomic=False):
        """Adds a module under its name."""
        if not NAME.fullmatch(module.name):
            raise Wrong(place, f"the module `{module.name}` that the scatter needs has a name of more than 64 bytes")
        put(self.modules, module.name, module, place)
        for side, ports in (("inputs", module.inputs), ("outputs", module.outputs)):
            if len(ports) > MOST_PORTS:
                raise Wrong(place, f"it has {len(ports)} {side}, and at most {MOST_PORTS} are allowed")
        if atomic and not module.has_every_pair():
            self.atomic.append(module)

    def helper(self, kind, ports, place):
        """Returns the helping module of a kind, with a number of ports on its wide side."""
        if (kind, ports) not in self.helpers:
            wide = [f"{'xy'[kind == 'copy']}{number}" for number in range(1, (ports or 0) + 1)]
            inputs, outputs = {"copy": (["x"], wide), "gather": (wide, ["y"])}.get(kind) or self.HELPERS[kind]
            self.helpers[kind, ports] = Module(f"{kind}-{ports}" if ports else kind, inputs, outputs)
            self.add(self.helpers[kind, ports], place)
        return self.helpers[kind, ports]

    def body(self, process):
        """Returns the wired body of a workflow, and notes in its module on what its outputs rest."""
        head = self.of[process.identity]
        body = Body(head, process.place, self)
        there = {(HEAD, title): (HEAD, port) for title, port in process.inputs.items()}
        for step in process.steps.values():
            body.positions[step.name] = self.loop(step).module if step.scatter else self.of[step.run]
            outputs = self.document.processes[step.run].outputs
            there.update({(step.title, title): (step.name, outputs[title]) for title in step.outputs})
        for step in process.steps.values():
            for title, port in self.document.processes[step.run].inputs.items():
                body.takes[step.name, port] = self.known(step.sources.get(title, []), there, f"{step.place}/{title}")
        for title, port in process.outputs.items():
            body.takes[HEAD, port] = self.known(process.sources[title], there, f"{process.place}/{title}")
        body.wire()
        head.rests = body.rests()
        return body

    @staticmethod
    def known(givers, there, place):
        """Returns the ports that give a value, each of which must be there."""
        for giver in givers:
            if giver not in there:
                text = "/".join(filter(None, giver))
                raise Wrong(place, f"the source `{text}` is neither a workflow input nor an output of a step")
        return [there[giver] for giver in givers]

    def loop(self, step):
        """Returns the loop of a scattered step."""
        if (step.run, step.scatter) not in self.loops:
            port = self.document.processes[step.run].inputs[step.scatter]
            self.loops[step.run, step.scatter] = Loop(self.of[step.run], port, step.place, self)
        return self.loops[step.run, step.scatter]

    def limit(self):
        """Refuses what is too much as a whole."""
        squares = sum(len(body.positions) ** 2 for body in self.productions)
        for count, most, what in ((len(self.modules), MOST_MODULES, "modules"), (len(self.productions), MOST_PRODUCTIONS, "productions"),
                                  (squares, MOST_SQUARES, "as the sum of the squares of the bodies' lengths")):
            if count > most:
                raise Wrong("document", f"it needs {count} {what}, and at most {most} are allowed")

    def text(self):
        """Returns the specification."""
        modules = [{"name": module.name, "in": module.inputs, "out": module.outputs} for module in self.modules.values()]
        deps = [{"module": module.name, "pairs": module.pairs()} for module in self.atomic]
        parts = [("modules", modules), ("productions", [body.production() for body in self.productions])] + [("deps", deps)] * bool(deps)
        lists = [f'"{name}":[\n' + ",\n".join(map(compact, values)) + "]" for name, values in parts]
        text = f'{{"start":{compact(self.start)},\n' + ",\n".join(lists) + "}\n"
        if len(text) > MOST_BYTES:
            raise Wrong("document", f"it needs a specification of {len(text)} bytes, and at most {MOST_BYTES} are allowed")
        return text


def compact(value):
    """Returns a value as JSON without spaces."""
    return json.dumps(value, separators=(",", ":"))


class Record:
    """The executions that a record lists, by their paths, and all names of instances with the places where they were given."""

    def __init__(self):
        self.entries, self.names = {}, {}

    def add(self, path, name, elements, place):
        """Adds an execution."""
        if not NAME.fullmatch(name):
            raise Wrong(place, f"`{name}` is no name of 1 to 64 letters, digits, `_` or `-`")
        if path in self.entries:
            raise Wrong(place, f"the execution `{path}` is there twice")
        self.entries[path] = name, elements, place
        self.claim(name, place)

    def add_list(self, value):
        """Adds the executions of a plain list."""
        if not isinstance(value, list):
            raise Wrong("record", "neither a JSON list nor a file of CWLProv")
        for number, entry in enumerate(value):
            place = f"record entry {number}"
            if not isinstance(entry, dict) or not isinstance(entry.get("step"), str) or not isinstance(entry.get("name"), str):
                raise Wrong(place, "no object with the texts `step` and `name`")
            self.add(entry["step"], entry["name"], entry.get("elements"), place)

    def claim(self, name, place):
        """Takes a name for an instance."""
        if not NAME.fullmatch(name):
            raise Wrong(place, f"the name `{name}` of an instance has more than 64 bytes")
        put(self.names, name, place, place)
        if len(self.names) > MOST_INSTANCES:
            raise Wrong(place, f"the run has more than {MOST_INSTANCES} instances")
        return name

    def take(self, path, scattered=False):
        """Takes an execution, and returns its name, its number of elements and its place."""
        if path not in self.entries:
            raise Wrong("record", f"no execution `{path}`")
        name, elements, place = self.entries.pop(path)
        if scattered and (type(elements) is not int or elements < 0):
            raise Wrong(place, f"`{path}` is a scattered step, and `elements` is no whole number")
        if not scattered and elements is not None:
            raise Wrong(place, f"`{path}` is no scattered step, and has `elements`")
        return name, elements, place

    def end(self):
        """Refuses executions that were not taken."""
        for path, (_, _, place) in self.entries.items():
            raise Wrong(place, f"the workflow has no execution `{path}`")


def texts(parts, member):
    """Returns the texts of a member in the parts of an object of PROV-JSON, each plain or typed."""
    values = [value for part in parts if isinstance(part, dict) for value in listed(part.get(member))]
    return [text for value in values if isinstance(text := value.get("$") if isinstance(value, dict) else value, str)]


def objects(value, member, path):
    """Returns the objects of a member of a file of PROV-JSON, each as a list of its parts."""
    found = value.get(member, {}) if isinstance(value, dict) else None
    if not isinstance(found, dict):
        raise Wrong(path, f"no file of CWLProv: `{member}` is no object")
    return {name: listed(parts) for name, parts in found.items()}


class Provenance:
    """Reads a run from the files of CWLProv: that of the run, and those that it names of executions of workflows."""

    def __init__(self, path, value, document, record, read):
        self.document, self.record, self.folder, self.read = document, record, os.path.dirname(path), read
        self.waiting = deque([(path, value, document.start, "")])
        while self.waiting:
            self.file(*self.waiting.popleft())

    def file(self, path, value, identity, inside):
        """Adds the executions of a file, which is that of an execution of a workflow. `inside` is its path, with a `/` behind it."""
        steps = {step.title: step for step in self.document.processes[identity].steps.values()}
        plans = {}
        for parts in objects(value, "wasAssociatedWith", path).values():
            for activity, plan in zip(texts(parts, "prov:activity"), texts(parts, "prov:plan")):
                plans[activity] = plan
        for activity, parts in objects(value, "activity", path).items():
            place, name, kinds = f"{path}: {activity}", activity.removeprefix("id:"), texts(parts, "prov:type")
            if "wfprov:WorkflowRun" in kinds and not inside:
                self.record.add(".", name, None, place)
            elif "wfprov:ProcessRun" in kinds:
                step = self.step(steps, plans.get(activity, ""), place)
                self.record.add(inside + step.title, name, None, place)
                if self.document.processes[step.run].is_workflow:
                    inner = self.inner(parts, place)
                    self.waiting.append((inner, load(inner, self.read), step.run, f"{inside}{step.title}/"))

    def step(self, steps, plan, place):
        """Returns the step of a plan: `wf:main/STEP`, with `_2` and so on behind it where the engine ran other steps of this name."""
        title = unquote(plan.rpartition("/")[2])
        stem, _, number = title.rpartition("_")
        found = [steps[name] for name in (title, stem if number.isdecimal() else "") if name in steps]
        if not title:
            found = [step for step in steps.values() if self.document.processes[step.run].given["class"] == "ExpressionTool"]
        if len(found) != 1:
            raise Wrong(place, f"the plan `{plan}` names {len(found) and 'more than one' or 'no'} step of the workflow")
        if found[0].scatter:
            raise Wrong(place, f"`{found[0].title}` is a scattered step, "
                               "and CWLProv does not say which execution belongs to which element")
        return found[0]

    def inner(self, parts, place):
        """Returns the file of an execution of a workflow."""
        names = [text.removeprefix("provenance:") for text in texts(parts, "prov:has_provenance") if text.endswith(".json")]
        if len(names) != 1 or "/" in names[0]:
            raise Wrong(place, "the execution of a workflow does not name one file of its own that ends in `.json`")
        return os.path.join(self.folder, names[0])


def record_of(value, path, document, read):
    """Returns the record of a run, from a plain list or from files of CWLProv, whose paths are noted among those that were read."""
    record = Record()
    if isinstance(value, dict) and "activity" in value:
        Provenance(path, value, document, record, read)
    else:
        record.add_list(value)
    return record


class Run:
    """The events of a run. Instances that wait to be expanded are taken in the order in which they were made."""

    def __init__(self, document, library, record):
        self.document, self.library, self.record = document, library, record
        name, _, place = record.take(".")
        self.lines, self.waiting = [{"start": name}], deque()
        self.reached(name, document.start, "", place)
        while self.waiting:
            expand, *words = self.waiting.popleft()
            expand(*words)
        record.end()

    def reached(self, name, identity, path, place):
        """Notes an execution, which is expanded if it is one of a workflow. The path has a `/` behind it where it is not empty."""
        if identity in self.library.bodies:
            self.waiting.append((self.workflow, name, identity, path, place))

    def expand(self, name, body, names):
        """Adds the event that an instance is done by a body."""
        self.lines.append({"expand": name, "production": self.library.numbers[id(body)], "names": names})

    def workflow(self, name, identity, path, place):
        """Expands an execution of a workflow."""
        body, steps, names = self.library.bodies[identity], self.document.processes[identity].steps, []
        for position in body.positions:
            if position not in steps:
                names.append(self.record.claim(f"{name}-{position}", place))
                continue
            step = steps[position]
            child, elements, where = self.record.take(path + step.title, step.scatter is not None)
            names.append(child)
            if step.scatter is None:
                self.reached(child, step.run, f"{path}{step.title}/", where)
            else:
                loop = self.library.loop(step)
                self.waiting.append((self.turn, child, child, loop, step.run, f"{path}{step.title}/", 0, elements, where))
        self.expand(name, body, names)

    def turn(self, base, name, loop, identity, path, number, elements, place):
        """Expands the execution of a scattered step from the element of a number on."""
        if number == elements:
            self.expand(name, loop.none, [self.record.claim(f"{base}-none", place)])
            return
        names = []
        for position in loop.turn.positions:
            if position == "each":
                child, _, where = self.record.take(f"{path}{number}")
                self.reached(child, identity, f"{path}{number}/", where)
            else:
                child = self.record.claim(f"{base}-{position}-{number + (position == 'next')}", place)
            names.append(child)
        self.expand(name, loop.turn, names)
        self.waiting.append((self.turn, base, names[2], loop, identity, path, number + 1, elements, place))


def compare(workflow, record, path):
    """Refuses files of CWLProv by which an execution used or made something that the document lets come from elsewhere."""
    if isinstance(record, dict) and "activity" in record:
        from_cwlprov.Import(from_cwlprov.Reading(path, from_cwlprov.Document(workflow, "document"), []))


def imported(workflow, record, path, read):
    """Returns the texts of SPEC and, where a record is given, of EVENTS. The path is that of the record."""
    document = Document(workflow)
    library = Library(document)
    if record is None:
        return [library.text()]
    lines = Run(document, library, record_of(record, path, document, read)).lines
    compare(workflow, record, path)
    return [library.text(), "".join(compact(line) + "\n" for line in lines)]


def words_of(words):
    """Returns the paths of the call: WORKFLOW, RECORD or None, and the files to write."""
    record, paths = None, []
    rest = iter(words)
    for word in rest:
        if word == "--run":
            record = next(rest, None)
            if record is None:
                raise Wrong("call", "`--run` needs a RECORD; see --help")
        elif word.startswith("--"):
            raise Wrong("call", f"`{word}` is no option; see --help")
        else:
            paths.append(word)
    if len(paths) != 2 + (record is not None):
        raise Wrong("call", "the words are WORKFLOW SPEC, or WORKFLOW --run RECORD SPEC EVENTS; see --help")
    return paths[0], record, paths[1:]


def work(words):
    """Imports what the words name."""
    workflow, record, paths = words_of(words)
    read = []
    value = load(workflow, read)
    texts = imported(value, None if record is None else load(record, read), record, read)
    outputs.write_all(list(zip(paths, texts)), read)


if __name__ == "__main__":
    sys.exit(terminal.run("from_cwl.py", __doc__, work))
