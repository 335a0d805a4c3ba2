#!/usr/bin/env python3
"""Turns what `wfprov export` writes, or a specification, into a picture for Graphviz.

  ./wfprov export SPEC VIEW EVENTS | python3 tools/dot.py | dot -Tsvg > picture.svg
  python3 tools/dot.py [FILE]                    reads FILE, and standard input where none is given
  python3 tools/dot.py --question FROM TO SPEC VIEW EVENTS
                                                 draws a run, two items in it, and the chain that `wfprov explain` writes of them
  python3 tools/dot.py --spec SPEC [SPEC ..]     draws specifications, one beside the other
  python3 tools/dot.py --spec SPEC --view SHOWN  draws what a view shows of one; SHOWN has the lines that `wfprov view` writes

A run: an instance that the view leaves closed, or whose module has no steps, is a box with its inputs above and its outputs below;
where some of its outputs do not rest on each of its inputs, the box lists the pairs that do. A pending instance is a dashed box. The
ports of an instance that is open are ovals. Arrows are links, and an arrow that carries an item has the item's name.

A question is drawn in blue: an item of it is a filled oval, or an arrow with a blue name. If TO rests on FROM, the chain that `explain`
writes is drawn, a shortest one: the instances behind `via` have a thick blue frame and a blue text, the arrows from item to item are
thick and blue, with a blue name for each item of the chain, and so are the frames of the ovals on them. Otherwise the two items alone are
marked. A chain may lead through a pending instance. `export` and `explain` are asked for one picture, so the three files are regular
ones. The program is the one that is built in this repository, or the one that the variable WFPROV names, or the one in PATH.

A specification: a production is a frame with its number and its head. The grey bar at its top has the inputs of the head, and the one
at its bottom the outputs. A box is a position with its module. It has the numbers of the productions by which the module is done, if
there are any, as `by 1, 2`; otherwise it lists the pairs that `deps` gives the module, where these are not all. Arrows are edges,
entries and exits. A position from which a way leads back to the head, and its production, have thick frames: this is the step of a
cycle. An atomic module that stands in no body is a box of its own. Several specifications have frames with their paths. Under a view
only the productions of expanded modules are drawn, and the box of each other module lists the pairs that the view shows.

A specification that has not the form of docs/FORMATS.md is refused; `tools/diagnose.py` says where and why. One in which a module is not
reached, does not end or leads back in two ways is drawn, though `wfprov check` refuses it.

This tool is no part of what is proved. It needs Python's standard library alone.
"""
import os
import re
import sys

sys.path.insert(0, os.path.dirname(os.path.abspath(__file__)))
import terminal
import wfprov
from diagnosis import specs
from diagnosis.faults import Fault
from diagnosis.graphs import cycles
from terminal import Wrong

KINDS = ("leaf", "pending")
NAME = re.compile(r"[A-Za-z0-9_-]{1,64}")
# How many productions stand side by side, in a picture of one specification and of several.
COLUMNS_OF_ONE, COLUMNS_OF_SEVERAL = 5, 3
# How many productions the box of a composite module names.
NAMED_PRODUCTIONS = 4
VIA = "via "
# How a picture draws a part of a chain, one with a name, and the oval of an item that is asked about.
CHAINED = ' color="#1f5fa8" penwidth=2'
CHAINED_NAME = CHAINED + ' fontcolor="#1f5fa8"'
ASKED_OVAL = CHAINED + ' style=filled fillcolor="#cfe2f7"'


def name_at(text, place):
    """Returns a text that is a name."""
    if not NAME.fullmatch(text):
        raise Wrong(f"{place}: `{text}` is no name")
    return text


def split_port(text, place):
    """Returns the two names of a text with a dot between them."""
    first, dot, port = text.partition(".")
    if not first or not dot or not port:
        raise Wrong(f"{place}: `{text}` is no instance and port with a dot between")
    return name_at(first, place), name_at(port, place)


class Export:
    """What the lines of `export` tell: the closed instances with their kinds and modules, the items, and the links, each in order."""

    def __init__(self, lines):
        self.closed, self.items, self.links = {}, set(), []
        for number, line in enumerate(lines, 1):
            self.take(line.split(" "), f"line {number}")

    def take(self, words, place):
        if words[0] in KINDS and len(words) == 3:
            self.closed[name_at(words[1], place)] = words[0], name_at(words[2], place)
        elif words[0] == "item" and len(words) == 2:
            split_port(words[1], place)
            self.items.add(words[1])
        elif words[0] == "link" and len(words) == 3:
            self.links.append((split_port(words[1], place), split_port(words[2], place)))
        else:
            raise Wrong(f"{place}: neither `leaf`, `pending`, `item` nor `link` with its names")

    def is_pair(self, link):
        """Whether a link is a pair of a closed instance, from an input to an output of it."""
        (owner, _), (other, _) = link
        return owner == other and owner in self.closed

    def ports(self):
        """Returns for each closed instance its inputs, its outputs and its pairs, each in order, as far as links tell them."""
        found = {instance: ({}, {}, []) for instance in self.closed}
        for link in self.links:
            (a, from_port), (b, to_port) = link
            pair = self.is_pair(link)
            if a in found:
                found[a][not pair][from_port] = True
            if b in found:
                found[b][pair][to_port] = True
            if pair:
                found[a][2].append((from_port, to_port))
        return found


class Chain:
    """What is drawn of the lines of a chain: its items, as ports, its instances, and the links that lead from item to item through these."""

    def __init__(self, export, lines):
        self.items = {split_port(item, "chain") for item in lines[::2]}
        self.instances = {name_at(line.removeprefix(VIA), "chain") for line in lines[1::2]}
        self.export, self.onward, self.back = export, {}, {}
        for link in export.links:
            if not export.is_pair(link):
                self.onward[link[0]], self.back[link[1]] = link, link
        self.links = set()
        for item, via, other in zip(lines[::2], lines[1::2], lines[2::2]):
            self.take_step(split_port(item, "chain"), via.removeprefix(VIA), split_port(other, "chain"))

    def take_step(self, item, instance, other):
        """Takes the links of a step. An edge and entries lead from an item to the instance; exits lead back from the next item to it."""
        if instance not in self.export.closed:
            raise Wrong(f"chain: `{instance}` is no box of the picture")
        self.walk(item, instance, self.onward, 1)
        self.walk(other, instance, self.back, 0)

    def walk(self, port, instance, way, end):
        """Takes the links from a port to one of an instance."""
        while port[0] != instance:
            if port not in way:
                raise Wrong(f"chain: no links join `{'.'.join(port)}` and `{instance}`")
            self.links.add(way[port])
            port = way[port][end]


class Question:
    """What is drawn of a question: the ports that name its two items, and the chain from the one to the other, from the lines that
    `explain` writes. A picture without a question has neither."""

    def __init__(self, export=None, items=(), lines=()):
        for item in items:
            if item not in export.items:
                raise Wrong(f"`{item}` is no item that is shown")
        self.items = tuple(split_port(item, "question") for item in items)
        chain = Chain(export, lines) if lines else None
        self.links, self.instances = (chain.links, chain.instances) if chain else (set(), set())
        self.named = {*self.items, *chain.items} if chain else set(self.items)
        self.ports = {port for link in self.links for port in link}

    def of_box(self, _export, instance):
        """Returns how the box of a closed instance is drawn besides."""
        return CHAINED_NAME if instance in self.instances else ""

    def of_oval(self, port):
        """Returns how the oval of a port is drawn besides."""
        return ASKED_OVAL if port in self.items else CHAINED if port in self.ports else ""

    def of_arrow(self, link, named):
        """Returns how an arrow is drawn besides, which has the name of an item or has none."""
        return CHAINED_NAME if named and link[0] in self.named else CHAINED if link in self.links else ""


def found_in(name, known, place, what):
    """Returns a name that is among those that are known."""
    if name not in known:
        raise Wrong(f"{place}: `{name}` is no {what}")
    return name


class Module:
    """A module: its inputs, its outputs, the numbers of its productions, the pairs that `deps` or a view gives, or None, and whether it
    is seen, and its inside shown."""

    def __init__(self, module):
        self.inputs, self.outputs, self.pairs = module.inputs, module.outputs, module.given
        self.productions = [production.number for production in module.productions]
        self.seen, self.open = True, True

    def is_expanded(self):
        """Whether the productions of the module are drawn, of which there are any."""
        return self.open and bool(self.productions)

    def lines(self):
        """Returns what a box of the module lists: its productions, or its pairs where these are not all."""
        if self.is_expanded():
            named = ", ".join(str(number) for number in self.productions[:NAMED_PRODUCTIONS])
            more = len(self.productions) - NAMED_PRODUCTIONS
            return [f"by {named}" + f" and {more} more" * (more > 0)]
        if self.pairs is None:
            return []
        return listed([(a, b) for a in self.inputs for b in self.outputs if (a, b) in self.pairs], self.inputs, self.outputs)


class Production:
    """A production: its head, its body, which has for each position its module, and its links. A link leads from one end to the
    other, and an end is a position and a port, or None and a port of the head."""

    def __init__(self, production):
        self.head, self.body, self.links = production.head, production.body, production.links()


class Spec:
    """What a specification describes: its start, its modules and its productions, in order, and for each composite module one that
    stands for all that lie on one cycle with it."""

    def __init__(self, grammar):
        self.start = grammar.start
        self.modules = {name: Module(module) for name, module in grammar.modules.items()}
        self.productions = [Production(production) for production in grammar.productions]
        self.find_cycles()

    def find_cycles(self):
        self.cycle = cycles({name: self.steps(module) for name, module in self.modules.items()})

    def take_view(self, lines):
        """Leaves what a view shows, from the lines that `view` writes."""
        for module in self.modules.values():
            module.seen = module.open = False
        for number, line in enumerate(lines, 1):
            self.take_shown(line.split(" "), f"line {number}")
        self.find_cycles()

    def take_shown(self, words, place):
        if len(words) < 2 or words[1] not in ("expanded", "shown"):
            raise Wrong(f"{place}: not a module, and `expanded` or `shown`")
        module = self.modules[found_in(words[0], self.modules, place, "module")]
        module.seen, module.open = True, words[1] == "expanded"
        if module.open and not module.productions:
            raise Wrong(f"{place}: `{words[0]}` has no productions")
        module.pairs = set()
        for pair in words[2:]:
            first, _, second = pair.partition(">")
            found_in(first, module.inputs, place, f"input of {words[0]}")
            module.pairs.add((first, found_in(second, module.outputs, place, f"output of {words[0]}")))

    def steps(self, module):
        """Returns the modules of the bodies that are drawn of a module."""
        return [step for number in module.productions for step in self.productions[number].body.values()] if module.open else []

    def ways_back(self, production):
        """Returns the positions of a production from which a way leads back to its head."""
        return [position for position, module in production.body.items() if self.cycle[module] == self.cycle[production.head]]


def quoted(text):
    """Returns a text as a string of the picture's language. Names hold nothing that has a meaning there, but for dots and spaces."""
    return f'"{text}"'


def row(side, ports):
    """Returns the cells of the ports of one side of a box."""
    return "{" + "|".join(f"<{side}_{port}> {port}" for port in ports) + "}"


def listed(pairs, inputs, outputs):
    """Returns the lines that tell the pairs of a box where these are not all."""
    if len(pairs) == len(inputs) * len(outputs):
        return []
    return [f"{a} to {b}" for a, b in pairs] or ["no pairs"]


def record(inputs, lines, outputs):
    """Returns the label of a box: its inputs above, lines of text, and its outputs below."""
    cells = [row("in", inputs)] * bool(inputs) + ["\\n".join(lines)] + [row("out", outputs)] * bool(outputs)
    return quoted("{" + "|".join(cells) + "}")


def box(export, instance, ports, more):
    """Returns the line of a closed instance."""
    kind, module = export.closed[instance]
    inputs, outputs, pairs = ports
    pending = kind == "pending"
    lines = [f"{instance}: {module}"] + ([] if pending else listed(pairs, inputs, outputs))
    return f"  {quoted(instance)} [shape=record label={record(inputs, lines, outputs)}{' style=' + quoted('dashed') if pending else ''}{more}];"


def end(export, port, side):
    """Returns an end of an arrow: a cell of a box, or the oval of a port of an open instance."""
    instance, name = port
    if instance in export.closed:
        return f"{quoted(instance)}:{quoted(side + '_' + name)}"
    return quoted(f"{instance}.{name}")


def run_picture(export, question):
    """Yields the lines of the picture of a run, with a question."""
    yield "digraph provenance {"
    yield "  node [fontname=Helvetica fontsize=11];"
    yield "  edge [fontname=Helvetica fontsize=9];"
    for instance, ports in export.ports().items():
        yield box(export, instance, ports, question.of_box(export, instance))
    ovals = dict.fromkeys(port for link in export.links for port in link if port[0] not in export.closed)
    for instance, port in ovals:
        yield f"  {quoted(f'{instance}.{port}')} [shape=oval{question.of_oval((instance, port))}];"
    for link in export.links:
        if export.is_pair(link):
            continue
        first, second = link
        name = ".".join(first)
        named = name in export.items and first[0] in export.closed
        drawn = (f" label={quoted(name)}" if named else "") + question.of_arrow(link, named)
        yield f"  {end(export, first, 'out')} -> {end(export, second, 'in')}{f' [{drawn[1:]}]' if drawn else ''};"
    yield "}"


class Frame:
    """A production as it is drawn: what the names of its nodes begin with, and the nodes at its top and its bottom."""

    def __init__(self, spec, number, prefix):
        self.spec, self.number, self.prefix = spec, number, f"{prefix}{number}"
        self.production = spec.productions[number]
        self.head = spec.modules[self.production.head]
        places = list(self.production.body)
        self.top = self.node(None, "in") if self.head.inputs else self.node(places[0], "in")
        self.bottom = self.node(None, "out") if self.head.outputs else self.node(places[-1], "out")

    def node(self, position, side):
        """Returns the node of a position, or of the bar of the head's ports of one side."""
        return quoted(f"{self.prefix} {side}" if position is None else f"{self.prefix}.{position}")

    def title(self):
        name = self.production.head
        return f"production {self.number}: {name}" + "\\n(start)" * (name == self.spec.start)

    def bars(self):
        """Yields the lines of the head's ports."""
        for side, ports in (("in", self.head.inputs), ("out", self.head.outputs)):
            if ports:
                cells = "|".join(f"<{side}_{port}> {port}" for port in ports)
                yield f"{self.node(None, side)} [height=0.3 style=filled fillcolor=gray90 label={quoted(cells)}];"

    def arrow(self, link):
        """Returns the line of a link. At a position it leaves below an output; at the head it leaves below an input."""
        (first, from_port), (second, to_port) = link
        from_side, to_side = "out" if first else "in", "in" if second else "out"
        return (
            f"{self.node(first, from_side)}:{quoted(f'{from_side}_{from_port}')}:s"
            f" -> {self.node(second, to_side)}:{quoted(f'{to_side}_{to_port}')}:n;"
        )

    def lines(self):
        """Yields the lines of the frame."""
        back = self.spec.ways_back(self.production)
        thick = " penwidth=2.5"
        yield f"subgraph {quoted(f'cluster_{self.prefix}')} {{"
        yield f"  graph [label={quoted(self.title())} style=rounded{thick * bool(back)}];"
        yield from (f"  {line}" for line in self.bars())
        for position, name in self.production.body.items():
            module = self.spec.modules[name]
            label = record(module.inputs, [f"{position}: {name}", *module.lines()], module.outputs)
            yield f"  {self.node(position, 'in')} [label={label}{thick * (position in back)}];"
        yield from (f"  {self.arrow(link)}" for link in self.production.links)
        yield "}"


def spec_lines(spec, prefix, columns):
    """Yields the lines of a specification. Arrows that are not seen keep the productions in rows, in their order."""
    frames = [Frame(spec, number, prefix) for number, production in enumerate(spec.productions) if spec.modules[production.head].open]
    for frame in frames:
        yield from frame.lines()
    placed = {module for frame in frames for module in frame.production.body.values()}
    for name, module in spec.modules.items():
        if module.seen and not module.is_expanded() and name not in placed:
            yield f"{quoted(f'{prefix}: {name}')} [label={record(module.inputs, [name, *module.lines()], module.outputs)}];"
    first = quoted(f"{prefix} first")
    yield f"{first} [shape=point style=invis width=0 height=0 ordering=out];"
    for number, frame in enumerate(frames):
        above = frames[number - columns].bottom if number >= columns else first
        yield f"{above} -> {frame.top} [style=invis weight=0];"


def title_of(path):
    """Returns a path as a string of the picture's language, in which any byte may stand."""
    text = terminal.escaped(path)
    return quoted(text.replace("\\", "\\\\").replace('"', '\\"').replace("&", "&amp;"))


def spec_picture(held):
    """Yields the lines of the picture of specifications, which are given with their paths."""
    yield "digraph specification {"
    yield "  graph [fontname=Helvetica fontsize=11 nodesep=0.15 ranksep=0.4];"
    yield "  node [fontname=Helvetica fontsize=11 shape=record];"
    if len(held) == 1:
        yield from (f"  {line}" for line in spec_lines(held[0][1], "", COLUMNS_OF_ONE))
    else:
        for number, (path, spec) in enumerate(held):
            yield f"  subgraph {quoted(f'cluster_{number}')} {{"
            yield f"    graph [label={title_of(path)}];"
            yield from (f"    {line}" for line in spec_lines(spec, f"{number}/", COLUMNS_OF_SEVERAL))
            yield "  }"
    yield "}"


def read_spec(path):
    """Returns the specification of a file, if what it names is there. `wfprov check` may refuse it all the same."""
    try:
        return Spec(specs.formed(*specs.read_parts(path, terminal.read_bytes(path))))
    except Fault as fault:
        raise Wrong(f"{path}: refused: {fault.kind}; `python3 tools/diagnose.py` says where and why") from None


def lines_in(text):
    """Returns the lines of a text that the program wrote."""
    lines = text.split("\n")
    return lines[:-1] if lines[-1] == "" else lines


def read_shown(path, spec):
    """Leaves of a specification what a view shows, as a file tells it."""
    lines = lines_in(terminal.read_text(path, ", and so not what `view` writes"))
    try:
        spec.take_view(lines)
    except Wrong as wrong:
        raise Wrong(f"{path}: {wrong}") from None


def picture_of_specs(words):
    """Returns the lines of the picture of the specifications that the words behind `--spec` name."""
    view = words[2:] if words[1:2] == ["--view"] else []
    paths = words[:1] if view else words
    if not paths or len(view) > 1 or "--view" in paths:
        raise Wrong("the words behind --spec are not SPEC [SPEC ..] or SPEC --view SHOWN; see --help")
    held = [(path, read_spec(path)) for path in paths]
    for shown in view:
        read_shown(shown, held[0][1])
    return spec_picture(held)


def read_export(words):
    """Returns what the lines of a file tell, or those of standard input where no file is given."""
    if len(words) > 1:
        raise Wrong("at most one FILE; see --help")
    return Export(lines_in(terminal.read_text(*words, but=", and so not what `export` writes")))


def lines_told(words):
    """Returns the lines that the program writes on these words."""
    try:
        return wfprov.lines_of(words, None)
    except (wfprov.Ended, wfprov.NoProgram) as end:
        raise Wrong(f"wfprov {words[0]}: {end}") from None


def picture_of_question(items, files):
    """Returns the lines of the picture of the run of three files, with two items and the chain from the one to the other."""
    for file in files:
        if os.path.exists(file) and not os.path.isfile(file):
            raise Wrong(f"{file}: not a regular file")
    export = Export(lines_told(["export", *files]))
    lines = lines_told(["explain", *files, *items])
    return run_picture(export, Question(export, items, lines if len(lines) > 1 else ()))


def picture_of_run(words):
    """Returns the lines of the picture of a run, with the question of the words where they begin with one."""
    if words[:1] != ["--question"]:
        return run_picture(read_export(words), Question())
    if len(words) != 6:
        raise Wrong("the words behind --question are not FROM TO SPEC VIEW EVENTS; see --help")
    return picture_of_question(words[1:3], words[3:])


def work(words):
    lines = picture_of_specs(words[1:]) if words[:1] == ["--spec"] else picture_of_run(words)
    terminal.write("\n".join(lines) + "\n")


if __name__ == "__main__":
    sys.exit(terminal.run("dot.py", __doc__, work))
