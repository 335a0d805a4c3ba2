"""The texts that a record becomes: SPEC, EVENTS, and the table that says which item is which file."""
import json

import terminal
from actions import model
from actions.cutting import Cutter
from actions.parts import Graph, MOST_POSITIONS, Names, Part

MOST_MODULES = MOST_PRODUCTIONS = 1024
MOST_SQUARES, MOST_BYTES, MOST_INSTANCES = 65536, 16777216, 16777216
MOST_MADE = 60
SIZES = (MOST_POSITIONS, 32, 20, 14, 12, 10, 9, 8)
SHRINKS = 0.75


class Imported:
    """The texts of SPEC, EVENTS and the table, and what is said of the import, one line each."""

    def __init__(self, spec, events, table, notes):
        self.spec, self.events, self.table, self.notes = spec, events, table, notes


def imported(record, coarse=False):
    """Returns the texts of a record. What is not exact is refused, unless `coarse` is set."""
    actions, makers = record.happened()
    if not actions and not any(value.outside for value in record.values.values()):
        raise terminal.Wrong("record: no action came to an end, and no value came from outside")
    plan = Plan(record, actions, makers)
    text = fitting(plan.graph, coarse)
    instances = Instances(plan, text)
    return Imported(text.text(), instances.events(), table_of(record, plan, instances), text.notes())


class Plan:
    """The graph of a record: a leaf for each action, for each value from outside, and for each piece of what makes more values than a
    module has ports."""

    def __init__(self, record, actions, makers):
        self.graph, self.numbers, self.leaf_of = Graph(), {}, {}
        for action in actions:
            self.add_action(action, makers)
        for value in record.values.values():
            if value.outside:
                leaf = self.graph.leaf(value.path.rstrip("/").rpartition("/")[2] or value.identity, "outside", ())
                self.numbers[value.identity] = self.graph.value(leaf, "file", value.path or value.identity)
        for action in actions:
            for _, value in action.used:
                self.graph.read(self.leaf_of[action.name], self.numbers[value])
        self.set_groups()

    def add_action(self, action, makers):
        """Adds the leaf of an action, and its values."""
        leaf = self.leaf_of[action.name] = self.graph.leaf(action.name, action.tool, action.group)
        made = [(role, value) for role, value in action.made if makers[value][0] is action]
        if len(made) <= MOST_MADE:
            for role, value in made:
                self.numbers[value] = self.graph.value(leaf, role, value)
            return
        whole = self.graph.value(leaf, "all", action.name)
        for role, value in made:
            piece = self.graph.leaf(f"{action.name}-{role}", f"{action.tool}-{role}", action.group)
            self.graph.read(piece, whole)
            self.numbers[value] = self.graph.value(piece, role, value)

    def set_groups(self):
        """Puts each value from outside into the groups that all of its readers have in common."""
        for leaf, tool in enumerate(self.graph.tools):
            readers = {reader for value in self.graph.makes[leaf] for reader in self.graph.readers[value]}
            if tool == "outside" and readers:
                groups = [self.graph.groups[reader] for reader in readers]
                length = 0
                while all(len(group) > length and group[:length + 1] == groups[0][:length + 1] for group in groups):
                    length += 1
                self.graph.groups[leaf] = groups[0][:length]


def fitting(graph, coarse):
    """Returns the specification of a graph: by its groups, otherwise without them, and otherwise, if this is asked for, a coarse one."""
    groups, first = graph.groups, None
    for kept, loose in ((True, False), (False, False), (True, True)):
        graph.groups = groups if kept else [()] * len(groups)
        if loose and not coarse or not kept and not any(groups):
            continue
        try:
            text = exact(graph, loose)
        except terminal.Wrong as wrong:
            first = wrong
            continue
        text.ungrouped = not kept
        return text
    raise first


def exact(graph, coarse):
    """Returns the specification of a graph, by the largest bodies that are within the limits. Smaller bodies have a smaller sum of squares, by
    about the power of SHRINKS, and are more."""
    most, excess = SIZES[0], (0, 0, "")
    while most:
        cutter = Cutter(graph, most, coarse)
        try:
            text = Specification(cutter.whole(), cutter.builder.library)
        except terminal.Wrong:
            if not excess[2]:
                raise
            break
        least, squares, words = text.excess()
        if not words:
            return text
        excess = min(excess, (least, squares, words)) if excess[2] else (least, squares, words)
        wanted = most * (1 / squares) ** (1 / SHRINKS) if squares > 1 else 0
        most = next((size for size in SIZES if size < most and size <= max(wanted, SIZES[-1])), 0) if wanted > SIZES[-1] / 2 else 0
    raise terminal.Wrong(f"cutting: the run is too large to be cut exactly: {excess[2]}")


class Specification:
    """The modules and productions that a part needs, in their order."""

    def __init__(self, root, library):
        self.root, self.coarse, self.ungrouped = root, library.coarse, False
        self.modules, self.productions, self.numbers = [], [], {}
        used = used_by(root)
        seen, waiting = {root.module.number}, [root.module]
        for module in waiting:
            self.modules.append(module)
            for production in module.productions:
                if id(production) not in used:
                    continue
                self.numbers[id(production)] = len(self.productions)
                self.productions.append(production)
                for other in production.modules:
                    if other.number not in seen:
                        seen.add(other.number)
                        waiting.append(other)

    def excess(self):
        """Returns how many times as much it is as wfprov takes, at most, how many times of the squares, and what is too much, in words."""
        squares = sum(len(production.modules) ** 2 for production in self.productions)
        found = [(count / most, f"it needs {count} {what}, and at most {most} are allowed")
                 for count, most, what in ((len(self.modules), MOST_MODULES, "modules"), (len(self.productions), MOST_PRODUCTIONS, "productions"),
                                           (squares, MOST_SQUARES, "as the sum of the squares of the bodies' lengths")) if count > most]
        return (*max(found, default=(0, ""))[:1], squares / MOST_SQUARES, max(found, default=(0, ""))[1])

    def notes(self):
        """Returns what became coarse, and whether groups were left aside."""
        aside = ["the run cannot be cut by its groups exactly: its bodies are not those of its groups"] if self.ungrouped else []
        return aside + [f"coarse: {sum(counts)} values share a port of `{title}`" for title, counts in sorted(self.coarse.items())]

    def text(self):
        """Returns the text of SPEC, with a line for each module, production and part of the pairs."""
        modules = [{"name": module.name, "in": module.inputs, "out": module.outputs} for module in self.modules]
        deps = [{"module": module.name, "pairs": module.pairs} for module in self.modules if module.pairs is not None]
        lists = [("modules", modules), ("productions", [production_text(production) for production in self.productions]), ("deps", deps)]
        parts = [f'"{name}":[\n' + ",\n".join(compact(value) for value in values) + "]" for name, values in lists if values]
        text = f'{{"start":{compact(self.root.module.name)},\n' + ",\n".join(parts) + "}\n"
        if len(text) > MOST_BYTES:
            raise terminal.Wrong(f"cutting: SPEC would have {len(text)} bytes, and at most {MOST_BYTES} are allowed")
        return text


def used_by(root):
    """Returns the productions by which a part and all parts in it are expanded. Others were made on the way to them, and left aside."""
    used, waiting = set(), [root]
    for part in waiting:
        for production, positions in part.turns:
            used.add(id(production))
            waiting += [child for child in positions if isinstance(child, Part) and not child.is_leaf()]
    return used


def compact(value):
    """Returns a value as JSON without spaces."""
    return json.dumps(value, separators=(",", ":"))


def production_text(production):
    """Returns a production as SPEC has it."""
    names, head, modules = production.positions, production.module, production.modules

    def start(end):
        return f"{names[end[0]]}.{modules[end[0]].outputs[end[1]]}"

    def goal(end):
        return f"{names[end[0]]}.{modules[end[0]].inputs[end[1]]}"
    inner = [[start(a), goal(b)] for a, b in production.links if a[0] >= 0 and b[0] >= 0]
    return {"head": head.name, "body": [[name, module.name] for name, module in zip(names, modules)], "edges": inner,
            "in": [[head.inputs[a[1]], goal(b)] for a, b in production.links if a[0] < 0],
            "out": [[start(a), head.outputs[b[1]]] for a, b in production.links if b[0] < 0]}


class Instances:
    """The instances of a run: their names, the events, and the item of each value."""

    def __init__(self, plan, text):
        self.names, self.lines, self.leaves, self.modules = Names(), [], {}, {}
        self.graph, self.text = plan.graph, text
        for leaf, name in enumerate(plan.graph.names):
            self.leaves[leaf] = self.names.take(name)
        first = self.names.take("run")
        self.lines.append({"start": first})
        waiting = [(first, text.root)]
        for name, part in waiting:
            self.expand(name, part, waiting)
        if len(self.names.taken) > MOST_INSTANCES:
            raise terminal.Wrong(f"cutting: the run needs {len(self.names.taken)} instances, and at most {MOST_INSTANCES} are allowed")

    def expand(self, name, part, waiting):
        """Adds the events of an instance of a part. In each turn of a loop but the last, the position without a part is the next one."""
        for production, positions in part.turns:
            made, following = [], None
            for position, module, child in zip(production.positions, production.modules, positions):
                made.append(self.instance(position, module, child, waiting))
                if module is production.module:
                    following = made[-1]
            self.lines.append({"expand": name, "production": self.text.numbers[id(production)], "names": made})
            name = following

    def instance(self, position, module, child, waiting):
        """Returns the name of an instance at a position."""
        if not isinstance(child, Part):
            return self.names.take(position)
        if child.is_leaf():
            leaf = next(iter(child.leaves))
            self.modules[leaf] = module
            return self.leaves[leaf]
        name = self.names.take(position)
        waiting.append((name, child))
        return name

    def item(self, value):
        """Returns the item of a value: what its maker gave out."""
        leaf = self.graph.maker[value]
        return f"{self.leaves[leaf]}.{self.modules[leaf].outputs[self.graph.makes[leaf].index(value)]}"

    def events(self):
        """Returns the text of EVENTS."""
        return "".join(compact(line) + "\n" for line in self.lines)


def cell(text):
    """Returns a text as a field of the table."""
    return text.replace("\\", "\\\\").replace("\t", "\\t").replace("\n", "\\n").replace("\r", "\\r")


def table_of(record, plan, instances):
    """Returns the text of the table: a line for each action, and one for each value that is there."""
    lines = ["#wfprov files 1"]
    for action in record.actions.values():
        leaf = plan.leaf_of.get(action.name)
        fields = (action.name, "" if leaf is None else instances.leaves[leaf], action.tool, action.state, action.software)
        lines.append("\t".join(["action", *map(cell, fields)]))
    made = {}
    for action in record.actions.values():
        if action.name in plan.leaf_of:
            made.update({value: (action.name, role) for role, value in action.made if value not in made or action.state == model.DONE})
    for identity, number in plan.numbers.items():
        value = record.values[identity]
        fields = (identity, value.path, value.checksum, *made.get(identity, ("", "")), instances.item(number))
        lines.append("\t".join(["value", *map(cell, fields)]))
    return "".join(line + "\n" for line in lines)
