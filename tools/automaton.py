#!/usr/bin/env python3
"""Makes an automaton for `wfprov words` from an expression over the names of modules.

  python3 tools/automaton.py SPEC EXPRESSION                                   writes AUTO
  python3 tools/automaton.py --picture SPEC EXPRESSION | dot -Tsvg > auto.svg   draws it, for Graphviz

`words` asks whether a path joins two items that passes modules in such an order that the automaton accepts it. An expression says which:

  NAME               the module of this name
  .                  any module
  [^NAME NAME ..]    any module but these
  X Y                X, and behind it Y
  X|Y                X, or Y; each may be empty
  X*  X+  X?         X as often as you like, once or more, once or not at all
  (X)                X

Blanks stand between names, and may stand between other signs. So `.* Filter .*` accepts the paths that pass a module `Filter`, and
`[^Filter]*` those that pass none. A module that a view expands is never passed: a path goes through what is inside. A composite module
that the view leaves closed is passed as an atomic one is, so its name may stand in an expression, too.

The automaton has as few states as there can be. The start is state 0, and the others are numbered in the order in which they are reached.
Where AUTO names no move for a state and a module, the state stays. So moves that stay are left out, and where nothing can be accepted any
more there is a state that no move leaves. `words` takes at most 64 states, and of a module with several inputs or several outputs 64
divided by their number: an expression that needs more is refused, with the number that it needs.

A picture has a double circle for a state that accepts, a grey one where nothing can be accepted any more, and an arrow with the modules
of the moves from one state to another. A module that no arrow from a state names leaves it where it is.

This tool is no part of what is proved. Whether a view and an automaton go together is told by `words`. It needs Python's standard
library alone.
"""
import collections
import json
import os
import re
import sys

sys.path.insert(0, os.path.dirname(os.path.abspath(__file__)))
import dot
import terminal
from terminal import Wrong

# How many states `words` takes, times the ports of a module on one side; and how many are held before those that are alike are made one.
STATES, HELD = 64, 20_000
# How many modules an arrow of a picture names.
NAMED = 8
TOKEN = re.compile(r"(?P<name>[A-Za-z0-9_-]+)|\[\^(?P<but>[A-Za-z0-9_\s-]*)\]|(?P<sign>[.|*+?()])")
BLANKS = re.compile(r"\s*")

# A part of an expression: whether it accepts the empty word, and the places where its words can begin and end.
Part = collections.namedtuple("Part", "is_skipped first last")
EMPTY = Part(True, 0, 0)


def members(places):
    """Yields the numbers of a set, in which the bit of each is 1."""
    while places:
        least = places & -places
        yield least.bit_length() - 1
        places ^= least


class Places:
    """The places of an expression, each of which takes some modules, and the places that can follow each. Place 0 is before the first."""

    def __init__(self):
        self.takes, self.after = [None], [0]

    def add(self, takes):
        """Adds a place, and returns the part that is this place alone."""
        self.takes.append(takes)
        self.after.append(0)
        return Part(False, 1 << len(self.takes) - 1, 1 << len(self.takes) - 1)

    def lead(self, last, first):
        """Lets the second places follow each of the first."""
        for place in members(last):
            self.after[place] |= first

    def joined(self, one, other):
        self.lead(one.last, other.first)
        first = one.first | (other.first if one.is_skipped else 0)
        return Part(one.is_skipped and other.is_skipped, first, other.last | (one.last if other.is_skipped else 0))

    def repeated(self, part, sign):
        """Returns a part with `*`, `+` or `?` behind it."""
        if sign != "?":
            self.lead(part.last, part.first)
        return part if sign == "+" else part._replace(is_skipped=True)


def either(one, other):
    return Part(one.is_skipped or other.is_skipped, one.first | other.first, one.last | other.last)


class Group:
    """What stands in parentheses, or the whole: the ways before the last `|`, and the parts behind it."""

    def __init__(self, column):
        self.column, self.ways, self.parts = column, [], []

    def end_way(self, places):
        """Ends the last way, and returns what accepts the words of all so far."""
        way = EMPTY
        for part in self.parts:
            way = places.joined(way, part)
        self.ways.append(way)
        self.parts = []


def tokens(text):
    """Yields the words and signs of an expression, each with its column."""
    at = BLANKS.match(text).end()
    while at < len(text):
        found = TOKEN.match(text, at)
        if not found:
            what = "`[` begins `[^NAME NAME ..]`, and here it does not" if text[at] == "[" else f"`{text[at]}` is no sign of an expression"
            raise Wrong(f"expression: column {at + 1}: {what}")
        yield found, at + 1
        at = BLANKS.match(text, found.end()).end()


class Reading:
    """An expression that is read token by token."""

    def __init__(self, modules):
        self.modules, self.places, self.groups = modules, Places(), [Group(0)]

    def named(self, name, column):
        if name not in self.modules:
            raise Wrong(f"expression: column {column}: the specification has no module `{name}`")
        return name

    def takes(self, found, column):
        """Returns the modules that a token takes, with whether it takes these or all others, or None for another sign."""
        if found["name"]:
            return frozenset([self.named(found["name"], column)]), True
        if found["but"] is not None:
            names = found["but"].split()
            if not names:
                raise Wrong(f"expression: column {column}: `[^NAME NAME ..]` needs a name")
            return frozenset(self.named(name, column) for name in names), False
        return (frozenset(), False) if found["sign"] == "." else None

    def take(self, found, column):
        group, takes, sign = self.groups[-1], self.takes(found, column), found["sign"]
        if takes:
            group.parts.append(self.places.add(takes))
        elif sign == "|":
            group.end_way(self.places)
        elif sign == "(":
            self.groups.append(Group(column))
        elif sign == ")":
            self.close(column)
        elif not group.parts:
            raise Wrong(f"expression: column {column}: `{sign}` stands behind nothing")
        else:
            group.parts[-1] = self.places.repeated(group.parts[-1], sign)

    def close(self, column):
        if len(self.groups) == 1:
            raise Wrong(f"expression: column {column}: `)` closes nothing")
        part = self.ended()
        self.groups[-1].parts.append(part)

    def ended(self):
        """Ends the last group, and returns its part."""
        group = self.groups.pop()
        group.end_way(self.places)
        whole = group.ways[0]
        for way in group.ways[1:]:
            whole = either(whole, way)
        return whole

    def whole(self):
        """Returns the part that is the whole expression."""
        if len(self.groups) > 1:
            raise Wrong(f"expression: column {self.groups[-1].column}: `(` is not closed")
        return self.ended()


def read(text, modules):
    """Returns the places of an expression over modules, and the part that is the whole of it."""
    reading = Reading(modules)
    for found, column in tokens(text):
        reading.take(found, column)
    whole = reading.whole()
    reading.places.after[0] = whole.first
    return reading.places, whole


def kinds_of(places, modules):
    """Returns for each module the number of its kind: those that no place tells apart are of one kind. They are numbered in the order of modules."""
    named = set().union(*(takes[0] for takes in places.takes[1:]))
    numbers = {}
    return {name: numbers.setdefault(name if name in named else None, len(numbers)) for name in modules}


def determined(places, whole, kinds):
    """Returns the states to which each state leads by modules of each kind, and the states that accept. A state is a set of places."""
    sample = {kind: name for name, kind in kinds.items()}
    taking = [sum(1 << place for place, takes in enumerate(places.takes) if takes and (sample[kind] in takes[0]) == takes[1]) for kind in sorted(sample)]
    numbers, states, rows = {1: 0}, [1], []
    for state in states:
        after = 0
        for place in members(state):
            after |= places.after[place]
        for taken in taking:
            if after & taken not in numbers:
                numbers[after & taken] = len(states)
                states.append(after & taken)
        rows.append([numbers[after & taken] for taken in taking])
        if len(states) > HELD:
            raise Wrong(f"expression: it is too large: it has more than {HELD:,} states before those that are alike are made one")
    last = whole.last | int(whole.is_skipped)
    return rows, {number for number, state in enumerate(states) if state & last}


def blocks_of(rows, accepting):
    """Returns for each state the number of its block: states are in one block exactly if the same words are accepted from each (after Hopcroft)."""
    before = [collections.defaultdict(list) for _ in rows[0]]
    for state, row in enumerate(rows):
        for kind, after in enumerate(row):
            before[kind][after].append(state)
    block_of = [int(state in accepting) for state in range(len(rows))]
    blocks, left = [set(range(len(rows))) - accepting, set(accepting)], {0, 1}
    while left:
        splitting = list(blocks[left.pop()])
        for sources in before:
            found = collections.defaultdict(set)
            for state in splitting:
                for source in sources[state]:
                    found[block_of[source]].add(source)
            for number, inside in found.items():
                if len(inside) < len(blocks[number]):
                    split(blocks, block_of, number, inside, left)
    return block_of


def split(blocks, block_of, number, inside, left):
    """Makes a block of its own of some states of one. Of the two it is enough that the smaller splits others, unless both are still to do so."""
    blocks[number] -= inside
    for state in inside:
        block_of[state] = len(blocks)
    left.add(len(blocks) if number in left or len(inside) <= len(blocks[number]) else number)
    blocks.append(inside)


class Automaton:
    """The least automaton that accepts the words of an expression over modules. State 0 is its start; `rows` has for each state the states to
    which modules of each kind lead, and `kinds` the kind of each module."""

    def __init__(self, text, modules):
        places, whole = read(text, modules)
        self.kinds = kinds_of(places, modules)
        rows, accepting = determined(places, whole, self.kinds)
        block_of = blocks_of(rows, accepting)
        order = {block_of[0]: 0}
        states = [0]
        for state in states:
            for after in rows[state]:
                if block_of[after] not in order:
                    order[block_of[after]] = len(states)
                    states.append(after)
        self.rows = [[order[block_of[after]] for after in rows[state]] for state in states]
        self.accept = [number for number, state in enumerate(states) if state in accepting]

    def leads(self):
        """Yields each state with the states to which moves lead from it, each with the modules of the moves."""
        for state, row in enumerate(self.rows):
            names = {}
            for name, kind in self.kinds.items():
                if row[kind] != state:
                    names.setdefault(row[kind], []).append(name)
            yield state, names

    def text(self):
        """Returns AUTO."""
        moves = [[state, name, row[kind]] for state, row in enumerate(self.rows) for name, kind in self.kinds.items() if row[kind] != state]
        return json.dumps({"states": len(self.rows), "start": 0, "accept": self.accept, "moves": moves}, separators=(",", ":")) + "\n"


def told_names(names, modules):
    """Returns in words which of the modules some are."""
    own = set(names)
    others = [name for name in modules if name not in own]
    told = names if len(names) <= len(others) else others
    lines = told[:NAMED] + [f"and {len(told) - NAMED} more"] * (len(told) > NAMED)
    return "\\n".join(lines if told is names else ["any but", *lines] if others else ["any"])


def picture(automaton):
    """Yields the lines of the picture of an automaton."""
    yield "digraph automaton {"
    yield "  rankdir=LR;"
    yield "  node [shape=circle fontname=Helvetica fontsize=11];"
    yield "  edge [fontname=Helvetica fontsize=10 arrowsize=0.7];"
    yield '  "begin" [shape=point];'
    yield '  "begin" -> "0";'
    for state, names in automaton.leads():
        shape = " shape=doublecircle" if state in automaton.accept else "" if names else ' style=filled fillcolor="gray80"'
        yield f'  "{state}" [label="{state}"{shape}];'
        for other, own in names.items():
            yield f'  "{state}" -> "{other}" [label="{told_names(own, automaton.kinds)}"];'
    yield "}"


def most_states(spec):
    """Returns how many states `words` takes with a specification, and in words why."""
    name, ports = max(((name, max(len(module.inputs), len(module.outputs))) for name, module in spec.modules.items()), key=lambda pair: pair[1])
    return (STATES, "") if ports < 2 else (STATES // ports, f" where a module has as many ports on one side as `{name}`, {ports}")


def made(spec_path, text):
    """Returns the automaton of an expression over the modules of a specification."""
    spec = dot.read_spec(spec_path)
    automaton = Automaton(text, spec.modules)
    most, why = most_states(spec)
    if len(automaton.rows) > most:
        raise Wrong(f"expression: it needs {len(automaton.rows)} states, and `words` takes at most {most}{why}")
    return automaton


def work(words):
    draws = words[:1] == ["--picture"]
    if len(words) != 2 + draws:
        raise Wrong("the words are not [--picture] SPEC EXPRESSION; see --help")
    automaton = made(*words[draws:])
    terminal.write("".join(f"{line}\n" for line in picture(automaton)) if draws else automaton.text())


if __name__ == "__main__":
    sys.exit(terminal.run("automaton.py", __doc__, work))
