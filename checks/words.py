#!/usr/bin/env python3
"""Compares what `wfprov words` writes with a plain search, on many small grammars at random.

  python3 checks/words.py PROGRAM [--grammars N] [--seed N] [--jobs N]

For each specification it draws a safe view, a run, finished or not, a label file and automata: some from expressions, by tools/automaton.py,
and some with moves at random. Of many a module's moves are taken away until each way to do a step joins the same ports in the same states;
those that are left as they are have to be refused, with the first step and ports on which two ways disagree. To questions about all pairs of
items, and about names that are none, `words` has to answer as a search over ports and states does in the lines of `export`: a pair of a
closed instance is a move by its module, and any other link leaves the state. The search in a finishing of the run has to find the same.

Label files may have the items of two runs. Of one item of each, what `ask` calls hidden or a clash has to be so here, and `no` has to be `no`.

It prints how much was compared and how much of it differs, and of each kind the first difference. Ends with 1 where something differs, or
where one of the kinds of answers came too seldom.
"""
import collections
import json
import os
import sys

TOP = os.path.dirname(os.path.dirname(os.path.abspath(__file__)))
sys.path.insert(0, os.path.join(TOP, "tools"))
import automaton
import grammars
import many
import wfprov
from cases import OTHER, Case
from diagnosis import specs
from diagnosis.pairs import onward

# How many automata are tried with each grammar, and of how many names all pairs are asked.
AUTOMATA, ASKED = 2, 24
# The kinds of answers, each of which has to come once for so many grammars at least. Of items of the run, one that is `no` although a path
# joins them is turned by the automaton.
LEAST = {"yes": 1, "no": 1, "turned": 2, "hidden": 1, "unknown": 1, "clash": 20, "Unsafe": 20}
# Expressions over two modules X and Y.
EXPRESSIONS = (".* X .*", "[^X]*", ".* X", "X .*", ".* X .* Y .*", "[^X]* Y [^X]*", "(X Y?)*", ".* X .* X .*", ".+", ".?", "X", "(. .)*")

Difference = collections.namedtuple("Difference", "number words wanted found")


class Auto:
    """An automaton: the number of its states, its start, those that accept, and its moves, of which one that is not there stays."""

    def __init__(self, states, start, accept, moves):
        self.states, self.start, self.accept, self.moves = states, start, set(accept), moves

    def next(self, state, name):
        return self.moves.get((state, name), state)

    def names(self):
        """Returns the modules that have moves."""
        return sorted({name for _, name in self.moves})

    def without(self, name):
        """Returns the automaton without the moves of a module."""
        return Auto(self.states, self.start, self.accept, {move: after for move, after in self.moves.items() if move[1] != name})

    def text(self, draw):
        """Returns AUTO: members in any order, those that are empty there or not, and perhaps one more."""
        accept = grammars.shuffled(draw, sorted(self.accept) + draw.sample(sorted(self.accept), min(1, len(self.accept))))
        moves = grammars.shuffled(draw, [[state, name, after] for (state, name), after in self.moves.items()])
        told = {"states": self.states, "start": self.start, "accept": accept, "moves": moves}
        kept = {member: value for member, value in told.items() if value != [] or draw.random() < 0.5}
        return json.dumps(dict(grammars.shuffled(draw, [*kept.items(), ("note", "0")])))


def read_auto(text):
    """Returns the automaton of an AUTO."""
    told = json.loads(text)
    return Auto(told["states"], told["start"], told.get("accept", []), {(state, name): after for state, name, after in told.get("moves", [])})


class Lifted:
    """A grammar under a view with the states of an automaton: `pairs` has for each module that the view shows or expands an input, a state, an
    output and a state, for each that it joins. `soonest` has for each composite module the production that is taken of it."""

    def __init__(self, grammar, seen, soonest, auto):
        self.grammar, self.auto, self.soonest, self.pairs = grammar, auto, soonest, {}
        self.seen = {module.name: module for module in seen}
        for name in self.seen:
            self.find(name)

    def find(self, name):
        """Returns the pairs of a module: those of a closed one are moves, and those of an expanded one are joined by its production."""
        if name not in self.pairs:
            module = self.seen[name]
            states = range(self.auto.states)
            closed = {(a, state, b, self.auto.next(state, name)) for a, b in module.pairs for state in states}
            self.pairs[name] = self.joined(self.grammar.productions[self.soonest[name]]) if module.expanded else closed
        return self.pairs[name]

    def joined(self, production):
        """Returns the pairs of the head that a body joins."""
        leads = onward(production)
        return {
            (port, state, end[1], after)
            for port, first in production.entries.items()
            for state in range(self.auto.states)
            for end, after in self.reached(production, leads, (first, state))
            if end[0] is None
        }

    def reached(self, production, leads, first):
        """Returns the ends of a body that are reached from one in a state, each with its state. An end of the head has no position."""
        found = [first]
        for (position, entered), state in found:
            pairs = self.find(production.body[position]) if position is not None else ()
            ends = [(leads[position, b], after) for a, before, b, after in pairs if (a, before) == (entered, state)]
            found += [end for end in dict.fromkeys(ends) if end not in found]
        return found

    def refusal(self):
        """Returns the line by which the automaton is refused, or None: the first production that joins other pairs than the one that is taken."""
        for other in self.grammar.productions:
            name = other.head
            if name in self.seen and self.seen[name].expanded and self.joined(other) != self.pairs[name]:
                return self.told(self.grammar.modules[name], other)
        return None

    def told(self, module, other):
        held, ports = self.pairs[module.name], {port: number for number, port in enumerate(module.inputs + module.outputs)}
        a, before, b, after = min(held ^ self.joined(other), key=lambda pair: (ports[pair[0]], pair[1], ports[pair[2]], pair[3]))
        side = "one" if (a, before, b, after) in held else "other"
        choice = "".join(f" {name}={self.soonest[name]}" for name in self.grammar.modules if name in self.seen and self.seen[name].expanded)
        return (
            f"refused: auto: Unsafe module {module.name} one {self.soonest[module.name]} other {other.number} input {a} state {before}"
            f" output {b} state {after} joined {side} choice{choice}\n"
        )


class Graph:
    """What a view shows of a run, with the states of an automaton: for each port the links, each with the module of which it is a move."""

    def __init__(self, exported, lifted):
        self.lifted, self.links = lifted, collections.defaultdict(list)
        modules, self.pending = dict(exported.leaves), dict(exported.pending)
        for port, other in exported.links:
            name = port.partition(".")[0]
            self.links[port].append((other, modules[name] if name == other.partition(".")[0] else None))

    def steps(self, port, state):
        """Yields the ports and states to which one link leads. An instance that is pending is passed as each way to do it passes it."""
        for other, module in self.links[port]:
            yield other, self.lifted.auto.next(state, module) if module else state
        name, _, entered = port.partition(".")
        if name in self.pending:
            for a, before, b, after in self.lifted.pairs[self.pending[name]]:
                if (a, before) == (entered, state):
                    yield f"{name}.{b}", after

    def accepted_from(self, item):
        """Returns the ports to which a path leads from an item by a word that is accepted."""
        found = [(item, self.lifted.auto.start)]
        for port, state in found:
            found += [step for step in dict.fromkeys(self.steps(port, state)) if step not in found]
        return {port for port, state in found[1:] if state in self.lifted.auto.accept}


class Words(Case):
    """A case with what is wanted of questions."""

    def __init__(self, program, draw, folder):
        super().__init__(program, draw, folder)
        self.grammar = specs.formed(*specs.read_parts("spec", json.dumps(self.spec).encode()))
        names = [*dict.fromkeys([*self.listed, self.stranger(), *self.items])]
        self.names = draw.sample(names, min(len(names), ASKED))
        self.others = {name for name in self.names if name.startswith(OTHER)}
        self.asked = self.answers(["ask", "spec", "view", "labels"]) if self.others else {}
        self.rests = {name: self.shown.resting_on(name) for name in self.names if name in self.shown.place}

    def write_queries(self, pairs):
        self.write("queries", "".join(f"{first} {second}\n" for first, second in pairs))

    def answers(self, words):
        """Returns the answers that a command gives to all pairs of names."""
        pairs = [(first, second) for first in self.names for second in self.names]
        self.write_queries(pairs)
        lines = wfprov.lines_of([words[0], *map(self.path, [*words[1:], "queries"])], self.program)
        return dict(zip(pairs, lines, strict=True))

    def lifted(self, auto):
        return Lifted(self.grammar, self.seen, self.soonest, auto)

    def draw_auto(self):
        """Returns an automaton at random, of which the moves of modules are taken away until it is safe, but seldom."""
        auto = self.draw_any_auto()
        while auto.moves and self.draw.random() < 0.8 and self.lifted(auto).refusal():
            auto = auto.without(self.draw.choice(auto.names()))
        return auto

    def draw_any_auto(self):
        draw, closed = self.draw, [module.name for module in self.seen if not module.expanded]
        names = closed if closed and draw.random() < 0.8 else list(self.grammar.modules)
        if draw.random() < 0.5:
            text = draw.choice(EXPRESSIONS).replace("X", draw.choice(names)).replace("Y", draw.choice(names))
            return read_auto(automaton.Automaton(text, self.grammar.modules).text())
        states, often = draw.randint(1, 4), draw.choice((0.1, 0.3, 0.6))
        moves = {(state, name): draw.randrange(states) for state in range(states) for name in names if draw.random() < often}
        return Auto(states, draw.randrange(states), [state for state in range(states) if draw.random() < 0.5], moves)

    def wanted(self, lifted):
        """Returns for each pair of names the answers of which one is wanted. A pair that two runs have is known by `ask` alone."""
        run, whole = Graph(self.shown.exported, lifted), Graph(self.finished.exported, lifted)
        found = {name: (run.accepted_from(name), whole.accepted_from(name)) for name in self.names if name in self.shown.place}
        if self.others:
            other = Graph(wfprov.export(self.path("spec"), self.path("view"), self.path("other"), self.program), lifted)
            found.update((name, [{OTHER + port for port in other.accepted_from(name.removeprefix(OTHER))}]) for name in self.others)
        return {(first, second): self.word(first, second, found) for first in self.names for second in self.names}

    def word(self, first, second, found):
        """Returns the answers of which one is wanted: several where two runs have the two items, and of a run and its finishing both."""
        both = {first, second}
        told = self.asked[first, second] if both & self.others else "" if both <= self.shown.place.keys() else "hidden"
        if not both <= set(self.listed):
            return ["unknown"]
        if told in ("hidden", "clash"):
            return [told]
        if both <= self.others or not both & self.others:
            return ["yes" if second in ports else "no" for ports in found[first]]
        return ["no"] if told == "no" else ["yes", "no"]


def auto_differences(case, number):
    """Yields what differs with one automaton."""
    auto = case.draw_auto()
    case.write("auto", auto.text(case.draw))
    lifted = case.lifted(auto)
    refusal = lifted.refusal()
    wanted = {} if refusal else case.wanted(lifted)
    case.write_queries(wanted)
    status, text = case.said(["words", "spec", "view", "auto", "labels", "queries"])
    case.counts.update(words=1, Unsafe=bool(refusal))
    if refusal and (status, text) != (2, refusal):
        yield Difference(number, ["words"], refusal, text)
    elif not refusal and (status, text.count("\n")) != (0, len(wanted)):
        yield Difference(number, ["words"], f"{len(wanted)} answers", text)
    elif not refusal:
        yield from answer_differences(case, number, wanted, text.splitlines())


def answer_differences(case, number, wanted, lines):
    """Yields the pairs on which the answers differ, or what is found in the run and in its finishing."""
    for (pair, words), line in zip(wanted.items(), lines):
        is_of_one_run = set(pair) <= case.others or not set(pair) & case.others
        case.counts.update(pairs=1, finishing=is_of_one_run and len(words) > 1)
        case.counts[words[0] if len(set(words)) == 1 else "open"] += 1
        case.counts["turned"] += set(words) == {"no"} and pair[1] in case.rests.get(pair[0], ())
        if is_of_one_run and len(set(words)) > 1:
            yield Difference(number, ["finishing", *pair], *words)
        if line not in words:
            yield Difference(number, ["words", *pair], words, line)


def compared(case, number):
    """Yields the differences of the case of a number."""
    case.counts.update(names=len(case.names), waits=case.shown.waits)
    for _ in range(AUTOMATA):
        yield from auto_differences(case, number)


def main():
    asked, counts, differences = many.tried(__doc__, Words, compared)
    lacking = [kind for kind, least in LEAST.items() if counts[kind] < asked // least]
    print(f"{asked} grammars, and {counts['refused']} that were refused; of {counts['waits']} runs instances are pending")
    print(f"{counts['words']} automata, of which {counts['Unsafe']} are refused as Unsafe; {counts['pairs']} pairs of {counts['names']} names")
    told = [f"{counts[kind]} {kind}" for kind in LEAST if kind not in ("turned", "Unsafe")]
    print(f"answers: {', '.join(told)}, and {counts['open']} that two runs leave open; {counts['turned']} items that are `no` are joined by paths")
    print(f"too few: {' '.join(lacking)}" if lacking else "each kind of answer came often enough")
    many.tell(("words", "finishing"), counts, differences, lambda least: " ".join(least.words))
    return int(bool(differences or lacking))


if __name__ == "__main__":
    sys.exit(main())
