"""Which inputs of a module its expansions join to which outputs, and whether a view is safe."""
from diagnosis.faults import Fault
from diagnosis.pictures import both_expansions
from diagnosis.views import node_of, written_expand, written_pairs
from diagnosis.words import quoted


def onward(production):
    """Returns where each output of a position leads: to an input of a position, or to an output of the head."""
    leads = dict(production.edges)
    leads.update((end, (None, port)) for port, end in production.exits.items())
    return leads


def joined(production, pairs):
    """Returns the pairs of the head that a body joins, where each position has the pairs of its module."""
    leads, found = onward(production), set()
    for port, first in production.entries.items():
        seen, left = {first}, [first]
        while left:
            position, entered = left.pop()
            for second in pairs[production.body[position]].get(entered, ()):
                end = leads[position, second]
                if end[0] is None:
                    found.add((port, end[1]))
                elif end not in seen:
                    seen.add(end)
                    left.append(end)
    return found


def by_input(pairs):
    """Returns for each input of some pairs the outputs."""
    found = {}
    for first, second in pairs:
        found.setdefault(first, []).append(second)
    return found


class Assignment:
    """The pairs of each seen module of a view, where each that the view expands is expanded as its rank says."""

    def __init__(self, view):
        self.view, self.grammar = view, view.grammar
        self.pairs, self.rows = {}, {}
        for name in view.seen - view.expanded:
            self.put(name, view.shown_pairs(self.grammar.modules[name]))
        for name in sorted(view.seen & view.expanded, key=self.grammar.ranks.get):
            self.put(name, joined(self.grammar.chosen[name], self.rows))

    def put(self, name, pairs):
        self.pairs[name], self.rows[name] = pairs, by_input(self.grammar.modules[name].in_order(pairs))

    def disagreement(self):
        """Returns the first production that does not join the pairs of its head, and what it joins, or None."""
        for production in self.grammar.productions:
            if production.head in self.view.seen and production.head in self.view.expanded:
                found = joined(production, self.rows)
                if found != self.pairs[production.head]:
                    return production, found
        return None

    def lines(self):
        """Yields the lines that `view` writes of a safe view."""
        for module in self.grammar.modules.values():
            if module.name in self.view.seen:
                told = [f"{first}>{second}" for first, second in module.in_order(self.pairs[module.name])]
                yield " ".join([module.name, "expanded" if module.name in self.view.expanded else "shown", *told])


def is_safe(view):
    """Refuses a view that is not safe, and returns the pairs of a safe one."""
    assignment = Assignment(view)
    found = assignment.disagreement()
    if found:
        raise unsafe(Witness(assignment, *found))
    return assignment


class Witness:
    """Two expansions of a module that disagree about a pair: one as chosen, and another that begins with a production that joins other pairs.
    `is_joined` says whether the one joins the pair."""

    def __init__(self, assignment, other, found):
        self.assignment, self.other = assignment, other
        self.module, held = assignment.grammar.modules[other.head], assignment.pairs[other.head]
        self.one = assignment.grammar.chosen[other.head]
        self.pair = next(pair for pair in self.module.in_order(self.module.all_pairs()) if (pair in held) != (pair in found))
        self.is_joined = self.pair in held

    def kind(self, spelled=str):
        """Returns what the program prints of the two. `spelled` returns how it spells a port."""
        grammar, view = self.assignment.grammar, self.assignment.view
        ports = "input {} output {}".format(*map(spelled, self.pair))
        opened = [name for name in grammar.modules if name in view.seen and name in view.expanded]
        choice = "".join(f" {name}={grammar.chosen[name].number}" for name in opened)
        side = "one" if self.is_joined else "other"
        return f"Unsafe module {self.module.name} one {self.one.number} other {self.other.number} {ports} joined {side} choice{choice}"

    def ways(self):
        """Returns the numbers of the production that joins the pair, and of the one that does not."""
        return (self.one.number, self.other.number) if self.is_joined else (self.other.number, self.one.number)

    def picture(self):
        return both_expansions(self.assignment, self.one, self.other, self.pair)


def unsafe(witness):
    """Returns the fault of a view that is not safe."""
    (joins, parts_with), (first, second), name = witness.ways(), map(quoted, witness.pair), witness.module.name
    return Fault(
        witness.kind(),
        f"the view opens {quoted(name)}, and two ways to do it disagree: production {joins} joins the input {first} to the output {second}, and"
        f" production {parts_with} does not. So a question about them would have no one answer.",
        mend(witness.assignment, witness.module, witness.pair),
        node_of(witness.assignment.view, name),
        witness.picture(),
    )


def mend(assignment, module, pair):
    """Returns how a view that is not safe is mended."""
    grammar, view = assignment.grammar, assignment.view
    expand = written_expand(grammar, view.expanded - {module.name})
    pairs = written_pairs(module, possible_pairs(grammar, view)[module.name])
    return (
        f"Leave {quoted(module.name)} closed, and give it the pairs that one or the other of its expansions has: `{expand}` and, in `deps`,"
        f" `{pairs}`. Then `yes` says that some expansion joins the two. Or change the pairs of the modules inside, so that both ways agree on"
        f" {quoted(pair[0])} and {quoted(pair[1])}."
    )


def possible_pairs(grammar, view):
    """Returns for each module the pairs that some of its expansions may join: no pair outside can be joined."""
    pairs = {module.name: set() if module.productions else view.shown_pairs(module) for module in grammar.modules.values()}
    for name in view.given:
        pairs[name] = view.given[name]
    changed = True
    while changed:
        changed = False
        rows = {name: by_input(held) for name, held in pairs.items()}
        for production in grammar.productions:
            found = joined(production, rows) - pairs[production.head]
            if found and production.head not in view.given:
                pairs[production.head] = pairs[production.head] | found
                changed = True
    return pairs
