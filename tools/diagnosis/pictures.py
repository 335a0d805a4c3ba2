"""Two expansions that disagree, as text: each as a tree of steps, with the way that data take through it."""
from diagnosis.words import quoted

# How many lines of a tree are shown, and how many pairs of a module.
LINES, PAIRS = 40, 24


def step_line(assignment, position, name, inner, again):
    """Returns what stands at a position: the module, how it is done, and its pairs."""
    module = assignment.grammar.modules[name]
    held = [f"{first}>{second}" for first, second in module.in_order(assignment.pairs[name])]
    pairs = " ".join([*held[:PAIRS], *([f"and {len(held) - PAIRS} more"] if len(held) > PAIRS else [])]) or "no pairs"
    how = f" by production {inner.number}" if inner else ""
    return f"{position}: {name}{how} ({pairs}{', its inside as above' if again else ''})"


def tree(assignment, production, told):
    """Yields the lines of an expansion that begins with a production and goes on as chosen; what was shown is not shown again."""
    path = [iter(production.body.items())]
    while path:
        position, name = next(path[-1], (None, None))
        if position is None:
            path.pop()
            continue
        inner = assignment.grammar.chosen.get(name) if name in assignment.view.expanded else None
        again = inner is not None and name in told
        yield "  " * (len(path) + 2) + step_line(assignment, position, name, inner, again)
        if inner and not again:
            told.add(name)
            path.append(iter(inner.body.items()))


class Flow:
    """The ports of a body that data from an input of its head reach: the inputs with the outputs that feed them, which is None for the
    first, and the outputs with the inputs on which they rest."""

    def __init__(self, assignment, production, port):
        leads = dict(production.edges)
        leads.update((end, (None, name)) for name, end in production.exits.items())
        first = production.entries[port]
        self.head, self.port, self.fed, self.made = production.head, port, {first: None}, {}
        left = [first]
        for end in left:
            if end[0] is not None:
                for second in assignment.rows[production.body[end[0]]].get(end[1], ()):
                    self.take(end, (end[0], second), leads, left)

    def take(self, end, output, leads, left):
        self.made.setdefault(output, end)
        if leads[output] not in self.fed:
            self.fed[leads[output]] = output
            left.append(leads[output])

    def dotted(self, end):
        return ".".join([end[0] or self.head, end[1]])

    def way(self, port):
        """Returns the ports by which data go to an output of the head."""
        end, ports = (None, port), [self.dotted((None, port))]
        while self.fed[end] is not None:
            output = self.fed[end]
            end = self.made[output]
            ports += [self.dotted(output), self.dotted(end)]
        return " > ".join([f"{self.head}.{self.port}", *reversed(ports)])

    def ends(self):
        """Returns the inputs of positions and the outputs of the head that data reach."""
        return ", ".join(self.dotted(end) for end in self.fed)


def expansion(assignment, word, production, pair, joins, told):
    """Yields the lines of one of the two expansions."""
    flow = Flow(assignment, production, pair[0])
    does = "joins" if joins else "does not join"
    yield f"  The {word} expansion, by production {production.number}, {does} {quoted(pair[0])} to {quoted(pair[1])}:"
    yield f"    {production.head} by production {production.number}"
    lines = list(tree(assignment, production, told))
    yield from lines[:LINES]
    if len(lines) > LINES:
        yield f"      and {len(lines) - LINES} lines more"
    yield f"    the way: {flow.way(pair[1])}" if joins else f"    from {production.head}.{pair[0]} data reach {flow.ends()}"


def both_expansions(assignment, one, other, pair):
    """Returns the lines of two expansions of a module, the first as chosen, the second begun by another production."""
    joined = pair in assignment.pairs[one.head]
    first = expansion(assignment, "first", one, pair, joined, {one.head})
    return [*first, *expansion(assignment, "second", other, pair, not joined, set())]
