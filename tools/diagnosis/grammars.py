"""A specification that keeps the rules of form: modules and productions by name, and what leads where."""


class Module:
    """A module: its number, its ports, its productions, and the pairs that the specification gives it, or None where it gives none."""

    def __init__(self, number, part):
        self.number, self.part, self.name = number, part, part.name.value
        self.inputs = [port.value for port in part.inputs]
        self.outputs = [port.value for port in part.outputs]
        self.productions, self.given = [], None

    def all_pairs(self):
        return {(first, second) for first in self.inputs for second in self.outputs}

    def in_order(self, pairs):
        """Returns pairs of the module by input and then output."""
        return [(first, second) for first in self.inputs for second in self.outputs if (first, second) in pairs]


class Production:
    """A production: its number, its head, the module of each position, and its links, where the position of the head is None."""

    def __init__(self, number, part):
        self.number, self.part, self.head = number, part, part.head.value
        self.body = {position.value: module.value for position, module in part.body}
        self.edges = [((a.position, a.port), (b.position, b.port)) for a, b, _ in part.edges]
        self.entries = {a.value: (b.position, b.port) for a, b, _ in part.entries}
        self.exits = {b.value: (a.position, a.port) for a, b, _ in part.exits}

    def links(self):
        """Returns the links in their order, each from an end to an end; of the head an end has None as its position."""
        entries = [((None, port), end) for port, end in self.entries.items()]
        return self.edges + entries + [(end, (None, port)) for port, end in self.exits.items()]


class Grammar:
    """A specification by names."""

    def __init__(self, parts):
        self.parts, self.start = parts, parts.start.value
        self.modules = {part.name.value: Module(number, part) for number, part in enumerate(parts.modules)}
        self.productions = [Production(number, part) for number, part in enumerate(parts.productions)]
        for production in self.productions:
            self.modules[production.head].productions.append(production)
        for part in parts.deps:
            module = self.modules[part.module.value]
            module.given = (module.given or set()) | {(first.value, second.value) for first, second in part.pairs}
        self.continuing = {}

    def composite(self):
        """Returns the composite modules, in the order of the list."""
        return [module for module in self.modules.values() if module.productions]

    def atomic_pairs(self, module):
        """Returns the pairs of an atomic module."""
        return module.all_pairs() if module.given is None else module.given

    def below(self, name, opened=None):
        """Returns the modules in the bodies of a module, or none where it is not opened."""
        if opened is not None and name not in opened:
            return []
        return [other for production in self.modules[name].productions for other in production.body.values()]

    def reached(self, names, opened=None):
        """Returns the modules to which bodies lead from some, these among them."""
        found = dict.fromkeys(names)
        left = list(found)
        while left:
            for other in self.below(left.pop(), opened):
                if other not in found:
                    found[other] = None
                    left.append(other)
        return set(found)

    def way(self, first, last):
        """Returns a shortest list of positions, each with its production, by which bodies lead from a module to another, or None."""
        came, left = {first: None}, [first]
        for name in left:
            for production in self.modules[name].productions:
                for position, other in production.body.items():
                    if other not in came:
                        came[other] = (name, production, position)
                        left.append(other)
        if last not in came:
            return None
        steps = []
        while came[last]:
            last, production, position = came[last]
            steps.append((production, position))
        return steps[::-1]
