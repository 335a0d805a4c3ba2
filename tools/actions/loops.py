"""Loops: many elements that are alike become one module that repeats.

An element is a list of parts, such as the steps of one sample. Elements are alike if they are wired alike and read, and are read by, the
same leaves outside. A loop may have a *centre*: a part that reads what elements make, and is read by later parts of the elements. Each
turn of the loop has one element, and around the next turn; the last turn has one element and the centre. So each value of an element
stays in the turn of that element, and the loop joins the same inputs to the same outputs however often it turns: what enters for
the elements enters each, and what leaves them is gathered.
"""
from actions.parts import HEAD, MOST_PORTS, Module, Part, Production, TooWide, Wiring


class Shape:
    """How an element is wired: its parts, what enters from outside and from the centre, and where each of its outputs goes."""

    def __init__(self, graph, parts, centre):
        self.parts = parts
        self.inside = frozenset().union(*(part.leaves for part in parts))
        self.core = centre.leaves if centre else frozenset()
        self.shared, self.handed, self.inner = {}, {}, {}
        for place, part in enumerate(parts):
            for value, port in part.entering.items():
                self.enter(graph, centre, value, (place, port))
        self.outs = [(place, port, self.leaves_for(graph, centre, values[0]))
                     for place, part in enumerate(parts) for port, values in sorted(part.ports.items())]

    def enter(self, graph, centre, value, goal):
        """Notes that a value enters a part."""
        maker = graph.maker[value]
        if maker in self.inside:
            self.inner.setdefault(value, []).append(goal)
        elif maker in self.core:
            goals = self.handed.setdefault(centre.leaving[value], [])
            goals += [goal] * (goal not in goals)
        else:
            self.shared.setdefault(value, []).append(goal)

    def leaves_for(self, graph, centre, value):
        """Returns where a value goes: the ends in the element, the port of the centre or None, and the leaves beyond."""
        readers = graph.readers[value]
        port = centre.entering[value] if any(reader in self.core for reader in readers) else None
        beyond = frozenset(reader for reader in readers if reader not in self.inside and reader not in self.core)
        return tuple(sorted(self.inner.get(value, []))), port, beyond

    def key(self, graph):
        """Returns what two elements have in common that are alike."""
        kinds = []
        for part in self.parts:
            number = min(part.leaves)
            kinds.append((graph.tools[number], tuple(graph.roles[number])) if part.is_leaf() else part.module.number)
        shared = frozenset((value, tuple(sorted(goals))) for value, goals in self.shared.items())
        handed = frozenset((port, tuple(sorted(goals))) for port, goals in self.handed.items())
        return tuple(kinds), shared, handed, tuple(self.outs)


class Loop:
    """A loop of elements, the shape of the first of which is that of all. Its ports are: what enters for all, then what outer turns hand on
    to the centre; what leaves the centre, and then what leaves the elements."""

    def __init__(self, builder, elements, shape, centre, title):
        self.graph, self.builder, self.shape, self.centre, self.title = builder.graph, builder, shape, centre, title
        self.elements = elements
        self.entries = self.shared_ports()
        self.kept = sorted({port for _, _, (_, port, _) in shape.outs if port is not None})
        self.gates = [port for port, values in sorted(centre.ports.items()) if self.graph.readers[values[0]]] if centre else []
        self.beyond = []
        for _, _, (_, _, beyond) in shape.outs:
            if beyond and beyond not in self.beyond:
                self.beyond.append(beyond)
        self.width = len(self.entries) + len(self.kept), len(self.gates) + len(self.beyond)
        if max(self.width) > MOST_PORTS:
            raise TooWide("values that would cross the border of a loop", max(self.width))

    def shared_ports(self):
        """Returns what enters for all elements, and for the centre alone: the ends that it has in an element, the port of the centre, and the
        values that have both."""
        goals = {value: tuple(sorted(ends)) for value, ends in self.shape.shared.items()}
        ports = {}
        if self.centre:
            inside = frozenset().union(*(part.leaves for element in self.elements for part in element))
            ports = {value: port for value, port in self.centre.entering.items() if self.graph.maker[value] not in inside}
        found = {}
        for value in goals.keys() | ports.keys():
            found.setdefault((goals.get(value, ()), ports.get(value, HEAD)), []).append(value)
        return sorted((ends, port, sorted(values)) for (ends, port), values in found.items())

    def part(self):
        """Returns the loop as a part."""
        library = self.builder.library
        following = Module(HEAD, "next", [f"in{n}" for n in range(self.width[0])], [f"out{n}" for n in range(self.width[1])])
        first = self.elements[0]
        turn = self.wired(first + [following], self.turn_wires(len(first)))
        last = self.wired(first + [self.centre] * (self.centre is not None), self.last_wires(len(first)))
        module, is_new = library.shared(("loop", turn.key(), last.key()), self.title, *self.width)
        if is_new:
            modules = [module if other is following else other for other in turn.modules]
            module.productions += [Production(module, modules, turn.links), Production(module, last.modules, last.links)]
            module.joined = last.joined()
        turns = [(module.productions[0], element + turn.positions[len(first):]) for element in self.elements[:-1]]
        turns.append((module.productions[1], self.elements[-1] + last.positions[len(first):]))
        leaves = frozenset().union(*(part.leaves for element in self.elements for part in element), self.shape.core)
        entering = {value: port for port, (_, _, values) in enumerate(self.entries) for value in values}
        height = 1 + max(part.height for part in first + [self.centre] * (self.centre is not None))
        return Part(leaves, entering, self.leaving(), module, turns, height=height)

    def wired(self, children, wires):
        """Returns the wiring of a turn."""
        return Wiring(self.builder.library, self.graph, children, wires, self.width[1], self.builder.most)

    def leaving(self):
        """Returns the port by which each value leaves the loop."""
        gates = {port: number for number, port in enumerate(self.gates)}
        leaving = {value: gates[port] for value, port in (self.centre.leaving if self.centre else {}).items() if port in gates}
        ports = {(place, port): len(gates) + self.beyond.index(beyond) for place, port, (_, _, beyond) in self.shape.outs if beyond}
        for element in self.elements:
            for place, part in enumerate(element):
                leaving.update({value: ports[place, port] for value, port in part.leaving.items() if (place, port) in ports})
        return leaving

    def out_wires(self, place_of_kept):
        """Yields the wires from the parts of an element. The word gives the end for each port of the centre."""
        for place, port, (inner, kept, beyond) in self.shape.outs:
            goals = list(inner) + ([place_of_kept(kept)] if kept is not None else [])
            yield (place, port), goals + ([(HEAD, len(self.gates) + self.beyond.index(beyond))] if beyond else [])

    def turn_wires(self, following):
        """Returns the wires of a turn that is not the last, where the next turn stands at the position `following`."""
        wide = len(self.entries)
        wires = [((HEAD, number), list(ends) + [(following, number)]) for number, (ends, _, _) in enumerate(self.entries)]
        wires += [((HEAD, wide + number), [(following, wide + number)]) for number in range(len(self.kept))]
        wires += self.out_wires(lambda port: (following, wide + self.kept.index(port)))
        wires += [((following, number), self.shape.handed.get(port, []) + [(HEAD, number)]) for number, port in enumerate(self.gates)]
        return wires + [((following, number), [(HEAD, number)]) for number in range(len(self.gates), self.width[1])]

    def last_wires(self, centre):
        """Returns the wires of the last turn, where the centre stands at the position `centre`."""
        wires = [((HEAD, number), list(ends) + ([(centre, port)] if port != HEAD else []))
                 for number, (ends, port, _) in enumerate(self.entries)]
        wires += [((HEAD, len(self.entries) + number), [(centre, port)]) for number, port in enumerate(self.kept)]
        wires += self.out_wires(lambda port: (centre, port))
        wires += [((centre, port), []) for port in (self.centre.ports if self.centre else ()) if port not in self.gates]
        return wires + [((centre, port), self.shape.handed.get(port, []) + [(HEAD, number)]) for number, port in enumerate(self.gates)]
