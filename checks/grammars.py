"""Makes small specifications, views and runs at random, for checks that compare the program with a search.

A specification is well-formed and strictly linear, and proper but for a few: whether it is accepted, and whether a view of it is safe,
the program says. It has composite modules `C0`, `C1`, .. in rings, along which they contain themselves; atomic modules `A0`, `A1`, ..
with ports and pairs at random; a few that copy, join, hand on, make and drop values, by which the links of a body come out even; and for
each composite module a *twin*, an atomic module with its ports that may do its work in one step. The twins have the pairs that the other
bodies join, so that most ways to do a module agree.
"""
import json
import os
import sys

TOP = os.path.dirname(os.path.dirname(os.path.abspath(__file__)))
sys.path.insert(0, os.path.join(TOP, "tools"))
from diagnosis import specs
from diagnosis.pairs import by_input, joined

COPY, JOIN, PASS, MAKE, DROP = "Copy", "Join", "Pass", "Make", "Drop"
# How many inputs and outputs the modules have by which links come out even.
HELPERS = {COPY: (1, 2), JOIN: (2, 1), PASS: (1, 1), MAKE: (0, 1), DROP: (1, 0)}
# How many expansions of a finishing are by any production; those behind are by the one that ends soonest.
FREE_EXPANSIONS = 4


def shuffled(draw, values):
    return draw.sample(values, len(values))


def ports_of(inputs, outputs):
    return [f"a{k}" for k in range(inputs)], [f"b{k}" for k in range(outputs)]


def twin(name):
    """Returns the name of the atomic module with the ports of a composite one."""
    return f"T{name[1:]}"


class Body:
    """A body that is made position by position, with a list of the ends that no link leaves yet: inputs of the head, and `POSITION.PORT`."""

    def __init__(self, draw, ports, head):
        self.draw, self.ports, self.head = draw, ports, head
        self.positions, self.edges, self.entries = [], [], []
        self.free = list(ports[head][0])

    def take(self, count):
        """Takes so many free ends, of which each gets its link now."""
        ends = self.draw.sample(self.free, count)
        self.free = [end for end in self.free if end not in ends]
        return ends

    def put(self, module, ends):
        """Puts a position, with links from these ends to its inputs."""
        position = f"{module.lower()}-{len(self.positions)}"
        self.positions.append([position, module])
        inputs, outputs = self.ports[module]
        for end, port in zip(ends, inputs):
            (self.edges if "." in end else self.entries).append([end, f"{position}.{port}"])
        self.free += [f"{position}.{port}" for port in outputs]

    def grow(self):
        """Makes one more free end."""
        if self.free and self.draw.random() < 0.9:
            self.put(COPY, self.take(1))
        else:
            self.put(MAKE, [])

    def shrink(self):
        """Leaves one free end less."""
        if len(self.free) > 1 and self.draw.random() < 0.9:
            self.put(JOIN, self.take(2))
        else:
            self.put(DROP, self.take(1))

    def feed(self, module):
        """Puts a position, behind as many copies as it needs."""
        while len(self.free) < len(self.ports[module][0]):
            self.grow()
        self.put(module, self.take(len(self.ports[module][0])))

    def ended(self):
        """Returns the production, in which each input of the head leads to a position and each output comes from one."""
        for end in [end for end in self.free if "." not in end]:
            self.free.remove(end)
            self.put(PASS, [end])
        outputs = self.ports[self.head][1]
        while len(self.free) < len(outputs):
            self.grow()
        while len(self.free) > len(outputs):
            self.shrink()
        exits = [list(link) for link in zip(self.take(len(outputs)), outputs)]
        listed = {"body": shuffled(self.draw, self.positions), "edges": shuffled(self.draw, self.edges)}
        return {"head": self.head, **listed, "in": self.entries, "out": exits}


class Modules:
    """The modules of a specification: the ports of each, the atomic ones, and the composite ones in rings. The bodies of a ring have modules
    of later rings besides; `uses` has for a module those that one of its bodies must have, so that each is reached."""

    def __init__(self, draw):
        self.draw, self.ports, self.rings, self.uses = draw, {}, [], {}
        names = self.add("C", draw.choice((1, 2, 2, 3, 3, 4)), (0, 1, 1, 2, 2, 2, 3))
        self.atoms = self.add("A", draw.randint(1, 3), (0, 1, 2, 2, 3))
        self.ports.update((twin(name), self.ports[name]) for name in names)
        self.ports.update((name, ports_of(*counts)) for name, counts in HELPERS.items())
        while names:
            size = draw.choice((1, 1, 1, 2, 2, 3))
            self.rings, names = [*self.rings, names[:size]], names[size:]
        for number, ring in enumerate(self.rings[1:], 1):
            self.uses.setdefault(draw.choice(sum(self.rings[:number], [])), []).append(draw.choice(ring))

    def add(self, letter, count, sizes):
        """Adds so many modules, and returns their names."""
        names = [f"{letter}{k}" for k in range(count)]
        self.ports.update((name, ports_of(self.draw.choice(sizes), self.draw.choice(sizes))) for name in names)
        return names

    def some(self, number, least):
        """Returns the names of a few modules that a body of the ring of a number may have."""
        later = sum(self.rings[number + 1 :], [])
        return [self.draw.choice([*self.atoms, COPY, JOIN, PASS, *later]) for _ in range(self.draw.choice((least, least, 1, 2)))]

    def bodies(self, number, place):
        """Yields what bodies of a composite module have: one leads on along its ring, where it repeats; another need not be there then."""
        ring, draw = self.rings[number], self.draw
        uses, repeats = self.uses.get(ring[place], []), len(ring) > 1 or draw.random() < 0.7
        if repeats:
            yield [ring[(place + 1) % len(ring)], *self.some(number, int(place == 0)), *uses]
        if not repeats:
            yield [*self.some(number, 1), *uses]
        elif draw.random() < 0.2:
            yield self.some(number, 1)

    def straight(self, head):
        """Returns the production by which a twin does the work of a composite module, perhaps with a step before it."""
        inputs, outputs = self.ports[head]
        positions, edges, entries = [["t", twin(head)]], [], [[port, f"t.{port}"] for port in inputs]
        if inputs and self.draw.random() < 0.3:
            positions, edges = [["p", PASS], *positions], [["p.b0", entries[0][1]]]
            entries[0][1] = "p.a0"
        return {"head": head, "body": positions, "edges": edges, "in": entries, "out": [[f"t.{port}", port] for port in outputs]}

    def productions(self):
        """Yields the productions. The last module of a ring can end by its twin, and others may."""
        for number, ring in enumerate(self.rings):
            for place, head in enumerate(ring):
                for names in self.bodies(number, place):
                    body = Body(self.draw, self.ports, head)
                    for name in shuffled(self.draw, names):
                        body.feed(name)
                    yield body.ended()
                if place == len(ring) - 1 or self.draw.random() < 0.7:
                    yield from (self.straight(head) for _ in range(self.draw.choice((1, 1, 2))))


def some_pairs(draw, module):
    """Returns a part that gives a module some of its pairs."""
    return {"module": module["name"], "pairs": [[a, b] for a in module["in"] for b in module["out"] if draw.random() < 0.6]}


def settled(grammar, most):
    """Returns the pairs of the modules of a grammar: as many as may be, or as few, so that of a composite module and its twin they are those
    that the other bodies join, if these agree."""
    begun = {name: module.all_pairs() if most else set() for name, module in grammar.modules.items() if module.productions}
    given = {name: grammar.atomic_pairs(module) for name, module in grammar.modules.items()}
    pairs, before = begun, None
    while pairs != before:
        before = pairs
        rows = {name: by_input(held) for name, held in {**given, **pairs, **{twin(name): pairs[name] for name in pairs}}.items()}
        pairs = dict(pairs)
        for production in grammar.productions:
            found = joined(production, rows)
            pairs[production.head] = pairs[production.head] & found if most else pairs[production.head] | found
    return pairs


def spec(draw):
    """Returns a specification."""
    modules = Modules(draw)
    listed = [{"name": name, "in": inputs, "out": outputs} for name, (inputs, outputs) in modules.ports.items()]
    deps = [some_pairs(draw, module) for module in listed if module["name"] in (*modules.atoms, COPY, JOIN) and draw.random() < 0.4]
    made = {"start": "C0", "modules": shuffled(draw, listed), "productions": shuffled(draw, list(modules.productions())), "deps": deps}
    grammar = specs.formed(*specs.read_parts("spec", json.dumps(made).encode()))
    pairs = settled(grammar, draw.random() < 0.85)
    made["deps"] += [{"module": twin(name), "pairs": sorted(map(list, held))} for name, held in pairs.items()]
    return made


def composite(made):
    """Returns the composite modules of a specification."""
    return sorted({production["head"] for production in made["productions"]})


def view(draw, made):
    """Returns a view of a specification."""
    if draw.random() < 0.3:
        return {}
    expand = [name for name in composite(made) if draw.random() < (0.95 if name == made["start"] else 0.75)]
    closed = [module for module in made["modules"] if module["name"] not in expand]
    return {"expand": expand, "deps": [some_pairs(draw, module) for module in closed if draw.random() < 0.3]}


def closed(made, shown, name):
    """Returns the view that shows what another does, and does not expand a module."""
    return {**shown, "expand": [other for other in shown.get("expand", composite(made)) if other != name]}


def finishing(draw, made, soonest, events):
    """Returns the events of a run with more behind them, so that no composite module waits: `soonest` has for each the production that ends
    soonest."""
    modules = {event["start"]: made["start"] for event in events if "start" in event}
    by = {name: [number for number, rule in enumerate(made["productions"]) if rule["head"] == name] for name in soonest}
    whole, left = [], list(events)
    while left or any(module in by for module in modules.values()):
        if left:
            event = left.pop(0)
        else:
            name = next(name for name, module in modules.items() if module in by)
            number = draw.choice(by[modules[name]]) if len(whole) < len(events) + FREE_EXPANSIONS else soonest[modules[name]]
            names = [f"z{len(whole)}-{place}" for place, _ in enumerate(made["productions"][number]["body"])]
            event = {"expand": name, "production": number, "names": names}
        whole.append(event)
        if "expand" in event:
            del modules[event["expand"]]
            modules.update(zip(event["names"], (module for _, module in made["productions"][event["production"]]["body"])))
    return whole
