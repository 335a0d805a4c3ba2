"""Parts of a run, how they are wired, and the modules that they share.

A *leaf* is an action, or what stands for a value from outside. A *part* is a leaf, a body of parts, or a loop of parts that are alike.
Values enter a part and leave it by ports. Two values share a port of a part only if the same leaves beyond the port read both, so no
answer changes. Bodies that are wired alike are one production, whatever stands in them.
"""
import re
import terminal

MOST_PORTS = MOST_POSITIONS = NAME_LENGTH = 64
HEAD = -1


class TooWide(Exception):
    """A part cannot be one: how many ports or positions it would need."""

    def __init__(self, what, count):
        super().__init__(f"{count} {what}")
        self.what, self.count = what, count


class Graph:
    """Who makes and who reads each value, by numbers. Leaf L has a name, a tool, the roles of what it makes, and the action that it is."""

    def __init__(self):
        self.names, self.tools, self.roles, self.groups, self.makes, self.uses = [], [], [], [], [], []
        self.maker, self.readers, self.titles = [], [], []

    def leaf(self, name, tool, group):
        """Adds a leaf, and returns its number."""
        for column, entry in ((self.names, name), (self.tools, tool), (self.groups, group), (self.roles, []), (self.makes, []), (self.uses, [])):
            column.append(entry)
        return len(self.names) - 1

    def value(self, leaf, role, title):
        """Adds a value that a leaf makes, and returns its number."""
        self.maker.append(leaf)
        self.readers.append([])
        self.titles.append(title)
        self.makes[leaf].append(len(self.maker) - 1)
        self.roles[leaf].append(role)
        return len(self.maker) - 1

    def read(self, leaf, value):
        """Notes that a leaf reads a value."""
        if value not in self.uses[leaf]:
            self.uses[leaf].append(value)
            self.readers[value].append(leaf)


class Names:
    """Names that differ, of at most 64 letters, digits, `_` or `-`."""

    def __init__(self):
        self.taken, self.counts = set(), {}

    def take(self, text):
        """Returns a new name that is like a text."""
        base = re.sub(r"[^A-Za-z0-9_-]", "_", text)[:NAME_LENGTH] or "_"
        name, number = base, self.counts.get(base, 1)
        while name in self.taken:
            number += 1
            name = f"{base[:NAME_LENGTH - 1 - len(str(number))]}-{number}"
        self.counts[base] = number
        self.taken.add(name)
        return name


class Module:
    """A module: its number, its name, its ports, its productions, the pairs of an input and an output, or None for all, and for each input the
    outputs that it joins, as bits."""

    def __init__(self, number, name, inputs, outputs):
        self.number, self.name, self.inputs, self.outputs, self.productions, self.pairs = number, name, inputs, outputs, [], None
        self.joined = ((1 << len(outputs)) - 1,) * len(inputs)


class Library:
    """The modules and productions that parts share."""

    def __init__(self):
        self.modules, self.known, self.productions, self.names, self.coarse = [], {}, {}, Names(), {}

    def shared(self, key, title, inputs, outputs):
        """Returns the module of a key, and whether it is new. The ports are names, or how many there are."""
        found = self.known.get(key)
        if found is not None:
            return found, False
        inputs = [f"in{number + 1}" for number in range(inputs)]
        if isinstance(outputs, int):
            outputs = [f"out{number + 1}" for number in range(outputs)]
        found = self.known[key] = Module(len(self.modules), self.names.take(title), inputs, outputs)
        self.modules.append(found)
        return found, True

    def helper(self, kind, widths):
        """Returns the module that copies, gathers, ends or gives nothing. It has a narrow port for each width, and as many wide ones."""
        wide, narrow = sum(widths), len(widths)
        inputs, outputs = {"copy": (narrow, wide), "gather": (wide, narrow), "end": (wide, 0), "nothing": (0, wide)}[kind]
        module, is_new = self.shared((kind, widths), f"{kind}-{wide}", inputs, outputs)
        if is_new and narrow > 1 and wide:
            module.pairs = paired(kind, widths, module)
            module.joined = bits_of(module)
        return module

    def face(self, title, height, joined, outputs):
        """Returns the module of all bodies of a title and a height that join the same inputs to the same outputs. The height keeps a body from
        standing in itself."""
        module, is_new = self.shared(("face", title, height, joined, outputs), title, len(joined), outputs)
        if is_new:
            module.joined = joined
        return module

    def production(self, module, wiring):
        """Returns the production of a module by a body, which is that of an earlier body where the two are wired alike."""
        key = (module.number, wiring.key())
        if key not in self.productions:
            self.productions[key] = Production(module, wiring.modules, wiring.links)
            module.productions.append(self.productions[key])
        return self.productions[key]

    def leaf(self, tool, inputs, roles):
        """Returns the module of a tool with so many inputs, and with outputs of these roles."""
        key = ("leaf", tool, inputs, tuple(roles))
        if key in self.known:
            return self.known[key]
        names = Names()
        return self.shared(key, tool, inputs, [names.take(role) for role in roles])[0]


def paired(kind, widths, module):
    """Returns the pairs of a module that copies or gathers for several ports, each for itself."""
    pairs, wide = [], iter(module.outputs if kind == "copy" else module.inputs)
    for number, width in enumerate(widths):
        for port in [next(wide) for _ in range(width)]:
            pairs.append([module.inputs[number], port] if kind == "copy" else [port, module.outputs[number]])
    return pairs


def bits_of(module):
    """Returns for each input of a module the outputs that its pairs join to it, as bits."""
    return tuple(sum(1 << module.outputs.index(end) for start, end in module.pairs if start == port) for port in module.inputs)


class Part:
    """A part of a run. Its leaves, for each value that enters or leaves it the number of its port, and how many ports there are. A leaf
    has one port for all that it reads. `turns` are what its expansions make, from the outermost: each a production and what stands in it."""

    def __init__(self, leaves, entering, leaving, module=None, turns=(), merged=frozenset(), height=0):
        self.leaves, self.entering, self.leaving, self.height = leaves, entering, leaving, height
        self.module, self.turns, self.merged = module, list(turns), merged
        self.ports = {}
        for value, port in leaving.items():
            self.ports.setdefault(port, []).append(value)

    def is_leaf(self):
        """Returns whether it is a leaf, whose module depends on the body around."""
        return not self.turns


def leaf_part(graph, number):
    """Returns the part of a leaf."""
    leaving = {value: port for port, value in enumerate(graph.makes[number])}
    return Part(frozenset([number]), dict.fromkeys(graph.uses[number], 0), leaving)


class Wiring:
    """A body: what stands at its positions, and its links. It is made of children and of wires, each a source and where it goes. An end
    of a link is a pair of a position, or HEAD, and a port. A child is a part, or a module for the next turn of a loop.

    One module gathers for all children of a depth, and one copies what all children of a depth give, each for itself. The depth of a child is
    the length of the longest way to it, so no way leads from such a module back to it."""

    def __init__(self, library, graph, children, wires, outputs, most):
        self.library, self.graph, self.outputs = library, graph, outputs
        self.positions, self.links, self.leaf_arrivals = list(children), [], {}
        self.going = {source: [] for source, _ in wires}
        self.depths = depths_in(len(self.positions), wires)
        arrivals = {}
        for source, goals in wires:
            for goal in goals:
                arrivals.setdefault(goal[0], {}).setdefault(goal[1], []).append(source)
        self.arrive(arrivals)
        self.feed_nothing(arrivals)
        self.modules = [self.module_of(place) for place in range(len(self.positions))]
        self.leave()
        if len(self.positions) > most:
            raise TooWide("positions", len(self.positions))

    def is_leaf(self, place):
        """Returns whether a leaf stands at a position."""
        return place != HEAD and isinstance(self.positions[place], Part) and self.positions[place].is_leaf()

    def arrive(self, arrivals):
        """Leads sources to the ports of positions. A leaf has a port for each of up to 64 sources. Any other port is fed by a module that
        gathers, where it has several sources."""
        several = {}
        for place, ports in sorted(arrivals.items()):
            for port, sources in sorted(ports.items()):
                sources = self.gathered(sources)
                if self.is_leaf(place):
                    self.leaf_arrivals[place] = len(sources)
                    for number, source in enumerate(sources):
                        self.going[source].append((place, number))
                elif len(sources) == 1:
                    self.going[sources[0]].append((place, port))
                else:
                    depth = len(self.depths) if place == HEAD else self.depths[place]
                    several.setdefault(depth, []).append((len(sources), place, port, sources))
        for depth in sorted(several):
            for piece in pieces_of(sorted(several[depth])):
                self.gather(piece)

    def gather(self, piece):
        """Gathers sources for several ports, each for itself."""
        gather = self.add("gather", tuple(count for count, *_ in piece))
        for number, source in enumerate(source for *_, sources in piece for source in sources):
            self.going[source].append((gather, number))
        for number, (_, place, port, _) in enumerate(piece):
            self.going[gather, number] = [(place, port)]

    def gathered(self, sources):
        """Returns at most 64 sources for a port, by a tree of gathering modules."""
        while len(sources) > MOST_PORTS:
            groups, sources = [sources[start:start + MOST_PORTS] for start in range(0, len(sources), MOST_PORTS)], []
            for group in groups:
                gather = self.add("gather", (len(group),))
                for number, source in enumerate(group):
                    self.going[source].append((gather, number))
                self.going[gather, 0] = []
                sources.append((gather, 0))
        return sources

    def add(self, kind, widths):
        """Adds a module that copies, gathers, ends or gives nothing, and returns its position."""
        self.positions.append(self.library.helper(kind, widths))
        return len(self.positions) - 1

    def append(self, kind, widths):
        """Adds such a module behind the others."""
        place = self.add(kind, widths)
        self.modules.append(self.positions[place])
        return place

    def feed_nothing(self, arrivals):
        """Feeds the ports of children to which nothing goes. They are those for what outer turns of a loop hand on."""
        unfed = [(place, port) for place, child in enumerate(self.positions) if isinstance(child, Part) and not child.is_leaf()
                 for port in range(len(child.module.inputs)) if port not in arrivals.get(place, {})]
        for start in range(0, len(unfed), MOST_PORTS):
            piece = unfed[start:start + MOST_PORTS]
            nothing = self.add("nothing", (len(piece),))
            self.links += [((nothing, number), goal) for number, goal in enumerate(piece)]

    def module_of(self, place):
        """Returns the module at a position."""
        child = self.positions[place]
        if not isinstance(child, Part):
            return child
        if child.is_leaf():
            number = next(iter(child.leaves))
            return self.library.leaf(self.graph.tools[number], self.leaf_arrivals.get(place, 0), self.graph.roles[number])
        return child.module

    def leave(self):
        """Leads each source to where it goes, by a copying module where there are several ends. What has none ends in one of these modules that
        stands behind it, or in one that ends. What would go from a leaf straight out of the body goes through a module first, so that it is
        an item."""
        unread, several = [], {}
        for source, goals in self.going.items():
            depth = -1 if source[0] == HEAD else self.depths.get(source[0], len(self.depths))
            if not goals:
                unread.append((depth, source))
            elif len(goals) > 1 or goals[0][0] == HEAD and (source[0] == HEAD or self.is_leaf(source[0])):
                goals = self.spread(goals)
                several.setdefault(depth, []).append((len(goals), source, goals))
            else:
                self.links.append((source, goals[0]))
        ends = []
        for depth, source in unread:
            behind = [other for other in several if other >= depth]
            (several[min(behind)] if behind else ends).append((0, source, []))
        for depth in sorted(several):
            for piece in pieces_of(sorted(several[depth])):
                self.copy(piece)
        for piece in pieces_of(ends):
            place = self.append("end", (len(piece),))
            self.links += [(source, (place, port)) for port, (_, source, _) in enumerate(piece)]

    def spread(self, goals):
        """Returns at most 64 ends for a value, by a tree of copying modules. More there are in coarse parts alone."""
        while len(goals) > MOST_PORTS:
            groups, goals = [goals[start:start + MOST_PORTS] for start in range(0, len(goals), MOST_PORTS)], []
            for group in groups:
                place = self.append("copy", (len(group),))
                self.links += [((place, number), goal) for number, goal in enumerate(group)]
                goals.append((place, 0))
        return goals

    def copy(self, piece):
        """Copies values to several ends each, by one module, each of whose outputs rests on one input."""
        place = self.append("copy", tuple(count for count, _, _ in piece))
        self.links += [(source, (place, number)) for number, (_, source, _) in enumerate(piece)]
        goals = [goal for _, _, goals in piece for goal in goals]
        self.links += [((place, number), goal) for number, goal in enumerate(goals)]

    def key(self):
        """Returns what two bodies that are one production have in common."""
        return tuple(module.number for module in self.modules), tuple(sorted(self.links)), self.outputs

    def joined(self):
        """Returns for each input of the body the outputs that are reached from it, as bits."""
        going, known = dict(self.links), {}

        def reached(source):
            if source not in known:
                place, port = going[source]
                known[source] = 1 << port if place == HEAD else 0
                if place != HEAD:
                    bits, module = 0, self.modules[place]
                    for number in range(len(module.outputs)):
                        if module.joined[port] >> number & 1:
                            bits |= reached((place, number))
                    known[source] = bits
            return known[source]
        return tuple(reached(source) for source in sorted(source for source in going if source[0] == HEAD))


def pieces_of(entries):
    """Returns lists of entries, whose counts come to at most 64 in each, where an entry counts for one at least."""
    pieces, room = [], 0
    for entry in entries:
        count = max(entry[0], 1)
        if count > room:
            pieces.append([])
            room = MOST_PORTS
        pieces[-1].append(entry)
        room -= count
    return pieces


def depths_in(count, wires):
    """Returns for each of so many children the length of the longest way to it over wires."""
    after, before = [set() for _ in range(count)], [0] * count
    for (place, _), goals in wires:
        if place != HEAD:
            after[place].update(goal for goal, _ in goals if goal != HEAD)
    for goals in after:
        for goal in goals:
            before[goal] += 1
    depths, ready = dict.fromkeys(range(count), 0), [place for place in range(count) if not before[place]]
    for place in ready:
        for goal in after[place]:
            depths[goal] = max(depths[goal], depths[place] + 1)
            before[goal] -= 1
            if not before[goal]:
                ready.append(goal)
    return depths


class Builder:
    """Makes bodies and loops of parts."""

    def __init__(self, graph, most=MOST_POSITIONS, coarse=False):
        self.graph, self.library, self.most, self.coarse = graph, Library(), most, coarse

    def body(self, children, title, is_faced=False):
        """Returns the part that has these parts in its body, or raises TooWide. Faced, its ports stand in the order of what is outside: of the
        makers of what enters, and of the readers of what leaves."""
        inside = frozenset().union(*(child.leaves for child in children))
        self.refuse_wide(children, inside)
        children = ordered(self.graph, children, inside)
        reading, entering = self.reads(children, inside)
        bundles = {}
        for value, goals in entering.items():
            bundles.setdefault(tuple(goals), []).append(value)
        ports_in = self.narrow(sorted(bundles.items(), key=self.maker_key if is_faced else None), title)
        wires = [((HEAD, port), goals) for port, (goals, _) in enumerate(ports_in)]
        leaving = {}
        for place, child in enumerate(children):
            for port, values in sorted(child.ports.items()):
                goals, beyond = self.goals(child, port, values, reading, inside)
                wires.append(((place, port), goals))
                if beyond:
                    leaving.setdefault(beyond, []).append(len(wires) - 1)
        numbered_out = sorted(leaving.items(), key=self.reader_key) if is_faced else leaving.items()
        ports_out = self.narrow([(tuple(wires[number][0] for number in numbers), numbers) for _, numbers in numbered_out], title)
        if not is_faced:
            ports_out.sort()
        for port, (_, numbers) in enumerate(ports_out):
            for number in numbers:
                wires[number] = wires[number][0], wires[number][1] + [(HEAD, port)]
        return self.finish(children, wires, inside, ports_in, ports_out, title)

    def maker_key(self, bundle):
        """Returns by what the values that enter are ordered: by the tools that made them and their roles, and then by their numbers."""
        makers = [(self.graph.tools[leaf], self.graph.roles[leaf][self.graph.makes[leaf].index(value)], value)
                  for value in bundle[1] for leaf in [self.graph.maker[value]]]
        return sorted(makers)

    def reader_key(self, bundle):
        """Returns by what the values that leave are ordered: by the tools that read them, and then by the numbers of these readers."""
        return sorted((self.graph.tools[leaf], leaf) for leaf in bundle[0])

    def refuse_wide(self, children, inside):
        """Raises TooWide where too much would cross the border, before anything else is done."""
        if self.coarse:
            return
        _, entering = self.reads(children, inside)
        gone = {tuple(goals) for goals in entering.values()}
        for child in children:
            for values in child.ports.values():
                beyond = frozenset(reader for reader in self.graph.readers[values[0]] if reader not in inside)
                gone |= {beyond} if beyond else set()
        count = max(sum(isinstance(key, tuple) for key in gone), sum(isinstance(key, frozenset) for key in gone))
        if count > MOST_PORTS:
            raise TooWide("values that would cross its border", count)

    def finish(self, children, wires, inside, ports_in, ports_out, title):
        """Returns the part of a body whose wires are known."""
        wiring = Wiring(self.library, self.graph, children, wires, len(ports_out), self.most)
        height = 1 + max(child.height for child in children)
        production = self.library.production(self.library.face(title, height, wiring.joined(), len(ports_out)), wiring)
        entering = {value: port for port, (_, values) in enumerate(ports_in) for value in values}
        sources = {source: port for port, (given, _) in enumerate(ports_out) for source in given}
        leaving = {value: sources[place, port] for place, child in enumerate(children)
                   for value, port in child.leaving.items() if (place, port) in sources}
        merged = frozenset(port for port, (given, _) in enumerate(ports_out) if self.is_merged(given, children, inside))
        return Part(inside, entering, leaving, production.module, [(production, wiring.positions)], merged, height)

    def is_merged(self, given, children, inside):
        """Returns whether the values of a port are read by different leaves outside, as only coarse parts have it."""
        if not self.coarse:
            return False
        values = [value for place, port in given for value in children[place].ports[port]]
        return len({frozenset(self.graph.readers[value]) - inside for value in values}) > 1

    def reads(self, children, inside):
        """Returns where each value goes: of those made inside, and of those that enter."""
        reading, entering = {}, {}
        for place, child in enumerate(children):
            for value, port in child.entering.items():
                table = reading if self.graph.maker[value] in inside else entering
                table.setdefault(value, []).append((place, port))
        return reading, entering

    def goals(self, child, port, values, reading, inside):
        """Returns the ends inside to which a port of a child goes, and the leaves outside that read it. All values of a port are read by the
        same leaves beyond it, but for a port that was made coarse."""
        values = values if child.is_leaf() or port in child.merged else values[:1]
        goals = sorted({goal for value in values for goal in reading.get(value, ())})
        beyond = frozenset(reader for value in values for reader in self.graph.readers[value] if reader not in inside)
        return goals, beyond

    def narrow(self, bundles, title):
        """Returns at most 64 bundles, or raises TooWide. Coarse parts gather what is too much behind one port."""
        if len(bundles) <= MOST_PORTS:
            return bundles
        if not self.coarse:
            raise TooWide("values that would cross its border", len(bundles))
        kept, rest = bundles[:MOST_PORTS - 1], bundles[MOST_PORTS - 1:]
        goals = tuple(sorted({goal for given, _ in rest for goal in given}))
        self.library.coarse.setdefault(title, []).append(len(rest))
        return kept + [(goals, [value for _, values in rest for value in values])]


class Production:
    """A production: its module, the modules of its body, its links, and the names of the positions."""

    def __init__(self, module, modules, links):
        names = Names()
        self.module, self.modules, self.links = module, modules, sorted(links)
        self.positions = [names.take(other.name) for other in modules]


def ordered(graph, children, inside):
    """Returns children in an order that depends on what they are and how they hang together, and not on their names. So bodies that are
    alike are wired in the same order. Where two children look the same for three rounds, the order given decides."""
    where = {leaf: place for place, child in enumerate(children) for leaf in child.leaves}
    before = [[] for _ in children]
    after = [[] for _ in children]
    for place, child in enumerate(children):
        for value, port in child.entering.items():
            giver = where.get(graph.maker[value])
            before[place].append((port, -1 if giver is None else giver, 0 if giver is None else children[giver].leaving[value]))
            if giver is not None:
                after[giver].append((children[giver].leaving[value], place, port))
    kinds = [("leaf", graph.tools[min(child.leaves)], tuple(graph.roles[min(child.leaves)])) if child.is_leaf()
             else ("part", str(child.module.number), ()) for child in children]
    colours = numbered([(kind, graph_exits(graph, child, inside)) for kind, child in zip(kinds, children)])
    for _ in range(3):
        colours = numbered([(colours[place], sorted((port, -1 if other < 0 else colours[other], gate) for port, other, gate in before[place]),
                             sorted((gate, colours[other], port) for gate, other, port in after[place])) for place in range(len(children))])
    depths = depths_of(before, after)
    return [children[place] for place in sorted(range(len(children)), key=lambda place: (depths[place], colours[place], place))]


def graph_exits(graph, child, inside):
    """Returns by which ports of a child something leaves the body."""
    return tuple(sorted({port for port, values in child.ports.items()
                         if any(reader not in inside for value in values[:1] for reader in graph.readers[value])}))


def numbered(keys):
    """Returns the rank of each key among all."""
    ranks = {key: rank for rank, key in enumerate(sorted({repr(key) for key in keys}))}
    return [ranks[repr(key)] for key in keys]


def depths_of(before, after):
    """Returns for each child the length of the longest way to it. Children that read each other in a circle are refused."""
    givers = [{other for _, other, _ in entries if other >= 0} for entries in before]
    left, depths = [len(others) for others in givers], [0] * len(before)
    ready = [place for place, count in enumerate(left) if not count]
    for place in ready:
        for other in {other for _, other, _ in after[place]}:
            depths[other] = max(depths[other], depths[place] + 1)
            left[other] -= 1
            if not left[other]:
                ready.append(other)
    if len(ready) < len(before):
        raise terminal.Wrong("cutting: parts of the run read each other in a circle")
    return depths
