"""Which actions stand in which body, so that every body is within the limits of wfprov and no answer changes.

A body may have any actions, as long as no way leads out of it and back in: its pairs are those that its inside joins. So the limits
alone decide. Actions of one group stand together. What is more than a body holds is made smaller in two ways: parts that are alike and
hang together by few others alone become a loop; and parts that follow one another become one part, as many as its borders allow.
"""
from actions.loops import Loop, Shape
from actions.parts import Builder, MOST_POSITIONS, Part, TooWide, leaf_part
import terminal

LEAST = 3
DEGREES = (1000, 400, 150, 64, 48, 36, 27, 20, 15, 11, 8, 6, 3)
SIZES = (40, 24, 12, 6, 3, 2)
CLASSES = 32


class Cutter:
    """Makes one part of all leaves of a graph."""

    def __init__(self, graph, most=MOST_POSITIONS, coarse=False):
        self.graph, self.builder = graph, Builder(graph, most, coarse)
        self.smallest = None

    def whole(self):
        """Returns the part of the whole run."""
        part = self.scope(range(len(self.graph.names)), 0, "workflow")
        return self.builder.body([part], "workflow") if part.is_leaf() else part

    def scope(self, leaves, depth, title):
        """Returns the part of these leaves, which are of one group to this depth."""
        groups = [self.graph.groups[leaf][depth:depth + 1] for leaf in leaves]
        if not any(groups):
            return self.one([leaf_part(self.graph, leaf) for leaf in leaves], title)
        parts = []
        for group, members in self.layers(leaves, depth):
            if len(members) == 1 or not group:
                parts += [leaf_part(self.graph, leaf) for leaf in members]
            else:
                parts.append(self.scope(members, depth + 1, group[0][0]))
        return self.one(parts, title)

    def layers(self, leaves, depth):
        """Returns lists of leaves of one group, each with the group. A group that other leaves stand between becomes several: a layer is
        how often the longest way to a leaf goes from one group to another, and no way leads from a layer of a group out and back in."""
        inside, layers, found = set(leaves), {}, {}
        groups = {leaf: self.graph.groups[leaf][depth:depth + 1] or (("", leaf),) for leaf in leaves}
        for leaf in self.sorted_leaves(leaves):
            givers = {self.graph.maker[value] for value in self.graph.uses[leaf]} & inside
            layers[leaf] = max([layers[giver] + (groups[giver] != groups[leaf]) for giver in givers], default=0)
        for leaf in leaves:
            readers = {reader for value in self.graph.makes[leaf] for reader in self.graph.readers[value]} & inside
            layer = layers[leaf]
            if not self.graph.uses[leaf] and readers and all(groups[reader] == groups[leaf] for reader in readers):
                layer = min(layers[reader] for reader in readers)
            found.setdefault((groups[leaf], layer), []).append(leaf)
        return [(group if group[0][0] else (), members) for (group, _), members in found.items()]

    def sorted_leaves(self, leaves):
        """Returns leaves in an order in which makers stand before readers."""
        inside = set(leaves)
        left = {leaf: sum(self.graph.maker[value] in inside for value in self.graph.uses[leaf]) for leaf in leaves}
        ready = [leaf for leaf in leaves if not left[leaf]]
        for leaf in ready:
            for value in self.graph.makes[leaf]:
                for reader in self.graph.readers[value]:
                    if reader in inside:
                        left[reader] -= 1
                        if not left[reader]:
                            ready.append(reader)
        return ready

    def one(self, parts, title):
        """Returns one part of several."""
        while len(parts) > 1:
            if len(parts) <= self.builder.most:
                try:
                    return self.builder.body(parts, title)
                except TooWide as wide:
                    self.note(wide, parts)
            parts = self.looped(parts) or self.chunked(parts)
        return parts[0]

    def note(self, wide, parts):
        """Keeps the smallest cut that did not fit."""
        if "positions" not in wide.what and (self.smallest is None or wide.count < self.smallest[0]):
            names = [self.graph.names[min(part.leaves)] for part in parts[:2]]
            self.smallest = wide.count, names

    def looped(self, parts):
        """Returns fewer parts, of which alike ones became loops, or None: those that are alike inside, or else those that have the same
        neighbours, each of which becomes a part of its own first."""
        net, before = Net(self.graph, parts), None
        for most in DEGREES:
            components = net.components(most)
            if components == before:
                continue
            before = components
            alike = classes_of(components, net.rough)
            facing = classes_of([component for component in components if len(component) > 1 or not net.parts[component[0]].is_leaf()], net.facing)
            orders = [(alike, False), (facing, True)]
            for classes, is_faced in orders if 2 * covered(alike) > covered(facing) else orders[::-1]:
                fewer = self.contracted(net, classes[:CLASSES], is_faced)
                if fewer:
                    return fewer
        return None

    def contracted(self, net, classes, is_faced):
        """Returns the parts of a net with loops for classes of alike components, or None where no class becomes one."""
        gone, new = set(), []
        for components in classes:
            between = net.between({place for component in components for place in component})
            if gone and (between or any(gone.intersection(component) for component in components)):
                continue
            taken, parts = self.loop(net, components, between, is_faced)
            if len(parts) < len(taken):
                gone |= taken
                new += parts
            if between and new:
                break
        return [part for place, part in enumerate(net.parts) if place not in gone] + new if new else None

    def loop(self, net, components, between, is_faced):
        """Returns the places that became other parts, and these parts: loops, and the elements that are not alike after all."""
        later = net.reached(between)
        if any(place in between for component in components for member in component if member in later for place in net.after[member]):
            return set(), [None]
        splits = [[[place for place in component if place not in later], [place for place in component if place in later]]
                  for component in components]
        try:
            elements = [[self.side([net.parts[place] for place in side], is_faced) for side in split if side] for split in splits]
            centre = self.one([net.parts[place] for place in sorted(between)], "centre") if between else None
            made, others = self.loops_of(elements, centre)
        except TooWide as wide:
            self.note(wide, net.parts)
            return set(), [None]
        if not made:
            return set(), [None]
        return set(between).union(*components), made + [part for element in others for part in element]

    def side(self, parts, is_faced):
        """Returns one part for the parts of an element. Faced, its ports stand in an order that does not depend on what is inside."""
        if not is_faced:
            return self.one(parts, "part")
        if len(parts) <= self.builder.most:
            try:
                return self.builder.body(parts, "part", True)
            except TooWide as wide:
                self.note(wide, parts)
        return self.builder.body([self.one(parts, "part")], "part", True)

    def loops_of(self, elements, centre):
        """Returns a loop for each shape that enough elements have, and the other elements. With a centre, one shape alone becomes a loop."""
        found = {}
        for element in elements:
            shape = Shape(self.graph, element, centre)
            found.setdefault(shape.key(self.graph), (shape, []))[1].append(element)
        made, others = [], []
        for shape, alike in sorted(found.values(), key=lambda entry: -len(entry[1])):
            if len(alike) < LEAST or made and centre:
                others += alike
            else:
                made.append(Loop(self.builder, alike, shape, centre, "each").part())
        return made, others

    def chunked(self, parts):
        """Returns fewer parts: those that follow one another are put together, as many as the borders allow."""
        order, found, start = Net(self.graph, parts).order(), [], 0
        while start < len(order):
            part, count = self.longest([parts[place] for place in order[start:start + SIZES[0]]])
            found.append(part)
            start += count
        if len(found) == len(parts):
            count, names = self.smallest or (0, [])
            raise terminal.Wrong(f"cutting: the run cannot be cut exactly: {len(parts)} parts are left, and the smallest cut that was found, "
                                 f"near {' and '.join(f'`{name}`' for name in names)}, has {count} values, and 64 are allowed; "
                                 "`--coarse` gathers what is too much")
        return found

    def longest(self, parts):
        """Returns the first parts as one, as many as fit, and how many they are."""
        for size in SIZES:
            if size <= len(parts):
                try:
                    return self.builder.body(parts[:size], "part"), size
                except TooWide as wide:
                    if size == 2:
                        self.note(wide, parts)
        return parts[0], 1


def classes_of(components, key):
    """Returns lists of components that have the same key, the longest first, if they are long enough for a loop."""
    classes = {}
    for component in components:
        classes.setdefault(key(component), []).append(component)
    return sorted((members for members in classes.values() if len(members) >= LEAST), key=len, reverse=True)


def covered(classes):
    """Returns how many parts stand in classes of components."""
    return sum(len(component) for members in classes for component in members)


class Net:
    """Parts as a graph: which feeds which."""

    def __init__(self, graph, parts):
        self.graph, self.parts = graph, parts
        self.where = {leaf: place for place, part in enumerate(parts) for leaf in part.leaves}
        self.before, self.after = [set() for _ in parts], [set() for _ in parts]
        for place, part in enumerate(parts):
            for value in part.entering:
                giver = self.where.get(graph.maker[value])
                if giver is not None:
                    self.before[place].add(giver)
                    self.after[giver].add(place)

    def components(self, most):
        """Returns lists of parts that hang together without those that have more than so many neighbours. What reads nothing, and what nothing
        reads, joins no two of them: it belongs to one if it hangs together with no other."""
        ends = {place for place in range(len(self.parts)) if not self.before[place] or not self.after[place]}
        small = {place for place in range(len(self.parts)) if place not in ends and len(self.before[place]) + len(self.after[place]) <= most}
        number, found = {}, []
        for start in sorted(small):
            if start not in number:
                number[start] = len(found)
                found.append([start])
                for place in found[-1]:
                    for other in self.before[place] | self.after[place]:
                        if other in small and other not in number:
                            number[other] = len(found) - 1
                            found[-1].append(other)
        for place in sorted(ends):
            near = {number[other] for other in self.before[place] | self.after[place] if other in small}
            if len(near) == 1:
                found[near.pop()].append(place)
            elif not near and len(self.before[place]) + len(self.after[place]) <= most:
                found.append([place])
        return [sorted(component) for component in found]

    def rough(self, component):
        """Returns what components have in common that may be alike."""
        inside = set(component)
        return tuple(sorted((self.kind(place), len(self.before[place]), len(self.after[place]), tuple(sorted(self.before[place] - inside)),
                             self.beyond(place, inside)) for place in component))

    def beyond(self, place, inside):
        """Returns the leaves outside that read what a part makes, for each of its ports."""
        part = self.parts[place]
        return tuple(tuple(reader for reader in self.graph.readers[values[0]] if self.where.get(reader) not in inside)
                     for _, values in sorted(part.ports.items()))

    def facing(self, component):
        """Returns what components have in common that may become loops of parts: what stands before them, and behind."""
        inside = set(component)
        return tuple(tuple(sorted(set().union(*(table[place] for place in component)) - inside)) for table in (self.before, self.after))

    def kind(self, place):
        """Returns what a part is."""
        part = self.parts[place]
        number = min(part.leaves)
        return (self.graph.tools[number], *self.graph.roles[number]) if part.is_leaf() else ("", str(part.module.number))

    def reached(self, places, back=False):
        """Returns what can be reached from places, without these where no way leads back to them."""
        table = self.before if back else self.after
        found, waiting = set(), list(places)
        while waiting:
            for other in table[waiting.pop()]:
                if other not in found:
                    found.add(other)
                    waiting.append(other)
        return found

    def between(self, places):
        """Returns what stands on a way from these places back to them."""
        return (self.reached(places) & self.reached(places, True)) - places

    def order(self):
        """Returns the parts in an order in which makers stand before readers, and what follows one another stands near."""
        left = [len(others) for others in self.before]
        ready = [place for place in reversed(range(len(self.parts))) if not left[place]]
        order = []
        while ready:
            place = ready.pop()
            order.append(place)
            for other in sorted(self.after[place], reverse=True):
                left[other] -= 1
                if not left[other]:
                    ready.append(other)
        return order
