"""The links that a view shows of a run, found by their ends, and those around some items.

A link leads from a port to a port, and a port is an instance and a name. An instance that is closed is passed by its pairs, which are
links too, and through a port of an open instance exactly one way leads on.
"""
from array import array
from bisect import bisect_left
from collections import deque

from browsing.items import Items
from terminal import Wrong

# How many links are held at most: some 100 bytes of memory each.
HELD = 5_000_000
NONE = 0xFFFFFFFF
KINDS = (b"leaf", b"pending")


class Names:
    """Names and their numbers."""

    def __init__(self):
        self.numbers, self.names = {}, []

    def number(self, name):
        """Returns the number of a name, which is a new one where the name is new."""
        found = self.numbers.setdefault(name, len(self.names))
        if found == len(self.names):
            self.names.append(name)
        return found


class Ends:
    """For each instance the links that have an end there: the last of them, and for each link the one before it."""

    def __init__(self):
        self.last, self.before, self.instances, self.ports = array("I"), array("I"), array("I"), array("I")

    def add(self, instance, port):
        """Adds an end of the next link."""
        while len(self.last) <= instance:
            self.last.append(NONE)
        self.before.append(self.last[instance])
        self.last[instance] = len(self.instances)
        self.instances.append(instance)
        self.ports.append(port)

    def at(self, instance):
        """Returns the links with an end at an instance, in their order."""
        found, link = [], self.last[instance] if instance < len(self.last) else NONE
        while link != NONE:
            found.append(link)
            link = self.before[link]
        return found[::-1]


class Shown:
    """What `export` writes of a run under a view: the closed instances, the items and the links. A run of too many links has no links
    here, and `is_held` is false."""

    def __init__(self, file):
        self.instances, self.ports, self.closed, self.count = Names(), Names(), {}, 0
        self.sources, self.targets, names = Ends(), Ends(), []
        for line in file:
            words = line.split()
            kind = words[0] if words else b""
            if kind == b"link" and len(words) == 3:
                self.add_link(*words[1:])
            elif kind == b"item" and len(words) == 2:
                names.append(words[1])
            elif kind in KINDS and len(words) == 3:
                self.closed[self.instances.number(words[1])] = kind.decode(), words[2].decode()
            else:
                raise Wrong("wfprov export: a line that is no `leaf`, `pending`, `item` or `link`")
        self.items, self.is_held = Items(names), self.count <= HELD
        self.named = array("Q", sorted(self.key(*self.port(name)) for name in names)) if self.is_held else array("Q")

    def port(self, text):
        """Returns the numbers of a port."""
        instance, _, name = text.partition(b".")
        return self.instances.number(instance), self.ports.number(name)

    def key(self, instance, port):
        return instance << 32 | port

    def add_link(self, first, second):
        """Takes a link, where there is room for it."""
        self.count += 1
        if self.count <= HELD:
            self.sources.add(*self.port(first))
            self.targets.add(*self.port(second))

    def ends(self, link):
        """Returns the two ports of a link."""
        return (self.sources.instances[link], self.sources.ports[link]), (self.targets.instances[link], self.targets.ports[link])

    def is_pair(self, link):
        """Whether a link is a pair of a closed instance."""
        (first, _), (second, _) = self.ends(link)
        return first == second and first in self.closed

    def arrows_at(self, node):
        """Returns the links but pairs with an end at a closed instance, or at a port of an open one."""
        instance, port = node
        links = dict.fromkeys(self.sources.at(instance) + self.targets.at(instance))
        return [link for link in links if not self.is_pair(link) and (instance in self.closed or (instance, port) in self.ends(link))]

    def pairs_at(self, instance):
        """Returns the pairs of a closed instance."""
        return [link for link in self.sources.at(instance) if self.is_pair(link)]

    def way(self, port, ends, side):
        """Returns the links, but pairs, that lead on from a port, each from the end of the one before. From a port at most one leads on."""
        found = []
        while links := [link for link in ends.at(port[0]) if ends.ports[link] == port[1] and not self.is_pair(link)]:
            found.append(links[0])
            port = self.ends(links[0])[side]
        return found

    def onward(self, port):
        """Returns the links on which what a port has goes to the closed instance that reads it, or out of the run."""
        return self.way(port, self.sources, 1)

    def back(self, port):
        """Returns the links on which what a port has came from the closed instance that makes it, or from outside, the last one first."""
        return self.way(port, self.targets, 0)

    def item(self, name):
        """Returns the port that names an item, or None where no such item is shown."""
        first, _, second = name.encode().partition(b".")
        if first not in self.instances.numbers or second not in self.ports.numbers:
            return None
        port = self.instances.numbers[first], self.ports.numbers[second]
        place = bisect_left(self.named, self.key(*port))
        return port if self.named[place : place + 1] == array("Q", [self.key(*port)]) else None

    def text(self, port):
        """Returns a port as `export` writes it."""
        return f"{self.instances.names[port[0]].decode()}.{self.ports.names[port[1]].decode()}"


class Part:
    """Some links of a run, as lines that `export` might have written: whole, or what surrounds a question."""

    def __init__(self, shown):
        self.shown, self.links, self.path = shown, {}, set()

    def take_all(self):
        self.links = dict.fromkeys(range(self.shown.count))

    def take_chain(self, names):
        """Takes the way of a chain of items, each of which rests on the one before."""
        leaves = None
        for port in map(self.shown.item, names):
            if port is None:
                raise Wrong("wfprov contradicts itself: `explain` names an item that `export` does not write")
            back, onward = self.shown.back(port), self.shown.onward(port)
            enters = self.shown.ends(back[-1])[0] if back else port
            if leaves:
                self.path.update(link for link in self.shown.pairs_at(leaves[0]) if self.shown.ends(link) == (leaves, enters))
            leaves = self.shown.ends(onward[-1])[1] if onward else port
            self.path.update(back, onward)
        self.links.update(dict.fromkeys(sorted(self.path)))

    def take_around(self, names, room):
        """Takes the links around items, the nearest first, until there are so many more."""
        nodes = dict.fromkeys(node for name in names if (node := self.shown.item(name)))
        nodes.update(dict.fromkeys(end for link in self.links for end in self.shown.ends(link)))
        waiting, room = deque(nodes), room + len(self.links)
        while waiting and len(self.links) < room:
            for link in self.shown.arrows_at(waiting.popleft()):
                self.links[link] = None
                for end in self.shown.ends(link):
                    node = (end[0], None) if end[0] in self.shown.closed else end
                    if node not in nodes:
                        nodes[node] = None
                        waiting.append(node)

    def take_pairs(self):
        """Takes the pairs of each closed instance between the ports that are there, so that its box lists what it should."""
        ports = {end for link in self.links for end in self.shown.ends(link)}
        for instance in {instance for instance, _ in ports} & self.shown.closed.keys():
            for link in self.shown.pairs_at(instance):
                if ports.issuperset(self.shown.ends(link)):
                    self.links[link] = None

    def lines(self):
        """Yields the lines of `export` of these links."""
        ends = [self.shown.ends(link) for link in self.links]
        ports = dict.fromkeys(port for link in ends for port in link)
        is_whole = len(self.links) == self.shown.count
        for instance in self.shown.closed if is_whole else dict.fromkeys(owner for owner, _ in ports if owner in self.shown.closed):
            kind, module = self.shown.closed[instance]
            yield f"{kind} {self.shown.instances.names[instance].decode()} {module}"
        for port in ports:
            name = self.shown.text(port)
            if self.shown.item(name):
                yield f"item {name}"
        for first, second in ends:
            yield f"link {self.shown.text(first)} {self.shown.text(second)}"
