"""The items that a view shows of a run and how they rest on one another, by plain search over the lines that `export` writes.

A path of links joins two items exactly if the second rests on the first: the one link from an item that an edge carries leads to where it
is consumed, and no link leads on from an output of the run. A pending instance has no link, and is passed by the pairs that `view` writes
of its module. Nothing else that the program says is used.
"""
import re

import wfprov

ITEM = re.compile(rf"{wfprov.NAME.pattern}\.{wfprov.NAME.pattern}")
VIA = re.compile(f"via {wfprov.NAME.pattern}")


class Shown:
    """What a view shows of a run: the items in order of making, the closed instances, and for each port those to which links lead.
    `goes_in` has the items that are inputs of the run, and `leads_on` for each item those to which a step leads, each with its instance.
    `waits` says whether instances are pending."""

    def __init__(self, exported, seen, inputs):
        pairs = {module.name: module.pairs for module in seen}
        pending = [(f"{name}.{a}", f"{name}.{b}") for name, module in exported.pending for a, b in pairs[module]]
        self.exported, self.waits = exported, bool(exported.pending)
        self.closed = {name for name, _ in exported.leaves + exported.pending}
        self.place = {name: place for place, name in enumerate(exported.items)}
        self.goes_in = set(exported.items[: len(inputs)])
        self.onward = {}
        for port, other in exported.links + pending:
            self.onward.setdefault(port, []).append(other)
        self.leads_on = {item: dict(self.steps_from(item)) for item in self.place}

    def ports_from(self, port):
        """Returns the ports to which links lead from one."""
        found, left = set(), [port]
        while left:
            for other in self.onward.get(left.pop(), ()):
                if other not in found:
                    found.add(other)
                    left.append(other)
        return found

    def resting_on(self, item):
        """Returns the items that rest on one."""
        return {port for port in self.ports_from(item) if port in self.place}

    def pair_of(self, port, other):
        """Returns the closed instance of which a link is a pair, or None."""
        name = port.partition(".")[0]
        return name if name in self.closed and name == other.partition(".")[0] else None

    def steps_from(self, item):
        """Yields the items to which one leads through one instance, each with the instance."""
        left = [(item, None)]
        while left:
            port, via = left.pop()
            for other in self.onward.get(port, ()):
                passed = via or self.pair_of(port, other)
                if other in self.place:
                    yield other, passed
                else:
                    left.append((other, passed))

    def consumer(self, item):
        """Returns the instance that consumes an item in the end: the closed one to which its edge and entries lead."""
        if item not in self.goes_in and item not in self.onward:
            return None
        port = item if item in self.goes_in else self.onward[item][0]
        while port.partition(".")[0] not in self.closed:
            port = self.onward[port][0]
        return port.partition(".")[0]

    def far_from(self, last):
        """Returns how many steps lead to an item at least, from each item from which some do, and from itself none."""
        before = {}
        for item, steps in self.leads_on.items():
            for other in steps:
                before.setdefault(other, []).append(item)
        far, found = {last: 0}, [last]
        for item in found:
            for other in before.get(item, ()):
                if other not in far:
                    far[other] = far[item] + 1
                    found.append(other)
        return far

    def choices(self, first, last):
        """Yields, along the first of the shortest chains from an item to another, what may follow each item of a shortest chain: in order of
        making, so that the first of these does."""
        far, item = self.far_from(last), first
        while far.get(item):
            nearer = [other for other in self.leads_on[item] if far.get(other) == far[item] - 1]
            yield sorted(nearer, key=self.place.get)
            item = min(nearer, key=self.place.get)

    def chain(self, first, last):
        """Returns the lines of the first of the shortest chains from an item to another, or none where there is no chain."""
        lines, item = [first], first
        for nearer in self.choices(first, last):
            lines += [f"via {self.leads_on[item][nearer[0]]}", nearer[0]]
            item = nearer[0]
        return lines if item != first else []

    def has_several(self, first, last):
        """Whether several chains from an item to another are as short."""
        return any(len(nearer) > 1 for nearer in self.choices(first, last))

    def right_lines(self, lines):
        """Yields for each line of a chain whether it is right behind the lines before it, of which all are."""
        item = via = None
        for number, line in enumerate(lines):
            if number % 2:
                via = line.removeprefix("via ")
                yield via == self.consumer(item)
            else:
                yield line in self.place if number == 0 else self.leads_on[item].get(line) == via
                item = line

    def judged(self, lines):
        """Returns the text that `verify` ends with over these lines, and the status."""
        for number, line in enumerate(lines, 1):
            if not (ITEM if number % 2 else VIA).fullmatch(line):
                return f"refused: chain line {number}: LineWrong\n", 2
        for number, right in enumerate(self.right_lines(lines), 1):
            if not right:
                return f"no {number}\n", 0
        return "yes\n" if len(lines) > 2 and len(lines) % 2 else f"no {len(lines) + 1}\n", 0
