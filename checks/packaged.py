#!/usr/bin/env python3
"""Compares what `wfprov package` and `wfprov consult` write with what is worked out anew, on many small grammars at random.

  python3 checks/packaged.py PROGRAM [--grammars N] [--seed N] [--jobs N]

For each specification it draws a safe view, a run and its label file. The package has to be, byte for byte, the text that follows from the
lines of `view`; and the same text for a specification with other names, of which what the view hides is left out where no cycle is cut. On
all pairs of labels of the run, or of some of them where it has many, `consult` has to answer as `ask` does of their items, and on some pairs
as `decide` does under the view. On changed labels, and on changed packages, it has to answer or
refuse as checks/packages.py finds: that reads a text by the rules of packages, and turns each label into one of the package's grammar, for
which `decide` gives the verdict, with the package as its specification.

It prints how much was compared and how much of it differs, and of each kind the first difference. Ends with 1 where something differs, or
where one of the kinds of answers came too seldom.
"""
import collections
import json
import os
import sys

TOP = os.path.dirname(os.path.dirname(os.path.abspath(__file__)))
sys.path.insert(0, os.path.join(TOP, "tools"))
import grammars
import labels
import many
import mutations
import packages
import wfprov
from cases import OTHER, Case
from diagnosis import specs
from diagnosis.faults import Fault
from packages import Package
from terminal import Wrong

# Of so many labels of each run all pairs are asked. How many pairs are asked of `decide` too, how many pairs of changed ones, and how many
# changed packages are tried.
ALL, PAIRS, CHANGED, HOSTILE = 8, 6, 2, 4
# The kinds of answers, each of which has to come once for so many grammars at least.
LEAST = {
    **{"yes": 3, "no": 1, "hidden 1": 15, "hidden 2": 15, "clash": 200, "Malformed": 2},
    **{"NotJson": 6, "NotPackage": 4, "BadPackage": 1, "answered": 3, "cut": 20, "less": 50},
}
MALFORMED = "refused: label {}: Malformed\n"
# What stands in the place of the member `package`.
MARKS = (1, 1, 0, 2, 1.0, "1", True, None, [1])

Difference = collections.namedtuple("Difference", "number words wanted found")


class Packaged(Case):
    """A case with its package, and the labels of its label file. `cut` says whether the view expands a cycle in part."""

    def __init__(self, program, draw, folder):
        super().__init__(program, draw, folder)
        self.write("everything", packages.EVERYTHING)
        self.grammar = specs.accepted(*specs.read_parts("spec", json.dumps(self.spec).encode()))
        self.text = packages.text_of(self.grammar, self.seen)
        self.package = Package(self.text.encode())
        self.cut = self.package.steps.keys() != self.package.grammar.continuing.keys()
        with open(self.path("labels"), "rb") as file:
            self.label_of = {name.decode(): label for name, label in labels.entries_of(file.read())}
        self.labels = list(self.label_of.values()) or [b"\x20"]
        self.clashing = self.clashing_pairs()

    def want_same(self, calls):
        """Wants the package of a specification with other names, which may have less that the view hides."""
        opened = [module.name for module in self.seen if module.expanded]
        less = not self.cut and self.draw.random() < 0.7
        kept = [made for made in self.spec["productions"] if not less or made["head"] in opened]
        given = [{"module": module.name, "pairs": sorted(map(list, module.pairs))} for module in self.seen if not module.expanded]
        atomic = {module["name"] for module in self.spec["modules"]} - {made["head"] for made in kept}
        deps = [part for part in self.spec["deps"] if part["module"] in atomic]
        self.write("other", json.dumps(renamed({**self.spec, "productions": kept, "deps": deps})))
        self.write("other-view", json.dumps(renamed({"expand": opened, "deps": given})))
        self.counts["less"] += len(kept) < len(self.spec["productions"])
        calls.want(["package", "other", "other-view"], self.text)

    def clashing_pairs(self):
        """Returns pairs of labels of two runs that `ask` says to clash."""
        others = [item for item in self.listed if item.startswith(OTHER)]
        pairs = [(first, second) for first in others for second in self.listed]
        self.write("queries", "".join(f"{first} {second}\n" for first, second in pairs))
        answers = wfprov.lines_of(["ask", *map(self.path, ("spec", "view", "labels", "queries"))], self.program) if pairs else []
        return [[self.label_of[item] for item in pair] for pair, answer in zip(pairs, answers, strict=True) if answer == "clash"]

    def drawn_pair(self):
        """Returns two labels, more often than not in the order of the file, in which a later item may rest on an earlier one."""
        if self.clashing and self.draw.random() < 0.3:
            return self.draw.choice(self.clashing)
        places = [self.draw.randrange(len(self.labels)) for _ in range(2)]
        return [self.labels[place] for place in (sorted(places) if self.draw.random() < 0.7 else places)]

    def answered_pairs(self):
        """Yields each pair of labels of the run, or of some that are drawn, with the line that `consult` has to write. That is what `ask` answers of
        their items, and of a hidden label which of the two it is: a label is hidden where its item is not shown to rest on itself."""
        items = self.draw.sample(sorted(self.label_of), min(len(self.label_of), ALL))
        pairs = [(first, second) for first in items for second in items]
        self.write("queries", "".join(f"{first} {second}\n" for first, second in pairs))
        answers = wfprov.lines_of(["ask", *map(self.path, ("spec", "view", "labels", "queries"))], self.program) if pairs else []
        told = dict(zip(pairs, answers, strict=True))
        for (first, second), answer in told.items():
            if answer == "hidden":
                answer = "hidden 1" if told[first, first] == "hidden" else "hidden 2"
            yield [self.label_of[first], self.label_of[second]], f"{answer}\n"

    def changed_label(self):
        """Returns a label with a change, or bytes at random."""
        label, kind, draw = bytearray(self.draw.choice(self.labels)), self.draw.random(), self.draw
        if kind < 0.5:
            label[draw.randrange(len(label))] ^= 1 << draw.randrange(8)
        elif kind < 0.7:
            label += draw.randbytes(1)
        elif kind < 0.8 and len(label) > 1:
            label.pop()
        else:
            label = draw.randbytes(draw.choice((1, 1, 2, 3)))
        return bytes(label)

    def changed_package(self):
        """Returns the bytes of a package with changes."""
        draw, value = self.draw, json.loads(self.text)
        kind = draw.randrange(8)
        if kind == 0:
            return self.changed_bytes()
        if kind == 1:
            value["package"] = draw.choice(MARKS)
        elif kind == 2:
            mutations.exchange_ends(value, draw) if value["productions"] else mutations.change_value(value, draw)
        elif kind == 3:
            value["deps"].append({"module": draw.choice(value["modules"])["name"], "pairs": []})
        elif kind < 6:
            change_loops(value, draw)
        else:
            mutations.change_value(value, draw)
        members = grammars.shuffled(draw, [*value.items(), ("versions", 7)]) if draw.random() < 0.5 else value.items()
        return json.dumps(dict(members), indent=draw.choice((None, 1))).encode()

    def changed_bytes(self):
        data = bytearray(self.text.encode())
        place = self.draw.randrange(len(data))
        if self.draw.random() < 0.3:
            return bytes(data[:place])
        data[place] = self.draw.choice((*data, 0xFF, 0x00, 0x20))
        return bytes(data)


def renamed(value):
    """Returns a specification or a view in which each name of a module, a position or a port is another."""
    if isinstance(value, str):
        return ".".join(f"x{name}" for name in value.split("."))
    if isinstance(value, list):
        return [renamed(part) for part in value]
    return {member: renamed(part) for member, part in value.items()}


def change_loops(value, draw):
    """Changes the entries of `loops`: one is taken away, stands twice, has another place, or is a new one."""
    loops, kind = value["loops"], draw.randrange(5)
    if not loops or kind == 0:
        loops.append([draw.choice(value["modules"])["name"], draw.randrange(3), draw.randrange(3)])
    elif kind == 1:
        loops.remove(draw.choice(loops))
    elif kind == 2:
        loops.insert(draw.randrange(len(loops) + 1), draw.choice(loops))
    elif kind == 3:
        draw.choice(loops)[draw.choice((1, 2))] = draw.randrange(4)
    else:
        draw.shuffle(loops)


def translations(package, pair):
    """Returns what two labels are over a package, or the line by which the first that is malformed is refused."""
    told = []
    for number, label in enumerate(pair, 1):
        try:
            told.append(package.translated(label))
        except Wrong:
            return MALFORMED.format(number)
    return told


def consulted(case, package, pair):
    """Returns the status and the text with which `consult` has to end. A verdict on two labels that are inside is that of `decide`."""
    told = translations(package, pair)
    if isinstance(told, str):
        return 2, told
    if None in told:
        return 0, f"hidden {told.index(None) + 1}\n"
    return case.said(["decide", "package-spec", "everything", *(label.hex() for label in told)])


def write_package(case, data):
    """Leaves a package, and what it has of a specification. Returns it, or the name of its fault."""
    case.write("package", data)
    try:
        package = Package(data)
    except Fault as fault:
        return fault.kind
    value = json.loads(data)
    case.write("package-spec", json.dumps({member: value[member] for member in ("start", "modules", "productions", "deps")}))
    return package


def count_end(case, text):
    kind = text.split()[-1] if text.startswith("refused") else text.rstrip("\n")
    case.counts[kind] += 1


def consult_differences(case, number):
    """Yields what differs of labels of the run, for which `decide` answers under the view, and of changed ones."""
    package = write_package(case, case.text.encode())
    calls = many.Calls()
    for pair, answer in case.answered_pairs():
        calls.want(["consult", "package", *(label.hex() for label in pair)], answer)
    for (_, *words), wanted, found in calls.made(case.program, case.folder):
        case.counts["pair"] += 1
        count_end(case, wanted[1])
        if wanted != found:
            yield Difference(number, ["pair", *words], wanted, found)
    pairs = [(case.drawn_pair(), True) for _ in range(PAIRS)]
    pairs += [([case.changed_label(), case.draw.choice(case.labels)][:: case.draw.choice((1, -1))], False) for _ in range(CHANGED)]
    for pair, known in pairs:
        words = [label.hex() for label in pair]
        wanted = case.said(["decide", "spec", "view", *words]) if known else consulted(case, package, pair)
        found = case.said(["consult", "package", *words])
        kind = "consult" if known else "label"
        case.counts[kind] += 1
        count_end(case, wanted[1])
        if wanted != found:
            yield Difference(number, [kind, *words], wanted, found)


def hostile_differences(case, number):
    """Yields what differs of changed packages."""
    for _ in range(HOSTILE):
        package = write_package(case, case.changed_package())
        pair = case.drawn_pair()
        words = [label.hex() for label in pair]
        wanted = (2, f"refused: package: {package}\n") if isinstance(package, str) else consulted(case, package, pair)
        found = case.said(["consult", "package", *words])
        case.counts["hostile"] += 1
        case.counts[package if isinstance(package, str) else "answered"] += 1
        if wanted != found:
            yield Difference(number, ["hostile", *words], wanted, found)


def compared(case, number):
    """Yields the differences of the case of a number."""
    calls = many.Calls()
    calls.want(["package", "spec", "view"], case.text)
    case.want_same(calls)
    for (words, wanted, found), kind in zip(calls.made(case.program, case.folder), ("text", "same")):
        case.counts[kind] += 1
        if wanted != found:
            yield Difference(number, [kind, *words], wanted, found)
    case.counts.update(cut=case.cut, loops=len(case.package.steps))
    yield from consult_differences(case, number)
    yield from hostile_differences(case, number)


def main():
    asked, counts, differences = many.tried(__doc__, Packaged, compared)
    lacking = [kind for kind, least in LEAST.items() if counts[kind] < asked // least]
    print(f"{asked} grammars, and {counts['refused']} that were refused; {counts['loops']} loops, and {counts['cut']} views that cut a cycle")
    print(f"packages of other names: {counts['same']}, of which {counts['less']} have less that is hidden")
    print(f"answers: {', '.join(f'{counts[kind]} {kind}' for kind in LEAST if kind not in ('cut', 'less'))}")
    print(f"too few: {', '.join(lacking)}" if lacking else "each kind of answer came often enough")
    many.tell(("text", "same", "pair", "consult", "label", "hostile"), counts, differences, lambda least: " ".join(least.words))
    return int(bool(differences or lacking))


if __name__ == "__main__":
    sys.exit(main())
