"""The rules on a package, and what a label is over one."""
from diagnosis import forms, specs
from diagnosis.faults import Fault
from diagnosis.files import Text
from diagnosis.label_files import after, at, port_of
from diagnosis.words import counted, listed, near, quoted
from label_bits import Bits, gamma
from located_json import read
from terminal import Wrong

AGAIN = "Make the package again by `wfprov package SPEC VIEW`, and copy it as bytes."


class Outside(Exception):
    """A label leads to a module of which the package has no inside."""


def under(kind, fault, what=""):
    """Returns a fault of the form or the grammar of a package as one of this kind, with something said before it."""
    by_hand = f" If it was written by hand, {fault.mend[0].lower()}{fault.mend[1:]}" if fault.mend else ""
    return Fault(kind, what + fault.what, AGAIN + by_hand, fault.node, fault.picture)


class Entry:
    """An entry of `loops`: its number, its node, and those of its three parts, with what they say."""

    def __init__(self, shape, number, node, place):
        self.number, self.node = number, node
        self.nodes = shape.row(node, forms.ROWS["loops"], place)
        self.name = self.nodes[0].value
        self.production, self.position = (shape.number(self.nodes[k], f"{place}[{k}]") for k in (1, 2))


class PackageParts(forms.GrammarParts):
    """The parts of a package: those of its grammar, and the entries of `loops`."""

    def __init__(self, node):
        try:
            self.mark(forms.top(node, "a package"))
            super().__init__(node)
            shape = forms.Shape("loops", forms.PACKAGE)
            self.loops = [Entry(shape, number, part, place) for number, (part, place) in enumerate(shape.items(node, "loops", "list", ""))]
        except Fault as fault:
            raise under("NotPackage", fault) from None

    @staticmethod
    def mark(node):
        """Refuses an object that has not all members of a package, or is marked as something else."""
        shapes = {name: forms.Shape(name, forms.PACKAGE) for name in forms.PACKAGE}
        kinds = {"package": "number", "start": "text"}
        found = {name: shapes[name].member_of(node, name, kinds.get(name, "list"), "") for name in forms.PACKAGE}
        if found["package"].whole() != 1:
            what = f"`package` is {found['package'].value}, and the whole number 1 belongs there: it says in which form the package is written."
            raise shapes["package"].wrong(found["package"], what, "")


class Package:
    """A text that has the form of a package: its grammar, and the loop step of each module that has one, as its production and its position."""

    def __init__(self, path, data):
        self.text = Text(path, data)
        try:
            self.parts = specs.parts_of(self.text, PackageParts, "package")
        except Fault as fault:
            raise (under("NotJson", fault).stands_in("package", self.text) if fault.kind == "NotJson" else fault) from None
        self.grammar = self.accepted()
        self.steps = {}
        specs.kept(RULES, self, "package", self.text)

    def accepted(self):
        """Returns the grammar, which has to keep the rules of specifications, and has to have a default view that is safe."""
        try:
            grammar = specs.accepted(self.text, self.parts, "package")
        except Fault as fault:
            what = f"the grammar of the package breaks a rule of specifications, which is told of them as `{fault.kind}`: "
            raise under("BadPackage", fault, what).stands_in("package", self.text) from None
        try:
            specs.safe(self.text, forms.ViewParts(read("{}")), grammar, "package")
        except Fault as fault:
            what = f"the default view of the package is not safe, which is told of views as `{fault.kind}`: "
            raise Fault("BadPackage", what + fault.what, AGAIN, self.parts.node, fault.picture).stands_in("package", self.text) from None
        return grammar

    def codes(self, bits):
        """Yields what a label is in the package's grammar, part by part, as bits. What is no label raises Wrong, and one that leads to a
        module without an inside raises Outside."""
        kind = bits.take(1)
        if kind == "0":
            port_of(self.grammar, bits)
            yield "".join(bits.taken)
        else:
            yield kind
            yield from self.place(bits)
        bits.end()

    def place(self, bits):
        """Yields the parts of the place of an edge."""
        name, goes_on = self.grammar.start, True
        while goes_on:
            if name in self.steps:
                code, name = self.chain(name, bits.number())
                yield code
            module = self.grammar.modules[name]
            if not module.productions:
                raise Outside
            goes_on, number = bits.take(1) == "1", bits.number()
            production, part = at(module.productions, number, "production", quoted(name)), bits.number()
            held, what = (list(production.body), "position") if goes_on else (production.edges, "edge")
            found = at(held, part, what, f"production {production.number}")
            yield f"{int(goes_on)}{gamma(number)}{gamma(part)}"
            if goes_on and self.steps.get(name) == (production, found):
                raise Wrong(f"a loop step of {quoted(name)} stands alone, and belongs to the chain number before it")
            name = production.body[found] if goes_on else name

    def chain(self, name, count):
        """Returns the bits of so many loop steps from a module, and the module to which they lead, or the first that has none."""
        if name in self.grammar.continuing:
            return gamma(count), after(self.grammar, name, count)
        code = ""
        while count and name in self.steps:
            production, position = self.steps[name]
            alternative = self.grammar.modules[name].productions.index(production)
            code += f"1{gamma(alternative)}{gamma(list(production.body).index(position))}"
            name, count = production.body[position], count - 1
        return code, name


def bad(what, mend, node):
    return Fault("BadPackage", what, f"{AGAIN} If it was written by hand, {mend}", node)


def entries_are_steps(package):
    """Refuses an entry of `loops` that names no step of a module, or a module a second time, and gives the package the steps."""
    known = {}
    for entry in package.parts.loops:
        first = known.setdefault(entry.name, entry)
        if first is not entry:
            what = f"entry {entry.number} of `loops` names {quoted(entry.name)}, and so does entry {first.number}."
            raise bad(what, "take one of the two away.", entry.node)
        package.steps[entry.name] = step_of(package.grammar, entry)


def step_of(grammar, entry):
    """Returns the production and the position that an entry names."""
    which, module = f"entry {entry.number} of `loops` names", grammar.modules.get(entry.name)
    if module is None:
        what = f"{which} {quoted(entry.name)}, and the package has no module of this name.{near(entry.name, list(grammar.modules))}"
        raise bad(what, f"name a module that leads on: {listed([other.name for other in grammar.composite()])}.", entry.nodes[0])
    if not module.productions:
        raise bad(f"{which} {quoted(entry.name)}, which has no production, and so no step.", "take the entry away.", entry.nodes[0])
    production = next((production for production in module.productions if production.number == entry.production), None)
    if production is None:
        own = listed([str(production.number) for production in module.productions])
        raise bad(f"{which} production {entry.production}, and those of {quoted(entry.name)} are {own}.", "name one of these.", entry.nodes[1])
    positions = list(production.body)
    if entry.position >= len(positions):
        has = f"has {counted(len(positions), 'position')}, numbered from 0"
        what = f"{which} position {entry.position} of production {entry.production}, which {has}."
        raise bad(what, "name one of these.", entry.nodes[2])
    return production, positions[entry.position]


def written(name, production, position):
    """Returns the entry of a step, as it is written."""
    return f'`["{name}",{production.number},{list(production.body).index(position)}]`'


def node_of(package, name):
    """Returns the entry of a module, or the first module of the list where it has none."""
    return next((entry.node for entry in package.parts.loops if entry.name == name), package.grammar.modules[name].part.name)


def steps_go_on(package):
    """Refuses a step to a composite module that has none."""
    for name, (production, position) in package.steps.items():
        other = production.body[position]
        if package.grammar.modules[other].productions and other not in package.steps:
            what = f"the step of {quoted(name)} in `loops` leads to {quoted(other)}, which has productions and no entry."
            raise bad(what, f"add the step of {quoted(other)}, or take the entry of {quoted(name)} away.", node_of(package, name))


def cycles_are_there(package):
    """Refuses a module that leads back to itself and has another step than the one that leads back, or none."""
    for name, (production, position) in package.grammar.continuing.items():
        if package.steps.get(name) != (production, position):
            has = "names another step of it" if name in package.steps else "has no entry for it"
            back = f"the position {quoted(position)} of production {production.number}"
            what = f"{quoted(name)} leads back to itself by {back}, and `loops` {has}."
            raise bad(what, f"write {written(name, production, position)}{' in its place' if name in package.steps else ''}.", node_of(package, name))


def steps_end(package):
    """Refuses steps from a module on no cycle that come to one that leads back to itself, and so to no end."""
    for name in package.steps:
        other = name
        while other in package.steps and other not in package.grammar.continuing:
            production, position = package.steps[other]
            other = production.body[position]
        if other != name and other in package.grammar.continuing:
            what = f"the steps in `loops` from {quoted(name)}, which does not lead back to itself, come to {quoted(other)}, which does, and so never end."
            raise bad(what, f"take the entry of {quoted(name)} away: it is for a loop that the view shows in part.", node_of(package, name))


RULES = (entries_are_steps, steps_go_on, cycles_are_there, steps_end)


def check_word(package, number, word):
    """Refuses the word of a label that is none over a package."""
    try:
        for _ in package.codes(Bits(bytes.fromhex(word))):
            pass
    except Outside:
        return
    except Wrong as wrong:
        mend = "The labels of a run stand in its label file; `tools/labels.py lines` writes them as such words."
        same = "They have to be those of the specification of which the package was made: a package does not name it."
        raise Fault("Malformed", f"`{word[:80]}` is no label over the package: {wrong}.", f"{mend} {same}").stands_in(f"label {number}", None) from None
