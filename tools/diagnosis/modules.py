"""The rules on modules, productions and their names, in the order in which they are tried, each over the whole specification."""
from diagnosis.faults import Fault
from diagnosis.words import counted, is_name, listed, mended, near, quoted, way

MOST_PORTS, MOST_MODULES, MOST_PRODUCTIONS, MOST_POSITIONS, MOST_SQUARES = 64, 1024, 1024, 64, 65536


def twice(nodes):
    """Returns the first node with the text of an earlier one, and that one, or None."""
    known = {}
    for node in nodes:
        if node.value in known:
            return node, known[node.value]
        known[node.value] = node
    return None


def bad_name(node, what, place):
    why = f"{quoted(node.value)} is no name of a {what}: it has {counted(len(node.value.encode()), 'byte')}"
    odd = [sign for sign in node.value if not is_name(sign)]
    if odd:
        why = f"{quoted(node.value)} is no name of a {what}: it has {'a blank' if odd[0] == ' ' else f'the sign {quoted(odd[0])}'}"
    return Fault(
        f"NameBad {place}",
        f"{why}." if node.value else f"the name of a {what} is empty.",
        f"A name has 1 to 64 letters of ASCII, digits, `_` and `-`. Write for instance `{mended(node.value)}`, here and where the {what} is named.",
        node,
    )


def names_are_names(parts):
    for number, module in enumerate(parts.modules):
        for node, what in [(module.name, "module"), *((port, "port") for port in module.inputs + module.outputs)]:
            if not is_name(node.value):
                raise bad_name(node, what, f"module {number}")
    for number, production in enumerate(parts.productions):
        for position, _ in production.body:
            if not is_name(position.value):
                raise bad_name(position, "position", f"production {number}")


def modules_differ(parts):
    first = {}
    for number, module in enumerate(parts.modules):
        known = first.setdefault(module.name.value, number)
        if known != number:
            raise Fault(
                f"NameTwice module {number}",
                f"module {number} has the name {quoted(module.name.value)}, and so has module {known}.",
                "Give one of the two another name. If both are the same module, take one away: a module may stand in many bodies.",
                module.name,
            )


def ports_differ(parts):
    for number, module in enumerate(parts.modules):
        found = twice(module.inputs + module.outputs)
        if found:
            sides = ["an input" if any(port is node for port in module.inputs) else "an output" for node in (found[1], found[0])]
            both = f"{sides[0]} and {sides[1]}" if sides[0] != sides[1] else f"two {sides[0].split()[1]}s"
            raise Fault(
                f"PortTwice module {number}",
                f"module {quoted(module.name.value)} has {both} with the name {quoted(found[0].value)}.",
                "The ports of a module have different names, inputs and outputs together. Give one another name, and name it so in links and pairs.",
                found[0],
            )


def ports_are_few(parts):
    for number, module in enumerate(parts.modules):
        for ports, side in ((module.inputs, "inputs"), (module.outputs, "outputs")):
            if len(ports) > MOST_PORTS:
                raise Fault(
                    f"TooManyPorts module {number}",
                    f"module {quoted(module.name.value)} has {len(ports)} {side}, and at most {MOST_PORTS} are possible.",
                    f"Let one port carry several data items that go the same way. This is number {MOST_PORTS + 1}.",
                    ports[MOST_PORTS],
                )


def lists_are_short(parts):
    for held, most, kind, what in (
        (parts.modules, MOST_MODULES, "TooManyModules", "modules"),
        (parts.productions, MOST_PRODUCTIONS, "TooManyProductions", "productions"),
    ):
        if len(held) > most:
            raise Fault(
                kind,
                f"there are {len(held):,} {what}, and at most {most:,} are possible. This is number {most}, from 0.",
                "Use one module in several bodies where steps are alike, or write a part of the workflow as a specification of its own.",
                held[most].node,
            )


def modules_are_known(parts):
    names = [module.name.value for module in parts.modules]
    known = set(names)
    positions = {}
    for production in parts.productions:
        for position, module in production.body:
            positions.setdefault(position.value, module.value)

    def find(node, place, what, position=None):
        if node.value not in known:
            mend = f"Name one of the modules, which are {listed(names)}, or add one with this name to `modules`."
            hint = near(node.value, names)
            if position is not None and position.value in known and not hint:
                mend = f'Exchange the two: `["{node.value}","{position.value}"]`. The position stands first, and its module second.'
            elif position is None and positions.get(node.value) in known:
                meant = positions[node.value]
                hint, mend = f" It is a position, of the module {quoted(meant)}.", f"Name the module in the place of the position: {quoted(meant)}."
            raise Fault(f"UnknownModule {place}", f"{what} {quoted(node.value)}, and there is no module of this name.{hint}", mend, node)

    find(parts.start, "start", "`start` names")
    for number, production in enumerate(parts.productions):
        find(production.head, f"production {number}", f"the head of production {number} is")
        for position, module in production.body:
            find(module, f"production {number}", f"the position {quoted(position.value)} of {way(number, production.head.value)} holds", position)
    for number, part in enumerate(parts.deps):
        find(part.module, f"deps {number}", f"part {number} of `deps` gives pairs to")


def bodies_are_right(parts):
    for number, production in enumerate(parts.productions):
        if not production.body:
            raise Fault(
                f"EmptyBody production {number}",
                f"{way(number, production.head.value)} has a body without a position.",
                "Put a position into the body: an atomic module that hands its inputs on, if nothing else is done. Or take the production"
                " away: a module without one is atomic.",
                production.body_node,
            )
    for number, production in enumerate(parts.productions):
        if len(production.body) > MOST_POSITIONS:
            raise Fault(
                f"BodyTooLong production {number}",
                f"{way(number, production.head.value)} has {len(production.body)} positions, and at most {MOST_POSITIONS} are possible."
                f" {quoted(production.body[MOST_POSITIONS][0].value)} is number {MOST_POSITIONS + 1}.",
                "Put some of the positions into the body of a module of their own, and that module in their place.",
                production.body[MOST_POSITIONS][0],
            )
    squares_are_few(parts)
    for number, production in enumerate(parts.productions):
        found = twice([position for position, _ in production.body])
        if found:
            raise Fault(
                f"PositionTwice production {number}",
                f"{way(number, production.head.value)} has two positions with the name {quoted(found[0].value)}.",
                "Give one of them another name, and name it so in the links. One module may stand at many positions.",
                found[0],
            )


def squares_are_few(parts):
    total = 0
    for number, production in enumerate(parts.productions):
        total += len(production.body) ** 2
        if total > MOST_SQUARES:
            whole = sum(len(other.body) ** 2 for other in parts.productions)
            raise Fault(
                "BodiesTooLarge",
                f"the squares of the lengths of all bodies sum to {whole:,}, and at most {MOST_SQUARES:,} is possible. Up to production"
                f" {number} they sum to {total:,}.",
                "Split long bodies: two modules with 32 positions each count half of one body with 64.",
                production.body_node,
            )


RULES = (names_are_names, modules_differ, ports_differ, ports_are_few, lists_are_short, modules_are_known, bodies_are_right)
