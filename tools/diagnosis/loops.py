"""The rules on what a module leads to: it is reached, it comes to an end, and it leads back to itself in at most one way."""
from diagnosis.faults import Fault
from diagnosis.graphs import cycles
from diagnosis.words import listed, quoted


def step(production, position):
    """Returns a line that says which module stands where."""
    return f"  {quoted(production.head)} has {quoted(production.body[position])} at the position {quoted(position)} of production {production.number}"


def composite_are_reached(grammar):
    reached = grammar.reached([grammar.start])
    for module in grammar.composite():
        if module.name not in reached:
            users = sorted({production.head for production in grammar.productions if module.name in production.body.values()})
            where = f"It stands in bodies of {listed(users)} alone, which are not reached either." if users else "It stands in no body."
            mend = f"Put {quoted(module.name)} at a position of a body that is reached, or take the module and its productions away."
            if grammar.start in grammar.reached([module.name]):
                whole = f"A way leads from {quoted(module.name)} to {quoted(grammar.start)}: if {quoted(module.name)} is the whole workflow,"
                mend = f'{whole} write `"start":"{module.name}"`. Or {mend[0].lower()}{mend[1:]}'
            raise Fault(
                f"Unreachable {module.name}",
                f"{quoted(module.name)} has a production, and no way leads from the start {quoted(grammar.start)} to it. {where}",
                mend,
                module.productions[0].part.head,
            )


def composite_end(grammar):
    ranks_of(grammar)
    endless = [module for module in grammar.composite() if module.name not in grammar.ranks]
    if endless:
        raise unproductive(grammar, endless)


def ranks_of(grammar):
    """Leaves for each module that comes to an end its rank, and the first production that attains it."""
    grammar.ranks = {module.name: 0 for module in grammar.modules.values() if not module.productions}
    grammar.chosen, left, rank = {}, grammar.composite(), 0
    while left:
        rank += 1
        ended = {}
        for module in left:
            for production in module.productions:
                if all(other in grammar.ranks for other in production.body.values()):
                    ended.setdefault(module.name, production)
        if not ended:
            return
        grammar.ranks.update(dict.fromkeys(ended, rank))
        grammar.chosen.update(ended)
        left = [module for module in left if module.name not in ended]


def unproductive(grammar, endless):
    """Returns the fault, and says which modules keep the told one from its end: those that only wait for one another."""
    names = {module.name for module in endless}
    waits = {name: {other for other in grammar.below(name) if other in names} for name in names}
    told = endless[0].name
    group = waiting(told, waits)
    first = next(module for module in endless if module.name in group)
    lines, culprit = [], None
    for module in (module for module in endless if module.name in group):
        for production in module.productions:
            position = next(position for position, other in production.body.items() if other in group)
            lines.append(step(production, position))
            culprit = culprit or next(node for node, _ in production.part.body if node.value == position)
    others = [module.name for module in endless if module.name in group]
    where = f"{listed(others)}, which wait for one another" if len(others) > 1 else f"{quoted(told)} itself" if told in group else listed(others)
    return Fault(
        f"Unproductive {told}",
        f"no run of {quoted(told)} ever ends. The fault is at {where}: no production there has only modules that come to an end.",
        f"Give {quoted(first.name)} one more production, whose positions hold atomic modules or modules that come to an end: this is how the last"
        " repetition is done.",
        culprit,
        lines,
    )


def waiting(name, waits):
    """Returns modules that only wait for one another, to which a module leads."""
    group = closure(name, waits)
    while True:
        smaller = next((found for other in sorted(group) for found in [closure(other, waits)] if len(found) < len(group)), None)
        if smaller is None:
            return group
        group = smaller


def closure(name, waits):
    found, left = {name}, [name]
    while left:
        for other in waits[left.pop()] - found:
            found.add(other)
            left.append(other)
    return found


def none_becomes_itself(grammar):
    units = {}
    for production in grammar.productions:
        if len(production.body) == 1:
            units.setdefault(production.head, []).append((production, next(iter(production.body.values()))))
    for module in grammar.composite():
        circle = shortest_circle(module.name, units)
        if circle:
            numbers = " ".join(str(production.number) for production in circle)
            raise Fault(
                f"UnitCycle productions {numbers}",
                f"{quoted(module.name)} becomes itself by bodies of one position each, so a run could go round without doing anything.",
                "Take one of these productions away, or give its body a further position that does something at each turn.",
                circle[0].part.head,
                [step(production, next(iter(production.body))) for production in circle],
            )


def shortest_circle(start, units):
    """Returns the shortest list of productions of one position each by which a module becomes itself, the first by their numbers."""
    back = {}
    for head, ways in units.items():
        for _, target in ways:
            back.setdefault(target, set()).add(head)
    steps, layer = {start: 0}, [start]
    for name in layer:
        for head in back.get(name, ()):
            if head not in steps:
                steps[head] = steps[name] + 1
                layer.append(head)
    circle, name = [], start
    ways = [(steps[target], production.number, production, target) for production, target in units.get(start, []) if target in steps]
    while ways:
        _, _, production, name = min(ways)
        circle.append(production)
        if name == start:
            return circle
        ways = [(steps[target], other.number, other, target) for other, target in units[name] if target in steps]
    return []


def each_has_one_way_back(grammar):
    cycle = cycles({name: grammar.below(name) for name in grammar.modules})
    for module in grammar.modules.values():
        steps = [(production, position) for production in module.productions for position in production.body]
        ways = [(production, position) for production, position in steps if cycle[production.body[position]] == cycle[module.name]]
        if len(ways) > 1:
            raise two_loops(grammar, module, ways)
        if ways:
            grammar.continuing[module.name] = ways[0]


def loop_lines(grammar, module, production, position):
    """Returns the steps of a loop that begins at a position of a module, one a line."""
    onward = grammar.way(production.body[position], module.name)
    return [step(*part) for part in [(production, position), *onward]]


def two_loops(grammar, module, ways):
    first, second = ways[:2]
    told = " ".join(f"{word} {production.number} {position}" for word, (production, position) in (("first", first), ("second", second)))
    more = f" There are {len(ways) - 2} more." if len(ways) > 2 else ""
    node = next(name for name, _ in second[0].part.body if name.value == second[1])
    lines = ["  first:", *(f"  {line}" for line in loop_lines(grammar, module, *first))]
    lines += ["  second:", *(f"  {line}" for line in loop_lines(grammar, module, *second))]
    return Fault(
        f"TwoLoops {module.name} {told}",
        f"{quoted(module.name)} leads back to itself in two ways, and one is possible.{more}",
        f"Let one position alone lead back to {quoted(module.name)}. Two repetitions one behind the other are two modules, each with a loop of"
        " its own; a choice within a repetition is a further module with two productions that do not lead back.",
        node,
        lines,
    )


def versions_keep_cycles(grammar):
    for number, version in enumerate(grammar.parts.versions):
        modules = list(grammar.modules.values())[: version.modules]
        below = {module.name: [] for module in modules}
        for production in grammar.productions[: version.productions]:
            below[production.head].extend(production.body.values())
        for module in modules:
            if below[module.name] and module.name in grammar.continuing and module.name not in after(module.name, below):
                raise cycle_changed(grammar, number, module)


def after(name, below):
    """Returns the modules to which bodies of a version lead from a module."""
    found, left = set(), [name]
    while left:
        for other in below[left.pop()]:
            if other not in found:
                found.add(other)
                left.append(other)
    return found


def cycle_changed(grammar, number, module):
    production, position = grammar.continuing[module.name]
    node = next(name for name, _ in production.part.body if name.value == position)
    return Fault(
        f"CycleChanged version {number} module {module.name}",
        f"in version {number} {quoted(module.name)} is composite and does not stand inside itself; now it does. Label files of the version"
        " would number it otherwise.",
        f"Leave {quoted(module.name)} as it was, and let a new module repeat; or take version {number} away, if no label file of it is in use.",
        node,
        loop_lines(grammar, module, production, position),
    )


RULES = (composite_are_reached, composite_end, none_becomes_itself, each_has_one_way_back, versions_keep_cycles)
