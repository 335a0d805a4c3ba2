"""The rules on links, on the pairs of atomic modules, and on versions, for parts that keep the rules on modules and bodies."""
from diagnosis.faults import Fault
from diagnosis.words import counted, listed, near, quoted, way

MOST_VERSIONS = 64
COPY = "One output feeds one input. To feed two, put a module between that copies, with one input and two outputs."


class Body:
    """A production with its number, its head, and the modules of its positions."""

    def __init__(self, modules, number, part):
        self.number, self.part = number, part
        self.head = modules[part.head.value]
        self.modules = {position.value: modules[module.value] for position, module in part.body}
        self.way = way(number, part.head.value)

    def links(self):
        """Yields each link, with its beginning and its end as position and port, where the head is None, and the item of its list."""
        for first, second, node in self.part.edges:
            yield (first.position, first.port), (second.position, second.port), node
        for port, second, node in self.part.entries:
            yield (None, port.value), (second.position, second.port), node
        for first, port, node in self.part.exits:
            yield (first.position, first.port), (None, port.value), node

    def named(self, end, begins):
        """Returns what an end of a link is called, at which it begins or ends."""
        position, port = end
        if position is None:
            return f"the {'input' if begins else 'output'} {quoted(port)} of the head {quoted(self.head.name.value)}"
        module = self.modules[position].name.value
        return f"the {'output' if begins else 'input'} {quoted(port)} of the position {quoted(position)} (module {quoted(module)})"


def bodies_of(parts):
    modules = {module.name.value: module for module in parts.modules}
    return [Body(modules, number, part) for number, part in enumerate(parts.productions)]


def sides_of(module):
    return [port.value for port in module.inputs], [port.value for port in module.outputs]


def how_to_name(module, side, exchanged):
    """Returns how a port that is not there is mended, where the two ends of its link or pair may be exchanged."""
    ports = sides_of(module)[side == "output"]
    name = quoted(module.name.value)
    if exchanged:
        return "Exchange the two: a link begins at an output of a position and ends at an input, and a pair has the input first."
    if not ports:
        return f"{name} has no {side}s. Add this one to the module, or take the link or the pair away."
    return f"The {side}s of {name} are: {listed(ports)}. Name one of them, or add this one to the module."


def find_port(module, side, port, place, node, owner, exchanged=False):
    """Refuses a port that a module has not on a side."""
    wanted, others = sides_of(module) if side == "input" else sides_of(module)[::-1]
    if port not in wanted:
        one, other = ("an input", "an output") if side == "input" else ("an output", "an input")
        hint = f" It is {other}, and {one} belongs here." if port in others else near(port, wanted)
        raise Fault(f"UnknownPort {place}", f"{quoted(port)} is no {side} of {owner}.{hint}", how_to_name(module, side, exchanged), node)


def are_exchanged(body, first, second):
    """Whether an edge begins at an input and ends at an output."""
    ends = [(body.modules.get(end.position), end.port) for end in (first, second)]
    return all(module and port in sides_of(module)[k] for k, (module, port) in enumerate(ends))


def find_end(body, end, side, exchanged=False):
    """Refuses an end at a position or a port that is not there."""
    place = f"production {body.number}"
    if end.position not in body.modules:
        positions = list(body.modules)
        there = [position for position, module in body.modules.items() if module.name.value == end.position]
        hint = f" It is the module at the position {listed(there)}." if there else near(end.position, positions)
        mend = f"The positions are: {listed(positions)}. Name one of them, or add one with this name to `body`."
        raise Fault(
            f"UnknownPort {place}",
            f"{quoted(end.node.value)} names the position {quoted(end.position)}, and {body.way} has none of this name.{hint}",
            link_of_head(body, end) or f"{mend} A link names positions, as `POSITION.PORT`, and not modules.",
            end.node,
        )
    module = body.modules[end.position]
    owner = f"the position {quoted(end.position)} (module {quoted(module.name.value)}) of {body.way[:-1]}"
    find_port(module, side, end.port, place, end.node, owner, exchanged)


def link_of_head(body, end):
    """Returns how a link is written that names the head as if it were a position, or nothing where it does not."""
    inputs, outputs = sides_of(body.head)
    if end.position != body.head.name.value or end.port not in inputs + outputs:
        return ""
    side, member, link = "input", "in", f'["{end.port}","POSITION.INPUT"]'
    if end.port in outputs:
        side, member, link = "output", "out", f'["POSITION.OUTPUT","{end.port}"]'
    return f"{quoted(end.port)} is an {side} of the head. Take the link from `edges`, and write it in `{member}`, as `{link}`."


def ports_are_known(parts):
    for body in bodies_of(parts):
        head, place = f"the head {quoted(body.head.name.value)}", f"production {body.number}"
        for first, second, _ in body.part.edges:
            exchanged = are_exchanged(body, first, second)
            find_end(body, first, "output", exchanged)
            find_end(body, second, "input", exchanged)
        for port, second, _ in body.part.entries:
            find_port(body.head, "input", port.value, place, port, head)
            find_end(body, second, "input")
        for first, port, _ in body.part.exits:
            find_end(body, first, "output")
            find_port(body.head, "output", port.value, place, port, head)
    modules = {module.name.value: module for module in parts.modules}
    for number, part in enumerate(parts.deps):
        pairs_are_known(modules[part.module.value], part, number)


def pairs_are_known(module, part, number):
    """Refuses a pair of a part of `deps` that names no input or no output of its module."""
    inputs, outputs = sides_of(module)
    for first, second in part.pairs:
        exchanged = first.value in outputs and second.value in inputs
        for port, side in ((first, "input"), (second, "output")):
            find_port(module, side, port.value, f"deps {number}", port, quoted(module.name.value), exchanged)


def ports_have_one_link(parts):
    bodies = bodies_of(parts)
    for body in bodies:
        begun, ended = {}, {}
        for first, second, node in body.links():
            for known, end, begins in ((begun, first, True), (ended, second, False)):
                if end in known:
                    raise twice_linked(body, end, begins, known[end], node)
                known[end] = node
    for body in bodies:
        is_linked(body)


def twice_linked(body, end, begins, earlier, node):
    one = " to ".join(part.value for part in earlier.value)
    other = " to ".join(part.value for part in node.value)
    mend = COPY if begins else "Take one of the two links away. Two data items want two inputs, or a module between with two inputs and one output."
    return Fault(
        f"PortLinkedTwice production {body.number}",
        f"in {body.way} {body.named(end, begins)} has two links: `{one}` and `{other}`.",
        mend,
        node,
    )


def is_linked(body):
    """Refuses a body with a port that has no link."""
    linked = {(end, begins) for first, second, _ in body.links() for end, begins in ((first, True), (second, False))}
    inputs, outputs = sides_of(body.head)
    wanted = [((None, port), True) for port in inputs] + [((None, port), False) for port in outputs]
    for position, module in body.modules.items():
        inputs, outputs = sides_of(module)
        wanted += [((position, port), False) for port in inputs] + [((position, port), True) for port in outputs]
    missing = [part for part in wanted if part not in linked]
    if missing:
        raise unlinked(body, missing)


def unlinked(body, missing):
    """Returns the fault of a body with ports that have no link, with what may have been meant."""
    (position, port), begins = missing[0]
    node = body.part.head if position is None else next(name for name, _ in body.part.body if name.value == position)
    more = [body.named(*part) for part in missing[1:5]] + ([f"{len(missing) - 5} more"] if len(missing) > 5 else [])
    also = f" So have {'; '.join(more)}." if len(more) > 1 else f" So has {more[0]}." if more else ""
    what = f"in {body.way} {body.named(*missing[0])} has no link.{also}"
    return Fault(f"PortUnlinked production {body.number}", what, link_that_is_missing(missing) or how_to_link(position, port, begins), node)


def written(end):
    return f'"{end[1]}"' if end[0] is None else f'"{end[0]}.{end[1]}"'


def link_that_is_missing(missing):
    """Returns a sentence that proposes the link between two of the ports, where one can begin it and one can end it."""
    begin = [end for end, begins in missing if begins]
    ends = [end for end, begins in missing if not begins]
    pairs = [(first, second) for first in begin for second in ends if first[1] == second[1] or len(begin) == len(ends) == 1]
    pairs = [(first, second) for first, second in pairs if first[0] is not None or second[0] is not None]
    if not pairs:
        return ""
    first, second = pairs[0]
    member = "in" if first[0] is None else "out" if second[0] is None else "edges"
    return f"Add the link `[{written(first)}, {written(second)}]` to `{member}`, if the one is to feed the other."


def how_to_link(position, port, begins):
    """Returns how a port gets its link."""
    if position is None and begins:
        return f'Add `["{port}", "POSITION.INPUT"]` to `in`, or take the input from the module.'
    if position is None:
        return f'Add `["POSITION.OUTPUT", "{port}"]` to `out`, or take the output from the module.'
    if begins:
        return (
            f'Lead it on: `["{position}.{port}", "POSITION.INPUT"]` in `edges`, or `["{position}.{port}", "OUTPUT"]` in `out`. If nobody reads it,'
            " let it feed a module without outputs, or take it from its module."
        )
    return (
        f'Feed it: `["POSITION.OUTPUT", "{position}.{port}"]` in `edges`, or `["INPUT", "{position}.{port}"]` in `in`. If the step does not need'
        " it, take it from its module."
    )


def lead_onward(parts):
    for body in bodies_of(parts):
        circle = circle_in(body)
        if circle:
            steps = [f"  {quoted(node.value[0].value)} leads to {quoted(node.value[1].value)}" for node in circle]
            around = ", ".join(quoted(node.value[0].value.partition(".")[0]) for node in circle)
            raise Fault(
                f"BodyCycle production {body.number}",
                f"in {body.way} edges lead from a position back to it: {around}.",
                "One of these edges begins or ends in the wrong place. Each port has one link, so where its end is changed, another link of"
                " `edges`, `in` or `out` changes with it: look for the one whose end belongs here. A step that repeats is written as a module"
                " that stands inside itself, as"
                " `Refine` in examples/phylogeny: each repetition is a new instance, and none feeds itself.",
                circle[0],
                steps,
            )


def circle_in(body):
    """Returns the edges of a circle of positions, one behind the other, or nothing where there is none."""
    onward = {position: [] for position in body.modules}
    for first, second, node in body.part.edges:
        onward[first.position].append((second.position, node))
    left = dict(onward)
    while left:
        ended = [position for position, edges in left.items() if not any(other in left for other, _ in edges)]
        if not ended:
            break
        for position in ended:
            del left[position]
    came, order, position = [], {}, next(iter(left), None)
    while position is not None and position not in order:
        order[position] = len(came)
        position, node = next((other, node) for other, node in left[position] if other in left)
        came.append(node)
    return came[order[position] :] if came else []


def pairs_are_of_atomic(parts):
    heads = {}
    for number, production in enumerate(parts.productions):
        heads.setdefault(production.head.value, []).append(str(number))
    for number, part in enumerate(parts.deps):
        if part.module.value in heads:
            raise Fault(
                f"DepsOnComposite deps {number}",
                f"part {number} of `deps` gives pairs to {quoted(part.module.value)}, which is composite: production"
                f" {', '.join(heads[part.module.value])} says how it is done.",
                "Take the part away: which outputs of a composite module rest on which inputs follows from its bodies. A view that leaves it"
                " closed may give it pairs, in its own `deps`.",
                part.module,
            )


def versions_are_versions(parts):
    if len(parts.versions) > MOST_VERSIONS:
        raise Fault(
            "TooManyVersions",
            f"there are {len(parts.versions)} versions, and at most {MOST_VERSIONS} are possible.",
            "Take those away of which no label file is in use any more.",
            parts.versions[MOST_VERSIONS].node,
        )
    for number, version in enumerate(parts.versions):
        why = version_fault(parts, version)
        if why:
            raise Fault(
                f"VersionBad version {number}",
                f"version {number} is the first {counted(version.modules, 'module')} and the first {counted(version.productions, 'production')},"
                f" and {why}.",
                f"Write how many modules and how many productions the specification had, the modules first{exchanged_version(parts, version)}."
                " New modules and productions stand behind the old ones, at the end of their lists.",
                version.node,
            )


def exchanged_version(parts, version):
    """Returns a version with its numbers exchanged, in words, if that is one, or nothing."""
    is_one = not numbers_fault(parts, version.productions, version.modules)
    return f", as `[{version.productions},{version.modules}]`" if is_one else ""


def version_fault(parts, version):
    return numbers_fault(parts, version.modules, version.productions)


def numbers_fault(parts, modules, productions):
    """Returns why numbers of modules and productions are no version, or nothing."""
    for wanted, held, what in ((modules, parts.modules, "module"), (productions, parts.productions, "production")):
        if wanted > len(held):
            return f"there {'is' if len(held) == 1 else 'are'} {counted(len(held), what)}"
    known = {module.name.value for module in parts.modules[:modules]}
    if parts.start.value not in known:
        return f"the start {quoted(parts.start.value)} is not among these modules"
    for number, production in enumerate(parts.productions[:productions]):
        for module in [production.head, *(module for _, module in production.body)]:
            if module.value not in known:
                return f"production {number} names {quoted(module.value)}, which is not among these modules"
    return ""


RULES = (ports_are_known, ports_have_one_link, lead_onward, pairs_are_of_atomic, versions_are_versions)
