"""The rules on a view, what it opens and gives, and how that is written."""
import json

from diagnosis.faults import Fault
from diagnosis.links import pairs_are_known
from diagnosis.words import listed, near, quoted


class View:
    """A view that keeps the rules: the modules that it expands, those that are seen, and the pairs that it gives to modules."""

    def __init__(self, grammar, parts):
        self.grammar, self.parts = grammar, parts
        composite = [module.name for module in grammar.composite()]
        self.expanded = set(composite if parts.expand is None else (node.value for node in parts.expand))
        self.given = {part.module.value: {(a.value, b.value) for a, b in part.pairs} for part in parts.deps}
        self.seen = grammar.reached([grammar.start], self.expanded)

    def shown_pairs(self, module):
        """Returns the pairs of a module that the view does not expand."""
        if module.name in self.given:
            return self.given[module.name]
        return module.all_pairs() if module.productions else self.grammar.atomic_pairs(module)


def modules_are_known(grammar, parts):
    for number, node in enumerate(parts.expand or []):
        if node.value not in grammar.modules:
            raise unknown(node, f"expand {number}", f"`expand` names {quoted(node.value)}", grammar)
    for number, part in enumerate(parts.deps):
        if part.module.value not in grammar.modules:
            raise unknown(part.module, f"deps {number}", f"part {number} of `deps` gives pairs to {quoted(part.module.value)}", grammar)


def unknown(node, place, what, grammar):
    """Returns the fault of a name that is that of no module. It may be that of a position, whose module is meant then."""
    names = list(grammar.modules)
    held = {body.body[node.value]: body.number for body in reversed(grammar.productions) if node.value in body.body}
    if held:
        told = " and of ".join(f"{quoted(module)} in production {number}" for module, number in reversed(held.items()))
        what = f"{what}, and the specification has no module of this name. It is a position, of {told}."
        return Fault(f"UnknownModule {place}", what, f"Name the module in place of the position: {listed(list(reversed(held)))}.", node)
    mend = f"Name a module of the specification: {listed(names)}. A view names modules, and not positions or instances."
    return Fault(f"UnknownModule {place}", f"{what}, and the specification has no module of this name.{near(node.value, names)}", mend, node)


def expanded_are_composite(grammar, parts):
    for number, node in enumerate(parts.expand or []):
        if not grammar.modules[node.value].productions:
            raise Fault(
                f"NotComposite expand {number}",
                f"`expand` names {quoted(node.value)}, which has no production in the specification, and so no inside that could be shown.",
                f"Take it from the list. The modules that have an inside are: {listed([module.name for module in grammar.composite()])}.",
                node,
            )


def given_are_closed(grammar, parts):
    expanded = {module.name for module in grammar.composite()} if parts.expand is None else {node.value for node in parts.expand}
    for number, part in enumerate(parts.deps):
        if part.module.value in expanded:
            absent = " The view has no member `expand`, so it expands every composite module." if parts.expand is None else ""
            raise Fault(
                f"DepsOnExpanded deps {number}",
                f"part {number} of `deps` gives pairs to {quoted(part.module.value)}, and the view expands this module.{absent}",
                f"Name in `expand` the modules to be shown with their inside, without {quoted(part.module.value)}; or take the part away, and its"
                " pairs follow from its inside.",
                part.module,
            )


def ports_are_known(grammar, parts):
    for number, part in enumerate(parts.deps):
        pairs_are_known(grammar.modules[part.module.value].part, part, number)


def modules_stand_once(grammar, parts):
    for nodes, word in ((parts.expand or [], "expand"), ([part.module for part in parts.deps], "deps")):
        known = {}
        for number, node in enumerate(nodes):
            first = known.setdefault(node.value, number)
            if first != number:
                raise Fault(
                    f"ModuleTwice {word} {number}",
                    f"{quoted(node.value)} stands twice in `{word}`: as number {first} and as number {number}, from 0.",
                    "Take one of the two away." if word == "expand" else "Put the pairs of both parts into one.",
                    node,
                )


RULES = (modules_are_known, expanded_are_composite, given_are_closed, ports_are_known, modules_stand_once)


def view_of(grammar, parts):
    """Returns the view of parts that keep the rules."""
    for rule in RULES:
        rule(grammar, parts)
    return View(grammar, parts)


def node_of(view, name):
    """Returns where a view opens a module: its name in `expand`, or the view where it opens all."""
    return next((node for node in view.parts.expand or [] if node.value == name), view.parts.node)


def written_expand(grammar, names):
    """Returns the member by which a view opens modules, as it is written."""
    opened = json.dumps([name for name in grammar.modules if name in names], separators=(",", ":"))
    return f'"expand":{opened}'


def written_pairs(module, pairs):
    """Returns the part of `deps` that gives a module pairs, as it is written."""
    return json.dumps({"module": module.name, "pairs": module.in_order(pairs)}, separators=(",", ":"))
