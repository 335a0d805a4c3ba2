"""The package of what a view shows, worked out anew, and what labels are over a package, by the reading of tools/diagnosis."""
import json

from diagnosis import packages
from label_bits import Bits

EVERYTHING = b"{}"


def numbered(letter, values):
    return [f"{letter}{k}" for k, _ in enumerate(values)]


def sides_of(module):
    """Returns the names by place of the ports of a module."""
    return {**dict(zip(module.inputs, numbered("i", module.inputs))), **dict(zip(module.outputs, numbered("o", module.outputs)))}


def production_value(production, grammar, place):
    """Returns a production with names by place, as a value of JSON."""
    positions = dict(zip(production.body, numbered("p", production.body)))
    ports = {name: sides_of(grammar.modules[name]) for name in {production.head, *production.body.values()}}
    head, module = ports[production.head], grammar.modules[production.head]

    def end(position, port):
        return f"{positions[position]}.{ports[production.body[position]][port]}"

    return {
        "head": f"m{place[production.head]}",
        "body": [[positions[name], f"m{place[other]}"] for name, other in production.body.items()],
        "edges": [[end(*first), end(*second)] for first, second in production.edges],
        "in": [[head[port], end(*production.entries[port])] for port in module.inputs],
        "out": [[end(*production.exits[port]), head[port]] for port in module.outputs],
    }


def deps_values(grammar, seen):
    """Yields the modules that a view shows and that have not all pairs, as values of JSON."""
    for k, shown in enumerate(seen):
        module = grammar.modules[shown.name]
        if not shown.expanded and set(shown.pairs) != module.all_pairs():
            ports = sides_of(module)
            yield {"module": f"m{k}", "pairs": [[ports[a], ports[b]] for a, b in module.in_order(set(shown.pairs))]}


def loop_values(grammar, seen, number):
    """Yields the continuing steps of the modules that a view expands, as values of JSON. `number` has the numbers of the productions."""
    for k, shown in enumerate(seen):
        if shown.expanded and shown.name in grammar.continuing:
            production, position = grammar.continuing[shown.name]
            yield [f"m{k}", number[production.number], list(production.body).index(position)]


def text_of(grammar, seen):
    """Returns the package of what a view shows of a grammar: `seen` has the modules that `view` writes."""
    place = {module.name: k for k, module in enumerate(seen)}
    opened = {module.name for module in seen if module.expanded}
    productions = [production for production in grammar.productions if production.head in opened]
    number = {production.number: k for k, production in enumerate(productions)}
    sides = [(f"m{k}", grammar.modules[module.name]) for k, module in enumerate(seen)]
    values = {
        "package": 1,
        "start": f"m{place[grammar.start]}",
        "modules": [{"name": name, "in": numbered("i", module.inputs), "out": numbered("o", module.outputs)} for name, module in sides],
        "productions": [production_value(production, grammar, place) for production in productions],
        "deps": list(deps_values(grammar, seen)),
        "loops": list(loop_values(grammar, seen, number)),
    }
    return json.dumps(values, separators=(",", ":")) + "\n"


class Package(packages.Package):
    """A text that is a package."""

    def __init__(self, data):
        super().__init__("package", data)

    def translated(self, label):
        """Returns the label of this grammar that a label is, or None where the label is outside. One that is malformed raises Wrong."""
        try:
            bits = "".join(self.codes(Bits(label)))
        except packages.Outside:
            return None
        whole = bits + "0" * (-len(bits) % 8)
        return int(whole, 2).to_bytes(len(whole) // 8, "big")
