#!/usr/bin/env python3
"""Turns what `wfprov export` writes into the metadata file of an RO-Crate, of the profile Process Run Crate.

  ./wfprov export SPEC VIEW EVENTS | python3 tools/to_rocrate.py > ro-crate-metadata.json
  python3 tools/to_rocrate.py [FILE]      reads FILE, and standard input where none is given

What becomes of a run under a view
  an item        a CreativeWork with the name of the item, as `name` and `alternateName`. wfprov does not know which file it is.
  an instance    that the view leaves closed: a CreateAction, with the items that it took as `object` and those that it gave as `result`. In
                 a crate each result of an action rests on each object. So an instance becomes several actions where its outputs do not
                 rest on the same inputs: one for each set of inputs, named by the instance and these outputs.
  a module       a SoftwareApplication, the `instrument`
What the view hides is not in the crate. tools/from_rocrate.py takes the file back: questions on two items get the answers that they got
before, and a file has the name of its item. The crate has no licence and no date, which RO-Crate asks of what is published: wfprov
knows neither. Whoever publishes it adds them.

Refused, with the place: lines that `export` does not write; a pending instance, since a crate tells what was done; and an item of which
the lines do not tell what took or made it.

This tool is no part of what is proved. It needs Python's standard library alone.
"""
import json
import os
import sys

sys.path.insert(0, os.path.dirname(os.path.abspath(__file__)))
import dot
import terminal
from terminal import Wrong

PROFILE = "https://w3id.org/ro/wfrun/process/0.5"


class Wires:
    """Ports that hang together by links, but for those of closed instances from input to output. Each wire carries one item."""

    def __init__(self, export):
        self.head, self.items = {}, {}
        for link in export.links:
            if not export.is_pair(link):
                self.join(*link)
        for item in sorted(export.items):
            wire = self.wire(dot.split_port(item, "item"))
            if self.items.setdefault(wire, item) != item:
                raise Wrong(f"item {item}: links lead from it to the item `{self.items[wire]}`, and no instance stands between")

    def wire(self, port):
        """Returns the port that stands for the wire of a port."""
        while self.head.get(port, port) != port:
            port = self.head[port]
        return port

    def join(self, first, second):
        """Joins the wires of two ports."""
        self.head.setdefault(first, first)
        self.head[self.wire(second)] = self.wire(first)

    def item(self, port):
        """Returns the item that goes through a port."""
        wire = self.wire(port)
        if wire not in self.items:
            raise Wrong(f"link of {'.'.join(port)}: no item goes through this port")
        return self.items[wire]


def groups_of(inputs, results, pairs):
    """Returns pairs of inputs and of the outputs that rest on just these, in order. Inputs on which nothing rests stand with no outputs."""
    rests = {output: tuple(port for port in inputs if (port, output) in set(pairs)) for output in results}
    found = {}
    for output, ports in rests.items():
        found.setdefault(ports, []).append(output)
    idle = [port for port in inputs if not any(port in ports for ports in found)]
    return [*found.items()] + ([(tuple(idle), [])] if idle else [])


def references(names):
    """Returns references to entities."""
    return [{"@id": name} for name in names]


def action(number, module, title, ends):
    """Returns the entity of an action, which took and gave these items."""
    used, made = ends
    return {"@id": f"#action-{number}", "@type": "CreateAction", "name": title, "instrument": {"@id": f"#module-{module}"},
            "object": references(used), "result": references(made), "actionStatus": "http://schema.org/CompletedActionStatus"}


def actions_of(export):
    """Returns the entities of the actions of a run."""
    wires, ports, found, known = Wires(export), export.ports(), [], set()
    for instance, (kind, module) in export.closed.items():
        if kind == "pending":
            raise Wrong(f"pending {instance}: it was not expanded, and a crate tells what was done")
        inputs, results, pairs = ports[instance]
        groups = groups_of(list(inputs), list(results), pairs)
        for takes, gives in groups:
            title = instance if len(groups) == 1 else " ".join([instance, *(gives or ["rest"])])
            ends = [[f"#{wires.item((instance, port))}" for port in side] for side in (takes, gives)]
            known.update(ends[0], ends[1])
            found.append(action(len(found) + 1, module, title, ends))
    for item in sorted(export.items):
        if f"#{item}" not in known:
            raise Wrong(f"item {item}: the lines do not tell what took or made it")
    return found


def crate_of(export):
    """Returns the entities of the crate of a run."""
    actions = actions_of(export)
    if not actions:
        raise Wrong("lines: there is no instance in them, and so nothing that was done")
    modules = dict.fromkeys(module for _, module in export.closed.values())
    return [
        {"@id": "ro-crate-metadata.json", "@type": "CreativeWork", "conformsTo": {"@id": "https://w3id.org/ro/crate/1.1"}, "about": {"@id": "./"}},
        {"@id": "./", "@type": "Dataset", "name": "A run", "description": "The provenance of a run, as wfprov exports it under a view",
         "conformsTo": {"@id": PROFILE}, "mentions": references(entry["@id"] for entry in actions)},
        {"@id": PROFILE, "@type": "CreativeWork", "name": "Process Run Crate", "version": "0.5"},
        *({"@id": f"#module-{module}", "@type": "SoftwareApplication", "name": module} for module in modules),
        *actions,
        *({"@id": f"#{item}", "@type": "CreativeWork", "name": item, "alternateName": item} for item in sorted(export.items)),
    ]


def work(words):
    """Writes the crate of what the words name."""
    entities = ",\n".join("  " + json.dumps(entry) for entry in crate_of(dot.read_export(words)))
    terminal.write(f'{{"@context": "https://w3id.org/ro/crate/1.1/context",\n "@graph": [\n{entities}\n ]}}\n')


if __name__ == "__main__":
    sys.exit(terminal.run("to_rocrate.py", __doc__, work))
