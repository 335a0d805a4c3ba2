#!/usr/bin/env python3
"""Writes a CWL document that stands at a limit, for checks/from_cwl.sh.

  python3 tools/golden/from_cwl/wide.py KIND N

KIND is `readers` (N readers of one value), `sources` (N sources of one input), `positions` (N steps in one workflow), `ports` (N inputs of
the workflow), `bodies` (N workflows of 64 steps), `modules` (N workflows of 32 tools each), `deep` (N workflows, each around the next) or
`elements` (a record of N elements of one scattered step; `scatter` writes the workflow of it).
"""
import json
import sys


def ports(names):
    return {name: "Any" for name in names}


def tool(name, inputs=(), outputs=()):
    return {"class": "CommandLineTool", "id": "#" + name, "inputs": ports(inputs), "outputs": ports(outputs)}


def flow(name, steps, inputs=(), outputs=None):
    return {"class": "Workflow", "id": "#" + name, "inputs": ports(inputs), "outputs": outputs or {}, "steps": steps}


def runs(process, given=None, out=()):
    return {"run": "#" + process, "in": given or {}, "out": list(out)}


def readers(count):
    names = [f"x{number}" for number in range(count - count // 2)]
    steps = {"a": runs("t", dict.fromkeys(names[:count // 2], "w")), "b": runs("t", dict.fromkeys(names, "w"))}
    if count % 2 == 0:
        return [flow("main", steps, ["w"]), tool("t", names)]
    return [flow("main", dict(steps, b=runs("u", dict.fromkeys(names, "w"))), ["w"]), tool("t", names[:count // 2]), tool("u", names)]


def sources(count):
    return [flow("main", {"a": runs("t", {"x": ["w"] * count})}, ["w"]), tool("t", ["x"])]


def positions(count):
    return [flow("main", {f"s{number}": runs("t") for number in range(count)}), tool("t")]


def wide(count):
    names = [f"x{number}" for number in range(count)]
    return [flow("main", {"a": runs("t", {"x": names[:30]}), "b": runs("t", {"x": names[30:]})}, names), tool("t", ["x"])]


def bodies(count):
    inner = [flow(f"f{number}", {f"s{step}": runs("t") for step in range(64)}) for number in range(count)]
    return [flow("main", {f"f{number}": runs(f"f{number}") for number in range(count)}), *inner, tool("t")]


def modules(count):
    found = [flow("main", {f"f{number}": runs(f"f{number}") for number in range(count)})]
    for number in range(count):
        found.append(flow(f"f{number}", {f"s{step}": runs(f"t{number}-{step}") for step in range(32)}))
        found += [tool(f"t{number}-{step}") for step in range(32)]
    return found


def deep(count):
    ends = {"y": {"type": "Any", "outputSource": "s/y"}}
    names = ["main", *(f"f{number}" for number in range(1, count)), "t"]
    flows = [flow(outer, {"s": runs(inner, {"x": "x"}, ["y"])}, ["x"], ends) for outer, inner in zip(names, names[1:])]
    return [*flows, tool("t", ["x"], ["y"])]


def scatter(_):
    step = dict(runs("t", {"x": "w", "c": "v"}, ["y"]), scatter="x")
    return [flow("main", {"s": step}, ["w", "v"], {"e": {"type": "Any", "outputSource": "s/y"}}), tool("t", ["x", "c"], ["y"])]


def elements(count):
    return [{"step": ".", "name": "r"}, {"step": "s", "name": "s", "elements": count},
            *({"step": f"s/{number}", "name": f"s{number}"} for number in range(count))]


def main(words):
    kind, count = words[0], int(words[1])
    if kind == "elements":
        print(json.dumps(elements(count)))
        return
    graph = {"readers": readers, "sources": sources, "positions": positions, "ports": wide, "bodies": bodies, "modules": modules,
             "deep": deep, "scatter": scatter}[kind](count)
    print(json.dumps({"cwlVersion": "v1.2", "$graph": graph}))


if __name__ == "__main__":
    main(sys.argv[1:])
