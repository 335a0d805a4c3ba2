"""The cases of tools/diagnose.py: for each refusal of docs/FORMATS.md, and for each warning, files that have it, and what the program
says of them, worked by hand from the tables there. Beside this file stands, for each case, the text that the tool writes.

  python3 tools/golden/diagnose/cases.py FOLDER     writes the files of each case into a folder of its own
"""
import json
import os
import sys

TOP = os.path.dirname(os.path.dirname(os.path.dirname(os.path.dirname(os.path.abspath(__file__)))))


def example(name, file):
    with open(os.path.join(TOP, "examples", name, file), "rb") as held:
        return held.read()


LINE, PHYLOGENY = example("line", "spec"), example("phylogeny", "spec")
EVENTS = b'{"start":"r"}\n{"expand":"r","production":0,"names":["i1","i2"]}\n'
LABELS = example("line", "labels")


def edited(data, old, new):
    """Returns a file with one place changed."""
    assert data.count(old.encode()) == 1, (old, data.count(old.encode()))
    return data.replace(old.encode(), new.encode())


def spec(old, new, data=LINE):
    return {"spec": edited(data, old, new)}


def made(**members):
    """Returns the line with members that are changed by a function of each."""
    value = json.loads(LINE)
    for name, change in members.items():
        value[name] = change(value.get(name))
    return {"spec": json.dumps(value).encode()}


def production(head, body, edges=(), entries=(("a", "u.x"),), exits=(("u.y", "b"),)):
    return {"head": head, "body": [list(pair) for pair in body], "edges": list(edges), "in": list(entries), "out": list(exits)}


def module(name, inputs="x", outputs="y"):
    return {"name": name, "in": inputs.split(), "out": outputs.split()}


def grammar(modules, *productions, **more):
    return {"spec": json.dumps({"start": modules[0]["name"], "modules": modules, "productions": productions, **more}).encode()}


def view(text, of="line"):
    return {"spec": example(of, "spec"), "view": text.encode()}


def run(*lines, of="line"):
    return {"spec": example(of, "spec"), "view": b"{}", "events": "".join(line + "\n" for line in lines).encode()}


def labels(data, **more):
    return {"spec": LINE, "view": b"{}", "labels": data, **more}


def entry(name, label):
    return bytes([len(name)]) + name.encode() + (len(label) // 2).to_bytes(2, "big") + bytes.fromhex(label)


def asked(text):
    return {"spec": LINE, "view": b"{}", "events": EVENTS, "queries": text}


def chain(head, of, module_of_all="P"):
    """Returns a production with positions in a row, of these modules, or so many of one module."""
    modules = [module_of_all] * of if isinstance(of, int) else of
    steps = [f"p{k}" for k in range(len(modules))]
    edges = [[f"{a}.y", f"{b}.x"] for a, b in zip(steps, steps[1:])]
    return production(head, zip(steps, modules), edges, [("x", "p0.x")], [(f"{steps[-1]}.y", "y")])


def in_a_circle():
    edges = [["p.v", "q.x"], ["p.w", "r.y"], ["q.v", "r.x"], ["r.v", "q.y"], ["q.w", "p.y"]]
    body = production("S", [("p", "P"), ("q", "P"), ("r", "P")], edges, [("a", "p.x")], [("r.w", "b")])
    return grammar([module("S", "a", "b"), module("P", "x y", "v w")], body)


def phylogeny(change):
    """Returns the phylogeny with a change of its value."""
    value = json.loads(PHYLOGENY)
    change(value)
    return {"spec": json.dumps(value).encode()}


def without_n():
    """The phylogeny whose `Build` has no output `n`, which `Report` still wants."""

    def change(value):
        modules = {part["name"]: part for part in value["modules"]}
        modules["Build"]["out"].remove("n")
        modules["Split"]["out"].remove("n")
        value["productions"][0]["edges"].remove(["bu.n", "rp.n"])
        value["productions"][3]["out"].remove(["sp.n", "n"])

    return phylogeny(change)


def without_end():
    """The phylogeny whose last repetition of `Refine` repeats once more."""

    def change(value):
        value["productions"][2]["body"] = [["sc", "Score"], ["ag", "Refine"]]
        value["productions"][2]["edges"] = [["sc.r", "ag.m"], ["sc.q", "ag.c"]]
        value["productions"][2]["out"] = [["ag.r", "r"], ["ag.q", "q"]]

    return phylogeny(change)


START, FIRST = '{"start":"r"}', '{"expand":"r","production":0,"names":["i1","i2"]}'
SPEC_CASES = {
    "spec-too-long": ({"spec": LINE + b" " * 16777216}, "refused: spec: TooLong"),
    "spec-no-json": (spec('"P"],["v"', '"P"]["v"'), "refused: spec: NotJson"),
    "spec-no-json-comma": (spec('"b"]]}]}', '"b"]]},]}'), "refused: spec: NotJson"),
    "spec-no-json-quote": (spec('"a","u.x"', '"a,"u.x"'), "refused: spec: NotJson"),
    "spec-no-text": ({"spec": LINE.replace(b'"a"', b'"\xe9"', 1)}, "refused: spec: NotJson"),
    "spec-too-deep": ({"spec": b'{"note":' + b"[" * 127 + b"]" * 127 + b"}"}, "refused: spec: NotJson"),
    "spec-top": ({"spec": b"[]"}, "refused: spec: WrongShape top"),
    "spec-start": (spec('"start":"S",', ""), "refused: spec: WrongShape start"),
    "spec-modules": (spec('"in":["a"],"out":["b"]}', '"in":"a","out":["b"]}'), "refused: spec: WrongShape modules"),
    "spec-productions": (spec('"v.x"]]', '"v.x","u"]]'), "refused: spec: WrongShape productions"),
    "spec-no-dot": (spec('["a","u.x"]', '["a","x"]'), "refused: spec: WrongShape productions"),
    "spec-exchanged": (spec('["a","u.x"]', '["u.x","a"]'), "refused: spec: WrongShape productions"),
    "spec-deps": (made(deps=lambda _: [{"module": "P"}]), "refused: spec: WrongShape deps"),
    "spec-versions": (made(versions=lambda _: [[3, 1.0]]), "refused: spec: WrongShape versions"),
    "name-bad": (spec('"name":"P"', '"name":"P 1"'), "refused: spec: NameBad module 1"),
    "name-bad-port": (spec('"in":["a"]', '"in":[""]'), "refused: spec: NameBad module 0"),
    "name-bad-position": (spec('["v","Q"]', '["v.1","Q"]'), "refused: spec: NameBad production 0"),
    "name-twice": (spec('"name":"Q"', '"name":"P"'), "refused: spec: NameTwice module 2"),
    "port-twice": (spec('"in":["a"],"out":["b"]', '"in":["a"],"out":["a"]'), "refused: spec: PortTwice module 0"),
    "too-many-ports": (
        made(modules=lambda held: [*held, module("R", " ".join(f"x{k}" for k in range(65)))]),
        "refused: spec: TooManyPorts module 3",
    ),
    "too-many-modules": (made(modules=lambda held: held + [module(f"R{k}") for k in range(1022)]), "refused: spec: TooManyModules"),
    "too-many-productions": (made(productions=lambda held: held * 1025), "refused: spec: TooManyProductions"),
    "unknown-start": (spec('"start":"S"', '"start":"s"'), "refused: spec: UnknownModule start"),
    "unknown-head": (spec('"head":"S"', '"head":"T"'), "refused: spec: UnknownModule production 0"),
    "unknown-position-module": (spec('["rl","Realign"]', '["rl","Reallign"]', PHYLOGENY), "refused: spec: UnknownModule production 1"),
    "unknown-deps-module": (spec('{"module":"Score"', '{"module":"Scores"', PHYLOGENY), "refused: spec: UnknownModule deps 1"),
    "empty-body": (made(productions=lambda held: [*held, production("S", [], (), (), ())]), "refused: spec: EmptyBody production 1"),
    "body-too-long": (grammar([module("S"), module("P")], chain("S", 65)), "refused: spec: BodyTooLong production 0"),
    "bodies-too-large": (grammar([module("S"), module("P")], *[chain("S", 64)] * 17), "refused: spec: BodiesTooLarge"),
    "position-twice": (spec('["v","Q"]', '["u","Q"]'), "refused: spec: PositionTwice production 0"),
    "unknown-position": (spec('["u.y","v.x"]', '["u.y","Q.x"]'), "refused: spec: UnknownPort production 0"),
    "unknown-port": (spec('["al.log","rp.log"]', '["al.logs","rp.log"]', PHYLOGENY), "refused: spec: UnknownPort production 0"),
    "unknown-port-side": (spec('["u.y","v.x"]', '["v.x","u.y"]'), "refused: spec: UnknownPort production 0"),
    "unknown-port-head": (spec('["v.y","b"]', '["v.y","c"]'), "refused: spec: UnknownPort production 0"),
    "unknown-port-deps": (made(deps=lambda _: [{"module": "P", "pairs": [["x", "z"]]}]), "refused: spec: UnknownPort deps 0"),
    "port-linked-twice": (
        spec('["al.log","rp.log"]', '["al.m","bu.m"],["al.log","rp.log"]', PHYLOGENY),
        "refused: spec: PortLinkedTwice production 0",
    ),
    "port-linked-twice-input": (spec('["bu.n","rp.n"]', '["bu.n","rp.q"]', PHYLOGENY), "refused: spec: PortLinkedTwice production 0"),
    "port-unlinked": (spec('["al.log","rp.log"],', "", PHYLOGENY), "refused: spec: PortUnlinked production 0"),
    "port-unlinked-input": (without_n(), "refused: spec: PortUnlinked production 0"),
    "port-unlinked-head": (spec(',["rp.out","report"]', "", PHYLOGENY), "refused: spec: PortUnlinked production 0"),
    "body-cycle": (in_a_circle(), "refused: spec: BodyCycle production 0"),
    "deps-on-composite": (made(deps=lambda _: [{"module": "S", "pairs": []}]), "refused: spec: DepsOnComposite deps 0"),
    "too-many-versions": (made(versions=lambda _: [[3, 1]] * 65), "refused: spec: TooManyVersions"),
    "version-bad": (made(versions=lambda _: [[3, 1], [2, 1]]), "refused: spec: VersionBad version 1"),
    "version-bad-number": (made(versions=lambda _: [[3, 2]]), "refused: spec: VersionBad version 0"),
    "version-bad-start": (made(versions=lambda _: [[0, 0]]), "refused: spec: VersionBad version 0"),
    "unreachable": (
        made(modules=lambda held: [*held, module("K")], productions=lambda held: [*held, chain("K", 1)]),
        "refused: spec: Unreachable K",
    ),
    "unproductive": (without_end(), "refused: spec: Unproductive Main"),
    "unproductive-two": (
        grammar([module("S"), module("A"), module("B"), module("P")], chain("S", 1, "A"), chain("A", ["P", "B"]), chain("B", ["P", "A"])),
        "refused: spec: Unproductive S",
    ),
    "unit-cycle": (grammar([module("S"), module("A"), module("P")], chain("S", 1, "A"), chain("A", 1, "S"), chain("A", 1)), "refused: spec: UnitCycle productions 0 1"),
    "two-loops": (
        grammar([module("L"), module("P")], chain("L", ["L", "L"]), chain("L", 1)),
        "refused: spec: TwoLoops L first 0 p0 second 0 p1",
    ),
    "two-loops-far": (
        grammar([module("L"), module("M"), module("P")], chain("L", ["P", "M"]), chain("L", 1), chain("M", ["P", "L"]), chain("M", ["M", "P"])),
        "refused: spec: TwoLoops M first 2 p1 second 3 p0",
    ),
    "cycle-changed": (
        made(
            modules=lambda held: [*held, module("R")],
            productions=lambda held: [*held, production("Q", [("s", "S")], (), [("x", "s.a")], [("s.b", "y")]), chain("Q", 1, "R")],
            versions=lambda _: [[3, 1]],
        ),
        "refused: spec: CycleChanged version 0 module S",
    ),
}
BUILD = {"module": "Build", "pairs": [["m", "t"], ["m", "n"]]}
VIEW_CASES = {
    "view-too-long": ({"spec": LINE, "view": b"{}" + b" " * 16777216}, "refused: view: TooLong"),
    "view-no-json": (view('{"expand":[S]}'), "refused: view: NotJson"),
    "view-top": (view('"S"'), "refused: view: WrongShape top"),
    "view-expand": (view('{"expand":null}'), "refused: view: WrongShape expand"),
    "view-deps": (view('{"deps":{"module":"P","pairs":[]}}'), "refused: view: WrongShape deps"),
    "view-unknown-module": (view('{"expand":["Main","Refined"]}', "phylogeny"), "refused: view: UnknownModule expand 1"),
    "view-unknown-module-deps": (view('{"deps":[{"module":"i1","pairs":[]}]}'), "refused: view: UnknownModule deps 0"),
    "not-composite": (view('{"expand":["S","P"]}'), "refused: view: NotComposite expand 1"),
    "deps-on-expanded": (view('{"deps":[{"module":"S","pairs":[["a","b"]]}]}'), "refused: view: DepsOnExpanded deps 0"),
    "view-unknown-port": (view('{"expand":[],"deps":[{"module":"S","pairs":[["b","a"]]}]}'), "refused: view: UnknownPort deps 0"),
    "module-twice": (view('{"expand":["S","S"]}'), "refused: view: ModuleTwice expand 1"),
    "module-twice-deps": (view('{"deps":[{"module":"P","pairs":[["x","y"]]},{"module":"P","pairs":[]}]}'), "refused: view: ModuleTwice deps 1"),
    "unsafe": (view("{}", "skewed"), "refused: view: Unsafe module L one 2 other 1 input x1 output y1 joined one choice S=0 L=2"),
    "unsafe-by-view": (
        view(json.dumps({"expand": ["Main", "Refine"], "deps": [BUILD, {"module": "Realign", "pairs": [["m", "c2"], ["c", "m2"]]}]}), "phylogeny"),
        "refused: view: Unsafe module Refine one 2 other 1 input m output r joined one choice Main=0 Refine=2",
    ),
}
RUN_CASES = {
    "line-too-long": (
        run(START, FIRST.replace("}", ',"note":"' + "x" * 65536 + '"}')),
        "refused: events line 2: LineTooLong",
    ),
    "event-no-json": (run(START, "{'expand':'r'}"), "refused: events line 2: NotJson"),
    "event-shape": (run(START, '{"expand":"r","production":"0","names":["i1","i2"]}'), "refused: events line 2: WrongShape"),
    "event-both": (run('{"start":"r","expand":"r"}'), "refused: events line 1: WrongShape"),
    "conflict": (run(START, FIRST, "", FIRST.replace("i2", "i3")), "refused: events line 4: Conflict with 2"),
    "conflict-start": (run(START, '{"start":"q"}'), "refused: events line 2: Conflict with 1"),
    "unknown-production": (run(START, FIRST.replace("0", "1")), "refused: events line 2: UnknownProduction"),
    "wrong-head": (run(START, FIRST, '{"expand":"i1","production":0,"names":["j1","j2"]}'), "refused: events line 3: WrongHead"),
    "positions-wrong": (run(START, FIRST.replace(',"i2"', "")), "refused: events line 2: PositionsWrong"),
    "event-name-bad": (run(START, FIRST.replace("i2", "i 2")), "refused: events line 2: NameBad"),
    "event-name-twice": (run(START, FIRST.replace("i2", "r")), "refused: events line 2: NameTwice"),
    "orphan": (run(START, FIRST, '{"expand":"i3","production":0,"names":["j1","j2"]}'), "refused: events line 3: Orphan"),
    "orphan-without-start": (run("", FIRST), "refused: events line 2: Orphan"),
}
LABEL_CASES = {
    "not-labels": (labels(b"WFL1" + LABELS[4:35]), "refused: labels: NotLabels"),
    "other-spec": (labels(example("pair", "labels")), "refused: labels: OtherSpec"),
    "other-spec-earlier": (
        {"spec": edited(example("grown", "spec"), ',\n"versions":[[9,3]]', ""), "view": b"{}", "labels": example("grown", "labels")},
        "refused: labels: OtherSpec",
    ),
    "truncated": (labels(LABELS[:57]), "refused: labels: Truncated offset 50"),
    "bad-name": (labels(LABELS + entry("i2", "b0")), "refused: labels: BadName entry 3"),
    "label-name-twice": (labels(LABELS + entry("r.a", "20")), "refused: labels: NameTwice entry 3"),
    "bad-label": (labels(LABELS + entry("i2.y", "94")), "refused: labels: BadLabel entry 3"),
    "bad-label-padding": (labels(LABELS + entry("i2.y", "b1")), "refused: labels: BadLabel entry 3"),
}
QUERY_CASES = {
    "query-line-wrong": (asked(b"r.a r.b\nr.a  i1.y\n"), "refused: queries line 2: LineWrong"),
    "query-no-item": (asked(b"r.a i1\n"), "refused: queries line 1: LineWrong"),
    "query-line-too-long": (asked(b"r.a r.b\n" + b"r" * 65537 + b"\n"), "refused: queries line 2: LineTooLong"),
    "spec-absent": ({"spec": None}, "fault: reading spec"),
    "view-absent": ({"spec": LINE, "view": None}, "fault: reading view"),
    "events-absent": ({"spec": LINE, "view": b"{}", "events": None}, "fault: reading events"),
    "queries-absent": ({"spec": LINE, "view": b"{}", "events": EVENTS, "queries": None}, "fault: reading queries"),
}
DECIDE_CASES = {
    "malformed": ({"spec": LINE, "view": b"{}", "hexes": ("20", "b1")}, "refused: label 2: Malformed"),
    "malformed-empty": ({"spec": LINE, "view": b"{}", "hexes": ("", "b0")}, "refused: label 1: Malformed"),
}


def beside(fine, coarse, of="phylogeny"):
    return {"spec": example(of, "spec"), "view": fine.encode(), "coarse": coarse.encode()}


MAIN, FEWER = '{"expand":["Main"]}', '{"expand":["Main"],"deps":[{"module":"Refine","pairs":[["m","r"],["m","q"]]}]}'
# Of two views that are accepted the message is the answer of `compare`, without the instance and the events of a run.
COARSE_CASES = {
    "coarse-no-json": (beside("{}", '{"expand":["Main"}'), "refused: coarse: NotJson"),
    "coarse-expand": (beside("{}", '{"expand":"Main"}'), "refused: coarse: WrongShape expand"),
    "coarse-unknown-module": (beside("{}", '{"expand":["Main","Refined"]}'), "refused: coarse: UnknownModule expand 1"),
    "coarse-unsafe": (
        beside('{"expand":["S"]}', "{}", "skewed"),
        "refused: coarse: Unsafe module L one 2 other 1 input x1 output y1 joined one choice S=0 L=2",
    ),
    "coarse-absent": ({"spec": LINE, "view": b"{}", "coarse": None}, "fault: reading coarse"),
    "coarse-events": ({"spec": LINE, "view": b"{}", "coarse": EVENTS}, "refused: coarse: NotJson"),
    "not-coarser": (beside(MAIN, "{}"), "refused: coarse: NotCoarser Refine"),
    "not-coarser-apart": (beside('{"expand":["Main","Build"]}', '{"expand":["Main","Refine"]}'), "refused: coarse: NotCoarser Refine"),
    "not-coarser-unseen": (beside('{"expand":[]}', '{"expand":["Build","Refine"]}'), "refused: coarse: NotCoarser Refine"),
    "denied": (beside("{}", FEWER), "no Refine c q"),
    "denied-atomic": (beside("{}", '{"deps":[{"module":"P","pairs":[]}]}', "line"), "no P x y"),
    "denied-by-specification": (
        {**made(deps=lambda _: [{"module": "P", "pairs": []}]), "view": b'{"deps":[{"module":"P","pairs":[["x","y"]]}]}', "coarse": b"{}"},
        "no P x y",
    ),
    "extra": (beside("{}", MAIN), "yes extra Refine c r"),
    "exact": (beside("{}", "{}"), "yes exact"),
}


def crossed(head, modules):
    """Returns a production of modules with two inputs and two outputs each, one behind the other."""
    steps = [f"p{k}" for k in range(len(modules))]
    edges = [[f"{a}.o{k}", f"{b}.i{k}"] for a, b in zip(steps, steps[1:]) for k in (0, 1)]
    ends = [[f"i{k}", f"p0.i{k}"] for k in (0, 1)], [[f"{steps[-1]}.o{k}", f"o{k}"] for k in (0, 1)]
    return production(head, zip(steps, modules), edges, *ends)


def packed(hexes=("20", "60"), **changes):
    """Returns the package of examples/twisting and its default view, with other members."""
    value = {
        "package": 1,
        "start": "m0",
        "modules": [module(f"m{k}", "i0 i1", "o0 o1") for k in range(4)],
        "productions": [crossed("m0", ["m1"]), crossed("m1", ["m2", "m1", "m2"]), crossed("m1", ["m3"])],
        "deps": [{"module": "m2", "pairs": [["i0", "o1"], ["i1", "o0"]]}, {"module": "m3", "pairs": [["i0", "o0"], ["i1", "o1"]]}],
        "loops": [["m1", 1, 1]],
    }
    value.update(changes)
    data = json.dumps({name: part for name, part in value.items() if part is not None}, separators=(",", ":"))
    return {"package": data.encode() + b"\n", "hexes": hexes}


SKEWED = [crossed("m0", ["m1"]), crossed("m1", ["m2", "m1"]), crossed("m1", ["m3"])]
PACKAGE_CASES = {
    "package-too-long": ({"package": 134217729, "hexes": ("20", "60")}, "refused: package: TooLong"),
    "package-no-json": ({"package": packed()["package"][:100], "hexes": ("20", "60")}, "refused: package: NotJson"),
    "package-top": ({"package": b"[]", "hexes": ("20", "60")}, "refused: package: NotPackage"),
    "package-specification": ({"package": LINE, "hexes": ("20", "60")}, "refused: package: NotPackage"),
    "package-mark": (packed(package=2), "refused: package: NotPackage"),
    "package-start": (packed(start=0), "refused: package: NotPackage"),
    "package-deps": (packed(deps=None), "refused: package: NotPackage"),
    "package-modules": (packed(modules=[{"name": "m0", "in": "i0"}]), "refused: package: NotPackage"),
    "package-loops": (packed(loops=["m1", 1, 1]), "refused: package: NotPackage"),
    "package-loop": (packed(loops=[["m1", 1]]), "refused: package: NotPackage"),
    "package-loop-number": (packed(loops=[["m1", 1, -1]]), "refused: package: NotPackage"),
    "bad-package-grammar": (packed(start="m9"), "refused: package: BadPackage"),
    "bad-package-unsafe": (packed(productions=SKEWED), "refused: package: BadPackage"),
    "bad-package-no-module": (packed(loops=[["m1", 1, 1], ["m7", 0, 0]]), "refused: package: BadPackage"),
    "bad-package-atomic": (packed(loops=[["m1", 1, 1], ["m2", 0, 0]]), "refused: package: BadPackage"),
    "bad-package-twice": (packed(loops=[["m1", 1, 1], ["m1", 1, 1]]), "refused: package: BadPackage"),
    "bad-package-production": (packed(loops=[["m1", 0, 0]]), "refused: package: BadPackage"),
    "bad-package-position": (packed(loops=[["m1", 1, 3]]), "refused: package: BadPackage"),
    "bad-package-no-step": (packed(loops=[["m0", 0, 0]]), "refused: package: BadPackage"),
    "bad-package-no-loop": (packed(loops=[]), "refused: package: BadPackage"),
    "bad-package-other-loop": (packed(loops=[["m1", 1, 0]]), "refused: package: BadPackage"),
    "bad-package-endless": (packed(loops=[["m0", 0, 0], ["m1", 1, 1]]), "refused: package: BadPackage"),
    "package-malformed": (packed(("fb", "f0")), "refused: label 2: Malformed"),
    "package-malformed-first": (packed(("b0", "")), "refused: label 1: Malformed"),
    "package-absent": ({"package": None, "hexes": ("20", "60")}, "fault: reading package"),
    "package-versions": (packed(versions=7), ""),
    "package-outside": (packed(("20", "ff")), ""),
}


def auto(text, of="phylogeny", **more):
    return {"spec": example(of, "spec"), "view": example(of, "view"), "auto": text.encode(), **more}


def moved(*moves, states=2, accept=(1,), **more):
    """Returns an automaton with moves."""
    return json.dumps({"states": states, "start": 0, "accept": accept, "moves": moves, **more}, separators=(",", ":"))


LOOP = grammar([module("S"), module("L"), module("P")], chain("S", 1, "L"), chain("L", ["P", "L"]), chain("L", 1))
PASSES = moved((0, "Score", 1))
AUTO_CASES = {
    "auto-too-long": ({**auto(""), "auto": 16777217}, "refused: auto: TooLong"),
    "auto-no-json": (auto(PASSES[:-1]), "refused: auto: NotJson"),
    "auto-expression": (auto(".* Score .*"), "refused: auto: NotJson"),
    "auto-top": (auto("[[0,1]]"), "refused: auto: WrongShape top"),
    "auto-view": (auto(MAIN), "refused: auto: WrongShape states"),
    "auto-states": (auto('{"start":0}'), "refused: auto: WrongShape states"),
    "auto-start": (auto('{"states":1,"start":"0"}'), "refused: auto: WrongShape start"),
    "auto-accept": (auto('{"states":1,"start":0,"accept":0}'), "refused: auto: WrongShape accept"),
    "auto-moves": (auto('{"states":2,"start":0,"moves":[0,"Score",1]}'), "refused: auto: WrongShape moves"),
    "auto-move": (auto('{"states":2,"start":0,"moves":[[0,"Score"]]}'), "refused: auto: WrongShape moves"),
    "states-bad-none": (auto(moved((0, "Score", 1), states=0)), "refused: auto: StatesBad"),
    "states-bad-many": (auto(moved((0, "Score", 64), states=65)), "refused: auto: StatesBad"),
    "state-bad-start": (auto('{"states":1,"start":1}'), "refused: auto: StateBad start"),
    "state-bad-accept": (auto(moved(accept=[0, 2])), "refused: auto: StateBad accept"),
    "state-bad-moves": (auto(moved((0, "Score", 1), (1, "Score", 64))), "refused: auto: StateBad moves"),
    "move-unknown-module": (auto(moved((0, "Align", 1), (1, "Scores", 0))), "refused: auto: UnknownModule move 1"),
    "move-position": (auto(moved((0, "sc", 1))), "refused: auto: UnknownModule move 0"),
    "move-twice": (auto(moved((0, "Score", 1), (1, "Score", 0), (0, "Score", 0))), "refused: auto: MoveTwice move 2"),
    "move-twice-same": (auto(moved((0, "Score", 1), (0, "Score", 1))), "refused: auto: MoveTwice move 1"),
    "too-many-states": (auto(moved((0, "Score", 1), states=22)), "refused: auto: TooManyStates"),
    "auto-unsafe": (
        auto(moved((0, "Realign", 1))),
        "refused: auto: Unsafe module Refine one 2 other 1 input m state 0 output r state 0 joined one choice Main=0 Refine=2",
    ),
    "auto-unsafe-other": (
        {**LOOP, "view": b"{}", "auto": moved((0, "P", 1), (1, "P", 0)).encode()},
        "refused: auto: Unsafe module L one 2 other 1 input x state 0 output y state 0 joined other choice S=0 L=2",
    ),
    "auto-absent": ({**auto(""), "auto": None}, "fault: reading auto"),
    "auto-labels": (auto(PASSES, labels=EVENTS), "refused: labels: NotLabels"),
    "auto-queries": (auto(PASSES, labels=example("phylogeny", "labels"), queries=b"run.cfg run\n"), "refused: queries line 1: LineWrong"),
    "auto-no-accept": (auto('{"states":2,"start":0,"accepts":[1],"moves":[[0,"Score",1]]}'), ""),
    "auto-never": (auto(moved((0, "Refine", 1))), ""),
    "auto-always": (auto(moved((0, "Split", 1), accept=[0])), ""),
    "auto-nothing": (auto(PASSES, labels=example("phylogeny", "labels"), queries=b"run.cfg run.tree\n"), ""),
}
CLOSED = {"expand": ["Main", "Refine"], "deps": [{"module": "Build", "pairs": [["m", "t"]]}]}
WITH_WARNINGS = {
    "misspelt-edges": (spec('"edges":[["u.y"', '"edge":[["u.y"'), "refused: spec: PortUnlinked production 0"),
    "misspelt-view": (
        view('{"expanded":["Main"],"deps":[{"module":"Build","pairs":[]}]}', "phylogeny"),
        "refused: view: DepsOnExpanded deps 0",
    ),
}
WARNINGS = {
    "nothing": ({"spec": LINE, "view": b"{}", "events": EVENTS, "queries": b"r.a i1.y\n"}, ""),
    "expanded": (view(json.dumps({"expanded": ["Main"]}), "phylogeny"), ""),
    "misspelt": (spec('"out":["y"]},{', '"outputs":["y"],"out":["y"]},{'), ""),
    "given-twice": (view('{"expand":[],"expand":["S"]}'), ""),
    "unused": (made(modules=lambda held: [*held, module("R")]), ""),
    "unused-many": (made(modules=lambda held: held + [module(f"R{k}") for k in range(20)]), ""),
    "specification-as-view": ({"spec": LINE, "view": LINE}, ""),
    "never-shown": (view('{"expand":["Refine"],"deps":[{"module":"Split","pairs":[]}]}', "phylogeny"), ""),
    "fewer-pairs": (view(json.dumps(CLOSED), "phylogeny"), ""),
    "fewer-pairs-atomic": (view('{"deps":[{"module":"P","pairs":[]}]}'), ""),
    "no-items": (asked(b"r.a i2.y\ni1.x i3.y\nr.a i1.z\n"), ""),
    "no-items-in-labels": (labels(LABELS, queries=b"r.a i2.y\n"), ""),
    "module-for-instance": (asked(b"S.a r.b\n"), ""),
    "no-reports": ({"spec": LINE, "view": b"{}", "events": b""}, ""),
}
# The cases of which nothing is refused, and nothing is to be said.
RIGHT = ("nothing", "extra", "exact", "package-outside", "auto-nothing")
CASES = {
    **{**SPEC_CASES, **VIEW_CASES, **RUN_CASES, **LABEL_CASES, **QUERY_CASES, **DECIDE_CASES},
    **{**COARSE_CASES, **PACKAGE_CASES, **AUTO_CASES, **WITH_WARNINGS, **WARNINGS},
}


def write(folder):
    """Writes the files of each case into a folder of its own. A file that is None is not there, one that is a number has so many bytes, which
    are 0, and the words of labels are no file."""
    for name, (files, _) in CASES.items():
        os.makedirs(os.path.join(folder, name), exist_ok=True)
        for file, data in files.items():
            if isinstance(data, (bytes, int)):
                with open(os.path.join(folder, name, file), "wb") as held:
                    held.truncate(data) if isinstance(data, int) else held.write(data)


if __name__ == "__main__":
    write(sys.argv[1])
