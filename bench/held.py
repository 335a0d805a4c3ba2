#!/usr/bin/env python3
"""Measures the most memory that files make each command hold: the bytes held for each byte read.

What a command reads is all its files together, and what it holds is its peak. These files are tried, each because it makes a command
hold the most of some kind:

- members: one file of tiny JSON values. SPEC, VIEW, COARSE, AUTO and PACKAGE are read by one reader, so `check` reads each kind of
  member, and the other commands the worst of them, a quarter as long, in each of these files;
- ring: as many modules as may be in one ring, each with 64 ports on each side, whose names are as short as they may be: the label of
  a view has the most powers of matrices there;
- row: 15 bodies of 64 positions in a row, with 64 ports on each side (bench/view.py), where it has the most matrices between positions;
- states: bodies of 64 modules with one port on each side, for which `words` by 64 states has 64 rows where `ask` has one;
- loop: each turn makes 63 atomic instances with names of four letters, one behind the other, and goes on. With 64 ports on each side
  `trace` holds the most for each line. Each of these modules then has 4,096 pairs, of which none is held. With one port on each side
  the names are the most, in order, and in reverse, where each report waits for the next line;
- entries: a label file of the shortest entries that can be found by different names.

It prints a Markdown table, and then for each command the most bytes held for each byte read. `gen` and `drill` make their runs of
numbers, so of these it tells the bytes held for each expansion besides. A peak below that of the small process that starts a command,
some 15 MB, is not seen: it is marked as at most, and counts for nothing. With --small the files are a fortieth or less.

Call it from anywhere, after the program was built: bench/held.py [--small] [--program FILE]
"""
import json
import string
import sys
import tempfile
from pathlib import Path

from check import compact
from decide import FIRST_INPUT, FIRST_OUTPUT, after_repetitions
from measure import called, run_for_use
from sizes import module, production
from view import specification

PORTS, RING = 64, 1000
# What stands in a row, one behind the other, in a turn of the loop.
BODY = [[f"a{k}", "T"] for k in range(63)]
# A peak that is not above that of the process that starts a command.
UNSEEN = 16_000_000
# A value of JSON is nested 127 levels deep at most.
DEEPEST = 125
# What a member of a specification costs, by the frame around all members and the text of each.
MEMBERS = {
    "numbers in a list": ("[%s]", "0"),
    "members of an object": ("{%s}", '"%d":0'),
    "empty lists in a list": ("[%s]", "[]"),
    "lists of one number": ("[%s]", "[0]"),
    "modules with a name alone": ('{"modules":[%s]}', '{"name":"a"}'),
    "objects of one member": ("[%s]", '{"":0}'),
    f"objects of one member, {DEEPEST} in each other": ("[%s]", '{"":' * DEEPEST + "0" + "}" * DEEPEST),
}
SIGNS = string.ascii_letters + string.digits + "_-"
LINE = {
    "start": "S",
    "modules": [{"name": name, "in": ["x"], "out": ["y"]} for name in "SP"],
    "productions": [{"head": "S", "body": [["u", "P"]], "in": [["x", "u.x"]], "out": [["u.y", "y"]]}],
}
ALL_STATES = '{"states":1,"start":0,"accept":[0]}'
# The words behind each command where a file of members stands in the place of one that it reads as JSON, by that place.
READERS = {
    "view": {"SPEC": "members view", "VIEW": "spec members"},
    "ingest": {"SPEC": "members none"},
    "ask": {"SPEC": "members view none none"},
    "trace": {"SPEC": "members view none none"},
    "words": {"SPEC": "members view auto none none", "AUTO": "spec view members none none"},
    "lineage": {"SPEC": "members view none r.x"},
    "impact": {"SPEC": "members view none r.x"},
    "explain": {"SPEC": "members view none r.x r.y"},
    "verify": {"SPEC": "members view none none"},
    "compare": {"SPEC": "members view view", "COARSE": "spec view members"},
    "package": {"SPEC": "members view"},
    "consult": {"PACKAGE": f"members {FIRST_INPUT} {FIRST_OUTPUT}"},
    "decide": {"SPEC": f"members view {FIRST_INPUT} {FIRST_OUTPUT}"},
    "export": {"SPEC": "members view none"},
    "gen": {"SPEC": "members 1 1"},
    "drill": {"SPEC": "members view 1 1"},
}


class Table:
    """The lines of the table, which are printed as they come, and the most of each command."""

    def __init__(self, program, folder):
        self.program, self.folder, self.most = program, folder, {}
        print("| Command | What it reads | Read | Held at most | Bytes held for each byte read |\n|---|---|---:|---:|---:|")

    def tell(self, what, words, wanted=0, expansions=None):
        """The line of a call. What it writes is let go. Gives the bytes held for each byte read."""
        let_go = ["sh", "-c", 'exec "$@" >/dev/null', "sh", self.program]
        peak = run_for_use([*let_go, *words], self.folder, wanted)[0]["peak"]
        files = [self.folder / word for word in words[1:] if (self.folder / word).is_file()]
        size = sum(file.stat().st_size for file in files)
        is_seen, each = peak > UNSEEN, peak / size
        told = f"{each:,.0f}" if expansions is None else f"{peak / expansions:,.0f} for each expansion"
        at_most = "" if is_seen else " at most"
        print(f"| `{words[0]}` | {what} | {size / 1e6:.2f} MB | {peak / 1e6:,.0f} MB{at_most} | {told}{at_most} |", flush=True)
        if is_seen and expansions is None and each > self.most.get(words[0], (0, ""))[0]:
            self.most[words[0]] = (each, what)
        return each

    def put(self, name, text):
        (self.folder / name).write_text(text)

    def keep(self, name, *words):
        """Keeps what a command writes in a file."""
        (self.folder / name).write_bytes(run_for_use([self.program, *words], self.folder)[1])

    def tell_most(self):
        print("\n| Command | At most | When it reads |\n|---|---:|---|")
        for command, (each, what) in sorted(self.most.items(), key=lambda one: -one[1][0]):
            print(f"| `{command}` | {each:,.0f} | {what} |")


def write_members(path, frame, member, size):
    """Writes a JSON value of tiny members, of so many bytes at most."""
    with open(path, "w", encoding="ascii") as out:
        text, count = [], 0
        length = len(frame)
        while True:
            one = member % count if "%d" in member else member
            length += len(one) + 1
            if length > size:
                break
            text.append(one)
            count += 1
        out.write(frame % ",".join(text))


def tell_members(table, scale):
    """The lines of files of tiny members, which are refused once they were read."""
    size = (16 << 20) // scale
    found = {}
    for name, member in MEMBERS.items():
        write_members(table.folder / "members", *member, size)
        found[name] = table.tell(name, ["check", "members"], 2)
    worst = max(found, key=found.get)
    write_members(table.folder / "members", *MEMBERS[worst], size // 4)
    for name, text in (("spec", compact(LINE)), ("view", "{}"), ("auto", ALL_STATES), ("none", "")):
        table.put(name, text)
    for command, places in READERS.items():
        for place, words in places.items():
            table.tell(f"{worst}, as {place}", [command, *words.split()], 2)


def short_ring(count):
    """Modules in a ring, each done by an atomic module and the next of them; the first may also end. A port has one sign or two."""
    ins, outs = list(SIGNS), [f"{sign}-" for sign in SIGNS]

    def joined(head, body):
        edges = [[f"{a}.{o}", f"{b}.{i}"] for (a, _), (b, _) in zip(body, body[1:]) for i, o in zip(ins, outs)]
        enter, leave = [[i, f"{body[0][0]}.{i}"] for i in ins], [[f"{body[-1][0]}.{o}", o] for o in outs]
        return {"head": head, "body": body, "edges": edges, "in": enter, "out": leave}

    names = [f"{SIGNS[k // 64]}{SIGNS[k % 64]}" for k in range(count)]
    modules = [{"name": name, "in": ins, "out": outs} for name in [*names, "A"]]
    productions = [joined(name, [["p", "A"], ["q", names[(k + 1) % count]]]) for k, name in enumerate(names)]
    productions.append(joined(names[0], [["p", "A"]]))
    return compact({"start": names[0], "modules": modules, "productions": productions, "deps": [{"module": "A", "pairs": [list(pair) for pair in zip(ins, outs)]}]})


def tell_views(table, what, spec, second):
    """The lines of the commands that make the label of a view, or what it shows, of a specification. The run was only started."""
    table.put("spec", spec)
    table.put("view", "{}")
    table.put("auto", ALL_STATES)
    table.put("events", '{"start":"r"}\n')
    table.put("none", "")
    table.keep("labels", "ingest", "spec", "events")
    table.keep("package", "package", "spec", "view")
    item = f"r.{json.loads(spec)['modules'][0]['in'][0]}"
    labels = [FIRST_INPUT, second]
    files = ["spec", "view"]
    table.tell(what, ["check", "spec"])
    for words in (["view", *files], ["package", *files], ["compare", *files, "view"], ["decide", *files, *labels], ["consult", "package", *labels]):
        table.tell(what, words)
    table.tell(what, ["ask", *files, "labels", "none"])
    table.tell(what, ["words", *files, "auto", "labels", "none"])
    for command in ("lineage", "impact"):
        table.tell(what, [command, *files, "labels", item])
    table.tell(what, ["drill", *files, "10", "1"])


def tell_states(table):
    """The lines of `words` and `ask` of bodies of 64 modules with one port on each side, by as many states as there may be: each row becomes 64."""
    heads = [f"L{k}" for k in range(16)]
    productions = [production(one, [*[[f"a{k}", "T"] for k in range(63)], ["l", next_one]], 1) for one, next_one in zip(heads, [*heads[1:], "T"])]
    table.put("spec", compact({"start": heads[0], "modules": [module(name, 1) for name in [*heads, "T"]], "productions": productions}))
    table.put("view", "{}")
    table.put("auto", compact({"states": PORTS, "start": 0, "accept": [PORTS - 1], "moves": []}))
    table.put("events", '{"start":"r"}\n')
    table.put("none", "")
    table.keep("labels", "ingest", "spec", "events")
    table.tell("bodies of 64 modules with one port a side", ["ask", "spec", "view", "labels", "none"])
    table.tell("bodies of 64 modules with one port a side, 64 states", ["words", "spec", "view", "auto", "labels", "none"])


def name_of(number, length):
    """A name of so many signs."""
    signs = []
    for _ in range(length):
        number, sign = divmod(number, 64)
        signs.append(SIGNS[sign])
    return "".join(signs)


def write_loop(table, ports, turns):
    """Writes a loop whose turn has 63 modules with all pairs of so many ports on each side, and its events in order and in reverse."""
    modules = [module(name, ports) for name in ("L", "T")]
    productions = [production("L", [*BODY, ["l", "L"]], ports), production("L", [["t", "T"]], ports)]
    table.put("spec", compact({"start": "L", "modules": modules, "productions": productions}))
    table.put("view", "{}")
    table.put("none", "")
    made = len(BODY) + 1
    lines = ['{"start":"%s"}\n' % name_of(0, 4)]
    for turn in range(turns):
        # The last name of a turn is expanded by the next one.
        names = ",".join(f'"{name_of(turn * made + k + 1, 4)}"' for k in range(made))
        lines.append(f'{{"expand":"{name_of(turn * made, 4)}","production":0,"names":[{names}]}}\n')
    lines.append(f'{{"expand":"{name_of(turns * made, 4)}","production":1,"names":["{name_of(turns * made + 1, 4)}"]}}\n')
    table.put("events", "".join(lines))
    table.put("reverse", "".join(reversed(lines)))


def tell_loops(table, scale):
    """The lines of the commands that read EVENTS."""
    ends = [f"{name_of(0, 4)}.{port}" for port in ("x0", "y0")]
    files = ["spec", "view"]
    write_loop(table, PORTS, 100 // scale)
    table.tell(f"a loop of {100 // scale:,} turns, 64 ports a side", ["export", *files, "events"])
    for turns in (1000 // scale, 2000 // scale):
        write_loop(table, PORTS, turns)
        what = f"a loop of {turns:,} turns, 64 ports a side"
        table.keep("chain", "explain", *files, "events", *ends)
        table.tell(what, ["trace", *files, "events", "none"])
        table.tell(what, ["explain", *files, "events", *ends])
        table.tell(what, ["verify", *files, "events", "chain"])
    for turns in (4000 // scale, 8000 // scale):
        write_loop(table, 1, turns)
        for events in ("events", "reverse"):
            what = f"a loop of {turns:,} turns, one port a side, {'in reverse' if events == 'reverse' else 'in order'}"
            table.tell(what, ["ingest", "spec", events])
            table.tell(what, ["export", *files, events])
            table.tell(what, ["trace", *files, events, "none"])


def tell_entries(table, scale):
    """The lines of the commands that read LABELS, where all entries have the label of the first input of the run."""
    table.put("spec", compact(LINE))
    table.put("view", "{}")
    table.put("auto", ALL_STATES)
    table.put("none", "")
    table.put("events", '{"start":"r"}\n')
    table.keep("labels", "ingest", "spec", "events")
    head, label = (table.folder / "labels").read_bytes()[:36], bytes.fromhex(FIRST_INPUT)
    for count in (1_000_000 // scale, 2_000_000 // scale):
        entries = (f"{name_of(k // 64, 3)}.{SIGNS[k % 64]}".encode() for k in range(count))
        (table.folder / "labels").write_bytes(head + b"".join(b"\x05%b\x00\x01%b" % (name, label) for name in entries))
        what, files = f"{count:,} entries of nine bytes", ["spec", "view"]
        table.tell(what, ["ask", *files, "labels", "none"])
        table.tell(what, ["words", *files, "auto", "labels", "none"])
        for command in ("lineage", "impact"):
            table.tell(what, [command, *files, "labels", "aaa.a"])


def tell_numbers(table, scale):
    """The lines of `gen` and `drill`. Each expansion but those at the end makes 64 instances that wait."""
    names = [f"L{k}" for k in range(5)]
    modules = [module(name, 1) for name in [*names, "T"]]
    productions = [production(one, [[f"a{k}", next_one] for k in range(64)], 1) for one, next_one in zip(names, names[1:])]
    table.put("spec", compact({"start": names[0], "modules": modules, "productions": [*productions, production(names[-1], [["t", "T"]], 1)]}))
    table.put("view", "{}")
    count = 200_000 // scale
    what = f"64 modules that wait for each expansion, {count:,} expansions"
    table.tell(what, ["gen", "spec", str(count), "1"], expansions=count)
    table.tell(what, ["drill", "spec", "view", str(count), "1"], expansions=count)


def main():
    program, small = called(__doc__, "small files")
    scale = 40 if small else 1
    with tempfile.TemporaryDirectory(prefix="wfprov-bench-") as room:
        table = Table(program, Path(room))
        tell_members(table, scale)
        tell_views(table, "a ring of modules", short_ring(RING // scale), after_repetitions(1_000_000))
        if not small:
            tell_views(table, "a row of bodies", specification(False, False), FIRST_OUTPUT)
        tell_states(table)
        tell_loops(table, scale)
        tell_entries(table, scale)
        tell_numbers(table, scale)
        table.tell_most()


if __name__ == "__main__":
    main()
