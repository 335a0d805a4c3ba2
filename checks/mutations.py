#!/usr/bin/env python3
"""Tries on random mutations of the examples whether tools/diagnose.py finds the same first fault as the program.

  python3 checks/mutations.py PROGRAM COUNT [SEED]

Each mutation changes one file of an example once to three times: a byte, a name, a number, an item of a list, a member, or a line. The program
reads the files, and so does the reading of the tool. The kind and the place of both have to be the same, to the letter; of a file that
the program accepts the tool has to find nothing. Prints how often each kind came, each difference, and at the end
`N mutations, M refused, D differences`. Ends with 1 where there is a difference.
"""
import collections
import json
import os
import random
import re
import shutil
import sys
import tempfile

TOP = os.path.dirname(os.path.dirname(os.path.abspath(__file__)))
sys.path.insert(0, os.path.join(TOP, "tools"))
import told

EXAMPLES = ["line", "phylogeny", "phylogeny-once", "twisting", "pair", "grown", "skewed", "mapping-cwl", "mapping-nextflow"]
# How often each file is the one that is changed.
WEIGHTS = {"spec": 4, "view": 2, "events": 4, "labels": 2, "queries": 1}
ODD = ["", "a b", "x" * 65, "é", None, 0, 1, -1, 1.5, 2**64, [], {}, True, "T", "x.y", "."]


def lists_in(value):
    """Yields each list and object in a value of JSON, with its keys."""
    if isinstance(value, (list, dict)):
        yield value
        for part in value.values() if isinstance(value, dict) else value:
            yield from lists_in(part)


def texts_in(value):
    if isinstance(value, str):
        yield value
    elif isinstance(value, (list, dict)):
        for part in value.values() if isinstance(value, dict) else value:
            yield from texts_in(part)


def change_value(value, rng):
    """Changes a value of JSON at one place."""
    places = [(held, key) for held in lists_in(value) for key in (held if isinstance(held, dict) else range(len(held)))]
    if not places:
        return
    held, key = rng.choice(places)
    kind = rng.randrange(8)
    names = sorted(set(texts_in(value)))
    if kind == 0:
        del held[key]
    elif kind == 1:
        held[key] = rng.choice(ODD)
    elif kind == 2 and isinstance(held, list):
        held.insert(rng.randrange(len(held) + 1), json.loads(json.dumps(held[key])))
    elif kind == 3 and isinstance(held, list):
        other = rng.randrange(len(held))
        held[key], held[other] = held[other], held[key]
    elif kind == 4 and isinstance(held[key], int):
        held[key] = rng.randrange(12)
    elif names:
        held, key = rng.choice([(held, key) for held, key in places if isinstance(held[key], str)])
        held[key] = rng.choice(names)


def exchange_ends(value, rng):
    """Exchanges the ends of two links, takes a link away, or lets it stand once more."""
    lists = [part[side] for part in value["productions"] for side in ("edges", "in", "out") if part.get(side)]
    kind, links = rng.randrange(3), rng.choice(lists)
    if kind == 0:
        (one, a), (other, b) = ((rng.choice(rng.choice(lists)), rng.randrange(2)) for _ in range(2))
        one[a], other[b] = other[b], one[a]
    elif kind == 1:
        links.remove(rng.choice(links))
    else:
        rng.choice(lists).append(list(rng.choice(links)))


def like(name, value):
    """Returns the names of the modules with as many inputs and outputs as one."""
    sides = {part["name"]: (len(part["in"]), len(part["out"])) for part in value["modules"]}
    return [other for other, side in sides.items() if side == sides[name]]


def hand_on(head, other, value):
    """Returns a production by which a module is done by another with as many ports."""
    modules = {part["name"]: part for part in value["modules"]}
    entries = [[a, f"u.{b}"] for a, b in zip(modules[head]["in"], modules[other]["in"])]
    exits = [[f"u.{a}", b] for a, b in zip(modules[other]["out"], modules[head]["out"])]
    return {"head": head, "body": [["u", other]], "in": entries, "out": exits}


def change_modules(value, rng):
    """Changes what modules are done by, so that most links still fit."""
    productions, names = value["productions"], [part["name"] for part in value["modules"]]
    part, kind = rng.choice(productions), rng.randrange(8)
    if kind == 0:
        place = rng.choice(part["body"])
        place[1] = rng.choice(like(place[1], value))
    elif kind == 1:
        part["head"] = rng.choice(like(part["head"], value))
    elif kind == 2:
        productions.remove(part)
    elif kind in (3, 4):
        name = rng.choice(names)
        productions.append(hand_on(name, rng.choice(like(name, value)), value))
    elif kind == 5:
        rng.choice(part["body"])[0] = rng.choice(part["body"])[0]
    elif kind == 6:
        part["body"] = part["body"][: rng.randrange(2)]
    if rng.randrange(3) == 0:
        versions = [[rng.randrange(len(names) + 2), rng.randrange(len(productions) + 2)] for _ in range(rng.randrange(1, 3))]
        value["versions"] = versions if kind == 7 else [[len(names), max(0, len(productions) - 1)]]


def change_bytes(data, rng):
    """Changes bytes at one place."""
    at, kind = rng.randrange(len(data) + 1), rng.randrange(5)
    if kind == 0:
        return data[:at] + data[at + 1 :]
    if kind == 1:
        return data[:at] + bytes([rng.randrange(256)]) + data[at:]
    if kind == 2:
        return data[:at] + bytes([rng.randrange(256)]) + data[at + 1 :]
    if kind == 3:
        return data[:at]
    return data[:at] + rng.choice([b'"', b",", b"]", b"}", b"\\", b"\n", b" ", b"0", b"1e9", b"null", b"\xff", b"\\ud800"]) + data[at:]


def change_json(data, rng):
    """Changes a file of JSON, in a way that fits a specification where it is one and is whole."""
    try:
        value = json.loads(data)
    except ValueError:
        return change_bytes(data, rng)
    change = rng.choice([change_value, exchange_ends, change_modules, change_modules])
    try:
        change(value, rng)
    except (AttributeError, TypeError, KeyError, IndexError, ValueError):
        change_value(value, rng)
    return json.dumps(value).encode()


def change_report(line, lines, rng):
    """Changes a report: its instance, its production or its names."""
    try:
        value = json.loads(line)
        other = json.loads(rng.choice(lines))
        kind = rng.randrange(6)
        if kind == 0:
            value["production"] = rng.randrange(6)
        elif kind == 1:
            value["expand"] = other["expand"]
        elif kind == 2:
            value["names"] = value["names"][1:]
        elif kind == 3:
            value["names"][rng.randrange(len(value["names"]))] = rng.choice(["r", "a b", "new", other["names"][0]])
        elif kind == 4:
            value["start"] = value.pop("expand")
        else:
            value["names"], value["time"] = [f"{name}-2" for name in value["names"]], 1.5
        return json.dumps(value).encode()
    except (KeyError, IndexError, ValueError, TypeError):
        return change_bytes(line, rng)


def change_name(line, data, rng):
    """Puts another name of the file in the place of one."""
    found = list(re.finditer(rb"[\w-]+", line))
    if not found:
        return line
    place = rng.choice(found)
    return line[: place.start()] + rng.choice(re.findall(rb"[\w-]+", data)) + line[place.end() :]


def change_lines(data, rng):
    """Changes the lines of a file at one place."""
    lines = data.split(b"\n")
    at, other, kind = rng.randrange(len(lines)), rng.randrange(len(lines)), rng.randrange(8)
    if kind == 0:
        del lines[at]
    elif kind == 1:
        lines.insert(other, lines[at])
    elif kind == 2:
        lines[at], lines[other] = lines[other], lines[at]
    elif kind == 3:
        lines[at] = change_name(lines[at], data, rng)
    elif kind == 4:
        lines[at] = change_bytes(lines[at], rng)
    elif kind == 5:
        lines[at] += b" " * 65536
    elif lines[at].startswith(b"{"):
        changed = change_report(lines[at], lines, rng)
        lines[at : at + rng.randrange(2)] = [changed]
    return b"\n".join(lines)


def change_view(data, rng, spec):
    """Makes a view of modules and ports of a specification, now and then with one that is not there."""
    if rng.randrange(3) == 0:
        return change_json(data, rng)
    modules = json.loads(spec)["modules"]
    heads = sorted({part["head"] for part in json.loads(spec)["productions"]})
    view = {"expand": rng.sample(heads, rng.randrange(len(heads) + 1))}
    parts = [part for part in rng.sample(modules, rng.randrange(3)) if part["name"] not in view["expand"] or rng.randrange(4) == 0]
    view["deps"] = [{"module": part["name"], "pairs": [[a, b] for a in part["in"] for b in part["out"] if rng.randrange(3)]} for part in parts]
    if rng.randrange(3) == 0:
        del view["expand"]
    data = json.dumps(view).encode()
    return change_json(data, rng) if rng.randrange(2) else data


def change_labels(data, rng):
    """Changes a label file: bytes, or entries as a whole."""
    at, entries = 36, []
    while at < len(data):
        end = at + 1 + data[at]
        end += 2 + int.from_bytes(data[end : end + 2], "big")
        entries.append(data[at:end])
        at = end
    kind = rng.randrange(6)
    if kind == 0 and entries:
        entries.insert(rng.randrange(len(entries)), rng.choice(entries))
    elif kind == 1 and len(entries) > 1:
        one, other = rng.randrange(len(entries)), rng.randrange(len(entries))
        entries[one], entries[other] = entries[one][: 1 + entries[one][0]] + entries[other][1 + entries[other][0] :], entries[one]
    elif kind < 5 and entries:
        one = rng.randrange(len(entries))
        held = bytearray(entries[one])
        first = min(1 if kind == 4 else held[0] + 3, len(held) - 1)
        held[rng.randrange(first, len(held))] ^= 1 << rng.randrange(8)
        entries[one] = bytes(held)
    else:
        return change_bytes(data, rng)
    return data[:36] + b"".join(entries)


def held(example, name):
    """Returns a file of an example."""
    with open(os.path.join(TOP, "examples", example, name), "rb") as file:
        return file.read()


def mutated(rng):
    """Returns the files of an example of which one is changed, by their names in the order of a call, and the name of this one."""
    example = rng.choice(EXAMPLES)
    there = set(os.listdir(os.path.join(TOP, "examples", example)))
    files = {"spec": held(example, "spec"), "view": held(example, "view")}
    third = rng.choice(["events", "labels"])
    for name in (third, "queries"):
        if name in there:
            files[name] = held(example, name)
    which = rng.choice([name for name in files for _ in range(WEIGHTS[name])])
    for _ in range(rng.choice([1, 1, 1, 2, 3])):
        if which == "view":
            files[which] = change_view(files[which], rng, held(example, "spec"))
        elif which == "labels":
            files[which] = change_labels(files[which], rng) if len(files[which]) > 40 else change_bytes(files[which], rng)
        elif which == "spec":
            files[which] = change_json(files[which], rng) if rng.randrange(5) else change_bytes(files[which], rng)
        else:
            files[which] = change_lines(files[which], rng)
    return which, files


def compared(program, folder, files):
    """Returns what the program says and what the tool finds of some files."""
    paths = {name: data if name == "hexes" else os.path.join(folder, name) for name, data in files.items()}
    for name, path in paths.items():
        if name != "hexes":
            with open(path, "wb") as file:
                file.write(files[name])
    return told.both(program, told.words_of(paths))


def keep(folder, number, files):
    """Keeps files on which the two differ, where the variable KEEP names a folder."""
    if os.environ.get("KEEP"):
        shutil.copytree(folder, os.path.join(os.environ["KEEP"], str(number)), dirs_exist_ok=True)


def tried(words, draw, compare=compared):
    """Tries mutations that are drawn, and returns whether some differ. `compare` gives what is said and what is found of the files of each."""
    program, count, seed = os.path.abspath(words[0]), int(words[1]), int(words[2]) if len(words) > 2 else 1
    rng, kinds, differences = random.Random(seed), collections.Counter(), 0
    with tempfile.TemporaryDirectory() as folder:
        for number in range(count):
            which, files = draw(rng)
            said, found = compare(program, folder, files)
            kind = re.sub(r" line \d+", "", said.split(": ", 1)[-1]).split(" ")
            kinds[" ".join(kind[:2]) if said.startswith("refused") else "accepted"] += 1
            if said != found:
                differences += 1
                print(f"mutation {number} of {which}: the program says `{said}`, and the tool `{found}`")
                keep(folder, number, files)
    for kind, times in sorted(kinds.items()):
        print(f"{times:6} {kind}")
    print(f"{count} mutations, {count - kinds['accepted']} refused, {differences} differences")
    return differences > 0


if __name__ == "__main__":
    sys.exit(tried(sys.argv[1:], mutated))
