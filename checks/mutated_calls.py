#!/usr/bin/env python3
"""Tries on random mutations whether tools/diagnose.py finds what the program says of second views, automata, packages and labels over them.

  python3 checks/mutated_calls.py PROGRAM COUNT [SEED]

Views, packages and labels are made of the examples, automata of expressions over their modules, and one file of each call is changed once to
three times. The kind and the place that the program says and the tool finds have to be the same, to the letter; of two views that are
accepted the answer of `compare` has to be, too. Automata are also read by checks/automata.py: what this finds has to be the same. Where the
program has no command `words`, it stands for the program. Prints what checks/mutations.py prints. Ends with 1 where there is a difference.
"""
import functools
import json
import os
import sys
import tempfile

TOP = os.path.dirname(os.path.dirname(os.path.abspath(__file__)))
sys.path.insert(0, os.path.join(TOP, "tools"))
import automata
import automaton
import dot
import labels
import mutations
import packaged
import told
import wfprov
import words
from mutations import held

# The examples of which the view is safe and there is a label file.
EXAMPLES = [example for example in mutations.EXAMPLES if {"view", "labels"} <= set(os.listdir(os.path.join(TOP, "examples", example)))]
# What stands in the place of a state, or of their number.
ODD = (0, 1, 2, 3, 21, 32, 33, 64, 65, 2**64 - 1, 2**64, -1, 1.0, "1", None, [0])


def path_of(example, name):
    return os.path.join(TOP, "examples", example, name)


def expand_of(rng, spec):
    """Returns a view that opens some composite modules of a specification."""
    heads = sorted({part["head"] for part in json.loads(spec)["productions"]})
    return {"expand": [head for head in heads if rng.random() < 0.7]} if rng.random() < 0.8 else {}


def some_times(rng, change, data):
    for _ in range(rng.choice([1, 1, 1, 2, 3])):
        data = change(data)
    return data


def two_views(rng, example):
    """Returns a specification, a view, and one that may be coarser."""
    spec = held(example, "spec")
    fine = rng.choice([b"{}", held(example, "view"), json.dumps(expand_of(rng, spec)).encode()])
    coarse = json.dumps(expand_of(rng, spec)).encode()
    if rng.random() < 0.7:
        coarse = some_times(rng, lambda data: mutations.change_view(data, rng, spec), coarse)
    return {"spec": spec, "view": fine, "coarse": coarse}


@functools.cache
def modules_of(example):
    return dot.read_spec(path_of(example, "spec")).modules


def auto_of(rng, example):
    """Returns an automaton over the modules of an example."""
    names = list(modules_of(example))
    text = rng.choice(words.EXPRESSIONS).replace("X", rng.choice(names)).replace("Y", rng.choice(names))
    return automaton.Automaton(text, names).text().encode()


def change_auto(rng, example, data):
    """Changes an automaton at one place."""
    names, kind = [*modules_of(example), "Nothing"], rng.randrange(6)
    try:
        value = json.loads(data)
        if kind == 0:
            value[rng.choice(["states", "start"])] = rng.choice(ODD)
        elif kind == 1:
            value["accept"].append(rng.choice(ODD))
        elif kind == 2:
            move = [rng.randrange(3), rng.choice(names), rng.randrange(3)]
            value["moves"].insert(rng.randrange(len(value["moves"]) + 1), move)
        elif kind == 3:
            rng.choice(value["moves"])[rng.choice([0, 2])] = rng.choice(ODD)
        elif kind == 4:
            mutations.change_value(value, rng)
        else:
            return mutations.change_bytes(data, rng)
        return json.dumps(value).encode()
    except (ValueError, TypeError, KeyError, IndexError, AttributeError):
        return mutations.change_bytes(data, rng)


def view_and_auto(rng, example):
    """Returns a specification, a view that is accepted, and an automaton."""
    auto = auto_of(rng, example)
    if rng.random() < 0.7:
        auto = some_times(rng, lambda data: change_auto(rng, example, data), auto)
    view = rng.choice([held(example, "view"), b'{"expand":[]}'])
    return {"spec": held(example, "spec"), "view": view, "auto": auto}


@functools.cache
def package_of(program, example, view):
    """Returns the package of a view of an example, or of its own view where that one is not safe."""
    with tempfile.NamedTemporaryFile() as file:
        file.write(view)
        file.flush()
        try:
            return wfprov.call(["package", path_of(example, "spec"), file.name], program)
        except wfprov.Refused:
            return wfprov.call(["package", path_of(example, "spec"), path_of(example, "view")], program)


def change_package(rng, data):
    """Changes a package at one place."""
    kind = rng.randrange(8)
    try:
        value = json.loads(data)
        if kind == 0:
            value["package"] = rng.choice(packaged.MARKS)
        elif kind == 1:
            del value[rng.choice(list(value))]
        elif kind < 5:
            packaged.change_loops(value, rng)
        elif kind == 5:
            mutations.change_modules(value, rng)
        else:
            return mutations.change_json(data, rng)
        return json.dumps(value).encode()
    except (ValueError, TypeError, KeyError, IndexError, AttributeError):
        return mutations.change_bytes(data, rng)


def change_label(rng, label):
    """Changes a bit of a label, takes its last byte away, or adds one."""
    kind, at = rng.randrange(4), rng.randrange(len(label) * 8) if label else 0
    if kind < 2 and label:
        return bytes(byte ^ (0x80 >> at % 8 if place == at // 8 else 0) for place, byte in enumerate(label))
    return label[:-1] if kind == 2 else label + bytes([rng.randrange(256)])


@functools.cache
def labels_of(example):
    return [label for _, label in labels.entries_of(held(example, "labels"))]


def over_package(rng, example, program):
    """Returns a package, and two labels of a run of its specification."""
    view = json.dumps(expand_of(rng, held(example, "spec"))).encode()
    data, two, kind = package_of(program, example, view), rng.choices(labels_of(example), k=2), rng.random()
    if kind < 0.6:
        data = some_times(rng, lambda data: change_package(rng, data), data)
    elif kind < 0.9:
        two[rng.randrange(2)] = some_times(rng, lambda label: change_label(rng, label), rng.choice(two))
    return {"package": data, "hexes": tuple(label.hex() for label in two)}


def drawn(program, rng):
    """Returns the files of a call, and the name of the one that is changed."""
    example, which = rng.choice(EXAMPLES), rng.choice(["coarse", "auto", "package"])
    if which == "package":
        return which, over_package(rng, example, program)
    return which, (two_views if which == "coarse" else view_and_auto)(rng, example)


def compared(program, folder, files):
    """Returns what the program says and what the tool finds of some files, or what checks/automata.py finds where this is something else."""
    said, found = mutations.compared(program, folder, files)
    if "auto" not in files:
        return said, found
    again = automata.refusal(program, os.path.join(folder, "spec"), os.path.join(folder, "view"), files["auto"])
    said = said if told.has_words(program) else again
    return said, found if said != found else again


if __name__ == "__main__":
    sys.exit(mutations.tried(sys.argv[1:], functools.partial(drawn, os.path.abspath(sys.argv[1])), compared))
