#!/usr/bin/env python3
"""Checks that `lineage` and `impact` list for each item of a label file the items to which `ask` answers yes, in the order of the file.

  python3 checks/listed.py PROGRAM SPEC VIEW LABELS

It reads the names from the label file itself, asks about each pair, and calls `lineage` and `impact` with each name. It writes what is
wrong, and ends with status 1 where something is.
"""
import os
import subprocess
import sys
import tempfile

# How many calls of `lineage` and of `impact` are made at most.
MOST = 40


def names_in(labels):
    """Returns the names of the entries of a label file, in order."""
    names, at = [], 36
    while at < len(labels):
        end = at + 1 + labels[at]
        names.append(labels[at + 1:end].decode())
        at = end + 2 + int.from_bytes(labels[end:end + 2], "big")
    return names


def answers_to(program, files, names, some):
    """Returns the answer of `ask` to each pair of one of some names and any name, in both orders."""
    pairs = [pair for one in some for name in names for pair in ((one, name), (name, one))]
    with tempfile.NamedTemporaryFile("w", suffix=".queries") as queries:
        queries.writelines(f"{first} {second}\n" for first, second in pairs)
        queries.flush()
        told = subprocess.run([program, "ask", *files, queries.name], stdout=subprocess.PIPE, check=True).stdout.decode().split()
    return dict(zip(pairs, told, strict=True))


def wrong_of(program, files):
    """Returns what is wrong of each item."""
    with open(files[2], "rb") as file:
        names = names_in(file.read())
    some = names[:: max(1, len(names) // MOST)]
    told = answers_to(program, files, names, some)
    for item in some:
        for command in ("lineage", "impact"):
            wanted = [name for name in names if told[(name, item) if command == "lineage" else (item, name)] == "yes"]
            if told[(item, item)] == "hidden":
                wanted = ["hidden"]
            ran = subprocess.run([program, command, *files, item], stdout=subprocess.PIPE, stderr=subprocess.PIPE, check=False)
            if ran.returncode or ran.stderr or ran.stdout.decode() != "".join(name + "\n" for name in wanted):
                yield f"{command} {item}: status {ran.returncode}, {ran.stdout.decode().split()} in the place of {wanted}"


def main():
    wrong = list(wrong_of(os.path.abspath(sys.argv[1]), sys.argv[2:5]))
    print(*wrong, sep="\n", end="\n" if wrong else "")
    return bool(wrong)


if __name__ == "__main__":
    sys.exit(main())
