#!/usr/bin/env python3
"""Times the built program on names that are chosen to meet in one place of a table.

A table puts a name into one of its groups by a hash. Who knows the hash can find names that all go to the same few
groups; then a look-up walks through all of them, and the time grows with the square of their number. The names here are
found by a plain search, for two hashes:

- that of the kit's tables where no hasher is given (`FoldHasher`), which has no key,
- that of the tables of this repository with the key 0, which is what calls without a key have.

The program draws a key, which the search does not know. So such names should take it no longer than names of the same
lengths at random; 1.5 times as long is allowed. The names are those of instances (`ingest` and `trace`), of the items of
a label file (`ask`), of modules, and of the ports of one module (`check`).

It prints the seconds for names at random and for both kinds, each the least of seven, and how many times as long they
take. It judges nothing but how the program ended.

Call it from anywhere, after the program was built: bench/meeting.py [--small] [--program FILE]
"""

import functools
import itertools
import json
import random
import tempfile
from pathlib import Path

import ingest
from measure import called, run_for_bytes

LETTERS = "abcdefghijklmnopqrstuvwxyzABCDEFGHIJKLMNOPQRSTUVWXYZ0123456789_-"
WORD = (1 << 64) - 1
LENGTH = 8
SHARE = 32
TRIES = 7
ALLOWED = 1.5


def groups(count):
    """How many groups a table has that holds so many names: each holds 9 in the mean at most."""
    number = 1
    while 9 * number < count:
        number *= 2
    return number


def folded(a, b):
    product = a * b
    return product & WORD ^ product >> 64


def place(code, count):
    """The group of a hash, of so many."""
    return (code ^ code >> 32) & (count - 1)


class Fold:
    """The hash of `FoldHasher`: the length of a name, and then each byte, are multiplied into it."""

    title = "without a key"
    multiplier = 0x9E3779B97F4A7C15

    def __init__(self, wide):
        self.start = folded(0x243F6A8885A308D3 ^ LENGTH, self.multiplier ^ 16)

    def add(self, state, byte):
        return folded(state ^ byte * 0x10101, self.multiplier ^ 2)

    def finish(self, state):
        return state


def rounds(v, number):
    """So many rounds of SipHash."""
    a, b, c, d = v
    for _ in range(number):
        a = a + b & WORD
        c = c + d & WORD
        b = (b << 13 | b >> 51) & WORD ^ a
        d = (d << 16 | d >> 48) & WORD ^ c
        a = (a << 32 | a >> 32) & WORD
        c = c + b & WORD
        a = a + d & WORD
        b = (b << 17 | b >> 47) & WORD ^ c
        d = (d << 21 | d >> 43) & WORD ^ a
        c = (c << 32 | c >> 32) & WORD
    return a, b, c, d


def with_word(v, word):
    """The state of SipHash-1-3 after one more word."""
    a, b, c, d = rounds((v[0], v[1], v[2], v[3] ^ word), 1)
    return a ^ word, b, c, d


class Sip:
    """The hash of the tables with the key 0: SipHash-1-3 of the key, in a wide table of the length, and of the name."""

    title = "with the key 0"

    def __init__(self, wide):
        v = (0x736F6D6570736575, 0x646F72616E646F6D, 0x6C7967656E657261, 0x7465646279746573)
        words = [0, LENGTH] if wide else [0]
        for word in words:
            v = with_word(v, word)
        self.before = v
        self.last = 8 * len(words) + LENGTH << 56
        self.start = (0, 0)

    def add(self, state, byte):
        word, count = state
        return word | byte << 8 * count, count + 1

    def finish(self, state):
        a, b, c, d = with_word(with_word(self.before, state[0]), self.last)
        a, b, c, d = rounds((a, b, c ^ 255, d), 3)
        return a ^ b ^ c ^ d


@functools.cache
def meeting(kind, wide, head, count):
    """So many names that begin with `head` and meet in a small share of the groups of a table."""
    hashed = kind(wide)
    number = groups(count)
    wanted = max(1, number // SHARE)
    start = hashed.start
    for byte in head.encode():
        start = hashed.add(start, byte)
    letters = [(letter, ord(letter)) for letter in LETTERS]
    names = []
    for front in itertools.product(letters, repeat=LENGTH - len(head) - 1):
        state = start
        for _, byte in front:
            state = hashed.add(state, byte)
        for letter, byte in letters:
            if place(hashed.finish(hashed.add(state, byte)), number) < wanted:
                names.append(head + "".join(one for one, _ in front) + letter)
                if len(names) == count:
                    return names


def at_random(head, count, draw):
    """So many names of the same length that differ."""
    names = set()
    while len(names) < count:
        names.add(head + "".join(draw.choices(LETTERS, k=LENGTH - len(head))))
    return list(names)


def module(name):
    return {"name": name, "in": ["x"], "out": ["y"]}


def repeating(width):
    """A specification of a module `L` that repeats, with so many atomic modules before it in a row."""
    body = [[f"t{k}", "T"] for k in range(width)] + [["l", "L"]]
    return {
        "start": "L",
        "modules": [module("L"), module("T")],
        "productions": [
            {
                "head": "L",
                "body": body,
                "edges": [[f"{a}.y", f"{b}.x"] for (a, _), (b, _) in zip(body, body[1:])],
                "in": [["x", "t0.x"]],
                "out": [["l.y", "y"]],
            },
            {"head": "L", "body": [["t", "T"]], "edges": [], "in": [["x", "t.x"]], "out": [["t.y", "y"]]},
        ],
    }


WIDTH = 60


def events(names):
    """The events of a run of instances with these names: a chain of repetitions."""
    lines, last = [json.dumps({"start": names[0]})], names[0]
    for k in range(1, len(names) - WIDTH, WIDTH + 1):
        children = names[k : k + WIDTH + 1]
        lines.append(json.dumps({"expand": last, "production": 0, "names": children}))
        last = children[-1]
    return "".join(line + "\n" for line in lines).encode()


def modules(names):
    return json.dumps({"start": names[0], "modules": [{"name": n, "in": ["x"]} for n in names]}).encode()


def ports(names):
    return json.dumps({"start": "M", "modules": [{"name": "M", "in": names}]}).encode()


def entries(names):
    """The entries of a label file with these names, all with the label of the first input."""
    return b"".join(ingest.entry(name, "00" + ingest.gamma(1)) for name in names)


class Case:
    """A command, what of it the names are, whether its table hashes lengths, and how the file of the names is made."""

    def __init__(self, title, head, wide, words, made, status=0):
        self.title = title
        self.head = head
        self.wide = wide
        self.words = words
        self.made = made
        self.status = status


def seconds_of(program, folder, case, texts):
    """The seconds of the command on the names of each text, the least of some tries in turn."""
    tries = []
    for _ in range(TRIES):
        for text in texts:
            (folder / "names").write_bytes(text)
            tries.append(run_for_bytes([program, *case.words], folder, case.status)[0])
    return [min(tries[k :: len(texts)]) for k in range(len(texts))]


def measure(program, folder, case, kinds, draw):
    print(f"{case.title}:")
    for kind, count in kinds:
        names = at_random(case.head, count, draw), meeting(kind, case.wide, case.head, count)
        plain, met = seconds_of(program, folder, case, [case.made(list(n)) for n in names])
        told = "" if met <= ALLOWED * plain else f", more than the {ALLOWED} times that are allowed"
        print(f"  {count} names that meet {kind.title}: {met:.3f} s, at random {plain:.3f} s: {met / plain:.2f} times{told}")


def main():
    program, is_small = called(__doc__, "fewer names, to try the script")
    kinds = [(Fold, 10000), (Sip, 5000)] if is_small else [(Fold, 200000), (Sip, 40000)]
    with tempfile.TemporaryDirectory(prefix="wfprov-bench-") as name:
        folder = Path(name)
        (folder / "spec").write_text(json.dumps(repeating(WIDTH)))
        (folder / "view").write_text("{}")
        (folder / "none").write_text("")
        head = run_for_bytes([program, "ingest", "spec", "none"], folder)[2]
        cases = [
            Case("instances, ingest", "", False, ["ingest", "spec", "names"], events),
            Case("instances, trace", "", True, ["trace", "spec", "view", "names", "none"], events),
            Case("items, ask", "n.", False, ["ask", "spec", "view", "names", "none"], lambda names: head + entries(names)),
            Case("modules, check", "", True, ["check", "names"], modules, 2),
            Case("ports, check", "", True, ["check", "names"], ports, 2),
        ]
        for case in cases:
            measure(program, folder, case, kinds, random.Random(1))


if __name__ == "__main__":
    main()
