#!/usr/bin/env python3
"""Times `decide` of the built program, with labels worked out here.

- chain: a grammar that repeats one step, whose modules join their ports crosswise. The second label is that of an item
  after 1, 1,000, 1,000,000 and 2^24 - 1 repetitions, the greatest chain number that a label has.
- deep, full: the specifications at the limits of bench/view.py, from the first input to the first output of the run.
- ring: 1,000 modules of 64 inputs and 64 outputs, each done by an atomic module and the next of them, the last by the
  first again. The second label is that of an item after 1,000,000 steps.

It prints seconds and the peak of memory, and sets the time beside that of `view` on the same specification, measured in
the same run. Times are the least of three. It judges nothing but how the program ended and what it wrote.

Call it from anywhere, after the program was built: bench/decide.py [--program FILE]
"""

import argparse
import sys
import tempfile
from pathlib import Path

from check import compact, straight_body, wide
from measure import PROGRAM, built, run
from view import specification, straight

FIRST_INPUT = "20"
FIRST_OUTPUT = "60"
RING = 1000


def gamma(number):
    digits = bin(number)[2:]
    return "0" * (len(digits) - 1) + digits


def in_hex(bits):
    """Bits in hexadecimal digits, with zero bits up to the byte."""
    bits += "0" * (-len(bits) % 8)
    return f"{int(bits, 2):0{len(bits) // 4}x}"


def crosswise():
    """A step that repeats between two modules which exchange their ports, or ends in one that keeps them."""
    ports = lambda letter: [f"{letter}1", f"{letter}2"]
    module = lambda name: {"name": name, "in": ports("x"), "out": ports("y")}
    link = lambda one, other: [[f"{one}.y{k}", f"{other}.x{k}"] for k in (1, 2)]
    enter = lambda place: [[f"x{k}", f"{place}.x{k}"] for k in (1, 2)]
    leave = lambda place: [[f"{place}.y{k}", f"y{k}"] for k in (1, 2)]
    pairs = lambda name, ends: {"module": name, "pairs": [[f"x{k}", f"y{j}"] for k, j in ends]}
    again = [["w", "W"], ["l", "L"], ["v", "W"]]
    return compact({
        "start": "L",
        "modules": [module(name) for name in "LWT"],
        "productions": [
            {"head": "L", "body": again, "edges": link("w", "l") + link("l", "v"), "in": enter("w"), "out": leave("v")},
            {"head": "L", "body": [["t", "T"]], "edges": [], "in": enter("t"), "out": leave("t")},
        ],
        "deps": [pairs("W", [(1, 2), (2, 1)]), pairs("T", [(1, 1), (2, 2)])],
    })


def ring():
    """Modules in a ring, each with a body of an atomic module and the next; the first may also end."""
    modules = [wide(f"H{k}") for k in range(RING)] + [wide("A")]
    productions = [straight_body(f"H{k}", ["A", f"H{(k + 1) % RING}"]) for k in range(RING)]
    productions.append(straight_body("H0", ["A"]))
    deps = [{"module": "A", "pairs": straight(64)}]
    return compact({"start": "H0", "modules": modules, "productions": productions, "deps": deps})


def after_repetitions(count):
    """The label of the first edge of the first alternative, after so many continuing steps from the start module."""
    return in_hex("1" + gamma(count + 1) + "0" + gamma(1) + gamma(1))


def measure(program, folder, name, second, answer):
    decide = [run([program, "decide", "spec", "view", FIRST_INPUT, second], folder) for _ in range(3)]
    for _, _, out, _ in decide:
        if out != f"{answer}\n":
            sys.exit(f"{name}: wrote {out}")
    seconds = min(told[0] for told in decide)
    peak = max(told[1] for told in decide)
    view = min(run([program, "view", "spec", "view"], folder)[0] for _ in range(3))
    print(f"{name}: {seconds:.4f} s, peak {peak / 1e6:.0f} MB; {seconds / view:.2f} times view")


def main():
    words = argparse.ArgumentParser(description=__doc__.splitlines()[0])
    words.add_argument("--program", default=str(PROGRAM))
    program = built(words.parse_args().program)
    with tempfile.TemporaryDirectory(prefix="wfprov-bench-") as name:
        folder = Path(name)
        (folder / "view").write_text("{}\n")
        (folder / "spec").write_text(crosswise())
        for count in (1, 1000, 1000000, (1 << 24) - 1):
            # Each repetition exchanges the two ports, and so does the module that makes the item.
            measure(program, folder, f"chain of {count}", after_repetitions(count), "yes" if count % 2 else "no")
        for label, is_full in (("deep", False), ("full", True)):
            (folder / "spec").write_text(specification(is_full, False))
            measure(program, folder, label, FIRST_OUTPUT, "yes")
        (folder / "spec").write_text(ring())
        measure(program, folder, "ring", after_repetitions(1000000), "yes")


if __name__ == "__main__":
    main()
