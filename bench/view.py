#!/usr/bin/env python3
"""Times `view` of the built program on specifications at the limits, under safe views and under one that is not safe.

Each specification has 1,024 modules of 64 inputs and 64 outputs, and 1,024 productions:

- deep: H0 to H14, each with a body of 64 positions in a row, in which output k of a position feeds input k of the next;
  the last position of H0 to H13 is the next head, and that of H14 is K. K has 1,009 productions, each with a body of one
  atomic module. All atomic modules join input k to output k, or, for `full`, every input to every output.
- unsafe: the same as deep, but the last production of K has a module that lacks the last pair, so that all productions
  and all pairs are looked at before the witness is found.

The phylogeny of examples/phylogeny is timed beside them. It prints seconds and the peak of memory, and sets the time
beside that of `check` on the same specification and of `sha256sum` and Python's JSON reader on its text, measured in the
same run. Times are the least of three. It judges nothing but how the program ended and what it wrote.

Call it from anywhere, after the program was built: bench/view.py [--program FILE]
"""

import argparse
import json
import sys
import tempfile
from pathlib import Path

from check import READER, compact, straight_body, wide
from measure import PROGRAM, built, others, run

HEADS = 15
WORKERS = 1008
EXAMPLE = Path(__file__).resolve().parent.parent / "examples/phylogeny"


def straight(count):
    """The pairs that join input k to output k, of so many."""
    return [[f"i{k}", f"o{k}"] for k in range(count)]


def specification(is_full, lacks):
    """A specification at the limits; `lacks` says whether the last production of K lacks the last pair."""
    workers = [f"A{k}" for k in range(WORKERS)]
    modules = [wide(f"H{k}") for k in range(HEADS)] + [wide("K")] + [wide(name) for name in workers]
    productions = []
    for k in range(HEADS):
        body = [workers[(64 * k + j) % WORKERS] for j in range(63)]
        body.append(f"H{k + 1}" if k + 1 < HEADS else "K")
        productions.append(straight_body(f"H{k}", body))
    for k in range(1024 - HEADS):
        productions.append(straight_body("K", [workers[k % WORKERS]]))
    deps = []
    if not is_full:
        last = (1024 - HEADS - 1) % WORKERS if lacks else None
        deps = [{"module": name, "pairs": straight(63 if k == last else 64)} for k, name in enumerate(workers)]
    if lacks:
        productions[-1] = straight_body("K", ["A1"])
        deps[1]["pairs"] = straight(63)
        for k in range(HEADS):
            for place in productions[k]["body"]:
                if place[1] in ("A1", workers[(1024 - HEADS - 1) % WORKERS]):
                    place[1] = "A2"
        productions[HEADS + 1] = straight_body("K", ["A2"])
        deps[(1024 - HEADS - 1) % WORKERS]["pairs"] = straight(64)
    return compact({"start": "H0", "modules": modules, "productions": productions, "deps": deps})


def shown(is_full, spec):
    """What `view` is to write of a safe one, all of whose modules have the same pairs."""
    outputs = lambda k: range(64) if is_full else [k]
    pairs = "".join(f" i{k}>o{o}" for k in range(64) for o in outputs(k))
    lines = []
    seen = {"H0"}
    for rule in spec["productions"]:
        seen.update(module for _, module in rule["body"])
    for module in spec["modules"]:
        name = module["name"]
        if name in seen:
            lines.append(f"{name} {'shown' if name.startswith('A') else 'expanded'}{pairs}\n")
    return "".join(lines)


def unsafe_message():
    choice = "".join(f" H{k}={k}" for k in range(HEADS)) + f" K={HEADS}"
    return (
        f"refused: view: Unsafe module K one {HEADS} other 1023 input i63 output o63 joined one choice{choice}\n"
    )


def measure(program, folder, name, spec, view, wanted):
    status, text, message = wanted
    tries = [run([program, "view", spec, view], folder, status) for _ in range(3)]
    for _, _, out, err in tries:
        if err != message or (text is not None and out != text):
            sys.exit(f"{name}: wrote or said something else: {err}")
    seconds = min(told[0] for told in tries)
    peak = max(told[1] for told in tries)
    check = min(run([program, "check", spec], folder, 0)[0] for _ in range(3))
    beside = others(Path(folder) / spec, lambda file: json.loads(file.read_bytes()))
    length = (Path(folder) / spec).stat().st_size
    print(
        f"{name}: {length / 1e6:.2f} MB, {seconds:.3f} s, peak {peak / 1e6:.0f} MB; {seconds / check:.1f} times check,"
        f" {seconds / beside['sha256sum']:.1f} times sha256sum, {seconds / beside[READER]:.1f} times {READER}"
    )


def main():
    words = argparse.ArgumentParser(description=__doc__.splitlines()[0])
    words.add_argument("--program", default=str(PROGRAM))
    program = built(words.parse_args().program)
    with tempfile.TemporaryDirectory(prefix="wfprov-bench-") as name:
        folder = Path(name)
        (folder / "view").write_text("{}\n")
        for label, is_full in (("deep", False), ("full", True)):
            text = specification(is_full, False)
            (folder / "spec").write_text(text)
            measure(program, folder, label, "spec", "view", (0, shown(is_full, json.loads(text)), ""))
        (folder / "spec").write_text(specification(False, True))
        measure(program, folder, "unsafe", "spec", "view", (2, "", unsafe_message()))
        expected = (EXAMPLE / "shown").read_text()
        measure(program, EXAMPLE, "phylogeny", "spec", "view", (0, expected, ""))


if __name__ == "__main__":
    main()
