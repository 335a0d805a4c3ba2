#!/usr/bin/env python3
"""Times `check` of the built program on large specifications, good ones and hostile ones.

The good ones have 1, 2, 4, 8 and 16 MiB and are accepted. Each has 16 bodies of 64 positions, in which every module has
64 inputs and 64 outputs, modules in plenty, and pairs of atomic modules for the rest of its length. The hostile ones
have close to 16 MiB and are each refused, or accepted, at another place:

- a million modules of one name,
- as many modules of different names as fit, each with one port,
- as many ports as fit in one module,
- as many parts of `deps` as fit, all for one module,
- as many edges as fit in one body,
- as many productions as fit.

It prints seconds, bytes a second and the peak of memory, and sets the time beside that of `sha256sum` and of Python's
JSON reader on the same file, measured in the same run. Times are the least of three. It judges nothing but how the
program ended.

Call it from anywhere, after the program was built: bench/check.py [--small] [--program FILE]
"""

import json
import sys
import tempfile
from pathlib import Path

from measure import called, others, run

MEBIBYTE = 1 << 20
READER = "Python's JSON reader"


def compact(value):
    return json.dumps(value, separators=(",", ":"))


def wide(name):
    """A module of 64 inputs and 64 outputs."""
    return {"name": name, "in": [f"i{k}" for k in range(64)], "out": [f"o{k}" for k in range(64)]}


def straight_body(head, workers):
    """A body of 64 positions in a row, in which output k of each position feeds input k of the next."""
    body = [[f"p{k}", worker] for k, worker in enumerate(workers)]
    edges = [[f"p{k}.o{j}", f"p{k + 1}.i{j}"] for k in range(len(body) - 1) for j in range(64)]
    last = f"p{len(body) - 1}"
    return {
        "head": head,
        "body": body,
        "edges": edges,
        "in": [[f"i{j}", f"p0.i{j}"] for j in range(64)],
        "out": [[f"{last}.o{j}", f"o{j}"] for j in range(64)],
    }


def good(length):
    """A specification of about this length that is accepted: heads H0 to H15, each made of the next and of atomic modules."""
    share = length / (16 * MEBIBYTE)
    heads = max(1, round(16 * share))
    atoms = max(64, round(1000 * share))
    modules = [wide(f"H{k}") for k in range(heads)] + [wide(f"A{k}") for k in range(atoms)]
    productions = []
    for k in range(heads):
        workers = [f"A{(64 * k + j) % atoms}" for j in range(64)]
        if k + 1 < heads:
            workers[0] = f"H{k + 1}"
        productions.append(straight_body(f"H{k}", workers))
    text = compact({"start": "H0", "modules": modules, "productions": productions})
    parts = []
    left = length - len(text) - 20
    for k in range(atoms):
        pairs = [[f"i{i}", f"o{o}"] for i in range(64) for o in range(64)]
        part = {"module": f"A{k}", "pairs": pairs}
        size = len(compact(part)) + 1
        if size > left:
            part["pairs"] = pairs[: max(0, left // 12 - 10)]
            parts.append(part)
            break
        parts.append(part)
        left -= size
    return text[:-1] + ',"deps":' + compact(parts) + "}"


def repeated(head, make, tail, length):
    """A text of `head`, as many elements with commas between as fit, and `tail`."""
    pieces, left, k = [], length - len(head) - len(tail), 0
    while True:
        piece = make(k)
        if len(piece) + 1 > left:
            break
        pieces.append(piece)
        left -= len(piece) + 1
        k += 1
    return head + ",".join(pieces) + tail


def line_with(**more):
    """A small good specification with further or other members."""
    spec = {
        "start": "S",
        "modules": [{"name": n, "in": ["x"], "out": ["y"]} for n in "SPQ"],
        "productions": [
            {"head": "S", "body": [["u", "P"], ["v", "Q"]], "edges": [["u.y", "v.x"]], "in": [["x", "u.x"]], "out": [["v.y", "y"]]}
        ],
    }
    spec.update(more)
    return compact(spec)


def hostile(length):
    """Name, text, and how the program is to end: the status and the message."""
    long = length - 200
    yield (
        "modules of one name",
        repeated('{"start":"M","modules":[', lambda k: '{"name":"M"}', "]}", long),
        (2, "refused: spec: NameTwice module 1\n"),
    )
    yield (
        "modules of different names",
        repeated('{"start":"m0","modules":[', lambda k: f'{{"name":"m{k}","in":["x"]}}', "]}", long),
        (2, "refused: spec: TooManyModules\n"),
    )
    yield (
        "ports of one module",
        repeated('{"start":"M","modules":[{"name":"M","in":[', lambda k: f'"p{k}"', "]}]}", long),
        (2, "refused: spec: TooManyPorts module 0\n"),
    )
    yield (
        "parts of deps",
        repeated(line_with()[:-1] + ',"deps":[', lambda k: '{"module":"P","pairs":[]}', "]}", long),
        (0, ""),
    )
    front = line_with()
    cut = front.index('["u.y","v.x"]')
    yield (
        "edges of one body",
        repeated(front[:cut], lambda k: '["u.y","v.x"]', front[cut + len('["u.y","v.x"]') :], long),
        (2, "refused: spec: PortLinkedTwice production 0\n"),
    )
    yield (
        "productions",
        repeated(front[:-2] + ",", lambda k: '{"head":"S","body":[]}', "]}", long),
        (2, "refused: spec: TooManyProductions\n"),
    )


def measure(program, folder, name, text, wanted):
    path = folder / "spec"
    path.write_text(text)
    status, message = wanted
    tries = [run([program, "check", "spec"], folder, status) for _ in range(3)]
    for told in tries:
        if told[3] != message:
            sys.exit(f"{name}: said {told[3]}, and not {message}")
    seconds = min(told[0] for told in tries)
    peak = max(told[1] for told in tries)
    beside = others(path, lambda file: json.loads(file.read_bytes()))
    print(
        f"{name}: {len(text) / MEBIBYTE:.2f} MiB, {seconds:.3f} s, {len(text) / seconds / 1e6:.1f} MB a second,"
        f" peak {peak / 1e6:.0f} MB; {seconds / beside['sha256sum']:.1f} times sha256sum,"
        f" {seconds / beside[READER]:.1f} times {READER}"
    )


def main():
    program, is_small = called(__doc__, "sizes divided by 16, to try the script")
    whole = MEBIBYTE if is_small else 16 * MEBIBYTE
    with tempfile.TemporaryDirectory(prefix="wfprov-bench-") as name:
        folder = Path(name)
        for part in [16, 8, 4, 2, 1]:
            measure(program, folder, "accepted", good(whole // part - MEBIBYTE // 64), (0, ""))
        for name, text, wanted in hostile(whole):
            measure(program, folder, name, text, wanted)


if __name__ == "__main__":
    main()
