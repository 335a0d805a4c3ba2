#!/usr/bin/env python3
"""Times `ingest` of the built program on long chains of repetitions and on one wide run.

The chains are those of bench/chain.py, with 100,000 and 1,000,000 repetitions; the wide run is that of bench/trace.py,
with 98,461 expansions and 871,383 instances.

It prints seconds, events a second, the peak of memory an instance, how many bytes of it the events and the names take,
and the bits of a label: the mean, the longest, and the most that are allowed for so many expansions. It sets the time
beside that of `wc -l` and `sha256sum` on the same events, measured in the same run. Times are the least of three. It
judges the label file: every entry must be the one that this script works out by itself, from the definition.

Call it from anywhere, after the program was built: bench/ingest.py [--small] [--program FILE]
"""

import json
import random
import sys
import tempfile
from pathlib import Path

import chain
import trace
from measure import called, others, read_lines, run_for_bytes

HEAD = 36


def gamma(n):
    """The gamma code of a number from 1 on: as many zeros as it has binary digits but one, and then the digits."""
    digits = bin(n)[2:]
    return "0" * (len(digits) - 1) + digits


def entry(name, bits):
    """The bytes of an entry with a label of these bits."""
    bits += "0" * (-len(bits) % 8)
    label = int(bits, 2).to_bytes(len(bits) // 8, "big")
    return bytes([len(name)]) + name.encode() + len(label).to_bytes(2, "big") + label


class Labels:
    """The label file of a run as it is worked out here, without its head, and the bits of the labels."""

    def __init__(self):
        self.entries = []
        self.items = self.bits = self.longest = 0

    def add(self, name, bits):
        self.entries.append(entry(name, bits))
        self.items += 1
        self.bits += len(bits)
        self.longest = max(self.longest, len(bits))

    def add_ports(self, root, inputs, outputs):
        for k, port in enumerate(inputs):
            self.add(f"{root}.{port}", "00" + gamma(k + 1))
        for k, port in enumerate(outputs):
            self.add(f"{root}.{port}", "01" + gamma(k + 1))


def most_bits(expansions, components, cycles, alternatives, positions, edges):
    """The most bits of a label that is made at the last of so many expansions, by the numbers of the grammar."""
    def length(n):
        return 2 * n.bit_length() - 1
    constant = 2 + length(alternatives) + length(edges) + (components - 1) * (1 + length(alternatives) + length(positions))
    return max(15, constant) + 2 * cycles * expansions.bit_length()


def chain_labels(length):
    """The labels of a chain: edge k of repetition c is told by the number c and the two numbers of the edge."""
    labels = Labels()
    labels.add_ports("l0", ["x1", "x2"], ["y1", "y2"])
    for c in range(length):
        for k, name in enumerate([f"w{c}.y1", f"w{c}.y2", f"l{c + 1}.y1", f"l{c + 1}.y2"]):
            labels.add(name, "1" + gamma(c + 1) + "0" + gamma(1) + gamma(k + 1))
    return labels


def wide_labels(spec, events):
    """The labels of a run without cycles: the steps from the root to the maker, and the edge."""
    outputs = {m["name"]: m["out"] for m in spec["modules"]}
    before = {}
    alternative = []
    for production in spec["productions"]:
        alternative.append(before.get(production["head"], 0))
        before[production["head"]] = alternative[-1] + 1
    labels = Labels()
    prefix = {}
    with open(events) as lines:
        for line in lines:
            event = json.loads(line)
            if "start" in event:
                prefix[event["start"]] = "1"
                labels.add_ports(event["start"], spec["modules"][0]["in"], spec["modules"][0]["out"])
                continue
            production = spec["productions"][event["production"]]
            number = {position: k for k, (position, _) in enumerate(production["body"])}
            bits = prefix[event["expand"]]
            first = gamma(alternative[event["production"]] + 1)
            for k, name in enumerate(event["names"]):
                prefix[name] = bits + "1" + first + gamma(k + 1)
            for k, (source, _) in enumerate(production["edges"]):
                position, port = source.split(".")
                labels.add(f"{event['names'][number[position]]}.{port}", bits + "0" + first + gamma(k + 1))
    return labels


def measure(program, folder, title, events, instances, expansions, labels, most):
    count = expansions + 1
    length = (folder / events).stat().st_size
    names = sum(len(n) for line in open(folder / events) for n in json.loads(line).get("names", []))
    tries = [run_for_bytes([program, "ingest", "spec", events], folder) for _ in range(3)]
    seconds, peak, out, _ = min(tries, key=lambda one: one[0])
    if out[HEAD:] != b"".join(labels.entries):
        sys.exit(f"{title}: the label file is not that of the definition")
    print(
        f"{title}: {instances} instances, {labels.items} items: {seconds:.2f} s, {count / seconds:.0f} events a second;"
        f" peak {peak / 1e6:.0f} MB, {peak / instances:.0f} bytes an instance, {length / instances:.0f} of them for the"
        f" file of events and {names / instances:.0f} for names; labels of {labels.bits / labels.items:.1f} bits in the"
        f" mean, {labels.longest} at most, {most} allowed; {len(out)} bytes written"
    )
    beside = others(folder / events, read_lines)
    print("  beside " + ", ".join(f"{name}: {seconds / other:.1f} times" for name, other in beside.items()))


def measure_chain(program, folder, length):
    (folder / "spec").write_text(json.dumps(chain.SPEC))
    chain.write_events(folder / "events", length)
    most = most_bits(length + 1, 1, 1, 2, 3, 4)
    measure(program, folder, f"{length} repetitions", "events", 3 * length + 2, length + 1, chain_labels(length), most)


def measure_wide(program, folder, size):
    draw = random.Random(1)
    spec = trace.make_spec(size, draw)
    (folder / "spec").write_text(json.dumps(spec))
    events, instances, _ = trace.make_events(size, draw, folder / "events")
    widest = max(size.widths) + 2
    most = most_bits(events - 1, 4, 0, size.productions, widest, 2 * (widest - 2))
    measure(program, folder, "wide run", "events", instances, events - 1, wide_labels(spec, folder / "events"), most)


def main():
    program, is_small = called(__doc__, "small runs, to try the script")
    with tempfile.TemporaryDirectory(prefix="wfprov-bench-") as name:
        folder = Path(name)
        for length in [1000, 10000] if is_small else [100000, 1000000]:
            measure_chain(program, folder, length)
        measure_wide(program, folder, trace.Size(is_small))


if __name__ == "__main__":
    main()
