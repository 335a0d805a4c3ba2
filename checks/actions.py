#!/usr/bin/env python3
"""Tries tools/actions on random runs: what `trace` and `ask` answer of files is what can be reached in the run.

  python3 checks/actions.py PROGRAM CASES SEED
  python3 checks/actions.py PROGRAM large           one run of 5,000 actions, in samples that wait for one another
  python3 checks/actions.py PROGRAM irregular       one run of 2,500 actions, no two of which need be alike
  python3 checks/actions.py PROGRAM samples         one run of 10,000 actions and 50,000 files, in 300 samples that are unlike; prints the time
  python3 checks/actions.py PROGRAM barriers        one run that cannot be cut exactly: it is refused, and with --coarse no answer is
                                                    `no` where there is a way

A run is made up of actions and files in one of several forms. It is written as a list of actions and imported. Beside it stands its
graph, made from the list itself, and each answer on two files is compared with a search in it.
"""
import collections
import json
import os
import random
import re
import resource
import subprocess
import sys
import tempfile
import time

sys.path.insert(0, os.path.join(os.path.dirname(os.path.dirname(os.path.abspath(__file__))), "tools"))
import actions as core
import from_actions
import terminal

MOST_PAIRS = 1500


class Run:
    """A random run: `values` and `actions`, those that make before those that read. The list has the actions in any order where it is shuffled."""

    def __init__(self, draw):
        self.draw, self.values, self.actions, self.is_shuffled, self.counts = draw, [], [], False, collections.Counter()

    def record(self):
        """Returns the record of the list."""
        listed = self.draw.sample(self.actions, len(self.actions)) if self.is_shuffled else self.actions
        return from_actions.record_of({"values": self.values, "actions": listed}, "run")

    def outside(self, count=1):
        """Adds files from outside, and returns their names."""
        return [self.value(outside=True) for _ in range(count)]

    def value(self, **more):
        identity = f"f{len(self.values)}"
        self.values.append({"id": identity, "path": f"run/{identity}.dat", **more})
        return identity

    def act(self, tool, used, made=1, **more):
        """Adds an action, and returns what it made."""
        found = [self.value() for _ in range(made)]
        self.actions.append({"name": f"{tool} {len(self.actions)}", "tool": tool, "used": [["in", value] for value in used],
                             "made": [[f"out{number}", value] for number, value in enumerate(found)], **more})
        return found

    def some(self, values, most):
        """Returns some of these files, each once."""
        return self.draw.sample(values, min(len(values), self.draw.randint(0, most)))


def irregular(run, actions, near):
    """Actions that read any files that are there, more often near ones."""
    there = run.outside(run.draw.randint(0, 5))
    for _ in range(actions):
        pool = there if run.draw.random() < 0.1 else there[-near:]
        more = {"group": [["part", f"g{run.draw.randint(0, 2)}"]]} if run.draw.random() < 0.3 else {}
        there += run.act(f"T{run.draw.randint(0, 4)}", run.some(pool, 4), run.draw.choice([0, 1, 1, 2, 3]), **more)


def sample(run, shared, number, grouped, odd):
    """The steps of one sample before what all samples wait for. Returns its alignment and its log."""
    group = {"group": [["sample", f"s{number}"]]} if grouped else {}
    reads = run.outside(2)
    bam, log = run.act("ALIGN", reads + shared, 2, **group)
    calls = [run.act("CALL", [bam] + shared[:1], 1, **group)[0] for _ in range(2 if not odd else run.draw.randint(1, 4))]
    merged, = run.act("MERGE", calls, 1, **group)
    if odd and run.draw.random() < 0.5:
        run.act("EXTRA", [bam] + run.some(shared, 2), 1, **group)
    return bam, merged, log, group


def samples(run, count, grouped, joint, odd):
    """Samples that share a reference, and are read together; with `joint` each reads what was made of all of them again."""
    shared = run.outside(2)
    shared += run.act("INDEX", shared)
    parts = [sample(run, shared, number, grouped, odd and run.draw.random() < 0.1) for number in range(count)]
    run.act("REPORT", [log for _, _, log, _ in parts], 2)
    if joint:
        table, = run.act("JOINT", [merged for _, merged, _, _ in parts])
        finals = [run.act("FILTER", [table, bam] + shared[:1], 1, **group)[0] for bam, _, _, group in parts]
        run.act("COLLECT", finals + [table], 1)


def wide(run, _):
    """An action that makes many files, each read by an action of its own, and one that reads all of them."""
    pieces = run.act("SPLIT", run.outside(3), run.draw.randint(61, 200))
    results = [run.act("WORK", [piece], 1)[0] for piece in pieces]
    run.act("JOIN", results + run.outside(run.draw.randint(0, 100)), 3)


def nested(run, _):
    """Samples of regions: each sample is split, and each of its regions has steps of its own."""
    reference = run.outside()
    logs = []
    for number in range(run.draw.randint(3, 12)):
        group = [["sample", f"s{number}"]] if run.draw.random() < 0.8 else []
        bam, log = run.act("ALIGN", run.outside() + reference, 2, group=group)
        inner = [group + [["region", f"r{region}"]] for region in range(run.draw.choice([5, 5, 40]))]
        regions = [run.act("SORT", run.act("REGION", [bam] + reference, group=own), 1, group=own)[0] for own in inner]
        logs += [log] + run.act("GATHER", regions, group=group)
    run.act("REPORT", logs)


def crossing(run, _):
    """Two groups, and more samples than a group has ports: the groups are left aside, and no answer changes."""
    shared = run.outside()
    for _ in range(run.draw.randint(65, 100)):
        bam, log = run.act("ALIGN", run.outside() + shared, 2, group=[["flow", "align"]])
        vcf, = run.act("CALL", [bam] + shared, 1, group=[["flow", "call"]])
        run.act("CHECK", [vcf, log], 1, group=[["flow", "call"]])


def unlike(run, _):
    """Samples of which hardly two are alike: with one lane or several, with steps that others lack, in any order of the list. Regions of all of them
    are called together, and each sample reads the result."""
    build(run, run.draw.randint(5, 40), run.draw.randint(2, 6), run.draw.random() < 0.4)
    run.is_shuffled = run.draw.random() < 0.5


def build(run, count, regions, grouped, more=1):
    """The steps of so many samples that are unlike. Each makes more files than are read, if this is asked for."""
    shared, logs, calls, lasts = run.outside(4), [], [[] for _ in range(regions)], []
    index = run.act("INDEX", shared[:1])
    for number in range(count):
        group = {"group": [["sample", f"s{number}"]]} if grouped else {}
        lanes = []
        for _ in range(run.draw.choice([1, 1, 1, 2, 2, 3, 4])):
            trimmed = run.act("TRIM", run.outside(2) + shared[1:2], 2 + more, **group)
            lanes += run.act("ALIGN", trimmed[:2] + index, more, **group)[:1]
            logs += trimmed[2:3] + (run.act("QUALITY", trimmed[:1], more, **group)[:1] if run.draw.random() < 0.3 else [])
        bam = run.act("MERGE", lanes, more, **group)[:1] if len(lanes) > 1 else lanes
        bam = run.act("CORRECT", bam + shared[2:4], more, **group)[:1] if run.draw.random() < 0.5 else bam
        for region in calls:
            region += run.act("CALL", bam + shared[:1], more, **group)[:1]
        logs += run.act("COUNT", bam, 1 + more, **group)[:1]
        lasts.append((bam, group))
    table = run.act("CONCAT", [run.act("JOINT", region)[0] for region in calls])
    run.act("COLLECT", [run.act("FILTER", table + bam, more, **group)[0] for bam, group in lasts])
    run.act("REPORT", logs, 2)


def failing(run, _):
    """A run in which actions failed, never ran, or came from a cache."""
    irregular(run, 20, 8)
    used = {value for action in run.actions for _, value in action["used"]}
    for action in run.actions:
        if not any(value in used for _, value in action["made"]) and run.draw.random() < 0.6:
            action["state"] = run.draw.choice(["failed", "never"])
    done = [action for action in run.actions if action["made"] and "state" not in action]
    for action in run.draw.sample(done, min(3, len(done))):
        run.actions.append({**action, "name": action["name"] + " again", "state": "cached"})


FORMS = [
    ("small", lambda run, draw: irregular(run, draw.randint(1, 15), 8)),
    ("medium", lambda run, draw: irregular(run, draw.randint(30, 150), 12)),
    ("samples", lambda run, draw: samples(run, draw.randint(2, 40), draw.random() < 0.5, False, draw.random() < 0.5)),
    ("joint", lambda run, draw: samples(run, draw.randint(2, 40), draw.random() < 0.5, True, draw.random() < 0.5)),
    ("wide", wide), ("nested", nested), ("failing", failing), ("crossing", crossing), ("unlike", unlike), ("unlike", unlike),
]


def reached(run):
    """Returns for each file that is there the bits of the files on which it rests."""
    number = {value["id"]: place for place, value in enumerate(run.values)}
    rests = {value["id"]: 0 for value in run.values if value.get("outside")}
    for action in run.actions:
        if action.get("state", "done") == "done":
            bits = 0
            for _, value in action["used"]:
                bits |= rests[value] | 1 << number[value]
            rests.update((value, bits) for _, value in action["made"])
    return rests, number


def ran(program, *words):
    """Returns what the program writes."""
    done = subprocess.run([program, *words], stdout=subprocess.PIPE, stderr=subprocess.PIPE, check=False)
    if done.returncode:
        raise AssertionError(f"wfprov {words[0]}: {done.stderr.decode().strip()}")
    return done.stdout


def items_of(table):
    """Returns the item of each file in a table."""
    rows = [line.split("\t") for line in table.splitlines()[1:]]
    return {row[1]: row[6] for row in rows if row[0] == "value"}


def compare(program, folder, run, draw, counts, coarse=False, most=MOST_PAIRS, made=None):
    """Imports a run, if it is not yet, and compares answers with what can be reached. Where it is coarse, `yes` may stand for `no`."""
    made = made or core.imported(run.record(), coarse)
    rests, number = reached(run)
    items = items_of(made.table)
    if items.keys() != rests.keys():
        raise AssertionError(f"the files are others: {sorted(items.keys() ^ rests.keys())[:4]}")
    path = {word: os.path.join(folder, word) for word in ("spec", "events", "view", "labels", "queries")}
    names = list(items)
    every = len(names) ** 2
    pairs = [(a, b) for a in names for b in names] if every <= most else [draw.sample(names, 2) for _ in range(most)]
    queries = "".join(f"{items[a]} {items[b]}\n" for a, b in pairs)
    for word, text in (("spec", made.spec), ("events", made.events), ("view", "{}"), ("queries", queries)):
        with open(path[word], "w", encoding="utf-8") as file:
            file.write(text)
    labels = ran(program, "ingest", path["spec"], path["events"])
    with open(path["labels"], "wb") as file:
        file.write(labels)
    for word in ("trace", "ask"):
        source = path["events"] if word == "trace" else path["labels"]
        answers = ran(program, word, path["spec"], path["view"], source, path["queries"]).decode().split()
        for (a, b), answer in zip(pairs, answers):
            want = "yes" if rests[b] >> number[a] & 1 else "no"
            counts[want] += word == "ask"
            counts["coarse"] += answer != want
            if answer != want and not (coarse and made.notes and want == "no"):
                raise AssertionError(f"{word} answers {answer} to {a} {b}, and {want} is wanted")
    counts["runs whose groups were left aside"] += any("groups" in note for note in made.notes)
    counts["bodies"] += made.spec.count('{"head":')
    counts["loops"] += made.spec.count('["each') > 0


def tried(program, run, seed, actions, files, made=None):
    """Tries one run of at least so many actions and files, and tells its size."""
    counts = collections.Counter()
    if len(run.actions) < actions or len(run.values) < files:
        raise AssertionError(f"the run has {len(run.actions)} actions and {len(run.values)} files")
    with tempfile.TemporaryDirectory() as folder:
        compare(program, folder, run, random.Random(seed), counts, made=made)
    print(f"  {len(run.actions)} actions, {len(run.values)} files, {counts['bodies']} bodies")
    return 0


def large(program):
    """Tries a run of 5,000 actions."""
    run = Run(random.Random(5))
    samples(run, 1000, False, True, False)
    return tried(program, run, 6, 4980, 8000)


def irregular_large(program):
    """Tries a run of 2,500 actions, each of which reads some files that were made shortly before."""
    run = Run(random.Random(9))
    there = run.outside(3)
    for _ in range(2500):
        there += run.act(f"T{run.draw.randint(0, 9)}", run.some(there[-8:], 4), run.draw.choice([1, 1, 2, 3]))
    return tried(program, run, 10, 2500, 4300)


def samples_large(program):
    """Tries a run of 10,000 actions and 50,000 files, and tells the time of its import and the most memory of this process."""
    run = Run(random.Random(11))
    build(run, 310, 25, False, 5)
    start = time.process_time()
    made = core.imported(run.record())
    seconds, memory = time.process_time() - start, resource.getrusage(resource.RUSAGE_SELF).ru_maxrss // 1024
    print(f"  imported in {seconds:.1f} seconds of processor time and {memory} MB")
    if seconds > 30 or memory > 1024:
        raise AssertionError("that is more than 30 seconds or 1 GB")
    return tried(program, run, 12, 10000, 50000, made)


def barriers(program):
    """Tries 800 samples that all wait for one another twice, and then read what each made before: 800 files cross both waits."""
    run, counts = Run(random.Random(7)), collections.Counter()
    first = [run.act("FIRST", run.outside(), 2) for _ in range(800)]
    table = run.act("WAIT", [both for both, _ in first])
    second = [run.act("SECOND", [own] + table)[0] for _, own in first]
    table = run.act("WAIT", second)
    for _, own in first:
        run.act("THIRD", [own] + table)
    with tempfile.TemporaryDirectory() as folder:
        try:
            compare(program, folder, run, random.Random(8), counts)
            raise AssertionError("it is not refused")
        except terminal.Wrong as wrong:
            if not re.search("cannot be cut exactly: .* has [0-9]+ values, and 64 are allowed", str(wrong)):
                raise AssertionError(f"it is refused otherwise: {wrong}") from None
        compare(program, folder, run, random.Random(8), counts, True, 50000)
    if not counts["coarse"]:
        raise AssertionError("nothing is coarse")
    print(f"  {counts['coarse']} answers of {2 * (counts['yes'] + counts['no'])} are coarse")
    return 0


LARGE = {"large": large, "irregular": irregular_large, "samples": samples_large, "barriers": barriers}


def main(words):
    if words[1] in LARGE:
        return LARGE[words[1]](words[0])
    program, cases, seed = words[0], int(words[1]), int(words[2])
    counts = collections.Counter()
    with tempfile.TemporaryDirectory() as folder:
        for number in range(seed, seed + cases):
            draw = random.Random(number)
            name, form = FORMS[number % len(FORMS)]
            run = Run(draw)
            form(run, draw)
            counts[f"{name} runs"] += 1
            counts["actions"] += len(run.actions)
            try:
                compare(program, folder, run, draw, counts)
            except (AssertionError, terminal.Wrong) as error:
                print(f"seed {number} ({name}): {error}")
                return 1
    for name in sorted(counts):
        print(f"  {name}: {counts[name]}")
    return 0


if __name__ == "__main__":
    sys.exit(main(sys.argv[1:]))
