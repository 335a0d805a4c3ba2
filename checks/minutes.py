#!/usr/bin/env python3
"""Measures how many processor minutes a run of `rt ci` takes for each crate, and prints them as a Markdown table.

  python3 checks/minutes.py run LOG COMMAND..   runs the command, and writes to LOG what its processes took
  python3 checks/minutes.py table LOG           prints the table of such a LOG

For the whole gate, from nothing: `python3 checks/minutes.py run LOG rt ci`, at the top of the repository, and then the table.
A kit that keeps what an earlier run on the machine passed wants `rt ci --anew`.

`rt ci` tells no times, and tells of its edits only at its end. So the processes of the prover are looked at twice a second while
they run: each names its crate, those with --test prove tests, and edits are tried in folders of their own. What the last look
at a process does not see is in the total alone, in the row of the rest, as is what `rt` itself takes.
"""
import os
import re
import subprocess
import sys
import time

LOOKS = 0.5
TICKS = os.sysconf("SC_CLK_TCK")
KINDS = ("proof", "tests", "edits")
RUN = re.compile(r"/rt-run-[^/]*/bin/(\w+)$")


def processes():
    """Returns for each process its parent, its time of birth, and the seconds that it and its ended children took."""
    found = {}
    for name in os.listdir("/proc"):
        if not name.isdigit():
            continue
        try:
            with open(f"/proc/{name}/stat", "rb") as file:
                fields = file.read().rpartition(b")")[2].split()
        except OSError:
            # It has ended meanwhile.
            continue
        seconds = sum(map(int, fields[11:15])) / TICKS
        found[int(name)] = int(fields[1]), int(fields[19]), seconds
    return found


def crate_and_kind(pid):
    """Returns the crate of a process of the prover, or of a program that is run, and what it is for, or nothing for others."""
    try:
        with open(f"/proc/{pid}/cmdline", "rb") as file:
            words = file.read().decode(errors="replace").split("\0")
        folder = os.path.basename(os.readlink(f"/proc/{pid}/cwd"))
    except OSError:
        return None
    ran = next(filter(None, map(RUN.search, words)), None)
    if ran:
        return re.sub("_tests$", "", ran[1]), "tests"
    if "--crate-name" not in words[:-1]:
        return None
    crate = words[words.index("--crate-name") + 1]
    if folder.startswith("rt-edit-"):
        return crate, "edits"
    return crate, "tests" if "--test" in words else "proof"


def top_of(pid, found, known, command):
    """Returns the uppermost process of the prover at or above a process of the command, or nothing where there is none."""
    top = None
    while pid in found:
        if pid == command:
            return top
        parent, born, _ = found[pid]
        if (pid, born) not in known:
            known[pid, born] = crate_and_kind(pid)
        top = (pid, born) if known[pid, born] else top
        pid = parent
    return None


def look(command, known, taken):
    """Looks at all processes of a command once, and counts what those of the prover took until now."""
    found, sums = processes(), {}
    for pid, (_, _, seconds) in found.items():
        top = top_of(pid, found, known, command)
        if top:
            sums[top] = sums.get(top, 0) + seconds
    for top, seconds in sums.items():
        taken[top] = max(taken.get(top, 0), seconds)
    # One that has not started its program yet is looked at again.
    for it in [it for it in known if not known[it]]:
        del known[it]


def run(log, command):
    """Runs a command, writes to the log what it took, and returns its status."""
    known, taken, begun = {}, {}, time.monotonic()
    child = subprocess.Popen(command)
    while True:
        pid, status, usage = os.wait4(child.pid, os.WNOHANG)
        if pid:
            break
        look(child.pid, known, taken)
        time.sleep(LOOKS)
    child.returncode = os.waitstatus_to_exitcode(status)
    lines = [f"{known[top][0]}\t{known[top][1]}\t{seconds:.2f}\n" for top, seconds in taken.items()]
    lines.append(f"whole\t{time.monotonic() - begun:.2f}\t{usage.ru_utime + usage.ru_stime:.2f}\n")
    with open(log, "w", encoding="utf-8") as file:
        file.writelines(lines)
    return child.returncode


def read(log):
    """Returns the seconds by crate and kind, those by the clock, and those of the whole."""
    by_crate, clock, whole = {}, 0.0, 0.0
    with open(log, encoding="utf-8") as file:
        for line in file:
            first, second, seconds = line.rstrip("\n").split("\t")
            if first == "whole":
                clock, whole = float(second), float(seconds)
                continue
            row = by_crate.setdefault(first, dict.fromkeys(KINDS, 0.0))
            row[second] += float(seconds)
    return by_crate, clock, whole


def table(log):
    by_crate, clock, whole = read(log)
    row = lambda name, values: f"| {name} | " + " | ".join(f"{it / 60:.1f}" for it in values) + " |"
    print("| Crate | Proof | Tests | Edits | All |\n|---|---:|---:|---:|---:|")
    for crate, of_kind in sorted(by_crate.items(), key=lambda it: -sum(it[1].values())):
        values = [of_kind[kind] for kind in KINDS]
        print(row(f"`{crate}`", [*values, sum(values)]))
    sums = [sum(it[kind] for it in by_crate.values()) for kind in KINDS]
    print(f"| the rest | | | | {(whole - sum(sums)) / 60:.1f} |")
    print(row("all", [*sums, whole]))
    print(f"\nProcessor minutes, in {clock / 60:.1f} minutes by the clock.")


def main(words):
    if len(words) >= 3 and words[0] == "run":
        return run(words[1], words[2:])
    if len(words) == 2 and words[0] == "table":
        table(words[1])
        return 0
    print(__doc__, end="", file=sys.stderr)
    return 1


if __name__ == "__main__":
    sys.exit(main(sys.argv[1:]))
