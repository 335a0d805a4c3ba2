#!/usr/bin/env python3
"""Compares products of Boolean matrices and gamma codes of the proved crates with the same work in plain Rust.

It makes a repository in a folder of its own with copies of the crates bool_mat and bit_pack and with a small program
that calls them, whose text stands in bench/foundations. `rt run` proves and builds it. The same work in plain Rust is
built by `rustc -O` for the processor that rt builds for, x86-64-v2. Where there is no rustc, only the proved program is
timed. The works, each on numbers drawn with a fixed seed:

- product: 102,400 products of 64x64 matrices, of which about a quarter of the pairs are joined. Each of 400 pools has
  16 drawn matrices and then the product of each pair of them, and is thrown away. In the time are drawing, adding the
  rows of each product and, in the proved program alone, a test before each product that its factors are there and fit.
  Plain Rust knows that each matrix has 64 rows; the crate takes any number up to 64.
- write: gamma codes of 10,000,000 numbers of 1 to 63 binary digits, 100,000 to a writer. Both write byte by byte.
- read: one writer's 100,000 codes, written once and read 100 times. Both read byte by byte.
- draw: the 10,000,000 numbers of `write`, which are drawn and added and not written. This time is a part of that of
  `write`, and is not taken off.

It prints for each work the seconds of both and how many times the seconds of plain Rust the proved program took. Times
are of the whole program with its start, the least of five, in turns. It ends with 1 where both do not print the same
sum, and judges nothing else. On some processors a short loop, as that of `product`, was seen to take 1.4 times as long
where a branch of it crosses a boundary of 32 bytes. Where the loop stands is chance, and an edit of either program can
move it.

Call it from anywhere; nothing need be built before: bench/foundations.py [--keep FOLDER]
"""

import argparse
import shutil
import subprocess
import sys
import tempfile
import time
from pathlib import Path

TOP = Path(__file__).resolve().parent.parent
TEXTS = Path(__file__).resolve().parent / "foundations"
WORKS = ["product", "write", "read", "draw"]
TURNS = 5
PROCESSOR = "x86-64-v2"


def make_repository(folder):
    """Copies the crates and lays the program beside them. Gives the folder of the program."""
    (folder / "HANDLES").write_text("Handles allowed: none.\n")
    (folder / "crates.txt").write_text("bool_mat:\nbit_pack:\nspeed: bool_mat bit_pack\n")
    for name in ["bool_mat", "bit_pack"]:
        shutil.copytree(TOP / "crates" / name, folder / "crates" / name, ignore=shutil.ignore_patterns("out"))
    crate = folder / "crates" / "speed"
    places = {"main": "src/main.rt"}
    places.update({name: f"proofs/{name}/Invariants.antt" for name in ["write_chunk", "draw_matrix"]})
    for name, place in places.items():
        (crate / place).parent.mkdir(parents=True, exist_ok=True)
        shutil.copy(TEXTS / f"{name}.txt", crate / place)
    subprocess.run(["git", "init", "-q", str(folder)], check=True)
    return crate


def build_proved(folder):
    """Proves and builds the program that calls the crates. Gives its path."""
    crate = make_repository(folder)
    run = subprocess.run(["rt", "run"], cwd=crate, stdout=subprocess.PIPE, stderr=subprocess.STDOUT, text=True)
    program = crate / "out" / "speed"
    if run.returncode != 0 or not program.is_file():
        sys.exit(f"{run.stdout}rt run ended with {run.returncode}")
    return program


def find_rustc():
    """The path of rustc, or None."""
    found = shutil.which("rustc")
    if found:
        return found
    places = [Path.home() / ".cargo/bin/rustc", *Path.home().glob(".rustup/toolchains/*/bin/rustc")]
    return next((str(place) for place in places if place.is_file()), None)


def build_plain(folder):
    """Builds the program in plain Rust. Gives its path, or None where there is no rustc."""
    rustc = find_rustc()
    if rustc is None:
        return None
    source, program = folder / "plain.rs", folder / "plain"
    shutil.copy(TEXTS / "plain.txt", source)
    words = [rustc, "-O", "--edition", "2021", "-C", f"target-cpu={PROCESSOR}", "-o", str(program), str(source)]
    subprocess.run(words, check=True)
    return program


def clock(program, work):
    """Runs one work. Gives the seconds and the sum that is printed."""
    begun = time.perf_counter()
    run = subprocess.run([str(program), work], stdout=subprocess.PIPE, text=True, check=True)
    return time.perf_counter() - begun, run.stdout.strip()


def compare(programs, work):
    """The least seconds of each program, which run in turns. They must print one sum."""
    seconds = [[] for _ in programs]
    sums = set()
    for _ in range(TURNS):
        for program, times in zip(programs, seconds):
            took, printed = clock(program, work)
            times.append(took)
            sums.add(printed)
    if len(sums) != 1 or sums & {"", "0"}:
        sys.exit(f"{work}: the sums are not one: {sorted(sums)}")
    return [min(times) for times in seconds]


def bench(folder):
    proved, plain = build_proved(folder), build_plain(folder)
    if plain is None:
        print("there is no rustc: only the proved program is timed")
    programs = [program for program in [proved, plain] if program is not None]
    print(f"{'work':<8} {'proved':>10} {'plain':>10} {'ratio':>7}")
    for work in WORKS:
        times = compare(programs, work)
        told = f"{work:<8} {times[0]:8.3f} s"
        if len(times) == 2:
            told += f" {times[1]:8.3f} s {times[0] / times[1]:7.2f}"
        print(told, flush=True)


def main():
    words = argparse.ArgumentParser(description=__doc__.splitlines()[0])
    words.add_argument("--keep", metavar="FOLDER", help="make the repository in this new folder, and keep it")
    given = words.parse_args()
    if given.keep:
        folder = Path(given.keep).resolve()
        folder.mkdir(parents=True)
        bench(folder)
    else:
        with tempfile.TemporaryDirectory() as folder:
            bench(Path(folder))


if __name__ == "__main__":
    main()
