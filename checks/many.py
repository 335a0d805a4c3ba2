"""Tries many cases at random, each by its number and in a folder of its own, on the processors that there are.

Where something differs, the files of the case are left in the folder that the variable KEEP names, under the number of the case.
"""
import argparse
import collections
import functools
import multiprocessing
import os
import random
import re
import shutil
import subprocess
import sys
import tempfile

TOP = os.path.dirname(os.path.dirname(os.path.abspath(__file__)))
sys.path.insert(0, os.path.join(TOP, "tools"))
import wfprov


class Drawn:
    """A case that is drawn at random: the program that is tried, what draws, a folder of files, and counts of what was compared."""

    def __init__(self, program, draw, folder):
        self.program, self.draw, self.folder, self.counts = program, draw, folder, collections.Counter()

    def path(self, name):
        return os.path.join(self.folder, name)

    def write(self, name, data):
        with open(self.path(name), "wb") as file:
            file.write(data if isinstance(data, bytes) else data.encode())

    def said(self, words):
        """Returns the status and the text that a command ends with."""
        ran = subprocess.run([self.program, *words], cwd=self.folder, stdout=subprocess.PIPE, stderr=subprocess.STDOUT, check=False)
        return ran.returncode, ran.stdout.decode()


class Calls:
    """Calls of the program that a shell makes in a folder, one after the other: to start each from here would take longer than it takes."""

    def __init__(self):
        self.wanted = []

    def want(self, words, text, status=0):
        """Adds a call, with the text and the status that are wanted of it."""
        self.wanted.append((words, (status, text)))

    def made(self, program, folder):
        """Yields the words of each call, with the status and the text that are wanted, and those that are found."""
        with open(os.path.join(folder, "calls"), "w", encoding="utf-8") as file:
            file.writelines(f"\"$program\" {' '.join(words)} 2>&1; printf '\\n= %s\\n' $?\n" for words, _ in self.wanted)
        told = {**os.environ, "program": program}
        done = subprocess.run(["sh", "calls"], cwd=folder, env=told, stdin=subprocess.DEVNULL, stdout=subprocess.PIPE, check=True)
        found = re.split(r"\n= (\d+)\n", done.stdout.decode())
        for (words, wanted), text, status in zip(self.wanted, found[:-1:2], found[1::2], strict=True):
            yield words, wanted, (int(status), text)


def tried_one(make, compared, program, seed, number):
    """Returns the counts and the differences of the case of a number."""
    with tempfile.TemporaryDirectory() as folder:
        try:
            case = make(program, random.Random(f"{seed} {number}"), folder)
            differences = list(compared(case, number))
        except wfprov.Ended as error:
            raise AssertionError(f"grammar {number}: {error}") from None
        if differences and os.environ.get("KEEP"):
            shutil.copytree(folder, os.path.join(os.environ["KEEP"], str(number)), dirs_exist_ok=True)
        return case.counts, differences


def tried(about, make, compared):
    """Returns the number of cases that the words of the call ask for, and the counts and differences of all. `make` makes a case, and `compared`
    takes it with its number and gives its differences."""
    words = argparse.ArgumentParser(description=about.splitlines()[0])
    words.add_argument("program", type=os.path.abspath)
    words.add_argument("--grammars", type=int, default=1000)
    words.add_argument("--seed", type=int, default=1)
    words.add_argument("--jobs", type=int, default=len(os.sched_getaffinity(0)))
    args = words.parse_args()
    counts, differences = collections.Counter(), []
    with multiprocessing.Pool(args.jobs) as pool:
        one = functools.partial(tried_one, make, compared, args.program, args.seed)
        for own, found in pool.imap_unordered(one, range(args.grammars)):
            counts += own
            differences += found
    return args.grammars, counts, differences


def tell(kinds, counts, differences, least):
    """Prints how much was compared of each kind and how much of it differs. `least` has a line of text for the first difference of a kind."""
    for kind in kinds:
        own = [difference for difference in differences if difference.words[0] == kind]
        print(f"{kind}: {counts[kind]} compared, {len(own)} differ")
        for difference in sorted(own)[:1]:
            print(f"  grammar {difference.number}, {least(difference)}: {difference.found} in place of {difference.wanted}")
