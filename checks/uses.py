#!/usr/bin/env python3
"""Compares the table of crates in docs/ARCHITECTURE.md with crates.txt: each crate has a row, and the row names the crates that it uses.
And crates.txt names for a crate only other crates that its files name.

  python3 checks/uses.py

A row that ends in words, as `and what they stand on`, names some of them. A line is printed for each row that differs, and the status is
then 1.
"""
import glob
import os
import re
import sys

TOP = os.path.dirname(os.path.dirname(os.path.abspath(__file__)))
ROW = re.compile(r"\| `(\w+)` \| .* \| (.*?) ?\|")
NAME = re.compile(r"`(\w+)`")
WORD = re.compile(r"\w+")
# Words of a row that does not name all.
IN_PART = re.compile(r"\bwhat\b|the crates of|those of definitions")


def text_of(path):
    with open(os.path.join(TOP, path), encoding="utf-8") as file:
        return file.read()


def crates():
    """Returns for each crate those that it uses."""
    lines = (line.split("#")[0].partition(":") for line in text_of("crates.txt").splitlines() if ":" in line)
    return {name.split()[0]: set(words.split()) for name, _, words in lines}


def words_in(name):
    """Returns the words of the files of a crate."""
    paths = (path for part in ("src", "specs", "proofs") for path in glob.glob(f"{TOP}/crates/{name}/{part}/**", recursive=True))
    return {word for path in paths if os.path.isfile(path) for word in WORD.findall(text_of(path))}


def without_need(known):
    """Yields a line for each crate that is named for another whose files do not name it."""
    for name, used in known.items():
        unnamed = sorted((used & known.keys()) - words_in(name))
        if unnamed:
            yield f"crates.txt names {', '.join(unnamed)} for {name}, whose files do not"


def main():
    known = crates()
    table = text_of("docs/ARCHITECTURE.md").partition("| Crate | What it is for | Uses |")[2].partition("\n## ")[0]
    rows = {row[1]: row[2] for row in map(ROW.fullmatch, table.splitlines()) if row}
    wrong = [f"{name} has no row" for name in known if name not in rows] + [f"{name} is no crate" for name in rows if name not in known]
    for name in known.keys() & rows.keys():
        named = set(NAME.findall(rows[name]))
        missing = set() if IN_PART.search(rows[name]) else known[name] - named
        if missing or named - known[name]:
            wrong.append(f"{name} uses {', '.join(sorted(missing)) or 'all that is named'}, and not {', '.join(sorted(named - known[name])) or 'less'}")
    wrong += without_need(known)
    print("".join(f"{line}\n" for line in sorted(wrong)), end="")
    return bool(wrong)


if __name__ == "__main__":
    sys.exit(main())
