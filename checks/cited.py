#!/usr/bin/env python3
"""Prints which files of lemmas are cited outside their crate, and where.

  python3 checks/cited.py            prints the table that stands in docs/ARCHITECTURE.md
  python3 checks/cited.py --check    tells whether it stands there as printed
  python3 checks/cited.py --write    writes it there in the place of the old one

The lemmas of wf_model may be cited by any crate above it, and are left out.
"""
import glob
import os
import re
import sys

TOP = os.path.dirname(os.path.dirname(os.path.abspath(__file__)))
PAGE = f"{TOP}/docs/ARCHITECTURE.md"
HEAD = "| Lemmas of | Cited in |"
ROWS = re.compile(r"\A(?:\|.*\n)*\n")
USE = re.compile(r"\buse Rattle\.(\w+)\.proofs\.([\w.]+)\.\{")


def crates():
    """Returns the crates, in the order of crates.txt."""
    with open(f"{TOP}/crates.txt", encoding="utf-8") as file:
        return [line.partition(":")[0].split()[0] for line in file if ":" in line.partition("#")[0]]


def citations(names):
    """Returns for each crate the files of lemmas of others that it cites, by their crates."""
    found = {}
    for name in names:
        for path in glob.glob(f"{TOP}/crates/{name}/proofs/**/*.antt", recursive=True):
            with open(path, encoding="utf-8") as file:
                for other, cited in USE.findall(file.read()):
                    if other in names and other not in (name, "wf_model"):
                        found.setdefault((other, name), set()).add(cited)
    return found


def table():
    """Yields the lines of the table."""
    names = crates()
    found = citations(names)
    yield HEAD
    yield "|---|---|"
    for name in names:
        cells = [f"`{other}` ({', '.join(sorted(found[name, other]))})" for other in names if (name, other) in found]
        if cells:
            yield f"| `{name}` | {', '.join(cells)} |"


def main(words):
    printed = "\n".join(table()) + "\n\n"
    with open(PAGE, encoding="utf-8") as file:
        page = file.read()
    if words == ["--check"]:
        return 0 if printed in page else 1
    if words == ["--write"]:
        before, _, rest = page.partition(HEAD + "\n")
        with open(PAGE, "w", encoding="utf-8") as file:
            file.write(before + printed + ROWS.sub("", rest))
    else:
        sys.stdout.write(printed.rstrip("\n") + "\n")
    return 0


if __name__ == "__main__":
    sys.exit(main(sys.argv[1:]))
