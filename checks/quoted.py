#!/usr/bin/env python3
"""Tells whether what docs/LIBRARY.md quotes of the crates stands there: each line of a block of code stands in the file whose path
stands above the block, and in this order. A block may leave lines out.

  python3 checks/quoted.py
"""
import os
import re
import sys

TOP = os.path.dirname(os.path.dirname(os.path.abspath(__file__)))
BLOCK = re.compile(r"^(crates/\S+)\n\n```rust\n(.*?)^```$", re.M | re.S)


def missing(path, block):
    """Returns the first line of a block that does not follow in a file, or None."""
    with open(f"{TOP}/{path}", encoding="utf-8") as file:
        left = iter(file.read().splitlines())
    for line in block.splitlines():
        if line and line not in left:
            return line
    return None


def main():
    with open(f"{TOP}/docs/LIBRARY.md", encoding="utf-8") as file:
        page = file.read()
    blocks = BLOCK.findall(page)
    wrong = [(path, missing(path, block)) for path, block in blocks]
    for path, line in wrong:
        if line is not None:
            print(f"docs/LIBRARY.md: `{line.strip()}` does not follow in {path}")
    if len(blocks) != page.count("```rust"):
        print("docs/LIBRARY.md: a block has no path above it")
    return int(any(line is not None for _, line in wrong) or len(blocks) != page.count("```rust"))


if __name__ == "__main__":
    sys.exit(main())
