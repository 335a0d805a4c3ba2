#!/usr/bin/env python3
"""Prints the files of definitions that a reviewer of the proof must believe, in an order in which they can be read.

  python3 checks/reading.py            prints the tables that stand in docs/PROOFS.md
  python3 checks/reading.py --check    tells whether they stand there as printed
  python3 checks/reading.py --write    writes them there in the place of the old ones

The contract of `wf_top::run` cites the definitions of wf_top, which cite others, and so on. Each file that is reached stands once,
behind those that it cites, in the first part that needs it, with its first sentence and its number of lines. The last part has what
the contracts of the laws cite besides. Behind it stand the types of the code that all these files cite. Definitions of the kit's
library are not followed.
"""
import glob
import os
import re
import sys

TOP = os.path.dirname(os.path.dirname(os.path.abspath(__file__)))
PAGE = f"{TOP}/docs/PROOFS.md"
USE = re.compile(r"^(?:pub |ghost )?use Rattle\.(\w+)\.specs\.([\w.]+)\.\{", re.M)
DECLARED = re.compile(r"^(?:pub )?use Rattle\.(\w+)\.specs\.declared\.([\w.]+?)\.(\w+)(?:\.TheVariants)?\.\{", re.M)
PARTS = [
    ("What an answer means", ["cmd_ask/specs/Answers"]),
    ("Which workflows and views are accepted", ["wf_inputs/specs/Specification", "wf_inputs/specs/ViewTold"]),
    ("Runs, labels and label files", ["wf_inputs/specs/RunTold", "cmd_ingest/specs/Ingested", "wf_inputs/specs/LabelsTold"]),
    ("What labels tell", ["wf_query/specs/Answers", "wf_lineage/specs/Listed", "cmd_decide/specs/Decided"]),
    ("Paths whose modules an automaton accepts", ["wf_words/specs/Answers", "cmd_words/specs/AutoTold"]),
    ("Why an item rests on another", ["cmd_explain/specs/Reasons", "wf_reason/specs/Checked"]),
    ("Whether a coarser view denies what a finer one affirms", ["cmd_share/specs/Told"]),
    ("What a view shows, without the specification", ["wf_package/specs/PackageText", "cmd_share/specs/Consulted"]),
    ("What the other commands write", ["cmd_describe/specs/Does", "wf_export/specs/ExportText", "cmd_make/specs/Does"]),
    ("The program", ["wf_top/specs/Outcome", "wf_top/specs/Meets", "wf_top/specs/Counts"]),
]
LAWS = ["wf_laws", "label_model", "decode_model", "verdict_model", "version_model", "report_model", "chain_model", "compare_model", "words_model", "package_model", "package_laws", "outcome_laws"]
TABLES = re.compile(r"^\*\*" + PARTS[0][0] + r"\*\*.*?^Together \d+ files .*?$.*?(?=^## )", re.M | re.S)


def text_of(path):
    with open(f"{TOP}/crates/{path}", encoding="utf-8") as file:
        return file.read()


def cited(text):
    """Yields the files of definitions that a text cites, as crate, folder and name."""
    for crate, name in USE.findall(text):
        path = f"{crate}/specs/{name.replace('.', '/')}"
        if os.path.isfile(f"{TOP}/crates/{path}.antt"):
            yield path


def reach(name, order):
    """Adds a file behind those that it cites, in the order in which they are to be read."""
    if name not in order:
        text = text_of(name + ".antt")
        for other in cited(text):
            reach(other, order)
        order[name] = text


def law_files():
    """Yields the files of code with laws: those of the crates of laws, and those of others that are named for it."""
    for crate in LAWS:
        yield from sorted(glob.glob(f"{TOP}/crates/{crate}/src/*.rt"))
    for path in sorted(glob.glob(f"{TOP}/crates/*/src/law*.rt")):
        if path.split("/")[-3] not in LAWS:
            yield path


def parts():
    """Yields each part with the files that it begins from."""
    yield from PARTS
    cites = [name for path in law_files() for name in cited(text_of(os.path.relpath(path, f"{TOP}/crates")))]
    yield "What the laws say besides", cites


def row(name, text):
    """Returns the row of a file: its path, its first sentence and its number of lines."""
    first = text.splitlines()[0].removeprefix("-- ")
    return f"| crates/{name}.antt | {first} | {text.count(chr(10))} |"


def types_in(texts):
    """Returns the names of the types of the code that texts cite, by the files that declare them."""
    found = {}
    for text in texts:
        for crate, path, name in DECLARED.findall(text):
            file = f"{crate}/src/{path.replace('.', '/')}.rt"
            if os.path.isfile(f"{TOP}/crates/{file}"):
                found.setdefault(file, set()).add(name)
    return found


def tables():
    """Yields the lines of the tables."""
    order, before, lines = {}, 0, 0
    for title, roots in parts():
        for root in roots:
            reach(root, order)
        new = list(order.items())[before:]
        before = len(order)
        count = sum(text.count("\n") for _, text in new)
        lines += count
        yield from [f"**{title}**: {len(new)} files, {count:,} lines.", "", "| File | What it defines | Lines |", "|---|---|---:|"]
        yield from (row(name, text) for name, text in new)
        yield ""
    types = types_in(order.values())
    yield f"**Types of the code that they cite**: {sum(map(len, types.values()))} types in {len(types)} files."
    yield from ["", "| File | Types |", "|---|---|"]
    yield from (f"| crates/{file} | {', '.join(f'`{name}`' for name in sorted(types[file]))} |" for file in sorted(types))
    yield ""
    yield f"Together {before} files with {lines:,} lines, their comments and imports among them, and these types."


def main(words):
    printed = "\n".join(tables())
    if words not in (["--check"], ["--write"]):
        print(printed)
        return 0
    with open(PAGE, encoding="utf-8") as file:
        page = file.read()
    if words == ["--check"]:
        return 0 if printed in page else 1
    with open(PAGE, "w", encoding="utf-8") as file:
        file.write(TABLES.sub(lambda _: printed + "\n\n", page))
    return 0


if __name__ == "__main__":
    sys.exit(main(sys.argv[1:]))
