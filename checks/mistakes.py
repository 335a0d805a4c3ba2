#!/usr/bin/env python3
"""Tries the mistakes of tools/golden/mistakes/cases.py: what tools/diagnose.py says of each has the kind and the place that were worked out
by hand, and with the mend that it names the program accepts. Prints a line for each, `ok WORDS` or `wrong WORDS: why`.

  python3 checks/mistakes.py PROGRAM FOLDER
"""
import os
import re
import subprocess
import sys

TOP = os.path.dirname(os.path.dirname(os.path.abspath(__file__)))
sys.path[:0] = [os.path.join(TOP, "tools"), os.path.join(TOP, "tools/golden/mistakes")]
import cases
import diagnose
from diagnosis import call

NAMES = ("spec", "view", "events", "queries")


def block(name):
    """Returns a file that docs/TUTORIAL.md writes."""
    with open(os.path.join(TOP, "docs/TUTORIAL.md"), encoding="utf-8") as file:
        return re.search(rf"```json {name}\n(.*?)```", file.read(), re.S)[1].encode()


def files_of(folder):
    """Returns the files that a case begins with."""
    if folder == "tutorial":
        return {"spec": block("samples"), "view": b"{}\n", "events": block("counted"), "queries": b"w.ref liver.counts\n"}
    files = {}
    for name in (*NAMES, "labels"):
        with open(os.path.join(TOP, "examples", folder, name), "rb") as file:
            files[name] = file.read()
    return files


def edited(data, edits):
    text = data.decode()
    for old, new in edits:
        if old != cases.ALL and text.count(old) != 1:
            raise ValueError(f"`{old}` stands {text.count(old)} times in the file")
        text = new if old == cases.ALL else text.replace(old, new)
    return text.encode()


def told(files, names):
    """Returns what the tool says of files, as one line, and its status."""
    for name, data in files.items():
        with open(name, "wb") as file:
            file.write(data)
    lines, status = call.diagnosed(list(names), diagnose.findings)
    return " ".join(" ".join(lines).split()), status


def wrong(files, mended, names, message, place, said):
    """Returns why a mistake is not told or not mended, or nothing."""
    text, status = told(files, names)
    line, _, column = place.partition(":")
    at = f"{names[-1]}, line {line}, column {column}: " if place and "LineTooLong" not in message else f"{names[-1]}, line {line}: " if place else ""
    if status != 2 or f": refused: {message} " not in f"{text} " or at not in text or said not in text:
        return f"wanted `{message}` at {place} with `{said}`: {text}"
    text, status = told({**files, **mended}, names)
    return "" if status < 2 and text.startswith("wfprov accepts the files") else f"not mended: {text}"


def of_texts(name, case):
    folder, _, edits, message, place, mends = case
    files = files_of(folder)
    files[name] = edited(files[name], edits)
    return wrong(files, {name: edited(files[name], mends)}, NAMES[: NAMES.index(name) + 1], message, place, "")


def of_labels(program, case):
    folder, _, edit, message, place, said, mend = case
    files = files_of(folder)
    made = subprocess.run([program, "ingest", *(os.path.join(TOP, "examples", folder, name) for name in ("spec", "events"))], capture_output=True, check=True)
    files["labels"] = edit(files["labels"])
    mended = {"labels": mend(files["labels"], made.stdout)}
    return wrong(files, mended, ("spec", "view", "labels"), message, place, said)


def main(words):
    program, folder = map(os.path.abspath, words)
    os.environ["WFPROV"] = program
    os.chdir(folder)
    tried = [(name, case, of_texts(name, case)) for name, held in zip(NAMES, (cases.SPECS, cases.VIEWS, cases.EVENTS, cases.QUERIES)) for case in held]
    tried += [("labels", case, of_labels(program, case)) for case in cases.LABELS]
    for name, case, why in tried:
        print(f"wrong {name}: {case[1]}: {why}" if why else f"ok {name}: {case[1]}")
    return 0


if __name__ == "__main__":
    sys.exit(main(sys.argv[1:]))
