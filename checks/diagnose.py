#!/usr/bin/env python3
"""Tries each case of tools/golden/diagnose/cases.py, and prints a line for each: `ok NAME`, or `wrong NAME: why`.

  python3 checks/diagnose.py PROGRAM FOLDER          in a FOLDER into which the cases were written
  python3 checks/diagnose.py PROGRAM FOLDER --keep   writes the texts beside the cases, to be read and kept

What the program says, what the reading of the tool finds, and what was worked by hand are one line. The text is the one that is kept. Where
the program has no command `words`, what was worked by hand stands for what it says of an automaton.
"""
import os
import shlex
import sys

TOP = os.path.dirname(os.path.dirname(os.path.abspath(__file__)))
GOLDEN = os.path.join(TOP, "tools/golden/diagnose")
sys.path[:0] = [os.path.join(TOP, "tools"), GOLDEN]
import cases
import diagnose
import told
from diagnosis import call


def stand_in(program, message, path):
    """Returns the path of a program that has a command `words`, which says a message, or nothing."""
    said = f"echo {shlex.quote(message)} >&2; exit 2" if message else "exit 0"
    with open(path, "w", encoding="utf-8") as file:
        file.write(f'#!/bin/sh\n[ "$1" != words ] || {{ {said}; }}\nexec {shlex.quote(program)} "$@"\n')
    os.chmod(path, 0o755)
    return path


def tried(program, folder, name):
    """Returns what is wrong with a case, or nothing, and the text that the tool writes."""
    files, message = cases.CASES[name]
    os.chdir(os.path.join(folder, name))
    if "auto" in files and not told.has_words(program):
        program = stand_in(program, message, os.path.join(folder, "words"))
    os.environ["WFPROV"] = program
    words = told.words_of({file: files[file] if file == "hexes" else file for file in files})
    said, found = told.both(program, words)
    lines, status = call.diagnosed(words, diagnose.findings)
    wanted = 2 if message.startswith(("refused", "fault")) else 0 if name in cases.RIGHT else 1
    if (said, found, status) != (message, message, wanted):
        return f"wanted `{message}` and status {wanted}; the program says `{said}`, and the tool finds `{found}` and ends with {status}", lines
    return "", lines


def kept(name):
    """Returns the text that is kept of a case."""
    try:
        with open(os.path.join(GOLDEN, f"{name}.txt"), encoding="utf-8") as file:
            return file.read()
    except FileNotFoundError:
        return ""


def main(words):
    program, folder = map(os.path.abspath, words[:2])
    for name in cases.CASES:
        why, lines = tried(program, folder, name)
        text = "\n".join(lines) + "\n"
        if words[2:] == ["--keep"]:
            with open(os.path.join(GOLDEN, f"{name}.txt"), "w", encoding="utf-8") as file:
                file.write(text)
        elif not why and text != kept(name):
            why = "the text is not the one that is kept"
        print(f"wrong {name}: {why}" if why else f"ok {name}")


if __name__ == "__main__":
    main(sys.argv[1:])
