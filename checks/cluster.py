#!/usr/bin/env python3
"""Compares the parts of examples/cluster with one `ask` of the program: text, message and status, on worked cases and on random ones.

  python3 checks/cluster.py PROGRAM COUNT SEED    COUNT random files of questions, of which some have lines that are refused

The parts are cut, done and put together as the engines do it, but in this process and one after the other. The last line is
`N passed, M failed`, and the status is 1 where one failed.
"""
import os
import random
import subprocess
import sys
import tempfile

TOP = os.path.dirname(os.path.dirname(os.path.abspath(__file__)))
sys.path.insert(0, os.path.join(TOP, "examples/cluster"))
import jobs
import cutting
import joining
from terminal import Wrong

LINE = [os.path.join(TOP, "examples/line", name) for name in ("spec", "view", "labels", "queries")]
OTHER = [os.path.join(TOP, "examples/skewed", name) for name in ("spec", "view")]
NAME = b"n" * 64
# A part of LINES lines, and its questions.
QUESTIONS = {
    "a line that is refused ends the whole with its number": (2, b"r.a r.b\nr.b r.a\nr.a i1.y\nr.a\nr.a r.b\nr.a r.b\nr.a r.b\n"),
    "of two lines that are refused the first counts": (2, b"r.a r.b\n\nr.a r.b\nr.a  r.b\nr.a r.b\nr\n"),
    "the first line is refused": (1, b" r.a r.b\nr.a r.b\n"),
    "the last line of a part is refused": (2, b"r.a r.b\nr.a r.b\nr.a r.b\nx\nr.a r.b\n"),
    "a line that is too long ends the whole": (2, b"r.a r.b\n\nr.b r.a\n" + b"a" * 65537 + b"\nr.a r.b\nx\n"),
    "a file that is one line, and too long": (2, b"a" * 200000),
    "a line of the greatest length is wrong": (2, b"r.a r.b\n\nr.b r.a\n" + b"a" * 65536 + b"\nr.a r.b\n"),
    "a line longer than any question is wrong": (2, b"r.a r.b\n\nr.b r.a\n" + b"a" * 261 + b"\nr.a r.b\n"),
    "behind a wrong line one that is too long does not count": (3, b"r.a r.b\nr.b\n" + b"a" * 65537 + b"\n"),
    "the longest question is answered": (1, NAME + b"." + NAME + b" " + NAME + b"." + NAME + b"\r\nr.a r.b\r\n"),
    "no questions have no answers": (2, b""),
    "empty lines have no answers": (2, b"\n\r\n\n\n\n\r"),
    "a line of two carriage returns is wrong": (1, b"\n\r\r\n"),
    "a last line without its end is answered": (2, b"r.a r.b\nr.b r.a\nr.a r.b"),
    "names that look like words for a program": (1, b"--help.-h -.-\n-x.a _._\n"),
    "bytes that are no text are wrong": (1, b"r.a r.b\n\xff\xfe r.b\nr.a r.b\n"),
    "a zero byte is wrong": (2, b"r.a r.b\nr.a\0r.b\nr.a r.b\n"),
}


def damaged():
    """Returns label files of the line that are refused."""
    with open(LINE[2], "rb") as file:
        whole = file.read()
    return {
        "an empty label file": b"",
        "a label file without its head": whole[:20],
        "a label file of another kind": b"WFL2" + whole[4:],
        "a label file of another specification": whole[:4] + bytes(32) + whole[36:],
        "a label file that was cut off": whole[:55],
        "a name that stands twice": whole + whole[-8:],
        "a label that is none": whole[:-1] + b"\xff",
        "two labels that are none": whole[:42] + b"\xff" + whole[43:-1] + b"\xff",
    }


def one(program, files):
    """Returns status, message and text of one `ask`."""
    ran = subprocess.run([program, "ask", *files], stdin=subprocess.DEVNULL, stdout=subprocess.PIPE, stderr=subprocess.PIPE, check=False)
    return ran.returncode, ran.stderr, ran.stdout


def by_parts(files, lines):
    """Returns the same of parts of so many lines."""
    with tempfile.TemporaryDirectory(prefix="wfprov {x} '\"\n") as folder:
        cutting.cut(folder, *files, str(lines))
        for name in jobs.left(folder):
            jobs.answer(os.path.join(folder, name))
        joining.join(folder)
        with open(os.path.join(folder, "answers"), "rb") as file:
            return (*jobs.told_of(folder), file.read())


class Cases:
    """Counts cases."""

    def __init__(self, program):
        self.program, self.passed, self.failed = program, 0, 0

    def take(self, title, files, lines, wanted=b""):
        """Tries whether parts say what one `ask` says, which is to have this in its message."""
        told = one(self.program, files)
        try:
            found = by_parts(files, lines)
        except Wrong as wrong:
            found = str(wrong)
        self.count(title, found == told and wanted in told[1], f"{told} of one, {found} of parts")

    def count(self, title, is_so, what):
        """Counts a case."""
        self.passed, self.failed = self.passed + is_so, self.failed + (not is_so)
        print(f"ok: {title}" if is_so else f"FAILED: {title}: {what[:2000]}")


def try_files(cases, folder):
    """Tries files that are not there, are no files, or are refused."""
    absent = os.path.join(folder, "absent")
    for place, name in enumerate(("specification", "view", "label file", "file of questions")):
        for word, path in (("is not there", absent), ("is a folder", folder)):
            files = LINE[:place] + [path] + LINE[place + 1 :]
            cases.take(f"a {name} that {word}", files, 2, b"fault: reading " + (b"spec", b"view", b"labels", b"queries")[place])
    cases.take("a specification that is none comes before what is not there", [LINE[3], absent, absent, absent], 2, b"refused: spec: NotJson")
    cases.take("a view that is not safe comes before what is not there", [*OTHER, absent, absent], 2, b"refused: view: Unsafe")
    asked, labels = os.path.join(folder, "asked"), os.path.join(folder, "labels")
    put(asked, b"i1.y i1.y\nr.b r.a\n")
    for title, data in damaged().items():
        put(labels, data)
        cases.take(title, [*LINE[:2], labels, asked], 1, b"refused: labels: ")


def put(path, data):
    """Writes a file."""
    with open(path, "wb") as file:
        file.write(data)


def random_questions(draw):
    """Returns a file of questions, of which some are empty or wrong."""
    names = [b"r.a", b"r.b", b"i1.y", b"i2.y", b"-x.a"]
    wrong = [b"r.a", b"r.a r.b r.a", b"r.a  r.b", b"a b", b"\r", b"r.a r.b ", b"x" * draw.randrange(255, 70000)]
    lines, danger = [], draw.choice([0, 0, 0.02, 0.1])
    for _ in range(draw.randrange(60)):
        kind = draw.random()
        question = draw.choice(names) + b" " + draw.choice(names)
        lines.append(draw.choice(wrong) if kind < danger else b"" if kind > 0.9 else question)
    return b"".join(line + draw.choice([b"\n", b"\n", b"\r\n"]) for line in lines) + draw.choice([b"", b"\r", b"r.a r.b"])


def try_random(cases, asked, count, draw):
    """Tries random files of questions, as one case."""
    for number in range(count):
        put(asked, random_questions(draw))
        files, lines = [*LINE[:3], asked], draw.randrange(1, 20)
        told, found = one(cases.program, files), by_parts(files, lines)
        if found != told:
            cases.count(f"random questions {number} in parts of {lines} lines", False, f"{told} of one, {found} of parts")
            return
    cases.count(f"{count} random files of questions", True, "")


def passes_over(cases, folder):
    """Tries what the parts do not see: a wrong entry that no question names."""
    asked, labels = os.path.join(folder, "asked"), os.path.join(folder, "labels")
    put(asked, b"r.b r.a\n")
    put(labels, damaged()["a label that is none"])
    files = [*LINE[:2], labels, asked]
    found = by_parts(files, 1)
    cases.count("a wrong entry that no question names is passed over", one(cases.program, files)[0] == 2 and found == (0, b"", b"no\n"), f"{found}")


def notices(cases, folder):
    """Tries that a comparison would fail: of a part of which the last answer is another one, and of a message with another number."""
    asked = os.path.join(folder, "asked")
    put(asked, b"r.a r.b\nr.b r.a\nx\n")
    files = [*LINE[:3], asked]
    told, found = one(cases.program, files), by_parts(files, 2)
    others = [(told[0], told[1], told[2].replace(b"no", b"yes")), (told[0], told[1].replace(b"3", b"1"), told[2]), (0, told[1], told[2])]
    cases.count("another text, message or status is told apart", found == told and found not in others, f"{found}")


def main(words):
    program, count, seed = os.path.abspath(words[0]), int(words[1]), int(words[2])
    os.environ["WFPROV"] = program
    cases = Cases(program)
    with tempfile.TemporaryDirectory() as folder:
        asked = os.path.join(folder, "asked")
        for title, (lines, data) in QUESTIONS.items():
            put(asked, data)
            cases.take(title, [*LINE[:3], asked], lines)
        try_files(cases, folder)
        passes_over(cases, folder)
        notices(cases, folder)
        try_random(cases, asked, count, random.Random(seed))
    print(f"{cases.passed} passed, {cases.failed} failed")
    return bool(cases.failed)


if __name__ == "__main__":
    sys.exit(main(sys.argv[1:]))
