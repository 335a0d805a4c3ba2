"""Puts the answers of the parts together, with the status and the message that one `ask` ends with."""
import os
import re
import shutil

from cutting import is_question
from jobs import PIECE, REFUSED_ENTRY, Wrong, put_told, putting, told_of
import terminal

REFUSED_LINE = re.compile(rb"refused: queries line (\d+): (\w+)")


def listed(folder):
    """Returns the name, the lines and the questions of each part, and how `ask` ends behind the last."""
    rows, _, end = terminal.read_bytes(os.path.join(folder, "list")).partition(b"end ")
    status, _, said = end.partition(b"\n")
    return [(name.decode(), int(lines), int(questions)) for name, lines, questions in map(bytes.split, rows.splitlines())], (int(status), said)


def of_call(told):
    """Returns how `ask` ends before the first question, if a part told that: with the first of the entries that parts refuse, as `ask` does."""
    found = [(status, said) for status, said in told if status and not REFUSED_LINE.match(said)]
    entries = [int(entry[2]) if entry else -1 for entry in (REFUSED_ENTRY.match(said) for _, said in found)]
    return found[entries.index(min(entries))] if found else None


def lines_written(path):
    """Returns how many lines were written to a file."""
    data = terminal.read_bytes(path)
    if data and not data.endswith(b"\n"):
        raise Wrong(f"{path}: the last answer is not whole")
    return data.count(b"\n")


def try_answers(job, said, questions):
    """Tries whether a part has an answer to each question, or to each that stands before the line that is refused."""
    found = REFUSED_LINE.match(said)
    if found:
        with open(os.path.join(job, "queries"), "rb") as file:
            questions = sum(is_question(line) for _, line in zip(range(int(found[1]) - 1), file))
    answers = lines_written(os.path.join(job, "answers"))
    if answers != questions:
        raise Wrong(f"{job}: {answers} answers to {questions} questions")


def all_told(folder, rows):
    """Returns how each part ended."""
    told = [told_of(os.path.join(folder, name)) for name, _, _ in rows]
    missing = [name for (name, _, _), kept in zip(rows, told) if kept is None]
    if missing:
        raise Wrong(f"{folder}: {len(missing)} of {len(rows)} parts are not done; the first of them is {missing[0]}")
    return told


def outcome(folder):
    """Returns the parts whose answers count, and how one `ask` ends."""
    rows, end = listed(folder)
    told = all_told(folder, rows)
    refused = of_call(told)
    if refused:
        return [], refused
    counted, before = [], 0
    for (name, lines, questions), (status, said) in zip(rows, told):
        job = os.path.join(folder, name)
        try_answers(job, said, questions)
        counted.append(job)
        if status:
            found = REFUSED_LINE.match(said)
            return counted, (status, b"refused: queries line %d: %b\n" % (before + int(found[1]), found[2]))
        before += lines
    return counted, end


def join(folder):
    """Puts the answers of the parts together."""
    counted, (status, said) = outcome(folder)
    with putting(os.path.join(folder, "answers")) as out:
        for job in counted:
            with open(os.path.join(job, "answers"), "rb") as file:
                shutil.copyfileobj(file, out, PIECE)
    put_told(folder, status, said)


def tell(done):
    """Writes what is done as `ask` does, and returns its status."""
    told = told_of(done)
    if told is None:
        raise Wrong(f"{done}: it is not done")
    with open(os.path.join(done, "answers"), "rb") as file:
        while piece := file.read(PIECE):
            terminal.write(piece)
    terminal.say(told[1])
    return told[0]
