"""The table that an importer writes beside SPEC and EVENTS, which says which items are which files, and questions about files.

A name means a file as files.py tells it. A file rests on another if any item of the one rests on any item of the other. All questions go
to the program in one call, so the answers are proved; what this module adds is which items are which files. It needs Python's standard
library alone.
"""
import os
import re
import subprocess
import tempfile

import terminal

HERE = os.path.dirname(os.path.dirname(os.path.abspath(__file__)))
FIRST_LINE, WIDTHS = "#wfprov files 1", {"action": 6, "value": 7}
# How many files a message lists at most.
SHOWN = 20


def refuse(place, what):
    """Refuses what stands at a place."""
    raise terminal.Wrong(f"{place}: {what}")


def refuse_several(place, name, files):
    """Refuses a name that means several files, with the list of them."""
    refuse(place, f"`{name}` means {len(files)} files: {', '.join(files[:SHOWN])}{', and more' if len(files) > SHOWN else ''}")


def plain(field):
    """Returns the text of a field of the table."""
    pairs = {"t": "\t", "n": "\n", "r": "\r", "\\": "\\"}
    parts = field.split("\\\\")
    return "\\".join("".join(part if not number else pairs.get(part[:1], part[:1]) + part[1:] for number, part in enumerate(piece.split("\\")))
                     for piece in parts)


def lines_of(path, text):
    """Yields the fields of each line of a table. The path is said of a line that is none."""
    lines = text.split("\n")
    if lines[0] != FIRST_LINE:
        refuse(f"{path} line 1", f"this is no table of an importer, which begins with `{FIRST_LINE}`")
    is_plain = "\\" not in text
    for number, line in enumerate(lines[1:], 2):
        if line:
            fields = line.split("\t")
            if len(fields) != WIDTHS.get(fields[0]):
                refuse(f"{path} line {number}", "this is no line of an action or a value")
            yield fields if is_plain else list(map(plain, fields))


class File:
    """A value of the table: its name in the record, its path and checksum, the action and role that made it, and its items."""

    def __init__(self, fields):
        _, self.identity, self.path, self.checksum, self.action, self.role, items = fields
        self.items = items.split(" ")

    def name(self):
        """Returns the name by which it is shown."""
        return self.path or self.identity

    def names(self):
        """Yields the names that mean it: some twice, and an empty text where one is not there. The end of a path is one where the path is none itself."""
        yield from (self.identity, self.path, self.checksum, self.action, f"{self.action} {self.role}" if self.action else "", *self.items)
        start = self.path.find("/")
        while start >= 0:
            yield self.path[start + 1:]
            start = self.path.find("/", start + 1)


class Table:
    """The files and actions of a run, and the files by their names."""

    def __init__(self, path):
        self.path, self.files, self.actions, self.by_name = path, [], {}, {}
        for fields in lines_of(path, terminal.read_text(path)):
            if fields[0] == "value":
                self.files.append(File(fields))
            else:
                self.actions[fields[1]] = fields[1:]
        for file in self.files:
            for name in set(file.names()) - {""}:
                self.by_name.setdefault(name, []).append(file)

    def file(self, name):
        """Returns the file that a name means."""
        found = self.by_name.get(name, [])
        exact = [file for file in found if name in (file.identity, file.path)]
        found = exact if len(exact) == 1 else found
        if len(found) == 1:
            return found[0]
        if found:
            refuse_several(self.path, name, [f"`{file.identity}`" + (f" ({file.path})" if file.path else "") for file in found])
        if name in self.actions:
            refuse(self.path, f"the action `{name}` has the state {self.actions[name][3]}, and made no file")
        refuse(self.path, f"`{name}` is no file, checksum or action")
        return None

    def shown(self, file):
        """Returns the name by which a file is shown, with its name in the record where several files have its path."""
        alike = sum(other.path == file.path for other in self.by_name.get(file.path, []))
        return file.name() if alike < 2 else f"{file.path} ({file.identity})"

    def made(self, word):
        """Returns the files of the actions of a name, a tool, or a software."""
        actions = [fields[0] for fields in self.actions.values() if word in (fields[0], fields[2]) or word and word in fields[4]]
        if not actions:
            refuse(self.path, f"no action has the name, the tool or the software `{word}`")
        return [file for file in self.files if file.action in set(actions)]


def program():
    """Returns the path of the program."""
    built = os.path.join(HERE, "crates/wfprov/out/wfprov")
    return os.environ.get("WFPROV") or (built if os.access(built, os.X_OK) else os.path.join(HERE, "wfprov"))


def asked(command, words, queries):
    """Returns the answers of the program to pairs of items, by `ask` or `trace` on the files of these words."""
    with tempfile.NamedTemporaryFile("wb", suffix=".queries") as file:
        file.write("".join(f"{first} {second}\n" for first, second in queries).encode())
        file.flush()
        ran = subprocess.run([program(), command, *words, file.name], stdout=subprocess.PIPE, stderr=subprocess.PIPE, check=False)
    told = ran.stdout.decode("utf-8", "backslashreplace").split()
    if ran.returncode:
        raise terminal.Wrong(terminal.ended(ran.stderr, ran.returncode))
    if len(told) != len(queries):
        raise terminal.Wrong(f"{program()}: {len(told)} answers to {len(queries)} questions")
    return told


class Asker:
    """Asks the program about pairs of files, all of them in one call."""

    def __init__(self, command, spec, view, run):
        self.command, self.words = command, [spec, view, run]

    def found(self, pairs):
        """Returns for each pair of files the answers to the pairs of their items, by these."""
        queries = [(first, second) for one, other in pairs for first in one.items for second in other.items]
        try:
            answers = iter(asked(self.command, self.words, queries))
        except terminal.Wrong as wrong:
            refuse("wfprov", wrong)
        found = []
        for one, other in pairs:
            found.append({(first, second): next(answers) for first in one.items for second in other.items})
            if {"unknown", "clash"} & set(found[-1].values()):
                refuse(self.words[2], f"it has no item of `{one.name()}` or of `{other.name()}`: the table is one of another run")
        return found

    def told(self, pairs):
        """Returns for each pair of files which answers there are to the pairs of their items."""
        return [set(found.values()) for found in self.found(pairs)]

    def joined(self, pairs):
        """Returns the answer to each pair of files, which is `yes` where any item of the second rests on any of the first, and the first
        two items to which it is the answer."""
        found = [{answer: two for two, answer in reversed(answers.items())} for answers in self.found(pairs)]
        return [next((word, two[word]) for word in ("yes", "hidden", "no") if word in two) for two in found]

    def answers(self, pairs):
        """Returns the answer to each pair of files."""
        return [answer for answer, _ in self.joined(pairs)]

    def related(self, table, file, backwards, tool):
        """Returns the files that rest on a file, or those on which it rests, in the order of the table. `tool` is said before a note."""
        others = [other for other in table.files if other is not file]
        itself, *told = self.told([(file, file), *((other, file) if backwards else (file, other) for other in others)])
        if itself == {"hidden"}:
            refuse(table.path, f"`{file.name()}` is hidden by the view")
        if "hidden" in itself:
            terminal.complain(tool, f"the view hides an item of `{file.name()}`: what is joined to it by that item alone is not listed")
        return [other for other, answers in zip(others, told) if "yes" in answers]


def named_in(path):
    """Yields the pairs of names of a file of questions: two in each line, with a tab between. No other sign than a newline ends a line."""
    *lines, last = re.split("\r?\n", terminal.read_text(path))
    for number, line in enumerate(lines + [last] if last else lines, 1):
        names = line.split("\t")
        if len(names) != 2:
            refuse(f"{path} line {number}", "a question is two names with a tab between")
        yield names


def questions(table, path):
    """Returns the pairs of files of a file of questions."""
    return [(table.file(first), table.file(second)) for first, second in named_in(path)]


def listed(files):
    """Returns a line for each file."""
    return "".join(terminal.escaped(file.name()) + "\n" for file in files)
