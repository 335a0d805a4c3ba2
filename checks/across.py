#!/usr/bin/env python3
"""Compares what tools/runs.py answers of random sets of runs with a plain search over the joined graph of what `wfprov export` writes of them.

  python3 checks/across.py PROGRAM SETS SEED [ANSWERING ..]
  python3 checks/across.py PROGRAM make FOLDER          writes the runs of standard input, each into a folder of FOLDER, with its label file

Runs of the examples are made up by `gen`, labelled and exported under their views. A set takes some of them and gives each a random table:
files of one item or two, made or from outside, with checksums of which other runs have some, of several kinds, or none. All pairs of its
files are asked, and the lists of some are compared with these answers. It prints how often each answer came, or the first that differs, and
ends with 1 then. Each program ANSWERING answers in the place of PROGRAM in the first sets of seed 1: for each there is a line with its name
and what differs, or nothing.

The joined graph has the ports of all runs and the files. A search in it knows nothing of labels, rows or rounds.

A run to be made is a line with its name, and a line for each file that was made: first this, and then those of which it was made. Each is its
path behind its checksum and an `=`. The checksum is a number, `e` for that of an empty file, or nothing, or stands there as it is.
"""
import collections
import itertools
import os
import random
import subprocess
import sys
import tempfile

TOP = os.path.dirname(os.path.dirname(os.path.abspath(__file__)))
sys.path.insert(0, os.path.join(TOP, "tools"))
import actions
import from_actions
import labels
import runs
import terminal
from across import keeping
from across.asking import side_by_side

# The specifications and views of which runs are made, and how many of each.
SOURCES = [
    ("line", "view"), ("phylogeny", "view"), ("phylogeny", None), ("phylogeny", "outer"), ("twisting", None), ("twisting", "outer"),
    ("pair", "first"), ("pair", None), ("phylogeny-once", "view"), ("mapping-cwl", None), ("skewed", "outer"),
]
EACH = 2
# In how many sets another program answers.
TURNED = 2
# What stands in paths that a page, a picture, a shell, a table or a terminal would read otherwise.
ODD = ["", "", "", " ", "<b>&amp;\"'", "$(x)`y`;|*?", "\t", "\n\r", "\\t\\", "\x1b[31m", "\u202e", "%2F", "{}->[]", "a:b", "\v\x85\u2028"]
WORDS = ("yes", "hidden", "unknown")
EMPTY = "sha256$e3b0c44298fc1c149afbf4c8996fb92427ae41e4649b934ca495991b7852b855"


class Made:
    """A run that was made up: its files, the items that its view shows and hides, and the links between its ports."""

    def __init__(self, program, folder, source, number):
        example, view = source
        self.paths = {"spec": os.path.join(TOP, "examples", example, "spec"), "view": view and os.path.join(TOP, "examples", example, view)}
        draw = random.Random(number)
        for word, words in (("events", ["gen", "spec", str(draw.randint(1, 9)), str(number)]), ("labels", ["ingest", "spec", "events"])):
            self.paths[word] = os.path.join(folder, f"{word}{number}")
            with open(self.paths[word], "wb") as file:
                file.write(self.ran(program, words))
        with open(self.paths["labels"], "rb") as file:
            self.items = [name.decode() for name, _ in labels.entries_of(file.read())]
        everything = os.path.join(folder, f"everything{number}")
        with open(everything, "wb") as file:
            file.write(keeping.EVERYTHING)
        self.seen = {**self.paths, "view": self.paths["view"] or everything}
        calls = ["view", "spec", "view"], ["export", "spec", "view", "events"]
        self.read(*(self.ran(program, words, self.seen).decode().splitlines() for words in calls))

    def ran(self, program, words, paths=None):
        """Returns what a command writes. A word is a file of the run where it is called so."""
        paths = paths or self.paths
        return subprocess.run([program, words[0], *(paths.get(word, word) for word in words[1:])], stdout=subprocess.PIPE, check=True).stdout

    def read(self, shown, exported):
        """Reads the lines of a view and of a run. An instance that is not expanded yet has the links of its module."""
        pairs = {line.split()[0]: [pair.split(">") for pair in line.split()[2:]] for line in shown}
        self.links, self.visible = collections.defaultdict(list), set()
        for kind, name, *rest in map(str.split, exported):
            if kind == "item":
                self.visible.add(name)
            elif kind == "link":
                self.links[name].append(rest[0])
            elif kind == "pending":
                for one, other in pairs[rest[0]]:
                    self.links[f"{name}.{one}"].append(f"{name}.{other}")


File = collections.namedtuple("File", "identity path checksum action items content")


def checksum_of(draw, content, form):
    """Returns how a checksum of a content is written, and its kind and number, or nothing. The digits are those of no file, but for content 0."""
    kind = "sha1" if form != "kinds" else draw.choice(["sha1", "sha256"])
    if form != "sums" and draw.random() < 0.2:
        return "", None
    empty = {"sha1": "da39a3ee5e6b4b0d3255bfef95601890afd80709", "sha256": EMPTY.partition("$")[2]}
    digits = empty[kind] if content == 0 else f"{content:0{len(empty[kind])}x}"
    return draw.choice([f"{kind}${digits}", digits, f"{kind.upper()}:{digits.upper()}"]), (kind, content)


def files_of(draw, made, contents, form):
    """Returns random files of a run."""
    items = draw.sample(made.items, min(len(made.items), draw.randint(2, 12)))
    files = []
    while items:
        own = [items.pop() for _ in range(min(len(items), draw.choice([1, 1, 1, 2])))]
        checksum, content = checksum_of(draw, draw.randint(0, contents), form)
        number = len(files)
        path = draw.choice(["", f"d/{draw.choice(ODD)}{number}", f"d{draw.choice(ODD)}/e/{number}"])
        files.append(File(f"f{number}", path, checksum, draw.choice(["", f"act {number}"]), own, content))
    return files


def table_of(files):
    """Returns the table of files."""
    escaped = {"\\": "\\\\", "\t": "\\t", "\n": "\\n", "\r": "\\r"}
    rows = [["value", file.identity, file.path, file.checksum, file.action, "made" if file.action else "", " ".join(file.items)] for file in files]
    return "".join("\t".join("".join(escaped.get(sign, sign) for sign in field) for field in row) + "\n" for row in [["#wfprov files 1"], *rows])


class Joined:
    """The joined graph of runs, each with its files. A node is a port, a file that came in, one that was reached, or a content that a run reached."""

    def __init__(self, members):
        self.members = members
        self.files = [(run, number) for run, (_, files) in enumerate(members) for number in range(len(files))]
        self.owners = [collections.defaultdict(list) for _ in members]
        for run, number in self.files:
            for item in self.file(run, number).items:
                self.owners[run][item].append(number)

    def file(self, run, number):
        return self.members[run][1][number]

    def next_of(self, node, level):
        """Yields the nodes to which edges lead. Of level 1 are edges to what a view hides, and of level 2 those to what no checksum tells."""
        kind, run, what = node
        made = self.members[run][0]
        if kind == "in":
            yield from self.from_items(run, self.file(run, what).items, level)
        elif kind == "port":
            yield from (("port", run, port) for port in made.links[what])
            yield from (("is", run, number) for number in self.owners[run][what] if what in made.visible)
        elif kind == "content":
            yield from (("came", other, number) for other, number in self.files if other != run and self.file(other, number).content == what)
        if kind == "came":
            yield "in", run, what
        if kind == "is" and self.file(run, what).content:
            yield "content", run, self.file(run, what).content
        if kind in ("is", "start") and level == 2:
            yield from (("came", *other) for other in self.files if other[0] != run and self.may_be(self.file(run, what), self.file(*other)))

    def from_items(self, run, items, level):
        """Yields the nodes to which edges lead from the items of a file."""
        made = self.members[run][0]
        for item in items:
            if item in made.visible:
                yield from (("port", run, port) for port in made.links[item])
            for other, owners in self.owners[run].items() if level else ():
                if item not in made.visible or other not in made.visible:
                    yield from (("is", run, number) for number in owners)

    def is_hidden(self, run, number):
        """Returns whether a view hides an item of a file."""
        return not self.members[run][0].visible.issuperset(self.file(run, number).items)

    @staticmethod
    def may_be(file, other):
        """Returns whether a file from outside may be a file, and no checksum says whether it is."""
        is_told = file.content and other.content and file.content[0] == other.content[0]
        return not other.action and (other.path or other.checksum) and not is_told

    def reached(self, start, level):
        """Returns the files that are reached from a file."""
        content = self.file(*start).content
        seen = {("start", *start), ("in", *start)} | ({("content", start[0], content)} if content else set())
        left = list(seen)
        while left:
            for node in self.next_of(left.pop(), level):
                if node not in seen:
                    seen.add(node)
                    left.append(node)
        return {node[1:] for node in seen if node[0] in ("is", "came")} - {start}

    def words(self, start):
        """Returns the answer to whether each file rests on one."""
        found = [self.reached(start, level) for level in range(len(WORDS))]
        return {file: next((word for word, files in zip(WORDS, found) if file in files), "no") for file in self.files}


def record_of(lines):
    """Returns the record of a run of such lines."""
    values, made = {}, []
    for number, line in enumerate(lines):
        files = [word.rpartition("=")[::2] for word in line.split()]
        for checksum, path in files:
            told = f"sha256${int(checksum):064x}" if checksum.isdecimal() else EMPTY if checksum == "e" else checksum
            values.setdefault(path, {"id": path, "path": path, "checksum": told, "outside": True})
        values[files[0][1]]["outside"] = False
        made.append({"name": f"act {number}", "made": [["made", files[0][1]]], "used": [["used", path] for _, path in files[1:]]})
    return from_actions.record_of({"values": list(values.values()), "actions": made}, "run")


def make(program, folder):
    """Writes the runs of standard input."""
    for name, *lines in (block.splitlines() for block in sys.stdin.read().strip().split("\n\n")):
        os.makedirs(os.path.join(folder, name))
        place = {word: os.path.join(folder, name, word) for word in ("spec", "events", "table", "labels")}
        made = actions.imported(record_of(lines), False)
        for word, text in (("spec", made.spec), ("events", made.events), ("table", made.table)):
            with open(place[word], "w", encoding="utf-8", newline="") as file:
                file.write(text)
        with open(place["labels"], "wb") as file:
            subprocess.run([program, "ingest", place["spec"], place["events"]], stdout=file, check=True)
    return 0


def captured(words):
    """Returns what a call of runs.py writes to standard output, without its notes."""
    with tempfile.TemporaryFile() as out, open(os.devnull, "wb") as nothing:
        kept = os.dup(1), os.dup(2)
        os.dup2(out.fileno(), 1)
        os.dup2(nothing.fileno(), 2)
        try:
            runs.work(words)
        finally:
            for number, descriptor in zip((1, 2), kept):
                os.dup2(descriptor, number)
                os.close(descriptor)
        out.seek(0)
        return out.read().decode().splitlines()


class Set:
    """A random set of runs, in a folder of its own."""

    def __init__(self, draw, pool, folder):
        self.store, self.questions = os.path.join(folder, "store"), os.path.join(folder, "questions")
        form = draw.choice(["sums", "sums", "some", "kinds"])
        contents = draw.choice([5, 12, 30])
        members = [(made, files_of(draw, made, contents, form)) for made in draw.choices(pool, k=draw.randint(2, 5))]
        self.names = sorted(draw.choice(ODD) + f"run {number}" for number in range(len(members)))
        self.joined, self.folder = Joined(members), folder
        side_by_side(self.add, range(len(members)))

    def add(self, number):
        made, files = self.joined.members[number]
        table = os.path.join(self.folder, f"table{number}")
        with open(table, "w", encoding="utf-8", newline="") as file:
            file.write(table_of(files))
        keeping.add(self.store, self.names[number], {**{word: made.paths[word] for word in ("spec", "view", "labels")}, "table": table})

    def name(self, place):
        """Returns a name that means one file alone."""
        return f"{self.names[place[0]]}:{self.joined.file(*place).identity}"

    def compare(self, draw, counts):
        """Compares all answers, and the lists of two files, and tells the first that is another."""
        files = [place for place in self.joined.files if not set(self.name(place)) & set("\t\n\r")]
        with open(self.questions, "w", encoding="utf-8", newline="") as file:
            file.writelines(f"{self.name(first)}\t{self.name(second)}\n" for first, second in itertools.product(files, files))
        told = iter(captured(["ask", self.store, self.questions]))
        wanted = {place: self.joined.words(place) for place in self.joined.files}
        for first, second in itertools.product(files, files):
            word = next(told)
            counts[word] += 1
            if word != wanted[first][second]:
                raise AssertionError(f"`{self.name(second)}` rests on `{self.name(first)}`: {word}, and {wanted[first][second]} is wanted")
        for place in draw.sample(self.joined.files, min(2, len(self.joined.files))):
            self.compare_list("impact", place, wanted[place], counts)
            self.compare_list("lineage", place, {other: words[place] for other, words in wanted.items()}, counts)

    def compare_list(self, kind, place, words, counts):
        """Compares a list with the answers."""
        lines = []
        for other, word in words.items():
            if word != "no":
                file = self.joined.file(*other)
                name = terminal.escaped(self.names[other[0]]), terminal.escaped(file.path or file.identity)
                lines.append("\t".join([*name, *([] if word == "yes" else [word])]))
        try:
            told = captured([kind, "--possible", self.store, self.name(place)])
        except terminal.Wrong as wrong:
            if "hidden by the view" not in str(wrong) or not self.joined.is_hidden(*place):
                raise
            counts["lists of hidden files"] += 1
            return
        counts["lists"] += 1
        if told != lines:
            raise AssertionError(f"{kind} of `{self.name(place)}` is {told}, and {lines} is wanted")


def difference(pool, answering, numbers, counts):
    """Returns what first differs where a program answers, in the sets of these numbers, or nothing."""
    os.environ["WFPROV"] = os.path.abspath(answering)
    for number in numbers:
        draw = random.Random(number)
        with tempfile.TemporaryDirectory() as own:
            try:
                Set(draw, pool, own).compare(draw, counts)
            except (AssertionError, terminal.Wrong) as error:
                return f"seed {number}: {error}"
    return ""


def main(words):
    if words[1] == "make":
        return make(words[0], words[2])
    program, first, others = os.path.abspath(words[0]), int(words[2]), words[3:]
    # Whether files are on the disk is no matter of what is asked here, and to wait for it takes long.
    keeping.sync = keeping.sync_folder = lambda _: None
    counts = collections.Counter()
    with tempfile.TemporaryDirectory() as folder:
        jobs = [(program, folder, source, number) for number, source in enumerate(SOURCES * EACH)]
        pool = side_by_side(lambda job: Made(*job), jobs)
        differs = difference(pool, program, range(first, first + int(words[1])), counts)
        print(differs or "  " + ", ".join(f"{counts[name]} {name}" for name in sorted(counts)))
        for other in others:
            print(f"{os.path.basename(other)}: {difference(pool, other, range(1, 1 + TURNED), collections.Counter())}")
    return int(bool(differs))


if __name__ == "__main__":
    sys.exit(main(sys.argv[1:]))
