"""Which files a call has, and what the program says of them."""
import collections
import os
import re
import shutil
import subprocess
import tempfile

import terminal
from diagnosis.label_files import MAGIC

TOP = os.path.dirname(os.path.dirname(os.path.dirname(os.path.abspath(__file__))))
# A form of a call: the command of the program, the words as they are written, the files by their names in messages of the program, how many
# of them are given at least, how many labels stand behind them, and which files belong where.
Form = collections.namedtuple("Form", "command words names least hexes order")
ORDER = "The words are SPEC VIEW EVENTS QUERIES, in this order, and LABELS may stand in the place of EVENTS."
PLAIN = Form("", "SPEC [VIEW] [EVENTS | LABELS] [QUERIES]", ("spec", "view", "events", "queries"), 1, 0, ORDER)
# The other forms, by the option that stands before the words.
FORMS = {
    "--decide": Form("decide", "SPEC VIEW HEX HEX", ("spec", "view"), 2, 2, ORDER),
    "--compare": Form("compare", "SPEC VIEW VIEW", ("spec", "view", "coarse"), 3, 0, "The words are SPEC VIEW VIEW, in this order."),
    "--consult": Form("consult", "PACKAGE HEX HEX", ("package",), 1, 2, "`wfprov package SPEC VIEW` writes a package."),
    "--words": Form(
        "words",
        "SPEC VIEW AUTO [LABELS [QUERIES]]",
        ("spec", "view", "auto", "labels", "queries"),
        3,
        0,
        "The words are SPEC VIEW AUTO LABELS QUERIES, in this order.",
    ),
}
NO_VIEW = "-"
# The statuses of a program that accepted, refused, or could not read a file.
CHECKED = (0, 2, 3)
HEX = re.compile("(?:[0-9A-Fa-f]{2})*")

# What the program says: its line on standard error, which is empty where it accepts the files, its status, and the lines of its answer to
# `compare`.
Said = collections.namedtuple("Said", "line status answer")


def is_text(path):
    """Whether a path is UTF-8, as the words of the program are."""
    return not any("\ud800" <= sign <= "\udfff" for sign in path)


class Files:
    """The files of a call, by their names in messages of the program. What is no regular file, or has a path that the program takes for no
    word, is read once, into a folder, so that the program and this package read the same."""

    def __init__(self, form, words, folder):
        count = len(words) - form.hexes
        self.form, self.hexes, self.folder, self.names = form, words[count:], folder, {}
        self.paths = dict(zip(form.names, words[:count]))
        if form is PLAIN and words[1:] == [NO_VIEW]:
            del self.paths["view"]
        for name, path in self.paths.items():
            is_default = name in ("view", "coarse") and path == NO_VIEW
            self.paths[name] = self.named("default view", "the default view", b"{}") if is_default else self.kept(path)
        if form is PLAIN and self.begins_labels():
            self.paths["labels"] = self.paths.pop("events")
        self.no_items = self.named("no items", "a label file without items") if form.command == "words" and "labels" not in self.paths else None

    def named(self, name, what, data=b""):
        """Returns the path of a file that is made, and is called something in messages."""
        path = os.path.join(self.folder, name)
        with open(path, "wb") as file:
            file.write(data)
        self.names[path] = what
        return path

    def kept(self, path):
        """Returns the path of a file that may be read twice."""
        if is_text(path) and (not os.path.exists(path) or os.path.isfile(path) or os.path.isdir(path)):
            return path
        copy = os.path.join(self.folder, str(len(self.names)))
        self.names[copy] = path
        if os.path.exists(path) and not os.path.isdir(path):
            with open(path, "rb") as file, open(copy, "wb") as held:
                shutil.copyfileobj(file, held)
        return copy

    def begins_labels(self):
        """Whether the third file begins as a label file does, so that it is read as LABELS and not as EVENTS."""
        try:
            with open(self.paths["events"], "rb") as file:
                return file.read(len(MAGIC)) == MAGIC
        except (KeyError, OSError):
            return False

    def name(self, path):
        """Returns how a file is called in messages."""
        return self.names.get(path, path)

    def command(self):
        """Returns the words of the program's call."""
        held, form = self.paths, self.form
        first = [path for name, path in held.items() if name not in ("events", "labels", "queries")]
        third = held.get("labels") or held.get("events") or self.no_items
        if third:
            return [form.command or ("ask" if "labels" in held else "trace"), *first, third, held.get("queries", os.devnull)]
        return [form.command or ("view" if "view" in held else "check"), *first, *self.hexes]

    def shown_command(self):
        return " ".join(["wfprov", *map(str, map(self.name, self.command()))])


def write_no_items(program, files):
    """Leaves the label file of an empty run where a call has none, so that the program comes to it."""
    if files.no_items:
        with open(files.no_items, "wb") as file:
            subprocess.run([program, "ingest", files.paths["spec"], os.devnull], stdin=subprocess.DEVNULL, stdout=file, stderr=subprocess.DEVNULL, check=False)


def said_by(program, files):
    """Returns what the program says of the files."""
    write_no_items(program, files)
    answer = subprocess.PIPE if files.form.command == "compare" else subprocess.DEVNULL
    ran = subprocess.run([program, *files.command()], stdin=subprocess.DEVNULL, stdout=answer, stderr=subprocess.PIPE, check=False)
    if ran.returncode:
        return Said(terminal.ended(ran.stderr, ran.returncode), ran.returncode, [])
    return Said("", 0, (ran.stdout or b"").decode("utf-8", "backslashreplace").splitlines())


def program():
    """Returns the path of the program, or None where it is not built."""
    path = os.environ.get("WFPROV") or os.path.join(TOP, "crates/wfprov/out/wfprov")
    return path if os.path.isfile(path) and os.access(path, os.X_OK) else None


def form_of(words):
    """Returns the form of a call, and its words."""
    form = FORMS.get(words[0]) if words else None
    if form is None:
        if not words or words[0].startswith("--") or len(words) > len(PLAIN.names):
            raise terminal.Wrong(f"the words are not {PLAIN.words}; see --help")
        return PLAIN, words
    count, digits = len(words) - 1 - form.hexes, ", with two hexadecimal digits for each byte" if form.hexes else ""
    if not form.least <= count <= len(form.names) or not all(HEX.fullmatch(word) for word in words[1 + count :]):
        raise terminal.Wrong(f"the words behind {words[0]} are not {form.words}{digits}; see --help")
    return form, words[1:]


def diagnosed(words, use):
    """Returns what `use` makes of the files of a call."""
    form, words = form_of(words)
    with tempfile.TemporaryDirectory() as folder:
        return use(Files(form, words, folder))
