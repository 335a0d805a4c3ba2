"""A folder of runs: what is kept of each, how a run is added, and whether it is as it was.

Each run has a folder of its own, called after it, with copies of its files by the names `spec`, `view`, `labels`, `table` and, where they
are kept, `events`, and with `digests`: their SHA-256, as `sha256sum` writes them. A run is made in a folder whose name begins with a dot,
and gets its place in one step, when all of it is on the disk. So an add that is interrupted leaves no run, and two do not harm each other.
"""
import contextlib
import errno
import fcntl
import functools
import hashlib
import os
import re
import secrets
import shutil
import stat
import subprocess
import tempfile
import urllib.parse

import digests
import terminal
from file_table import asked, lines_of, program, refuse

# The file by which a folder is known to be one of runs.
MARK = "wfprov-runs-1"
# What is kept of each run, and what may be kept of it.
WORDS, EVENTS = ("spec", "view", "labels", "table"), "events"
DIGESTS, FIRST_LINE, LINE = "digests", "#wfprov run 1", re.compile("([0-9a-f]{64})  ([a-z]+)")
BEGUN = ".adding-"
# The answers about items of a run, and about what is none.
ANSWERS, ABSENT = {"yes", "no", "hidden"}, {"unknown", "clash"}
ITEM = re.compile("[A-Za-z0-9_-]{1,64}[.][A-Za-z0-9_-]{1,64}")
# A view that shows everything.
EVERYTHING = b"{}\n"


def entry_of(name):
    """Returns the name of the folder of a run: letters, digits, `_`, `-`, `~` and dots stay, but for a dot at its beginning."""
    entry = urllib.parse.quote(os.fsencode(name), safe="")
    return "%2E" + entry[1:] if entry.startswith(".") else entry


class Run:
    """A run in its folder, and its name."""

    def __init__(self, path, name=""):
        self.path, self.name, self.trusted = path, name, set()

    def place(self, word):
        """Returns the path of a file of the run."""
        return os.path.join(self.path, word)

    @functools.cached_property
    def kept(self):
        """The SHA-256 of each file when the run was added, by its word."""
        first, *lines = terminal.read_text(self.place(DIGESTS)).splitlines() or [""]
        found = {told[2]: told[1] for told in map(LINE.fullmatch, lines) if told}
        if first != FIRST_LINE or len(found) != len(lines) or set(found) - {EVENTS} != set(WORDS):
            refuse(self.place(DIGESTS), "it does not say what is kept of a run")
        return found

    def compare(self, word, digest):
        """Refuses the run where a file has another digest than it had."""
        if digest != self.kept[word]:
            refuse(self.place(word), "its SHA-256 is another than when the run was added")

    def trust(self, words):
        """Compares the digests of files, of each once."""
        for word in set(words) - self.trusted:
            with open(self.place(word), "rb") as file:
                self.compare(word, digests.digest_of(file)[1])
            self.trusted.add(word)

    def values(self):
        """Returns the fields of the values of the table. What is read is what has the digest."""
        text = terminal.read_text(self.place("table"))
        self.compare("table", hashlib.sha256(text.encode()).hexdigest())
        return [fields for fields in lines_of(self.place("table"), text) if fields[0] == "value"]

    def answers(self, queries):
        """Returns the answers of the program to pairs of items, from the labels."""
        try:
            told = asked("ask", list(map(self.place, ("spec", "view", "labels"))), queries)
        except terminal.Wrong as wrong:
            refuse("wfprov", wrong)
        for word in sorted(set(told) - ANSWERS):
            if word not in ABSENT:
                refuse("wfprov", f"it wrote `{word}`, which is no answer")
            items = sorted({f"`{item}`" for item in queries[told.index(word)]})
            refuse(self.place("labels"), f"they have no item {' or '.join(items)}: the table is one of another run")
        return told


def runs_in(folder):
    """Returns the runs of a folder, by name. What is no run is refused, since it may have been one."""
    entries = os.listdir(folder)
    if MARK not in entries:
        refuse(folder, f"it is no folder of runs, which has a file `{MARK}`")
    runs = []
    for entry in entries:
        if entry != MARK and not entry.startswith("."):
            name = os.fsdecode(urllib.parse.unquote_to_bytes(entry)) if entry.isascii() else ""
            if entry_of(name) != entry:
                refuse(os.path.join(folder, entry), "it is no run")
            runs.append(Run(os.path.join(folder, entry), name))
    return sorted(runs, key=lambda run: run.name)


def prepare(folder):
    """Makes a folder of runs where there is none. One that holds other files is refused."""
    os.makedirs(folder, exist_ok=True)
    entries = os.listdir(folder)
    if entries and MARK not in entries:
        refuse(folder, "it holds other files, and is no folder of runs")
    if not entries:
        with open(os.path.join(folder, MARK), "ab"):
            pass
        sync_folder(os.path.dirname(os.path.abspath(folder)))


def sweep(folder):
    """Takes away what adds left that were killed, if no add is at work. Where files cannot be locked, it stays."""
    with contextlib.suppress(OSError), open(os.path.join(folder, MARK), "r+b") as mark:
        fcntl.flock(mark, fcntl.LOCK_EX | fcntl.LOCK_NB)
        for entry in os.listdir(folder):
            if entry.startswith(BEGUN):
                shutil.rmtree(os.path.join(folder, entry), ignore_errors=True)


@contextlib.contextmanager
def begun(folder):
    """Makes a folder in which a run can be made, and takes it away in the end. Meanwhile no other add sweeps."""
    with open(os.path.join(folder, MARK), "rb") as mark:
        with contextlib.suppress(OSError):
            fcntl.flock(mark, fcntl.LOCK_SH)
        path = os.path.join(folder, f"{BEGUN}{os.getpid()}-{secrets.token_hex(8)}")
        os.mkdir(path)
        try:
            yield path
        finally:
            shutil.rmtree(path, ignore_errors=True)


def state_of(file):
    """Returns by what a change of an open file is known. A pipe has no such thing."""
    state = os.fstat(file.fileno())
    return (state.st_size, state.st_mtime_ns) if stat.S_ISREG(state.st_mode) else None


def copied(path, target):
    """Copies a file, and returns its SHA-256. One that changes meanwhile is refused, also while it grows."""
    found = hashlib.sha256()
    with open(path, "rb") as file, open(target, "xb") as copy:
        before = state_of(file)
        for part in digests.parts_of(file):
            found.update(part)
            copy.write(part)
            if state_of(file) != before:
                refuse(path, "it changed while it was read")
        sync(copy)
    return found.hexdigest()


def written(data, target):
    """Writes bytes to a new file, and returns their SHA-256."""
    with open(target, "xb") as file:
        file.write(data)
        sync(file)
    return hashlib.sha256(data).hexdigest()


def sync(file):
    """Waits until what was written to a file is on the disk."""
    file.flush()
    os.fsync(file.fileno())


def sync_folder(path):
    """Waits until the entries of a folder are on the disk."""
    descriptor = os.open(path, os.O_RDONLY)
    try:
        os.fsync(descriptor)
    finally:
        os.close(descriptor)


def fill(path, sources):
    """Copies the files of a run into its folder, with their digests. Where it has no view, everything is shown."""
    found = {}
    for word, source in sources.items():
        target = os.path.join(path, word)
        found[word] = copied(source, target) if source is not None else written(EVERYTHING, target)
    lines = [FIRST_LINE, *(f"{digest}  {word}" for word, digest in found.items())]
    written("".join(line + "\n" for line in lines).encode(), os.path.join(path, DIGESTS))
    sync_folder(path)


def digest_of_labels(run):
    """Returns the SHA-256 of the label file that the program writes of the events of a run."""
    words = [program(), "ingest", run.place("spec"), run.place(EVENTS)]
    with tempfile.TemporaryFile() as errors:
        with subprocess.Popen(words, stdin=subprocess.DEVNULL, stdout=subprocess.PIPE, stderr=errors) as ran:
            digest = digests.digest_of(ran.stdout)[1]
        errors.seek(0)
        if ran.returncode:
            refuse("wfprov", terminal.ended(errors.read(digests.PART), ran.returncode))
    return digest


def try_files(run):
    """Refuses a run whose files do not fit each other: the program reads all of them, and has each item of the table."""
    items = [(fields[1], item) for fields in run.values() for item in fields[6].split(" ")]
    for name, item in items:
        if not ITEM.fullmatch(item):
            refuse(run.place("table"), f"`{name}` has the item `{item}`, which is no name of an item")
    run.answers([(item, item) for _, item in items])
    if EVENTS in run.kept and digest_of_labels(run) != run.kept["labels"]:
        refuse(EVENTS, "the program writes other labels of them than `labels`")


def put(path, target, name):
    """Gives a run that is made its place, unless there is one."""
    try:
        os.rename(path, target)
    except OSError as error:
        if error.errno in (errno.EEXIST, errno.ENOTEMPTY):
            refuse_taken(name)
        refuse(name, terminal.reason(error))


def refuse_taken(name):
    """Refuses a name that a run has."""
    refuse(name, "there is a run of this name")


def add(folder, name, sources):
    """Adds a run of a name. `sources` has the paths of its files by their words. Nothing is added where anything is refused."""
    if not name:
        refuse("call", "the name of a run is empty")
    prepare(folder)
    target = os.path.join(folder, entry_of(name))
    if os.path.lexists(target):
        refuse_taken(name)
    sweep(folder)
    with begun(folder) as path:
        try:
            fill(path, sources)
            try_files(Run(path))
            put(path, target, name)
        except (terminal.Wrong, OSError) as error:
            raise terminal.Wrong(said_of(error, path, folder)) from None
    sync_folder(folder)


def said_of(error, path, place):
    """Returns what an error says, with the files of a run by their words alone. `place` is said where it names none."""
    said = str(error) if isinstance(error, terminal.Wrong) else f"{error.filename or place}: {terminal.reason(error)}"
    return said.replace(path + os.sep, "")


def faults(run):
    """Returns what is wrong with a run that is kept, and nothing where it is as it was when it was added."""
    try:
        there = set(os.listdir(run.path)) - {DIGESTS}
        found = [f"{word}: it is not there" for word in sorted(run.kept.keys() - there)]
        found += [f"{word}: it was not there when the run was added" for word in sorted(there - run.kept.keys())]
        if not found:
            run.trust(run.kept)
            try_files(run)
        return found
    except (terminal.Wrong, OSError) as error:
        return [said_of(error, run.path, run.path)]
