"""The jobs of a folder: what stands in one, how it is done, and what it needs.

A job that is done has `answers`, and `told` with a status and a message. A file is written under another name first, so what has its
name is whole. What dies leaves no `told`.
"""
import contextlib
import os
import re
import shutil
import subprocess
import sys
import tempfile

HERE = os.path.dirname(os.path.realpath(__file__))
TOP = os.path.dirname(os.path.dirname(HERE))
sys.path.insert(0, os.path.join(TOP, "tools"))
import labels as label_files
import terminal
from terminal import Wrong

NAME = re.compile(r"[A-Za-z0-9_][A-Za-z0-9_.-]*")
REFUSED_ENTRY = re.compile(rb"(refused: labels: \w+ entry )(\d+)")
PIECE = 1 << 20
BEGUN = ".put."


def program():
    """Returns the program."""
    built = os.path.join(TOP, "crates/wfprov/out/wfprov")
    return os.environ.get("WFPROV") or (built if os.access(built, os.X_OK) else shutil.which("wfprov") or built)


def called(words, out=subprocess.DEVNULL):
    """Runs a command whose text goes to `out`, and returns its status and what it said."""
    try:
        ran = subprocess.run(words, stdin=subprocess.DEVNULL, stdout=out, stderr=subprocess.PIPE, check=False)
    except OSError as error:
        raise Wrong(f"{words[0]}: {terminal.reason(error)}") from None
    return ran.returncode, ran.stderr


@contextlib.contextmanager
def putting(path):
    """Opens a file that gets its name when it is whole. Each process of each machine has a name of its own for what it has begun."""
    folder, name = os.path.split(path)
    begun = os.path.join(folder, f"{BEGUN}{name}.{os.uname().nodename}.{os.getpid()}")
    try:
        with open(begun, "wb") as file:
            yield file
        os.rename(begun, path)
    except BaseException:
        with contextlib.suppress(FileNotFoundError):
            os.unlink(begun)
        raise


def put_told(folder, status, said):
    """Writes how `ask` ended, or would have ended: its status, and the bytes of its message."""
    with putting(os.path.join(folder, "told")) as file:
        file.write(b"%d\n%b" % (status, said))


def told_of(folder):
    """Returns the status and the message of what is done, or None where it is not done."""
    try:
        with open(os.path.join(folder, "told"), "rb") as file:
            status, _, said = file.read().partition(b"\n")
    except FileNotFoundError:
        return None
    return (int(status), said) if status.isdigit() else None


def beside(job, name):
    """Returns the path of a file of a job: its own, or that of the folder in which it lies."""
    own = os.path.join(job, name)
    return own if os.path.lexists(own) else os.path.join(os.path.dirname(job), name)


def label(job):
    """Labels the run of a job. Returns what `ingest` says where it refuses the run."""
    with putting(os.path.join(job, "labels")) as out:
        status, said = called([program(), "ingest", beside(job, "spec"), os.path.join(job, "events")], out)
        if status == 2:
            return said
        if status:
            raise Wrong(f"{job}: wfprov ingest: {terminal.ended(said, status)}")
    return None


def pick(job, path):
    """Picks the entries that a job needs out of the label file of its folder, as `labels.py pick` does. Returns their numbers there."""
    digest = os.path.join(os.path.dirname(job), "sha256")
    wanted = label_files.names_in([os.path.join(job, "queries")])
    picked = label_files.pick(terminal.read_text(digest) if os.path.exists(digest) else None, beside(job, "labels"), wanted)
    with open(path, "wb") as out:
        out.write(picked.labels)
    return picked.numbers


def ask(job, labels, numbers=None):
    """Answers the questions of a job. Of entries that were picked, `numbers` has the numbers that a message is to name."""
    with putting(os.path.join(job, "answers")) as out:
        status, said = called([program(), "ask", beside(job, "spec"), beside(job, "view"), labels, os.path.join(job, "queries")], out)
        if status not in (0, 2):
            raise Wrong(f"{job}: wfprov ask: {terminal.ended(said, status)}")
    put_told(job, status, REFUSED_ENTRY.sub(lambda found: b"%b%d" % (found[1], numbers[int(found[2])]), said) if numbers else said)


def refuse(job, said):
    """Notes that a job is done without answers."""
    with putting(os.path.join(job, "answers")):
        pass
    put_told(job, 2, said)


def label_and_ask(job):
    """Labels or picks what a job needs, and asks its questions."""
    own = os.path.join(job, "labels")
    if os.path.lexists(os.path.join(job, "events")):
        said = label(job)
        if said is not None:
            refuse(job, said)
            return
    if os.path.lexists(own):
        ask(job, own)
        return
    with tempfile.TemporaryDirectory(prefix="wfprov-") as work:
        picked = os.path.join(work, "picked")
        ask(job, picked, pick(job, picked))


def answer(job):
    """Does a job, if it is not done. What a job that died had begun to write is removed once the job is done."""
    job = os.path.abspath(job)
    if told_of(job):
        return
    try:
        label_and_ask(job)
    except (OSError, Wrong):
        # Another one may have done the job meanwhile, and removed what was begun here.
        if not told_of(job):
            raise
    for name in os.listdir(job):
        if name.startswith(BEGUN):
            with contextlib.suppress(FileNotFoundError):
                os.unlink(os.path.join(job, name))


def left(folder):
    """Returns the names of the jobs in a folder that are not done, in order."""
    if os.path.lexists(os.path.join(folder, "cutting")):
        raise Wrong(f"{folder}: the questions are not cut to their end: remove the folder, and cut them once more")
    found = []
    for name in sorted(os.listdir(folder)):
        job = os.path.join(folder, name)
        if os.path.lexists(os.path.join(job, "queries")) and not told_of(job):
            if not NAME.fullmatch(name):
                raise Wrong(f"{job}: the name of a job has letters, digits, `_`, `-` and `.`, and begins with none of the last two")
            found.append(name)
    return found


def size(path):
    """Returns the bytes of a file, or 0 where it is not there."""
    try:
        return os.stat(path).st_size
    except FileNotFoundError:
        return 0


def lines_in(path):
    """Returns how many lines a file has."""
    with open(path, "rb") as file:
        return sum(piece.count(b"\n") for piece in iter(lambda: file.read(PIECE), b"")) + 1


def needs(job):
    """Returns the megabytes and the minutes that a job takes at most, by the sizes of its files."""
    job = os.path.abspath(job)
    queries, events, labels = os.path.join(job, "queries"), size(os.path.join(job, "events")), size(beside(job, "labels"))
    lines, texts = lines_in(queries), size(beside(job, "spec")) + size(beside(job, "view"))
    whole = events or os.path.lexists(os.path.join(job, "labels"))
    held = 12 * max(events, labels) if whole else 600 * lines + 2 * size(queries)
    seconds = 30 + (events + labels) / 2e6 + lines / 1e4
    return 64 + round((held + 180 * texts) / 1e6), 1 + round(seconds / 60)
