#!/usr/bin/env python3
"""A module by which a Python program talks to `wfprov`.

  import sys
  sys.path.insert(0, "FOLDER/tools")
  import wfprov

  with wfprov.Answers("spec", "view", "labels") as store:      one `ask`, kept open: the label file is read once
      answers = store.ask([("run.cfg", "run.tree"), ("run.cfg", "run.report")])
      if answers[0] is wfprov.Answer.NO: ...
  with wfprov.Answers("spec", "view", "labels", auto="auto") as store:    by paths that an automaton accepts alone

  with wfprov.Ingest("spec") as run:                           one `ingest`, kept open: labels come while the run goes on
      run.start("run")
      run.expand("run", 0, ["al", "re0", "bu", "rp"])
      for item in run.labels(wait=1.0):
          print(item.name, item.label.hex())

  wfprov.decide("spec", "view", first, second)                 and `check`, `view`, `export`, `gen`: one call of the program each
  wfprov.consult("package", first, second)                     the same by a package, without the specification
  wfprov.explain("spec", "view", "events", first, second)      and `verify`, `lineage`, `impact`
  wfprov.call(["check", "spec"])                               any command, for its text

Where the program refuses something, an exception says what: `Refused` has the place (`spec`, `queries`), the line, the kind
(`WrongShape`) and what stands behind it. `Unread`, `Unwritten` and `NoMemory` are the other ends of the program, and `Died` is raised
if it ended in a way that it never ends by itself. `BadName` is raised before a name is sent that is none, so that the store stays open.

The program is the one that an argument `program` names, or else the variable WFPROV, or the one that is built in the repository of this
file, or the first `wfprov` in PATH. Nothing is ever built. One object serves one thread.

This module is no part of what is proved: it hands on what the program says. It needs Linux and Python's standard library alone.
"""
import enum
import json
import os
import re
import selectors
import shutil
import subprocess
import sys
import tempfile
import time
from typing import BinaryIO, Dict, Iterable, Iterator, List, NamedTuple, Optional, Sequence, Tuple, TypeVar, Union

Path = Union[str, "os.PathLike[str]"]
Self = TypeVar("Self", bound="Kept")

PIECE = 65536
HEAD = 36
QUERY = re.compile(r"[A-Za-z0-9_-]{1,64}\.[A-Za-z0-9_-]{1,64} [A-Za-z0-9_-]{1,64}\.[A-Za-z0-9_-]{1,64}\n")
NAME = re.compile(r"[A-Za-z0-9_-]{1,64}")
REFUSED = re.compile(r"refused: (spec|view|coarse|auto|events|labels|queries|chain|package|label [12])(?: line (\d+))?: (\w+)(?: (.*))?")


class Answer(enum.Enum):
    """The answer to a question."""

    YES = "yes"
    NO = "no"
    HIDDEN = "hidden"
    UNKNOWN = "unknown"
    CLASH = "clash"


class Verdict(enum.Enum):
    """What two labels say."""

    YES = "yes"
    NO = "no"
    HIDDEN_1 = "hidden 1"
    HIDDEN_2 = "hidden 2"
    CLASH = "clash"


class Item(NamedTuple):
    """A data item, and its label."""

    name: str
    label: bytes


class Step(NamedTuple):
    """What `check` writes of a composite module: `cycle`, `place` and `back` are None where it does not stand inside itself."""

    name: str
    rank: int
    production: int
    cycle: Optional[int]
    place: Optional[int]
    back: Optional[Tuple[int, str]]


class Checked(NamedTuple):
    """What `check` writes: the canonical text of the specification, and its composite modules in their order."""

    text: str
    steps: List[Step]


class Seen(NamedTuple):
    """What `view` writes of a module: its name, whether the view expands it, and its pairs of an input and an output."""

    name: str
    expanded: bool
    pairs: List[Tuple[str, str]]


class Exported(NamedTuple):
    """What `export` writes: instances with their modules, items, and links from port to port."""

    leaves: List[Tuple[str, str]]
    pending: List[Tuple[str, str]]
    items: List[str]
    links: List[Tuple[str, str]]


class BadName(ValueError):
    """What was to be sent is no name of an item or of an instance. Nothing of it was sent."""


class NoProgram(Exception):
    """No program `wfprov` was found, or it cannot be started."""


class Ended(Exception):
    """The program has ended, and not because all was done."""

    def __init__(self, message: str, status: int) -> None:
        super().__init__(message)
        self.message = message
        self.status = status


class Refused(Ended):
    """A file, a line or a label is refused.

    `place` is `spec`, `view`, `coarse`, `events`, `labels`, `queries`, `chain`, `package`, `label 1` or `label 2`; `line` is a number in events,
    queries and chain, and None elsewhere; `kind` is the name of the fault, as `WrongShape`; and `about` is what stands behind it, as `modules`, or empty.
    """

    def __init__(self, message: str, status: int, place: str, line: Optional[int], kind: str, about: str) -> None:
        super().__init__(message, status)
        self.place = place
        self.line = line
        self.kind = kind
        self.about = about


class Usage(Ended):
    """The words are not those of a command."""


class Unread(Ended):
    """A file could not be read."""


class Unwritten(Ended):
    """The text could not be written."""


class NoMemory(Ended):
    """Memory was refused."""


class Died(Ended):
    """The program ended by a signal, or as `wfprov` never ends, or wrote what `wfprov` never writes."""


def end_of(status: int, message: str) -> Ended:
    """Returns the exception for a status and a message of the program."""
    told = REFUSED.fullmatch(message)
    if status == 2 and told:
        return Refused(message, status, told[1], int(told[2]) if told[2] else None, told[3], told[4] or "")
    kinds = {1: Usage, 3: Unread, 4: Unwritten, 5: NoMemory}
    if status in kinds:
        return kinds[status](message, status)
    return Died(message or (f"ended by signal {-status}" if status < 0 else f"ended with status {status}"), status)


def find(program: Optional[Path] = None) -> str:
    """Returns the path of the program."""
    named = program or os.environ.get("WFPROV")
    if named:
        return os.fspath(named)
    built = os.path.join(os.path.dirname(os.path.dirname(os.path.realpath(__file__))), "crates/wfprov/out/wfprov")
    found = built if os.access(built, os.X_OK) else shutil.which("wfprov")
    if not found:
        raise NoProgram("wfprov is not built here, and is not in PATH")
    return found


class Process:
    """The program at work on some words, with its input and its output as pipes.

    It is fed and read side by side, so neither waits for ever on a pipe that is full. What it says on its standard error goes to a file.
    """

    def __init__(self, words: Sequence[Path], program: Optional[Path] = None) -> None:
        self._errors = tempfile.TemporaryFile()
        path = find(program)
        try:
            self._child = subprocess.Popen(
                [path, *words], stdin=subprocess.PIPE, stdout=subprocess.PIPE, stderr=self._errors, bufsize=0
            )
        except OSError as error:
            self._errors.close()
            raise NoProgram(f"{path}: {error.strerror}") from None
        self._input, self._output = self._child.stdin, self._child.stdout
        os.set_blocking(self._input.fileno(), False)
        os.set_blocking(self._output.fileno(), False)
        self._due = bytearray()
        self._select = selectors.DefaultSelector()
        self._select.register(self._output, selectors.EVENT_READ)
        self.is_open = True

    @property
    def due(self) -> int:
        """How many bytes are to be written still."""
        return len(self._due)

    def send(self, text: bytes) -> None:
        """Puts a text behind what is due. It is written by `turn`."""
        if not self._input.closed:
            if not self._due:
                self._select.register(self._input, selectors.EVENT_WRITE)
            self._due += text

    def turn(self, wait: Optional[float] = None) -> bytes:
        """Writes what is due, as far as there is room, and returns what has come. Waits until one of the two can be done, or so long."""
        text = b""
        for key, _ in self._select.select(wait):
            if key.fileobj is self._output:
                text = os.read(self._output.fileno(), 4 * PIECE)
                if not text:
                    self._select.unregister(self._output)
                    self.is_open = False
            else:
                self._write()
        return text

    def _write(self) -> None:
        try:
            del self._due[: os.write(self._input.fileno(), self._due[:PIECE])]
        except BlockingIOError:
            return
        except BrokenPipeError:
            self.close_input()
            return
        if not self._due:
            self._select.unregister(self._input)

    def close_input(self) -> None:
        """Closes the input of the program. What is due is not written any more."""
        if not self._input.closed:
            if self._due:
                self._select.unregister(self._input)
            self._due.clear()
            self._input.close()

    def end(self) -> Optional[Ended]:
        """Waits until the program has ended, and returns why, or None where all was done. Its output must be at its end."""
        self.close_input()
        status = self._child.wait()
        self._errors.seek(0)
        message = self._errors.read(1 << 20).decode("utf-8", "backslashreplace").strip()
        return end_of(status, message) if status else None

    def stop(self) -> None:
        """Ends the program if it is at work still, and gives back what was used for it."""
        if self._child.poll() is None:
            self._child.kill()
        self._child.wait()
        self.close_input()
        self._select.close()
        self._output.close()
        self._errors.close()


class Kept:
    """A process that is kept open in a `with`. Other classes say what it is for."""

    def __init__(self, words: Sequence[Path], program: Optional[Path]) -> None:
        self._process = Process(words, program)
        self._closed = False

    def __enter__(self: Self) -> Self:
        return self

    def __exit__(self, kind: object, value: object, trace: object) -> None:
        if kind is None:
            self.close()
        else:
            self._closed = True
            self._process.stop()

    def close(self) -> None:
        """Ends the program, and raises why it ended if not all was done. It is no fault to close twice."""
        if self._closed:
            return
        self._closed = True
        while self._process.due and self._process.is_open:
            self._read(None)
        self._process.close_input()
        while self._process.is_open:
            self._read(None)
        end = self._process.end()
        self._process.stop()
        if end:
            raise end

    def _read(self, wait: Optional[float]) -> None:
        """Feeds and reads the program once."""
        raise NotImplementedError

    def _check_open(self) -> None:
        if self._closed:
            raise ValueError("it is closed")

    def _fault(self) -> Ended:
        """Returns why the program has ended, which it should not have."""
        return self._process.end() or Died("ended before its input did", 0)


def pieces_of(pairs: Iterable[Tuple[str, str]]) -> Iterator[Tuple[bytes, int]]:
    """Yields the lines of questions in pieces, each with how many lines it has."""
    lines: List[str] = []
    size = 0
    for first, second in pairs:
        line = f"{first} {second}\n"
        if not QUERY.fullmatch(line):
            raise BadName(f"`{line[:-1]}` is not two names of items")
        lines.append(line)
        size += len(line)
        if size >= PIECE:
            yield "".join(lines).encode(), len(lines)
            lines, size = [], 0
    if lines:
        yield "".join(lines).encode(), len(lines)


class Answers(Kept):
    """A label file under a view, opened once, of which any number of questions can be asked: one `wfprov ask` that is kept open.

    Making one waits until the files are read, and raises what they are refused for. The label file is as it was then: what is added to
    it later is not seen. With an automaton only paths whose modules it accepts count, and a `wfprov words` is kept open.
    """

    WORDS = {answer.value.encode(): answer for answer in Answer}

    def __init__(self, spec: Path, view: Path, labels: Path, program: Optional[Path] = None, auto: Optional[Path] = None) -> None:
        words = ["ask", spec, view] if auto is None else ["words", spec, view, auto]
        super().__init__([*words, labels, "/dev/stdin"], program)
        self._owed = 0
        self._rest = b""
        try:
            self.ask([("a.a", "a.a")])
        except BaseException:
            self._process.stop()
            raise

    def ask(self, pairs: Iterable[Tuple[str, str]]) -> List[Answer]:
        """Answers of each pair of items whether the second depends on the first.

        The pairs are taken in pieces, so they may come from a generator. A pair that is not two names of items raises BadName, and the
        store stays open, as it does where the generator raises something.
        """
        self._check_open()
        while self._owed:
            self._take()
        answers: List[Answer] = []
        for piece, count in pieces_of(pairs):
            self._process.send(piece)
            self._owed += count
            while self._process.due > PIECE:
                answers += self._take()
        while self._owed:
            answers += self._take()
        return answers

    def _take(self) -> List[Answer]:
        """Feeds and reads the program once, and returns the answers that have come."""
        *lines, self._rest = (self._rest + self._process.turn()).split(b"\n")
        if not self._process.is_open and len(lines) < self._owed:
            raise self._fault()
        self._owed -= len(lines)
        try:
            return [self.WORDS[line] for line in lines]
        except KeyError as error:
            raise Died(f"wrote {error.args[0]!r}, which is no answer", 0) from None

    def _read(self, wait: Optional[float]) -> None:
        self._process.turn(wait)


class Ingest(Kept):
    """A run that is labelled while it goes on: one `wfprov ingest` that is kept open.

    Making one waits until SPEC is read, and raises what it is refused for. `into`, if given, is a file open for writing bytes that gets
    the label file, as it comes. A report that is refused ends the program: the next call raises the refusal, which has the number of
    the report as its line, counted from 1. The items that were made before are kept, and `labels` returns them first, also behind
    `close`.
    """

    def __init__(self, spec: Path, into: Optional[BinaryIO] = None, program: Optional[Path] = None) -> None:
        super().__init__(["ingest", spec, "/dev/stdin"], program)
        self._into = into
        self._bytes = bytearray()
        self._items: List[Item] = []
        self.head = b""
        try:
            while not self.head:
                if not self._process.is_open:
                    raise self._fault()
                self._read(None)
        except BaseException:
            self._process.stop()
            raise

    def start(self, name: str) -> None:
        """Reports that the run has begun, with the instance of this name."""
        self._report({"start": name}, [name])

    def expand(self, instance: str, production: int, names: Sequence[str]) -> None:
        """Reports that an instance is done by a production, and the names of the instances at its positions."""
        self._report({"expand": instance, "production": production, "names": list(names)}, [instance, *names])

    def labels(self, wait: float = 0.0) -> List[Item]:
        """Returns the items that came since the last call, with their labels; if none has come, it waits at most so many seconds."""
        late = time.monotonic() + wait
        left = wait
        while not self._closed and not self._items and left >= 0.0:
            if not self._process.is_open:
                raise self._fault()
            self._read(left)
            left = late - time.monotonic()
        items, self._items = self._items, []
        return items

    def _report(self, event: Dict[str, object], names: Sequence[str]) -> None:
        self._check_open()
        for name in names:
            if not NAME.fullmatch(name):
                raise BadName(f"`{name}` is no name")
        self._process.send(json.dumps(event, separators=(",", ":")).encode() + b"\n")
        while self._process.due and self._process.is_open:
            self._read(None)
        if not self._process.is_open:
            raise self._fault()


    def _read(self, wait: Optional[float]) -> None:
        """Feeds and reads the program once, and takes the entries that are whole."""
        text = self._process.turn(wait)
        if self._into and text:
            self._into.write(text)
        self._bytes += text
        if not self.head and len(self._bytes) >= HEAD:
            self.head = bytes(self._bytes[:HEAD])
            del self._bytes[:HEAD]
        if self.head:
            entries, used = entries_in(bytes(self._bytes))
            self._items += entries
            del self._bytes[:used]


def entries_in(text: bytes) -> Tuple[List[Item], int]:
    """Returns the entries of a label file that are whole, and how many bytes they have. The head stands before the text."""
    entries: List[Item] = []
    at = 0
    while at < len(text):
        name_end = at + 1 + text[at]
        label_end = name_end + 2 + int.from_bytes(text[name_end : name_end + 2], "big")
        if len(text) < name_end + 2 or len(text) < label_end:
            break
        entries.append(Item(text[at + 1 : name_end].decode("ascii"), text[name_end + 2 : label_end]))
        at = label_end
    return entries, at


def call(words: Sequence[Path], program: Optional[Path] = None) -> bytes:
    """Runs a command on its words, and returns what it wrote, or raises why it ended."""
    path = find(program)
    with tempfile.TemporaryFile() as errors:
        try:
            ran = subprocess.run([path, *words], stdin=subprocess.DEVNULL, stdout=subprocess.PIPE, stderr=errors, check=False)
        except OSError as error:
            raise NoProgram(f"{path}: {error.strerror}") from None
        if ran.returncode:
            errors.seek(0)
            raise end_of(ran.returncode, errors.read(1 << 20).decode("utf-8", "backslashreplace").strip())
    return ran.stdout


def lines_of(words: Sequence[Path], program: Optional[Path]) -> List[str]:
    return call(words, program).decode("utf-8").splitlines()


def check(spec: Path, program: Optional[Path] = None) -> Checked:
    """Checks a specification."""
    text, *lines = lines_of(["check", spec], program)
    steps = []
    for line in lines:
        name, _, rank, _, production, _, cycle, *rest = line.split()
        back = (int(rest[3]), rest[4]) if rest else None
        steps.append(Step(name, int(rank), int(production), int(cycle) if rest else None, int(rest[1]) if rest else None, back))
    return Checked(text, steps)


def view(spec: Path, view_file: Path, program: Optional[Path] = None) -> List[Seen]:
    """Checks a view, and returns what it shows of each module that is seen."""
    seen = []
    for line in lines_of(["view", spec, view_file], program):
        name, state, *pairs = line.split()
        seen.append(Seen(name, state == "expanded", [(pair.partition(">")[0], pair.partition(">")[2]) for pair in pairs]))
    return seen


def decide(spec: Path, view_file: Path, first: bytes, second: bytes, program: Optional[Path] = None) -> Verdict:
    """Decides from two labels whether the second item depends on the first."""
    return Verdict(lines_of(["decide", spec, view_file, first.hex(), second.hex()], program)[0])


def consult(package: Path, first: bytes, second: bytes, program: Optional[Path] = None) -> Verdict:
    """Decides from two labels and a package whether the second item depends on the first."""
    return Verdict(lines_of(["consult", package, first.hex(), second.hex()], program)[0])


def export(spec: Path, view_file: Path, events: Path, program: Optional[Path] = None) -> Exported:
    """Returns what a view shows of a run."""
    shown = Exported([], [], [], [])
    for line in lines_of(["export", spec, view_file, events], program):
        kind, name, *rest = line.split()
        if kind == "item":
            shown.items.append(name)
        else:
            {"leaf": shown.leaves, "pending": shown.pending, "link": shown.links}[kind].append((name, rest[0]))
    return shown


def listing(command: str, files: Sequence[Path], item: str, program: Optional[Path]) -> Union[Answer, List[str]]:
    lines = lines_of([command, *files, item], program)
    return Answer(lines[0]) if lines in (["unknown"], ["hidden"]) else lines


def lineage(spec: Path, view_file: Path, labels: Path, item: str, program: Optional[Path] = None) -> Union[Answer, List[str]]:
    """Returns the names of the items on which an item rests, in the order of the label file, or that it is hidden or unknown."""
    return listing("lineage", [spec, view_file, labels], item, program)


def impact(spec: Path, view_file: Path, labels: Path, item: str, program: Optional[Path] = None) -> Union[Answer, List[str]]:
    """Returns the names of the items that rest on an item, in the order of the label file, or that it is hidden or unknown."""
    return listing("impact", [spec, view_file, labels], item, program)


def explain(
    spec: Path, view_file: Path, events: Path, first: str, second: str, program: Optional[Path] = None
) -> Union[Answer, List[str]]:
    """Returns the lines of a shortest chain from an item to one that rests on it, or the answer where there is none."""
    lines = lines_of(["explain", spec, view_file, events, first, second], program)
    return lines if len(lines) > 1 else Answer(lines[0])


def verify(spec: Path, view_file: Path, events: Path, chain: Path, program: Optional[Path] = None) -> Optional[int]:
    """Returns the number of the first wrong line of a file that is to be a chain, or None where it is one."""
    told = lines_of(["verify", spec, view_file, events, chain], program)[0]
    return None if told == "yes" else int(told.split()[1])


def gen(spec: Path, count: int, seed: int, program: Optional[Path] = None) -> List[Dict[str, object]]:
    """Returns the events of a made-up run of so many expansions."""
    return [json.loads(line) for line in lines_of(["gen", spec, str(count), str(seed)], program)]


def put(stream: int, text: str) -> bool:
    """Writes a short text to a standard stream, and returns whether that could be done."""
    try:
        os.write(stream, text.encode())
        return True
    except OSError:
        return False


def main(words: List[str]) -> int:
    if words in (["--help"], ["-h"]):
        if put(1, __doc__.strip() + "\n"):
            return 0
        put(2, "wfprov.py: writing: the help could not be written\n")
        return 2
    put(2, "wfprov.py: this is a module, and takes no words but --help\n")
    return 2


if __name__ == "__main__":
    sys.exit(main(sys.argv[1:]))
