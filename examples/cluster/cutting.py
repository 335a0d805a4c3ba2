"""Cuts the questions on a run into parts, each a job.

The folder has copies of SPEC and VIEW, a link to LABELS with its digest, so that all parts answer from the same bytes, and a list: for each
part its name, its lines and its questions, and then how one `ask` ends if no part is refused.
"""
import os
import re
import stat

from jobs import Wrong, called, program, putting
import labels as label_files
import terminal

# What `ask` reads at most of SPEC and of VIEW, and of a line of QUERIES.
LONGEST_TEXT = 1 << 24
LONGEST_LINE = 65536
# The bytes of the longest question: four names, two dots, a space, a carriage return and a newline.
LONGEST_QUESTION = 4 * 64 + 2 + 1 + 2
# The questions of more lines than these may be longer than `ask` reads.
MOST_LINES = 4_000_000
UNREAD_LABELS = 3, b"fault: reading labels\n"
UNREAD_QUERIES = 3, b"fault: reading queries\n"


def copy(path, to, most):
    """Copies so many bytes of a file that `ask` is to read. Of one that cannot be read there is no copy, which `ask` will say."""
    try:
        with open(path, "rb") as file:
            data = file.read(most)
    except OSError:
        return
    with putting(to) as file:
        file.write(data)


def opened(folder, labels):
    """Returns how `ask` ends without a question: the program reads SPEC, VIEW and the head of LABELS, and here its entries are found whole."""
    files = [os.path.join(folder, name) for name in ("spec", "view", "head")]
    copy(labels, files[2], label_files.HEAD)
    status, said = called([program(), "ask", *files, os.devnull])
    if status not in (0, 2, 3):
        raise Wrong(f"wfprov ask: {terminal.ended(said, status)}")
    if status == 0:
        try:
            digest = label_files.Picked(label_files.pieces_of(labels), frozenset()).digest
        except label_files.NotWhole as cut:
            return 2, b"refused: labels: Truncated offset %d\n" % cut.offset
        except Wrong:
            return UNREAD_LABELS
        with putting(os.path.join(folder, "sha256")) as file:
            file.write(digest.encode())
    return status, said


def lines_of(file):
    """Yields the lines of QUERIES. Behind one that is longer than any question none is read: there `ask` ends at the latest."""
    while line := file.readline(LONGEST_LINE + 1):
        yield line
        if len(line) > LONGEST_QUESTION:
            return


def is_question(line):
    """Returns whether a line asks something: `ask` passes over an empty one."""
    return line not in (b"\n", b"\r\n", b"\r")


class Cutter:
    """Writes the parts of QUERIES and the list of them."""

    def __init__(self, folder, most):
        self.folder, self.most, self.number = folder, most, 0
        self.part, self.lines, self.questions = None, 0, 0
        self.list = open(os.path.join(folder, "cutting"), "wb")

    def take(self, line):
        """Adds a line to the part at hand, or begins one."""
        if self.part is None:
            job = os.path.join(self.folder, f"{self.number:06d}")
            os.mkdir(job)
            self.part = open(os.path.join(job, "queries"), "wb")
        self.part.write(line)
        self.lines += 1
        self.questions += is_question(line)
        if self.lines == self.most:
            self.end_part()

    def end_part(self):
        """Ends the part at hand, if there is one."""
        if self.part:
            self.part.close()
            self.list.write(b"%06d %d %d\n" % (self.number, self.lines, self.questions))
            self.part, self.lines, self.questions, self.number = None, 0, 0, self.number + 1

    def end(self, status, said):
        """Ends the list with how `ask` ends behind the last part."""
        self.end_part()
        self.list.write(b"end %d\n%b" % (status, said))
        self.list.close()
        os.rename(os.path.join(self.folder, "cutting"), os.path.join(self.folder, "list"))


def cut_queries(cutter, path):
    """Cuts QUERIES, and returns how `ask` ends behind them. Of a file that breaks, the lines before count."""
    try:
        file = open(path, "rb")
    except OSError:
        return UNREAD_QUERIES
    with file:
        lines = lines_of(file)
        while True:
            try:
                line = next(lines, None)
            except OSError:
                return UNREAD_QUERIES
            if line is None:
                return 0, b""
            cutter.take(line)


def cut(folder, spec, view, labels, queries, lines):
    """Cuts the questions on a run. Where `ask` ends before the first question nothing is cut, and the list says how it ends."""
    if not re.fullmatch("[1-9][0-9]{0,6}", lines) or int(lines) > MOST_LINES:
        raise Wrong(f"call: LINES is a number from 1 to {MOST_LINES:,}, and not `{lines}`")
    if os.path.exists(labels) and not os.path.isdir(labels) and not stat.S_ISREG(os.stat(labels).st_mode):
        raise Wrong(f"{labels}: each part reads it, so it must be a regular file")
    os.makedirs(folder, exist_ok=True)
    if os.listdir(folder):
        raise Wrong(f"{folder}: there is something in it: the parts need a new folder, or an empty one")
    cutter = Cutter(folder, int(lines))
    copy(spec, os.path.join(folder, "spec"), LONGEST_TEXT + 1)
    copy(view, os.path.join(folder, "view"), LONGEST_TEXT + 1)
    os.symlink(os.path.realpath(labels), os.path.join(folder, "labels"))
    status, said = opened(folder, labels)
    cutter.end(*(cut_queries(cutter, queries) if status == 0 else (status, said)))
