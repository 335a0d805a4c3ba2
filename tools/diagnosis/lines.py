"""The lines of EVENTS and QUERIES, and what is refused of them before they are read."""
from diagnosis.faults import Fault
from diagnosis.files import Text

MOST_OF_LINE, MOST_OF_FILE = 65536, 1073741824


def too_long(number, piece, path):
    what = f"the line has more than {MOST_OF_LINE:,} bytes before its newline."
    fault = Fault("LineTooLong", what, "Split it, or look for a newline that is missing: each report or question is a line of its own.")
    return fault.stands_in("", Text(path, piece[:200], number))


def open_at_end(number, piece, path):
    what = f"the file has more than {MOST_OF_FILE:,} bytes, and this line does not end within the first {MOST_OF_FILE:,}."
    return Fault("FileTooLong", what, "What stands behind is not read. Give it in a file of its own.").stands_in("", Text(path, piece[:200], number))


def lines_of(path, file):
    """Yields the lines of an open file that are not empty, with their numbers, without newline and carriage return."""
    number, left = 0, MOST_OF_FILE
    while True:
        piece = file.readline(MOST_OF_LINE + 2)
        if not piece:
            return
        number += 1
        if len(piece[:left].rstrip(b"\n") if piece.endswith(b"\n") else piece[:left]) > MOST_OF_LINE:
            raise too_long(number, piece, path)
        if len(piece) > left:
            raise open_at_end(number, piece, path)
        left -= len(piece)
        line = piece[:-1] if piece.endswith(b"\n") else piece
        line = line[:-1] if line.endswith(b"\r") else line
        if line:
            yield number, line
