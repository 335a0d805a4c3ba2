"""What each tool needs where it meets the outside: words in, text out, and one line for what is wrong.

A tool raises `Wrong` with what is wrong and the place, and ends by `run`, which writes one line `tool.py: PLACE: what` on standard
error and answers the status. Files and names are strangers', so a line shows each sign that cannot be printed as an escape. Text goes
to standard output whole, or the tool says that it does not. A standard stream may be closed: no file that is opened later takes its
place, and nothing that belongs on standard error goes to standard output.
"""
import os
import select
import sys


class Wrong(Exception):
    """What is wrong, in words, with its place."""


def shown(sign):
    """Returns a sign as it is, or an escape for one that cannot be printed. Bytes of a path that are no text are told as bytes."""
    if sign.isprintable():
        return sign
    if "\udc80" <= sign <= "\udcff":
        return f"\\x{ord(sign) - 0xDC00:02x}"
    return sign.encode("unicode_escape").decode()


def escaped(text):
    """Returns a text as one that any terminal shows in one line."""
    return text if text.isprintable() else "".join(map(shown, text))


def hold_streams():
    """Puts the null device in the place of each standard stream that is closed, so that no file gets its number."""
    while True:
        number = os.open(os.devnull, os.O_RDWR)
        if number > 2:
            os.close(number)
            return
        os.set_inheritable(number, True)


def put(number, data):
    """Writes bytes to a descriptor, all of them, and waits where it does not block."""
    left = memoryview(data)
    while left:
        try:
            left = left[os.write(number, left[: 1 << 20]) :]
        except BlockingIOError:
            select.select([], [number], [])


def write(data):
    """Writes a text, or bytes, to standard output."""
    if sys.stdout is None:
        raise Wrong("writing: standard output is closed")
    try:
        put(1, data.encode("utf-8", "backslashreplace") if isinstance(data, str) else data)
    except OSError as error:
        raise Wrong(f"writing: {error.strerror}") from None


def say(data):
    """Writes bytes to standard error. Where it is closed or full nothing is written."""
    if sys.stderr is None:
        return
    try:
        put(2, data)
    except OSError:
        pass


def complain(tool, what):
    """Writes one line on standard error."""
    say(f"{tool}: {escaped(str(what))}\n".encode("utf-8", "backslashreplace"))


def reason(error):
    """Returns what an error of the system says."""
    return error.strerror or str(error) or type(error).__name__


def read_bytes(path=None):
    """Returns the bytes of a file, or those of standard input where no path is given."""
    if path is None and sys.stdin is None:
        raise Wrong("standard input: it is closed")
    try:
        with open(0 if path is None else path, "rb", closefd=path is not None) as file:
            return file.read()
    except OSError as error:
        raise Wrong(f"{'standard input' if path is None else path}: {reason(error)}") from None


def read_text(path=None, but=""):
    """Returns the text of a file, or that of standard input; `but` is said behind the fault where it is not UTF-8."""
    data = read_bytes(path)
    try:
        return data.decode("utf-8")
    except UnicodeDecodeError as error:
        raise Wrong(f"{'standard input' if path is None else path}: byte {error.start}: not UTF-8{but}") from None


def ended(said, status):
    """Returns what a program said on standard error before it ended, or how it ended where it said nothing."""
    text = said.decode("utf-8", "backslashreplace").strip()
    return text or (f"ended by signal {-status}" if status < 0 else f"ended with status {status}")


def run(tool, help_text, work):
    """Runs `work` on the words of the call, and returns the status: what `work` returns, 0 for None, and 2 after a fault."""
    hold_streams()
    words = sys.argv[1:]
    try:
        if "--help" in words or "-h" in words:
            write(help_text.strip() + "\n")
            return 0
        return work(words) or 0
    except Wrong as wrong:
        complain(tool, wrong)
    except OSError as error:
        complain(tool, f"{error.filename}: {reason(error)}" if error.filename is not None else reason(error))
    except MemoryError:
        complain(tool, "no memory")
    except KeyboardInterrupt:
        complain(tool, "stopped")
    return 2
