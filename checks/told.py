"""What the program and tools/diagnose.py say of the files of a call, each as one line."""
import functools
import os
import subprocess

from diagnosis import call, coarse
from diagnosis.finding import Finding

# The options of tools/diagnose.py, each by a word that no other call has.
OPTIONS = {"coarse": "--compare", "auto": "--words", "package": "--consult", "hexes": "--decide"}


def words_of(files):
    """Returns the words of the call on files by their names, of which `hexes` is two labels."""
    option = next(([option] for name, option in OPTIONS.items() if name in files), [])
    return [*option, *(path for name, path in files.items() if name != "hexes"), *files.get("hexes", ())]


def both(program, words):
    """Returns what the program says of the files of a call, and what the tool finds: the line of a fault, or the answer to `compare`."""

    def lines(files):
        said, found = call.said_by(program, files), Finding(files)
        answers = coarse.without_run(said.answer) if said.answer else [], found.beside.answer() if found.beside else []
        return " ".join([said.line, *answers[0]]).strip(), " ".join([found.fault.message() if found.fault else "", *answers[1]]).strip()

    return call.diagnosed(words, lines)


@functools.cache
def has_words(program):
    """Whether the program has the command `words`: then it tries to read the first of files that are not there."""
    absent = os.path.join(os.devnull, "absent")
    ran = subprocess.run([program, "words", *[absent] * 5], stderr=subprocess.PIPE, check=False)
    return ran.stderr == b"fault: reading spec\n"
