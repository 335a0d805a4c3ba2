"""The program on the files that were given: one `ask` for each view that is kept open, and calls of the other commands."""
import subprocess
import tempfile

import terminal
import wfprov
from browsing.given import Given, Kept, quoted
from terminal import Wrong


def told(words):
    """Returns a call of the program as a user of bash writes it, from words and files."""
    return " ".join(["wfprov", *(word.written if isinstance(word, Kept) else quoted(word) for word in words)])


class Program:
    """The program, the files of the call, and the label file of the run."""

    def __init__(self, spec, events, views):
        try:
            self.path = wfprov.find()
        except wfprov.NoProgram as none:
            raise Wrong(f"{none}; `./wfprov` builds it, and the variable WFPROV may name another") from None
        self.spec, self.events, self.views = Given(spec), Given(events), [Given(view) for view in views]
        self.files, self.asking = [self.spec, self.events, *self.views], {}
        self.labels = Kept(f"<({told(['ingest', self.spec, self.events])})")
        self.write(["ingest", self.spec, self.events], self.labels.file)
        for file in self.files:
            file.refuse_change()

    def write(self, words, file):
        """Writes what a command writes to a file."""
        places = [word.place if isinstance(word, Kept) else word for word in words]
        try:
            ran = subprocess.run([self.path, *places], stdin=subprocess.DEVNULL, stdout=file, stderr=subprocess.PIPE, check=False)
        except OSError as error:
            raise Wrong(f"{self.path}: {terminal.reason(error)}") from None
        if ran.returncode:
            raise Wrong(f"{told(words)}: {terminal.ended(ran.stderr, ran.returncode)}")
        file.flush()

    def lines(self, words):
        """Returns the lines that a command writes."""
        with tempfile.TemporaryFile() as file:
            self.write(words, file)
            file.seek(0)
            return file.read().decode("utf-8", "backslashreplace").splitlines()

    def ask(self, view, pairs):
        """Returns the answers to pairs of items under a view, by an `ask` that is kept open. If it has died, the next call starts another."""
        try:
            if view not in self.asking:
                self.asking[view] = wfprov.Answers(self.spec.place, self.views[view].place, self.labels.place, self.path)
            return [answer.value for answer in self.asking[view].ask(pairs)]
        except (wfprov.Ended, wfprov.NoProgram) as end:
            self.stop(view)
            raise Wrong(f"wfprov ask: {end}") from None

    def stop(self, view):
        """Ends the `ask` of a view, if there is one."""
        if view in self.asking:
            self.asking.pop(view).__exit__(Wrong, None, None)

    def close(self):
        """Ends each `ask`."""
        for view in list(self.asking):
            self.stop(view)
