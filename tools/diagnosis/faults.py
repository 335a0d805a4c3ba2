"""What is said of a fault, and of what is accepted and surely not meant."""


class Fault(Exception):
    """The first broken rule of a file.

    `kind` is what `wfprov` prints of it, with the place; `what` says what is wrong, and `mend` what mends it, each in sentences. `node`
    is the part of the file where it is wrong, if there is one, and `picture` has lines that show it. `where` names the file, and the
    line where the file has lines; `text` is the file or the line that the part stands in. Both are known to whoever reads the file.
    """

    def __init__(self, kind, what, mend="", node=None, picture=()):
        super().__init__(kind)
        self.kind, self.what, self.mend, self.node, self.picture = kind, what, mend, node, list(picture)
        self.where, self.text = "", None

    def message(self):
        """Returns the line that the program prints. A fault without a kind is one of reading."""
        return f"refused: {self.where}: {self.kind}" if self.kind else f"fault: reading {self.where}"

    def stands_in(self, where, text):
        """Says in which file, or in which line of it, the fault is."""
        self.where, self.text = where, text
        return self


class Doubt:
    """What is accepted and surely not meant, with its part of a file."""

    def __init__(self, what, node=None, text=None):
        self.what, self.node, self.text = what, node, text
