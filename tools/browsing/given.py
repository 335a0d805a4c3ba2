"""The files of the call, kept as they were when they were read.

All answers come from the same bytes, whatever becomes of a file meanwhile. The bytes lie in files without names: nothing is left of them
however the tool ends, and the program reads them by a path below /proc.
"""
import hashlib
import os
import shlex
import tempfile

import page
from terminal import Wrong


def quoted(text):
    """Returns a text as a word of a shell. A word with signs that cannot be printed has their bytes as escapes, which bash reads."""
    if text.isprintable():
        return shlex.quote(text)
    signs = (chr(byte) if 32 <= byte < 127 and chr(byte) not in "'\\" else f"\\x{byte:02x}" for byte in text.encode("utf-8", "backslashreplace"))
    return "$'" + "".join(signs) + "'"


class Kept:
    """A file without a name. `written` stands for it in a command that a user writes, and the program reads it by its `place`."""

    def __init__(self, written):
        self.written, self.file = written, tempfile.TemporaryFile()
        self.place = f"/proc/{os.getpid()}/fd/{self.file.fileno()}"

    def __enter__(self):
        return self

    def __exit__(self, *_):
        self.file.close()


def stamp_of(path):
    """Returns what differs where a file was written or replaced."""
    found = os.stat(path)
    return found.st_dev, found.st_ino, found.st_size, found.st_mtime_ns, found.st_ctime_ns


class Given(Kept):
    """A file of the call, with its bytes as they were."""

    def __init__(self, path):
        super().__init__(quoted(path))
        self.path = path
        if any("\udc80" <= sign <= "\udcff" for sign in path):
            raise Wrong(f"{path}: `wfprov` takes no path that is not UTF-8")
        if os.path.exists(path) and not os.path.isfile(path):
            raise Wrong(f"{path}: not a regular file")
        self.stamp, found, size = stamp_of(path), hashlib.sha256(), 0
        with open(path, "rb") as file:
            while part := file.read(page.PART):
                self.file.write(part)
                found.update(part)
                size += len(part)
        self.file.flush()
        self.told = size, found.hexdigest()

    def refuse_change(self):
        """Refuses a file that is not as it was when it was read."""
        if page.digest_of(self.path) != self.told:
            raise Wrong(f"{self.path}: changed while it was read")

    def has_changed(self):
        """Whether the file is not any more as it was when it was read."""
        try:
            stamp = stamp_of(self.path)
            if stamp != self.stamp and page.digest_of(self.path) != self.told:
                return True
            self.stamp = stamp
        except (OSError, Wrong):
            return True
        return False
