"""The SHA-256 of what a file holds, read in parts. page.py and runs.py use it."""
import hashlib

# How many bytes are read at a time.
PART = 1 << 20


def parts_of(file):
    """Yields the bytes of an open file, some at a time."""
    while part := file.read(PART):
        yield part


def digest_of(file):
    """Returns the number of bytes of an open file and its SHA-256, in hexadecimal digits."""
    found, size = hashlib.sha256(), 0
    for part in parts_of(file):
        found.update(part)
        size += len(part)
    return size, found.hexdigest()
