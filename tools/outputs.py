"""Writes several files or none of them, and never over a file that was read. The importers of this folder use it.

A file is written beside its place under another name, and moved there once all texts are on the disk. So where one cannot be written,
none is changed. What stands at a place and is no file, such as a pipe or a device, is written to directly, before any file is moved.
"""
import os
import stat
import terminal


def refuse(place, what):
    """Refuses to write at a place."""
    raise terminal.Wrong(f"{place}: {what}")


def state_of(path):
    """Returns what the system says of a file, or None where there is none."""
    try:
        return os.stat(path)
    except (OSError, ValueError):
        return None


def refuse_meeting(paths, inputs):
    """Refuses an output that is an input, or that is another output."""
    read = [state for state in map(state_of, inputs) if state and stat.S_ISREG(state.st_mode)]
    taken = set()
    for path in paths:
        state = state_of(path)
        if state and any(os.path.samestat(state, other) for other in read):
            refuse(path, "it is a file that is read, and is not written over")
        if state and stat.S_ISDIR(state.st_mode):
            refuse(path, "it is a folder")
        if state is None or stat.S_ISREG(state.st_mode):
            place = os.path.realpath(path)
            if place in taken:
                refuse(path, "two outputs would be this one file")
            taken.add(place)


def put(descriptor, text):
    """Writes a text to an open file, and closes it."""
    with os.fdopen(descriptor, "w", encoding="utf-8", newline="") as file:
        file.write(text)
        file.flush()


def beside(path, text, waiting):
    """Writes a text beside the place of a file, and notes the two places."""
    place = os.path.realpath(path)
    state = state_of(place)
    other = f"{place}.{os.getpid()}.part"
    descriptor = os.open(other, os.O_WRONLY | os.O_CREAT | os.O_EXCL, 0o666)
    waiting.append((other, place))
    put(descriptor, text)
    if state is not None:
        os.chmod(other, stat.S_IMODE(state.st_mode))


def prepare(path, text, waiting):
    """Writes a text beside its place, or directly to what is no file."""
    state = state_of(path)
    try:
        if state is None or stat.S_ISREG(state.st_mode):
            beside(path, text, waiting)
        else:
            put(os.open(path, os.O_WRONLY), text)
    except ValueError as error:
        refuse(path, str(error))
    except OSError as error:
        refuse(path, terminal.reason(error))


def write_all(texts, inputs):
    """Writes texts, given as pairs of a path and a text, or changes nothing and raises `terminal.Wrong`. The inputs are paths that were read."""
    refuse_meeting([path for path, _ in texts], inputs)
    waiting = []
    try:
        for path, text in sorted(texts, key=lambda pair: is_special(pair[0])):
            prepare(path, text, waiting)
        while waiting:
            try:
                os.replace(*waiting[0])
            except OSError as error:
                refuse(waiting[0][1], terminal.reason(error))
            waiting.pop(0)
    finally:
        for other, _ in waiting:
            remove(other)


def remove(path):
    """Removes a file that was begun."""
    try:
        os.unlink(path)
    except OSError:
        pass


def is_special(path):
    """Returns whether something stands at a path that is no file, such as a pipe. What is written there cannot be taken back."""
    state = state_of(path)
    return state is not None and not stat.S_ISREG(state.st_mode)
