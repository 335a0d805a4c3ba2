"""Chains that `explain` writes and `verify` accepts, for a page: each `yes` with the reason for it.

`explain` takes one question a call, and no call can be kept open for the next one. So the program is started twice for a chain, and reads
the run each time; `most` says of how many questions that is done. What `explain` wrote goes to `verify` byte for byte, and is shown only
where this accepts it.
"""
import collections
import shlex
import tempfile

from terminal import Wrong

# How many chains are made at most, and how many bytes of the run are read for them at most, where they are more than one.
CHAINS, READ = 200, 1 << 28
# How many steps a chain has at most that is kept whole, and how many are kept at each end of a longer one.
WHOLE, ENDS = 100, 10


def most(size):
    """Returns of how many questions chains are made, by the number of bytes of the run."""
    return max(1, min(CHAINS, READ // (2 * size))) if size else CHAINS


class Chain:
    """The lines of a chain, as far as they are kept: all of them, or those of its two ends. `steps` is how many steps it has."""

    def __init__(self, file):
        count, start, end = 0, [], collections.deque(maxlen=2 * ENDS)
        for count, line in enumerate(file, 1):
            line = line.decode().rstrip("\n")
            if count <= 2 * WHOLE + 1:
                start.append(line)
            end.append(line)
        self.steps, self.is_whole = count // 2, count == len(start)
        self.start = start if self.is_whole else start[: 2 * ENDS + 1]
        self.end = [] if self.is_whole else list(end)
        self.ends = start[:1], list(end)[-1:]

    def left_out(self):
        """Returns how many steps are not kept."""
        return 0 if self.is_whole else self.steps - 2 * ENDS


def accepted(program, files, first, second):
    """Returns the chain from an item to another, on which it was found to rest, or the word that `explain` writes in its place."""
    call = ["explain", *files, first, second]
    with tempfile.TemporaryFile() as file:
        program.write(call, file)
        chain = Chain(file)
        if not chain.steps:
            return "".join(chain.start)
        file.seek(0)
        told = program.lines(["verify", *files, "/dev/stdin"], file)
    if told != ["yes"]:
        raise Wrong(f"wfprov verify: `{' '.join(told)}` of what `wfprov {shlex.join(call)}` writes: it is no chain of the run")
    if chain.ends != ([first], [second]):
        raise Wrong(f"wfprov {shlex.join(call)}: it writes a chain of other items")
    return chain
