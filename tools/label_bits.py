"""Reads the bits of a label: single bits, and numbers in gamma code, which it also writes."""
from terminal import Wrong

# A number of a label is at most that of the instances of a run.
MOST = 1 << 24


def gamma(number):
    """Returns the gamma code of a number and one more, as the bits that `Bits.number` reads."""
    digits = f"{number + 1:b}"
    return "0" * (len(digits) - 1) + digits


class Bits:
    """The bits of a label, and how many were read. `taken` has those that were read since it was emptied, as they were taken."""

    def __init__(self, label):
        self.bits, self.read = "".join(f"{byte:08b}" for byte in label), 0
        self.taken = []

    def left(self):
        """Returns the bits that were not read."""
        return self.bits[self.read :]

    def take(self, count):
        """Returns the next bits, so many."""
        bits = self.bits[self.read : self.read + count]
        if len(bits) < count:
            raise Wrong("it ends too early")
        self.read += count
        self.taken.append(bits)
        return bits

    def number(self):
        """Returns the number that the next gamma code stands for, less one."""
        first = self.bits.find("1", self.read)
        if first < 0:
            raise Wrong("it ends too early")
        zeros = first - self.read
        if zeros >= MOST.bit_length() or int(self.bits[first : first + zeros + 1], 2) > MOST:
            raise Wrong(f"a number in it is greater than {MOST:,}")
        return int(self.take(2 * zeros + 1), 2) - 1

    def end(self):
        """Refuses what stands behind a label, but for zero bits that fill its last byte, and returns how many these are."""
        left = self.left()
        if len(left) > 7 or "1" in left:
            raise Wrong("more stands behind it than zero bits that fill a byte")
        return len(left)
