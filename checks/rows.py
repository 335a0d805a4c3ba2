#!/usr/bin/env python3
r"""Tries rows of data on the program: which words it is called with over which files, and how this call ends.

  python3 checks/rows.py PROGRAM ROWS..

The files ROWS are read one behind the other. Each has lines of these forms; empty lines are passed over.

  # TEXT             a note
  file NAME TEXT     a file of this name, which no other has, with these bytes
  + TEXT             these bytes, too, behind those before them
  call STATUS WORDS  a call in a folder with all files, and the status with which it ends; WORDS may be quoted as in a shell
  > TEXT             a line that the call writes to the standard output, behind those before it
  = TEXT             the same without an end of the line
  ! TEXT             a line that it writes to the standard error
  * TEXT             the bytes of the file * that the call names; of several such lines behind a call each is a row

In TEXT stand \n, \r, \\ and \x with two hexadecimal digits for a byte. With the NAME of a file before it,
  <<NAME>>           is all bytes of the file,
  <<NAME 2:57>>      those from the place 2 to before the place 57, as Python counts them,
  <<9 times NAME>>   all of them nine times,
  <<9 listed NAME>>  all of them nine times with commas between, and # in the place of which there is the number, from 0.

Prints the rows that end otherwise, and at the end `N rows, D differ`. Ends with 1 where there is such a row, or none at all.
"""
import dataclasses
import os
import re
import shlex
import subprocess
import sys
import tempfile

SECONDS = 60
GIVEN = "*"
BYTE = re.compile(rb"\\(?:(n)|(r)|(\\)|x([0-9a-f]{2}))")
PART = re.compile(rb"<<(?:(\d+) (times|listed) )?([a-z0-9-]+)(?: (-?\d*):(-?\d*))?>>")
LINE = re.compile(r"(file|call) (\S+)(?: (.*))?|([+>=!*])(?: (.*))?")


class Wrong(ValueError):
    """A line of rows that has none of the forms."""


@dataclasses.dataclass
class Row:
    place: str
    words: list[str]
    status: int
    out: bytes = b""
    err: bytes = b""
    given: bytes | None = None

    def differences(self, program, folder):
        """Yields what is otherwise of the call in a folder, with what was wanted."""
        words = [word.encode() for word in self.words]
        if self.given is not None:
            with open(os.path.join(folder, GIVEN), "wb") as file:
                file.write(self.given)
        done = subprocess.run([program, *words], cwd=folder, stdin=subprocess.DEVNULL, capture_output=True, timeout=SECONDS, check=False)
        for what, found, wanted in (("status", done.returncode, self.status), ("out", done.stdout, self.out), ("err", done.stderr, self.err)):
            if found != wanted:
                yield f"  {what} {found!r}\n  in place of {wanted!r}"


def byte_of(found):
    """Returns the byte that a backslash and what is behind it stand for."""
    return b"\n" if found[1] else b"\r" if found[2] else b"\\" if found[3] else bytes.fromhex(found[4].decode())


class Rows:
    """The files of rows, by name, and the rows themselves."""

    def __init__(self):
        self.files, self.rows, self.last = {}, [], None

    def part(self, found):
        """Returns the bytes that a name between angle brackets stands for."""
        count, how, name, *ends = found.groups()
        if name.decode() not in self.files:
            raise Wrong(f"there is no file {name.decode()} before")
        data = self.files[name.decode()]
        if how == b"times":
            return data * int(count)
        if how == b"listed":
            return b",".join(data.replace(b"#", b"%d" % number) for number in range(int(count)))
        return data if ends[0] is None else data[slice(*(int(end) if end else None for end in ends))]

    def data(self, text):
        """Returns the bytes of a text: between its parts a backslash begins a byte."""
        at, pieces, letters = 0, [], (text or "").encode()
        for found in PART.finditer(letters):
            pieces += [BYTE.sub(byte_of, letters[at:found.start()]), self.part(found)]
            at = found.end()
        return b"".join([*pieces, BYTE.sub(byte_of, letters[at:])])

    def begin(self, place, kind, word, text):
        """Begins a file or a row."""
        if kind == "file":
            if word in self.files or not re.fullmatch("[a-z0-9-]+", word):
                raise Wrong(f"{word} is no new name")
            self.files[word], self.last = self.data(text), word
        elif word in "012345":
            self.rows.append(Row(place, shlex.split(text or ""), int(word)))
            self.last = self.rows[-1]
        else:
            raise Wrong(f"{word} is no status")

    def give(self, place, data):
        """Gives the last row the bytes of its file, or makes another row like it with these."""
        if GIVEN not in self.last.words:
            raise Wrong(f"the call before names no file {GIVEN}")
        if self.last.given is not None:
            self.last = dataclasses.replace(self.last)
            self.rows.append(self.last)
        self.last.place, self.last.given = place, data

    def add(self, place, sign, text):
        """Adds bytes to the last file, or what the last row ends with, or the bytes of its own file."""
        if sign == "+" and isinstance(self.last, str):
            self.files[self.last] += self.data(text)
        elif sign == GIVEN and isinstance(self.last, Row):
            self.give(place, self.data(text))
        elif sign in ">=!" and isinstance(self.last, Row) and self.last.given is None:
            if sign == "!":
                self.last.err += self.data(text) + b"\n"
            else:
                self.last.out += self.data(text) + (b"\n" if sign == ">" else b"")
        else:
            raise Wrong(f"{sign} has nothing before it to stand behind")

    def read(self, path):
        """Reads a file of rows."""
        with open(path, encoding="utf-8", newline="\n") as file:
            lines = file.read().split("\n")
        for number, line in enumerate(lines, 1):
            found = LINE.fullmatch(line)
            place = f"{path} line {number}"
            try:
                if found and found[1]:
                    self.begin(place, *found.group(1, 2, 3))
                elif found:
                    self.add(place, *found.group(4, 5))
                elif line and not line.startswith("#"):
                    raise Wrong("this is no line of rows")
            except ValueError as error:
                raise Wrong(f"{place}: {error}") from None
        for row in self.rows:
            if GIVEN in row.words and row.given is None:
                raise Wrong(f"{row.place}: the file {GIVEN} has no bytes")

    def write(self, folder):
        """Leaves the files in a folder."""
        for name, data in self.files.items():
            with open(os.path.join(folder, name), "wb") as file:
                file.write(data)


def main(program, *paths):
    rows, differ = Rows(), 0
    try:
        for path in paths:
            rows.read(path)
    except Wrong as wrong:
        print(wrong)
        return 2
    with tempfile.TemporaryDirectory() as folder:
        rows.write(folder)
        for row in rows.rows:
            differences = list(row.differences(os.path.abspath(program), folder))
            if differences:
                differ += 1
                print(f"{row.place}: {shlex.join(row.words)}", *differences, sep="\n")
    print(f"{len(rows.rows)} rows, {differ} differ")
    return int(differ > 0 or not rows.rows)


if __name__ == "__main__":
    sys.exit(main(*sys.argv[1:]))
