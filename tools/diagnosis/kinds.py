"""What a file is that was given in the place of another, by its first bytes, and what is said of it then."""
import json
import os
import re

from diagnosis.faults import Fault

# How many bytes of a file are looked at.
READ = 65536
CALLED = {
    "spec": "a specification",
    "view": "a view",
    "events": "a file of events",
    "labels": "a label file",
    "queries": "a file of queries",
    "auto": "an automaton",
    "package": "a package",
}
# Beginnings that tell how a file was packed or saved, each with what it is and what mends it.
BEGINNINGS = (
    (b"\x1f\x8b", "the file is packed by gzip", "Unpack it: `gzip -dc FILE > UNPACKED`. A pipe from `gzip -dc` may stand for the file, too."),
    (b"PK\x03\x04", "the file is an archive of zip, and may be one of a spreadsheet", "Take the file out of it, or save the table as text."),
    (b"BZh", "the file is packed by bzip2", "Unpack it: `bzip2 -dc FILE > UNPACKED`."),
    (b"\xfd7zXZ", "the file is packed by xz", "Unpack it: `xz -dc FILE > UNPACKED`."),
    (b"\xff\xfe", "the file is text in UTF-16", "Save it as UTF-8: `iconv -f UTF-16 -t UTF-8 FILE > SAVED`."),
    (b"\xfe\xff", "the file is text in UTF-16", "Save it as UTF-8: `iconv -f UTF-16 -t UTF-8 FILE > SAVED`."),
    (b"\xef\xbb\xbfWFL1", "this is a label file with a byte order mark before it, and may be changed further on", "Make it again by `ingest`."),
    (b"\xef\xbb\xbf", "a byte order mark, three bytes that are not seen, stands before the text", "Save the file as UTF-8 without a byte order mark."),
    (b"head 57464c31", "these are the lines of a label file, as tools/labels.py writes them", "Make the file of them: `python3 tools/labels.py file LINES > LABELS`."),
    (b"V0ZM", "this is a label file in base64", "Turn it back: `base64 -d FILE > LABELS`."),
    (b"00000000: 5746 4c31", "this is a label file as lines of hexadecimal digits, as xxd writes it", "Turn it back: `xxd -r FILE > LABELS`."),
    (b"57464c31", "this is a label file in hexadecimal digits", "Turn it back: `xxd -r -p FILE > LABELS`."),
    (b"00000000  57 46 4c 31", "this is a label file as hexdump shows it to a reader", "Make it again by `ingest`."),
)
# How the files begin that are one object of JSON, where they are written in another way.
JSON = {
    "spec": 'Write it as JSON: `{"start":"S","modules":[{"name":"S","in":["a"],"out":["b"]}],"productions":[]}`, as docs/FORMATS.md says.',
    "view": 'Write it as JSON: `{"expand":["A","B"]}`, with the names of the modules to be expanded.',
    "auto": 'Write it as JSON: `{"states":2,"start":0,"accept":[1],"moves":[[0,"A",1]]}`. `tools/automaton.py` makes it of an expression.',
    "package": "Make it by `wfprov package SPEC VIEW`.",
}
QUERY = re.compile(rb"[\w-]{1,64}\.[\w-]{1,64} [\w-]{1,64}\.[\w-]{1,64}\r?(\n|$)")


def begins(path):
    """Returns the first bytes of a file, and none of what cannot be read twice."""
    if not os.path.isfile(path):
        return None
    with open(path, "rb") as file:
        return file.read(READ)


def kind_of(data):
    """Returns which of the files of a workflow some bytes begin, or nothing."""
    if data[:4] == b"WFL1":
        return "labels"
    if QUERY.match(data):
        return "queries"
    if re.match(rb'\s*\{\s*"(?:start"\s*:\s*"[^"]*"\s*\}|expand"\s*:\s*"[^"]*"\s*,\s*"(?:production|names)"\s*:)', data):
        return "events"
    if re.match(rb"\s*\{", data) and b'"modules"' in data:
        return "package" if re.search(rb'"package"\s*:', data) else "spec"
    if re.match(rb"\s*\{", data) and re.search(rb'"states"\s*:', data):
        return "auto"
    return "view" if is_view(data) else ""


def is_view(data):
    try:
        value = json.loads(data)
    except (ValueError, RecursionError):
        return False
    return isinstance(value, dict) and bool(value) and set(value) <= {"expand", "deps"}


def concerns(fault):
    """Whether a fault is one that a file of another kind has: it is not read further than its form."""
    first = not fault.where.startswith(("events", "queries")) or fault.where.endswith(" line 1")
    return first and fault.kind.split(" ")[0] in ("NotJson", "WrongShape", "LineWrong", "NotLabels", "NotPackage")


def better(fault, path, words):
    """Returns a fault of a file, or the same one in other words where the file is packed, empty, or one of another kind. `words` says which
    files belong where."""
    if not concerns(fault):
        return fault
    data, where = begins(path), fault.where.split(" ")[0]
    where = "view" if where == "coarse" else where
    if data is None:
        return fault
    if not data.strip():
        empty = "`{}` is the view that shows all." if where == "view" else "docs/FORMATS.md has an example of each."
        return said(fault, "the file is empty, and what wrote it may have failed", f"Look how the file was made. {empty}")
    for beginning, what, mend in BEGINNINGS:
        if data.startswith(beginning):
            return said(fault, what, mend)
    kind = kind_of(data)
    if kind and kind != where:
        return said(fault, f"this is {CALLED[kind]}, and {CALLED[where]} belongs here", f"Give the file that belongs here. {words}")
    return of_bytes(fault, data, where)


def of_bytes(fault, data, where):
    """Returns a fault, or the same one in other words where the file is no text, or is written in another form than JSON."""
    if b"\0" in data and where == "events":
        what = "the file is no text, and it does not begin with the letters `WFL1`, as a label file does"
        return said(fault, what, "If it is a label file, its first bytes were changed: make it again by `ingest`, and copy it as bytes.")
    if where in JSON and fault.kind == "NotJson" and (re.match(rb"\s*[A-Za-z_-]+\s*:", data) or where == "auto" and not re.match(rb"\s*[\[{\"]", data)):
        return said(fault, "the file is no JSON: an object of JSON begins with `{`", JSON[where])
    return fault


def said(fault, what, mend):
    """Returns a fault in other words, at the same place."""
    return Fault(fault.kind, f"{what}.", mend, fault.node).stands_in(fault.where, fault.text)
