"""The rules on a label file: its head, and each entry in turn."""
import hashlib
import json
import re

from diagnosis.faults import Fault
from diagnosis.questions import ITEM, item_fault
from diagnosis.words import counted, quoted
from label_bits import Bits
from terminal import Wrong

MOST, HEAD, MAGIC = 1073741824, 36, b"WFL1"
# An entry that is torn has no more bytes than this: labels of runs are short.
LONG = 512


def canonical(grammar, modules, productions):
    """Returns the canonical text of the first so many modules and productions."""

    def dotted(end):
        return f"{end[0]}.{end[1]}"

    held = list(grammar.modules.values())[:modules]
    value = {
        "start": grammar.start,
        "modules": [{"name": module.name, "in": module.inputs, "out": module.outputs} for module in held],
        "productions": [
            {
                "head": production.head,
                "body": [list(position) for position in production.body.items()],
                "edges": [[dotted(first), dotted(second)] for first, second in production.edges],
                "in": [[port, dotted(production.entries[port])] for port in grammar.modules[production.head].inputs],
                "out": [[dotted(production.exits[port]), port] for port in grammar.modules[production.head].outputs],
            }
            for production in grammar.productions[:productions]
        ],
    }
    return json.dumps(value, separators=(",", ":"))


def digests(grammar):
    """Returns the digests of a specification and of its versions."""
    numbers = [(len(grammar.modules), len(grammar.productions))]
    numbers += [(version.modules, version.productions) for version in grammar.parts.versions]
    return [hashlib.sha256(canonical(grammar, *pair).encode()).digest() for pair in numbers]


def at(held, number, what, owner):
    """Returns the element of a list with this number, where the owner has one."""
    if number >= len(held):
        raise Wrong(f"{owner} has no {what} number {number}")
    return held[number]


def port_of(grammar, bits):
    """Reads the label of an input or an output of the run, of which the first bit was read, and returns the port."""
    start = grammar.modules[grammar.start]
    side, ports = ("output", start.outputs) if bits.take(1) == "1" else ("input", start.inputs)
    return at(ports, bits.number(), side, quoted(start.name))


def edge_of(grammar, bits):
    """Reads the label of what an edge carries, of which the first bit was read, and returns the production and the edge."""
    module = grammar.start
    while True:
        if module in grammar.continuing:
            module = after(grammar, module, bits.number())
        goes_on = bits.take(1) == "1"
        production = at(grammar.modules[module].productions, bits.number(), "production", quoted(module))
        if not goes_on:
            return production, at(production.edges, bits.number(), "edge", f"production {production.number}")
        position = at(list(production.body), bits.number(), "position", f"production {production.number}")
        if grammar.continuing.get(module) == (production, position):
            raise Wrong(f"a step along the cycle of {quoted(module)} stands alone, and belongs to the chain number before it")
        module = production.body[position]


def after(grammar, module, count):
    """Returns the module to which so many steps along a cycle lead."""
    around = []
    while not around or module != around[0]:
        around.append(module)
        production, position = grammar.continuing[module]
        module = production.body[position]
    return around[count % len(around)]


def label_fault(grammar, label):
    """Returns why bytes are no label of a grammar, or nothing."""
    bits = Bits(label)
    try:
        if bits.take(1) == "1":
            edge_of(grammar, bits)
        else:
            port_of(grammar, bits)
        bits.end()
    except Wrong as wrong:
        return str(wrong)
    return ""


def head_fault(data, grammar):
    if len(data) > MOST:
        return Fault("TooLong", f"the file has {len(data):,} bytes, and at most {MOST:,} are read.", "Ask from the events, by `trace`.")
    if data[:4] != MAGIC or len(data) < HEAD:
        why = "it does not begin with the letters `WFL1`" if data[:4] != MAGIC else f"it has {counted(len(data), 'byte')}, and its head has {HEAD}"
        return Fault("NotLabels", f"this is no label file: {why}.", "Give the file that `wfprov ingest SPEC EVENTS` wrote, whole and as bytes.")
    known = digests(grammar)
    if data[4:HEAD] not in known:
        if saved_as_text(data) in known:
            return Fault("OtherSpec", "the file was saved anew as text, so that its bytes are others.", "Make it again by `ingest`, and copy it as bytes.")
        return Fault(
            "OtherSpec",
            f"the file was written for another specification. Its digest begins with {data[4:12].hex()}; that of SPEC"
            f" {'and those of its versions begin' if len(known) > 1 else 'begins'} with {', '.join(digest[:8].hex() for digest in known)}.",
            "Give the specification that the file was written for; `check` writes the text of which the digest is made. If the workflow has grown"
            f" since by modules and productions at the end of their lists, name the earlier one in `versions`{earlier(data[4:HEAD], grammar)}.",
        )
    return None


def saved_as_text(data):
    """Returns the digest of a label file whose bytes were taken for signs and written as UTF-8, or nothing."""
    try:
        return data[: 2 * HEAD].decode("utf-8", "ignore").encode("latin-1", "ignore")[4:HEAD]
    except ValueError:
        return None


def earlier(digest, grammar):
    """Returns the version of a specification that has a digest, in words, if it has few enough."""
    modules, productions = len(grammar.modules), len(grammar.productions)
    if modules * productions > 1024:
        return ""
    for pair in ((m, p) for m in range(modules, 0, -1) for p in range(productions, -1, -1)):
        if hashlib.sha256(canonical(grammar, *pair).encode()).digest() == digest:
            return f", which is `\"versions\":[[{pair[0]},{pair[1]}]]`"
    return ""


def check_word(grammar, number, word):
    """Refuses the word of a label that is none of a grammar."""
    why = label_fault(grammar, bytes.fromhex(word))
    if why:
        mend = "The labels of a run stand in its label file; `tools/labels.py lines` writes them as such words."
        raise Fault("Malformed", f"`{word[:80]}` is no label of the specification: {why}.", mend).stands_in(f"label {number}", None)


def before(offset):
    """Returns a sentence on what stands before an entry that is refused."""
    return f"The first {offset} bytes are whole entries, and are a label file: `head -c {offset} LABELS`."


def own_writer(label):
    """Returns a sentence on a label that a program of one's own may have written otherwise, or nothing."""
    if re.fullmatch(rb"(?:[0-9A-Fa-f]{2})+", label):
        return " Its bytes are hexadecimal digits: write the bytes that they stand for, as `tools/labels.py file` does."
    if label and len(label) % 256 == 0:
        return f" It has {len(label)} bytes, as where the lower byte of a length was written first: the higher one comes first."
    return ""


class Entries:
    """The entries of a label file that keep the rules so far."""

    def __init__(self, data, grammar):
        self.data, self.grammar, self.names = data, grammar, {}

    def read(self):
        """Reads all entries, or refuses the first that breaks a rule."""
        offset = HEAD
        while offset < len(self.data):
            offset = self.take(offset)

    def take(self, offset):
        number, data = len(self.names), self.data
        name = data[offset + 1 : offset + 1 + data[offset]]
        behind = offset + 1 + data[offset]
        size = int.from_bytes(data[behind : behind + 2], "big")
        label = data[behind + 2 : behind + 2 + size]
        if len(data) < behind + 2 or len(label) < size:
            raise Fault(f"Truncated offset {offset}", *self.broken(offset))
        self.check(number, offset, name.decode("utf-8", "backslashreplace"), label)
        return behind + 2 + size

    def broken(self, offset):
        """Returns what is wrong with an entry that is not whole, and what mends it."""
        number, data = len(self.names), self.data
        whole = before(offset)
        if data[offset : offset + 4] == MAGIC:
            what = f"another label file begins at byte {offset}, behind {counted(number, 'item')}: two were put together."
            return what, f"Ask from each by itself. {whole}"
        if re.match(rb"refused: |fault: |no memory\n", data[offset:]):
            what = f"behind {counted(number, 'item')}, at byte {offset}, stands the message {quoted(data[offset:].decode('utf-8', 'replace').strip())}."
            return what, f"Keep the standard error of `ingest` out of the file, as by `2> MESSAGES`, and mend what it refused. {whole}"
        if len(data) - offset > LONG:
            what = f"entry {number}, which begins at byte {offset}, is longer than the {len(data) - offset} bytes that are left, so bytes of it or before"
            return f"{what} it were changed, as by a transfer of text.", "Make the file again by `ingest`, and copy it as bytes."
        what = f"the last entry, number {number}, begins at byte {offset} and is not whole: the file ends at byte {len(data)}."
        return what, f"Make the file again by `ingest`. {whole}"

    def check(self, number, offset, name, label):
        where = f"entry {number}, which begins at byte {offset},"
        if not ITEM.fullmatch(name):
            what = f"{where} has a name that is that of no item: {item_fault(name)}."
            if not self.data[offset:].strip(b"\0"):
                what = f"from byte {offset} on the file has zeros alone, as where room was kept for what was never written."
            raise Fault(f"BadName entry {number}", what, f"Make the file again by `ingest`; `tools/labels.py lines` shows what is in it. {before(offset)}")
        earlier = self.names.setdefault(name, number)
        if earlier != number:
            what = f"{where} has the name {quoted(name)}, and so has entry {earlier}."
            mend = "An item has one label. If two files were put together, ask from each by itself."
            raise Fault(f"NameTwice entry {number}", what, f"{mend} {before(offset)}")
        why = label_fault(self.grammar, label)
        if why:
            what = f"{where} is named {quoted(name)}, and its label `{label.hex()[:80]}` is none of the specification: {why}.{own_writer(label)}"
            raise Fault(f"BadLabel entry {number}", what, "Make the file again by `ingest`; `tools/two_labels.py` draws what a label says.")


def read_labels(data, grammar):
    """Returns the names of the items of a label file, each with its number."""
    entries = Entries(data, grammar)
    try:
        fault = head_fault(data, grammar)
        if fault:
            raise fault
        entries.read()
    except Fault as fault:
        raise fault.stands_in("labels", None) from None
    return entries.names
