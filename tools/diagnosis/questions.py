"""The rules on queries."""
import re

from diagnosis.faults import Fault
from diagnosis.files import Span, Text
from diagnosis.lines import lines_of
from diagnosis.words import counted, is_name, listed, quoted

ITEM = re.compile(r"[A-Za-z0-9_-]{1,64}\.[A-Za-z0-9_-]{1,64}")
WORDS = re.compile(r"[A-Za-z0-9_.-]+")
MEND = "A line is two names of items with one space between, as `r.a i1.y`; the name of an item is that of an instance, a dot and that of a port."
# Two labels, as `decide` takes them, and signs that stand for several names.
LABELS = re.compile(r"(?:[0-9A-Fa-f]{2})+ (?:[0-9A-Fa-f]{2})+")
STARS = re.compile(r"[*?\[\]{}]")


def line_fault(text):
    """Returns what is wrong with a line that is no query, and the part of it."""
    line = text.text
    words = line.split(" ")
    if text.broken is not None:
        return "these bytes are no text in UTF-8", Span(text.broken, text.broken + 4)
    if "\t" in line:
        return "a tab stands where one space belongs", Span(line.index("\t"), line.index("\t") + 1)
    if "" in words:
        at = re.search(r"^ | $|  ", line).start()
        return "a space stands where none belongs", Span(at, at + 1)
    if len(words) != 2:
        return f"the line has {counted(len(words), 'word')}", Span(0, len(line))
    word = next(word for word in words if not ITEM.fullmatch(word))
    at = 0 if word == words[0] else len(words[0]) + 1
    return item_fault(word), Span(at, at + len(word))


def mend_of(text):
    """Returns what mends a line that is no query."""
    line = text.text
    words = [word.strip(".") for word in WORDS.findall(line)]
    found = [word for word in words if ITEM.fullmatch(word)]
    if re.match(r"\s*(#|//|--|;)", line):
        return f"Take the line away: a file of queries has no remarks. {MEND}"
    if text.broken is not None or any(sign.isalpha() and not sign.isascii() for sign in line):
        return f"Write the item as the run names it: a name has letters of ASCII, digits, `_` and `-`. `tools/labels.py lines` lists the items. {MEND}"
    if "\r" in line:
        return "The file has carriage returns in the place of newlines: `tr '\\r' '\\n' < QUERIES > MENDED`."
    if STARS.search(line) and len(found) < 2:
        return f"Write a line for each item that is meant: no sign stands for several. `wfprov impact` lists what rests on one item. {MEND}"
    if len(found) == 2:
        other = "" if len(words) <= 4 else f", or `{found[1]} {found[0]}`: the line asks whether the second rests on the first"
        return f"Write `{found[0]} {found[1]}`{other}. {MEND}"
    if len(line.split()) > 2 and len(found) > 2:
        return f"Write a line for each question, as `{found[0]} {found[1]}` and `{found[0]} {found[2]}`. {MEND}"
    return mend_of_words(line, found, text.first_line)


def mend_of_words(line, found, number):
    """Returns what mends a line that has not two names of items."""
    dotted = re.sub(r"(\w)[:/](\w)", r"\1.\2", line)
    if dotted != line and all(map(ITEM.fullmatch, dotted.split(" "))) and dotted.count(" ") == 1:
        return f"Write `{dotted}`. {MEND}"
    if len(found) == len(line.split()) == 1:
        return f"Write the other item behind it, with a space between. What rests on one item, `wfprov impact` lists. {MEND}"
    if LABELS.fullmatch(line):
        return f"Two labels are decided by `wfprov decide SPEC VIEW {line}`. {MEND}"
    if "." not in line and number == 1:
        return f"Take the line away, if it is the head of a table. {MEND}"
    deep = re.search(r"[\w-]+\.([\w-]+\.[\w-]+)(?![\w.-])", line)
    files = "For the names of files ask by tools/files.py, with the table that an importer wrote."
    if deep:
        return f"{MEND} An instance is named without those around it, as in `{deep[1]}`. {files}"
    return f"{MEND} {files}" if "/" in line else MEND


def with_items(fault, items):
    """Returns the fault of a line of queries, with the items of an instance where a line names the instance alone."""
    word = fault.text.text[fault.node.at : fault.node.end] if fault.node and fault.text else ""
    found, ports = items(word) if fault.kind == "LineWrong" and is_name(word) else ([], [])
    if found:
        what = f"{quoted(word)} is an instance, and a question names an item, which is an instance, a dot and a port."
        return Fault(fault.kind, what, f"Write one of its items: {listed(found)}.", fault.node).stands_in(fault.where, fault.text)
    if ports:
        what = f"{quoted(word)} is the name of a port, and a question names an item, which is an instance, a dot and a port."
        return Fault(fault.kind, what, f"Write the item that is meant, as {listed(ports)}.", fault.node).stands_in(fault.where, fault.text)
    return fault


def item_fault(word):
    """Returns why a word is no name of an item."""
    parts = word.split(".")
    if len(parts) != 2:
        return f"{quoted(word)} has {'no dot' if len(parts) == 1 else counted(len(parts) - 1, 'dot')}, and the name of an item has one"
    wrong = next(part for part in parts if not is_name(part))
    return f"{quoted(wrong)} in {quoted(word)} is no name{f': it has {len(wrong)} signs, and at most 64 are possible' if len(wrong) > 64 else ''}"


def read_questions(path, file):
    """Yields the two items of each query, with the number and the bytes of its line."""
    try:
        for number, line in lines_of(path, file):
            text = Text(path, line, number)
            words = text.text.split(" ")
            if len(words) != 2 or not all(ITEM.fullmatch(word) for word in words):
                what, span = line_fault(text)
                raise Fault("LineWrong", f"{what}.", mend_of(text), span).stands_in(f"queries line {number}", text)
            yield number, words[0], words[1], text
    except Fault as fault:
        if not fault.where:
            fault.stands_in(f"queries line {fault.text.first_line}", fault.text)
        raise
