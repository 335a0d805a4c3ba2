"""A file, or a line of one, with its places; and the fault that it is no JSON."""
import re

import located_json
from diagnosis.faults import Fault

LOOK = "Look at the place that is marked and just before it: a comma, a quote or a bracket may be missing there, or be too many."
CLOSING = {"[": "]", "{": "}"}
KIND = {"[": "list", "{": "object"}
# What mends a text that is no JSON, by words of what is wrong with it.
MENDS = (
    ("nested", "No form of docs/FORMATS.md is nested so deep: take levels away."),
    ("straight double quotes", "Write the straight double quote of the keyboard in the place of each such sign, in the whole file, with an editor of plain text."),
    ("JSON has no comments", "Take the comment away. A remark may stand in a member that no form knows, as `\"note\":\"..\"`."),
    ("here is `'`", "Write a double quote in the place of each single one, here and in the whole file."),
    ("a comma stands before", "Take this comma away, or write what is missing behind it."),
    ("`NaN` is no", "Write a number, `null`, or a text between double quotes; or take the member away."),
    ("is no value of JSON", "Put it between double quotes, if it is a text."),
    ("no quote ends it", "Write a double quote where the text ends."),
    ("sign U+", "Take the sign away: a name has no tabs, blanks or other signs that are not seen."),
)
BEFORE_VALUE = re.compile(r"a comma or `.` is to stand here, and here is `[\[{\"]`")
# How many signs of a line a message shows, and how many of them before the place.
SHOWN, BEFORE = 100, 60


def mend_of(wrong, text):
    """Returns what mends a text that is no JSON."""
    for words, mend in MENDS:
        if words in wrong.what:
            return mend
    mend = how_to_close(wrong, text) or second_value(wrong, text)
    if mend:
        return mend
    return "Write a comma before it, behind what comes before; or a bracket that closes is missing there." if BEFORE_VALUE.search(wrong.what) else LOOK


def how_to_close(wrong, text):
    """Returns what mends a list or an object that is not closed, or nothing where all are."""
    if not wrong.opened:
        return ""
    signs = [text.text[at] for at in wrong.opened]
    line, column = text.place(wrong.opened[-1])
    owner = f"the {KIND[signs[-1]]} that begins in line {line}, column {column}"
    sign, closing = text.text[wrong.at : wrong.at + 1], CLOSING[signs[-1]]
    if "stands in a list" in wrong.what:
        behind = text.text[: wrong.at].rstrip()[-1:]
        return f"Close {owner}: write `]` before {'the comma that stands before the name' if behind == ',' else 'the name, and a comma between the two'}."
    if not sign and f"`{closing}` is to stand" in wrong.what:
        missing = "".join(CLOSING[sign] for sign in reversed(signs))
        return f"Write `{missing}` at the end: {owner} is not closed. If more is missing there, the file was cut: copy or write it anew."
    if not sign:
        return "The file ends in the middle: it was cut, or its writer was stopped. Copy or write it anew."
    if sign in "]}" and f"`{closing}` is to stand" in wrong.what:
        return f"Close {owner}: write `{closing}` before the `{sign}`. Or the `{sign}` is one too many."
    if sign in "[{" and wrong.what.startswith("the name of a member"):
        return f"Close {owner}: write `}}` before the comma that stands before the `{sign}`."
    return ""


def second_value(wrong, text):
    """Returns what mends a text with more behind its value, or nothing."""
    if "a file holds one value" not in wrong.what:
        return ""
    if text.text[wrong.at] in "[{":
        return "Two values stand one behind the other: give each a file of its own, or take one away."
    return "Take what stands behind the value away; or a bracket that closes, just before this place, is one too many."


class Span:
    """A part of a text that is no value of JSON, from one place to another."""

    def __init__(self, at, end):
        self.at, self.end = at, end


class Text:
    """A text that stands in a file, from a line on. Bytes that are not UTF-8 are kept as escapes, and `broken` is the first of them."""

    def __init__(self, path, data, first_line=1):
        self.path, self.first_line, self.size, self.broken = path, first_line, len(data), None
        try:
            self.text = data.decode("utf-8")
        except UnicodeDecodeError as error:
            self.broken = len(data[: error.start].decode("utf-8"))
            self.text = data.decode("utf-8", "backslashreplace")

    def place(self, at):
        """Returns the line and the column of a place, each from 1."""
        return self.first_line + self.text.count("\n", 0, at), at - self.text.rfind("\n", 0, at)

    def shown(self, node):
        """Returns the line in which a part begins, as far as it is shown, and signs that mark the part."""
        begun = self.text.rfind("\n", 0, node.at) + 1
        ended = self.text.find("\n", node.at)
        line = self.text[begun : len(self.text) if ended < 0 else ended]
        first = max(0, node.at - begun - BEFORE)
        cut = line[first : first + SHOWN]
        length = max(1, min(node.end - node.at, len(cut) - (node.at - begun - first)))
        return cut, " " * (node.at - begun - first) + "^" * length

    def value(self):
        """Returns the value of the text as JSON."""
        if self.broken is not None:
            raise Fault(
                "NotJson",
                "these bytes are no text in UTF-8.",
                "Save the file as UTF-8, without signs of another encoding.",
                Span(self.broken, self.broken + 4),
            )
        try:
            return located_json.read(self.text)
        except located_json.NotJson as wrong:
            what = wrong.what[0].upper() + wrong.what[1:]
            raise Fault("NotJson", f"this is no JSON. {what}.", mend_of(wrong, self), Span(wrong.at, wrong.at + 1)) from None
