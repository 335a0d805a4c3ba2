"""What a diagnosis says, as lines of text."""
import textwrap

import terminal
import two_views
from diagnosis.words import quoted
from two_views import sentence

WIDTH = 110
WHERE = {
    "spec": "specification",
    "view": "view",
    "coarse": "second view",
    "auto": "automaton",
    "package": "package",
    "labels": "label file",
    "label": "label",
    "events": "events",
    "queries": "queries",
}
VIEWS = two_views.Called("the second view", "under the second view", "the first view", "under the first view")


def place(text, node):
    """Returns where a part stands, in words."""
    line, column = text.place(node.at)
    return f"{text.path}, line {line}, column {column}"


def wrapped(text, indent=""):
    """Returns a paragraph in lines of a readable width."""
    indents = {"initial_indent": indent, "subsequent_indent": indent}
    return textwrap.wrap(terminal.escaped(text), WIDTH, **indents, break_long_words=False, break_on_hyphens=False)


def excerpt(text, node):
    """Returns the line of the file with signs below that mark the part."""
    line, mark = text.shown(node)
    number = str(text.place(node.at)[0])
    begun = mark.index("^")
    before, marked = terminal.escaped(line[:begun]), terminal.escaped(line[begun : len(mark)])
    below = " " * len(before) + "^" * max(1, len(marked))
    return ["", f"  {number} | {terminal.escaped(line)}", f"  {' ' * len(number)} | {below}", ""]


def of_fault(fault, said):
    """Returns the lines on a fault, with what the program says of it, or None where it was not asked."""
    file = WHERE[fault.where.split(" ")[0]]
    does = "refuses" if fault.kind else "cannot read"
    lines = wrapped(f"wfprov {does if said is not None else 'would say that it ' + does} the {file}: {fault.message()}")
    what = sentence(fault.what)
    if fault.text is not None and fault.node is not None:
        lines += ["", *wrapped(f"{place(fault.text, fault.node)}: {what}"), *excerpt(fault.text, fault.node)]
    elif fault.text is not None:
        named = f"{fault.text.path}, line {fault.text.first_line}" if " line " in fault.where else fault.text.path
        lines += ["", *wrapped(f"{named}: {what}"), ""]
    else:
        lines += ["", *wrapped(what), ""]
    if fault.picture:
        lines += [*map(terminal.escaped, fault.picture), ""]
    return lines + (wrapped(f"To mend it: {fault.mend}") if fault.mend else [])


def of_doubts(doubts, refused):
    """Returns the lines on what is accepted and surely not meant, which may be the cause where something is refused."""
    heading = "wfprov ignores or accepts these, and they are surely not meant" if refused else "wfprov accepts these, and they are surely not meant"
    lines = ["", f"{heading}{', so look here too' if refused else ''}:"]
    for doubt in doubts:
        where = f"{place(doubt.text, doubt.node)}: " if doubt.text is not None else ""
        lines += ["", *wrapped(f"{where}{sentence(doubt.what)}")]
        lines += excerpt(doubt.text, doubt.node)[1:-1] if doubt.text is not None else []
    return lines


def of_views(beside, answer):
    """Returns the lines on what `compare` answers of two views, without or with a run that shows it."""
    meaning = " ".join(two_views.meaning(answer, VIEWS, quoted)).rstrip()
    if not two_views.denies(answer):
        return ["", *wrapped(meaning)]
    _, module, _, _, *instance = answer[0].split(" ")
    node = beside.node(module)
    lines = ["", *wrapped(f"{place(beside.text, node)}: {meaning}" if node else meaning), *(excerpt(beside.text, node)[:-1] if node else [])]
    if instance:
        shows = f"The lines behind the first that `compare` writes are the events of a run in which {quoted(instance[0])} is a step of {quoted(module)}."
        lines += ["", *wrapped(shows)]
    return [*lines, "", *wrapped(f"To mend it: {beside.mend()}")]


def of_difference(own, said):
    """Returns the lines where the program says something, or nothing, and this tool finds something else, or nothing."""
    end = "The program decides; please report that this tool differs."
    return wrapped(f"The program says: {said or 'nothing, and accepts the files'}. This tool finds: {own or 'that nothing is wrong'}. {end}")
