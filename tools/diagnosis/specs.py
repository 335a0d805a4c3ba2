"""A specification and a view, read from files, up to their first faults."""
from diagnosis import forms, links, loops, modules, pairs, views
from diagnosis.faults import Fault
from diagnosis.files import Text
from diagnosis.grammars import Grammar

# How many bytes each file has at most that is read whole, and how a long one gets shorter.
MOST = {"spec": 16777216, "view": 16777216, "coarse": 16777216, "auto": 16777216, "package": 134217728}
SHORTER = {"spec": "Take blanks away, or use one module in several bodies."}


def parts_of(text, form, where):
    """Returns the parts of a file of JSON that has a form."""
    try:
        if text.size > MOST[where]:
            what = f"the file has {text.size:,} bytes, and at most {MOST[where]:,} are read."
            raise Fault("TooLong", what, SHORTER.get(where, "Take blanks away."))
        return form(text.value())
    except Fault as fault:
        raise fault.stands_in(where, text) from None


def read_parts(path, data):
    """Returns the text and the parts of a specification."""
    text = Text(path, data)
    return text, parts_of(text, forms.SpecParts, "spec")


def kept(rules, value, where, text):
    """Refuses the first of some rules that a value breaks."""
    try:
        for rule in rules:
            rule(value)
    except Fault as fault:
        raise fault.stands_in(where, text) from None


def formed(text, parts, where="spec"):
    """Returns the grammar of parts that keep the rules of form."""
    kept((*modules.RULES, *links.RULES), parts, where, text)
    return Grammar(parts)


def accepted(text, parts, where="spec"):
    """Returns the grammar of parts that keep all rules."""
    grammar = formed(text, parts, where)
    kept(loops.RULES, grammar, where, text)
    return grammar


def read_view_parts(path, data, where="view"):
    """Returns the text and the parts of a view."""
    text = Text(path, data)
    return text, parts_of(text, forms.ViewParts, where)


def safe(text, parts, grammar, where="view"):
    """Returns the pairs of what a view shows that keeps all rules and is safe."""
    try:
        return pairs.is_safe(views.view_of(grammar, parts))
    except Fault as fault:
        raise fault.stands_in(where, text) from None
