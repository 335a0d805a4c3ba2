"""Names in messages: lists of them, and names that are near to one that is not there."""
import difflib
import re

NAME = re.compile(r"[A-Za-z0-9_-]{1,64}")
# How many names a message lists.
LISTED = 8


def is_name(text):
    return NAME.fullmatch(text) is not None


def quoted(name):
    """Returns a name as it stands in a sentence, cut where it is long."""
    return f"`{name}`" if len(name) <= 80 else f"`{name[:77]}...`"


def listed(names, empty="none"):
    """Returns names with commas and an `and` between, the first of them where there are many."""
    words = [quoted(name) for name in names]
    if len(words) > LISTED:
        words = words[:LISTED] + [f"{len(words) - LISTED} more"]
    if not words:
        return empty
    return words[0] if len(words) == 1 else ", ".join(words[:-1]) + " and " + words[-1]


def near(name, known):
    """Returns a sentence that asks whether a known name was meant, or nothing where none is near."""
    found = difflib.get_close_matches(name[:64], known, 1, 0.6)
    return f" Was {quoted(found[0])} meant?" if found else ""


def mended(text):
    """Returns a name that is like a text that is none."""
    return re.sub(r"[^A-Za-z0-9_-]+", "_", text)[:64].strip("_") or "name"


def counted(number, word):
    """Returns a number with its noun."""
    return f"{number:,} {word}{'' if number == 1 else 's'}"


def way(number, head):
    """Returns how a production is called in a sentence."""
    return f"production {number}, a way to do {quoted(head)},"
