"""What `wfprov compare` says of two views, in sentences, for the tools that hand it on."""
import collections

# How the coarser view is called, and what is said under it; and so of the finer one.
Called = collections.namedtuple("Called", "coarse here fine under")


def sentence(text):
    """Returns a sentence with a great first letter."""
    return text[:1].upper() + text[1:]


def rests_on(module, first, second, shown):
    """Returns that an output of a module rests on an input, in words, as the program tells the pair."""
    return f"the output {shown(second)} of {shown(module)} rests on its input {shown(first)}"


def denies(told):
    """Whether the coarser view denies what is so under the finer one, by the lines of `compare`."""
    return told[0].startswith("no ")


def meaning(told, called, shown):
    """Returns what the lines of `compare` mean, as a sentence and what follows from it. `shown` returns how a word is shown."""
    coarse, here, fine, under = called
    yes, no = shown("yes"), shown("no")
    if denies(told):
        rests = rests_on(*told[0].split(" ")[1:4], shown)
        return f"{sentence(coarse)} denies what is so {under}.", (
            f"{sentence(under)}, {rests}, in whatever way the run is finished. {sentence(coarse)} says that it does not. So an answer {no} {here} may"
            f" be {yes} {under}. {sentence(coarse)} may deny more: this is the first such pair."
        )
    begun = f"Nothing is left out: about items that {coarse} shows,"
    if told == ["yes", "exact"]:
        return f"{begun} {fine} gives the same answers.", ""
    rests = rests_on(*told[1].split(" ")[1:], shown)
    return f"{begun} whatever is {yes} {under} is {yes} {here}.", (
        f"{sentence(coarse)} says more: by it, {rests}, and {under} it does not. So an answer {yes} {here} may be {no} {under}. This is the first"
        " such pair."
    )
