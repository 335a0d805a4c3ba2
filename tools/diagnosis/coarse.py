"""The rule on a coarser view beside a finer one, and what the two say of the modules that the coarser one leaves closed."""
from diagnosis.faults import Fault
from diagnosis.views import node_of, written_expand, written_pairs
from diagnosis.words import listed, quoted


def is_coarser(fine, coarse):
    """Refuses a coarser view that opens a module which the finer one leaves closed. Both are the pairs of safe views."""
    more = [name for name in fine.grammar.modules if name in coarse.view.expanded - fine.view.expanded]
    if more:
        raise not_coarser(fine, coarse, more)


def not_coarser(fine, coarse, more):
    """Returns the fault of a coarser view that opens some modules more, and says where it opens the first."""
    name, expand = more[0], coarse.view.parts.expand
    where = "The second view has no member `expand`, so it opens every composite module."
    if expand is not None:
        number = next(number for number, node in enumerate(expand) if node.value == name)
        where = f"{quoted(name)} is number {number} of `expand`, from 0."
    also = f", and so with {listed(more[1:])}" if more[1:] else ""
    return Fault(
        f"NotCoarser {name}",
        f"the second view opens {quoted(name)}, and the first one leaves it closed{also}. {where}",
        mend(fine, coarse, more),
        node_of(coarse.view, name),
    )


def mend(fine, coarse, more):
    """Returns how two views are mended of which the second opens modules more."""
    grammar, both = fine.grammar, coarse.view.expanded & fine.view.expanded
    closed = [grammar.modules[name] for name in more if name in coarse.view.seen]
    parts = [written_pairs(module, coarse.pairs[module.name]) for module in closed if coarse.pairs[module.name] != module.all_pairs()]
    given = f" and, in `deps`, `{','.join(parts)}`, so that the pairs stay as they are" if parts else ""
    mended = f"leave {listed(more)} closed in the second view: write `{written_expand(grammar, both)}` there{given}."
    if both == fine.view.expanded:
        return f"Exchange the two, since the coarser view stands second: the first one opens nothing that the second leaves closed. Or {mended}"
    return f"{mended[0].upper()}{mended[1:]} Or open {'them' if more[1:] else 'it'} in the first one, too."


def without_run(answer):
    """Returns the lines that `compare` writes, without the instance and the events of a run."""
    return [" ".join(line.split(" ")[:4]) for line in answer[:1]] if answer[:1] != ["yes"] else answer


class Beside:
    """A coarser view beside a finer one: the text of the coarser one, and the modules that it sees and leaves closed, each with its pairs
    under the finer one and under the coarser one."""

    def __init__(self, text, fine, coarse):
        self.text, self.view = text, coarse.view
        shown = coarse.view.seen - coarse.view.expanded
        modules = [module for module in fine.grammar.modules.values() if module.name in shown]
        self.border = [(module, fine.pairs[module.name], coarse.pairs[module.name]) for module in modules]

    def answer(self):
        """Returns the lines that `compare` writes, without the instance and the events of a run."""
        denied = [(module.name, *pair) for module, held, given in self.border for pair in module.in_order(held - given)]
        extra = [(module.name, *pair) for module, held, given in self.border for pair in module.in_order(given - held)]
        if denied:
            return [" ".join(("no", *denied[0]))]
        return ["yes", " ".join(("extra", *extra[0])) if extra else "exact"]

    def node(self, name):
        """Returns where the coarser view gives pairs to a module, or None."""
        return next((part.module for part in self.view.parts.deps if part.module.value == name), None)

    def mend(self):
        """Returns how a coarser view is mended that denies pairs."""
        denied = [(module, held) for module, held, given in self.border if held - given]
        names, parts = listed([module.name for module, _ in denied]), ",".join(written_pairs(*pair) for pair in denied)
        known = " in the place of what stands there" if any(self.node(module.name) for module, _ in denied) else ""
        return f"Give {names} in the second view the pairs that the first one has: write `{parts}` in `deps`{known}."
