"""What is accepted and surely not meant."""
import difflib

from diagnosis import forms
from diagnosis.faults import Doubt
from diagnosis.files import Span
from diagnosis.links import sides_of
from diagnosis.pairs import Assignment
from diagnosis.views import View
from diagnosis.words import listed, quoted
from located_json import read

# How many questions are told that ask for no item, and how many modules each by itself.
TOLD, FEW = 20, 3


def of_members(text, node, known, owner, effect=""):
    """Yields what is to be said of the members of an object: those that no form knows, and those that are given twice."""
    seen = set()
    for key, _ in node.value:
        if key.value in seen:
            yield Doubt(f"{owner} has the member {quoted(key.value)} twice, and the last one counts.", key, text)
        elif key.value not in known:
            close = difflib.get_close_matches(key.value[:64], known, 1, 0.45)
            meant = f" Was {quoted(close[0])} meant?" if close else ""
            yield Doubt(f"{owner} has a member {quoted(key.value)}, which no form knows. It is ignored{effect}.{meant}", key, text)
        seen.add(key.value)


def of_deps(text, parts):
    for number, part in enumerate(parts):
        yield from of_members(text, part.node, forms.DEPS, f"part {number} of `deps`")


def of_spec(text, parts, known=forms.SPEC, owner="the specification"):
    """Yields what is to be said of the members of a specification, or of a file with one, whether it is accepted or not."""
    yield from of_members(text, parts.node, known, owner)
    for part in parts.modules:
        missing = [side for side, ports in (("inputs", part.inputs), ("outputs", part.outputs)) if not ports]
        effect = f", and the module has no {' and no '.join(missing)}" if missing else ""
        yield from of_members(text, part.node, forms.MODULE, f"module {quoted(part.name.value)}", effect)
    for number, part in enumerate(parts.productions):
        yield from of_members(text, part.node, forms.PRODUCTION, f"production {number}")
    yield from of_deps(text, parts.deps)


def of_unused(text, grammar):
    """Yields the modules that stand nowhere, each by itself where they are few."""
    used = {name for production in grammar.productions for name in production.body.values()}
    unused = [module for module in grammar.modules.values() if module.name not in used and module.name != grammar.start]
    if len(unused) > FEW:
        names = listed([module.name for module in unused])
        yield Doubt(f"the modules {names} stand in no body, so no run has a step of them, and no view can show one.", unused[0].part.name, text)
        return
    for module in unused:
        what = f"module {quoted(module.name)} stands in no body, so no run has a step of it, and no view can show one."
        yield Doubt(what, module.part.name, text)


def of_view(text, parts):
    """Yields what is to be said of the members of a view, whether it is accepted or not."""
    effect = ", and the view expands every composite module" if parts.expand is None else ""
    members = {key.value: key for key, _ in parts.node.value}
    if "modules" in members and "expand" not in members:
        kind = "a package" if "package" in members else "a specification"
        what = f"this is {kind}, and a view belongs here. As a view it expands every composite module. The words are SPEC VIEW, in this order."
        yield Doubt(what, members["modules"], text)
        return
    yield from of_members(text, parts.node, forms.VIEW, "the view", effect)
    yield from of_deps(text, parts.deps)


def of_package(package):
    """Yields what is to be said of a package."""
    yield from of_spec(package.text, package.parts, forms.PACKAGE, "the package")
    yield from of_unused(package.text, package.grammar)


def of_shown(text, assignment):
    """Yields what is to be said of what a safe view names."""
    view, grammar = assignment.view, assignment.grammar
    named = [(node, "`expand` names") for node in view.parts.expand or []]
    named += [(part.module, f"part {number} of `deps` gives pairs to") for number, part in enumerate(view.parts.deps)]
    for node, what in named:
        if node.value not in view.seen:
            around = sorted({production.head for production in grammar.productions if node.value in production.body.values()})
            where = f"it stands in bodies of {listed(around)} alone, and the view shows none of these open" if around else "it stands in no body"
            yield Doubt(f"{what} {quoted(node.value)}, which the view never shows: {where}.", node, text)


def default_view(grammar):
    return View(grammar, forms.ViewParts(read("{}")))


def of_pairs(text, view):
    """Yields which modules a view gives fewer pairs than they have."""
    whole = Assignment(default_view(view.grammar))
    safe = whole.disagreement() is None
    for part in view.parts.deps:
        module = view.grammar.modules[part.module.value]
        if module.productions and not safe:
            continue
        inside = whole.pairs[module.name] if module.name in whole.pairs else view.grammar.atomic_pairs(module)
        missing = module.in_order(inside - view.given[module.name])
        if missing:
            who = "its inside has" if module.productions else "the specification gives it"
            told = f"the pair{'s' * (len(missing) > 1)} {listed([f'{first}>{second}' for first, second in missing])}"
            what = f"the view does not give {quoted(module.name)} {told}, which {who}."
            yield Doubt(f"{what} Where an answer rests on one of them, it is `no`.", part.module, text)


def of_automaton(text, parts):
    """Yields what is to be said of the members of an automaton, whether it is accepted or not."""
    yield from of_members(text, parts.node, forms.AUTO, "the automaton")


def of_states(text, auto, view):
    """Yields what is to be said of an automaton of which no state that accepts can be reached under a view, or no other."""
    passed = view.seen - view.expanded
    reached = auto.reached(passed)
    lost = [move for move in auto.parts.moves if move.state in reached and move.after not in reached]
    names = list(dict.fromkeys(move.name for move in lost))
    how = "opens" if view.seen >= set(names) else "opens or never shows" if view.seen & set(names) else "never shows"
    moves = "this move is" if len(lost) == 1 else "these moves are"
    why = f" No path passes {listed(names)}, which the view {how}, so {moves} never made." if names else ""
    if not auto.accept:
        yield Doubt("no state accepts, so no question is answered `yes`. List the states that accept in `accept`.", auto.parts.node, text)
    elif not auto.accept & reached:
        node = lost[0].node if lost else auto.parts.accept[0][0]
        yield Doubt(f"no state of `accept` is ever reached, so no question is answered `yes`.{why}", node, text)
    elif lost and auto.accept >= reached and not auto.accept >= auto.reached(view.grammar.modules):
        yield Doubt(f"each state that is ever reached accepts, so `words` answers as `ask` does.{why}", lost[0].node, text)


def made_at(run, name, port):
    """Returns the item that goes through an output of an instance, as the instance and the port that name it."""
    while True:
        instance = run.instances[name]
        if instance.parent is None:
            return name, port
        production = run.instances[instance.parent].production
        if any(first == (instance.position, port) for first, _ in production.edges):
            return name, port
        name, port = instance.parent, next(out for out, end in production.exits.items() if end == (instance.position, port))


def taken_at(run, name, port):
    """Returns the item that goes into an input of an instance, as the instance and the port that name it."""
    while True:
        instance = run.instances[name]
        if instance.parent is None:
            return name, port
        owner = run.instances[instance.parent]
        first = next((first for first, second in owner.production.edges if second == (instance.position, port)), None)
        if first is not None:
            return owner.children[first[0]], first[1]
        name, port = instance.parent, next(entry for entry, end in owner.production.entries.items() if end == (instance.position, port))


def of_item(run, item):
    """Returns why a name is that of no item of a run, or nothing."""
    name, _, port = item.partition(".")
    if name not in run.instances:
        module = f": it is a module, and an item is named by an instance of it{of_module(run, name)}" if name in run.grammar.modules else ""
        return f"the run has no instance {quoted(name)}{module}"
    module = run.grammar.modules[run.instances[name].module]
    inputs, outputs = sides_of(module.part)
    if port not in inputs + outputs:
        return f"{quoted(name)} is of the module {quoted(module.name)}, which has no port {quoted(port)}: it has {listed(inputs + outputs)}"
    found = ".".join(made_at(run, name, port) if port in outputs else taken_at(run, name, port))
    if found == item:
        return ""
    side, way = ("output", "leads out of its body") if port in outputs else ("input", "is fed from elsewhere")
    return f"the {side} {quoted(port)} of {quoted(name)} {way}, and names no item of its own: the item there is {quoted(found)}"


def of_module(run, module):
    """Returns the first instances of a module in words, if there are some."""
    held = [name for name, instance in run.instances.items() if instance.module == module][: FEW + 1]
    return f", as {listed(held)}" if held else ""


def of_entry(names, item):
    """Returns why a name is that of no item of a label file, or nothing."""
    if item in names:
        return ""
    instance = item.partition(".")[0] + "."
    there = [name for name in names if name.startswith(instance)]
    more = f"; of this instance it has {listed(there)}" if there else ""
    return f"the label file has no item {quoted(item)}{more}. If this output leads out of its body, the item is named further out"


def of_questions(questions, why):
    """Yields what is to be said of questions that ask for what is no item, by `why` of each name."""
    count = 0
    for _, first, second, text in questions:
        for item in (first, second):
            told = why(item)
            if told:
                count += 1
                at = 0 if item == first else len(first) + 1
                if count <= TOLD:
                    yield Doubt(f"{told}. The answer is `unknown`.", Span(at, at + len(item)), text)
    if count > TOLD:
        yield Doubt(f"{count - TOLD} further names in the questions are those of no item.")
