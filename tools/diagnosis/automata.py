"""The rules on an automaton: its form, its states and moves, and whether a view stays safe where paths are told apart by its states."""
from diagnosis import specs
from diagnosis.faults import Fault
from diagnosis.files import Text
from diagnosis.forms import AUTO, ROWS, Shape, top
from diagnosis.lifted import LiftedView, printed, told
from diagnosis.pairs import Assignment, Witness
from diagnosis.views import written_expand, written_pairs
from diagnosis.words import counted, listed, near, quoted

# How many states an automaton has at most, and how many ports a module on one side, counted once for each state.
MOST_STATES, MOST_PORTS = 64, 64


class Move:
    """A move: its number, its node, those of its three parts, and what they say."""

    def __init__(self, shape, number, node, place):
        self.number, self.node = number, node
        self.nodes = shape.row(node, ROWS["moves"], place)
        self.state, self.after = (shape.number(self.nodes[k], f"{place}[{k}]") for k in (0, 2))
        self.name = self.nodes[1].value


class AutoParts:
    """The parts of an automaton."""

    def __init__(self, node):
        self.node = top(node, "an automaton")
        self.states_node, self.states = self.number("states")
        self.start_node, self.start = self.number("start")
        shape = Shape("accept")
        self.accept = [(part, shape.number(part, at)) for part, at in shape.items(node, "accept", "number", "")]
        shape = Shape("moves")
        self.moves = [Move(shape, number, part, at) for number, (part, at) in enumerate(shape.items(node, "moves", "list", ""))]

    def number(self, member):
        """Returns a member that is a whole number, and the number."""
        shape = Shape(member, AUTO)
        node = shape.member_of(self.node, member, "number", "")
        return node, shape.number(node, member)


def states_are_few(parts, _):
    if not 1 <= parts.states <= MOST_STATES:
        what = f"there {'is no state' if not parts.states else f'are {parts.states:,} states'}, and from 1 to {MOST_STATES} are possible."
        raise Fault("StatesBad", what, fewer(parts, MOST_STATES), parts.states_node)


def named_states(parts):
    """Returns the states that are named, each with the member and the node."""
    named = [("start", parts.start_node, parts.start), *(("accept", *pair) for pair in parts.accept)]
    return named + [("moves", move.nodes[k], state) for move in parts.moves for k, state in ((0, move.state), (2, move.after))]


def wanted_states(parts):
    """Returns how many states there have to be so that each that is named is there."""
    return max(state for _, _, state in named_states(parts)) + 1


def fewer(parts, most):
    """Returns how an automaton comes to have no more states than so many."""
    wanted = wanted_states(parts)
    if wanted > most:
        return "Ask in several automata, each of which has fewer."
    return f"Write `\"states\":{wanted}`: no state above {wanted - 1} is named."


def states_are_there(parts, _):
    for member, node, state in named_states(parts):
        if state >= parts.states:
            raise no_state(parts, member, node, state)


def no_state(parts, member, node, state):
    """Returns the fault of a state that is not there."""
    wanted = wanted_states(parts)
    what = f"`{member}` names the state {state:,}, and there {'is' if parts.states == 1 else 'are'} {counted(parts.states, 'state')}:"
    numbers = "it has the number 0" if parts.states == 1 else f"they are numbered from 0 to {parts.states - 1}"
    mend = f"Name one of them, or write `\"states\":{wanted}`." if wanted <= MOST_STATES else "Name one of them."
    return Fault(f"StateBad {member}", f"{what} {numbers}.", mend, node)


def modules_are_known(parts, grammar):
    for move in parts.moves:
        if move.name not in grammar.modules:
            names = list(grammar.modules)
            held = sorted({body.body[move.name] for body in grammar.productions if move.name in body.body})
            hint, mend = near(move.name, names), f"Name a module of the specification: {listed(names)}. A move names modules, and not instances."
            if held:
                hint, mend = f" It is a position, of the module {listed(held)}.", f"Name the module in the place of the position: {listed(held)}."
            what = f"move {move.number} names {quoted(move.name)}, and the specification has no module of this name.{hint}"
            raise Fault(f"UnknownModule move {move.number}", what, mend, move.nodes[1])


def moves_differ(parts, _):
    known = {}
    for move in parts.moves:
        first = known.setdefault((move.state, move.name), move)
        if first is not move:
            both = f"from state {move.state} past {quoted(move.name)}"
            leads = f"on to state {first.after}, and move {move.number} on to state {move.after}"
            what, mend = f"two moves begin {both}: move {first.number} leads {leads}.", "Take one of the two away"
            if first.after == move.after:
                what = f"move {move.number} stands there already: move {first.number} leads {both} to state {first.after}, too."
            else:
                mend += ": from a state a path goes on to one state past a step. To be in two states at once, make one state that stands for both"
            mend += "."
            raise Fault(f"MoveTwice move {move.number}", what, mend, move.node)


def ports_are_few(parts, grammar):
    module = max(grammar.modules.values(), key=most_ports)
    ports = most_ports(module)
    if ports * parts.states > MOST_PORTS:
        side = "inputs" if len(module.inputs) == ports else "outputs"
        what = f"{quoted(module.name)} has {ports} {side}, which is {ports * parts.states:,} in {parts.states} states, and at most {MOST_PORTS} are possible."
        most = MOST_PORTS // ports
        mend = f"With this specification an automaton has at most {counted(most, 'state')}. {fewer(parts, most)}"
        raise Fault("TooManyStates", what, mend, parts.states_node)


def most_ports(module):
    return max(len(module.inputs), len(module.outputs))


class Automaton:
    """An automaton that keeps the rules."""

    def __init__(self, parts):
        self.parts, self.states = parts, parts.states
        self.accept = {state for _, state in parts.accept}
        self.moves = {(move.state, move.name): move.after for move in parts.moves}

    def after(self, state, name):
        """Returns the state to which a step of a module leads from a state."""
        return self.moves.get((state, name), state)

    def reached(self, names):
        """Returns the states to which steps of some modules lead from the start."""
        found, left = {self.parts.start}, [self.parts.start]
        for state in left:
            others = {after for (before, name), after in self.moves.items() if before == state and name in names} - found
            found |= others
            left += others
        return found


RULES = (states_are_few, states_are_there, modules_are_known, moves_differ, ports_are_few)


def read_parts(path, data):
    """Returns the text and the parts of an automaton."""
    text = Text(path, data)
    return text, specs.parts_of(text, AutoParts, "auto")


def accepted(text, parts, assignment):
    """Returns the automaton of parts that keep all rules, with which a view stays safe whose pairs are given."""
    try:
        for rule in RULES:
            rule(parts, assignment.grammar)
        return is_safe(assignment, Automaton(parts))
    except Fault as fault:
        raise fault.stands_in("auto", text) from None


def is_safe(assignment, auto):
    """Refuses an automaton with which a view is not safe, or returns it."""
    lifted = Assignment(LiftedView(assignment.view, auto))
    found = lifted.disagreement()
    if found:
        raise unsafe(assignment, auto.parts, Witness(lifted, *found))
    return auto


def unsafe(assignment, parts, witness):
    """Returns the fault of an automaton with which a view is not safe."""
    name, (joins, parts_with), (first, second) = witness.module.name, witness.ways(), map(told, witness.pair)
    inside = assignment.grammar.reached([name], assignment.view.expanded) - assignment.view.expanded
    passed = [move for move in parts.moves if move.name in inside and move.after != move.state]
    what = (
        f"the view opens {quoted(name)}, and two ways to do it pass other steps: production {joins} leads from the input {first} to the output"
        f" {second}, and production {parts_with} does not. So a question would have no one answer."
    )
    names = list(dict.fromkeys(move.name for move in passed))
    return Fault(witness.kind(printed), what, mend(assignment, name, names), passed[0].node, [SPELLED, "", *witness.picture()])


SPELLED = "  Here `x:0` is the port `x` in state 0."


def mend(assignment, name, names):
    """Returns how an automaton is mended that has moves of some modules, of which the ways to do another pass more or fewer."""
    grammar, view = assignment.grammar, assignment.view
    expand, pairs = written_expand(grammar, view.expanded - {name}), written_pairs(grammar.modules[name], assignment.pairs[name])
    return (
        f"Ask for steps that each way to do {quoted(name)} passes alike: inside it, the moves name {listed(names)}. Or leave {quoted(name)} closed"
        f" in the view, by `{expand}` and, in `deps`, `{pairs}`, and name it in the moves in their place."
    )
