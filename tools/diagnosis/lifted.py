"""A grammar in which each port stands once for each state of an automaton, and a view of it, so that paths are told apart by their states.

A port in a state is spelled as the port, a colon and the state. The ports of a module are ordered by port and then by state.
"""
import copy

from diagnosis.words import quoted


def in_state(port, state):
    return f"{port}:{state}"


def printed(port):
    """Returns a port in a state as the program prints it."""
    return port.replace(":", " state ")


def told(port):
    """Returns a port in a state as it is called in sentences."""
    name, _, state = port.partition(":")
    return f"{quoted(name)} in state {state}"


def lifted_module(module, states):
    found = copy.copy(module)
    found.inputs, found.outputs = ([in_state(port, state) for port in ports for state in states] for ports in (module.inputs, module.outputs))
    return found


def lifted_production(production, states):
    """Returns a production in which each link stands once for each state, and joins the ports in that state."""

    def end(whole, state):
        return whole[0], in_state(whole[1], state)

    found = copy.copy(production)
    found.edges = [(end(first, state), end(second, state)) for first, second in production.edges for state in states]
    found.entries = {in_state(port, state): end(first, state) for port, first in production.entries.items() for state in states}
    found.exits = {in_state(port, state): end(last, state) for port, last in production.exits.items() for state in states}
    return found


def lifted_grammar(grammar, states):
    """Returns a grammar with the names, the productions and the ranks of another."""
    found = copy.copy(grammar)
    found.modules = {name: lifted_module(module, states) for name, module in grammar.modules.items()}
    found.productions = [lifted_production(production, states) for production in grammar.productions]
    found.chosen = {name: found.productions[production.number] for name, production in grammar.chosen.items()}
    return found


class LiftedView:
    """What a view shows, where a closed module leads from each state to the one to which its move leads."""

    def __init__(self, view, auto):
        self.view, self.auto = view, auto
        self.seen, self.expanded = view.seen, view.expanded
        self.grammar = lifted_grammar(view.grammar, range(auto.states))

    def shown_pairs(self, module):
        """Returns the pairs of a module that the view does not expand."""
        moves = [(state, self.auto.after(state, module.name)) for state in range(self.auto.states)]
        pairs = self.view.shown_pairs(self.view.grammar.modules[module.name])
        return {(in_state(first, state), in_state(second, after)) for first, second in pairs for state, after in moves}
