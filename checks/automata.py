"""What is refused of an automaton, worked out anew: by the table of docs/FORMATS.md, and then by a search over ports and states."""
import json

import wfprov
import words
from diagnosis import specs
from located_json import NotJson, read

MOST = 64


def whole(spelling):
    """Returns a number that is spelled without sign, or what is no whole number."""
    return None if spelling.startswith("-") else int(spelling)


def is_whole(value):
    return type(value) is int and value < 1 << 64


def is_move(value):
    return type(value) is list and len(value) == 3 and is_whole(value[0]) and type(value[1]) is str and is_whole(value[2])


def is_list(value, is_item):
    return type(value) is list and all(map(is_item, value))


def value_of(data):
    """Returns the value of a text of JSON. Anything else raises ValueError or NotJson."""
    text = data.decode("utf-8")
    read(text)
    return json.loads(text, parse_int=whole)


def form_fault(data, grammar):
    """Returns what is wrong with the form, the states, the moves or the ports of an automaton, or nothing."""
    try:
        value = value_of(data)
    except (ValueError, NotJson):
        return "NotJson"
    if type(value) is not dict:
        return "WrongShape top"
    states, start, accept, moves = (value.get(name, absent) for name, absent in (("states", None), ("start", None), ("accept", []), ("moves", [])))
    right = {"states": is_whole(states), "start": is_whole(start), "accept": is_list(accept, is_whole), "moves": is_list(moves, is_move)}
    if not all(right.values()):
        return f"WrongShape {next(name for name in right if not right[name])}"
    if not 0 < states <= MOST:
        return "StatesBad"
    named = {"start": [start], "accept": accept, "moves": [state for move in moves for state in move[::2]]}
    wrong = [f"StateBad {name}" for name, held in named.items() if any(state >= states for state in held)]
    wrong += [f"UnknownModule move {number}" for number, move in enumerate(moves) if move[1] not in grammar.modules]
    wrong += [f"MoveTwice move {number}" for number, move in enumerate(moves) if move[:2] in [other[:2] for other in moves[:number]]]
    ports = max(len(side) for module in grammar.modules.values() for side in (module.inputs, module.outputs))
    return [*wrong, *(["TooManyStates"] if ports * states > MOST else []), ""][0]


def refusal(program, spec, view, data):
    """Returns the line by which an automaton is refused under a view that is accepted, or nothing."""
    with open(spec, "rb") as file:
        grammar = specs.formed(*specs.read_parts("spec", file.read()))
    fault = form_fault(data, grammar)
    if fault:
        return f"refused: auto: {fault}"
    soonest = {step.name: step.production for step in wfprov.check(spec, program).steps}
    lifted = words.Lifted(grammar, wfprov.view(spec, view, program), soonest, words.read_auto(data))
    return (lifted.refusal() or "").strip()
