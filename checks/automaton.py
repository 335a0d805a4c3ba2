#!/usr/bin/env python3
"""Compares the automata of tools/automaton.py with Python's module `re`, on many expressions and words at random.

  python3 checks/automaton.py [TOOL] [--expressions N] [--seed N]

An expression is made over a few names, some of which begin with others, and written twice: for the tool, with blanks where they may stand,
and for `re`, with one letter for each name. AUTO, read here by the rule that a state stays where no move is given, has to accept the words
that `re` accepts. Words are drawn over the names, or made by a walk through the expression, so that many are accepted. An automaton also has
to be as small as there can be: each state is reached, of any two a word leads one to accept and the other not, and no move stays.

It prints how much was compared and how much of it differs, with the first difference of each kind. Ends with 1 where something differs, or
where too few words are accepted or are not.
"""
import argparse
import collections
import itertools
import json
import os
import random
import re
import sys

TOP = os.path.dirname(os.path.dirname(os.path.abspath(__file__)))
sys.path.insert(0, os.path.join(TOP, "tools"))
from served import tool_at

NAMES = ("A", "AB", "A-B", "b", "b_1", "Filter")
LETTERS = "pqrstu"
# How many words are asked of an expression, and how many of a hundred words have to be accepted at least, and not to be.
WORDS, LEAST = 30, 20


class Single:
    """An expression over letters: its text for the tool, its text for `re`, and words of it at random."""

    def __init__(self, names, draw):
        self.names, self.draw = names, draw
        self.taken = sorted(draw.sample(names, draw.randint(1, min(2, len(names)))))
        self.kind = draw.choice(("name", "name", "name", "any", "but"))

    def text(self):
        blank = self.draw.choice(("", " "))
        if self.kind == "but":
            return f"[^{blank}{'  '.join(self.taken)}{blank}]"
        return f" {self.taken[0]} " if self.kind == "name" else f"{blank}.{blank}"

    def pattern(self):
        letters = "".join(LETTERS[NAMES.index(name)] for name in self.taken)
        return {"name": letters[0], "any": ".", "but": f"[^{letters}]"}[self.kind]

    def word(self):
        own = {"name": self.taken[:1], "any": self.names, "but": [name for name in self.names if name not in self.taken]}[self.kind]
        return [self.draw.choice(own or self.names)]


class Row:
    """Expressions one behind the other, or ways beside one another."""

    def __init__(self, parts, sign, draw):
        self.parts, self.sign, self.draw = parts, sign, draw

    def text(self):
        return f"({self.sign.join(part.text() for part in self.parts)})"

    def pattern(self):
        return f"(?:{self.sign.join(part.pattern() for part in self.parts)})"

    def word(self):
        parts = self.parts if not self.sign else [self.draw.choice(self.parts)]
        return [name for part in parts for name in part.word()]


class Repeated:
    """An expression with `*`, `+` or `?` behind it."""

    def __init__(self, part, sign, draw):
        self.part, self.sign, self.draw = part, sign, draw

    def text(self):
        return f"{self.part.text()}{self.draw.choice(('', ' '))}{self.sign}"

    def pattern(self):
        return f"(?:{self.part.pattern()}){self.sign}"

    def word(self):
        count = self.draw.randint(int(self.sign == "+"), 1 if self.sign == "?" else 3)
        return [name for _ in range(count) for name in self.part.word()]


def expression(names, draw, depth):
    """Returns an expression at random, which may be empty."""
    kind = draw.random()
    if depth == 0 or kind < 0.25:
        return Single(names, draw)
    if kind < 0.55:
        return Repeated(expression(names, draw, depth - 1), draw.choice("*+?"), draw)
    count = draw.choice((0, 1, 2, 2, 3)) if kind < 0.85 else draw.choice((2, 2, 3))
    return Row([expression(names, draw, depth - 1) for _ in range(count)], "" if kind < 0.85 else "|", draw)


class Auto:
    """An AUTO that is read: its states, its start, those that accept, and its moves."""

    def __init__(self, text):
        told = json.loads(text)
        self.states, self.start, self.accept = told["states"], told["start"], set(told["accept"])
        self.moves = {(state, name): after for state, name, after in told["moves"]}
        self.is_plain = len(self.moves) == len(told["moves"]) and all(state != after for (state, _), after in self.moves.items())

    def next(self, state, name):
        return self.moves.get((state, name), state)

    def accepts(self, word):
        state = self.start
        for name in word:
            state = self.next(state, name)
        return state in self.accept

    def is_least(self, names):
        """Whether no move stays or stands twice, each state is reached, and any two are told apart by a word."""
        reached = [self.start]
        for state in reached:
            reached += [after for after in dict.fromkeys(self.next(state, name) for name in names) if after not in reached]
        apart, before = set(), None
        while apart != before:
            before = set(apart)
            for pair in itertools.combinations(range(self.states), 2):
                ends = [frozenset(self.next(state, name) for state in pair) for name in names]
                if len(self.accept.intersection(pair)) == 1 or any(end in before for end in ends):
                    apart.add(frozenset(pair))
        return self.is_plain and len(reached) == self.states and len(apart) == self.states * (self.states - 1) // 2


def compared(tool, draw, counts):
    """Yields what differs of an expression, as a kind and a line of text."""
    names = draw.sample(NAMES, draw.randint(1, 5))
    made = expression(names, draw, draw.choice((1, 2, 3, 3, 4)))
    text, pattern = made.text(), re.compile(made.pattern())
    auto = Auto(tool.Automaton(text, names).text())
    counts.update(least=1, states=auto.states)
    counts["greatest"] = max(counts["greatest"], auto.states)
    if not auto.is_least(names):
        yield "least", f"`{text}` over {' '.join(names)}: {auto.states} states"
    for number in range(WORDS):
        word = made.word() if number % 2 else [draw.choice(names) for _ in range(draw.randint(0, 6))]
        wanted = bool(pattern.fullmatch("".join(LETTERS[NAMES.index(name)] for name in word)))
        counts.update(words=1, accepted=wanted)
        if auto.accepts(word) != wanted:
            yield "words", f"`{text}` over {' '.join(names)}: `{' '.join(word)}` is {'not accepted' if wanted else 'accepted'}"


def main():
    words = argparse.ArgumentParser(description=__doc__.splitlines()[0])
    words.add_argument("tool", nargs="?", default=os.path.join(TOP, "tools/automaton.py"))
    words.add_argument("--expressions", type=int, default=1000)
    words.add_argument("--seed", type=int, default=1)
    args = words.parse_args()
    tool, counts, differences = tool_at(args.tool), collections.Counter(), []
    for number in range(args.expressions):
        differences += compared(tool, random.Random(f"{args.seed} {number}"), counts)
    print(f"{args.expressions} expressions, whose automata have {counts['states']} states, and {counts['greatest']} at most")
    print(f"{counts['words']} words, of which {counts['accepted']} are accepted")
    for kind in ("words", "least"):
        own = [line for found, line in differences if found == kind]
        print("\n  ".join([f"{kind}: {counts[kind]} compared, {len(own)} differ", *own[:1]]))
    lacks = not LEAST * counts["words"] <= 100 * counts["accepted"] <= (100 - LEAST) * counts["words"]
    return int(bool(differences) or lacks)


if __name__ == "__main__":
    sys.exit(main())
