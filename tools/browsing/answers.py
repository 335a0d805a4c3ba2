"""The answer to a question with its reason, what an item rests on and what rests on it, each in words.

The program gives each answer. A chain is shown only where `verify` has accepted it.
"""
from collections import OrderedDict

import page
from browsing.given import Kept, quoted
from browsing.items import NAME
from browsing.program import told
from terminal import Wrong

# How many answers are remembered. One may list a million items.
REMEMBERED = 4


def refuse_no_name(name):
    """Refuses a text that is no name of an item."""
    if not NAME.fullmatch(name):
        raise Wrong(f"`{name}` is no name of an item, which is two names of letters, digits, `_` and `-` with one dot between")


class Answer:
    """The answer to a question under a view, what it says, the chain if it is `yes`, and the commands that give it again."""

    def __init__(self, word, says, chain, commands):
        self.word, self.says, self.chain, self.commands = word, says, chain, commands


class Related:
    """What an item rests on and what rests on it, or why that is not said; and the commands that list them."""

    def __init__(self, before, after, says, commands):
        self.before, self.after, self.says, self.commands = before, after, says, commands


class Answers:
    """Answers questions under the views of a program, and remembers the last."""

    def __init__(self, program, outputs):
        self.program, self.outputs, self.remembered = program, outputs, OrderedDict()

    def once(self, key, work):
        """Returns what work gives for a key, which is done once."""
        if key not in self.remembered:
            self.remembered[key] = work()
        self.remembered.move_to_end(key)
        while len(self.remembered) > REMEMBERED:
            self.remembered.popitem(last=False)
        return self.remembered[key]

    def answer(self, view, first, second):
        """Returns the answer whether the second item rests on the first."""
        for name in (first, second):
            refuse_no_name(name)
        return self.once((view, first, second), lambda: self.answered(view, first, second))

    def answered(self, view, first, second):
        word = self.program.ask(view, [(first, second)])[0]
        chain = self.chain(view, first, second) if word == "yes" else []
        says = page.Asked([(first, second)], [word], outputs=self.outputs).meaning(0) + "."
        return Answer(word, self.why(view, [first, second]) or says, chain, self.commands(view, first, second, word))

    def why(self, view, names):
        """Returns what hides or lacks which of some items, in words, or nothing where all are there and shown. No item rests on itself,
        so a question about one item alone is answered by `no` there."""
        words = self.program.ask(view, [(name, name) for name in names])
        hidden = [page.code(name) for name, word in zip(names, words) if word == "hidden"]
        absent = [page.code(name) for name, word in zip(names, words) if word == "unknown"]
        path = page.code(self.program.views[view].path)
        says = [f"The run has no item {page.listed(list(dict.fromkeys(absent)))}."] if absent else []
        says += [f"The view {path} hides {page.listed(list(dict.fromkeys(hidden)))}, and gives no answer. Another view may show more."] if hidden else []
        return " ".join(says)

    def chain(self, view, first, second):
        """Returns the chain of `explain`, which `verify` has accepted."""
        run = self.program.spec, self.program.views[view], self.program.events
        lines = self.program.lines(["explain", *run, first, second])
        if [*lines[:1], *lines[-1:]] != [first, second] or not self.is_verified(run, lines):
            raise Wrong(f"wfprov contradicts itself: `ask` answers `yes`, and what `explain` writes is no chain that `verify` accepts: {lines[:3]}")
        return lines

    def is_verified(self, run, lines):
        """Whether `verify` accepts a chain."""
        with Kept("chain") as chain:
            chain.file.write("".join(line + "\n" for line in lines).encode())
            chain.file.flush()
            return self.program.lines(["verify", *run, chain]) == ["yes"]

    def commands(self, view, first, second, word):
        """Returns the commands that give an answer again."""
        spec, path, events = self.program.spec, self.program.views[view], self.program.events
        question = f"echo {quoted(f'{first} {second}')}"
        lines = [
            f"{question} | {told(['trace', spec, path, events, '/dev/stdin'])}",
            f"{question} | {told(['ask', spec, path, self.program.labels, '/dev/stdin'])}",
        ]
        if word == "yes":
            explain = told(["explain", spec, path, events, first, second])
            lines += [explain, f"{explain} | {told(['verify', spec, path, events, '/dev/stdin'])}"]
        return lines

    def related(self, view, name):
        """Returns what an item rests on, and what rests on it."""
        refuse_no_name(name)
        return self.once((view, name), lambda: self.listed(view, name))

    def listed(self, view, name):
        calls = [[command, self.program.spec, self.program.views[view], self.program.labels, name] for command in ("lineage", "impact")]
        says = self.why(view, [name])
        before, after = [[], []] if says else [self.program.lines(call) for call in calls]
        return Related(before, after, says, [told(call) for call in calls])
