#!/usr/bin/env python3
"""Sets `words` beside `ask`, which answers the same questions by all paths, as ratios with their limits.

Each workload is a folder, as for bench/lineage.py, which also makes those that are taken with no folder. The questions are pairs of items
that are drawn with a fixed seed. Of each workload it measures

- `words` by an automaton of one state, which accepts every word, beside `ask`: the whole calls, whose answers have to be the same;
- `words` by automata of more states that no step moves, so that each view stays safe when it is lifted: opening the files beside `ask`
  without questions, and what a question takes more than that beside a question of `ask`. In the state in which a path begins none of them
  accepts, so that no path counts, and each question tries all accepting states: that is the most that a question takes. An automaton with
  too many states for the ports of the modules is left out.

And on a specification with as many modules as there may be, of one port on each side, which lead to one another: `words` by an automaton of
64 states, the most that one may have, for the memory that the lifted view takes.

The seconds are those of the processor, each the least of five in turns, and the peaks of memory are the greatest. It prints a Markdown
table. With `--judge` the script ends with 1 where a ratio is above the limit beside it, or where a run is too short to tell. It always ends
with 1 where two commands contradict each other.

Call it from anywhere, after the program was built: bench/words.py [--program PATH] [--turns N] [--judge] [--small] [FOLDER..]
"""

import json
import random
import sys
import tempfile
from pathlib import Path

from lineage import Run, Table, called, runs
from measure import built

SEED, QUESTIONS = 1, 1_000_000
# How many times the seconds of `ask` the whole call takes at most where every word is accepted, and its memory.
WHOLE, MEMORY = 1.5, 1.5
# Automata whose steps move nothing: how many states they have, and in how many of them they accept.
STATES = ((2, 1), (4, 3))
MODULES, MOST_STATES = 1024, 64


def automaton(states, accept):
    """The text of an automaton whose state never changes."""
    return json.dumps({"states": states, "start": 0, "accept": accept, "moves": []})


class Questions(Run):
    """A workload with questions on its items."""

    def fits(self, states):
        """Whether a module has so few ports that an automaton may have so many states."""
        modules = json.loads((self.folder / "spec").read_text())["modules"]
        return states * max(len(module.get(side, [])) for module in modules for side in ("in", "out")) <= MOST_STATES

    def ask(self, count):
        """Draws questions, and keeps what `ask` takes for them and for none."""
        self.take_labels()
        draw, self.count = random.Random(SEED), count
        with open(self.folder / "queries", "wb") as out:
            out.writelines(draw.choice(self.names) + b" " + draw.choice(self.names) + b"\n" for _ in range(count))

    def beside(self, states, accept):
        """What `words` by an automaton and `ask` take, with the questions and without."""
        (self.folder / "auto").write_text(automaton(states, accept))
        kinds = {}
        for name, queries in (("whole", "queries"), ("open", "none")):
            kinds[f"words {name}"] = ["words", "spec", "view", "auto", "labels", queries]
            kinds[f"ask {name}"] = ["ask", "spec", "view", "labels", queries]
        return self.used(kinds)

    def tell_same(self, table):
        """The line of an automaton that accepts every word."""
        times, peaks, texts = self.beside(1, [0])
        if texts["words whole"] != texts["ask whole"]:
            self.stop("`words` by an automaton that accepts every word does not answer as `ask`")
        both = [[taken[f"{command} whole"] for command in ("words", "ask")] for taken in (times, peaks)]
        table.tell(self.line("`words` that accepts every word", f"`ask`, {self.count:,} questions"), both[0], WHOLE, both[1], MEMORY)

    def tell_states(self, table, states, accepting):
        """The lines of an automaton that accepts in some states, to which no step leads."""
        times, peaks, texts = self.beside(states, list(range(1, accepting + 1)))
        if texts["words whole"] != texts["ask whole"].replace(b"yes", b"no"):
            self.stop(f"`words` by {states} states that no step leaves says something else than `no` where `ask` says `yes`")
        opened, whole = ([[taken[f"{command} {name}"] for command in ("words", "ask")] for taken in (times, peaks)] for name in ("open", "whole"))
        table.tell(self.line(f"opening by `words`, {states} states", "by `ask`"), opened[0], states, opened[1])
        each = [(one - other) / self.count for one, other in zip(whole[0], opened[0], strict=True)]
        table.tell(self.line(f"a question of `words`, {accepting} of {states} states accept", "a question of `ask`"), each, accepting + 1, whole[1])


def row_of_modules(folder):
    """A specification with as many modules as there may be: each is carried out by the one behind it."""
    modules = [{"name": f"m{k}", "in": ["a"], "out": ["b"]} for k in range(MODULES)]
    bodies = [{"head": f"m{k}", "body": [["u", f"m{k + 1}"]], "in": [["a", "u.a"]], "out": [["u.b", "b"]]} for k in range(MODULES - 1)]
    made = folder / f"{MODULES:,} modules"
    made.mkdir()
    (made / "spec").write_text(json.dumps({"start": "m0", "modules": modules, "productions": bodies}))
    (made / "events").write_text('{"start":"r"}\n')
    return made


def tell_most_states(table, run):
    """The line of the most states, over many modules."""
    run.ask(1)
    times, peaks, _ = run.beside(MOST_STATES, [MOST_STATES - 1])
    both = [[taken[f"{command} open"] for command in ("words", "ask")] for taken in (times, peaks)]
    table.tell(run.line(f"opening by `words`, {MOST_STATES} states", "by `ask`"), both[0], MOST_STATES, both[1])


def main():
    args = called(__doc__, "small runs and few questions, to try the script")
    program, table, scale = built(args.program), Table(), 100 if args.small else 1
    with tempfile.TemporaryDirectory(prefix="wfprov-bench-") as name:
        for run in runs(Questions, program, args, name):
            run.ask(QUESTIONS // scale)
            run.tell_same(table)
            for states, accepting in STATES:
                if run.fits(states):
                    run.tell_states(table, states, accepting)
        with tempfile.TemporaryDirectory(dir=name) as own:
            tell_most_states(table, Questions(program, row_of_modules(Path(name) / "made"), Path(own), args.turns))
    if args.judge and table.over:
        sys.exit("\n".join(table.over))


if __name__ == "__main__":
    main()
