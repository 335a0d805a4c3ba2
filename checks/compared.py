#!/usr/bin/env python3
"""Compares what `wfprov compare` writes of two views with a plain search, on many small grammars at random.

  python3 checks/compared.py PROGRAM [--grammars N] [--seed N] [--jobs N]

For each specification it draws a view, and two that are to be coarser: they close modules, and give them the pairs that they have in the
first view, or others, or none. Some are the first view itself, some open a module that the first leaves closed, and some views are not
safe. What is told has to be, byte for byte, what a search finds: it works out the pairs of each module from its productions, and takes the
least of all shortest lists of steps. Of a denied pair the run that is told has to be accepted, and to show the instance under both views,
and in a finishing a path has to join the ports in the lines of `export` under the first view, and none under the other. With `yes` each
`yes` of `ask` under the first view has to be one under the other, wherever the other shows both items; and with `exact` each answer.

It prints how much was compared and how much of it differs, and of each kind the first difference. Ends with 1 where something differs, or
where one of the kinds of answers came too seldom.
"""
import collections
import json
import sys

import grammars
import labels
import many
import wfprov
from diagnosis import specs
from diagnosis.faults import Fault
from shown import Shown

# How often a specification is drawn until one is accepted, how many views stand beside the view of one, and of how many items all pairs are asked.
TRIES, COARSE, ASKED = 100, 2, 12
# The kinds of answers, each of which has to come once for so many grammars at least.
LEAST = {"no": 8, "extra": 8, "exact": 8, "NotCoarser": 20, "Unsafe": 40}

Difference = collections.namedtuple("Difference", "number words wanted found")


class Comparison:
    """Two views of a grammar, each with the pairs of the modules that it shows."""

    def __init__(self, grammar, fine, coarse):
        self.grammar, self.fine, self.coarse = grammar, fine, coarse

    def opened_alone(self):
        """Returns the first module that the coarse view opens alone, or None."""
        alone = self.coarse.view.expanded - self.fine.view.expanded
        return next((name for name in self.grammar.modules if name in alone), None)

    def first_pair(self, one, other):
        """Returns the first pair that a border module has in one of the views and not in the other, behind the module, or None."""
        for module in self.grammar.modules.values():
            if module.name in self.coarse.view.seen - self.coarse.view.expanded:
                for pair in module.in_order(one.pairs[module.name] - other.pairs[module.name]):
                    return (module.name, *pair)
        return None

    def steps_on(self, name):
        """Returns the steps from a module to modules of its bodies."""
        productions = self.grammar.modules[name].productions if name in self.coarse.view.expanded else []
        return [((rule.number, place), other) for rule in productions for place, other in enumerate(rule.body.values())]

    def route(self, last):
        """Returns the first of the shortest lists of steps from the start module to another: each list of steps is made."""
        lists = [([], self.grammar.start)]
        while last not in [name for _, name in lists]:
            lists = [([*steps, step], other) for steps, name in lists for step, other in self.steps_on(name)]
        return min(steps for steps, name in lists if name == last)

    def run_along(self, steps):
        """Returns the instance to which steps lead, and the lines of a run that takes them."""
        name, made, lines = "n0", 1, ['{"start":"n0"}']
        for number, place in steps:
            names = [f"n{made + k}" for k in range(len(self.grammar.productions[number].body))]
            lines.append(json.dumps({"expand": name, "production": number, "names": names}, separators=(",", ":")))
            name, made = names[place], made + len(names)
        return name, lines

    def lines(self):
        """Returns the lines that are told of a coarser view."""
        denied, added = self.first_pair(self.fine, self.coarse), self.first_pair(self.coarse, self.fine)
        if denied:
            instance, run = self.run_along(self.route(denied[0]))
            return [" ".join(["no", *denied, instance]), *run]
        return ["yes", " ".join(["extra", *added]) if added else "exact"]


def judged(grammar, where, view):
    """Returns the pairs of the modules that a view shows, or raises a fault."""
    try:
        return specs.safe(*specs.read_view_parts(where, json.dumps(view).encode()), grammar)
    except Fault as fault:
        raise fault.stands_in(where, fault.text) from None


def told(grammar, view, coarse):
    """Returns the status and the text that `compare` ends with."""
    try:
        comparison = Comparison(grammar, judged(grammar, "view", view), judged(grammar, "coarse", coarse))
    except Fault as fault:
        return 2, f"{fault.message()}\n"
    alone = comparison.opened_alone()
    if alone is not None:
        return 2, f"refused: coarse: NotCoarser {alone}\n"
    return 0, "".join(f"{line}\n" for line in comparison.lines())


class Views(many.Drawn):
    """A specification at random, as a file in a folder, and views of it."""

    def __init__(self, program, draw, folder):
        super().__init__(program, draw, folder)
        self.made, self.grammar = self.draw_grammar()
        self.soonest = {name: rule.number for name, rule in self.grammar.chosen.items()}
        self.write("spec", json.dumps(self.made))

    def draw_grammar(self):
        for _ in range(TRIES):
            made = grammars.spec(self.draw)
            try:
                return made, specs.accepted(*specs.read_parts("spec", json.dumps(made).encode()))
            except Fault:
                self.counts["refused"] += 1
        raise AssertionError(f"none of {TRIES} specifications is accepted")

    def closed_until_safe(self, view):
        """Returns a view, of which modules are closed until it is safe, but seldom."""
        while self.draw.random() < 0.98:
            try:
                judged(self.grammar, "view", view)
                break
            except Fault as fault:
                view = grammars.closed(self.made, view, fault.kind.split()[2])
        return view

    def draw_view(self):
        """Returns a view, which seldom leaves the start module closed."""
        while True:
            view = self.closed_until_safe(grammars.view(self.draw, self.made))
            if self.made["start"] in view.get("expand", [self.made["start"]]) or self.draw.random() < 0.1:
                return view

    def draw_coarse(self, view):
        """Returns a view that is to be coarser than another."""
        opened, kind = view.get("expand", grammars.composite(self.made)), self.draw.random()
        closed = [name for name in grammars.composite(self.made) if name not in opened]
        if kind < 0.05:
            return view
        if kind < 0.35 and closed:
            return self.closed_until_safe({"expand": [*opened, *self.draw.sample(closed, self.draw.randint(1, len(closed)))]})
        kept = [name for name in opened if self.draw.random() < (0.9 if name == self.made["start"] else 0.5)]
        return self.closed_until_safe({"expand": kept, "deps": list(self.parts_of(view, kept))})

    def parts_of(self, view, kept):
        """Yields the parts of a view that closes modules, and gives them in one way or several what they have in another view."""
        try:
            pairs = judged(self.grammar, "view", view).pairs
        except Fault:
            return
        ways = self.draw.choice((["own"], ["more", "all"], ["less"], ["less"], ["own", "less"], ["some", "all"]))
        for module in self.made["modules"]:
            own, way = pairs.get(module["name"], set()), self.draw.choice(ways)
            others = {tuple(pair) for pair in grammars.some_pairs(self.draw, module)["pairs"]}
            given = {"own": own, "more": own | others, "less": own & others, "some": others}
            if module["name"] not in kept and way != "all":
                yield {"module": module["name"], "pairs": sorted(map(list, given[way]))}

    def exported(self, view, events):
        return wfprov.export(self.path("spec"), self.path(view), self.path(events), self.program)

    def write_events(self, name, events):
        self.write(name, "".join(json.dumps(event) + "\n" for event in events))

    def finishing(self, events):
        return grammars.finishing(self.draw, self.made, self.soonest, events)


def run_differences(case, text, number):
    """Yields what is wrong of the run that shows a denied pair."""
    first, *lines = text.splitlines()
    _, module, entry, output, instance = first.split()
    events = [json.loads(line) for line in lines]
    case.counts["far"] += len(lines) > 2
    case.write("run", text.partition("\n")[2])
    case.write_events("finished", case.finishing(events))
    for view, wanted in (("view", (True, True)), ("coarse", (True, False))):
        case.counts["run"] += 1
        begun, whole = case.exported(view, "run"), Shown(case.exported(view, "finished"), (), ())
        found = (instance, module) in begun.leaves + begun.pending, f"{instance}.{output}" in whole.ports_from(f"{instance}.{entry}")
        if found != wanted:
            yield Difference(number, ["run", view, first], wanted, found)


def items_of(case):
    """Leaves a run and its label file, and returns items of the run."""
    events = case.finishing([{"start": "r"}])
    case.write_events("events", events[: case.draw.randint(1, len(events))])
    case.write("labels", wfprov.call(["ingest", case.path("spec"), case.path("events")], case.program))
    with open(case.path("labels"), "rb") as file:
        names = [line.split(" ")[0] for line in list(labels.lines_of(file.read()))[1:]]
    return case.draw.sample(names, min(len(names), ASKED))


def law_differences(case, text, number):
    """Yields the questions that a coarser view answers as it should not."""
    items, allowed = items_of(case), {("yes", "yes"), ("no", "no")} | ({("no", "yes")} if "extra" in text else set())
    pairs = [f"{first} {second}" for first in items for second in items]
    case.write("queries", "".join(f"{pair}\n" for pair in pairs))
    asked = [["ask", case.path("spec"), case.path(view), case.path("labels"), case.path("queries")] for view in ("view", "coarse")]
    answers = [wfprov.lines_of(words, case.program) for words in asked]
    for pair, *two in zip(pairs, *answers, strict=True):
        if two[1] != "hidden":
            case.counts["law"] += 1
            case.counts["affirmed"] += two[0] == "yes"
            case.counts["coarse"] += tuple(two) == ("no", "yes")
            if tuple(two) not in allowed:
                yield Difference(number, ["law", pair], sorted(allowed), two)


def compared(case, number):
    """Returns the differences of the case of a number."""
    view, differences = case.draw_view(), []
    case.write("view", json.dumps(view))
    for coarse in [case.draw_coarse(view) for _ in range(COARSE)]:
        case.write("coarse", json.dumps(coarse))
        wanted, found = told(case.grammar, view, coarse), case.said(["compare", "spec", "view", "coarse"])
        kind = next(kind for kind in LEAST if kind in wanted[1].split())
        case.counts.update(text=1, **{kind: 1})
        if wanted != found:
            differences.append(Difference(number, ["text"], wanted, found))
        elif kind == "no":
            differences += run_differences(case, wanted[1], number)
        elif kind == "extra" or kind == "exact" and case.draw.random() < 0.4:
            differences += law_differences(case, wanted[1], number)
    return differences


def main():
    asked, counts, differences = many.tried(__doc__, Views, compared)
    lacking = [kind for kind, least in LEAST.items() if counts[kind] < asked // least]
    print(f"{asked} grammars, and {counts['refused']} that were refused")
    print(f"answers: {', '.join(f'{counts[kind]} {kind}' for kind in LEAST)}{'; too few: ' + ' '.join(lacking) if lacking else ''}")
    print(f"{counts['far']} of the denied pairs stand two steps or more from the start module")
    print(f"{counts['affirmed']} questions are answered yes by both views, and {counts['coarse']} by the coarser alone")
    many.tell(("text", "run", "law"), counts, differences, lambda least: " ".join(least.words))
    return int(bool(differences or lacking))


if __name__ == "__main__":
    sys.exit(main())
