#!/usr/bin/env python3
"""Compares what the program says of how items rest on one another with a plain search, on many small grammars at random.

  python3 checks/chains.py PROGRAM [--grammars N] [--seed N] [--jobs N]

For each specification that `check` accepts it draws a view, of which modules are closed until `view` calls it safe, and a run, finished or
not. Of each item of the run, and of a name that is none, `lineage` and `impact` have to list what a search over the lines of `export`
finds, in the order of the label file. In a finishing of the run the same items have to rest on one another. `explain` has to tell the first
of the shortest chains, and `verify` to take these and longer ones, and to find the first wrong line of chains that were changed.

It prints how much was compared and how much of it differs, and of each command the difference with the fewest items. Ends with 1 where
something differs.
"""
import collections
import sys

import many
from cases import Case

FILES = ("spec", "view")
# How many pairs with a chain are asked for, and pairs without one, how many chains are tried that need not be shortest, and how many
# changed ones of each chain.
CHAINED, UNCHAINED, LONGER, CHANGED = 4, 2, 1, 1

Difference = collections.namedtuple("Difference", "items number words wanted found")


def text_of(lines):
    """Returns the text that has these lines."""
    return "".join(f"{line}\n" for line in lines)


def want_listings(case, calls):
    """Wants what each item rests on, and what rests on it."""
    rests = case.resting()
    for item in [*dict.fromkeys(case.items + case.listed), case.stranger()]:
        above = [other for other in case.listed if item in rests.get(other, ())]
        below = [other for other in case.listed if other in rests.get(item, ())]
        for command, lines in (("lineage", above), ("impact", below)):
            word = "unknown" if item not in case.listed else "hidden" if item not in rests else None
            calls.want([command, *FILES, "labels", item], text_of([word] if word else lines))


def pairs_of(case):
    """Returns pairs of names: those with the longest chains of some, some without a chain, and some of which one is not shown."""
    draw, shown = case.draw, case.shown
    chained = [(first, last) for first in shown.place for last in sorted(shown.resting_on(first))]
    others = sorted({(first, last) for first in shown.place for last in shown.place} - set(chained))
    longest = sorted(draw.sample(chained, min(len(chained), 3 * CHAINED)), key=lambda pair: -len(shown.chain(*pair)))
    names = [*case.items, case.stranger()]
    odd, other = (draw.choice([name for name in names if name not in shown.place]) for _ in range(2))
    return longest[:CHAINED] + draw.sample(others, min(len(others), UNCHAINED)) + [(odd, draw.choice(names)), (draw.choice(names), other)]


def explained(case, first, last):
    """Returns the lines that are to be told of two names: a chain, or a word."""
    if not {first, last} <= set(case.items):
        return ["unknown"]
    if not {first, last} <= case.shown.place.keys():
        return ["hidden"]
    return case.shown.chain(first, last) or ["no"]


def want_explanations(case, calls):
    """Wants what is to be told of some pairs. Returns the chains among this."""
    chains = []
    for pair in pairs_of(case):
        lines = explained(case, *pair)
        calls.want(["explain", *FILES, "events", *pair], text_of(lines))
        if len(lines) > 1:
            chains.append(lines)
            case.counts["several"] += case.shown.has_several(*pair)
    case.counts["chains"] += len(chains)
    return chains


def walked(case):
    """Returns the lines of a chain that need not be a shortest one, or of an item alone."""
    lines = [case.draw.choice(list(case.shown.place))]
    while case.shown.leads_on[lines[-1]] and case.draw.random() < 0.8:
        item, via = case.draw.choice(list(case.shown.leads_on[lines[-1]].items()))
        lines += [f"via {via}", item]
    return lines


def changed(case, lines):
    """Returns the lines of a chain with one change: one or two lines are left out or stand twice, the end is cut off, or a name is another."""
    lines, kind, at = list(lines), case.draw.randrange(9), case.draw.randrange(len(lines))
    if kind < 2:
        del lines[at : at + 1 + kind]
    elif kind < 4:
        lines[at:at] = lines[at : at + kind - 1]
    elif kind == 4:
        del lines[at:]
    elif at % 2:
        lines[at] = f"via {case.draw.choice([*case.instances, 'nobody'])}"
    else:
        lines[at] = case.draw.choice([*case.items, case.stranger()])
    return lines


def want_verdicts(case, calls, chains):
    """Wants the verdicts on chains, on some that need not be shortest, on changed ones, and on a file without lines."""
    chains = chains + [walked(case) for _ in range(LONGER) if case.shown.place]
    others = [changed(case, lines) for lines in chains for _ in range(CHANGED)]
    case.counts["changed"] += len(others)
    for number, lines in enumerate([*chains, *others, []]):
        case.write(f"chain-{number}", text_of(lines))
        calls.want(["verify", *FILES, "events", f"chain-{number}"], *case.shown.judged(lines))


def finishing_differences(case, number):
    """Yields the items on which others rest in the finishing and not in the run, or the other way round."""
    for item in case.shown.place:
        case.counts["finishing"] += 1
        wanted, found = case.shown.resting_on(item), case.finished.resting_on(item) & case.shown.place.keys()
        if wanted != found:
            yield Difference(len(case.items), number, ["finishing", item], sorted(wanted), sorted(found))


def compared(case, number):
    """Returns the differences of the case of a number."""
    calls = many.Calls()
    want_listings(case, calls)
    want_verdicts(case, calls, want_explanations(case, calls))
    differences = list(finishing_differences(case, number))
    for words, wanted, found in calls.made(case.program, case.folder):
        case.counts[words[0]] += 1
        if wanted != found:
            differences.append(Difference(len(case.items), number, words, wanted, found))
    hidden = len(case.items) - len(case.shown.place)
    case.counts.update(grammars=1, items=len(case.items), hidden=hidden, pairs=len(case.items) ** 2, pending=case.shown.waits)
    return differences


def tell(counts, differences):
    """Prints what was compared, and how much of it differs."""
    print(f"{counts['grammars']} grammars, and {counts['refused']} that were refused; {counts['unsafe']} modules were closed")
    print(f"{counts['grammars']} runs, of which {counts['pending']} have pending instances; {counts['items']} items, of which {counts['hidden']} are hidden")
    print(f"{counts['pairs']} pairs, and {counts['clashes']} of two runs that clash")
    print(f"{counts['chains']} chains, of which {counts['several']} are the first of several; {counts['changed']} changed chains")
    many.tell(
        ("finishing", "lineage", "impact", "explain", "verify"), counts, differences, lambda least: f"of {least.items} items: {' '.join(least.words)}"
    )


def main():
    _, counts, differences = many.tried(__doc__, Case, compared)
    tell(counts, differences)
    return int(bool(differences))


if __name__ == "__main__":
    sys.exit(main())
