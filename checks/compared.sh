#!/usr/bin/env bash
# Compares what `compare` tells of two views with a plain search on small grammars at random, and checks that a program that says something else is found out.
# The words are how many grammars are tried, and from which seed; 1,000 and 1 where they are not given.
set -euo pipefail

cd "$(dirname "${BASH_SOURCE[0]}")/.."
. checks/stand_in.sh

check "on ${1:-1000} small grammars \`compare\` says what a search finds" agrees_by checks/compared.py "$@"

# A \`compare\` that does what the search does, with one change.
cat >"$work/changed.py" <<'CHANGES'
import json, sys
sys.path.insert(0, sys.argv[1])
import compared
from diagnosis import specs

Right = compared.Comparison

class Changed(Right):
    pass

def added_first(self):
    added = self.first_pair(self.coarse, self.fine)
    return ["yes", " ".join(["extra", *added])] if added else Right.lines(self)

def last_pair(self, one, other):
    modules = [module for module in self.grammar.modules.values() if module.name in self.coarse.view.seen - self.coarse.view.expanded]
    found = [(module.name, *pair) for module in modules for pair in module.in_order(one.pairs[module.name] - other.pairs[module.name])]
    return found[-1] if found else None

def some_route(choose):
    def route(self, last):
        lists, found = [([], self.grammar.start)], []
        while lists and len(lists[0][0]) < 5:
            found += [steps for steps, name in lists if name == last]
            lists = [([*steps, step], other) for steps, name in lists for step, other in self.steps_on(name)]
        return choose(found)
    return route

def last_alone(self):
    alone = self.coarse.view.expanded - self.fine.view.expanded
    return next((name for name in reversed(self.grammar.modules) if name in alone), None)

kind, changes = sys.argv[2], {
    "added": ("lines", added_first),
    "pair": ("first_pair", last_pair),
    "longer": ("route", some_route(lambda found: max(found, key=len))),
    "later": ("route", some_route(lambda found: max(steps for steps in found if len(steps) == len(found[0])))),
    "alone": ("opened_alone", last_alone),
    "coarser": ("opened_alone", lambda self: None),
    "same": ("lines", Right.lines),
}
setattr(Changed, *changes[kind])
compared.Comparison = Changed
spec, view, coarse = (open(path).read() for path in sys.argv[3:])
grammar = specs.accepted(*specs.read_parts("spec", spec.encode()))
status, text = compared.told(grammar, json.loads(view), json.loads(coarse))
sys.stdout.write(text)
sys.exit(status)
CHANGES

# Whether it is found that a program says something else of the kinds of these answers.
finds() { finds_by checks/compared.py "$@" --seed 15; }

# Whether nothing is found of a program.
passes() { stand_in "$1" && python3 checks/compared.py "$work/program" --grammars 12 --seed 15 >"$work/told"; }

# The lines by which `compare` is the search with a change.
searching() { printf '[ "$1" != compare ] || { shift && exec python3 %q %q %s "$@"; }' "$work/changed.py" "$PWD/checks" "$1"; }

check "it is found that an added pair is told before a denied one" finds text "$(searching added)"
check "it is found that another pair is told" finds text "$(searching pair)"
check "it is found that the run takes a longer way" finds text "$(searching longer)"
check "it is found that the run takes another way as short" finds text "$(searching later)"
check "it is found that another module is told of a view that is not coarser" finds text "$(searching alone)"
check "it is found that a view that is not coarser is taken" finds text "$(searching coarser)"
check "a program that does what the search does passes" passes "$(searching same)"
check "it is found that an added pair is not told" finds text "$(changing compare 's/^extra .*/exact/')"
check "it is found that a denied pair is not told" finds text "$(changing compare 's/^no .*/yes/')"
check "it is found that another instance is told" finds text "$(changing compare 's/^\(no .*\)$/\10/')"
check "it is found that an expansion more is told" finds text "$(changing compare '/expand/p')"
check "it is found that the run shows another instance" finds run "$(changing export '/^pending n1 /d; /^leaf n1 /d')"
check "it is found that no path joins a denied pair" finds run "$(changing export '/^link /d')"
check "it is found that the coarser view answers otherwise" finds law '[ "$1 ${3##*/}" != "ask coarse" ] || { "$program" "$@" | sed s/^yes/no/; exit; }'
check "it is found that the coarser view shows what is hidden" finds law '[ "$1 ${3##*/}" != "ask view" ] || { "$program" "$@" | sed s/^yes/hidden/; exit; }'

finish
