#!/usr/bin/env bash
# Compares `words` with a plain search on small grammars at random, tries answers that were worked out by hand, and checks that a program that says something else is found out.
# The words are how many grammars are tried, and from which seed; 1,000 and 1 where they are not given.
set -euo pipefail

cd "$(dirname "${BASH_SOURCE[0]}")/.."
. checks/stand_in.sh

# Whether questions about the run of an example, each with its answer behind it, are answered so by the automaton that is written in `auto`.
answers() {
    local example=examples/$1
    cut -d ' ' -f 1,2 <<<"$3" >"$work/queries"
    "$program" words "$example/spec" "$example/$2" "$work/auto" "$example/labels" "$work/queries" | cmp -s - <(cut -d ' ' -f 3 <<<"$3")
}
automaton() { python3 tools/automaton.py "examples/$1/spec" "$2" >"$work/auto"; }

automaton line '.* Q .*'
check "a path that passes a module is told from one that does not" answers line view $'r.a r.b yes\nr.a i1.y no\ni1.y r.b yes\nr.b r.a no'
automaton line '.* P .*'
check "what comes before the first item is not passed" answers line view $'r.a i1.y yes\ni1.y r.b no'
automaton line ''
check "no path passes nothing" answers line view $'r.a r.b no\nr.a r.a no\ni1.y i1.y no'
automaton phylogeny '[^Build]* Refine [^Build]*'
check "paths that pass one module and not another" answers phylogeny outer $'run.cfg run.report yes\nrun.seqs run.report yes\nrun.seqs run.tree no\nrun.cfg run.tree no'
automaton phylogeny '.* Build .*'
check "paths that pass the other" answers phylogeny outer $'run.cfg run.report no\nrun.seqs run.tree yes\nre0.r bu.n yes\nsp.a run.tree hidden\nr.a run.tree unknown'
automaton phylogeny '.* Realign .* Report'
check "what a view closes is passed without its inside" answers phylogeny outer $'run.cfg run.report no\nrun.seqs run.report no'
as_asked() {
    "$program" words examples/twisting/{spec,view} "$work/auto" examples/twisting/{labels,queries} | cmp -s - examples/twisting/answers
}
automaton twisting '.*'
check "an automaton that accepts every word answers as \`ask\` does" as_asked

# The patterns of docs/FORMATS.md, and what the page says of them over the phylogeny.
page=$(sed -n '/^### Four patterns/,/^## ITEM/p' docs/FORMATS.md)
# Leaves the automaton of a number on the page, with modules in the places of X, Y and Z.
pattern() { grep -o '`{"states"[^`]*`' <<<"$page" | sed -n "$1p" | tr -d '`' | sed "s/\"X\"/\"$2\"/; s/\"Y\"/\"${3:-}\"/; s/\"Z\"/\"${4:-}\"/" >"$work/auto"; }
# The questions of the page, each with what stands in a column behind it.
column() { awk -F '|' -v column="$1" '/^\| `[a-z.]+ [a-z.]+` / { gsub(/`/, ""); print $2, $column }' <<<"$page" | xargs -n 3; }
check "the page has four questions" test "$(column 3 | wc -l)" = 4
pattern 1 Score
check "a path that passes a module is found as the page says" answers phylogeny view "$(column 3)"
pattern 2 Score
check "so is one that avoids it" answers phylogeny view "$(column 4)"
passing_and_avoiding() { awk -F '|' -v told="$1" '$5 ~ told { gsub(/`/, ""); print $3, $4 }' <<<"$page" | xargs -n 2 | sort -u; }
every_path() { [ "$(passing_and_avoiding 'it is so')" = 'yes no' ] && ! passing_and_avoiding 'it is not so' | grep -qx 'yes no'; }
check "every path passes it where one does and none avoids it" every_path
pattern 3 Align Report Score
check "so is one that passes two modules without a third between" answers phylogeny view "$(column 6)"
pattern 1 Realign
refused_as_told() { [ "$("$program" words examples/phylogeny/{spec,view} "$work/auto" examples/phylogeny/{labels,queries} 2>&1)" = "$(grep '^refused: auto: ' <<<"$page")" ]; }
check "what rests on the run is refused as the page says" refused_as_told

# A loop over a module: how often it is passed rests on the run.
echo '{"start":"S","modules":[{"name":"S","in":["a"],"out":["b"]},{"name":"L","in":["x"],"out":["y"]},{"name":"P","in":["x"],"out":["y"]}],"productions":[{"head":"S","body":[["u","L"]],"in":[["a","u.x"]],"out":[["u.y","b"]]},{"head":"L","body":[["w","P"],["l","L"]],"edges":[["w.y","l.x"]],"in":[["x","w.x"]],"out":[["l.y","y"]]},{"head":"L","body":[["w","P"]],"in":[["x","w.x"]],"out":[["w.y","y"]]}]}' >"$work/spec"
printf '%s\n' '{"start":"r"}' '{"expand":"r","production":0,"names":["l0"]}' '{"expand":"l0","production":1,"names":["w0","l1"]}' >"$work/events"
echo '{}' >"$work/view"
"$program" ingest "$work/spec" "$work/events" >"$work/labels"
# Whether a question about it is answered so by an automaton, or the automaton refused with this line.
ends() {
    local ended=0
    echo "$2" >"$work/queries"
    "$program" words "$work/spec" "$work/view" "$work/auto" "$work/labels" "$work/queries" >"$work/out" 2>&1 || ended=$?
    [ "$ended" = "$1" ] && [ "$(cat "$work/out")" = "$3" ]
}
echo '{"states":2,"start":0,"accept":[1],"moves":[[0,"P",1],[1,"P",0]]}' >"$work/auto"
check "whether it is passed an odd number of times is refused" \
    ends 2 'r.a r.b' 'refused: auto: Unsafe module L one 2 other 1 input x state 0 output y state 0 joined other choice S=0 L=2'
echo '{"states":2,"start":0,"accept":[1],"moves":[[0,"P",1]]}' >"$work/auto"
check "whether it is passed is answered" ends 0 'r.a r.b' yes
check "of an item before the end of the run too" ends 0 'w0.y r.b' yes

# Automata that are none, each with what is told of the first fault.
while IFS=$'\t' read -r auto fault; do
    echo "$auto" >"$work/auto"
    check "an automaton is refused as $fault" ends 2 'r.a r.b' "refused: auto: $fault"
done <<'AUTOMATA'
{	NotJson
[]	WrongShape top
{"start":0}	WrongShape states
{"states":-1,"start":0}	WrongShape states
{"states":1.0,"start":0}	WrongShape states
{"states":18446744073709551616,"start":0}	WrongShape states
{"states":1,"accept":7}	WrongShape start
{"states":1,"start":0,"accept":null,"moves":null}	WrongShape accept
{"states":0,"start":0,"moves":[[0,"P"]]}	WrongShape moves
{"states":0,"start":0}	StatesBad
{"states":65,"start":65}	StatesBad
{"states":2,"start":2,"accept":[2]}	StateBad start
{"states":2,"start":1,"accept":[0,2],"moves":[[2,"P",0]]}	StateBad accept
{"states":2,"start":1,"moves":[[0,"Z",0],[0,"P",2]]}	StateBad moves
{"states":2,"start":1,"moves":[[0,"P",1],[0,"P",1],[0,"Z",0]]}	UnknownModule move 2
{"states":2,"start":1,"moves":[[0,"P",1],[1,"P",1],[0,"P",0]]}	MoveTwice move 2
AUTOMATA
echo '{"accept":[0,0],"states":1,"states":64,"note":7,"start":0,"moves":[[0,"L",1]]}' >"$work/auto"
check "64 states, states that stand twice, and moves of what is expanded are taken" ends 0 'r.a r.b' yes
takes_states() {
    local ended=0
    echo "{\"states\":$1,\"start\":0}" >"$work/auto"
    "$program" words examples/twisting/{spec,view} "$work/auto" examples/twisting/{labels,queries} >"$work/out" 2>&1 || ended=$?
    [ "$ended" = "$2" ] && { [ "$ended" = 0 ] || [ "$(cat "$work/out")" = 'refused: auto: TooManyStates' ]; }
}
check "32 states are taken where modules have two ports on one side" takes_states 32 0
check "one more is refused" takes_states 33 2

check "on ${1:-1000} small grammars \`words\` says what a search finds" agrees_by checks/words.py "$@"

# Whether it is found that such a program says something else.
finds() { finds_by checks/words.py words "$1"; }

# The lines by which `words` takes another automaton, which Python makes of `auto`.
taking() {
    printf '[ "$1" != words ] || { python3 -c %q "$4" >"$4.other" && set -- "$1" "$2" "$3" "$4.other" "$5" "$6"; }' \
        "import json, sys; auto = {'accept': [], 'moves': [], **json.load(open(sys.argv[1]))}; $1; print(json.dumps(auto))"
}
check "it is found that the automaton begins in another state" finds "$(taking "auto['start'] = auto['states'] - 1 - auto['start']")"
check "it is found that the other states accept" finds "$(taking "auto['accept'] = list({*range(auto['states'])} - {*auto['accept']})")"
check "it is found that all states accept" finds "$(taking "auto['accept'] = list(range(auto['states']))")"
check "it is found that a move is left out" finds "$(taking "auto['moves'] = auto['moves'][1:]")"
check "it is found that moves lead back" finds "$(taking "auto['moves'] = [[after, name, state] for state, name, after in auto['moves']]")"
check "it is found that no move is taken" finds "$(taking "auto['moves'] = []")"
check "it is found that paths alone are asked for" finds '[ "$1" != words ] || { shift && exec "$program" ask "$1" "$2" "$4" "$5"; }'
check "it is found that \`no\` is told as \`yes\`" finds "$(changing words 's/^no$/yes/')"
check "it is found that \`yes\` is told as \`no\`" finds "$(changing words 's/^yes$/no/')"
check "it is found that what is hidden is told as unknown" finds "$(changing words 's/^hidden$/unknown/')"
check "it is found that an answer is left out" finds "$(changing words '$d')"
check "it is found that another state is told of what is not safe" finds '[ "$1" != words ] || { "$program" "$@" 2>&1 | sed "s/ joined one/ joined other/"; exit; }'

finish
