#!/usr/bin/env bash
# Checks of tools/automaton.py: automata that were worked out by hand, expressions at random on which it and Python's `re` have to agree, changed tools that have to be found out, and what it refuses.
# The words are how many expressions are tried, and from which seed; 1,000 and 1 where they are not given.
set -euo pipefail

cd "$(dirname "${BASH_SOURCE[0]}")/.."
. checks/count.sh
export PYTHONDONTWRITEBYTECODE=1

work=$(mktemp -d)
trap 'rm -rf "$work"' EXIT

automaton() { python3 tools/automaton.py "$@"; }

# Whether of an expression over the modules S, P and Q of the line this automaton is made: states, states that accept, and moves.
makes() {
    automaton examples/line/spec "$1" | cmp -s - <(printf '{"states":%s,"start":0,"accept":[%s],"moves":[%s]}\n' "${@:2}")
}
check "words that pass a module" makes '.* Q .*' 2 1 '[0,"Q",1]'
check "words that do not" makes '[^Q]*' 2 0 '[0,"Q",1]'
check "words that pass neither of two modules" makes '[^P Q]*' 2 0 '[0,"P",1],[0,"Q",1]'
check "all words" makes '.*' 1 0 ''
check "words that pass a module at least" makes '.+' 2 1 '[0,"S",1],[0,"P",1],[0,"Q",1]'
check "the empty word alone" makes '' 2 0 '[0,"S",1],[0,"P",1],[0,"Q",1]'
check "no word" makes '[^S P Q]' 1 '' ''
check "one module alone" makes 'Q' 3 2 '[0,"S",1],[0,"P",1],[0,"Q",2],[2,"S",1],[2,"P",1],[2,"Q",1]'
check "one module or none" makes 'P?' 3 0,2 '[0,"S",1],[0,"P",2],[0,"Q",1],[2,"S",1],[2,"P",1],[2,"Q",1]'
check "one module, as often as you like" makes 'P*' 2 0 '[0,"S",1],[0,"Q",1]'
check "two modules in turn" makes '(P Q)+' 4 3 \
    '[0,"S",1],[0,"P",2],[0,"Q",1],[2,"S",1],[2,"P",1],[2,"Q",3],[3,"S",1],[3,"P",2],[3,"Q",1]'
check "one behind the other, with others between" makes '.* P .* Q .*' 3 2 '[0,"P",1],[1,"Q",2]'
check "either of two" makes '.* (P|Q) .*' 2 1 '[0,"P",1],[0,"Q",1]'
check "words that end with a module" makes '.* Q' 2 1 '[0,"Q",1],[1,"S",0],[1,"P",0]'
check "a way may be empty" makes '(|P)(Q|)' 4 0,2,3 \
    '[0,"S",1],[0,"P",2],[0,"Q",3],[2,"S",1],[2,"P",1],[2,"Q",3],[3,"S",1],[3,"P",1],[3,"Q",1]'
check "signs behind one another" makes '((P+)?)*' 2 0 '[0,"S",1],[0,"Q",1]'
check "blanks mean nothing beside a sign" makes $' ( P|\tQ )\n* ' 2 0 '[0,"S",1]'
check "as many states as there may be" test "$(automaton examples/line/spec '.* P.....' | grep -c '^{"states":64,')" = 1

agrees() { python3 checks/automaton.py --expressions "$1" --seed "$2"; }
check "on ${1:-1000} expressions at random it accepts what \`re\` accepts, with the fewest states" agrees "${1:-1000}" "${2:-1}"

# Whether it is found that a tool with a change makes other automata, by these kinds of differences and no other.
finds() {
    sed "$2" tools/automaton.py >"$work/changed.py"
    ! cmp -s tools/automaton.py "$work/changed.py" && ! python3 checks/automaton.py "$work/changed.py" --expressions 100 >"$work/told" || return 1
    [ "$(sed -n 's/: .* compared, [1-9][0-9]* differ$//p' "$work/told" | xargs)" = "$1" ]
}
check "it is found that \`+\` is taken as \`*\`" finds words 's/part if sign == "+" else //'
check "it is found that \`+\` is taken as nothing" finds words 's/if sign != "?":/if sign == "*":/'
check "it is found that \`[^X]\` is taken as X" finds words 's/(sample\[kind\] in takes\[0\]) == takes\[1\]/sample[kind] in takes[0]/'
check "it is found that a way is left out" finds words 's/in group.ways\[1:\]/in group.ways[2:]/'
check "it is found that the empty word is left out" finds words 's/ | int(whole.is_skipped)//'
check "it is found that states are one that are not alike" finds words 's/^    blocks.append(inside)/&; left.clear()/'
check "it is found that moves are left out that do not stay" finds 'words least' 's/if row\[kind\] != state\]/if row[kind] > state]/'
check "it is found that states that are alike are two" finds least 's/block_of = blocks_of(rows, accepting)/block_of = list(range(len(rows)))/'
check "it is found that moves stay" finds least 's/ if row\[kind\] != state\]/]/'

# Whether a call is refused with this line, and writes nothing.
refuses() {
    local ended=0
    automaton "${@:2}" >"$work/out" 2>"$work/err" || ended=$?
    [ "$ended" = 2 ] && [ ! -s "$work/out" ] && [ "$(cat "$work/err")" = "automaton.py: $1" ]
}
of_line() { refuses "expression: $1" examples/line/spec "$2"; }
check "a name of no module is told" of_line 'column 4: the specification has no module `Filter`' '.* Filter .*'
check "so it is behind \`[^\`" of_line 'column 1: the specification has no module `Z`' '[^P Z]'
check "a name ends where a name ends" of_line 'column 1: the specification has no module `P-Q`' 'P-Q'
check "a parenthesis that is not closed is told" of_line 'column 3: `(` is not closed' 'P (Q|(P)'
check "one that closes nothing is told" of_line 'column 4: `)` closes nothing' '(P))'
check "a star behind nothing is told" of_line 'column 3: `*` stands behind nothing' 'P|*'
check "brackets without a name are told" of_line 'column 1: `[^NAME NAME ..]` needs a name' '[^ ]'
check "brackets of another kind are told" of_line 'column 3: `[` begins `[^NAME NAME ..]`, and here it does not' 'P [Q]'
check "a sign of no expression is told" of_line 'column 3: `&` is no sign of an expression' 'P & Q'
check "a sign that cannot be printed is told as an escape" of_line 'column 2: `\x1b` is no sign of an expression' $'P\e[31m'
check "more than 64 states are refused with their number" of_line 'it needs 128 states, and `words` takes at most 64' '.* P......'
check "with two ports on one side it is half of them" refuses 'expression: it needs 64 states, and `words` takes at most 32 where a module has as many ports on one side as `S`, 2' \
    examples/twisting/spec '.* W.....'
check "what is too large to be counted is told" of_line 'it is too large: it has more than 20,000 states before those that are alike are made one' '.* P...............'
deep() { of_line 'column 50000: `(` is not closed' "$(printf '(%.0s' {1..50000})"; }
check "parentheses may stand in one another as deep as you like" deep
check "a specification that is not there is told" refuses "$work/absent: No such file or directory" "$work/absent" .
check "one that is none is told" refuses 'examples/line/events: refused: NotJson; `python3 tools/diagnose.py` says where and why' examples/line/events .
check "missing words are told" refuses 'the words are not [--picture] SPEC EXPRESSION; see --help' --picture examples/line/spec
check "the tool tells how it is called" test "$(automaton --help | grep -c 'automaton.py SPEC EXPRESSION')" = 1

# The picture, with a state from which nothing is accepted any more, and names that are many.
draws() { automaton --picture "$1" "$2" >"$work/out" && grep -qxF "  $3" "$work/out"; }
line=examples/line/spec
check "the start is drawn" draws $line 'P*' '"begin" -> "0";'
check "a state that accepts is drawn" draws $line 'P*' '"0" [label="0" shape=doublecircle];'
check "a state from which nothing is accepted is drawn" draws $line 'P*' '"1" [label="1" style=filled fillcolor="gray80"];'
check "the module of a move is drawn" draws $line '.* Q .*' '"0" -> "1" [label="Q"];'
check "of many modules it is drawn which they are not" draws $line 'P*' '"0" -> "1" [label="any but\nP"];'
check "of all modules it is drawn that they are all" draws $line 'P' '"2" -> "1" [label="any"];'

finish
