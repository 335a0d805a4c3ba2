#!/usr/bin/env bash
# Checks that want of memory ends a call as it should, wherever it comes: of each worked call it refuses the first growth, then the second, and so on, until the call asks for no more. A call that is refused a growth ends with status 5 and the line `no memory`, behind a beginning of its text, and of `ask` and `words` behind no text at all; or it does without, and ends as if nothing was refused.
#
# It is no part of the gate. The program is the built one, and a small library of plain Rust, which stands before it, refuses the growth; so the script wants rustc. With `--try NUMBER..` it refuses the growths of these numbers alone, on the program that `rt try` makes, which stops at each access out of bounds, too. `rt try` refuses one growth a run and makes the program anew for each: two minutes of a processor a run and a call, so that a few numbers have to do.
set -euo pipefail

cd "$(dirname "${BASH_SOURCE[0]}")/.."
. checks/count.sh
. checks/built.sh

top=$PWD
numbers=("${@:2}")

# The events of the line in the other order: the last line lets both go.
tac examples/line/events >"$work/exchanged"

# A view that opens all steps of the phylogeny, and one that leaves a pair of a closed step out.
echo '{}' >"$work/everything"
echo '{"expand":["Main"],"deps":[{"module":"Refine","pairs":[["m","r"],["m","q"]]}]}' >"$work/narrow"

# The calls: their names, the example, the words, the status where no growth is refused, the file of the example that has the text then, or `own` where it is what the call writes when nothing is refused, and the line on the standard error.
calls='ingest|line|ingest spec events|0|labels|
ingest of held reports|line|ingest spec '$work/exchanged'|0|labels|
ask|line|ask spec view labels queries|0|answers|
words|line|words spec view auto labels queries|0|own|
lineage|phylogeny|lineage spec view labels run.report|0|own|
impact|phylogeny|impact spec view labels run.seqs|0|own|
explain|phylogeny|explain spec view events run.seqs run.report|0|own|
verify|line|verify spec view events chain|0|own|
compare|phylogeny|compare spec '$work/everything' outer|0|own|
compare of a denied pair|phylogeny|compare spec '$work/everything' '$work/narrow'|0|own|
package|phylogeny|package spec '$work/narrow'|0|own|
consult|line|consult package 20 60|0|own|
trace|line|trace spec view events queries|0|answers|
trace of held reports|line|trace spec view '$work/exchanged' queries|0|answers|
export|line|export spec view events|0|own|
gen|twisting|gen spec 6 1|0|own|
drill|twisting|drill spec view 6 1|0|own|
check|line|check spec|0|check|
view|skewed|view spec view|2|none|refused: view: Unsafe module L one 2 other 1 input x1 output y1 joined one choice S=0 L=2'

# Runs words in an example with this growth refused. Keeps the text, the standard error and the status, and tells whether there was such a growth.
is_refused_built() {
    local example=$1 number=$2 status=0
    shift 2
    (
        cd "examples/$example"
        REFUSED=$number LD_PRELOAD=$work/refuse.so "$program" "$@" >"$work/out" 2>"$work/err" 9>"$work/refused" </dev/null
    ) || status=$?
    echo "$status" >"$work/status"
    [ -s "$work/refused" ]
}

# The same on the program that `rt try` makes. It does not tell whether there was such a growth, and puts lines of its own beside those of the program.
run_tried() {
    local example=$1 number=$2 status=0 word files=()
    shift 2
    for word in "${@:2}"; do
        case $word in
            /*) files+=(--data "$word=$word") ;;
            [0-9]*) ;;
            *) files+=(--data "$word=$top/examples/$example/$word") ;;
        esac
    done
    (cd crates/wfprov && rt try --fail-alloc "$number" "${files[@]}" -- "$@" >"$work/out" 2>"$work/told" </dev/null) || status=$?
    echo "$status" >"$work/status"
    grep -vE '^(allocations|interpreter|checked): |^run=' "$work/told" >"$work/err" || true
}

# Whether the last run ended with this status and this line on the standard error.
ended() {
    [ "$(cat "$work/status")" = "$1" ] && [ "$(cat "$work/err")" = "$2" ]
}

# Whether the last run ended as if nothing was refused.
is_whole() {
    ended "$1" "$3" && cmp -s "$work/out" "$2"
}

# Whether the last run ended for want of memory, behind a beginning of the text, or, where nothing is to be put, behind none.
is_wanting() {
    ended 5 'no memory' && if [ "$2" = ask ] || [ "$2" = words ]; then
        [ ! -s "$work/out" ]
    else
        head -c "$(wc -c <"$work/out")" "$1" | cmp -s - "$work/out"
    fi
}

# Whether a call ends as it should where the growth of this number is refused. Counts the growths, and those that the call does without.
ends_refused() {
    if is_wanting "$text" "$name"; then
        refused=$((refused + 1))
    elif is_whole "$status" "$text" "$message"; then
        without=$((without + 1))
    else
        echo "growth $1 of $name: status $(cat "$work/status"), $(wc -c <"$work/out") bytes, $(cat "$work/err")"
        return 1
    fi
}

# Whether a call ends as it should at each of its growths and where none is refused, or at the growths of some numbers.
ends_at_each() {
    local number
    for number in "${numbers[@]}"; do
        # shellcheck disable=SC2086
        run_tried "$example" "$number" $words
        ends_refused "$number" || return 1
    done
    [ "${#numbers[@]}" = 0 ] || return 0
    number=1
    # shellcheck disable=SC2086
    while is_refused_built "$example" "$number" $words; do
        ends_refused "$number" || return 1
        number=$((number + 1))
    done
    is_whole "$status" "$text" "$message"
}

if [ "${1:-}" != --try ]; then
    # The launcher is no program to be refused memory.
    if [ "$program" = "$top/wfprov" ]; then
        echo "the program is not built: call ./wfprov once"
        exit 1
    fi
    rustc -O --edition 2021 --crate-type cdylib -C panic=abort -o "$work/refuse.so" checks/memory/refuse.txt
fi

while IFS='|' read -r name example words status file message; do
    text=$work/none
    : >"$text"
    case $file in
        none) ;;
        # shellcheck disable=SC2086
        own) (cd "examples/$example" && "$program" $words) >"$work/own" && text=$work/own ;;
        *) text=$top/examples/$example/$file ;;
    esac
    refused=0
    without=0
    check "$name ends as it should wherever memory is wanting" ends_at_each
    echo "$name: $((refused + without)) growths were refused, and it did without $without of them"
done <<<"$calls"

finish
