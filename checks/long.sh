#!/usr/bin/env bash
# Checks of the built program on files of 2^30 bytes, the most that it reads of EVENTS and QUERIES, and of one byte more. They come through pipes, so that no such file is made; the lines are long, so that there are few of them.
set -euo pipefail

cd "$(dirname "${BASH_SOURCE[0]}")/.."
. checks/count.sh
. checks/built.sh

most=1073741824
spec=examples/line/spec
view=examples/line/view

# So many bytes of a line that is repeated.
repeated() {
    { yes "$1" || true; } | head -c "$2" || true
}

# The two items of the query, of 127 letters each: with a newline the query has 256 bytes, so 2^22 of them fill the file.
part=$(printf '%063d' 0)
first="$part.$part"
second="$part.${part/0/1}"
queries=4194304
{
    head -c 36 examples/line/labels
    printf '\x7f%s\0\x01\x20\x7f%s\0\x01\x60' "$first" "$second"
} >"$work/labels"

# Whether so many bytes of that query end so, with this message, behind the answers to all lines that end within 2^30 bytes.
asks() {
    local status=0
    repeated "$first $second" "$1" |
        "$program" ask "$spec" "$view" "$work/labels" /dev/stdin >"$work/out" 2>"$work/err" || status=$?
    [ "$status" = "$2" ] && [ "$(cat "$work/err")" = "$3" ] && cmp -s "$work/out" <(yes yes | head -n "$queries")
}
check "queries of 2^30 bytes are answered" asks "$most" 0 ''
check "queries of one byte more are answered up to 2^30 bytes" \
    asks $((most + 1)) 2 "refused: queries line $((queries + 1)): FileTooLong"

# The first so many events of a run that repeats one step, each filled with blanks to so many bytes with its newline.
events() {
    awk -v count="$1" -v size="$2" '
        function put(event) { print event substr(blanks, 1, size - 2 - length(event)) "}" }
        BEGIN {
            blanks = " "
            while (length(blanks) < size)
                blanks = blanks blanks
            put("{\"start\":\"r\"")
            put("{\"expand\":\"r\",\"production\":0,\"names\":[\"l0\"]")
            for (k = 0; k < count - 2; k++)
                put("{\"expand\":\"l" k "\",\"production\":1,\"names\":[\"w" k "\",\"l" (k + 1) "\",\"v" k "\"]")
        }' || true
}

# Whether events of 2^30 bytes, and a byte behind them, are labelled as the same events without blanks are, and the file is then refused.
labels() {
    local count=16384 status=0
    events $count 0 | "$program" ingest examples/twisting/spec /dev/stdin >"$work/labelled" || return 1
    { events $count 65536; echo; } |
        "$program" ingest examples/twisting/spec /dev/stdin >"$work/out" 2>"$work/err" || status=$?
    [ "$status" = 2 ] && [ "$(cat "$work/err")" = "refused: events line $((count + 1)): FileTooLong" ] &&
        cmp -s "$work/out" "$work/labelled"
}
check "events of one byte more than 2^30 are labelled up to 2^30 bytes" labels

finish
