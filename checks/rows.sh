#!/usr/bin/env bash
# Tries the rows of checks/rows on the built program: which words it is called with over which files, and how each call ends. checks/rows.py tells how a row is written.
set -euo pipefail

cd "$(dirname "${BASH_SOURCE[0]}")/.."
. checks/count.sh
. checks/built.sh

# Tries the rows of a file behind the files that the topics share.
try() {
    python3 checks/rows.py "$program" checks/rows/samples "$1" >"$work/told"
}

# Whether each row of a topic ends as it says. The rows that do not are printed.
holds() {
    try "$1" || { cat "$work/told" && return 1; }
}

all=0
for path in checks/rows/*.rows; do
    rows=$(grep -cE '^(call [^*]*$|\*)' "$path")
    all=$((all + rows))
    topic=${path##*/}
    check "each of the $rows rows of ${topic%.rows} ends as it says" holds "$path"
done
check "there are 600 rows or more" test "$all" -ge 600

# Whether this is told at the end of the rows of a topic that are changed so.
finds() {
    local status=0
    sed "$2" "checks/rows/$1.rows" >"$work/changed"
    try "$work/changed" || status=$?
    [ "$status" = "$4" ] && tail -n 1 "$work/told" | sed "s|^$work/||" | cmp -s - <(echo "$3")
}

check "it is found that each row has another status" finds compare 's/^call 3/call 4/; s/^call 0/call 5/; s/^call 2/call 0/; s/^call 1/call 2/' '16 rows, 16 differ' 1
check "it is found that a row has other words" finds views 's/^call 0 view twisting view-4/call 0 view twisting view-3/' '6 rows, 1 differ' 1
check "it is found that a row has a file with another byte" finds views 's/^\(file view-3 .*\)x2/\1x1/' '6 rows, 1 differ' 1
check "it is found that a row has another line on its output" finds views 's/^> L shown x2>y1$/> L shown x1>y1/' '6 rows, 1 differ' 1
check "it is found that a row has a line less on its output" finds views '/^> S shown$/d' '6 rows, 1 differ' 1
check "it is found that a row has a line more on its output" finds views 's/^> S shown$/&\n&/' '6 rows, 1 differ' 1
check "it is found that a row has another end of its output" finds views 's/^> S shown$/= S shown/' '6 rows, 1 differ' 1
check "it is found that a row has another message" finds views 's/^! refused: view: NotComposite expand 0$/! refused: view: NotComposite expand 1/' '6 rows, 1 differ' 1
check "it is found that a row has no message" finds views '/^! refused: view: Unsafe/d' '6 rows, 1 differ' 1
check "it is found that a row has another text in its own file" finds seen 's/^\* {"expand":\["B","S"\]}$/* {"expand":["S"]}/' '30 rows, 1 differ' 1
check "a file without rows is told" finds views '/^call /d; /^[>!]/d' '0 rows, 0 differ' 1
check "a line that is none of rows is told" finds views 's/^call 2 view line/calls 2 view line/' 'changed line 24: this is no line of rows' 2
check "a status that is none is told" finds views 's/^call 2 view line/call 6 view line/' 'changed line 24: 6 is no status' 2
check "a name that stands twice is told" finds views 's/^file view-6/file view-5/' 'changed line 23: view-5 is no new name' 2
check "a text for a call without a file of its own is told" finds views 's/^call 2 view line view-6/&\n* {}/' 'changed line 25: the call before names no file *' 2
check "a call without the text of its own file is told" finds seen '/^\* {"expand":\["B","S"\]}$/d' 'changed line 22: the file * has no bytes' 2
check "a line behind such a text is told" finds seen 's/^\* {}$/&\n> S shown/' 'changed line 14: > has nothing before it to stand behind' 2
check "a file that is not there is told" finds views 's/^file view-6/& <<view-7>>/' 'changed line 23: there is no file view-7 before' 2

finish
