#!/usr/bin/env bash
# Checks of the tools at their edges: streams that are closed or full, names that no workflow has, signs that a terminal obeys, and files that no one made in good faith.
set -euo pipefail

cd "$(dirname "${BASH_SOURCE[0]}")/.."
. checks/count.sh
. checks/built.sh
export WFPROV=$program PYTHONDONTWRITEBYTECODE=1

# Whether a command ends with status 2 and this line on standard error alone, and writes nothing. It has 20 seconds of processor time: how long
# that takes by the clock rests on what else the machine does.
complains() {
    local message=$1 ended=0
    shift
    (ulimit -t 20 && exec timeout 600 "$@") >"$work/out" 2>"$work/err" </dev/null || ended=$?
    [ "$ended" = 2 ] && [ ! -s "$work/out" ] && [ "$(cat "$work/err")" = "$message" ]
}

line=examples/line
python3 tools/labels.py lines $line/labels >"$work/lines"
"$program" export $line/spec $line/view $line/events >"$work/export"
"$program" view $line/spec $line/view >"$work/shown"

printf '#wfprov files 1\nvalue\ta\t\t\t\t\tr.a\nvalue\tb\t\t\t\t\tr.b\n' >"$work/table"
printf 'a\tb\n' >"$work/names"
python3 tools/runs.py add "$work/lab" line $line/spec $line/view $line/labels "$work/table"

# Runs a tool on words with which it writes something.
works() {
    case $1 in
        dot) python3 tools/dot.py --spec $line/spec ;;
        export) python3 tools/dot.py "$work/export" ;;
        labels) python3 tools/labels.py lines $line/labels ;;
        file) python3 tools/labels.py file "$work/lines" ;;
        pick) python3 tools/labels.py pick $line/labels $line/queries ;;
        two_labels) python3 tools/two_labels.py $line/spec $line/labels r.a r.b ;;
        consult) python3 tools/consult.py $line/package $line/labels $line/queries ;;
        automaton) python3 tools/automaton.py $line/spec '.* Q .*' ;;
        impact_of_file) python3 tools/files.py impact $line/spec $line/view $line/labels "$work/table" a ;;
        page_of_files) python3 tools/page.py --table "$work/table" $line/spec $line/view $line/events "$work/names" ;;
        page) python3 tools/page.py $line/spec $line/view $line/events $line/queries ;;
        crates) python3 tools/crates.py ;;
        files) python3 tools/files.py ask $line/spec $line/view $line/labels "$work/table" a b ;;
        runs) python3 tools/runs.py impact "$work/lab" a ;;
        list_of_runs) python3 tools/runs.py list "$work/lab" ;;
        to_rocrate) python3 tools/to_rocrate.py "$work/export" ;;
    esac
}

# Runs it on a file that is not there.
fails() {
    case $1 in
        dot) python3 tools/dot.py --spec "$work/absent" ;;
        export) python3 tools/dot.py "$work/absent" ;;
        labels) python3 tools/labels.py lines "$work/absent" ;;
        file) python3 tools/labels.py file "$work/absent" ;;
        pick) python3 tools/labels.py pick $line/labels "$work/absent" ;;
        two_labels) python3 tools/two_labels.py $line/spec "$work/absent" r.a r.b ;;
        consult) python3 tools/consult.py $line/package "$work/absent" $line/queries ;;
        automaton) python3 tools/automaton.py "$work/absent" '.* Q .*' ;;
        impact_of_file) python3 tools/files.py impact $line/spec $line/view $line/labels "$work/absent" a ;;
        page_of_files) python3 tools/page.py --table "$work/absent" $line/spec $line/view $line/events "$work/names" ;;
        page) python3 tools/page.py $line/spec $line/view $line/events "$work/absent" ;;
        crates) python3 tools/crates.py "$work/absent" ;;
        files) python3 tools/files.py ask $line/spec $line/view $line/labels "$work/absent" a b ;;
        runs) python3 tools/runs.py impact "$work/absent" a ;;
        list_of_runs) python3 tools/runs.py list "$work/absent" ;;
        to_rocrate) python3 tools/to_rocrate.py "$work/absent" ;;
    esac
}

# The name of the tool in its messages.
tool_of() {
    case $1 in
        export) echo dot.py ;;
        file | pick) echo labels.py ;;
        impact_of_file) echo files.py ;;
        page_of_files) echo page.py ;;
        list_of_runs) echo runs.py ;;
        *) echo "$1.py" ;;
    esac
}

# Whether a tool that cannot write ends with status 2 and one line.
at_full() {
    local ended=0
    works "$1" >/dev/full 2>"$work/err" || ended=$?
    [ "$ended" = 2 ] && [ "$(cat "$work/err")" = "$(tool_of "$1"): writing: No space left on device" ]
}
at_closed_output() {
    local ended=0
    works "$1" >&- 2>"$work/err" || ended=$?
    [ "$ended" = 2 ] && [ "$(cat "$work/err")" = "$(tool_of "$1"): writing: standard output is closed" ]
}
# Whether it writes the same with standard input closed.
at_closed_input() {
    works "$1" >"$work/open" </dev/null && works "$1" >"$work/closed" <&- && cmp -s "$work/open" "$work/closed"
}
# Whether its message goes nowhere where standard error is closed or full, and the status stays.
at_no_error() {
    local ended=0 full=0
    fails "$1" >"$work/out" 2>&- || ended=$?
    fails "$1" >>"$work/out" 2>/dev/full || full=$?
    [ "$ended" = 2 ] && [ "$full" = 2 ] && [ ! -s "$work/out" ]
}
for tool in dot export labels file pick two_labels consult automaton impact_of_file page page_of_files crates files runs list_of_runs to_rocrate; do
    check "$tool: a full device is told" at_full "$tool"
    check "$tool: closed standard output is told" at_closed_output "$tool"
    check "$tool: closed standard input changes nothing" at_closed_input "$tool"
    check "$tool: with standard error closed or full, the status is 2 and nothing is written" at_no_error "$tool"
done
no_input() {
    local ended=0
    python3 "tools/$1" "${@:2}" >"$work/out" 2>"$work/err" <&- || ended=$?
    [ "$ended" = 2 ] && [ ! -s "$work/out" ] && [ "$(cat "$work/err")" = "$1: standard input: it is closed" ]
}
check "labels.py: standard input that is asked for and closed is told" no_input labels.py file
check "dot.py: standard input that is asked for and closed is told" no_input dot.py
check "to_rocrate.py: standard input that is asked for and closed is told" no_input to_rocrate.py
check "labels.py: a pipe that nobody reads is told" test "$({ python3 tools/labels.py lines examples/phylogeny/labels 2>&3 | true; } 3>&1 | sed 's/.*: writing: Broken pipe/broken/')" = broken

# Label files whose names no workflow has.
python3 - "$work" <<'FILES'
import sys
def entry(name, label):
    return bytes([len(name)]) + name + len(label).to_bytes(2, "big") + label
def filled(bits):
    bits += "0" * (-len(bits) % 8)
    return int(bits, 2).to_bytes(len(bits) // 8, "big")
head = open("examples/line/labels", "rb").read()[:36]
odd = [b"", b"head", b"a\rb", b"\r", b"a b", b"a\nb", b"\\", b"\\x41", b"\xff.a", b"r.a", bytes(range(256))[:255], bytes(range(1, 256))]
files = {
    "odd": [entry(name, b"\x20") for name in odd],
    "bytes": [entry(b"\xff.a", b"\x20"), entry(b"r.a", b"\x20")],
    "html": [entry(b"<b>&\".a", b"\x20"), entry(b"r.b", b"\x60")],
    "signs": [entry(b"\x1b[31m\r.a", b"\x20"), entry(b"r.b", b"\x60")],
    # The step from the start of `twisting` to its loop, and a chain number of more than 4,300 decimal digits, or the greatest.
    "digits": [entry(b"r.x", filled("1111" + "0" * 14500 + "1" * 14501 + "011")), entry(b"r.y", b"\x20")],
    "greatest": [entry(b"r.x", filled("1111" + "0" * 24 + "1" + "0" * 24 + "011")), entry(b"r.y", b"\x20")],
    # Around the cycle of `pair`, step after step, where one number belongs.
    "long": [entry(b"r.x", filled("1" + "111010" * 87000)[:65535]), entry(b"r.y", b"\x20")],
}
for name, parts in files.items():
    open(f"{sys.argv[1]}/{name}", "wb").write(head + b"".join(parts))
FILES

keeps_odd() {
    python3 tools/labels.py lines "$work/odd" >"$work/odd_lines" && python3 tools/labels.py file "$work/odd_lines" | cmp -s - "$work/odd"
}
check "labels.py: names of any bytes, none and the word \`head\` are taken back" keeps_odd
writes_odd() {
    sed -n '2,11p' "$work/odd_lines" | cmp -s - <(printf '%s 20\n' '' '\x68ead' 'a\x0db' '\x0d' 'a\x20b' 'a\x0ab' '\x5c' '\x5cx41' '\xff.a' 'r.a')
}
check "labels.py: such names are written as documented" writes_odd
check "labels.py: lines that end with carriage returns are taken" cmp -s $line/labels <(sed 's/$/\r/' "$work/lines" | python3 tools/labels.py file)
check "labels.py: a name with a sign that is not escaped is told" \
    complains 'labels.py: line 2: `\x1` is no name: of other signs than those that can be printed, `\xHH` stands there' python3 tools/labels.py file <(head -n 1 "$work/lines"; echo '\x1 20')
check "labels.py: digits with a tab between are told" \
    complains 'labels.py: line 2: `2\t0` is not hexadecimal digits, two for each byte' python3 tools/labels.py file <(head -n 1 "$work/lines"; printf 'r.a 2\t0\n')
check "labels.py: bytes that are no text are told" complains "labels.py: $work/bytes: byte 4: not UTF-8" python3 tools/labels.py file "$work/bytes"

check "files.py: a name that is not UTF-8 is told by the program" \
    complains 'files.py: wfprov: refused: labels: BadName entry 0' python3 tools/files.py impact $line/spec $line/view "$work/bytes" "$work/table" a

# A specification with two loops: L leads back to itself by two positions, and M to L.
cat >"$work/two_loops" <<'SPEC'
{"start":"L","modules":[{"name":"L","in":["x"],"out":["y"]},{"name":"M","in":["x"],"out":["y"]},{"name":"P","in":["x"],"out":["y"]}],
"productions":[{"head":"L","body":[["m","M"],["p","P"]],"edges":[["m.y","p.x"]],"in":[["x","m.x"]],"out":[["p.y","y"]]},
{"head":"M","body":[["k","M"],["l","L"]],"edges":[["k.y","l.x"]],"in":[["x","k.x"]],"out":[["l.y","y"]]},
{"head":"M","body":[["p","P"]],"in":[["x","p.x"]],"out":[["p.y","y"]]}]}
SPEC
printf '\x03r.x\x00\x01\xff\x03r.y\x00\x01\xff' | cat <(head -c 36 $line/labels) - >"$work/two_loops_labels"
check "two_labels.py: ends on a specification with two loops" \
    complains "two_labels.py: the label of \`r.x\` is none of $work/two_loops: \`M\` leads back to itself in two ways, so \`wfprov check\` refuses the specification" \
    python3 tools/two_labels.py "$work/two_loops" "$work/two_loops_labels" r.x r.y
check "two_labels.py: a chain number of 4,300 digits is told" \
    complains "two_labels.py: the label of \`r.x\` is none of examples/twisting/spec: a number in it is greater than 16,777,216" \
    python3 tools/two_labels.py examples/twisting/spec "$work/digits" r.x r.y
check "two_labels.py: the greatest chain number is drawn" test "$(python3 tools/two_labels.py examples/twisting/spec "$work/greatest" r.x r.y | grep -o '<td>16777215 continuing steps</td>')" = '<td>16777215 continuing steps</td>'
check "two_labels.py: a label of 65,535 bytes is told in time" \
    complains "two_labels.py: the label of \`r.x\` is none of examples/pair/spec: a step along the cycle of A stands alone, and belongs to the chain number before it" \
    python3 tools/two_labels.py examples/pair/spec "$work/long" r.x r.y
draws_name() {
    python3 tools/two_labels.py $line/spec "$work/html" '<b>&".a' r.b >"$work/out" && ! grep -q '<b>' "$work/out" && grep -qF '&lt;b&gt;&amp;&quot;.a' "$work/out" &&
        { ! command -v dot >/dev/null || dot -Tsvg "$work/out" >/dev/null 2>&1; }
}
check "two_labels.py: a name is no part of the picture's language" draws_name
draws_signs() {
    python3 tools/two_labels.py $line/spec "$work/signs" $'\e[31m\r.a' r.b >"$work/out" && ! LC_ALL=C grep -q "[$(printf '\001-\010\013-\037\177')]" "$work/out"
}
check "two_labels.py: signs that a terminal obeys are escaped in the picture" draws_signs

# Signs that a terminal obeys, in names of files and in what stands in them.
odd=$work/$'odd\e[31m\r\xff'
shown=$work/'odd\x1b[31m\r\xff'
tells_path() {
    complains "$1: $shown: No such file or directory" python3 "tools/$1" "${@:2}"
}
check "dot.py: a path is told as text" tells_path dot.py "$odd"
check "dot.py: the path of a specification is told as text" tells_path dot.py --spec "$odd"
check "labels.py: a path is told as text" tells_path labels.py lines "$odd"
check "labels.py: a path of names is told as text" tells_path labels.py pick $line/labels "$odd"
check "two_labels.py: a path is told as text" tells_path two_labels.py "$odd" $line/labels r.a r.b
check "files.py: a path is told as text" tells_path files.py impact $line/spec $line/view $line/labels "$odd" a
check "runs.py: a path is told as text" tells_path runs.py list "$odd"
check "page.py: a path is told as text" tells_path page.py $line/spec $line/view $line/events "$odd"
check "crates.py: a path is told as text" tells_path crates.py "$odd"
check "dot.py: a sign in a line is told as text" complains 'dot.py: line 1: `\x1b[2J` is no name' python3 tools/dot.py <(printf 'leaf \e[2J P\n')
check "dot.py: a line ends at a newline alone" complains 'dot.py: line 1: `r\r` is no name' python3 tools/dot.py <(printf 'leaf r\r P\n')
check "labels.py: a sign in a line is told as text" \
    complains 'labels.py: line 2: `\x9b2J` is not hexadecimal digits, two for each byte' python3 tools/labels.py file <(head -n 1 "$work/lines"; printf 'r.a \xc2\x9b2J\n')
check "two_labels.py: an item is told as text" complains "two_labels.py: \`\\x1b.a\` is no item of $line/labels" python3 tools/two_labels.py $line/spec $line/labels $'\e.a' r.b
impact_of=(python3 tools/files.py impact $line/spec $line/view $line/labels "$work/table")
check "files.py: a name is told as text" complains "files.py: $work/table: \`\\x1b.a\` is no file, checksum or action" "${impact_of[@]}" $'\e.a'
check "files.py: text that turns the direction of writing is told as text" \
    complains "files.py: $work/table: \`\\u202e.a\` is no file, checksum or action" "${impact_of[@]}" $'\u202e.a'

# A program that is none.
printf '#!/bin/sh\nprintf "\\033[2J" >&2\nexit 2\n' >"$work/obeys"
printf '#!/bin/sh\nkill -9 $$\n' >"$work/dies"
printf '#!/bin/sh\necho yes\n' >"$work/few"
chmod +x "$work/obeys" "$work/dies" "$work/few"
check "files.py: what a program says is told as text" complains 'files.py: wfprov: \x1b[2J' env WFPROV="$work/obeys" python3 tools/files.py impact $line/spec $line/view $line/labels "$work/table" a
check "files.py: a program that dies is told" complains 'files.py: wfprov: ended by signal 9' env WFPROV="$work/dies" python3 tools/files.py impact $line/spec $line/view $line/labels "$work/table" a
check "files.py: too few answers are told" complains "files.py: wfprov: $work/few: 1 answers to 2 questions" env WFPROV="$work/few" python3 tools/files.py impact $line/spec $line/view $line/labels "$work/table" a
check "files.py: a program that is not there is told" complains "files.py: $work/absent: No such file or directory" env WFPROV="$work/absent" python3 tools/files.py impact $line/spec $line/view $line/labels "$work/table" a

# More questions than a page has.
seq 10000 | sed 's/.*/r.a r.b/' >"$work/most"
{ cat "$work/most"; echo; printf '\r\n'; } >"$work/filled"
{ cat "$work/most"; echo 'r.a r.b'; } >"$work/more"
check "page.py: 10,001 questions are refused" \
    complains "page.py: $work/more: more than 10,000 questions, which are too many for a page; \`wfprov\` answers them without one" python3 tools/page.py $line/spec $line/view $line/events "$work/more"
most() {
    python3 tools/page.py $line/spec $line/view $line/events "$work/filled" >"$work/page" && grep -q 'the answers to 10,000 questions' "$work/page" &&
        grep -q 'Chains were asked for of the first 200 of the 10,000 questions that are answered' "$work/page" && [ "$(grep -c '<details' "$work/page")" = 200 ]
}
check "page.py: 10,000 questions make a page" most

printf 'a: b\nb: a\n' >"$work/circle"
check "crates.py: crates in a circle are told" complains "crates.py: $work/circle: crates stand on one another in a circle: a, b" python3 tools/crates.py "$work/circle"
printf 'a": b\n' >"$work/quote"
check "crates.py: a name with a sign of the picture's language is told" complains "crates.py: $work/quote: line 1: \`a\"\` is no name of a crate" python3 tools/crates.py "$work/quote"
python3 -c 'print("c0:"); [print(f"c{k}: c{k - 1}") for k in range(1, 3000)]' >"$work/deep"
check "crates.py: three thousand crates in a line are drawn" test "$(python3 tools/crates.py "$work/deep" | grep -c -- '->')" = 2999
check "crates.py: bytes that are no text are told" complains "crates.py: $work/bytes: byte 4: not UTF-8" python3 tools/crates.py "$work/bytes"

finish
