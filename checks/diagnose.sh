#!/usr/bin/env bash
# Checks of tools/diagnose.py: a case for each refusal and each warning with the text that is kept, mistakes with their mends, random mutations of the examples on which it and the program have to agree, its reader of JSON, and what it does at its edges.
# The words are how many mutations of the examples are tried, and from which seed; 2,000 and 1 where they are not given. Of second views, automata and packages half as many are tried.
set -euo pipefail

cd "$(dirname "${BASH_SOURCE[0]}")/.."
. checks/count.sh
. checks/built.sh
export WFPROV=$program PYTHONDONTWRITEBYTECODE=1

golden=tools/golden/diagnose
tool=$PWD/tools/diagnose.py
line=examples/line
python3 $golden/cases.py "$work/cases"
python3 checks/diagnose.py "$program" "$work/cases" >"$work/tried"
while read -r result name; do
    [ "$result" = ok ] || echo "$name"
    check "the case ${name%%:*} is told as it is kept" test "$result" = ok
done <"$work/tried"

# Mistakes that were made in the examples: what is said of each has its kind and place, and with the mend that it names the program accepts.
mkdir "$work/mistakes"
python3 checks/mistakes.py "$program" "$work/mistakes" >"$work/mended"
while read -r result name; do
    [ "$result" = ok ] || echo "$name"
    check "the mistake is told and mended: ${name:0:80}" test "$result" = ok
done <"$work/mended"
check "there are ten mistakes or more of each file" test "$(cut -d: -f1 "$work/mended" | sort | uniq -c | awk '$1 >= 10' | wc -l)" = 5

# Each kind of refusal that docs/FORMATS.md names has a case, but for two that need more than a few bytes, and are tried below.
has_cases() {
    grep -oE '(`|: )[A-Z][A-Za-z]+' docs/FORMATS.md | grep -oE '[A-Z][a-z]+[A-Z][A-Za-z]+|Unreachable|Unproductive|Unsafe|Malformed|Truncated|Conflict|Orphan' | sort -u |
        grep -vxE 'FileTooLong|TooManyInstances' >"$work/kinds"
    python3 -c 'import sys; sys.path.insert(0, sys.argv[1]); import cases; print(*(message for _, message in cases.CASES.values()), sep="\n")' $golden >"$work/messages"
    local kind missing=0
    while read -r kind; do
        grep -q ": $kind\b" "$work/messages" || { echo "no case for $kind" && missing=1; }
    done <"$work/kinds"
    [ "$(wc -l <"$work/kinds")" -ge 50 ] && [ "$(grep -cxE 'NotCoarser|StatesBad|StateBad|MoveTwice|TooManyStates|NotPackage|BadPackage' "$work/kinds")" = 7 ] && [ "$missing" = 0 ]
}
check "each kind of refusal of docs/FORMATS.md has a case" has_cases

# The limits that no small file reaches are tried with smaller ones.
small_limits() {
    python3 - <<'LIMITS'
import io, sys
sys.path.insert(0, "tools")
from diagnosis import faults, files, label_files, lines, questions, runs, specs
text, grammar = specs.read_parts("spec", open("examples/line/spec", "rb").read())
grammar = specs.accepted(text, grammar)
events = b'{"start":"r"}\n{"expand":"r","production":0,"names":["i1","i2"]}\n'
def told(work):
    try:
        work()
        return ""
    except faults.Fault as fault:
        return fault.message()
read = lambda data: told(lambda: runs.read_run("events", io.BytesIO(data), grammar))
for most, wanted in ((64, ""), (63, "refused: events line 2: FileTooLong"), (14, "refused: events line 2: FileTooLong"), (13, "refused: events line 1: FileTooLong")):
    lines.MOST_OF_FILE = most
    assert read(events) == wanted, (most, read(events))
lines.MOST_OF_LINE = 12
assert read(events) == "refused: events line 1: LineTooLong"
lines.MOST_OF_LINE, lines.MOST_OF_FILE = 65536, 8
assert told(lambda: list(questions.read_questions("queries", io.BytesIO(b"r.a r.b\nr.a r.b\n")))) == "refused: queries line 2: FileTooLong"
lines.MOST_OF_FILE, runs.MOST_INSTANCES = 100, 2
assert read(events) == "refused: events line 2: TooManyInstances"
for where in ("coarse", "auto", "package"):
    specs.MOST[where] = 2
    for data, wanted in ((b"{ }", f"refused: {where}: TooLong"), (b"{}", "")):
        assert told(lambda: specs.parts_of(files.Text(where, data), lambda node: node, where)) == wanted, where
label_files.MOST = 57
assert told(lambda: label_files.read_labels(open("examples/line/labels", "rb").read(), grammar)) == "refused: labels: TooLong"
LIMITS
}
check "files that are too long and runs with too many instances are told, by smaller limits" small_limits

check "at the edges of files, lines, names and labels kind and place are those of the program" python3 checks/edges.py "$program"
check "on random mutations of the examples kind and place are those of the program" python3 checks/mutations.py "$program" "${1:-2000}" "${2:-1}"
check "so they are on those of second views, automata and packages" python3 checks/mutated_calls.py "$program" $((${1:-2000} / 2)) "${2:-1}"

# What JSON is, by RFC 8259 and docs/FORMATS.md, in a member that no form knows: the reader and the program take the first, and refuse the second.
same_json() {
    python3 - "$program" "$work" <<'JSON'
import subprocess, sys
sys.path.insert(0, "tools")
import located_json
deep = lambda count: "[" * count + "]" * count
taken = ["0", "-0", "1.5e+3", "1E400" if False else "1e308", "0e999999999999", "1e-999999", "true", "null", '"\\u00e9\\ud83d\\ude00\\/"', '"\u2028\u007f"', "[ ]", '{"":{}}',
         "18446744073709551616", "1" * 300, '"' + "x" * 70000 + '"', deep(126), '{"a":1,"a":2}', " \t\r\n[1 , 2]\n"]
refused = ["", "01", "-", "1.", ".5", "1e", "+1", "1e999", "-1e999", "1" * 400, "NaN", "Infinity", "nul", "True", "'a'", '"\\x41"', '"\\u12"', '"\\ud800"', '"\\udc00"', '"\\ud800\\u0041"',
           '"\t"', '"\n"', '"\0"', "[1,]", "[,1]", "[1 2]", "{1:2}", '{"a" 1}', '{"a":1,}', "[1", '"a', "1 2", "]", "/**/1", "\u00a01", "\v1", "\ufeff1", deep(127)]
def program(text):
    with open(sys.argv[2] + "/json", "wb") as file:
        file.write(text.encode())
    ran = subprocess.run([sys.argv[1], "check", sys.argv[2] + "/json"], capture_output=True)
    return ran.stderr.decode() != "refused: spec: NotJson\n"
def reader(text):
    try:
        located_json.read(text)
        return True
    except located_json.NotJson:
        return False
for part in taken + refused:
    text = '{"start":"S","modules":[{"name":"S"}],"note":' + part + "}"
    assert program(text) == reader(text) == (part in taken), (part[:80], program(text), reader(text))
JSON
}
check "the reader of JSON takes what the program takes, and no more" same_json
places() {
    python3 - <<'PLACES'
import sys
sys.path.insert(0, "tools")
import located_json
text = '{ "a" : [1, "x\\n"],\n  "a":{"b":-2e1} }'
node = located_json.read(text)
inner = node.member("a").member("b")
assert (text[inner.at : inner.end], inner.value, inner.whole(), node.at, node.end) == ("-2e1", "-2e1", None, 0, len(text))
first = node.value[0][1].value
assert [(part.at, text[part.at : part.end], part.value) for part in first] == [(9, "1", "1"), (12, '"x\\n"', "x\n")]
assert [located_json.read(part).whole() for part in ("0", "18446744073709551615", "18446744073709551616", "-0", "1.0", "1e2")] == [0, 2**64 - 1, None, None, None, None]
PLACES
}
check "it says where each value stands, and which numbers are whole" places

# What the tool works out of a view is what the program shows of it.
same_view() {
    PYTHONPATH=tools python3 -c '
import sys
from diagnosis import specs
text, parts = specs.read_parts("spec", open(sys.argv[1] + "/spec", "rb").read())
grammar = specs.accepted(text, parts)
text, parts = specs.read_view_parts("view", open(sys.argv[1] + "/view", "rb").read())
print(*specs.safe(text, parts, grammar).lines(), sep="\n")' "examples/$1" | cmp -s - "examples/$1/shown"
}
for example in line phylogeny phylogeny-once twisting pair grown mapping-cwl mapping-nextflow; do
    check "the pairs of the view of $example are worked out" same_view "$example"
done

# Whether the tool ends with a status, writes a text that has this line, and nothing on standard error.
ends() {
    local wanted=$1 has=$2 ended=0
    shift 2
    "$@" >"$work/out" 2>"$work/err" </dev/null || ended=$?
    [ "$ended" = "$wanted" ] && [ ! -s "$work/err" ] && grep -qxF -- "$has" "$work/out"
}
# Whether it ends with status 2 and this line on standard error alone.
complains() {
    local message=$1 ended=0
    shift
    "$@" >"$work/out" 2>"$work/err" </dev/null || ended=$?
    [ "$ended" = 2 ] && [ ! -s "$work/out" ] && [ "$(cat "$work/err")" = "$message" ]
}
check "good files have status 0" ends 0 "wfprov accepts the files: wfprov check $line/spec" python3 "$tool" $line/spec
check "a run is read without a view" ends 0 "wfprov accepts the files: wfprov trace $line/spec the default view $line/events /dev/null" python3 "$tool" $line/spec - $line/events
check "the file of a label file is known by its beginning" ends 0 "wfprov accepts the files: wfprov ask $line/spec $line/view $line/labels /dev/null" python3 "$tool" $line/spec $line/view $line/labels
check "two labels are read" ends 0 "wfprov accepts the files: wfprov decide $line/spec $line/view 20 B0" python3 "$tool" --decide $line/spec $line/view 20 B0
check "the default view may stand for the view of a label" ends 0 "wfprov accepts the files: wfprov decide $line/spec the default view 20 b0" python3 "$tool" --decide $line/spec - 20 b0
check "a view is compared with the default view" ends 0 "wfprov accepts the files: wfprov compare $line/spec the default view $line/coarse" python3 "$tool" --compare $line/spec - $line/coarse
check "what two views that agree answer is told" grep -qxF 'Nothing is left out: about items that the second view shows, the first view gives the same answers.' "$work/out"
check "a package and two labels are read" ends 0 "wfprov accepts the files: wfprov consult $line/package 20 B0" python3 "$tool" --consult $line/package 20 B0
check "pipes may stand for two views" ends 0 'Nothing is left out: about items that the second view shows, the first view gives the same answers.' \
    python3 "$tool" --compare $line/spec <(echo '{}') <(echo '{}')
check "pipes may stand for files" ends 2 "wfprov refuses the events: refused: events line 1: Orphan" \
    python3 "$tool" <(cat $line/spec) <(echo '{}') <(echo '{"expand":"r","production":0,"names":[]}')
check "missing words are told" complains 'diagnose.py: the words are not SPEC [VIEW] [EVENTS | LABELS] [QUERIES]; see --help' python3 "$tool"
check "words that are no labels are told" complains 'diagnose.py: the words behind --decide are not SPEC VIEW HEX HEX, with two hexadecimal digits for each byte; see --help' \
    python3 "$tool" --decide $line/spec $line/view 2 20
misses() { complains "diagnose.py: the words behind $1 are not $2; see --help" python3 "$tool" "$1" "${@:3}"; }
check "missing words of two views are told" misses --compare 'SPEC VIEW VIEW' $line/spec $line/view
check "missing words of an automaton are told" misses --words 'SPEC VIEW AUTO [LABELS [QUERIES]]' $line/spec $line/view
check "words that are no labels over a package are told" misses --consult 'PACKAGE HEX HEX, with two hexadecimal digits for each byte' $line/package 20 2g
check "an option that is none is told" complains 'diagnose.py: the words are not SPEC [VIEW] [EVENTS | LABELS] [QUERIES]; see --help' python3 "$tool" --coarse $line/spec
check "the tool tells how it is called" test "$(python3 "$tool" --help | grep -cE 'tools/diagnose.py (--[a-z]+ )?(SPEC|PACKAGE)')" = 8
check "a full device is told" test "$(python3 "$tool" $line/spec 2>&1 >/dev/full)" = "diagnose.py: writing: No space left on device"
check "closed standard output is told" test "$(python3 "$tool" $line/spec 2>&1 >&-)" = "diagnose.py: writing: standard output is closed"
check "a folder in place of a file is told" ends 2 "wfprov cannot read the specification: fault: reading spec" python3 "$tool" examples
check "a folder in place of a package is told" ends 2 "wfprov cannot read the package: fault: reading package" python3 "$tool" --consult examples 20 20

# Without the program the tool says so; where the program says otherwise, it says this.
check "a program that is not built is told" ends 2 "wfprov would say that it refuses the specification: refused: spec: WrongShape top" env WFPROV="$work/absent" python3 "$tool" <(echo '[]')
printf '#!/bin/sh\necho "refused: spec: NameBad module 7" >&2\nexit 2\n' >"$work/other"
chmod +x "$work/other"
check "a program that says otherwise is told" ends 2 "The program says: refused: spec: NameBad module 7. This tool finds: that nothing is wrong. The program" env WFPROV="$work/other" python3 "$tool" $line/spec

# A program that answers otherwise of two views, and one that has no command `words`.
printf '#!/bin/sh\nprintf "yes\\nexact\\n"\n' >"$work/other"
denied="$work/cases/denied"
check "another answer to two views is told" ends 2 "The program says: yes, exact. This tool finds: no Refine c q. The program decides; please report that this" \
    env WFPROV="$work/other" python3 "$tool" --compare "$denied"/{spec,view,coarse}
check "without the program its own answer is told" ends 1 "Nothing is refused by the rules of docs/FORMATS.md." env WFPROV="$work/absent" python3 "$tool" --compare "$denied"/{spec,view,coarse}
says_no_run() { ! grep -q 'is a step of' "$work/out" && grep -q '^The second view denies\|: The second view denies' "$work/out"; }
check "it is without a run" says_no_run
printf '#!/bin/sh\n[ "$1" != words ] || { echo "usage: wfprov COMMAND WORDS" >&2; exit 1; }\nexec %q "$@"\n' "$program" >"$work/former"
chmod +x "$work/former"
unsafe="$work/cases/auto-unsafe"
check "a program without the command is told" ends 2 "The program did not check the files: usage: wfprov COMMAND WORDS. This is the reading of this tool alone." \
    env WFPROV="$work/former" python3 "$tool" --words "$unsafe"/{spec,view,auto}
check "what it would say is told" grep -qF 'wfprov would say that it refuses the automaton: refused: auto: Unsafe module Refine one 2 other 1' "$work/out"
printf '#!/bin/sh\necho "no memory" >&2\nexit 5\n' >"$work/small"
chmod +x "$work/small"
check "a program that could not check is told" ends 0 "The program did not check the files: no memory. This is the reading of this tool alone." env WFPROV="$work/small" python3 "$tool" $line/spec
cp $line/spec "$work/"$'odd\xff'
check "a path that is no text is read" ends 0 "wfprov accepts the files: wfprov check $work/odd\\xff" python3 "$tool" "$work/"$'odd\xff'

# A name with signs that a terminal obeys is shown with escapes.
shows_escapes() {
    printf '{"start":"S\\u001b[2J","modules":[]}' >"$work/signs"
    printf '{"start":"\x9b\x1b[2J"' >"$work/bytes"
    printf '{"states":1,"start":0,"moves":[[0,"S\\u001b[2J",0]]}' >"$work/moves"
    printf '{"package":1,"start":"S\\u001b[2J","modules":[],"productions":[],"deps":[],"loops":[]}' >"$work/packed"
    ! { python3 "$tool" "$work/signs"; python3 "$tool" "$work/bytes"; } >"$work/out" 2>&1 &&
        ! { python3 "$tool" --words $line/spec $line/view "$work/moves"; python3 "$tool" --consult "$work/packed" 20 20; } >>"$work/out" 2>&1 && grep -qF 'S\x1b[2J' "$work/out" && ! LC_ALL=C grep -q "[$(printf '\001-\010\013-\037\177')]" "$work/out"
}
check "signs that a terminal obeys are shown as escapes" shows_escapes

# What the texts propose mends the files: the name that is near, the link that is missing, and the view that is safe.
proposed() {
    sed -n "s/.*$2.*/\1/p" <(tr '\n' ' ' <"$golden/$1.txt")
}
mends_name() {
    sed "s/\"$2\"/\"$(proposed "$1" 'Was `\([^`]*\)` *meant')\"/" "$work/cases/$1/$3" >"$work/mended" && ! cmp -s "$work/mended" "$work/cases/$1/$3"
}
mends_module() {
    mends_name unknown-position-module Reallign spec && "$program" check "$work/mended" >/dev/null
}
check "the module that is near mends the case" mends_module
mends_view_name() {
    mends_name view-unknown-module Refined view && "$program" view examples/phylogeny/spec "$work/mended" >/dev/null
}
check "the module that is near mends the view" mends_view_name
mends_link() {
    sed "s/\"edges\":\[\[\"al.m\"/\"edges\":[$(proposed port-unlinked 'Add the link `\([^`]*\)`'),[\"al.m\"/" "$work/cases/port-unlinked/spec" >"$work/mended" && "$program" check "$work/mended" >/dev/null
}
check "the link that is proposed mends the case" mends_link
# The version that is proposed for a label file of last year: with it the program takes the file.
mends_versions() {
    sed "s/]}\$/],$(proposed other-spec-earlier 'which is `\("versions"[^`]*\)`')}/" "$work/cases/other-spec-earlier/spec" >"$work/mended" &&
        "$program" ask "$work/mended" "$work/cases/other-spec-earlier/view" "$work/cases/other-spec-earlier/labels" /dev/null >/dev/null
}
check "the version that is proposed mends the specification" mends_versions
mends_view() {
    echo "{$(proposed "$1" '\("expand":[^`]*\)`'),\"deps\":[$2$(proposed "$1" '`\({"module[^`]*\)`')]}" >"$work/mended" && "$program" view "$work/cases/$1/spec" "$work/mended" >/dev/null
}
check "the view that is proposed is safe" mends_view unsafe ''
check "the view that is proposed with pairs of its own is safe" mends_view unsafe-by-view '{"module":"Realign","pairs":[["m","c2"],["c","m2"]]},'

# What is proposed for the other files: two views that are coarser one than the other, a view that denies nothing, an automaton that is safe, and a package.
coarser() {
    echo "{$(proposed "$1" '`\("expand":[^`]*\)`'),\"deps\":[$(proposed "$1" '`\({"module[^`]*\)`')]}" >"$work/mended"
    "$program" compare "$work/cases/$1/spec" "$work/cases/$1/view" "$work/mended" >/dev/null
}
check "the coarser view that is proposed is one" coarser not-coarser
check "so is the one that is proposed where neither is coarser" coarser not-coarser-apart
exchanged() { "$program" compare "$work/cases/$1/spec" "$work/cases/$1/coarse" "$work/cases/$1/view" >/dev/null; }
check "exchanged views are accepted" exchanged not-coarser
check "so are two of which the second sees less" exchanged not-coarser-unseen
denies_nothing() {
    echo "{\"expand\":[\"Main\"],\"deps\":[$(proposed denied '`\({"module[^`]*\)`')]}" >"$work/mended" && [ "$("$program" compare "$denied/spec" "$denied/view" "$work/mended")" = $'yes\nexact' ]
}
check "the pairs that are proposed deny nothing" denies_nothing
# The view that is proposed for an automaton, and the automaton that names the module itself.
keeps_safe() {
    local ended=0
    echo "{$(proposed "$1" '\("expand":[^`]*\)`'),\"deps\":[$(proposed "$1" '`\({"module[^`]*\)`')]}" >"$work/mended"
    sed "s/\"$2\"/\"$3\"/g" "$work/cases/$1/auto" >"$work/auto" && ! cmp -s "$work/auto" "$work/cases/$1/auto" && "$program" view "$work/cases/$1/spec" "$work/mended" >/dev/null || return 1
    python3 "$tool" --words "$work/cases/$1/spec" "$work/mended" "$work/auto" >"$work/out" || ended=$?
    [ "$ended" = 0 ]
}
check "the view that is proposed for an automaton keeps it safe" keeps_safe auto-unsafe Realign Refine
check "so it is where each way passes the module" keeps_safe auto-unsafe-other P L
mends_move() {
    mends_name move-unknown-module Scores auto && python3 "$tool" --words "$work/cases/move-unknown-module"/{spec,view} "$work/mended" >"$work/out"
}
check "the module that is near mends the move" mends_move
mends_loops() {
    sed "s/\"loops\":.*/\"loops\":[$(proposed "$1" 'write `\([^`]*\)`')]}/" "$work/cases/$1/package" >"$work/mended" && "$program" consult "$work/mended" 20 60 >/dev/null
}
check "the entry of a loop that is proposed mends the package" mends_loops bad-package-no-loop
check "so it does in the place of another" mends_loops bad-package-other-loop

finish
