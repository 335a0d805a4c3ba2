#!/usr/bin/env bash
# Compares `package` and `consult` with what is worked out anew on small grammars at random, tries packages that were worked out by hand, and checks that a program that says something else is found out.
# The words are how many grammars are tried, and from which seed; 1,000 and 1 where they are not given.
set -euo pipefail

cd "$(dirname "${BASH_SOURCE[0]}")/.."
. checks/stand_in.sh

# Packages that were worked out by hand.
closed='{"package":1,"start":"m0","modules":[{"name":"m0","in":["i0"],"out":["o0"]}],"productions":[],"deps":[],"loops":[]}'
is_package() { "$program" package "$1" "$2" | cmp -s - <(echo "$3"); }
echo '{"expand":[]}' >"$work/closed"
echo '{}' >"$work/all"
echo '{"expand":["A"]}' >"$work/first"
# The line with the other order of its steps besides.
echo '{"start":"S","modules":[{"name":"S","in":["a"],"out":["b"]},{"name":"P","in":["x"],"out":["y"]},{"name":"Q","in":["x"],"out":["y"]}],"productions":[{"head":"S","body":[["u","P"],["v","Q"]],"edges":[["u.y","v.x"]],"in":[["a","u.x"]],"out":[["v.y","b"]]},{"head":"S","body":[["u","Q"],["v","P"]],"edges":[["u.y","v.x"]],"in":[["a","u.x"]],"out":[["v.y","b"]]}]}' >"$work/fork"
check "a closed view of the line is a package of one module" is_package examples/line/spec "$work/closed" "$closed"
check "so is one of another grammar, and it is the same" is_package "$work/fork" "$work/closed" "$closed"
steps='"modules":[{"name":"m0","in":["i0"],"out":["o0"]},{"name":"m1","in":["i0"],"out":["o0"]},{"name":"m2","in":["i0"],"out":["o0"]}],"productions":[{"head":"m0","body":[["p0","m1"],["p1","m2"]],"edges":[["p0.o0","p1.i0"]],"in":[["i0","p0.i0"]],"out":[["p1.o0","o0"]]}'
check "an open view has its steps in order" is_package examples/line/spec "$work/all" "{\"package\":1,\"start\":\"m0\",$steps],\"deps\":[],\"loops\":[]}"
cuts() { "$program" package examples/pair/spec "$work/first" >"$work/cut" && [ "$(grep -o '"deps":.*' "$work/cut")" = '"deps":[],"loops":[["m0",0,1]]}' ]; }
check "a cycle that is cut has its loop step" cuts

# Whether two labels have this verdict by a package, or are refused with this line.
says() {
    local ended=0
    "$program" consult "$work/package" "$2" "$3" >"$work/out" 2>&1 || ended=$?
    [ "$ended" = "${4:-0}" ] && [ "$(cat "$work/out")" = "$1" ]
}
echo "$closed" >"$work/package"
check "ports of the run are joined" says yes 20 60
check "the second label is hidden" says 'hidden 2' 20 b0
check "the first label is hidden, though bits follow that are none" says 'hidden 1' b1 20
check "the first of two is told" says 'hidden 1' b0 b0
check "a label that is none is refused" says 'refused: label 1: Malformed' 10 20 2
check "so is the second, though the first is hidden" says 'refused: label 2: Malformed' b1 10 2
cp "$work/cut" "$work/package"
check "a label before the cut is shown" says yes 20 d8
check "one behind the cut is hidden" says 'hidden 2' 20 a6
"$program" package examples/twisting/spec "$work/all" >"$work/package"
twists() {
    local first second verdict
    while read -r first second verdict; do
        says "$verdict" "$first" "$second" || return 1
    done <<<$'20 fb no\n20 fa80 yes\n20 f4c0 yes\n20 f4a0 no\nfb f4a0 yes\nfb f4c0 no\n20 f0000c350b no\n20 f0000c350a80 yes\n20 f0000008000003 yes'
}
check "chains of any length are told apart" twists
echo "${closed/start\":\"m0/start\":\"m1}" >"$work/package"
check "a start that is no module is refused" says 'refused: package: BadPackage' 20 60 2
echo '{}' >"$work/package"
check "what is no package is refused" says 'refused: package: NotPackage' 20 60 2
echo '{' >"$work/package"
check "what is no JSON is refused" says 'refused: package: NotJson' 20 60 2

# The tool that answers by names: as `ask` does under the view of the package.
export WFPROV=$program
consult() { python3 tools/consult.py "$@"; }
pair=examples/pair
{ head -n 40 $pair/queries; echo 'nobody.x r.a'; } >"$work/queries"
as_asked() { consult "$work/cut" $pair/labels "$work/queries" | cmp -s - <("$program" ask $pair/spec "$work/first" $pair/labels "$work/queries"); }
check "by names it answers as \`ask\` does under the view" as_asked
lines_as_asked() { python3 tools/labels.py lines $pair/labels | consult "$work/cut" /dev/stdin "$work/queries" | cmp -s - <(consult "$work/cut" $pair/labels "$work/queries"); }
check "lines of names and labels serve as the label file does" lines_as_asked
two_lines() { python3 tools/labels.py lines $pair/labels | grep '^r\.[ab] '; }
check "those of the items that are asked about are enough, without the head" test "$(consult "$work/cut" <(two_lines) <(printf 'r.a r.b\nr.a nobody.x\n'))" = $'yes\nunknown'
check "an empty line asks nothing, and a line may end with a carriage return" test "$(consult "$work/cut" $pair/labels <(printf '\nr.a r.b\r\n'))" = yes
# Whether a call of it ends with status 2 and this line, and prints nothing.
complains() {
    local ended=0
    consult "${@:2}" >"$work/out" 2>"$work/err" || ended=$?
    [ "$ended" = 2 ] && [ ! -s "$work/out" ] && [ "$(cat "$work/err")" = "consult.py: $1" ]
}
printf 'r.a r.b\nr.a\n' >"$work/lines"
check "a line that is no question is told" complains "$work/lines line 2: a question is two names of items with a space between" "$work/cut" $pair/labels "$work/lines"
check "a package that is none is told" complains "$work/package: refused: package: NotJson" "$work/package" $pair/labels "$work/queries"
printf 'head %s\nr.a 20\nr.b 10\n' "$(head -c 36 $pair/labels | od -An -tx1 | tr -d ' \n')" | python3 tools/labels.py file >"$work/none"
check "a label that is none over the package is told with its item" \
    complains "the label of \`r.b\` is none over $work/cut: refused: label 2: Malformed" "$work/cut" "$work/none" <(echo r.a r.b)
{ cat $pair/labels && tail -c +37 $pair/labels; } >"$work/twice"
check "two items of one name are told" complains "$work/twice: two items have the name \`r.a\`" "$work/cut" "$work/twice" <(echo r.a r.b)
two_lines | sed 's/0$//' >"$work/odd"
check "a line of labels that is none is told" complains "$work/odd line 1: \`2\` is not hexadecimal digits, two for each byte" "$work/cut" "$work/odd" <(echo r.a r.b)
check "a file that has neither labels nor lines is told" complains "$pair/spec line 1: not a name and hexadecimal digits with one space between" "$work/cut" $pair/spec <(echo r.a r.b)
printf '\xff' >"$work/bytes"
check "so is one that is no text" complains "$work/bytes: neither a label file nor lines of names and labels" "$work/cut" "$work/bytes" <(echo r.a r.b)
{ two_lines && two_lines; } >"$work/twice"
check "two lines of one name are told" complains "$work/twice: two items have the name \`r.a\`" "$work/cut" "$work/twice" <(echo r.a r.b)
check "a program that is not there is told" env WFPROV="$work/absent" bash -c '! python3 tools/consult.py "$@" 2>"$0" && grep -q "^consult.py: wfprov: " "$0"' \
    "$work/err" "$work/cut" $pair/labels "$work/queries"
check "missing words are told" complains 'the words are not PACKAGE LABELS QUERIES; see --help' "$work/cut" $pair/labels
check "the tool tells how it is called" test "$(consult --help | grep -c 'consult.py PACKAGE LABELS QUERIES')" = 1

check "on ${1:-1000} small grammars packages and verdicts are as worked out" agrees_by checks/packaged.py "$@"

# Whether it is found that such a program says something else, by these kinds of answers and no other.
finds() { finds_by checks/packaged.py "$@"; }

check "it is found that a package has no loops" finds "text same" "$(changing package 's/"loops":.*/"loops":[]}/')"
check "it is found that a package has no pairs" finds "text same" "$(changing package 's/"deps":.*"loops"/"deps":[],"loops"/')"
check "it is found that the package has a name more" finds "text same" "$(changing package 's/"package":1/&,"of":"x"/')"
check "it is found that the package says where names differ" finds same '[ "$1 $2" != "package other" ] || { "$program" "$@" | sed s/m0/x/; exit; }'
# The lines of a `consult` that ends as the built one does, with what it writes changed by `sed`.
consulting() { printf '[ "$1" != consult ] || { told=$("$program" "$@" 2>&1); ended=$?; echo "$told" | sed %q; exit $ended; }' "$1"; }
# Whether it is found by answers of this kind, and perhaps of others.
finds_of() { stand_in "$2" && ! python3 checks/packaged.py "$work/program" --grammars 12 >"$work/told" && grep -q "^$1: .* compared, [1-9][0-9]* differ$" "$work/told"; }
check "it is found that hidden labels are exchanged" finds_of consult "$(consulting 's/^hidden 2/hidden 1/')"
check "it is found that \`yes\` is told as \`no\`" finds_of consult "$(consulting 's/^yes/no/')"
check "it is found that another label is told as malformed" finds_of label "$(consulting 's/label 1/label 2/')"
check "it is found that a bad package is told as none" finds hostile "$(consulting 's/BadPackage/NotPackage/')"

finish
