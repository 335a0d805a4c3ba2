#!/usr/bin/env bash
# Checks of tools/actions, tools/from_actions.py and tools/files.py: runs of which the answers on files were worked out by hand, runs that
# are refused, and random runs, whose answers are compared with a search in them.
# The words are how many random runs are tried, and from which seed; 80 and 1 where they are not given.
set -euo pipefail

cd "$(dirname "${BASH_SOURCE[0]}")/.."
. checks/count.sh
. checks/built.sh

golden=tools/golden/actions
importer=$PWD/tools/from_actions.py
export WFPROV=$program
echo '{}' >"$work/view"

# Imports a run, and writes its labels.
imports() {
    rm -f "$work/spec" "$work/events" "$work/table"
    python3 "$importer" "$1" "$work/spec" "$work/events" "$work/table" >"$work/out" 2>"$work/err" && [ ! -s "$work/out" ] && [ ! -s "$work/err" ] &&
        "$program" view "$work/spec" "$work/view" >"$work/shown" && "$program" ingest "$work/spec" "$work/events" >"$work/labels"
}

files() { python3 tools/files.py "$1" "$work/spec" "$work/view" "$work/labels" "$work/table" "${@:2}"; }

# Whether the questions of a file, each line of which ends with its answer, are answered so, by labels and by the run.
answers() {
    cut -f1,2 "$golden/$1.questions" >"$work/questions"
    files ask "$work/questions" | cmp -s - <(cut -f3 "$golden/$1.questions") &&
        python3 tools/files.py --trace ask "$work/spec" "$work/view" "$work/events" "$work/table" "$work/questions" |
        cmp -s - <(cut -f3 "$golden/$1.questions")
}
prints() { cmp -s - <(printf '%s\n' "$@"); }

check "a run of three samples is imported" imports "$golden/samples.json"
check "its files are asked for by path, checksum, action and role" answers samples
impact() { files impact data/b.fq | prints out/b.trim.fq out/b.trim.log out/b.bam out/b.vcf out/report.html out/all.vcf; }
lineage() { files lineage "CALL (b)" | prints out/b.trim.fq out/b.bam data/ref.fa data/b.fq; }
check "what rests on a file is listed" impact
check "what a file rests on is listed" lineage
made_by() { python3 tools/files.py made "$work/table" "$1" | prints "${@:2}"; }
check "files are found by a container" made_by docker.io/trimmer:0.39 out/a.trim.fq out/a.trim.log out/b.trim.fq out/b.trim.log out/c.trim.fq out/c.trim.log
check "files are found by a version" made_by 'aligner 2.7.10' out/a.bam out/b.bam out/c.bam
check "files are found by a tool" made_by JOIN out/all.vcf

# Whether a call of files.py ends with status 2 and this line.
says() {
    local ended=0
    "${@:2}" >"$work/out" 2>"$work/err" || ended=$?
    [ "$ended" = 2 ] && [ ! -s "$work/out" ] && [ "$(cat "$work/err")" = "files.py: $1" ]
}
check "a name of several files is refused with the list" says \
    "$work/table: \`TRIM (a)\` means 2 files: \`trim_a\` (out/a.trim.fq), \`tlog_a\` (out/a.trim.log)" files impact "TRIM (a)"
check "a name of no file is refused" says "$work/table: \`a.cram\` is no file, checksum or action" files impact a.cram
check "other words are refused" says 'call: the words are ask, impact or lineage with SPEC VIEW LABELS TABLE and names, or made TABLE WORD; see --help' \
    files impact
check "a specification that is no one is told" says 'wfprov: refused: spec: NotJson' \
    python3 tools/files.py lineage "$work/table" "$work/view" "$work/labels" "$work/table" out/all.vcf
check "a table that is none is told" says "$work/view line 1: this is no table of an importer, which begins with \`#wfprov files 1\`" \
    python3 tools/files.py lineage "$work/spec" "$work/view" "$work/labels" "$work/view" out/all.vcf
cp "$work/table" "$work/others"
check "a run with failed and cached actions is imported" imports "$golden/states.json"
check "what did not happen is not there" answers states
check "a failed action has no file" says "$work/table: the action \`broken\` has the state failed, and made no file" files impact broken
check "what a failed action would have made is no file" says "$work/table: \`four.txt\` is no file, checksum or action" files impact four.txt
check "a table of another run is told" says "$work/labels: it has no item of \`out/a.bam\` or of \`out/a.vcf\`: the table is one of another run" \
    python3 tools/files.py ask "$work/spec" "$work/view" "$work/labels" "$work/others" out/a.bam out/a.vcf
escapes() {
    printf '{"values":[{"id":"a\\tb\\\\n","path":"x\\ny","outside":true}],"actions":[{"name":"p","used":[["i","a\\tb\\\\n"]],"made":[]}]}' >"$work/odd"
    imports "$work/odd" && files impact $'a\tb\\n' >"$work/out" && [ ! -s "$work/out" ] && [ "$(grep -c '' "$work/table")" = 3 ]
}
check "tabs and newlines in names are kept" escapes

# Whether a list of actions is refused with this message, and nothing is written.
refuses() {
    local ended=0
    rm -f "$work/spec" "$work/events" "$work/table"
    printf '{"values":[{"id":"a","outside":true},{"id":"b"},{"id":"c"}],"actions":[%s]}' "$2" >"$work/list"
    (cd "$work" && python3 "$importer" list spec events table >out 2>err) || ended=$?
    [ "$ended" = 2 ] && [ ! -s "$work/out" ] && [ "$(cat "$work/err")" = "from_actions.py: $1" ] && [ ! -e "$work/spec" ] && [ ! -e "$work/table" ]
}
check "two actions of one name are refused" refuses 'list: actions 1: the action `p` is there twice, and before at list: actions 0' '{"name":"p"},{"name":"p"}'
check "two makers of a value are refused" refuses 'list: actions 1: it made `b`, and so did `p` (list: actions 0)' \
    '{"name":"p","made":[["o","b"]]},{"name":"q","made":[["o","b"]]}'
check "a maker of what came from outside is refused" refuses 'list: actions 0: it made `a`, which came from outside (list: values 0)' \
    '{"name":"p","made":[["o","a"]]}'
check "an unknown value is refused" refuses 'list: actions 0: it used `d`, which is no value of the record' '{"name":"p","used":[["i","d"]]}'
check "a value without a maker is refused" refuses 'list: actions 0: it used `b`, which no action made and which did not come from outside' \
    '{"name":"p","used":[["i","b"]]}'
check "a value of a failed action is refused" refuses \
    'list: actions 1: it used `b`, and `p`, which makes it, has the state failed (list: actions 0)' \
    '{"name":"p","state":"failed","made":[["o","b"]]},{"name":"q","used":[["i","b"]]}'
check "a value of an action that never ran is refused" refuses \
    'list: actions 0: it used `b`, and `p`, which makes it, has the state never (list: actions 1)' \
    '{"name":"q","used":[["i","b"]]},{"name":"p","state":"never","made":[["o","b"]]}'
check "a circle is refused" refuses 'list: actions 0: it uses what comes of what it makes: `q`, `p`' \
    '{"name":"p","used":[["i","c"]],"made":[["o","b"]]},{"name":"q","used":[["i","b"]],"made":[["o","c"]]}'
check "another state is refused" refuses 'list: actions 0: the state `lost` is none of done, cached, failed, never' '{"name":"p","state":"lost"}'
check "an action without a name is refused" refuses 'list: actions 0: `name` is no text' '{"tool":"p"}'
check "a use that is no pair is refused" refuses 'list: actions 0: `used` is no list of pairs of texts' '{"name":"p","used":["a"]}'
check "what is no JSON is refused" refuses 'list: line 1: no JSON: Expecting value' '{"name":'
check "what is no object is refused" refuses 'list: actions 0: no object' '7'

cp "$golden/samples.json" "$work/list"
keeps_its_table_apart() {
    local ended=0
    (cd "$work" && rm -f spec events && python3 "$importer" list spec events no/table 2>err) || ended=$?
    [ "$ended" = 2 ] && [ ! -e "$work/spec" ] && [ ! -e "$work/events" ]
}
check "where the table cannot be written nothing is" keeps_its_table_apart

given=(list) kept=list more=(new/table)
. checks/outputs.sh

check "${1:-80} random runs answer as a search in them does" python3 checks/actions.py "$program" "${1:-80}" "${2:-1}"
check "5,000 actions in samples that wait for one another are cut exactly" python3 checks/actions.py "$program" large
check "2,500 actions that are unlike are cut exactly" python3 checks/actions.py "$program" irregular
check "10,000 actions and 50,000 files, in samples that are unlike, are cut exactly in 30 seconds and 1 GB" python3 checks/actions.py "$program" samples
check "what cannot be cut exactly is refused, and coarse if asked for" python3 checks/actions.py "$program" barriers

finish
