#!/usr/bin/env bash
# Checks of tools/from_cwlprov.py: records of runs of cwltool, of which the answers on files were worked out by hand from the document, the
# inputs and the record; records and documents that are refused; and random ones.
# The words are how many random records are tried, and from which seed; 100 and 1 where they are not given.
set -euo pipefail

cd "$(dirname "${BASH_SOURCE[0]}")/.."
. checks/count.sh
. checks/built.sh

golden=$PWD/tools/golden/from_cwlprov
importer=$PWD/tools/from_cwlprov.py
export WFPROV=$program
echo '{}' >"$work/view"

imports() {
    rm -f "$work/spec" "$work/events" "$work/table"
    python3 "$importer" "$golden/$1" "$work/spec" "$work/events" "$work/table" >"$work/out" 2>"$work/err" && [ ! -s "$work/out" ] &&
        "$program" view "$work/spec" "$work/view" >"$work/shown" && "$program" ingest "$work/spec" "$work/events" >"$work/labels"
}

# Whether the questions on files, each line of which ends with its answer, are answered so, by labels and by the run.
answers() {
    cut -f1,2 "$golden/$1.questions" >"$work/questions"
    python3 tools/files.py ask "$work/spec" "$work/view" "$work/labels" "$work/table" "$work/questions" | cmp -s - <(cut -f3 "$golden/$1.questions") &&
        python3 tools/files.py --trace ask "$work/spec" "$work/view" "$work/events" "$work/table" "$work/questions" |
        cmp -s - <(cut -f3 "$golden/$1.questions")
}

# Whether the import said this, line by line, of steps of the document.
said() { sed "s|^from_cwlprov.py: $golden/[a-z]*/workflow/packed.cwl: ||" "$work/err" | cmp -s - <([ $# = 0 ] || printf '%s\n' "$@"); }

all='it is taken to have read all that may come to it'
check "two scattered steps, one behind the other, are imported" imports chained
check "nothing of them is coarse" said
check "their elements stay apart" answers chained
check "a scattered workflow, a skipped step and expressions are imported" imports nested
check "what is coarse is told" said "#main/pick: the record does not say what this ExpressionTool read: $all" \
    "#main/count: the record does not say what this ExpressionTool read: $all"
check "they answer as by hand" answers nested
is_not_there() {
    ! python3 tools/files.py lineage "$work/spec" "$work/view" "$work/labels" "$work/table" "$1" >"$work/out" 2>"$work/err" &&
        [ "$(cat "$work/err")" = "files.py: $work/table: \`$1\` is no file, checksum or action" ]
}
check "a step that was skipped is not there" is_not_there opt
check "other forms of scatter, an empty one, a folder and computed inputs are imported" imports forms
check "what is coarse of them is told" said '#main/mkdir: what came to `name` was computed: all that may come there is taken' \
    '#main/use: several values that may come to `n` have one content: each of them is taken'
check "they answer as by hand" answers forms
check "an empty array is nothing" is_not_there none
check "what a scatter over it made is nothing" is_not_there empty
check "a failed run with a scatter in a scatter is imported" imports failed
check "it answers as by hand" answers failed
check "a step that did not come to be run is not there" is_not_there third
made() { python3 tools/files.py made "$work/table" "$1" | cmp -s - <(printf '%s\n' "${@:2}"); }
check "files are found by a container" made busybox:1.36 merged.txt merged.txt
check "files are found by a package and its version" made 'coreutils 9.1' merged.txt merged.txt
check "a run from a cache is imported" imports cached
check "it answers as by hand" answers cached

# Changes a copy of a record by a script of sed on one of its files, and tries whether it is refused with this message.
refuses() {
    local ended=0
    rm -rf "$work/run" "$work/spec" && cp -r "$golden/$1" "$work/run"
    sed -i -e "$3" "$work/run/$2"
    (cd "$work" && python3 "$importer" run spec events table >out 2>err) || ended=$?
    [ "$ended" = 2 ] && [ ! -s "$work/out" ] && [ "$(cat "$work/err")" = "from_cwlprov.py: $4" ] && [ ! -e "$work/spec" ]
}
primary=metadata/provenance/primary.cwlprov.json document=workflow/packed.cwl
entity() { python3 - "$golden/$1/$primary" "$2" "$3" <<'END'
import json, sys
made = json.load(open(sys.argv[1]))[sys.argv[2]]
print(next(entry["prov:entity"] + " " + entry["prov:activity"] for entry in made.values() if entry["prov:role"]["$"] == sys.argv[3]))
END
}
read -r sorted_1 sort_1 <<<"$(entity chained wasGeneratedBy wf:main/sort/sorted)"
read -r _ count_1 <<<"$(entity chained used wf:main/count/sorted)"
read -r plain_1 _ <<<"$(entity chained used wf:main/sort/plain)"
check "a document by which a file comes from elsewhere is refused" refuses chained $document 's|"#main/sort/sorted",|"#main/reads",|' \
    "run/$primary: $count_1: it used \`$sorted_1\` in the role \`sorted\`, which $sort_1 made, and run/$document: #main/count/sorted lets it come from elsewhere"
check "a document by which an input of the run comes from elsewhere is refused" refuses chained $document 's|"source": "#main/reads",|"source": "#main/ref",|' \
    "run/$primary: $sort_1: it used \`$plain_1\` in the role \`plain\`, and nothing that run/$document: #main/sort/plain lets come there has its content"
check "an execution of no step is refused" refuses chained $primary 's|wf:main/sort"|wf:main/srt"|' \
    "run/$primary: $sort_1: the execution \`srt\` is one of no step of run/$document: #main"
check "an input that the tool does not have is refused" refuses chained $primary 's|wf:main/sort/plain"|wf:main/sort/plian"|' \
    "run/$primary: $sort_1: it used something in the role \`plian\`, and run/$document: #main/sort/run has no such input"
check "an output that the tool does not have is refused" refuses chained $primary 's|wf:main/sort/sorted"|wf:main/sort/sroted"|' \
    "run/$primary: $sort_1: it made something in the role \`sroted\`, and run/$document: #main/sort/run has no such output"
check "a source that is not there is refused" refuses chained $document 's|"#main/sort/sorted",|"#main/srt/sorted",|' \
    "run/$document: #main: the source \`#main/srt/sorted\` is neither an input nor an output of a step"
check "a step that runs nothing of the document is refused" refuses nested $document 's|"run": "#sort"|"run": "#sorts"|' \
    "run/$document: #one/sort: it runs \`sorts\`, which is not in the document"
check "a document without a workflow is refused" refuses chained $document 's/"class": "Workflow"/"class": "Flow"/' "run/$document: the document has no workflow"
check "a document that is no JSON is refused" refuses chained $document '1s/{/[/' "run/$document: line 2: no JSON: Expecting ',' delimiter"
check "a record that is no object is refused" refuses chained $primary 's/.*/7/' "run/$primary: no JSON object"
check "a record without executions is refused" refuses chained $primary 's/"activity":/"actvity":/' "run/$primary: no file of CWLProv: it has no \`activity\`"
check "a record without a run is refused" refuses chained $primary 's/wfprov:WorkflowRun/wfprov:Run/' "run/$primary: it has no execution of a workflow"
lacks_a_file() {
    rm -rf "$work/run" && cp -r "$golden/nested" "$work/run"
    local name ended=0
    name=$(cd "$work/run/metadata/provenance" && ls workflow_20each_2.*) && rm "$work/run/metadata/provenance/$name"
    (cd "$work" && python3 "$importer" run spec events table >out 2>err) || ended=$?
    [ "$ended" = 2 ] && [ "$(cat "$work/err")" = "from_cwlprov.py: run/metadata/provenance/$name: No such file or directory" ]
}
check "a file of a nested workflow that is missing is refused" lacks_a_file
says() {
    local ended=0
    python3 "$importer" "${@:2}" >"$work/out" 2>"$work/err" || ended=$?
    [ "$ended" = 2 ] && [ ! -s "$work/out" ] && [ "$(cat "$work/err")" = "from_cwlprov.py: $1" ]
}
check "a primary file without a document is refused" says \
    'call: a file of CWLProv alone does not say what its steps may read: --workflow must name the packed document' \
    "$golden/chained/$primary" "$work/spec" "$work/events" "$work/table"
takes_the_file() {
    imports chained && cp "$work/table" "$work/before" &&
        python3 "$importer" --workflow "$golden/chained/$document" "$golden/chained/$primary" "$work/spec" "$work/events" "$work/table" &&
        cmp -s "$work/table" "$work/before"
}
check "a primary file with a document is taken" takes_the_file
check "other words are refused" says 'call: the words are [--coarse] [--workflow DOCUMENT] FOLDER SPEC EVENTS TABLE; see --help' "$golden/chained"
keeps_the_record() {
    rm -rf "$work/run" && cp -r "$golden/chained" "$work/run"
    says "$work/run/$document: it is a file that is read, and is not written over" "$work/run" "$work/spec" "$work/run/$document" "$work/table" &&
        cmp -s "$work/run/$document" "$golden/chained/$document"
}
check "the record is not written over" keeps_the_record

rm -rf "$work/run" && cp -r "$golden/chained" "$work/run"
given=(run) kept=run/$document more=(new/table)
. checks/outputs.sh

cases=${1:-100}
check "$cases random runs answer as what was noted when their files were made" python3 checks/from_cwlprov.py "$program" "$cases" "${2:-1}"

finish
