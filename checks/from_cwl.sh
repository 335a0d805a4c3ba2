#!/usr/bin/env bash
# Checks of tools/from_cwl.py: what it makes of documents and records, what the program says of that, and what the tool refuses.
set -euo pipefail

cd "$(dirname "${BASH_SOURCE[0]}")/.."
. checks/count.sh
. checks/built.sh

golden=tools/golden/from_cwl
echo '{}' >"$work/view"

# Imports a document and a record of a folder.
imports() {
    rm -f "$work/spec" "$work/events"
    python3 tools/from_cwl.py "$1" --run "$2" "$work/spec" "$work/events" >"$work/out" 2>"$work/err" &&
        [ ! -s "$work/out" ] && [ ! -s "$work/err" ]
}

# Whether the imported files are those that are kept.
is_kept() {
    cmp -s "$work/spec" "$golden/$1/spec" && cmp -s "$work/events" "$golden/$1/events"
}

# Whether the program takes the specification and the default view of it.
is_taken() {
    "$program" check "$work/spec" >"$work/shown" 2>&1 && "$program" view "$work/spec" "$work/view" >"$work/shown" 2>&1
}

# Whether the program answers the queries of a folder as was worked out by hand, from the run and from its labels.
answers() {
    "$program" ingest "$work/spec" "$work/events" >"$work/labels" || return 1
    "$program" trace "$work/spec" "$work/view" "$work/events" "$golden/$1/queries" | cmp -s - "$golden/$1/answers" &&
        "$program" ask "$work/spec" "$work/view" "$work/labels" "$golden/$1/queries" | cmp -s - "$golden/$1/answers"
}

for name in mapping nested phylogeny; do
    check "$name is imported" imports "$golden/$name/workflow.json" "$golden/$name/record.json"
    check "$name gives the files that are kept" is_kept "$name"
    check "$name is taken, and its default view is safe" is_taken
    check "$name answers as by hand" answers "$name"
done

# Whether the phylogeny, written as CWL, is that of the examples: its canonical text, its events and its labels, byte for byte.
is_the_example() {
    "$program" check "$work/spec" | cmp -s - examples/phylogeny-once/check && cmp -s "$work/events" examples/phylogeny-once/events &&
        cmp -s "$work/labels" examples/phylogeny-once/labels && cmp -s "$golden/phylogeny/answers" examples/phylogeny-once/answers
}
check "the phylogeny is the one of the examples" is_the_example

# A document as cwltool packs it, and the files of CWLProv that cwltool wrote of a run of it, of which some members are kept.
check "a document and a run of cwltool are imported" \
    imports "$golden/cwlprov/workflow/packed.cwl" "$golden/cwlprov/metadata/provenance/primary.cwlprov.json"
check "they give the files that are kept" is_kept cwlprov
check "they are taken, and the default view is safe" is_taken
check "they answer as by hand" answers cwlprov

# A record of cwltool with all of its members, and another document that it contradicts.
linear=tools/golden/from_cwlprov/linear
check "a record that its document allows is imported" imports "$linear/workflow/packed.cwl" "$linear/metadata/provenance/primary.cwlprov.json"
contradicts() {
    local made
    sed 's|"source": "#main/order/sorted"|"source": "#main/again/sorted"|' "$linear/workflow/packed.cwl" >"$work/other"
    ! cmp -s "$work/other" "$linear/workflow/packed.cwl" || return 1
    ! python3 tools/from_cwl.py "$work/other" --run "$linear/metadata/provenance/primary.cwlprov.json" "$work/spec" "$work/events" 2>"$work/err" || return 1
    grep -q "^from_cwl.py: $linear/metadata/provenance/primary.cwlprov.json: id:[^ ]*: it used \`id:[^ ]*\` in the role \`left\`, which id:[^ ]* made, and document: #main/join/left lets it come from elsewhere$" "$work/err"
}
check "a record of another document is refused with both places" contradicts

writes_spec_alone() {
    rm -f "$work/spec"
    python3 tools/from_cwl.py "$golden/mapping/workflow.json" "$work/spec" && cmp -s "$work/spec" "$golden/mapping/spec"
}
check "without a record the specification is written" writes_spec_alone

# Whether the tool refuses these words with this message, and writes nothing.
refuses() {
    local message=$1 ended=0
    shift
    rm -f "$work/spec" "$work/events"
    python3 tools/from_cwl.py "$@" >"$work/out" 2>"$work/err" || ended=$?
    [ "$ended" = 2 ] && [ ! -s "$work/out" ] && [ "$(cat "$work/err")" = "from_cwl.py: $message" ] &&
        [ ! -e "$work/spec" ] && [ ! -e "$work/events" ]
}

while read -r name message; do
    check "the document $name is refused with its place" refuses "$message" "$golden/wrong/$name.json" "$work/spec"
done <"$golden/wrong/told"
while read -r name message; do
    check "the record $name is refused with its place" \
        refuses "$message" "$golden/mapping/workflow.json" --run "$golden/wrong-records/$name.json" "$work/spec" "$work/events"
done <"$golden/wrong-records/told"

# Whether a document at a limit is imported and taken.
fits() {
    python3 "$golden/wide.py" "$1" "$2" >"$work/wide"
    python3 tools/from_cwl.py "$work/wide" "$work/spec" && is_taken
}

# Whether one that is over it is refused.
exceeds() {
    python3 "$golden/wide.py" "$1" "$2" >"$work/wide"
    refuses "$3" "$work/wide" "$work/spec"
}
check "64 readers of a value are taken" fits readers 64
check "65 are refused" exceeds readers 65 '#main/w: it has 65 readers, and at most 64 are allowed'
check "64 sources of an input are taken" fits sources 64
check "65 are refused" exceeds sources 65 '#main/a/x: it has 65 sources, and at most 64 are allowed'
check "64 positions of a body are taken" fits positions 64
check "65 are refused" exceeds positions 65 \
    '#main: the body has 65 positions, the modules that copy, gather and close among them, and at most 64 are allowed'
check "60 ports are taken" fits ports 60
check "65 are refused" exceeds ports 65 '#main: it has 65 inputs, and at most 64 are allowed'
check "15 bodies of 64 positions are taken" fits bodies 15
check "16 and one around them are refused" exceeds bodies 16 \
    "document: it needs 65792 as the sum of the squares of the bodies' lengths, and at most 65536 are allowed"
check "1,024 modules are taken" fits modules 31
check "1,057 are refused" exceeds modules 32 'document: it needs 1057 modules, and at most 1024 are allowed'
check "a thousand workflows, each inside another, are taken" fits deep 1000

# Whether the result of the last of 2,000 elements rests on its own element, and not on the first.
keeps_elements_apart() {
    python3 "$golden/wide.py" scatter 0 >"$work/wide"
    python3 "$golden/wide.py" elements 2000 >"$work/record"
    imports "$work/wide" "$work/record" || return 1
    printf '%s\n' 's-split-0.item s1999.y' 's-split-1999.item s1999.y' 'r.w s1999.y' 'r.v s1999.y' 's0.y s1999.y' \
        's0.y r.e' 's1999.y r.e' >"$work/queries"
    "$program" ingest "$work/spec" "$work/events" >"$work/labels" || return 1
    printf '%s\n' no yes yes yes no yes yes >"$work/answers"
    "$program" ask "$work/spec" "$work/view" "$work/labels" "$work/queries" | cmp -s - "$work/answers"
}
check "the elements of a long array are kept apart" keeps_elements_apart

python3 "$golden/wide.py" elements 0 >"$work/record"
takes_none() {
    imports "$work/wide" "$work/record" && "$program" ingest "$work/spec" "$work/events" >"$work/labels"
}
check "an array without elements is taken" takes_none

check "a file that is not there is told" refuses "$work/absent: No such file or directory" "$work/absent" "$work/spec"
printf '\xff' >"$work/bytes"
check "bytes that are no text are told" refuses "$work/bytes: the text is not UTF-8" "$work/bytes" "$work/spec"
check "a record without its file is told" refuses 'call: the words are WORKFLOW SPEC, or WORKFLOW --run RECORD SPEC EVENTS; see --help' \
    "$work/wide" --run "$work/record" "$work/spec"
check "an unknown option is told" refuses 'call: `--trace` is no option; see --help' "$work/wide" --trace "$work/spec"
python3 tools/from_cwl.py --help >"$work/help"
check "the tool tells how it is called" grep -q 'WORKFLOW --run RECORD SPEC EVENTS' "$work/help"

printf '{"cwlVersion":"v1.0\\u001b[31m"}' >"$work/wrong"
check "control characters are shown as escapes" refuses \
    'document: cwlVersion is `v1.0\x1b[31m`, and not one of v1.0, v1.1, v1.2' "$work/wrong" "$work/spec"
cp "$golden/mapping/workflow.json" "$golden/mapping/record.json" "$work"
more=()
importer=$PWD/tools/from_cwl.py given=(workflow.json --run record.json) kept=record.json
. checks/outputs.sh
given=(workflow.json --run "$PWD/$golden/cwlprov/metadata/provenance/primary.cwlprov.json")
keeps_the_document() {
    kept=workflow.json && cp "$golden/cwlprov/workflow/packed.cwl" "$work/workflow.json" && keeps_what_it_reads
}
check "no output is written over the document" keeps_the_document

# Random workflows: each answer is compared with reachability in the workflow, and the counts are printed.
cases=${CASES:-1000}
check "$cases random workflows answer as reachability in them does" python3 "$golden/property.py" "$program" "$cases"

finish
