#!/usr/bin/env bash
# Checks of tools/from_nextflow.py: pipelines and manifests of which the answers were worked out by hand, records that are refused, and random ones.
# The words are how many random pipelines are tried, and from which seed; 500 and 1 where they are not given. A fifth as many manifests are tried.
set -euo pipefail

cd "$(dirname "${BASH_SOURCE[0]}")/.."
. checks/count.sh
. checks/built.sh

golden=tools/golden/from_nextflow
tool=$PWD/tools/from_nextflow.py
export WFPROV=$program
echo '{}' >"$work/view"

# Imports a trace and a DAG, with an assumption or without.
imports() {
    rm -f "$work/spec" "$work/events" "$work/table"
    python3 "$tool" "${@:3}" "$golden/$1.trace" "$golden/$2" "$work/spec" "$work/events" "$work/table" >"$work/out" 2>"$work/err" || return 1
    [ ! -s "$work/out" ] && "$program" view "$work/spec" "$work/view" >"$work/shown" && "$program" ingest "$work/spec" "$work/events" >"$work/labels"
}

# Whether the questions of a pipeline are answered as in this column of their file, by labels and by the run.
answers() {
    cut -f1,2 "$golden/$1.questions" >"$work/questions"
    python3 tools/files.py ask "$work/spec" "$work/view" "$work/labels" "$work/table" "$work/questions" | cmp -s - <(cut -f"$2" "$golden/$1.questions") &&
        python3 tools/files.py --trace ask "$work/spec" "$work/view" "$work/events" "$work/table" "$work/questions" |
        cmp -s - <(cut -f"$2" "$golden/$1.questions")
}

# Whether the import said this on standard error, in these lines and no others.
said() { cmp -s "$work/err" <([ $# = 0 ] || printf 'from_nextflow.py: %s\n' "$@"); }

for pair in mapping/mapping.dot mapping/mapping.mmd mapping/mapping.html mapping-newer/mapping-newer.mmd multiqc/multiqc.mmd phylogeny/phylogeny.dot \
    calling/calling.dot states/states.mmd; do
    check "the pipeline of ${pair#*/} is imported" imports "${pair%/*}" "${pair#*/}"
    check "it answers as by hand where nothing is assumed" answers "${pair%/*}" 3
    check "it is imported by tags" imports "${pair%/*}" "${pair#*/}" --assume tags-pair
    check "it answers as by hand where tags pair" answers "${pair%/*}" 4
done
is_the_example() {
    imports mapping mapping.dot --assume tags-pair || return 1
    for file in spec events table labels; do
        cmp -s "$work/$file" "examples/mapping-nextflow/$file" || return 1
    done
}
check "examples/mapping-nextflow is what the tool writes" is_the_example
all='each of its tasks is taken to have read all that the tasks of'
says_what_is_coarse() {
    imports mapping mapping.dot && said "ALIGN: $all \`TRIM\` gave" "SORT: $all \`ALIGN\` gave" &&
        imports mapping mapping.dot --assume tags-pair && said
}
check "what is coarse is told by process, and is none where tags pair" says_what_is_coarse
says_states() {
    imports states states.mmd --assume tags-pair && said 'STORED: the trace has no task of it: it is taken to have handed on all that came to it' \
        "MULTIQC: $all \`A:TRIM\` gave" "MULTIQC: $all \`A:ALIGN\` gave"
}
check "a process without tasks is told" says_states
has_states() { [ "$(awk -F'\t' '$1 == "action" && $5 != "done" { printf "%s=%s;", $2, $5 }' "$work/table")" = "$1" ]; }
check "the table has cached, failed and unfinished tasks" has_states \
    'A:TRIM (s1)=cached;A:TRIM (s2) failed=failed;A:TRIM (s3) failed=failed;LATE (1) failed=failed;LATE (2) never=never;'
made() { python3 tools/files.py made "$work/table" "$1" | cmp -s - <(printf '%s\n' "${@:2}"); }
check "results are found by a container" made trimmer:0.39 'A:TRIM (s1)/trimmed' 'A:TRIM (s1)/log' 'A:TRIM (s2)/trimmed' 'A:TRIM (s2)/log'
check "workflows around processes are modules" grep -q '"A"' "$work/spec"

# The manifest of nf-prov, which says which task read and made which file.
imports_manifest() {
    rm -f "$work/spec" "$work/events" "$work/table"
    python3 "$tool" "${@:2}" "$1" "$work/spec" "$work/events" "$work/table" >"$work/out" 2>"$work/err" && [ ! -s "$work/out" ] &&
        "$program" view "$work/spec" "$work/view" >"$work/shown" && "$program" ingest "$work/spec" "$work/events" >"$work/labels"
}
before='it is taken to rest on all that earlier tasks read and made'
made_it="NF:MULTIQC: an operator made \`/home/lab/work/tmp/1f/00c0ffee/versions.yml\`: $before"
check "a manifest of nf-prov is imported" imports_manifest "$golden/manifest.json"
check "what is coarse of it is told" said "NF:TRIM: what it got is no file: $before" "NF:ALIGN: what it got is no file: $before" "$made_it" \
    "NF:PLOT: what it got is no file: $before"
check "it answers as by hand where nothing is assumed" answers manifest 3
check "it is imported with equal values" imports_manifest "$golden/manifest.json" --assume values-equal
check "what is coarse of it is told" said "$made_it"
check "it answers as by hand where values are equal" answers manifest 4
check "a cached task of it is one" has_states 'NF:PREPARE:INDEX (ref.fa)=cached;'
check "its files are found by a process" made NF:ALIGN /home/lab/results/bam/liver.bam /home/lab/work/c0/030000000000000000000000000000/qc \
    /home/lab/work/c0/030000000000000000000000000000/qc/depth.txt /home/lab/results/bam/brain.bam /home/lab/work/c1/030000000000000000000000000000/qc \
    /home/lab/work/c2/030000000000000000000000000000/heart.bam /home/lab/work/c2/030000000000000000000000000000/qc
check "one with paths in maps and texts, and a file of an operator beside the results, is imported" imports_manifest "$golden/operators.json"
check "it answers as by hand where nothing is assumed" answers operators 3
check "it is imported with equal values" imports_manifest "$golden/operators.json" --assume values-equal
check "what is coarse of it is told" said "REPORT: an operator made \`/home/lab/out/info/versions.yml\`: $before" \
    'NOTE: several earlier tasks gave what it got: it is taken to rest on each of them'
check "it answers as by hand where values are equal" answers operators 4
takes_a_crate() {
    imports_manifest tools/golden/rocrate/process && cp "$work/table" "$work/before" &&
        python3 tools/from_rocrate.py tools/golden/rocrate/process "$work/spec" "$work/events" "$work/table" && cmp -s "$work/table" "$work/before"
}
check "a crate is read as tools/from_rocrate.py reads it" takes_a_crate

# Changes the manifest by a script of sed, or writes another text, and tries whether it is refused with this message.
manifest_is() {
    local ended=0
    rm -f "$work/spec" && (cd "$work" && python3 "$tool" manifest spec events table >out 2>err) || ended=$?
    [ "$ended" = 2 ] && [ ! -s "$work/out" ] && [ ! -e "$work/spec" ] && [ "$(cat "$work/err")" = "from_nextflow.py: manifest: $1" ]
}
manifest_with() { sed -e "$1" "$golden/manifest.json" >"$work/manifest" && manifest_is "$2"; }
manifest_of() { printf '%s' "$1" >"$work/manifest" && manifest_is "$2"; }
check "a manifest that is no JSON is refused" manifest_with '1s/{/[/' "line 2: no JSON: Expecting ',' delimiter"
check "a manifest that is no object is refused" manifest_of '[7]' 'no JSON object'
check "what is no manifest is refused" manifest_with 's/"tasks"/"tusks"/' \
    'this is neither a manifest of nf-prov, which has `tasks`, nor an RO-Crate, which has `@graph`'
check "a manifest without a task is refused" manifest_of '{"tasks":{}}' '`tasks` is neither a map nor a list of tasks, or there is none'
check "a task that is no object is refused" manifest_of '{"tasks":{"1":7}}' 'task 1: no object'
check "a task without a process is refused" manifest_of '{"tasks":{"2":{"id":"2","name":"A (x)","inputs":[],"outputs":[]}}}' 'task 2: it has no `process`'
check "a task whose number is none is refused" manifest_with 's/"3": {/"three": {/' 'task three: the id of a task is no number'
check "inputs that are no list are refused" manifest_with '0,/"inputs": \[/s/"inputs": \[/"inputs": {}, "other": [/' 'task 1: `inputs` is no list'
check "an output that is no object is refused" manifest_of '{"tasks":{"2":{"name":"A (x)","process":"A","inputs":[],"outputs":["/a"]}}}' \
    'task 2: `outputs` has an entry that is no object'
check "a file of two tasks is refused" manifest_with 's|c1/030000000000000000000000000000/brain.bam|c0/030000000000000000000000000000/liver.bam|' \
    'task 6: it made `/home/lab/work/c0/030000000000000000000000000000/liver.bam`, and so did task 5'
check "a published file without its place is refused" manifest_with '0,/"target"/s/"target"/"goal"/' '`published` has an entry without a `source` and a `target`'
check "published files that are no list are refused" manifest_of '{"tasks":{"1":{}},"published":{"a":1}}' '`published` is no list'
check "a published place of several files is refused where it is read" manifest_with 's|results/bam/brain.bam|results/bam/liver.bam|; s|"/conf/multiqc.yml"|"/home/lab/results/bam/liver.bam"|' \
    'task 8: it read `/home/lab/results/bam/liver.bam`, and several files were published there: `/home/lab/work/c0/030000000000000000000000000000/liver.bam`, `/home/lab/work/c1/030000000000000000000000000000/brain.bam`'
check "two tasks of one id are refused" manifest_of '{"tasks":[{"id":"2","name":"A","process":"A","inputs":[],"outputs":[]},{"id":2,"name":"B","process":"B","inputs":[],"outputs":[]}]}' \
    'task 2: another task has its id'
check "tasks in a circle are refused" manifest_of '{"tasks":{"1":{"name":"A","process":"A","inputs":[{"value":"/b"}],"outputs":[{"value":"/a"}]},"2":{"name":"B","process":"B","inputs":[{"value":"/a"}],"outputs":[{"value":"/b"}]}}}' \
    'task 1: it uses what comes of what it makes: `B`, `A`'

# Begins a pair that is to be refused: the files of the mapping pipeline, with the DAG in this form.
begin() {
    cp "$golden/mapping.trace" "$work/trace"
    cp "$golden/mapping.$1" "$work/dag"
    rm -f "$work/spec" "$work/events" "$work/table"
}

# Whether the tool refuses the pair with this message, and writes nothing.
refuses() {
    local ended=0
    (cd "$work" && python3 "$tool" trace dag spec events table >out 2>err) || ended=$?
    [ "$ended" = 2 ] && [ ! -s "$work/out" ] && [ ! -e "$work/spec" ] && [ ! -e "$work/events" ] && [ "$(cat "$work/err")" = "from_nextflow.py: $1" ]
}

# Changes the trace, or the DAG in DOT or in Mermaid, by a script of sed.
trace_with() { begin dot && sed -i -e "$1" "$work/trace" && refuses "$2"; }
dot_with() { begin dot && sed -i -e "$1" "$work/dag" && refuses "$2"; }
mermaid_with() { begin mmd && sed -i -e "$1" "$work/dag" && refuses "$2"; }

check "a process that the DAG lacks is told" trace_with '12s/SORT/COUNT/' 'trace line 12: the DAG has no process `COUNT`'
check "an unknown status is told" trace_with 9s/COMPLETED/LOST/ 'trace line 9: the status `LOST` is none of a task'
check "a line with a field less is told" trace_with '5s/\t[^\t]*$//' 'trace line 5: the line has 13 fields, and the header 14'
check "a header without the status is told" trace_with 1s/status/state/ 'trace line 1: the header of a trace has a column `status`, and this has none'
check "a header with a column twice is told" trace_with 1s/hash/name/ 'trace line 1: the column `name` stands twice'
check "a task without a closing parenthesis is told" trace_with '3s/liver_1)/liver_1/' \
    'trace line 3: `TRIM (liver_1` is no name of a task, as `PROCESS` or `PROCESS (TAG)`'
check "an empty trace is told" trace_with 1,12d 'trace line 1: the header of a trace has a column `name`, and this has none'
check "a trace that is no text is told" trace_with '7s/kidney/\xff/' 'trace line 7: the text is not UTF-8'
check "a cycle is told" dot_with '/^}/i p6 -> p4;' 'dag line 39: the edge from `p6` to `p4` is on a cycle'
check "a line that is none of DOT is told" dot_with '2s/.*/subgraph cluster_0 {/' 'dag line 2: `subgraph cluster_0 {` is no line of DOT that Nextflow writes'
check "another shape of DOT is told" dot_with '8s/circle/box/' 'dag line 8: `p3` has the shape `box`, which is none of a process, an operator or an end'
check "a vertex of two kinds is told" dot_with '11s/"map"/"collect"/' 'dag line 11: `p3` is another vertex than before (dag line 8)'
check "DOT that breaks off is told" dot_with '/^}/d' 'dag line 37: the last line of DOT is not `}`'
check "a line that is none of Mermaid is told" mermaid_with '$a classDef big' \
    'dag line 21: `classDef big` is no line of Mermaid in the older form that Nextflow writes'
check "the newer form in the older one is told" mermaid_with '2i subgraph MAPPING' \
    'dag line 2: `subgraph MAPPING` is no line of Mermaid in the older form that Nextflow writes'
check "an edge to no vertex is told" mermaid_with '$a p4 --> p77' 'dag line 21: `p77` is no vertex of the DAG'
check "an operator without an input is told" mermaid_with 13d 'dag line 5: the operator `p3` has no input'
check "an end with two edges is told" mermaid_with '$a p5 --> p7' 'dag line 9: `p7` is an end that nothing reads, and 2 edges lead to it'
check "a process that stands twice is told" mermaid_with '8s/SORT/ALIGN/' 'dag line 8: the process `ALIGN` stands twice in the DAG, and before on dag line 7'
check "a DAG of another form is told" mermaid_with '1s/.*/<gexf>/' 'dag line 1: a DAG begins with `digraph` (DOT) or `flowchart` (Mermaid), and this does not'
check "a DAG without a process is told" mermaid_with '2,$d' 'dag line 1: the DAG has no process'

# A task that failed, and none of its name was completed.
takes_a_failure() {
    rm -f "$work/spec" "$work/events" "$work/table"
    printf '%s\n' 'flowchart TD' 'p1[A]' >"$work/dag"
    printf 'process\tname\tstatus\nA\tA (x)\tFAILED\nA\tA (y)\tCOMPLETED\n' >"$work/trace"
    (cd "$work" && python3 "$tool" trace dag spec events table) && [ "$(cut -f2,5 "$work/table" | sed -n '2,3p')" = $'A (x) failed\tfailed\nA (y)\tdone' ]
}
check "a task that failed for good is taken as one that failed" takes_a_failure
check "control characters are shown as escapes" trace_with "2s/COMPLETED/\x1b[31mred/" \
    'trace line 2: the status `\x1b[31mred` is none of a task'

# A trace whose columns tell another process than the name.
refuses_columns() {
    begin dot
    sed -e '4s/\tCALL\t/\tFILTER\t/' "$golden/calling.trace" >"$work/trace"
    refuses 'trace line 4: the task `CALL (22)` is not one of the process `FILTER` that its line tells'
}
check "a process that is not that of the name is told" refuses_columns

# A pipeline of many processes, each of which reads what the one before made, with names of more than 64 characters.
many_processes() {
    { printf 'name\tstatus\n'; for ((i = 1; i <= $1; i++)); do for sample in a b c; do printf 'NFCORE_LONGNAME:SUBWORKFLOW_NUMBER_ONE:A_PROCESS_WITH_A_VERY_LONG_NAME_%s (%s)\tCOMPLETED\n' "$i" "$sample"; done; done; } >"$work/trace"
    { echo 'flowchart TD'; for ((i = 1; i <= $1; i++)); do echo "p$i[NFCORE_LONGNAME:SUBWORKFLOW_NUMBER_ONE:A_PROCESS_WITH_A_VERY_LONG_NAME_$i]"; done
      for ((i = 1; i < $1; i++)); do echo "p$i -->|bam| p$((i + 1))"; done; } >"$work/dag"
}
takes_processes() {
    many_processes 100 && (cd "$work" && python3 "$tool" --assume tags-pair trace dag spec events table) &&
        "$program" ingest "$work/spec" "$work/events" >"$work/labels" || return 1
    local name=NFCORE_LONGNAME:SUBWORKFLOW_NUMBER_ONE:A_PROCESS_WITH_A_VERY_LONG_NAME_
    printf '%s\t%s\n' "${name}1 (a)" "${name}100 (a)" "${name}1 (a)" "${name}100 (b)" "${name}99 (c)" "${name}100 (c)" "${name}100 (a)" "${name}1 (a)" >"$work/questions"
    python3 tools/files.py ask "$work/spec" "$work/view" "$work/labels" "$work/table" "$work/questions" | cmp -s - <(printf '%s\n' yes no yes no)
}
check "100 processes of long names and 300 tasks are taken" takes_processes

echo '<html><body>cytoscape</body></html>' >"$work/page"
# Whether the tool ends with status 2 and this message on these words.
says() {
    local ended=0
    python3 "$tool" "${@:2}" >"$work/out" 2>"$work/err" || ended=$?
    [ "$ended" = 2 ] && [ ! -s "$work/out" ] && [ "$(cat "$work/err")" = "from_nextflow.py: $1" ]
}
check "a file that is not there is told" says "$work/absent: No such file or directory" "$work/absent" "$golden/mapping.dot" "$work/spec" "$work/events" "$work/table"
check "a file that cannot be written is told" says "$work/no/spec: No such file or directory" "$golden/mapping.trace" "$golden/mapping.dot" "$work/no/spec" "$work/events" "$work/table"
usage='call: the words are [--assume tags-pair] [--coarse] TRACE DAG SPEC EVENTS TABLE, or [--assume values-equal] [--coarse] MANIFEST SPEC EVENTS TABLE; see --help'
check "other words are told" says "$usage" "$golden/mapping.trace"
check "another assumption is told" says 'call: `names-pair` is no assumption; `tags-pair` and `values-equal` are' --assume names-pair
check "an assumption on a manifest is none on a trace" says "$usage" --assume values-equal "$golden/mapping.trace" "$golden/mapping.dot" "$work/spec" "$work/events" "$work/table"
check "an assumption on a manifest is none on a crate" says 'call: `values-equal` is an assumption on a manifest, and this is an RO-Crate' \
    --assume values-equal tools/golden/rocrate/process "$work/spec" "$work/events" "$work/table"
keeps_the_manifest() {
    cp "$golden/manifest.json" "$work/manifest"
    says "$work/manifest: it is a file that is read, and is not written over" "$work/manifest" "$work/spec" "$work/manifest" "$work/table" &&
        cmp -s "$work/manifest" "$golden/manifest.json"
}
check "the manifest is not written over" keeps_the_manifest
check "HTML without Mermaid is told" says "$work/page: the HTML has no Mermaid in it, as newer releases of Nextflow write it" \
    "$golden/mapping.trace" "$work/page" "$work/spec" "$work/events" "$work/table"
check "the tool tells how coarse an answer is" grep -q 'How coarse an answer is' <(python3 "$tool" --help)

begin dot
importer=$tool given=(--assume tags-pair trace dag) kept=dag more=(new/table)
. checks/outputs.sh

check "random pipelines are answered as a search in their tasks answers" python3 checks/from_nextflow.py "$program" "${1:-500}" "${2:-1}"
cases=$((${1:-500} / 5))
check "$cases random manifests answer as what was noted when their files were made" python3 checks/nextflow_manifest.py "$program" "$cases" "${2:-1}"

finish
