#!/usr/bin/env bash
# Checks of tools/from_rocrate.py: crates of the three profiles, of which the answers were worked out by hand; crates that are refused; and
# random ones. And checks of tools/to_rocrate.py: runs that become crates and are read back.
# The words are how many random crates and runs are tried, and from which seed; 60 and 1 where they are not given.
set -euo pipefail

cd "$(dirname "${BASH_SOURCE[0]}")/.."
. checks/count.sh
. checks/built.sh

golden=$PWD/tools/golden/rocrate
importer=$PWD/tools/from_rocrate.py
export WFPROV=$program
echo '{}' >"$work/view"

imports() {
    rm -f "$work/spec" "$work/events" "$work/table"
    python3 "$importer" "$1" "$work/spec" "$work/events" "$work/table" >"$work/out" 2>"$work/err" && [ ! -s "$work/out" ] &&
        "$program" view "$work/spec" "$work/view" >"$work/shown" && "$program" ingest "$work/spec" "$work/events" >"$work/labels"
}
# Whether the questions on files, each line of which ends with its answer, are answered so, by labels and by the run.
answers() {
    cut -f1,2 "$golden/$1.questions" >"$work/questions"
    python3 tools/files.py ask "$work/spec" "$work/view" "$work/labels" "$work/table" "$work/questions" | cmp -s - <(cut -f3 "$golden/$1.questions") &&
        python3 tools/files.py --trace ask "$work/spec" "$work/view" "$work/events" "$work/table" "$work/questions" |
        cmp -s - <(cut -f3 "$golden/$1.questions")
}
# Whether the import said this, line by line.
said() { sed "s|^from_rocrate.py: $golden/[a-z]*/ro-crate-metadata.json: ||" "$work/err" | cmp -s - <([ $# = 0 ] || printf '%s\n' "$@"); }
made() { python3 tools/files.py made "$work/table" "$1" | cmp -s - <(printf '%s\n' "${@:2}"); }
is_not_there() {
    ! python3 tools/files.py lineage "$work/spec" "$work/view" "$work/labels" "$work/table" "$1" >"$work/out" 2>"$work/err" &&
        [ "$(cat "$work/err")" = "files.py: $work/table: $2" ]
}

check "a Process Run Crate is imported" imports "$golden/process"
check "nothing of it is coarse" said
check "it answers as by hand" answers process
check "files are found by a container" made docker.io/montage/montage:7.1 thumbs/ thumbs/1.jpg thumbs/2.jpg
check "an action that failed made nothing" is_not_there 'Make a poster' 'the action `Make a poster` has the state failed, and made no file'
check "a Workflow Run Crate is imported" imports "$golden/workflow"
check "nothing of it is coarse" said
check "it answers as by hand" answers workflow
check "a Provenance Run Crate is imported" imports "$golden/provenance"
check "what is coarse of it is told" said \
    'da39a3ee5e6b4b0d3255bfef95601890afd80709: 2 files of this content are one in the record: who read one is taken to have read all' \
    '#run: no step made `#note`: it is taken to rest on all that the workflow read and its steps made'
check "it answers as by hand" answers provenance
check "a file of a name of two is told" is_not_there log.txt '`log.txt` means 2 files: `da39a3ee5e6b4b0d3255bfef95601890afd80709 of #trim-1` (log.txt), `da39a3ee5e6b4b0d3255bfef95601890afd80709 of #trim-2` (log.txt)'

# Changes a copy of a crate by a script of sed, and tries whether it is refused with this message behind the path.
refuses() {
    local ended=0
    rm -rf "$work/run" "$work/spec" && cp -r "$golden/$1" "$work/run"
    sed -i -e "$2" "$work/run/ro-crate-metadata.json"
    (cd "$work" && python3 "$importer" run spec events table >out 2>err) || ended=$?
    [ "$ended" = 2 ] && [ ! -s "$work/out" ] && [ "$(cat "$work/err")" = "from_rocrate.py: run/ro-crate-metadata.json: $3" ] && [ ! -e "$work/spec" ]
}
check "what is no JSON is refused" refuses process '1s/{/[/' "line 1: no JSON: Expecting ',' delimiter"
check "what has no graph is refused" refuses process 's/"@graph"/"graph"/' 'no RO-Crate: it has no list `@graph`'
check "an entity without an id is refused" refuses process 's/"@id": "#width", "@type"/"@type"/' '@graph 12: the entity has no `@id`'
check "an entity that is there twice is refused" refuses process 's/"@id": "#pager", "@type"/"@id": "#montage", "@type"/' '#montage: the entity is there twice'
check "a crate without actions is refused" refuses process 's/CreateAction/Action/' 'there is no CreateAction in it'
check "an action without a tool is refused" refuses process 's/"instrument": {"@id": "#pager"},//' '#page: the action has no `instrument`, which is its tool'
check "an action that has not ended is refused" refuses process 's/FailedActionStatus/ActiveActionStatus/' \
    '#broken: `actionStatus` is none of CompletedActionStatus, FailedActionStatus and PotentialActionStatus'
check "an object that is no reference is refused" refuses process 's/"object": \[{"@id": "thumbs\/"}\]/"object": "thumbs"/' \
    '#page: `object` has something that is no reference such as {"@id":".."}'
check "an object that is not there is refused" refuses process 's/"object": \[{"@id": "thumbs\/"}\]/"object": {"@id": "thumb"}/' \
    '#page: `object` leads to `thumb`, which is no entity of the record'
check "a member that is not there is refused" refuses workflow 's/"@id": "outputs\/cat.txt", /"@id": "outputs\/dog.txt", /' \
    '#wfrun: `result` leads to `outputs/cat.txt`, which is no entity of the record'
check "a file of two actions is refused" refuses process 's/"result": {"@id": "pics\/small_fence.jpg"}/"result": {"@id": "pics\/sepia_fence.jpg"}/' \
    '#small: it made `pics/sepia_fence.jpg`, and so did `Convert to sepia` (run/ro-crate-metadata.json: #sepia)'
check "a file of an action that failed is refused where it is used" refuses process 's/"object": \[{"@id": "thumbs\/"}\]/"object": {"@id": "poster.jpg"}/' \
    '#page: it used `poster.jpg`, and `Make a poster`, which makes it, has the state failed (run/ro-crate-metadata.json: #broken)'
check "actions in a circle are refused" refuses process '/"@id": "#small", "@type"/,/result/s/"object": \[/&{"@id": "page.html"}, /' \
    '#small: it uses what comes of what it makes: `Make thumbs`, `Write the page`, `Make small`'
check "a file that is changed and has one name is refused" refuses process '/"@id": "#page"/s/CreateAction/UpdateAction/; s/"result": \[{"@id": "page.html"}\]/"result": {"@id": "thumbs\/"}/' \
    '#page: an UpdateAction must have other files in `result` than in `object`: what it changed has one name for both'
check "a file that the workflow did not get is refused" refuses provenance 's/{"@id": "#reads"}, {"@id": "#reverse"}/{"@id": "#reads"}/' \
    '#merge: it used `#reverse`, which no action made, and which the workflow did not get'
check "an action of two steps is refused" refuses provenance 's/"object": {"@id": "#trim-2"}/"object": {"@id": "#trim-1"}/' \
    '#trim-1: it belongs to two steps, by `#control-trim-1` and `#control-trim-2`'
check "a step of no action is refused" refuses provenance 's/"object": {"@id": "#trim-2"}/"object": {"@id": "#trim-3"}/' \
    '#control-trim-2: `object` leads to `#trim-3`, which is no action of the record'
check "a step action without a step is refused" refuses provenance '/"@id": "#control-plot", "@type"/s/"instrument": {[^}]*}, //' \
    '#control-plot: the `instrument` of a ControlAction must be one step'
check "an engine that ran nothing is refused" refuses provenance 's/"result": {"@id": "#run"}/"result": {"@id": "#runs"}/' \
    '#organize: the `result` of an OrganizeAction must be one action, that of a workflow'
check "a step of two runs is refused" refuses provenance 's/{"@id": "#control-trim-2"}, /{"@id": "#control-trim-1"}, /' \
    '#control-trim-1: it belongs to the runs `#each-1` and `#each-2`'
check "a workflow in itself is refused" refuses provenance 's/{"@id": "#control-trim-2"}, /{"@id": "#control-trim-2"}, {"@id": "#control-each"}, /; s/{"@id": "#control-each"}, {"@id": "#control-merge"}/{"@id": "#control-merge"}/' \
    '#each-2: the runs around it stand in a circle'
check "a result of a step that failed is refused" refuses provenance 's/{"@id": "#note"}\]/{"@id": "plot.png"}]/' \
    '#run: it gave out `plot.png`, and `plot`, which makes it, has the state failed'
check "files of one content in a circle are refused" refuses provenance '/"@id": "#trim-2", "@type"/,/result/s/"object": {[^}]*}/"object": {"@id": "da39a3ee5e6b4b0d3255bfef95601890afd80709"}/' \
    'da39a3ee5e6b4b0d3255bfef95601890afd80709: all files of this content are one in the record, and an action would read what comes of what it makes: `trim 2` makes it, and `trim 2` reads it'

says() {
    local ended=0
    python3 "$importer" "${@:2}" >"$work/out" 2>"$work/err" || ended=$?
    [ "$ended" = 2 ] && [ ! -s "$work/out" ] && [ "$(cat "$work/err")" = "from_rocrate.py: $1" ]
}
check "a folder without a crate is refused" says "$work/ro-crate-metadata.json: No such file or directory" "$work" "$work/spec" "$work/events" "$work/table"
check "other words are refused" says 'call: the words are [--coarse] CRATE SPEC EVENTS TABLE; see --help' "$golden/process"
takes_the_file() {
    imports "$golden/process" && cp "$work/table" "$work/before" && imports "$golden/process/ro-crate-metadata.json" && cmp -s "$work/table" "$work/before"
}
check "the file of a crate is taken" takes_the_file
keeps_the_record() {
    rm -rf "$work/run" && cp -r "$golden/process" "$work/run"
    says "$work/run/ro-crate-metadata.json: it is a file that is read, and is not written over" "$work/run" "$work/spec" "$work/run/ro-crate-metadata.json" \
        "$work/table" && cmp -s "$work/run/ro-crate-metadata.json" "$golden/process/ro-crate-metadata.json"
}
check "the record is not written over" keeps_the_record
check "signs that a terminal obeys are escaped" refuses process 's/"object": \[{"@id": "thumbs\/"}\]/"object": {"@id": "\\u001b[2J"}/' \
    '#page: `object` leads to `\x1b[2J`, which is no entity of the record'

cp "$golden/process/ro-crate-metadata.json" "$work/crate.json"
given=(crate.json) kept=crate.json more=(new/table)
. checks/outputs.sh

cases=${1:-60}
check "$cases random runs answer as what was noted when their files were made" python3 checks/from_rocrate.py "$program" "$cases" "${2:-1}"

writer=$PWD/tools/to_rocrate.py
exports() { "$program" export "examples/$1/spec" "examples/$1/view" "examples/$1/events" >"$work/export"; }
goes_back() {
    exports phylogeny && python3 "$writer" "$work/export" >"$work/crate" && python3 "$writer" <"$work/export" | cmp -s - "$work/crate" &&
        imports "$work/crate" && [ ! -s "$work/err" ] && paste examples/phylogeny/queries examples/phylogeny/answers | tr ' ' '\t' |
        grep -E '(yes|no)$' >"$work/wanted" && cut -f1,2 "$work/wanted" >"$work/questions" &&
        python3 tools/files.py ask "$work/spec" "$work/view" "$work/labels" "$work/table" "$work/questions" | cmp -s - <(cut -f3 "$work/wanted")
}
check "the phylogeny becomes a crate, and files of the names of its items that are shown get its answers" goes_back
# Whether lines are refused by the writer with this message.
writes_not() {
    local ended=0
    python3 "$writer" "${@:2}" <"$work/export" >"$work/out" 2>"$work/err" || ended=$?
    [ "$ended" = 2 ] && [ ! -s "$work/out" ] && [ "$(cat "$work/err")" = "to_rocrate.py: $1" ]
}
exports pair
check "a run that is not finished becomes no crate" writes_not 'pending m1: it was not expanded, and a crate tells what was done'
printf 'leaf a A\nitem a.x\nitem b.x\nlink a.x b.x\n' >"$work/export"
check "a link from item to item is refused" writes_not 'item b.x: links lead from it to the item `a.x`, and no instance stands between'
printf 'leaf a A\nlink a.x b.x\n' >"$work/export"
check "a port without an item is refused" writes_not 'link of a.x: no item goes through this port'
printf 'leaf a A\nitem a.x\n' >"$work/export"
check "an item that nothing took or made is refused" writes_not 'item a.x: the lines do not tell what took or made it'
: >"$work/export"
check "a run in which nothing was done becomes no crate" writes_not 'lines: there is no instance in them, and so nothing that was done'
printf 'leef a A\n' >"$work/export"
check "what is no export is refused" writes_not 'line 1: neither `leaf`, `pending`, `item` nor `link` with its names'
check "more words are refused" writes_not 'at most one FILE; see --help' one two
check "the examples and $cases random runs get the same answers after the way back" python3 checks/to_rocrate.py "$program" "$cases" "${2:-1}"

finish
