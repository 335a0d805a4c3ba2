#!/usr/bin/env bash
# Checks of tools/from_snakemake.py: what Snakemake recorded of two runs, of which the answers were worked out by hand from their rules;
# records that are refused; and random ones.
# The words are how many random records are tried, and from which seed; 100 and 1 where they are not given.
set -euo pipefail

cd "$(dirname "${BASH_SOURCE[0]}")/.."
. checks/count.sh
. checks/built.sh

golden=tools/golden/from_snakemake
importer=$PWD/tools/from_snakemake.py
export WFPROV=$program
echo '{}' >"$work/view"

imports() {
    rm -f "$work/spec" "$work/events" "$work/table"
    python3 "$importer" "$1" "$work/spec" "$work/events" "$work/table" >"$work/out" 2>"$work/err" && [ ! -s "$work/out" ] &&
        "$program" view "$work/spec" "$work/view" >"$work/shown" && "$program" ingest "$work/spec" "$work/events" >"$work/labels"
}
answers() {
    cut -f1,2 "$golden/$1.questions" >"$work/questions"
    python3 tools/files.py ask "$work/spec" "$work/view" "$work/labels" "$work/table" "$work/questions" | cmp -s - <(cut -f3 "$golden/$1.questions") &&
        python3 tools/files.py --trace ask "$work/spec" "$work/view" "$work/events" "$work/table" "$work/questions" |
        cmp -s - <(cut -f3 "$golden/$1.questions")
}
is_silent() { [ ! -s "$work/err" ]; }

check "samples that wait for one job are imported" imports "$golden/samples"
check "nothing of them is coarse" is_silent
check "they answer as by hand" answers samples
check "a checkpoint, a folder, a log and a long name are imported" imports "$golden/checkpoint"
check "nothing of them is coarse" is_silent
check "they answer as by hand" answers checkpoint
made() { python3 tools/files.py made "$work/table" "$1" | cmp -s - <(printf '%s\n' "${@:2}"); }
check "files are found by a container" made docker://busybox:1.36 out/parts logs/split.log out/parts/paa.txt out/parts/pab.txt out/parts/pac.txt

# The path of the record of a file, below a folder.
record() { printf '%s' ".snakemake/metadata/$(printf '%s' "$1" | base64 -w0 | tr '+/' '-_')"; }

# Changes a copy of a run by a script of sed on the record of one file, and tries whether it is refused with this message.
refuses() {
    local ended=0
    rm -rf "$work/run" "$work/spec" && cp -r "$golden/$1" "$work/run"
    sed -i -e "$3" "$work/run/$(record "$2")"
    (cd "$work" && python3 "$importer" run spec events table >out 2>err) || ended=$?
    [ "$ended" = 2 ] && [ ! -s "$work/out" ] && [ "$(cat "$work/err")" = "from_snakemake.py: $4" ] && [ ! -e "$work/spec" ]
}
# Adds a file to a copy of a run, and tries whether it is refused with this message.
refuses_file() {
    local ended=0
    rm -rf "$work/run" "$work/spec" && cp -r "$golden/samples" "$work/run"
    printf '%s' "$2" >"$work/run/.snakemake/metadata/$1"
    (cd "$work" && python3 "$importer" run spec events table >out 2>err) || ended=$?
    [ "$ended" = 2 ] && [ "$(cat "$work/err")" = "from_snakemake.py: $3" ] && [ ! -e "$work/spec" ]
}
bam=run/$(record out/a.bam) joint=run/$(record out/joint.txt) final=run/$(record out/a.final)
check "two contents of one file are refused" refuses samples out/a.final 's/6b4394b1[0-9a-f]*/0000/' \
    "$joint: it read \`out/a.bam\` with the checksum $(grep -o '6b4394b1[0-9a-f]*' "$golden/samples/$(record out/joint.txt)"), and another job with 0000 ($final)"
check "a file of a job that failed is refused where it is read" refuses samples out/a.bam 's/"incomplete": false/"incomplete": true/' \
    "$final: it used \`out/a.bam\`, and \`align out/a.bam\`, which makes it, has the state failed ($bam)"
takes_a_failure() {
    rm -rf "$work/run" && cp -r "$golden/samples" "$work/run" && sed -i 's/"incomplete": false/"incomplete": true/' "$work/run/$(record out/report.txt)"
    imports "$work/run" && ! grep -q '^value.*report.txt' "$work/table" && grep -q '^action	report out/report.txt		report	failed	' "$work/table"
}
check "a file of a job that failed is not there" takes_a_failure
check "a record without a rule is refused" refuses samples out/a.bam 's/"rule"/"role"/' "$bam: no record of Snakemake: it has no \`rule\`"
check "a record that is no JSON is refused" refuses samples out/a.bam 's/{/[/' "$bam: no JSON: Expecting ',' delimiter: line 1 column 11 (char 10)"
check "inputs that are no list are refused" refuses samples out/a.bam 's/"input": \[[^]]*\]/"input": 7/' "$bam: \`input\` is no list of paths"
check "a file that reads itself is refused" refuses samples out/a.bam 's|"data/ref.fa", |"out/a.bam", |' "$bam: it uses what comes of what it makes: \`align out/a.bam\`"
check "jobs in a circle are refused" refuses samples out/joint.txt 's|"out/a.bam", |"out/a.final", |' \
    "$final: it uses what comes of what it makes: \`joint out/joint.txt\`, \`final out/a.final\`"
check "a name that is no base64 is refused" refuses_file 'a.b' '{}' 'run/.snakemake/metadata/a.b: the name of the record is no base64 of a path'
check "a name that is no text is refused" refuses_file '_w==' '{}' 'run/.snakemake/metadata/_w==: the name of the record is no base64 of a path'
check "a log of two jobs is refused" refuses checkpoint out/paa.up 's|"log": \[\]|"log": ["logs/split.log"]|' \
    "run/$(record out/parts): its log \`logs/split.log\` was made by another job too (run/$(record out/paa.up))"
tells_an_older_one() {
    rm -rf "$work/run" && cp -r "$golden/samples" "$work/run" && sed -i 's/"starttime": [0-9.]*/"starttime": 5.0/' "$work/run/$(record out/joint.txt)"
    imports "$work/run" && [ "$(wc -l <"$work/err")" = 3 ] &&
        grep -q "^from_snakemake.py: $work/$joint: the job began before \`out/a.bam\`, which it read, was made: it read an older one$" "$work/err"
}
check "a job that read an older file is told" tells_an_older_one
says() {
    local ended=0
    python3 "$importer" "${@:2}" >"$work/out" 2>"$work/err" || ended=$?
    [ "$ended" = 2 ] && [ ! -s "$work/out" ] && [ "$(cat "$work/err")" = "from_snakemake.py: $1" ]
}
check "a folder in which nothing ran is refused" says "$work/.snakemake/metadata: No such file or directory" "$work" "$work/spec" "$work/events" "$work/table"
mkdir -p "$work/empty/.snakemake/metadata"
check "a run without a record is refused" says "$work/empty/.snakemake/metadata: there is no record of a file" "$work/empty" "$work/spec" "$work/events" "$work/table"
check "other words are refused" says 'call: the words are [--coarse] FOLDER SPEC EVENTS TABLE; see --help' "$golden/samples"
keeps_the_record() {
    rm -rf "$work/run" && cp -r "$golden/samples" "$work/run"
    says "$work/$bam: it is a file that is read, and is not written over" "$work/run" "$work/spec" "$work/$bam" "$work/table" &&
        cmp -s "$work/$bam" "$golden/samples/$(record out/a.bam)"
}
check "the record is not written over" keeps_the_record

rm -rf "$work/run" && cp -r "$golden/samples" "$work/run"
given=(run) kept=$bam more=(new/table)
. checks/outputs.sh

cases=${1:-100}
check "$cases random runs answer as what was noted when their files were made" python3 checks/from_snakemake.py "$program" "$cases" "${2:-1}"

finish
