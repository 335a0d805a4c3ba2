#!/usr/bin/env bash
# Checks of examples/cluster where no engine is installed: the parts of a run, done side by side by `xargs -P`, say what one `ask` says: text,
# message and status. Lines that are refused, files that are not there or change, names of all signs and a program that dies are tried too.
set -euo pipefail

cd "$(dirname "${BASH_SOURCE[0]}")/.."
. checks/count.sh
. checks/built.sh
export WFPROV=$program PYTHONDONTWRITEBYTECODE=1

cluster=examples/cluster
parts() { python3 $cluster/parts.py "$@"; }
side_by_side() { bash $cluster/xargs.sh "$@"; }
# A folder whose name has signs that shells and engines take for something else, and how messages show it.
folder=$work/$'-p "{x}\' $y\n%a'
shown="$work/-p \"{x}' \$y\\n%a"

# Keeps what one `ask` says of files.
one() {
    local ended=0
    "$program" ask "$@" >"$work/text" 2>"$work/said" </dev/null || ended=$?
    echo "$ended" >"$work/ended"
}

# Whether what is done in a folder says what was kept.
is_kept() {
    local ended=0
    parts tell "$1" >"$work/text_of_parts" 2>"$work/said_of_parts" || ended=$?
    [ "$ended" = "$(cat "$work/ended")" ] && cmp -s "$work/text" "$work/text_of_parts" && cmp -s "$work/said" "$work/said_of_parts"
}
differs() { ! is_kept "$folder"; }

# Whether a command ends with status 2 and this line.
complains() {
    local message=$1 ended=0
    "${@:2}" >"$work/out" 2>"$work/err" </dev/null || ended=$?
    [ "$ended" = 2 ] && [ ! -s "$work/out" ] && [ "$(cat "$work/err")" = "$message" ]
}

# A run, and 20,000 questions on its items, of which some ask for what is not there. Lines are empty here and there, or end with carriage returns.
spec=examples/phylogeny/spec view=examples/phylogeny/view labels=$work/labels queries=$work/queries
"$program" gen $spec 1000 1 >"$work/events"
"$program" ingest $spec "$work/events" >"$labels"
python3 - "$labels" >"$queries" <<'DRAW'
import random, sys
sys.path.insert(0, "tools")
import labels
names = [name.decode() for name, _ in labels.entries_of(open(sys.argv[1], "rb").read())] + ["-x.a", "_._", "n0.none"]
draw = random.Random(1)
for number in range(1, 20001):
    print(draw.choice(names), draw.choice(names), end="\n\n" if number % 1000 == 0 else "\r\n" if number % 7 == 0 else "\n")
DRAW
one $spec $view "$labels" "$queries"
parts cut "$folder" $spec $view "$labels" "$queries" 3000

in_memory() {
    python3 - "$folder/000000" "$(parts needs "$folder/000000")" <<'PEAK'
import resource, subprocess, sys
subprocess.run([sys.executable, "examples/cluster/parts.py", "answer", sys.argv[1]], check=True)
sys.exit(resource.getrusage(resource.RUSAGE_CHILDREN).ru_maxrss * 1024 > int(sys.argv[2].split()[0]) * 1_000_000)
PEAK
}
check "a job takes no more memory than its size tells" in_memory
whole() { side_by_side "$folder" 4 && parts join "$folder" && is_kept "$folder"; }
check "20,000 questions in parts are answered as by one \`ask\`" whole
check "each answer is among them" test "$(sort -u "$work/text" | tr '\n' ' ')" = "hidden no unknown yes "

# What is compared can differ.
cp "$folder/000002/answers" "$folder/000001/answers"
swapped() { parts join "$folder" && differs; }
check "the answers of another part are told apart" swapped
sed -i '$d' "$folder/000001/answers"
check "an answer that is missing is told" complains "parts.py: $shown/000001: 2996 answers to 2997 questions" parts join "$folder"
truncate -s -1 "$folder/000001/answers"
check "an answer that is not whole is told" complains "parts.py: $shown/000001/answers: the last answer is not whole" parts join "$folder"
rm "$folder"/00000[1-4]/told
check "parts that are not done are told" complains "parts.py: $shown: 4 of 7 parts are not done; the first of them is 000001" parts join "$folder"
twice() {
    side_by_side "$folder" 2 2>"$work/beside" &
    side_by_side "$folder" 2 2>"$work/rounds" && wait $! && [ ! -s "$work/beside" ] && [ ! -s "$work/rounds" ] && parts join "$folder" && is_kept "$folder"
}
check "parts that two engines do at one time are answered the same" twice

# A program that dies when it has written a part of its answers: the first time in each job, or each time.
cat >"$work/dies" <<'DIES'
#!/bin/sh
for last; do :; done
if [ "$last" != /dev/null ] && { [ "$DIES" = always ] || [ ! -e "$last.died" ]; }; then
    : >"$last.died"
    echo yes
    kill -9 $$
fi
exec "$PROGRAM" "$@"
DIES
chmod +x "$work/dies"
export PROGRAM=$program DIES=once
line=examples/line
{ cat $line/queries; echo 'r.a'; cat $line/queries; } >"$work/asked"
lines=$(grep -c '' $line/queries)
one $line/spec $line/view $line/labels "$work/asked"
begin() { rm -rf "$folder" && parts cut "$folder" $line/spec $line/view "$1" "$work/asked" "$lines"; }
begin $line/labels
dies_once() { WFPROV=$work/dies side_by_side "$folder" 2>"$work/rounds" && parts join "$folder" && is_kept "$folder"; }
check "a part whose program dies is done again, up to the line that is refused" dies_once
check "each of them died" test "$(grep -c 'wfprov ask: ended by signal 9' "$work/rounds")" = 3
begin $line/labels
dies_always() { DIES=always WFPROV=$work/dies side_by_side "$folder" 2>"$work/rounds" || [ $? = 2 ]; }
check "a program that dies each time ends the rounds" dies_always
check "with the jobs that are left" \
    test "$(tail -n 1 "$work/rounds")" = "xargs.sh: 3 jobs failed in each of three rounds; the first of them is 000000"
check "none of its answers is taken" test "$(ls -A "$folder"/00000*)" = "$(printf '%s:\nqueries\nqueries.died\n\n' "$folder"/00000*)"
no_program() { WFPROV=$work/absent parts cut "$work/other" $line/spec $line/view $line/labels $line/queries 2; }
check "a program that is not there is told" complains "parts.py: $work/absent: No such file or directory" no_program
check "what was cut in part is not taken" complains \
    "parts.py: $work/other: the questions are not cut to their end: remove the folder, and cut them once more" parts left "$work/other"

# A label file that changes while the parts are done, since its run goes on.
cp $line/labels "$work/grows"
begin "$work/grows"
parts answer "$folder/000000"
printf '\004i2.y\0\001\260' >>"$work/grows"
digest=$(sha256sum <"$work/grows")
check "a label file that changed is told" complains \
    "parts.py: $shown/labels: its SHA-256 is ${digest%% *}, and not $(cat "$folder/sha256"): it is another file, or has changed" parts answer "$folder/000001"
check "a part that was done before stays" test "$(parts left "$folder" | tr '\n' ' ')" = "000001 000002 "
pipe() { parts cut "$work/third" $line/spec $line/view /dev/fd/3 $line/queries 2 3< <(cat $line/labels); }
check "a pipe for the label file is told" complains "parts.py: /dev/fd/3: each part reads it, so it must be a regular file" pipe
check "a folder that has something in it is left alone" complains "parts.py: $line: there is something in it: the parts need a new folder, or an empty one" \
    parts cut $line $line/spec $line/view $line/labels $line/queries 2
check "parts of no lines are told" complains 'parts.py: call: LINES is a number from 1 to 4,000,000, and not `0`' \
    parts cut "$work/third" $line/spec $line/view $line/labels $line/queries 0

# Many runs, a job each, of one specification and one view. One run is refused.
runs=$work/runs
mkdir -p "$runs"/{first,second,third}
cp $line/spec $line/view "$runs"
cp $line/events $line/queries "$runs/first"
printf '{"start":"q"}\n' >"$runs/second/events"
printf 'q.a q.b\nq.a r.b\n' >"$runs/second/queries"
printf '{"start":"r"}\n{"start":"s"}\n' >"$runs/third/events"
cp $line/queries "$runs/third"
does_runs() { side_by_side "$runs" && cmp -s "$runs/first/labels" $line/labels; }
check "many runs are labelled and asked" does_runs
one $line/spec $line/view $line/labels $line/queries
check "the first has its answers" is_kept "$runs/first"
check "the second has others" test "$(parts tell "$runs/second" | tr '\n' ' ')" = "yes unknown "
check "what is wrong with the third is told" complains 'refused: events line 2: Conflict with 1' parts tell "$runs/third"
mkdir "$runs/odd name" && : >"$runs/odd name/queries"
check "a name that is none for a job is told" complains \
    "parts.py: $runs/odd name: the name of a job has letters, digits, \`_\`, \`-\` and \`.\`, and begins with none of the last two" parts left "$runs"

# Worked cases and random ones, in one process.
compares() {
    python3 checks/cluster.py "$program" 40 1 >"$work/cases" || { grep FAILED "$work/cases"; return 1; }
}
check "other questions and files, worked and at random, are answered or refused as by one \`ask\`" compares

finish
