#!/usr/bin/env bash
# Tries the parts of a run on real engines, from installing to comparing: 1,000,000 questions by one `ask`, and by parts with 1, 2 and 4 workers.
#   bash try.sh [--small] [ENGINE ..]    ENGINE is xargs, snakemake or slurm; all three where none is given
#   --small  20,000 questions on a run of 1,000 expansions
# The variable TURNS says how often each figure is taken, once where it is not set; the least is printed.
# Each engine also has a job that is killed in the middle, a line that is refused, and six runs, a job each. All that it says must be what one
# `ask` says, to the byte; the script ends with 1 where something differs. It prints the figures as a table, and the conditions.
# It needs root and Debian's packages if an engine is not installed, and the program, built or named by WFPROV.
set -euo pipefail

here=$(cd "$(dirname "${BASH_SOURCE[0]}")" && pwd -P)
top=$(cd "$here/../.." && pwd -P)
export WFPROV=${WFPROV:-$top/crates/wfprov/out/wfprov} PATH=$PATH:/usr/sbin:/sbin
expansions=100000 questions=1000000 workers=(1 2 4)
case ${1:-} in
    --help)
        sed -n '2,8s/^# \{0,1\}//p' "${BASH_SOURCE[0]}"
        exit
        ;;
    --small)
        expansions=1000 questions=20000
        shift
        ;;
esac
[ $# -gt 0 ] || set -- xargs snakemake slurm
# Parts for two turns of four workers.
lines=$((questions / 8))

work=$(mktemp -d)
# munge asks that all may pass to its socket.
chmod 711 "$work"
leave() {
    [ ! -e "$work/cluster/slurm.conf" ] || bash "$here/nodes.sh" stop "$work/cluster"
    rm -rf "$work"
}
trap leave EXIT

failed=0
# Says how a comparison went.
tell() {
    if [ "$2" = 0 ]; then
        echo "same: $1"
    else
        failed=$((failed + 1))
        echo "OTHER: $1"
    fi
}

parts() { python3 "$here/parts.py" "$@"; }

# Installs what is missing of some commands and packages.
install() {
    command -v "$1" >/dev/null || { apt-get update -q && DEBIAN_FRONTEND=noninteractive apt-get install -qy --no-install-recommends "${@:2}"; }
}

prepare() {
    case $1 in
        xargs) ;;
        snakemake) install snakemake snakemake ;;
        slurm)
            install slurmctld slurm-wlm munge
            bash "$here/nodes.sh" start "$work/cluster"
            ;;
        *)
            echo "try.sh: $1: no engine; --help says what there is" >&2
            exit 2
            ;;
    esac
}

# Draws so many questions on the items of a label file, with a seed.
draw() {
    python3 - "$top/tools" "$@" <<'DRAW'
import random, sys
sys.path.insert(0, sys.argv[1])
import labels
names = [name.decode() for name, _ in labels.entries_of(open(sys.argv[2], "rb").read())]
draw = random.Random(int(sys.argv[4]))
sys.stdout.writelines(f"{draw.choice(names)} {draw.choice(names)}\n" for _ in range(int(sys.argv[3])))
DRAW
}

# Makes a run of a specification in a folder, with its questions.
make_run() {
    mkdir -p "$1"
    cp "$top/examples/$2/spec" "$1/spec"
    echo '{}' >"$1/view"
    "$WFPROV" gen "$1/spec" "$3" "$5" >"$1/events"
    "$WFPROV" ingest "$1/spec" "$1/events" >"$1/labels"
    draw "$1/labels" "$4" "$5" >"$1/queries"
}

# Keeps what one `ask` says of a run, beside its files: text, message and status.
one() {
    local ended=0
    "$WFPROV" ask "$1/spec" "$1/view" "$1/labels" "$1/queries" >"$1/text" 2>"$1/said" || ended=$?
    echo "$ended" >"$1/ended"
}

# Compares what is done in a folder with what was kept of a run.
compare() {
    local ended=0 differs=0
    parts tell "$2" >"$work/text" 2>"$work/said" || ended=$?
    [ "$ended" = "$(cat "$3/ended")" ] && cmp "$work/text" "$3/text" && cmp "$work/said" "$3/said" || differs=1
    tell "$1" "$differs"
}

# Answers the questions of a run in parts, in a folder, by an engine with so many workers.
by_engine() {
    local engine=$1 count=$2 run=$3 folder=$4
    rm -rf "$folder"
    if [ "$engine" = snakemake ]; then
        mkdir "$folder"
        snakemake -s "$here/Snakefile" -d "$folder" -j "$count" \
            --config spec="$run/spec" view="$run/view" labels="$run/labels" queries="$run/queries" lines="$lines" >"$work/$engine.log" 2>&1
        return
    fi
    parts cut "$folder/parts" "$run"/{spec,view,labels,queries} "$lines"
    SLURM_CONF=$work/cluster/slurm.conf bash "$here/$engine.sh" "$folder/parts" "$count" >"$work/$engine.log" 2>&1
    parts join "$folder/parts"
}

# Takes the time of a command some times, and adds the least to the table.
timed() {
    local turn begun
    for ((turn = 0; turn < ${TURNS:-1}; turn++)); do
        begun=$EPOCHREALTIME
        "${@:2}"
        echo "$begun $EPOCHREALTIME"
    done >"$work/times"
    awk -v what="$1" '{ taken = $2 - $1; if (NR == 1 || taken < least) least = taken } END { printf "| %s | %.1f s |\n", what, least }' \
        "$work/times" >>"$work/table"
}

# Times an engine with 1, 2 and 4 workers.
figures() {
    local count
    for count in "${workers[@]}"; do
        timed "parts, by $1, workers: $count" by_engine "$1" "$count" "$work/run" "$work/$1"
        compare "$1, workers: $count" "$work/$1/parts" "$work/run"
    done
}

# A program that stops in the middle of the answers of one part, the first time, and says who may kill it.
stopping() {
    cat >"$work/stops" <<'STOPS'
#!/bin/sh
for last; do :; done
case $last in
    */000002/queries)
        if mkdir "$STOPS" 2>/dev/null; then
            echo yes
            echo "$$ ${SLURM_ARRAY_JOB_ID:-}_${SLURM_ARRAY_TASK_ID:-}" >"$STOPS/begun" && mv "$STOPS/begun" "$STOPS/who"
            exec sleep 600
        fi
        ;;
esac
exec "$PROGRAM" "$@"
STOPS
    chmod +x "$work/stops"
}

# Kills the part that has stopped: by Slurm its task, and otherwise its program.
kills() {
    local process task tries
    for ((tries = 0; tries < 600; tries++)); do
        [ ! -e "$STOPS/who" ] || break
        sleep 0.5
    done
    read -r process task <"$STOPS/who"
    if [ "$1" = slurm ]; then
        SLURM_CONF=$work/cluster/slurm.conf scancel "$task"
    else
        kill -9 "$process"
    fi
}

# One job is killed in the middle of its answers.
killed() {
    export PROGRAM=$WFPROV STOPS=$work/stopped
    rm -rf "$STOPS"
    kills "$1" &
    WFPROV=$work/stops by_engine "$1" 4 "$work/run" "$work/$1"
    wait $!
    compare "$1, a job killed in the middle" "$work/$1/parts" "$work/run"
}

# A line in the middle is refused.
refused() {
    by_engine "$1" 4 "$work/refused" "$work/$1"
    compare "$1, a line that is refused: $(cat "$work/refused/said")" "$work/$1/parts" "$work/refused"
}

# Six runs, a job each, of which the first has no view of its own but that of the folder.
many() {
    local folder=$work/$1-runs run
    rm -rf "$folder" && mkdir "$folder" && echo '{}' >"$folder/view"
    for run in "$work"/runs/*; do
        mkdir "$folder/$(basename "$run")"
        cp "$run"/{spec,view,events,queries} "$folder/$(basename "$run")"
    done
    rm "$folder/run-1/view"
    if [ "$1" = snakemake ]; then
        snakemake -s "$here/Snakefile" -d "$folder" -j 4 >"$work/$1.log" 2>&1
    else
        SLURM_CONF=$work/cluster/slurm.conf bash "$here/$1.sh" "$folder" 4 >"$work/$1.log" 2>&1
    fi
    for run in "$work"/runs/*; do
        compare "$1, many runs, $(basename "$run")" "$folder/$(basename "$run")" "$run"
    done
}

# The most memory that a command held, in megabytes.
peak() {
    python3 -c 'import resource, subprocess, sys
subprocess.run(sys.argv[1:], stdout=subprocess.DEVNULL, check=True)
print(round(resource.getrusage(resource.RUSAGE_CHILDREN).ru_maxrss * 1024 / 1e6), "MB")' "$@"
}

make_run "$work/run" twisting "$expansions" "$questions" 1
for seed in 1 2 3 4 5 6; do
    make_run "$work/runs/run-$seed" phylogeny 500 2000 "$seed"
    one "$work/runs/run-$seed"
done
cp -r "$work/run" "$work/refused"
sed -i "$((questions / 2 + 7))s/.*/no question/" "$work/refused/queries"
one "$work/refused"
timed "one \`ask\`" one "$work/run"
stopping

for engine; do
    prepare "$engine"
    figures "$engine"
    killed "$engine"
    refused "$engine"
    many "$engine"
done

rm -rf "$work/parts"
parts cut "$work/parts" "$work/run"/{spec,view,labels,queries} "$lines"
echo "peak of one \`ask\`: $(peak "$WFPROV" ask "$work/run"/{spec,view,labels,queries})"
echo "peak of a part: $(peak python3 "$here/parts.py" answer "$work/parts/000000"); megabytes and minutes as told: $(parts needs "$work/parts/000000")"
echo "$questions questions in parts of $lines lines, on $(stat -c %s "$work/run/labels") bytes of labels"
echo "$(nproc) processors, load $(cut -d ' ' -f 1-3 /proc/loadavg)"
printf '| What | Time |\n|---|---:|\n'
cat "$work/table"
[ "$failed" = 0 ]
