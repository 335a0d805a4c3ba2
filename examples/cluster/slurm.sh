#!/usr/bin/env bash
# Does the jobs of a folder by Slurm, a task of an array each; a job that fails is done again, up to three times, and then with more memory and time.
#   bash slurm.sh FOLDER [WORKERS]    at most so many at a time
# The machines must share the folder, this one, and what it names. Words for sbatch, such as a partition, stand in SBATCH_ variables.
set -euo pipefail
. "$(dirname "${BASH_SOURCE[0]}")/rounds.sh"

[ $# -ge 1 ] && [ $# -le 2 ] || stop "the words are FOLDER [WORKERS]"
cd -- "$1" || exit 2
workers=${2:+%$2}

lists=$(mktemp -d -p "$PWD" .lists.XXXXXX)
trap 'rm -rf "$lists"' EXIT

# Whether tasks of an array wait or run. One that Slurm has forgotten does neither; where Slurm does not answer, they may.
is_there() {
    local told
    told=$(squeue --noheader --job "$1" 2>&1) || case $told in *'Invalid job id'*) return 1 ;; esac
    [ -n "$told" ]
}

# Waits for an array: looks when a tenth of the time has passed once more, but each second at first and each minute at last.
wait_for() {
    local begun=$SECONDS pause
    while is_there "$1"; do
        pause=$(((SECONDS - begun) / 10 + 1))
        sleep "$((pause < 60 ? pause : 60))"
    done
}

# Submits the jobs of a list, and waits for them. Each gets what the one that needs most needs, times the number of the round.
submit() {
    local list=$1 number=$2 megabytes minutes array
    read -r megabytes minutes < <(xargs python3 "$parts" needs <"$list")
    array=$(sbatch --parsable --array="1-$(wc -l <"$list")$workers" --mem="$((megabytes * number))M" --time="$((minutes * number))" \
        "$here/array.sbatch" "$parts" "$PWD" "$list") || stop "the jobs cannot be submitted"
    wait_for "${array%%;*}"
}

# An array has 1,000 tasks at most, since that is what a cluster takes where nothing else is set.
round() {
    local list job
    rm -f "$lists"/*
    split -l 1000 - "$lists/jobs."
    for list in "$lists"/jobs.*; do
        submit "$list" "$1"
    done
    cat "$lists"/jobs.* | while read -r job; do
        [ -e "$job/told" ] || tail -n 1 "$job/said" >&2
    done
}

rounds . round
