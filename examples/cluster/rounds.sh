# shellcheck shell=bash
# Does the jobs of a folder in up to three rounds, so that one that failed is done again. It is read by the scripts that run jobs.
here=$(cd "$(dirname "${BASH_SOURCE[0]}")" && pwd -P)
parts=$here/parts.py

# Says what is wrong, and ends.
stop() {
    echo "$(basename "$0"): $1" >&2
    exit 2
}

# Does what is left of a folder by a command, which gets the names of jobs, one a line, and the number of the round.
rounds() {
    local number left
    for number in 1 2 3; do
        left=$(python3 "$parts" left "$1") || exit 2
        [ -n "$left" ] || return 0
        "$2" "$number" <<<"$left"
    done
    left=$(python3 "$parts" left "$1") || exit 2
    [ -z "$left" ] || stop "$(wc -l <<<"$left") jobs failed in each of three rounds; the first of them is ${left%%$'\n'*}"
}
