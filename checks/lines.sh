#!/usr/bin/env bash
# Prints, for each crate, its lines of code, tests, definitions and proofs, and the number of edits that must be refused, as rows of the table in docs/PROOFS.md. All of a crate of tests is counted as tests.
#   bash checks/lines.sh --write    puts the rows into the table
set -euo pipefail

cd "$(dirname "${BASH_SOURCE[0]}")/.."

lines() {
    find "$@" -print0 2>/dev/null | xargs -0 -r cat | wc -l
}

rows() {
    local crate folder code tests specs proofs edits
    for crate in $(sed -e 's/#.*//' crates.txt | awk -F: 'NF > 1 { split($1, word, " "); print word[1] }'); do
        folder=crates/$crate
        case $crate in
            wf_samples | *_trials)
                code=0
                tests=$(lines "$folder/src" -name '*.rt')
                ;;
            *)
                code=$(lines "$folder/src" -name '*.rt' ! -name '*tests.rt')
                tests=$(lines "$folder/src" -name '*tests.rt')
                ;;
        esac
        specs=$(lines "$folder/specs" -name '*.antt') || specs=0
        proofs=$(lines "$folder/proofs" -name '*.antt') || proofs=0
        edits=$(find "$folder/must-fail" -name '*.edit' 2>/dev/null | wc -l) || edits=0
        echo "| \`$crate\` | $code | $tests | $specs | $proofs | $edits |"
    done
}

if [ "${1:-}" != --write ]; then
    rows
    exit
fi
made=$(mktemp)
trap 'rm -f "$made"' EXIT
head='| Crate | Code | Tests | Definitions | Proofs | Edits that must be refused |'
{
    sed "/^$head\$/q" docs/PROOFS.md
    echo '|---|---|---|---|---|---|'
    rows
    sed "1,/^$head\$/d" docs/PROOFS.md | sed '1,/^$/{/^$/!d}'
} >"$made"
cat "$made" >docs/PROOFS.md
