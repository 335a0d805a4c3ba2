#!/usr/bin/env bash
# `ingest` puts the entries of the events that one late report sets free as it applies them: then it takes little more time and memory than for the same reports in order. And `drill` holds no list of the labels that it makes.
set -euo pipefail

cd "$(dirname "${BASH_SOURCE[0]}")/.."
. checks/count.sh
. checks/built.sh

# Makes the reports of a run of a specification, in order, with the start last, and reversed.
reports() {
    "$program" gen "$1" "$2" 1 >"$3.events"
    python3 checks/burst.py order last <"$3.events" >"$3.last"
    python3 checks/burst.py order reversed <"$3.events" >"$3.reversed"
}

python3 checks/burst.py wide >"$work/wide.spec"
reports "$work/wide.spec" 30000 "$work/wide"
for order in last reversed; do
    check "wide, $order: at most 1.5 times the time and 3 times the memory, and the same entries" \
        python3 checks/burst.py beside --seconds 1.5 --memory 3 "$program" "$work/wide.spec" "$work/wide.events" "$work/wide.$order"
done

for example in phylogeny twisting; do
    reports "examples/$example/spec" 30000 "$work/$example"
    for order in last reversed; do
        check "$example, $order: at most 3 times the memory, and the same entries" \
            python3 checks/burst.py beside --memory 3 "$program" "examples/$example/spec" "$work/$example.events" "$work/$example.$order"
    done
done

check "wide, drilled: at most 3 times the time and 1.5 times the memory of \`ingest\` over the same run" \
    python3 checks/burst.py drill --seconds 3 --memory 1.5 "$program" "$work/wide.spec" 30000

finish
