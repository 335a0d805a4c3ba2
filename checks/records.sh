#!/usr/bin/env bash
# Checks of the importers on records of real runs, which bench/engines.py kept: each is imported, and the answers of all pairs of its files, by
# item and by name, are compared with a search in the record and with what the files showed. No engine is needed.
set -euo pipefail

cd "$(dirname "${BASH_SOURCE[0]}")/.."
. checks/count.sh
. checks/built.sh

records=tools/golden/records

# Whether the records say nothing of the machine and the person that wrote them. The hosts in them are those of vocabularies.
says_nothing_of_the_machine() {
    local roots='home|root|tmp|var|usr|opt|mnt|srv|etc|work|data|scratch|Users|Volumes|private'
    ! grep -rqE "(^|[^A-Za-z0-9_.-])/($roots)/|file:/|localhost|[A-Za-z0-9._-]+@[A-Za-z0-9-]+\.[a-z]+" "$records" &&
        ! grep -rhoE '[a-z0-9]+://[^/"]*' "$records" | grep -qvxE 'http://schema\.org|https://w3id\.org'
}
check "the records say nothing of the machine that wrote them" says_nothing_of_the_machine

compared() { python3 checks/records.py "$1" "${@:2}" >"$work/told" 2>"$work/err"; }
for folder in "$records"/*/*; do
    compares() { compared "$program" "$folder" || ! cat "$work/told" "$work/err"; }
    check "${folder#"$records"/}: all pairs: $(cat "$folder/counts")" compares
done

# Whether answers that were turned are found, each kind in all three places where it is asked.
finds() {
    printf '#!/bin/sh\ncase $1 in ask | trace) %s "$@" | sed "s/^%s$/%s/" ;; *) exec %s "$@" ;; esac\n' "$program" "$1" "$2" "$program" >"$work/liar"
    chmod 755 "$work/liar"
    ! compared "$work/liar" "$records/snakemake/samples" && grep -q "^FAILED: snakemake/samples: \`$2\` is answered" "$work/told"
}
check "a yes that is turned to no is found" finds yes no
check "a no that is turned to yes is found" finds no yes
lacks_a_count() {
    cp -r "$records/snakemake/changed" "$work/changed" && echo 'yes 8 no 40 coarse 1' >"$work/changed/counts"
    ! compared "$program" "$work/changed" && grep -q 'changed: the counts are yes 8 no 41 coarse 0, and were yes 8 no 40 coarse 1$' "$work/told"
}
check "counts that are others are found" lacks_a_count

finish
