#!/usr/bin/env bash
# Compares `lineage`, `impact`, `explain` and `verify` with a plain search on small grammars at random, and checks that a program that says something else is found out.
# The words are how many grammars are tried, and from which seed; 1,000 and 1 where they are not given.
set -euo pipefail

cd "$(dirname "${BASH_SOURCE[0]}")/.."
. checks/stand_in.sh

check "on ${1:-1000} small grammars the commands say what a search finds" agrees_by checks/chains.py "$@"

# Whether it is found that such a program says something else, by these commands and no other.
finds() { finds_by checks/chains.py "$@"; }

check "it is found that \`lineage\` and \`impact\` are exchanged" finds "lineage impact" \
    'case $1 in lineage) shift && set -- impact "$@" ;; impact) shift && set -- lineage "$@" ;; esac'
check "it is found that \`lineage\` leaves out a line" finds lineage "$(changing lineage '$d')"
check "it is found that \`impact\` lists in another order" finds impact "$(changing impact '1!G;h;$!d')"
check "it is found that \`lineage\` calls unknown what is hidden" finds lineage "$(changing lineage 's/^hidden$/unknown/')"
check "it is found that \`explain\` ends before its end" finds explain "$(changing explain '4,$d')"
check "it is found that \`explain\` goes by other instances" finds explain "$(changing explain '2s/$/0/')"
check "it is found that \`verify\` takes every chain" finds verify "$(changing verify 's/^no .*/yes/')"
check "it is found that \`verify\` takes no chain" finds verify "$(changing verify 's/^yes/no 1/')"

finish
