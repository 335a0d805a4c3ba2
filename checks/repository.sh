#!/usr/bin/env bash
# Checks of the repository itself: the file HANDLES, what is committed, and that each crate has edits that must be refused and is told of in the documents.
set -euo pipefail

cd "$(dirname "${BASH_SOURCE[0]}")/.."
. checks/count.sh

has_no_handles() {
    cmp -s HANDLES <(echo "Handles allowed: none.")
}

has_no_output() {
    local files
    files=$(git -c safe.directory='*' ls-files) || return 1
    ! grep -qE '(^|/)out/' <<<"$files"
}

crates() {
    sed -e 's/#.*//' crates.txt | awk -F: 'NF > 1 { split($1, word, " "); print word[1] }'
}

has_edits() {
    [ -n "$(find "crates/$1/must-fail" -name '*.edit' -print -quit 2>/dev/null)" ]
}

# The functions of wf_laws, label_model, verdict_model, decode_model, version_model, report_model, chain_model, compare_model, words_model, package_model and outcome_laws do nothing, so no edit of a body can change what they mean; and the last five crates are tests and what tests share.
has_edits_or_no_code() {
    case $1 in
        wf_laws | label_model | verdict_model | decode_model | version_model | report_model | chain_model | compare_model | words_model | package_model | outcome_laws | wf_samples | base_trials | grammar_trials | label_trials | run_trials) true ;;
        *) has_edits "$1" ;;
    esac
}

is_named_in() {
    grep -qE "\`$1\`" "$2"
}

is_a_folder() {
    [ -d "crates/$1/src" ]
}

# No statement is proved in two places, and no definition stands in two, but for those that checks/twice.py explains.
stands_once() {
    python3 checks/twice.py >/dev/null
}

check "HANDLES allows none" has_no_handles
check "each statement stands once" stands_once
check "the tables of definitions in docs/PROOFS.md are up to date" python3 checks/reading.py --check
check "the table of cited lemmas in docs/ARCHITECTURE.md is up to date" python3 checks/cited.py --check
check "what docs/LIBRARY.md quotes stands in the crates" python3 checks/quoted.py
check "the table of crates in docs/ARCHITECTURE.md names what each uses, and crates.txt no more" python3 checks/uses.py
check "nothing that rt makes is committed" has_no_output
for crate in $(crates); do
    check "$crate is there" is_a_folder "$crate"
    check "$crate has edits that must be refused" has_edits_or_no_code "$crate"
    check "$crate is named in docs/PROOFS.md" is_named_in "$crate" docs/PROOFS.md
    check "$crate is named in docs/ARCHITECTURE.md" is_named_in "$crate" docs/ARCHITECTURE.md
done

finish
