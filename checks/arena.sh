#!/usr/bin/env bash
# Checks that a run cannot be used after its arena was reset: of two small crates, which differ in the order of two lines, the one that reads the run before the reset compiles and runs, and the one that reads it after the reset does not compile. Neither is proved.
set -euo pipefail

cd "$(dirname "${BASH_SOURCE[0]}")/.."
. checks/count.sh

work=$(mktemp -d)
trap 'rm -rf "$work"' EXIT

# A copy of the crates, with one more that stands above them.
git init -q "$work"
cp HANDLES "$work"
tar -c --exclude=out crates | tar -x -C "$work"
{ cat crates.txt; echo "arena_use: wf_model wf_spec wf_form wf_json wf_recur wf_run bumpalo"; } >"$work/crates.txt"
mkdir -p "$work/crates/arena_use/src"

# Compiles the crate with the code of a file and runs its test, and leaves what was told in the file told.
tries() {
    cp "checks/arena/$1" "$work/crates/arena_use/src/lib.rt"
    (cd "$work/crates/arena_use" && rt try --test) >"$work/told" 2>&1
}

runs() {
    tries in-order.txt && grep -q '1 passed; 0 failed' "$work/told"
}

is_refused_for_its_borrow() {
    if tries after-reset.txt; then
        return 1
    fi
    grep -q 'error\[borrow-e0502\]: cannot borrow `arena` as mutable' "$work/told"
}

check "a run that is read before its arena is reset compiles and runs" runs
check "a run that is read after its arena was reset does not compile" is_refused_for_its_borrow

finish
