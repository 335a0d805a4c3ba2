#!/usr/bin/env bash
# Makes the pictures of docs/pictures: what `export` writes of examples, specifications, labels, an automaton and crates, drawn by Graphviz.
#   bash tools/pictures.sh [FOLDER]           writes them to FOLDER, and to docs/pictures where none is given
#   bash tools/pictures.sh --page [FOLDER]    writes page.png alone, by Chromium: a page for a reviewer, up to its answers
#   bash tools/pictures.sh --browse [FOLDER]  writes browse.png alone, by Chromium: the page of browse.py after two clicks
set -euo pipefail

page=
case ${1:-} in
    --help)
        sed -n '2,5s/^# \{0,1\}//p' "${BASH_SOURCE[0]}"
        exit
        ;;
    --page | --browse)
        page=$1
        shift
        ;;
    -*)
        echo "pictures.sh: $1: no such option; --help says what there is" >&2
        exit 2
        ;;
esac

cd "$(dirname "${BASH_SOURCE[0]}")/.."
folder=${1:-docs/pictures}
program=crates/wfprov/out/wfprov
[ -x "$program" ] || program=./wfprov
mkdir -p "$folder"

# Writes a picture of the page at an address, of so many pixels.
photograph() {
    chromium --headless --no-sandbox --disable-gpu --hide-scrollbars --window-size="$3" --screenshot="$folder/$1" "$2" 2>/dev/null
}

if [ -n "$page" ]; then
    command -v chromium >/dev/null || { echo "pictures.sh: Chromium is not installed" >&2; exit 2; }
    work=$(mktemp -d)
    trap 'rm -rf "$work"' EXIT
    phylogeny=examples/phylogeny
fi

# The page of the three questions of the README. Below its answers stand the digests of the files, which are others for each build.
if [ "$page" = --page ]; then
    python3 tools/page.py $phylogeny/spec $phylogeny/outer $phylogeny/events $phylogeny/asked >"$work/page.html"
    photograph page.png "file://$work/page.html" 1000,2085
    exit
fi

# The page of browse.py with the first of these questions.
if [ "$page" = --browse ]; then
    WFPROV=$program python3 tools/browse.py $phylogeny/spec $phylogeny/events $phylogeny/outer $phylogeny/view >"$work/address" </dev/null &
    served=$!
    trap 'kill "$served"; rm -rf "$work"' EXIT
    until [ -s "$work/address" ]; do
        kill -0 "$served"
        sleep 0.1
    done
    photograph browse.png "$(cat "$work/address")?first=run.cfg&second=run.report" 1000,1318
    exit
fi

# Draws a picture whose text for Graphviz has been written.
draw() {
    if command -v dot >/dev/null; then
        dot -Tsvg "$folder/$1.dot" >"$folder/$1.svg"
    else
        echo "pictures.sh: Graphviz is not installed; $folder/$1.svg is left as it is" >&2
    fi
}

# The picture of a run of an example under a view, from top to bottom (TB) or from left to right (LR), with a question where two items stand behind the files.
draw_run() {
    local name=$1 direction=$2 files=("${@:3:3}")
    if [ $# -gt 5 ]; then
        WFPROV=$program python3 tools/dot.py --question "${@:6}" "${files[@]}"
    else
        "$program" export "${files[@]}" | python3 tools/dot.py
    fi | sed "2i\  rankdir=$direction;" >"$folder/$name.dot"
    draw "$name"
}

# The picture of specifications, one beside the other.
draw_specs() {
    local name=$1
    shift
    python3 tools/dot.py --spec "$@" >"$folder/$name.dot"
    draw "$name"
}

draw_run line TB examples/line/spec examples/line/view examples/line/events
draw_run phylogeny LR examples/phylogeny/spec examples/phylogeny/outer examples/phylogeny/events run.cfg run.report
draw_specs phylogeny-spec examples/phylogeny/spec
draw_specs twisting-skewed examples/twisting/spec examples/skewed/spec
python3 tools/two_labels.py examples/phylogeny/spec examples/phylogeny/labels rl2.c2 rl55.c2 >"$folder/labels.dot"
draw labels
python3 tools/automaton.py --picture examples/phylogeny/spec '[^Build]* Refine [^Build]*' >"$folder/automaton.dot"
draw automaton
python3 tools/crates.py >"$folder/crates.dot"
draw crates
