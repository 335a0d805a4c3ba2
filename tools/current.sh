#!/bin/sh
# Says whether the built program is current: whether it was made of the sources as they are now.
#   sh tools/current.sh                  status 0 if it is, and 1 otherwise
#   sh tools/current.sh digest           prints the digest of the sources
#   sh tools/current.sh record DIGEST    notes that the program was made of the sources with this digest, if the sources still have it
# ./wfprov, ./preview and tools/install.sh read this file for its functions. They set `top`, the folder of the repository.
#
# Times decide nothing: a source may be replaced by an older one, be taken away, or have a time that is still to come.
# A digest of all that the program was made of stands beside it, with its own digest. To read all sources takes longer than most calls,
# so the size, times and number of each file are kept too. Where none of them differs, nothing is read; where one does, the digest decides.

case $0 in
    current.sh | */current.sh)
        is_called=yes
        top=$(CDPATH= cd -- "$(dirname -- "$0")/.." && pwd -P) || exit 126
        ;;
esac

out=$top/crates/wfprov/out
program=$out/wfprov
preview=$out/wfprov.preview
parts="src specs proofs data args stdin stdout status"

# The lines of crates.txt of the crates that the program is made of, each behind those that it uses.
needed() {
    awk -F: '
        function need(name,   words, count, k) {
            if (!(name in uses) || name in met)
                return
            met[name] = 1
            count = split(uses[name], words, " ")
            for (k = 1; k <= count; k++)
                need(words[k])
            print name ":" uses[name]
        }
        /^[a-z]/ { uses[$1] = $2 }
        END { need("wfprov") }
    ' "$1/crates.txt"
}

# The digest of one file.
sum() {
    sha256sum <"$1" 2>/dev/null | cut -d ' ' -f 1
}

# The names and digests of all files of a folder that the program is made of.
sources() (
    cd "$1" && lines=$(needed .) && printf '%s\n' "$lines" || return 1
    set -- HANDLES
    while IFS=: read -r name _; do
        for part in $parts; do
            [ ! -e "crates/$name/$part" ] || set -- "$@" "crates/$name/$part"
        done
    done <<LINES
$lines
LINES
    find -L "$@" -type f -print0 | LC_ALL=C sort -z | xargs -0 sha256sum
)

# The digest of all that the program is made of, in a folder; nothing where it cannot be read.
digest() {
    all=$(sources "$1" 2>/dev/null) || return 1
    printf '%s\n' "$all" | sha256sum | cut -d ' ' -f 1
}

# The size, times and number of each file and folder of the sources, and of a program. Nothing where `find` cannot print them.
stamps() (
    cd "$top" || exit 0
    # A crate need not have each of these parts.
    find -L crates.txt HANDLES crates/*/src crates/*/specs crates/*/proofs crates/*/data \
        crates/*/args crates/*/stdin crates/*/stdout crates/*/status "crates/wfprov/out/${1##*/}" \
        -printf '%C@ %T@ %s %i %p\n' 2>/dev/null || true
)

# Whether some file was touched a moment ago: if it is touched again within one tick of the clock, its times stay as they are.
is_fresh() {
    awk -v now="$(date +%s)" '{ age = now - $1; if (age > -3 && age < 3) fresh = 1 } END { exit !fresh }' "$1"
}

# What the file beside a program says, if it was made of the sources with this digest.
note() {
    printf 'sources %s\nprogram %s\n' "$1" "$(sum "$2")"
}

# Whether a program that stands there was made of the sources with this digest.
is_made_of() {
    [ -n "$2" ] && [ "$(note "$2" "$1")" = "$(cat "$1.made" 2>/dev/null)" ]
}

# Keeps the stamps, if they still hold now that the sources were read.
keep_stamps() {
    if [ -s "$new" ] && ! is_fresh "$new" && stamps "$1" | cmp -s - "$new"; then
        mv -f "$new" "$1.seen" 2>/dev/null
    elif [ "$new" != /dev/null ]; then
        rm -f "$new"
    fi
}

# Whether a program was made of the sources as they are now.
is_current() {
    [ -x "$1" ] && [ -r "$1.made" ] || return 1
    if [ -r "$1.seen" ] && stamps "$1" | cmp -s - "$1.seen"; then
        return 0
    fi
    new=$1.seen.$$
    if true 2>/dev/null >"$new"; then
        stamps "$1" >"$new"
    else
        new=/dev/null
    fi
    if is_made_of "$1" "$(digest "$top")"; then
        keep_stamps "$1"
    else
        [ "$new" = /dev/null ] || rm -f "$new"
        return 1
    fi
}

# Puts a program into its place by a new name, with what it was made of: one that runs is not disturbed, and none is ever there in part.
put_in_place() {
    mkdir -p "$out" && cp "$1" "$2.new" && chmod 755 "$2.new" && note "$3" "$2.new" >"$2.made.new" &&
        mv -f "$2.new" "$2" && mv -f "$2.made.new" "$2.made"
}

# Notes what the program that stands there was made of, if the sources are still the same.
record() {
    [ -x "$program" ] && [ -n "$1" ] && [ "$(digest "$top")" = "$1" ] || return 1
    note "$1" "$program" >"$program.made.new" && mv -f "$program.made.new" "$program.made"
}

if [ -n "${is_called:-}" ]; then
    case $#:${1:-} in
        0:) is_current "$program" ;;
        1:digest) digest "$top" ;;
        2:record) record "$2" ;;
        1:--help) sed -n '2,5s/^# \{0,1\}//p' "$0" ;;
        *)
            echo "current.sh: $*: no such call; --help lists them" >&2
            exit 2
            ;;
    esac
fi
