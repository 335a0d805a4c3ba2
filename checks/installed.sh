#!/usr/bin/env bash
# Tries what tools/install.sh and tools/deb.sh put in place: the program, its manual page and its completion for bash, under prefixes of its own.
# Nothing is installed on the system, and nothing is built: the built program is taken into a small repository, where a script that fails takes the place of `rt`.
# Where man or dpkg-deb is missing, a line says which part is left out.
set -euo pipefail

cd "$(dirname "${BASH_SOURCE[0]}")/.."
. checks/count.sh
. checks/built.sh

sources=$PWD
top=$work/top
line=$PWD/examples/line

mkdir -p "$work/bin" "$top/tools" "$top/docs" "$top/examples" "$top/crates/wfprov/src" "$top/crates/wfprov/out"
cp wfprov HANDLES README.md "$top/"
cp tools/* "$top/tools/" 2>/dev/null || true
cp docs/wfprov.1 "$top/docs/"
cp -R examples/line "$top/examples/"
echo "wfprov:" >"$top/crates.txt"
echo "the program" >"$top/crates/wfprov/src/main.rt"
[ -x crates/wfprov/out/wfprov ] || "$program" check "$line/spec" >/dev/null
cp crates/wfprov/out/wfprov "$top/crates/wfprov/out/wfprov"
sh "$top/tools/current.sh" record "$(sh "$top/tools/current.sh" digest)"
printf '#!/bin/sh\necho called >>"%s"\nexit 1\n' "$work/built" >"$work/bin/rt"
chmod 755 "$work/bin/rt"
PATH=$work/bin:$PATH

install_under() {
    DESTDIR=${2:-} bash "$top/tools/install.sh" "$1" >"$work/said" 2>&1
}

# The three files are there, are named, and have their modes.
has_files() {
    [ "$(cat "$work/said")" = "$(printf '%s\n' "$1/bin/wfprov" "$1/share/man/man1/wfprov.1" "$1/share/bash-completion/completions/wfprov")" ] &&
        [ "$(stat -c %a "$1/bin/wfprov" "$1/share/man/man1/wfprov.1" "$1/share/bash-completion/completions/wfprov" | paste -sd ' ')" = "755 644 644" ]
}

# The answers of the line are those that examples/README.md says.
answers() {
    [ "$("$1" trace "$line/spec" "$line/view" "$line/events" "$line/queries" | paste -sd ' ')" = "yes yes yes no no unknown" ]
}

installs() {
    (umask 077 && install_under "$work/prefix") && has_files "$work/prefix"
}

installs_below_destdir() {
    DESTDIR=$work/dest bash "$top/tools/install.sh" >"$work/said" && has_files "$work/dest/usr/local"
}

installs_under_a_relative_prefix() {
    (cd "$work" && install_under here) && has_files "$work/here"
}

# It may be copied: alone in a folder, with no environment, it gives the same answers.
runs_alone() {
    mkdir -p "$work/alone"
    cp "$work/prefix/bin/wfprov" "$work/alone/"
    (cd "$work/alone" && [ "$(env -i ./wfprov trace "$line/spec" "$line/view" "$line/events" "$line/queries" | paste -sd ' ')" = "yes yes yes no no unknown" ])
}

nothing_was_built() {
    [ ! -e "$work/built" ]
}

# A program that is not current is built first; where that fails, nothing is put in place.
builds_first() {
    local status=0
    echo "another" >"$top/crates/wfprov/src/main.rt"
    install_under "$work/later" || status=$?
    echo "the program" >"$top/crates/wfprov/src/main.rt"
    [ "$status" -eq 126 ] && [ -s "$work/built" ] && [ ! -e "$work/later" ] && rm "$work/built"
}

# Ends with a status, and says one line that begins with the tool's name.
says_one_line() {
    local wanted=$1 status=0
    shift
    bash "$@" >/dev/null 2>"$work/said" || status=$?
    [ "$status" -eq "$wanted" ] && [ "$(wc -l <"$work/said")" -eq 1 ]
}

# The text of the page without its requests and fonts, so that it is read without man too.
plain() {
    sed -e 's/\\f[IBPR]//g' -e 's/\\-/-/g' -e 's/^\.[A-Z]* *//' -e 's/["(),]/ /g' docs/wfprov.1
}

page_has_forms() {
    local form text
    text=$(plain)
    while IFS= read -r form; do
        [ "$(grep -cxF "wfprov $form" <<<"$text")" -eq 1 ] && [ "$(grep -cxF "$form" <<<"$text")" -eq 1 ] || {
            echo "the manual page lacks: $form"
            return 1
        }
    done <tools/forms
}

# The kinds of messages of docs/FORMATS.md: what its tables of rules and messages have as code and in several words without a blank, and those of one word.
kinds() {
    grep '^|' docs/FORMATS.md | grep -oE '`[^`]*`' | grep -oE '\b[A-Z][a-z]+([A-Z][a-z]+)+\b|\b(Conflict|Orphan|Unreachable|Unproductive|Unsafe|Truncated|Malformed)\b' | sort -u
}

page_has_kinds() {
    local kind text
    text=$(plain)
    [ "$(kinds | wc -l)" -gt 40 ] || return 1
    for kind in $(kinds) $(grep -oE 'Unsafe' docs/FORMATS.md | sort -u); do
        grep -qwF "$kind" <<<"$text" || {
            echo "the manual page lacks: $kind"
            return 1
        }
    done
}

page_has_statuses() {
    local number text
    text=$(plain)
    for number in 0 1 2 3 4 5; do
        grep -qx "$number" <<<"$text" || return 1
    done
}

page_is_clean() {
    [ -z "$(LC_ALL=C.UTF-8 MANROFFSEQ='' MANWIDTH=80 man --warnings -E UTF-8 -l -Tutf8 -Z "$1" 2>&1 >/dev/null)" ]
}

page_is_read() {
    [[ $(MANWIDTH=200 LC_ALL=C.UTF-8 man -l "$1" 2>/dev/null) == *"answer whether one result of a workflow run rests on another"* ]]
}

# What the completion offers behind some words, the last of which is begun; with no file of the user read.
offers() {
    local wanted=$1 file=$2
    shift 2
    [ "$(cd "$line" && bash --norc --noprofile -c '
        . "$0"
        COMP_WORDS=("$@")
        COMP_CWORD=$(($# - 1))
        [ "$(complete -p wfprov)" = "complete -F _wfprov wfprov" ] || exit 1
        _wfprov
        echo "${COMPREPLY[*]}"
    ' "$file" "$@")" = "$wanted" ]
}

# A line more in tools/forms is a command more.
offers_later_command() {
    echo "expand SPEC EVENTS" >>"$top/tools/forms"
    install_under "$work/more" && offers "expand explain export" "$work/more/share/bash-completion/completions/wfprov" wfprov ex &&
        offers "events" "$work/more/share/bash-completion/completions/wfprov" wfprov expand spec ev
    cp "$sources/tools/forms" "$top/tools/forms"
}

makes_package() {
    mkdir -p "$work/debs" && SOURCE_DATE_EPOCH=1700000000 bash "$top/tools/deb.sh" "$work/debs" >"$work/said" && [ "$(cat "$work/said")" = "$deb" ] && [ -s "$deb" ]
}

field_is() {
    [ "$(dpkg-deb -f "$deb" "$1")" = "$2" ]
}

# The C library of the package is not older than the newest of its symbols that the program wants, as objdump reads them where it is there.
depends_on_libraries() {
    local depends newest
    depends=$(dpkg-deb -f "$deb" Depends)
    [[ $depends =~ ^libc6\ \(\>=\ ([0-9.]+)\)(, libgcc-s1)?$ ]] || return 1
    newest=${BASH_REMATCH[1]}
    ! command -v objdump >/dev/null || [ "$(objdump -T "$top/crates/wfprov/out/wfprov" | grep -oE 'GLIBC_[0-9.]+' | sort -Vu | tail -n 1)" = "GLIBC_$newest" ]
}

has_only() {
    [ "$(dpkg-deb -c "$deb" | awk '{ print $1, $2, $6 }')" = "$(printf '%s\n' \
        'drwxr-xr-x root/root ./' 'drwxr-xr-x root/root ./usr/' 'drwxr-xr-x root/root ./usr/bin/' '-rwxr-xr-x root/root ./usr/bin/wfprov' \
        'drwxr-xr-x root/root ./usr/share/' 'drwxr-xr-x root/root ./usr/share/bash-completion/' 'drwxr-xr-x root/root ./usr/share/bash-completion/completions/' \
        '-rw-r--r-- root/root ./usr/share/bash-completion/completions/wfprov' 'drwxr-xr-x root/root ./usr/share/man/' 'drwxr-xr-x root/root ./usr/share/man/man1/' \
        '-rw-r--r-- root/root ./usr/share/man/man1/wfprov.1.gz')" ]
}

unpacks() {
    dpkg-deb -x "$deb" "$work/unpacked" && dpkg-deb -e "$deb" "$work/control" && (cd "$work/unpacked" && md5sum -c --quiet "$work/control/md5sums") &&
        [ "$(wc -l <"$work/control/md5sums")" -eq 3 ] && answers "$work/unpacked/usr/bin/wfprov"
}

# Another folder, umask and zone make the same bytes.
makes_the_same() {
    mkdir -p "$work/again"
    (umask 077 && cd "$work/again" && TZ=Asia/Tokyo SOURCE_DATE_EPOCH=1700000000 bash "$top/tools/deb.sh" >/dev/null) && cmp -s "$deb" "$work/again/wfprov_0.20231114_amd64.deb"
}

has_description() {
    [ "$(dpkg-deb -f "$deb" Description | sed -n 1p | wc -c)" -le 81 ] && [ "$(dpkg-deb -f "$deb" Description | wc -l)" -gt 3 ] &&
        [ "$(dpkg-deb -f "$deb" Description | awk 'length > 80' | wc -l)" -eq 0 ] && [[ $(dpkg-deb -f "$deb" Installed-Size) =~ ^[1-9][0-9]*$ ]]
}

completion=$work/prefix/share/bash-completion/completions/wfprov
deb=$work/debs/wfprov_0.20231114_amd64.deb

check "three files are put under a prefix" installs
check "the installed program answers" answers "$work/prefix/bin/wfprov"
check "alone and with no environment it gives the same answers" runs_alone
check "DESTDIR stands before the prefix, which is /usr/local" installs_below_destdir
check "a prefix may have a relative name" installs_under_a_relative_prefix
check "a current program is not built" nothing_was_built
check "a program that is not current is built first, and nothing is put in place where that fails" builds_first
check "an option that is none is refused in one line" says_one_line 2 "$top/tools/install.sh" --x
check "a word too many is refused in one line" says_one_line 2 "$top/tools/install.sh" "$work/a" b
: >"$work/file"
check "a prefix below a file is refused in one line" says_one_line 2 "$top/tools/install.sh" "$work/file/below"
check "the manual page has each form of tools/forms, in its synopsis and in its commands" page_has_forms
check "the manual page has each kind of message of docs/FORMATS.md" page_has_kinds
check "the manual page has each status" page_has_statuses
if command -v man >/dev/null && man --version >/dev/null 2>&1; then
    check "man has no warning of the page" page_is_clean "$work/prefix/share/man/man1/wfprov.1"
    check "man reads the page" page_is_read "$work/prefix/share/man/man1/wfprov.1"
else
    echo "left out: man is not installed here, so it does not read the manual page"
fi
check "the completion offers the commands" offers "ask check compare consult decide drill explain export gen impact ingest lineage package trace verify view words" "$completion" wfprov ""
check "it offers a command that is begun" offers "explain export" "$completion" wfprov ex
check "it offers files where a form ends with one" offers "spec" "$completion" wfprov check sp
check "it offers files before a label" offers "view" "$completion" wfprov decide spec vi
check "it offers files where a form has one" offers "events" "$completion" wfprov trace spec view ev
check "it offers files where a form has a second view" offers "events" "$completion" wfprov compare spec view ev
check "it offers files where a form has a chain" offers "events" "$completion" wfprov verify spec view events ev
check "it offers files where a form has a package" offers "events" "$completion" wfprov consult ev
check "it offers files where a form has an automaton" offers "events" "$completion" wfprov words spec view ev
check "it offers no file behind the last word of a form" offers "" "$completion" wfprov check spec ev
check "it offers no file where a form has a label" offers "" "$completion" wfprov decide spec view ev
check "it offers no file behind a word that is no command" offers "" "$completion" wfprov exalt ev
check "a line more in tools/forms is a command more" offers_later_command
if command -v dpkg-deb >/dev/null; then
    check "a package is made" makes_package
    check "its name" field_is Package wfprov
    check "its version" field_is Version 0.20231114
    check "its architecture" field_is Architecture amd64
    check "what it depends on" depends_on_libraries
    check "its description and size" has_description
    check "it has three files and their folders, of root" has_only
    check "it unpacks, its sums are right, and its program answers" unpacks
    if command -v man >/dev/null && man --version >/dev/null 2>&1; then
        check "man reads its page" page_is_read "$work/unpacked/usr/share/man/man1/wfprov.1.gz"
    fi
    check "another folder, umask and time zone make the same bytes" makes_the_same
    check "a version that is none is refused in one line" env VERSION=x bash -c '! bash "$0" "$1" >/dev/null 2>"$2" && [ "$(wc -l <"$2")" -eq 1 ]' "$top/tools/deb.sh" "$work" "$work/said"
    check "a folder that is not there is refused in one line" says_one_line 2 "$top/tools/deb.sh" "$work/nowhere"
else
    echo "left out: dpkg-deb is not installed here, so no package is made"
fi
check "nothing was built" nothing_was_built

finish
