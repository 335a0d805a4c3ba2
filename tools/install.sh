#!/usr/bin/env bash
# Puts the program, its manual page and its completion for bash under a prefix. Builds the program first where it is not built or not current.
#   bash tools/install.sh [PREFIX]    PREFIX is /usr/local where none is given; the variable DESTDIR, if set, stands before it
# The program needs the C library and nothing else of this repository. To take it away, remove the three files that are named.
set -euo pipefail

case ${1:-} in
    --help)
        sed -n '2,4s/^# \{0,1\}//p' "${BASH_SOURCE[0]}"
        exit
        ;;
    -*)
        echo "install.sh: $1: no such option; --help says what there is" >&2
        exit 2
        ;;
esac
if [ $# -gt 1 ]; then
    echo "install.sh: $2: a word too many; --help says what there is" >&2
    exit 2
fi

top=$(cd "$(dirname "${BASH_SOURCE[0]}")/.." && pwd -P)
. "$top/tools/current.sh"

prefix=${1:-/usr/local}
case $prefix in
    /*) ;;
    *) prefix=$PWD/$prefix ;;
esac
root=${DESTDIR:-}$prefix

# The launcher builds, and then has something to do that shows that the program runs.
if ! is_current "$program"; then
    "$top/wfprov" check "$top/examples/line/spec" >/dev/null
fi

# Puts a file there with its mode, and says where.
put() {
    install -D -m "$1" "$2" "$3" || exit 2
    echo "$3"
}

completion=$(mktemp)
trap 'rm -f "$completion"' EXIT
sed -e "/^@FORMS@\$/{r $top/tools/forms" -e 'd;}' "$top/tools/completion.bash" >"$completion"

umask 022
put 755 "$program" "$root/bin/wfprov"
put 644 "$top/docs/wfprov.1" "$root/share/man/man1/wfprov.1"
put 644 "$completion" "$root/share/bash-completion/completions/wfprov"
