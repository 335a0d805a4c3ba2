#!/usr/bin/env bash
# Makes a Debian package of the program, its manual page and its completion for bash, by dpkg-deb. Builds the program first where it is not built or not current.
#   bash tools/deb.sh [FOLDER]    writes FOLDER/wfprov_VERSION_amd64.deb, into the current folder where none is given, and prints its name
# The variable VERSION names the version; without it, it is 0 and the day of SOURCE_DATE_EPOCH, which is the time of the last commit unless it is set.
# The same sources, program and time make the same bytes. DEBFULLNAME and DEBEMAIL name who maintains it.
set -euo pipefail

case ${1:-} in
    --help)
        sed -n '2,5s/^# \{0,1\}//p' "${BASH_SOURCE[0]}"
        exit
        ;;
    -*)
        echo "deb.sh: $1: no such option; --help says what there is" >&2
        exit 2
        ;;
esac

refuse() {
    echo "deb.sh: $*" >&2
    exit 2
}

[ $# -le 1 ] || refuse "$2: a word too many; --help says what there is"
command -v dpkg-deb >/dev/null || refuse "dpkg-deb: no such command; the package dpkg of Debian has it"
top=$(cd "$(dirname "${BASH_SOURCE[0]}")/.." && pwd -P)
folder=${1:-.}
[ -d "$folder" ] || refuse "$folder: no such folder"

SOURCE_DATE_EPOCH=${SOURCE_DATE_EPOCH:-$(git -c safe.directory='*' -C "$top" log -1 --format=%ct 2>/dev/null || stat -c %Y "$top/README.md")}
export SOURCE_DATE_EPOCH
version=${VERSION:-0.$(date -u -d "@$SOURCE_DATE_EPOCH" +%Y%m%d)}
[[ $version =~ ^[0-9][A-Za-z0-9.+~]*$ ]] || refuse "VERSION=$version: a version begins with a digit and has letters, digits and .+~"

work=$(mktemp -d)
trap 'rm -rf "$work"' EXIT
umask 022
room=$work/package
mkdir -p "$room/DEBIAN"
DESTDIR=$room bash "$top/tools/install.sh" /usr >/dev/null || exit
gzip -9n "$room/usr/share/man/man1/wfprov.1"
program=$room/usr/bin/wfprov

# The packages of the libraries that the program wants, with the newest version of the C library's symbols among them.
needs() {
    local name newest
    newest=$(grep -aoE 'GLIBC_[0-9]+\.[0-9.]+' "$program" | sort -Vu | tail -n 1)
    ldd "$program" | awk '{ print $1 }' | while IFS= read -r name; do
        case ${name##*/} in
            linux-vdso.so.* | ld-linux-x86-64.so.*) ;;
            libc.so.6 | libm.so.6 | libpthread.so.0 | libdl.so.2) echo "libc6${newest:+ (>= ${newest#GLIBC_})}" ;;
            libgcc_s.so.1) echo "libgcc-s1" ;;
            *) refuse "the program wants the library $name, and which package has it is not known here" ;;
        esac
    done | sort -u | paste -sd , | sed 's/,/, /g'
}

depends=$(needs)
[ -n "$depends" ] || refuse "$program is not linked with the C library as it should be"
cat >"$room/DEBIAN/control" <<END
Package: wfprov
Version: $version
Architecture: amd64
Maintainer: ${DEBFULLNAME:-wfprov} <${DEBEMAIL:-wfprov@localhost.localdomain}>
Installed-Size: $(find "$room/usr" -type f -printf '%k\n' | awk '{ sum += $1 } END { print sum }')
Depends: $depends
Section: science
Priority: optional
Description: provenance of scientific workflows, with proved answers
 Answers whether one data item of a workflow run depends on another, from
 the record of the run or from a few bytes for each item (its label), under
 a view that hides the inside of steps.
 .
 That the answers are right is proved in Rattle, Rust with contracts, from
 the bytes of the files to the bytes of the answer.
END
(cd "$room" && find usr -type f -print0 | LC_ALL=C sort -z | xargs -0 md5sum >DEBIAN/md5sums)
find "$room" -exec touch -h -d "@$SOURCE_DATE_EPOCH" {} +
package=$folder/wfprov_${version}_amd64.deb
dpkg-deb --root-owner-group --build "$room" "$work/made.deb" >/dev/null
cp "$work/made.deb" "$package" || exit 2
echo "$package"
