# Checks that compare the program with a search on small grammars at random. Such a check has to find out programs that say something else
# than the built one. It is read by those scripts, in the place of count.sh and built.sh.
. checks/count.sh
. checks/built.sh
export PYTHONDONTWRITEBYTECODE=1

# Whether the check of a file finds no difference. The words behind the file are how many grammars are tried, and from which seed; 1,000 and 1
# where they are not given.
agrees_by() {
    python3 "$1" "$program" --grammars "${2:-1000}" --seed "${3:-1}"
}

# Makes a program that is the built one, but for lines of a shell script before it is called.
stand_in() {
    printf '#!/bin/sh\nprogram=%q\n%s\nexec "$program" "$@"\n' "$program" "$1" >"$work/program"
    chmod +x "$work/program"
}

# Whether the check of a file finds on 12 grammars that such a program says something else, by these kinds of answers and no other.
finds_by() {
    stand_in "$3"
    ! python3 "$1" "$work/program" --grammars 12 "${@:4}" >"$work/told" || return 1
    [ "$(sed -n 's/: .* compared, [1-9][0-9]* differ$//p' "$work/told" | xargs)" = "$2" ]
}

# The lines by which what a command writes is changed by `sed`.
changing() {
    printf "[ \"\$1\" != %s ] || { \"\$program\" \"\$@\" | sed '%s'; exit; }" "$1" "$2"
}
