# Tries that an importer writes both of its files or none, never over a file that it reads, and ends without a traceback. It is read by
# the checks of the importers. They set `importer`, the words for what is read in `given`, one of these files in `kept`, and in `more` the
# places of what is written behind EVENTS; all of it stands in the folder `work`.

# Runs the importer in the folder on these two places, and keeps what it says.
imports_to() { (cd "$work" && python3 "$importer" "${given[@]}" "$@" "${more[@]}" >out 2>err); }

# Whether it ends with status 2 and this one line.
is_told() {
    local message=$1 ended=0
    shift
    imports_to "$@" || ended=$?
    [ "$ended" = 2 ] && [ ! -s "$work/out" ] && [ "$(cat "$work/err")" = "$(basename "$importer"): $message" ]
}

# Whether a place for EVENTS that cannot be written leaves SPEC as it was, there or not there, and nothing beside it.
writes_none() {
    rm -rf "$work/new" && mkdir "$work/new" && echo old >"$work/old"
    is_told "$2" new/spec "$1" && [ -z "$(ls -A "$work/new")" ] && is_told "$2" old "$1" && [ "$(cat "$work/old")" = old ]
}

# Whether the importer leaves the file that it reads as it was, whichever output names it.
keeps_what_it_reads() {
    rm -rf "$work/new" && mkdir "$work/new" && cp "$work/$kept" "$work/before" && ln -f "$work/$kept" "$work/hard" && ln -sf "$kept" "$work/soft"
    for place in "$kept" hard soft; do
        is_told "$place: it is a file that is read, and is not written over" "$place" new/events || return 1
        is_told "$place: it is a file that is read, and is not written over" new/spec "$place" || return 1
    done
    cmp -s "$work/$kept" "$work/before" && [ -z "$(ls -A "$work/new")" ]
}

# Whether both files come where one of them is a pipe.
writes_to_a_pipe() {
    (cd "$work" && python3 "$importer" "${given[@]}" new/spec new/events "${more[@]}" && python3 "$importer" "${given[@]}" /dev/stdout new/again "${more[@]}" | cmp - new/spec) &&
        cmp -s "$work/new/events" "$work/new/again" && rm -r "$work/new"
}

# Whether a call ends with this status where standard streams are closed, and says nothing that is no line of the tool.
ends_closed() {
    local ended=0
    (cd "$work" && python3 "$importer" "${@:2}" <&- >&- 2>err) || ended=$?
    [ "$ended" = "$1" ] && [ "$(grep -cv "^$(basename "$importer"): " "$work/err")" = 0 ] || return 1
    ended=0
    (cd "$work" && python3 "$importer" "${@:2}" >out 2>&-) || ended=$?
    [ "$ended" = "$1" ] && [ ! -s "$work/out" ]
}
ends_on_full() {
    local ended=0
    (cd "$work" && python3 "$importer" --help >/dev/full 2>err) || ended=$?
    [ "$ended" = 2 ] && [ "$(cat "$work/err")" = "$(basename "$importer"): writing: No space left on device" ]
}

check "where EVENTS has no folder nothing is written" writes_none no/events "no/events: No such file or directory"
check "where EVENTS is a folder nothing is written" writes_none . ".: it is a folder"
check "where the device of EVENTS is full nothing is written" writes_none /dev/full "/dev/full: No space left on device"
check "no output is written over a file that is read" keeps_what_it_reads
check "two outputs at one place are refused" is_told "new/../new/one: two outputs would be this one file" new/one new/../new/one
check "an output may be a pipe" writes_to_a_pipe
mkdir -p "$work/new"
check "closed streams are no traceback" ends_closed 0 "${given[@]}" new/spec new/events "${more[@]}"
check "closed streams are no traceback where it is refused" ends_closed 2 "${given[@]}" no/spec new/events "${more[@]}"
check "a full device is no traceback" ends_on_full
