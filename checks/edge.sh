#!/usr/bin/env bash
# Checks of the built program over real files and streams, of which no contract can say what they give and take: which file a path opens, in which order and how often, what is closed when, and what comes of reads and writes that are short, interrupted or would have to wait. docs/PROOFS.md tells what each case shows.
set -euo pipefail

cd "$(dirname "${BASH_SOURCE[0]}")/.."
. checks/count.sh
. checks/built.sh

line=examples/line
streams="python3 checks/streams.py"

# The commands, each with the files that it reads in their order, by their names in capitals.
commands=(
    'check SPEC'
    'view SPEC VIEW'
    'ingest SPEC EVENTS'
    'ask SPEC VIEW LABELS QUERIES'
    'trace SPEC VIEW EVENTS QUERIES'
    'words SPEC VIEW AUTO LABELS QUERIES'
    'lineage SPEC VIEW LABELS r.b'
    'impact SPEC VIEW LABELS r.a'
    'explain SPEC VIEW EVENTS r.a r.b'
    'verify SPEC VIEW EVENTS CHAIN'
    'compare SPEC VIEW COARSE'
    'package SPEC VIEW'
    'consult PACKAGE 20 60'
    'decide SPEC VIEW 20 b0'
    'export SPEC VIEW EVENTS'
    'gen SPEC 5 7'
    'drill SPEC VIEW 0 3'
)

# Makes the call of a command, as a list of words: the files are those of the line example, but this path where a file has this name.
call=()
set_call() {
    local word
    call=()
    for word in $1; do
        case $word in
            "${2:-}") call+=("$3") ;;
            [A-Z]*) call+=("$line/${word,,}") ;;
            *) call+=("$word") ;;
        esac
    done
}

files_of() {
    local word
    for word in $1; do
        case $word in
            [A-Z]*) echo "$word" ;;
        esac
    done
}

# Runs the program, with the redirections of this call, and keeps its status.
status=
run() {
    status=0
    "$program" "$@" || status=$?
}

# Whether the last run ended so, with this text and this message.
ended() {
    [ "$status" = "$1" ] && cmp -s "$work/out" "$2" && [ "$(<"$work/err")" = "$3" ]
}

nothing=$work/nothing
: >"$nothing"
head -c 36 $line/labels >"$work/head"

# What a command wrote when a file of it cannot be read: the head of a label file, or nothing.
before() {
    case $1/$2 in
        ingest*/EVENTS) echo "$work/head" ;;
        *) echo "$nothing" ;;
    esac
}

# What each command writes of the line example, from files.
for command in "${commands[@]}"; do
    set_call "$command"
    "$program" "${call[@]}" >"$work/of_${command%% *}" 2>"$work/err"
done

# Whether a command writes of these files what it writes from plain files.
writes() {
    ended 0 "$work/of_${1%% *}" ''
}

# No path is one of the program's own files.

# Whether the paths of descriptors that the caller did not open give no file for this part of a command.
meets_no_file() {
    local path
    for path in {/dev/fd,/proc/self/fd}/{3,4,5,9}; do
        set_call "$1" "$2" "$path"
        run "${call[@]}" >"$work/out" 2>"$work/err" </dev/null 3<&- 4<&- 5<&- 9<&-
        ended 3 "$(before "$1" "$2")" "fault: reading ${2,,}" || return 1
    done
}

# Whether the paths of standard streams that were closed give no file for this part of a command. Where the standard output is closed and something is put before the file is read, that is the fault.
meets_no_stream() {
    local path
    for path in /dev/stdin /dev/fd/0 /proc/self/fd/0; do
        set_call "$1" "$2" "$path"
        run "${call[@]}" >"$work/out" 2>"$work/err" <&-
        ended 3 "$(before "$1" "$2")" "fault: reading ${2,,}" || return 1
    done
    for path in /dev/stderr /dev/fd/2; do
        set_call "$1" "$2" "$path"
        : >"$work/err"
        run "${call[@]}" >"$work/out" 2>&- </dev/null
        ended 3 "$(before "$1" "$2")" '' || return 1
    done
    for path in /dev/stdout /dev/fd/1; do
        set_call "$1" "$2" "$path"
        : >"$work/out"
        run "${call[@]}" >&- 2>"$work/err" </dev/null
        case $1/$2 in
            ingest*/EVENTS) ended 4 "$nothing" 'fault: writing' || return 1 ;;
            *) ended 3 "$nothing" "fault: reading ${2,,}" || return 1 ;;
        esac
    done
}

for command in "${commands[@]}"; do
    for file in $(files_of "$command"); do
        check "${command%% *}: no descriptor that is not open is ${file}" meets_no_file "$command" "$file"
        check "${command%% *}: no standard stream that is closed is ${file}" meets_no_stream "$command" "$file"
    done
done

# Whether a path that leads to a descriptor by way of links and folders gives no view.
meets_no_view() {
    run ask $line/spec "$1" $line/labels $line/queries >"$work/out" 2>"$work/err" </dev/null 3<&-
    ended 3 "$nothing" 'fault: reading view'
}
ln -s /proc/self/fd/3 "$work/link"
ln -s "$work/link" "$work/link_to_link"
ln -s /proc/self/fd "$work/folder"
for path in "$work/link" "$work/link_to_link" "$work/folder/3" /dev/fd/../fd/3 /proc/self/task/../fd/3 //proc/./self/fd//3; do
    check "no view is met by ${path/#$work\//a link }" meets_no_view "$path"
done

# Closed standard streams.

# Whether a command does with a closed standard stream what it does with an open one: it writes its text, or fails to write it.
closes() {
    local command
    for command in "${commands[@]}"; do
        set_call "$command"
        : >"$work/out"
        : >"$work/err"
        case $1 in
            input) run "${call[@]}" >"$work/out" 2>"$work/err" <&- ;;
            error) run "${call[@]}" >"$work/out" 2>&- </dev/null ;;
            'input and error') run "${call[@]}" >"$work/out" 2>&- <&- ;;
            output) run "${call[@]}" >&- 2>"$work/err" </dev/null ;;
            'input and output') run "${call[@]}" >&- 2>"$work/err" <&- ;;
            all) run "${call[@]}" >&- 2>&- <&- ;;
        esac
        case $1 in
            all) ended 4 "$nothing" '' || return 1 ;;
            *output) ended 4 "$nothing" 'fault: writing' || return 1 ;;
            *) writes "$command" || return 1 ;;
        esac
    done
}
for stream in input error 'input and error'; do
    check "each command writes its text with $stream closed" closes "$stream"
done
for stream in output 'input and output' all; do
    check "each command fails to write with $stream closed" closes "$stream"
done

# A file that was opened in the place of a standard stream is not written to.
keeps_files() {
    local file
    for file in spec view events queries labels; do
        cp $line/$file "$work/kept_$file"
    done
    run trace "$work"/kept_{spec,view,events,queries} >&- 2>&- <&-
    run ask "$work"/kept_{spec,view,labels,queries} >&- 2>&- <&-
    run check "$work/kept_spec" more >&- 2>&- <&-
    for file in spec view events queries labels; do
        cmp -s $line/$file "$work/kept_$file" || return 1
    done
}
check "no file is written to where the standard streams are closed" keeps_files

refuses_unheard() {
    run check "$nothing" >"$work/out" 2>&- </dev/null
    [ "$status" = 2 ]
}
check "a refusal that cannot be told has its status" refuses_unheard

# Pipes, and in which order files are opened.

# Whether a command writes of pipes, one for each file, what it writes of files: so it reads each once, from its beginning to its end, and no two in turn.
reads_pipes() {
    local word descriptor opened=()
    call=()
    for word in $1; do
        case $word in
            [A-Z]*)
                exec {descriptor}< <(cat "$line/${word,,}")
                opened+=("$descriptor")
                call+=("/dev/fd/$descriptor")
                ;;
            *) call+=("$word") ;;
        esac
    done
    run "${call[@]}" >"$work/out" 2>"$work/err" </dev/null
    for descriptor in "${opened[@]}"; do
        exec {descriptor}<&-
    done
    writes "$1"
}
for command in "${commands[@]}"; do
    check "${command%% *} reads each of its files from a pipe" reads_pipes "$command"
done

# Whether a file is opened when the one before it was read to its end: until then it may be another.
opens_in_order() {
    rm -f "$work/pipe"
    mkfifo "$work/pipe"
    cp "$nothing" "$work/later"
    (
        exec 7>"$work/pipe"
        head -c 20 $line/spec >&7
        sleep 0.2
        cp $line/events "$work/later_events"
        mv "$work/later_events" "$work/later"
        tail -c +21 $line/spec >&7
    ) &
    run ingest "$work/pipe" "$work/later" >"$work/out" 2>"$work/err" </dev/null
    wait
    writes ingest
}
check "a file is opened when the one before was read" opens_in_order

# Whether this part of a run is a fault, where a pipe with this file stands behind it.
faults_on() {
    local part=$1 file=$2
    shift 2
    status=0
    timeout 20 "$program" "$@" >"$work/out" 2>"$work/err" < <(cat "$file") || status=$?
    [ "$status" = 3 ] && [ "$(<"$work/err")" = "fault: reading $part" ]
}
ln -s /dev/stdin "$work/stdin"
check "a pipe under two paths is a fault" faults_on events $line/spec ingest /dev/stdin /dev/fd/0
check "a pipe under two paths, one of them a link, is a fault" faults_on events $line/spec ingest "$work/stdin" /proc/self/fd/0
check "a pipe under one path, one right behind the other, is a fault" faults_on events $line/spec ingest /dev/stdin /dev/stdin
check "a pipe under one path, with a file between, is a fault" faults_on events $line/spec trace /dev/stdin $line/view /dev/stdin $line/queries
check "a pipe for the third file and the fourth is a fault" faults_on queries $line/events trace $line/spec $line/view /dev/stdin /dev/fd/0
check "an empty pipe under two paths is a fault" faults_on queries "$nothing" trace $line/spec $line/view /dev/stdin /dev/fd/0
check "an empty pipe under one path is a fault" faults_on queries "$nothing" trace $line/spec $line/view /dev/stdin /dev/stdin

# Whether a pipe by its name that was read is not opened again: that would wait for one who writes to it.
waits_for_none() {
    rm -f "$work/named" "$work/other"
    mkfifo "$work/named"
    ln "$work/named" "$work/other"
    timeout 20 cp $line/spec "$work/named" &
    faults_on events "$nothing" ingest "$work/named" "$work/other" || return 1
    timeout 20 cp $line/spec "$work/named" &
    faults_on events "$nothing" trace "$work/named" $line/view "$work/named" $line/queries
}
check "a pipe by its name that was read is not waited for" waits_for_none

# Runs the program over a standard input of this kind, with this file.
run_over() {
    status=0
    $streams "$1" "$2" "$program" "${@:3}" >"$work/out" 2>"$work/err" || status=$?
}

terminal_twice() {
    run_over terminal $line/events trace $line/spec $line/view /dev/stdin /dev/fd/0
    ended 3 "$nothing" 'fault: reading queries'
}
check "a terminal under two paths is a fault" terminal_twice

reads_terminal() {
    run_over terminal $line/events ingest $line/spec /dev/stdin && writes ingest
}
check "a terminal is read to its end" reads_terminal

reads_socket() {
    run_over socket $line/events ingest $line/spec /dev/stdin
    ended 3 "$work/head" 'fault: reading events'
}
check "a socket has no path that opens it" reads_socket

# A regular file is read as often as it is given, under whatever path: a specification is a view that shows all.
reads_again() {
    run trace "$1" "$2" $line/events $line/queries >"$work/out" 2>"$work/err" <$line/spec
    writes trace
}
ln $line/spec "$work/spec_again" 2>/dev/null || cp $line/spec "$work/spec_again"
check "a regular file under one path is read twice" reads_again $line/spec $line/spec
check "a regular file under two paths is read twice" reads_again $line/spec "$work/spec_again"
check "a regular file that is the standard input is read twice, from its beginning" reads_again /dev/stdin /dev/fd/0

reads_null() {
    run trace $line/spec $line/view /dev/null /dev/null >"$work/out" 2>"$work/err" </dev/null
    ended 0 "$nothing" ''
}
check "the empty device is read twice" reads_null

# Short reads and writes, interrupts, and streams that do not wait.

# Whether a part of a command may come byte for byte.
reads_bytes() {
    local file
    for file in $(files_of "$1"); do
        set_call "$1" "$file" /dev/stdin
        run_over packets "$line/${file,,}" "${call[@]}"
        writes "$1" || return 1
    done
}
for command in "${commands[@]}"; do
    check "${command%% *} reads each of its files byte for byte" reads_bytes "$command"
done

reads_late() {
    run_over late $line/events ingest $line/spec /dev/stdin && writes ingest
}
check "an input whose readers do not wait is waited for" reads_late

# A run of 20,001 events in 1.2 MB, more than a pipe takes.
"$program" gen examples/twisting/spec 20000 1 >"$work/long"

# Whether a command writes a long text whole, whatever the stream is that takes it.
writes_whole() {
    status=0
    $streams "$1" "$program" gen examples/twisting/spec 20000 1 >"$work/out" 2>"$work/err" || status=$?
    ended 0 "$work/long" ''
}
check "an output whose writers do not wait is waited for" writes_whole unblocked
check "a text is written whole where writes are cut short" writes_whole stopped

# Whether signals that end no program change nothing while it waits for its input.
reads_interrupted() {
    local reader signal
    rm -f "$work/pipe"
    mkfifo "$work/pipe"
    "$program" ingest $line/spec "$work/pipe" >"$work/out" 2>"$work/err" </dev/null &
    reader=$!
    exec 7>"$work/pipe"
    head -c 20 $line/events >&7
    for signal in WINCH URG CHLD STOP CONT STOP CONT; do
        sleep 0.05
        kill -s "$signal" "$reader"
    done
    tail -c +21 $line/events >&7
    exec 7>&-
    status=0
    wait "$reader" || status=$?
    writes ingest
}
check "a read that signals interrupt goes on" reads_interrupted

# Whether each question is answered before the next is asked, over one pipe that stays open.
answers_at_once() {
    local word answer reader
    rm -f "$work/asked" "$work/answered"
    mkfifo "$work/asked" "$work/answered"
    "$program" ask $line/spec $line/view $line/labels "$work/asked" >"$work/answered" 2>"$work/err" </dev/null &
    reader=$!
    exec 8<"$work/answered" 7>"$work/asked"
    for word in 'r.a i1.y=yes' 'r.b r.a=no' 'r.a i2.y=unknown'; do
        echo "${word%=*}" >&7
        read -r -t 10 answer <&8 && [ "$answer" = "${word#*=}" ] || return 1
        sleep 0.1
    done
    exec 7>&- 8<&-
    wait "$reader"
}
check "a pipe of questions is read on, each answered as it comes" answers_at_once

# A device that takes no byte.
faults_full() {
    local command
    for command in "${commands[@]}"; do
        set_call "$command"
        run "${call[@]}" >/dev/full 2>"$work/err" </dev/null
        : >"$work/out"
        ended 4 "$nothing" 'fault: writing' || return 1
    done
}
check "a full device is a fault of writing of each command" faults_full

# Whether a call that has nothing to write ends well there: no question is asked, so nothing is put.
idles_full() {
    : >"$work/out"
    run trace $line/spec $line/view $line/events "$nothing" >/dev/full 2>"$work/err" </dev/null
    ended 0 "$nothing" '' || return 1
    run ask $line/spec $line/view $line/labels "$nothing" >/dev/full 2>"$work/err" </dev/null
    ended 0 "$nothing" ''
}
check "a call with nothing to write ends well on a full device" idles_full

# Whether a pipe is a fault whose reader has gone: this program is not ended by the signal of it.
faults_unread() {
    (
        set +o pipefail
        { run gen examples/twisting/spec 20000 1 2>"$work/err"; echo "$status" >"$work/status"; } | head -c 1 >/dev/null
    )
    [ "$(<"$work/status")" = 4 ] && [ "$(<"$work/err")" = 'fault: writing' ]
}
check "a pipe whose reader has gone is a fault of writing" faults_unread

# The limit of files ends the program by a signal, or is a fault where the signal is ignored.
limited() {
    local message
    status=0
    rm -f "$work/limited"
    message=$( (
        if [ "$1" = 4 ]; then
            trap '' XFSZ
        fi
        ulimit -c 0
        ulimit -f 64
        exec "$program" gen examples/twisting/spec 20000 1 2>&1 >"$work/limited"
    ) 2>&1) || status=$?
    [ "$status" = "$1" ] && [ "$message" = "$2" ] && [ "$(stat -c %s "$work/limited")" = 65536 ] && head -c 65536 "$work/long" | cmp -s - "$work/limited"
}
check "the limit of files is a signal" limited 153 ''
check "the limit of files is a fault of writing where the signal is ignored" limited 4 'fault: writing'

# Files that change.

# Runs `ask` on 40,000 questions into a pipe of which one byte is read, then the file of questions is changed, and then the rest is read. So the first piece of them has been read before it is changed, and not the last, since the pipe has no room for the answers.
asks_changed() {
    local reader first
    rm -f "$work/answered" "$work/questions"
    mkfifo "$work/answered"
    yes 'r.a i1.y' | head -n 40000 >"$work/questions" || true
    "$program" ask $line/spec $line/view $line/labels "$work/questions" >"$work/answered" 2>"$work/err" </dev/null &
    reader=$!
    exec 8<"$work/answered"
    read -r -N 1 -u 8 first
    "$@" "$work/questions"
    { printf %s "$first"; cat <&8; } >"$work/out"
    exec 8<&-
    status=0
    wait "$reader" || status=$?
}
unlinked() {
    asks_changed rm
    yes yes | head -n 40000 >"$work/expected" || true
    ended 0 "$work/expected" ''
}
check "a file that is taken away while it is read is read to its end" unlinked

# The questions that were read are answered, and the file ends where it was cut: it was cut at the end of a line, a piece or more behind the beginning.
cut() {
    truncate -s 270000 "$1"
}
ended_early() {
    asks_changed cut
    yes yes | head -n 30000 >"$work/expected" || true
    ended 0 "$work/expected" ''
}
check "a file that is cut while it is read ends there" ended_early

# The stack: a member that is ignored, of 126 levels, in each of the files that are JSON.

reads_deep() {
    local deep more
    deep=$(printf '{"z":%.0s' {1..125})1$(printf '}%.0s' {1..125})
    more="{\"more\":$deep"
    sed "1s/^{/$more,/" $line/spec >"$work/deep_spec"
    echo "$more}" >"$work/deep_view"
    sed "s/^{/$more,/" $line/events >"$work/deep_events"
    status=0
    (
        ulimit -s 512
        exec "$program" trace "$work/deep_spec" "$work/deep_view" "$work/deep_events" $line/queries
    ) >"$work/out" 2>"$work/err" </dev/null || status=$?
    writes trace
}
check "JSON of 127 levels is read with a stack of 512 KiB" reads_deep

finish
