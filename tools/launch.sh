# What ./wfprov and ./preview share: a build that is a process of its own, one at a time, and the call of the program. It is no script to call.
# The caller has set `top`, the folder of the repository, and `called`, its own name, and has read current.sh.

say() {
    echo "$called: $*" >&2
}

# Runs a command that a signal can end, and gives its status. A shell that waits for a command in the foreground would answer the signal afterwards.
run() {
    [ -z "$ended" ] || return 143
    "$@" &
    child=$!
    [ -z "$ended" ] || kill "$child" 2>/dev/null
    # What a shell says of a command that a signal ended is said elsewhere.
    wait "$child" 2>/dev/null
    status=$?
    # The signal ends the wait before it ends the command.
    while [ "$status" -gt 128 ] && kill -0 "$child" 2>/dev/null; do
        wait "$child" 2>/dev/null
        status=$?
    done
    child=
    return "$status"
}

# Takes the lock of the descriptor 9, or with -n only if it is free. The command `rt` needs Python, so one of the two is there.
lock() {
    if command -v flock >/dev/null 2>&1; then
        exec flock "$@" 9
    fi
    exec python3 -c 'import fcntl, sys; fcntl.flock(9, fcntl.LOCK_EX | (fcntl.LOCK_NB if sys.argv[1:] else 0))' "$@" 2>/dev/null
}

# Ends a build that has not begun.
give_up() {
    [ -z "$ended" ] || exit 143
    say "the program cannot be built: $1"
    exit 126
}

# Begins a build of a program in a process of its own: its signals, its lock and its log. Only TERM ends it, and only while `run` waits.
# `rt` holds the lock too, so where it goes on without the rest of a build that was killed, the next build waits for it.
begin_build() {
    ended=
    child=
    trap '' HUP INT QUIT PIPE
    trap 'ended=yes; [ -z "$child" ] || kill "$child" 2>/dev/null' TERM
    (exec >&2) || exec 2>/dev/null
    mkdir -p "$out" || give_up "$out cannot be made"
    true 2>/dev/null >>"$1.lock" || give_up "$1.lock cannot be written"
    exec 9>>"$1.lock"
    if ! run lock -n; then
        [ -z "$ended" ] || exit 143
        say "another call builds the program; this one waits for it, and $log has what that one says"
        run lock || give_up "there is no lock: the command flock or python3 is needed"
    fi
    ! is_current "$1" || exit 0
    if ! command -v rt >/dev/null 2>&1; then
        say "the program is to be built, and the command rt of the Rattle kit is not found: add the kit's folder bin to PATH"
        exit 127
    fi
    true 2>/dev/null >"$log" || give_up "$log cannot be written"
}

# Ends where a build cannot go on, with what was said last. `leave` takes away what the build has made for itself.
stop() {
    tail -n 20 "$log" >&2
    say "the build failed: $1; all that was said stands in $log"
    leave 126
}

# Ends the build because a signal has come to the launcher.
end_build() {
    signal=$1
    [ -z "$builder" ] || kill "$builder" 2>/dev/null
}

# Starts the function `build`, waits for it, and passes on what ends the launcher.
have_built() {
    signal=
    builder=
    trap '' PIPE
    trap 'end_build 129' HUP
    trap 'end_build 130' INT
    trap 'end_build 131' QUIT
    trap 'end_build 143' TERM
    # A shell keeps what a redirection of a function takes away; `exec` lets go of it, so that nobody waits for the end of these streams.
    (exec </dev/null >/dev/null && build) &
    builder=$!
    [ -z "$signal" ] || kill "$builder" 2>/dev/null
    wait "$builder"
    status=$?
    while [ "$status" -gt 128 ] && kill -0 "$builder" 2>/dev/null; do
        wait "$builder"
        status=$?
    done
    trap - HUP INT QUIT TERM PIPE
    if [ -n "$signal" ]; then
        say "the build was ended; $kept"
        exit "$signal"
    fi
    [ "$status" = 0 ] || exit "$status"
}

# The forms of the commands, for one whose words are of none.
print_forms() {
    say "the commands are"
    while IFS= read -r form; do
        echo "  ./$called $form"
    done <"$top/tools/forms" >&2
    say "docs/TUTORIAL.md has a first workflow, and docs/FORMATS.md the files and the other words"
}

# Whether a word surely is one of the kind that a form names. Of other kinds, and of doubtful words, the program decides.
is_surely() {
    case $1:$2 in
        N:0?* | SEED:0?* | N:*[!0123456789]* | SEED:*[!0123456789]* | HEX:*[!0123456789ABCDEFabcdef]*) return 1 ;;
        SPEC:?* | VIEW:?* | EVENTS:?* | LABELS:?* | QUERIES:?*) ;;
        N:?*) [ ${#2} -le 6 ] ;;
        SEED:?*) [ ${#2} -le 19 ] ;;
        HEX:?*) [ $((${#2} % 2)) -eq 0 ] ;;
        *) return 1 ;;
    esac
}

# Whether the words of the call surely are those of a form.
fits() {
    rest=$1
    shift
    [ "${rest%% *}" = "$1" ] || return 1
    shift
    for word; do
        [ "$rest" != "${rest#* }" ] || return 1
        rest=${rest#* }
        is_surely "${rest%% *}" "$word" || return 1
    done
    [ "$rest" = "${rest#* }" ]
}

# Whether the words surely are those of a command, in plain letters, so that the program has nothing to say of them.
is_sure() {
    case $* in
        *[!ABCDEFGHIJKLMNOPQRSTUVWXYZabcdefghijklmnopqrstuvwxyz0123456789_./,:=+@%~\ -]*) return 1 ;;
    esac
    while IFS= read -r form; do
        if fits "$form" "$@"; then
            return 0
        fi
    done <"$top/tools/forms"
    return 1
}

# Runs a program with the words of the call. It takes the place of the launcher, so that signals come to it;
# but where its words may be refused, the launcher waits for its status and shows the forms of the commands.
hand_over() {
    binary=$1
    shift
    if [ $# -gt 0 ] && is_sure "$@"; then
        exec "$binary" "$@"
    fi
    "$binary" "$@"
    status=$?
    [ "$status" -ne 1 ] || print_forms
    exit "$status"
}
