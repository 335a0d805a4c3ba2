#!/usr/bin/env bash
# Checks of the built program on the examples: what it writes, what it says and how it ends.
set -euo pipefail

cd "$(dirname "${BASH_SOURCE[0]}")/.."
. checks/count.sh
. checks/built.sh

# Runs the program, and keeps its text, its message and its status.
run() {
    local status=0
    "$program" "$@" >"$work/out" 2>"$work/err" </dev/null || status=$?
    echo "$status" >"$work/status"
}

# Whether the last run ended with this status, text and message.
ended() {
    [ "$(cat "$work/status")" = "$1" ] && cmp -s "$work/out" "$2" && cmp -s "$work/err" "$3"
}

# The text of a file of the folder of this check.
text() {
    printf '%b' "$2" >"$work/$1"
    echo "$work/$1"
}

# Whether an example is answered as its file says, whatever the folder is from which the program is called.
answers() {
    (cd "examples/$1" && run trace spec view events queries) && ended 0 "examples/$1/answers" "$nothing"
}

says() {
    local status=$1 message=$2
    shift 2
    run "$@" && ended "$status" "$nothing" "$(text expected "$message")"
}

line=examples/line
nothing=$(text nothing '')

check "the line example is answered" answers line
check "the phylogeny of one step is answered" answers phylogeny-once
check "the recursive phylogeny is answered under its view" answers phylogeny
check "each pair of items of the twisting grammar is answered" answers twisting
check "each pair of items of the pair grammar is answered" answers pair
check "last year's run of a workflow that has grown is answered" answers grown

check "no word is a usage" says 1 'usage: wfprov COMMAND WORDS\n'
check "too few words are a usage" says 1 'usage: wfprov COMMAND WORDS\n' trace $line/spec
check "too many words are a usage" \
    says 1 'usage: wfprov COMMAND WORDS\n' trace $line/spec $line/view $line/events $line/queries more
check "an unknown command is a usage" \
    says 1 'usage: wfprov COMMAND WORDS\n' Trace $line/spec $line/view $line/events $line/queries
check "a word that is not UTF-8 is a usage" \
    says 1 'usage: wfprov COMMAND WORDS\n' trace $'\xff' $line/view $line/events $line/queries

# Whether a specification is accepted with the text that stands beside it.
checks() {
    run check "examples/$1/spec" && ended 0 "examples/$1/check" "$nothing"
}

check "the line specification is accepted" checks line
check "the phylogeny of one step is accepted" checks phylogeny-once
check "the recursive phylogeny is accepted" checks phylogeny
check "the twisting grammar is accepted" checks twisting
check "the pair grammar is accepted" checks pair
check "a workflow that has grown is accepted" checks grown

# Whether a view is safe and shows what stands beside it.
shows() {
    run view "examples/$1/spec" "examples/$1/view" && ended 0 "examples/$1/shown" "$nothing"
}

check "the view of the line is shown" shows line
check "the view of the phylogeny of one step is shown" shows phylogeny-once
check "the view of the recursive phylogeny is shown" shows phylogeny
check "the view of a workflow that has grown is shown" shows grown
check "the view of the twisting grammar is shown" shows twisting
check "the view of the pair grammar is shown" shows pair
check "a view that is not safe is told with two expansions that disagree" \
    says 2 'refused: view: Unsafe module L one 2 other 1 input x1 output y1 joined one choice S=0 L=2\n' \
    view examples/skewed/spec examples/skewed/view
check "no command takes a view that is not safe" \
    says 2 'refused: view: Unsafe module L one 2 other 1 input x1 output y1 joined one choice S=0 L=2\n' \
    trace examples/skewed/spec examples/skewed/view $line/events $line/queries

# The skewed grammar under a view that does not expand the module whose expansions disagree.
outer() {
    run view examples/skewed/spec examples/skewed/outer &&
        ended 0 "$(text expected_out 'S expanded a1>b1 a1>b2 a2>b1 a2>b2\nL shown x1>y1 x1>y2 x2>y1 x2>y2\n')" "$nothing"
}
check "a view that does not expand what disagrees is safe" outer

# The line specification with this view.
refuses_view() {
    says 2 "refused: view: $1\n" view $line/spec "$(text some_view "$2")"
}
check "an unknown name comes before an atomic one" refuses_view 'UnknownModule expand 1' '{"expand":["P","Z"]}'
check "an unknown name to be expanded comes before one of deps" refuses_view 'UnknownModule expand 0' '{"expand":["Z"],"deps":[{"module":"Y","pairs":[]}]}'
check "an unknown module of deps comes before an atomic one to be expanded" refuses_view 'UnknownModule deps 0' '{"expand":["P"],"deps":[{"module":"Y","pairs":[]}]}'
check "an atomic module is not expanded" refuses_view 'NotComposite expand 1' '{"expand":["S","P"]}'
check "an atomic module to be expanded comes before deps on an expanded one" refuses_view 'NotComposite expand 0' '{"expand":["P","S"],"deps":[{"module":"S","pairs":[]}]}'
check "pairs of an expanded module are refused" refuses_view 'DepsOnExpanded deps 1' '{"deps":[{"module":"P","pairs":[]},{"module":"S","pairs":[]}]}'
check "pairs of an expanded module come before unknown ports" refuses_view 'DepsOnExpanded deps 1' '{"deps":[{"module":"P","pairs":[["x","z"]]},{"module":"S","pairs":[]}]}'
check "a pair names an input and then an output" refuses_view 'UnknownPort deps 0' '{"deps":[{"module":"P","pairs":[["y","x"]]}]}'
check "an unknown port comes before a module twice" refuses_view 'UnknownPort deps 1' '{"expand":["S","S"],"deps":[{"module":"P","pairs":[]},{"module":"Q","pairs":[["x","x"]]}]}'
check "a module twice to be expanded comes before one twice in deps" refuses_view 'ModuleTwice expand 1' '{"expand":["S","S"],"deps":[{"module":"P","pairs":[]},{"module":"P","pairs":[]}]}'
check "a module twice in deps is told by the later part" refuses_view 'ModuleTwice deps 1' '{"deps":[{"module":"P","pairs":[]},{"module":"P","pairs":[["x","y"]]}]}'
check "the form of expand comes before that of deps" refuses_view 'WrongShape expand' '{"expand":null,"deps":null}'
check "the form of deps is asked for" refuses_view 'WrongShape deps' '{"expand":["Z"],"deps":[{"module":"P"}]}'
check "a view that is no JSON is told" refuses_view 'NotJson' '{}}'

# A composite module whose deps part has no pairs joins nothing.
closed() {
    run view $line/spec "$(text shut '{"expand":[],"deps":[{"module":"S","pairs":[]}]}')" &&
        ended 0 "$(text expected_out 'S shown\n')" "$nothing"
}
check "a module with an empty list of pairs has none" closed

# What the outer view of the skewed grammar hides, it answers neither by yes nor by no.
hidden() {
    printf '{"start":"r"}\n{"expand":"r","production":0,"names":["l0"]}\n{"expand":"l0","production":1,"names":["w0","l1"]}\n' >"$work/inner"
    run trace examples/skewed/spec examples/skewed/outer "$work/inner" "$(text both 'r.a1 r.b2\nw0.y1 r.b1\nr.a1 w0.y1\nr.a1 l0.y1\n')" &&
        ended 0 "$(text expected_out 'yes\nhidden\nhidden\nunknown\n')" "$nothing"
}
check "items inside a module that is not expanded are hidden" hidden

# The recursive phylogeny under the default view, whose answers are those of the same file but for what the view changes.
recursive() {
    run trace examples/phylogeny/spec $line/view examples/phylogeny/events "$(text both 'run.cfg run.tree\nrun.cfg run.report\nrl0.m2 rl56.m2\nrl56.m2 rl0.m2\n')" &&
        ended 0 "$(text expected_out 'no\nyes\nyes\nno\n')" "$nothing"
}
check "the recursive phylogeny is answered under the default view" recursive

check "a module with two ways back is told with both" says 2 'refused: spec: TwoLoops L first 0 l1 second 0 l2\n' \
    check "$(text loops '{"start":"L","modules":[{"name":"L","in":["x"],"out":["y"]},{"name":"P","in":["x"],"out":["y"]}],"productions":[{"head":"L","body":[["l1","L"],["l2","L"]],"edges":[["l1.y","l2.x"]],"in":[["x","l1.x"]],"out":[["l2.y","y"]]},{"head":"L","body":[["w","P"]],"in":[["x","w.x"]],"out":[["w.y","y"]]}]}')"
# So many copies of a text with a number in it, with commas between.
copies() {
    seq -f "$1" -s, 1 "$2"
}

# A specification of S, P and further modules, with these productions.
large() {
    text large "{\"start\":\"S\",\"modules\":[{\"name\":\"S\"},{\"name\":\"P\"}$1],\"productions\":[$2]}"
}

check "a module with too many outputs comes before too many modules" says 2 'refused: spec: TooManyPorts module 2\n' \
    check "$(large ",{\"name\":\"W\",\"out\":[$(copies '"p%g"' 65)]},$(copies '{"name":"m%g"}' 1023)" '')"
check "too many modules come before too many productions" says 2 'refused: spec: TooManyModules\n' \
    check "$(large ",$(copies '{"name":"m%g"}' 1023)" "$(copies '{"head":"S","body":[["u%g","Z"]]}' 1025)")"
check "too many productions come before unknown modules" says 2 'refused: spec: TooManyProductions\n' \
    check "$(large '' "$(copies '{"head":"S","body":[["u%g","Z"]]}' 1025)")"
full='{"head":"S","body":['$(copies '["u%g","P"]' 64)']}'
twice='{"head":"S","body":[["u","P"],["u","P"]]}'
check "a long body comes before a position twice" says 2 'refused: spec: BodyTooLong production 1\n' \
    check "$(large '' "$twice,{\"head\":\"S\",\"body\":[$(copies '["u%g","P"]' 65)]}")"
check "large bodies come before a position twice" says 2 'refused: spec: BodiesTooLarge\n' \
    check "$(large '' "$twice,$(for _ in {1..16}; do printf '%s,' "$full"; done)$full")"
check "a position twice comes before an unknown port" says 2 'refused: spec: PositionTwice production 1\n' \
    check "$(large '' "{\"head\":\"S\",\"body\":[[\"u\",\"P\"]],\"in\":[[\"a\",\"u.x\"]]},$twice")"
check "a command with a word too many is a usage" says 1 'usage: wfprov COMMAND WORDS\n' check $line/spec more
check "an absent specification is a fault of reading" says 3 'fault: reading spec\n' check "$work/absent"

# The line specification with one text in place of another.
line_but() {
    sed "s/$2/$3/" $line/spec >"$work/$1"
    echo "$work/$1"
}

check "a form is told by its member" says 2 'refused: spec: WrongShape modules\n' check "$(line_but shape '\["y"\]' '"y"')"
check "a name is told by its place" says 2 'refused: spec: NameBad module 1\n' check "$(line_but name '"name":"P"' '"name":"P!"')"
check "pairs that are no list are told by their member" says 2 'refused: spec: WrongShape deps\n' check "$(line_but pairs '"start"' '"deps":[{"module":"P","pairs":3}],"start"')"
check "a specification that is too long is told before its form" says 2 'refused: spec: TooLong\n' check "$( (cat $line/spec; head -c 16777216 /dev/zero | tr '\0' '[') >"$work/over"; echo "$work/over")"
check "an unknown port is told by its production" \
    says 2 'refused: spec: UnknownPort production 0\n' check "$(line_but port '"u.y","v.x"' '"u.z","v.x"')"
check "a module that is not reached is told by its name" says 2 'refused: spec: Unreachable R\n' \
    check "$(text reach '{"start":"S","modules":[{"name":"S"},{"name":"R"},{"name":"W"}],"productions":[{"head":"S","body":[["q","W"]]},{"head":"R","body":[["q","W"]]}]}')"

check "an absent view of the command view is a fault of reading" says 3 'fault: reading view\n' view $line/spec "$work/absent"
check "the command view with a word too many is a usage" says 1 'usage: wfprov COMMAND WORDS\n' view $line/spec $line/view more
for place in spec view events queries; do
    files=()
    for file in spec view events queries; do
        if [ "$file" = "$place" ]; then
            files+=("$work/absent")
        else
            files+=("$line/$file")
        fi
    done
    check "an absent file for $place is a fault of reading" says 3 "fault: reading $place\n" trace "${files[@]}"
done
check "a folder is a fault of reading" says 3 'fault: reading spec\n' trace $line $line/view $line/events $line/queries
check "a refused file comes before an absent one" \
    says 2 'refused: spec: NotJson\n' trace "$(text cut '{"start"')" "$work/absent" $line/events $line/queries

# Of a run in which nothing is expanded the output rests on the input, however it will be expanded.
begun() {
    run trace $line/spec $line/view "$(text begun '{"start":"r"}\n')" "$(text ports 'r.a r.b\nr.b r.a\nr.a i1.y\n')" &&
        ended 0 "$(text expected_out 'yes\nno\nunknown\n')" "$nothing"
}
check "a run that is not finished is answered" begun
# The line example with these events.
refuses_events() {
    says 2 "refused: events $1\n" trace $line/spec $line/view "$2" $line/queries
}
check "a line that is no JSON is told before later lines" \
    refuses_events 'line 3: NotJson' "$(text cut_event '{"start":"r"}\n\n{"expand":"r",\n{"start":1}\n')"
check "a line that is no event is told before later lines" \
    refuses_events 'line 2: WrongShape' "$(text no_event '{"start":"r"}\n{"start":"r","expand":"r"}\nx\n')"
check "an event is told before a later line that is too long" \
    refuses_events 'line 1: NameBad' "$( (echo '{"start":"?"}'; head -c 65537 /dev/zero) >"$work/early"; echo "$work/early")"
check "a line that is too long is told before its form" \
    refuses_events 'line 2: LineTooLong' "$( (echo '{"start":"r"}'; head -c 65537 /dev/zero; echo; echo x) >"$work/long_line"; echo "$work/long_line")"
check "the longest line is read" \
    refuses_events 'line 1: NotJson' "$( (head -c 65536 /dev/zero; echo) >"$work/longest"; echo "$work/longest")"
check "a report that contradicts an earlier one is told by its line" \
    says 2 'refused: events line 2: Conflict with 1\n' trace $line/spec $line/view "$(text twice '{"start":"r"}\n{"start":"s"}\n')" $line/queries
check "a report that is held is told at the end of the file" \
    refuses_events 'line 1: Orphan' "$(text early '{"expand":"q","production":0,"names":["x"]}\n{"start":"r"}\n')"
check "a report that is held is not told before a later line" \
    refuses_events 'line 2: NotJson' "$(text early_cut '{"expand":"q","production":0,"names":["x"]}\nx\n')"

answered_then_refused() {
    run trace $line/spec $line/view $line/events "$(text some 'r.a r.b\nr.a\nr.b r.a\n')" &&
        ended 2 "$(text expected_out 'yes\n')" "$(text expected 'refused: queries line 2: LineWrong\n')"
}
check "a line that is no query is refused behind the answers before it" answered_then_refused

is_empty_of() {
    run trace $line/spec $line/view $line/events "$nothing" && ended 0 "$nothing" "$nothing"
}
check "no query has no answer" is_empty_of

# Whether the label file of an example is the one that stands beside it, to the byte.
labels() {
    run ingest "examples/$1/spec" "examples/$1/events" && ended 0 "examples/$1/labels" "$nothing"
}
check "the line example is labelled" labels line
check "the phylogeny of one step is labelled" labels phylogeny-once
check "the recursive phylogeny is labelled" labels phylogeny
check "the twisting grammar is labelled" labels twisting
check "the pair grammar is labelled" labels pair

# Last year's label file is what `ingest` writes of last year's specification, and that of this year has another digest alone.
labels_of_before() {
    run ingest examples/grown/before examples/grown/events && ended 0 examples/grown/labels "$nothing" &&
        run ingest examples/grown/spec examples/grown/events && ! cmp -s "$work/out" examples/grown/labels &&
        cmp -s <(tail -c +37 "$work/out") <(tail -c +37 examples/grown/labels)
}
check "last year's run is labelled alike by the specifications of both years" labels_of_before

# Whether a label file of so many bytes from the front of the line example's is written, with this end and message.
labels_until() {
    run ingest $line/spec "$2" && head -c "$1" $line/labels >"$work/begun" && ended "$3" "$work/begun" "$(text expected "$4")"
}
begun='{"start":"r"}\n'
check "a run that was only begun is labelled" labels_until 50 "$(text begun_run "$begun")" 0 ''
check "no event has the head of a label file alone" labels_until 36 "$nothing" 0 ''
check "an absent run leaves the head of its label file" labels_until 36 "$work/absent" 3 'fault: reading events\n'
check "a refused event leaves the entries of the events before it" \
    labels_until 50 "$(text begun_twice "$begun"'{"start":"s"}\n')" 2 'refused: events line 2: Conflict with 1\n'
check "a line that is no JSON leaves the entries of the events before it" \
    labels_until 50 "$(text begun_cut "$begun\n{\"expand\"\n")" 2 'refused: events line 3: NotJson\n'
check "a line that is no event leaves the entries of the events before it" \
    labels_until 50 "$(text begun_other "$begun{\"expand\":\"r\"}\n")" 2 'refused: events line 2: WrongShape\n'

long_line() {
    { printf '%b' "$begun"; head -c 65537 /dev/zero | tr '\0' ' '; } >"$work/long_line"
    labels_until 50 "$work/long_line" 2 'refused: events line 2: LineTooLong\n'
}
check "a line that is too long leaves the entries of the events before it" long_line
check "a refused specification leaves no label file" says 2 'refused: spec: NotJson\n' ingest "$nothing" $line/events
check "the command ingest with a word too many is a usage" says 1 'usage: wfprov COMMAND WORDS\n' ingest $line/spec $line/events more

full_labels() {
    [ -w /dev/full ] || return 0
    local status=0
    "$program" ingest $line/spec $line/events >/dev/full 2>"$work/err" || status=$?
    [ "$status" = 4 ] && cmp -s "$work/err" "$(text expected 'fault: writing\n')"
}
check "a full device is a fault of writing labels" full_labels

# The items of a label file, each with its label in hexadecimal digits, a line for each.
labels_in() {
    local digits at=72 length name size
    digits=$(od -An -v -tx1 "$1" | tr -d ' \n')
    while [ "$at" -lt "${#digits}" ]; do
        length=$((16#${digits:at:2} * 2))
        name=$(printf '%b' "$(sed 's/../\\x&/g' <<<"${digits:at+2:length}")")
        at=$((at + 2 + length))
        size=$((16#${digits:at:4} * 2))
        echo "$name ${digits:at+4:size}"
        at=$((at + 4 + size))
    done
}

# What two labels of an example tell, in the words of an answer: unknown where an item has no label.
told_by_labels() {
    local first second
    first=$(sed -n "s/^$2 //p" "$work/labels")
    second=$(sed -n "s/^$3 //p" "$work/labels")
    if [ -z "$first" ] || [ -z "$second" ]; then
        echo unknown
    else
        "$program" decide "examples/$1/spec" "examples/$1/view" "$first" "$second" | sed 's/^hidden .*/hidden/'
    fi
}

# Whether the labels of an example tell what its answers are, without the run.
decides_alike() {
    local first second
    labels_in "examples/$1/labels" >"$work/labels"
    while read -r first second; do
        told_by_labels "$1" "$first" "$second"
    done <"examples/$1/queries" >"$work/told"
    cmp -s "$work/told" "examples/$1/answers"
}
for example in line phylogeny-once grown phylogeny twisting pair mapping-cwl mapping-nextflow; do
    check "two labels of $example tell what its run tells" decides_alike "$example"
done
check "bytes that are no label are refused" says 2 'refused: label 1: Malformed\n' decide $line/spec $line/view b1 20
check "the second label is tried, too" says 2 'refused: label 2: Malformed\n' decide $line/spec $line/view 20 ''
check "an odd number of digits is a usage" says 1 'usage: wfprov COMMAND WORDS\n' decide $line/spec $line/view 2 20
check "a view is tried before the labels" says 2 'refused: view: NotJson\n' decide $line/spec "$nothing" b1 20

# Whether the label file of an example answers its queries as its run does.
asks_alike() {
    run ask "examples/$1/spec" "examples/$1/view" "examples/$1/labels" "examples/$1/queries" &&
        ended 0 "examples/$1/answers" "$nothing"
}
for example in line phylogeny-once grown phylogeny twisting pair mapping-cwl mapping-nextflow; do
    check "the label file of $example answers as its run does" asks_alike "$example"
done

# Whether a label file is refused where the specification does not name the version that it was written for.
refuses_unnamed() {
    sed 's/"versions":\[\[9,3\]\]/"versions":[[9,2],[12,5]]/' examples/grown/spec >"$work/unnamed" &&
        says 2 'refused: labels: OtherSpec\n' ask "$work/unnamed" examples/grown/view examples/grown/labels examples/grown/queries
}
check "a label file of a version that is not named is refused" refuses_unnamed

# Whether what `ingest` writes while a run grows answers what its beginnings ask.
asks_while_it_grows() {
    local events
    for events in 1 2 30 59 61; do
        head -n "$events" examples/phylogeny/events >"$work/begun"
        "$program" ingest examples/phylogeny/spec "$work/begun" >"$work/begun_labels" || return 1
        run trace examples/phylogeny/spec examples/phylogeny/view "$work/begun" examples/phylogeny/queries || return 1
        cp "$work/out" "$work/traced"
        run ask examples/phylogeny/spec examples/phylogeny/view "$work/begun_labels" examples/phylogeny/queries
        ended 0 "$work/traced" "$nothing" || return 1
    done
}
check "a run is answered alike by its events and its labels while it grows" asks_while_it_grows

# The first bytes of the label file of the line.
labels_cut() {
    head -c "$1" $line/labels >"$work/cut_labels"
    echo "$work/cut_labels"
}
refuses_labels() {
    says 2 "refused: labels: $1\n" ask "$2" $line/view "$3" $line/queries
}

labels_refused() {
    ended 2 "$nothing" "$(text expected "refused: labels: $1\n")"
}

# Whether the label file of the line, cut at each length, is no label file where its head is not whole, is truncated at the entry that is not whole, and else answers from the entries that it has.
tells_cuts() {
    local length queries
    queries=$(text two_queries 'r.a i1.y\nr.a r.b\n')
    for length in {0..58}; do
        run ask $line/spec $line/view "$(labels_cut "$length")" "$queries"
        case $length in
            36 | 43) ended 0 "$(text expected_out 'unknown\nunknown\n')" "$nothing" ;;
            50) ended 0 "$(text expected_out 'unknown\nyes\n')" "$nothing" ;;
            58) ended 0 "$(text expected_out 'yes\nyes\n')" "$nothing" ;;
            ? | [12]? | 3[0-5]) labels_refused NotLabels ;;
            3? | 4[0-2]) labels_refused 'Truncated offset 36' ;;
            4?) labels_refused 'Truncated offset 43' ;;
            5?) labels_refused 'Truncated offset 50' ;;
        esac || return 1
    done
}
check "a label file that is cut is told at each length" tells_cuts

# The label file of the line with this text in the place of what stands behind so many bytes.
labels_with() {
    printf '%b' "$2" >"$work/part"
    { head -c "$1" $line/labels; cat "$work/part"; tail -c +"$(($1 + 1 + $(wc -c <"$work/part")))" $line/labels; } >"$work/changed"
    echo "$work/changed"
}
check "another first byte is that of no label file" refuses_labels NotLabels $line/spec "$(labels_with 0 X)"
check "another number of the form is that of no label file" refuses_labels NotLabels $line/spec "$(labels_with 3 2)"
check "another bit of the digest is that of another grammar" refuses_labels OtherSpec $line/spec "$(labels_with 35 '\x8f')"
check "a name without a dot is told with its entry" refuses_labels 'BadName entry 1' $line/spec "$(labels_with 44 rxb)"
check "a name that stands twice is told with its second entry" refuses_labels 'NameTwice entry 1' $line/spec "$(labels_with 44 r.a)"
check "a bit behind a label is told with its entry" refuses_labels 'BadLabel entry 2' $line/spec "$(labels_with 57 '\xb1')"

# The label file of the line with these bytes in the place of all behind so many bytes.
labels_then() {
    { head -c "$1" $line/labels; printf '%b' "$2"; } >"$work/ended_labels"
    echo "$work/ended_labels"
}
check "a wrong entry is told before one behind it that is not whole" refuses_labels 'BadLabel entry 0' $line/spec "$(labels_then 36 '\x03r.a\0\x01\x28\x03')"
check "an entry that is not whole is told before its name" refuses_labels 'Truncated offset 36' $line/spec "$(labels_then 36 '\x03rxa\0\x02\x20')"
check "a name that stands twice is told before its label" refuses_labels 'NameTwice entry 3' $line/spec "$(labels_then 58 '\x03r.a\0\x01\x28')"
check "an empty name is told with its entry" refuses_labels 'BadName entry 3' $line/spec "$(labels_then 58 '\0\0\x01\x20')"
check "an empty label is told with its entry" refuses_labels 'BadLabel entry 3' $line/spec "$(labels_then 58 '\x03x.y\0\0')"
check "a label and a byte are told with their entry" refuses_labels 'BadLabel entry 3' $line/spec "$(labels_then 58 '\x03x.y\0\x02\xb0\0')"

# An item has the name that the label file gives it.
renamed() {
    run ask $line/spec $line/view "$(labels_with 51 k1.y)" "$(text renamed 'r.a i1.y\nr.a k1.y\n')" &&
        ended 0 "$(text expected_out 'unknown\nyes\n')" "$nothing"
}
check "an item is found by the name in the label file" renamed
check "labels of another grammar are told" refuses_labels OtherSpec examples/phylogeny/spec $line/labels
check "absent labels are a fault of reading" says 3 'fault: reading labels\n' ask $line/spec $line/view "$work/absent" $line/queries
check "labels are tried before queries are read" refuses_labels NotLabels $line/spec "$nothing"

asked_then_refused() {
    run ask $line/spec $line/view $line/labels "$(text some 'r.a r.b\n\nr.a\nr.b r.a\n')" &&
        ended 2 "$(text expected_out 'yes\n')" "$(text expected 'refused: queries line 3: LineWrong\n')"
}
check "a line that asks nothing is told by its number behind the answers before it" asked_then_refused

# Whether a second line of queries, of so many letters, is refused so, by the events and by the labels of the line.
refuses_letters() {
    local given
    { printf 'r.a r.b\n'; head -c "$1" /dev/zero | tr '\0' 'a'; echo; } >"$work/letters"
    for given in 'trace events' 'ask labels'; do
        run "${given% *}" $line/spec $line/view "$line/${given#* }" "$work/letters"
        ended 2 "$(text expected_out 'yes\n')" "$(text expected "refused: queries line 2: $2\n")" || return 1
    done
}
check "a line of queries of 65,536 letters is read" refuses_letters 65536 LineWrong
check "a line of queries of 65,537 letters is too long" refuses_letters 65537 LineTooLong

# Whether queries of an example under another view of it are answered so, by its events and by its labels.
answers_under() {
    local example=examples/$1 given
    for given in 'trace events' 'ask labels'; do
        run "${given% *}" "$example/spec" "$example/$2" "$example/${given#* }" "$(text under "$3")"
        ended 0 "$(text expected_out "$4")" "$nothing" || return 1
    done
}
check "a view that expands the start alone hides what is inside, and joins all ways through it" \
    answers_under twisting outer 'r.a1 r.b1\nr.a1 r.b2\nw0.y1 r.b1\n' 'yes\nyes\nhidden\n'
check "the view of the README's picture is answered as it says there" \
    answers_under phylogeny outer 'run.cfg run.report\nrun.cfg run.tree\nsp.a run.tree\n' 'yes\nno\nhidden\n'
check "a view that expands one module of a cycle hides what is inside the other" \
    answers_under pair first 'r.a x0.y\nr.a y1.y\n' 'yes\nhidden\n'

# A label file of the phylogeny, made by hand: its two inputs, and what is made after the greatest number of repetitions.
asks_far() {
    (head -c 36 examples/phylogeny/labels; printf '\x08run.seqs\x00\x01\x20\x07run.cfg\x00\x01\x10\x06far.m2\x00\x08\xe8\x00\x00\x02\x00\x00\x00\xc0') >"$work/far"
    for _ in {1..5000}; do printf 'run.seqs far.m2\nrun.cfg far.m2\n'; done >"$work/far_queries"
    for _ in {1..5000}; do printf 'yes\nno\n'; done >"$work/far_answers"
    timeout 10 "$program" ask examples/phylogeny/spec examples/phylogeny/view "$work/far" "$work/far_queries" >"$work/far_told" &&
        cmp -s "$work/far_told" "$work/far_answers"
}
# A walk along the chain would take some 10^11 steps.
check "ten thousand questions on the longest chain are answered within ten seconds, though no run is so long" asks_far

# A label file of the twisting grammar, made by hand: ports of its root, an item of its first instances, and three behind the longest chain.
asks_behind_the_longest_chain() {
    (
        head -c 36 examples/twisting/labels
        printf '\x04r.a1\x00\x01\x20\x04r.b1\x00\x01\x60\x04r.b2\x00\x01\x50\x05w0.y1\x00\x01\xfb'
        printf '\x04w.y1\x00\x07\xf0\x00\x00\x08\x00\x00\x03\x04l.y1\x00\x08\xf0\x00\x00\x08\x00\x00\x02\xc0'
        printf '\x04l.y2\x00\x08\xf0\x00\x00\x08\x00\x00\x02\x40'
    ) >"$work/longest"
    run ask examples/twisting/spec examples/twisting/view "$work/longest" \
        "$(text longest_queries 'r.a1 w.y1\nr.a1 l.y1\nr.a1 l.y2\nw.y1 r.b1\nw.y1 r.b2\nw0.y1 l.y1\n')" &&
        ended 0 "$(text expected_out 'yes\nyes\nno\nyes\nno\nno\n')" "$nothing"
}
check "items behind the longest chain are told from others by their ports" asks_behind_the_longest_chain

# The same with three entries and nothing else of a run: an input, and two items behind 100,000 repetitions.
asks_from_three_labels() {
    (
        head -c 36 examples/twisting/labels
        printf '\x03p.a\x00\x01\x20\x03q.b\x00\x05\xf0\x00\x0c\x35\x0b\x03q.c\x00\x06\xf0\x00\x0c\x35\x0a\x80'
    ) >"$work/three"
    run ask examples/twisting/spec examples/twisting/view "$work/three" "$(text three_queries 'p.a q.b\np.a q.c\n')" &&
        ended 0 "$(text expected_out 'no\nyes\n')" "$nothing"
}
check "three labels answer alone" asks_from_three_labels

full_verdict() {
    [ -w /dev/full ] || return 0
    local status=0
    "$program" decide $line/spec $line/view 20 b0 >/dev/full 2>"$work/err" || status=$?
    [ "$status" = 4 ] && cmp -s "$work/err" "$(text expected 'fault: writing\n')"
}
check "a full device is a fault of writing a verdict" full_verdict

# A device that takes no byte stands in for a full disk.
full() {
    [ -w /dev/full ] || return 0
    local status=0
    "$program" trace $line/spec $line/view $line/events $line/queries >/dev/full 2>"$work/err" || status=$?
    [ "$status" = 4 ] && cmp -s "$work/err" "$(text expected 'fault: writing\n')"
}
check "a full device is a fault of writing" full

# Spaces, which no specification is made of.
spaces() {
    head -c "$2" /dev/zero | tr '\0' ' ' >"$work/$1"
    echo "$work/$1"
}

check "a view that is too long is refused" \
    says 2 'refused: view: TooLong\n' view $line/spec "$(spaces long_view 16777217)"
check "a specification that is too long is refused" \
    says 2 'refused: spec: TooLong\n' trace "$(spaces long 16777217)" $line/view $line/events $line/queries

# The program starts within this limit, and has no room for the file.
wanting() {
    (ulimit -v 12000 && says 5 'no memory\n' trace "$(spaces large 16000000)" $line/view $line/events $line/queries)
}
check "want of memory is told" wanting

# EVENTS as they come through a pipe.
ingests_from_a_pipe() {
    local status=0
    cat examples/phylogeny/events | "$program" ingest examples/phylogeny/spec /dev/stdin >"$work/out" 2>"$work/err" || status=$?
    [ "$status" = 0 ] && cmp -s "$work/out" examples/phylogeny/labels && cmp -s "$work/err" "$nothing"
}
check "events may come through a pipe" ingests_from_a_pipe

# Each file of the longest command through a pipe of its own.
asks_from_pipes() {
    run ask <(cat $line/spec) <(cat $line/view) <(cat $line/labels) <(cat $line/queries) && ended 0 $line/answers "$nothing"
}
check "each file may come through a pipe" asks_from_pipes

# A folder is opened and cannot be read; the answers come to no line.
check "events that cannot be read are a fault" says 3 'fault: reading events\n' trace $line/spec $line/view "$work" $line/queries

# The label file up to where the events end with half a line.
ingests_half_a_line() {
    head -c -5 $line/events >"$work/half"
    run ingest $line/spec "$work/half"
    [ "$(cat "$work/status")" = 2 ] && head -c 36 $line/labels | cmp -s - <(head -c 36 "$work/out") && grep -q '^refused: events line [0-9]*: NotJson$' "$work/err"
}
check "half a line at the end of a whole file is a line" ingests_half_a_line

# The runs that were imported, with all that the program writes of them.
for example in mapping-cwl mapping-nextflow; do
    check "the run $example is answered" answers "$example"
    check "its specification is accepted" checks "$example"
    check "its view is shown" shows "$example"
    check "it is labelled" labels "$example"
done

# Whether the events of an example, in this order of lines, have the items of its label file, each with the same label.
labels_in_order() {
    shift_lines "$2" "examples/$1/events" >"$work/ordered" && run ingest "examples/$1/spec" "$work/ordered" &&
        ended 0 "$work/out" "$nothing" && python3 tools/labels.py lines "$work/out" | sort >"$work/ordered_lines" &&
        python3 tools/labels.py lines "examples/$1/labels" | sort | cmp -s - "$work/ordered_lines"
}
# Lines in reverse, exchanged in turn, or with each of them twice.
shift_lines() {
    case $1 in
        reverse) tac "$2" ;;
        exchanged) awk 'NR % 2 { held = $0; next } { print; print held; held = "" } END { if (held) print held }' "$2" ;;
        twice) cat "$2" "$2" ;;
    esac
}
for example in line phylogeny-once phylogeny twisting pair; do
    for order in reverse exchanged twice; do
        check "the $example example has the same labels, lines $order" labels_in_order $example $order
    done
done

# What a run of the line shows, and its run from two numbers.
exports() {
    run export $line/spec "$1" "$2" && ended 0 "$(text expected_out "$3")" "$nothing"
}
check "the line example is exported" exports $line/view $line/events \
    'leaf i1 P\nleaf i2 Q\nitem r.a\nitem r.b\nitem i1.y\nlink i1.y i2.x\nlink r.a i1.x\nlink i2.y r.b\nlink i1.x i1.y\nlink i2.x i2.y\n'
check "an instance that waits joins nothing" exports $line/view "$(text begun '{"start":"r"}\n')" 'pending r S\nitem r.a\nitem r.b\n'
check "what a view leaves closed has the pairs that it shows" exports "$(text shut '{"expand":[]}')" $line/events \
    'leaf r S\nitem r.a\nitem r.b\nlink r.a r.b\n'
check "a refused event leaves nothing of a run that is exported" \
    says 2 'refused: events line 2: Conflict with 1\n' export $line/spec $line/view "$(text twice '{"start":"r"}\n{"start":"s"}\n')"

generates() {
    run gen "examples/$1/spec" "$2" "$3" && ended 0 "$(text expected_out "$4")" "$nothing"
}
check "a run of the line is generated" generates line 5 7 '{"start":"n0"}\n{"expand":"n0","production":0,"names":["n1","n2"]}\n'
check "no expansion leaves the start of a run" generates line 0 7 '{"start":"n0"}\n'
check "the draws of a seed pick instances and productions" generates phylogeny 4 1 \
    '{"start":"n0"}\n{"expand":"n0","production":0,"names":["n1","n2","n3","n4"]}\n{"expand":"n3","production":3,"names":["n5","n6"]}\n{"expand":"n2","production":1,"names":["n7","n8"]}\n{"expand":"n8","production":1,"names":["n9","n10"]}\n'

# Two calls with the same numbers.
generates_again() {
    "$program" gen "examples/$1/spec" 2000 3 >"$work/made" && "$program" gen "examples/$1/spec" 2000 3 | cmp -s - "$work/made" && [ "$(wc -l <"$work/made")" = "$2" ]
}
check "a generated run is the same at each call" generates_again twisting 2001
for word in 007 4000001 +1 -1 1.0 1e3 '' ' 1' 18446744073709551617; do
    check "\`$word\` is no number of expansions" says 1 'usage: wfprov COMMAND WORDS\n' gen $line/spec "$word" 1
done
for word in 00 18446744073709551616 0x1; do
    check "\`$word\` is no seed" says 1 'usage: wfprov COMMAND WORDS\n' drill $line/spec $line/view 1 "$word"
done

# Whether a coarser view denies what a finer one affirms.
compares() {
    printf '%s' "$2" >"$work/fine"
    printf '%s' "$3" >"$work/coarse"
    run compare "examples/$1/spec" "$work/fine" "$work/coarse" && ended 0 "$(text expected_out "$4")" "$nothing"
}
whole='{"expand":["Main"],"deps":[{"module":"Refine","pairs":[["m","r"],["m","q"],["c","q"]]}]}'
narrow='{"expand":["Main"],"deps":[{"module":"Refine","pairs":[["m","r"],["m","q"]]}]}'
denied='no Refine c q n2\n{"start":"n0"}\n{"expand":"n0","production":0,"names":["n1","n2","n3","n4"]}\n'
check "a view that states the pairs of a closed step is exact" compares phylogeny '{}' "$whole" 'yes\nexact\n'
check "a view that states nothing of it adds a pair" compares phylogeny '{}' '{"expand":["Main"]}' 'yes\nextra Refine c r\n'
check "a view that leaves a pair out denies it, and a run shows it" compares phylogeny '{}' "$narrow" "$denied"
check "a denied pair is told before one that is added" compares phylogeny '{}' "${narrow%]]*}],[\"c\",\"r\"]]}]}" "$denied"
check "a view is exact beside itself" compares twisting '{}' '{}' 'yes\nexact\n'
check "a view that closes a step that exchanges its ways adds a pair" compares twisting '{}' '{"expand":["S"]}' 'yes\nextra L x1 y2\n'
check "the root itself may be denied" compares line '{}' '{"expand":[],"deps":[{"module":"S","pairs":[]}]}' 'no S a b n0\n{"start":"n0"}\n'
refuses_coarse() {
    printf '%s' "$2" >"$work/fine"
    printf '%s' "$3" >"$work/coarse"
    says 2 "refused: coarse: $4\n" compare "examples/$1/spec" "$work/fine" "$work/coarse"
}
check "a view that opens what the other closes is not coarser" refuses_coarse phylogeny '{"expand":["Main"]}' '{}' 'NotCoarser Refine'
check "so it is where neither sees the step" refuses_coarse phylogeny '{"expand":[]}' '{"expand":["Build"]}' 'NotCoarser Build'
check "a coarser view is tried by itself first" refuses_coarse phylogeny '{"expand":[]}' '{"expand":["Main","Nothing"]}' 'UnknownModule expand 1'

# What a view shows, written as a package.
packages() {
    printf '%s' "$2" >"$work/view"
    run package "examples/$1/spec" "$work/view" && ended 0 "$(text expected_out "$3\n")" "$nothing"
}
shut='{"package":1,"start":"m0","modules":[{"name":"m0","in":["i0"],"out":["o0"]}],"productions":[],"deps":[],"loops":[]}'
check "a view that opens nothing has a package of one module" packages line '{"expand":[]}' "$shut"
twisting='{"package":1,"start":"m0","modules":[{"name":"m0","in":["i0","i1"],"out":["o0","o1"]},{"name":"m1","in":["i0","i1"],"out":["o0","o1"]},{"name":"m2","in":["i0","i1"],"out":["o0","o1"]},{"name":"m3","in":["i0","i1"],"out":["o0","o1"]}],"productions":[{"head":"m0","body":[["p0","m1"]],"edges":[],"in":[["i0","p0.i0"],["i1","p0.i1"]],"out":[["p0.o0","o0"],["p0.o1","o1"]]},{"head":"m1","body":[["p0","m2"],["p1","m1"],["p2","m2"]],"edges":[["p0.o0","p1.i0"],["p0.o1","p1.i1"],["p1.o0","p2.i0"],["p1.o1","p2.i1"]],"in":[["i0","p0.i0"],["i1","p0.i1"]],"out":[["p2.o0","o0"],["p2.o1","o1"]]},{"head":"m1","body":[["p0","m3"]],"edges":[],"in":[["i0","p0.i0"],["i1","p0.i1"]],"out":[["p0.o0","o0"],["p0.o1","o1"]]}],"deps":[{"module":"m2","pairs":[["i0","o1"],["i1","o0"]]},{"module":"m3","pairs":[["i0","o0"],["i1","o1"]]}],"loops":[["m1",1,1]]}'
check "a package has the pairs of the closed modules and the steps that lead back" packages twisting '{}' "$twisting"
check "an example has its package" packages line '{}' "$(cat examples/line/package)"
check "a view that opens nothing hides pairs and steps" packages twisting '{"expand":[]}' '{"package":1,"start":"m0","modules":[{"name":"m0","in":["i0","i1"],"out":["o0","o1"]}],"productions":[],"deps":[],"loops":[]}'

# What two labels tell by a package, and what is no package.
consults() {
    printf '%s' "$1" >"$work/package"
    if [ "$4" = 0 ]; then
        run consult "$work/package" "$2" "$3" && ended 0 "$(text expected_out "$5\n")" "$nothing"
    else
        says "$4" "$5\n" consult "$work/package" "$2" "$3"
    fi
}
check "an output of the root rests on its input" consults "$shut" 20 60 0 yes
check "a label of what the package does not show is hidden" consults "$shut" 20 b0 0 'hidden 2'
check "so is the first, whatever its bytes go on with" consults "$shut" b1 20 0 'hidden 1'
check "a port that the root has not is no label" consults "$shut" 10 20 2 'refused: label 1: Malformed'
check "the second is tried before the first is answered" consults "$shut" b1 10 2 'refused: label 2: Malformed'
check "other spaces and a further member change nothing" consults " { \"versions\":3,${shut#?}" 20 60 0 yes
check "a package has six members" consults '{}' 20 60 2 'refused: package: NotPackage'
check "text behind the value is no JSON" consults "$shut}" 20 60 2 'refused: package: NotJson'
check "its start module is one of its modules" consults "${shut/m0/m1}" 20 60 2 'refused: package: BadPackage'
check "a module that leads back has an entry" consults "${twisting/\[\"m1\",1,1\]/}" 20 60 2 'refused: package: BadPackage'
check "and it is the step that leads back" consults "${twisting/\[\"m1\",1,1\]/[\"m1\",1,0]}" 20 60 2 'refused: package: BadPackage'

# Paths whose modules an automaton accepts.
passes() {
    printf '%s' "$1" >"$work/auto"
    printf "$2" >"$work/queries"
    run words $line/spec $line/view "$work/auto" $line/labels "$work/queries" && ended 0 "$(text expected_out "$3")" "$nothing"
}
past='{"states":2,"start":0,"accept":[1],"moves":[[0,"Q",1]]}'
check "a path that passes a module is told from one that does not" passes "$past" 'r.a r.b\nr.a i1.y\ni1.y r.b\nr.b r.a\nr.a i2.y\n' 'yes\nno\nyes\nno\nunknown\n'
check "the file of the example is this automaton" test "$(cat $line/auto)" = "$past"
check "an automaton that accepts every word answers as \`ask\`" passes '{"states":1,"start":0,"accept":[0]}' "$(sed 's/$/\\n/' $line/queries | tr -d '\n')" "$(sed 's/$/\\n/' $line/answers | tr -d '\n')"
refuses_words() {
    says 2 "refused: $2\n" words "$3" "$4" "$1" "$5" $line/queries
}
check "an automaton is refused before the labels are read" refuses_words "$(text no_states '{}')" 'auto: WrongShape states' $line/spec $line/view "$work/absent"
check "a view is refused before the automaton is read" refuses_words "$work/absent" 'view: NotJson' $line/spec "$(text no_view '')" $line/labels
check "labels are read behind the automaton" refuses_words $line/auto 'labels: NotLabels' $line/spec $line/view $line/spec
# The automaton of the example, with so many bytes of spaces before it that it has this length.
padded_auto() {
    { head -c "$(($1 - $(wc -c <$line/auto)))" /dev/zero | tr '\0' ' ' && cat $line/auto; } >"$work/long"
    echo "$work/long"
}
reads_long_auto() {
    run words $line/spec $line/view "$(padded_auto 16777216)" $line/labels "$(text one 'r.a r.b\n')" && ended 0 "$(text expected_out 'yes\n')" "$nothing"
}
check "an automaton of 16,777,216 bytes is read" reads_long_auto
check "one byte more is too long" refuses_words "$(padded_auto 16777217)" 'auto: TooLong' $line/spec $line/view $line/labels
check "an automaton that is not there is told" says 3 'fault: reading auto\n' words $line/spec $line/view "$work/absent" $line/labels $line/queries

# The items on which an item rests, and those that rest on it.
lists() {
    local command=$1 example=$2 item=$3
    run "$command" "examples/$example/spec" "examples/$example/view" "examples/$example/labels" "$item" && ended 0 "$(text expected_out "$4")" "$nothing"
}
check "the items on which an output rests are listed" lists lineage line r.b 'r.a\ni1.y\n'
check "the items that rest on an input are listed" lists impact line r.a 'r.b\ni1.y\n'
check "an input rests on nothing" lists lineage line r.a ''
check "nothing rests on an output" lists impact line r.b ''
check "an item that is not in the file is unknown" lists impact line i2.y 'unknown\n'
check "an item that the view hides is hidden" lists lineage phylogeny sp.a 'hidden\n'
for word in '' r.a.b ra .a r. "r.$(printf 'a%.0s' {1..65})"; do
    check "\`$word\` is no name of an item" says 1 'usage: wfprov COMMAND WORDS\n' lineage $line/spec $line/view $line/labels "$word"
done

# Whether what is listed for each item of an example is what \`ask\` answers yes to, over all pairs.
lists_what_is_answered() {
    local folder=examples/$1
    python3 checks/listed.py "$program" "$folder/spec" "$folder/view" "$folder/labels"
}
for example in line phylogeny twisting pair; do
    check "what is listed for the items of $example is what \`ask\` answers yes to" lists_what_is_answered "$example"
done

# Why one item rests on another, and whether a chain is one.
explains() {
    local example=$1
    run explain "examples/$example/spec" "examples/$example/view" "examples/$example/events" "$2" "$3" && ended 0 "$(text expected_out "$4")" "$nothing"
}
check "the output of a line rests on its input by a chain of two steps" explains line r.a r.b 'r.a\nvia i1\ni1.y\nvia i2\nr.b\n'
check "an input rests on no output" explains line r.b r.a 'no\n'
check "an item does not rest on itself" explains line i1.y i1.y 'no\n'
check "a name of no item is unknown before a hidden one" explains phylogeny sp.a zz.b 'unknown\n'
check "a chain from an item that the view hides is hidden" explains phylogeny sp.a run.report 'hidden\n'
for word in '' r.a.b ra; do
    check "\`$word\` is no name of an item to explain" says 1 'usage: wfprov COMMAND WORDS\n' explain $line/spec $line/view $line/events r.a "$word"
done

# What is said of the lines of a chain.
verifies() {
    printf "$1" >"$work/chain"
    run verify $line/spec $line/view $line/events "$work/chain" && ended 0 "$(text expected_out "$2")" "$nothing"
}
check "a chain is one" verifies 'r.a\nvia i1\ni1.y\nvia i2\nr.b\n' 'yes\n'
check "a part of a chain is one" verifies 'i1.y\nvia i2\nr.b\n' 'yes\n'
check "a step through another instance is wrong" verifies 'r.a\nvia i2\ni1.y\n' 'no 2\n'
check "a step to another item is wrong" verifies 'r.a\nvia i1\nr.b\n' 'no 3\n'
check "a line that is passed over counts" verifies 'r.a\n\nvia i2\ni1.y\n' 'no 3\n'
check "an item alone is no chain" verifies 'r.a\n' 'no 2\n'
check "a chain does not end with an instance" verifies 'r.a\nvia i1\n' 'no 3\n'
check "a file without lines is no chain" verifies '' 'no 1\n'
refuses_chain() {
    printf "$1" >"$work/chain"
    says 2 "$2" verify $line/spec $line/view $line/events "$work/chain"
}
check "a line without the form of its turn is refused, whatever was wrong before" refuses_chain 'zz.z\nvia i1\ni1\n' 'refused: chain line 3: LineWrong\n'
check "two items one behind the other are refused" refuses_chain 'r.a\nr.b\n' 'refused: chain line 2: LineWrong\n'
check "the text \`no\` is no chain" refuses_chain 'no\n' 'refused: chain line 1: LineWrong\n'

# Whether a chain of an example that \`explain\` writes is one by \`verify\`.
verifies_what_is_explained() {
    local folder=examples/$1
    "$program" explain "$folder/spec" "$folder/view" "$folder/events" "$2" "$3" >"$work/chain" && run verify "$folder/spec" "$folder/view" "$folder/events" "$work/chain" && ended 0 "$(text expected_out 'yes\n')" "$nothing"
}
check "a chain of the phylogeny is verified" verifies_what_is_explained phylogeny run.seqs run.report
check "a chain of the twisting run is verified" verifies_what_is_explained twisting r.a1 r.b1

# Whether the program takes the run that it makes, labels it, and answers alike from the events and from the labels.
takes_what_it_makes() {
    local spec=examples/$1/spec view=examples/$1/view
    "$program" gen "$spec" 300 18446744073709551615 >"$work/made" || return 1
    "$program" ingest "$spec" "$work/made" >"$work/made_labels" || return 1
    "$program" export "$spec" "$view" "$work/made" | sed -n 's/^item //p' >"$work/made_items" || return 1
    paste -d' ' "$work/made_items" <(tac "$work/made_items") >"$work/made_queries"
    run trace "$spec" "$view" "$work/made" "$work/made_queries"
    cp "$work/out" "$work/traced"
    [ -s "$work/traced" ] && ! grep -qv '^yes$\|^no$' "$work/traced" || return 1
    run ask "$spec" "$view" "$work/made_labels" "$work/made_queries"
    ended 0 "$work/traced" "$nothing"
}
for example in line phylogeny twisting pair; do
    check "a generated run of $example is taken, and its visible items are answered alike" takes_what_it_makes "$example"
done

drills() {
    run drill "examples/$1/spec" "examples/$1/view" "$2" "$3" && ended 0 "$(text expected_out "$4")" "$nothing"
}
check "a chain of the twisting grammar is drilled" drills twisting 1001 1 'instances 3002\nitems 4004\nbits 30\nyes 240\nno 760\nhidden 0\n'
check "a start of the line is drilled" drills line 0 3 'instances 1\nitems 2\nbits 3\nyes 246\nno 754\nhidden 0\n'

# A chain of 100,001 repetitions. Item 3 k + 2 is made by the k-th crossing of the two ports, so the first input reaches its first port after an even number of crossings alone. Each command has a minute.
chain() {
    timeout 60 "$program" "$1" examples/twisting/spec "${@:2}"
}
makes_the_chain() {
    chain gen 100002 1 >"$work/chain_events" && [ "$(wc -c <"$work/chain_events")" -eq 7451997 ]
}
labels_the_chain() {
    chain ingest "$work/chain_events" >"$work/chain_labels" && [ "$(wc -c <"$work/chain_labels")" -eq 7168525 ]
}
# Whether these queries at the end of the chain are answered so, from its labels or from its events.
answers_at_the_end() {
    printf 'n0.a1 n299999.y1\nn0.a1 n300002.y1\nn0.a1 n300002.y2\n' >"$work/end_queries"
    chain "$1" examples/twisting/view "$work/$2" "$work/end_queries" >"$work/end_answers" &&
        cmp -s "$work/end_answers" <(printf 'yes\nno\nyes\n')
}
answers_along_the_chain() {
    awk 'BEGIN { for (k = 0; k < 100000; k++) print "n0.a1 n" 3 * k + 2 ".y1" }' >"$work/along_queries"
    chain ask examples/twisting/view "$work/chain_labels" "$work/along_queries" >"$work/along_answers" &&
        cmp -s "$work/along_answers" <(awk 'BEGIN { for (k = 0; k < 100000; k++) print k % 2 ? "yes" : "no" }')
}
check "a chain of 100,001 repetitions is made within a minute, and has its worked size" makes_the_chain
check "it is labelled within a minute, and its label file has its worked size" labels_the_chain
check "three questions at its end are answered from its labels within a minute" answers_at_the_end ask chain_labels
check "they are answered from its events within a minute" answers_at_the_end trace chain_events
check "100,000 questions along it are answered from its labels within a minute" answers_along_the_chain

finish
