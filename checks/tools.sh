#!/usr/bin/env bash
# Checks of the tools: what they make of what the program writes, and what they say of what it does not write.
set -euo pipefail

cd "$(dirname "${BASH_SOURCE[0]}")/.."
. checks/count.sh
. checks/built.sh

bash tools/pictures.sh "$work" 2>"$work/said"

# Whether the picture of an example is the one that is kept, as text.
is_kept() {
    cmp -s "$work/$1.dot" "docs/pictures/$1.dot"
}

# Whether it is drawn as it is kept. Another version of Graphviz may draw it otherwise.
is_drawn() {
    command -v dot >/dev/null || return 0
    if [ "$(grep -o 'graphviz version [0-9.]*' "$work/$1.svg")" = "$(grep -o 'graphviz version [0-9.]*' "docs/pictures/$1.svg")" ]; then
        cmp -s "$work/$1.svg" "docs/pictures/$1.svg"
    else
        [ -s "$work/$1.svg" ]
    fi
}

for picture in line phylogeny phylogeny-spec twisting-skewed labels automaton crates; do
    check "the picture of $picture is the one that is kept" is_kept "$picture"
    check "the picture of $picture is drawn as it is kept" is_drawn "$picture"
done

# Whether dot.py ends with this status and message on these lines.
says() {
    local ended=0
    printf '%b' "$3" | python3 tools/dot.py >"$work/out" 2>"$work/err" || ended=$?
    [ "$ended" = "$1" ] && [ ! -s "$work/out" ] && [ "$(cat "$work/err")" = "$2" ]
}
check "a line of another form is told by its number" \
    says 2 'dot.py: line 2: neither `leaf`, `pending`, `item` nor `link` with its names' 'item r.a\nleaf r\n'
check "a port without a dot is told by its line" \
    says 2 'dot.py: line 1: `ra` is no instance and port with a dot between' 'link ra i1.x\n'
check "bytes that are no text are told" says 2 'dot.py: standard input: byte 0: not UTF-8, and so not what `export` writes' '\xff\n'
check "a file that is not there is told" test "$(python3 tools/dot.py "$work/absent" 2>&1)" = "dot.py: $work/absent: No such file or directory"
check "the tool tells how it is called" test "$(python3 tools/dot.py --help | grep -c 'export SPEC VIEW EVENTS')" = 1
check "a picture that cannot be written is told" test "$(python3 tools/dot.py --spec examples/line/spec 2>&1 >/dev/full)" = "dot.py: writing: No space left on device"

# A pending instance is drawn with a broken line, and pairs are listed where some are missing.
draws_pending() {
    printf 'pending m1 A\nleaf y1 Q\nitem y1.y\nlink y1.y m1.a\nlink y1.x y1.y\nlink y1.w y1.z\n' | python3 tools/dot.py >"$work/out"
    grep -q '^  "m1" .*style="dashed"' "$work/out" && grep -qF 'y1: Q\nx to y\nw to z' "$work/out" && grep -qF '"y1":"out_y" -> "m1":"in_a" [label="y1.y"];' "$work/out"
}
check "a pending instance and missing pairs are drawn" draws_pending
# A question on the line: the two items, and the chain between them where there is one.
marks() {
    WFPROV=$program python3 tools/dot.py --question "$@" 2>&1
}
on_line() {
    marks "$@" examples/line/spec examples/line/view examples/line/events
}
check "a worked question is drawn as worked" cmp -s tools/golden/dot/question.dot <(on_line i1.y r.b)
check "of a question that is answered no the two items are marked" test "$(on_line r.b r.a | grep 1f5fa8 | grep -c 'oval.*filled')" = 2
check "and nothing else" test "$(on_line r.b r.a | grep -c 1f5fa8)" = 2
check "no chain is drawn from an item to itself" test "$(on_line i1.y i1.y | grep -c 1f5fa8)" = 1
check "an item of a question that is not shown is told" test "$(on_line r.a i2.y)" = 'dot.py: `i2.y` is no item that is shown'
check "what is no name of an item is told" test "$(on_line r.a r | cut -c 1-31)" = 'dot.py: wfprov explain: usage: '
check "missing words of a question are told" test "$(marks r.a r.b)" = "dot.py: the words behind --question are not FROM TO SPEC VIEW EVENTS; see --help"
check "a run of a question that is no regular file is told" test "$(marks r.a r.b examples/line/spec examples/line/view /dev/null)" = "dot.py: /dev/null: not a regular file"
check "a run of a question that is refused is told" \
    test "$(marks r.a r.b examples/line/spec examples/line/view examples/phylogeny/events)" = "dot.py: wfprov export: refused: events line 2: PositionsWrong"

# Whether the parts that are drawn of a chain are these lines, each without its label, and no others.
draws_chain() {
    marks "${@:2}" | grep 1f5fa8 | sed 's/label="{.*}" //; s/#1f5fa8/blue/g; s/ \(penwidth\|fontcolor\|fillcolor\)=[^] ]*//g; s/^ *//' | sort | cmp -s - <(printf '%b' "$1" | sort)
}
head -n 2 examples/phylogeny/events >"$work/begun"
echo '{}' >"$work/everything"
echo '{"expand":[]}' >"$work/nothing"
check "a chain leads through an instance that is not expanded yet" draws_chain \
    '"re0" [shape=record style="dashed" color="blue"];\n"rp" [shape=record color="blue"];\n"run.cfg" [shape=oval color="blue" style=filled];\n"run.report" [shape=oval color="blue" style=filled];\n"run.cfg" -> "re0":"in_c" [color="blue"];\n"re0":"out_q" -> "rp":"in_q" [label="re0.q" color="blue"];\n"rp":"out_out" -> "run.report" [color="blue"];\n' \
    run.cfg run.report examples/phylogeny/spec "$work/everything" "$work/begun"
check "a chain goes by the entries and exits of open instances" draws_chain \
    '"i1" [shape=record color="blue"];\n"i2" [shape=record color="blue"];\n"r.a" [shape=oval color="blue" style=filled];\n"r.b" [shape=oval color="blue" style=filled];\n"r.a" -> "i1":"in_x" [color="blue"];\n"i1":"out_y" -> "i2":"in_x" [label="i1.y" color="blue"];\n"i2":"out_y" -> "r.b" [color="blue"];\n' \
    r.a r.b examples/line/spec examples/line/view examples/line/events
check "a run that is left closed is the chain" draws_chain '"r" [shape=record color="blue"];\n' r.a r.b examples/line/spec "$work/nothing" examples/line/events

# Whether the boxes, and the arrows with the name of an item, that are drawn blue on a long run are those that `explain` writes. An item of an instance that is open is an oval: `re0.q` alone.
draws_explained() {
    local files="examples/phylogeny/spec $work/everything examples/phylogeny/events"
    marks run.cfg run.report $files | sed -n 's/^  "\([^"]*\)" \[shape=record.*1f5fa8.*/via \1/p; s/^  .* \[label="\([^"]*\)".*fontcolor.*/\1/p' | sort >"$work/drawn"
    "$program" explain $files run.cfg run.report | sed '1d; /^re0.q$/d; $d' | sort | cmp -s - "$work/drawn" && [ "$(wc -l <"$work/drawn")" = 116 ]
}
check "the chain through all rounds of a loop is drawn" draws_explained
printf '#!/bin/sh\n[ "$1" = explain ] && { echo r.a; echo via i3; echo r.b; exit; }\nexec "%s" "$@"\n' "$program" >"$work/other"
chmod +x "$work/other"
check "a chain of another run is told" test "$(WFPROV=$work/other python3 tools/dot.py --question r.a r.b examples/line/spec examples/line/view examples/line/events 2>&1)" = 'dot.py: chain: `i3` is no box of the picture'

check "a name with a sign of the picture's language is refused" says 2 'dot.py: line 1: `a"` is no name' 'leaf a" P\n'

# Specifications.
check "a worked specification is drawn as worked" cmp -s tools/golden/dot/small.dot <(python3 tools/dot.py --spec tools/golden/dot/small.spec)

# Whether a picture has a frame, its boxes and its arrows for each production of an example, as counted here.
has_all() {
    python3 tools/dot.py --spec "examples/$1/spec" >"$work/out" && python3 - "examples/$1/spec" "$work/out" <<'COUNTS'
import json, re, sys
spec, text = json.load(open(sys.argv[1])), open(sys.argv[2]).read()
parts = spec["productions"]
frames = len(re.findall(r'label="production \d+: ', text))
boxes = len(re.findall(r'^ *"\d+\.\S+" \[', text, re.M))
arrows = len(re.findall(r'":s -> "', text))
wanted = len(parts), sum(len(p["body"]) for p in parts), sum(len(p.get(side, [])) for p in parts for side in ("edges", "in", "out"))
sys.exit((frames, boxes, arrows) != wanted)
COUNTS
}

# Whether the positions with thick frames are those that `check` tells as the steps of cycles.
has_cycles() {
    "$program" check "examples/$1/spec" 2>/dev/null | sed -n 's/.* next \([0-9]*\) \([^ ]*\)$/\1.\2/p' | sort >"$work/steps"
    python3 tools/dot.py --spec "examples/$1/spec" | sed -n 's/^ *"\([0-9]*\.[^"]*\)" \[.* penwidth=2.5\];$/\1/p' | sort | cmp -s - "$work/steps"
}
for example in line phylogeny phylogeny-once twisting pair skewed; do
    check "the specification of $example is drawn whole" has_all "$example"
    check "the steps on the cycles of $example are marked" has_cycles "$example"
done

# Whether dot.py draws nothing of a specification that is refused, and says of which kind the fault is and who explains it.
refuses_spec() {
    local ended=0
    printf '%b' "$2" >"$work/spec"
    python3 tools/dot.py --spec "$work/spec" >"$work/out" 2>"$work/err" || ended=$?
    [ "$ended" = 2 ] && [ ! -s "$work/out" ] && [ "$(cat "$work/err")" = "dot.py: $work/spec: refused: $1; \`python3 tools/diagnose.py\` says where and why" ]
}

# The modules P and S of the specifications that follow, and a production of S with these members.
production() {
    echo '{"start":"S","modules":[{"name":"S","in":["a"],"out":["b"]},{"name":"P","in":["x"],"out":["y"]}],"productions":[{"head":"S",'"$1"'}]}'
}
check "what is no JSON is told" refuses_spec 'NotJson' '{"start":\n}'
check "bytes that are no text are told of a specification" refuses_spec 'NotJson' '\xff'
check "a word that JSON has not is told" refuses_spec 'NotJson' '{"start":NaN}'
check "a list is no specification" refuses_spec 'WrongShape top' '[]'
check "a member that is not there is told" refuses_spec 'WrongShape start' '{"modules":[]}'
check "a member of another form is told" refuses_spec 'WrongShape modules' '{"start":"S","modules":[{"name":"S","in":["a",1]}]}'
check "a text that is no name is told" refuses_spec 'NameBad module 0' '{"start":"S","modules":[{"name":"S|"}]}'
check "a module that stands twice is told" refuses_spec 'NameTwice module 1' '{"start":"S","modules":[{"name":"S"},{"name":"S"}]}'
check "a port that stands twice is told" refuses_spec 'PortTwice module 0' '{"start":"S","modules":[{"name":"S","in":["a"],"out":["a"]}]}'
check "an unknown start is told" refuses_spec 'UnknownModule start' '{"start":"T","modules":[{"name":"S"}]}'
check "an unknown module of a position is told" refuses_spec 'UnknownModule production 0' "$(production '"body":[["u","T"]]')"
check "a position that stands twice is told" refuses_spec 'PositionTwice production 0' "$(production '"body":[["u","P"],["u","P"]]')"
check "an empty body is told" refuses_spec 'EmptyBody production 0' "$(production '"body":[]')"
check "a pair of three is told" refuses_spec 'WrongShape productions' "$(production '"body":[["u","P"]],"edges":[["u.y","u.x","u"]]')"
check "an end without a dot is told" refuses_spec 'WrongShape productions' "$(production '"body":[["u","P"]],"edges":[["u.y","u"]]')"
check "an unknown position is told" refuses_spec 'UnknownPort production 0' "$(production '"body":[["u","P"]],"in":[["a","v.x"]]')"
check "a port of the other side is told" refuses_spec 'UnknownPort production 0' "$(production '"body":[["u","P"]],"out":[["u.x","b"]]')"
check "an unknown port of the head is told" refuses_spec 'UnknownPort production 0' "$(production '"body":[["u","P"]],"in":[["b","u.x"]]')"
check "pairs of a module with productions are told" refuses_spec 'DepsOnComposite deps 0' \
    "$(production '"body":[["u","P"]],"in":[["a","u.x"]],"out":[["u.y","b"]]}],"deps":[{"module":"S","pairs":[]')"
check "a port without a link is told" refuses_spec 'PortUnlinked production 0' "$(production '"body":[["u","P"]],"in":[["a","u.x"]]')"
draws_loops() {
    printf '{"start":"L","modules":[{"name":"L","in":["x"],"out":["y"]}],"productions":[{"head":"L","body":[["p","L"],["q","L"]],"edges":[["p.y","q.x"]],"in":[["x","p.x"]],"out":[["q.y","y"]]}]}' >"$work/spec"
    [ "$(python3 tools/dot.py --spec "$work/spec" | grep -c '"0\.[pq]" .*penwidth')" = 2 ]
}
check "a module with two ways back is drawn with both" draws_loops
check "an unknown port of a pair is told" refuses_spec 'UnknownPort deps 0' "$(production '"body":[["u","P"]]}],"deps":[{"module":"P","pairs":[["x","x"]]')"
check "a specification that is not there is told" test "$(python3 tools/dot.py --spec "$work/absent" 2>&1)" = "dot.py: $work/absent: No such file or directory"
check "missing words are told" test "$(python3 tools/dot.py --spec 2>&1)" = "dot.py: the words behind --spec are not SPEC [SPEC ..] or SPEC --view SHOWN; see --help"

# A specification under a view: what the view leaves closed has no frame, and a box with the pairs of the view.
under_view() {
    printf '%b' "$2" >"$work/some_view"
    "$program" view "$1" "$work/some_view" >"$work/lines" && python3 tools/dot.py --spec "$1" --view "$work/lines" >"$work/out"
}
closes() {
    under_view tools/golden/dot/small.spec '{"expand":[],"deps":[{"module":"A","pairs":[]}]}' && [ "$(grep -c label= "$work/out")" = 1 ] &&
        grep -qF '": A" [label="{{<in_a> a}|A\nno pairs|{<out_b> b}}"];' "$work/out"
}
check "a start module that is left closed is a box of its own" closes
hides() {
    under_view examples/phylogeny/spec "$(cat examples/phylogeny/view)" && ! grep -qE 'Split|Infer' "$work/out" && [ "$(grep -c 'label="production' "$work/out")" = 3 ] &&
        grep -qF '"0.bu" [label="{{<in_m> m}|bu: Build|{<out_t> t|<out_n> n}}"];' "$work/out"
}
check "the inside of a closed module is not drawn" hides
keeps_cycle() {
    under_view examples/pair/spec "$(cat examples/pair/first)" && ! grep -q penwidth "$work/out" && ! grep -q ': Q' "$work/out" && [ "$(grep -c 'label="production' "$work/out")" = 2 ]
}
check "a cycle through a closed module is not marked" keeps_cycle
refuses_shown() {
    printf '%b' "$2" >"$work/lines"
    [ "$(python3 tools/dot.py --spec examples/line/spec --view "$work/lines" 2>&1)" = "dot.py: $work/lines: $1" ]
}
check "a line of another form is told of what a view shows" refuses_shown 'line 2: not a module, and `expanded` or `shown`' 'S expanded a>b\nP\n'
check "an unknown module of a view is told" refuses_shown 'line 1: `T` is no module' 'T shown\n'
check "an expanded module without productions is told" refuses_shown 'line 1: `P` has no productions' 'P expanded\n'
check "an unknown port of a view is told" refuses_shown 'line 1: `z` is no output of S' 'S shown a>z\n'

# Label files become lines and label files again, byte for byte.
keeps_labels() {
    python3 tools/labels.py lines "examples/$1/labels" >"$work/lines" && python3 tools/labels.py file "$work/lines" | cmp -s - "examples/$1/labels"
}
for example in line phylogeny-once phylogeny twisting pair mapping-cwl mapping-nextflow; do
    check "the label file of $example is turned into lines and back" keeps_labels "$example"
done

tells_labels() {
    python3 tools/labels.py lines examples/line/labels | tail -n +2 | cmp -s - <(printf 'r.a 20\nr.b 60\ni1.y b0\n')
}
check "the lines of a label file are names and digits" tells_labels

# Whether labels.py ends with this message on such words.
complains() {
    local message=$1 ended=0
    shift
    "$@" >"$work/out" 2>"$work/err" </dev/null || ended=$?
    [ "$ended" = 2 ] && [ ! -s "$work/out" ] && [ "$(cat "$work/err")" = "$message" ]
}
head -c 55 examples/line/labels >"$work/cut_labels"
check "an entry that is not whole is told by its byte" \
    complains 'labels.py: the entry at byte 50 is not whole' python3 tools/labels.py lines "$work/cut_labels"
check "a file that is none is told" \
    complains 'labels.py: the file does not begin with the head of a label file' python3 tools/labels.py lines examples/line/spec
sed 's/b0/b/' "$work/lines" >"$work/odd"
check "digits that are odd are told by their line" \
    complains 'labels.py: line 2: `2` is not hexadecimal digits, two for each byte' python3 tools/labels.py file <(
    head -n 1 "$work/lines"
    echo 'r.a 2'
)
check "lines without a head are told" \
    complains 'labels.py: line 1: not `head` and hexadecimal digits with one space between' python3 tools/labels.py file <(echo 'r.a 20')

# Entries of a label file are picked by their names, in the order of the file.
picks() {
    printf "$1" >"$work/names" && python3 tools/labels.py pick "${@:3}" examples/phylogeny/labels "$work/names" >"$work/picked" &&
        python3 tools/labels.py lines "$work/picked" | cut -d ' ' -f 1 | cmp -s - <(printf "head\n$2")
}
check "entries are picked by names, in the order of the file" picks 'run.tree rl2.c2\r\nrun.seqs\n\nrun.tree' 'run.seqs\nrun.tree\nrl2.c2\n'
check "a name that no entry has is passed over" picks 'run.q\nbu.n\n' 'bu.n\n'
check "of no names the head is left" picks '' ''
digest=$(sha256sum <examples/phylogeny/labels)
check "the file of a digest is taken" picks 'bu.n' 'bu.n\n' --sha256 "${digest%% *}"
check "a file of another digest is refused" complains \
    "labels.py: examples/line/labels: its SHA-256 is $(sha256sum <examples/line/labels | cut -c 1-64), and not ${digest%% *}: it is another file, or has changed" \
    python3 tools/labels.py pick --sha256 "${digest%% *}" examples/line/labels "$work/names"
picks_all() { cut -d ' ' -f 1 "$work/lines" | python3 tools/labels.py pick "examples/$1/labels" /dev/stdin | cmp -s - "examples/$1/labels"; }
for example in line phylogeny twisting mapping-cwl; do
    python3 tools/labels.py lines "examples/$example/labels" >"$work/lines"
    check "of all names the label file of $example is picked as it is" picks_all "$example"
done

# A label file of many pieces, in which some names stand twice.
python3 - "$work" <<'LARGE'
import sys
sys.path.insert(0, "tools")
import labels
head = open("examples/line/labels", "rb").read()[:36]
entries = [labels.entry_of(b"a%d.b" % (number % 200), bytes(number * 997 % 65536)) for number in range(220)]
put = lambda name, data: open(f"{sys.argv[1]}/{name}", "wb").write(data)
put("large", head + b"".join(entries))
put("wanted", head + b"".join(entry for number, entry in enumerate(entries) if number % 200 % 7 == 0))
put("names", b"\n".join(b"a%d.b" % number for number in reversed(range(0, 200, 7))))
LARGE
check "a label file of long entries is picked piece by piece" cmp -s "$work/wanted" <(python3 tools/labels.py pick "$work/large" "$work/names")
check "and from a pipe" cmp -s "$work/wanted" <(cat "$work/large" | python3 tools/labels.py pick /dev/stdin "$work/names")
answers_alike() {
    python3 tools/labels.py pick examples/twisting/labels examples/twisting/queries >"$work/picked" &&
        "$program" ask examples/twisting/spec examples/twisting/view "$work/picked" examples/twisting/queries | cmp -s - examples/twisting/answers
}
check "what is picked for questions answers them" answers_alike
check "an entry that is not whole is told where entries are picked" \
    complains 'labels.py: the entry at byte 50 is not whole' python3 tools/labels.py pick "$work/cut_labels" "$work/names"

# Two labels.
two_labels() {
    python3 tools/two_labels.py "examples/$1/spec" "examples/$2/labels" "$3" "$4"
}
check "a worked pair of labels is drawn as worked" cmp -s tools/golden/two_labels/mapping.dot <(two_labels mapping-cwl mapping-cwl liver-align.bam brain-trim.trimmed)

# Whether each label of an example is read to its end, as that of a port of the run or of an edge that begins at the port of its item.
reads_labels() {
    PYTHONDONTWRITEBYTECODE=1 python3 - "examples/$1" <<'LABELS'
import sys
sys.path.insert(0, "tools")
import dot, labels, two_labels
spec = dot.read_spec(sys.argv[1] + "/spec")
for name, label in labels.entries_of(open(sys.argv[1] + "/labels", "rb").read()):
    parts = two_labels.parts_of(spec, label)
    assert "".join(part.bits for part in parts).replace(" ", "") == "".join(f"{byte:08b}" for byte in label), name
    told = [cell.what for part in parts for cell in part.cells][-1]
    assert name.decode().split(".")[1] == (told[0].split(".")[1] if isinstance(told, tuple) else told), name
LABELS
}
for example in line phylogeny-once phylogeny twisting pair mapping-cwl mapping-nextflow; do
    check "each label of $example is read as that of its item" reads_labels "$example"
done
shares() {
    two_labels "${@:2}" >"$work/out" && [ "$(grep -o 'bgcolor="gray80">[^<]*' "$work/out" | sed 's/[^>]*>//' | sort -u | tr '\n' ';')" = "$1" ]
}
check "labels that part in one body share its production" shares '1;Main by production 0;carried by an edge;' phylogeny-once phylogeny-once al.m sp.a
check "labels of ports share nothing" test "$(two_labels phylogeny phylogeny run.cfg run.tree | grep -c 'nothing is shared')" = 1
check "an item without a label is told" \
    complains 'two_labels.py: `r.q` is no item of examples/line/labels' two_labels line line r.a r.q
check "a label of another specification is told" \
    complains 'two_labels.py: the label of `rl2.c2` is none of examples/line/spec: Q has no alternative 0' two_labels line phylogeny run.seqs rl2.c2
check "missing words are told of two labels" \
    complains 'two_labels.py: the words are not SPEC LABELS ITEM ITEM; see --help' python3 tools/two_labels.py examples/line/spec
check "a picture of labels that cannot be written is told" test "$(two_labels line line r.a r.b 2>&1 >/dev/full)" = "two_labels.py: writing: No space left on device"

# By a table an item or a file means a file, with all of its items.
. checks/two_items.sh
two_items "$work"
by_table() {
    WFPROV=$program python3 tools/files.py "$2" "$work/spec" "$work/open" "$work/labels" "$work/table" "$3" 2>"$work/err" | cmp -s - <(printf '%b' "$1")
}
check "the files that rest on a file are listed" by_table 'out/a.vcf\n' impact a.bam
check "an item that goes out of the run means its file" by_table 'out/a.vcf\n' impact r.bam
check "a checksum is a name" by_table 'out/a.bam\nout/a.vcf\n' impact 'sha1$22'
check "the files on which a file rests are listed" by_table 'in/reads.fq\nold/reads.fq\nout/a.bam\n' lineage call
check "nothing rests on the last file" by_table '' impact out/a.vcf
impact_of() { env WFPROV="$program" python3 tools/files.py impact "$work/spec" "$2" "$work/labels" "$1" "$3"; }
check "a name of several files is refused with the list" \
    complains "files.py: $work/table: \`reads.fq\` means 2 files: \`f1\` (in/reads.fq), \`f2\` (old/reads.fq)" impact_of "$work/table" "$work/open" reads.fq
sed 's/r.bam al.bam/al.bam/' "$work/table" >"$work/inner"
check "a file that the view hides is told" complains "files.py: $work/inner: \`out/a.bam\` is hidden by the view" impact_of "$work/inner" "$work/closed" a.bam
partly_hidden() {
    impact_of "$work/table" "$work/closed" a.bam >"$work/out" 2>"$work/err" && [ ! -s "$work/out" ] &&
        [ "$(cat "$work/err")" = 'files.py: the view hides an item of `out/a.bam`: what is joined to it by that item alone is not listed' ]
}
check "a file of which the view hides an item is told" partly_hidden

finish
