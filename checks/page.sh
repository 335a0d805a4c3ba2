#!/usr/bin/env bash
# Checks of tools/page.py: the page of an example, what is on a page and what is not, and what it refuses.
set -euo pipefail

cd "$(dirname "${BASH_SOURCE[0]}")/.."
. checks/count.sh
. checks/built.sh
export WFPROV=$program

once=examples/phylogeny-once
long=examples/phylogeny
kept=tools/golden/page/phylogeny-once.html
line=examples/line
text() {
    printf '%b' "$2" >"$work/$1"
    echo "$work/$1"
}

# Writes the page of these words.
page() {
    python3 tools/page.py "$@" >"$work/page" 2>"$work/err"
}

# Whether the last page has each of these texts.
has() {
    local text
    for text in "$@"; do
        grep -qF -- "$text" "$work/page" || return 1
    done
}

# A page without what differs from one build of the program to another, and without picture and links where Graphviz is another one.
plain() {
    local drawn
    drawn=$(dot -V 2>&1 | grep -o 'graphviz version [0-9.]*' || true)
    sed -e '/<td>wfprov<\/td>/d' "$1" | if grep -qF "${drawn:-no Graphviz}" "$kept"; then cat; else sed -E '/<section id="(picture|links)">/,/<\/section>/d'; fi
}

is_kept() {
    page $once/spec $once/view $once/events $once/queries && cmp -s <(plain "$work/page") <(plain $kept)
}
check "the page of the phylogeny of one step is the one that is kept" is_kept

# Whether the last page is well-formed, has no script and fetches nothing, and has these questions, answers and files.
is_whole() {
    python3 - "$work/page" "$@" <<'READS'
import hashlib, re, sys
import xml.etree.ElementTree as tree
path, queries, answers, *files = sys.argv[1:]
text = open(path).read()
top = tree.fromstring(text.split("\n", 1)[1])
tags = {element.tag.split("}")[-1] for element in top.iter()}
assert not tags & {"script", "link", "img", "iframe", "image", "object", "a", "use", "base", "form", "animate", "foreignObject"}, tags
for element in top.iter():
    assert not [name for name in element.attrib if re.search(r"^on|href|src|style$", name)], element.attrib
assert not re.search(r"url\(|@import|javascript:|data:", text)
assert set(re.findall(r'https?://[^"\s]*', text)) <= {"http://www.w3.org/2000/svg"}
words = lambda element: "".join(element.itertext())
rows = {part.get("id"): part.findall(".//tbody/tr") for part in top.iter("section")}
asked = [[code.text for code in row.findall("td")[1].findall("code")][::-1] + [words(row.findall("td")[2])] for row in rows["questions"]]
wanted = [line.split() + [answer] for line, answer in zip(open(queries).read().split("\n"), open(answers).read().split())]
assert asked == wanted, asked
told = [[code.text for code in row.findall("td")[1].findall("code")] for row in rows["how"]]
assert told == [[file, hashlib.sha256(open(file, "rb").read()).hexdigest()] for file in files], told
READS
}
check "it is well-formed, fetches nothing, and has each question, answer and digest" is_whole $once/queries $once/answers $once/{spec,view,events,queries} "$program"
check "it says what each answer means" has 'run.tree</code> rests on <code>run.seqs</code>' 'al.m</code> does not rest on <code>run.cfg' 'an item is not there'
check "it has the commands" has "<code>wfprov view $once/spec $once/view</code>" "<code>wfprov trace $once/spec $once/view $once/events $once/queries</code>"

# Whether each `yes` of the last page, made of these files, has the chain that `explain` writes, and no other answer has one. A chain is folded from its sixth step on.
has_chains() {
    python3 - "$work/page" "$program" "$@" <<'READS'
import subprocess, sys
import xml.etree.ElementTree as tree
path, program, *files, queries = sys.argv[1:]
top = tree.fromstring(open(path).read().split("\n", 1)[1])
part = next(part for part in top.iter("section") if part.get("id") == "questions")
seen = 0
for line, row in zip(open(queries).read().split("\n"), part.findall(".//tbody/tr")):
    told = subprocess.run([program, "explain", *files, *line.split()], capture_output=True, text=True).stdout
    shown = row.findall(".//details")
    assert len(shown) == (row.findall("td")[2].text == "yes") == (told.count("\n") > 1), line
    for details in shown:
        steps = told.count("via ")
        assert details.find("pre").text + "\n" == told and details.get("open") == ("open" if steps < 6 else None), line
        assert "".join(details.find("summary").itertext()) == f"Why: a chain of {steps} step{'s' * (steps > 1)}, which verify accepts", line
        seen += 1
assert seen > 1
READS
}
check "each yes has its chain" has_chains $once/spec $once/view $once/events $once/queries
check "it says what made and tried the chains" has "<code>wfprov explain $once/spec $once/view $once/events FIRST SECOND</code>" "<code>wfprov verify $once/spec $once/view $once/events CHAIN</code>"

# Whether the view of the last page is that which stands beside an example.
tells_view() {
    python3 - "$work/page" "$1" <<'READS'
import re, sys
part = open(sys.argv[1]).read().split('<section id="view">')[1].split("</section>")[0]
told = []
for row in re.findall(r"<tr><td><code>(.*?)</code></td><td>(\w+)</td><td>(.*?)</td>", part):
    pairs = [(a, b) for rests in row[2].split("; ") for b, *inputs in [re.findall(r"<code>(.*?)</code>", rests)] for a in inputs]
    told.append((row[0], row[1] == "shown", sorted(pairs)))
lines = [line.split() for line in open(sys.argv[2])]
wanted = [(name, state == "expanded", sorted(tuple(pair.split(">")) for pair in pairs)) for name, state, *pairs in lines]
sys.exit(told != wanted)
READS
}
check "it tells the view as it is shown" tells_view $once/shown

says_nothing() { ! grep -q 'left out\|is not compared\|wfprov compare\|class="warning"' "$work/page"; }
check "it compares no view that leaves nothing closed" says_nothing

check "a page is made from labels" page --labels $long/labels $long/spec $long/view $long/events $long/queries
check "it has the questions, answers and digests" is_whole $long/queries $long/answers $long/{spec,view,events,queries,labels} "$program"
check "it says that the label file is that of the run" has 'byte for byte' "<code>wfprov ask $long/spec $long/view $long/labels $long/queries</code>"
check "it tells its view as it is shown" tells_view $long/shown
check "each yes has its chain beside labels" has_chains $long/spec $long/view $long/events $long/queries
check "it says where pairs come from" has 'said by the view' 'said by the specification' 'worked out from the steps inside' 'nothing is said of it'

# Whether the links on the last page are those that `export` writes.
lists_links() {
    cmp -s <(sed -n 's/^<li><code>\(.*\)<\/code> to <code>\(.*\)<\/code><\/li>$/link \1 \2/p' "$work/page") <("$program" export "$1/spec" "$1/view" "$1/events" | grep '^link')
}
check "a run with many links has them listed" lists_links $long
hides() {
    ! grep -qE 'Split|Infer' "$work/page" && has 'has 2 modules more, which the view does not show'
}
check "what the view leaves closed is not on the page" hides
check "a page is made from labels without the run" page --labels $long/labels $long/spec $long/view - $long/queries
check "it has its questions, answers and digests" is_whole $long/queries $long/answers $long/{spec,view,queries,labels} "$program"
check "it says so" has 'made without the run, of which <code>wfprov explain</code> tells why'
check "it has no chains" test "$(grep -c '<details\|wfprov verify' "$work/page")" = 0

# Whether a page can be made where no Graphviz is found.
without_graphviz() {
    env PATH="$work/nothing" "$(python3 -c 'import sys; print(sys.executable)')" tools/page.py $once/spec $once/view $once/events $once/queries >"$work/page" && ! grep -q '<svg' "$work/page"
}
check "a page is made without Graphviz" without_graphviz
check "the links are listed on it" lists_links $once

"$program" gen examples/twisting/spec 400 1 >"$work/many"
check "a page of a run of thousands of links is made" page examples/twisting/spec examples/twisting/view "$work/many" examples/twisting/queries
only_tells() {
    local links
    links=$("$program" export examples/twisting/spec examples/twisting/view "$work/many" | grep -c '^link')
    has "The run has $(python3 -c 'import sys; print(f"{int(sys.argv[1]):,}")' "$links") links" && ! has 'id="links"'
}
check "it only tells how many there are" only_tells

# A chain through a run of rounds has two steps for each, and one where they end.
long_chain() {
    local steps=$((2 * $(grep -c '"production":1,' "$work/many") + 1))
    page examples/twisting/spec examples/twisting/view "$work/many" "$(text ends 'n0.a1 n0.b1\n')" || return 1
    "$program" explain examples/twisting/spec examples/twisting/view "$work/many" n0.a1 n0.b1 >"$work/chain"
    [ "$(grep -c '^via ' "$work/chain")" = "$steps" ] && has "<details><summary>Why: a chain of $steps steps, which" && sed -n '/<pre>/,/<\/pre>/p' "$work/page" | sed 's/.*<pre>//; s/<\/pre>.*//' |
        cmp -s - <(head -n 21 "$work/chain" && echo "($((steps - 20)) steps left out)" && tail -n 20 "$work/chain")
}
check "of a long chain the ends are shown" long_chain
bounds_chains() {
    python3 -c 'import sys; sys.path.insert(0, "tools"); import accepted_chains; print([accepted_chains.most(size) for size in (0, 4500, 7_500_000, 75_000_000, 1 << 30)])'
}
check "a larger run has fewer chains, and one at least" test "$(bounds_chains)" = '[200, 200, 17, 1, 1]'

head -n 20 $long/events >"$work/early"
"$program" ingest $long/spec "$work/early" >"$work/early_labels"
begins() {
    page --labels "$work/early_labels" $long/spec $long/view $long/events $long/queries && has 'The label file begins'
}
check "a label file of an earlier state of the run is told" begins
goes_on() {
    page --labels $long/labels $long/spec $long/view "$work/early" $long/queries && has 'The label file goes on' 'the run that is shown does not have both items yet, and so no chain'
}
check "a label file of a later state of the run is told" goes_on

# Of a step that is done in one of two ways, labels of both: no run has them.
echo '{"start":"S","modules":[{"name":"S","in":["a"],"out":["b"]},{"name":"P","in":["x"],"out":["y"]}],"productions":[{"head":"S","body":[["u","P"],["v","P"]],"edges":[["u.y","v.x"]],"in":[["a","u.x"]],"out":[["v.y","b"]]},{"head":"S","body":[["u","P"],["v","P"]],"edges":[["u.y","v.x"]],"in":[["a","u.x"]],"out":[["v.y","b"]]}]}' >"$work/fork"
{ "$program" ingest "$work/fork" /dev/null; printf '\x03i.y\x00\x01\xb0\x03j.y\x00\x01\x94'; } >"$work/both"
echo 'i.y j.y' >"$work/clashing"
clashes() {
    page --labels "$work/both" "$work/fork" examples/line/view - "$work/clashing" && has 'class="answer">clash</td><td>no run has both items' 'the label file is not that of a run'
}
check "labels that no run has together are told" clashes

: >"$work/empty"
empty() {
    page $once/spec $once/view "$work/empty" "$work/empty" && has 'The run has no links yet' 'the answers to 0 questions'
}
check "an empty run and no question make a page" empty

# A workflow of 64 modules in a line, eight times: its links are too many for a picture.
python3 - >"$work/large" <<'WRITES'
import json
modules = [{"name": name, "in": ["x"], "out": ["y"]} for name in ["S", "P", *(f"M{k}" for k in range(8))]]
def chain(head, module, count):
    steps = [f"p{k}" for k in range(count)]
    edges = [[f"{a}.y", f"{b}.x"] for a, b in zip(steps, steps[1:])]
    return {"head": head, "body": [[step, module(k)] for k, step in enumerate(steps)], "edges": edges, "in": [["x", "p0.x"]], "out": [[f"{steps[-1]}.y", "y"]]}
inner = [chain(f"M{k}", lambda _: "P", 64) for k in range(8)]
print(json.dumps({"start": "S", "modules": modules, "productions": [chain("S", lambda k: f"M{k}", 8), *inner]}))
WRITES
echo '{"start":"r"}' | "$program" ingest "$work/large" /dev/stdin >"$work/large_labels"
large() {
    page --labels "$work/large_labels" "$work/large" $line/view - "$work/empty" && ! grep -q '<svg' "$work/page" &&
        page --labels "$work/large_labels" "$work/large" "$(text closed '{"expand":["S"]}')" - "$work/empty" && { grep -q '<svg' "$work/page" || ! command -v dot >/dev/null; }
}
check "a large workflow has a picture only where the view shows less of it" large

# Whether the page of an example under a view, which leaves steps closed, says this of the view beside the one that opens every step, and nothing else of it.
says_beside() {
    page "examples/$1/spec" "$(text closing "$2")" "$work/empty" "$work/empty" && has "$3" || return 1
    [ "$(grep -cE 'Nothing is left out|denies what is so|is not compared' "$work/page")" = 1 ] || return 1
    [ "$(grep -c 'wfprov compare examples/.* FULL ' "$work/page")" = "$4" ]
}
check "that a view leaves nothing out is told" says_beside phylogeny "$(cat $long/outer)" 'the view that opens every step gives the same answers' 1
check "a pair that a view adds is told" says_beside phylogeny '{"expand":["Main"]}' 'by it, the output <code>r</code> of <code>Refine</code> rests on its input <code>c</code>, and with every step opened it does not' 1
check "a pair that a view denies is told" says_beside phylogeny '{"expand":["Main"],"deps":[{"module":"Refine","pairs":[["m","r"],["m","q"]]}]}' \
    'With every step opened, the output <code>q</code> of <code>Refine</code> rests on its input <code>c</code>' 1
warns_first() { [ "$(grep -n 'class="warning"' "$work/page" | cut -d : -f 1)" -lt "$(grep -n '<section id="picture">' "$work/page" | cut -d : -f 1)" ]; }
check "it is told at the top of the page" warns_first
check "where the view that opens every step is not safe, that is told" says_beside skewed '{"expand":["S"]}' 'that one is not safe' 0

# Questions whose lines end as other systems end them, with empty lines between.
other_lines() {
    page $once/spec $once/view $once/events "$(text lines '\nrun.seqs run.tree\r\n\r\n\nrun.cfg al.m')" && text said 'yes\nno\n' >/dev/null &&
        text asked 'run.seqs run.tree\nrun.cfg al.m\n' >/dev/null && is_whole "$work/asked" "$work/said" $once/{spec,view,events} "$work/lines" "$program"
}
check "empty lines and carriage returns are passed over" other_lines

# A page about files, by a table in which one file has three items.
. checks/two_items.sh
mkdir "$work/two"
two_items "$work/two"
two=$work/two
text questions 'r.bam r.vcf\ncp.b r.vcf\n' >/dev/null
text names 'out/a.bam\ta.vcf\nr.bam\tr.vcf\ncall\talign\nsha1$11\told/reads.fq\n' >/dev/null
says_output() {
    page "$two/spec" "$two/open" "$two/events" "$work/questions" && is_whole "$work/questions" "$(text said 'no\nyes\n')" "$two"/{spec,open,events} "$work/questions" "$program" &&
        has '<code>r.bam</code> goes out of the run, so nothing rests on it' '<code>r.vcf</code> rests on <code>cp.b</code>' && ! has 'does not rest on <code>r.bam</code>'
}
check "an item that goes out of the run is told" says_output
says_output_of_labels() {
    page --labels "$two/labels" "$two/spec" "$two/open" - "$work/questions" && has '<code>r.bam</code> goes out of the run, so nothing rests on it'
}
check "it is told of labels without the run" says_output_of_labels
text shown 'out/a.bam out/a.vcf\nout/a.bam out/a.vcf\nout/a.vcf out/a.bam\nin/reads.fq old/reads.fq\n' >/dev/null
about_files() {
    page --table "$two/table" "$two/spec" "$two/open" "$two/events" "$work/names" &&
        is_whole "$work/shown" "$(text said 'yes\nyes\nno\nno\n')" "$two"/{spec,open,events} "$work/names" "$two/table" "$program" &&
        has '<code>out/a.vcf</code> rests on <code>out/a.bam</code>' 'sha1$33' "files.py --trace ask $two/spec $two/open $two/events $two/table $work/names" 'from <code>al.bam</code> to <code>r.vcf</code>, which'
}
check "by a table a page has the paths of files, and a file has all of its items" about_files
about_files_of_labels() {
    page --table "$two/table" --labels "$two/labels" "$two/spec" "$two/closed" - "$work/names" &&
        is_whole "$work/shown" "$(text said 'hidden\nhidden\nhidden\nno\n')" "$two"/{spec,closed} "$work/names" "$two"/{labels,table} "$program" && ! grep -q 'cp\.b\|al\.bam' "$work/page"
}
check "items that the view hides are not on it" about_files_of_labels

# A path is shown as text, whatever stands in it.
odd=$work/'<b>&"'$'\n'
escapes() {
    cp $once/queries "$odd" && page $once/spec $once/view $once/events "$odd" && ! grep -q '<b>' "$work/page" && has '&lt;b&gt;&amp;&quot;\n' &&
        python3 -c 'import sys, xml.etree.ElementTree as tree; tree.fromstring(open(sys.argv[1]).read().split("\n", 1)[1])' "$work/page"
}
check "a path is shown as text" escapes

same_again() {
    page $once/spec $once/view $once/events $once/queries && cp "$work/page" "$work/first" && page $once/spec $once/view $once/events $once/queries && cmp -s "$work/page" "$work/first"
}
check "the same files make the same page" same_again

# Whether page.py refuses these words with this message, and writes nothing.
refuses() {
    local message=$1 ended=0
    shift
    page "$@" || ended=$?
    [ "$ended" = 2 ] && [ ! -s "$work/page" ] && [ "$(cat "$work/err")" = "page.py: $message" ]
}
check "too few words are told" refuses 'the words are not [--labels LABELS] [--table TABLE] SPEC VIEW EVENTS QUERIES; see --help' $line/spec $line/view $line/events
check "a missing LABELS is told" refuses 'the words are not [--labels LABELS] [--table TABLE] SPEC VIEW EVENTS QUERIES; see --help' --labels
check "a page without the run and without labels is refused" refuses 'EVENTS can be `-` only with --labels; see --help' $line/spec $line/view - $line/queries
check "a file that is not there is told" refuses "$work/absent: No such file or directory" $line/spec "$work/absent" $line/events $line/queries
check "a folder is told" refuses "$line: not a regular file" $line $line/view $line/events $line/queries
check "a device is told" refuses '/dev/null: not a regular file' $line/spec $line/view $line/events /dev/null
check "a specification that is refused is told" refuses "wfprov check $work/bad: refused: spec: NotJson" "$(text bad '{')" $line/view $line/events $line/queries
check "a view that is refused is told" refuses "wfprov view $line/spec $work/bad: refused: view: UnknownModule expand 0" $line/spec "$(text bad '{"expand":["T"]}')" $line/events $line/queries
check "a view that is not safe is told" refuses "wfprov view examples/skewed/spec examples/skewed/view: refused: view: Unsafe module L one 2 other 1 input x1 output y1 joined one choice S=0 L=2" \
    examples/skewed/spec examples/skewed/view $line/events $line/queries
check "an event that is refused is told" refuses "wfprov export $line/spec $line/view $work/bad: refused: events line 1: Orphan" $line/spec $line/view "$(text bad '{"expand":"r","production":0,"names":[]}\n')" $line/queries
check "a query that is refused is told" refuses "wfprov trace $line/spec $line/view $line/events $work/bad: refused: queries line 2: LineWrong" $line/spec $line/view $line/events "$(text bad 'r.a r.b\nr.a\n')"
check "a label file of another workflow is told" refuses "wfprov ask $line/spec $line/view $once/labels $line/queries: refused: labels: OtherSpec" --labels $once/labels $line/spec $line/view - $line/queries
check "a label file of another run is told" refuses "$work/bad: byte 37: not the label file of $line/events, nor one that begins it or goes on from it" \
    --labels "$(sed 's/"r"/"q"/' $line/events >"$work/other" && "$program" ingest $line/spec "$work/other" >"$work/bad" && echo "$work/bad")" $line/spec $line/view $line/events $line/queries
check "a name of several files is refused with the list" refuses "$two/table: \`reads.fq\` means 2 files: \`f1\` (in/reads.fq), \`f2\` (old/reads.fq)" \
    --table "$two/table" "$two/spec" "$two/open" "$two/events" "$(text bad 'reads.fq\tout/a.bam\n')"
check "a table of another run is told" refuses "$line/events: it has no item of \`in/reads.fq\` or of \`out/a.vcf\`: the table is one of another run" \
    --table "$two/table" $line/spec $line/view $line/events "$(text bad 'f1\tf4\n')"
check "an option that is given twice is refused" refuses 'the words are not [--labels LABELS] [--table TABLE] SPEC VIEW EVENTS QUERIES; see --help' \
    --table "$two/table" --table "$two/table" "$two/spec" "$two/open" "$two/events" "$work/names"

# A program that says something else of chains than the built one: it does these lines first.
other() {
    printf '#!/bin/sh\n%s\nexec "%s" "$@"\n' "$1" "$program" >"$work/otherwise"
    chmod +x "$work/otherwise"
}
refuses_chain() {
    other "$2"
    WFPROV=$work/otherwise refuses "$1" $line/spec $line/view $line/events "$(text reason 'r.a r.b\n')"
}
check "a chain that is not accepted is told, and not shown" refuses_chain \
    "wfprov verify: \`no 2\` of what \`wfprov explain $line/spec $line/view $line/events r.a r.b\` writes: it is no chain of the run" \
    '[ "$1" != explain ] || { printf "r.a\nvia i2\nr.b\n"; exit; }'
check "a chain of other items is told" refuses_chain "wfprov explain $line/spec $line/view $line/events r.a r.b: it writes a chain of other items" \
    '[ "$1" != explain ] || { printf "r.a\nvia i1\ni1.y\n"; exit; }'
check "a reason that contradicts the answer is told" refuses_chain 'wfprov explain: `no` of `r.a` and `r.b`, where the answer is `yes`' '[ "$1" != explain ] || { echo no; exit; }'
check "a chain is not shown by what explain says alone" refuses_chain \
    "wfprov verify: \`no 1\` of what \`wfprov explain $line/spec $line/view $line/events r.a r.b\` writes: it is no chain of the run" '[ "$1" != verify ] || { echo no 1; exit; }'

no_program() {
    WFPROV=$work/absent refuses "$work/absent: no program; \`./wfprov\` builds it, and the variable WFPROV may name another" $line/spec $line/view $line/events $line/queries
}
check "a missing program is told" no_program

# A program that changes a file before it does its work.
cp $line/queries "$work/changing"
printf '#!/bin/sh\necho >>"%s"\nexec "%s" "$@"\n' "$work/changing" "$program" >"$work/changes"
chmod +x "$work/changes"
changing() {
    WFPROV=$work/changes refuses "$work/changing: changed while the page was made" $line/spec $line/view $line/events "$work/changing"
}
check "a file that changes meanwhile is told" changing
full() {
    [ "$(python3 tools/page.py $once/spec $once/view $once/events $once/queries 2>&1 >/dev/full)" = "page.py: writing: No space left on device" ]
}
check "a page that cannot be written is told" full
check "the tool tells how it is called" test "$(python3 tools/page.py --help | grep -c 'SPEC VIEW EVENTS QUERIES > page.html')" = 2

finish
