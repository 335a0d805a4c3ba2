#!/usr/bin/env bash
# Checks of tools/runs.py and tools/across: a folder of runs, how it is kept, and answers over all of its runs, worked out by hand or compared
# with a search in random sets. The words are how many random sets are tried, and from which seed; 100 and 1 where they are not given.
set -euo pipefail

cd "$(dirname "${BASH_SOURCE[0]}")/.."
. checks/count.sh
. checks/built.sh
export WFPROV=$program PYTHONDONTWRITEBYTECODE=1

python3 checks/across.py "$program" make "$work/runs" <<'RUNS'
a
21=out/s1.bam 11=in/s1.fq 1=in/ref.fa
22=out/s2.bam 12=in/s2.fq 1=in/ref.fa

b
41=calls.vcf 21=given/first.bam 31=panel.vcf

c
51=report.html 41=all.vcf

d
42=depth.txt 21=x.bam

e
61=joint.tsv 41=one.vcf 42=one.txt

f
11=again.fq 51=old/report.html

g
91=z.txt 90=y.txt 1=genome.fa

h
71=p.txt 70=q.txt
71=r.txt 72=s.txt
73=t.txt 71=r.txt

i
76=u.txt 71=given.txt

j
71=copy.txt 71=original.txt

k
=final.txt 80=start.txt
83=side.txt 80=start.txt

l
82=result.txt 81=got.txt
84=apart.txt

blank
md5$=none.txt 94=one.txt

blank_too
sha1$6=some.txt md5$=none.txt

m
md5$00000000000000000000000000000085=sum.txt md5:00000000000000000000000000000086=taken.txt

n
e=empty.log 95=n.txt

o
97=o.txt e=flag
RUNS

# Each call of tools/runs.py is done by a process that is kept, but for those that need one of their own.
mkfifo "$work/calls" "$work/ended"
python3 checks/served.py tools/runs.py "$work/calls" "$work/ended" &
exec 9<>"$work/calls" 8<>"$work/ended"
runs() {
    local ended
    {
        printf '%s\0' "$#" "$BASHPID" "$WFPROV" "$@" >&9
        read -r -t 600 ended <&8 || ended=99
    } 6>&1 7>&2
    return "$ended"
}
# Adds runs to a folder of runs.
adds() {
    local store=$work/$1 name
    shift
    for name in "$@"; do
        runs add "$store" "$name" "$work/runs/$name/spec" - "$work/runs/$name/labels" "$work/runs/$name/table" "$work/runs/$name/events" || return 1
    done
}
prints() { cmp -s - <(printf '%b' "$1"); }
# Whether a call ends with status 0, prints this and notes nothing.
gives() { runs "${@:2}" >"$work/out" 2>"$work/err" && prints "$1" <"$work/out" && [ ! -s "$work/err" ]; }
# Whether it ends with status 2 and this line, and prints nothing.
complains() {
    local ended=0
    runs "${@:2}" >"$work/out" 2>"$work/err" || ended=$?
    [ "$ended" = 2 ] && [ ! -s "$work/out" ] && [ "$(cat "$work/err")" = "runs.py: $1" ]
}
# Whether the answers to questions, each a word and two names with tabs between, are these words.
answers() {
    cut -f2,3 >"$work/questions" <"$2"
    runs ask "$1" "$work/questions" 2>"$work/err" | cmp -s - <(cut -f1 "$2")
}

# Runs that pass files on.
check "runs are added" adds lab a b
check "what a run makes of a file of another run rests on what that rests on" gives 'yes\n' ask "$work/lab" s1.fq calls.vcf
check "it does not rest on what else that run made" gives 'no\n' ask "$work/lab" s2.fq calls.vcf
check "nothing rests on what comes behind it" gives 'no\n' ask "$work/lab" calls.vcf s1.fq
check "a file is one with its copies" gives 'yes\n' ask "$work/lab" out/s1.bam first.bam
check "what rests on a file is listed over all runs" gives 'a\tout/s1.bam\nb\tcalls.vcf\nb\tgiven/first.bam\n' impact "$work/lab" s1.fq
check "what a file rests on is listed over all runs" gives 'a\tout/s1.bam\na\tin/s1.fq\na\tin/ref.fa\nb\tgiven/first.bam\nb\tpanel.vcf\n' lineage "$work/lab" calls.vcf
check "copies are left out" gives 'a\tout/s1.bam\na\tin/s1.fq\na\tin/ref.fa\nb\tpanel.vcf\n' lineage --once "$work/lab" calls.vcf
check "further runs are added" adds lab c d e f g
digits=0000000000000000000000000000000000000000000000000000000000000000
cat >"$work/asked" <<QUESTIONS
yes	s1.fq	report.html
no	s2.fq	report.html
yes	s1.fq	joint.tsv
yes	panel.vcf	joint.tsv
no	s2.fq	joint.tsv
yes	a:s2.fq	s2.bam
yes	ref.fa	z.txt
yes	genome.fa	joint.tsv
no	y.txt	joint.tsv
no	joint.tsv	y.txt
yes	${digits:2}0B	report.html
yes	SHA-256:${digits:2}0b	report.html
yes	panel.vcf	out/s1.bam
yes	report.html	e:one.vcf
no	e:joint.tsv	report.html
yes	d:act 0	e:act 0 made
QUESTIONS
check "runs in a row, side by side and in a circle are asked for by path, checksum, action and role" answers "$work/lab" "$work/asked"
circle() {
    runs impact "$work/lab" report.html >"$work/out" &&
        printf '%s\t%s\n' a out/s1.bam a in/s1.fq b calls.vcf b given/first.bam c all.vcf d depth.txt d x.bam e joint.tsv e one.vcf e one.txt f again.fq f old/report.html |
        sort | cmp -s - <(sort "$work/out")
}
check "a file that comes back ends the search" circle

# What a run says of its own files stays, unless another run made the one of the other.
check "runs with copies in them are added" adds own h i
check "files of one content in one run are not joined" gives 'no\n' ask "$work/own" q.txt t.txt
adds own j
check "they are where another run made the one of the other" gives 'yes\n' ask "$work/own" q.txt t.txt
check "a checksum means all of its files" gives 'yes\n' ask "$work/own" "${digits:2}47" t.txt

# What is not known.
check "runs without checksums are added" adds none k l
cat >"$work/asked" <<'QUESTIONS'
yes	start.txt	final.txt
unknown	start.txt	result.txt
unknown	final.txt	got.txt
no	side.txt	result.txt
no	side.txt	start.txt
no	got.txt	final.txt
no	start.txt	apart.txt
QUESTIONS
check "whether a file without a checksum is one from outside is unknown" answers "$work/none" "$work/asked"
check "what is not known is listed if asked for" gives 'k\tfinal.txt\nk\tside.txt\nl\tresult.txt\tunknown\nl\tgot.txt\tunknown\n' \
    impact --possible "$work/none" start.txt
notes() {
    runs "${@:3}" >"$work/out" 2>"$work/err" && prints "$1" <"$work/out" && [ "$(cat "$work/err")" = "runs.py: $2" ]
}
others='files of other runs that may belong to these, for all that checksums say: 1; `--possible` lists them, and what they bring'
check "that it is not listed is noted" notes 'k\tfinal.txt\nk\tside.txt\n' \
    "$others" impact "$work/none" start.txt
check "of what a file rests on it is noted too" notes 'l\tgot.txt\n' \
    "$others" lineage "$work/none" result.txt
check "and listed if asked for" gives 'k\tfinal.txt\tunknown\nk\tstart.txt\tunknown\nl\tgot.txt\n' lineage --possible "$work/none" result.txt
check "runs with checksums without digits are added" adds blanks blank blank_too
check "what has no digits is no checksum" gives 'unknown\n' ask "$work/blanks" one.txt some.txt
check "it is none either where it is asked for" complains "$work/blanks: \`sha256:\` is no file, checksum or action of its runs" ask "$work/blanks" one.txt sha256:
check "runs with checksums of two kinds are added" adds kinds g m
check "whether files with checksums of two kinds are one is unknown" gives 'unknown\n' ask "$work/kinds" y.txt sum.txt
adds kind m
check "checksums of one kind are told apart, however they are written" gives 'no\n' ask "$work/kind" sum.txt taken.txt

# Files without content.
check "runs with empty files are added" adds empty n o
empty='with `--apart empty` runs do not pass such files on'
check "a yes by an empty file alone is noted" notes 'yes\n' "answers that are \`yes\` by an empty file alone: 1; $empty" ask "$work/empty" n.txt o.txt
check "without such files it is no" gives 'no\n' ask --apart empty "$work/empty" n.txt o.txt
check "a list by an empty file alone is noted" notes 'n\tempty.log\no\to.txt\no\tflag\n' "files that are listed by an empty file alone: 2; $empty" impact "$work/empty" n.txt
check "without such files it is shorter" gives 'n\tempty.log\n' impact --apart empty "$work/empty" n.txt
check "another content may be left out" gives 'no\n' ask --apart "sha1:77" --apart "${digits:2}15" "$work/lab" s1.fq calls.vcf

# Views that hide. In the run `whole` the file out/a.bam has items of which the view hides none, in `part` some, and in `shut` all.
. checks/two_items.sh
two_items "$work"
sed 's/r.bam al.bam/al.bam/' "$work/table" >"$work/inner"
views() {
    runs add "$work/views" whole "$work/spec" - "$work/labels" "$work/table" && runs add "$work/shut" shut "$work/spec" "$work/closed" "$work/labels" "$work/inner" &&
        runs add "$work/part" part "$work/spec" "$work/closed" "$work/labels" "$work/table"
    for store in views shut part; do
        python3 checks/across.py "$program" make "$work/next_$store" <<<$'next\nsha1$66=n.txt sha1$33=m.bam\n\nother\nsha1$45=o.txt sha1$55=p.txt' &&
            for name in next other; do
                runs add "$work/$store" $name "$work/next_$store/$name/spec" - "$work/next_$store/$name/labels" "$work/next_$store/$name/table" || return 1
            done
    done
}
check "runs with views are added" views
asked='in/reads.fq n.txt'
check "where all is shown the answer is yes" gives 'yes\n' ask "$work/views" $asked
check "where the view hides a file on the way the answer is hidden" gives 'hidden\n' ask "$work/shut" $asked
check "where it hides an item of a file the answer is that of the others" gives 'yes\n' ask "$work/part" $asked
check "what the view has nothing to do with is answered" gives 'no\n' ask "$work/shut" in/reads.fq o.txt
check "the list notes that a view hides more" notes 'shut\tout/a.vcf\n' \
    'files that views hide, and that may belong to these: 3; `--possible` lists them' impact "$work/shut" in/reads.fq
check "what a view hides is listed if asked for" gives 'next\tn.txt\thidden\nnext\tm.bam\thidden\nshut\tout/a.bam\thidden\nshut\tout/a.vcf\n' \
    impact --possible "$work/shut" in/reads.fq
check "a file that the view hides is refused" complains "$work/shut: the file is hidden by the view of \`shut\`" impact "$work/shut" shut:a.bam

# Names.
check "a name of no file is refused" complains "$work/lab: \`x.cram\` is no file, checksum or action of its runs" ask "$work/lab" s1.fq x.cram
check "an empty name is refused" complains "$work/lab: \`\` is no file, checksum or action of its runs" impact "$work/lab" ''
check "a name of several files is refused with the list" \
    complains "$work/lab: \`act 0\` means 7 files: \`a:out/s1.bam\`, \`b:calls.vcf\`, \`c:report.html\`, \`d:depth.txt\`, \`e:joint.tsv\`, \`f:again.fq\`, \`g:z.txt\`" \
    impact "$work/lab" 'act 0'
check "a file of a run that is not there is refused" complains "$work/lab: \`z:calls.vcf\` is no file, checksum or action of its runs" ask "$work/lab" s1.fq z:calls.vcf
printf 's1.fq\tcalls.vcf\r\ns1.fq\tx\v\xc2\x85\xe2\x80\xa8y' >"$work/lines"
check "a question ends at a newline alone" complains "$work/lab: \`x\\x0b\\x85\\u2028y\` is no file, checksum or action of its runs" ask "$work/lab" "$work/lines"
echo 's1.fq' >"$work/lines"
check "a line of questions that is none is told" complains "$work/lines line 1: a question is two names with a tab between" ask "$work/lab" "$work/lines"
# A run whose name and files have every sign that a page, a picture, a shell, a path or a terminal reads otherwise.
odd=$'../-<b>&"\'$(x)`y`;|*?\\{}->[]%2F~:#\e[2J\t\n\u202e\xff .'
shown='../-<b>&"'\''$(x)`y`;|*?\{}->[]%2F~:#\x1b[2J\t\n\u202e\xff .'
has_odd() {
    local run=$work/odd_run
    mkdir "$run" && printf '{"values":[{"id":"a","path":"<i>&amp;\\"$(x)\\t\\u202e","outside":true},{"id":"b","path":"x/y:z"}],"actions":[{"name":"p;q","used":[["i","a"]],"made":[["o","b"]]}]}' >"$run/list" &&
        python3 tools/from_actions.py "$run/list" "$run/spec" "$run/events" "$run/table" && "$program" ingest "$run/spec" "$run/events" >"$run/labels" &&
        runs add "$work/odd" "$odd" "$run/spec" - "$run/labels" "$run/table" && runs add "$work/odd" .. "$run/spec" - "$run/labels" "$run/table" &&
        [ "$(runs list "$work/odd" | cut -f1)" = ..$'\n'"$shown" ] && runs check "$work/odd" "$odd" | cmp -s - <(printf '%s\tok\n' "$shown") &&
        runs ask "$work/odd" "$odd:a" "$odd:x/y:z" | prints 'yes\n' && runs impact "$work/odd" ..:a 2>"$work/err" | cmp -s - <(printf '%s\n' "..	x/y:z") &&
        [ "$(find "$work/odd" | wc -l)" = 14 ]
}
check "names with any signs are taken, and stay in the folder" has_odd

# How runs are kept.
kept() { runs add "$work/$1" "$2" "$work/runs/a/$3" - "$work/runs/a/labels" "$work/runs/a/table" "${@:4}"; }
# What is in a folder of runs, to the byte.
state_of() { (cd "$work/$1" && find . -type f -exec sha256sum {} + | sort -k 2 && find . | sort); }
# Whether an add ends with status 2 and this line, and leaves the folder of runs as it was.
refuses() {
    local before
    before=$(state_of lab)
    complains "$1" add "$work/lab" "${@:2}" && [ "$(state_of lab)" = "$before" ]
}
a=$work/runs/a b=$work/runs/b
check "a name that a run has is refused" refuses 'a: there is a run of this name' a "$b/spec" - "$b/labels" "$b/table"
check "a file that is not there is refused" refuses "$work/absent: No such file or directory" new "$a/spec" - "$work/absent" "$a/table"
check "a folder in the place of a file is refused" refuses "$a: Is a directory" new "$a" - "$a/labels" "$a/table"
check "labels of another workflow are refused" refuses 'wfprov: refused: labels: OtherSpec' new "$a/spec" - "$b/labels" "$a/table"
check "a view that is none is refused" refuses 'wfprov: refused: view: NotJson' new "$a/spec" "$a/table" "$a/labels" "$a/table"
check "what is no table is refused" refuses 'table line 1: this is no table of an importer, which begins with `#wfprov files 1`' new "$a/spec" - "$a/labels" "$a/spec"
check "a table of another run is refused" refuses 'labels: they have no item `act_0.made`: the table is one of another run' \
    new "$work/spec" - "$work/labels" "$a/table"
head -c 40 "$a/labels" >"$work/cut"
check "labels that are cut off are refused" refuses 'wfprov: refused: labels: Truncated offset 36' new "$a/spec" - "$work/cut" "$a/table"
sed '$d' "$a/events" >"$work/earlier"
check "events of other labels are refused" refuses 'events: the program writes other labels of them than `labels`' new "$a/spec" - "$a/labels" "$a/table" "$work/earlier"
check "events that are none are refused" refuses 'wfprov: refused: events line 1: NotJson' new "$a/spec" - "$a/labels" "$a/table" "$a/table"
printf '#wfprov files 1\nvalue\tx\t\t\t\t\tr.a r.b\\nr.c\n' >"$work/lines"
check "an item that is none is refused" refuses 'table: `x` has the item `r.b\nr.c`, which is no name of an item' new "$a/spec" - "$a/labels" "$work/lines"
long=$(printf 'n%.0s' {1..300})
check "a name that is too long for a folder is refused" refuses "$long: File name too long" "$long" "$a/spec" - "$a/labels" "$a/table"
check "an empty name of a run is refused" refuses 'call: the name of a run is empty' '' "$a/spec" - "$a/labels" "$a/table"
check "a folder of other files is refused" complains "$work/runs: it holds other files, and is no folder of runs" add "$work/runs" new "$a/spec" - "$a/labels" "$a/table"
check "a folder of other files is not asked" complains "$work/runs: it is no folder of runs, which has a file \`wfprov-runs-1\`" ask "$work/runs" s1.fq s2.fq
check "a folder that is not there is told" complains "$work/absent: No such file or directory" list "$work/absent"
check "other words are refused" complains 'call: the words are add, list, check, ask, impact or lineage with FOLDER and more; see --help' ask --once "$work/lab" s1.fq s2.fq
takes_pipes() {
    python3 tools/runs.py add "$work/pipes" a <(cat "$a/spec") - <(cat "$a/labels") <(cat "$a/table") <(cat "$a/events") && [ "$(runs check "$work/pipes")" = "a	ok" ]
}
check "pipes may stand for all files" takes_pipes
sums() { (cd "$work/lab/a" && sha256sum -c --quiet digests); }
check "sha256sum reads the digests" sums
full() {
    local before ended=0
    head -c 300000 /dev/zero | tr '\0' ' ' | cat "$a/spec" - >"$work/long"
    before=$(state_of lab)
    (ulimit -f 100 && python3 tools/runs.py add "$work/lab" new "$work/long" - "$a/labels" "$a/table" >"$work/out" 2>"$work/err") || ended=$?
    [ "$ended" = 2 ] && [ "$(cat "$work/err")" = "runs.py: $work/lab: File too large" ] && [ "$(state_of lab)" = "$before" ]
}
check "where there is no room nothing is added" full
changes() {
    local before ended=0
    before=$(state_of lab)
    python3 - "$work" "$a" <<'CHANGE' 2>"$work/err" || ended=$?
import os, sys
sys.path.insert(0, "tools")
import runs, digests, terminal
work, a = sys.argv[1:]
parts_of = digests.parts_of
def changing(file):
    for part in parts_of(file):
        yield part
        if file.name == f"{work}/growing":
            with open(file.name, "a") as more:
                more.write(" ")
digests.parts_of = changing
with open(f"{work}/growing", "w") as file:
    file.write(open(f"{a}/spec").read())
sys.argv = ["runs.py", "add", f"{work}/lab", "new", f"{work}/growing", "-", f"{a}/labels", f"{a}/table"]
sys.exit(terminal.run("runs.py", "", runs.work))
CHANGE
    [ "$ended" = 2 ] && [ "$(cat "$work/err")" = "runs.py: $work/growing: it changed while it was read" ] && [ "$(state_of lab)" = "$before" ]
}
check "a file that changes while it is read is refused" changes

# Adds that are interrupted, and adds at one time: the program waits until it may go on.
mkfifo "$work/go"
printf '#!/bin/sh\ncase $1 in ask) echo >>%s/begun; read -r _ <%s/go ;; esac\nexec %s "$@"\n' "$work" "$work" "$program" >"$work/waits"
chmod 755 "$work/waits"
# Begins an add in the background, and waits until the program waits, or the add has ended.
begins() {
    local count
    count=$(grep -c '' "$work/begun") || true
    WFPROV=$work/waits python3 tools/runs.py add "$work/lab" "$@" 2>"$work/said" &
    begun=$!
    until [ "$(grep -c '' "$work/begun")" != "$count" ]; do kill -0 "$begun" && sleep 0.05 || return 1; done
}
goes_on() { echo >"$work/go"; }
: >"$work/begun"
# Whether an add that a signal ends leaves the runs as they were. What one leaves that cannot be caught the next add sweeps. The program that
# waits for the killed add is let go; the other ends with its add.
stops() {
    local before ended=0
    before=$(runs list "$work/lab"; runs check "$work/lab")
    begins new "$a/spec" - "$a/labels" "$a/table" || return 1
    kill "-$1" "$begun"
    [ "$1" != KILL ] || goes_on
    wait "$begun" 2>"$work/err" || ended=$?
    [ "$ended" = "$2" ] && [ "$(runs list "$work/lab"; runs check "$work/lab")" = "$before" ] && [ "$(find "$work/lab" -name '.adding-*' | wc -l)" = "$3" ]
}
check "an add that is killed leaves the runs as they were" stops KILL 137 1
check "an add that is ended leaves nothing" stops TERM 2 0
both() {
    local ended=0
    begins late "$a/spec" - "$a/labels" "$a/table" || return 1
    adds lab h && [ "$(find "$work/lab" -name '.adding-*' | wc -l)" = 1 ] || return 1
    kept lab late spec || return 1
    goes_on
    wait "$begun" || ended=$?
    [ "$ended" = 2 ] && [ "$(cat "$work/said")" = 'runs.py: late: there is a run of this name' ] && [ "$(runs check "$work/lab" | grep -c 'ok$')" = 9 ]
}
check "two adds at one time do no harm, and of two of one name one is refused" both

# Damage.
cp -r "$work/lab" "$work/hurt"
hurt=$work/hurt
another='its SHA-256 is another than when the run was added'
# Whether `check` says this of one run, and `ok` of all others.
finds() {
    local ended=0
    runs check "$hurt" >"$work/out" || ended=$?
    [ "$ended" = 1 ] && [ "$(grep -v 'ok$' "$work/out")" = "$1" ] && [ "$(grep -c 'ok$' "$work/out")" = 8 ]
}
# Takes a run from the folder that is not damaged again.
heals() { rm -rf "${hurt:?}/$1" && cp -r "$work/lab/$1" "$hurt/$1"; }
sed -i 's/1f/2f/' "$hurt/b/table"
check "a table that changed is refused, whatever is asked" complains "$hurt/b/table: $another" ask "$hurt" y.txt z.txt
check "it is found" finds "b	table: $another"
heals b
printf 'x' >>"$hurt/c/labels"
check "labels that changed are refused where they are asked" complains "run \`c\`: $hurt/c/labels: $another" ask "$hurt" s1.fq report.html
check "they are found" finds "c	labels: $another"
heals c
rm "$hurt/d/digests"
check "a run without digests is refused" complains "$hurt/d/digests: No such file or directory" ask "$hurt" y.txt z.txt
check "it is found to have none" finds 'd	digests: No such file or directory'
lists_bare() { [ "$(runs list "$hurt" | sed -n 4,5p | cut -f1,2 | tr '\n\t' ';,')" = "d;e,$(sha256sum <"$work/lab/e/spec" | cut -c1-12);" ]; }
check "it is listed by its name alone" lists_bare
tail -n +2 "$work/lab/d/digests" >"$hurt/d/digests"
check "digests that are none are found" finds 'd	digests: it does not say what is kept of a run'
heals d
rm "$hurt/e/view" && touch "$hurt/e/other"
check "files that are not there, or were not, are found" finds $'e\tview: it is not there\ne\tother: it was not there when the run was added'
heals e
cp "$work/lab/a/events" "$hurt/b/events" && (cd "$hurt/b" && sed -i "s/^.*  events/$(sha256sum <events | cut -c1-64)  events/" digests)
check "events of other labels are found, whatever the digests say" finds 'b	wfprov: refused: events line 2: PositionsWrong'
sed 's/act_0/act_1/' "$work/lab/b/events" >"$hurt/b/events" && (cd "$hurt/b" && sed -i "s/^.*  events/$(sha256sum <events | cut -c1-64)  events/" digests)
check "labels of other events are found" finds 'b	events: the program writes other labels of them than `labels`'
heals b
mkdir "$hurt/no run"
check "what is no run is refused, since it may have been one" complains "$hurt/no run: it is no run" ask "$hurt" y.txt z.txt
rmdir "$hurt/no run"
mkdir "$hurt/bare"
check "a folder that is empty is refused" complains "$hurt/bare/table: No such file or directory" ask "$hurt" y.txt z.txt
rmdir "$hurt/bare"
check "a run that is not there cannot be checked" complains "$hurt: it has no run \`x\`" check "$hurt" a x
check "a run whose folder was removed is no more there" gives 'no\n' ask "$hurt" y.txt s1.fq

# Programs that die, or write what the program never writes.
printf '#!/bin/sh\ncase $4 in */%s/*) kill -9 $$ ;; esac\nexec %s "$@"\n' c "$program" >"$work/dies"
printf '#!/bin/sh\necho yes\n' >"$work/few"
printf '#!/bin/sh\nsed "s/.*/maybe/" "$5"\n' >"$work/odd_word"
chmod 755 "$work/dies" "$work/few" "$work/odd_word"
with() { local WFPROV=$1; export WFPROV; "${@:2}"; }
check "a program that dies is told with the run, and nothing is answered" \
    with "$work/dies" complains 'run `c`: wfprov: ended by signal 9' ask "$work/lab" s1.fq report.html
check "where it is not asked it does no harm" with "$work/dies" gives 'no\n' ask "$work/lab" s2.fq z.txt
check "too few answers are told" with "$work/few" complains "run \`g\`: wfprov: $work/few: 1 answers to 3 questions" ask "$work/lab" y.txt z.txt
check "what is no answer is told" \
    with "$work/odd_word" complains 'run `g`: wfprov: it wrote `maybe`, which is no answer' ask "$work/lab" y.txt z.txt
check "a program that is not there is told" with "$work/absent" complains "$work/absent: No such file or directory" ask "$work/lab" y.txt z.txt
check "a run on which it dies is found" with "$work/dies" finds 'c	wfprov: ended by signal 9'

# Random sets of runs, and programs that turn answers.
turning() {
    printf '#!/bin/sh\n%s "$@" | sed "s/^%s$/%s/"\n' "$program" "$1" "$2" >"$work/$1_to_$2"
    chmod 755 "$work/$1_to_$2"
}
turning yes no
turning no yes
turning hidden no
compared() {
    local ended=0
    python3 checks/across.py "$program" "$@" "$work"/{yes_to_no,no_to_yes,hidden_to_no} >"$work/compared" || ended=$?
    head -n 1 "$work/compared"
    return "$ended"
}
check "${1:-100} random sets of runs answer as a search in the joined graph does" compared "${1:-100}" "${2:-1}"
turned() { grep -q "^$1: seed [12]: .* is wanted$" "$work/compared"; }
check "a yes that is turned to no is found" turned yes_to_no
check "a no that is turned to yes is found" turned no_to_yes
check "what is hidden and is told as no is found" turned hidden_to_no

finish
