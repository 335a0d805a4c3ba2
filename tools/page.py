#!/usr/bin/env python3
"""Makes one HTML page for a reviewer: what a view shows of a run, and the answers to questions about the run.

  python3 tools/page.py SPEC VIEW EVENTS QUERIES > page.html
  python3 tools/page.py --labels LABELS SPEC VIEW EVENTS QUERIES > page.html
  --table TABLE  before SPEC: by the table of an importer, a question is the names of two files with a tab between, as files.py takes it

The page has the picture of the run under the view, the view in words, the questions with their answers, how each was obtained, with
the SHA-256 of each file, and what is proved and what is not. It has no script, fetches nothing, and can be printed. `wfprov trace`
gives the answers; with `--labels`, `wfprov ask` gives them from the label file LABELS. EVENTS may then be `-`: the page is made
without the run, and shows the picture of the workflow in place of that of the run.

With `--table` the page shows the files by their paths, or by their names in TABLE where they have none, and lists their checksums. These
are on the page whatever the view hides. A file rests on another where any item of the one rests on any item of the other; all these pairs go to the program in one
call. An item is an edge: what one step gave out and another took. On an item that goes out of the run nothing rests, and the page says
so; what a step reads of the same value is another item.

Of a run that is given, each `yes` has the chain that `wfprov explain` writes, once `wfprov verify` has accepted it: no other is shown, and
where it is not accepted no page is written. A chain of more than 5 steps is folded, and of one of more than 100 the first and last 10 are
shown. The program is started twice for a chain, and reads EVENTS each time: so the first 200 questions that are answered `yes` have
chains, and no more than so many for which 256 MiB of EVENTS are read, but one at least. The page says how many have none.

The picture is made by `wfprov export`, tools/dot.py and Graphviz. A run of more than 200 links has the picture of its workflow
instead, if this has no more than 500 links, and its links are listed at the end of the page; so they are where Graphviz is not
installed. If there are more than 2,000 links, the page has their number alone. Of the run and of the workflow the page shows only what
the view shows. A page has at most 10,000 questions.

Where the view leaves composite steps closed, `wfprov compare` compares it with the one that opens every step, if that one is safe. The page
says that nothing is left out, or warns at its top of the first pair that the view denies although the two are joined.

The tool refuses what `wfprov` refuses, in its words; a file that is no regular file, since each is read more than once; a file that
changes meanwhile; and a LABELS and an EVENTS of different runs. It then writes no page. Its messages name the file or the command.

The program is the one that is built in this repository, or the one that the variable WFPROV names. This tool is no part of what is
proved. It needs Python's standard library alone.
"""
import html
import itertools
import json
import os
import re
import shlex
import shutil
import subprocess
import sys
import tempfile

HERE = os.path.dirname(os.path.abspath(__file__))
sys.path.insert(0, HERE)
import accepted_chains
import digests
import file_table
import labels as label_file
import terminal
import two_views
from digests import PART
from terminal import Wrong

# How many links of a run are drawn and listed at most, and how many of a workflow are drawn.
DRAWN_LINKS, LISTED_LINKS, DRAWN_WORKFLOW = 200, 2000, 500
# How many questions a page has at most, and how many steps a chain that is not folded.
QUESTIONS, UNFOLDED = 10_000, 5

STYLE = """
body { font: 16px/1.45 sans-serif; color: #111; background: #fff; max-width: 60rem; margin: 1.5rem auto; padding: 0 1rem; }
h1 { font-size: 1.6rem; } h2 { font-size: 1.2rem; margin-top: 2rem; border-bottom: 1px solid #999; }
table { border-collapse: collapse; width: 100%; } caption { text-align: left; padding: .3rem 0; }
th, td { border: 1px solid #999; padding: .25rem .5rem; text-align: left; vertical-align: top; }
th { background: #eee; } code { font-family: monospace; overflow-wrap: break-word; } code.digest { font-size: .85em; overflow-wrap: anywhere; } td.answer { font-weight: bold; }
p.warning { border: 3px solid #b00; padding: .5rem .8rem; } figure { margin: 1rem 0; } svg { display: block; max-width: 100%; height: auto; margin: 0 auto; }
pre { margin: .2rem 0; white-space: pre-wrap; overflow-wrap: anywhere; } ul.links { columns: 18rem; padding-left: 1.2rem; font-size: .9em; }
@media print {
  @page { margin: 1.5cm; }
  body { font-size: 10pt; max-width: none; margin: 0; padding: 0; }
  svg { max-height: 22cm; } thead { display: table-header-group; } tr, figure { break-inside: avoid; } h2 { break-after: avoid; }
}
"""


def plain(text):
    """Returns a text for HTML, with a name in place of each sign that cannot be printed."""
    return html.escape(terminal.escaped(text))


def code(text):
    return f"<code>{plain(text)}</code>"


def listed(words):
    """Returns words with commas and an `and` between."""
    return words[0] if len(words) == 1 else ", ".join(words[:-1]) + " and " + words[-1]


def counted(number, word):
    return f"{number:,} {word}{'' if number == 1 else 's'}"


def digest_of(path):
    """Returns the number of bytes of a regular file and its SHA-256."""
    if os.path.exists(path) and not os.path.isfile(path):
        raise Wrong(f"{path}: not a regular file")
    with open(path, "rb") as file:
        return digests.digest_of(file)


class Program:
    """The program, and the commands that it was given."""

    def __init__(self):
        built = os.path.join(os.path.dirname(HERE), "crates/wfprov/out/wfprov")
        self.path = os.environ.get("WFPROV") or built
        if not os.path.isfile(self.path) or not os.access(self.path, os.X_OK):
            raise Wrong(f"{self.path}: no program; `./wfprov` builds it, and the variable WFPROV may name another")

    def write(self, words, file, given=subprocess.DEVNULL):
        """Writes what a command writes to a file, with another file as its standard input."""
        ran = subprocess.run([self.path, *words], stdin=given, stdout=file, stderr=subprocess.PIPE, check=False)
        if ran.returncode:
            raise Wrong(f"wfprov {shlex.join(words)}: {terminal.ended(ran.stderr, ran.returncode)}")
        file.seek(0)

    def lines(self, words, given=subprocess.DEVNULL):
        """Returns the lines that a command writes, with a file as its standard input."""
        with tempfile.TemporaryFile() as file:
            self.write(words, file, given)
            return file.read().decode().splitlines()


class Grammar:
    """What `check` tells of a specification: the ports of each module, and for each composite one how many links its bodies have."""

    def __init__(self, program, spec):
        told = json.loads(program.lines(["check", spec])[0])
        self.inputs = {module["name"]: module["in"] for module in told["modules"]}
        self.outputs = {module["name"]: module["out"] for module in told["modules"]}
        self.start, self.composite = told["start"], {}
        for production in told["productions"]:
            links = sum(len(production[side]) for side in ("edges", "in", "out"))
            self.composite[production["head"]] = self.composite.get(production["head"], 0) + links


def named_by(path):
    """Returns the modules to which the member `deps` of a file gives pairs. The program has taken the file."""
    try:
        with open(path, "rb") as file:
            return {part["module"] for part in json.loads(file.read()).get("deps", [])}
    except ValueError as error:
        raise Wrong(f"{path}: Python cannot read its JSON: {error}") from None


def lines_of(path):
    """Yields the lines of QUERIES that are not empty."""
    with open(path, "rb") as file:
        for line in file:
            line = line.rstrip(b"\n")
            line = line[:-1] if line.endswith(b"\r") else line
            if line:
                yield line


def refuse_too_many(path):
    """Refuses a file with more questions than a page has."""
    if any(True for _ in itertools.islice(lines_of(path), QUESTIONS, None)):
        raise Wrong(f"{path}: more than {QUESTIONS:,} questions, which are too many for a page; `wfprov` answers them without one")


def questions_of(path):
    """Yields the two items of each line of QUERIES that asks a question. The program has taken each of them."""
    return (line.decode().split(" ") for line in lines_of(path))


class Run:
    """What `export` tells of a run: its text where it is short enough to be shown, how many links there are, and the first instance, of
    which the first item is, if it has any."""

    def __init__(self, program, words):
        with tempfile.TemporaryFile() as file:
            program.write(words, file)
            self.links, self.first = 0, ""
            for line in file:
                self.links += line.startswith(b"link ")
                if not self.first and line.startswith(b"item "):
                    self.first = line[5:].decode().partition(".")[0]
            file.seek(0)
            self.text = file.read() if self.links <= LISTED_LINKS else b""


class Picture:
    """Graphviz, if it is installed, and what it draws."""

    def __init__(self):
        self.dot = shutil.which("dot")
        said = subprocess.run([self.dot, "-V"], stderr=subprocess.PIPE, check=False).stderr.decode() if self.dot else ""
        self.version = "".join(re.findall(r"graphviz version \S+", said))

    def draw(self, words, text, label):
        """Returns the picture that dot.py makes with these words from a text, as an element of HTML."""
        made = subprocess.run([sys.executable, os.path.join(HERE, "dot.py"), *words], input=text, capture_output=True, check=False)
        if made.returncode:
            raise Wrong(terminal.ended(made.stderr, made.returncode))
        return self.svg(made.stdout, label)

    def svg(self, text, label):
        """Returns the picture of a text for Graphviz, as an element of HTML."""
        drawn = subprocess.run([self.dot, "-Tsvg"], input=text, capture_output=True, check=False)
        if drawn.returncode:
            raise Wrong(f"dot -Tsvg: {terminal.ended(drawn.stderr, drawn.returncode)}")
        svg = drawn.stdout.decode()
        svg = re.sub(r"<!--.*?-->\n?|<title>.*?</title>\n?", "", svg[svg.index("<svg") :], flags=re.DOTALL)
        svg = re.sub(r'\s+xmlns:xlink="[^"]*"', "", svg, count=1)
        return svg.replace("<svg", f'<svg role="img" aria-label="{plain(label)}"', 1)


RUN_CAPTION = (
    "Boxes are steps that the view leaves closed or that have no smaller steps, with their inputs above and their outputs below. Ovals"
    " are the ports of steps whose inside is shown. Arrows lead where data go, and have the name of the data item where it is made."
    " An output of a box rests on each input of the box, or, where the box lists pairs, on the inputs that it lists. A dashed box is a"
    " step that the run has not carried out yet."
)
SPEC_CAPTION = (
    "A frame is a production, which is one way to carry out a step: the grey bar above has the inputs of the step, the one below its"
    " outputs, and the boxes are smaller steps. A box with <code>by 1, 2</code> is carried out by production 1 or 2. An output of any"
    " other box rests on each input of the box, or, where the box lists pairs, on the inputs that it lists. A thick box leads back to"
    " the step of its frame, which so may repeat."
)


def figure(drawn, caption, version):
    return f"<figure>\n{drawn.strip()}\n<figcaption>{caption} Drawn by {plain(version)}.</figcaption>\n</figure>"


def workflow_part(picture, grammar, spec, shown):
    """Yields the picture of the workflow under the view, where it can be drawn."""
    links = sum(grammar.composite[line.split(" ")[0]] for line in shown if line.split(" ")[1] == "expanded")
    if picture.dot and links <= DRAWN_WORKFLOW:
        text = "".join(line + "\n" for line in shown).encode()
        yield "<p>The picture is that of the workflow under the view.</p>"
        drawn = picture.draw(["--spec", spec, "--view", "/dev/stdin"], text, "The workflow under the view")
        yield figure(drawn, SPEC_CAPTION, picture.version)


def run_part(picture, run, grammar, spec, shown):
    """Yields the part of the page that shows the run."""
    if run is None:
        yield "<p>This page was made from the label file, without the run.</p>"
        yield from workflow_part(picture, grammar, spec, shown)
    elif not run.links:
        yield "<p>The run has no links yet.</p>"
    elif is_drawn(picture, run):
        yield figure(picture.draw([], run.text, "The run under the view"), RUN_CAPTION, picture.version)
    else:
        where = "are listed at the end of this page" if run.links <= LISTED_LINKS else "can be had from <code>wfprov export</code>"
        yield f"<p>The run has {counted(run.links, 'link')} under the view, which {where}.</p>"
        yield from workflow_part(picture, grammar, spec, shown)


def is_drawn(picture, run):
    return picture.dot and run.links <= DRAWN_LINKS


def links_part(run):
    """Yields the list of the links of a run."""
    yield "<p>Data go from the first port to the second.</p>"
    yield '<ul class="links">'
    for line in run.text.decode().splitlines():
        if line.startswith("link "):
            first, second = line.split(" ")[1:]
            yield f"<li>{code(first)} to {code(second)}</li>"
    yield "</ul>"


def rests(grammar, module, pairs):
    """Returns what the outputs of a module rest on, in words."""
    below = {port: [] for port in grammar.outputs[module]}
    for first, second in pairs:
        below[second].append(code(first))
    told = [f"{code(port)} rests on {listed(inputs) if inputs else 'no input'}" for port, inputs in below.items()]
    return "; ".join(told) if told else "it has no output"


def source(grammar, module, state, by_view, by_spec):
    """Returns where the pairs of a module come from, in words."""
    if state == "expanded":
        return "worked out from the steps inside; the same however they are carried out"
    if module in by_view:
        return "said by the view, and taken at its word"
    if module not in grammar.composite and module in by_spec:
        return "said by the specification, and taken at its word"
    return "nothing is said of it, so each output is taken to rest on each input"


def view_part(grammar, words, shown):
    """Yields the part of the page that tells the view in words, from the lines of `view`."""
    by_view, by_spec = named_by(words["VIEW"]), named_by(words["SPEC"])
    yield "<table>\n<thead><tr><th>Step (module)</th><th>Inside</th><th>What its outputs rest on</th><th>How this is known</th></tr></thead>"
    yield "<tbody>"
    seen = set()
    for line in shown:
        module, state, *pairs = line.split(" ")
        seen.add(module)
        inside = "shown" if state == "expanded" else "closed" if module in grammar.composite else "none"
        told = rests(grammar, module, [pair.split(">") for pair in pairs])
        known = source(grammar, module, state, by_view, by_spec)
        yield f"<tr><td>{code(module)}</td><td>{inside}</td><td>{told}</td><td>{known}</td></tr>"
    yield "</tbody>\n</table>"
    hidden = len(grammar.inputs) - len(seen)
    if hidden:
        yield f"<p>The workflow has {counted(hidden, 'module')} more, which the view does not show.</p>"


def beside_full(program, grammar, words, shown):
    """Returns the lines that `compare` writes of the view beside the one that opens every step. There are none where that one is not safe, and
    it is None where the view leaves no composite step closed."""
    if not any(line.split(" ")[0] in grammar.composite and line.split(" ")[1] == "shown" for line in shown):
        return None
    with tempfile.NamedTemporaryFile() as full:
        full.write(b"{}")
        full.flush()
        try:
            return program.lines(["compare", words["SPEC"], full.name, words["VIEW"]])
        except Wrong as refused:
            if re.search(": refused: view: Unsafe [^:]*$", str(refused)):
                return []
            raise


# How the view of a page and the one that opens every step are called where they are compared.
CALLED = two_views.Called("the view", "on this page", "the view that opens every step", "with every step opened")


def warning_part(told):
    """Yields a warning where `compare` tells of a pair that the view denies."""
    if told and two_views.denies(told):
        what, more = two_views.meaning(told, CALLED, code)
        yield f'<p class="warning"><strong>{what}</strong> {more}</p>'


def beside_part(told):
    """Yields what `compare` tells of a view that denies nothing, or why it tells nothing."""
    if told == []:
        yield (
            "<p>The view is not compared with the one that opens every step: that one is not safe. Two ways to carry out a step disagree there"
            " about what its outputs rest on.</p>"
        )
    elif told and not two_views.denies(told):
        yield f"<p>{' '.join(two_views.meaning(told, CALLED, code)).rstrip()}</p>"


MEANINGS = {
    "yes": "the item rests on the other; data lead from the one to the other, in whatever way the run is finished",
    "no": "the item does not rest on the other; no data lead there, in whatever way the run is finished",
    "hidden": "the view hides one of the two items, or both, and gives no answer",
    "unknown": "one of the two items, or both, are not in the WHERE",
    "clash": "no run has both items, so the label file is not that of a run",
}


FILE_MEANINGS = {
    "yes": "the file rests on the other; data lead from an item of the one to one of the other, in whatever way the run is finished",
    "no": "the file does not rest on the other; no data lead there, in whatever way the run is finished",
    "hidden": "the view hides an item of one of the two files, or of both, and gives no answer",
}


class Asked:
    """The questions, as pairs of names, with their answers; and the files of the names, or which items go out of the run. `items` has the two
    items of each answer, `chains` the chain of each question that has one, by its number, and `tried` says how many were asked for."""

    def __init__(self, questions, answers, files=(), outputs=(), items=None):
        self.questions, self.answers, self.files, self.outputs = questions, answers, files, outputs
        self.items, self.chains, self.tried = items or questions, {}, 0

    def take_chains(self, program, words, is_later):
        """Takes the chains of the first questions that are answered `yes`. If the label file is that of a later run, the run that is given
        may lack an item."""
        run = [words["SPEC"], words["VIEW"], words["EVENTS"]]
        asked = [number for number, answer in enumerate(self.answers) if answer == "yes"]
        for number in asked[: accepted_chains.most(os.path.getsize(words["EVENTS"]))]:
            self.tried += 1
            chain = accepted_chains.accepted(program, run, *self.items[number])
            if not isinstance(chain, str):
                self.chains[number] = chain
            elif chain != "unknown" or not is_later:
                first, second = self.items[number]
                raise Wrong(f"wfprov explain: `{chain}` of `{first}` and `{second}`, where the answer is `yes`")

    def meaning(self, number):
        """Returns what an answer says of the two names of its question."""
        (first, second), answer = self.questions[number], self.answers[number]
        if answer == "yes":
            return f"{code(second)} rests on {code(first)}"
        if answer == "no" and first in self.outputs:
            return f"{code(first)} goes out of the run, so nothing rests on it; what a step reads of its value is another item"
        if answer == "no":
            return f"{code(second)} does not rest on {code(first)}"
        return {"hidden": "the view hides an item", "unknown": "an item is not there", "clash": "no run has both items"}[answer]


def chain_part(chain, between):
    """Returns what is shown of a chain. `between` says of which items it is, where the question names files."""
    lines = [*map(plain, chain.start)]
    if not chain.is_whole:
        lines += [f"({counted(chain.left_out(), 'step')} left out)", *map(plain, chain.end)]
    told = f"Why: a chain of {counted(chain.steps, 'step')}{between}, which <code>verify</code> accepts"
    is_open = ' open="open"' if chain.steps <= UNFOLDED else ""
    return f"<details{is_open}><summary>{told}</summary><pre>{chr(10).join(lines)}</pre></details>"


def chains_note(asked, has_run):
    """Yields what is said of the chains on the page."""
    total = asked.answers.count("yes")
    if asked.chains:
        yield (
            "<p>Below a <code>yes</code> stands a chain of items, as <code>wfprov explain</code> wrote it: each item but the first rests on the"
            " one before it through the step behind <code>via</code>, and no chain is shorter. <code>wfprov verify</code> has looked at its"
            " lines one by one, and accepted them.</p>"
        )
    if total and not has_run:
        yield "<p>The page was made without the run, of which <code>wfprov explain</code> tells why an item rests on another.</p>"
    elif asked.tried < total:
        yield (
            f"<p>Chains were asked for of the first {asked.tried:,} of the {total:,} questions that are answered <code>yes</code>."
            " <code>wfprov explain</code> writes the others.</p>"
        )
    if len(asked.chains) < asked.tried:
        lacking = counted(asked.tried - len(asked.chains), "question")
        yield f"<p>Of {lacking} the run that is shown does not have both items yet, and so no chain.</p>"


def questions_part(asked, where, has_run):
    """Yields the part of the page with the questions, their answers and chains."""
    meanings = FILE_MEANINGS if asked.files else MEANINGS
    totals = {answer: asked.answers.count(answer) for answer in meanings if answer in asked.answers}
    yield "<ul>"
    for answer, total in totals.items():
        yield f"<li><strong>{answer}</strong> ({counted(total, 'time')}): {meanings[answer].replace('WHERE', where)}.</li>"
    yield "</ul>"
    yield from chains_note(asked, has_run)
    yield "<table>\n<thead><tr><th>No.</th><th>Question</th><th>Answer</th><th>What it says</th></tr></thead>\n<tbody>"
    for number, ((first, second), answer) in enumerate(zip(asked.questions, asked.answers)):
        question = f"Does {code(second)} rest on {code(first)}?"
        between = " from {} to {}".format(*map(code, asked.items[number])) if asked.files else ""
        why = chain_part(asked.chains[number], between) if number in asked.chains else ""
        yield f'<tr><td>{number + 1}</td><td>{question}</td><td class="answer">{answer}</td><td>{asked.meaning(number)}{why}</td></tr>'
    yield "</tbody>\n</table>"


def files_part(files):
    """Yields the part of the page with the files that the questions name. Makers and items are left out: the view may hide them."""
    yield "<table>\n<thead><tr><th>File</th><th>Its name in the table</th><th>Its checksum there</th></tr></thead>\n<tbody>"
    for name, file in files.items():
        checksum = f'<code class="digest">{plain(file.checksum)}</code>' if file.checksum else "none"
        yield f"<tr><td>{code(name)}</td><td>{code(file.identity)}</td><td>{checksum}</td></tr>"
    yield "</tbody>\n</table>"


LATER = "The label file goes on from the one that <code>wfprov ingest</code> writes of the run: the run is shown as it was earlier."


def same_run(program, words):
    """Returns how LABELS and the label file of EVENTS stand to each other, in words."""
    with tempfile.TemporaryFile() as made, open(words["LABELS"], "rb") as held:
        program.write(["ingest", words["SPEC"], words["EVENTS"]], made)
        at = 0
        while (first := held.read(PART)) == (second := made.read(PART)):
            if not first:
                return "The label file is, byte for byte, the one that <code>wfprov ingest</code> writes of the run."
            at += len(first)
    length = min(len(first), len(second))
    if first[:length] != second[:length]:
        at += next(k for k in range(length) if first[k] != second[k])
        raise Wrong(f"{words['LABELS']}: byte {at}: not the label file of {words['EVENTS']}, nor one that begins it or goes on from it")
    if len(first) < len(second):
        return "The label file begins the one that <code>wfprov ingest</code> writes of the run, and lacks what the run made later."
    return LATER


def how_part(files, commands, agreement):
    """Yields the part of the page that tells how the answers were obtained."""
    yield "<p>These commands were run, and each ended with status 0.</p>\n<ol>"
    for command, what in commands:
        yield f"<li>{code(command)}<br/>{what}</li>"
    yield "</ol>"
    if agreement:
        yield f"<p>{agreement}</p>"
    yield "<table>\n<caption>The files, with the digests that <code>sha256sum</code> prints of them.</caption>"
    yield "<thead><tr><th>File</th><th>Its path and its SHA-256</th><th>Bytes</th></tr></thead>\n<tbody>"
    for word, path, size, digest in files:
        yield f'<tr><td>{word}</td><td>{code(path)}<br/><code class="digest">{digest}</code></td><td>{size:,}</td></tr>'
    yield "</tbody>\n</table>"


ITEMS = """. ITEMS was made of QUERIES and TABLE: it has, for each question, a line for each item of the first file and each of the \
second. A question is answered <code>yes</code> if one of its lines is, and otherwise <code>hidden</code> if one of its lines is. \
This command gives these answers too: {}"""


def files_call(words):
    """Returns the call of files.py that gives the answers of the page."""
    trace = [] if "LABELS" in words else ["--trace"]
    run = words.get("LABELS", words["EVENTS"])
    call = [*trace, "ask", words["SPEC"], words["VIEW"], run, words["TABLE"], words["QUERIES"]]
    return code("python3 tools/files.py " + shlex.join(call))


def chain_commands(words):
    """Returns the commands that made and tried the chains."""
    run = [words["SPEC"], words["VIEW"], words["EVENTS"]]
    items = "the two items between which it is" if "TABLE" in words else "the two items of its question"
    return [
        (["explain", *run, "FIRST", "SECOND"], f"wrote each chain; FIRST and SECOND are {items}"),
        (["verify", *run, "CHAIN"], "accepted each chain: it wrote <code>yes</code>; CHAIN is a file with the lines that <code>explain</code> wrote"),
    ]


def commands_of(words, run, has_chains, is_compared):
    """Returns the commands with what they were run for."""
    spec, view, queries = words["SPEC"], words["VIEW"], words["QUERIES"]
    told = [
        (["check", spec], "accepted the specification"),
        (["view", spec, view], "found the view safe, and reported what it shows"),
    ]
    if is_compared:
        what = "compared the view with the one that opens every step; FULL is a file with <code>{}</code>"
        told.append((["compare", spec, "FULL", view], what))
    if run:
        told.append((["export", spec, view, words["EVENTS"]], "wrote the run under the view"))
    if "LABELS" in words:
        if run:
            told.append((["ingest", spec, words["EVENTS"]], "made the label file of the run, to be compared with the one that was given"))
        told.append((["ask", spec, view, words["LABELS"], queries], "answered the questions, each from the labels of its two items"))
    else:
        told.append((["trace", spec, view, words["EVENTS"], queries], "answered the questions, each by a search in the graph of the run"))
    if "TABLE" in words:
        command, what = told.pop()
        told.append(([*command[:-1], "ITEMS"], what.replace("the questions", "the lines of ITEMS") + ITEMS.format(files_call(words))))
    told += chain_commands(words) if has_chains else []
    return [("wfprov " + shlex.join(command), f"{what[0].upper()}{what[1:]}.") for command, what in told]


PROVED = """<p><strong>Proved.</strong> The program wfprov is written in Rattle, which is Rust with contracts, and a prover has checked \
that the code meets them. The contract of its main call says what the program writes for the contents of its files. Of two items that \
the view shows, the answer is <code>yes</code> exactly if, in each way to finish the run, a path of links leads from the port that takes \
the first item in to the port that makes the second, and <code>no</code> exactly if in no way to finish the run such a path leads there. \
A view under which this could differ from one way to finish the run to another is refused; this view was not.</p>"""
PROVED_LABELS = """<p>These answers were given from the labels of the items. It is proved that over the label file that \
<code>wfprov ingest</code> writes of a run they are the answers of the run itself. A label file from elsewhere is accepted too, if it has \
the form of one of this workflow; an answer <code>yes</code> or <code>no</code> then holds of each run that has both labels.</p>"""
PROVED_CHAINS = """<p>It is proved that <code>wfprov explain</code> writes a chain exactly where the second item rests on the first, that no \
chain of the two is shorter, and that <code>wfprov verify</code> says <code>yes</code> exactly of the lines of a chain of the run. It searches nothing, and \
looks at each line once, so a chain can be checked by something simpler than what found it.</p>"""
PROVED_COMPARED = """<p>What <code>wfprov compare</code> says of the two views is proved as well: where it says <code>yes</code>, no answer \
<code>yes</code> of the one that opens every step is a <code>no</code> under this one, and where it says <code>exact</code>, their answers are the same.</p>"""
NOT_PROVED = """<p><strong>Not proved.</strong> That the specification, the view and the events describe what was really done: the pairs \
that they give to a step are taken at their word. That the program gets what stands in these files, and that what it writes arrives: \
this is tested. The prover, the compilers, their libraries and the system are trusted. This page, and the picture or the list of links \
on it, were made by tools outside the proof; the commands above give the answers without them.</p>"""
NOT_PROVED_LABELS = """<p>A label file is bound to its workflow by a SHA-256, which leaves out the pairs of <code>deps</code>: it passes \
for each workflow that differs from this one in its pairs alone. A view hides items from the answers, and not from one who reads the \
label file.</p>"""

NOT_PROVED_TABLE = """<p>The proof is about items. That they are the files that the table says was written by an importer, and taken at its \
word; that a file rests on a file where an item of the one rests on an item of the other was worked out by this tool.</p>"""


def head():
    yield '<!DOCTYPE html>\n<html lang="en">\n<head>\n<meta charset="utf-8"/>'
    yield "<meta http-equiv=\"Content-Security-Policy\" content=\"default-src 'none'; style-src 'unsafe-inline'\"/>"
    yield '<meta name="viewport" content="width=device-width, initial-scale=1"/>'
    yield f"<title>What a run rests on</title>\n<style>{STYLE}</style>\n</head>\n<body>"


def section(name, title, lines):
    """Yields a part of the page with its title."""
    yield f'<section id="{name}">\n<h2>{title}</h2>'
    yield from lines
    yield "</section>"


def opening(words, count):
    yield "<h1>What the items of a run rest on</h1>"
    told = [f"The workflow is {code(words['SPEC'])}", f"the view {code(words['VIEW'])} chooses the steps whose inside is shown"]
    if words["EVENTS"] != "-":
        told.append(f"the run is {code(words['EVENTS'])}")
    if "LABELS" in words:
        told.append(f"the answers are given from the label file {code(words['LABELS'])}")
    what, named = "data item", (
        "A data item is named by the step that makes it, a dot and the output there; an input or output of the run by the run and its port."
    )
    if "TABLE" in words:
        told.append(f"the table {code(words['TABLE'])} says which data items are which files")
        what, named = "file", "A file is named by its path, or by the name that the table has for it."
    yield (
        f"<p>This page has the answers to {counted(count, 'question')} about a run of a workflow: whether one {what} rests on"
        f" another. {listed(told)}. {named}</p>"
    )


def outputs_of_run(grammar, run, words):
    """Returns the items that go out of the run. The program has taken the files."""
    if run:
        return {f"{run.first}.{port}" for port in grammar.outputs[grammar.start]}
    entries = label_file.entries_of(terminal.read_bytes(words["LABELS"]))
    return {name.decode() for name, label in entries if label_file.goes_out(label)}


def asked_of_files(command, words):
    """Returns the questions about files, and their answers."""
    table = file_table.Table(words["TABLE"])
    pairs = file_table.questions(table, words["QUERIES"])
    joined = file_table.Asker(command[0], *command[1:4]).joined(pairs)
    questions = [tuple(map(table.shown, pair)) for pair in pairs]
    names = {name: file for pair, two in zip(questions, pairs) for name, file in zip(pair, two)}
    return Asked(questions, [answer for answer, _ in joined], names, items=[items for _, items in joined])


def asked_and_answered(program, grammar, run, words):
    """Returns the questions and their answers."""
    source_word = "LABELS" if "LABELS" in words else "EVENTS"
    command = ["ask" if "LABELS" in words else "trace", words["SPEC"], words["VIEW"], words[source_word], words["QUERIES"]]
    if "TABLE" in words:
        return asked_of_files(command, words)
    answers = program.lines(command)
    questions = list(questions_of(words["QUERIES"]))
    if len(questions) != len(answers) or not MEANINGS.keys() >= set(answers):
        raise Wrong(f"{words['QUERIES']}: {len(questions)} questions, and {len(answers)} answers, or one that is no answer")
    return Asked(questions, answers, outputs=outputs_of_run(grammar, run, words))


def proved_part(of_labels, of_files, has_chains, is_compared):
    """Returns the part of the page that says what is proved, and what is not."""
    proved = [PROVED] + [PROVED_LABELS] * of_labels + [PROVED_CHAINS] * has_chains + [PROVED_COMPARED] * is_compared
    return proved + [NOT_PROVED] + [NOT_PROVED_LABELS] * of_labels + [NOT_PROVED_TABLE] * of_files


def files_of(program, words):
    """Returns the files with their words, paths, sizes and digests."""
    files = [(word, path, *digest_of(path)) for word, path in words.items() if path != "-"]
    return [*files, ("wfprov", program.path, *digest_of(program.path))]


def page(program, words):
    """Returns the lines of the page."""
    files = files_of(program, words)
    refuse_too_many(words["QUERIES"])
    of_labels = "LABELS" in words
    grammar = Grammar(program, words["SPEC"])
    shown = program.lines(["view", words["SPEC"], words["VIEW"]])
    beside = beside_full(program, grammar, words, shown)
    run = Run(program, ["export", words["SPEC"], words["VIEW"], words["EVENTS"]]) if words["EVENTS"] != "-" else None
    agreement = same_run(program, words) if of_labels and run else ""
    asked = asked_and_answered(program, grammar, run, words)
    if run:
        asked.take_chains(program, words, agreement == LATER)
    picture, has_chains, is_compared = Picture(), bool(asked.chains), bool(beside)
    lines = [*head(), *opening(words, len(asked.questions)), *warning_part(beside)]
    lines += section("picture", "The run under the view" if run else "The workflow", run_part(picture, run, grammar, words["SPEC"], shown))
    lines += section("view", "The view in words", [*view_part(grammar, words, shown), *beside_part(beside)])
    lines += section("questions", "Questions and answers", questions_part(asked, "label file" if of_labels else "run", bool(run)))
    if asked.files:
        lines += section("files", "The files that the questions name", files_part(asked.files))
    lines += section("how", "How the answers were obtained", how_part(files, commands_of(words, run, has_chains, is_compared), agreement))
    lines += section("proved", "What is proved, and what is not", proved_part(of_labels, "TABLE" in words, has_chains, is_compared))
    if run and 0 < run.links <= LISTED_LINKS and not is_drawn(picture, run):
        lines += section("links", "The links of the run under the view", links_part(run))
    for _, path, *told in files:
        if list(digest_of(path)) != told:
            raise Wrong(f"{path}: changed while the page was made")
    return lines + ["</body>\n</html>"]


def words_of(words):
    """Returns the paths of the files by their words."""
    named, options = {}, {"--labels": "LABELS", "--table": "TABLE"}
    while len(words) > 1 and options.get(words[0], words[0]) not in (words[0], *named):
        named[options[words[0]]], words = words[1], words[2:]
    if len(words) != 4 or words[0].startswith("--"):
        raise Wrong("the words are not [--labels LABELS] [--table TABLE] SPEC VIEW EVENTS QUERIES; see --help")
    found = {**dict(zip(("SPEC", "VIEW", "EVENTS", "QUERIES"), words)), **{word: named[word] for word in sorted(named)}}
    if found["EVENTS"] == "-" and "LABELS" not in named:
        raise Wrong("EVENTS can be `-` only with --labels; see --help")
    return found


def work(words):
    terminal.write("\n".join(page(Program(), words_of(words))) + "\n")


if __name__ == "__main__":
    sys.exit(terminal.run("page.py", __doc__, work))
