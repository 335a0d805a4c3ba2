"""Which page a request gets."""
import tempfile
import urllib.parse

import labels as label_file
import page
import terminal
from browsing import drawing, keeping, markup
from browsing.answers import Answers
from browsing.links import Part, Shown
from browsing.serving import Reply
from page import counted
from terminal import Wrong

# How many links are drawn around a question, where the whole run has too many, and how many items a search shows.
AROUND, FOUND = 60, 60
CAPTION = (
    " A grey box is a step that the view leaves closed, and a white one has no smaller steps. Names of items can be clicked. What was"
    " asked about and the way of a chain are blue; of one chosen item, what it rests on is green, and what rests on it is brown."
)


class View:
    """A view that was given: what it shows of the workflow and, once it is looked at, of the run."""

    def __init__(self, program, file):
        self.program, self.file, self.run = program, file, None
        self.lines = program.lines(["view", program.spec, file])

    def shown(self):
        """Returns what the view shows of the run."""
        if not self.run:
            with tempfile.TemporaryFile() as file:
                self.program.write(["export", self.program.spec, self.file, self.program.events], file)
                file.seek(0)
                self.run = Shown(file)
        return self.run


class Desk:
    """Answers requests about the run of a program."""

    def __init__(self, program):
        self.program, self.picture = program, page.Picture()
        try:
            self.grammar = page.Grammar(program, program.spec)
        except (LookupError, ValueError, TypeError) as error:
            raise Wrong(f"wfprov check: it wrote what it never writes: {error}") from None
        self.views = [View(program, view) for view in program.views]
        self.answers = Answers(program, self.outputs())

    def outputs(self):
        """Returns the items that go out of the run. The first item of a label file is one of the first instance, if that has any."""
        self.program.labels.file.seek(0)
        first = next(label_file.entries_of(self.program.labels.file.read(page.PART)), (b"", b""))[0].decode().partition(".")[0]
        return {f"{first}.{port}" for port in self.grammar.outputs[self.grammar.start]}

    def serve(self, name, query):
        """Returns the page of a name and a query."""
        try:
            asked = self.asked(query)
        except Wrong as wrong:
            return Reply(400, "text/plain", f"refused: {wrong}\n")
        try:
            if not name:
                return Reply(200, "text/html", "\n".join(self.page(asked)) + "\n")
            text = keeping.page_of(self.program, self.views[asked.view].file, asked.first, asked.second)
            return Reply(200, "text/html", text, 'Content-Disposition: attachment; filename="answer.html"')
        except Wrong as wrong:
            return Reply(500, "text/plain", f"{terminal.escaped(str(wrong))}\n")
        except (LookupError, ValueError) as error:
            return Reply(500, "text/plain", f"wfprov wrote what it never writes: {terminal.escaped(str(error))}\n")

    def asked(self, query):
        """Returns what a query asks."""
        try:
            told = urllib.parse.parse_qsl(query, keep_blank_values=True, strict_parsing=bool(query), max_num_fields=4)
        except ValueError:
            told = [("", "")]
        words, numbers = dict(told), map(str, range(len(self.views)))
        number = words.get("view", "0")
        if len(words) != len(told) or not words.keys() <= {"view", "first", "second", "find"} or number not in numbers:
            raise Wrong("the address asks for what this page does not have")
        return markup.Asked(**{**words, "view": int(number)})

    def page(self, asked):
        """Yields the lines of the page."""
        view, says, answer, related = self.views[asked.view], [], None, None
        try:
            if asked.second:
                answer = self.answers.answer(asked.view, asked.first, asked.second)
            elif asked.first:
                related = self.answers.related(asked.view, asked.first)
        except Wrong as wrong:
            says.append(str(wrong))
        says += [f"{file.path} has changed since it was read. This page answers of the file as it was; start the tool again for the new one."
                 for file in self.program.files if file.has_changed()]
        yield from markup.head()
        yield from markup.opening(asked, self.program.spec.path, self.program.events.path, [file.path for file in self.program.views])
        yield "<main>"
        yield from markup.question_part(asked)
        for what in says:
            yield from markup.notice(what)
        yield from markup.answer_part(asked, answer) if answer else markup.related_part(asked, related) if related else ()
        yield from self.run_parts(view, asked, answer, related)
        yield from self.details(view)
        yield "</main></body>\n</html>"

    def run_parts(self, view, asked, answer, related):
        """Yields the picture and the items, or why they are not there."""
        try:
            shown = view.shown()
            drawn = list(self.picture_part(view, shown, asked, answer, related))
        except Wrong as wrong:
            yield from markup.notice(str(wrong))
            return
        found = list(markup.search_part(asked, shown.items.search(asked.find, FOUND), shown.items.count))
        yield from found + drawn if shown.count > page.DRAWN_LINKS and not asked.first else drawn + found

    def part_of(self, shown, asked, answer):
        """Returns the links that are drawn."""
        part = Part(shown)
        if answer and answer.chain:
            chain = answer.chain[::2]
            part.take_chain(chain if len(chain) < 2 * markup.ENDS else chain[: markup.ENDS] + chain[-markup.ENDS :])
        if shown.count <= page.DRAWN_LINKS:
            part.take_all()
        else:
            part.take_around([asked.first, asked.second], AROUND)
            part.take_pairs()
        return part

    def picture_part(self, view, shown, asked, answer, related):
        """Yields the picture of the run, or of what surrounds the question where the run is too large."""
        yield '<section id="picture">'
        part = self.part_of(shown, asked, answer) if shown.is_held else None
        if part and part.links:
            if len(part.links) < shown.count:
                yield f"<h2>What surrounds the question: {counted(len(part.links), 'link')} of {shown.count:,}</h2>"
            yield from self.drawn(part, asked, related)
        else:
            more = ", which are too many to be drawn: find an item, and what surrounds it is drawn" if shown.count else ""
            yield f"<p>The run has {counted(shown.count, 'link')} under this view{more}.</p>"
            yield from page.workflow_part(self.picture, self.grammar, self.program.spec.place, view.lines)
        yield "</section>"

    def drawn(self, part, asked, related):
        """Yields a picture of links, or their list where no Graphviz is installed."""
        if not self.picture.dot:
            yield from markup.links_of(asked, list(part.lines()))
            return
        marks = drawing.Marks(asked.clicked, self.grammar.composite)
        marks.take_path(part)
        marks.asked = {asked.first, asked.second}
        if related:
            marks.before, marks.after = set(related.before), set(related.after)
        yield f'<figure><div class="frame">{drawing.svg_of(self.picture, part, marks)}</div>'
        yield f"<figcaption>{page.RUN_CAPTION}{CAPTION}</figcaption></figure>"

    def details(self, view):
        """Yields what is told of the view, of the files and of the proof, where a reader opens it."""
        words = {"SPEC": self.program.spec.place, "VIEW": view.file.place}
        yield from markup.details("The view in words", page.view_part(self.grammar, words, view.lines))
        yield from markup.details("What is proved, and what is not", [page.PROVED, page.PROVED_LABELS, page.NOT_PROVED])
        yield from markup.details("The files, as they were read", markup.files_part(self.program.files))
