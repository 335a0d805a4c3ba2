"""What this package finds in the files of a call."""
import os

import terminal
from diagnosis import automata, coarse, doubts, kinds, packages, specs
from diagnosis.faults import Doubt, Fault
from diagnosis.label_files import check_word, read_labels
from diagnosis.questions import read_questions, with_items
from diagnosis.runs import read_run


def unreadable(where, path, error):
    """Returns the fault of a file that cannot be read, which the program tells as a fault of reading."""
    mend = "Look for the path, and for the right to read the file."
    if isinstance(error, IsADirectoryError):
        mend = f"Give a file: the folder `{path}` has{' one' if os.path.isfile(os.path.join(path, where)) else ' none'} that is called `{where}`."
    elif isinstance(error, FileNotFoundError):
        mend = "Look how the path is spelled. If it does not begin with `/`, it leads from the folder in which you are."
    fault = Fault("", f"`{path}` cannot be read: {terminal.reason(error)}.", mend)
    return fault.stands_in(where, None)


def items_with(word, names):
    """Returns the items of a label file that an instance makes, and those at a port, for a word that may be the name of either."""
    return [item for item in names if item.startswith(f"{word}.")], [item for item in names if item.endswith(f".{word}")]


class Finding:
    """What this package finds: the first fault or None, and what is accepted and surely not meant; and of two views that are compared, if they
    are accepted, how they stand to each other."""

    def __init__(self, files):
        self.files, self.fault, self.doubts, self.beside = files, None, [], None
        try:
            if "package" in files.paths:
                self.read_package()
            else:
                self.read()
        except Fault as fault:
            path = files.paths.get(fault.where.split(" ")[0])
            self.fault = kinds.better(fault, path, files.form.order) if path else fault

    def read(self):
        """Reads the files in the order of the words."""
        paths = self.files.paths
        grammar = self.spec()
        if "view" not in paths:
            return
        assignment = self.view("view", grammar)[1]
        for number, word in enumerate(self.files.hexes, 1):
            check_word(grammar, number, word)
        if "coarse" in paths:
            self.compare(assignment)
        if "auto" in paths:
            self.automaton(assignment)
        if "labels" in paths:
            self.labels(grammar)
        elif "events" in paths:
            self.events(grammar)

    def read_package(self):
        """Reads a package, and two labels over it."""
        package = packages.Package(*self.whole("package"))
        self.doubts += doubts.of_package(package)
        for number, word in enumerate(self.files.hexes, 1):
            packages.check_word(package, number, word)

    def spec(self):
        """Returns the grammar of the specification."""
        text, parts = specs.read_parts(*self.whole("spec"))
        self.doubts += doubts.of_spec(text, parts)
        grammar = specs.accepted(text, parts)
        self.doubts += doubts.of_unused(text, grammar)
        return grammar

    def view(self, where, grammar):
        """Returns the text of a view, and the pairs of what it shows. What pairs it gives less is told of a coarser one beside the finer one."""
        text, parts = specs.read_view_parts(*self.whole(where), where)
        self.doubts += doubts.of_view(text, parts)
        assignment = specs.safe(text, parts, grammar, where)
        self.doubts += doubts.of_shown(text, assignment)
        if where == "view":
            self.doubts += doubts.of_pairs(text, assignment.view)
        return text, assignment

    def compare(self, fine):
        """Reads a coarser view beside a finer one."""
        text, found = self.view("coarse", fine.grammar)
        try:
            coarse.is_coarser(fine, found)
        except Fault as fault:
            raise fault.stands_in("coarse", text) from None
        self.beside = coarse.Beside(text, fine, found)

    def automaton(self, assignment):
        """Reads an automaton under a view."""
        text, parts = automata.read_parts(*self.whole("auto"))
        self.doubts += doubts.of_automaton(text, parts)
        auto = automata.accepted(text, parts, assignment)
        self.doubts += doubts.of_states(text, auto, assignment.view)

    def labels(self, grammar):
        names = read_labels(self.whole("labels")[1], grammar)
        self.ask(lambda item: doubts.of_entry(names, item), lambda word: items_with(word, names))

    def events(self, grammar):
        run = self.opened("events", lambda path, file: read_run(path, file, grammar))
        if not run.instances:
            empty = "the file of events has no report, so nothing is in the run, and each answer is `unknown`."
            self.doubts.append(Doubt(f"{empty} If it is to be a label file, what made it has failed: make it again by `ingest`."))
        self.ask(lambda item: doubts.of_item(run, item), lambda word: (run.items_of(word, doubts.of_item), run.items_with(word, doubts.of_item)))

    def ask(self, why, items):
        """Reads the queries, if they are given: `why` says of an item why it is none, and `items` lists those of an instance."""
        if "queries" not in self.files.paths:
            return
        try:
            self.doubts += self.opened("queries", lambda path, file: list(doubts.of_questions(read_questions(path, file), why)))
        except Fault as fault:
            raise with_items(fault, items) from None

    def whole(self, where):
        """Returns the name and the bytes of a file."""
        return self.opened(where, lambda name, file: (name, file.read()))

    def opened(self, where, use):
        """Returns what is made of a file that is opened, with its name."""
        path = self.files.paths[where]
        try:
            with open(path, "rb") as file:
                return use(self.files.name(path), file)
        except OSError as error:
            raise unreadable(where, self.files.name(path), error) from None
