"""The rules on reports: what a line is, what it contradicts, and whether its event extends the run."""
import heapq
import re

from diagnosis.faults import Fault
from diagnosis.files import Span, Text
from diagnosis.forms import Shape
from diagnosis.lines import lines_of
from diagnosis.words import counted, is_name, listed, mended, near, quoted

MOST_INSTANCES = 16777216
# Among how many names a near one is looked for.
SEARCHED = 20000


FORMS = '`{"start":"r"}` begins the run, and `{"expand":"r","production":0,"names":["a","b"]}` says how an instance is done.'
# A second report in a line, and a report with a comma behind it.
BEGUN = re.compile(r'\{\s*"(?:start|expand)"\s*:')
REPORT = re.compile(r"\s*\{.*\}\s*,\s*")
# A report as most programs write it, which needs no reader of JSON.
PLAIN = re.compile(rb'\{"expand":"([\w-]+)","production":(0|[1-9][0-9]{0,17}),"names":\["([\w-]+(?:","[\w-]+)*)"\]\}')


class Report:
    """A report: its line, the name of its instance, whether it expands it, and if so its production and its names."""

    def __init__(self, number, line, path):
        self.number, self.line, self.path = number, line, path
        plain = PLAIN.fullmatch(line)
        if plain:
            self.expands, self.subject, self.production = True, plain[1].decode(), int(plain[2])
            self.names = plain[3].decode().split('","')
        else:
            self.take(self.nodes())

    def text(self):
        return Text(self.path, self.line, self.number)

    def nodes(self):
        """Returns the parts of the line: that of the instance, that of the production, and those of the names."""
        shape, node = Shape(None), self.text().value()
        if node.kind != "object":
            raise Fault("WrongShape", f"the line holds {node.called()}, and a report is an object: it begins with `{{`.", FORMS, node)
        there = [name for name in ("start", "expand") if node.member(name) is not None]
        if len(there) != 1:
            have = "both `start` and `expand`" if there else "neither `start` nor `expand`"
            raise Fault("WrongShape", f"the report has {have}, and it has exactly one of the two.{inner(node)}", FORMS, node)
        subject = shape.member_of(node, there[0], "text", "the report")
        if there[0] == "start":
            return subject, None, []
        production = production_in(shape, node)
        shape.member_of(node, "names", "list", "the report")
        return subject, production, shape.texts(node, "names", "the report")

    def take(self, nodes):
        subject, production, names = nodes
        self.expands, self.subject = production is not None, subject.value
        self.production, self.names = production and production.whole(), [name.value for name in names]

    def key(self):
        """Returns what two reports on one instance, or on the start, share."""
        return self.expands, self.subject if self.expands else ""

    def event(self):
        return self.subject, self.production, self.names


def inner(node):
    """Returns a sentence on a member that holds the report, or nothing."""
    held = [key.value for key, value in node.value if value.kind == "object" and any(value.member(name) is not None for name in ("start", "expand"))]
    return f" The member {quoted(held[0])} holds a report: take away what stands around it." if held else ""


def production_in(shape, node):
    found = node.member("production")
    if found is None or found.whole() is None:
        what = "the report has no member `production`"
        if found is not None:
            what = f"`production` is {f'`{found.value}`' if found.kind == 'number' else found.called()}"
        meant = re.fullmatch(r"([0-9]{1,4})(?:\.0+)?", found.value) if found is not None and found.kind in ("text", "number") else None
        meant = int(meant[1]) if meant else 0
        mend = f"Write the number of a production, from 0, in the order of the specification, as `\"production\":{meant}`."
        raise shape.wrong(found or node, f"{what}, and a whole number without sign, fraction or exponent belongs there.", mend)
    return found


class Instance:
    """An instance: its module, where it stands in the body of another, and the line that made it; and once it is expanded the production
    and the instances at its positions."""

    def __init__(self, module, parent, position, line):
        self.module, self.parent, self.position, self.line = module, parent, position, line
        self.production, self.children = None, {}


class Run:
    """The run of the reports so far: its instances, and the reports that were seen, held or ready."""

    def __init__(self, grammar):
        self.grammar, self.instances, self.root = grammar, {}, None
        self.seen, self.held, self.ready = {}, {}, []

    def take(self, report):
        """Takes a report, and what it sets free."""
        earlier = self.seen.setdefault(report.key(), report)
        if earlier is not report:
            if earlier.event() != report.event():
                raise conflict(earlier, report)
            return
        if not report.expands or report.subject in self.instances:
            heapq.heappush(self.ready, (report.number, report))
        else:
            self.held[report.subject] = report
        while self.ready:
            self.apply(heapq.heappop(self.ready)[1])

    def apply(self, report):
        """Applies an event that is ready, or refuses it."""
        try:
            places = placed(self, report) if report.expands else [(None, self.grammar.start)]
            new_names(self, report, report.names if report.expands else [report.subject])
        except Fault as fault:
            raise fault.stands_in(f"events line {report.number}", report.text()) from None
        parent = self.instances[report.subject] if report.expands else None
        if parent:
            parent.production = self.grammar.productions[report.production]
        else:
            self.root = report.subject
        for name, (position, module) in zip(report.names if parent else [report.subject], places):
            self.instances[name] = Instance(module, parent and report.subject, position, report.number)
            if parent:
                parent.children[position] = name
            if name in self.held:
                waiting = self.held.pop(name)
                heapq.heappush(self.ready, (waiting.number, waiting))

    def items_of(self, name, why):
        """Returns the items of an instance: what it makes, and of the first one what goes into the run. `why` says why a name is that of none."""
        if name not in self.instances:
            return []
        module = self.grammar.modules[self.instances[name].module]
        ports = [*module.inputs, *module.outputs] if name == self.root else module.outputs
        return [item for item in (f"{name}.{port}" for port in ports) if not why(self, item)]

    def items_with(self, port, why):
        """Returns the items whose port has this name, some of them where there are many instances."""
        items = (f"{name}.{port}" for name, _ in zip(self.instances, range(SEARCHED)))
        return [item for item in items if not why(self, item)]

    def finish(self):
        """Refuses a whole file of which reports are still held."""
        if self.held:
            report = min(self.held.values(), key=lambda held: held.number)
            raise orphan(self, report).stands_in(f"events line {report.number}", report.text())


def placed(run, report):
    """Returns the positions of the body by which an instance is expanded, with their modules."""
    grammar, number, names = run.grammar, report.production, report.names
    instance = run.instances[report.subject]
    module = grammar.modules[instance.module]
    told = f"{quoted(report.subject)} is of the module {quoted(module.name)}, made in line {instance.line}"
    ways = ", ".join(str(production.number) for production in module.productions)
    fitting = [str(production.number) for production in module.productions if len(production.body) == len(names)]
    fits = f" The report has {counted(len(names), 'name')}, as has {' or '.join(fitting)}." if fitting and len(module.productions) > 1 else ""
    mend = f"Write a production of {quoted(module.name)}, of which there are: {ways}.{fits}"
    if not ways:
        mend = f"Take the line away, or name the instance that was meant: the module {quoted(module.name)} is atomic, and is not expanded."
    if number >= len(grammar.productions):
        what = f"there is no production {number}: the specification has {counted(len(grammar.productions), 'production')}, numbered from 0."
        raise Fault("UnknownProduction", f"{what} {told[0].upper()}{told[1:]}.", mend, report.nodes()[1])
    production = grammar.productions[number]
    if production.head != module.name:
        raise Fault("WrongHead", f"production {number} is a way to do {quoted(production.head)}, and {told}.", mend, report.nodes()[1])
    if len(production.body) != len(names):
        what = f"production {number} has {counted(len(production.body), 'position')}, and the report has {counted(len(names), 'name')}."
        subject, _, nodes = report.nodes()
        mend = f"Give a name for each position, in this order: {listed(list(production.body))}."
        raise Fault("PositionsWrong", what, mend, nodes[-1] if nodes else subject)
    return list(production.body.items())


def new_names(run, report, names):
    """Refuses names of which one is none, stands twice or is that of an instance, and more instances than there may be."""

    def node(k):
        subject, _, nodes = report.nodes()
        return nodes[k] if report.expands else subject

    for k, name in enumerate(names):
        if not is_name(name):
            what = f"{quoted(name)} is no name of an instance." if name else "the name of an instance is empty."
            mend = f"A name has 1 to 64 letters of ASCII, digits, `_` and `-`, as `{mended(name)}`. Write it so here, in the report that expands it"
            raise Fault("NameBad", what, f"{mend}, and in the questions.", node(k))
    known = set()
    for k, name in enumerate(names):
        if name in known or name in run.instances:
            where = "it stands twice in this report" if name in known else f"line {run.instances[name].line} made an instance of this name"
            mend = "Each instance of a run has a name of its own, whatever its module. Give this one another, and if a report expands it, there too."
            raise Fault("NameTwice", f"the name {quoted(name)} is taken: {where}.", mend, node(k))
        known.add(name)
    if len(run.instances) + len(names) > MOST_INSTANCES:
        what = f"with this report the run has more than {MOST_INSTANCES:,} instances."
        raise Fault("TooManyInstances", what, "Split the run into several.", node(0))


def conflict(earlier, report):
    """Returns the fault of a report that contradicts an earlier one."""
    subject = report.nodes()[0]
    if not report.expands:
        what = f"line {earlier.number} starts the run already, as {quoted(earlier.subject)}."
        mend = "A run has one start. Keep one of the two lines, or give two runs a file each."
        return Fault(f"Conflict with {earlier.number}", what, mend, subject)
    what = f"line {earlier.number} expands {quoted(report.subject)} already, and in another way: `{earlier.line.decode('utf-8', 'replace')[:200]}`."
    mend = "An instance is expanded once: keep the report of what was done. A second try of a step is another instance, by a production that repeats."
    return Fault(f"Conflict with {earlier.number}", what, mend, subject)


def orphan(run, report):
    more = f" {counted(len(run.held) - 1, 'later report')} wait as well." if len(run.held) > 1 else ""
    subject = report.nodes()[0]
    if run.root is None:
        what = f"no line starts the run, so {quoted(report.subject)} never comes to be there.{more}"
        return Fault("Orphan", what, 'Add the line that starts the run, as `{"start":"r"}`.', subject)
    known = list(run.instances) if len(run.instances) <= SEARCHED else []
    what = f"no report makes an instance {quoted(report.subject)}, and the file ends.{near(report.subject, known)}{more}"
    mend = "Look for the report whose `names` have this name: it is missing, or spells it otherwise."
    if run.instances[run.root].production is None and run.grammar.modules[run.grammar.start].productions:
        began = f"Line {run.instances[run.root].line} starts the run as {quoted(run.root)}, and no report expands this"
        mend = f"{began}: if {quoted(report.subject)} is meant, write one name in both lines. Otherwise {mend[0].lower()}{mend[1:]}"
    return Fault("Orphan", what, mend, subject)


def line_fault(fault, text):
    """Returns the fault of a line, or the same one in other words where a report is torn, stands in a list, or has a long member."""
    line = text.text
    again = BEGUN.search(line, 1)
    if fault.kind == "LineTooLong" and line.startswith("{"):
        mend = "A report has only `expand`, `production` and `names`, or `start`; take other members away, as texts that a tool wrote."
        return Fault(fault.kind, fault.what, f"{mend} A newline may also be missing between two reports.").stands_in("", text)
    listed_line = line.lstrip().startswith("[")
    if fault.kind == "NotJson" and again and line[: again.start()].strip("\ufeff \t") and not listed_line:
        what = f"another report begins in this line, at column {again.start() + 1}, so a newline is missing before it, or this report was torn."
        mend = "Let each report begin a line of its own. Of the torn one look for the rest, or write it again; or take its part away, and run on."
        return Fault(fault.kind, what, mend, Span(again.start(), again.end()))
    if fault.kind in ("NotJson", "WrongShape") and listed_line:
        what = "the line begins a list, and each line of events is a report by itself, with no list around it."
        mend = "Take the brackets around the reports away, and the commas between them, so that each line is one object."
        return Fault(fault.kind, what, mend, Span(line.index("["), line.index("[") + 1))
    if fault.kind == "NotJson" and text.broken is None and not line.lstrip(" \t\r\ufeff").startswith("{"):
        what = "the line is no report: a report is an object, and begins with `{`."
        return Fault(fault.kind, what, f"{FORMS} A line that reports nothing, as one of a log, is taken away.", fault.node)
    if fault.kind == "NotJson" and not again and re.search("text ends where|no quote ends it", fault.what):
        what = "the report does not end in this line."
        mend = "Each report stands on one line, as `jq -c . EVENTS` writes it. The last line of a file that ends in the middle was cut, as its writer was"
        return Fault(fault.kind, what, f"{mend} stopped: take it away, or write the whole report.", fault.node)
    if fault.kind == "NotJson" and REPORT.fullmatch(line):
        what = "a comma stands behind the report, and nothing belongs there: each line is a report by itself."
        return Fault(fault.kind, what, "Take the comma away, and so at the end of each line.", Span(line.rindex(","), line.rindex(",") + 1))
    return fault


def read_run(path, file, grammar):
    """Returns the run of a file of reports."""
    run = Run(grammar)
    number, line = 0, b""
    try:
        for number, line in lines_of(path, file):
            run.take(Report(number, line, path))
    except Fault as fault:
        if not fault.where:
            text = fault.text or Text(path, line, number)
            fault = line_fault(fault, text)
            fault.stands_in(f"events line {text.first_line}", text)
        raise fault from None
    run.finish()
    return run
