"""A small grammar with a view and a run of it at random, as files in a folder, and what the program shows of it."""
import functools
import json

import grammars
import labels
import many
import wfprov
from shown import Shown

# How often a specification is drawn until one is accepted and opens its start module.
TRIES = 100
# What stands before the items of another run in a label file.
OTHER = "other-"


class Case(many.Drawn):
    """The files `spec`, `view`, `events`, `finished` and `labels`: a specification that is accepted; a view that is safe; the reports of a run,
    and of a finishing of it, which may come in any order; and a label file. `items` and `instances` are those of the run, in order of
    making, and `listed` the items of the label file. These may be in any order and not be all of the run, or be more: those of another run."""

    def __init__(self, program, draw, folder):
        super().__init__(program, draw, folder)
        self.spec, self.soonest, self.seen = self.draw_grammar()
        events = self.draw_events()
        self.instances = [name for event in events for name in event.get("names", [event.get("start")])]
        self.write_events("events", events)
        self.write_events("finished", self.finishing(events))
        self.items, self.listed = self.draw_labels()

    def draw_grammar(self):
        """Leaves a specification and a view. Returns the specification, the production by which each composite module ends soonest, and what the
        view shows, which is seldom the start module alone."""
        for _ in range(TRIES):
            spec = grammars.spec(self.draw)
            self.write("spec", json.dumps(spec))
            try:
                soonest = {step.name: step.production for step in wfprov.check(self.path("spec"), self.program).steps}
            except wfprov.Refused:
                self.counts["refused"] += 1
                continue
            seen = self.draw_view(spec)
            if len(seen) > 1 or self.draw.random() < 0.1:
                return spec, soonest, seen
        raise AssertionError(f"none of {TRIES} specifications is accepted and shown")

    def draw_view(self, spec):
        """Leaves a view, of which modules are closed until it is safe. Returns what it shows."""
        view = grammars.view(self.draw, spec)
        while True:
            self.write("view", json.dumps(view))
            try:
                return wfprov.view(self.path("spec"), self.path("view"), self.program)
            except wfprov.Refused as refused:
                if refused.kind != "Unsafe":
                    raise
                self.counts["unsafe"] += 1
                view = grammars.closed(spec, view, refused.about.split()[1])

    def finishing(self, events):
        return grammars.finishing(self.draw, self.spec, self.soonest, events)

    def draw_events(self):
        """Returns the events of a run, which may be finished."""
        draw = self.draw
        events = wfprov.gen(self.path("spec"), draw.choice((0, 1, 1, 2, 2, 3)), draw.getrandbits(64), self.program)
        if draw.random() < 0.2:
            events = events[: draw.randint(0, len(events))]
        return self.finishing(events) if draw.random() < 0.4 else events

    def write_events(self, name, events):
        """Leaves the reports of a run, in order or not."""
        lines = [json.dumps(event) + "\n" for event in events]
        self.write(name, "".join(lines if self.draw.random() < 0.7 else grammars.shuffled(self.draw, lines)))

    def lines_of(self, events):
        """Returns the lines of the label file of a run."""
        return list(labels.lines_of(wfprov.call(["ingest", self.path("spec"), self.path(events)], self.program)))

    def draw_labels(self):
        """Leaves a label file. Returns the items of the run, and those of the file."""
        head, *entries = self.lines_of("events")
        listed, kind = entries, self.draw.random()
        if kind < 0.2:
            listed = self.draw.sample(entries, len(entries) - len(entries) // 8)
        elif kind < 0.4:
            self.write_events("other", self.draw_events())
            others = [OTHER + line for line in self.lines_of("other")[1:]]
            listed = grammars.shuffled(self.draw, entries + others)
        self.write("labels", b"".join(labels.file_of("".join(f"{line}\n" for line in [head, *listed]))))
        return tuple([line.split(" ")[0] for line in lines] for lines in (entries, listed))

    @functools.cached_property
    def shown(self):
        return self.shown_of("events")

    @functools.cached_property
    def finished(self):
        return self.shown_of("finished")

    def shown_of(self, events):
        """Returns what the view shows of a run."""
        exported = wfprov.export(self.path("spec"), self.path("view"), self.path(events), self.program)
        start = next(module for module in self.spec["modules"] if module["name"] == self.spec["start"])
        return Shown(exported, self.seen, start["in"])

    def resting(self):
        """Returns for each item of the run, and of the label file, that the view shows those that rest on it: of two items of the run a search
        says so, and otherwise `ask`, since the two runs may have expanded an instance in two ways."""
        rests = {item: self.shown.resting_on(item) for item in self.shown.place}
        others = [item for item in self.listed if item.startswith(OTHER)]
        pairs = [(a, b) for a in self.listed for b in self.listed if a in others or b in others]
        if pairs:
            self.write("queries", "".join(f"{first} {second}\n" for first, second in pairs))
            words = ["ask", *map(self.path, ("spec", "view", "labels", "queries"))]
            answers = dict(zip(pairs, wfprov.lines_of(words, self.program), strict=True))
            self.counts["clashes"] += list(answers.values()).count("clash")
            rests.update((item, set()) for item in others if answers[item, item] != "hidden")
            for (first, second), answer in answers.items():
                if answer == "yes":
                    rests[first].add(second)
        return rests

    def stranger(self):
        """Returns the name of a port that is no item of the run, or of none that is there."""
        ports = sorted(set(self.shown.onward) - set(self.items))
        return self.draw.choice(ports) if ports else "nobody.b0"
