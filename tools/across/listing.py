"""The files that rest on one, or those on which it rests, over all runs."""
from typing import NamedTuple

from across.contents import EMPTY, bits_of, content_of
from across.search import STAGES, Search, together
from file_table import refuse


class Line(NamedTuple):
    """A file that is listed: the name of its run, its own, its checksum, whether an action made it, and `yes` or what else is said of it."""

    run: str
    name: str
    checksum: str
    is_made: bool
    word: str


class Listing:
    """The files that rest on some files, or on which these rest. `hidden` and `unknown` count those of which it is not known and that are left out,
    unless they are asked for, and `thin` those that are listed by an empty file alone."""

    def __init__(self, index, answers, start, apart, is_possible):
        self.index = index
        ways = list(STAGES.values())[: 3 if is_possible else 2]
        searches = [Search(index, answers, start, apart, **way) for way in ways] + [Search(index, answers, start, apart | EMPTY)]
        *stages, full = together(answers, [search.go() for search in searches])
        self.refuse_hidden(answers, start)
        self.stages = dict(zip(STAGES, stages if is_possible else stages[:1]))
        self.thin = self.count(stages[0]) - self.count(full)
        self.hidden = self.unknown = 0
        if not is_possible:
            every = self.count(stages[1])
            self.hidden = every - self.count(stages[0])
            stages[1].loosen()
            self.unknown = self.count(stages[1]) - every

    def count(self, search):
        """Returns how many files a search found."""
        return sum(bin(search.found(run)).count("1") for run in range(len(self.index.runs)))

    def refuse_hidden(self, answers, start):
        """Refuses files of which the views of their runs hide what rests on them, or on what they rest."""
        rows = [(number, answers.rows[run][number]) for run, number in start]
        if all(row.hidden >> number & 1 and not row.sure for number, row in rows):
            names = sorted({f"`{self.index.runs[run].name}`" for run, _ in start})
            refuse(self.index.folder, f"the file is hidden by the view of {', '.join(names)}")

    def lines(self):
        """Yields what is listed, by runs and in the order of their tables."""
        for number, run in enumerate(self.index.runs):
            words, left = {}, 0
            for word, search in self.stages.items():
                words.update(dict.fromkeys(bits_of(search.found(number) & ~left), word))
                left |= search.found(number)
            values = run.values() if words else []
            for place in sorted(words):
                _, identity, path, checksum, action, _, _ = values[place]
                yield Line(run.name, path or identity, checksum, action != "", words[place])


def once(lines):
    """Returns the lines without those of files of one content but the first that was made, or else the first."""
    first = {}
    lines = [(content_of(line.checksum), line) for line in lines]
    for number, (content, line) in enumerate(lines):
        if content not in first or line.is_made and not lines[first[content]][1].is_made:
            first[content] = number
    return [line for number, (content, line) in enumerate(lines) if not content or first[content] == number]
