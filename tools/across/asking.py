"""What `wfprov` answers of the files of a run: one program a run, and as many side by side as there are processors."""
import os
from concurrent.futures import ThreadPoolExecutor
from typing import NamedTuple

import terminal
from across.contents import mask_of

# How many questions go to a program at most, unless those of one file are more.
QUESTIONS = 1 << 18


class Row(NamedTuple):
    """The files of a run that rest on one of them, or on which it rests, in bits, and those of which the view hides whether they do."""

    sure: int
    hidden: int


def side_by_side(work, jobs):
    """Does a work on each of some jobs, as many at a time as there are processors, and returns what came of them, in their order."""
    with ThreadPoolExecutor(len(os.sched_getaffinity(0))) as pool:
        return list(pool.map(work, jobs))


def row_of(told, sizes):
    """Returns the row of the answers to the pairs of items of a file and each file, by how many pairs there are of each."""
    if len(told) != len(sizes):
        told = iter(told)
        pairs = [{next(told) for _ in range(size)} for size in sizes]
        told = [next(word for word in ("yes", "hidden", "no") if word in words) for words in pairs]
    return Row(mask_of([word == "yes" for word in told]), mask_of([word == "hidden" for word in told]))


def rows_of(run, numbers, backwards):
    """Returns the rows of some files of a run, by their numbers."""
    run.trust(("spec", "view", "labels"))
    items = [fields[6].split(" ") for fields in run.values()]
    rows, left = {}, sorted(numbers)
    while left:
        part, queries = [], []
        while left and len(queries) < QUESTIONS:
            part.append(left.pop())
            own = items[part[-1]]
            queries += [(other, one) if backwards else (one, other) for others in items for other in others for one in own]
        told = run.answers(queries)
        for number in part:
            sizes = [len(items[number]) * len(others) for others in items]
            rows[number] = row_of(told[:sum(sizes)], sizes)
            told = told[sum(sizes):]
    return rows


class Answers:
    """The rows of the files of all runs, each asked for once."""

    def __init__(self, runs, backwards=False):
        self.runs, self.backwards = runs, backwards
        self.rows = [{} for _ in runs]

    def fetch(self, wanted):
        """Asks for the rows of some files, given by the numbers of their runs and their own."""
        missing = {run: numbers - self.rows[run].keys() for run, numbers in wanted.items()}
        jobs = [(run, numbers) for run, numbers in missing.items() if numbers]
        for (run, _), rows in zip(jobs, side_by_side(self.fetched, jobs)):
            self.rows[run].update(rows)

    def fetched(self, job):
        """Returns the rows of some files of a run, or refuses them with its name."""
        run = self.runs[job[0]]
        try:
            return rows_of(run, job[1], self.backwards)
        except terminal.Wrong as wrong:
            raise terminal.Wrong(f"run `{run.name}`: {wrong}") from None
