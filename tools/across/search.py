"""What rests on a file, or on what it rests, from run to run.

In one run a file rests on another where `wfprov` says so. A run passes a file on to each other run that has a file of the same content.
So a file rests on another if there are runs, each of them another than the one before it, such that in each a file rests on the one that
came in, and is passed on to the next. A search goes forwards or backwards, by the rows that it is handed.
"""
import itertools

from across.contents import EMPTY, bits_of

# A content that several runs reached.
SEVERAL = -1
# From how many files of a run it is searched at a time. What is found from some of them need not be searched from others.
AT_ONCE = 64
# How many searches go on side by side at most: each notes something of every run.
SEARCHES = 1024


class Search:
    """A search from some files on. `apart` are contents that are not passed on. A daring search goes on where a view hides whether a file
    rests on another, and a loose one also where no checksums say whether a file from outside is one that was reached in another run. It ends
    when all that is sought is found, each of it some files, or when nothing is left."""

    def __init__(self, index, answers, start, apart, sought=(), daring=False, loose=False):
        self.index, self.answers, self.apart, self.sought, self.daring, self.loose = index, answers, apart, sought, daring, loose
        runs = len(index.runs)
        # Of each run, in bits: from which files the search began, which ones steps of the run reached, which of these by an answer that is sure,
        # which ones came in from other runs, and from which it was searched or is to be.
        self.start, self.reached, self.sure, self.came, self.begun = ([0] * runs for _ in range(5))
        # By which run a content was reached, and the files whose rows are wanted.
        self.holders, self.wanted = {}, {}
        for run, number in start:
            self.start[run] |= 1 << number

    def go(self):
        """Searches, and returns itself. It yields the numbers of the files whose rows it wants, by run, and goes on when they are there."""
        for run, mask in enumerate(self.start):
            for number in bits_of(mask):
                self.begin(run, number)
                self.pass_on(run, number)
        while not self.is_done() and (self.wanted or self.loose and self.loosen()):
            asked = {run: self.next_of(run) for run in list(self.wanted)}
            yield asked
            for run, numbers in asked.items():
                for number in numbers:
                    self.take(run, self.answers.rows[run][number])
        return self

    def is_done(self):
        """Returns whether all that is sought was found."""
        return self.sought and all(map(self.has, self.sought))

    def next_of(self, run):
        """Returns some of the files of a run whose rows are wanted still."""
        left = [number for number in self.wanted.pop(run) if not self.is_searched(run, number)]
        if left[AT_ONCE:]:
            self.wanted[run] = left[AT_ONCE:]
        return set(left[:AT_ONCE])

    def is_searched(self, run, number):
        """Returns whether what rests on a file in its run was found already: it has one item, and rests on a file from which it was searched."""
        return (self.sure[run] & self.index.known[run].simple) >> number & 1

    def take(self, run, row):
        """Takes what rests on a file in its run, and passes it on."""
        self.sure[run] |= row.sure
        new = (row.sure | (row.hidden if self.daring else 0)) & ~self.reached[run]
        self.reached[run] |= new
        for number in bits_of(new & self.index.known[run].shared):
            self.pass_on(run, number)

    def pass_on(self, run, number):
        """Passes a file on to all runs but its own that have the content. A content that two runs reached came to all."""
        content = self.index.known[run].contents.get(number)
        holder = self.holders.get(content)
        if content is None or content in self.apart or holder in (run, SEVERAL):
            return
        self.holders[content] = run if holder is None else SEVERAL
        for other, file in self.index.places[content]:
            if other != run if holder is None else other == holder:
                self.arrive(other, file)

    def arrive(self, run, number):
        """Takes a file that came in from another run."""
        self.came[run] |= 1 << number
        self.begin(run, number)

    def begin(self, run, number):
        """Wants the row of a file, if it is the first time."""
        if not self.begun[run] >> number & 1:
            self.begun[run] |= 1 << number
            self.wanted.setdefault(run, []).append(number)

    def found(self, run):
        """Returns the files of a run that were found, in bits. None is said to rest on itself."""
        return (self.reached[run] | self.came[run]) & ~self.start[run]

    def has(self, places):
        """Returns whether one of some files was found."""
        return any(self.found(run) >> number & 1 for run, number in places)

    def loosen(self):
        """Lets in what may be a file that was reached in another run, for all that checksums say, and returns whether there was any."""
        backwards, ends, is_new = self.answers.backwards, {}, False
        for run, known in enumerate(self.index.known):
            # What came in without a step of this run is one of the run from which it came.
            here = (self.reached[run] | self.start[run]) & (known.given if backwards else -1)
            for kind in [kind for kind, mask in known.kinds.items() if here & mask]:
                if len(ends.setdefault(kind, set())) < 2:
                    ends[kind].add(run)
        for run, known in enumerate(self.index.known):
            for kind, mask in known.kinds.items():
                if any(runs - {run} for other, runs in ends.items() if not (kind and other) or kind != other):
                    for number in bits_of(mask & (-1 if backwards else known.given) & ~self.came[run]):
                        self.arrive(run, number)
                        is_new = True
        return is_new


def together(answers, searches):
    """Goes on with several searches side by side, and returns what they return. Each yields the files whose rows it wants."""
    waiting, left, done = enumerate(searches), {}, {}
    while len(done) < len(searches):
        wanted = {}
        left.update(itertools.islice(waiting, SEARCHES - len(left)))
        for number, search in list(left.items()):
            try:
                for run, numbers in next(search).items():
                    wanted.setdefault(run, set()).update(numbers)
            except StopIteration as end:
                done[number] = end.value
                del left[number]
        answers.fetch(wanted)
    return [done[number] for number in sorted(done)]


# What is said of a file that is found by such a search, and not by one before it.
STAGES = {"yes": {}, "hidden": {"daring": True}, "unknown": {"daring": True, "loose": True}}


def answered(index, answers, first, seconds, apart):
    """A search for the answers to whether some files, each given by its places, rest on the first, and for how many are `yes` by an empty
    file alone."""
    told, thin = {}, 0
    for word, how in STAGES.items():
        left = [second for second in seconds if second not in told]
        if left:
            search = yield from Search(index, answers, first, apart, left, **how).go()
            told.update((second, word) for second in left if search.has(second))
    sure = [second for second, word in told.items() if word == "yes"]
    if sure and index.has_empty:
        search = yield from Search(index, answers, first, apart | EMPTY, sure).go()
        thin = len(sure) - sum(map(search.has, sure))
    return [told.get(second, "no") for second in seconds], thin
