#!/usr/bin/env python3
"""Tests of tools/wfprov.py on the built program, and on small programs that end or write as `wfprov` never does.

  python3 checks/module.py PROGRAM

What is wanted comes from the files of the examples, from docs/FORMATS.md and from hand. The last line is `N passed, M failed`, and
the status is 1 where one failed.
"""
import json
import os
import signal
import subprocess
import sys
import tempfile
import time
import unittest

TOP = os.path.dirname(os.path.dirname(os.path.abspath(__file__)))
sys.path.insert(0, os.path.join(TOP, "tools"))
import labels as label_file
import results
import wfprov
from wfprov import Answer

LONG, MANY = 100_000, 1_000_000


def example(name, file):
    return os.path.join(TOP, "examples", name, file)


def lines(path):
    with open(path, encoding="utf-8") as file:
        return file.read().splitlines()


def store_of(name):
    return wfprov.Answers(example(name, "spec"), example(name, "view"), example(name, "labels"))


def asked(name):
    """Returns the questions of an example and their answers."""
    pairs = [tuple(line.split()) for line in lines(example(name, "queries"))]
    return pairs, [Answer(word) for word in lines(example(name, "answers"))]


class InFolder(unittest.TestCase):
    """A test with a folder of its own."""

    def setUp(self):
        folder = tempfile.TemporaryDirectory()
        self.addCleanup(folder.cleanup)
        self.folder = folder.name

    def file(self, name, text):
        path = os.path.join(self.folder, name)
        with open(path, "w", encoding="utf-8") as file:
            file.write(text)
        return path

    def program(self, script):
        """Returns a program that stands in for `wfprov`. Its first question is answered, as that of each store is."""
        path = self.file("program", "#!/bin/sh\nread line; echo unknown\n" + script)
        os.chmod(path, 0o755)
        return path

    def assert_refused(self, make, place, line, kind, about):
        with self.assertRaises(wfprov.Refused) as caught:
            make()
        found = caught.exception
        self.assertEqual((found.status, found.place, found.line, found.kind, found.about), (2, place, line, kind, about))


class Stores(InFolder):
    def test_examples(self):
        """a store answers the questions of each example"""
        for name in ("line", "phylogeny-once", "phylogeny", "twisting", "pair", "grown", "mapping-cwl", "mapping-nextflow"):
            pairs, answers = asked(name)
            with store_of(name) as store:
                self.assertEqual(store.ask(pairs), answers, name)
                self.assertEqual([store.ask([pair])[0] for pair in pairs], answers, name)

    def test_many(self):
        """a million pairs of a generator are answered while both pipes are full"""
        pairs, answers = asked("phylogeny")
        with store_of("phylogeny") as store:
            found = store.ask(pairs[k % len(pairs)] for k in range(MANY))
        self.assertEqual(found, [answers[k % len(pairs)] for k in range(MANY)])

    def test_none(self):
        """no pairs have no answers"""
        with store_of("line") as store:
            self.assertEqual(store.ask([]), [])

    def test_bad_names(self):
        """a pair that is not two names is refused, nothing is sent, and the store stays open"""
        long = "x" * 65
        bad = [("r", "r.b"), ("r.a", "r.b\n"), ("r.a\nr.a", "r.b"), ("r.a", " r.b"), ("r.a", ""), ("r.ä", "r.b"), ("r.a.b", "r.b")]
        bad += [(f"{long}.a", "r.b"), ("r.a", f"r.{long}"), ("r.a\r", "r.b")]
        with store_of("line") as store:
            for pair in bad:
                self.assertRaises(wfprov.BadName, store.ask, [pair])
                self.assertEqual(store.ask([("r.a", "r.b")]), [Answer.YES])

    def test_late_bad_name(self):
        """a bad name behind many good ones leaves the store open"""
        with store_of("line") as store:
            self.assertRaises(wfprov.BadName, store.ask, [("r.a", "r.b")] * LONG + [("r", "r")])
            self.assertEqual(store.ask([("r.b", "r.a"), ("r.a", "i1.y")]), [Answer.NO, Answer.YES])

    def test_generator_fails(self):
        """a generator that raises leaves the store open"""
        def pairs():
            for _ in range(LONG):
                yield "r.a", "r.b"
            raise KeyboardInterrupt

        with store_of("line") as store:
            self.assertRaises(KeyboardInterrupt, store.ask, pairs())
            self.assertEqual(store.ask([("r.b", "r.a")]), [Answer.NO])

    def test_two(self):
        """two stores are open at one time, and are closed in either order"""
        first, second = store_of("line"), store_of("phylogeny")
        self.assertEqual(first.ask([("r.a", "r.b")]) + second.ask([("run.cfg", "run.tree")]), [Answer.YES, Answer.NO])
        first.close()
        self.assertEqual(second.ask([("run.cfg", "run.report")]), [Answer.YES])
        second.close()
        second.close()
        self.assertRaises(ValueError, second.ask, [])

    def test_descriptors(self):
        """a store that is closed, refused or left by an exception gives back its descriptors and its process"""
        before = len(os.listdir("/proc/self/fd"))
        for _ in range(5):
            with store_of("line"):
                pass
            self.assertRaises(wfprov.Unread, wfprov.Answers, "absent", "absent", "absent")
            with self.assertRaises(KeyError), store_of("line"):
                raise KeyError
        self.assertEqual(len(os.listdir("/proc/self/fd")), before)
        self.assertRaises(ChildProcessError, os.waitpid, -1, os.WNOHANG)


class Refusals(InFolder):
    def test_files(self):
        """what is refused has its place, kind and status"""
        spec, view, labels = (example("line", file) for file in ("spec", "view", "labels"))
        bad = self.file("bad", '{"start":"S"}')
        self.assert_refused(lambda: wfprov.check(bad), "spec", None, "WrongShape", "modules")
        self.assert_refused(lambda: wfprov.Answers(bad, view, labels), "spec", None, "WrongShape", "modules")
        self.assert_refused(lambda: wfprov.Answers(spec, self.file("view", '{"expand":["T"]}'), labels), "view", None, "UnknownModule", "expand 0")
        self.assert_refused(lambda: wfprov.Answers(spec, view, example("phylogeny", "labels")), "labels", None, "OtherSpec", "")
        self.assert_refused(lambda: wfprov.Ingest(bad), "spec", None, "WrongShape", "modules")
        self.assert_refused(lambda: wfprov.decide(spec, view, b"\x20", b"\xff"), "label 2", None, "Malformed", "")
        self.assert_refused(
            lambda: wfprov.view(example("skewed", "spec"), example("skewed", "view")), "view", None, "Unsafe",
            "module L one 2 other 1 input x1 output y1 joined one choice S=0 L=2",
        )

    def test_truncated(self):
        """a label file that is cut within an entry is refused with its offset"""
        with open(example("line", "labels"), "rb") as file:
            cut = file.read()[:45]
        path = os.path.join(self.folder, "cut")
        with open(path, "wb") as file:
            file.write(cut)
        spec, view = example("line", "spec"), example("line", "view")
        self.assert_refused(lambda: wfprov.Answers(spec, view, path), "labels", None, "Truncated", "offset 43")

    def test_other_ends(self):
        """a file that is absent, wrong words and a missing program have exceptions of their own"""
        with self.assertRaises(wfprov.Unread) as caught:
            wfprov.check(os.path.join(self.folder, "absent"))
        self.assertEqual((caught.exception.status, caught.exception.message), (3, "fault: reading spec"))
        self.assertRaises(wfprov.Usage, wfprov.call, ["unknown"])
        absent = os.path.join(self.folder, "absent")
        self.assertRaises(wfprov.NoProgram, wfprov.call, ["check", "spec"], absent)
        self.assertRaises(wfprov.NoProgram, wfprov.Answers, "spec", "view", "labels", absent)
        self.assertRaises(wfprov.NoProgram, wfprov.call, ["check", "spec"], self.file("text", "no program"))

    def test_program_found(self):
        """the program of an argument comes before that of the variable, and this before others"""
        named = self.program("")
        self.assertEqual(wfprov.find(named), named)
        self.assertEqual(wfprov.find(), os.environ["WFPROV"])


class Programs(InFolder):
    def ask(self, script, count=1):
        store = wfprov.Answers("spec", "view", "labels", program=self.program(script))
        self.addCleanup(store._process.stop)
        return store.ask([("a.b", "c.d")] * count)

    def assert_died(self, script, message, status, count=1):
        with self.assertRaises(wfprov.Died) as caught:
            self.ask(script, count)
        self.assertEqual((caught.exception.message, caught.exception.status), (message, status))

    def test_killed(self):
        """a program that is killed between two questions is reported"""
        with self.assertRaises(wfprov.Died) as caught, store_of("line") as store:
            os.kill(store._process._child.pid, signal.SIGKILL)
            store.ask([("r.a", "r.b")])
        self.assertEqual((caught.exception.status, caught.exception.message), (-9, "ended by signal 9"))

    def test_killed_at_work(self):
        """a program that is killed while a hundred thousand pairs go to it is reported"""
        self.assert_died("read line; echo no; kill -9 $$", "ended by signal 9", -9, LONG)

    def test_ends_early(self):
        """a program that ends before it has answered is reported"""
        self.assert_died("exit 0", "ended before its input did", 0)
        self.assert_died("read line; echo no; exit 0", "ended before its input did", 0, LONG)

    def test_nonsense(self):
        """a program that writes no answers is reported"""
        self.assert_died("read line; echo perhaps; cat >/dev/null", "wrote b'perhaps', which is no answer", 0)

    def test_memory(self):
        """want of memory is an exception of its own"""
        with self.assertRaises(wfprov.NoMemory) as caught:
            self.ask("read line; echo no memory >&2; exit 5")
        self.assertEqual(caught.exception.status, 5)

    def test_writes_first(self):
        """a program that writes all answers before it reads the questions makes nobody wait"""
        answers = self.ask(f"yes no | head -n {LONG}; cat >/dev/null", LONG)
        self.assertEqual(answers, [Answer.NO] * LONG)

    def test_long_message(self):
        """a message that is longer than a pipe makes nobody wait"""
        with self.assertRaises(wfprov.Died) as caught:
            self.ask("head -c 200000 /dev/zero | tr '\\0' x >&2; exit 2")
        self.assertEqual(len(caught.exception.message), 200000)


class Runs(InFolder):
    def events(self):
        return [json.loads(line) for line in lines(example("phylogeny", "events"))]

    def wanted(self):
        with open(example("phylogeny", "labels"), "rb") as file:
            text = file.read()
        return text, [wfprov.Item(name.decode(), label) for name, label in label_file.entries_of(text)]

    def report(self, run, event):
        if "start" in event:
            run.start(event["start"])
        else:
            run.expand(event["expand"], event["production"], event["names"])

    def test_labels(self):
        """a run that is reported has the label file of the example, in the order of making"""
        text, wanted = self.wanted()
        found = []
        path = os.path.join(self.folder, "labels")
        with open(path, "wb") as into, wfprov.Ingest(example("phylogeny", "spec"), into=into) as run:
            self.assertEqual(run.head, text[:36])
            for event in self.events():
                self.report(run, event)
                found += run.labels()
            run.close()
            found += run.labels()
        self.assertEqual(found, wanted)
        with open(path, "rb") as file:
            self.assertEqual(file.read(), text)

    def test_while_it_goes_on(self):
        """labels come while the run goes on"""
        _, wanted = self.wanted()
        found = []
        with wfprov.Ingest(example("phylogeny", "spec")) as run:
            for event in self.events()[:2]:
                self.report(run, event)
            late = time.monotonic() + 20
            while len(found) < 9 and time.monotonic() < late:
                found += run.labels(wait=1.0)
        self.assertEqual(found, wanted[:9])

    def test_no_labels(self):
        """where no label has come, none is returned, after the time to wait"""
        with wfprov.Ingest(example("line", "spec")) as run:
            self.assertEqual(run.labels(), [])
            self.assertEqual(run.labels(wait=0.01), [])

    def test_refused(self):
        """a refused report is raised with its line, behind the items that were made before"""
        _, wanted = self.wanted()
        run = wfprov.Ingest(example("phylogeny", "spec"))
        run.start("run")
        found = []
        with self.assertRaises(wfprov.Refused) as caught:
            run.expand("run", 9, ["al", "re", "bu", "rp"])
            while True:
                found += run.labels(wait=20.0)
        self.assertEqual((caught.exception.place, caught.exception.line, caught.exception.kind), ("events", 2, "UnknownProduction"))
        self.assertEqual(found, wanted[:4])
        self.assertRaises(wfprov.Refused, run.start, "again")
        self.assertRaises(wfprov.Refused, run.close)

    def test_orphan(self):
        """a report whose instance never came is refused at the end, and the other items are kept"""
        run = wfprov.Ingest(example("line", "spec"))
        run.expand("x", 0, ["i1", "i2"])
        run.start("r")
        self.assert_refused(run.close, "events", 1, "Orphan", "")
        self.assertEqual([item.name for item in run.labels()], ["r.a", "r.b"])

    def test_bad_names(self):
        """a bad name is refused before it is sent, and the run stays open"""
        with wfprov.Ingest(example("line", "spec")) as run:
            self.assertRaises(wfprov.BadName, run.start, "r.a")
            self.assertRaises(wfprov.BadName, run.start, "")
            run.start("r")
            self.assertRaises(wfprov.BadName, run.expand, "r", 0, ["i 1", "i2"])
            self.assertRaises(wfprov.BadName, run.expand, "r\n", 0, ["i1", "i2"])
            run.expand("r", 0, ["i1", "i2"])
        self.assertEqual([(item.name, item.label.hex()) for item in run.labels()], [("r.a", "20"), ("r.b", "60"), ("i1.y", "b0")])


class Calls(InFolder):
    def test_check(self):
        """what `check` writes of each example"""
        for name in ("line", "phylogeny", "twisting", "pair"):
            text, *steps = lines(example(name, "check"))
            found = wfprov.check(example(name, "spec"))
            told = [
                f"{step.name} rank {step.rank} production {step.production} cycle "
                + ("-" if step.cycle is None else f"{step.cycle} place {step.place} next {step.back[0]} {step.back[1]}")
                for step in found.steps
            ]
            self.assertEqual((found.text, told), (text, steps))

    def test_view(self):
        """what `view` writes of each example"""
        for name in ("line", "phylogeny", "twisting"):
            found = wfprov.view(example(name, "spec"), example(name, "view"))
            told = [" ".join([seen.name, "expanded" if seen.expanded else "shown", *(f"{a}>{b}" for a, b in seen.pairs)]) for seen in found]
            self.assertEqual(told, lines(example(name, "shown")))

    def test_decide(self):
        """worked verdicts of `decide`"""
        line = example("line", "spec"), example("line", "view")
        self.assertIs(wfprov.decide(*line, b"\x20", b"\xb0"), wfprov.Verdict.YES)
        self.assertIs(wfprov.decide(*line, b"\xb0", b"\x20"), wfprov.Verdict.NO)
        hidden = dict(label_file.entries_of(open(example("phylogeny", "labels"), "rb").read()))[b"sp.a"]
        long = example("phylogeny", "spec"), example("phylogeny", "view")
        self.assertIs(wfprov.decide(*long, hidden, b"\x10"), wfprov.Verdict.HIDDEN_1)
        self.assertIs(wfprov.decide(*long, b"\x10", hidden), wfprov.Verdict.HIDDEN_2)

    def test_export(self):
        """the export of the line, as docs/FORMATS.md has it"""
        found = wfprov.export(*(example("line", file) for file in ("spec", "view", "events")))
        self.assertEqual((found.leaves, found.pending, found.items), ([("i1", "P"), ("i2", "Q")], [], ["r.a", "r.b", "i1.y"]))
        self.assertEqual(found.links, [("i1.y", "i2.x"), ("r.a", "i1.x"), ("i2.y", "r.b"), ("i1.x", "i1.y"), ("i2.x", "i2.y")])

    def test_compare(self):
        """a coarser view by `call`, and one that is not coarser"""
        spec, full, closed = example("line", "spec"), example("line", "view"), self.file("closed", '{"expand":[]}')
        self.assertEqual(wfprov.call(["compare", spec, full, closed]), b"yes\nexact\n")
        self.assert_refused(lambda: wfprov.call(["compare", spec, closed, full]), "coarse", None, "NotCoarser", "S")

    def test_listings(self):
        """what the items of the line rest on, as docs/FORMATS.md has it, and what rests on them"""
        files = [example("line", file) for file in ("spec", "view", "labels")]
        self.assertEqual(wfprov.lineage(*files, "r.b"), ["r.a", "i1.y"])
        self.assertEqual(wfprov.impact(*files, "r.a"), ["r.b", "i1.y"])
        self.assertEqual(wfprov.impact(*files, "r.b"), [])
        self.assertIs(wfprov.lineage(*files, "i2.y"), Answer.UNKNOWN)
        self.assertIs(wfprov.impact(*(example("phylogeny", file) for file in ("spec", "view", "labels")), "sp.a"), Answer.HIDDEN)

    def test_chains(self):
        """the chain of the line, as docs/FORMATS.md has it, and the first wrong line of others"""
        files = [example("line", file) for file in ("spec", "view", "events")]
        chain = ["r.a", "via i1", "i1.y", "via i2", "r.b"]
        self.assertEqual(wfprov.explain(*files, "r.a", "r.b"), chain)
        self.assertIs(wfprov.explain(*files, "r.b", "r.a"), Answer.NO)
        self.assertIs(wfprov.explain(*files, "r.a", "i2.y"), Answer.UNKNOWN)
        self.assertIs(wfprov.explain(*(example("phylogeny", file) for file in ("spec", "view", "events")), "sp.a", "run.tree"), Answer.HIDDEN)
        for wrong, lines_there in ((None, chain), (4, [*chain[:3], "via i1", "r.b"]), (5, chain[:4]), (6, [*chain, "via i2"]), (1, [])):
            self.assertEqual(wfprov.verify(*files, self.file("chain", "".join(f"{line}\n" for line in lines_there))), wrong)
        self.assert_refused(lambda: wfprov.verify(*files, self.file("chain", "r.a\ni1\n")), "chain", 2, "LineWrong", "")

    def test_gen(self):
        """a generated run that was worked by hand"""
        self.assertEqual(
            wfprov.gen(example("phylogeny", "spec"), 12, 4),
            [
                {"start": "n0"},
                {"expand": "n0", "production": 0, "names": ["n1", "n2", "n3", "n4"]},
                {"expand": "n2", "production": 2, "names": ["n5"]},
                {"expand": "n3", "production": 3, "names": ["n6", "n7"]},
            ],
        )


    def test_as_tool(self):
        """as a tool the module prints its help, and refuses other words"""
        def run(*words, **streams):
            return subprocess.run([sys.executable, os.path.join(TOP, "tools/wfprov.py"), *words], stderr=subprocess.PIPE, text=True, check=False, **streams)

        helped = run("--help", stdout=subprocess.PIPE)
        self.assertEqual((helped.returncode, helped.stdout.strip(), helped.stderr), (0, wfprov.__doc__.strip(), ""))
        with open("/dev/full", "w", encoding="utf-8") as full:
            self.assertEqual(run("--help", stdout=full).returncode, 2)
        other = run("spec", stdout=subprocess.PIPE)
        self.assertEqual((other.returncode, other.stdout, other.stderr.count("\n")), (2, "", 1))


def main(words):
    os.environ["WFPROV"] = os.path.abspath(words[0])
    return results.finish(*results.run(__name__))


if __name__ == "__main__":
    sys.exit(main(sys.argv[1:]))
