#!/usr/bin/python3
"""Runs workflows with cwltool and Snakemake, imports their records, and compares all pairs of values with searches that are no part of wfprov.

  bench/engines.py [--program FILE] [--keep FOLDER] [CASE ...]

The workflows stand in bench/engines. Each of their tools writes all lines that it reads, and one that no other execution writes. So the files
themselves show on which others they rest: that is one search. The other is, of cwltool, for a path in the graph of PROV, which python3-prov reads
and networkx searches; and of Snakemake, file by file over .snakemake/metadata.

Wanted of each pair is `yes` where a search finds a way, and `no` where neither may have one, unless the import said on standard error that it is
coarse. checks/records.py has the comparison. Some records of cwltool become crates too (bench/engines/crate.py), which are read and compared.
--keep writes the records, without times and what belongs to the machine, with what the files showed, and with the counts.

It needs Debian's packages cwltool, snakemake, python3-prov, python3-networkx and nodejs, and the built program.
"""
import argparse
import json
import logging
import os
import shutil
import subprocess
import sys
import tempfile
import time
from pathlib import Path

import networkx
from prov import model

HERE = Path(__file__).resolve().parent
TOP = HERE.parent
sys.path[:0] = [str(TOP / "checks"), str(HERE / "engines")]
import records
from crate import Writer

RANDOM = "/proc/sys/kernel/random/uuid"
# Members of a record that say when and where it was written, or that are the source of a rule.
DROPPED = {"prov:time", "prov:startTime", "prov:endTime", "wasStartedBy", "agent", "prefix", "code", "starttime", "endtime"}


def put(path):
    """Writes a file with a line that no other file has."""
    path.parent.mkdir(parents=True, exist_ok=True)
    path.write_text(Path(RANDOM).read_text())


def called(words, folder, ends=0):
    """Runs a program in a folder, and returns its seconds. It must end with this status."""
    start = time.monotonic()
    done = subprocess.run(words, cwd=folder, stdout=subprocess.PIPE, stderr=subprocess.STDOUT, check=False, text=True)
    if (done.returncode != 0) != (ends != 0):
        raise AssertionError(f"{' '.join(map(str, words[:3]))} ended with {done.returncode}: {done.stdout[-800:]}")
    return time.monotonic() - start


def shown(files):
    """Returns for each file on which others its lines show it to rest. Files are given by their names; the last line of each is its own."""
    lines = {name: path.read_text().splitlines() for name, path in files.items()}
    own = {}
    for name, written in lines.items():
        own.setdefault(written[-1] if written else "", set()).add(name)
    return {name: {other for line in written[:-1] for other in own.get(line, ())} - {name} for name, written in lines.items()}


class Cwltool:
    """A run of cwltool."""

    def __init__(self, name, case):
        self.name, self.case = name, case

    def value(self, given, folder):
        """Returns an input of the run, with the files that it names."""
        if isinstance(given, list):
            return [self.value(entry, folder) for entry in given]
        if not isinstance(given, str) or not given.startswith("@"):
            return given
        put(folder / f"{given[1:]}.txt")
        return {"class": "File", "path": f"{given[1:]}.txt"}

    def run(self, folder):
        """Runs the workflow, and returns the folder of its record and the seconds."""
        (folder / "job.json").write_text(json.dumps({port: self.value(given, folder) for port, given in self.case["job"].items()}))
        for _ in range(self.case.get("times", 1)):
            shutil.rmtree(folder / "record", ignore_errors=True)
            seconds = called([sys.executable, HERE / "engines/with_provenance.py", *self.case.get("words", []), "--provenance", "record",
                              HERE / "engines/cwl" / self.case["run"], "job.json"], folder, self.case.get("ends", 0))
        return folder / "record", seconds

    def shown(self, record):
        """Returns what the files showed, by their checksums."""
        return shown({path.name: path for path in (record / "data").rglob("*") if path.is_file()})

    def search(self, record, rows):
        """Returns the graph of PROV, and the name of each row in it."""
        facts = records.Prov()
        for path in sorted((record / "metadata/provenance").glob("*.json"), key=lambda path: not path.name.startswith("primary.")):
            self.take(facts, model.ProvDocument.deserialize(path))
            facts.top = facts.top or set(facts.flows)
        graph, names = facts.names(rows)
        return Searched(graph), names

    @staticmethod
    def take(facts, document):
        """Takes the facts of a document of PROV."""
        for record in document.unified().get_records():
            ends = [str(value) for _, value in record.formal_attributes]
            if isinstance(record, model.ProvActivity) and any("WorkflowRun" in str(kind) for kind in record.get_asserted_types()):
                facts.flows.add(str(record.identifier))
            if isinstance(record, model.ProvUsage):
                facts.used.append((ends[0], ends[1]))
            if isinstance(record, model.ProvGeneration):
                facts.made.append((ends[0], ends[1]))
            if isinstance(record, model.ProvSpecialization):
                facts.content[ends[0]] = ends[1]
            if isinstance(record, model.ProvMembership):
                facts.members.setdefault(ends[0], set()).add(ends[1])

    def keep(self, record, folder):
        """Keeps what the importer reads of the record."""
        for path in [*(record / "metadata/provenance").glob("*.json"), record / "workflow/packed.cwl", record / "workflow/primary-job.json"]:
            kept = folder / path.relative_to(record)
            kept.parent.mkdir(parents=True, exist_ok=True)
            kept.write_text(json.dumps(stripped(json.loads(path.read_text())), separators=(",", ":")) + "\n")


class Searched:
    """A graph that networkx searches, with what the search of checks/records.py is called."""

    def __init__(self, graph):
        self.graphs = {is_sure: networkx.DiGraph([(later, earlier) for later, others in table.items() for earlier in others])
                       for is_sure, table in ((True, graph.sure), (False, graph.perhaps))}

    def reached(self, start, is_sure):
        """Returns all names that a name came of."""
        graph = self.graphs[is_sure]
        found = networkx.descendants(graph, start) if start in graph else set()
        return found | ({start} if start in graph and any(start in graph[other] for other in found | {start}) else set())


class Crate(Cwltool):
    """A run of cwltool whose record becomes a crate in the form of runcrate."""

    def run(self, folder):
        """Runs the workflow, makes a crate of its record, and returns the folder of the crate and the seconds."""
        record, seconds = super().run(folder)
        (record / "ro-crate-metadata.json").write_text(json.dumps(Writer(record).crate()))
        shutil.move(record / "metadata", record / "other")
        return record, seconds

    def search(self, record, rows):
        """Returns the graph of the actions of the crate, and the name of each row in it."""
        graph, names = records.Crate().read(record).names(rows)
        return Searched(graph), names

    def keep(self, record, folder):
        """Keeps the crate."""
        shutil.copy(record / "ro-crate-metadata.json", folder)


class Snakemake:
    """A run of Snakemake. Some sources may change behind it, and some files be made again then."""

    def __init__(self, name, case):
        self.name, self.case = name, case

    def run(self, folder):
        """Runs the workflow, and returns the folder of its record and the seconds."""
        for name in self.case["data"]:
            put(folder / "data" / name)
        (folder / "kept").mkdir()
        shutil.copy(HERE / "engines/snakemake" / self.name / "Snakefile", folder)
        seconds = called(["snakemake", "-c1", *self.case.get("words", []), "-q", "all"], folder, self.case.get("ends", 0))
        for name in self.case.get("changed", []):
            put(folder / "data" / name)
        if "again" in self.case:
            seconds += called(["snakemake", "-c1", *self.case["again"], "-q", "all"], folder)
        return folder, seconds

    def shown(self, record):
        """Returns what the files showed, by their paths. Those that jobs made were kept beside."""
        files = {str(path.relative_to(record)): path for path in (record / "data").rglob("*")}
        return shown({**files, **{str(path.relative_to(record / "kept")): path for path in (record / "kept").rglob("*") if path.is_file()}})

    def search(self, record, rows):
        """Returns the graph of the metadata, and the name of each row in it."""
        graph, names = records.Metadata().read(record).names(rows)
        return Searched(graph), names

    def keep(self, record, folder):
        """Keeps what the importer reads of the record. Times stay, as numbers of seconds since the first one."""
        paths = [path for path in (record / ".snakemake/metadata").rglob("*") if path.is_file()]
        first = min(json.loads(path.read_text())["starttime"] for path in paths)
        for path in paths:
            entry = json.loads(path.read_text())
            times = {member: round(entry[member] - first, 3) for member in ("starttime", "endtime")}
            kept = folder / path.relative_to(record)
            kept.parent.mkdir(parents=True, exist_ok=True)
            kept.write_text(json.dumps({**stripped(entry), **times}, separators=(",", ":")) + "\n")


def stripped(value):
    """Returns a value without what belongs to the machine and the time."""
    if isinstance(value, dict):
        return {member: stripped(entry) for member, entry in value.items() if member not in DROPPED}
    return [stripped(entry) for entry in value] if isinstance(value, list) else value


def one_case(engine, program, kept):
    """Tries a case, and returns its counts, its seconds, and what the import said."""
    with tempfile.TemporaryDirectory() as folder:
        record, seconds = engine.run(Path(folder))
        seen, place = engine.shown(record), Path(kept or folder) / type(engine).__name__.lower() / engine.name
        shutil.rmtree(place, ignore_errors=True)
        place.mkdir(parents=True)
        engine.keep(record, place)
        (place / "shown").write_text("".join("\t".join([name, *sorted(others)]) + "\n" for name, others in sorted(seen.items())))
        answers = records.Answers(program, str(record), folder)
        graph, names = engine.search(record, answers.rows)
        counts = records.compare(answers, graph, names, seen)
        (place / "counts").write_text(records.told(counts) + "\n")
    return counts, seconds, len(answers.notes.splitlines())


def main():
    words = argparse.ArgumentParser(description=__doc__, formatter_class=argparse.RawDescriptionHelpFormatter)
    words.add_argument("--program", default=str(TOP / "crates/wfprov/out/wfprov"))
    words.add_argument("--keep")
    words.add_argument("cases", nargs="*")
    given = words.parse_args()
    logging.disable(logging.WARNING)
    cases = json.loads((HERE / "engines/cases.json").read_text())
    engines = [kind(name, case) for kind in (Cwltool, Snakemake) for name, case in cases[kind.__name__.lower()].items()]
    engines += [Crate(name, cases["cwltool"][name]) for name in cases["crate"]]
    failed, total = 0, dict.fromkeys(("yes", "no", "coarse"), 0)
    for engine in engines:
        if given.cases and engine.name not in given.cases:
            continue
        title = f"{type(engine).__name__.lower()} {engine.name}"
        try:
            counts, seconds, notes = one_case(engine, given.program, given.keep)
            total = {word: total[word] + count for word, count in counts.items()}
            print(f"{title}: {records.told(counts)}; {notes} lines said; the engine took {seconds:.1f} s", flush=True)
        except AssertionError as error:
            failed += 1
            print(f"{title}: FAILED: {error}", flush=True)
    print(f"{sum(total.values())} pairs: {records.told(total)}; {failed} cases failed")
    return 1 if failed else 0


if __name__ == "__main__":
    sys.exit(main())
