#!/usr/bin/env python3
"""Compares what is answered of all pairs of values of records with searches in the records, which are no part of the importers.

  python3 checks/records.py PROGRAM FOLDER ...

All pairs are asked three times: of items by `ask` and by `trace`, and by the names of files, by tools/files.py. The three must agree.

Each FOLDER has the record of a run of a real program: of cwltool (metadata, workflow), of Snakemake (.snakemake), or a crate. Beside it may stand
  shown    what the files of the run showed themselves, since each tool wrote all lines that it read, and one of its own: a line for each file, its
           name, and behind tabs the names of the files whose own lines are in it
  counts   how many pairs are answered `yes` and `no`, and `yes` where no way is known
Wanted of each pair: `yes` where the record or the files show a way; `no` where neither may have one, unless the import said on standard error that
it is coarse. bench/engines.py does the same on new runs, with python3-prov and networkx.
"""
import base64
import json
import os
import subprocess
import sys
import tempfile

TOP = os.path.dirname(os.path.dirname(os.path.abspath(__file__)))
sys.path.insert(0, os.path.join(TOP, "tools"))
import file_table
import terminal

IMPORTERS = {"metadata": "from_cwlprov.py", ".snakemake": "from_snakemake.py", "ro-crate-metadata.json": "from_rocrate.py"}


class Graph:
    """On what names rest. A content stands for all names that came with it: a way through one with several names may be none."""

    def __init__(self):
        self.sure, self.perhaps = {}, {}

    def add(self, later, earlier):
        """Notes that a name came of one of these names, and surely of the only one."""
        self.perhaps.setdefault(later, set()).update(earlier)
        self.sure.setdefault(later, set()).update(earlier if len(earlier) == 1 else ())

    def reached(self, start, is_sure):
        """Returns all names that a name came of."""
        table, found, waiting = self.sure if is_sure else self.perhaps, set(), [start]
        while waiting:
            for other in table.get(waiting.pop(), ()):
                if other not in found:
                    found.add(other)
                    waiting.append(other)
        return found


def listed(value):
    return value if isinstance(value, list) else [] if value is None else [value]


def load(path):
    with open(path, encoding="utf-8") as text:
        return json.load(text)


class Prov:
    """The facts of the files of CWLProv: of ProcessRuns what they used and made, and the entities with their contents and members."""

    def __init__(self):
        self.used, self.made, self.content, self.members, self.flows, self.top = [], [], {}, {}, set(), set()

    def read(self, folder):
        """Takes the files of a folder, that of the run itself first."""
        place = os.path.join(folder, "metadata", "provenance")
        for name in sorted(os.listdir(place), key=lambda name: not name.startswith("primary.")):
            if name.endswith(".json"):
                self.take(load(os.path.join(place, name)))
                self.top = self.top or set(self.flows)
        return self

    def take(self, value):
        """Takes the facts of a file."""
        def facts(member):
            return [entry for parts in value.get(member, {}).values() for entry in listed(parts)]
        for name, parts in value.get("activity", {}).items():
            if any("WorkflowRun" in json.dumps(part.get("prov:type")) for part in listed(parts)):
                self.flows.add(name)
        self.used += [(entry["prov:activity"], entry["prov:entity"]) for entry in facts("used")]
        self.made += [(entry["prov:entity"], entry["prov:activity"]) for entry in facts("wasGeneratedBy")]
        self.content.update((entry["prov:specificEntity"], entry["prov:generalEntity"]) for entry in facts("specializationOf"))
        for entry in facts("hadMember"):
            self.members.setdefault(entry["prov:collection"], set()).add(entry["prov:entity"])

    def parts(self, entity):
        """Returns an entity and all members in it."""
        found = {entity}
        for name in self.members.get(entity, ()):
            found |= self.parts(name)
        return found

    def graph(self):
        """Returns the graph, and the names of each content."""
        makers, origins, graph = {}, {}, Graph()
        for entity, activity in self.made:
            if activity not in self.flows:
                for part in self.parts(entity):
                    makers.setdefault(part, set()).add(activity)
        outside = {part for activity, entity in self.used if activity in self.top for part in self.parts(entity)}
        for name in [*makers, *outside]:
            origins.setdefault(self.content.get(name, name), set()).add(name)
        reads = {}
        for activity, entity in self.used:
            reads.setdefault(activity, []).extend(self.parts(entity))
        for name, activities in makers.items():
            for part in [part for activity in activities for part in reads.get(activity, ())]:
                graph.add(name, {part} if part in makers else origins.get(self.content.get(part, part), {part}))
        return graph, origins

    def names(self, rows):
        """Returns for each row of the table the name that it has in the graph, or None."""
        graph, origins = self.graph()
        found = []
        for identity, _, checksum in rows:
            names = origins.get("data:" + checksum.partition("$")[2], set())
            known = identity in graph.perhaps or any(identity in others for others in origins.values())
            found.append(identity if known else next(iter(names)) if len(names) == 1 else None)
        return graph, found


class Metadata:
    """The records of Snakemake: which file was made from which."""

    def __init__(self):
        self.inputs, self.logs = {}, {}

    def read(self, folder):
        place = os.path.join(folder, ".snakemake", "metadata")
        for here, _, names in os.walk(place):
            for name in names:
                parts = [part.removeprefix("@") for part in os.path.relpath(os.path.join(here, name), place).split(os.sep)]
                entry = load(os.path.join(here, name))
                if not entry["incomplete"]:
                    self.inputs[base64.b64decode("".join(parts), altchars=b"-_").decode()] = entry["input"]
                    self.logs.update((log, entry["input"]) for log in entry["log"])
        return self

    def names(self, rows):
        """Returns the graph, and the name of each row in it: its path. What stands in a folder was made by its maker, and who read it read all."""
        graph, paths = Graph(), [identity for identity, _, _ in rows]
        makers = {**self.logs, **self.inputs}
        for path in paths:
            maker = path
            while maker and maker not in makers:
                maker = maker.rpartition("/")[0]
            for file in makers.get(maker, ()):
                for read in [file, *(other for other in paths if other.startswith(file + "/"))]:
                    graph.add(path, {read})
        return graph, paths


class Crate:
    """The actions of a crate but those of workflows: what each used and made."""

    def __init__(self):
        self.entities = {}

    def read(self, folder):
        self.entities = {entry["@id"]: entry for entry in load(os.path.join(folder, "ro-crate-metadata.json"))["@graph"]}
        return self

    def parts(self, action, member):
        """Returns the ids that an action names, and the members of collections and folders in them."""
        found, waiting = set(), [part["@id"] for part in listed(self.entities[action].get(member))]
        while waiting:
            name = waiting.pop()
            if name not in found:
                found.add(name)
                waiting += [part["@id"] for part in listed(self.entities.get(name, {}).get("hasPart"))]
                waiting += [other for other in self.entities if name.endswith("/") and other.startswith(name)]
        return found

    def names(self, rows):
        """Returns the graph, and the name of each row in it."""
        tools = {name: {tool["@id"] for tool in listed(entry.get("instrument"))} for name, entry in self.entities.items()
                 if "CreateAction" in listed(entry["@type"]) and not any("Failed" in str(status) for status in listed(entry.get("actionStatus")))}
        inner = {flow: {part["@id"] for part in listed(self.entities[flow].get("hasPart"))} & set().union(*tools.values()) for flow in set().union(*tools.values())}
        graph, makers = Graph(), {}
        for action in (name for name, used in tools.items() if not any(inner[tool] for tool in used)):
            for made in self.parts(action, "result"):
                makers.setdefault(made, set()).add(action)
        for made, by in makers.items():
            for action in by:
                for read in self.parts(action, "object"):
                    graph.add(made, {read})
        return graph, [identity if identity in self.entities else None for identity, _, _ in rows]


RECORDS = {"metadata": Prov, ".snakemake": Metadata, "ro-crate-metadata.json": Crate}


def kind_of(folder):
    """Returns the name by which the record in a folder is known."""
    return next(name for name in RECORDS if os.path.exists(os.path.join(folder, name)))


def shown_by(folder):
    """Returns for each file on which others its lines show it to rest."""
    path = os.path.join(folder, "shown")
    if not os.path.exists(path):
        return {}
    with open(path, encoding="utf-8") as text:
        rows = [line.rstrip("\n").split("\t") for line in text]
    return {row[0]: set(row[1:]) for row in rows}


def ran(*words, **settings):
    """Returns what a call writes, and what it says."""
    done = subprocess.run(words, stdout=subprocess.PIPE, stderr=subprocess.PIPE, check=False, text=True, env={**os.environ, **settings})
    if done.returncode:
        raise AssertionError(f"{' '.join(words[:3])}: {done.stderr.strip()}")
    return done.stdout, done.stderr


def spelled(rows):
    """Returns for each row of the table the names that mean its file alone, paths first, and all names that mean several files."""
    own = [list(dict.fromkeys(filter(None, [path, checksum, identity]))) for identity, path, checksum in rows]
    exact = [{row[0], row[1]} for row in rows]
    counts = {name: sum(name in names for names in own) for names in own for name in names}
    means_one = {name for name in counts if counts[name] == 1 or sum(name in names for names in exact) == 1}
    plain = [[name for name in names if name in means_one and (counts[name] == 1 or name in exact[number])] for number, names in enumerate(own)]
    return plain, sorted(counts.keys() - means_one)


class Answers:
    """What is answered of all pairs of the values of a record, by labels, by the run and by names of files, and what the import said."""

    def __init__(self, program, folder, work, words=()):
        path = {name: os.path.join(work, name) for name in ("spec", "events", "table", "view", "labels", "queries")}
        importer = os.path.join(TOP, "tools", IMPORTERS[kind_of(folder)])
        _, self.notes = ran(sys.executable, importer, *words, folder, path["spec"], path["events"], path["table"])
        with open(path["table"], encoding="utf-8") as text:
            values = [line.rstrip("\n").split("\t") for line in text if line.startswith("value\t")]
        self.rows, items = [row[1:4] for row in values], [row[6] for row in values]
        with open(path["queries"], "w", encoding="utf-8") as text:
            text.writelines(f"{first} {second}\n" for first in items for second in items)
        with open(path["view"], "w", encoding="utf-8") as text:
            text.write("{}")
        with open(path["labels"], "wb") as text:
            subprocess.run([program, "ingest", path["spec"], path["events"]], stdout=text, check=True)
        told = [ran(program, command, path["spec"], path["view"], path[run], path["queries"])[0].split()
                for command, run in (("ask", "labels"), ("trace", "events"))]
        if told[0] != told[1]:
            raise AssertionError("`ask` and `trace` differ")
        if told[0] != self.by_name(program, path):
            raise AssertionError("the answers of files differ from those of items")
        self.told = [told[0][start:start + len(items)] for start in range(0, len(told[0]), len(items))]


    def by_name(self, program, path):
        """Returns what tools/files.py answers of all pairs of files, and sees that each name means its file, and none that means several is taken."""
        table, (own, shared) = file_table.Table(path["table"]), spelled(self.rows)
        for row, names in zip(self.rows, own):
            if not names or {table.file(name).identity for name in names} != {row[0]}:
                raise AssertionError(f"the names {names} do not mean {row}")
        for name in shared:
            try:
                raise AssertionError(f"`{name}` means several files, and is taken for `{table.file(name).identity}`")
            except terminal.Wrong:
                pass
        with open(path["queries"], "w", encoding="utf-8") as text:
            text.writelines(f"{first[0]}\t{second[0]}\n" for first in own for second in own)
        words = [sys.executable, os.path.join(TOP, "tools/files.py"), "ask", *(path[word] for word in ("spec", "view", "labels", "table", "queries"))]
        return ran(*words, WFPROV=program)[0].split()


def compare(answers, graph, names, shown):
    """Returns the counts of the pairs. Raises where an answer is not what is wanted."""
    counts = {"yes": 0, "no": 0, "coarse": 0}
    content = [row[2] or row[0] for row in answers.rows]
    keys = [next((key for key in (row[2].partition("$")[2], row[0]) if key in shown), None) for row in answers.rows]
    for second, (name, key) in enumerate(zip(names, keys)):
        sure, perhaps = graph.reached(name, True), graph.reached(name, False)
        for first, told in enumerate(row[second] for row in answers.told):
            is_shown = key is not None and keys[first] in shown[key] and content.count(content[first]) == 1
            wanted = is_shown or names[first] is not None and names[first] in sure
            if told != "yes" and wanted or told not in ("yes", "no"):
                raise AssertionError(f"`{told}` is answered of {answers.rows[first]} and {answers.rows[second]}, and there is a way")
            is_known = wanted or names[first] in perhaps or key is not None and keys[first] in shown[key]
            if told == "yes" and not is_known and not answers.notes:
                raise AssertionError(f"`yes` is answered of {answers.rows[first]} and {answers.rows[second]}, there is no way, and nothing was said")
            counts["coarse" if told == "yes" and not is_known else told] += 1
    return counts


def told(counts):
    return " ".join(f"{word} {count}" for word, count in counts.items())


def main(words):
    passed = failed = 0
    for folder in words[1:]:
        name = os.path.join(*os.path.normpath(folder).split(os.sep)[-2:])
        try:
            with tempfile.TemporaryDirectory() as work:
                answers = Answers(words[0], folder, work)
            graph, names = RECORDS[kind_of(folder)]().read(folder).names(answers.rows)
            line = told(compare(answers, graph, names, shown_by(folder)))
            path = os.path.join(folder, "counts")
            if os.path.exists(path) and load_text(path) != line:
                raise AssertionError(f"the counts are {line}, and were {load_text(path)}")
            print(f"ok: {name}: {line}")
            passed += 1
        except AssertionError as error:
            print(f"FAILED: {name}: {error}")
            failed += 1
    print(f"{passed} passed, {failed} failed")
    return 1 if failed or not passed else 0


def load_text(path):
    with open(path, encoding="utf-8") as text:
        return text.read().strip()


if __name__ == "__main__":
    sys.exit(main(sys.argv[1:]))
