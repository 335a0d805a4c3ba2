#!/usr/bin/env python3
"""Turns what Snakemake recorded of a run into SPEC and EVENTS of wfprov, and a table that says which item is which file.

  python3 tools/from_snakemake.py [--coarse] FOLDER SPEC EVENTS TABLE

FOLDER is the folder in which Snakemake ran, and has .snakemake/metadata in it. Snakemake writes a file there for each file that a job made:
its name is that of the file in base64, in folders that begin with `@` where it is long, and it says which rule made the file, from which
files. So the record is exact file by file, and no workflow is read.

What becomes of the record
  a job          an action. Files of one rule, one `job_hash`, one command and the same inputs are those of one job. Its name is that of the
                 rule and of its first file, as `align out/a.bam`; SOFTWARE is its container and the first line of its environment.
  a file         a value, with its path as Snakemake has it. Temporary files are values too. CHECKSUM is the SHA-256 that Snakemake noted
                 where it was read, as `sha256$HEX`: of small files alone.
  a log          a file that the job made
  a source       a file that a job read, and none made, came from outside
  a folder       a file in a folder that a job made, as behind a checkpoint, was made by that job. A job that read a folder
                 read each file in it that a job made
Each file that a job made rests on each file that it read. What a job reads beside its inputs, such as its script, is not in the record.
  - A record that is marked as incomplete is that of a job that failed: what it made is not there.
  - A job that began before a file that it read was made read an older one. This is said on standard error, and it counts as reading it.

TABLE is as tools/from_actions.py describes it.

Refused, with the place: a file that is no record; a name that is no base64; a file of which two jobs read different contents; a log that
two jobs made; and what tools/from_actions.py refuses, such as a used file whose job failed. Nothing is written then.

This tool is no part of what is proved. It needs Python's standard library alone.
"""
import base64
import binascii
import json
import os
import sys

sys.path.insert(0, os.path.dirname(os.path.abspath(__file__)))
import actions
import outputs
import terminal


def refuse(place, what):
    """Refuses what stands at a place."""
    raise terminal.Wrong(f"{place}: {what}")


def records_in(folder):
    """Yields the path of each record below a folder, and its name with those of the folders around that begin with `@`."""
    waiting = [(folder, "")]
    while waiting:
        here, before = waiting.pop()
        try:
            names = sorted(os.listdir(here))
        except OSError as error:
            refuse(here, terminal.reason(error))
        for name in names:
            path = os.path.join(here, name)
            if os.path.isdir(path):
                waiting.append((path, before + name[1:] if name.startswith("@") else before + name))
            else:
                yield path, before + name


def decoded(name, path):
    """Returns the name of a file that a record is about."""
    try:
        return base64.b64decode(name.encode("ascii"), altchars=b"-_", validate=True).decode("utf-8")
    except (binascii.Error, ValueError):
        return refuse(path, "the name of the record is no base64 of a path")


def texts_of(entry, member, path):
    """Returns a member that is a list of texts."""
    value = entry.get(member)
    value = [] if value is None else value
    if not isinstance(value, list) or not all(isinstance(text, str) for text in value):
        refuse(path, f"`{member}` is no list of paths")
    return value


class Made:
    """A record: the file that it is about, and the job that made it."""

    def __init__(self, path, name):
        self.place, self.file = path, decoded(name, path)
        try:
            entry = json.loads(terminal.read_text(path))
        except (ValueError, RecursionError) as error:
            refuse(path, f"no JSON: {error}")
        if not isinstance(entry, dict) or not isinstance(entry.get("rule"), str):
            refuse(path, "no record of Snakemake: it has no `rule`")
        self.rule, self.inputs, self.logs = entry["rule"], texts_of(entry, "input", path), texts_of(entry, "log", path)
        self.failed = entry.get("incomplete") is True
        self.began, self.ended = [entry.get(member) if isinstance(entry.get(member), (int, float)) else None for member in ("starttime", "endtime")]
        sums = entry.get("input_checksums")
        self.sums = {file: value for file, value in (sums.items() if isinstance(sums, dict) else ()) if isinstance(value, str)}
        software = [entry.get("container_img_url"), entry.get("conda_env")]
        self.software = "; ".join(text.split("\n")[0] for text in software if isinstance(text, str) and text)
        self.job = json.dumps([self.rule, entry.get("job_hash"), entry.get("shellcmd"), sorted(self.inputs)])


class Import:
    """Makes the record of actions of the records of a folder."""

    def __init__(self, folder):
        self.record, self.notes, self.maker, self.sums = actions.Record(), {}, {}, {}
        self.jobs = {}
        for path, name in records_in(folder):
            made = Made(path, name)
            self.jobs.setdefault(made.job, []).append(made)
        if not self.jobs:
            refuse(folder, "there is no record of a file")
        for parts in self.jobs.values():
            parts.sort(key=lambda made: made.file)
            self.take_files(parts)
        self.made, self.inside = {}, {}
        for parts in self.jobs.values():
            self.read(parts)
        for file in [*self.maker, *(file for files in self.made.values() for file in files)]:
            for end in [place for place, sign in enumerate(file) if sign == "/"]:
                self.inside.setdefault(file[:end], []).append(file)
        for parts in self.jobs.values():
            self.add(parts)

    def take_files(self, parts):
        """Takes what a job made: its files, and its logs."""
        for made in parts:
            self.maker[made.file] = made
        for log in parts[0].logs:
            other = self.maker.setdefault(log, parts[0])
            if other.job != parts[0].job:
                refuse(parts[0].place, f"its log `{log}` was made by another job too ({other.place})")

    def of(self, file):
        """Returns the record of the job that made a file, or a folder in which it stands."""
        while file and file not in self.maker:
            file = file.rstrip("/").rpartition("/")[0]
        return self.maker.get(file)

    def read(self, parts):
        """Takes what a job read: checks contents, and notes files in folders that a job made."""
        for made in parts:
            for file, checksum in made.sums.items():
                other, place = self.sums.setdefault(file, (checksum, made.place))
                if other != checksum:
                    refuse(made.place, f"it read `{file}` with the checksum {checksum}, and another job with {other} ({place})")
            for file in made.inputs:
                maker = self.of(file)
                if maker is not None and file not in self.maker:
                    self.made.setdefault(maker.job, {})[file] = True
                if maker is not None and maker.job != made.job and None not in (maker.ended, made.began) and maker.ended > made.began + 1:
                    self.notes[f"{made.place}: the job began before `{file}`, which it read, was made: it read an older one"] = True

    def add(self, parts):
        """Takes a job as an action, with its values."""
        first = parts[0]
        state = "failed" if any(made.failed for made in parts) else "done"
        files = [made.file for made in parts] + [log for log in first.logs if self.maker[log] is first] + list(self.made.get(first.job, ()))
        for file in files:
            self.value(file, False, first.place)
        used = list(first.inputs)
        for file in first.inputs:
            used += self.inside.get(file.rstrip("/"), ())
            if self.of(file) is None and file not in self.record.values:
                self.value(file, True, first.place)
        made = [(f"file{number}" if len(files) > 1 else "file", file) for number, file in enumerate(files, 1)]
        self.record.add_action(actions.Action(f"{first.rule} {first.file}", first.rule, [("input", file) for file in dict.fromkeys(used)], made,
                                              (), state, first.software, first.place))

    def value(self, file, outside, place):
        """Takes a file."""
        checksum = "sha256$" + self.sums[file][0] if file in self.sums else ""
        self.record.add_value(actions.Value(file, file, checksum, outside, place))


def work(words):
    """Imports what the words name."""
    coarse = "--coarse" in words
    paths = [word for word in words if word != "--coarse"]
    if len(paths) != 4 or any(path.startswith("--") for path in paths):
        refuse("call", "the words are [--coarse] FOLDER SPEC EVENTS TABLE; see --help")
    folder = os.path.join(paths[0], ".snakemake", "metadata")
    made = Import(folder)
    imported = actions.imported(made.record, coarse)
    read = [path for path, _ in records_in(folder)]
    outputs.write_all(list(zip(paths[1:], (imported.spec, imported.events, imported.table))), read)
    for note in [*made.notes, *imported.notes]:
        terminal.complain("from_snakemake.py", note)


if __name__ == "__main__":
    sys.exit(terminal.run("from_snakemake.py", __doc__, work))
