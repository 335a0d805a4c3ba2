"""The manifest that the plugin nf-prov writes of a Nextflow run, as a record of actions. from_nextflow.py describes what becomes of it."""
import json
import re

import actions
import terminal

# A folder of a task in the work folder: two and some thirty hexadecimal digits.
TASK_FOLDER = re.compile(r"(.*)/([0-9a-f]{2}/[0-9a-f]{30})(?:/|$)")
PATH = re.compile(r"/|[A-Za-z][A-Za-z0-9+.-]*:/")


def refuse(place, what):
    """Refuses what stands at a place."""
    raise terminal.Wrong(f"{place}: {what}")


def load(path):
    """Returns the JSON object of a file."""
    try:
        value = json.loads(terminal.read_text(path))
    except json.JSONDecodeError as error:
        refuse(f"{path}: line {error.lineno}", f"no JSON: {error.msg}")
    except (ValueError, RecursionError) as error:
        refuse(path, f"no JSON: {error}")
    return value if isinstance(value, dict) else refuse(path, "no JSON object")


def leaves_of(value):
    """Yields what a value holds that is neither a list nor null. A map is one value: as nf-core's `meta` is."""
    for part in value if isinstance(value, list) else [value]:
        if isinstance(part, list):
            yield from leaves_of(part)
        elif part is not None:
            yield part


def path_of(value):
    """Returns the path of a file that a value is, or nothing."""
    if isinstance(value, str) and PATH.match(value):
        return ("/" + value.removeprefix("file:").lstrip("/") if value.startswith("file:") else value).rstrip("/")
    return None


def paths_in(value):
    """Yields the paths of files in a value, in maps too."""
    for part in leaves_of(value):
        if isinstance(part, dict):
            yield from paths_in(list(part.values()))
        elif path_of(part):
            yield path_of(part)


class Task:
    """A task: its number, its name, its process, the files and the other values that it read and made, each with its role, and its place."""

    def __init__(self, identity, entry, path):
        self.place = f"{path}: task {identity}"
        if not isinstance(entry, dict):
            refuse(self.place, "no object")
        self.name, self.process = [self.text(entry, member) for member in ("name", "process")]
        if not re.fullmatch("[0-9]+", str(identity)):
            refuse(self.place, "the id of a task is no number")
        self.number, self.is_cached = int(identity), entry.get("cached") is True
        self.read, self.got = self.ends(entry, "inputs")
        self.made, self.gave = self.ends(entry, "outputs")

    def text(self, entry, member):
        """Returns a member that is a text."""
        value = entry.get(member)
        return value if isinstance(value, str) and value else refuse(self.place, f"it has no `{member}`")

    def ends(self, entry, member):
        """Returns the files of inputs or outputs, each with its role, and the other values. A file that a map names was read, and is not made so."""
        files, values = {}, {}
        if not isinstance(entry.get(member), list):
            refuse(self.place, f"`{member}` is no list")
        for part in entry[member]:
            if not isinstance(part, dict):
                refuse(self.place, f"`{member}` has an entry that is no object")
            role = next((part[name] for name in ("emit", "name") if isinstance(part.get(name), str)), member)
            for value in leaves_of(part.get("value")):
                if path_of(value):
                    files.setdefault(path_of(value), role)
                else:
                    values.setdefault(json.dumps(value, sort_keys=True), role)
                    files.update((file, role) for file in paths_in(value) if member == "inputs" and file not in files)
        return files, values


def tasks_of(given, path):
    """Returns the tasks of a manifest by their numbers, from a map or from a list of them."""
    if not isinstance(given, (dict, list)) or not given:
        refuse(path, "`tasks` is neither a map nor a list of tasks, or there is none")
    entries = given.items() if isinstance(given, dict) else ((entry.get("id", number) if isinstance(entry, dict) else number, entry)
                                                             for number, entry in enumerate(given))
    found = {}
    for identity, entry in entries:
        task = Task(identity, entry, path)
        if found.setdefault(task.number, task) is not task:
            refuse(task.place, "another task has its id")
    return [found[number] for number in sorted(found)]


class Places:
    """Where the files of a run stand: the folders of its tasks, the work folders around them, and the folders of what was published."""

    def __init__(self, path, entries):
        self.target, self.source, self.folders, self.works = {}, {}, {}, set()
        for entry in entries:
            ends = [entry.get(end) for end in ("source", "target")] if isinstance(entry, dict) else [None]
            if not all(isinstance(end, str) and end for end in ends):
                refuse(path, "`published` has an entry without a `source` and a `target`")
            source, target = (path_of(end) or end.rstrip("/") for end in ends)
            self.target.setdefault(source, target)
            self.source.setdefault(target, {})[source] = True

    def note(self, file, task):
        """Notes the folder of a task, by a file that it made."""
        match = TASK_FOLDER.match(file)
        if match:
            self.works.add(match[1])
            self.folders.setdefault(match[0].rstrip("/"), task)

    def plain(self, file, place):
        """Returns the path at which a file was made, of one that is named as it was published."""
        for around in [] if file in self.target else [file, *above(file)]:
            sources = list(self.source.get(around, ()))
            if len(sources) > 1:
                refuse(place, f"it read `{file}`, and several files were published there: `{sources[0]}`, `{sources[1]}`")
            if sources:
                return sources[0] + file[len(around):]
        return file

    def published(self):
        """Returns the folder around all that was published. If the work folder stands in it too, the folders in which something was published."""
        folders = list(dict.fromkeys(filter(None, (target.rpartition("/")[0] for target in self.source))))
        common = [folder for folder in [*folders[:1], *above(*folders[:1])] if all(is_in(other, folder) for other in folders)]
        return common[:1] if common and not any(is_in(work, common[0]) for work in self.works) else folders

    def may_be_of_operator(self, folders, file):
        """Returns whether a file that no task made stands where operators of Nextflow put what they make: in the work folder, or in these folders."""
        return any(is_in(file, work) and not file.startswith(work + "/stage-") for work in self.works) or any(is_in(file, folder) for folder in folders)


def above(path=""):
    """Returns the folders around a path, the nearest first. The top of a file system is none."""
    return [path[:end] for end in range(len(path) - 1, 0, -1) if path[end] == "/" and path[end - 1] not in ":/"]


def is_in(path, folder):
    """Returns whether a path is that of a folder or stands in it."""
    return path == folder or path.startswith(folder + "/")


class Manifest:
    """Makes the record of actions of a manifest. `equal` says that a value that is no file is what an earlier task gave that is equal."""

    def __init__(self, value, path, equal):
        self.path, self.equal, self.record, self.notes, self.givers = path, equal, actions.Record(), {}, {}
        published = value.get("published") or []
        self.places = Places(path, published if isinstance(published, list) else refuse(path, "`published` is no list"))
        self.tasks = tasks_of(value["tasks"], path)
        self.names, self.makers, self.before, self.since = self.titles(), {}, None, {}
        self.take_files()
        self.folders, self.inside = self.places.published(), {}
        for file in dict.fromkeys([*self.makers, *(file for task in self.tasks for file in task.read)]):
            for folder in above(file):
                self.inside.setdefault(folder, []).append(file)
        for task in self.tasks:
            self.add(task)

    def titles(self):
        """Returns a name for each task: a second task of a name is `NAME #2`, and so on."""
        counts, found = {}, {}
        for task in self.tasks:
            count = counts[task.name] = counts.get(task.name, 0) + 1
            found[task] = task.name if count == 1 else f"{task.name} #{count}"
        return found

    def take_files(self):
        """Notes the maker of each file, and its folder in the work folder. A task did not make what it read too."""
        givers = {}
        for task in self.tasks:
            task.read = {self.places.plain(file, task.place): role for file, role in task.read.items()}
            task.made = {file: role for file, role in task.made.items() if file not in task.read}
            for file in task.made:
                givers.setdefault(file, []).append(task)
        self.take_texts({file: tasks for file, tasks in givers.items() if len(tasks) > 1 and not TASK_FOLDER.match(file)})
        for task in self.tasks:
            for file in task.made:
                self.take(task, file)
        for file in [*(file for task in self.tasks for file in task.read), *self.places.target]:
            self.find(file)

    def take_texts(self, givers):
        """Takes paths outside the work folder that several tasks gave as values that are no files."""
        for file, tasks in givers.items():
            for task in tasks:
                task.gave[json.dumps(file)] = task.made.pop(file)
        for task in self.tasks:
            task.got.update((json.dumps(file), role) for file, role in task.read.items() if file in givers)

    def take(self, task, file):
        """Notes the maker of a file, which no other task may have made but a cached one."""
        other = self.makers.setdefault(file, task)
        if other is not task and not other.is_cached and not task.is_cached:
            refuse(task.place, f"it made `{file}`, and so did task {other.number}")
        self.places.note(file, task)

    def find(self, file):
        """Notes the maker of a file that was read or published, and is no output: it stands in a folder that a task made, or in that of a task."""
        for around in [] if file in self.makers else above(file):
            task = self.makers.get(around) or self.places.folders.get(around)
            if task:
                self.makers[file] = task
                task.made[file] = "file"
                return

    def is_of_operator(self, file):
        """Returns whether an operator may have made a file."""
        return file not in self.makers and self.places.may_be_of_operator(self.folders, file)

    def value(self, identity, path="", outside=False):
        """Takes a value, once, and returns its identity."""
        if identity not in self.record.values:
            self.record.add_value(actions.Value(identity, path, "", outside, self.path))
        return identity

    def file(self, file):
        """Takes a file, and returns its identity. One that was published has the path at which it was."""
        return self.value(file, self.places.target.get(file, file), file not in self.makers and not self.is_of_operator(file))

    def add(self, task):
        """Takes a task as an action."""
        used = {}
        for file, role in task.read.items():
            for other in [file, *(inner for inner in self.inside.get(file, ()))]:
                used.setdefault(self.gathered(task, other) if self.is_of_operator(other) else self.file(other), role)
        for text, role in task.got.items():
            used.update({value: role for value in self.given(task, text)})
        made = [(role, self.file(file)) for file, role in task.made.items()]
        anew = {text: role for text, role in task.gave.items() if text not in task.got}
        made += [(role, self.value(f"{self.names[task]}/{role} {text}")) for text, role in anew.items()]
        for text, role in anew.items():
            self.givers.setdefault(text, []).append(f"{self.names[task]}/{role} {text}")
        parts = task.process.split(":")[:-1]
        group = [(part, ":".join(parts[:number])) for number, part in enumerate(parts, 1)]
        self.record.add_action(actions.Action(self.names[task], task.process, [(role, value) for value, role in used.items()], made, group,
                                              "cached" if task.is_cached else "done", place=task.place))
        self.since.update((value, True) for value in [*(value for value in used if value not in self.makers), *(value for _, value in made)])

    def given(self, task, text):
        """Returns what a task may have got as a value that is no file."""
        if self.equal:
            found = self.givers.get(text, [])
            if len(found) > 1:
                self.notes[f"{task.process}: several earlier tasks gave what it got: it is taken to rest on each of them"] = True
            return found
        found = self.earlier(task)
        if found:
            self.notes[f"{task.process}: what it got is no file: it is taken to rest on all that earlier tasks read and made"] = True
        return found

    def earlier(self, task):
        """Returns a value that rests on all that earlier tasks read and made, or nothing if there is none."""
        if self.since:
            used = [("before", value) for value in dict.fromkeys([*filter(None, [self.before]), *self.since])]
            self.before, self.since = self.value(f"all before {self.names[task]}"), {}
            self.record.add_action(actions.Action(f"before {self.names[task]}", "operator", used, [("all", self.before)], place=task.place))
        return [] if self.before is None else [self.before]

    def gathered(self, task, file):
        """Returns the value of a file that an operator made: it is taken to rest on all that earlier tasks made and read."""
        name = f"operator {file}"
        if name not in self.record.actions:
            used = self.earlier(task)
            self.notes[f"{task.process}: an operator made `{file}`: it is taken to rest on all that earlier tasks read and made"] = True
            self.record.add_action(actions.Action(name, "operator", [("file", other) for other in used], [("file", self.file(file))],
                                                  place=task.place))
        return self.file(file)
