#!/usr/bin/env python3
"""Turns a list of actions into SPEC and EVENTS of wfprov, and a table that says which item is which file.

  python3 tools/from_actions.py [--coarse] ACTIONS SPEC EVENTS TABLE

ACTIONS is a JSON object with two lists; further members are ignored.
  values    {"id":"f1","path":"a/reads.fq","checksum":"sha1$..","outside":true}
            a value is a file mostly. Its `id` is its name in this file alone. `path`, `checksum` and `outside` may be absent; `outside`
            says that it came from outside the run.
  actions   {"name":"align s1","tool":"ALIGN","used":[["reads","f1"]],"made":[["bam","f2"]]}
            an action is one execution of a tool. `used` and `made` are pairs of a role and the id of a value. Further members, which
            may be absent: `state` is `done`, `cached`, `failed` or `never`; `software` says version and container; `group` is a list
            of pairs of a kind and a name, such as [["sample","s1"]], from the outermost group to the innermost.

What an answer says. Each value that an action made rests on each value that it used, and on nothing else. The item of a value is what
its maker gave out; TABLE has it. Nothing else that SPEC adds is the item of a value: modules that copy, gather and end, and parts.
  - A value that an action used must come from outside, or an action must have made it.
  - What a failed action made, or one that never ran, is not there. A cached action is the maker of a value that no other one made.
  - A run of any size is cut into bodies of at most 64 positions and 64 ports, exactly: two values share a port only if the same
    actions read both beyond it. Actions of a group stand together. Parts of the run that are alike become a loop.
  - What cannot be cut exactly is refused, with the smallest cut that was found. With --coarse it is not: values then share a port
    though other actions read them, some answers are `yes` that should be `no`, and standard error says how many values these are.

TABLE has fields with tabs between, and these lines behind the first:
  action  NAME  INSTANCE  TOOL  STATE  SOFTWARE        INSTANCE is empty where the action is not in the run
  value   ID  PATH  CHECKSUM  ACTION  ROLE  ITEM       ACTION and ROLE are empty for a value from outside
A tab, a newline, a carriage return and a backslash in a field are written as \\t, \\n, \\r and \\\\.

Refused, with the place: a value or an action that is there twice, a value that two actions made, a used value that nothing made or whose
maker failed, actions that use what comes of what they make, and what is no such list. Nothing is written then.

This tool is no part of what is proved. It needs Python's standard library alone.
"""
import json
import os
import sys

sys.path.insert(0, os.path.dirname(os.path.abspath(__file__)))
import actions
import outputs
import terminal


def refuse(place, what):
    """Refuses what stands at a place."""
    raise terminal.Wrong(f"{place}: {what}")


def entries(given, name, place):
    """Returns the objects of a list."""
    found = given.get(name, []) if isinstance(given, dict) else refuse(place, "no JSON object")
    if not isinstance(found, list):
        refuse(f"{place}: {name}", "no list")
    for number, entry in enumerate(found):
        if not isinstance(entry, dict):
            refuse(f"{place}: {name} {number}", "no object")
    return [(f"{place}: {name} {number}", entry) for number, entry in enumerate(found)]


def text_of(entry, name, place, absent=None):
    """Returns a member that is a text."""
    value = entry.get(name, absent)
    if not isinstance(value, str):
        refuse(place, f"`{name}` is no text")
    return value


def pairs_of(entry, name, place):
    """Returns a member that is a list of pairs of texts."""
    found = entry.get(name, [])
    if not isinstance(found, list) or not all(isinstance(pair, list) and len(pair) == 2 and all(isinstance(word, str) for word in pair)
                                              for pair in found):
        refuse(place, f"`{name}` is no list of pairs of texts")
    return [tuple(pair) for pair in found]


def record_of(given, place):
    """Returns the record of a JSON value."""
    record = actions.Record()
    for where, entry in entries(given, "values", place):
        outside = entry.get("outside", False)
        if not isinstance(outside, bool):
            refuse(where, "`outside` is neither true nor false")
        record.add_value(actions.Value(text_of(entry, "id", where), text_of(entry, "path", where, ""),
                                       text_of(entry, "checksum", where, ""), outside, where))
    for where, entry in entries(given, "actions", place):
        name = text_of(entry, "name", where)
        record.add_action(actions.Action(name, text_of(entry, "tool", where, name), pairs_of(entry, "used", where), pairs_of(entry, "made", where),
                                         pairs_of(entry, "group", where), text_of(entry, "state", where, "done"),
                                         text_of(entry, "software", where, ""), where))
    return record


def load(path):
    """Returns the JSON value of a file."""
    try:
        return json.loads(terminal.read_text(path))
    except json.JSONDecodeError as error:
        refuse(f"{path}: line {error.lineno}", f"no JSON: {error.msg}")
    except (ValueError, RecursionError) as error:
        refuse(path, f"no JSON: {error}")


def work(words):
    """Imports what the words name."""
    coarse = "--coarse" in words
    paths = [word for word in words if word != "--coarse"]
    if len(paths) != 4 or any(path.startswith("--") for path in paths):
        refuse("call", "the words are [--coarse] ACTIONS SPEC EVENTS TABLE; see --help")
    made = actions.imported(record_of(load(paths[0]), paths[0]), coarse)
    outputs.write_all(list(zip(paths[1:], (made.spec, made.events, made.table))), paths[:1])
    for note in made.notes:
        terminal.complain("from_actions.py", note)


if __name__ == "__main__":
    sys.exit(terminal.run("from_actions.py", __doc__, work))
