#!/usr/bin/env python3
"""Says in sentences what is wrong with the files of a workflow: where, by name, and what mends it.

  python3 tools/diagnose.py SPEC                                   a specification
  python3 tools/diagnose.py SPEC VIEW                              and a view of it
  python3 tools/diagnose.py SPEC VIEW EVENTS [QUERIES]             and a run of it, and questions
  python3 tools/diagnose.py SPEC VIEW LABELS [QUERIES]             and a label file of a run, and questions
  python3 tools/diagnose.py --decide SPEC VIEW HEX HEX             and two labels
  python3 tools/diagnose.py --compare SPEC VIEW VIEW               a specification, a view of it and a coarser one
  python3 tools/diagnose.py --words SPEC VIEW AUTO [LABELS [QUERIES]]   an automaton, and what else `words` takes
  python3 tools/diagnose.py --consult PACKAGE HEX HEX              a package and two labels

It runs `wfprov` on the files (`check`, `view`, `trace` or `ask`, or the command of the option) and finds the same fault by a reading of its
own, since the program says the kind of a fault and its place, and no more. VIEW may be `-`, which is the default view. A third file that
begins with the letters `WFL1` is a label file, and any other holds events. Of two views that are accepted it says what `compare` answers.

It warns of what is accepted and surely not meant: a member that no form knows, or that is given twice; a module
that stands in no body; a module that a view names and never shows; a view that gives a module fewer pairs than its inside has, or than
the specification gives it; a second view that denies what is so under the first; an automaton whose states that accept are never reached, or
that accepts every word; and a question for what is no item, such as an output that leads out of its body.

The text goes to standard output. The status is 0 where nothing is wrong, 1 where there are warnings alone, and 2 where something is
refused or cannot be read.

The program is the one that is built in this repository, or the one that the variable WFPROV names. Where there is none, the tool says so,
and what it says is its own reading alone. It is no part of what is proved. It needs Python's standard library alone.
"""
import os
import sys

sys.path.insert(0, os.path.dirname(os.path.abspath(__file__)))
import terminal
import two_views
from diagnosis import call, coarse, report
from diagnosis.finding import Finding


def findings(files):
    """Returns the lines on some files, and the status."""
    program, lines = call.program(), []
    said = call.said_by(program, files) if program else call.Said("it is not built", None, [])
    if said.status not in call.CHECKED:
        lines = [*report.wrapped(f"The program did not check the files: {said.line}. This is the reading of this tool alone."), ""]
        program = said = None
    found = Finding(files)
    fault = found.fault
    message = fault.message() if fault else ""
    if program and message != said.line:
        return report.of_difference(message, said.line), 2
    if fault:
        return lines + report.of_fault(fault, program and said.line) + (report.of_doubts(found.doubts, True) if found.doubts else []), 2
    accepts = f"wfprov accepts the files: {terminal.escaped(files.shown_command())}"
    lines.append(accepts if program else "Nothing is refused by the rules of docs/FORMATS.md.")
    told, status = beside(found.beside, program and said.answer) if found.beside else ([], 0)
    if status == 2:
        return told, status
    return lines + told + (report.of_doubts(found.doubts, False) if found.doubts else []), status or int(bool(found.doubts))


def beside(views, answer):
    """Returns the lines on two views that are accepted, and the status, with the answer of `compare`, or None where it was not asked."""
    own = views.answer()
    if answer is not None and coarse.without_run(answer) != own:
        return report.of_difference(", ".join(own), ", ".join(answer)), 2
    return report.of_views(views, answer or own), int(two_views.denies(own))


def work(words):
    lines, status = call.diagnosed(words, findings)
    terminal.write("\n".join(lines) + "\n")
    return status


if __name__ == "__main__":
    sys.exit(terminal.run("diagnose.py", __doc__, work))
