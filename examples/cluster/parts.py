#!/usr/bin/env python3
"""Cuts the questions on a run into parts, answers a part, and puts the answers together: the work that an engine spreads over machines.

  python3 parts.py cut FOLDER SPEC VIEW LABELS QUERIES LINES   cuts QUERIES into parts of so many lines, each a job in FOLDER
  python3 parts.py left FOLDER                                 writes the names of the jobs of FOLDER that are not done, one a line
  python3 parts.py needs JOB ..                                writes how many megabytes and minutes each of these jobs takes at most
  python3 parts.py answer JOB                                  does a job
  python3 parts.py join FOLDER                                 puts the answers of the parts together
  python3 parts.py tell DONE                                   writes text and message of a job or of the whole, and ends as `ask` does

A JOB is a folder with the file `queries`. Of the files `spec`, `view` and `labels` it takes its own, and that of the folder in which it lies
where it has none. A job with `events` of its own is labelled first. For one without `labels` of its own, the entries that it needs are picked
out of those of its folder. So FOLDER is a run that was cut into parts, or many runs, a job each. The name of a job has letters, digits,
`_`, `-` and `.`.

A job that is done has two more files: `answers`, the text of `ask`, and `told`, its status and its message. `told` comes last and whole: a
job that dies has none, and is left to be done again. To do a job twice, or two times at once, does no harm. A job is also done where
`ask` refuses something, as a line that is no question. Where `ask` ends in another way the job has failed, and `answer` ends with 2.

`join` puts the same two files into FOLDER. They are those of one `ask SPEC VIEW LABELS QUERIES`, also where a line is refused. Of LABELS the
parts see the head, that each entry is whole, and the entries that questions name: what is wrong with another one is not found. LABELS and
QUERIES may each be longer than one `ask` takes. All parts answer from the same bytes of LABELS: a part that meets others fails.

The program is the one that the variable WFPROV names, or the one that is built in this repository, or the first `wfprov` in PATH. This
tool is no part of what is proved. It needs Python's standard library, and the folder tools of this repository.
"""
import signal
import sys

import jobs
import cutting
import joining
import terminal


def work(words):
    """Does what the words ask for."""
    signal.signal(signal.SIGTERM, lambda *_: sys.exit(143))
    command, given = words[:1], words[1:]
    if command == ["cut"] and len(given) == 6:
        cutting.cut(*given)
    elif command == ["left"] and len(given) == 1:
        terminal.write("".join(name + "\n" for name in jobs.left(given[0])))
    elif command == ["needs"] and given:
        told = [jobs.needs(job) for job in given]
        terminal.write(f"{max(megabytes for megabytes, _ in told)} {max(minutes for _, minutes in told)}\n")
    elif command in (["answer"], ["join"], ["tell"]) and len(given) == 1:
        return {"answer": jobs.answer, "join": joining.join, "tell": joining.tell}[command[0]](given[0])
    else:
        raise terminal.Wrong("call: the words are cut FOLDER SPEC VIEW LABELS QUERIES LINES, or left, needs, answer, join or tell with a folder; see --help")
    return 0


if __name__ == "__main__":
    sys.exit(terminal.run("parts.py", __doc__, work))
