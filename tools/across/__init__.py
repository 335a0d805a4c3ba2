"""Runs that are kept in one folder, and questions over all of them. tools/runs.py is the call.

  keeping.py    what is kept of a run, how a run is added, and whether it is as it was
  contents.py   which files have one content, and what a name means over all runs
  asking.py     what `wfprov` answers of the files of a run, many runs side by side
  search.py     what rests on a file, or on what it rests, from run to run
"""
