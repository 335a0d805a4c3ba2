"""A run as a list of actions, and what `wfprov` reads of it: SPEC, EVENTS and a table of files. The importers are readers above it.

  model.py     what a record reports: actions, and the values that they used and made; what did not happen is left out
  parts.py     parts of a run and how they are wired: modules, bodies, and the modules that copy, gather and close
  cutting.py   which actions stand in which body, so that no limit is passed and no answer changes
  writing.py   the texts: SPEC, EVENTS, the table

It knows no workflow document, so it cannot contradict its record.
"""
from actions.model import Action, Record, Value
from actions.writing import Imported, imported

__all__ = ["Action", "Imported", "Record", "Value", "imported"]
