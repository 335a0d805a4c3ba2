"""The rules of docs/FORMATS.md, tried once more in Python, so that a refusal of `wfprov` can be explained.

Nothing here stands on the program: each file is read, and the rules are tried in their order, by what docs/FORMATS.md says of them.
Where the first broken rule is found, a `Fault` says what the program says of it (the kind and the place), and what a reader needs:
where in the file, what is wrong by name, and what mends it. tools/diagnose.py runs the program and this package, and compares.

| Module | What stands there |
|---|---|
| `faults` | what is said of a fault, and of what is accepted and surely not meant |
| `files` | a file, its lines and its places |
| `kinds` | what a file is that was given in the place of another |
| `forms` | what JSON values SPEC, VIEW and the lines of EVENTS are |
| `words` | names in messages, and names that are near |
| `grammars` | a specification whose rules of form hold, by names |
| `modules` | the rules on modules, productions and their names |
| `links` | the rules on links, pairs and versions |
| `graphs` | which nodes of a graph lead back to themselves |
| `loops` | the rules on what a module leads to: it is reached, it ends, it leads back in one way |
| `views` | the rules on a view, and how its parts are written |
| `pairs` | which inputs and outputs an expansion joins, and whether a view is safe |
| `coarse` | the rule on a coarser view, and what `compare` answers |
| `automata` | the rules on an automaton |
| `lifted` | a grammar and a view in which each port stands once for each state of an automaton |
| `pictures` | two expansions that disagree, as text |
| `runs` | the rules on reports |
| `label_files` | the rules on a label file |
| `packages` | the rules on a package, and on a label over one |
| `questions` | the rules on queries |
| `lines` | the lines of EVENTS and QUERIES, and what is refused before they are read |
| `specs` | a specification and a view, up to their first faults |
| `doubts` | what is accepted and surely not meant |
| `call` | which files a call has, and what the program says of them |
| `finding` | what this package finds in the files of a call |
| `report` | what is said of all this, as lines of text |
"""
