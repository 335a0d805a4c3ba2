"""A page for one reviewer on one machine, on which questions about a run are asked by clicks. tools/browse.py opens it.

| Module | What stands there |
|---|---|
| `given` | the files of the call, kept as they were when they were read |
| `program` | the program on these files: one `ask` for each view that is kept open, and calls of the other commands |
| `items` | the items that a view shows, and a search among them |
| `links` | the links that a view shows, by their ends, and those around some items |
| `drawing` | a picture of links, in which items can be clicked |
| `answers` | the answer to a question with its reason, what an item rests on and what rests on it, each in words |
| `markup` | the page |
| `style` | the style of the page |
| `keeping` | an answer that is kept, as a page of page.py |
| `desk` | which page or refusal a request gets |
| `guard` | which requests are heard at all |
| `serving` | the server, and what ends it |
"""
