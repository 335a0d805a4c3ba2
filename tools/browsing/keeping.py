"""An answer that is kept: the page that page.py makes of its question."""
import os
import shlex
import subprocess
import sys
import tempfile

import page
import terminal
from terminal import Wrong


def page_of(program, view, first, second):
    """Returns the page of a question under a view. The file of the question is called `question` on it."""
    files = [program.spec, view, program.events]
    with tempfile.NamedTemporaryFile(prefix="question-") as question:
        question.write(f"{first} {second}\n".encode("utf-8", "backslashreplace"))
        question.flush()
        words = [sys.executable, os.path.join(page.HERE, "page.py"), *(file.path for file in files), question.name]
        made = subprocess.run(words, env={**os.environ, "WFPROV": program.path}, stdin=subprocess.DEVNULL, capture_output=True, check=False)
    if made.returncode:
        raise Wrong(terminal.ended(made.stderr, made.returncode))
    for file in files:
        if file.has_changed():
            raise Wrong(f"{file.path} has changed since it was read; start the tool again for a page of the new one")
    text = made.stdout.decode()
    for name in (page.plain(shlex.quote(question.name)), page.plain(question.name)):
        text = text.replace(name, "question")
    return text
