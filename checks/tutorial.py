#!/usr/bin/env python3
"""Runs the blocks of docs/TUTORIAL.md, or of another page, one after the other in one folder, and compares what they print.

  python3 checks/tutorial.py PROGRAM [--page PAGE] [--write]

A block of the kind `console` has commands behind `$ `, each followed by what it prints. A block of another kind that has a word behind
its kind, as `json spec`, is written to the file of this name, and prints nothing. With --write the page is given what the commands
printed. The last line is `N passed, M failed`, where a command or a file is one case, and the status is 1 where one failed. After two
minutes the commands are ended, and what was not run has failed. With docs/TUTORIAL.md the calls of the quick start of README.md are run too, with the
program in the place of both scripts.
"""
import os
import re
import signal
import subprocess
import sys
import tempfile

TOP = os.path.dirname(os.path.dirname(os.path.abspath(__file__)))
PAGE = os.path.join(TOP, "docs/TUTORIAL.md")
BLOCK = re.compile(r"^```(console|\w+ [\w.-]+)\n(.*?)^```$", re.M | re.S)
QUICK_START = re.compile(r"^```\n(git clone .*?)^```$.*?Both commands print (.*?), one a line\.", re.M | re.S)
MARK = "-- end of a command --"
SECONDS = 120


def commands_of(kind, block):
    """Yields the commands of a block, each with what it is to print."""
    if kind != "console":
        yield f"cat > {kind.split()[1]} <<'END'\n{block}END", ""
        return
    for part in re.split(r"^\$ ", block, flags=re.M)[1:]:
        command, _, printed = part.partition("\n")
        yield command, printed


def quick_start():
    """Yields the calls of the quick start of README.md, each with what the page says that it prints."""
    with open(os.path.join(TOP, "README.md"), encoding="utf-8") as file:
        block, words = QUICK_START.search(file.read()).groups()
    printed = "".join(f"{word}\n" for word in re.findall(r"`(\w+)`", words))
    yield from ((line, printed) for line in block.splitlines() if line.startswith("./"))


def run_all(commands, program):
    """Returns what each command prints, all of them in one shell and one folder."""
    with tempfile.TemporaryDirectory() as folder:
        for name in ("wfprov", "preview"):
            os.symlink(os.path.abspath(program), os.path.join(folder, name))
        for name in ("examples", "tools"):
            os.symlink(os.path.join(TOP, name), os.path.join(folder, name))
        script = "".join(f"{command}\necho '{MARK}'\n" for command in commands)
        settings = dict(os.environ, WFPROV=os.path.abspath(program), LC_ALL="C.UTF-8")
        pipes = dict.fromkeys(("stdin", "stdout"), subprocess.PIPE)
        shell = subprocess.Popen(["bash"], cwd=folder, env=settings, **pipes, stderr=subprocess.STDOUT, text=True, start_new_session=True)
        try:
            text, _ = shell.communicate(script, timeout=SECONDS)
        except subprocess.TimeoutExpired:
            os.killpg(shell.pid, signal.SIGKILL)
            text, _ = shell.communicate()
    return text.split(MARK + "\n")[: len(commands)]


def written(block, printed):
    """Returns a block with what its commands printed."""
    told = [(command, next(printed)) for command, _ in commands_of(block[1], block[2])]
    return block[0] if block[1] != "console" else "```console\n" + "".join(f"$ {command}\n{text}" for command, text in told) + "```"


def main(words):
    path = words[words.index("--page") + 1] if "--page" in words else PAGE
    with open(path, encoding="utf-8") as file:
        page = file.read()
    first = list(quick_start()) if path == PAGE and "--write" not in words else []
    cases = first + [case for kind, block in BLOCK.findall(page) for case in commands_of(kind, block)]
    printed = run_all([command for command, _ in cases], words[0])
    failed = 0
    for (command, wanted), got in zip(cases, printed + [""] * (len(cases) - len(printed))):
        if wanted == got:
            print(f"ok: {command.partition(chr(10))[0]}")
        else:
            failed += 1
            print(f"FAILED: {command}\n--- the page has\n{wanted}--- it printed\n{got}")
    if "--write" in words:
        told = iter(printed)
        page = BLOCK.sub(lambda block: written(block, told), page)
        with open(path, "w", encoding="utf-8") as file:
            file.write(page)
    print(f"{len(cases) - failed} passed, {failed} failed")
    return 1 if failed or not cases else 0


if __name__ == "__main__":
    sys.exit(main(sys.argv[1:]))
