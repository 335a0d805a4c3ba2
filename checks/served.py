#!/usr/bin/env python3
"""Keeps a tool loaded, and does each call of it in a process that is forked: a call takes less time than to start Python for it.

  python3 checks/served.py TOOL CALLS ENDED

CALLS and ENDED are named pipes. A call is written to CALLS: the number of its words, the number of a process, what the variable WFPROV is,
and the words, with a zero byte behind each. Its standard output and error are the descriptors 6 and 7 of that process, and its standard
input is empty. Its status is written to ENDED as a line. It ends when no process has CALLS open for writing any more.
"""
import importlib.util
import os
import sys

PIECE = 1 << 16
OUT, ERR = 6, 7


def tool_at(path):
    """Returns the tool of a file as a module."""
    made = importlib.util.spec_from_file_location(os.path.basename(path).removesuffix(".py"), path)
    tool = importlib.util.module_from_spec(made)
    made.loader.exec_module(tool)
    return tool


def calls_in(descriptor):
    """Yields the calls: a process, a program, and words."""
    fields, rest = [], b""
    while piece := os.read(descriptor, PIECE):
        *whole, rest = (rest + piece).split(b"\0")
        fields += map(os.fsdecode, whole)
        while fields and len(fields) >= 3 + int(fields[0]):
            count = 3 + int(fields[0])
            yield fields[1], fields[2], fields[3:count]
            del fields[:count]


def do(tool, process, program, words):
    """Does a call in place of this process, and returns its status."""
    streams = [os.open(os.devnull, os.O_RDONLY)]
    streams += [os.open(f"/proc/{process}/fd/{number}", os.O_WRONLY | os.O_APPEND) for number in (OUT, ERR)]
    for number, stream in enumerate(streams):
        os.dup2(stream, number)
        os.close(stream)
    os.environ["WFPROV"] = program
    sys.argv[1:] = words
    return tool.terminal.run(f"{tool.__name__}.py", tool.__doc__, tool.work)


def main(words):
    tool, ended = tool_at(words[0]), os.open(words[2], os.O_RDWR)
    for call in calls_in(os.open(words[1], os.O_RDONLY)):
        child = os.fork()
        if child == 0:
            status = 99
            try:
                status = do(tool, *call)
            finally:
                os._exit(status)
        _, status = os.waitpid(child, 0)
        os.write(ended, f"{os.waitstatus_to_exitcode(status)}\n".encode())
    return 0


if __name__ == "__main__":
    sys.exit(main(sys.argv[1:]))
