"""What the scripts of this folder share: running the program, and timing other work beside it."""

import argparse
import json
import os
import subprocess
import sys
import tempfile
import time
from pathlib import Path

PROGRAM = Path(__file__).resolve().parent.parent / "crates/wfprov/out/wfprov"


def built(path):
    """The whole path of the program, which must be built."""
    program = str(Path(path).resolve())
    if not os.access(program, os.X_OK):
        sys.exit(f"{program} is not built; call ./wfprov once")
    return program


def called(about, small):
    """The program and whether the runs are to be small, by the words that a script is called with."""
    words = argparse.ArgumentParser(description=about.splitlines()[0])
    words.add_argument("--small", action="store_true", help=small)
    words.add_argument("--program", default=str(PROGRAM))
    args = words.parse_args()
    return built(args.program), args.small


def run(words, folder, wanted=0):
    """Runs a command, which must end with a status. Gives the seconds, the peak of memory in bytes, and both texts."""
    seconds, peak, out, message = run_for_bytes(words, folder, wanted)
    return seconds, peak, out.decode(), message


def run_for_bytes(words, folder, wanted=0):
    """The same, where what the command writes is no text."""
    used, out, message = run_for_use(words, folder, wanted)
    return used["seconds"], used["peak"], out, message


def run_for_use(words, folder, wanted=0):
    """The same, with the seconds, those of the processor and the peak of memory by their names, and then both texts.

    The command is started by a small process of its own: the system counts to the peak of a process what the one that
    started it held, and a script that made large files holds much.
    """
    with tempfile.TemporaryFile() as out, tempfile.TemporaryFile() as err, tempfile.TemporaryFile() as told:
        starter = [sys.executable, str(Path(__file__).resolve()), str(told.fileno()), *words]
        subprocess.run(starter, cwd=folder, stdout=out, stderr=err, pass_fds=[told.fileno()], check=True)
        out.seek(0)
        err.seek(0)
        told.seek(0)
        used = json.load(told)
        message = err.read().decode()
        if used["status"] != wanted:
            sys.exit(f"{' '.join(words)} ended with {used['status']}, and not with {wanted}: {message}")
        return used, out.read(), message


def start(told, words):
    """Runs a command, and writes what it used to an open file: seconds, seconds of the processor, bytes of memory at most, and its status."""
    begun = time.perf_counter()
    child = subprocess.Popen(words)
    _, status, usage = os.wait4(child.pid, 0)
    seconds = time.perf_counter() - begun
    child.returncode = os.waitstatus_to_exitcode(status)
    used = {
        "seconds": seconds,
        "processor": usage.ru_utime + usage.ru_stime,
        "peak": usage.ru_maxrss * 1024,
        "status": child.returncode,
    }
    os.write(told, json.dumps(used).encode())


def clock(work):
    """The least time of three tries."""
    best = None
    for _ in range(3):
        begun = time.perf_counter()
        work()
        seconds = time.perf_counter() - begun
        best = seconds if best is None else min(best, seconds)
    return best


def read_lines(path):
    """Reads each line as JSON."""
    with open(path, "rb") as lines:
        for line in lines:
            json.loads(line)


def others(path, reader):
    """The seconds that other programs take on a file: `wc -l`, `sha256sum`, and Python's JSON reader by this function."""
    return {
        "wc -l": clock(lambda: subprocess.run(["wc", "-l", path], stdout=subprocess.DEVNULL, check=True)),
        "sha256sum": clock(lambda: subprocess.run(["sha256sum", path], stdout=subprocess.DEVNULL, check=True)),
        "Python's JSON reader": clock(lambda: reader(path)),
    }


if __name__ == "__main__":
    start(int(sys.argv[1]), sys.argv[2:])
