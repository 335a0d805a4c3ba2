#!/usr/bin/env python3
"""Runs a program over a stream that a shell cannot make, and ends as the program does: checks/edge.sh uses it.

    streams.py packets FILE PROGRAM WORDS    FILE comes through the standard input, and each read gives one byte of it
    streams.py late FILE PROGRAM WORDS       FILE comes after half a second, through a pipe whose readers do not wait
    streams.py terminal FILE PROGRAM WORDS   FILE is typed at a terminal that is the standard input, and then its end
    streams.py socket FILE PROGRAM WORDS     the standard input is a socket, with FILE
    streams.py unblocked PROGRAM WORDS       the standard output is a small pipe whose writers do not wait, read late
    streams.py stopped PROGRAM WORDS         the standard output is a small pipe, and the program is stopped while it writes

What the program writes is written on. A program that a signal ended gives 128 and the number of the signal, and one that does not end in 30 seconds is ended, and gives 124."""
import fcntl
import os
import signal
import socket
import subprocess
import sys
import threading
import time

SET_PIPE_SIZE = 1031
PAGE = 4096
SECONDS = 30


def ended(process):
    """The status of a program that ends, or is ended."""
    try:
        status = process.wait(SECONDS)
    except subprocess.TimeoutExpired:
        process.kill()
        process.wait()
        return 124
    return status if status >= 0 else 128 - status


def unblock(descriptor):
    """From now on no call on what is open there waits."""
    flags = fcntl.fcntl(descriptor, fcntl.F_GETFL)
    fcntl.fcntl(descriptor, fcntl.F_SETFL, flags | os.O_NONBLOCK)


def feed(descriptor, pieces, wait):
    """Writes the pieces, each by a call of its own, and closes the descriptor. A reader that goes ends it."""
    time.sleep(wait)
    try:
        for piece in pieces:
            os.write(descriptor, piece)
    except BrokenPipeError:
        pass
    os.close(descriptor)


def run_fed(words, reader, writer, pieces, wait=0.0):
    """Runs the program over the reader as its standard input, while the writer gets the pieces."""
    process = subprocess.Popen(words, stdin=reader)
    os.close(reader)
    feeding = threading.Thread(target=feed, args=(writer, pieces, wait))
    feeding.start()
    status = ended(process)
    feeding.join()
    return status


def run_packets(data, words):
    reader, writer = os.pipe2(os.O_DIRECT)
    return run_fed(words, reader, writer, [data[k:k + 1] for k in range(len(data))])


def run_late(data, words):
    reader, writer = os.pipe()
    unblock(reader)
    return run_fed(words, reader, writer, [data], 0.5)


def run_terminal(data, words):
    """An end that was typed ends one read: the terminal stays open, and can be read on."""
    keyboard, reader = os.openpty()
    process = subprocess.Popen(words, stdin=reader, start_new_session=True)
    os.write(keyboard, data + b'\x04')
    status = ended(process)
    os.close(reader)
    os.close(keyboard)
    return status


def run_socket(data, words):
    ours, theirs = socket.socketpair()
    return run_fed(words, theirs.detach(), ours.detach(), [data])


def drain(reader, begin):
    """Writes on what comes from the reader, a page after the other; begin is called before the first."""
    begin()
    while True:
        piece = os.read(reader, PAGE)
        if not piece:
            return
        sys.stdout.buffer.write(piece)
        sys.stdout.buffer.flush()


def run_unblocked(words):
    reader, writer = os.pipe()
    fcntl.fcntl(writer, SET_PIPE_SIZE, PAGE)
    unblock(writer)
    process = subprocess.Popen(words, stdout=writer)
    os.close(writer)
    drain(reader, lambda: time.sleep(0.5))
    return ended(process)


def run_stopped(words):
    reader, writer = os.pipe()
    fcntl.fcntl(writer, SET_PIPE_SIZE, PAGE)
    process = subprocess.Popen(words, stdout=writer)
    os.close(writer)

    def stop():
        for _ in range(5):
            time.sleep(0.05)
            process.send_signal(signal.SIGSTOP)
            time.sleep(0.05)
            process.send_signal(signal.SIGCONT)

    drain(reader, stop)
    return ended(process)


FED = {'packets': run_packets, 'late': run_late, 'terminal': run_terminal, 'socket': run_socket}
WRITING = {'unblocked': run_unblocked, 'stopped': run_stopped}


def main(words):
    if words[1:] == ['--help']:
        print(__doc__)
        return 0
    try:
        if len(words) > 3 and words[1] in FED:
            with open(words[2], 'rb') as source:
                return FED[words[1]](source.read(), words[3:])
        if len(words) > 2 and words[1] in WRITING:
            return WRITING[words[1]](words[2:])
    except OSError as error:
        print(f'streams.py: {words[1]}: {error}', file=sys.stderr)
        return 2
    print('streams.py: words: see --help', file=sys.stderr)
    return 2


if __name__ == '__main__':
    sys.exit(main(sys.argv))
