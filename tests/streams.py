#!/usr/bin/env python3
"""Runs a program on a stream that a shell can't make, with the default of each signal.

    tests/streams.py HOW COMMAND..

writes what the command writes, and ends with its status: 128 + N if signal N ended it, 124 if it didn't end in time.
"""
import array
import fcntl
import os
import resource
import signal
import socket
import subprocess
import sys
import termios
import time

SECONDS = 60
# An input that isn't whole yet.
BEGUN = b"match,1\napplicant,a\n"
# How long a command works before it gets a signal.
WORKS = 0.5


def take_defaults():
    """Gives each signal its default, and lets no signal dump a core."""
    for name in ("SIGHUP", "SIGINT", "SIGQUIT", "SIGTERM", "SIGPIPE", "SIGXFSZ"):
        signal.signal(getattr(signal, name), signal.SIG_DFL)
    resource.setrlimit(resource.RLIMIT_CORE, (0, 0))


def started(command, **options):
    """The command, in a process of its own."""
    options = {"stdin": subprocess.DEVNULL, "stdout": subprocess.PIPE, **options}
    return subprocess.Popen(command, preexec_fn=take_defaults, **options)


def status_of(process):
    """What it writes, and its status."""
    try:
        text = process.communicate(timeout=SECONDS)[0] or b""
    except subprocess.TimeoutExpired:
        process.kill()
        return process.communicate()[0] or b"", 124
    return text, process.returncode if process.returncode >= 0 else 128 - process.returncode


def ended(command):
    """With no standard input."""
    return status_of(started(command))


def held_input(command):
    """A command that has read BEGUN from a pipe and waits for more, with the write end of the pipe."""
    reader, writer = os.pipe()
    os.write(writer, BEGUN)
    process, waiting = started(command, stdin=reader), array.array("i", [1])
    for _ in range(100 * SECONDS):
        fcntl.ioctl(reader, termios.FIONREAD, waiting)
        if waiting[0] == 0:
            break
        time.sleep(0.01)
    os.close(reader)
    return process, writer


def signalled_while_reading(command, name):
    """The signal comes while it waits for more of its standard input."""
    process, writer = held_input(command)
    process.send_signal(getattr(signal, name))
    result = status_of(process)
    os.close(writer)
    return result


def signalled_at_work(command, name):
    """The signal comes after WORKS seconds."""
    process = started(command)
    time.sleep(WORKS)
    process.send_signal(getattr(signal, name))
    return status_of(process)


def nonblocking_input(command):
    """Standard input is a pipe that is read without waiting, and has BEGUN."""
    reader, writer = os.pipe()
    os.write(writer, BEGUN)
    os.set_blocking(reader, False)
    result = status_of(started(command, stdin=reader))
    os.close(writer)
    return result


def nonblocking_output(command):
    """Standard output is a pipe that is written without waiting, and that nobody reads until the command has ended."""
    reader, writer = os.pipe()
    os.set_blocking(writer, False)
    process = started(command, stdout=writer)
    _, status = status_of(process)
    os.close(writer)
    with open(reader, "rb") as pipe:
        return pipe.read(), status


def socket_input(command):
    """Standard input is a socket, which gives what this script's own standard input has."""
    ours, theirs = socket.socketpair()
    process = started(command, stdin=theirs)
    theirs.close()
    ours.sendall(sys.stdin.buffer.read())
    ours.shutdown(socket.SHUT_WR)
    return status_of(process)


def main():
    how, *command = sys.argv[1:]
    if how.startswith("SIG"):
        name, how = how.split(":")
        text, status = {"reading": signalled_while_reading, "work": signalled_at_work}[how](command, name)
    else:
        ways = (ended, nonblocking_input, nonblocking_output, socket_input)
        text, status = {way.__name__: way for way in ways}[how](command)
    sys.stdout.buffer.write(text)
    sys.stdout.flush()
    sys.exit(status)


if __name__ == "__main__":
    main()
