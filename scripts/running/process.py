"""How a program is started: on a file, through a pipe in pieces, with a read or a write that fails."""

import fcntl
import os
import resource
import socket
import struct
import subprocess
import sys
import tempfile
import termios
import time
from collections import namedtuple

# What a program printed, whether it ended by itself, what it said on standard error, and its CPU seconds.
Ended = namedtuple("Ended", "printed well said seconds")


def programs(root, arguments):
    """The paths of `replay`, `press` and the peer: those named, else this tree's."""
    names = ["target/bin/replay", "target/bin/press", "peer/target/peer"][len(arguments) :]
    paths = [os.path.abspath(path) for path in arguments + [os.path.join(root, name) for name in names]]
    for path in paths:
        if not os.access(path, os.X_OK):
            sys.exit(f"there is no program {path}")
    return paths


def start(command, stdin, stdout, before=lambda: None):
    """Starts a program; `before` is done in its process before it. After a minute of CPU time it is ended by a signal."""

    def prepare():
        resource.setrlimit(resource.RLIMIT_CPU, (60, 60))
        before()

    # SIGPIPE stays ignored, as Python has it: a write to a pipe without a reader fails and ends nobody.
    errors = tempfile.TemporaryFile()
    process = subprocess.Popen(command, stdin=stdin, stdout=stdout, stderr=errors, preexec_fn=prepare, restore_signals=False)
    process.errors = errors
    return process


def end(process, printed=b""):
    if process.stdout:
        printed += process.stdout.read()
        process.stdout.close()
    _, status, usage = os.wait4(process.pid, 0)
    process.returncode = os.waitstatus_to_exitcode(status)
    process.errors.seek(0)
    said = process.errors.read()
    process.errors.close()
    return Ended(printed, process.returncode == 0, said, usage.ru_utime + usage.ru_stime)


def on_file(command, data, stdout=subprocess.PIPE, before=lambda: None):
    with tempfile.TemporaryFile() as file:
        file.write(data)
        file.seek(0)
        return end(start(command, file, stdout, before))


def on_folder(command):
    """Standard input is a folder: the first read fails."""
    folder = os.open("/", os.O_RDONLY)
    try:
        return end(start(command, folder, subprocess.PIPE))
    finally:
        os.close(folder)


def on_nothing(command):
    """Standard input is closed."""
    return end(start(command, subprocess.DEVNULL, subprocess.PIPE, lambda: os.close(0)))


def untaken(pipe):
    """How many bytes of a pipe nobody has read yet."""
    return struct.unpack("i", fcntl.ioctl(pipe, termios.FIONREAD, b"\0" * 4))[0]


def in_pieces(command, data, size):
    """Through a pipe, each piece handed over when the one before was read; and how many bytes could be handed over."""
    process = start(command, subprocess.PIPE, subprocess.PIPE)
    pipe, given = process.stdin.fileno(), 0
    try:
        while given < len(data):
            given += os.write(pipe, data[given : given + size])
            while untaken(pipe) and os.waitid(os.P_PID, process.pid, os.WEXITED | os.WNOHANG | os.WNOWAIT) is None:
                time.sleep(0.00005)
    except BrokenPipeError:
        pass
    process.stdin.close()
    return end(process), given


def through_socket(command, data, fails):
    """Through a socket, which ends after the data, or fails: closed while bytes wait for its own end to read, it resets the other."""
    theirs, ours = socket.socketpair(socket.AF_UNIX, socket.SOCK_STREAM)
    if fails:
        theirs.send(b"x")
    process = start(command, theirs.fileno(), subprocess.PIPE)
    theirs.close()
    try:
        ours.sendall(data)
    except BrokenPipeError:
        pass
    ours.close()
    return end(process)


def to_closed(command, data):
    """Standard output is closed."""
    return on_file(command, data, subprocess.DEVNULL, lambda: os.close(1))


def to_full(command, data):
    """Every write fails: the device is full."""
    with open("/dev/full", "wb") as full:
        return on_file(command, data, full)


def to_nobody(command, data, first=0):
    """A pipe whose reader goes when it has read so many bytes."""
    with tempfile.TemporaryFile() as file:
        file.write(data)
        file.seek(0)
        reader, writer = os.pipe()
        if first == 0:
            os.close(reader)
        process = start(command, file, writer)
        os.close(writer)
        printed = b""
        while len(printed) < first:
            more = os.read(reader, first - len(printed))
            if not more:
                break
            printed += more
        if first:
            os.close(reader)
        return end(process, printed)
