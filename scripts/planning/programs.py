"""The verified programs `press` and `replay`: where they are, and how they are fed and read."""

import os
import select
import subprocess
from collections import deque

from .failed import Failed, undisturbed

BLOCK = 1 << 16
# Pieces that wait for a program before the one that makes them is asked for more.
MOST_WAITING = 16
# Bytes of a program's standard error that are shown.
MOST_WORDS = 300
SCRIPTS = os.path.dirname(os.path.dirname(os.path.realpath(__file__)))

# Programs that were started and not ended yet.
running = []


def folder():
    """Where the programs are: as named, else those of the installation or of the source tree that this file is in."""
    installed = os.path.exists(os.path.join(SCRIPTS, "VERSION"))
    own = os.path.join(SCRIPTS, *(("..", "..", "bin") if installed else ("..", "target", "bin")))
    return os.environ.get("CEILING_PROGRAMS") or os.path.normpath(own)


def find(name):
    path = os.path.join(folder(), name)
    if os.path.isfile(path) and os.access(path, os.X_OK):
        return path
    raise Failed(f"there is no program {name} in {folder()}: build it with `scripts/build press replay` in the source tree")


class Program:
    """A program that is handed pieces and whose printing is taken, both at the same time."""

    def __init__(self, name, source, take, over=lambda: None, more=False):
        """The source's pieces are handed over first, then what `hand` brings while there is more. `over` is called when all is printed."""
        self.name, self.source, self.take, self.over, self.more = name, iter(source), take, over, more
        self.handed = False
        self.waiting = deque()
        self.left = b""
        self.words = b""
        path = find(name)
        pipe = subprocess.PIPE
        try:
            with undisturbed():
                self.process = subprocess.Popen([path], stdin=pipe, stdout=pipe, stderr=pipe, bufsize=0, start_new_session=True)
                running.append(self)
        except OSError as error:
            raise Failed(f"{path}: {error.strerror}") from None
        os.set_blocking(self.process.stdin.fileno(), False)

    def hand(self, data):
        if not self.process.stdin.closed:
            self.waiting.append(data)

    def is_full(self):
        return len(self.waiting) >= MOST_WAITING

    def feed(self):
        """Hands over what there is; a program that takes no more is no error."""
        if not self.left:
            self.left = memoryview(self.next_piece())
        try:
            if self.left:
                self.left = self.left[os.write(self.process.stdin.fileno(), self.left[:BLOCK]) :]
            elif not self.more:
                self.close()
        except BlockingIOError:
            pass
        except BrokenPipeError:
            self.close()

    def next_piece(self):
        """The next piece that is not empty, or none."""
        for piece in self.source:
            if piece:
                return piece
        self.handed = True
        return self.waiting.popleft() if self.waiting else b""

    def close(self):
        self.process.stdin.close()
        self.waiting.clear()
        self.left = b""

    def wants(self):
        """Whether there is something to hand over, or the end of it."""
        return not self.process.stdin.closed and (self.left or self.waiting or not self.handed or not self.more)

    def read(self, stream):
        data = os.read(stream.fileno(), BLOCK)
        if not data:
            stream.close()
            if stream is self.process.stdout:
                self.over()
        elif stream is self.process.stderr:
            self.words = (self.words + data)[:MOST_WORDS]
        else:
            self.take(data)

    def end(self):
        """Waits for the program; it must have ended by itself and without a word on standard error."""
        if not self.process.stdin.closed:
            self.close()
        status = self.process.wait()
        running.remove(self)
        if status != 0 or self.words:
            words = " ".join(self.words.decode("utf-8", "replace").split())
            ended = f"it was ended by signal {-status}" if status < 0 else f"its exit status is {status}"
            raise Failed(f"{self.name} did not end as it should: {words or ended}")


def wait_for(readers, writers):
    """The streams that can be read or written to; descriptors may have any number."""
    poll = select.poll()
    for streams, event in ((readers, select.POLLIN), (writers, select.POLLOUT)):
        for stream in streams:
            poll.register(stream, event)
    found = {number for number, _ in poll.poll()}
    return {stream for stream in (*readers, *writers) if stream.fileno() in found}


def converse(programs):
    """Feeds and reads the programs of a list until all have ended; the list may grow meanwhile."""
    while True:
        readers = {}
        for at, program in enumerate(programs):
            # A program's printing is left alone while the next one has enough to do.
            full = any(other.is_full() for other in programs[at + 1 :])
            streams = [program.process.stderr] + ([] if full else [program.process.stdout])
            readers.update({stream: program for stream in streams if not stream.closed})
        if not readers:
            break
        writers = {program.process.stdin: program for program in programs if program.wants()}
        ready = wait_for(readers, writers)
        for stream in filter(ready.__contains__, readers):
            readers[stream].read(stream)
        for stream in filter(ready.__contains__, writers):
            writers[stream].feed()
    for program in programs:
        program.end()


def end_running():
    """Ends the programs that are still there."""
    for program in running:
        program.process.kill()
        program.process.wait()
    running.clear()
