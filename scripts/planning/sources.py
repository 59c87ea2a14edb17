"""Input files, read by their place as often as asked."""

import os
import stat
import tempfile

from picturing.case import MOST_BYTES

from .failed import Failed, failed
from .unfit import Unfit

BLOCK = 1 << 16
# Bytes of a stream that are kept in memory; more are kept in a temporary file.
IN_MEMORY = 1 << 20
# Bytes of a stream that are kept at all.
MOST_KEPT = 1 << 30
# No file of other programs that a case could be made of is longer.
MOST = 1 << 26


def state(found):
    """What tells a file from what it was before."""
    return found.st_size, found.st_mtime_ns


def changed(source):
    return Failed(f"{source.label}: changed while it was read")


class Source:
    """A file by name, or standard input. A stream is kept as far as it was read; read once, only its front is."""

    def __init__(self, name, once=False):
        self.name, self.once = name, once
        self.label = "standard input" if name == "-" else name
        self.kept = None
        self.first = None
        try:
            self.file = open(0, "rb", buffering=0, closefd=False) if name == "-" else open(name, "rb", buffering=0)
            self.descriptor = self.file.fileno()
            found = os.fstat(self.descriptor)
            self.state = state(found)
            regular = stat.S_ISREG(found.st_mode)
            self.start = os.lseek(self.descriptor, 0, os.SEEK_CUR) if regular else 0
        except OSError as error:
            raise failed(self.label, error) from None
        if not regular:
            self.kept, self.length = tempfile.SpooledTemporaryFile(IN_MEMORY), 0

    def front(self):
        """So many bytes that every case is shorter, or the whole file; read once."""
        if self.first is None:
            self.first = b"".join(self.blocks(0, MOST_BYTES + 1))
        return self.first

    def chunks(self):
        """The whole file in pieces, the front as it was read."""
        front = self.front()
        yield front
        if len(front) > MOST_BYTES:
            yield from self.blocks(len(front), None)

    def blocks(self, at, end):
        """The bytes from one place to another, or to the file's end, in pieces."""
        while end is None or at < end:
            data = self.read(at, BLOCK if end is None else min(BLOCK, end - at))
            if not data:
                return
            yield data
            at += len(data)

    def read(self, at, size):
        """Bytes at a place, fewer perhaps; none at the end."""
        try:
            if self.kept is None:
                return os.pread(self.descriptor, size, self.start + at)
            if self.once:
                return os.read(self.descriptor, size)
            while self.length < at + size and self.keep():
                pass
            self.kept.seek(at)
            return self.kept.read(size)
        except OSError as error:
            raise failed(self.label, error) from None

    def keep(self):
        """Reads more of the stream and keeps it; whether there was more."""
        data = os.read(self.descriptor, BLOCK)
        if self.length + len(data) > MOST_KEPT:
            raise Unfit(f"{self.label}: longer than {MOST_KEPT:,} bytes, which is the most that is kept of a stream; save it as a file")
        self.kept.seek(self.length)
        self.kept.write(data)
        self.length += len(data)
        return bool(data)

    def same(self):
        """Fails where a file that is read by place has changed meanwhile: what was read twice may not be the same."""
        try:
            same = self.kept is not None or state(os.fstat(self.descriptor)) == self.state
        except OSError as error:
            raise failed(self.label, error) from None
        if not same:
            raise changed(self)

    def whole(self, most=MOST):
        """All bytes of a file that is not too long."""
        data = b"".join(self.blocks(0, most + 1))
        if len(data) > most:
            raise Unfit(f"{self.label}: the file is longer than {most:,} bytes")
        return data


class Longer:
    """A source with more bytes at its end."""

    def __init__(self, source, size, more):
        self.source, self.size, self.more = source, size, more
        self.label = source.label

    def front(self):
        front = self.source.front()
        return front + self.more if len(front) == self.size else front

    def blocks(self, at, end):
        for data in self.source.blocks(at, end):
            yield data
            at += len(data)
        yield self.more[at - self.size : None if end is None else max(end - self.size, 0)]


def read(name, most):
    """All bytes of a file that is not too long, and its name in words; nothing is left open."""
    source = Source(name)
    try:
        return source.label, source.whole(most)
    finally:
        source.file.close()
