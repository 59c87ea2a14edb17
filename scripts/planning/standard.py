"""Standard output and standard error."""

import os
import re

from .failed import failed

OUTPUT = "standard output"
# What would end a line, or move a terminal's cursor.
CONTROL = re.compile("[\x00-\x1f\x7f-\x9f\u2028\u2029]")


def hold():
    """A standard file that is closed must not become another file of ours: reads and writes on it fail."""
    for number, mode in ((0, os.O_WRONLY), (1, os.O_RDONLY), (2, os.O_WRONLY)):
        try:
            os.fstat(number)
        except OSError:
            os.open(os.devnull, mode)


def put(descriptor, data, name):
    """Writes all of the data."""
    left = memoryview(data)
    try:
        while left:
            left = left[os.write(descriptor, left) :]
    except OSError as error:
        raise failed(name, error) from None


def write(data):
    put(1, data, OUTPUT)


def encoded(text):
    """Names of files go out as they came in."""
    return text.encode("utf-8", "surrogateescape")


def rows(lines):
    """Lines as they are printed: whatever a file's name holds, each stays one line."""
    return encoded("".join(CONTROL.sub("?", line) + "\n" for line in lines))


def say(*lines):
    """Words on standard error; nobody is told where that fails."""
    left = rows(lines)
    try:
        while left:
            left = left[os.write(2, left) :]
    except OSError:
        pass


def is_terminal(number):
    try:
        return os.isatty(number)
    except OSError:
        return False
