"""What ends a command with exit status 2, and signals."""

import contextlib
import signal

SIGNALS = (signal.SIGINT, signal.SIGTERM, signal.SIGHUP)


class Failed(Exception):
    """A file that could not be read or written, a program that is missing or did not end by itself, or a command line that does not fit its files."""


def failed(name, error):
    """The failure of an operation on a file."""
    return Failed(f"{name}: {error.strerror or error}")


class Interrupted(BaseException):
    """A signal asked for the end."""

    def __init__(self, number):
        super().__init__(number)
        self.number = number


class Waiting:
    """A signal that came while it had to wait."""

    held = False
    number = None


def catch_signals():
    """From now on a signal raises Interrupted, but one that is ignored stays ignored."""
    for number in SIGNALS:
        if signal.getsignal(number) is not signal.SIG_IGN:
            signal.signal(number, interrupt)


def interrupt(number, frame):
    if Waiting.held:
        Waiting.number = number
        return
    ignore_signals()
    raise Interrupted(number)


def ignore_signals():
    """From now on nothing is interrupted, by a signal that waits neither."""
    for number in SIGNALS:
        signal.signal(number, signal.SIG_IGN)
    Waiting.number = None


@contextlib.contextmanager
def undisturbed():
    """A signal waits until the block is done."""
    Waiting.held = True
    try:
        yield
    finally:
        Waiting.held = False
        number, Waiting.number = Waiting.number, None
        if number is not None:
            interrupt(number, None)
