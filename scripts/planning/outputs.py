"""Results that are complete or absent."""

import errno
import os
import re
import stat
import tempfile

from . import standard
from .failed import Failed, failed, ignore_signals, undisturbed

# Names of what is open already: written to as it stands.
OPEN = re.compile(r"/dev/(?:stdout|(stderr)|fd/([0-9]{1,9}))")
# Files that are not in place yet.
unfinished = set()


def output(name):
    """Where a result goes: standard output, a file that is put in place when it is complete, or a device."""
    if name in (None, "-"):
        return Direct(1, standard.OUTPUT)
    opened = OPEN.fullmatch(name)
    if opened:
        return Direct(int(opened[2] or 1 + bool(opened[1])), name)
    try:
        found = os.stat(name)
    except FileNotFoundError:
        found = None
    except OSError as error:
        raise failed(name, error) from None
    path = os.path.realpath(name)
    if found and (not stat.S_ISREG(found.st_mode) or not same(path, found)):
        return device(name)
    if not name or name.endswith("/"):
        raise Failed(f"{name}: no name of a file")
    return File(name, path, found)


def same(path, found):
    try:
        return os.path.samestat(os.stat(path), found)
    except OSError:
        return False


def device(name):
    try:
        return Direct(os.open(name, os.O_WRONLY), name)
    except OSError as error:
        raise failed(name, error) from None


class Direct:
    """Standard output, a device or a pipe: written as it comes."""

    def __init__(self, descriptor, name):
        self.descriptor, self.name = descriptor, name

    def write(self, data):
        standard.put(self.descriptor, data, self.name)

    def finish(self):
        pass

    def place(self):
        pass


class File:
    """A temporary file in the same folder, which takes the name in the end."""

    def __init__(self, name, path, found):
        self.name, self.path = name, path
        try:
            if found and not os.access(path, os.W_OK):
                raise PermissionError(errno.EACCES, os.strerror(errno.EACCES))
            with undisturbed():
                self.descriptor, self.temporary = tempfile.mkstemp(".part", ".ceiling.", os.path.dirname(path))
                unfinished.add(self)
            os.fchmod(self.descriptor, stat.S_IMODE(found.st_mode) if found else 0o666 & ~umask())
        except OSError as error:
            raise failed(name, error) from None

    def write(self, data):
        standard.put(self.descriptor, data, self.name)

    def finish(self):
        """All bytes are on the disk."""
        try:
            os.fsync(self.descriptor)
        except OSError as error:
            raise failed(self.name, error) from None

    def place(self):
        try:
            os.replace(self.temporary, self.path)
        except OSError as error:
            raise failed(self.name, error) from None
        unfinished.discard(self)
        os.close(self.descriptor)
        flush_folder(os.path.dirname(self.path))


def remove_unfinished():
    for result in unfinished:
        os.close(result.descriptor)
        try:
            os.unlink(result.temporary)
        except OSError:
            pass
    unfinished.clear()


def umask():
    mask = os.umask(0o077)
    os.umask(mask)
    return mask


def flush_folder(path):
    """The new name is on the disk too, where the system can say so."""
    try:
        folder = os.open(path, os.O_RDONLY)
    except OSError:
        return
    try:
        os.fsync(folder)
    except OSError:
        pass
    finally:
        os.close(folder)


def put_in_place(*results):
    """All of the results, or none as far as the system can. Once they are there, no signal says otherwise."""
    for result in results:
        result.finish()
    with undisturbed():
        for result in results:
            result.place()
        ignore_signals()


def write_all(pairs):
    """Writes results by name: pairs of a name and its bytes."""
    results = [output(name) for name, _ in pairs]
    for result, (_, data) in zip(results, pairs):
        result.write(data)
    put_in_place(*results)
