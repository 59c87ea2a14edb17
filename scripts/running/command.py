"""How a command written in Python is started: as a process of its own, or as a fork of this one, which spares the start of Python."""

import atexit
import importlib
import os
import pkgutil
import runpy
import signal
import subprocess
import sys
import tempfile
import traceback
from collections import namedtuple

# Exit status (128 + the signal where a signal ended it), standard output and standard error.
Ended = namedtuple("Ended", "status out err")
# Whoever runs longer than so many seconds is ended.
PATIENCE = 60


class Command:
    """A script with the modules of its package, and the folder of the programs behind it."""

    def __init__(self, path, package, variable, programs):
        self.path, self.variable, self.programs = os.path.abspath(path), variable, programs
        self.starts, self.crashed = 0, []
        for module in pkgutil.iter_modules(importlib.import_module(package).__path__, package + "."):
            importlib.import_module(module.name)

    def environment(self, programs=None):
        return {**os.environ, self.variable: programs or self.programs}

    def ask(self, *arguments, data=b"", programs=None, encoding="utf-8:strict"):
        """The script run in a fork; the encoding is that of its standard output."""
        with tempfile.TemporaryFile() as stdin, tempfile.TemporaryFile() as stdout, tempfile.TemporaryFile() as stderr:
            stdin.write(data)
            stdin.seek(0)
            pid = os.fork()
            if pid == 0:
                self.become(arguments, [stdin, stdout, stderr], self.environment(programs), *encoding.split(":"))
            status = os.waitstatus_to_exitcode(os.waitpid(pid, 0)[1])
            stdout.seek(0)
            stderr.seek(0)
            return self.ended(arguments, status, stdout.read(), stderr.read())

    def become(self, arguments, files, environment, encoding, errors):
        """In the fork: what the interpreter does between its start and its end."""
        status = 70
        try:
            atexit._clear()
            signal.alarm(PATIENCE)
            for number, file in enumerate(files):
                os.dup2(file.fileno(), number)
            sys.stdin = open(0, encoding=encoding, errors=errors, closefd=False)
            sys.stdout = open(1, "w", encoding=encoding, errors=errors, closefd=False)
            sys.stderr = open(2, "w", encoding=encoding, errors="backslashreplace", closefd=False, buffering=1)
            os.environ.update(environment)
            sys.argv = [self.path, *arguments]
            status = ended_script(self.path)
            atexit._run_exitfuncs()
            sys.stdout.flush()
        finally:
            os._exit(status)

    def start(self, *arguments, programs=None, variables=None, before=None, **streams):
        """The script as a process, left to run, with these variables in its environment."""
        streams = {"stdin": subprocess.DEVNULL, "stdout": subprocess.PIPE, "stderr": subprocess.PIPE, **streams}
        environment = {**self.environment(programs), **(variables or {})}
        return subprocess.Popen([self.path, *arguments], env=environment, preexec_fn=before, start_new_session=True, **streams)

    def run(self, *arguments, data=b"", **how):
        """The script as a process, its standard input a pipe."""
        process = self.start(*arguments, stdin=subprocess.PIPE, **how)
        return self.end(process, data)

    def end(self, process, data=None):
        try:
            out, err = process.communicate(data, timeout=PATIENCE)
        except subprocess.TimeoutExpired:
            process.kill()
            out, err = process.communicate()
        return self.ended(process.args[1:], process.returncode, out or b"", err or b"")

    def ended(self, arguments, status, out, err):
        self.starts += 1
        if b"Traceback" in err or b"Exception ignored" in err:
            self.crashed.append(" ".join(map(str, arguments)))
        return Ended(128 - status if status < 0 else status, out, err)


def ended_script(path):
    """Runs a script; its exit status as the interpreter gives it."""
    try:
        runpy.run_path(path, run_name="__main__")
    except SystemExit as leaving:
        if leaving.code is None or isinstance(leaving.code, int):
            return leaving.code or 0
        print(leaving.code, file=sys.stderr)
        return 1
    except BaseException:
        traceback.print_exc()
        return 1
    return 0
