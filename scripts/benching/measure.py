"""CPU times of programs on a file: the best of several tries."""

import os
import subprocess

# Short programs are tried for so many seconds a try, long ones not after so many seconds.
SHORT, LONG = 0.04, 12.0
# A difference of two best times below this says nothing.
SHORTEST = 0.00025


class Differs(Exception):
    """Two programs answered differently."""


class Meter:
    def __init__(self, folder, programs, tries):
        self.folder = folder
        self.programs = programs
        self.tries = tries

    def path(self, name):
        return os.path.join(self.folder, name)

    def file(self, name, data):
        with open(self.path(name), "wb") as file:
            file.write(data)
        return self.path(name)

    def peer(self, arguments, data=b""):
        """What the peer prints, not measured."""
        return subprocess.run(
            self.programs["peer"] + arguments, input=data, stdout=subprocess.PIPE, check=True
        ).stdout

    def race(self, names, source, start, expected):
        """Each program's seconds on a file beyond an empty start, None if too short to say.

        The programs take turns, so that what else the machine does meets all of them.
        """
        runners = [Runner(self, name) for name in names if name in self.programs]
        left = runners
        while left:
            for runner in left:
                runner.run(source, start, expected)
            left = [runner for runner in left if not runner.done()]
        return {runner.name: runner.beyond_start() for runner in runners}

    def once(self, command, source):
        """Seconds of one try, and the answer."""
        with open(source, "rb") as given, open(self.path("answer"), "wb") as taken:
            process = subprocess.Popen(command, stdin=given, stdout=taken)
            _, status, usage = os.wait4(process.pid, 0)
        process.returncode = os.waitstatus_to_exitcode(status)
        if process.returncode != 0:
            raise Differs(f"{' '.join(command)} ended with {process.returncode}")
        with open(self.path("answer"), "rb") as file:
            return usage.ru_utime + usage.ru_stime, file.read()


class Runner:
    """One program in a race: its best times so far."""

    def __init__(self, meter, name):
        self.meter = meter
        self.name = name
        self.command = meter.programs[name]
        self.best = self.start = float("inf")
        self.spent = 0.0
        self.tries = 0

    def run(self, source, start, expected):
        seconds, answer = self.meter.once(self.command, source)
        if answer != expected:
            raise Differs(f"{' '.join(self.command)} answers otherwise than the peer's fast reading")
        empty, _ = self.meter.once(self.command, start)
        self.best, self.start = min(self.best, seconds), min(self.start, empty)
        self.spent += seconds + empty
        self.tries += 1

    def done(self):
        enough = self.tries >= self.meter.tries and self.spent >= SHORT * self.meter.tries
        return enough or self.spent >= LONG

    def beyond_start(self):
        seconds = self.best - self.start
        return seconds if seconds >= SHORTEST else None
