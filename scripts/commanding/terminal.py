"""Progress of a long press or explanation where standard error is a terminal, and none where it is not."""

import os
import pty
import re
import select
import time

from picturing.columns import LINE
from running import inputs
from running.command import PATIENCE

from .trial import plain
from .verdicts import read, summaries

# The stand-in prints its log in so many pieces, this many seconds apart.
PIECES, PAUSE = 7, "0.15"


def slow_press(trial, log):
    """A `press` that prints the log of `inputs.many_rounds` in pieces, whole rounds each: its ceiling is minus its rounds."""
    path = trial.file("log", log)
    size = len(log) // PIECES
    steps = [f"dd bs={size} skip={at} count=1 if={path} 2> /dev/null; sleep {PAUSE}\n" for at in range(PIECES)]
    assert size % (5 * LINE) == 0 and size * PIECES == len(log)
    return "cat > /dev/null\n" + "".join(steps)


def on_terminal(trial, *arguments, **how):
    """The command with standard error on a terminal; what the terminal got."""
    ours, theirs = pty.openpty()
    process = trial.start(*arguments, stderr=theirs, **how)
    os.close(theirs)
    shown, until = b"", time.monotonic() + PATIENCE
    while time.monotonic() < until:
        if not select.select([ours], [], [], 0.5)[0]:
            continue
        try:
            more = os.read(ours, 65536)
        except OSError:
            break
        if not more:
            break
        shown += more
    os.close(ours)
    return trial.end(process), shown


def visible(shown):
    """The lines as they stand on the terminal at the end: a carriage return goes back, ESC [K or ESC [2K clears."""
    rows = []
    for row in shown.decode().replace("\r\n", "\n").split("\n"):
        cells = []
        for piece in re.split(r"(\r|\x1b\[[0-9]*K)", row):
            if piece == "\r":
                at = 0
            elif piece.startswith("\x1b["):
                cells = cells[:at] if piece == "\x1b[K" else [" "] * at
            else:
                at = at if cells else 0
                cells[at : at + len(piece)] = piece
                at += len(piece)
        rows.append("".join(cells).rstrip())
    return [row for row in rows if row]


def explaining(trial):
    """A reason that takes a while: on a terminal a word meanwhile, and none is left."""
    for lines, word in ((100, b""), (60_000, b"looking")):
        files = trial.both(inputs.P4, inputs.accepted_log(lines)[len(inputs.P4) : -LINE] + inputs.line(4, 0, 0, 0, 3))
        ended, shown = on_terminal(trial, "explain", *files)
        trial.test(f"explain {lines} lines on a terminal", ended.out.startswith(b"refused 12 ") and b"ceiling is 2 here" in ended.out, f"{ended}")
        trial.test(f"explain {lines} lines on a terminal, a word meanwhile", shown.startswith(word) and bool(shown) == bool(word), f"{shown}")
        trial.test(f"explain {lines} lines on a terminal, none is left", visible(shown) == [], f"{shown}")
    trial.ends("explain without a terminal", trial.run("explain", *files), 1, err=b"")


def tests(trial):
    explaining(trial)
    case, log = inputs.many_rounds()
    path = trial.file("plan.case", case)
    programs = trial.stand_ins.folder(press=slow_press(trial, log))
    to = os.path.join(trial.empty(), "to")
    summary = summaries(case, trial.real("replay", case + log))
    for name, arguments in (("press", ["press", path]), ("press -o", ["press", path, "-o", to])):
        ended, shown = on_terminal(trial, *arguments, programs=programs)
        good = ended.status == 0 and (read(to) if "-o" in arguments else ended.out) == log
        trial.test(f"{name} on a terminal, the log", good, f"{ended.status}, {len(ended.out)} bytes")
        pieces = re.split(rb"[\r\n]", re.sub(rb"\x1b\[[0-9;]*[A-Za-z]", b"", shown))
        seen = [[int(one) for one in re.findall(r"-?\d+", plain(piece))] for piece in pieces]
        rounds = [row[0] for row in seen if len(row) == 2 and row[0] == -row[1]]
        trial.test(f"{name} on a terminal, rounds and ceiling", 2 <= len(set(rounds)) <= 60 and rounds == sorted(rounds), f"{shown[:300]}")
        odd = [row for row in seen[:-2] if row and row[0] != -row[-1]]
        trial.test(f"{name} on a terminal, no other figures", not odd, f"{odd[:5]} in {shown[:300]}")
        rows = "".join(row + "\n" for row in visible(shown)).encode()
        trial.test(f"{name} on a terminal, the summary alone is left", rows in summary, f"{rows}")
    ended = trial.run("press", path, programs=programs)
    trial.ends("press without a terminal", ended, 0, log)
    trial.test("press without a terminal, the summary alone", ended.err in summary, f"{ended.err}")
