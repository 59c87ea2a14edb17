"""toulbar2 asked about a wcsp file: its optimum, and its bound before the search."""

import re
from collections import namedtuple

from running import process

# After so many seconds of search it answers what it has.
SECONDS = 30
# The cost of the best plan found, the plan, whether it is shown to be the best, and the CPU seconds.
Answer = namedtuple("Answer", "cost plan best seconds")


class Silent(Exception):
    """It ended badly, or without what was asked."""


def asked(text, *options):
    ended = process.on_file(["toulbar2", "--stdin=wcsp", *options], text)
    if not ended.well or ended.said:
        raise Silent(f"toulbar2 {' '.join(options)} ended badly or had words on standard error")
    return ended.printed.decode("utf-8", "replace"), ended.seconds


def optimum(text):
    printed, seconds = asked(text, "-s", f"-timer={SECONDS}")
    plans = re.findall(r"^New solution: ([0-9]+) .*\n *([0-9 ]+)$", printed, re.MULTILINE)
    if not plans:
        raise Silent("toulbar2 found no plan")
    cost, plan = plans[-1]
    found = re.search(r"^Optimum: ([0-9]+) ", printed, re.MULTILINE)
    if found and found.group(1) != cost:
        raise Silent(f"toulbar2's last plan costs {cost}, its optimum is {found.group(1)}")
    return Answer(int(cost), tuple(map(int, plan.split())), bool(found), seconds)


def root(text, *options):
    """The lower bound at the root without preprocessing (EDAC), or with an option more; and the CPU seconds."""
    printed, seconds = asked(text, "-nopre", "-bt=0", *options)
    bound = re.search(r"^Initial lower and upper bounds: \[([0-9]+), ", printed, re.MULTILINE)
    if not bound:
        raise Silent("toulbar2 printed no bound")
    return int(bound.group(1)), seconds


def version():
    found = re.search(r"version : (\S+)", asked(b"x 1 1 0 1 1")[0])
    return found.group(1) if found else "of an unknown version"
