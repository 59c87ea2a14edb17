"""The figures as Markdown."""

import datetime
import os
import subprocess


def heading(root, missing, tries):
    commit = subprocess.run(
        ["git", "-C", root, "rev-parse", "--short", "HEAD"], stdout=subprocess.PIPE, text=True
    ).stdout.strip()
    words = [
        f"Measured {datetime.date.today()} at {commit or 'an unknown commit'} on {processor()}, load "
        f"{os.getloadavg()[0]:.1f}. CPU times of whole processes, the best of {tries} tries "
        "or more in turns (long runs fewer), less the best time of an empty start (engine: a "
        "settled case of the same size; replay: the case alone). A dash: too short to say, or the "
        "program is missing.",
    ]
    words += [f"Missing: {path}." for path in missing]
    return "\n\n".join(words) + "\n"


def processor():
    with open("/proc/cpuinfo", encoding="utf-8") as file:
        names = [line.split(":", 1)[1].strip() for line in file if line.startswith("model name")]
    return f"{names[0]} ({len(names)} cores)" if names else "an unnamed processor"


def table(head, rows):
    lines = ["| " + " | ".join(head) + " |"]
    lines.append("|" + "|".join("---" if k < 1 else "--:" for k in range(len(head))) + "|")
    return "\n".join(lines + ["| " + " | ".join(row) + " |" for row in rows]) + "\n"


def rate(seconds, scale):
    return f"{scale / seconds:,.0f}" if seconds else "\u2013"


def ratio(row, ours, other):
    first, second = row.seconds.get(ours), row.seconds.get(other)
    return f"{second / first:.2f}" if first and second else "\u2013"


def engine_table(rows):
    head = ["weights", "links", "values", "pairs", "rounds", "ours", "peer fast", "peer plain"]
    head += ["ours / fast", "ours / plain", "plain / fast"]
    lines = []
    for row in rows:
        cells = [row.kind, *map(str, row.size), f"{row.rounds:,}"]
        cells += [rate(row.seconds.get(name), 1) for name in ("ours", "fast", "plain")]
        pairs = (("ours", "fast"), ("ours", "plain"), ("plain", "fast"))
        lines.append(cells + [ratio(row, *names) for names in pairs])
    return "Engine, rounds a second over whole runs:\n\n" + table(head, lines)


def replay_table(rows):
    head = ["log", "weights", "links", "values", "pairs", "MB of log", "ours", "peer fast", "peer plain"]
    head += ["ours / fast", "ours / plain"]
    lines = []
    for row in sorted(rows, key=lambda row: row.log, reverse=True):
        cells = [row.log, row.kind, *map(str, row.size), f"{row.bytes / 1e6:.2f}"]
        cells += [rate(row.seconds.get(name), 1e-6) for name in ("ours", "fast", "plain")]
        lines.append(cells + [ratio(row, "ours", "fast"), ratio(row, "ours", "plain")])
    return "Replay, megabytes of log a second (logs of 0.1 MB or more):\n\n" + table(head, lines)
