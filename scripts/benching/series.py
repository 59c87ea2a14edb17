"""What is measured: sizes, cases, logs."""

from collections import namedtuple

LINE = 27
KINDS = ("uniform", "small")
ENGINES = ("ours", "fast", "plain")
REPLAYS = ("ours", "fast", "plain")
UNTRIMMED_BYTES = 8_000_000
SHORTEST_LOG = 100_000

# Seconds a round, and seconds for each byte of log; None where too short, absent where missing.
EngineRow = namedtuple("EngineRow", "kind size rounds seconds")
ReplayRow = namedtuple("ReplayRow", "kind size log bytes seconds")


def axes(quick):
    """Sizes (links, values, pairs) by what grows."""
    if quick:
        return {
            "links": [(n, 8, 2 * n) for n in (6, 12)],
            "values": [(12, d, 24) for d in (4, 8)],
            "pairs": [(12, 8, m) for m in (12, 24)],
        }
    return {
        "links": [(n, 8, 2 * n) for n in (6, 12, 24, 36, 48)],
        "values": [(48, d, 96) for d in (2, 3, 4, 6, 8)],
        "pairs": [(48, 8, m) for m in (24, 48, 72, 96)],
    }


def sizes(quick):
    return list(dict.fromkeys(size for series in axes(quick).values() for size in series))


def engine_row(meter, kind, size):
    """One case of this size: seconds a round of each engine; the case and its log."""
    links, values, pairs = map(str, size)
    case = meter.peer(
        ["generate", kind, "--seed", "7", "--links", links, "--values", values, "--pairs", pairs]
    )
    log = meter.peer(["press"], case)
    rounds = sum(1 for at in range(0, len(log), LINE) if log[at : at + 2] == b" 4")
    source, start = meter.file("case", case), meter.file("settled", settled(case))
    spent = meter.race(["press " + engine for engine in ENGINES], source, start, log)
    return EngineRow(kind, size, rounds, shares(spent, rounds)), case, log


def shares(spent, count):
    """Seconds for each of so many, by the program's last word."""
    return {
        name.split()[-1]: seconds / count if seconds and count else None
        for name, seconds in spent.items()
    }


def settled(case):
    """A case with the same pairs and all weights 0: read, found settled, no round."""
    lines = [case[at : at + LINE] for at in range(0, len(case), LINE)]
    return b"".join(line[:14] + b"0\n".rjust(13) for line in lines)


def replay_rows(meter, kind, size, case, log):
    logs = {"engine's own": log}
    if kind == "uniform":
        rounds = UNTRIMMED_BYTES // (LINE * (size[0] + size[2] + 1))
        logs["untrimmed"] = meter.peer(["untrimmed", "--rounds", str(rounds)], case)
    long = {name: log for name, log in logs.items() if len(log) >= SHORTEST_LOG}
    return [replay_row(meter, kind, size, case, name, log) for name, log in long.items()]


def replay_row(meter, kind, size, case, name, log):
    source, start = meter.file("input", case + log), meter.file("case", case)
    expected = meter.peer(["replay"], case + log)
    spent = meter.race(["replay " + program for program in REPLAYS], source, start, expected)
    return ReplayRow(kind, size, name, len(log), shares(spent, len(log)))
