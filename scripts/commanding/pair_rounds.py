"""Pair rounds: told of an accepted log, named on the page, and completed where a log ends inside one."""

import re

from picturing.columns import LINE
from running.inputs import P4, P4_PRESS, P4_ROUND, line, many_rounds, pair_rounds

from .trial import plain

WHAT = r"the whole weights of a pair's two links into the pair.* no plan's total changes.*do not go together"


def explained(trial, case, log):
    return plain(trial.ask("explain", *trial.both(case, log)).out)


def told(words):
    """How many rounds are said to be pair rounds, and by how much they lower the ceiling, None where it is not said."""
    several = re.search(r"^(\d+) of them (?:is a pair round, which lowers|are pair rounds, which lower) it by (\d+)\.$", words, re.M)
    if several:
        return int(several[1]), int(several[2])
    return (1, None) if "It is a pair round." in words else (0, None)


def accepted(trial):
    """The engine's own pair rounds; shifts of other engines are none, even those that come to the same weights."""
    valley = trial.sample("valley.case"), trial.sample("valley.log")
    first, second, bound = [P4_ROUND[at : at + LINE] for at in range(0, len(P4_ROUND), LINE)]
    both = trial.sample("press", "pair-then-press.in"), trial.sample("press", "pair-then-press.out")
    for name, case, log, wanted in (
        ("P4's round", P4, P4_ROUND, (1, None)),
        ("the valley", *valley, (2, 3)),
        ("24 pair rounds", *pair_rounds(), (24, 168)),
        ("161 presses", *many_rounds(), (0, None)),
        ("P4's press", P4, P4_PRESS, (0, None)),
        ("end 1 first", P4, second + first + bound, (0, None)),
        ("a weight in two parts", P4, line(1, 0, 0, 0, -1) * 2 + second + bound, (0, None)),
        ("a weight of 0 and back", P4, first + second + line(1, 0, 0, 1, 5) + line(1, 0, 0, 1, -5) + bound, (0, None)),
        ("another move first", P4, line(1, 0, 0, 1, 5) + line(1, 0, 0, 1, -5) + first + second + bound, (0, None)),
        ("a pair round and a press", *both, (1, 1)),
        ("a press in the same round", both[0], both[1][:LINE] + both[1][2 * LINE :], (0, None)),
        ("a part of a weight", P4, first + line(1, 0, 1, 0, -1) + line(4, 0, 0, 0, 3), (0, None)),
    ):
        words = explained(trial, case, log)
        trial.test(f"explain {name}, pair rounds", words.startswith("accepted") and told(words) == wanted, f"{told(words)} in {words}")
        trial.test(f"explain {name}, what a pair round is", bool(re.search(WHAT, words, re.I | re.S)) == (wanted[0] > 0), words)
        behind = plain(trial.ask("explain", trial.file("plan.case", case + log)).out)
        trial.test(f"explain {name} behind its case, pair rounds", told(behind) == wanted, behind)


def random_cases(trial):
    """As many as the peer's run of pair rounds only makes."""
    for seed in range(24):
        kind = ("small", "chain", "ring", "tree", "mesh", "unusable", "uniform", "extreme")[seed % 8]
        size = ["--links", str(2 + seed % 7), "--values", str(1 + seed % 5), "--pairs", str(1 + seed % 9)]
        case = trial.peer("generate", kind, "--seed", str(seed), *size)
        log, alone = trial.peer("press", data=case), trial.peer("press", "--pairs", data=case)
        count, rounds = bounds(alone), bounds(log)
        found = told(explained(trial, case, log))[0]
        trial.test(f"explain {kind} {seed}, {rounds} rounds, pair rounds", found == count, f"{found} instead of {count}")
        page = trial.ask("picture", *trial.both(case, log)).out.decode()
        named = re.search(r'id="pair-rounds">(\[.*?\])<', page)
        wanted = str(list(range(count))) if rounds else None
        trial.test(f"picture {kind} {seed}, pair rounds", (named[1] if named else None) == wanted, f"{named and named[1]} instead of {wanted}")
        trial.test(f"picture {kind} {seed}, their number", (f"<dd>{count}</dd><dt>pair rounds" in page) == (count > 0))


def bounds(log):
    return sum(log[at : at + 2] == b" 4" for at in range(0, len(log), LINE))


def cut_off(trial):
    """The lines that are told complete the round: cut off before its bound line, or with one that states the ceiling so far."""
    case, log = trial.sample("valley.case"), trial.sample("valley.log")
    for at in (1, 3, 5, 8, 11, 13):
        end = 7 * LINE if at < 7 else 14 * LINE
        words = explained(trial, case, log[: at * LINE])
        trial.test(f"explain a pair round cut off after line {at}", ending(words) == log[at * LINE : end], words)
    for ceiling in (4, 99):
        words = explained(trial, P4, P4_ROUND[:LINE] + line(4, 0, 0, 0, ceiling))
        trial.test(f"explain a bound line of {ceiling} inside a pair round", ending(words) == P4_ROUND[LINE:], words)
    words = explained(trial, P4, line(1, 0, 0, 0, -1) + line(4, 0, 0, 0, 4))
    trial.test("explain a bound line after another shift", "pair round" not in words and ending(words) == b"", words)


def ending(words):
    """The lines that are told."""
    last = words.rpartition(":\n\n")[2] if ":\n\n" in words else ""
    return b"".join(row[4:].encode() + b"\n" for row in last.split("\n") if re.fullmatch(rf" {{4}}.{{{LINE - 1}}}", row))


def tests(trial):
    for part in (accepted, random_cases, cut_off):
        part(trial)
