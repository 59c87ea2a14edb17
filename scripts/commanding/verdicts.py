"""Every verdict passes through unchanged: the stored pairs, damaged inputs, programs that say something else."""

import os
import re

from picturing.columns import LINE
from running.inputs import P4, P4_PRESS, P4_ROUND, line
from running.stand_ins import COMPLAINS, DIES, judges, says

from .trial import cut, plain


NO_PLAN = b"no lawful plan exists: every plan uses something that is barred\n"


def status(verdict):
    return 1 if verdict.startswith(b"refused") else 0


def stored(trial):
    """Case and log apart: `check` and `explain` give what `replay` prints for both; where the case is refused, for the case."""
    for name, data, printed in trial.samples("replay"):
        case, log = cut(data)
        if trial.real("replay", case).startswith(b"refused"):
            parts = [(data, b"", printed), (case, log, trial.real("replay", case))]
        else:
            parts = [(case, log, printed)]
        for case, log, wanted in parts:
            files = trial.both(case, log)
            ended = trial.ask("check", *files)
            trial.ends(f"check {name}", ended, status(wanted), wanted)
            if wanted.startswith(b"refused"):
                trial.test(f"check {name} says who knows why", b"ceiling explain" in ended.err, f"{ended.err}")
            else:
                said = NO_PLAN if wanted == b"void\n" else b""
                trial.test(f"check {name} says what void means", ended.err == said, f"{ended.err}")
            explained(trial, name, files, case, wanted)


def explained(trial, name, files, case, wanted):
    """`explain` gives this verdict and its place; its words."""
    ended = trial.ask("explain", *files)
    first, _, words = ended.out.partition(b"\n")
    trial.ends(f"explain {name}", ended, status(wanted))
    trial.test(f"explain {name}, its first line", first + b"\n" == wanted, f"{first} instead of {wanted}")
    if wanted.startswith(b"refused"):
        number, at = map(int, wanted.split()[1:])
        before = None if trial.real("replay", case) == wanted else len(case) // LINE
        place(trial, name, plain(words), files, before, at)
        rules = f"docs/RULES.md, part {2 if number == 1 else 8}, has the rules."
        trial.test(f"explain {name}, where the rules are", plain(words).endswith(f"\n{rules}\n"), plain(words)[-200:])
        trial.test(f"explain {name}, the rule", re.search(rf"\b(rule|number) {number}\b", plain(words), re.I), plain(words)[:200])
    else:
        meaning = NO_PLAN.decode().strip() if wanted == b"void\n" else wanted.split()[2].decode()
        trial.test(f"explain {name}, in words", meaning.lower() in plain(words).lower(), plain(words)[:200])
    return plain(words)


def place(trial, name, words, files, before, at):
    """The words name the file, the line and the byte as an editor counts them, with a mark under the place, and the line as `replay` counts it.

    `before` is how many lines of the case come before the log, None where the case itself is refused.
    """
    file, number = (files[0], at + 1) if before is None else (files[1], at - before + 1)
    found = any(os.path.basename(file) in one and re.search(rf"\bline {number}\b", one) for one in words.split("\n"))
    trial.test(f"explain {name}, file and line", found, f"{os.path.basename(file)}, line {number}, in {words[:300]}")
    trial.test(f"explain {name}, the line as replay counts it", re.search(rf"\bline {at}\b", words), f"line {at} in {words[:300]}")
    column, byte = [int(found[1]) if found else 0 for found in (re.search(rf"\b{word} (\d+)\b", words) for word in ("character", "byte"))]
    data = read(file)[: max(byte, 1) - 1]
    good = data.count(b"\n") + 1 == number and len(data) - data.rfind(b"\n") == column
    trial.test(f"explain {name}, the byte", good, f"{words[:300]}")
    mark = re.search(r"^    ( *)\^$", words, re.M)
    trial.test(f"explain {name}, the mark", mark and len(mark[1]) + 1 == column, f"{words[:400]}")


def pressed(trial):
    """`press` prints the log, or the refusal on standard error; under its name a log is there whole or not at all."""
    for at, (name, data, printed) in enumerate(trial.samples("press")):
        case = trial.file("plan.case", data)
        to = os.path.join(trial.empty(), "plan.log")
        refused = printed.startswith(b"refused")
        for kept in (None, to)[: 1 + (at % 3 == 0)]:
            title = f"press {name}" + (" -o" if kept else "")
            ended = trial.ask("press", case, *(["-o", to] if kept else []))
            if refused:
                rows = ended.err.splitlines(keepends=True)
                good = len(rows) == 2 and rows[0] == printed and b"ceiling explain" in rows[1]
                trial.ends(title, ended, 1, b"")
                trial.test(title + ", the refusal", good, f"{ended.err}")
                trial.test(title + ", no file", not kept or os.listdir(os.path.dirname(to)) == [])
            else:
                trial.ends(title, ended, 0, b"" if kept else printed)
                trial.test(title + ", the summary", ended.err in summaries(data, trial.real("replay", data + printed)), f"{ended.err}")
                trial.test(title + ", the file", not kept or read(to) == printed)


def summaries(case, verdict):
    """What `press` says of a case for a verdict, the verdict itself first: one round may be said so."""
    if verdict == b"void\n":
        return [verdict + NO_PLAN]
    rounds, ceiling = verdict.decode().split()[1:]
    plan = "lawful plan" if re.search(rb"^1[45] ", case, re.M) else "plan"
    settled = {0: ["settled at once"], 1: ["settled after 1 round", "settled after 1 rounds"]}
    how = settled.get(int(rounds), [f"settled after {rounds} rounds"])
    return [verdict + f"{one}: no {plan}'s total is above {ceiling}\n".encode() for one in how]


def read(path):
    if not os.path.exists(path):
        return None
    with open(path, "rb") as file:
        return file.read()


def damaged(trial):
    """`explain` on inputs damaged by the peer, on foreign logs, and on bytes of no order."""
    for seed in range(64):
        kind = ("small", "chain", "ring", "tree", "mesh", "unusable", "uniform", "extreme")[seed % 8]
        size = ["--links", str(1 + seed % 5), "--values", str(1 + seed % 4), "--pairs", str(seed % 7)]
        barred = ["--barred", str((0, 30, 60)[seed % 3])]
        case = trial.peer("generate", kind, "--seed", str(seed), *size, *barred)
        whole = trial.peer("foreign", "--seed", str(seed), data=case)
        both = (trial.peer("damage", "--seed", str(seed), data=whole), trial.peer("damage", "--seed", str(seed + 1000), data=case))
        for title, data in zip(("foreign", "damaged", "damaged case"), (whole, *both)):
            case, log = cut(data)
            files = trial.both(case, log)
            wanted = trial.verdict(case, log)
            explained(trial, f"{title} {seed}", files, case, wanted)
    for name, data in (("letters", b"x" * 1000), ("line feeds", b"\n" * 100), ("zeros", b"\0" * 500), ("every byte", bytes(range(256)) * 9)):
        for case, log in ((data, b""), (P4, data)):
            explained(trial, f"{name} {len(log)}", trial.both(case, log), case, trial.verdict(case, log))


def other_words(trial):
    """A `replay` that says something else: what it says is passed on. One that gives no judgement: none is given."""
    files = trial.both(P4, P4_PRESS)
    fine = says("accepted 0 4\n")
    for said in ("accepted 3 -77", "accepted 1 99", "accepted 0 4", "void", "refused 13 2", "refused 12 13", "refused 10 999999", "refused 99 1"):
        text = said + "\n"
        programs = trial.stand_ins.folder(replay=judges(len(P4), fine, f"printf '{text}'\n"))
        wanted = text.encode()
        trial.ends(f"check where replay says {text!r}", trial.ask("check", *files, programs=programs), status(wanted), wanted)
        ended = trial.ask("explain", *files, programs=programs)
        trial.ends(f"explain where replay says {text!r}", ended, status(wanted))
        trial.test(f"explain where replay says {text!r}, its first line", ended.out.startswith(wanted), f"{ended.out[:80]}")
        foreign = re.search(r"\bceiling (here )?is 2\b", plain(ended.out)) and "refused" in text
        trial.test(f"explain where replay says {text!r}, no reason of its own", not foreign, f"{ended.out[:300]}")
    for said in (b"refused 2 10\n", b"refused 5 10\n", b"refused 1 0\n", b"refused 14 0\n", b"refused 2 99\n"):
        ended = trial.ask("explain", files[0], programs=trial.stand_ins.folder(replay=says(said.decode())))
        trial.ends(f"explain a case where replay says {said}", ended, 1, err=b"")
        trial.test(f"explain a case where replay says {said}, its first line", ended.out.startswith(said), f"{ended.out[:80]}")
    verdict = "printf 'accepted 1 2\\n'\n"
    for name, script in (
        ("nothing", "\n"), ("half a line", "printf 'accepted 1 2'\n"), ("something else", "echo hello\n"), ("two lines", verdict * 2),
        ("half and dies", "printf 'accepted 1'\n" + DIES), ("a verdict and dies", verdict + DIES), ("a verdict and a complaint", verdict + COMPLAINS),
        ("letters for numbers", "echo accepted one 2\n"), ("a number short", "echo refused 3\n"), ("more than void", "echo void 1\n"),
        ("void without its line feed", "printf void\n"), ("a space after void", "echo 'void '\n"),
    ):
        for command, place, programs in (
            ("check", "", trial.stand_ins.folder(replay=judges(len(P4), fine, script))),
            ("explain", " of the case", trial.stand_ins.folder(replay=judges(len(P4), script, says("accepted 1 2\n")))),
        ):
            trial.ends(f"{command} where replay says {name}{place}", trial.ask(command, *files, programs=programs), 2, b"")


def bounds(trial):
    """The summary of `press` by what `replay` says of the log."""
    case = trial.file("plan.case", P4)
    for verdict, words in (
        ("accepted 3 -77", "settled after 3 rounds: no plan's total is above -77"),
        ("accepted 0 5", "settled at once: no plan's total is above 5"),
        ("accepted 99999 5", "settled after 99999 rounds: no plan's total is above 5"),
        ("accepted 100000 5", "the limit of 100000 rounds was reached, perhaps not settled: no plan's total is above 5"),
        ("void", NO_PLAN.decode().strip()),
    ):
        programs = trial.stand_ins.folder(replay=says(verdict + "\n"))
        ended = trial.ask("press", case, programs=programs)
        trial.ends(f"press where replay says {verdict}", ended, 0, P4_ROUND)
        trial.test(f"press where replay says {verdict}, its summary", ended.err == f"{verdict}\n{words}\n".encode(), f"{ended.err}")


def apart(trial):
    """A log brings no lines of the case along, and a case begins no log."""
    rest = LINE * 3
    for name, case, log in (
        ("a log that brings the rest of a case", P4[:-rest], P4[-rest:] + P4_ROUND),
        ("a log that brings the rest of a line", P4[:-5], P4[-5:] + P4_ROUND),
        ("a log that brings all of the case", b"", P4 + P4_ROUND),
        ("a case that begins a log", P4 + P4_ROUND[:LINE], P4_ROUND[LINE:]),
        ("a case that begins a line", P4 + b" ", P4_ROUND[1:]),
    ):
        wanted = trial.real("replay", case)
        trial.test(f"{name} would be accepted as one", trial.real("replay", case + log) == b"accepted 1 2\n" and wanted.startswith(b"refused"))
        files = trial.both(case, log)
        trial.ends(f"check {name}", trial.ask("check", *files), 1, wanted)
        explained(trial, name, files, case, wanted)
        trial.ends(f"score --log {name}", trial.ask("score", files[0], trial.file("plan", b"0 1"), "--log", files[1]), 1, wanted)
    for log in (b"", P4_ROUND, line(4, 0, 0, 0, 2)):
        files = trial.both(P4 + P4_ROUND, log)
        ended = trial.ask("check", *files)
        trial.ends("check a case with its log behind it", ended, 1, b"")
        trial.test("check a case with its log behind it says so", b"log" in ended.err, f"{ended.err}")
        trial.ends("score a case with its log behind it", trial.ask("score", files[0], trial.file("plan", b"0 1")), 1, b"")
        ended = trial.ask("explain", *files)
        trial.test("explain a case with its log behind it", ended.status == 1 and b"log" in ended.out + ended.err, f"{ended}")
    for name, case, log, wanted in (
        ("no log", P4, b"", b"accepted 0 4\n"), ("no case", b"", P4_ROUND, b"refused 14 0\n"), ("neither", b"", b"", b"refused 14 0\n")
    ):
        files = trial.both(case, log)
        trial.ends(f"check {name}", trial.ask("check", *files), status(wanted), wanted)
        explained(trial, name, files, case, wanted)


def tests(trial):
    for part in (stored, pressed, damaged, other_words, bounds, apart):
        part(trial)
