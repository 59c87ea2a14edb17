"""`score`: totals against those listed here, ties, plans that do not fit, the ceiling beside the best plan."""

import os
import resource
import shutil

from picturing.case import MOST_CHANNELS, MOST_LINKS, MOST_PAIRS, STARTING
from picturing.columns import LINE
from running.inputs import P4, P4_PRESS, P4_ROUND, case, line


def total(links, pairs, values, plan):
    """A plan's total by document 01: the sum over all scopes of the weight it uses."""
    own = sum(weights[plan[i]] for i, weights in enumerate(links))
    return own + sum(weights[plan[i] * values + plan[j]] for i, j, weights in pairs)


def every_plan(links, values):
    plans = [[]]
    for _ in range(links):
        plans = [plan + [value] for plan in plans for value in range(values)]
    return plans


def totals(trial):
    """Every plan of a case of four links and three channels, one order of names and separators after another."""
    links = [[5, -2, 0], [STARTING, -STARTING, 3], [0, 0, 7], [-1, -2, -3]]
    pairs = [(0, 1, [-STARTING, 1, 2, 3, 4, 5, 6, 7, 8]), (1, 3, list(range(9))), (0, 3, [-5] * 9)]
    path = trial.file("plan.case", case(3, links, pairs))
    marks = (b" ", b",", b";", b"\n", b"\r\n", b", ", b"  ", b";\n")
    plans = every_plan(4, 3)
    texts = [marks[at % len(marks)].join(b"%d" % one for one in plan) + b"\n" * (at % 3) for at, plan in enumerate(plans)]
    names = [trial.file(f"plan {at}.txt", text) for at, text in enumerate(texts)]
    sums = [total(links, pairs, 3, plan) for plan in plans]
    best = sums.index(max(sums))
    out = "".join(f"{one} {name}\n" for one, name in zip(sums, names)) + f"best {sums[best]} {names[best]}\n"
    few = lambda: resource.setrlimit(resource.RLIMIT_NOFILE, (len(plans) // 2, resource.getrlimit(resource.RLIMIT_NOFILE)[1]))
    trial.ends("score every plan, few files open at once", trial.run("score", path, *names, before=few), 0, out.encode())
    for at in (0, 40, 80):
        out = f"{sums[at]} {names[at]}\nbest {sums[at]} {names[at]}\n".encode()
        trial.ends(f"score plan {at}", trial.run("score", path, names[at]), 0, out)


def ties(trial):
    """The first of the best; the same file twice; totals below 0; one link and one channel."""
    path = trial.file("plan.case", P4)
    first, second, low = [trial.file(name, text) for name, text in (("first", b"0 1"), ("second", b"1,0\n"), ("low", b"1 1"))]
    for names in ([first, second], [second, first], [low, second, first, second], [low, low]):
        sums = {first: 2, second: 2, low: 0}
        best = max(names, key=sums.get)
        out = "".join(f"{sums[name]} {name}\n" for name in names) + f"best {sums[best]} {best}\n"
        trial.ends("score a tie", trial.ask("score", path, *names), 0, out.encode())
    single = trial.file("plan.case", case(1, [[-7]], []))
    plan = trial.file("plan", b"0")
    trial.ends("score one link", trial.ask("score", single, plan), 0, f"-7 {plan}\nbest -7 {plan}\n".encode())
    trial.ends("score a plan by -", trial.run("score", path, "-", data=b"0;1"), 0, b"2 -\nbest 2 -\n")


def names_of_lines(trial):
    """A name that holds a line makes no line: its control characters are shown as question marks."""
    path, log = trial.both(P4, P4_ROUND[:-1])
    folder = trial.empty()
    plan = os.path.join(folder, "x\nbest 999 y\x1b[K\u2028\x9b")
    shown = os.path.join(folder, "x?best 999 y?[K??")
    shutil.copy(trial.file("plan", b"0 1"), plan)
    trial.ends("score a name with a line", trial.ask("score", path, plan), 0, f"2 {shown}\nbest 2 {shown}\n".encode())
    shutil.copy(log, plan)
    ended = trial.ask("explain", path, plan)
    trial.test("explain a name with a line", shown.encode() in ended.out and plan.encode() not in ended.out, f"{ended}")
    ended = trial.ask("check", path, plan + "x")
    trial.ends("check a name with a line", ended, 2, b"", f"ceiling: {shown}x: No such file or directory\n".encode())


def largest(trial):
    """The largest case at the ends of its weights: what the plan does not use weighs the other end."""
    n, d, last = MOST_LINKS, MOST_CHANNELS, MOST_CHANNELS - 1
    ends = [(i, j) for i in range(n) for j in range(i + 1, min(i + 4, n))][:MOST_PAIRS]
    for weight in (STARTING, -STARTING):
        text = case(d, [[-weight] * last + [weight]] * n, [(i, j, [-weight] * (d * d - 1) + [weight]) for i, j in ends])
        path, plan = trial.file("plan.case", text), trial.file("plan", b" ".join([b"%d" % last] * n))
        wanted = (n + len(ends)) * weight
        trial.ends(f"score {wanted}", trial.ask("score", path, plan), 0, f"{wanted} {plan}\nbest {wanted} {plan}\n".encode())


def unfit(trial):
    """A plan that does not fit the case: words that name it, nothing on standard output, whatever stands beside it."""
    path, good = trial.file("plan.case", P4), trial.file("good", b"0 1")
    for name, text in (
        ("too short", b"0"), ("too long", b"0 1 0"), ("empty", b""), ("channel 2 of 2", b"0 2"), ("channel -1", b"-1 0"), ("a letter", b"0 x"),
        ("a fraction", b"0 1.0"), ("bytes", b"\xff\x00"), ("a long number", b"0 " + b"1" * 5000), ("a plus sign", b"0 +1"),
    ):
        plan = trial.file("unfit.txt", text)
        for names in ([plan], [good, plan], [plan, good]):
            ended = trial.ask("score", path, *names)
            trial.ends(f"score {name}", ended, 1, b"")
            trial.test(f"score {name}, in words", plan.encode() in ended.err, f"{ended.err[:200]}")


def beside_ceiling(trial):
    path, log = trial.both(P4, P4_ROUND)
    met, below = trial.file("met", b"0 1"), trial.file("below", b"1 1")
    higher = trial.file("plan.log", line(2, 0, 2, 0, 1) + P4_PRESS[LINE : 3 * LINE] + line(4, 0, 0, 0, 3))
    meets = b"the best plan meets the ceiling: no plan is better"
    for name, plans, used, rounds, ceiling, out in (
        ("met", [met], log, 1, 2, f"2 {met}\nbest 2 {met}\n"),
        ("not met", [below], log, 1, 2, f"0 {below}\nbest 0 {below}\n"),
        ("met by the second", [below, met], log, 1, 2, f"0 {below}\n2 {met}\nbest 2 {met}\n"),
        ("one below", [met], higher, 1, 3, f"2 {met}\nbest 2 {met}\n"),
        ("no round", [met], trial.file("plan.log", b""), 0, 4, f"2 {met}\nbest 2 {met}\n"),
    ):
        for order in (plans + ["--log", used], ["--log", used] + plans):
            ended = trial.ask("score", path, *order)
            trial.ends(f"score --log {name}", ended, 0, f"{out}accepted {rounds} {ceiling}\n".encode())
            gap = ceiling - int(out.split("best ")[1].split()[0])
            said = meets in ended.err if gap == 0 else meets not in ended.err and str(gap).encode() in ended.err
            trial.test(f"score --log {name}, in words", said, f"{ended.err}")
    for name, text in (("cut", P4_ROUND[:-1]), ("wrong", P4_ROUND[:-LINE] + line(4, 0, 0, 0, 1)), ("too low", line(4, 0, 0, 0, -9))):
        verdict = trial.verdict(P4, text)
        ended = trial.ask("score", path, met, "--log", trial.file("plan.log", text))
        trial.ends(f"score --log {name}, refused", ended, 1)
        trial.test(f"score --log {name}, the verdict", verdict in ended.err and b"accepted" not in ended.out and meets not in ended.err, f"{ended}")
    bad = trial.file("plan.case", P4[:-1])
    ended = trial.ask("score", bad, met)
    trial.test("score a refused case, the verdict", b"refused 14 9" in ended.out + ended.err, f"{ended}")


def passed_on(trial):
    """The totals are what `replay` says of the plan's own case, and a wrong `replay` gives none."""
    path, plan = trial.file("plan.case", P4), trial.file("plan", b"0 1")
    size = f'size=$(wc -c)\nif [ "$size" -eq {len(P4)} ]; then echo accepted 0 4; else '
    programs = trial.stand_ins.folder(replay=size + "echo accepted 0 -123; fi\n")
    trial.ends("score by another replay", trial.ask("score", path, plan, programs=programs), 0, f"-123 {plan}\nbest -123 {plan}\n".encode())
    verdict = "echo accepted 0 2; "
    for name, script in (
        ("nothing", "true"), ("half a line", "printf 'accepted 0 2'"), ("a complaint", verdict + "echo words >&2"),
        ("and dies", verdict + "kill -9 $$"), ("a refusal", "echo refused 8 1"),
    ):
        programs = trial.stand_ins.folder(replay=f"{size}{script}; fi\n")
        ended = trial.ask("score", path, plan, programs=programs)
        trial.test(f"score where replay says {name}", ended.status in (1, 2) and ended.out == b"", f"{ended}")


def tests(trial):
    for part in (totals, ties, names_of_lines, largest, unfit, beside_ceiling, passed_on):
        part(trial)
