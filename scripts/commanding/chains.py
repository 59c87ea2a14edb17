"""What `show` and the page conclude for plans: loops against the verified function, and the plan against all plans, listed."""

import os
import random
import re

from picturing.axes import number
from picturing.case import BARRED, MOST_CHANNELS, MOST_LINKS, MOST_PAIRS, STARTING, Case, read_case
from picturing.columns import LINE
from picturing.families import kept
from picturing.log import read_log
from picturing.loops import first_loop
from running import process
from running.inputs import P4, P4_PRESS, P4_ROUND, case, line

from .barred import LATER, LATER_LOG, PAIRED, PAIRED_LOG, UNEQUAL
from .plans import every_plan
from .trial import plain

# The most bytes that the program of the verified function reads.
MOST_READ = 40_000

LEFT = """\
A press or a void line is left: link {} is the lowest that keeps no channel.
No plan uses active combinations only, and every lawful plan's total is below the ceiling.
The engine is not settled with these weights. `ceiling press` begins anew from the case sheet, and may end higher or lower."""
LOOP = """\
The pairs form a loop, which pair {} closes: links {} and again {}.
With a loop nothing is promised: some plan may use active combinations only, or none (docs/RULES.md, part 10)."""
SOME = """\
The pairs form no loop, and no press and no void line is left: some plan uses active combinations only (docs/RULES.md, part 10).
One is taken from the family of link 0, a channel for each link from link 0 on: {}.
It is lawful. Its total by the working weights is the ceiling, {}, and no lawful plan's is greater.
"""
SHIFTS = "The log has no press, and shifts change no plan's total.\n"
BEST = "By the case sheet its total is {} as well: it is a best plan, and the ceiling can fall no further."
BELOW = """\
By the case sheet its total is {}, and the ceiling is {} above it: presses have raised its total.
By the case sheet another plan may be better."""

EQUAL = [-1, 0, 0, -1]
# A chain of three. After the press one plan, 0 1 0, uses active combinations only. The press has raised its total from 6 to the ceiling, 8; by the
# case sheet the best plan is 1 0 0, with 7.
ABOVE = case(2, [[0, 2], [4, 4], [4, 0]], [(0, 1, [0, -2, 0, -4]), (1, 2, [-3, 0, 0, 0])])
ABOVE_LOG = line(2, 0, 3, 0, 2) + line(3, 2) + line(3, 3) + line(3, 4) + line(4, 0, 0, 0, 8)
# A chain of four with two pair rounds; after the first a press is left.
CHAIN = case(2, [[2, 0], [4, 0], [2, 0], [4, 0]], [(0, 1, [-1, 0, 0, -1]), (1, 2, [-3, 0, 0, -2]), (2, 3, [-3, 0, 0, 0])])
CHAIN_FIRST = line(1, 0, 0, 0, -2) + line(1, 0, 1, 0, -4) + line(4, 0, 0, 0, 11)
CHAIN_LOG = CHAIN_FIRST + line(1, 2, 0, 0, -2) + line(1, 2, 1, 0, -4) + line(4, 0, 0, 0, 9)


def concluded(words):
    """The paragraph before the last; nothing where there is none."""
    return ["", *words.rstrip("\n").split("\n\n")][-2]


def apart(*pairs):
    """Pairs that like unequal channels."""
    return [(*pair, EQUAL) for pair in pairs]


def in_words(trial):
    """Word for word: chains, a star, links apart, loops near and far, what is barred, pair rounds, presses, and a press that is left."""
    valley, ring = trial.sample("valley.case"), apart((0, 1), (1, 2), (2, 3), (0, 3))
    zero, some = [[0, 0]], lambda plan, ceiling: SOME.format(plan, ceiling) + SHIFTS + BEST.format(ceiling)
    triangle, triangle_log = trial.sample("triangle.case"), trial.real("press", trial.sample("triangle.case"))
    barred = case(2, [[BARRED, 0], [7, 0], [0, 0]], [(0, 1, [0, 0, 0, BARRED]), (1, 2, [BARRED, 3, 0, BARRED])])
    for name, text, log, wanted in (
        ("a chain", case(2, zero * 4, apart((0, 1), (1, 2), (2, 3))), b"", some("0 1 0 1", 0)),
        ("a chain, its links in another order", case(2, zero * 4, apart((1, 3), (0, 3), (0, 2))), b"", some("0 0 1 1", 0)),
        ("a chain that is free at its beginning", case(2, zero * 5, [(0, 1, [0] * 4)] + apart((1, 2), (2, 3), (3, 4))), b"", some("0 0 1 0 1", 0)),
        ("a star", case(2, zero * 5, apart((2, 4), (0, 2), (1, 2), (2, 3))), b"", some("0 0 1 0 0", 0)),
        ("two chains and a link apart", case(2, [[0, 0], [0, 1], [0, 0], [0, 0], [1, 1]], apart((0, 3), (2, 4))), b"", some("0 1 0 1 1", 2)),
        ("no pairs", case(3, [[0, 0, 2], [-5, -4, -4]], []), b"", some("2 1", -2)),
        ("one link", case(1, [[-7]], []), b"", some("0", -7)),
        ("a loop of three", triangle, triangle_log, LOOP.format(2, "1, 0, 2", 1)),
        ("a loop of four", case(2, zero * 4, ring), b"", LOOP.format(3, "0, 1, 2, 3", 0)),
        ("a loop far from link 0", case(2, [[0] * 2] * 9, apart((0, 1), (1, 2)) + [(*pair, [0] * 4) for pair in ((5, 7), (4, 7), (4, 5))]), b"",
         LOOP.format(4, "4, 7, 5", 4)),
        ("a loop, and a plan that meets the ceiling", valley, trial.sample("valley.log"), LOOP.format(2, "1, 0, 4", 1)),
        ("a loop without a lawful plan", UNEQUAL, b"", LOOP.format(3, "1, 0, 2", 1)),
        ("a loop, and a press left", valley, b"", LEFT.format(0)),
        ("barred channels", barred, b"", some("1 0 1", 10)),
        ("barred channels, a press", PAIRED, PAIRED_LOG, SOME.format("1 0", 2) + BEST.format(2)),
        ("a pair round", P4, P4_ROUND, some("0 1", 2)),
        ("two pair rounds", CHAIN, CHAIN_LOG, some("0 0 1 0", 9)),
        ("a press is left after the first round", CHAIN, CHAIN_FIRST, LEFT.format(0)),
        ("a press", P4, P4_PRESS, SOME.format("0 1", 2) + BEST.format(2)),
        ("a press is left", P4, b"", LEFT.format(0)),
        ("a press of a higher link is left", case(2, zero * 4, apart((1, 2), (1, 3), (2, 3))), b"", LEFT.format(1)),
        ("a plan below the ceiling", ABOVE, ABOVE_LOG, SOME.format("0 1 0", 8) + BELOW.format(6, 2)),
    ):
        said(trial, name, text, log, wanted)


def said(trial, name, text, log, wanted):
    """The paragraph, and the same on the page; nothing of it where one link is asked for."""
    files = trial.both(text, log)
    words = concluded(plain(trial.ask("show", *files).out))
    trial.test(f"show {name}, what follows", words == wanted, words)
    page = plain(trial.ask("picture", *files).out)
    trial.test(f"picture {name}, what follows", f"<p>{on_page(wanted)}</p>" in page, page.partition("Why each channel")[2][:2000])
    alone = plain(trial.ask("show", *files, "0").out)
    trial.test(f"show link 0 of {name}, nothing follows", wanted.split("\n")[0] not in alone and "is_acyclic" not in alone, alone)


def on_page(words):
    return re.sub("`(.*?)`", r"<code>\1</code>", words.replace("\n", " ").replace("'", "\u2019"))


def on_pages(trial):
    """Numbers with separators on the page; refused and void logs conclude nothing, nor does the page of `scripts/picture`, which judges none."""
    text = case(1, [[-STARTING]] * 3, [])
    page = trial.ask("picture", *trial.both(text, b"")).out.decode()
    trial.test("picture, numbers in what follows", f"is the ceiling, {number(-3 * STARTING)}, and no" in page)
    free, pressed = case(2, [[0, 0]] * 2, [(0, 1, [0] * 4)]), line(2, 0, 1, 0, 1) + line(3, 1) + line(4, 0, 0, 0, -1)
    for name, text, log in (("a round", P4, P4_ROUND), ("10", free, pressed), ("14", P4, P4_ROUND[:-LINE]), ("void", LATER, LATER_LOG)):
        files = trial.both(text, log)
        outs = {command: trial.ask(command, *files).out.decode() for command in ("show", "picture")}
        outs["scripts/picture"] = process.on_file([os.path.join(trial.root, "scripts", "picture"), *files], b"").printed.decode()
        for command, out in outs.items():
            follows = bool(re.search("form a loop|active combinations only|By the case sheet", out))
            trial.test(f"{command} {name}, what follows", follows == (log == P4_ROUND and command != "scripts/picture"), out[:300])
        unjudged = "said of judged logs only" in outs.pop("scripts/picture")
        trial.test(f"scripts/picture {name}, not judged", unjudged == (name in ("a round", "10")) and "judged logs only" not in "".join(outs.values()))


def forest(chance, at):
    """A small case without a loop: some links are joined to one before them, then all get other numbers and the pairs another order."""
    n, d = chance.choice((1, 2, 3, 4, 5, 5, 6)), chance.choice((1, 2, 2, 3, 3))
    names = chance.sample(range(n), n)
    pairs = [sorted((names[chance.randrange(link)], names[link])) for link in range(1, n) if chance.random() < 0.8]
    chance.shuffle(pairs)
    size, bars, flat = chance.choice((1, 2, 5, 40)), (0, 0, 0.2, 0.4)[at % 4], at % 3 == 2
    return case(d, [weights(chance, d, size * (not flat), bars) for _ in range(n)], [(*pair, weights(chance, d * d, size, bars)) for pair in pairs])


def weights(chance, count, size, bars):
    """Weights of a scope, many of them 0, some barred, not all."""
    found = [BARRED]
    while {*found} == {BARRED}:
        found = [BARRED if chance.random() < bars else min(chance.randint(-size, size), chance.choice((0, size))) for _ in range(count)]
    return found


def log_of(trial, chance, at, text):
    """Rounds of a case: all that `press` makes or some of them, pair rounds only, or another engine's; no void line."""
    log = trial.peer("press", "--pairs", data=text) if at % 5 == 3 else trial.real("press", text)
    if at % 5 == 4:
        log = trial.peer("foreign", "--careful", "--seed", str(at), data=text)[len(text) :]
    ends = [0] + [end for end in range(LINE, len(log) + 1, LINE) if log[end - LINE : end - LINE + 2] == b" 4"]
    return log[: chance.choice(ends) if at % 5 == 1 else ends[-1]]


def places(table, plan):
    """Where the weights lie that a plan uses (docs/RULES.md, part 12)."""
    d, first = table.d, table.n * table.d
    return [i * d + k for i, k in enumerate(plan)] + [first + e * d * d + plan[i] * d + plan[j] for e, (i, j) in enumerate(table.pairs)]


def in_turn(table):
    """The links: the lowest, then those connected with it, each after one that it has a pair with, then the lowest of the rest, and so on."""
    order = []
    for first in range(table.n):
        reached = [] if first in order else [first]
        for link in reached:
            beside = [i + j - link for i, j in table.pairs if link in (i, j)]
            reached += [other for other in beside if other not in reached]
        order += reached
    return order


def lowest_plan(table, plans):
    """Link after link, what has the lowest channel there."""
    for link in in_turn(table):
        least = min(plan[link] for plan in plans)
        plans = [plan for plan in plans if plan[link] == least]
    return plans[0]


def listed(table, log, moves):
    """What is to be said where no pairs form a loop, by all plans; and which kind of conclusion it is."""
    ceiling, plans = moves.ceilings[-1], [(plan, places(table, plan)) for plan in every_plan(table.n, table.d)]
    lawful = [(plan, used) for plan, used in plans if BARRED not in [table.weights[at] for at in used]]
    working = {tuple(plan): sum(moves.table[at] for at in used) for plan, used in lawful}
    starting = {tuple(plan): sum(table.weights[at] for at in used) for plan, used in lawful}
    meeting = [plan for plan, total in working.items() if total == ceiling]
    if not meeting:
        return LEFT.format(kept(table, moves.table).index(None)), "left"
    plan, pressed = lowest_plan(table, meeting), has_press(log)
    total, best = starting[plan], max(starting.values())
    good = max(working.values()) == ceiling >= best and (pressed or total == ceiling == best)
    kind = "shifts" if not pressed else "best" if total == ceiling else "better" if best > total else "below"
    return plan_words(plan, ceiling, total, pressed), kind if good else "wrong"


def has_press(log):
    return any(log[at : at + 2] == b" 2" for at in range(0, len(log), LINE))


def plan_words(plan, ceiling, total, pressed):
    """What is said of a plan with these totals."""
    end = BEST.format(total) if total == ceiling else BELOW.format(total, ceiling - total)
    return SOME.format(" ".join(map(str, plan)), ceiling) + SHIFTS * (not pressed) + end


def longest(trial):
    """Chains and trees of the most links: the plan takes the greatest weight of each scope, and its total is that of the case sheet."""
    for at, kind in enumerate(("chain", "tree") * 3):
        size = ["--links", str(MOST_LINKS), "--values", str(MOST_CHANNELS), "--pairs", str(MOST_LINKS - 1), "--barred", str(10 * at)]
        text = trial.peer("generate", kind, "--seed", str(at), *size)
        log, table = trial.real("press", text), read_case(text)
        words, moves = concluded(plain(trial.ask("show", *trial.both(text, log)).out)), read_log(table, log)
        plan = [int(one) for one in "".join(re.findall("on: ([0-9 ]*)[.]", words)).split()]
        used = places(table, plan) if len(plan) == table.n else []
        good = [moves.table[place] for place in used] == moves.greatest
        wanted = plan_words(plan, sum(moves.greatest), sum(table.weights[place] for place in used), has_press(log))
        trial.test(f"show {kind} {at} of {table.n} links, what follows", good and words == wanted, words)


def forests(trial):
    """Small cases without a loop: the plan, its totals and what is said of them, by all plans."""
    chance, kinds = random.Random(4), []
    for at in range(240):
        text = forest(chance, at)
        log = log_of(trial, chance, at, text)
        table = read_case(text)
        wanted, kind = listed(table, log, read_log(table, log))
        kinds.append(kind)
        words = plain(trial.ask("show", *trial.both(text, log)).out)
        trial.test(f"show forest {at}, what follows", words.startswith("accepted") and concluded(words) == wanted, f"{concluded(words)} not {wanted}")
    counts = {kind: kinds.count(kind) for kind in sorted({*kinds})}
    good = [*counts] == ["below", "best", "better", "left", "shifts"] and min(counts["left"], counts["best"]) > 20
    trial.test("forests of every kind", good, f"{counts}")


def joined(pairs, i, j):
    """Whether pairs connect two links: all that are connected with the first are found by going through the pairs again and again."""
    reached = {i}
    for _ in pairs:
        for pair in pairs:
            if reached & {*pair}:
                reached |= {*pair}
    return j in reached


def graphs():
    """Links with pairs: chains, rings and stars, the largest too, rings away from link 0, and by chance."""
    for n in (1, 2, 3, 4, 5, 8, MOST_LINKS):
        chain = [(i, i + 1) for i in range(n - 1)]
        yield n, chain
        yield n, [(0, i) for i in range(1, n)]
        yield from [(n, chain[:first] + [(first, n - 1)] + chain[first:]) for first in range(max(n - 5, 0), n - 2)]
        yield from [(n, chain + [(0, last)]) for last in range(2, n)][-4:]
    chance = random.Random(5)
    for at in range(250):
        n = chance.randint(2, 9) if at % 10 else MOST_LINKS
        every = every_pair(n)
        yield n, chance.sample(every, min(len(every), MOST_PAIRS, chance.randint(0, n + 1)))
    yield MOST_LINKS, chance.sample(every_pair(MOST_LINKS), MOST_PAIRS)


def every_pair(n):
    return [(i, j) for i in range(n) for j in range(i + 1, n)]


def loops(trial):
    """The loop that is named is one, of the first pair that closes one; there is none where no pair's links are connected by the others."""
    for at, (n, pairs) in enumerate(graphs()):
        loop = first_loop(drawn(n, pairs))
        closing = [e for e, pair in enumerate(pairs) if joined(pairs[:e], *pair)]
        by_others = any(joined(pairs[:e] + pairs[e + 1 :], *pair) for e, pair in enumerate(pairs))
        good = loop is None if not closing else loop is not None and loop.pair == closing[0] and is_loop(pairs, *loop)
        trial.test(f"the loop of graph {at}", good and by_others == (loop is not None), f"{loop} of {pairs}")


def is_loop(pairs, pair, links):
    """Whether these links, none twice, go from one end of a pair to the other over pairs before it."""
    steps = [tuple(sorted(step)) for step in zip(links, links[1:])]
    return (links[0], links[-1]) == pairs[pair] and len({*links}) == len(links) > 2 and all(step in pairs[:pair] for step in steps)


def drawn(n, pairs):
    """A case with these pairs and no weights."""
    found = Case(b"", n, 1, len(pairs))
    found.pairs = pairs
    return found


def verified(trial):
    """The verified function answers each question, and as we do."""
    questions = []
    for at, (n, pairs) in enumerate(graphs()):
        d = 1 + at % MOST_CHANNELS
        questions.append((line(1, n, d, len(pairs)) + b"".join(line(2, e, *pair) for e, pair in enumerate(pairs)) + line(29), drawn(n, pairs)))
    answered = 0
    while questions:
        size, count = 0, 0
        while count < len(questions) and size + len(questions[count][0]) <= MOST_READ:
            size, count = size + len(questions[count][0]), count + 1
        asked, questions = questions[:count], questions[count:]
        printed = process.on_file([trial.programs["calls"]], b"".join(text for text, _ in asked)).printed.decode()
        answers = re.findall(r"^  is_acyclic\b[^:\n]*: (.*)$", printed, re.M)
        wanted = ["no" if first_loop(table) else "yes" for _, table in asked]
        trial.test(f"is_acyclic, {count} questions from {answered} on", answers == wanted, f"{len(answers)} answers: {printed[:200]}")
        answered += count
    trial.test("questions to is_acyclic", answered > 250, f"{answered}")


def tests(trial):
    there = os.access(trial.programs["calls"], os.X_OK)
    trial.test("the program of the verified function for loops", there, trial.programs["calls"])
    for part in (in_words, on_pages, forests, longest, loops, *[verified] * there):
        part(trial)
