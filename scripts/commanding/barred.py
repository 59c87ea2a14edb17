"""Barred channels and void lines: what each command says of them."""

import itertools
import os
import re

from picturing.case import BARRED, read_case
from picturing.columns import LINE
from picturing.log import read_log
from running import process
from running.inputs import P4, case, line, with_line
from running.stand_ins import says

from .reasons import asked
from .trial import cut, last_line, plain
from .verdicts import NO_PLAN, read, summaries

# Either link has one channel that is not barred, and these two may not go together; the same where another channel of link 0 is left, by 5
# worse, and where the two go together, by 1 worse.
NONE, OTHER, WORSE = [
    case(2, [[0, first], [0, BARRED]], [(0, 1, [both, 0, 0, 0])]) for first, both in ((BARRED, BARRED), (-5, BARRED), (BARRED, -1))
]
VOID = line(5, 0, 2) + line(3, 1) + line(3, 2)
OTHER_PRESS = line(2, 0, 2, 0, 5) + line(3, 1) + line(3, 2) + line(4, 0, 0, 0, -5)
# Two pairs apart: the second has a pair round, and then the first a void line.
LATER = case(2, [[0, BARRED], [0, BARRED], [2, 0], [2, 0]], [(0, 1, [BARRED, 0, 0, 0]), (2, 3, [-3, 0, 0, 0])])
LATER_LOG = line(1, 1, 0, 0, -2) + line(1, 1, 1, 0, -2) + line(4, 0, 0, 0, 2) + line(5, 0, 2) + line(3, 1) + line(3, 4)
# A pair round, by which the pair's greatest weight is one with a barred channel, and then a press.
PAIRED = case(2, [[3, 0], [2, BARRED]], [(0, 1, [-9, 0, 0, -4])])
PAIRED_ROUND = line(1, 0, 0, 0, -3) + line(1, 0, 1, 0, -2) + line(4, 0, 0, 0, 3)
PAIRED_LOG = PAIRED_ROUND + line(2, 0, 2, 0, 1) + line(3, 1) + line(3, 2) + line(4, 0, 0, 0, 2)
# Four links, every two a pair, three channels, no two equal: no plan is lawful, but no channel is refuted.
UNEQUAL = case(3, [[0, 0, 0]] * 4, [(low, high, [BARRED, 0, 0, 0] * 2 + [BARRED]) for low, high in itertools.combinations(range(4), 2)])


def in_cases(trial):
    """Numbers 2, 5, 8 and 15 at lines that bar."""
    for name, text, number, patterns in (
        ("all channels of a link", with_line(NONE, 1, line(14, 0, 0)), 15, ["link 0 has no channel left", "all 2 are barred"]),
        ("all combinations of a pair", case(2, [[0, 0]] * 2, [(0, 1, [BARRED] * 4)]), 15, ["pair 0 has no combination left", "all 4"]),
        ("the one channel", case(1, [[0], [BARRED]], []), 15, ["link 1 has no channel left"]),
        ("a barred channel with a weight", with_line(NONE, 2, line(14, 0, 1, 0, -5)), 2, ["amount holds -5", "kind 14", "has no weight"]),
        ("a barred channel with c", with_line(NONE, 2, line(14, 0, 1, 3)), 2, [r"column c holds 3"]),
        ("a barred combination with a weight", with_line(NONE, 6, line(15, 0, 0, 0, 9)), 2, ["amount holds 9", "kind 15"]),
        ("a barred combination for a channel", with_line(NONE, 2, line(15, 0, 1)), 2, ["kind 11, a 0, b 1 .kind 14 where it is barred", "kind 15"]),
        ("a barred channel for a combination", with_line(NONE, 6, line(14, 0, 0)), 2, ["kind 13, a 0, b 0, c 0 .kind 15 where it is barred"]),
        ("a barred channel for a pair", with_line(NONE, 5, line(14, 2, 0)), 2, ["kind 12", r"By its head the case has 2 links"]),
        ("another barred channel", with_line(NONE, 2, line(14, 1, 1)), 5, ["link 0, channel 1 is due", "Column a holds 1, 0 is due"]),
        ("a barred channel that is missing", NONE[: 2 * LINE] + NONE[3 * LINE :], 5, ["perhaps a line is missing before it"]),
        ("a barred channel twice", NONE[: 3 * LINE] + NONE[2 * LINE :], 5, ["perhaps that line stands twice"]),
        ("the number of tables in a file", with_line(NONE, 2, line(11, 0, 1, 0, BARRED)), 8, [str(BARRED), "A line of kind 14 bars"]),
        ("a void line first", line(5, 0, 1), 2, ["kind 10", "case and log given in the wrong order"]),
    ):
        asked(trial, name, text, number, patterns)


def in_logs(trial):
    """Numbers 1, 2, 5, 9, 10, 14 and 16 at void lines and after them."""
    begun = VOID[:LINE]
    for name, text, number, patterns in (
        ("a bound line after a void line", (NONE, VOID + line(4)), 2, ["void line of link 0 in line 1 ends the log", "nothing is due", "kind 4"]),
        ("a void line after a void line", (NONE, VOID + VOID), 2, ["ends the log", r"kind 5 \(void\)"]),
        ("a case line after a void line", NONE + VOID + line(15, 0), 2, ["void line of link 0 in line 11 ends the log", "which ends with line 10"]),
        ("a raise line first in a barred case", (NONE, line(3, 1)), 2, [r"kind 1\b.*kind 2\b.*kind 4\b.*kind 5\b", "no void line waits"]),
        ("a press in a void line", (NONE, begun + line(2, 0, 1, 0, 1)), 2, ["raise line .kind 3. is due: the void line of link 0 in line 1 counts 2"]),
        ("a void line in a press", (NONE, line(2, 0, 2, 0, 1) + begun), 2, ["the press of link 0 in line 1 counts 2", "kind 5"]),
        ("a void line with c", (NONE, line(5, 0, 2, 1)), 2, ["column c holds 1"]),
        ("a void line with an amount", (NONE, line(5, 0, 2, 0, 7)), 2, ["column amount holds 7"]),
        ("a barred channel in a log", (NONE, line(14, 0, 1)), 2, ["line of a case", "kinds 1 to 5"]),
        ("a void line of link 2", (NONE, line(5, 2, 2)), 5, ["void line's link is 2: the case has links 0 to 1"]),
        ("a void line of 3 scopes", (NONE, line(5, 0, 3)), 5, [r"count of raise lines is 3: .*\b1 to 2\b"]),
        ("a void line of no scope", (NONE, line(5, 0, 0)), 5, [r"count of raise lines is 0"]),
        ("a void line's own scope", (NONE, begun + line(3, 0)), 9, ["own scope of link 0", "void line"]),
        ("a void line's scopes downwards", (NONE, begun + line(3, 2) + line(3, 1)), 9, ["not above scope 2", "scopes of a void line go upwards"]),
        ("a void line too early", (NONE, line(5, 0, 1) + line(3, 2)), 10, ["the void line of link 0 in line 1 is complete", "not refuted", "missing from"]),
        ("a void line where there is none", (WORSE, line(5, 0, 1) + line(3, 1)), 10, ["not refuted", "the void line"]),
        ("a void line with another channel", (OTHER, VOID), 16, ["channels of the link", "link 0, channel 1 is -5", r"^     2   0   2   0           5$"]),
        ("a void line with another combination", (WORSE, VOID), 16, ["scope 2", "pair 0, channels 0 and 0, is -1", r"^     2   0   2   0           1$"]),
        ("one raise line of a void line", (NONE, VOID[:-LINE]), 14, ["void line of link 0 in line 1 has 1 of its 2 raise lines: 1 missing", "ends the log"]),
        ("both raise lines of a void line", (NONE, begun), 14, ["0 of its 2 raise lines: 2 missing"]),
        ("the feed of a void line's end", (NONE, VOID[:-1]), 14, ["line feed", "With it replay says `void`"]),
        ("part of a line after a void line", (NONE, VOID + b" 4"), 14, ["cut off", "nothing has to follow"]),
        ("no line after a void line", (NONE, VOID + b"x" * LINE), 1, ["x"]),
    ):
        asked(trial, name, text, number, patterns)
    asked(trial, "a void judgement as a log", (NONE, b"void\n"), 14, ["judgement that a program printed, not a log"])


def void_logs(trial):
    """`void` passes through, with what it means and status 0, by every command that judges a log."""
    rounds = "1 round before it"
    for name, text, log, patterns in (
        ("two links", NONE, VOID, ["of link 0, in line 1, and raises scopes 1 and 2", "channel 0 of link 0 is refuted", "every other channel of link 0"]),
        ("the triangle", *sample(trial, "triangle"), ["raises scopes 3, 4 and 5", r"channels 0 and 1 of link 0 are refuted", r"is barred\.$"]),
        ("after a round", LATER, LATER_LOG, ["link 0, in line 4, and raises scopes 1 and 4", rounds]),
    ):
        files = trial.both(text, log)
        trial.ends(f"check void, {name}", trial.ask("check", *files), 0, b"void\n", NO_PLAN)
        for alone in (False, True):
            ended = trial.ask("explain", trial.file("plan.case", text + log)) if alone else trial.ask("explain", *files)
            words = plain(ended.out)
            trial.ends(f"explain void, {name}", ended, 0, err=b"")
            at = [re.sub(r"line (\d+)", lambda found: f"line {int(found[1]) + len(text) // LINE * alone}", pattern) for pattern in patterns]
            missing = [pattern for pattern in at if not re.search(pattern, words, re.M)]
            trial.test(f"explain void, {name}, its words", words.startswith("void\n") and not missing, f"{missing} not in {words}")
            trial.test(f"explain void, {name}, the rounds", (rounds in words) == (rounds in patterns), words)
        ended = trial.ask("check", trial.file("plan.case", text + log), files[1])
        trial.ends(f"check void, {name}, behind its case", ended, 1, b"")
        trial.test(f"check void, {name}, behind its case, in words", b"holds a log as well as a case (`void`)" in ended.err, f"{ended.err}")
    ended = trial.ask("explain", trial.file("plan.case", NONE))
    wanted = ["Barred: 2 channels of links and 1 combination of pairs", "no lawful plan's total is above it", "or may show that no lawful plan exists"]
    trial.test("explain a barred case", all(word in plain(ended.out) for word in wanted), f"{ended.out}")
    ended = trial.ask("explain", *trial.both(OTHER, OTHER_PRESS))
    trial.test("explain an accepted log of a barred case", b"No lawful plan's total is above -5." in ended.out, f"{ended.out}")


def sample(trial, name):
    return trial.sample(f"{name}-barred.case"), trial.sample(f"{name}-barred.log")


def presses(trial):
    """Barred cases pressed to a ceiling and to void lines; each log is then checked, explained and drawn."""
    for name, text, log in (
        ("by a press", OTHER, OTHER_PRESS), ("by a pair round and a press", PAIRED, PAIRED_LOG), ("the valley", *sample(trial, "valley")),
        ("void", NONE, VOID), ("the triangle", *sample(trial, "triangle")), ("void after a round", LATER, LATER_LOG),
        ("settled without a lawful plan", UNEQUAL, b""),
    ):
        files = trial.file("plan.case", text), os.path.join(trial.empty(), "plan.log")
        verdict = trial.real("replay", text + log)
        summary = summaries(text, verdict)
        trial.ends(f"press barred, {name}", trial.ask("press", files[0]), 0, log)
        ended = trial.ask("press", files[0], "-o", files[1])
        trial.ends(f"press barred -o, {name}", ended, 0, b"")
        trial.test(f"press barred -o, {name}, the summary", ended.err in summary and verdict.split()[0] in (b"accepted", b"void"), f"{ended.err}")
        trial.test(f"press barred -o, {name}, the log", read(files[1]) == log)
        trial.ends(f"check pressed, {name}", trial.ask("check", *files), 0, verdict, NO_PLAN if verdict == b"void\n" else b"")
        ended = trial.ask("explain", *files)
        trial.ends(f"explain pressed, {name}", ended, 0, err=b"")
        meaning = "No lawful plan exists" if verdict == b"void\n" else f"No lawful plan's total is above {verdict.split()[2].decode()}."
        trial.test(f"explain pressed, {name}, its words", ended.out.startswith(verdict) and meaning in plain(ended.out), f"{ended.out}")
        ended = trial.ask("picture", *files)
        trial.ends(f"picture pressed, {name}", ended, 0)
        trial.test(f"picture pressed, {name}, the judgement", last_line(ended.err) + b"\n" == verdict, f"{ended.err}")


def false_voids(trial):
    """A `press` that says void where it is not so: `replay` turns it back, no log is put in place, and nothing says that no plan is lawful."""
    turned_back = b"ceiling: replay turned back the log that press made\n"
    for name, text, log, number in (
        ("another channel is left", OTHER, VOID, 16), ("a closed combination is left", WORSE, VOID, 16), ("nothing is barred", P4, VOID, 16),
        ("a scope short", NONE, line(5, 0, 1) + line(3, 2), 10), ("nothing is refuted", UNEQUAL, line(5, 0, 1) + line(3, 1), 10),
        ("cut off", NONE, VOID[:-LINE], 14), ("before a bound line", NONE, VOID + line(4), 2), ("after a round of another case", NONE, LATER_LOG, 5),
    ):
        path, to = trial.file("plan.case", text), os.path.join(trial.empty(), "to")
        programs = trial.stand_ins.folder(press=says(log.decode()))
        refusal = trial.real("replay", text + log)
        trial.test(f"a false void line, {name}, its number", refusal.startswith(b"refused %d " % number), f"{refusal}")
        trial.ends(f"press a false void line, {name}", trial.ask("press", path, "-o", to, programs=programs), 1, b"", turned_back + refusal)
        trial.test(f"press a false void line, {name}, no log", os.listdir(os.path.dirname(to)) == [])
        ended = trial.ask("press", path, programs=programs)
        trial.ends(f"press a false void line, {name}, on standard output", ended, 1, err=turned_back + refusal)
        trial.test(f"press a false void line, {name}, log lines at most", log.startswith(ended.out), f"{ended.out}")


def score(links, pairs, values, plan):
    """The total of a plan, None where it is unlawful."""
    used = [weights[plan[i]] for i, weights in enumerate(links)] + [weights[plan[i] * values + plan[j]] for i, j, weights in pairs]
    return None if BARRED in used else sum(used)


def scores(trial):
    """Every plan of a barred case; only unlawful ones; the log beside them."""
    links = [[5, BARRED, 0], [BARRED, -2, 3], [0, 0, BARRED]]
    pairs = [(0, 1, [0, BARRED, 2, 3, 4, 5, 6, 7, 8]), (1, 2, [BARRED, 0, 1] * 3)]
    path = trial.file("plan.case", case(3, links, pairs))
    plans = list(itertools.product(range(3), repeat=3))
    names = [trial.file(f"{at}.plan", " ".join(map(str, plan)).encode()) for at, plan in enumerate(plans)]
    totals = [score(links, pairs, 3, plan) for plan in plans]
    lawful = [total for total in totals if total is not None]
    best = totals.index(max(lawful))
    rows = [f"{'unlawful' if total is None else total} {name}" for total, name in zip(totals, names)]
    ended = trial.ask("score", path, *names)
    trial.ends("score a barred case", ended, 0, "".join(f"{row}\n" for row in [*rows, f"best {rows[best]}"]).encode())
    trial.test("score a barred case, both kinds", 0 < len(lawful) < len(plans))
    said = ended.err.decode().splitlines()
    trial.test("score a barred case, words for the unlawful", len(said) == len(plans) - len(lawful), f"{said}")
    trial.test("score a barred channel, in words", f"{names[9]} is unlawful: channel 1 of link 0 is barred" in said, f"{said}")
    trial.test("score a barred combination, in words", f"{names[4]} is unlawful: channel 0 of link 0 with channel 1 of link 1 is barred" in said, f"{said}")
    at = [totals.index(None), len(totals) - 1 - totals[::-1].index(None)]
    for first, second in (at, at[::-1]):
        out = f"{rows[first]}\n{rows[second]}\nbest {rows[first]}\n".encode()
        trial.ends("score unlawful plans alone", trial.ask("score", path, names[first], names[second]), 0, out)
    plan = trial.file("plan", b"0 0")
    ended = trial.ask("score", *trial.both(NONE, VOID)[:1], plan, "--log", trial.file("plan.log", VOID))
    trial.ends("score beside a void log", ended, 0, f"unlawful {plan}\nbest unlawful {plan}\nvoid\n".encode())
    trial.test("score beside a void log, in words", ended.err.endswith(NO_PLAN), f"{ended.err}")
    files, met = trial.both(OTHER, OTHER_PRESS), trial.file("met", b"1 0")
    for names, out, said in (
        ([plan, met], f"unlawful {plan}\n-5 {met}\nbest -5 {met}\n", b"meets the ceiling: no lawful plan is better\n"),
        ([plan], f"unlawful {plan}\nbest unlawful {plan}\n", b"with channel 0 of link 1 is barred\n"),
    ):
        ended = trial.ask("score", files[0], *names, "--log", files[1])
        trial.ends("score beside a barred case's log", ended, 0, f"{out}accepted 1 -5\n".encode())
        trial.test("score beside a barred case's log, in words", ended.err.endswith(said), f"{ended.err}")
    programs = trial.stand_ins.folder(replay=f'size=$(wc -c)\nif [ "$size" -eq {len(P4)} ]; then echo accepted 0 4; else echo refused 15 1; fi\n')
    trial.ends("score where replay turns back what bars nothing", trial.ask("score", trial.file("plan.case", P4), plan, programs=programs), 2, b"")


def pages(trial):
    """Barred places have a mark of their own, and a void line is shown as the end of the log."""
    mark = b'<span class="bar">barred</span>'
    for name, text, log, void in (
        ("two links", NONE, VOID, [10, 11, 12]), ("the triangle", *sample(trial, "triangle"), [22, 23, 24, 25]),
        ("after a round", LATER, LATER_LOG, [22, 23, 24]), ("no void line", OTHER, OTHER_PRESS, []), ("the valley", *sample(trial, "valley"), []),
        ("a pair round", PAIRED, PAIRED_LOG, []), ("no rounds", UNEQUAL, b"", []),
    ):
        files = trial.both(text, log)
        ended = trial.ask("picture", *files)
        verdict = trial.real("replay", text + log).strip()
        trial.ends(f"picture {name}", ended, 0)
        trial.test(f"picture {name}, the judgement", last_line(ended.err) == verdict and b"<code>%s</code>" % verdict in ended.out, f"{ended.err}")
        trial.test(f"picture {name}, the mark is told", mark in ended.out and str(BARRED).encode() not in ended.out.partition(b"<script>")[0])
        found = [int(at) for at in re.findall(rb'<section class="block"><div class="said"><span class="no">(\d+)</span>', ended.out)]
        trial.test(f"picture {name}, the void line's lines", found == void, f"{found} instead of {void}")
        trial.test(f"picture {name}, void", (b"<h2>The void line</h2>" in ended.out) == bool(void) == (b"<dd>void</dd>" in ended.out))
        table = read_case(text)
        dashed = {int(scope) for scope in re.findall(rb'class="(?:link|pair) bars[^"]*" id="s(\d+)"', ended.out)}
        trial.test(f"picture {name}, dashed", dashed == {scope for scope in range(table.scopes) if table.barred(scope)}, f"{dashed}")
        rounds = verdict.startswith(b"void") and log.count(b"\n 4") > 0
        shown = re.search(rb'id="void">([^<]*)<', ended.out)
        trial.test(f"picture {name}, shown in the network", (b'id="show-void"' in ended.out.partition(b"<script")[0]) == rounds, f"{shown}")
        if rounds:
            trial.test(f"picture {name}, the void line carried", shown[1] == b'{"line": 3, "link": 0, "raised": [1, 4]}', f"{shown}")
        alone = process.on_file([os.path.join(trial.root, "scripts", "picture"), *files], b"")
        trial.test(f"scripts/picture {name}", alone.well and (b"<h2>The void line</h2>" in alone.printed) == bool(void), f"{alone.said}")
    ended = trial.ask("picture", *trial.both(NONE, VOID))
    rows = re.findall(rb'<td class="no">(\d+)</td><td class="text">[^<]*</td><td class="weight">(.*?)</td><td class="why">(.*?)</td>', ended.out)
    rows = [(int(at), weight == mark, word) for at, weight, word in rows]
    wanted = [(1, False, b"active"), (2, True, b""), (3, False, b"active"), (4, True, b"closed"), (6, True, b"closed")]
    trial.test("picture a void line, its rows", rows == wanted + [(at, False, b"active") for at in (7, 8, 9)], f"{rows}")
    wholly = case(1, [[BARRED]], [])
    for text, log, rule, void in ((NONE, VOID + line(4), b"rule 2,", True), (WORSE, VOID, b"rule 16,", False), (wholly, b"", b"Rule 15,", False)):
        ended = trial.ask("picture", *trial.both(text, log))
        trial.ends(f"picture {rule}", ended, 1)
        trial.test(f"picture {rule}, its words", rule in ended.out and (b"<h2>The void line</h2>" in ended.out) == void, f"{ended.out[-900:]}")


def random_logs(trial):
    """Logs of the peer, foreign ones too: the page and the words are those of the verdict, and what is said of 16 is so."""
    met = set()
    for seed in range(90):
        kind = ("small", "mesh", "ring", "flat", "extreme")[seed % 5]
        size = ["--links", str(2 + seed % 4), "--values", str(2 + seed % 2), "--pairs", str(1 + seed % 6), "--barred", str(40 + 10 * (seed % 4))]
        text = trial.peer("generate", kind, "--seed", str(seed), *size)
        own = trial.peer("press", data=text)
        foreign = cut(trial.peer("foreign", "--seed", str(seed), data=text))[1]
        for name, log in (("own", own), ("foreign", foreign), ("tried", voided(trial, text, own))):
            verdict = trial.verdict(text, log)
            files = trial.both(text, log)
            met.add(b" ".join(verdict.split()[: 1 + verdict.startswith(b"refused")]))
            ended = trial.ask("picture", *files)
            good = ended.status == verdict.startswith(b"refused") and last_line(ended.err) == verdict.strip()
            trial.test(f"picture {name} {seed}", good and b"</html>" in ended.out[-20:], f"{verdict} {ended.err}")
            ended = trial.ask("explain", *files)
            trial.test(f"explain {name} {seed}", ended.out.startswith(verdict) and not ended.err, f"{verdict} {ended}")
            if verdict.startswith(b"refused 16 "):
                instead(trial, f"{name} {seed}", text, log, plain(ended.out))
    wanted = {b"accepted", b"void", b"refused 10", b"refused 16"}
    trial.test("random logs meet void, 10 and 16", wanted <= met, f"{met}")


def voided(trial, text, log):
    """A log whose last press is made a void line, or that has one of link 0 with all other scopes raised."""
    starts = [at for at in range(0, len(log), LINE) if log[at : at + 2] == b" 2"]
    if starts:
        at = starts[-1]
        _, link, count, _, _ = map(int, log[at : at + LINE].split())
        return log[:at] + line(5, link, count) + log[at + LINE : at + (count + 1) * LINE]
    scopes = range(1, read_case(text).scopes)
    return line(5, 0, len(scopes)) + b"".join(line(3, scope) for scope in scopes)


def instead(trial, name, text, log, words):
    """What is said not to be barred is neither active nor barred, and the press that is told lowers the ceiling as it is told."""
    at = max(at for at in range(0, len(log), LINE) if log[at : at + 2] == b" 5")
    known = read_log(read_case(text), log[:at])
    found = re.search(r"the weight of (link|pair) (\d+), channels? (\d+)(?: and (\d+),)? is (-?\d+)\.", words)
    press = re.search(r"by (\d+) it lowers the ceiling by as much:\n\n    (.{%d})\n" % (LINE - 1), words)
    trial.test(f"explain 16 {name}, what it says", found and press, words)
    if not found or not press:
        return
    scope = int(found[2]) + known.case.n * (found[1] == "pair")
    place = known.case.span(scope)[0] + (int(found[3]) if found[4] is None else int(found[3]) * known.case.d + int(found[4]))
    weight = known.table[place]
    trial.test(f"explain 16 {name}, the weight", weight == int(found[5]) and weight not in (BARRED, known.greatest[scope]), words)
    raises = log[at + LINE :]
    made = log[:at] + press[2].encode() + b"\n" + raises[: int(press[2][6:10]) * LINE]
    bound = line(4, 0, 0, 0, sum(known.greatest) - int(press[1]))
    trial.test(f"explain 16 {name}, the press", not trial.real("replay", text + made + bound).startswith((b"refused 10", b"refused 11", b"refused 12")), words)


def conversions(trial):
    """There and back again with what is barred; a file that cannot be told apart by weights."""
    links, pairs = [os.path.join(trial.empty(), name) for name in ("links.csv", "pairs.csv")]
    for name, text in (("two links", NONE), ("the valley", sample(trial, "valley")[0])):
        path = trial.file("plan.case", text)
        trial.ends(f"to-csv, barred, {name}", trial.ask("to-csv", path, links, pairs), 0, b"")
        trial.test(f"to-csv, barred, {name}, the word", b"barred" in read(links) and str(BARRED).encode() not in read(links) + read(pairs))
        trial.ends(f"from-csv, barred, {name}", trial.ask("from-csv", links, pairs), 0, text)
        there = trial.ask("to-wcsp", path)
        trial.ends(f"to-wcsp, barred, {name}", there, 0)
        trial.test(f"to-wcsp, barred, {name}, in words", b"what is barred costs" in there.err, f"{there.err}")
        file = trial.file("plan.wcsp", there.out)
        for arguments in (["from-wcsp", file, "--barred"], ["from-wcsp", "--barred", file]):
            back = trial.ask(*arguments)
            trial.ends(f"from-wcsp --barred, {name}", back, 0)
            good = trial.ask("to-wcsp", trial.file("plan.case", back.out)).out == there.out and b"is unlawful" in back.err
            trial.test(f"from-wcsp --barred, {name}, the same again", good, f"{back}"[:300])
        back = trial.ask("from-wcsp", file)
        trial.test(f"from-wcsp, {name}, weighed", back.status == 0 and b"\n14 " not in back.out and b"\n15 " not in back.out, f"{back}"[:300])
    heavy = trial.file("plan.wcsp", b"p 2 2 2 2000000\n2 2\n1 0 0 1\n1 2000000\n1 1 0 1\n1 1000000\n")
    ended = trial.ask("from-wcsp", heavy)
    trial.ends("from-wcsp, what weights cannot tell apart", ended, 1, b"")
    trial.test("from-wcsp, what weights cannot tell apart, the hint", b"with --barred" in ended.err, f"{ended.err}")
    trial.ends("from-wcsp --barred, the same", trial.ask("from-wcsp", heavy, "--barred"), 0, case(2, [[0, BARRED], [0, -1000000]], []))
    trial.ends("press --barred", trial.ask("press", heavy, "--barred"), 2, b"")


def tests(trial):
    for part in (in_cases, in_logs, void_logs, presses, false_voids, scores, pages, random_logs, conversions):
        part(trial)
