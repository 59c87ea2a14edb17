"""`show`, and the page's part on what each link keeps: held against the verified function, in words and in rows."""

import os
import random
import re

from picturing.case import BARRED, MOST_CHANNELS, MOST_LINKS, MOST_PAIRS, read_case
from picturing.columns import LINE
from picturing.families import OUTSIDE, Kept, channels, kept
from picturing.kept import MOST_PARTNERS, left
from picturing.log import read_log
from running import inputs, process
from running.inputs import P4, P4_PRESS, P4_ROUND, case, line
from running.stand_ins import judges

from .barred import LATER, LATER_LOG, NONE, OTHER, PAIRED, PAIRED_LOG, UNEQUAL, VOID
from .trial import plain
from .verdicts import NO_PLAN

# What a byte holds that is lent to the verified function, and the most bytes that its program reads.
LENT, MOST_READ = 46, 240_000

PART = "<h2>Why each channel is kept</h2>"
SETTLED = "Every link keeps a channel: no press and no void line is left."
NOT_PROVED = "computed by the command and not proved; the library's function `ceiling_supported_value` (docs/LIBRARY.md) is the proved one."
NONE_PROVED = "the library's functions `ceiling_supported_value` and, for loops, `ceiling_is_acyclic` (docs/LIBRARY.md) are the proved ones."

# What is said of P4 after its round: both links weigh 0 on both channels, and of their pair, which weighs 1, 2, 2, 0, the unequal ones are active.
P4_WORDS = """\
Link 0 keeps channel 0. Active: channels 0 and 1, of weight 0.

    link 0, of weight 0: channel 0
    link 1, of weight 0: channel 1

    pair 0 (scope 2), of weight 2, links 0 and 1: 0 with 1; links 1 and 0: 1 with 0

Link 1 keeps channel 0. Active: channels 0 and 1, of weight 0.

    link 0, of weight 0: channel 1
    link 1, of weight 0: channel 0

    pair 0 (scope 2), of weight 2, links 0 and 1: 1 with 0; links 1 and 0: 0 with 1
"""


def verified(trial, table, weights):
    """What the verified function answers for each link, None for number 5; a word where it is something else."""
    n, d, m = table.n, table.d, table.m
    text = [line(10, n, d, m)] + [line(11, at // d, at % d, 0, weights[at]) for at in range(n * d)]
    for pair, ends in enumerate(table.pairs):
        first, last = table.span(n + pair)
        text += [line(12, pair, *ends)] + [line(13, pair, at // d, at % d, weight) for at, weight in enumerate(weights[first:last])]
    text += [line(20, link, n, 2 * m * d) for link in range(n)]
    data = b"".join(text)
    rows = process.on_file([trial.programs["families"]], data).printed.decode().split("\n")
    return [answer(link, *rows[3 * link : 3 * link + 3]) for link in range(n)] if len(rows) == 3 * n + 1 and len(data) <= MOST_READ else rows


def answer(link, head, family, partners):
    found = re.fullmatch(rf"link {link} (value|refused) (\d+)", head)
    (first, *family), (second, *partners) = family.split(" "), partners.split(" ")
    if not found or (first, second) != ("family", "partners"):
        return head
    family, partners = list(map(int, family)), bytes(map(int, partners))
    if found[1] == "value":
        return Kept(int(found[2]), family, partners)
    return None if found[2] == "5" and {*family, *partners} <= {LENT} else head


def told(words, table):
    """What the words of `show` say of each link that they name: what it keeps, and which channels are active, and which below it are refuted."""
    found, said = {}, {}
    for part in words.split("\n\nLink ")[1:]:
        link = int(re.match(r"\d+", part)[0])
        keeps = re.match(r"\d+ keeps channel (\d+)\. Active: (channels? [^;.]*)(?:; refuted below it: (channels? [^.]*))?\.", part)
        none = re.match(r"\d+ keeps no channel: all active channels of this link are refuted \((channels? [^)]*)\), so that a press or a void", part)
        said[link] = [numbers(one.partition(", of weight")[0]) for one in (keeps.groups("")[1:] if keeps else none.groups() if none else ())]
        same = re.search(r" The family and its partners are those of link (\d+)\.$", part, re.M)
        family, partners = found[int(same[1])][1:] if same else (told_family(part), told_partners(part, table))
        found[link] = Kept(int(keeps[1]), family, partners) if keeps else None
    return found, said


def numbers(text):
    return [int(one) for one in re.findall(r"\d+", text)]


def told_family(part):
    return [sum(1 << k for k in numbers(one)) for one in re.findall(r"^    link \d+, of weight -?\d+: (.*)$", part, re.M)]


def told_partners(part, table):
    found = bytearray([OUTSIDE]) * (2 * table.m * table.d)
    for pair, (low, high) in enumerate(table.pairs):
        ends = rf"links {low} and {high}: ([^;]*); links {high} and {low}: ([^;]*)"
        row = re.search(rf"^    pair {pair} \(scope {table.n + pair}\), of weight -?\d+, {ends}$", part, re.M)
        for end, words in enumerate(row.groups() if row else ()):
            for k, partner in re.findall(r"(\d+) with (\d+)", words):
                found[(2 * pair + end) * table.d + int(k)] = int(partner)
    return bytes(found)


def told_weights(words):
    """The weights that are said of scopes: each is the greatest of its scope."""
    links = {int(link): int(weight) for link, weight in re.findall(r"^    link (\d+), of weight (-?\d+):", words, re.M)}
    return {**links, **{int(scope): int(weight) for scope, weight in re.findall(r"\(scope (\d+)\), of weight (-?\d+),", words)}}


def states(trial, name, text, log):
    """The answers and the words with the weights after a log are those of the verified function; what it answers."""
    table = read_case(text)
    moves = read_log(table, log)
    wanted = verified(trial, table, moves.table)
    found = kept(table, moves.table)
    trial.test(f"kept {name}", found == wanted, f"{found} instead of {wanted}"[:600])
    files = trial.both(text, log)
    ended = trial.ask("show", *files)
    words = plain(ended.out)
    trial.ends(f"show {name}", ended, 0, err=b"")
    trial.test(f"show {name}, the judgement", words.startswith(trial.real("replay", text + log).decode()), words[:100])
    said, lists = told(words, table)
    trial.test(f"show {name}, what is kept", [said.get(link) for link in range(table.n)] == wanted and len(said) == table.n, words[:600])
    active = [[k for k, weight in enumerate(moves.weights(link)) if weight == moves.greatest[link]] for link in range(table.n)]
    good = [[one, [k for k in one if k < keeps.value]] if keeps else [one] for one, keeps in zip(active, found)]
    trial.test(f"show {name}, active and refuted", [lists.get(link) for link in range(table.n)] == good, f"{lists} instead of {good}"[:600])
    wrong = {scope: weight for scope, weight in told_weights(words).items() if weight != moves.greatest[scope]}
    trial.test(f"show {name}, the weights", not wrong, f"{wrong}")
    trial.test(f"show {name}, whether all is settled", (SETTLED in words) == (None not in found) or table.n == 1, words[:400])
    trial.test(f"show {name}, not proved", words.endswith(NONE_PROVED + "\n"), words[-200:])
    return found, files


def samples(trial):
    """The stored cases with their logs and without; by hand what P4 and the valley keep."""
    triangle = trial.sample("triangle.case")
    valley, barred = [(trial.sample(f"{name}.case"), trial.sample(f"{name}.log")) for name in ("valley", "valley-barred")]
    plan = numbers(trial.sample("valley.plan").decode())
    for name, text, log in (
        ("the valley", *valley), ("the barred valley", *barred), ("the triangle", triangle, trial.real("press", triangle)), ("P4", P4, P4_ROUND),
        ("P4 pressed", P4, P4_PRESS), ("a press and bars", PAIRED, PAIRED_LOG), ("unequal channels", UNEQUAL, b""),
        ("161 presses", *inputs.many_rounds()), ("141 scopes", *inputs.long_round()), ("24 pair rounds", *inputs.pair_rounds()),
        ("one link", case(1, [[-7]], []), b""), ("no pairs", case(3, [[1, 1, 0], [BARRED, 5, 5], [0, 0, 0]], []), b""),
        ("before a void line", LATER, LATER_LOG[: 3 * LINE]),
    ):
        found, files = states(trial, name, text, log)
        states(trial, f"{name} at the start", text, b"")
        for link in (0, len(found) - 1):
            words = plain(trial.ask("show", *files, str(link)).out)
            said = told(words, read_case(text))[0]
            trial.test(f"show {name}, link {link} alone", said == {link: found[link]} and words.endswith(NOT_PROVED + "\n"), words)
        if "valley" in name:
            trial.test(f"{name}, its plan is kept", [one and one.value for one in found] == plan, f"{found}")


def in_whole(trial):
    """What is said word for word: of P4 after its round, of the starting weights, of links without pairs."""
    words = plain(trial.ask("show", *trial.both(P4, P4_ROUND)).out)
    head = f"accepted 1 2\nThe weights are those after 1 round, with the ceiling 2.\n{SETTLED}\n"
    trial.test("show P4, in whole", words.startswith(head) and words.partition("\n\n")[2].startswith(P4_WORDS), words)
    words = plain(trial.ask("show", trial.file("plan.case", trial.sample("valley.case")), "/dev/null").out)
    head = "accepted 0 51\nThe weights are the starting weights, with the ceiling 51.\nNo link keeps a channel: all active channels there are refuted"
    trial.test("show the valley with /dev/null", words.startswith(head), words)
    for links, rows in (
        ([[3]], ["    link 0, of weight 3: channel 0"]),
        ([[1, 0], [0, 0]], ["    link 0, of weight 1: channel 0", "    link 1, of weight 0: channels 0 and 1"]),
    ):
        words = plain(trial.ask("show", trial.file("plan.case", case(len(links[0]), links, [])), "/dev/null", "0").out)
        trial.test("show links without pairs", "\n".join(["", "", *rows, "", ""]) in words and "pair 0" not in words, words)


def random_cases(trial):
    """Cases of the peer, small and large, after logs of the program `press` that are cut after some round."""
    chance, none, some = random.Random(3), 0, 0
    for seed in range(72):
        kind = ("small", "mesh", "ring", "uniform", "tree", "unusable", "chain", "flat")[seed % 8]
        n, d, m = (2 + seed % 5, 1 + seed % 4, seed % 8) if seed < 40 else (10 + seed % 23, 3 + seed % 6, 12 + seed % 37)
        if seed % 24 == 23:
            n, d, m = MOST_LINKS, MOST_CHANNELS, MOST_PAIRS
        size = ["--links", str(n), "--values", str(d), "--pairs", str(m), "--barred", str((0, 20, 50)[seed % 3])]
        text = trial.peer("generate", kind, "--seed", str(seed), *size)
        log = trial.real("press", text)
        ends = [at + LINE for at in range(0, len(log), LINE) if log[at : at + 2] == b" 4"]
        cut = log[: ([0] + ends)[-1 if seed % 2 else chance.randrange(len(ends) + 1)]]
        found, files = states(trial, f"{kind} {seed}", text, cut)
        none, some = none + found.count(None), some + len(found) - found.count(None)
        if seed % 3 == 0:
            page(trial, f"{kind} {seed}", found, trial.ask("picture", *files).out.decode())
    trial.test("links with and without a kept channel", min(none, some) > 100, f"{none} and {some}")


def page(trial, name, found, text):
    """The page's rows: what is kept, the family and, where the page carries them, the partners."""
    part = text.partition(PART)[2].partition("<h2>How to read it</h2>")[0]
    trial.test(f"picture {name}, settled", (SETTLED in part) == (None not in found), part[:300])
    rows = re.findall(r'^<tr id="kept-(\d+)"><td>(\d+)</td><td class="own">(\d+)</td>(.*)</tr>$', part, re.M)
    wanted = [(link, one) for link, one in enumerate(found) if one]
    values = [(int(row[1]), int(row[2])) for row in rows]
    trial.test(f"picture {name}, what is kept", values == [(link, one.value) for link, one in wanted], f"{values}")
    for (link, _, _, row), (_, one) in zip(rows, wanted):
        sets = [sum(1 << k for k in numbers(cell)) for cell in re.findall(r'<td(?: class="own")?>([\d ]*)</td>', row)]
        both = [channels(one.family[int(here)]) for here in re.findall(r"<td>links (\d+) and", row)]
        shown = [numbers(" ".join(re.findall(r"(\d+) with", cell))) for cell in re.findall(r"<td>links \d+ and \d+: ([^<]*)</td>", row)]
        pairs = bytes(map(int, re.findall(r"\d+ with (\d+)", row)))
        elsewhere = re.search(r"partners: (?:those of link (\d+)|by <code>)", row)
        alike = not elsewhere or not elsewhere[1] or found[int(elsewhere[1])].family == one.family
        good = sets == one.family and both == shown and pairs == (b"" if elsewhere else one.partners.replace(bytes([OUTSIDE]), b""))
        trial.test(f"picture {name}, link {link}", good and alike, row[:600])


def pages(trial):
    """The part of the page where a log is accepted, by `scripts/picture` too; none where it is refused or void; kept small for the largest case."""
    for name, text, log, has in (
        ("the valley", trial.sample("valley.case"), trial.sample("valley.log"), True), ("no rounds", P4, b"", True),
        ("one link", case(1, [[0]], []), b"", True), ("void", NONE, VOID, False), ("void after a round", LATER, LATER_LOG, False),
        ("refused", P4, P4_ROUND[:-LINE], False),
    ):
        files = trial.both(text, log)
        drawn = trial.ask("picture", *files).out.decode()
        alone = process.on_file([os.path.join(trial.root, "scripts", "picture"), *files], b"").printed.decode()
        trial.test(f"picture {name}, the part", (PART in drawn) == (PART in alone) == has, drawn[-600:])
        if has:
            page(trial, name, kept(read_case(text), read_log(read_case(text), log).table), alone)
    three, one = "Links 0, 1 and 2 keep no channel: all active channels there are", "Link 1 keeps no channel: all active channels of this link are"
    apart = case(2, [[0, 0]] * 4, [(i, j, [-1, 0, 0, -1]) for i, j in ((0, 1), (0, 2), (1, 2))])
    drawn = trial.ask("picture", *trial.both(apart, b"")).out.decode()
    trial.test("picture a triangle and a link apart", three in drawn and re.findall(r'id="kept-(\d+)"', drawn) == ["3"], drawn.partition(PART)[2])
    trial.test("one link that keeps none", left([Kept(0, [1, 1], b""), None]).startswith(one))
    pairs = [(i, j, [0] * MOST_CHANNELS**2) for i in range(MOST_LINKS) for j in (i + 1, i + 2) if j < MOST_LINKS]
    largest = trial.ask("picture", *trial.both(case(MOST_CHANNELS, [[0] * MOST_CHANNELS] * MOST_LINKS, pairs), b"")).out
    trial.test("picture the largest case, kept small", len(largest) < MOST_PARTNERS + 200_000 and b"first links only" in largest, f"{len(largest)}")


def turned_down(trial):
    """Refused: as `check` does. Void: nothing to show."""
    for name, text, log in (
        ("a log", P4, P4_ROUND[:-1]), ("a press", P4, P4_PRESS[:LINE] + P4_PRESS[2 * LINE :]), ("a case", P4[:-1], b""), ("a void line", OTHER, VOID)
    ):
        files = trial.both(text, log)
        check = trial.ask("check", *files)
        trial.ends(f"show {name} that is refused", trial.ask("show", *files), 1, check.out, check.err)
        trial.ends(f"show link 9 of {name} that is refused", trial.ask("show", *files, "9"), 1, check.out, check.err)
    barred = trial.sample("triangle-barred.case"), trial.sample("triangle-barred.log")
    out = b"void\n" + NO_PLAN.replace(b"no", b"No", 1).strip() + b". There is nothing to show.\n"
    for text, log in (barred, (LATER, LATER_LOG)):
        for more in ([], ["0"]):
            trial.ends("show a void log", trial.ask("show", *trial.both(text, log), *more), 0, out, b"")


def links(trial):
    """A link that is not there, or no link: status 2 and nothing on standard output. A log that is not as it was judged: none either."""
    files, void = trial.both(P4, P4_ROUND), trial.both(NONE, VOID)
    single = trial.file("plan.case", case(1, [[0]], [])), "/dev/null"
    two = "links 0 to 1"
    for names, link, has in ((files, 2, two), (files, 48, two), (files, 999999999, two), (single, 1, "link 0 alone"), (void, 2, two)):
        words = f"ceiling: there is no link {link}: the case has {has}\n".encode()
        trial.ends(f"show link {link}", trial.ask("show", *names, str(link)), 2, b"", words)
    for link in ("x", "", "-1", "1.0", "+1", "0x1", "1 ", "9999999999", "\u0661"):
        ended = trial.ask("show", *files, link)
        trial.ends(f"show link {link!r}", ended, 2, b"")
        trial.test(f"show link {link!r}, in words", b"is no number of a link" in ended.err, f"{ended.err}")
    words = f"ceiling: {files[1]}: changed while it was read\n".encode()
    for said in ("accepted 1 3", "accepted 2 2"):
        programs = trial.stand_ins.folder(replay=judges(len(P4), "echo accepted 0 4\n", f"echo {said}\n"))
        trial.ends(f"show where replay says {said}", trial.ask("show", *files, programs=programs), 2, b"", words)


def tests(trial):
    there = os.access(trial.programs["families"], os.X_OK)
    trial.test("the program of the verified function", there, trial.programs["families"])
    for part in (*[samples, random_cases] * there, in_whole, pages, turned_down, links):
        part(trial)
