"""What `explain` says of each number: the figures that the words must hold, the place in the file, and for number 10 the family."""

import os
import random
import re

from picturing.case import MOST_CHANNELS, MOST_LINKS, MOST_PAIRS, STARTING, read_case
from picturing.columns import COLUMNS, LINE
from picturing.log import MOVE, WORKING, read_log
from running.inputs import P4, P4_PRESS, case, line, with_line

from .trial import cut, plain
from .verdicts import explained

TRIANGLE = case(2, [[0, 0]] * 3, [(i, j, [-1, 0, 0, -1]) for i, j in ((0, 1), (0, 2), (1, 2))])
# A case whose figures nobody takes for others: its ceiling is 2011, and 1511 after the press by 500.
ODD = case(2, [[1234, 0], [777, 0]], [(0, 1, [-3000, 0, 0, 0])])
ODD_PRESS = line(2, 0, 2, 0, 500) + line(3, 1) + line(3, 2)

# Words that promise nothing of a line whose other numbers were not asked yet.
UNPROMISED = r"\A(?!.*would be right)"


def with_byte(text, at, byte):
    return text[:at] + byte + text[at + len(byte) :]


def asked(trial, name, text, number, patterns, byte=None):
    """A test that a case and its log get the number, and that the words hold each pattern and the byte of the file."""
    case, log = text if isinstance(text, tuple) else (text, None)
    files = trial.both(case, log) if log is not None else [trial.file("plan.case", case)]
    verdict = trial.verdict(case, log or b"")
    trial.test(f"{name} is refused by {number}", verdict.split()[:2] == [b"refused", b"%d" % number], f"{verdict}")
    words = explained(trial, name, files, case, verdict)
    missing = [pattern for pattern in patterns if not re.search(pattern, words, re.I | re.S | re.M)]
    trial.test(f"explain {name}, its words", not missing, f"{missing} not in {words}")
    if byte:
        column = (byte - 1) % LINE + 1
        good = re.search(rf"\bbyte {byte}\b", words) and re.search(rf"\bcharacter {column} of the line\b", words)
        trial.test(f"explain {name}, the byte", good, f"character {column}, byte {byte} not in {words}")


def not_in_columns(trial):
    """Number 1 in the case and in the log: line ends, marks and encodings, and every way to write a number wrongly."""
    crlf = P4.replace(b"\n", b"\r\n")
    for name, text, patterns, byte in (
        ("CRLF", crlf, ["CRLF|carriage return"], LINE),
        ("a byte order mark", b"\xef\xbb\xbf" + P4, ["byte order mark|BOM"], 1),
        ("a byte order mark and CRLF", b"\xef\xbb\xbf" + crlf, ["byte order mark|BOM"], 1),
        ("UTF-16", P4.decode().encode("utf-16"), ["UTF-16"], 1),
        ("UTF-16 without a mark", P4.decode().encode("utf-16-le"), ["UTF-16"], None),
        ("UTF-16 the other way round", P4.decode().encode("utf-16-be"), ["UTF-16"], None),
        ("a tab", with_byte(P4, 2 * LINE + 5, b"\t"), [r"\btab"], 2 * LINE + 6),
        ("a line feed that is missing", P4[: 3 * LINE - 1] + P4[3 * LINE :], ["line feed"], 3 * LINE),
        ("a line feed too early", P4[: 2 * LINE + 3] + P4[2 * LINE + 4 :], ["line feed"], 3 * LINE - 1),
        ("an empty line", P4[: 3 * LINE] + b"\n" + P4[3 * LINE :], ["empty|line feed"], 3 * LINE + 1),
        ("one line with CRLF", P4[: 3 * LINE - 1] + b"\r" + P4[3 * LINE - 1 :], ["carriage return|CRLF"], 3 * LINE),
        ("a log with CRLF", (P4, P4_PRESS.replace(b"\n", b"\r\n")), ["CRLF|carriage return"], LINE),
        ("a log with a byte order mark", (P4, b"\xef\xbb\xbf" + P4_PRESS), ["byte order mark|BOM"], 1),
        ("a log in UTF-16", (P4, P4_PRESS.decode().encode("utf-16")), ["UTF-16"], 1),
        ("a tab in the log", (P4, with_byte(P4_PRESS, LINE + 4, b"\t")), [r"\btab"], LINE + 5),
    ):
        asked(trial, name, text, 1, patterns, byte)
    first, end = COLUMNS[4]
    for name, amount, pattern, back in (
        ("a number not at the edge", b"2 ", "right", None), ("a leading zero", b"02", "leading zero", None), ("minus 0", b"-0", "-0", None),
        ("a plus sign", b"+2", "plus", 1), ("a letter", b"2x", "letter|x", 0), ("a point", b"2.5", "point|[.]", 1), ("a separator", b"2,000", ",", 3),
        ("a space after the minus", b"- 2", "minus|-", None), ("two minus signs", b"--2", "minus|-", None), ("an empty column", b"", "number", None),
    ):
        changed = line(11)[:first] + amount.rjust(end - first) + b"\n"
        asked(trial, name, with_line(P4, 1, changed), 1, [pattern], LINE + end - back if back is not None else None)
    signs(trial)


def signs(trial):
    """Characters of several bytes, as text programs put them: the character and its column as an editor counts it, and the line as it should be."""
    first = line(11, 0, 0, 0, -5)
    proper = rf"^    {first.decode()}"
    for name, at, sign, patterns in (
        ("a minus sign of text", LINE - 3, "\u2212", ["minus sign", r"U\+2212", "write `-`", proper]),
        ("a hard space", 3, "\u00a0", ["hard space", r"U\+00A0", proper]),
        ("a letter of two bytes", 5, "\u00e9", [r"U\+00E9"]),
        ("a letter of Latin-1", 5, b"\xe9", [r"byte E9"]),
        ("half a character", LINE - 2, b"\xe2\x88", ["byte E2"]),
        ("a hard space behind the line", LINE - 1, "\u00a0", ["hard space", f"after {LINE - 1} bytes a line feed is due"]),
    ):
        sign = sign if isinstance(sign, bytes) else sign.encode()
        text = first[:at] + sign + first[at + (at < LINE - 1) :]
        asked(trial, name, P4[:LINE] + text + P4[2 * LINE :], 1, patterns, LINE + at + 1)


def foreign(trial):
    """A file that is neither case nor log: what it is, and what makes a case of it."""
    judgement, pages = "judgement that a program printed, not a", trial.sample("valley-links.csv")
    for name, data, number, patterns in (
        ("a refusal", b"refused 10 91\n", 14, [judgement]), ("an acceptance", b"accepted 5 44\n", 14, [judgement]),
        ("a long acceptance", b"accepted 5 44\n" * 3, 1, [judgement]), ("a workbook", b"PK\x03\x04" + bytes(60), 1, ["workbook", "from-csv"]),
        ("links", pages, 1, ["CSV", "from-csv"]), ("links with a mark", b"\xef\xbb\xbf" + pages, 1, ["CSV", "from-csv"]),
        ("pairs", trial.sample("valley-pairs.csv"), 1, ["CSV", "from-csv"]), ("a corner that is empty", b'"";A;B\r\n' * 9, 1, ["CSV", "from-csv"]),
        ("a wcsp file", b"plan 2 2 3 4\n2 2\n1 0 0 1\n1 2\n", 1, ["wcsp", "from-wcsp"]),
    ):
        asked(trial, f"{name} as a case", data, number, [*patterns, "not a case sheet"])
        asked(trial, f"{name} as a log", (P4, data), number, [patterns[0], "not a log", "ceiling press"])
    asked(trial, "a head with commas", b"10,2,2,1,0\n" + P4[LINE:], 1, ["Written in columns", r"\A(?!.*(CSV|wcsp))"])
    asked(trial, "a tab first", (P4, with_byte(P4_PRESS, 0, b"\t")), 1, [r"\btab", r"\A(?!.*CSV)"], 1)
    asked(trial, "a head without columns", b"10 2 2 1 0\n" + P4[LINE:], 1, ["Written in columns", r"\A(?!.*(CSV|wcsp))"])


def kinds(trial):
    """Number 2: the kinds that are due, the column that must be 0."""
    press, raised, rest = P4_PRESS[:LINE], P4_PRESS[LINE : 2 * LINE], P4_PRESS[2 * LINE :]
    for name, text, patterns in (
        ("another head", with_line(P4, 0, line(11, 2, 2, 1)), [r"\b10\b"]),
        ("a pair weight for a link's", with_line(P4, 2, line(13, 0, 1)), [r"\b11\b"]),
        ("a link weight for a pair", with_line(P4, 5, line(11, 2, 0)), [r"\b12\b"]),
        ("a pair for its weight", with_line(P4, 6, line(12, 0, 0, 0)), [r"\b13\b"]),
        ("a head with an amount", with_line(P4, 0, line(10, 2, 2, 1, 5)), ["amount"]),
        ("a link weight with c", with_line(P4, 2, line(11, 0, 1, 7, 0)), [r"\bc\b"]),
        ("a raise line first", (P4, line(3, 1)), [r"\b1\b.*\b2\b.*\b4\b", r"\A(?!.*too small)"]),
        ("a kind that nobody knows", (P4, line(77)), [r"\b1\b.*\b2\b.*\b4\b"]),
        ("a bound line in a press", (P4, press + raised + line(4, 0, 0, 0, 2)), [r"\b3\b|raise"]),
        ("a raise line too many", (P4, P4_PRESS[:-LINE] + line(3, 2)), [r"\b1\b.*\b2\b.*\b4\b", "press of link 0 in line 1 counts 2 .*too small"]),
        ("a raise line after a bound line", (P4, P4_PRESS + line(3, 2)), [r"\b4\b", r"\A(?!.*too small)"]),
        ("a bound line with a", (P4, P4_PRESS[:-LINE] + line(4, 1, 0, 0, 2)), [r"\ba\b"]),
        ("a raise line with an amount", (P4, press + line(3, 1, 0, 0, 1) + rest), ["amount"]),
        ("a raise line with b", (P4, press + line(3, 1, 5) + rest), [r"\bb\b"]),
        ("a press with c", (P4, line(2, 0, 2, 1, 2) + raised + rest), [r"\bc\b"]),
    ):
        asked(trial, name, text, 2, patterns)
    with open(os.path.join(trial.root, "docs", "RULES.md"), encoding="utf-8") as file:
        parts = re.split(r"^## ", file.read(), flags=re.M)
    named = {part.partition(".")[0]: part for part in parts}
    trial.test("the parts of the rules that are named", "line feed" in named.get("2", "") and "| 14 |" in named.get("8", ""), f"{list(named)}")


def ranges(trial):
    """Numbers 3, 5 and 8: the limits, the place that is due, the range."""
    for name, head, pattern in (
        ("links past the limit", line(10, MOST_LINKS + 1, 2, 1), f"1 to {MOST_LINKS}"), ("no links", line(10, 0, 2, 1), f"1 to {MOST_LINKS}"),
        ("channels past the limit", line(10, 2, MOST_CHANNELS + 1, 1), f"1 to {MOST_CHANNELS}"),
        ("no channels", line(10, 2, 0, 1), f"1 to {MOST_CHANNELS}"),
        ("pairs past the limit", line(10, 2, 2, MOST_PAIRS + 1), f"0 to {MOST_PAIRS}"), ("-1 pairs", line(10, 2, 2, -1), f"0 to {MOST_PAIRS}"),
    ):
        asked(trial, name, with_line(P4, 0, head), 3, [rf"\b{pattern}\b"])
    for name, at, new, pattern in (
        ("another link's weight", 6, line(11, 1, 1), "link 2, channel 1.*kind 11, a 2, b 1"),
        ("another channel's weight", 5, line(11, 2, 1), "link 2, channel 0.*kind 11, a 2, b 0"),
        ("another pair", 12, line(12, 2, 0, 2), r"pair 1\b.*kind 12, a 1"),
        ("another pair's weight", 15, line(13, 0, 1, 0), "pair 1, channels? 1 and 0.*kind 13, a 1, b 1, c 0"),
        ("another combination's weight", 15, line(13, 1, 1, 1), "pair 1, channels? 1 and 0.*kind 13, a 1, b 1, c 0"),
        ("a pair of a link that is not there", 12, line(12, 1, 0, 3), r"\b0 to 2\b"),
    ):
        asked(trial, name, with_line(TRIANGLE, at, new), 5, [pattern])
    heads(trial)
    neighbours(trial)
    for name, new, pattern in (
        ("a press of link 2", line(2, 2, 2, 0, 1), "the case has links 0 to 1"), ("a press of 3 scopes", line(2, 0, 3, 0, 1), r"\b1 to 2\b"),
        ("a press of no scope", line(2, 0, 0, 0, 1), r"\b1 to 2\b"), ("a press by 0", line(2, 0, 2, 0, 0), rf"\b1 and {MOVE}\b"),
        ("scope 3", line(2, 0, 2, 0, 1) + line(3, 3), "the case has scopes 0 to 2"),
        ("a shift of pair 1", line(1, 1, 0, 0, 1), "the case has pair 0 alone"),
        ("a shift at end 2", line(1, 0, 2, 0, 1), "ends are 0 and 1"), ("a shift of channel 2", line(1, 0, 0, 2, 1), "the case has channels 0 to 1"),
        ("a shift by 0", line(1, 0, 0, 0, 0), rf"\b0\b.*{MOVE}\b"), ("a shift by too much", line(1, 0, 0, 0, MOVE + 1), rf"\b{MOVE}\b"),
    ):
        asked(trial, name, (P4, new), 5, [pattern, UNPROMISED])
    single = case(1, [[0]], [])
    asked(trial, "a shift without pairs", (single, line(1, 0, 0, 0, 1)), 5, ["the case has no pairs", UNPROMISED])
    asked(trial, "a press without other scopes", (single, line(2, 0, 1, 0, 1)), 5, ["none can be raised", UNPROMISED])
    asked(trial, "a press with one other scope", (case(1, [[0]] * 2, []), line(2, 0, 2, 0, 1)), 5, ["1 can be raised", UNPROMISED])
    for name, at, new in (
        ("a link weight too great", 1, line(11, 0, 0, 0, STARTING + 1)), ("a pair weight too small", 7, line(13, 0, 0, 1, -STARTING - 1))
    ):
        asked(trial, name, with_line(P4, at, new), 8, [rf"-{STARTING}\b", rf"[^-]\b{STARTING}\b"])


def heads(trial):
    """A head that counts too little or too much: the words say what it counts."""
    counts = "By its head the case has"
    for name, text, size, ends in (
        ("a pair too few", with_line(TRIANGLE, 0, line(10, 3, 2, 2)), "3 links, 2 channels and 2 pairs", 17),
        ("all pairs too few", with_line(TRIANGLE, 0, line(10, 3, 2, 0)), "3 links, 2 channels and 0 pairs", 7),
        ("a link too few", with_line(case(2, [[0, 1]] * 3, []), 0, line(10, 2, 2)), "2 links, 2 channels and 0 pairs", 5),
    ):
        asked(trial, f"a head with {name}", text, 2, [f"{counts} {size} and ends with line {ends};", "head .* too few", r"\A(?!.*(shift|a log))"])
    for name, links, size in (("a link too few, and pairs", 2, "2 links"), ("a link too many", 4, "4 links")):
        asked(trial, f"a head with {name}", with_line(TRIANGLE, 0, line(10, links, 2, 3)), 2, [f"{counts} {size}, 2 channels and 3 pairs"])
    for channels in (1, 3):
        head = line(10, 3, channels, 3)
        size = "1 channel" if channels == 1 else f"{channels} channels"
        asked(trial, f"a head with {size} of 2", with_line(TRIANGLE, 0, head), 5, [f"{counts} 3 links, {size} and 3 pairs"])
    asked(trial, "a case line after a log", P4 + P4_PRESS + line(13, 0, 1, 1), 2, ["line of a case", "which ends with line 10"])


def neighbours(trial):
    """A line that is missing, doubled or exchanged with the next: its numbers may be right where it stands."""
    rows = [TRIANGLE[at : at + LINE] for at in range(0, len(TRIANGLE), LINE)]
    for name, at, number in (("a link weight", 2, 5), ("a pair weight", 9, 5), ("the last weight of a link", 4, 5), ("a pair's last weight", 11, 2)):
        missing = b"".join(rows[:at] + rows[at + 1 :])
        asked(trial, f"{name} missing", missing, number, [rf"Line {at + 1}: here", "perhaps a line is missing before it"])
    for name, at, number in (("a link weight", 2, 5), ("a pair weight", 9, 5), ("a pair", 7, 2), ("the first link weight", 1, 5)):
        twice = b"".join(rows[: at + 1] + rows[at:])
        asked(trial, f"{name} twice", twice, number, [rf"Line {at + 2}: here", "perhaps that line stands twice"])
        turned = b"".join(rows[:at] + [rows[at + 1], rows[at]] + rows[at + 2 :])
        asked(trial, f"{name} after the next line", turned, number, ["this line and the next one have changed places"])
    far = with_line(TRIANGLE, 2, line(11, 2, 1))
    asked(trial, "a place far away", far, 5, [r"another place than the one that is due\.$", r"\A(?!.*perhaps)"])


def order(trial):
    """Numbers 6, 7 and 9: the links, the line of the earlier pair, the raise line before."""
    asked(trial, "links turned round", with_line(TRIANGLE, 12, line(12, 1, 2, 0)), 6, [r"\b2\b", r"\b0\b", "below|lower|smaller|ascend"])
    there = [r"links 0 and 1 are joined by pair 0 already, in line 8", UNPROMISED]
    asked(trial, "links turned round and paired twice", with_line(TRIANGLE, 12, line(12, 1, 1, 0)), 6, there)
    asked(trial, "a link with itself", with_line(TRIANGLE, 12, line(12, 1, 2, 2)), 6, [r"\b2\b", "below|lower|smaller|ascend|itself"])
    asked(trial, "links paired twice", with_line(TRIANGLE, 12, line(12, 1, 0, 1)), 7, [r"\bpair 0\b", r"\bline 8\b"])
    asked(trial, "the last pair again", with_line(TRIANGLE, 17, line(12, 2, 0, 2)), 7, [r"\bpair 1\b", r"\bline 13\b"])
    press = line(2, 1, 3, 0, 1) + line(3, 3)
    asked(trial, "a scope again", (TRIANGLE, press + line(3, 3)), 9, [r"\b3\b", r"\bline 2\b|above|ascend"])
    asked(trial, "a scope below", (TRIANGLE, press + line(3, 2)), 9, [r"\bscope 3\b", r"\bline 2\b|above|ascend"])
    asked(trial, "the own scope", (TRIANGLE, line(2, 1, 3, 0, 1) + line(3, 1)), 9, ["own", r"\b1\b"])


def figures(trial):
    """Numbers 11, 12 and 13: the weight, the ceiling that is right here, both ceilings."""
    far = WORKING + 5000
    for name, log, weights in (
        ("a shift too far up", line(1, 0, 0, 0, far), (far + 1234, -far - 3000, -far)),
        ("a shift too far down", line(1, 0, 1, 1, -far), (-far, far)),
        ("a press too far", line(2, 0, 2, 0, far) + line(3, 1) + line(3, 2), (1234 - far, far, far - 3000)),
    ):
        asked(trial, name, (ODD, log), 11, ["|".join(rf"(?<![-\d]){weight}\b" for weight in weights), rf"\b{WORKING}\b"])
    for name, log, right in (
        ("a wrong ceiling", ODD_PRESS + line(4, 0, 0, 0, 1500), "1511"), ("a ceiling without a move", line(4, 0, 0, 0, 7), "2011"),
        ("a wrong ceiling in the second round", ODD_PRESS + line(4, 0, 0, 0, 1511) + line(1, 0, 0, 0, 100) + line(4, 0, 0, 0, 1499), "1611"),
    ):
        asked(trial, name, (ODD, log), 12, [rf"ceiling is {right}\b"])
    for name, log, first, now in (
        ("a higher ceiling", line(1, 0, 0, 0, 100) + line(4, 0, 0, 0, 2111), 2011, 2111),
        ("the same ceiling", line(4, 0, 0, 0, 2011), 2011, 2011),
        ("a higher ceiling in the second round", ODD_PRESS + line(4, 0, 0, 0, 1511) + line(1, 0, 0, 0, 100) + line(4, 0, 0, 0, 1611), 1511, 1611),
    ):
        asked(trial, name, (ODD, log), 13, [rf"\b{first}\b.*\b{now}\b|\b{now}\b.*\b{first}\b"])


def cut_off(trial):
    """Number 14: what is missing of a line, a press, a round, a case."""
    raised = len(ODD_PRESS) - LINE
    for name, text, patterns, byte in (
        ("the last line feed", P4[:-1], ["line feed", "accepted 0 4"], len(P4)),
        ("5 bytes of a case", P4[:-5], [rf"\b5\b|\b{LINE - 5}\b"], None),
        ("the last line of a case", P4[:-LINE], ["pair 0, channels? 1 and 1", "kind 13, a 0, b 1, c 1"], None),
        ("a case after its head", P4[:LINE], ["link 0, channel 0", "kind 11, a 0, b 0"], None),
        ("a pair line", P4[: 5 * LINE], [r"pair 0\b", "kind 12, a 0"], None),
        ("a case", b"", [r"\bhead\b|kind 10|empty"], None),
        ("5 bytes of a log", (ODD, ODD_PRESS + line(4, 0, 0, 0, 1511)[:-5]), [rf"\b5\b|\b{LINE - 5}\b"], None),
        ("a log's last line feed", (ODD, ODD_PRESS + line(4, 0, 0, 0, 1511)[:-1]), ["line feed", "accepted 1 1511"], len(ODD_PRESS) + LINE),
        ("two raise lines", (ODD, ODD_PRESS[:LINE]), [r"\b2 (more raise lines|missing)", "moves or"], None),
        ("one raise line", (ODD, ODD_PRESS[:raised]), [r"\b1 (more raise line|missing)\b"], None),
        ("a bound line", (ODD, ODD_PRESS), ["bound", r"\b1511\b"], None),
        ("a bound line after a shift", (ODD, line(1, 0, 0, 1, 5)), ["bound"], None),
        ("part of a line after the case", (P4, b" "), [rf"\b{LINE - 1}\b|\b1\b|blank"], None),
        ("the feed of a wrong bound line", (TRIANGLE, line(4, 0, 0, 0, 99)[:-1]), ["line feed", "refused 12 22", r"ceiling is 0 here"], LINE),
        ("the feed of a press", (ODD, ODD_PRESS[: LINE - 1]), ["line feed", "refused 14 11", r"\b2 missing"], LINE),
        ("the feed of a raise line", (ODD, ODD_PRESS[:-1]), ["line feed", "refused 14 13", r"\b1511\b"], len(ODD_PRESS)),
        ("the feed of a head", P4[: LINE - 1], ["line feed", "refused 14 1`", "kind 11, a 0, b 0"], LINE),
        ("the feed of a weight too great", P4[:LINE] + line(11, 0, 0, 0, STARTING + 1)[:-1], ["line feed", "refused 8 1`"], 2 * LINE),
        ("a log's last line feed behind its case", ODD + ODD_PRESS[:-1], ["line feed", "refused 14 13", r"\b1511\b"], len(ODD + ODD_PRESS)),
    ):
        asked(trial, f"{name} is missing", text, 14, patterns, byte)


class State:
    """Working weights and raised scopes where a press is asked: what is active, what is closed."""

    def __init__(self, text, log, press):
        """`press` is the line of the log at which the press begins."""
        self.case = read_case(text)
        self.table = read_log(self.case, log[: press * LINE]).table
        kind, self.link, count, _, self.amount = map(int, log[press * LINE : (press + 1) * LINE].split())
        lines = [log[at * LINE : (at + 1) * LINE] for at in range(press + 1, press + 1 + count)]
        self.raised = {int(one[2:6]) for one in lines}

    def is_open(self, scope, *values):
        first, last = self.case.span(scope)
        at = values[0] if len(values) == 1 else values[0] * self.case.d + values[1]
        return scope not in self.raised or self.table[first + at] == max(self.table[first:last])

    def active(self):
        first, last = self.case.span(self.link)
        return [at - first for at in range(first, last) if self.table[at] == max(self.table[first:last])]

    def unsupported(self, family):
        """The values of a family that are closed or have no partner across some pair."""
        wrong = [(i, k) for i, values in enumerate(family) for k in values if not self.is_open(i, k)]
        for e, (i, j) in enumerate(self.case.pairs):
            scope = self.case.n + e
            wrong += [(i, k) for k in family[i] if not any(self.is_open(scope, k, l) for l in family[j])]
            wrong += [(j, l) for l in family[j] if not any(self.is_open(scope, k, l) for k in family[i])]
        return wrong

    def largest(self, value):
        """The largest family with this one value for the link: what is left when unsupported values go."""
        family = [set(range(self.case.d)) for _ in range(self.case.n)]
        family[self.link] = {value}
        while wrong := self.unsupported(family):
            for i, k in wrong:
                family[i].discard(k)
        return family


def families(trial):
    """Number 10: an active channel of the pressed link and a family that supports it."""
    chance = random.Random(10)
    for at in range(30):
        kind = ("small", "mesh", "ring", "uniform")[at % 4]
        text = trial.peer("generate", kind, "--seed", str(at), "--links", str(2 + at % 5), "--values", str(2 + at % 3), "--pairs", str(1 + at % 6))
        found = read_case(text)
        log = trial.peer("press", "--limit", str(at % 3), data=text)
        link = chance.randrange(found.n)
        others = [scope for scope in range(found.scopes) if scope != link]
        scopes = sorted(chance.sample(others, chance.randrange(1, len(others) + 1)))
        press = len(log) // LINE
        log += line(2, link, len(scopes), 0, 1) + b"".join(line(3, scope) for scope in scopes)
        state = State(text, log, press)
        if all(set() in state.largest(value) for value in state.active()):
            continue
        witness(trial, f"press {at}", text, log, state)
    for name in ("10-first-press", "10-second-round", "10-before-11", "P3"):
        text, log = cut(trial.sample("replay", name + ".in"))
        press = max(at for at in range(len(log) // LINE) if log[at * LINE : at * LINE + 2] == b" 2")
        witness(trial, name, text, log, State(text, log, press))


def witness(trial, name, text, log, state):
    """The words name an active channel of the link, and for it each link's channels of a supported family."""
    files = trial.both(text, log)
    ended = trial.ask("explain", *files)
    trial.test(f"explain {name} is refused by 10", ended.status == 1 and ended.out.startswith(b"refused 10 "), f"{ended}")
    words = plain(ended.out)
    value, family = told_family(words, state)
    good = value in state.active() and None not in family
    trial.test(f"explain {name}, the channel", good, f"channel {value} of link {state.link}, {family} in {words}")
    if good:
        wrong = state.unsupported(family) + [i for i, values in enumerate(family) if not values]
        trial.test(f"explain {name}, the family", not wrong and family[state.link] == {value}, f"{wrong} of {family} in {words}")
        trial.test(f"explain {name}, the partners", not partners(words, state, family), f"{partners(words, state, family)} in {words}")
        trial.test(f"explain {name}, the largest family", family == state.largest(value), f"{family}, not {state.largest(value)}")
        trial.test(f"explain {name}, with all scopes raised", with_all_raised(words, state), words)


def with_all_raised(words, state):
    """Whether the words say rightly that the link could be pressed with all other scopes raised; they may say nothing of it."""
    told = re.search(rf"all other scopes raised, link {state.link} could be pressed", words)
    state.raised = set(range(state.case.scopes)) - {state.link}
    return not told or all(set() in state.largest(value) for value in state.active())


def told_family(words, state):
    """The channel that is not refuted, and each link's channels, None where nothing is said of a link."""
    channel = re.search(rf"channel (\d+) of link {state.link}\b[^.]*\bnot refuted", words, re.I)
    every = set(range(state.case.d))
    family = [every if re.search("every other link: all", words) else None] * state.case.n
    for link, channels in re.findall(r"^ *link (\d+): (.+)$", words, re.M):
        family[int(link)] = every if "all" in channels else {int(one) for one in re.findall(r"\d+", channels)}
    return int(channel[1]) if channel else None, family


def partners(words, state, family):
    """The pairs of channels that are given as examples: of the family, and open."""
    found = re.findall(r"pair (\d+) \(scope (\d+)\), (?:channels of )?links (\d+) and (\d+): (.+)$", words, re.M)
    wrong = [] if found or not any(scope >= state.case.n for scope in state.raised) else ["no pair"]
    for pair, scope, i, j, text in found:
        ends = state.case.pairs[int(pair)]
        for k, l in re.findall(r"(\d+) with (\d+)", text):
            good = ends == (int(i), int(j)) and int(scope) == state.case.n + int(pair) and state.is_open(int(scope), int(k), int(l))
            wrong += [] if good and int(k) in family[int(i)] and int(l) in family[int(j)] else [(pair, k, l)]
    return wrong


def tests(trial):
    for part in (not_in_columns, foreign, kinds, ranges, order, figures, cut_off, families):
        part(trial)
