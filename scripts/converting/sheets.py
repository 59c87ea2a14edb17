"""Tests of the spreadsheets."""

import itertools
import os

from picturing.case import BARRED, MOST_CHANNELS, MOST_LINKS, MOST_PAIRS, STARTING
from picturing.columns import LINE, line
from planning import spreadsheets
from planning.cells import letters
from planning.unfit import Unfit

from .asking import converts, refuses, unfit_at_most
from .cases import damaged, made, sizes, small_size, WEIGHTS

LINKS = "link,a,b\nx,1,2\ny,3,4\nz,5,6\n"
HEADER = "first link,second link,first channel,second channel,weight\n"
PAIRS = HEADER + "x,y,a,b,-7\ny,z,b,b,8\n"


def read(links, pairs):
    links, pairs = (text.encode() if isinstance(text, str) else text for text in (links, pairs))
    return spreadsheets.read("LINKS", links, "PAIRS", pairs)


def there_and_back(count, random):
    for size in sizes(random):
        for kind in WEIGHTS:
            case = made(random, size, kind)
            for share in (0, 20, 100):
                text = case.barring(random, share).text()
                count.test(f"to-csv, from-csv, {size} {kind}, {share} in a hundred barred", read(*spreadsheets.write(text)) == text)


def sample(count, folder):
    """The valley's two spreadsheets give its case, and with a channel barred that case."""
    for which in ("valley", "valley-barred"):
        try:
            texts = []
            for name in (f"{which}-links.csv", "valley-pairs.csv", f"{which}.case"):
                with open(os.path.join(folder, name), "rb") as file:
                    texts.append(file.read())
            count.test(f"the {which}", read(*texts[:2]) == texts[2], "its spreadsheets give another case")
        except OSError as error:
            count.test(f"the {which}", False, str(error))


class Dress:
    """How a spreadsheet may be written."""

    def __init__(self, separator=",", end="\n", mark="", quotes=False, encoding="utf-8", empty=False, turned=False, spaces=False):
        self.separator, self.end, self.mark, self.quotes = separator, end, mark, quotes
        self.encoding, self.empty, self.turned, self.spaces = encoding, empty, turned, spaces
        self.words = itertools.cycle(("barred", "Barred", "BARRED"))

    def cell(self, value):
        text = next(self.words) if value == BARRED else str(value)
        if self.quotes or any(sign in text for sign in '",;\t\n'):
            text = '"' + text.replace('"', '""') + '"'
        return f" {text}" + ("" if text.endswith('"') else "  ") if self.spaces else text

    def text(self, rows):
        lines = []
        for row in rows:
            lines += ["", self.separator * (len(row) - 1)] if self.empty else []
            lines.append(self.separator.join(map(self.cell, row)))
        return (self.mark + self.end.join(lines) + self.end).encode(self.encoding)


DRESSES = {
    "plain": Dress(),
    "semicolons": Dress(separator=";"),
    "tabs": Dress(separator="\t"),
    "CRLF": Dress(end="\r\n"),
    "CR": Dress(end="\r"),
    "a byte order mark": Dress(mark="\ufeff"),
    "quotes": Dress(quotes=True),
    "quotes, a mark, semicolons, CRLF": Dress(";", "\r\n", "\ufeff", True),
    "Latin-1": Dress(encoding="latin-1"),
    "empty rows": Dress(empty=True),
    "empty rows, tabs, CRLF": Dress("\t", "\r\n", empty=True),
    "links in either order": Dress(turned=True),
    "spaces": Dress(spaces=True),
    "spaces, semicolons, quotes": Dress(";", quotes=True, spaces=True),
}
LINK_NAMES = ["Höhe", 'the "old" mast', "a, b", "c; d", "1", "two\nlines", "Tal\t1", "ü", "007", "-", "Ost", "West"]
CHANNEL_NAMES = ["5,8 GHz", "6;2", "grün", "4"]


def dressed(count, random):
    """The same case, however its spreadsheets are written."""
    for share in (0, 0, 0, 0, 30, 60):
        case = made(random, small_size(random, len(LINK_NAMES)), "small").barring(random, share)
        for name, dress in DRESSES.items():
            rows = [["Link", *CHANNEL_NAMES[: case.values]]]
            rows += [[LINK_NAMES[i], *weights] for i, weights in enumerate(case.links)]
            made_of = read(dress.text(rows), dress.text(pair_rows(random, case, dress.turned)))
            count.test(f"spreadsheets with {name}", made_of == case.text())


def pair_rows(random, case, turned):
    """The rows of the pairs; each pair's in any order, links and channels in either order if turned."""
    rows = [HEADER.strip().split(",")]
    for i, j, weights in case.pairs:
        own = []
        for place, weight in enumerate(weights):
            k, l = divmod(place, case.values)
            ends = [(LINK_NAMES[i], CHANNEL_NAMES[k]), (LINK_NAMES[j], CHANNEL_NAMES[l])]
            if turned and random.randrange(2):
                ends.reverse()
            if weight or place == 0:
                own.append([ends[0][0], ends[1][0], ends[0][1], ends[1][1], weight])
        random.shuffle(own)
        rows += own
    return rows


# Separators in names, where the header's own is another.
SEPARATED = {
    "commas": "link;5,8;6,2\nx;1;2\n",
    "semicolons": "link\t5;8\t6;2\nx\t1\t2\n",
    "commas in quotes": 'link;"1,5, GHz";"2,5, GHz"\nx;1;2\n',
    "semicolons in quotes": 'link,"a;b;c","d;e;f"\nx,1,2\n',
    "doubled quotes and semicolons": 'link,"a;b;c", "d;""e;"\nx,1,2\n',
    "semicolons and inch marks": 'link,5" mast; old,6" mast\nx,1,2\n',
    "line ends in quotes": 'link;"1,,,\n"; "2\r\n,,,"\nx;1;2\n',
    "tabs after empty rows": '\n"";"";\n;;;;\nlink;"a\tb\tc\td";c2\nx;1;2\n',
}


def same_case(count, name, sheets, others):
    try:
        count.test(name, read(*sheets) == read(*others), "gives another case")
    except Unfit as unfit:
        count.test(name, False, str(unfit))


def cells(count):
    """What single cells mean."""
    same = [
        ("zeros before a number", "link,a,b\nx,007,-00\ny,0,0\n", "link,a,b\nx,7,0\ny,0,0\n"),
        ("empty cells beyond the header", "link,a,b\nx,1,2,,\ny,0,0\n", "link,a,b\nx,1,2\ny,0,0\n"),
        ("no line end at the end", "link,a,b\nx,1,2\ny,0,0", "link,a,b\nx,1,2\ny,0,0\n"),
        ("large letters in the header", "LINK,a,b\nx,1,2\ny,0,0\n", "link,a,b\nx,1,2\ny,0,0\n"),
        ("empty cells at the header's end", "link,a,b,, \nx,1,2\ny,0,0,,\n", "link,a,b\nx,1,2\ny,0,0\n"),
        ("a row that names the separator", "sep=;\r\nlink;a;b\r\nx;1;2\r\ny;0;0", "link,a,b\nx,1,2\ny,0,0\n"),
        ("such a row in quotes", '"SEP=\t"\nlink\ta\tb\nx\t1\t2\ny\t0\t0', "link,a,b\nx,1,2\ny,0,0\n"),
    ]
    pairs = HEADER + "y,x,a,b,-7\n"
    for name, one, other in same:
        same_case(count, name, (one, pairs), (other, pairs))
    count.test("a pair of weight 0", line(12, 0, 0, 1) in read(LINKS, HEADER + "x,y,a,a,0\n"))
    count.test("a barred channel", line(14, 1, 0) in read(LINKS.replace("y,3", "y,barred"), HEADER))
    turned = read(LINKS, HEADER + "y,x,b,a,BARRED\n")
    count.test("a barred combination, its links turned round", line(15, 0, 0, 1) in turned and line(13, 0, 1, 0) in turned)
    channel = read("link,barred,b\nbarred,1,2\ny,0,0\n", HEADER + "y,barred,barred,b,barred\n")
    count.test("a link and a channel of that name", channel == read("link,a,b\nx,1,2\ny,0,0\n", HEADER + "x,y,b,a,barred\n"))
    count.test("Latin-1 beside UTF-8", len(read("link,grün\nHöhe,1\nTal,2\n".encode("latin-1"), HEADER + "Tal,Höhe,grün,grün,1\n")) == 5 * LINE)
    same_case(count, "an empty cell at the header's end", (LINKS, PAIRS.replace("weight\n", "weight,\n")), (LINKS, PAIRS))
    same_case(count, "Windows' own signs", ("link,a\nA\u2026,1\nA,2\n".encode("cp1252"), HEADER), ("link,a\nA,1\nB,2\n", HEADER))
    same_case(count, "bytes that are no sign of Windows", (b"link,a\nA\x81,1\nA,2\n", HEADER), ("link,a\nA,1\nB,2\n", HEADER))
    for name, text in SEPARATED.items():
        same_case(count, f"{name} in names", (text, HEADER), ("link,a,b\nx,1,2\n", HEADER))
    count.test("no pairs", read(LINKS, HEADER).startswith(line(10, 3, 2, 0)))


def grid(n, d, m, weight=0):
    """Spreadsheets of any size, the limits not asked."""
    links = [",".join(["link", *(f"c{k}" for k in range(d))])] + [",".join([f"l{i}"] + [str(weight)] * d) for i in range(n)]
    joined = [(i, j) for j in range(n) for i in range(j)][:m]
    return "\n".join(links) + "\n", HEADER + "".join(f"l{i},l{j},c0,c0,{weight}\n" for i, j in joined)


def borders(count):
    for n, d, m in ((MOST_LINKS, 1, 0), (1, MOST_CHANNELS, 0), (MOST_LINKS, 1, MOST_PAIRS)):
        converts(count, f"spreadsheets, {n} links, {d} channels, {m} pairs", lambda: read(*grid(n, d, m)))
    links, channels, pairs = (f"at most {most} {what}" for most, what in ((MOST_LINKS, "links"), (MOST_CHANNELS, "channels"), (MOST_PAIRS, "pairs")))
    refuses(count, "a link too many", lambda: read(*grid(MOST_LINKS + 1, 1, 0)), f"LINKS: row {MOST_LINKS + 2}, column A", links)
    column = letters(MOST_CHANNELS + 1)
    refuses(count, "a channel too many", lambda: read(*grid(1, MOST_CHANNELS + 1, 0)), f"LINKS: row 1, column {column}", channels)
    refuses(count, "a pair too many", lambda: read(*grid(MOST_LINKS, 1, MOST_PAIRS + 1)), f"PAIRS: row {MOST_PAIRS + 2}", pairs)
    for sign in (1, -1):
        converts(count, f"weight {sign * STARTING}", lambda: read(*grid(2, 1, 1, sign * STARTING)))
        far = sign * (STARTING + 1)
        refuses(count, f"weight {far} of a link", lambda: read(grid(2, 1, 0, far)[0], HEADER), "LINKS: row 2, column B", str(far), str(STARTING))
        refuses(count, f"weight {far} of a pair", lambda: read(grid(2, 1, 0)[0], grid(2, 1, 1, far)[1]), "PAIRS: row 2, column E", str(far))


# What is put in place of what, in which spreadsheet, and what the reason says.
REFUSED = [
    ("links", LINKS, "", ["LINKS", "no header"]),
    ("links", LINKS, "\n ,,\n", ["LINKS", "no header"]),
    ("links", LINKS, "sep=;\n", ["LINKS", "no header"]),
    ("links", LINKS, "sep=;\nlink;a\nx;1.5\n", ["LINKS: row 3, column B", "'1.5'"]),
    ("links", LINKS, "link\nx\n", ["LINKS: row 1", "no channel"]),
    ("links", LINKS, "link,a,b\n", ["LINKS", "no link"]),
    ("links", LINKS, "link,a,b\nx,1;2\n", ["LINKS: row 2", "2 of the header's 3 cells"]),
    ("links", LINKS, LINKS.encode("utf-16"), ["LINKS", "UTF-16"]),
    ("links", "link,a,b", "link,a,a", ["LINKS: row 1, column C", "'a' is there already"]),
    ("links", "link,a,b", "link,a, ", ["LINKS: row 2, column C", "'2' stands beyond"]),
    ("links", "link,a,b", "link,,b", ["LINKS: row 1, column B", "name of a channel"]),
    ("links", "y,3", "x,3", ["LINKS: row 3, column A", "'x' is there already"]),
    ("links", "y,3", "\n,3", ["LINKS: row 4, column A", "name of a link"]),
    ("links", "y,3,4", "y,3", ["LINKS: row 3", "2 of the header's 3 cells"]),
    ("links", "y,3,4", "y,3,4,,5", ["LINKS: row 3, column E", "'5' stands beyond"]),
    ("links", "y,3,4", 'y,"3,4', ["LINKS: row 3", "cannot be split"]),
    ("links", LINKS, 'link\ta\nx\t"1"2\n', ["LINKS: row 2", "cannot be split"]),
    ("links", "y,3,4", "y,3,", ["LINKS: row 3, column C", "weight is due"]),
    ("links", "link,a,b\n", "", ["LINKS: row 1, column A", "header is due"]),
    ("links", "link,a,b", "x,a,+2", ["LINKS: row 1, column A", "header is due"]),
    ("links", "link,a,b", ",a,b", ["LINKS: row 1, column A", "header is due"]),
    ("links", "y,3,4", "y,3,4.0", ["LINKS: row 3, column C", "'4.0' is no whole number"]),
    ("links", "y,3,4", 'y,"3,0",4', ["LINKS: row 3, column B", "'3,0' is no whole number"]),
    ("links", "y,3,4", "y,1 000,4", ["LINKS: row 3, column B", "'1 000' is no whole number"]),
    ("links", "y,3,4", "y,1'000,4", ["LINKS: row 3, column B", "no whole number"]),
    ("links", "y,3,4", "y,+3,4", ["LINKS: row 3, column B", "no whole number"]),
    ("links", "y,3,4", "y,3e2,4", ["LINKS: row 3, column B", "no whole number"]),
    ("links", "y,3,4", "y,\u22123,4", ["LINKS: row 3, column B", "no whole number"]),
    ("links", "y,3,4", "y,\u0663,4", ["LINKS: row 3, column B", "no whole number"]),
    ("links", "y,3,4", "y,-,4", ["LINKS: row 3, column B", "no whole number"]),
    ("links", "y,3,4", "y," + "9" * 5000 + ",4", ["LINKS: row 3, column B", "no weight"]),
    ("links", "y,3,4", 'y,"3\n\x1b",4', ["LINKS: row 3, column B", "'3??' is no whole number"]),
    ("links", "y,3,4", "y,bar,4", ["LINKS: row 3, column B", "'bar' is no whole number", "nor the word barred"]),
    ("links", "y,3,4", f"y,{BARRED},4", ["LINKS: row 3, column B", f"{BARRED} is no weight"]),
    ("links", "y,3,4", "y,barred,Barred", ["LINKS: row 3", "all channels of link 'y' are barred"]),
    ("pairs", PAIRS, HEADER + "".join(f"{row},barred\n" for row in ("x,y,a,a", "y,z,a,a", "y,x,a,b", "x,y,b,b", "x,y,a,b")),
     ["PAIRS: row 6", "all combinations of the two links are barred"]),
    ("pairs", PAIRS, "", ["PAIRS", "no header"]),
    ("pairs", HEADER, "", ["PAIRS: row 1", "header is due"]),
    ("pairs", HEADER, "x-,y,a,a,100\n", ["PAIRS: row 1", "header is due"]),
    ("pairs", ",weight", "", ["PAIRS: row 1", "header is due"]),
    ("pairs", ",weight", ",weight,why", ["PAIRS: row 1", "header is due"]),
    ("pairs", "x,y,a", "x,w,a", ["PAIRS: row 2, column B", "no link 'w'"]),
    ("pairs", "x,y,a", "X,y,a", ["PAIRS: row 2, column A", "no link 'X'"]),
    ("pairs", "x,y,a", "x,,a", ["PAIRS: row 2, column B", "name of a link"]),
    ("pairs", "x,y,a,b", "x,y,a,c", ["PAIRS: row 2, column D", "no channel 'c'"]),
    ("pairs", "x,y,a,b", "x,y,,b", ["PAIRS: row 2, column C", "name of a channel"]),
    ("pairs", "x,y,a", "x,x,a", ["PAIRS: row 2, column B", "itself"]),
    ("pairs", "y,z,b,b,8", "x,y,a,b,8", ["PAIRS: row 3", "row 2"]),
    ("pairs", "y,z,b,b,8", "y,x,b,a,-7", ["PAIRS: row 3", "row 2"]),
    ("pairs", "-7", "", ["PAIRS: row 2, column E", "weight is due"]),
    ("pairs", ",-7", "", ["PAIRS: row 2", "4 of the header's 5 cells"]),
    ("pairs", "-7", "-7,8", ["PAIRS: row 2, column F", "beyond"]),
    ("pairs", "-7", "-7.5", ["PAIRS: row 2, column E", "'-7.5' is no whole number"]),
    ("pairs", "-7", "--7", ["PAIRS: row 2, column E", "no whole number"]),
]


def refusals(count):
    for sheet, old, new, words in REFUSED:
        texts = {"links": LINKS, "pairs": PAIRS}
        texts[sheet] = new if old == texts[sheet] else texts[sheet].replace(old, new, 1)
        refuses(count, f"refused: {words}", lambda: read(texts["links"], texts["pairs"]), *words)


def damages(count, random):
    """Broken files are refused or give a valid case."""
    for number in range(400):
        texts = spreadsheets.write(made(random, small_size(random, 4), "small").text()) if number % 2 else (LINKS.encode(), PAIRS.encode())
        broken = [damaged(random, texts[0]), texts[1]] if random.randrange(2) else [texts[0], damaged(random, texts[1])]
        unfit_at_most(count, f"damaged spreadsheets {broken}", lambda: read(*broken))
    for _ in range(100):
        noise = random.randbytes(random.randrange(200))
        unfit_at_most(count, f"noise {noise}", lambda: read(noise, PAIRS))
        unfit_at_most(count, f"noise {noise}", lambda: read(LINKS, noise))
    for column, name in ((0, "A"), (25, "Z"), (26, "AA"), (701, "ZZ"), (702, "AAA")):
        count.test(f"column {name}", letters(column) == name)


def tests(count, random, samples):
    there_and_back(count, random)
    sample(count, samples)
    dressed(count, random)
    cells(count)
    borders(count)
    refusals(count)
    damages(count, random)
