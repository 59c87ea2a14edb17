"""Files that are neither case nor log, told by their beginnings: a judgement that was saved, other programs' files."""

import re

from .reason import reason

JUDGEMENTS = (b"accepted ", b"refused ", b"void\n")
# Of spreadsheet programs: files in zip form, and older ones.
WORKBOOKS = (b"PK\x03\x04", b"\xd0\xcf\x11\xe0")
# The first row of a CSV file: its first cell is a word or empty.
CSV = re.compile(r' *("?[^\W\d_][^,;\t]*[,;\t]|("")?[,;])')
# The first line of a wcsp file: a name and four numbers.
WCSP = re.compile(r"\s*[^\s\d-]\S*(\s+\d+){4}\s*")

FROM_CSV = "`ceiling from-csv LINKS PAIRS -o CASE` makes a case of two CSV files, links and pairs."
FROM_WCSP = "`ceiling from-wcsp FILE -o CASE` makes a case of it."
PRESS = "`ceiling press CASE -o LOG` makes a log."


def foreign(front, is_case):
    """The reason that a whole file is of another kind."""
    found = kind_of(front)
    if found is None:
        return None
    what, makes = found
    return reason(0, f"This file seems to hold {what}, not a {'case sheet' if is_case else 'log'}.", *(makes if is_case else [PRESS]))


def kind_of(front):
    """What a file holds, and what makes a case of it."""
    if front.startswith(JUDGEMENTS):
        return "a judgement that a program printed", []
    if front.startswith(WORKBOOKS):
        return "a spreadsheet program's workbook (or another packed file)", ["Save its sheets as CSV files.", FROM_CSV]
    first = front[: 1 << 12].decode("utf-8-sig", "replace").partition("\n")[0]
    if WCSP.fullmatch(first):
        return "a weighted CSP in toulbar2's format (wcsp)", [FROM_WCSP]
    if CSV.match(first):
        return "rows of a spreadsheet (CSV)", [FROM_CSV]
    return None
