"""A spreadsheet as it is exported: text, its separator, its rows of cells."""

import csv
import io
import re

from .unfit import Unfit, shown

# Where two separators stand as often in a header, the first of these is taken.
# So many signs are looked at for the separator.
HEADER = 1 << 16
SEPARATORS = "\t;,"
# A cell in quotes, with the spaces before it; a row, with line ends in quotes only; a first row that names the separator, as Excel takes it.
QUOTED = re.compile(rf'(?<![^{SEPARATORS}\r\n]) *"[^"]*(?:""[^"]*)*"?')
ROW = re.compile(rf"(?:{QUOTED.pattern}|[^\r\n])+")
NAMING = re.compile(rf'"?sep=([{SEPARATORS}])"?(?:\r\n|\r|\n|\Z)', re.IGNORECASE)
# What Windows has where Latin-1 has control signs.
WINDOWS = {code: bytes([code]).decode("cp1252", "ignore") or chr(code) for code in range(0x80, 0xA0)}
NUMBER = re.compile(r"-?[0-9]+")


class Row:
    """A row that is not empty; rows count from 1, as a spreadsheet shows them."""

    def __init__(self, file, number, cells):
        self.file, self.number, self.cells = file, number, cells

    def refuse(self, why, column=None):
        place = f"row {self.number}" + ("" if column is None else f", column {letters(column)}")
        raise Unfit(f"{self.file}: {place}: {why}")

    def as_wide_as(self, header):
        """Asks for a cell under each of the header, and nothing beyond."""
        width = len(header.cells)
        if len(self.cells) < width:
            self.refuse(f"the row has {len(self.cells)} of the header's {width} cells")
        for column in range(width, len(self.cells)):
            if self.cells[column]:
                self.refuse(f"'{shown(self.cells[column])}' stands beyond the last column of the header", column)

    def number_in(self, column, most, word):
        """A whole number from -most to most; None where the word stands instead, in large or small letters."""
        text = self.cells[column]
        if text.casefold() == word:
            return None
        if not NUMBER.fullmatch(text):
            self.refuse(f"'{shown(text)}' is no whole number (digits only, a minus sign before them if below 0), nor the word {word}", column)
        digits = text.lstrip("-").lstrip("0")
        if len(digits) > len(str(most)) or int(digits or "0") > most:
            self.refuse(f"{shown(text)} is no weight: weights lie between -{most} and {most}", column)
        return int(("-" if text.startswith("-") else "") + (digits or "0"))


def letters(column):
    """A, B, .., Z, AA, AB, .."""
    name = ""
    while column >= 0:
        name = chr(ord("A") + column % 26) + name
        column = column // 26 - 1
    return name


def table(file, data):
    """The header and an iterator over the rows after it, without those that are empty. Empty cells at the header's end are dropped."""
    text = decoded(file, data)
    naming = NAMING.match(text)
    if naming:
        rows = split(file, text[naming.end() :], naming.group(1), 1)
    else:
        rows = split(file, text, separator(text[:HEADER]), 0)
    header = next(rows, None)
    if header is None:
        raise Unfit(f"{file}: has no header row")
    while not header.cells[-1]:
        header.cells.pop()
    return header, rows


def decoded(file, data):
    if 0 in data:
        raise Unfit(f"{file}: holds bytes 0, so it is no text or UTF-16; save it as CSV in UTF-8")
    try:
        return data.decode("utf-8-sig")
    except UnicodeDecodeError:
        return data.decode("latin-1").translate(WINDOWS)


def separator(text):
    """The one that stands most often in the header, quotes left out."""
    headers = (row.group() for row in ROW.finditer(text) if row.group().strip(f'{SEPARATORS}" '))
    bare = QUOTED.sub("", next(headers, text))
    return max(SEPARATORS, key=bare.count)


def split(file, text, separator, number):
    """The rows of a text that has so many rows before it."""
    try:
        for cells in csv.reader(io.StringIO(text, newline=""), delimiter=separator, skipinitialspace=True, strict=True):
            number += 1
            row = Row(file, number, [cell.strip() for cell in cells])
            if any(row.cells):
                yield row
    except csv.Error as error:
        raise Unfit(f"{file}: row {number + 1}: cannot be split into cells ({shown(str(error), 80)})") from None
