"""Lines of 27 bytes in five columns, and what is said of a line that cannot be read."""

import re

LINE = 27
COLUMNS = ((0, 2), (2, 6), (6, 10), (10, 14), (14, 26))
WIDTHS = [str(end - start) for start, end in COLUMNS]
SHAPE = f"columns of {', '.join(WIDTHS[:-1])} and {WIDTHS[-1]} characters"
NUMBER = re.compile(rb" *(0|-?[1-9][0-9]*)")
FORM = b"".join(b"%%%dd" % (end - start) for start, end in COLUMNS) + b"\n"
# Numbers of a file that are remembered, so that the same columns are not read again.
REMEMBERED = 100_000


def line(kind, a=0, b=0, c=0, amount=0):
    """The text of a line; numbers too wide for their columns are not looked for."""
    return FORM % (kind, a, b, c, amount)


class Refused(Exception):
    """A line of the case or of the log that cannot be read."""

    def __init__(self, file, line, input_line, raw, why):
        super().__init__(why)
        self.file = file
        self.line = line
        self.input_line = input_line
        self.raw = raw
        self.why = why

    def words(self):
        return f"line {self.line} of the {self.file} (counted from 0): {self.why}"


class NotInColumns(Refused):
    """The line is not 27 bytes in five columns: the file is no case and no log."""


class Lines:
    """The bytes of a file, read line by line; `before` lines of other files precede it."""

    def __init__(self, file, data, before=0):
        self.file = file
        self.data = data
        self.before = before
        self.count = len(data) // LINE
        self.known = {}

    def refuse(self, line, why, kind=Refused):
        raw = self.data[line * LINE : (line + 1) * LINE]
        raise kind(self.file, line, self.before + line, raw, why)

    def not_in_columns(self, line, why):
        self.refuse(line, "not in columns: " + why, NotInColumns)

    def read(self, line):
        """The five numbers of a line."""
        text = self.data[line * LINE : (line + 1) * LINE]
        if len(text) < LINE:
            self.refuse(line, "the file stops here")
        if text[LINE - 1] != 10:
            self.not_in_columns(line, f"byte {LINE} is no line feed")
        return [self.number(line, text[start:end]) for start, end in COLUMNS]

    def number(self, line, column):
        found = self.known.get(column)
        if found is None:
            if not NUMBER.fullmatch(column):
                self.not_in_columns(line, "a column holds no number at its right edge")
            if len(self.known) >= REMEMBERED:
                self.known.clear()
            found = self.known[column] = int(column)
        return found
