"""Why a line of a case was refused."""

from picturing.case import BARRING, MOST_CHANNELS, MOST_LINKS, MOST_PAIRS, STARTING, line_count
from picturing.columns import COLUMNS, Lines, Refused

from .reason import reason
from .rules import NAMES, UNUSED, kind_named, sizes


def edge(column):
    """Where the last digit of a column stands."""
    return COLUMNS[column][1] - 1


class Sheet:
    """A case as far as it goes: its head, and what is due at each line."""

    def __init__(self, front):
        self.lines = Lines("case", front)
        self.n, self.d, self.m = self.lines.read(0)[1:4]

    @property
    def count(self):
        return line_count(self.n, self.d, self.m)

    def pair_line(self, pair):
        return line_count(self.n, self.d, pair)

    def due(self, line):
        """Kind, a, b and c that are due; None where any link may stand. In place of a weight its barring is due as well."""
        if line < self.pair_line(0):
            return [11, (line - 1) // self.d, (line - 1) % self.d, 0]
        pair, rest = divmod(line - self.pair_line(0), 1 + self.d * self.d)
        if rest == 0:
            return [12, pair, None, None]
        return [13, pair, (rest - 1) // self.d, (rest - 1) % self.d]

    def stands_at(self, line, place):
        """Whether a line is the one that is due at the place of a line."""
        if not 0 < place < self.count or line >= self.lines.count:
            return False
        try:
            numbers = self.lines.read(line)
        except Refused:
            return False
        return all(due in (None, number) for due, number in zip(self.due(place), [weighing(numbers[0]), *numbers[1:]]))

    def head_words(self):
        links, channels, pairs = sizes(self)
        return f"By its head the case has {links}, {channels} and {pairs}"

    def due_words(self, line):
        """What is due at a line, in words."""
        kind, a, b, c = self.due(line)
        here = f"Line {line + 1}: here"
        if kind == 11:
            return f"{here} the weight of link {a}, channel {b} is due: kind 11, a {a}, b {b} (kind 14 where it is barred)"
        if kind == 12:
            return f"{here} the line of pair {a} is due: kind 12, a {a}, b its lower link, c its higher link"
        return f"{here} the weight of pair {a}, channels {b} and {c} is due: kind 13, a {a}, b {b}, c {c} (kind 15 where it is barred)"


def weighing(kind):
    """The kind of a line that gives a weight, for one that bars in its place."""
    return {barring: weight for weight, barring in BARRING.items()}.get(kind, kind)


def unused(numbers):
    """A column that its kind does not use and that is not 0."""
    for column in UNUSED.get(numbers[0], ()):
        if numbers[column] != 0:
            more = ["What is barred has no weight."] if column == 4 and weighing(numbers[0]) != numbers[0] else []
            words = f"Column {NAMES[column]} holds {numbers[column]}; {kind_named(numbers[0])} does not use it, so 0 is due."
            return reason(edge(column), words, *more)
    return None


def in_head(number, front):
    """The reason at the first line."""
    numbers = Lines("case", front).read(0)
    kind, n, d, m, _ = numbers
    if number == 2 and kind != 10:
        more = ["A log begins like this: are case and log given in the wrong order?"] if kind in (1, 2, 4, 5) else []
        return reason(edge(0), f"A case begins with its head, kind 10; here stands {kind_named(kind)}.", *more)
    if number == 2:
        return unused(numbers)
    limits = ((1, n, 1, MOST_LINKS, "links"), (2, d, 1, MOST_CHANNELS, "channels"), (3, m, 0, MOST_PAIRS, "pairs"))
    if number == 3:
        for column, value, least, most, name in limits:
            if not least <= value <= most:
                return reason(edge(column), f"{value} {name} in column {NAMES[column]}: there may be {least} to {most}.")
    return None


def in_case(number, front, line):
    """The reason at a line of the case that is there in whole, other than 1."""
    if line == 0:
        return in_head(number, front)
    sheet = Sheet(front)
    numbers, due = sheet.lines.read(line), sheet.due(line)
    if number == 2:
        return other_kind(sheet, line, numbers, due) if weighing(numbers[0]) != due[0] or line >= sheet.count else unused(numbers)
    if number == 5:
        return misplaced(sheet, line, numbers, due)
    if number == 6 and numbers[2] >= numbers[3]:
        return descending(sheet, numbers)
    if number == 7:
        return paired(sheet, numbers)
    if number == 8 and abs(numbers[4]) > STARTING:
        words = f"The weight is {numbers[4]}: between {-STARTING} and {STARTING} it would be right."
        return reason(edge(4), words, *([f"A line of kind {BARRING[due[0]]} bars, no weight does."] if numbers[4] < 0 else []))
    if number == 15:
        return wholly_barred(due)
    return None


def wholly_barred(due):
    """The last line of a scope of which nothing is left."""
    if due[0] == 11:
        words = f"Link {due[1]} has no channel left: all {due[2] + 1} are barred, the last one in this line."
    else:
        words = f"Pair {due[1]} has no combination left: all {(due[2] + 1) * (due[3] + 1)} are barred, the last one in this line."
    return reason(edge(0), words, "So no plan could be lawful. One of them at least has to have a weight.")


def other_kind(sheet, line, numbers, due):
    """A line of another kind than the one that is due, or one that the head does not count."""
    if line >= sheet.count:
        head = f"{sheet.head_words()} and ends with line {sheet.count}; after it stands {kind_named(numbers[0])}."
        return reason(edge(0), head, "Either the head (line 1) counts too few, or this line is too many.")
    words = [f"{sheet.due_words(line)}.", f"The line is {kind_named(numbers[0])}.", *neighbour(sheet, line)]
    return reason(edge(0), *words, *([f"{sheet.head_words()}."] if {weighing(numbers[0]), due[0]} == {11, 12} else []))


def misplaced(sheet, line, numbers, due):
    for column in (1, 2, 3):
        if due[column] is not None and numbers[column] != due[column]:
            words = f"Column {NAMES[column]} holds {numbers[column]}, {due[column]} is due."
            return reason(edge(column), f"{sheet.due_words(line)}.", words, *neighbour(sheet, line), f"{sheet.head_words()}.")
        if due[column] is None and not 0 <= numbers[column] < sheet.n:
            return reason(edge(column), f"Column {NAMES[column]} names link {numbers[column]}: the case has the links 0 to {sheet.n - 1}.")
    return None


def neighbour(sheet, line):
    """What may have happened where the line is that of the place before or after the one that is due."""
    if sheet.stands_at(line, line + 1):
        if sheet.stands_at(line + 1, line):
            return ["Perhaps this line and the next one have changed places."]
        return ["It is the line that is due next: perhaps a line is missing before it."]
    if sheet.stands_at(line, line - 1):
        return ["It names the place of the line before: perhaps that line stands twice, and one of them has to go."]
    return []


def descending(sheet, numbers):
    first, second = numbers[2:4]
    words = f"The pair names links {first} and {second}: the first has to be below the second."
    if first == second:
        return reason(edge(2), words, "A pair joins two different links.")
    twice = paired(sheet, [12, numbers[1], second, first])
    turned = f"The other way round it would be right: b {second}, c {first}, and b and c exchanged in the pair's weights."
    return reason(edge(2), words, *(twice.words if twice else [turned]))


def paired(sheet, numbers):
    for pair in range(numbers[1]):
        at = sheet.pair_line(pair)
        if sheet.lines.read(at)[2:4] == numbers[2:4]:
            return reason(edge(2), f"Links {numbers[2]} and {numbers[3]} are joined by pair {pair} already, in line {at + 1}.")
    return None


def case_ends(front, line):
    """What is missing where the case ends before its last line."""
    if line == 0:
        head = "The head of a case is due: kind 10, a the number of links, b of channels, c of pairs."
        return [head] if front else ["The file is empty.", head]
    sheet = Sheet(front)
    return [f"{sheet.due_words(line)}.", f"By its head the case has {sheet.count} lines: {sheet.count - line} missing."]
