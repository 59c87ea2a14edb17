"""A case as two spreadsheets: the links with their weights on each channel, and the pairs with the weights of two channels."""

from picturing.case import BARRED, MOST_CHANNELS, MOST_LINKS, MOST_PAIRS, STARTING, read_case, write_case

from .cells import table
from .unfit import Unfit, shown

# Just these words, in large or small letters: a row of weights that is taken for the header would be lost in silence.
LINKS_HEADER = "link"
PAIRS_HEADER = "first link,second link,first channel,second channel,weight"
# What stands in a cell instead of a weight.
BARRED_WORD = "barred"


def read(links_name, links_data, pairs_name, pairs_data):
    """The text of the case that two spreadsheets give."""
    channels, links = read_links(links_name, links_data)
    numbers = {name: number for number, name in enumerate(links)}
    pairs = read_pairs(pairs_name, pairs_data, numbers, channels)
    d = len(channels)
    tables = [(low, high, [weights.get((k, l), 0) for k in range(d) for l in range(d)]) for (low, high), weights in pairs.items()]
    return write_case(d, list(links.values()), tables)


def read_links(file, data):
    """The number of each channel, and the weights of each link, by name."""
    header, rows = table(file, data)
    if header.cells[0].casefold() != LINKS_HEADER:
        header.refuse(f"the header is due here: the word {LINKS_HEADER}, then the channels' names", 0)
    channels = {}
    for column in range(1, len(header.cells)):
        name = unused(header, column, channels, "channel", MOST_CHANNELS)
        channels[name] = column - 1
    if not channels:
        header.refuse("the header names no channel (after the first cell, separated by commas, semicolons or tabs)")
    links = {}
    for row in rows:
        row.as_wide_as(header)
        name = unused(row, 0, links, "link", MOST_LINKS)
        links[name] = [weight(row, column) for column in range(1, len(header.cells))]
        if set(links[name]) == {BARRED}:
            row.refuse(f"all channels of link '{shown(name)}' are barred, one at least must not be")
    if not links:
        raise Unfit(f"{file}: has no link after its header row")
    return channels, links


def unused(row, column, known, what, most):
    """A new name, of so many at most."""
    name = row.cells[column]
    if not name:
        row.refuse(f"here the name of a {what} is due", column)
    if name in known:
        row.refuse(f"the {what} '{shown(name)}' is there already", column)
    if len(known) == most:
        row.refuse(f"a case has at most {most} {what}s", column)
    return name


def read_pairs(file, data, links, channels):
    """The weights of each pair (lower link, higher link) by its channels, in the order of the pairs' first rows."""
    header, rows = table(file, data)
    if ",".join(header.cells).casefold() != PAIRS_HEADER:
        header.refuse(f"the header is due here, five cells separated by commas, semicolons or tabs: {PAIRS_HEADER}")
    pairs, seen = {}, {}
    for row in rows:
        row.as_wide_as(header)
        first, second = (known(row, column, links, "link") for column in (0, 1))
        k, l = (known(row, column, channels, "channel") for column in (2, 3))
        if first == second:
            row.refuse("a pair joins two links, not one with itself", 1)
        if first > second:
            first, second, k, l = second, first, l, k
        if (first, second) not in pairs and len(pairs) == MOST_PAIRS:
            row.refuse(f"a case has at most {MOST_PAIRS} pairs")
        before = seen.setdefault((first, second, k, l), row.number)
        if before != row.number:
            row.refuse(f"these links and channels have their weight in row {before}")
        weights = pairs.setdefault((first, second), {})
        weights[k, l] = weight(row, 4)
        if len(weights) == len(channels) ** 2 and set(weights.values()) == {BARRED}:
            row.refuse("with this row all combinations of the two links are barred, one at least must not be")
    return pairs


def weight(row, column):
    if not row.cells[column]:
        row.refuse(f"here a weight is due, 0 where nothing is gained or lost, or the word {BARRED_WORD}", column)
    number = row.number_in(column, STARTING, BARRED_WORD)
    return BARRED if number is None else number


def known(row, column, numbers, what):
    name = row.cells[column]
    if not name:
        row.refuse(f"here the name of a {what} is due", column)
    if name not in numbers:
        row.refuse(f"there is no {what} '{shown(name)}' in the links' spreadsheet", column)
    return numbers[name]


def write(data):
    """The two spreadsheets of a case, names being the numbers."""
    case = read_case(data)
    links = [",".join([LINKS_HEADER, *map(str, range(case.d))])]
    for link in range(case.n):
        links.append(",".join(map(cell, [link, *case.weights[slice(*case.span(link))]])))
    pairs = [PAIRS_HEADER]
    for number, (low, high) in enumerate(case.pairs):
        weights = case.weights[slice(*case.span(case.n + number))]
        rows = [(low, high, *divmod(place, case.d), weight) for place, weight in enumerate(weights) if weight]
        pairs += [",".join(map(cell, row)) for row in rows or [(low, high, 0, 0, 0)]]
    return tuple(("\n".join(lines) + "\n").encode("ascii") for lines in (links, pairs))


def cell(number):
    return BARRED_WORD if number == BARRED else str(number)
