"""The reason for a refusal, found beside the verdict: where none is found, the rule in general is all that is said."""

from picturing.case import read_case
from picturing.columns import LINE

from .encoding import whole_file
from .failed import Failed
from .foreign import foreign
from .in_case import case_ends, in_case
from .in_log import in_log, log_ends
from .moves import Stretch, stand_before
from .reason import reason
from .writing import fault, in_columns, not_in_columns, properly


def find(number, place):
    """The reason, or none; the verdict stands in any case."""
    try:
        return reason_at(number, place)
    except Failed:
        raise
    except Exception:
        return None


def reason_at(number, place):
    front = place.source.front()
    other = foreign(front, place.case is None) if place.line == 0 and number in (1, 14) else None
    if other:
        return other
    if number == 14:
        return ended(place, front)
    if len(place.raw) < LINE:
        return None
    if number == 1:
        return not_in_columns(front, place.start, place.raw, place.text)
    if place.case is None:
        return in_case(number, front, place.line)
    return in_log(number, standing(place), place.before)


def standing(place):
    """What stands before the line of a log."""
    first = place.before * LINE
    data = Stretch(place.source, first, place.start + LINE)
    return stand_before(read_case(place.case), data, place.line - place.before)


def ended(place, front):
    """What is missing at the end of a file."""
    part = place.raw
    if len(part) == LINE:
        return None
    at = part.index(b"\n") if b"\n" in part else len(part)
    whole = whole_file(front, at) if place.line == 0 else None
    if whole:
        return whole
    words = cut(part)
    if lacks_feed(part):
        return reason(at, *words)
    try:
        words += case_ends(front, place.line) if place.case is None else log_ends(standing(place), place.before)
    except Failed:
        raise
    except Exception:
        pass
    return reason(at, *words)


def lacks_feed(part):
    """Whether a line feed makes the part of a line at the end a line in columns."""
    return in_columns(part + b"\n")


def cut(part):
    """A part of a line at the end."""
    if not part:
        return []
    if not part.strip():
        return ["An empty line or blanks stand at the end of the file, where no part of a line may be: take them out."]
    if lacks_feed(part):
        return ["The last line lacks its line feed: end the line in the editor, and save the file again."]
    if b"\n" in part:
        return [*fault(part, part).words, *properly(part)]
    return [f"The last line is cut off: it has {len(part)} of {LINE} bytes."]
