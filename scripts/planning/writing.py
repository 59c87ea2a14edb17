"""Why a line is not in columns (number 1)."""

import re
import unicodedata

from picturing.columns import COLUMNS, LINE, NUMBER, line

from .encoding import whole_file
from .reason import reason
from .rules import NAMES

TEXT = LINE - 1
NUMBERS = re.compile(rb"[+-]?[0-9]{1,12}")
FOREIGN = re.compile(rb"[\x7f-\xff]")
# Signs that text programs put in the place of a sign that a line may hold.
SIGNS = {
    "\u2212": ("a minus sign of text", "-"),
    "\u2010": ("a hyphen of text", "-"),
    "\u2013": ("a dash", "-"),
    "\u00a0": ("a hard space", " "),
    "\u2007": ("a space of a digit's width", " "),
    "\u202f": ("a narrow hard space", " "),
}
BYTES = {0: "a NUL byte", 9: "a tab", 13: "a carriage return", 32: "a space", 43: "a plus sign", 45: "a minus sign", 160: "a hard space"}


def not_in_columns(front, start, raw, text):
    """The reason at a line of 27 bytes; its text goes on to the line's end as an editor shows it."""
    found = fault(raw, text)
    end = raw.find(b"\r")
    whole = whole_file(front, end if end >= 0 else found.offset if found else 0)
    if whole and (start == 0 or end >= 0):
        return whole
    if found:
        found.words.extend(properly(text))
    return found


def fault(raw, text):
    """What is wrong in the line itself."""
    tab, feed = raw.find(b"\t"), raw.find(b"\n")
    end = feed if feed >= 0 else LINE
    odd = FOREIGN.search(raw, 0, min(end, TEXT))
    if 0 <= tab < (odd.start() if odd else end):
        return reason(tab, "A tab stands where spaces are due.")
    if odd:
        return reason(odd.start(), f"Here stands {sign_named(text[odd.start() :])}: a line holds digits, minus signs and spaces of one byte each.")
    if feed == 0:
        return reason(0, "The line is empty.")
    if 0 <= feed < TEXT:
        if raw[feed - 1] == 13:
            return reason(feed - 1, f"The line ends with carriage return and line feed; a line feed alone is due, after {TEXT} bytes.")
        return reason(feed, f"The line feed comes too early: the line has {feed} bytes, {TEXT} are due.")
    if feed < 0:
        return too_long(raw, text)
    for name, (start, end) in zip(NAMES, COLUMNS):
        found = in_column(raw[start:end])
        if found:
            return reason(start + found[0], f"Column {name} (characters {start + 1} to {end}): {found[1]}")
    return None


def too_long(raw, text):
    if raw[TEXT] == 13:
        return reason(TEXT, "A carriage return stands where the line feed is due.")
    more = f"; the line has {len(text) - 1}" if text.endswith(b"\n") else ""
    return reason(TEXT, f"Here stands {sign_named(text[TEXT:])}, but after {TEXT} bytes a line feed is due{more}.")


def in_columns(raw):
    """Whether these bytes are a line in columns."""
    return len(raw) == LINE and raw.endswith(b"\n") and not any(in_column(raw[start:end]) for start, end in COLUMNS)


def in_column(column):
    """Where a column holds no number as it must be written, and why; None where it does."""
    if NUMBER.fullmatch(column):
        return None
    text = column.strip(b" ")
    at = column.find(text)
    if not text:
        return len(column) - 1, "it is empty; 0 stands where nothing is said."
    odd = [place for place, byte in enumerate(column) if byte not in b"0123456789- "]
    if odd:
        return odd[0], f"{named(column[odd[0]])} is no part of a whole number."
    if not column.endswith(text):
        return len(column) - 1, "the number does not stand at the column's right edge."
    if b" " in text:
        return column.rfind(b" "), "a space stands inside the number."
    return at, digits(text)


def digits(text):
    """What is wrong with digits and minus signs."""
    if b"-" in text[1:] or text == b"-":
        return "a minus sign stands directly before the digits, once."
    if text == b"-0":
        return "-0 is written as 0."
    return "the number has leading zeros."


def named(byte):
    if byte in BYTES:
        return BYTES[byte]
    if 33 <= byte <= 126:
        return f"`{chr(byte)}`"
    return f"the byte {byte:02X} (hexadecimal)"


def sign_named(text):
    """The character or byte with which the text begins, by its name."""
    sign = text[:4].decode("utf-8", "ignore")[:1]
    if sign <= "~" or not text.startswith(sign.encode()):
        return named(text[0])
    if sign in SIGNS:
        return f"{SIGNS[sign][0]}, U+{ord(sign):04X} (write `{SIGNS[sign][1]}`)"
    return f"the character U+{ord(sign):04X} ({unicodedata.name(sign, 'without a name')})"


def properly(text):
    """The line as it should be written, where its five numbers can be seen."""
    plain = text
    for sign, (_, instead) in SIGNS.items():
        plain = plain.replace(sign.encode(), instead.encode())
    words = [word for word in re.split(rb"[\s,;|\x00\xa0]+", plain) if word]
    if len(words) != len(COLUMNS) or not all(map(NUMBERS.fullmatch, words)):
        return []
    proper = line(*map(int, words))
    if len(proper) != LINE or proper == text[:LINE]:
        return []
    return ["Written in columns it is:", "", "    " + proper.decode().rstrip("\n")]
