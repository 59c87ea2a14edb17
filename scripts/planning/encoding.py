"""What is wrong with a whole file: line ends and encodings that editors choose."""

import codecs

from .reason import reason

CRLF = (
    "The lines of this file end with carriage return and line feed (CRLF), as Windows writes them; a line ends with a line feed alone.",
    'Save it with line ends "LF" or "Unix", or take the carriage returns out: tr -d \'\\r\' < FILE > NEW',
)
MARK = (
    "The file begins with a byte order mark (the bytes EF BB BF), which no line may have.",
    'Save it as "UTF-8" without "BOM", or as plain text (ASCII), or cut the mark off: tail -c +4 FILE > NEW',
)
WIDE = (
    "The file is {0} text: more than one byte for each character.",
    'Save it as plain text (ASCII or "UTF-8"), or convert it: iconv -f {0} -t ASCII FILE > NEW',
)
OLD = (
    "The lines of this file end with a carriage return alone; a line ends with a line feed.",
    "Save it with line ends \"LF\" or \"Unix\", or convert it: tr '\\r' '\\n' < FILE > NEW",
)
MARKS = ((codecs.BOM_UTF32_LE, "UTF-32"), (codecs.BOM_UTF32_BE, "UTF-32"), (codecs.BOM_UTF16_LE, "UTF-16"), (codecs.BOM_UTF16_BE, "UTF-16"))


def whole_file(front, offset):
    """The reason that lies in the whole file, judged by its front; an end of line is marked at `offset`."""
    if front.startswith(codecs.BOM_UTF8):
        return reason(0, *MARK)
    name = wide(front)
    if name:
        return reason(0, *[words.format(name) for words in WIDE])
    feeds, returns = front.count(b"\n"), front.count(b"\r")
    if feeds and front.count(b"\r\n") == feeds:
        return reason(offset, *CRLF)
    if returns and not feeds:
        return reason(offset, *OLD)
    return None


def wide(front):
    """The name of an encoding of two or four bytes for each character."""
    for mark, name in MARKS:
        if front.startswith(mark):
            return name
    some = front[:200]
    if len(some) > 3 and not any(some[1::2]) and all(some[0::2]):
        return "UTF-16LE"
    if len(some) > 3 and not any(some[0::2]) and all(some[1::2]):
        return "UTF-16BE"
    return None
