"""Where a refused line stands, as `replay`, editors and planners count it."""

from picturing.columns import LINE

# Bytes of a long line that are shown.
MOST_SHOWN = 100


class Place:
    """A line of a file: `line` from 0 in the file, `counted` from 0 through case and log.

    In a log, `case` are the bytes of its case, and so many lines stand before the log in the same file.
    """

    def __init__(self, source, line, counted, case, before):
        self.source, self.line, self.counted, self.case, self.before = source, line, counted, case, before
        self.start = line * LINE
        data = b"".join(source.blocks(self.start, self.start + MOST_SHOWN))
        self.raw = data[:LINE]
        end = data.find(b"\n") + 1
        self.text = data[:end] if end else data

    def words(self, offset):
        byte = self.start + offset + 1
        return (
            f"{self.source.label}: line {self.line + 1}, character {offset + 1} of the line, byte {byte} of the file, counted from 1; "
            f"for replay line {self.counted}, counted from 0 through case and log."
        )

    def shown(self, offset):
        """The line with a mark under a place; a byte that cannot be shown is a question mark."""
        text = self.text[:-1] if self.text.endswith(b"\n") else self.text
        line = "".join(chr(byte) if 32 <= byte <= 126 else "?" for byte in text)
        if not self.raw:
            line = "(the file ends here)"
        return ["", f"    {line}".rstrip(), " " * (4 + offset) + "^", ""]
