"""Axis marks at round numbers."""

import math


def marks(low, high, about):
    """Round numbers from low to high, some `about` of them; whole ones at least 1 apart."""
    span = max(high - low, 1e-12)
    step = 10 ** math.floor(math.log10(span / about))
    for factor in (1, 2, 5, 10):
        if span / (step * factor) <= about:
            step *= factor
            break
    first = math.ceil(low / step - 1e-9)
    return [k * step for k in range(first, math.floor(high / step + 1e-9) + 1)]


def whole_marks(low, high, about):
    found = sorted({round(mark) for mark in marks(low, high, about)})
    return [mark for mark in found if low <= mark <= high]


def number(value):
    """1234567 as 1,234,567, with a true minus."""
    return f"{value:,}".replace("-", "\u2212")
