"""A reason for a refusal: where in the line it is seen, counted from 0, and words."""

from collections import namedtuple

Reason = namedtuple("Reason", "offset words")


def reason(offset, *words):
    return Reason(offset, list(words))
