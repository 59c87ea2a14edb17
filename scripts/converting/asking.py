"""What a test of a conversion asks: that it refuses with certain words, or raises nothing else."""

from picturing.case import read_case
from planning.unfit import Unfit


def refuses(count, name, convert, *words):
    """The conversion is refused, and the reason holds the words and can be printed on one line."""
    try:
        convert()
        count.test(name, False, "was converted")
    except Unfit as unfit:
        missing = [word for word in words if word not in str(unfit)]
        count.test(name, not missing and str(unfit).isprintable(), f"'{unfit}' does not say {missing}, or cannot be printed")


def converts(count, name, convert):
    """The conversion is made, and gives a valid case."""
    try:
        read_case(convert())
        count.test(name, True)
    except Exception as error:
        count.test(name, False, repr(error))


def unfit_at_most(count, name, convert):
    """A valid case, or refused: anything else that is raised fails."""
    try:
        read_case(convert())
        count.test(name, True)
    except Unfit as unfit:
        count.test(name, str(unfit).isprintable(), f"'{unfit}' cannot be printed")
    except Exception as error:
        count.test(name, False, repr(error))
