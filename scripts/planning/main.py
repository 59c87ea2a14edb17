"""`ceiling`: what each command line does, and how it ends."""

from . import outputs, programs, standard
from .arguments import parse, run
from .failed import Failed, Interrupted, catch_signals, ignore_signals
from .judging import TurnedBack
from .unfit import Unfit


def main(arguments):
    """The exit status; programs and temporary files do not outlive it."""
    standard.hold()
    try:
        catch_signals()
        status = answer(arguments)
        ignore_signals()
    except Interrupted as interrupted:
        status = 128 + interrupted.number
    programs.end_running()
    outputs.remove_unfinished()
    return status


def answer(arguments):
    try:
        return run(parse(arguments))
    except SystemExit as ended:
        return ended.code or 0
    except Unfit as unfit:
        standard.say(f"ceiling: {unfit}")
        return 1
    except TurnedBack as back:
        standard.say(*back.lines)
        return 1
    except Failed as failed:
        standard.say(f"ceiling: {failed}")
        return 2
    except Exception as error:
        standard.say(f"ceiling: an error of its own: {type(error).__name__}: {error}")
        return 2
