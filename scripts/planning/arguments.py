"""The command line of `ceiling`."""

import argparse
import importlib
import os
import re
import stat

from . import standard
from .failed import Failed, failed
from .programs import SCRIPTS
from .texts import ABOUT, COMMANDS, ENDING
from .unfit import shown

NUMBER = re.compile("[0-9]{1,9}")

# The module and function of each command; a module is read when its command is run.
RUNS = {
    "press": ("pressing", "run"),
    "check": ("checking", "run"),
    "explain": ("explaining", "run"),
    "picture": ("drawing", "run"),
    "show": ("showing", "run"),
    "score": ("scoring", "run"),
    "from-csv": ("converting", "from_csv"),
    "to-csv": ("converting", "to_csv"),
    "from-wcsp": ("converting", "from_wcsp"),
    "to-wcsp": ("converting", "to_wcsp"),
}


class Parser(argparse.ArgumentParser):
    """Help goes out as results do, so that a full or closed standard output is noticed."""

    def print_help(self, file=None):
        standard.write(standard.encoded(self.format_help()))

    def error(self, message):
        standard.say(*self.format_usage().rstrip().split("\n"), f"ceiling: {message}")
        raise SystemExit(2)


class Whole(Parser):
    def format_help(self):
        return f"{self.format_usage()}\n{ABOUT}\n\n{ENDING}\n"


class Version(argparse.Action):
    def __call__(self, parser, *_):
        standard.write(standard.encoded(f"ceiling {version()}\n"))
        parser.exit()


def version():
    """The file VERSION beside the script, or at the top of the source tree, says the number."""
    for folder in (SCRIPTS, os.path.dirname(SCRIPTS)):
        path = os.path.join(folder, "VERSION")
        try:
            with open(path, encoding="ascii") as file:
                return file.read().strip()
        except FileNotFoundError:
            continue
        except (OSError, ValueError) as error:
            raise failed(path, error) from None
    raise Failed(f"{os.path.join(SCRIPTS, 'VERSION')}: not there")


def parse(arguments):
    whole = Whole(prog="ceiling", allow_abbrev=False, usage="ceiling COMMAND .. | --help | --version")
    whole.add_argument("--version", action=Version, nargs=0)
    commands = whole.add_subparsers(dest="command", required=True, metavar="COMMAND", parser_class=Parser)
    for name in COMMANDS:
        add_command(commands, name)
    options = whole.parse_args(arguments)
    look_over(options, commands.choices[options.command])
    return options


def run(options):
    module, function = RUNS[options.command]
    return getattr(importlib.import_module(f".{module}", __package__), function)(options)


def add_command(commands, name):
    arguments, about, status, examples = COMMANDS[name]
    parser = commands.add_parser(
        name,
        prog=f"ceiling {name}",
        description=about,
        epilog="examples:\n  " + "\n  ".join(examples) + f"\n\nexit status: {status}",
        formatter_class=argparse.RawDescriptionHelpFormatter,
        allow_abbrev=False,
    )
    for words in arguments:
        add_argument(parser, words)


def add_argument(parser, words):
    option, _, file = words.rpartition(" ")
    if words.startswith("--") and not option:
        parser.add_argument(words, action="store_true")
    elif option == "-o":
        parser.add_argument("-o", dest="output", metavar=file, help="where the result goes, instead of standard output")
    elif option:
        parser.add_argument(option, metavar=file)
    else:
        count = "?" if file.startswith("[") else "+" if file.endswith("..") else None
        name = file.strip("[.]")
        parser.add_argument(name.lower(), metavar=name, nargs=count, type=whole_number if name == "LINK" else None)


def whole_number(text):
    if not NUMBER.fullmatch(text):
        raise argparse.ArgumentTypeError(f"`{shown(text)}` is no number of a link")
    return int(text)


def files(options, *names):
    """The files that an option or argument names."""
    found = []
    for name in names:
        value = getattr(options, name, None)
        found += value if isinstance(value, list) else [] if value is None else [value]
    return found


def look_over(options, parser):
    """What is wrong with the files as they are named."""
    if options.command == "to-csv":
        inputs, outputs = files(options, "case"), files(options, "links", "pairs")
        if "-" in outputs:
            parser.error("to-csv writes two files: neither can be `-`")
    else:
        inputs, outputs = files(options, "case", "log", "plan", "links", "pairs", "file"), files(options, "output")
    if inputs.count("-") > 1:
        parser.error("standard input, `-`, can stand for one file only")
    for at, name in enumerate(outputs):
        if any(same(name, other) for other in inputs + outputs[:at]):
            parser.error(f"{name} is named twice: it would be overwritten")
        if "-" in inputs and name != "-" and is_input(name):
            parser.error(f"{name} is standard input as well: it would be overwritten")


def same(name, other):
    """Whether two names mean one regular file, or one that is to be made."""
    if "-" in (name, other):
        return False
    first, second = os.path.realpath(name), os.path.realpath(other)
    return first == second and (os.path.isfile(first) or not os.path.exists(first))


def is_input(name):
    """Whether a name means the regular file that standard input comes from."""
    try:
        found = os.fstat(0)
        return stat.S_ISREG(found.st_mode) and os.path.samestat(found, os.stat(name))
    except OSError:
        return False
