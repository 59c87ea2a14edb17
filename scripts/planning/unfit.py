"""What is raised where a file cannot be converted."""


class Unfit(Exception):
    """What cannot be converted, and why: the file's name, the place in it and the reason, on one line."""


def shown(text, most=40):
    """Text of a file as a reason shows it: in short, and without what cannot be printed."""
    return "".join(sign if sign.isprintable() else "?" for sign in text[:most]) + (".." if len(text) > most else "")
