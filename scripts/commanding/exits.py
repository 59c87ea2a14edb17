"""Exit status of every command, inputs that cannot be read, wrong command lines, help, version, where the programs are found."""

import os
import resource
import shutil
import subprocess
import time

import planning.sources
from picturing.columns import LINE
from running.inputs import P4, P4_PRESS, P4_ROUND, line, with_line

from .trial import last_line

COMMANDS = ("press", "check", "explain", "picture", "show", "score", "from-csv", "to-csv", "from-wcsp", "to-wcsp")
LINKS = b"link,0,1\nA,2,0\nB,2,0\n"
PAIRS = b"first link,second link,first channel,second channel,weight\nA,B,0,0,-3\n"
WCSP = b"plan 2 2 3 4\n2 2\n1 0 0 1\n1 2\n1 1 0 1\n1 2\n2 0 1 0 1\n0 0 3\n"


class Files:
    """Good and refused inputs of every command."""

    def __init__(self, trial):
        self.case, self.log = trial.both(P4, P4_ROUND)
        self.bad_case, self.bad_log = trial.both(P4[:-1], P4_ROUND[:-1])
        self.plan, self.bad_plan = trial.file("plan", b"0 1\n"), trial.file("plan", b"0 2\n")
        self.links, self.pairs = trial.file("links.csv", LINKS), trial.file("pairs.csv", PAIRS)
        self.bad_links = trial.file("links.csv", LINKS.replace(b"2", b"2.5"))
        self.wcsp, self.bad_wcsp = trial.file("plan.wcsp", WCSP), trial.file("plan.wcsp", WCSP[:-4])
        out = trial.empty()
        self.to = [os.path.join(out, name) for name in ("links.csv", "pairs.csv")]

    def accepted(self):
        return [
            ["press", self.case], ["check", self.case, self.log], ["explain", self.case], ["explain", self.case, self.log],
            ["picture", self.case, self.log], ["show", self.case, self.log], ["show", self.case, self.log, "1"],
            ["score", self.case, self.plan], ["score", self.case, self.plan, "--log", self.log],
            ["from-csv", self.links, self.pairs], ["to-csv", self.case, *self.to], ["from-wcsp", self.wcsp], ["to-wcsp", self.case],
        ]

    def refused(self):
        return [
            ["press", self.bad_case], ["check", self.case, self.bad_log], ["check", self.bad_case, self.log], ["explain", self.bad_case],
            ["explain", self.case, self.bad_log], ["picture", self.case, self.bad_log], ["picture", self.bad_case, self.log],
            ["show", self.case, self.bad_log], ["show", self.bad_case, self.log, "0"],
            ["score", self.case, self.bad_plan], ["score", self.case, self.plan, self.bad_plan], ["score", self.bad_case, self.plan],
            ["score", self.case, self.plan, "--log", self.bad_log], ["from-csv", self.bad_links, self.pairs],
            ["to-csv", self.bad_case, *self.to], ["from-wcsp", self.bad_wcsp], ["to-wcsp", self.bad_case],
        ]


def told(arguments):
    return " ".join(os.path.basename(word) for word in arguments)


def statuses(trial):
    """0 with the result on standard output, 1 with words on standard error."""
    files = Files(trial)
    for arguments in files.accepted():
        ended = trial.run(*arguments)
        trial.ends(told(arguments), ended, 0)
        trial.test(f"{told(arguments)}, its result", bool(ended.out) != (arguments[0] == "to-csv"), f"{ended.out[:60]}")
    for at, arguments in enumerate(files.refused()):
        ended = (trial.ask if at % 3 else trial.run)(*arguments)
        trial.ends(f"{told(arguments)}, refused", ended, 1)
        silent = arguments[0] in ("press", "from-csv", "from-wcsp") or files.bad_plan in arguments
        trial.test(f"{told(arguments)}, refused, words", ended.err and not (silent and ended.out) or arguments[0] == "explain", f"{ended}")
    for arguments in (["from-csv", files.links, files.pairs], ["from-wcsp", files.wcsp]):
        case = trial.ask(*arguments).out
        trial.test(f"{told(arguments)}, the case", trial.real("replay", case).startswith(b"accepted 0 "), f"{case[:60]}")
    for arguments in (["picture", files.case, files.log], ["picture", files.case, files.bad_log], ["picture", files.bad_case, files.log]):
        page(trial, arguments)
    refused_pages(trial)


def refused_pages(trial):
    """A refused line as editors and as `replay` count it, its rule, and how lines are written for rule 1 alone."""
    columns = b"Each column holds"
    for name, case, log, rule, counts in (
        ("a log", P4, P4_PRESS[:-LINE] + line(4, 0, 0, 0, 3), b"rule 12,", (4, 13)),
        ("a case", with_line(P4, 2, line(11, 1, 1)), b"", b"Rule 5,", (3, 2)),
        ("a case's columns", b"x" + P4[1:], b"", b"Rule 1,", (1, 0)),
    ):
        out = trial.ask("picture", *trial.both(case, log)).out
        counted = b"line %d, counted from 1; for <code>replay</code> line %d, counted from 0" % counts
        trial.test(f"picture {name} that is refused, the line", counted in out and rule in out, f"{out[-800:]}")
        unread = rule == b"Rule 1,"
        told = [columns in out, b"cannot be read" in out, b"ceiling explain" not in out]
        trial.test(f"picture {name} that is refused, its words", told == [unread] * 3, f"{told} in {out[-800:]}")


def page(trial, arguments):
    """The picture's page and the last line on standard error bear the judgement."""
    with open(arguments[1], "rb") as case, open(arguments[2], "rb") as log:
        verdict = trial.verdict(case.read(), log.read())
    ended = trial.ask(*arguments)
    trial.test(f"{told(arguments)}, the judgement", verdict.strip() in ended.out and last_line(ended.err) == verdict.strip(), f"{ended.err}")
    trial.test(f"{told(arguments)}, the page", b"</html>" in ended.out[-20:], f"{ended.out[-60:]}")


def unreadable(trial):
    """An input that cannot be read: one line that names it, status 2, nothing written."""
    files = Files(trial)
    folder = trial.empty()
    names = [os.path.join(folder, "nobody"), folder, os.path.join(files.case, "below"), "/proc/self/mem"]
    for arguments in files.accepted() + [["press", files.case, "-o", os.path.join(folder, "to")]]:
        places = [at for at in range(1, len(arguments)) if os.path.exists(arguments[at]) and arguments[0] != "to-csv" or at == 1]
        for at in places:
            for name in names if arguments[0] in ("check", "press") else [names[at % 2], names[2 + at % 2]]:
                changed = arguments[:at] + [name] + arguments[at + 1 :]
                ended = trial.ask(*changed)
                trial.ends(f"{told(changed)}, unreadable", ended, 2, b"")
                one = ended.err.startswith(b"ceiling: " + name.encode() + b": ") and ended.err.count(b"\n") == 1
                trial.test(f"{told(changed)}, unreadable, in words", one, f"{ended.err}")
    trial.test("unreadable inputs leave nothing behind", os.listdir(folder) == [], f"{os.listdir(folder)}")
    nowhere = {"before": lambda: os.close(0), "stdout": subprocess.PIPE}
    ended = trial.end(trial.start("check", files.case, "-", **nowhere))
    trial.ends("check with standard input closed", ended, 2, b"")
    trial.test("check with standard input closed, in words", ended.err.count(b"\n") == 1, f"{ended.err}")
    root = os.open("/", os.O_RDONLY)
    ended = trial.end(trial.start("press", "-", stdin=root))
    os.close(root)
    trial.ends("press with a folder as standard input", ended, 2, b"")


def endless(trial):
    """Of a stream without an end so many bytes are kept and no more, on this test's scale."""
    files = Files(trial)
    kept, planning.sources.MOST_KEPT = planning.sources.MOST_KEPT, 1 << 21
    for arguments in (["explain", files.case, "/dev/zero"], ["explain", "/dev/zero"], ["picture", files.case, "/dev/zero"]):
        ended = trial.ask(*arguments)
        trial.ends(f"{told(arguments)}, without an end", ended, 1, b"")
        trial.test(f"{told(arguments)}, without an end, in words", ended.err.startswith(b"ceiling: /dev/zero: longer than"), f"{ended.err}")
    planning.sources.MOST_KEPT = kept


def wrong_lines(trial):
    """A wrong command line: status 2, words on standard error."""
    files = Files(trial)
    case, log, plan, to = files.case, files.log, files.plan, files.to[0]
    wrong = [[], ["frobnicate"], ["--frobnicate"], ["press"], ["press", case, case], ["press", case, "-o"], ["check", case]]
    wrong += [["check", case, log, log], ["check", case, "-o", log], ["explain"], ["picture", case], ["score", case], ["score", case, plan, "--log"]]
    wrong += [["show"], ["show", case], ["show", case, log, "0", "1"], ["show", case, log, "--log", log], ["show", case, log, "-o", to]]
    wrong += [["from-csv", files.links], ["to-csv", case, to], ["from-wcsp"], ["to-wcsp"]]
    wrong += [[command, "--frobnicate", case, log] for command in COMMANDS]
    wrong += [["check", "-", "-"], ["explain", "-", "-"], ["picture", "-", "-"], ["show", "-", "-"], ["score", "-", "-"], ["score", case, "-", "-"]]
    wrong += [["score", "-", plan, "--log", "-"], ["from-csv", "-", "-"], ["to-csv", case, "-", to], ["to-csv", case, to, "-"]]
    for arguments in wrong:
        ended = trial.ask(*arguments, data=P4)
        trial.ends(f"{told(arguments)}, a wrong line", ended, 2, b"")
        trial.test(f"{told(arguments)}, a wrong line, in words", ended.err.strip(), "nothing on standard error")
    trial.test("wrong lines leave nothing behind", not any(map(os.path.exists, files.to)))


def odd_names(trial):
    """File names with spaces, letters that are not ASCII and bytes that are no text, on streams that can only write ASCII."""
    for name in ("a pl\u00e4ne.case", os.fsdecode(b"pl\xff\n.case")):
        case, log, bad = trial.file(name, P4), trial.file(name, P4_ROUND), trial.file(name, P4_ROUND[:-1])
        plan = trial.file(name, b"0 1")
        for encoding in ("ascii:strict", "utf-8:strict"):
            for status, arguments in (
                (0, ["check", case, log]), (1, ["explain", case, bad]), (1, ["check", bad, bad]), (1, ["press", bad]), (0, ["score", case, plan]),
                (2, ["check", case + "x", log]), (0, ["to-wcsp", case]), (0, ["picture", case, log]), (0, ["press", case, "-o", case + ".log"]),
            ):
                ended = trial.ask(*arguments, encoding=encoding)
                trial.ends(f"{arguments[0]} with the name {name!r} in {encoding}", ended, status)


def help_and_version(trial):
    ended = trial.run("--help")
    trial.ends("--help", ended, 0, err=b"")
    trial.test("--help names every command", all(name.encode() in ended.out for name in COMMANDS), f"{ended.out}")
    for name in COMMANDS:
        ended = trial.ask(name, "--help")
        trial.ends(f"{name} --help", ended, 0, err=b"")
        trial.test(f"{name} --help, its words", b"ceiling " + name.encode() in ended.out, f"{ended.out[:80]}")
    with open(os.path.join(os.path.dirname(os.path.dirname(trial.command.path)), "VERSION"), "rb") as file:
        trial.ends("--version", trial.run("--version"), 0, b"ceiling " + file.read().strip() + b"\n", b"")


def standard_input(trial):
    """Any one file by `-`, as a pipe or a file; a pipe by its name, which can be read once only."""
    files = Files(trial)
    for arguments in files.accepted():
        for at in range(1, len(arguments)):
            if os.path.exists(arguments[at]) and (arguments[0] != "to-csv" or at == 1):
                with open(arguments[at], "rb") as file:
                    data = file.read()
                wanted = trial.ask(*arguments)
                for name, run in (("-", trial.ask), ("/dev/stdin", trial.run)):
                    if name == "-" or arguments[0] in ("check", "press", "explain") and at == 1:
                        ended = run(*arguments[:at], name, *arguments[at + 1 :], data=data)
                        same(trial, f"{told(arguments)}, {name} at {at}", arguments, ended, wanted)
    refused = trial.run("check", "-", files.log, data=P4 + line(4, 0, 0, 0, 3))
    trial.ends("check - refused", refused, 1, b"refused 12 10\n")
    trial.ends("press - refused", trial.run("press", "-", data=P4[:-1]), 1, b"")
    process = trial.start("check", "-", files.log, stdin=subprocess.PIPE)
    os.write(process.stdin.fileno(), P4[:100])
    time.sleep(0.3)
    trial.ends("check - in two pieces", trial.end(process, P4[100:]), 0, b"accepted 1 2\n")


def same(trial, name, arguments, ended, wanted):
    """The same result; where it names a file, the same verdict or total."""
    parts = {"explain": lambda text: text.split(b"\n")[0], "score": lambda text: text.split()[0], "to-wcsp": lambda text: text.split()[1:]}
    part = parts.get(arguments[0], lambda text: text)
    good = part(ended.out) == part(wanted.out) or arguments[0] == "picture" and b"accepted 1 2" in ended.out
    trial.test(name, ended.status == 0 and good, f"{ended}"[:300])


def placed(trial, name, scripts, version, programs):
    """A copy of the scripts, reached by a symbolic link, the programs in this folder beside it: found there, and missed before they are."""
    files, prefix = Files(trial), trial.empty()
    ours, inside, beside = os.path.dirname(trial.command.path), os.path.join(prefix, scripts), os.path.join(prefix, programs)
    shutil.copytree(ours, inside, ignore=shutil.ignore_patterns("__pycache__"))
    shutil.copy(os.path.join(os.path.dirname(ours), "VERSION"), os.path.join(prefix, version))
    os.makedirs(beside)
    command = os.path.join(trial.empty(), "ceiling")
    os.symlink(os.path.join(inside, "ceiling"), command)
    environment = {variable: value for variable, value in os.environ.items() if variable != "CEILING_PROGRAMS"}

    def run(*arguments):
        return subprocess.run([command, *arguments], env=environment, capture_output=True)

    ended = run("check", files.case, files.log)
    good = ended.returncode == 2 and ended.stdout == b"" and b"scripts/build press replay" in ended.stderr
    trial.test(f"{name} without programs", good, f"{ended}")
    for program in ("press", "replay"):
        os.symlink(trial.programs[program], os.path.join(beside, program))
    ended = run("check", files.case, files.log)
    trial.test(name, (ended.returncode, ended.stdout) == (0, b"accepted 1 2\n"), f"{ended}")
    trial.test(f"{name}, --version", run("--version").stdout == trial.ask("--version").out)
    trial.test(f"{name}, nothing is compiled beside it", not any("__pycache__" in folders for _, folders, _ in os.walk(prefix)))


def places(trial):
    placed(trial, "in a source tree", "scripts", "", os.path.join("target", "bin"))
    placed(trial, "installed", os.path.join("lib", "ceiling"), os.path.join("lib", "ceiling"), "bin")


def many_open(trial):
    """Whoever starts the command may have left it more open files than `select` can number."""
    files = Files(trial)
    limits = resource.getrlimit(resource.RLIMIT_NOFILE)
    resource.setrlimit(resource.RLIMIT_NOFILE, (max(limits[0], 2000), limits[1]))
    left = [os.open(os.devnull, os.O_RDONLY) for _ in range(1100)]
    trial.ends("check with 1100 open files", trial.ask("check", files.case, files.log), 0, b"accepted 1 2\n")
    for number in left:
        os.close(number)
    resource.setrlimit(resource.RLIMIT_NOFILE, limits)


def environments(trial):
    """Python's variables of the environment change nothing; without Python there is a word and status 2."""
    files, folder = Files(trial), trial.empty()
    with open(os.path.join(folder, "select.py"), "w", encoding="ascii") as file:
        file.write("raise SystemExit(0)\n")
    for variable, value in (("PYTHONSAFEPATH", "1"), ("PYTHONINSPECT", "1"), ("PYTHONHOME", "/x"), ("PYTHONPATH", folder)):
        for log, status, verdict in ((files.log, 0, b"accepted 1 2\n"), (files.bad_log, 1, b"refused 14 12\n")):
            ended = trial.run("check", files.case, log, variables={variable: value})
            trial.ends(f"check {told([log])} with {variable}", ended, status, verdict)
    ended = trial.run("check", files.case, files.log, variables={"PATH": folder})
    trial.ends("check without Python", ended, 2, b"", b"ceiling: there is no python3 on the PATH\n")


def tests(trial):
    for part in (environments, many_open, statuses, unreadable, endless, wrong_lines, odd_names, help_and_version, standard_input, places):
        part(trial)
