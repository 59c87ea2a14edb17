"""An output file is complete or absent: refusals, failures, programs that go wrong, signals in the middle of a long run."""

import os
import resource
import signal
import subprocess
import time

import planning.outputs
import planning.pressing
from picturing.case import MOST_BYTES
from picturing.columns import LINE
from running import inputs
from running.inputs import P4, P4_ROUND, accepted_log
from running.stand_ins import COMPLAINS, DIES, SLEEPS, gone, judges, says

from .exits import Files, told
from .trial import last_line
from .verdicts import read

OLD = b"what stood here before\n"
# Every write past so many bytes of a file fails.
SMALL = 40


def writers(files, to):
    """Every command that writes one file: its arguments where it succeeds, and where it is refused."""
    return [
        (["press", files.case, "-o", to], ["press", files.bad_case, "-o", to]),
        (["from-csv", files.links, files.pairs, "-o", to], ["from-csv", files.bad_links, files.pairs, "-o", to]),
        (["from-wcsp", files.wcsp, "-o", to], ["from-wcsp", files.bad_wcsp, "-o", to]),
        (["to-wcsp", files.case, "-o", to], ["to-wcsp", files.bad_case, "-o", to]),
        (["picture", files.case, files.log, "-o", to], None),
    ]


def written(trial):
    """What is written is what goes to standard output; an earlier file is replaced, by a symbolic link too; refused, it stays."""
    files = Files(trial)
    for good, bad in writers(files, None):
        wanted = trial.ask(*good[:-2]).out
        trial.ends(f"{told(good[:-2])} -o -", trial.ask(*good[:-2], "-o", "-"), 0, wanted)
        trial.ends(f"{told(good[:-2])} -o /dev/null", trial.ask(*good[:-2], "-o", "/dev/null"), 0, b"")
        trial.ends(f"{told(good[:-2])} -o /dev/stdout", trial.ask(*good[:-2], "-o", "/dev/stdout"), 0, wanted)
        for name in ("new", "old", "linked"):
            folder = trial.empty()
            to = real = os.path.join(folder, "to")
            before(name, folder, to)
            if bad:
                trial.ends(f"{told(bad[:-1])} {name}, refused", trial.ask(*bad[:-1], to), 1, b"")
                trial.test(f"{told(bad[:-1])} {name} stays", (name == "new" and os.listdir(folder) == []) or read(to) == OLD)
            trial.ends(f"{told(good[:-1])} {name}", trial.ask(*good[:-1], to), 0, b"")
            left = {"linked": ["real", "to"]}.get(name, ["to"])
            trial.test(f"{told(good[:-1])} {name}, whole and alone", read(real) == wanted and sorted(os.listdir(folder)) == left)
            trial.test(f"{told(good[:-1])} {name}, the link", os.path.islink(to) == (name == "linked"))
    trial.test("/dev/null is as it was", not os.path.isfile("/dev/null"))


def over_inputs(trial):
    """An output that is an input too, by its name or as standard input: status 2, and it stays."""
    for good, _ in writers(Files(trial), None):
        for place in range(1, len(good) - 2):
            kept = read(good[place])
            trial.ends(f"{told(good[:-1])} over its input", trial.ask(*good[:-1], good[place]), 2, b"")
            with open(good[place], "rb") as file:
                ended = trial.end(trial.start(*good[:place], "-", *good[place + 1 : -1], good[place], stdin=file))
            trial.ends(f"{told(good[:-1])} over standard input", ended, 2, b"")
            trial.test(f"{told(good[:-1])} over its input stays", read(good[place]) == kept)
    ended = trial.end(trial.start("press", "-", "-o", "/dev/null", stdin=subprocess.DEVNULL))
    trial.ends("press from /dev/null to /dev/null", ended, 1, b"")


def before(name, folder, to):
    real = os.path.join(folder, "real") if name == "linked" else to
    if name != "new":
        with open(real, "wb") as file:
            file.write(OLD)
    if name == "linked":
        os.symlink("real", to)


def odd_outputs(trial):
    """A name without a folder, the longest name, a link to a file not yet there, a pipe, standard output by its name behind other lines."""
    files, folder = Files(trial), trial.empty()
    inside = lambda: os.chdir(folder)
    for name in ("to", "n" * 255):
        trial.ends(f"press -o in this folder, {len(name)} letters", trial.run("press", files.case, "-o", name, before=inside), 0, b"")
        trial.test(f"press -o in this folder, {len(name)} letters, the log", read(os.path.join(folder, name)) == P4_ROUND)
    os.symlink("real", os.path.join(folder, "link"))
    trial.ends("press -o to a link to nothing", trial.ask("press", files.case, "-o", os.path.join(folder, "link")), 0, b"")
    trial.test("press -o to a link to nothing, the log", read(os.path.join(folder, "real")) == P4_ROUND)
    pipe = os.path.join(folder, "pipe")
    os.mkfifo(pipe)
    reader = os.open(pipe, os.O_RDONLY | os.O_NONBLOCK)
    trial.ends("press -o to a pipe", trial.ask("press", files.case, "-o", pipe), 0, b"")
    trial.test("press -o to a pipe, the log", os.read(reader, 1000) == P4_ROUND)
    os.close(reader)
    trial.test("press -o, nothing else", sorted(os.listdir(folder)) == ["link", "n" * 255, "pipe", "real", "to"], f"{os.listdir(folder)}")
    before("old", folder, os.path.join(folder, "to"))
    with open(os.path.join(folder, "to"), "ab") as more:
        trial.ends("press -o /dev/stdout behind other lines", trial.end(trial.start("press", files.case, "-o", "/dev/stdout", stdout=more)), 0)
    both = read(os.path.join(folder, "to"))
    trial.test("press -o /dev/stdout behind other lines, both", both == OLD + P4_ROUND, f"{both}")


def unwritable(trial):
    """Where nothing can be written: status 2, one line that names the file, nothing left behind, what stood there stays."""
    files = Files(trial)
    for good, _ in writers(files, None):
        folder = trial.empty()
        for name, to in (("in no folder", os.path.join(folder, "nowhere", "to")), ("on a folder", folder), ("on a full device", "/dev/full")):
            ended = trial.ask(*good[:-1], to)
            trial.ends(f"{told(good[:-1])} {name}", ended, 2, b"")
            trial.test(f"{told(good[:-1])} {name}, in words", to.encode() in ended.err, f"{ended.err}")
        to = os.path.join(folder, "to")
        for stood in (False, True) if good[0] == "press" else (False,):
            ended = trial.run(*good[:-1], to, before=lambda: resource.setrlimit(resource.RLIMIT_FSIZE, (SMALL, SMALL)))
            trial.ends(f"{told(good[:-1])} too long for the device", ended, 2, b"")
            left = [(name, read(os.path.join(folder, name))) for name in os.listdir(folder)]
            trial.test(f"{told(good[:-1])} too long for the device, nothing left", left == [("to", OLD)] * stood, f"{left}")
            before("old", folder, to)
    pairs_of_files(trial, files)


def pairs_of_files(trial, files):
    """The two files of `to-csv`: both or none."""
    for name in ("first", "second"):
        folder = trial.empty()
        to = [os.path.join(folder, "links.csv"), os.path.join(folder, "pairs.csv")]
        bad = [os.path.join(folder, "nowhere", "to") if name == which else path for which, path in zip(("first", "second"), to)]
        trial.ends(f"to-csv, the {name} in no folder", trial.ask("to-csv", files.case, *bad), 2, b"")
        trial.test(f"to-csv, the {name} in no folder, none", os.listdir(folder) == [], f"{os.listdir(folder)}")
        bad = [folder if name == which else path for which, path in zip(("first", "second"), to)]
        trial.ends(f"to-csv, the {name} on a folder", trial.ask("to-csv", files.case, *bad), 2, b"")
        trial.test(f"to-csv, the {name} on a folder, none", os.listdir(folder) == [], f"{os.listdir(folder)}")
        trial.ends("to-csv refused", trial.ask("to-csv", files.bad_case, *to), 1, b"")
        trial.test("to-csv refused, none", os.listdir(folder) == [], f"{os.listdir(folder)}")
    ended = trial.run("to-csv", files.case, *to, before=lambda: resource.setrlimit(resource.RLIMIT_FSIZE, (SMALL, SMALL)))
    trial.ends("to-csv too long for the device", ended, 2, b"")
    trial.test("to-csv too long for the device, none", os.listdir(folder) == [], f"{os.listdir(folder)}")
    trial.ends("to-csv", trial.ask("to-csv", files.case, *to), 0, b"")
    trial.test("to-csv, both", sorted(os.listdir(folder)) == ["links.csv", "pairs.csv"])
    trial.ends("from-csv of to-csv", trial.ask("from-csv", *to), 0, P4)


def failing_programs(trial):
    """A `press` or `replay` that goes wrong leaves no log behind; what it says is passed on."""
    case, log = inputs.many_rounds()
    path = trial.file("plan.case", case)
    half, some = ["cat > /dev/null; head -c %d %s\n" % (size, trial.file("log", log)) for size in (len(log) // 2 + 5, 40 * LINE)]
    long = "cat > /dev/null; for i in 1 2 3 4 5 6 7 8 9 10; do cat %s; done\n" % trial.file("log", log)
    ends = "printf 'refused 11 9999\\n'\n"
    for name, script, status, words in (
        ("press half and dies", {"press": half + DIES}, 2, b""),
        ("press nothing and dies", {"press": DIES}, 2, b""),
        ("press half and ends", {"press": half}, 1, b"refused 14 "),
        ("press some rounds and half a line", {"press": some + "printf ' 2   0'\n"}, 1, b"refused 14 "),
        ("press a complaint", {"press": "cat > /dev/null\n" + COMPLAINS}, 2, b""),
        ("press some rounds and a complaint", {"press": some + COMPLAINS}, 2, b""),
        ("press a refusal", {"press": says("refused 8 3\n")}, 1, b"refused 8 3\n"),
        ("press a refusal after some rounds", {"press": some + ends}, 1, b"refused 11 9999\n"),
        ("press a refusal between rounds", {"press": some + ends + "printf '%s\\n' ' 4   0   0   0         -99'\n"}, 1, b"refused 11 9999\n"),
        ("press half a refusal", {"press": some + "printf 'refused 11 99'\n"}, None, b""),
        ("press another case's log", {"press": says(P4_ROUND.decode())}, 1, b"refused "),
        ("replay nothing", {"replay": "cat > /dev/null\n"}, 2, b""),
        ("replay dies", {"replay": DIES}, 2, b""),
        ("replay a verdict and dies", {"replay": says("accepted 161 -161\n") + DIES}, 2, b""),
        ("replay half a line", {"replay": says("accepted 161 -161")}, 2, b""),
        ("replay a complaint", {"replay": says("accepted 161 -161\n") + COMPLAINS}, 2, b""),
        ("replay a refusal", {"replay": says("refused 12 7\n")}, 1, b"refused 12 7\n"),
        ("replay something else", {"replay": says("well done\n")}, 2, b""),
        ("a long log and replay dies", {"press": long, "replay": DIES}, 2, b""),
    ):
        programs = trial.stand_ins.folder(**script)
        for stood in (False, True):
            folder = trial.empty()
            to = os.path.join(folder, "to")
            before("old" if stood else "new", folder, to)
            ended = trial.ask("press", path, "-o", to, programs=programs)
            left = [(file, read(os.path.join(folder, file))) for file in os.listdir(folder)]
            trial.test(f"{name}, no log", left == [("to", OLD)] * stood and ended.status != 0, f"{ended.status} {left}"[:200])
        trial.ends(name, ended, status or ended.status, b"")
        trial.test(f"{name}, passed on", (b"\n" + ended.err).count(b"\n" + words) or not words, f"{ended.err}")
        if "press" in script:
            to_output(trial, name, trial.ask("press", path, programs=programs), status, log)


def failing_judge(trial):
    """What `replay` turns back, or does not judge, is not converted. A page is drawn with what it says, if its figures are those of the drawing."""
    files = Files(trial)
    for status, script in ((1, says("refused 8 3\n")), (1, says("accepted 2 4\n")), (2, says("")), (2, says("accepted 0 4\n") + DIES)):
        programs = trial.stand_ins.folder(replay=script)
        for good, _ in [one for one in writers(files, None) if one[0][0] not in ("press", "picture")]:
            folder = trial.empty()
            ended = trial.ask(*good[:-1], os.path.join(folder, "to"), programs=programs)
            trial.ends(f"{told(good[:-1])} where replay does {script!r}", ended, status, b"")
            trial.test(f"{told(good[:-1])} where replay does {script!r}, nothing", os.listdir(folder) == [], f"{os.listdir(folder)}")
    for words, status in (("accepted 1 2\n", 0), ("refused 13 12\n", 1), ("accepted 1 3\n", 2), ("accepted 2 2\n", 2), ("", 2)):
        programs = trial.stand_ins.folder(replay=judges(len(P4), "echo accepted 0 4\n", f"printf '{words}'\n"))
        ended = trial.ask("picture", files.case, files.log, programs=programs)
        trial.ends(f"picture where replay says {words!r}", ended, status, b"" if status == 2 else None)
        said = last_line(ended.err) == words.strip().encode() and words.strip().encode() in ended.out
        trial.test(f"picture where replay says {words!r}, on the page", said or status == 2, f"{ended.err}")


def changing(trial):
    """A log that changes between two readings: no verdict, no page, no reason."""
    longer = accepted_log(2 * MOST_BYTES // LINE)[len(P4) :]
    for name, change, command, log, verdict in (
        ("grows", "echo >> {0}", "explain", P4_ROUND, "refused 12 13"),
        ("grows", "echo >> {0}", "picture", longer, "accepted 1 2"),
        ("is emptied", ": > {0}", "explain", longer, "refused 12 9999"),
        ("is emptied", ": > {0}", "picture", longer, "refused 12 9999"),
        ("is emptied", ": > {0}", "picture", longer, "accepted 1 2"),
        ("loses its columns", "tr ' ' x < {0} > {0}x; cat {0}x > {0}", "picture", longer, "accepted 1 2"),
    ):
        case, path = trial.both(P4, log)
        script = f"{change.format(path)}\necho {verdict}\n"
        programs = trial.stand_ins.folder(replay=judges(len(P4), "echo accepted 0 4\n", script))
        ended = trial.ask(command, case, path, programs=programs)
        trial.ends(f"{command} {verdict} where the log {name}", ended, 2, b"", f"ceiling: {path}: changed while it was read\n".encode())


def to_output(trial, name, ended, status, log):
    """On standard output stand log lines at most."""
    trial.ends(f"{name}, on standard output", ended, status or ended.status)
    good = ended.status != 0 and b"refused" not in ended.out and (log.startswith(ended.out) or ended.out.startswith(log[: 40 * LINE]) or status == 1)
    trial.test(f"{name}, on standard output log lines at most", good, f"{ended.out[-80:]}")


def wait(condition, seconds=20):
    until = time.monotonic() + seconds
    while not condition() and time.monotonic() < until:
        time.sleep(0.01)
    return condition()


def signals(trial, largest):
    """A signal in the middle of a long press: its status, no log, no other file, and the programs end."""
    path = trial.file("plan.case", largest)
    for name, number, send, stood in (
        ("SIGINT", signal.SIGINT, os.kill, False),
        ("SIGINT from a terminal", signal.SIGINT, os.killpg, True),
        ("SIGTERM", signal.SIGTERM, os.kill, True),
        ("SIGTERM to all", signal.SIGTERM, os.killpg, False),
        ("SIGHUP", signal.SIGHUP, os.kill, False),
        ("SIGKILL", signal.SIGKILL, os.kill, False),
        ("SIGKILL over a file", signal.SIGKILL, os.kill, True),
    ):
        folder, notes = trial.empty(), trial.empty()
        to, ids = os.path.join(folder, "to"), [os.path.join(notes, program) for program in ("press", "replay")]
        before("old" if stood else "new", folder, to)
        programs = trial.stand_ins.folder(**{program: trial.stand_ins.noted(program, file) for program, file in zip(("press", "replay"), ids)})
        process = trial.start("press", path, "-o", to, programs=programs)
        begun = wait(lambda: all(map(read, ids)) and any(os.path.getsize(os.path.join(folder, file)) > 5000 for file in os.listdir(folder)))
        send(process.pid, number)
        trial.ends(f"press with {name}", trial.end(process), 128 + number, b"")
        trial.test(f"press with {name} had begun", begun)
        trial.test(f"press with {name}, no log", read(to) == (OLD if stood else None), f"{os.listdir(folder)}")
        alone = os.listdir(folder) == ["to"] * stood
        trial.test(f"press with {name}, nothing else", alone or number == signal.SIGKILL, f"{os.listdir(folder)}")
        trial.test(f"press with {name}, the programs end", wait(lambda: all(map(gone, ids))))


def late_signals(trial):
    """A signal when the log has its name, before and after the folder is flushed: the log is whole and the status says so."""
    for number in (signal.SIGINT, signal.SIGTERM):
        for module, name in ((planning.outputs, "flush_folder"), (planning.pressing, "say")):
            files, to = Files(trial), os.path.join(trial.empty(), "to")
            kept = getattr(module, name)
            setattr(module, name, lambda *words: (os.kill(os.getpid(), number), kept(*words)))
            ended = trial.ask("press", files.case, "-o", to)
            setattr(module, name, kept)
            trial.ends(f"press with {number.name} at {name}", ended, 0, b"")
            trial.test(f"press with {number.name} at {name}, the log", read(to) == P4_ROUND and b"accepted 1 2" in ended.err, f"{ended}")


def sleeping(trial):
    """Programs that sleep are ended with the command, and nothing is written."""
    case, log = trial.both(P4, P4_ROUND)
    folder = trial.empty()
    press = ["press", case, "-o", os.path.join(folder, "to")]
    for name, arguments in (("press", press), ("replay", press), ("replay", ["check", case, log]), ("replay", ["explain", case])):
        for number in (signal.SIGINT, signal.SIGTERM):
            note = os.path.join(trial.empty(), "id")
            programs = trial.stand_ins.folder(**{name: f"echo $$ > {note}; {SLEEPS}"})
            process = trial.start(*arguments, programs=programs)
            begun = wait(lambda: read(note))
            process.send_signal(number)
            ended = trial.end(process)
            title = f"{arguments[0]} with {number.name} where {name} sleeps"
            trial.test(f"{title}, its status", begun and ended.status == 128 + number, f"{ended}")
            trial.test(f"{title}, the program ends", begun and wait(lambda: gone(note)))
            trial.test(f"{title}, no verdict", b"accepted" not in ended.out + ended.err, f"{ended}")
            trial.test(f"{title}, no file", os.listdir(folder) == [], f"{os.listdir(folder)}")


def failing_writes(trial, largest):
    """Standard output closed, full, or with a reader that goes: status 2, and a long press does not go on."""
    files = Files(trial)
    for arguments in [one for one in files.accepted() if one[0] != "to-csv"]:
        with open("/dev/full", "wb") as full:
            trial.ends(f"{told(arguments)} to a full output", trial.end(trial.start(*arguments, stdout=full)), 2)
        if arguments[0] in ("press", "check", "explain"):
            ended = trial.end(trial.start(*arguments, stdout=subprocess.DEVNULL, before=lambda: os.close(1)))
            trial.ends(f"{told(arguments)} to a closed output", ended, 2)
    path = trial.file("plan.case", largest)
    for name, first in (("without a reader", 0), ("whose reader goes", 3000)):
        note = os.path.join(trial.empty(), "id")
        programs = trial.stand_ins.folder(press=trial.stand_ins.noted("press", note))
        began = time.monotonic()
        process = trial.start("press", path, programs=programs)
        got = process.stdout.read(first)
        process.stdout.close()
        process.stdout = None
        ended = trial.end(process)
        trial.ends(f"press to a pipe {name}", ended, 2)
        trial.test(f"press to a pipe {name}, the program ends", len(got) == first and wait(lambda: gone(note)), f"{time.monotonic() - began:.1f} s")
    to = os.path.join(trial.empty(), "to")
    ended = trial.end(trial.start("press", files.case, "-o", to, stdout=subprocess.DEVNULL, before=lambda: (os.close(0), os.close(1))))
    trial.test("press -o with standard input and output closed", ended.status == 0 and read(to) == P4_ROUND, f"{ended} {read(to)}")


def tests(trial, largest):
    for part in (written, over_inputs, odd_outputs, unwritable, failing_programs, failing_judge, changing, late_signals, sleeping):
        part(trial)
    signals(trial, largest)
    failing_writes(trial, largest)
