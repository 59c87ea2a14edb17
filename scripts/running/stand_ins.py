"""Programs that stand in for `press` and `replay`: small shell scripts that say what the real ones never say."""

import os
import shlex


class StandIns:
    """Makes folders with two programs, each the real one or a script."""

    def __init__(self, root, press, replay):
        self.root, self.real = root, {"press": press, "replay": replay}
        self.made = 0

    def folder(self, **scripts):
        self.made += 1
        path = os.path.join(self.root, f"programs{self.made}")
        os.mkdir(path)
        for name, real in self.real.items():
            program = os.path.join(path, name)
            if name in scripts:
                with open(program, "w", encoding="ascii") as file:
                    file.write("#!/bin/sh\n" + scripts[name])
                os.chmod(program, 0o755)
            else:
                os.symlink(real, program)
        return path

    def noted(self, name, path):
        """The real program after it has written its process id to a file."""
        return f"echo $$ > {shlex.quote(path)}; exec {shlex.quote(self.real[name])}\n"


def says(text):
    """Reads its input and prints this text."""
    return f"cat > /dev/null; printf '%s' {shlex.quote(text)}\n"


def judges(size, first, second):
    """A `replay` that answers an input of this size, the case, by the first script and a longer one by the second."""
    return f'size=$(wc -c)\nif [ "$size" -eq {size} ]; then\n{first}else\n{second}fi\n'


DIES = "kill -9 $$\n"
COMPLAINS = "echo words >&2\n"
# Ends by itself where nobody ends it.
SLEEPS = "exec sleep 30\n"


def gone(path):
    """Whether the process whose id stands in the file has ended."""
    try:
        with open(path, encoding="ascii") as file:
            pid = file.read().strip()
        with open(f"/proc/{pid}/stat", encoding="ascii", errors="replace") as file:
            return file.read().rpartition(")")[2].split()[0] == "Z"
    except OSError:
        return True
