"""Scripts of a drill: the lines of moves, what is printed of each, and the files that hold them.

A folder of scripts has its sets and scripts in data; args names them, a set and a script for each run; stdout has what is printed of all
runs, each after a line with its two names."""
import os
import sys

sys.path.insert(0, "tests/sets")
from layout import plan_set

POLLED, EVENT, MASTER = 1, 0, 255


def write(folder, name, data):
    os.makedirs(folder, exist_ok=True)
    with open(os.path.join(folder, name), "wb") as file:
        file.write(data)


class Scripts:
    def __init__(self, folder):
        self.folder, self.sets, self.scripts = folder, {}, []

    def release_set(self, name, times, methods, rows, profile=0):
        nodes = [(0x41 + i, 1, method) for i, method in enumerate(methods)]
        self.sets[name] = plan_set(7, times, nodes, rows, profile)

    def raw(self, name, script, lines, last=b"\n", after=""):
        """A script of pairs, the bytes of a line and what is printed for it; and what is printed after them."""
        printed = "".join("%d %s\n" % (k + 1, text) for k, (_, text) in enumerate(lines))
        data = b"\n".join(line for line, _ in lines)
        self.scripts.append((name, script, data + last if lines else data, printed + after))

    def script(self, name, script, table, **more):
        """A script of lines, a move and beside it what is printed for it."""
        lines = [line.split("|") for line in table.strip().split("\n")]
        self.raw(name, script, [(move.strip().encode(), text.strip()) for move, text in lines], **more)

    def refused(self, name, script, refusal):
        """A script that stands already, with a set that is refused or missing: nothing is printed but the number."""
        self.scripts.append((name, script, None, "set %d\n" % refusal))

    def store(self):
        args, stdout = [], ""
        for name, data in self.sets.items():
            write(self.folder + "/data", name + ".set", data)
        for name, script, data, printed in self.scripts:
            if data is not None:
                write(self.folder + "/data", script, data)
            args += [name + ".set", script]
            stdout += "%s.set %s\n%s" % (name, script, printed)
        write(self.folder, "args", "".join(word + "\n" for word in args).encode())
        write(self.folder, "stdout", stdout.encode())
