"""Runs a program on the scripts of a folder and compares what it prints with their stored output (tests/drills/scripts.py has the form).

Usage: compare_drills.py FOLDER PROGRAM [ARGUMENT]..
"""
import os
import re
import subprocess
import sys
import tempfile


def stored(folder, name):
    """The bytes of a file of the scripts' folder, none where it is missing."""
    path = os.path.join(folder, "data", name)
    if not os.path.exists(path):
        return None
    with open(path, "rb") as file:
        return file.read()


def lines_of(command, plan, moves):
    """What a program prints of moves in a folder that holds the set, or none."""
    with tempfile.TemporaryDirectory() as folder:
        if plan is not None:
            with open(os.path.join(folder, "plan.set"), "wb") as file:
                file.write(plan)
        return subprocess.run(command, cwd=folder, input=moves, stdout=subprocess.PIPE, check=True).stdout


def runs(folder):
    """Of each run the names of its set and its script, and what is stored of it."""
    with open(os.path.join(folder, "args"), encoding="ascii") as file:
        names = file.read().split("\n")[:-1]
    with open(os.path.join(folder, "stdout"), "rb") as file:
        _, *pieces = re.split(rb"^(\S+\.set) (\S+)\n", file.read(), flags=re.M)
    if [piece.decode() for at, piece in enumerate(pieces) if at % 3 < 2] != names:
        sys.exit(f"{folder}: args and stdout have other runs")
    return list(zip(names[::2], names[1::2], pieces[2::3]))


def compare(folder, program, *arguments):
    command = [os.path.abspath(program), *arguments]
    for plan, script, wanted in runs(folder):
        printed = lines_of(command, stored(folder, plan), stored(folder, script) or b"")
        if printed != wanted:
            sys.exit(f"{folder}: of {plan} and {script} is printed\n{printed.decode(errors='replace')}and stored\n{wanted.decode()}")
    print(f"{len(runs(folder))} scripts of {folder} as stored")


if __name__ == "__main__":
    compare(*sys.argv[1:])
