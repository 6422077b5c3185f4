"""Runs the drill and the independent one on the same moves by turns and prints the best time of each and their ratio.

Usage: time_drills.py FOLDER DRILL REFERENCE, the folder holding plan.set and moves, the programs named from it.
"""
import os
import subprocess
import sys
import time

TURNS = 9


def run(folder, program):
    """The seconds that a run took, and what it printed."""
    with open(os.path.join(folder, "moves"), "rb") as moves, open(os.path.join(folder, "lines"), "wb") as lines:
        start = time.perf_counter()
        subprocess.run([program], cwd=folder, stdin=moves, stdout=lines, check=True)
        seconds = time.perf_counter() - start
    with open(os.path.join(folder, "lines"), "rb") as lines:
        return seconds, lines.read()


def main():
    folder, drill, reference = sys.argv[1:]
    best = {}
    for _ in range(TURNS):
        printed = []
        for program in (drill, reference):
            seconds, text = run(folder, os.path.join(".", program))
            best[program] = min(best.get(program, seconds), seconds)
            printed.append(text)
        if printed[0] != printed[1]:
            sys.exit("the two drills differ")
    moves = printed[0].count(b"\n")
    print(f"drill, {moves:,} moves: {best[drill]:.2f} s, C {best[reference]:.2f} s, ratio {best[drill] / best[reference]:.2f}")


if __name__ == "__main__":
    main()
