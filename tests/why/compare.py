"""Compares what two programs print of random moves, the drill's lines and the line why: many short lists over many sets, with lines that
are no moves in every other list.

Usage: compare.py PROGRAM REFERENCE [LISTS [SEED]], at the repository's root. Each program is a command, a path and its arguments; the same
lists and seed give the same run. Every reason and every cause must come."""
import collections
import io
import os
import random
import subprocess
import sys
import tempfile

sys.dont_write_bytecode = True
sys.path[:0] = ["tests/independent", "tests/sets"]
from layout import plan_set
from make_drill import MASTER, Drill, read_plan

LISTS_OF_SET, LEAST, MOST = 50, 5, 200
WORDS = ["16", "profile", "none", "sleep", "owed", "own", "new", "refused", "aged", "damaged", "wake"]


def random_set(chance):
    """Up to sixteen nodes, rows of all four kinds, and times so short that windows, stops and sleeps come in short lists; one set in six
    never sleeps."""
    count = chance.choice([1, 1, 2, 2, 3, 5, 16])
    window, *others = chance.choice([1, 2, 3, 10, 40]), *(chance.randint(1, 6) for _ in range(6))
    others[1] = max(others[:2])
    nodes = [(node + 1, 1, chance.randrange(2)) for node in range(count)]
    publishers = chance.sample([*range(count), *chance.choices([MASTER, *range(count)], k=3)], count + 3)
    rows = [(16 + row, publisher, chance.choice([0, 2, 255]), chance.randrange(4)) for row, publisher in enumerate(publishers)]
    return plan_set(7, [window, *others], nodes, rows, profile=int(chance.random() < 1 / 6))


def random_moves(plan, chance, odd):
    out = io.BytesIO()
    Drill(plan, chance.randint(LEAST, MOST), chance.random(), odd, out).run()
    moves = out.getvalue()
    return moves[:-1] if chance.random() < 0.2 else moves


def printed_by(command, folder, moves):
    return subprocess.run(command, cwd=folder, input=moves, stdout=subprocess.PIPE, check=True).stdout


def command_of(text):
    program, *arguments = text.split()
    return [os.path.abspath(program), *arguments]


def main():
    program, reference = map(command_of, sys.argv[1:3])
    lists, seed = [int(number) for number in sys.argv[3:]] + [6000, 1][len(sys.argv) - 3:]
    chance = random.Random(seed)
    came, lines = collections.Counter(), 0
    with tempfile.TemporaryDirectory() as folder:
        path = os.path.join(folder, "plan.set")
        for made in range(lists):
            if made % LISTS_OF_SET == 0:
                with open(path, "wb") as file:
                    file.write(random_set(chance))
            moves = random_moves(read_plan(path), chance, made % 2 == 1)
            got, wanted = (printed_by(command, folder, moves) for command in (program, reference))
            if got != wanted:
                sys.exit("list %d of seed %d: printed\n%s\nby the reference\n%s" % (made, seed, got[-200:].decode(), wanted[-200:].decode()))
            came[wanted.split()[-1].decode()] += 1
            lines += wanted.count(b"\n")
    print(", ".join("%s %d" % (word, came[word]) for word in WORDS))
    if sorted(came) != sorted(WORDS):
        sys.exit("a word never came, or another did: %s" % sorted(came))
    print("why: %d lists, %d lines as the independent program prints them" % (lists, lines))


if __name__ == "__main__":
    main()
