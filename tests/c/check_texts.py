"""Holds the refusals' words in C to those that the program show prints, and checks that every refusal has words of its own.

Usage: check_texts.py TEXTS SHOW, at the repository's root: the programs of texts.c and show."""
import glob
import os
import shutil
import subprocess
import sys
import tempfile

OF_A_SET = range(1, 10)  # the refusals that show prints
REFUSALS = range(0, 26)  # with 0, done


def said_in_c(texts):
    lines = subprocess.run([texts], capture_output=True, check=True, text=True).stdout.splitlines()
    return {int(number): words for number, words in (line.split(" ", 1) for line in lines)}


def said_by_show(show, path):
    """The number and the words that show prints of a set, or none where it is accepted."""
    with tempfile.TemporaryDirectory() as folder:
        shutil.copy(path, os.path.join(folder, "plan.set"))
        lines = subprocess.run([show], cwd=folder, capture_output=True, check=True, text=True).stdout.splitlines()
    return (int(lines[0].split()[1]), lines[1]) if lines[0].startswith("set ") else None


def main():
    texts, show = sys.argv[1], os.path.abspath(sys.argv[2])
    words = said_in_c(texts)
    shown = {said_by_show(show, path) for path in sorted(glob.glob("crates/test_sets/data/*.set"))} - {None}
    wrong = ["%d: show prints %r, C has %r" % (number, line, words[number]) for number, line in sorted(shown) if words[number] != line]
    wrong += ["%d: no set that show refuses so" % number for number in OF_A_SET if number not in dict(shown)]
    others = {line for number, line in words.items() if number not in REFUSALS}
    if len(others) != 1 or len({words[number] for number in REFUSALS} | others) != len(REFUSALS) + 1:
        wrong.append("two numbers have the same words, or one that is no refusal has words of its own")
    if wrong:
        sys.exit("\n".join(wrong))
    print("%d refusals in words, %d of them as show prints them" % (len(REFUSALS) - 1, len(shown)))


if __name__ == "__main__":
    main()
