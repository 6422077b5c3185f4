"""Shows what `rt ci` prints, as it comes: a line for each crate proved, edit refused, program and test run, with the seconds since the beginning. What the
prover says of a crate that it proved is left out, but for lines of rt's own, and so is the line of the verdict, which the gate shows last; all else is shown
whole, also what says that an edit was refused for little.

Usage: rt ci 2>&1 | python3 lines.py (awk may be mawk, which takes a pipe by blocks and would show a line late)"""
import re
import sys
import time

BLOCK = r"== (\w+)(: its tests)?"
PROVED = r"rt: (\w+ proved|\w+: its tests are proved)"
PASSED = [
    r"rt: (\w+ is kept)(?:: an earlier run .*)",
    r"rt: (\w+: trying its must-fail edits \(\d+\))",
    r"rt: must-fail (\S+: refused), as it must be(?:: .*)?",
    r"rt: (\w+ ran(?: \(built by Rattle's own compiler\))?), and wrote what its file stdout has",
]
TESTED = r"rt: (\w+: its tests passed)"
VERDICT = r"\d+ passed, \d+ failed(?: \(.*\))?"


def main():
    for stream in (sys.stdin, sys.stdout):  # a killed rt can leave half a character
        stream.reconfigure(encoding="utf-8", errors="surrogateescape")
    began = time.monotonic()
    held, within = [], None  # what was said of a crate whose outcome is to come, and which

    def show(*lines):
        for line in lines:
            print(line, flush=True)

    def passes(match):
        show("%5d s  %s" % (time.monotonic() - began, match[1]))

    for line in sys.stdin:
        line = line.rstrip("\n")
        block = re.fullmatch(BLOCK, line)
        if block:
            show(*held)
            held, within = [line], block[1]
        elif within:
            held.append(line)
            proved = re.fullmatch(PROVED, line)
            if proved:
                show(*[each for each in held[1:-1] if each.startswith("rt: ")])
                passes(proved)
            elif re.fullmatch(r"rt: %s(: its tests are)? NOT PROVED" % within, line):
                show(*held)
            else:
                continue
            held, within = [], None
        elif re.fullmatch(VERDICT, line):
            show(*held)
            held = []
        elif not line.startswith("rt: "):
            held.append(line)
        else:
            tested = re.fullmatch(TESTED, line)
            passed = next(filter(None, (re.fullmatch(form, line) for form in PASSED)), None)
            # The tests' own lines are the last ones, from their number on.
            number = [place for place, each in enumerate(held) if re.fullmatch(r"tests: \d+", each)] if tested else []
            show(*held[:number[-1] if number else None])
            held = []
            if tested or passed:
                passes(tested or passed)
            else:
                show(line)
    show(*held)


main()
