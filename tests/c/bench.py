"""Runs the benchmark's programs by turns, nine times each, and prints the best time of each call beside C's, and the stacks.

Usage: bench.py CALLS PROGRAM NAME [PROGRAM NAME]..: the calls whose names begin with CALLS; programs made of bench.c, each with what
its C was compiled by.
"""
import subprocess
import sys

TURNS = 9
# The bars: the export's time to C's by the first compiler and by any other; a difference of less than SLACK nanoseconds is none.
FIRST_BAR = 0.9
OTHER_BAR = 1.0
SLACK = 5


def measured(program):
    """What a run measured: for each call the times of export and C and the stacks of both."""
    text = subprocess.run([program], capture_output=True, check=True, text=True).stdout
    rows = (line.split("\t") for line in text.splitlines())
    return {row[0]: (float(row[1]), float(row[2]), int(row[3]), int(row[4])) for row in rows}


def main():
    calls = sys.argv[1]
    programs = list(zip(sys.argv[2::2], sys.argv[3::2]))
    export, export_stack, baseline, baseline_stack = {}, {}, {}, {}
    for _ in range(TURNS):
        for place, (program, _) in enumerate(programs):
            for call, (ours, theirs, our_stack, their_stack) in measured(program).items():
                export[call] = min(ours, export.get(call, ours))
                export_stack[call] = max(our_stack, export_stack.get(call, 0))
                key = call, place
                baseline[key] = min(theirs, baseline.get(key, theirs))
                baseline_stack[key] = max(their_stack, baseline_stack.get(key, 0))
    missed = []
    print("| ns, best of %d runs | export |" % TURNS + "".join(" C, %s | ratio |" % name for _, name in programs)
          + " stack, bytes |" + "".join(" C's |" for _ in programs))
    print("|---|---|" + "---|---|" * len(programs) + "---|" + "---|" * len(programs))
    chosen = {call: ours for call, ours in export.items() if call.strip("`").startswith(calls)}
    if not chosen:
        sys.exit("no call whose name begins with " + calls)
    for call, ours in chosen.items():
        cells = []
        for place, (_, name) in enumerate(programs):
            theirs = baseline[call, place]
            bar = OTHER_BAR if place else FIRST_BAR
            cells += ["%.0f" % theirs, "%.2f" % (ours / theirs)]
            if ours - bar * theirs >= SLACK:
                missed.append("%s: %.2f of C by %s, the bar is %.1f" % (call, ours / theirs, name, bar))
        cells.append(str(export_stack[call]))
        cells += [str(baseline_stack[call, place]) for place in range(len(programs))]
        print("| %s | %.0f | " % (call, ours) + " | ".join(cells) + " |")
    print("\n".join(missed) if missed else "every call within its bars")


if __name__ == "__main__":
    main()
