"""Writes a number for a name where a source has a length or a bound: check_limits.py must refuse each copy, and find nothing in sources as they are.

Usage: check_limits_test.py, at the repository's root."""
import sys

sys.dont_write_bytecode = True
from check_limits import limits, read_file, wrong_in

# A source, a text of it that occurs there, what it becomes, and the name that is then missed.
WRITTEN = [
    # arrays: a type, a value; a loop, and a range
    ("crates/machine_master/src/lib.rt", "[Hold; Plan::NODES]", "[Hold; 16]", "NODES"),
    ("crates/machine_master/src/ticks.rt", "[Master::NO_COUNT; Row::REQIDS]", "[Master::NO_COUNT; 128]", "REQIDS"),
    ("crates/machine_master/src/causes.rt", "in 0..Plan::NODES", "in 0..16", "NODES"),
    ("crates/set_record/src/rules.rt", "(1..=Plan::ROWS)", "(1..=127)", "ROWS"),
    # definitions: a list, equal elements, a test of each
    ("crates/machine_master/specs/Ticks.antt", "tab max_nodes", "tab 16", "max_nodes"),
    ("crates/machine_master/specs/Changes.antt", "replicate reqids", "replicate 128", "reqids"),
    ("crates/machine_state/specs/Counts.antt", "all_to (count_below limit counts) reqids", "all_to (count_below limit counts) 128", "reqids"),
    # C: an array, one among others, a loop
    ("examples/firmware/main.c", "[CXPI_PLAN_LENGTH]", "[592]", "CXPI_PLAN_LENGTH"),
    ("tests/c/compare.c", "reply[CXPI_MASTER_REPLY_LENGTH];", "plan[592];", "CXPI_PLAN_LENGTH"),
    ("tests/c/probes.c", "node < CXPI_MOST_NODES;", "node < 16;", "CXPI_MOST_NODES"),
]


def main():
    named, wrong = limits(), []
    for path, text, number, name in WRITTEN:
        source = read_file(path)
        if text not in source:
            wrong.append("%s has no %s" % (path, text))
        elif not any(name in line for line in wrong_in(path, source.replace(text, number, 1), named)):
            wrong.append("%s: %s for %s is not found" % (path, number, text))
        elif wrong_in(path, source, named):
            wrong.append("%s: found in the source as it is" % path)
    if wrong:
        sys.exit("\n".join(wrong))
    print("limits: %d numbers for names refused" % len(WRITTEN))


main()
