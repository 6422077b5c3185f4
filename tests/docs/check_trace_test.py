"""Misspells a name of each form in copies of docs/TRACE.md, then each word of each line by itself, and breaks entries: check_trace.py must
refuse each, and names of each kind among them.

Usage: check_trace_test.py, at the repository's root."""
import re
import sys

sys.dont_write_bytecode = True
from check_trace import BRACKETS, LINE, TRACE, Repository, Trace, paragraphs, read_file

# Texts of TRACE.md, each once in it, and what they become.
MISSPELT = [
    # definitions: a file, a name, one of a list, in two files, files alone, both ends of a row, a part without a file
    ("set_plan/Rules: revision_right; set_reader/Rules: revisions_same", "set_plan/Rule: revision_right; set_reader/Rules: revisions_same"),
    ("base_bytes/Bytes: number, high_byte, low_byte, two_bytes", "base_bytes/Bytes: number, high_byte, low_byte, two_byte"),
    ("plan_named, message_named, named", "plan_named, message_name, named"),
    ("machine_node/Step, machine_master/Step: step_with", "machine_node/Step, machine_master/Step: steps_with"),
    ("cxpi/MasterCalls, NodeCalls, Chains", "cxpi/MasterCalls, NodeCall, Chains"),
    ("cause_new to cause_wake", "cause_new to cause_waken"),
    ("- defined: set_plan/Limits: block_rows", "- defined: block_rows"),
    ("- defined: base_bytes/Limits: block_length", "- defined: base_bytes/Limits: block_length, as it was"),
    # what the code declares: a field, a constant, a type of a crate, a formula, and in prose a type and a theorem
    ("`Master.permission`, `Master.holds`", "`Master.permission`, `Master.hold`"),
    ("`Plan::BLOCK_ROWS`", "`Plan::BLOCKS_ROWS`"),
    ("`Master`, `Phase`, `machine_state::State`", "`Master`, `Phase`, `machine_master::State`"),
    ("- where: `Plan::ROWS`", "- where: `Plan :: ROWS`"),
    ("as facts (`Passed`)", "as facts (`Passes`)"),
    ("`claims_hold` in `crates/", "`claims_holds` in `crates/"),
    # paths: of the code, of a document, in prose
    ("`crates/machine_master/src/holds.rt`", "`crates/machine_master/src/hold.rt`"),
    ("- where: crates.txt", "- where: crate.txt"),
    ("`tests/moves/make.py`", "`tests/move/make.py`"),
    # promises: of a type, of a crate, one of a list, a function without a promise, one without backquotes, and prose
    ("- promised: `Plan::sleeps`", "- promised: `Plan::sleep`"),
    ("`base_bytes::number_at`", "`base_bytes::numbers_at`"),
    ("`Master::sleep_ask`, `Master::send_result`,", "`Master::sleeps_ask`, `Master::send_result`,"),
    ("`program_drill::drill`,", "`program_drill::read_on`,"),
    ("- promised: `times_right`", "- promised: times_right"),
    ("- promised: `cxpi_version`", "- promised: `cxpi_version`, as it was"),
    # theorems: a name, one of a list, its file, its crate, of two files, a file alone, a definition in place of one
    ("set_writer/Kept: length_kept", "set_writer/Kept: lengths_kept"),
    ("number_only, number-given, none_only", "number_only, numbers_given, none_only"),
    ("set_writer/Kept: counts_kept", "set_writer/Keep: counts_kept"),
    ("machine_node/WithClock: on_wake_ask", "machine_master/WithClock: on_wake_ask"),
    ("bus_claims/ExamplesAwake: first, stopped, later", "bus_claims/ExamplesAwake: first, stops, later"),
    ("proved: machine_master/InRun;", "proved: machine_master/InRuns;"),
    ("proved: machine_master/NoBearing: SameButCauses", "proved: machine_master/Range: in_range"),
    # tests: sets, edits, all edits of a crate, proved cases, paths, functions and texts of a file, lines printed, programs, prose
    ("one_block, third_block_of_zeros", "one_blocks, third_block_of_zeros"),
    ("no_row to kind_4_and_silent", "no_row to kind_4_and_silence"),
    ("base_bytes/mutations/check_from_508, check_stops_at_1\n", "base_bytes/mutations/check_from_509, check_stops_at_1\n"),
    ("set_plan/mutations/reqid_127, reqid_again;", "set_plan/mutations/reqid_127, reqids_again;"),
    ("cxpi/must-fail/node_not_named;", "cxpi/must-fail/nodes_not_named;"),
    ("examples/station; cxpi/must-fail\n", "examples/station; cxpi_why/must-fail\n"),
    ("proved cases 10, 11", "proved cases 10, 12"),
    ("tests/c/exports.c (each of sixteen nodes)", "tests/c/export.c (each of sixteen nodes)"),
    ("probe_kinds_of_rows, probe_shorter_answers", "probe_kinds_of_rows, probe_short_answers"),
    ("*kind above 3*", "*kind above 2*"),
    ("tests/independent/check_replay.py: *panels that never sleep*", "tests/independent/check_replay.py: *panels that sleep*"),
    ("`write 10 0 untouched`", "`write 10 1 untouched`"),
    ("`test_batch` (its last list)", "`test_batches` (its last list)"),
    ("`test_batch` (its last eight lists)", "the last eight lists of `test_batch`"),
    # cases: of a master and of a node, of the other machine, with any text, of a profile, of drills, of why, of sets, of lists of moves
    ("*age above W* to *last count 5*;", "*age above W* to *last count 6*;"),
    ("node *caller in Normal*", "master *caller in Normal*"),
    ("*ages W - 1 and W ..*, *W 1: age 2 is let go*", "*age W - 1 and W ..*, *W 1: age 2 is let go*"),
    ("*never sleeps: held, two lost* to *never sleeps: refusing*", "*never sleeps: held, one lost* to *never sleeps: refusing*"),
    ("drill *late-sleep-message*", "drill *late-sleep-messages*"),
    ("why *truck-own*, *truck-new*, *truck-refused* to *truck-woken*", "why *truck-own*, *truck-new*, *truck-refused* to *truck-waken*"),
    ("*closing-one-tick*", "*closing-two-ticks*"),
    ("why set *size* to *filler*", "why set *size* to *fillers*"),
    ("drill set *check*, *short*", "drill set *check*, *shorter*"),
    ("moves *reqid_128*", "moves *reqid_127*"),
    ("drill *switch*", "*switch*"),
]

# The same of entries, and what is said: one missing, one twice, numbers that do not exist, one that nothing carries, lines of no such word, one too long.
BROKEN = [
    ("**R1.9** Filler", "R1.9 Filler", "no entry: R1.9"),
    ("**R1.9** Filler", "**R1.9** Filler\n- tested: t\n\n**R1.9** Filler", "not the only entry: R1.9"),
    ("**R8.12** A unit's duties", "**R8.12** A unit's duties\n- tested: t\n\n**R8.13** A unit's duties", "no such number: R8.13"),
    ("11 stands in R2.5,", "11 stands in R2.12,", "no such number: R2.12"),
    ("- defined: set_plan/Profile: sleeps\n- promised: `Plan::sleeps`\n", "", "nothing carries it: R1.13"),
    ("- where: examples/set-t/plan.set", "- seen: examples/set-t/plan.set", "no such line: seen"),
    ("- where: examples/set-t/plan.set", "- examples/set-t/plan.set", "no such line: - examples/set-t/plan.set"),
    ("\n**R1.14** Set T\n", "\n**R1.14** Set T%s\n" % (", as long as a line" * 8), "longer than 160"),
]


def swapped(text):
    """The text with two entries in each other's place."""
    first, second, third = (text.index("**R1.%d** " % number) for number in (12, 13, 14))
    return text[:first] + text[second:third] + text[first:second] + text[third:]


def misspelt_lines(text):
    """Each line of an entry with letters behind one of its words, but for words in brackets, which are prose."""
    for _, line in paragraphs(text[text.index("**R1.1** "):]):
        if re.fullmatch(LINE, line):
            plain = re.sub(BRACKETS, r"\1", line)
            for word in re.finditer(r"\w+", plain):
                yield plain[:word.end()] + "zz" + plain[word.end():]


def main():
    text, repository = read_file(TRACE), Repository()
    whole = Trace(text, repository)
    missed = whole.check() + ["not once in %s: %s" % (TRACE, old) for old, *_ in MISSPELT + BROKEN if text.count(old) != 1]
    copies = [(new, text.replace(old, new), "no such") for old, new in MISSPELT]
    copies += [(new, text.replace(old, new), said) for old, new, said in BROKEN] + [("two entries swapped", swapped(text), "not in order")]
    refused = []
    for new, copy, said in copies:
        wrong = Trace(copy, repository).check()
        missed += [] if any(said in line for line in wrong) else ["not refused: " + new]
        refused += wrong
    lines = 0
    for line in misspelt_lines(text):
        trace = Trace("", repository)
        trace.item(*re.fullmatch(LINE, line).groups())
        missed += [] if trace.wrong else ["not refused: " + line]
        lines += 1
    missed += ["no %s is misspelt here" % kind for kind in whole.found if not any(": no such %s: " % kind in line for line in refused)]
    if missed:
        sys.exit("\n".join(missed))
    counts = len(MISSPELT), lines, len(copies) - len(MISSPELT)
    print("TRACE.md: %d misspelt names, %d misspelt words of lines and %d broken entries refused" % counts)


if __name__ == "__main__":
    main()
