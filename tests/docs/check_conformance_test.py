"""Misspells what docs/CONFORMANCE.md has of each form: check_conformance.py must refuse each copy, and for what was misspelt.

Usage: check_conformance_test.py, at the repository's root."""
import sys

sys.dont_write_bytecode = True
from check_conformance import CONFORMANCE, Page, Stored

# Texts of CONFORMANCE.md, each once in it, what they become, and what is then missed.
MISSPELT = [
    # tests: a number that is none, one twice, one left out; clauses the same
    ("- **6.9** ", "- **6.10** ", "test: 6.10"),
    ("- **3.6** ", "- **3.5** ", "first entry: test 3.5"),
    ("- **10.7** not applicable: message bytes. A node sets unused bits.\n", "", "entry: of tests 10.7"),
    ("- **clause 7.3.4** ", "- **clause 7.3.5** ", "clause: 7.3.5"),
    ("- **clause 7.3.4** ", "- **clause 7.3.3** ", "first entry: clause 7.3.3"),
    ("- **clause 7.3.4** Error notification between nodes. No requirement has it.\n", "", "entry: of clauses 7.3.4"),
    # verdicts: one that is none, another one, another reason, an entry without outcome
    ("- **1.1** run. ", "- **1.1** runs. ", "entry: - **1.1** runs."),
    ("- **1.6** partly. ", "- **1.6** run. ", "count: 14 of run, but 15"),
    ("- **6.6** not applicable: transmission prohibition. ", "- **6.6** not applicable: message bytes. ", "count: 2 of not applicable: message bytes, but 3"),
    ("- **6.6** not applicable: transmission prohibition. ", "- **6.6** not applicable: no prohibition. ", "entry: - **6.6** not applicable: no"),
    ("- **3.1** run. A node's own trigger sends a wake-up pulse.", "- **3.1** run.", "entry: - **3.1** run."),
    # counts: of all, of a verdict, of a reason, of clauses, a row left out, a row of another name
    ("| in the standard | 45 |", "| in the standard | 44 |", "count: 44 of in the standard, but 45"),
    ("| partly | 8 |", "| partly | 9 |", "count: 9 of partly, but 8"),
    ("| contrary | 2 |", "| contrary | two |", "count: two of contrary, but 2"),
    ("| not applicable: own messages | 3 |", "| not applicable: own messages | 2 |", "count: 2 of not applicable: own messages, but 3"),
    ("| clauses without numbers | 3 |", "| clauses without numbers | 2 |", "count: 2 of clauses without numbers, but 3"),
    ("| run | 14 | each outcome that the test requires is shown, and met |\n", "", "count: none of run, but 14"),
    ("| title only | 3 |", "| titles only | 3 |", "row: titles only"),
    # sets: a time, a name
    ("| `f` | 10 | 2 | 3 | 12 |", "| `f` | 10 | 2 | 3 | 11 |", "set: `f` 10 2 3 11"),
    ("| `l` |", "| `m` |", "set: `m` 10 3"),
    # drills: a name, another set, one of ISO's in no entry
    ("drill `ctc-1.1` of", "drill `ctc-1.7` of", "drill: ctc-1.7 of set t"),
    ("drill `ctc-1.1` of", "drill `ctc-1.7` of", "drill in an entry: ctc-1.1"),
    ("drill `ctc-2.4` of set `t`", "drill `ctc-2.4` of set `u`", "drill: ctc-2.4 of set u"),
    # lines: a move, what is printed, another line's number, none, one past the end, on a line that goes on
    ("`wake 0 | 2 S0 0 SS 0`", "`wake 1 | 2 S0 0 SS 0`", "line: wake 1 | 2 S0 0 SS 0 of drill ctc-1.4"),
    ("`tick | 12 S0 0 ZZ 0`", "`tick | 12 S0 0 SZ 0`", "line: tick | 12 S0 0 SZ 0 of drill ctc-1.4"),
    ("`sent fail | 10 N0 1 N 0`", "`sent fail | 9 N0 1 N 0`", "line: sent fail | 9 N0 1 N 0 of drill ctc-4.6"),
    ("`sleep | 7 N1 1 N 0`\n  - node", "`sleep`\n  - node", "line: sleep of drill ctc-2.4"),
    ("`permit 0 1 | 24 Z0 0 Z 0`", "`permit 0 1 | 25 Z0 0 Z 0`", "line: permit 0 1 | 25 Z0 0 Z 0 of drill missed-sleep-message"),
    ("    `req 16 ok | 25 N0 1 N 0`", "    `req 16 ok | 25 N0 1 N 13`", "line: req 16 ok | 25 N0 1 N 13 of drill ctc-6.7"),
    # cases: a master's text, a node's, another machine's, what is printed
    ("master case *tick in Sleep*", "master case *ticks in Sleep*", "case: master case *ticks in Sleep*"),
    ("node case *R 5: second pulse*", "node case *R 6: second pulse*", "case: node case *R 6: second pulse*"),
    ("node case *polled, not heard*", "master case *polled, not heard*", "case: master case *polled, not heard*"),
    ("`Standby wake caller 0 - 5 0 0 pulse 0`", "`Standby wake caller 0 - 5 0 0 nothing 0`", "case: node case *R 5: second pulse*"),
    # items: a word that begins none, lines without backquotes, a test that nothing shows
    ("  - drill `ctc-3.3`", "  - drills `ctc-3.3`", "form of item: drills `ctc-3.3`"),
    ("of set `t`: `wake 0 | 1 S0 0 S 0`", "of set `t`: wake 0", "form of item: drill `ctc-3.1`"),
    ("  - drill `ctc-4.5` of", "  - Drill `ctc-4.5` of", "drill or case of a test: contrary"),
]


def main():
    text, stored = open(CONFORMANCE, encoding="utf-8").read(), Stored()
    whole = Page(text, stored)
    missed = whole.check() + ["not once in %s: %s" % (CONFORMANCE, old) for old, _, _ in MISSPELT if text.count(old) != 1]
    for old, new, why in MISSPELT:
        wrong = Page(text.replace(old, new), stored).check()
        missed += [] if any(": no such " + why in line for line in wrong) else ["not refused: %s: %s" % (new, "; ".join(wrong))]
    missed += ["no %s is misspelt here" % kind for kind in whole.found if not any(why.startswith(kind + ": ") for _, _, why in MISSPELT)]
    if missed:
        sys.exit("\n".join(missed))
    print("CONFORMANCE.md: %d misspelt copies refused" % len(MISSPELT))


if __name__ == "__main__":
    main()
