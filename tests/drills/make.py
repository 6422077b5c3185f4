#!/usr/bin/env python3
"""Writes the drill's test data: the sets and scripts in crates/test_drills/data, crates/test_drills/args and crates/test_drills/stdout, and those of
crates/drill.

Run at the repository's root. Beside each move stands what it prints, by hand from the documents of docs/SOURCES.md; the line's number
is put before it. Scripts ctc-n.m are the conformance tests of ISO 20794-5 that apply. Nothing here calls the product."""
import sys

sys.dont_write_bytecode = True
from scripts import EVENT, MASTER, POLLED, Scripts, write
from layout import mended

DRILL = "crates/drill"
drills = Scripts("crates/test_drills")
sets, release_set, raw, script = drills.sets, drills.release_set, drills.raw, drills.script

# Times are W window, D clock stop, S node sleep, E quiet limit, R wake-up recovery, P wake-up space, C clock start.
release_set("t", [10, 2, 3, 4, 5, 6, 1], [POLLED], [(16, 0, 2, 1)])
# a clock start above 2R stands for a master that does not answer
release_set("u", [10, 2, 3, 12, 5, 3, 20], [POLLED, EVENT], [(16, 0, 2, 1), (17, 1, 2, 1), (18, MASTER, 2, 0)])
release_set("f", [10, 2, 3, 12, 5, 4, 2], [POLLED, EVENT], [(16, 0, 2, 1), (17, 1, 2, 1), (18, MASTER, 2, 0)])
# a clock stop at which a node can wake in Closing
release_set("l", [10, 3, 3, 4, 5, 6, 1], [POLLED], [(16, 0, 2, 1)])
release_set("sixteen", [10, 2, 3, 12, 5, 4, 2], [POLLED, EVENT] * 8, [(16 + i, i, 2, 1) for i in range(16)] + [(127, MASTER, 0, 0)])
# variable rows (W-207), one of them of the longest
release_set("dial", [10, 2, 3, 12, 5, 4, 2], [POLLED, EVENT], [(16, 0, 2, 3), (17, 1, 255, 2), (18, MASTER, 2, 2), (19, 1, 0, 2), (20, 0, 0, 3)])
sets["dial-refused"] = mended(sets["dial"][:531] + b"\4" + sets["dial"][532:])
# panels that never sleep (W-206)
release_set("truck", [10, 2, 3, 4, 5, 6, 1], [POLLED], [(16, 0, 2, 1)], profile=1)
release_set("truck-two", [10, 2, 3, 12, 5, 4, 2], [POLLED, EVENT], [(16, 0, 2, 1), (17, 1, 2, 1), (18, MASTER, 2, 0)], profile=1)
release_set("truck-quick", [1, 1, 1, 1, 1, 1, 1], [EVENT], [(16, 0, 0, 0)], profile=1)
release_set("truck-sixteen", [10, 2, 3, 12, 5, 4, 2], [POLLED, EVENT] * 8, [(16 + i, i, 2, 1) for i in range(16)] + [(127, MASTER, 0, 0)], profile=1)
sets["truck-refused"] = mended(sets["truck"][:5] + b"\2" + sets["truck"][6:])
sets["short"] = sets["t"][:1023]
sets["check"] = sets["t"][:511] + b"\0" + sets["t"][512:]

# The example drill, R6.7
script("t", "document-01", """
wake 0     | S0 0 S 0
tick       | N0 1 N 0
permit 0 1 | N0 1 N 0
permit m 1 | N0 1 N 0
req 16 ok  | N0 1 N 0
sleep      | N0 1 N 20
req 16 ok  | N0 1 N 0
sleep      | N1 1 N 0
sent ok    | N3 1 N 0
tick       | N3 1 N 0
tick       | Z0 0 N 0
tick       | Z0 0 Z 0
""")

# ISO 20794-5

# 1.1 and 1.3: powered, master and node are asleep; no message moves
script("t", "ctc-1.1", """
tick         | Z0 0 Z 0
req 16 ok    | Z0 0 Z 16
sleep        | Z0 0 Z 16
""")

# 1.3: an ask to send of a node that is asleep
script("t", "ctc-1.3", """
tick         | Z0 0 Z 0
send 0 16 ok | Z0 0 Z 16
tick         | Z0 0 Z 0
""")

# 1.4: a caller without clock, permitted: asleep at 2R
script("u", "ctc-1.4", """
permit 0 1   | Z0 0 ZZ 0
wake 0       | S0 0 SS 0
tick         | S0 0 SS 0
tick         | S0 0 SS 0
tick         | S0 0 SZ 0
tick         | S0 0 SZ 0
tick         | S0 0 SS 0
tick         | S0 0 SS 0
tick         | S0 0 SS 0
tick         | S0 0 SZ 0
tick         | S0 0 SZ 0
tick         | S0 0 ZZ 0
""")

# 1.5: the same, not permitted: the error, until it is permitted
GAVE_UP = """
wake 0       | S0 0 SS 0
tick         | S0 0 SS 0
tick         | S0 0 SS 0
tick         | S0 0 SZ 0
tick         | S0 0 SZ 0
tick         | S0 0 SS 0
tick         | S0 0 SS 0
tick         | S0 0 SS 0
tick         | S0 0 SZ 0
tick         | S0 0 SZ 0
tick         | S0 0 S!Z 0"""
script("u", "ctc-1.5", GAVE_UP + """
tick         | S0 0 S!Z 0
tick         | S0 0 S!Z 0
permit 0 1   | S0 0 ZZ 0
""")

# 2.1 and 2.2: the master's own trigger: clock at the C-th tick, nodes Z, S, N
script("f", "ctc-2.1", """
wake m       | S0 0 ZZ 0
tick         | S0 0 ZZ 0
tick         | N0 1 SS 0
tick         | N0 1 NN 0
req 18 ok    | N0 1 NN 0
req 16 ok    | N0 1 NN 0
req 17 ok    | N0 1 NN 0
""")

# 2.4: woken by the master, a node's wake bit is 0
script("t", "ctc-2.4", """
wake m       | S0 0 Z 0
tick         | N0 1 S 0
tick         | N0 1 N 0
permit 0 1   | N0 1 N 0
permit m 1   | N0 1 N 0
req 16 ok    | N0 1 N 0
sleep        | N1 1 N 0
""")

# 3.1: a node's ask to wake sends a pulse
script("t", "ctc-3.1", """
wake 0       | S0 0 S 0
""")

# 3.2 and 3.5: one second pulse at R; another node sleeps P after each
script("u", "ctc-3.2", GAVE_UP + """
tick         | S0 0 S!Z 0
tick         | S0 0 S!Z 0
tick         | S0 0 S!Z 0
tick         | S0 0 S!Z 0
tick         | S0 0 S!Z 0
""")

# 3.3: woken by another node's pulse
script("f", "ctc-3.3", """
wake 0       | S0 0 SS 0
tick         | S0 0 SS 0
tick         | N0 1 NN 0
req 17 ok    | N0 1 NN 0
""")

# 3.4: the master woken by a pulse: clock at the C-th tick
script("f", "ctc-3.4", """
wake 0       | S0 0 SS 0
tick         | S0 0 SS 0
tick         | N0 1 NN 0
req 16 ok    | N0 1 NN 0
""")

# 3.7: the wake bit in a caller's first answer
script("t", "ctc-3.7", """
wake 0       | S0 0 S 0
tick         | N0 1 N 0
permit 0 1   | N0 1 N 0
permit m 1   | N0 1 N 0
req 16 ok    | N0 1 N 0
sleep        | N0 1 N 20
req 16 ok    | N0 1 N 0
sleep        | N1 1 N 0
""")

# 3.8: both triggers before the clock
script("f", "ctc-3.8", """
wake m       | S0 0 ZZ 0
tick         | S0 0 ZZ 0
wake 0       | S0 0 SS 0
tick         | N0 1 NN 0
permit 0 1   | N0 1 NN 0
permit 1 1   | N0 1 NN 0
permit m 1   | N0 1 NN 0
req 16 ok    | N0 1 NN 0
req 17 ok    | N0 1 NN 0
sleep        | N0 1 NN 20
req 16 ok    | N0 1 NN 0
sleep        | N1 1 NN 0
""")

# 3.8: a node's trigger in Standby with the clock on
script("f", "ctc-3.8b", """
wake m       | S0 0 ZZ 0
tick         | S0 0 ZZ 0
tick         | N0 1 SS 0
wake 0       | N0 1 SS 0
tick         | N0 1 NN 0
permit 0 1   | N0 1 NN 0
permit 1 1   | N0 1 NN 0
permit m 1   | N0 1 NN 0
req 17 ok    | N0 1 NN 0
req 16 ok    | N0 1 NN 0
sleep        | N0 1 NN 20
req 17 ok    | N0 1 NN 0
req 16 ok    | N0 1 NN 0
sleep        | N1 1 NN 0
""")

# 4.1: the master's permission
script("t", "ctc-4.1", """
wake m       | S0 0 Z 0
tick         | N0 1 S 0
tick         | N0 1 N 0
permit 0 1   | N0 1 N 0
req 16 ok    | N0 1 N 0
sleep        | N0 1 N 19
permit m 1   | N0 1 N 0
sleep        | N1 1 N 0
""")

# 4.2: a node's permission counts once an answer carries it
script("t", "ctc-4.2", """
wake m       | S0 0 Z 0
tick         | N0 1 S 0
tick         | N0 1 N 0
permit m 1   | N0 1 N 0
req 16 ok    | N0 1 N 0
sleep        | N0 1 N 20
permit 0 1   | N0 1 N 0
sleep        | N0 1 N 20
req 16 ok    | N0 1 N 0
sleep        | N1 1 N 0
""")

# 4.3 and 4.4: sleep message, clock off at the D-th tick, node asleep at the S-th
script("t", "ctc-4.4", """
wake m       | S0 0 Z 0
tick         | N0 1 S 0
tick         | N0 1 N 0
permit 0 1   | N0 1 N 0
permit m 1   | N0 1 N 0
req 16 ok    | N0 1 N 0
sleep        | N1 1 N 0
sent ok      | N3 1 N 0
tick         | N3 1 N 0
tick         | Z0 0 N 0
tick         | Z0 0 Z 0
""")

# 4.5: a failed sending; by R3.12 the clock stays
script("t", "ctc-4.5", """
wake m       | S0 0 Z 0
tick         | N0 1 S 0
tick         | N0 1 N 0
permit 0 1   | N0 1 N 0
permit m 1   | N0 1 N 0
req 16 ok    | N0 1 N 0
sleep        | N1 1 N 0
send 0 16 ok | N1 1 N 0
sent fail    | N0 1 N 0
tick         | N0 1 N 0
tick         | N0 1 N 0
sleep        | N1 1 N 0
""")

# 4.6: called back by a refusal, then failed: the clock stays
script("t", "ctc-4.6", """
wake m       | S0 0 Z 0
tick         | N0 1 S 0
tick         | N0 1 N 0
permit 0 1   | N0 1 N 0
permit m 1   | N0 1 N 0
req 16 ok    | N0 1 N 0
sleep        | N1 1 N 0
permit 0 0   | N1 1 N 0
send 0 16 ok | N2 1 N 0
sent fail    | N0 1 N 0
tick         | N0 1 N 0
tick         | N0 1 N 0
sleep        | N0 1 N 20
""")

# 4.7: a failed sending; by R3.12 the clock stays
script("t", "ctc-4.7", """
wake m       | S0 0 Z 0
tick         | N0 1 S 0
tick         | N0 1 N 0
permit 0 1   | N0 1 N 0
permit m 1   | N0 1 N 0
req 16 ok    | N0 1 N 0
sleep        | N1 1 N 0
sent fail    | N0 1 N 0
tick         | N0 1 N 0
tick         | N0 1 N 0
sleep        | N1 1 N 0
""")

# 6.7: a node that misses the sleep message sleeps at the E-th tick without clock, and answers again
script("l", "ctc-6.7", """
wake 0       | S0 0 S 0
tick         | N0 1 N 0
permit 0 1   | N0 1 N 0
permit m 1   | N0 1 N 0
req 16 ok    | N0 1 N 0
req 16 ok    | N0 1 N 0
sleep        | N1 1 N 0
permit m 0   | N2 1 N 0
sent ok      | N0 1 N 0
permit m 1   | N0 1 N 0
tick         | N0 1 N 0
tick         | N0 1 N 0
sleep        | N1 1 N 0
tick         | N1 1 Z 0
sent ok      | N3 1 Z 0
tick         | N3 1 S 0
tick         | N3 1 N 0
tick         | Z0 0 N 0
tick         | Z0 0 N 0
tick         | Z0 0 N 0
tick         | Z0 0 Z 0
wake m       | S0 0 Z 0
tick         | N0 1 S 0
tick         | N0 1 N 0
req 16 ok    | N0 1 N 0
""")

# the same, not permitted: N! from the E-th tick on
MISSED = """
wake 0       | S0 0 S 0
tick         | N0 1 N 0
permit 0 1   | N0 1 N 0
permit m 1   | N0 1 N 0
req 16 ok    | N0 1 N 0
req 16 ok    | N0 1 N 0
sleep        | N1 1 N 0
permit m 0   | N2 1 N 0
sent ok      | N0 1 N 0
permit m 1   | N0 1 N 0
tick         | N0 1 N 0
tick         | N0 1 N 0
sleep        | N1 1 N 0
tick         | N1 1 Z 0
sent ok      | N3 1 Z 0
permit 0 0   | N3 1 Z 0
tick         | N3 1 S 0
tick         | N3 1 N 0
tick         | Z0 0 N 0"""
script("l", "missed-sleep-message", MISSED + """
tick         | Z0 0 N 0
tick         | Z0 0 N 0
tick         | Z0 0 N! 0
tick         | Z0 0 N! 0
permit 0 1   | Z0 0 Z 0
""")

# W-204: its switch calls nobody before the E-th tick and the master from it on; its first answer then has the wake bit
script("l", "switch", MISSED + """
wake 0       | Z0 0 N 0
tick         | Z0 0 N 0
tick         | Z0 0 N 0
tick         | Z0 0 N! 0
tick         | Z0 0 N! 0
wake 0       | S0 0 S 0
wake 0       | S0 0 S 0
tick         | N0 1 N 0
permit 0 1   | N0 1 N 0
req 16 ok    | N0 1 N 0
sleep        | N0 1 N 20
req 16 ok    | N0 1 N 0
sleep        | N1 1 N 0
""")

# What W-204 leaves open: a caller that gave up at 2R, not permitted, shows its error in Standby and cannot call again (node 1 would hear
# it) until it is permitted ..
script("u", "gave-up", GAVE_UP + """
wake 0       | S0 0 S!Z 0
tick         | S0 0 S!Z 0
wake 0       | S0 0 S!Z 0
permit 0 1   | S0 0 ZZ 0
wake 0       | S0 0 SS 0
""")

# .. or the clock comes
script("u", "gave-up-until-clock", GAVE_UP + """
wake 0       | S0 0 S!Z 0
""" + "tick | S0 0 S!Z 0\n" * 9 + """
tick         | N0 1 NS 0
tick         | N0 1 NN 0
""".lstrip())

# 10.2 and 10.4: the event-triggered node sends unasked, the polled one after a request
script("f", "ctc-10", """
wake m       | S0 0 ZZ 0
tick         | S0 0 ZZ 0
tick         | N0 1 SS 0
tick         | N0 1 NN 0
send 1 17 ok | N0 1 NN 0
send 0 16 ok | N0 1 NN 21
req 18 ok    | N0 1 NN 0
send 0 16 ok | N0 1 NN 0
send 0 16 ok | N0 1 NN 0
""")

# 10.5: ReqIds that are not in the plan, or another's
script("f", "ctc-10.5", """
wake m       | S0 0 ZZ 0
tick         | S0 0 ZZ 0
tick         | N0 1 SS 0
tick         | N0 1 NN 0
req 99 ok    | N0 1 NN 12
req 0 ok     | N0 1 NN 12
send 1 16 ok | N0 1 NN 12
send 1 18 ok | N0 1 NN 12
send 1 99 ok | N0 1 NN 12
""")

# answers lost and damaged
script("t", "lost-answers", """
wake m       | S0 0 Z 0
tick         | N0 1 S 0
tick         | N0 1 N 0
permit 0 1   | N0 1 N 0
permit m 1   | N0 1 N 0
req 16 ok    | N0 1 N 0
req 16 lost  | N0 1 N 0
req 16 ok    | N0 1 N 0
req 16 lost  | N0 1 N 0
req 16 lost  | N0 1 N 0
req 16 lost  | N0 1 N 0
req 16 ok    | N0 1 N 0
req 16 bad   | N0 1 N 13
sleep        | N0 1 N 20
""")

# a message called back after its sending still puts the node to sleep
script("t", "late-sleep-message", """
wake m       | S0 0 Z 0
tick         | N0 1 S 0
tick         | N0 1 N 0
permit 0 1   | N0 1 N 0
permit m 1   | N0 1 N 0
req 16 ok    | N0 1 N 0
req 16 ok    | N0 1 N 0
sleep        | N1 1 N 0
permit m 0   | N2 1 N 0
sent ok      | N0 1 N 0
permit m 1   | N0 1 N 0
tick         | N0 1 N 0
tick         | N0 1 N 0
tick         | N0 1 Z 0
tick         | N0 1 S 0
tick         | N0 1 N 0
req 16 ok    | N0 1 N 0
""")

# Each refusal that a drill can show, in the order of their judging: clock off 16, not in the plan 12, the node's, the master's
script("f", "refusals", """
req 16 ok    | Z0 0 ZZ 16
req 99 ok    | Z0 0 ZZ 16
send 0 16 ok | Z0 0 ZZ 16
sleep        | Z0 0 ZZ 16
sent ok      | Z0 0 ZZ 16
wake m       | S0 0 ZZ 0
req 16 ok    | S0 0 ZZ 16
tick         | S0 0 ZZ 0
tick         | N0 1 SS 0
req 16 ok    | N0 1 SS 16
send 0 16 ok | N0 1 SS 16
send 1 99 ok | N0 1 SS 12
tick         | N0 1 NN 0
send 0 16 ok | N0 1 NN 21
send 0 17 ok | N0 1 NN 12
send 0 18 ok | N0 1 NN 12
sent ok      | N0 1 NN 17
sent fail    | N0 1 NN 17
sleep        | N0 1 NN 19
permit m 1   | N0 1 NN 0
sleep        | N0 1 NN 20
permit 0 1   | N0 1 NN 0
permit 1 1   | N0 1 NN 0
req 16 ok    | N0 1 NN 0
sleep        | N0 1 NN 20
send 1 17 ok | N0 1 NN 0
sleep        | N1 1 NN 0
sleep        | N1 1 NN 18
req 16 bad   | N2 1 NN 13
sleep        | N2 1 NN 18
sent ok      | N0 1 NN 0
sleep        | N0 1 NN 20
tick         | N0 1 NN 0
tick         | N0 1 NN 0
tick         | N0 1 ZZ 0
tick         | N0 1 SS 0
tick         | N0 1 NN 0
""")

# A permission counts for W ticks
script("t", "window", """
wake m     | S0 0 Z 0
tick       | N0 1 S 0
tick       | N0 1 N 0
permit 0 1 | N0 1 N 0
permit m 1 | N0 1 N 0
req 16 ok  | N0 1 N 0
""" + "tick | N0 1 N 0\n" * 10 + """
sleep      | N1 1 N 0
sent fail  | N0 1 N 0
tick       | N0 1 N 0
sleep      | N0 1 N 20
""".lstrip())

# Called back in Closing: the clock stays, the node that heard the message sleeps and wakes again
script("t", "closing", """
wake m     | S0 0 Z 0
tick       | N0 1 S 0
tick       | N0 1 N 0
permit 0 1 | N0 1 N 0
permit m 1 | N0 1 N 0
req 16 ok  | N0 1 N 0
sleep      | N1 1 N 0
sent ok    | N3 1 N 0
tick       | N3 1 N 0
permit 0 0 | N3 1 N 0
req 16 ok  | N0 1 N 0
tick       | N0 1 N 0
tick       | N0 1 Z 0
sent fail  | N0 1 Z 17
tick       | N0 1 S 0
tick       | N0 1 N 0
""")

# Sixteen nodes; the first answer of the one that called has the wake bit
all_in = {letter: letter * 16 for letter in "NSZ"}
script("sixteen", "sixteen", """
wake 15       | S0 0 {S} 0
tick          | S0 0 {S} 0
tick          | N0 1 {N} 0
wake 16       | ?
send 14 30 ok | N0 1 {N} 21
req 127 ok    | N0 1 {N} 0
send 14 30 ok | N0 1 {N} 0
send 15 30 ok | N0 1 {N} 12
send 15 31 ok | N0 1 {N} 0
permit m 1    | N0 1 {N} 0
sleep         | N0 1 {N} 20
""".format(**all_in) + "".join("permit %d 1 | N0 1 %s 0\nreq %d ok | N0 1 %s 0\n" % (i, all_in["N"], 16 + i, all_in["N"]) for i in reversed(range(16))) + """
sleep         | N1 1 {N} 0
sent ok       | N3 1 {N} 0
tick          | N3 1 {N} 0
tick          | Z0 0 {N} 0
tick          | Z0 0 {Z} 0
wake 7        | S0 0 {S} 0
""".lstrip().format(**all_in))

# W-206, panels that never sleep. The drill of R6.7: Normal and the clock from the first line on; no sleep message is ever under way
script("truck", "truck-document-01", """
wake 0     | N0 1 N 0
tick       | N0 1 N 0
permit 0 1 | N0 1 N 0
permit m 1 | N0 1 N 0
req 16 ok  | N0 1 N 0
sleep      | N0 1 N 25
req 16 ok  | N0 1 N 0
sleep      | N0 1 N 25
sent ok    | N0 1 N 17
tick       | N0 1 N 0
tick       | N0 1 N 0
tick       | N0 1 N 0
""")

# Each kind of move as the first one
for number, (line, printed) in enumerate([("tick", 0), ("wake 0", 0), ("wake m", 0), ("permit 0 1", 0), ("permit m 1", 0), ("req 16 ok", 0),
                                          ("req 16 bad", 13), ("req 17 ok", 12), ("send 0 16 ok", 21), ("sleep", 25), ("sent ok", 17),
                                          ("sent fail", 17)]):
    script("truck", "truck-first-%d" % (number + 1), "%s | N0 1 N %d" % (line, printed))
raw("truck", "truck-odd-first", [(b"", "?"), (b"sleep", "N0 1 N 25")], last=b"")

# 25 comes before own permission and nodes' permissions are looked at, and all of them do not help
script("truck-two", "truck-sleep", """
sleep         | N0 1 NN 25
permit m 1    | N0 1 NN 0
sleep         | N0 1 NN 25
permit 0 1    | N0 1 NN 0
permit 1 1    | N0 1 NN 0
req 16 ok     | N0 1 NN 0
sleep         | N0 1 NN 25
req 17 ok     | N0 1 NN 0
sleep         | N0 1 NN 25
sent ok       | N0 1 NN 17
sent fail     | N0 1 NN 17
permit m 0    | N0 1 NN 0
sleep         | N0 1 NN 25
""")

# Messages as in Normal
script("truck-two", "truck-messages", """
send 0 16 ok   | N0 1 NN 21
send 1 17 ok   | N0 1 NN 0
send 1 16 ok   | N0 1 NN 12
send 0 18 ok   | N0 1 NN 12
req 19 ok      | N0 1 NN 12
req 18 ok      | N0 1 NN 0
send 0 16 bad  | N0 1 NN 13
send 0 16 lost | N0 1 NN 0
req 16 bad     | N0 1 NN 13
req 17 lost    | N0 1 NN 0
wake 1         | N0 1 NN 0
req 17 ok      | N0 1 NN 0
wake 0         | N0 1 NN 0
wake m         | N0 1 NN 0
wake 0         | N0 1 NN 0
wake 2         | ?
tick           | N0 1 NN 0
""")

# Ticks beyond every time, permitted and not, with no message at all
script("truck", "truck-ticks", "permit 0 1 | N0 1 N 0\npermit m 1 | N0 1 N 0\n" + "tick | N0 1 N 0\n" * 40 + "wake 0 | N0 1 N 0\n" +
       "tick | N0 1 N 0\n" * 12 + "permit 0 0 | N0 1 N 0\n" + "tick | N0 1 N 0\n" * 12 + "permit 0 1 | N0 1 N 0\nsleep | N0 1 N 25")
script("truck-quick", "truck-quick", """
tick         | N0 1 N 0
send 0 16 ok | N0 1 N 0
permit 0 1   | N0 1 N 0
tick         | N0 1 N 0
tick         | N0 1 N 0
wake 0       | N0 1 N 0
tick         | N0 1 N 0
sleep        | N0 1 N 25
sent ok      | N0 1 N 17
tick         | N0 1 N 0
tick         | N0 1 N 0
""")

# Sixteen nodes
script("truck-sixteen", "truck-sixteen", """
sleep         | N0 1 {N} 25
wake 15       | N0 1 {N} 0
wake 16       | ?
send 14 30 ok | N0 1 {N} 21
req 127 ok    | N0 1 {N} 0
send 14 30 ok | N0 1 {N} 0
permit m 1    | N0 1 {N} 0
""".format(**all_in) + "".join("permit %d 1 | N0 1 %s 0\nreq %d ok | N0 1 %s 0\n" % (i, all_in["N"], 16 + i, all_in["N"]) for i in reversed(range(16))) + """
sleep         | N0 1 {N} 25
sent ok       | N0 1 {N} 17
tick          | N0 1 {N} 0
tick          | N0 1 {N} 0
tick          | N0 1 {N} 0
""".lstrip().format(**all_in))

# W-207, variable rows: an answer has its row's own length, which the row accepts
script("dial", "dial", """
wake m         | S0 0 ZZ 0
tick           | S0 0 ZZ 0
tick           | N0 1 SS 0
tick           | N0 1 NN 0
permit 0 1     | N0 1 NN 0
permit 1 1     | N0 1 NN 0
permit m 1     | N0 1 NN 0
req 18 ok      | N0 1 NN 0
req 16 ok      | N0 1 NN 0
sleep          | N0 1 NN 20
send 1 17 ok   | N0 1 NN 0
sleep          | N1 1 NN 0
send 0 16 ok   | N1 1 NN 0
req 17 ok      | N1 1 NN 0
send 1 19 ok   | N1 1 NN 0
req 20 ok      | N1 1 NN 0
req 17 lost    | N1 1 NN 0
req 17 bad     | N2 1 NN 13
sent ok        | N0 1 NN 0
sleep          | N0 1 NN 20
req 19 ok      | N0 1 NN 0
sleep          | N1 1 NN 0
sent ok        | N3 1 NN 0
send 1 17 ok   | N3 1 NN 0
tick           | N3 1 NN 0
req 16 ok      | N3 1 NN 0
tick           | Z0 0 NN 0
tick           | Z0 0 ZZ 0
""")
script("dial", "dial-called-back", """
wake 1         | S0 0 SS 0
tick           | S0 0 SS 0
tick           | N0 1 NN 0
permit 0 1     | N0 1 NN 0
permit 1 1     | N0 1 NN 0
permit m 1     | N0 1 NN 0
req 20 ok      | N0 1 NN 0
req 17 ok      | N0 1 NN 0
sleep          | N0 1 NN 20
req 16 ok      | N0 1 NN 0
req 17 ok      | N0 1 NN 0
sleep          | N1 1 NN 0
permit 1 0     | N1 1 NN 0
send 1 19 ok   | N2 1 NN 0
sent fail      | N0 1 NN 0
send 0 17 ok   | N0 1 NN 12
send 1 18 ok   | N0 1 NN 12
""")

# Lines that are no moves, and the last without its LF
STILL, BAD = "Z0 0 Z 0", "?"
odd = [b"", b" ", b"tick ", b" tick", b"tick\r", b"\rtick", b"Tick", b"tick\t", b"tick tick", b"ticks", b"wake", b"wake ", b"wake 1", b"wake 00", b"wake 01"]
odd += [b"wake  0", b"wake 0 ", b"wake\t0", b"wake -1", b"wake +0", b"wake 256", b"wake 65536", b"wake M", b"wake mm", b"permit 0", b"permit 0 2"]
odd += [b"permit 0 01", b"permit m yes", b"permit 1 1", b"req 16", b"req 128 ok", b"req 016 ok", b"req 16 OK", b"req m ok", b"req 16 fail", b"req 16 ok ok"]
odd += [b"send m 16 ok", b"send 1 16 ok", b"send 0 16", b"send 0 128 ok", b"send 0 16 ok 1", b"sent", b"sent bad", b"sent ok ok", b"sleep 1", b"\0", b"tick\0"]
odd += [b"\0tick", b"\xff\xfe", "t\u00efck".encode(), b"tick" + b" " * 28, b"tick" + b"\0" * 900, b"x" * 5000]
raw("t", "odd-lines", [(b"tick", STILL)] + [pair for line in odd for pair in ((line, BAD), (b"tick", STILL))], last=b"")
raw("t", "empty", [])
raw("t", "one-empty-line", [(b"", BAD)])
raw("t", "carriage-returns", [(b"tick\r", BAD)] * 3)

# A refused set, and one that is missing: nothing but its number
for name, refusal in [("short", 1), ("check", 2), ("truck-refused", 3), ("dial-refused", 7), ("missing", 1)]:
    drills.refused(name, "document-01", refusal)

drills.store()
_, _, moves, printed = drills.scripts[0]
write(DRILL + "/data", "plan.set", sets["t"])
write(DRILL, "stdin", moves)
write(DRILL, "stdout", printed.encode())
