#!/usr/bin/env python3
"""Writes the lists of crates/test_batch and what must be printed of each: stdin and stdout, and the sets of their plans, data.

Run at the repository's root. A list is a byte for the plan (0 right, 1 with revision 0, 2 of panels that never sleep, 3 with variable rows: 16
of kind 3, with a sequence count, and 17 of kind 2, without one), a byte for the start (0 the plan's power-on, 1 what the list before it left, 2 a
state out of range) and six event records of 10 bytes. What is printed is worked out by hand from the documents of
docs/SOURCES.md; nothing here calls the product or works a rule out.

The plan: two nodes; row 16 of node 0, length 2, with a sequence count; row 17 of node 1, length 3, without one; row 18 of the master; W 3, D 2,
C 2. A line has what the call answers; the master's state, phase, `permits`, both nodes' permissions with age, the last count of row 16, the delay
and the tick number; then the replies: refusal, node, command, lost. There are seven places, 9 in each field before the call. No set can hold the
plan with revision 0: the program makes it of the right one."""
import os
import sys

sys.dont_write_bytecode = True
sys.path.insert(0, "tests/sets")
from layout import plan_set

RIGHT, REFUSED, NEVER_SLEEPS, VARIABLE = 0, 1, 2, 3
POWER_ON, GO_ON, OUT_OF_RANGE = 0, 1, 2
PLAN = dict(revision=7, times=[3, 2, 3, 4, 5, 6, 2], nodes=[(1, 1, 1), (2, 1, 0)], rows=[(16, 0, 2, 1), (17, 1, 3, 0), (18, 255, 0, 0)])
SETS = {
    RIGHT: PLAN,
    NEVER_SLEEPS: dict(PLAN, profile=1),
    VARIABLE: dict(PLAN, rows=[(16, 0, 2, 3), (17, 1, 3, 2), (18, 255, 0, 0)]),
}
stdin, stdout = [], []


def event(kind, reqid=0, result=0, length=0, count=0, permission=0, wake=0, flag=0):
    return bytes([kind, reqid, result >> 8, result & 255, length >> 8, length & 255, count, permission, wake, flag])


def answer(reqid, length, count=0, permission=1, **fields):
    return event(1, reqid, length=length, count=count, permission=permission, **fields)


def case(start, events, master, replies, plan=RIGHT):
    assert len(events) == len(replies) == 6
    stdin.append(bytes([plan, start]) + b"".join(events))
    stdout.append("".join(["0 " + master] + [", " + reply for reply in replies + ["9 9 9 9"]]))


TICK, PULSE, WAKE, SLEEP, SENT, FAILED, YES = event(0), event(2), event(3), event(5), event(6, flag=1), event(6), event(4, flag=1)
DONE, ON, OFF, MESSAGE = "0 0 0 0", "0 0 1 0", "0 0 2 0", "0 0 3 0"
UNUSED = dict(reqid=255, result=65535, length=65535, count=255, permission=255, wake=255)

# The clock is on at the C-th tick; 20 names node 1.
case(POWER_ON, [WAKE, TICK, TICK, YES, answer(16, 2, count=1), SLEEP],
     "Normal Open permits held 0 - 0 1 0 2", [DONE, DONE, ON, DONE, DONE, "20 1 0 0"])
# One answer lost; the events after 12 and 15 still run.
case(GO_ON, [answer(17, 3), answer(16, 2, count=3), answer(18, 0), answer(128, 0), SLEEP, SENT],
     "Normal Closing permits held 0 held 0 3 0 2", [DONE, "0 0 0 1", "12 0 0 0", "15 0 0 0", MESSAGE, DONE])
# 13 and 14 change the master: node 0 is let go, the sleep message is called back.
case(GO_ON, [TICK, answer(16, 2, result=5), TICK, answer(16, 3), PULSE, SENT],
     "Normal Open permits - 0 - 0 3 0 4", [DONE, "13 0 0 0", DONE, "14 0 0 0", DONE, "17 0 0 0"])
# No event: an unknown kind, a flag or a bit above 1, a count above 3.
case(GO_ON, [event(7), event(4, flag=2), event(6, flag=255), answer(16, 2, permission=2), answer(16, 2, wake=3), answer(16, 2, count=4)],
     "Normal Open permits - 0 - 0 3 0 4", ["15 0 0 0"] * 6)
# Fields that a kind does not use are ignored.
case(GO_ON, [event(0, flag=255, **UNUSED), event(3, flag=255, **UNUSED), event(4, flag=0, **UNUSED), event(2, flag=255, **UNUSED),
             event(0, flag=255, **UNUSED), answer(17, 3, flag=255)],
     "Normal Open - 0 held 0 3 0 6", [DONE] * 6)
# A permission of age W is held; in the next tick it is let go.
case(GO_ON, [TICK, TICK, TICK, YES, SLEEP, TICK],
     "Normal Open permits - 0 - 0 3 0 10", [DONE, DONE, DONE, DONE, "20 0 0 0", DONE])
# A refused plan gives its number in every reply, and so does a state out of range, both before 15.
case(GO_ON, [TICK, answer(16, 2), event(7), SLEEP, PULSE, SENT],
     "Normal Open permits - 0 - 0 3 0 10", ["4 0 0 0"] * 6, plan=REFUSED)
case(OUT_OF_RANGE, [TICK, answer(16, 2), event(7), SLEEP, PULSE, SENT],
     "Sleep Open - 0 - 0 4 1 0", ["11 0 0 0"] * 6)
# 15 before 16, and 16 before the rest.
case(POWER_ON, [answer(16, 2, count=4), answer(99, 2), SLEEP, SENT, TICK, PULSE],
     "Standby Open - 0 - 0 4 0 1", ["15 0 0 0", "16 0 0 0", "16 0 0 0", "16 0 0 0", DONE, DONE])
# All the way to the sleep message, and to Sleep at the D-th tick.
case(GO_ON, [TICK, TICK, YES, answer(16, 2), answer(17, 3), SLEEP],
     "Normal Sending permits held 0 held 0 0 0 3", [DONE, ON, DONE, DONE, DONE, MESSAGE])
case(GO_ON, [SENT, TICK, TICK, TICK, WAKE, answer(16, 2)],
     "Standby Open permits - 0 - 0 0 0 6", [DONE, DONE, OFF, DONE, DONE, "16 0 0 0"])
# Node 0 takes its permission back; the late result is not taken for a sleep message's.
case(GO_ON, [TICK, TICK, answer(16, 2, count=2), answer(17, 3), SLEEP, answer(16, 2, count=3, permission=0)],
     "Normal Withdrawn permits - 0 held 0 3 0 8", [DONE, ON, DONE, DONE, MESSAGE, DONE])
case(GO_ON, [SENT, SLEEP, answer(17, 3, wake=1), TICK, FAILED, SLEEP],
     "Normal Open permits - 0 - 0 3 0 9", [DONE, "20 0 0 0", DONE, DONE, "17 0 0 0", "20 0 0 0"])
# Panels that never sleep: Normal at power-on, 25 before 19 and 20, 17 as ever; the events after them still run.
case(POWER_ON, [SLEEP, SENT, YES, answer(16, 2, count=1), answer(17, 3), SLEEP],
     "Normal Open permits held 0 held 0 1 0 0", ["25 0 0 0", "17 0 0 0", DONE, DONE, DONE, "25 0 0 0"], plan=NEVER_SLEEPS)
case(GO_ON, [TICK, TICK, answer(16, 2, count=3), PULSE, answer(17, 3, wake=1), SLEEP],
     "Normal Open permits - 0 - 0 3 0 2", [DONE, DONE, "0 0 0 1", DONE, DONE, "25 0 0 0"], plan=NEVER_SLEEPS)
case(GO_ON, [answer(16, 2), event(7), answer(16, 2, count=1, result=5), SLEEP, WAKE, TICK],
     "Normal Open permits - 0 - 0 0 0 3", [DONE, "15 0 0 0", "13 0 0 0", "25 0 0 0", DONE, DONE], plan=NEVER_SLEEPS)
# The same state under the plan of panels that sleep; what it leaves is out of range where they never do.
case(GO_ON, [answer(16, 2, count=1), answer(17, 3), SLEEP, TICK, TICK, TICK],
     "Normal Sending permits held 3 held 3 1 0 6", [DONE, DONE, MESSAGE, DONE, DONE, DONE])
case(GO_ON, [TICK, answer(16, 2), event(7), SLEEP, PULSE, SENT],
     "Normal Sending permits held 3 held 3 1 0 6", ["11 0 0 0"] * 6, plan=NEVER_SLEEPS)

# A fixed row accepts its own length alone.
case(POWER_ON, [WAKE, TICK, TICK, answer(16, 0, count=1), answer(16, 1, count=1), answer(16, 258, count=1)],
     "Normal Open - 0 - 0 4 0 2", [DONE, DONE, ON, "14 0 0 0", "14 0 0 0", "14 0 0 0"])
case(GO_ON, [answer(17, 0), answer(17, 2), answer(17, 4), answer(17, 255), answer(17, 259), answer(17, 3)],
     "Normal Open - 0 held 0 4 0 2", ["14 0 0 0"] * 5 + [DONE])
# A variable row accepts any length up to its own, with its count where it has one ..
case(POWER_ON, [WAKE, TICK, TICK, YES, answer(16, 0, count=1), answer(17, 0, count=1)],
     "Normal Open permits held 0 held 0 1 0 2", [DONE, DONE, ON, DONE, DONE, DONE], plan=VARIABLE)
case(GO_ON, [answer(16, 1, count=3), answer(16, 2, count=0), TICK, answer(17, 2), answer(17, 3), answer(16, 1, permission=0)],
     "Normal Open permits - 0 held 0 0 0 3", ["0 0 0 1", DONE, DONE, DONE, DONE, "0 0 0 3"], plan=VARIABLE)
# .. and none above.
case(GO_ON, [answer(16, 3, count=1), answer(16, 255, count=1), answer(16, 258, count=1), answer(17, 4), answer(17, 259), answer(17, 1)],
     "Normal Open permits - 0 held 0 0 0 3", ["14 0 0 0"] * 5 + [DONE], plan=VARIABLE)
# Shorter answers do not call a sleep message back, a longer one does.
case(GO_ON, [answer(16, 1, count=1), SLEEP, answer(16, 0, count=2), answer(17, 4), SENT, SLEEP],
     "Normal Open permits held 0 - 0 2 0 3", [DONE, MESSAGE, DONE, "14 0 0 0", DONE, "20 1 0 0"], plan=VARIABLE)
case(GO_ON, [answer(17, 2), SLEEP, answer(16, 1, count=3), SENT, answer(17, 0), TICK],
     "Normal Closing permits held 1 held 1 3 1 4", [DONE, MESSAGE, DONE, DONE, DONE, DONE], plan=VARIABLE)
case(GO_ON, [answer(16, 0, count=0, result=1), TICK, answer(16, 0, count=0, wake=1), answer(16, 1, count=4), answer(18, 0), answer(17, 1, count=3)],
     "Normal Open permits - 0 held 0 0 0 5", ["13 0 0 0", DONE, DONE, "15 0 0 0", "12 0 0 0", DONE], plan=VARIABLE)

os.makedirs("crates/test_batch/data", exist_ok=True)
for number, plan in SETS.items():
    with open("crates/test_batch/data/%d.set" % number, "wb") as file:
        file.write(plan_set(**plan))
with open("crates/test_batch/stdin", "wb") as file:
    file.write(b"".join(stdin))
with open("crates/test_batch/stdout", "w") as file:
    file.write("\n".join(stdout) + "\n")
