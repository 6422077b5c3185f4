#!/usr/bin/env python3
"""Writes the cases of both machines and what must be printed of each: crates/test_machines/stdin and stdout, and the sets of their plans, data.

Run at the repository's root. Each case gives a state, an event and, by hand from the documents of docs/SOURCES.md, what the step
changes. Nothing here calls the product or works a rule out: what is not named as changed stays as given.

Plan 0: two nodes, node 0 polled, node 1 event-triggered; W 10, D 2, S 3, E 4, R 5, P 6, C 2; row 16 of node 0, length 2, with a
sequence count; row 17 of node 1, length 3, without one; row 18 of the master. Plan 1: the same with all times 1. Plan 2: the same
with revision 0. Plan 3: node 0 and row 16 alone. Plan 4: sixteen nodes; row 17 and the places of node 1 are node 15's. Plan 5: plan 0
with profile 1, panels that never sleep. Plan 6: plan 0 with profile 2. Plan 7: plan 0 with variable rows, 16 of kind 3, with a
sequence count, and 17 of kind 2, without one. Plan 8: plan 0 with row 17 of kind 4. No set can hold plans 2, 6 and 8: the program makes them of
plan 0's."""
import os
import sys

sys.dont_write_bytecode = True
sys.path.insert(0, "tests/sets")
from layout import plan_set

MASTER = 255
ROW_16, ROW_17, ROW_18 = (16, 0, 2, 1), (17, 1, 3, 0), (18, MASTER, 0, 0)
PLAN = dict(revision=7, times=[10, 2, 3, 4, 5, 6, 2], nodes=[(1, 1, 1), (2, 1, 0)], rows=[ROW_16, ROW_17, ROW_18])
SETS = {
    0: PLAN,
    1: dict(PLAN, times=[1] * 7),
    3: dict(PLAN, nodes=[(1, 1, 1)], rows=[ROW_16]),
    4: dict(PLAN, nodes=[(1, 1, 1)] + [(i + 1, 1, 0) for i in range(1, 16)],
            rows=[ROW_16, (17, 15, 3, 0), ROW_18] + [(i + 18, i, 0, 0) for i in range(1, 15)]),
    5: dict(PLAN, profile=1),
    7: dict(PLAN, rows=[(16, 0, 2, 3), (17, 1, 3, 2), ROW_18]),
}
STATES = ["Normal", "Standby", "Sleep"]
PHASES = ["Open", "Sending", "Withdrawn", "Closing"]
LAST = 4294967295
stdin, stdout = [], []


def case(numbers, printed, shows):
    numbers = [int(n) for n in numbers]
    stdin.append(" ".join(map(str, numbers + [0] * (22 - len(numbers)))) + " " + shows)
    stdout.append(printed + shows)


# The master

POWER_ON = dict(state="Sleep", phase="Open", permits=0, hold0=None, hold1=None, cause0=0, cause1=0,
                last16=4, last17=4, delay=0, ticks=0)
STANDBY = dict(POWER_ON, state="Standby")
OPEN = dict(POWER_ON, state="Normal")
SENDING = dict(OPEN, phase="Sending")
WITHDRAWN = dict(OPEN, phase="Withdrawn")
CLOSING = dict(OPEN, phase="Closing")
BOTH = dict(hold0=3, hold1=4)
NONE = dict(hold0=None, hold1=None)
NEW, REFUSED, AGED, DAMAGED, WAKE = range(5)
CAUSES = ["", "refused ", "aged ", "damaged ", "wake "]
WOKEN = dict(NONE, cause0=WAKE, cause1=WAKE)
TICK, PULSE, WAKE_ASK, SLEEP_ASK = [0], [2], [3], [5]


def answer(reqid, length, count=0, permission=0, wake=0, result=0):
    return [1, reqid, result, length, count, permission, wake]


def permission(yes):
    return [4, yes]


def send_result(sent):
    return [6, sent]


def master(s, event, shows, command="nothing", refusal=0, node=0, lost=0, plan=0, wrong=None, **changes):
    """A hold is None or its age. `wrong` puts numbers into places of the case, for states that R3.1 does not know."""
    held = lambda age: [0, 0] if age is None else [1, age]
    word = lambda age, cause: ("- 0 " if age is None else "held %d " % age) + (CAUSES[cause] if cause <= WAKE else "%d " % cause)
    numbers = [0, plan, STATES.index(s["state"]), PHASES.index(s["phase"]), s["permits"]]
    numbers += held(s["hold0"]) + held(s["hold1"]) + [s["last16"], s["last17"], s["delay"], s["ticks"]] + event
    numbers += [0] * (20 - len(numbers)) + [s["cause0"], s["cause1"]]
    printed_wrong = ""
    if wrong:
        place, value, printed_wrong = wrong
        numbers[place] = value
    r = dict(s, **changes)
    printed = printed_wrong or "%s %s %s%s%s%d %d %d %d " % (
        r["state"], r["phase"], "permits " * r["permits"], word(r["hold0"], r["cause0"]), word(r["hold1"], r["cause1"]),
        r["last16"], r["last17"], r["delay"], r["ticks"])
    case(numbers, printed + "%s %d %d %d " % (command, refusal, node, lost), shows)


# Tick, any state
master(POWER_ON, TICK, "tick in Sleep", ticks=1)
master(dict(OPEN, **BOTH), TICK, "tick in Open: held ages up by one", ticks=1, hold0=4, hold1=5)
master(SENDING, TICK, "tick in Sending", ticks=1)
master(WITHDRAWN, TICK, "tick in Withdrawn", ticks=1)
master(dict(OPEN, hold0=9, hold1=10), TICK, "ages W - 1 and W: W stays, W + 1 is let go", ticks=1, hold0=10, hold1=None, cause1=AGED)
master(dict(SENDING, hold0=10, hold1=0), TICK, "ageing out is no call-back", ticks=1, hold0=None, cause0=AGED, hold1=1)
master(dict(CLOSING, hold0=10), TICK, "nor in Closing", ticks=1, hold0=None, cause0=AGED, delay=1)
master(dict(POWER_ON, hold0=10, hold1=1), TICK, "outside Normal held ages run too", ticks=1, hold0=None, hold1=2)
master(dict(OPEN, ticks=LAST - 1), TICK, "tick number to its last value", ticks=LAST)
master(dict(OPEN, ticks=LAST, hold0=3), TICK, "tick number back to 0, the age goes on", ticks=0, hold0=4)
master(STANDBY, TICK, "C 2: first tick", ticks=1, delay=1)
master(dict(STANDBY, delay=1, last16=2, last17=0, hold1=5), TICK, "C 2: at the C-th clock on, counts all 4, held stays",
       "clock-on", ticks=1, delay=0, state="Normal", last16=4, last17=4, hold1=6)
master(STANDBY, TICK, "C 1: at the first tick", "clock-on", plan=1, ticks=1, state="Normal")
master(CLOSING, TICK, "D 2: first tick", ticks=1, delay=1)
master(dict(CLOSING, delay=1, last16=2, permits=1, **BOTH), TICK, "D 2: at the D-th clock off, all let go, counts stay",
       "clock-off", ticks=1, delay=0, state="Sleep", phase="Open", **NONE)
master(CLOSING, TICK, "D 1: at the first tick", "clock-off", plan=1, ticks=1, state="Sleep", phase="Open")
master(dict(OPEN, hold0=1), TICK, "W 1: age 2 is let go", plan=1, ticks=1, hold0=None, cause0=AGED)

# Answer: 16 outside Normal, then 12, 13, 14
master(POWER_ON, answer(16, 2, 0, 1), "answer in Sleep", refusal=16)
master(STANDBY, answer(16, 2, 0, 1), "answer in Standby", refusal=16)
master(POWER_ON, answer(99, 2, 0, 1), "16 before 12", refusal=16)
master(OPEN, answer(99, 2, 0, 1), "ReqId not in the plan", refusal=12)
master(OPEN, answer(0, 0), "ReqId 0 is in no plan", refusal=12)
master(dict(CLOSING, **BOTH), answer(18, 0), "a master's row: nothing is called back", refusal=12)
master(OPEN, answer(18, 0, result=1), "12 before 13", refusal=12)
master(dict(OPEN, **BOTH), answer(16, 2, 0, 1, result=1), "damaged: its publisher is let go", refusal=13, hold0=None, cause0=DAMAGED)
master(dict(OPEN, **BOTH), answer(16, 9, 0, 1, result=1), "13 before 14", refusal=13, hold0=None, cause0=DAMAGED)
master(dict(OPEN, **BOTH), answer(16, 3, 0, 1), "length too long", refusal=14, hold0=None, cause0=DAMAGED)
master(dict(OPEN, **BOTH), answer(17, 2, 0, 1), "length too short, of node 1", refusal=14, hold1=None, cause1=DAMAGED)
master(dict(OPEN, **BOTH), answer(16, 258, 0, 1), "length 2 + 256", refusal=14, hold0=None, cause0=DAMAGED)
master(dict(OPEN, **BOTH), answer(16, 2, 0, 1, result=256), "result 256 is not 0", refusal=13, hold0=None, cause0=DAMAGED)
master(dict(OPEN, **BOTH), answer(16, 2, 0, 1, 1, result=1), "damaged with the wake bit: the others stay held", refusal=13, hold0=None, cause0=DAMAGED)
master(dict(OPEN, last16=1), answer(16, 2, 3, result=7), "damaged: the count is not stored", refusal=13, cause0=DAMAGED)
master(dict(SENDING, **BOTH), answer(16, 2, 0, 1, result=1), "damaged in Sending: Withdrawn", refusal=13, hold0=None, cause0=DAMAGED, phase="Withdrawn")
master(dict(WITHDRAWN, **BOTH), answer(16, 2, 0, 1, result=1), "damaged in Withdrawn", refusal=13, hold0=None, cause0=DAMAGED)
master(dict(CLOSING, delay=1, **BOTH), answer(17, 9, 0, 1), "damaged in Closing: Open", refusal=14, hold1=None, cause1=DAMAGED, phase="Open", delay=0)

# Answer taken: count, then wake bit, then permission bit
master(OPEN, answer(16, 2, 2, 1), "none before: lost 0, held with age 0", last16=2, hold0=0)
for last, count, lost in [(0, 1, 0), (0, 2, 1), (0, 3, 2), (0, 0, 3), (3, 0, 0), (3, 1, 1), (1, 1, 3), (1, 0, 2), (2, 3, 0), (2, 1, 2)]:
    master(dict(OPEN, last16=last), answer(16, 2, count, 1), "last %d, count %d" % (last, count), lost=lost, last16=count, hold0=0)
master(dict(OPEN, last17=1), answer(17, 3, 3, 1), "a row without a count: lost 0, nothing stored", hold1=0)
master(dict(OPEN, **BOTH), answer(16, 2, 0, 1), "held again: age 0", last16=0, hold0=0)
master(dict(OPEN, **BOTH), answer(16, 2, 0, 1, 1), "wake and permission bits both 1: nothing held", last16=0, **WOKEN)
master(dict(OPEN, last16=0, **BOTH), answer(16, 2, 2, 0, 1), "wake bit: the count is still reported", lost=1, last16=2, **WOKEN)
master(dict(OPEN, **BOTH), answer(16, 2, 0), "refusing: its publisher is let go", last16=0, hold0=None, cause0=REFUSED)
master(dict(SENDING, **BOTH), answer(16, 2, 0, 1), "held in Sending", last16=0, hold0=0)
master(dict(CLOSING, delay=1, **BOTH), answer(16, 2, 0, 1), "held in Closing, the delay runs on", last16=0, hold0=0)
master(dict(SENDING, **BOTH), answer(16, 2, 0), "refusing in Sending: Withdrawn", last16=0, hold0=None, cause0=REFUSED, phase="Withdrawn")
master(dict(CLOSING, delay=1, **BOTH), answer(16, 2, 0), "refusing in Closing: Open", last16=0, hold0=None, cause0=REFUSED, phase="Open", delay=0)
master(dict(WITHDRAWN, **BOTH), answer(16, 2, 0), "refusing in Withdrawn", last16=0, hold0=None, cause0=REFUSED)
master(dict(SENDING, **BOTH), answer(17, 3, 0, 0, 1), "wake bit in Sending: Withdrawn", phase="Withdrawn", **WOKEN)
master(dict(CLOSING, delay=1, **BOTH), answer(17, 3, 0, 0, 1), "wake bit in Closing: Open", phase="Open", delay=0, **WOKEN)

# Wake-up pulse, or own ask to wake
for event, name in [(PULSE, "pulse"), (WAKE_ASK, "own ask to wake")]:
    master(POWER_ON, event, name + " in Sleep: Standby", state="Standby")
    master(dict(POWER_ON, permits=1, hold0=1, ticks=5), event, name + " in Sleep: the rest stays", state="Standby")
    master(dict(STANDBY, delay=1), event, name + " in Standby: nothing")
    master(dict(OPEN, **BOTH), event, name + " in Open: let all go", **WOKEN)
    master(dict(SENDING, **BOTH), event, name + " in Sending: Withdrawn", phase="Withdrawn", **WOKEN)
    master(dict(WITHDRAWN, **BOTH), event, name + " in Withdrawn", **WOKEN)
    master(dict(CLOSING, delay=1, **BOTH), event, name + " in Closing: Open", phase="Open", delay=0, **WOKEN)

# Own permission, any state
master(POWER_ON, permission(1), "own yes in Sleep", permits=1)
master(dict(POWER_ON, permits=1), permission(0), "own no in Sleep", permits=0)
master(dict(STANDBY, delay=1), permission(1), "own yes in Standby, the delay stays", permits=1)
master(dict(STANDBY, delay=1, permits=1), permission(0), "own no in Standby, the delay stays", permits=0)
master(dict(OPEN, **BOTH), permission(1), "own yes in Open", permits=1)
master(dict(OPEN, permits=1, **BOTH), permission(0), "own no in Open lets nobody go", permits=0)
master(dict(SENDING, permits=1), permission(1), "own yes in Sending")
master(dict(SENDING, permits=1, **BOTH), permission(0), "own no in Sending: Withdrawn", permits=0, phase="Withdrawn")
master(SENDING, permission(0), "a no after a no calls back too", phase="Withdrawn")
master(dict(WITHDRAWN, permits=1), permission(0), "own no in Withdrawn", permits=0)
master(dict(CLOSING, delay=1), permission(1), "own yes in Closing, the delay stays", permits=1)
master(dict(CLOSING, delay=1, permits=1), permission(0), "own no in Closing: Open", permits=0, phase="Open", delay=0)

# Sleep ask: 16, 18, 19, 20
master(dict(POWER_ON, permits=1), SLEEP_ASK, "sleep ask in Sleep", refusal=16)
master(dict(STANDBY, permits=1), SLEEP_ASK, "sleep ask in Standby", refusal=16)
master(dict(SENDING, permits=1, **BOTH), SLEEP_ASK, "sleep ask in Sending", refusal=18)
master(dict(WITHDRAWN, permits=1, **BOTH), SLEEP_ASK, "sleep ask in Withdrawn", refusal=18)
master(dict(CLOSING, permits=1, **BOTH), SLEEP_ASK, "sleep ask in Closing", refusal=18)
master(CLOSING, SLEEP_ASK, "18 before 19", refusal=18)
master(dict(OPEN, **BOTH), SLEEP_ASK, "own permission no", refusal=19)
master(OPEN, SLEEP_ASK, "19 before 20", refusal=19)
master(dict(OPEN, permits=1), SLEEP_ASK, "20 names the lowest", refusal=20)
master(dict(OPEN, permits=1, hold0=1), SLEEP_ASK, "20 names node 1", refusal=20, node=1)
master(dict(OPEN, permits=1, hold0=10, hold1=10), SLEEP_ASK, "age W: the message goes", "sleep-message", phase="Sending")

# Send result: 16, 17
master(POWER_ON, send_result(1), "send result in Sleep", refusal=16)
master(STANDBY, send_result(0), "send result in Standby", refusal=16)
master(OPEN, send_result(1), "send result in Open", refusal=17)
master(CLOSING, send_result(1), "send result in Closing", refusal=17)
master(dict(SENDING, permits=1, **BOTH), send_result(1), "sent: Closing", phase="Closing")
master(dict(SENDING, permits=1, **BOTH), send_result(0), "failed: Open", phase="Open")
master(dict(WITHDRAWN, **BOTH), send_result(1), "sent after a call-back: Open", phase="Open")
master(dict(WITHDRAWN, **BOTH), send_result(0), "failed after a call-back: Open", phase="Open")

# Causes (R3.13, R3.14): each after each other, and where they end
for old in range(5):
    before, name = dict(OPEN, cause0=old, cause1=DAMAGED), ["none", "refused", "aged", "damaged", "wake"][old]
    master(before, answer(16, 2, 0), name + ", then refused", last16=0, cause0=REFUSED)
    master(before, answer(16, 2, 0, 1, result=1), name + ", then damaged", refusal=13, cause0=DAMAGED)
    master(before, answer(16, 3, 0, 0), name + ", then a wrong length, which is damage", refusal=14, cause0=DAMAGED)
    master(before, answer(16, 2, 0, 1, 1), name + ", then its own wake bit", last16=0, cause0=WAKE)
    master(before, answer(16, 2, 0, 1), name + ", then held", last16=0, hold0=0, cause0=NEW)
    master(before, PULSE, name + ", then a pulse over two nodes not held")
    master(before, WAKE_ASK, name + ", then an own ask over two nodes not held")
    master(before, TICK, name + ", then a tick", ticks=1)
    master(before, answer(17, 3, 0, 0, 1), name + ", then another's wake bit", cause1=WAKE)
    master(before, answer(99, 2), name + ", then a ReqId not in the plan", refusal=12)
    master(before, permission(0), name + ", then the own no")
    master(dict(before, permits=1), SLEEP_ASK, name + ", then a sleep ask", refusal=20)
    master(dict(before, phase="Sending"), send_result(1), name + ", then sent", phase="Closing")
    master(dict(before, phase="Closing", delay=1), TICK, name + ", then Sleep", "clock-off", ticks=1, delay=0, state="Sleep", phase="Open",
           cause0=NEW, cause1=NEW)
master(dict(OPEN, cause0=REFUSED, hold1=3), PULSE, "a pulse over one held and one not", hold1=None, cause1=WAKE)
master(dict(OPEN, cause0=REFUSED, hold1=3), answer(16, 2, 0, 0, 1), "the carrier was not held, the other was", last16=0, hold1=None, cause0=WAKE,
       cause1=WAKE)
master(dict(OPEN, hold0=9, cause1=WAKE), TICK, "W - 1 is no end of the window", ticks=1, hold0=10)
master(dict(OPEN, hold0=10, hold1=9), PULSE, "a pulse at the window's end", cause0=WAKE, cause1=WAKE, **NONE)
master(dict(CLOSING, delay=1, hold0=10), TICK, "aged in the tick that leaves Normal: no cause", "clock-off", ticks=1, delay=0, state="Sleep",
       phase="Open", hold0=None)
master(dict(STANDBY, hold0=10), TICK, "aged in Standby: no cause", ticks=1, delay=1, hold0=None)
master(dict(STANDBY, delay=1, hold0=10), TICK, "aged in the tick that enters Normal: no cause", "clock-on", ticks=1, delay=0, state="Normal",
       hold0=None)
LAST_NODE = "node 15 of sixteen: "
master(dict(OPEN, hold1=10), TICK, LAST_NODE + "aged", plan=4, ticks=1, hold1=None, cause1=AGED)
master(dict(OPEN, hold1=10, cause0=AGED), PULSE, LAST_NODE + "a pulse", plan=4, hold1=None, cause1=WAKE)
master(dict(OPEN, cause1=AGED), answer(17, 3, 0, 0), LAST_NODE + "refused", plan=4, cause1=REFUSED)
master(dict(OPEN, hold0=2), answer(17, 9, 0, 1), LAST_NODE + "a wrong length", refusal=14, plan=4, cause1=DAMAGED)
master(dict(OPEN, hold0=2), answer(17, 3, 0, 1, 1), LAST_NODE + "its own wake bit", plan=4, hold0=None, cause0=WAKE, cause1=WAKE)
master(dict(OPEN, cause1=WAKE), answer(17, 3, 0, 1), LAST_NODE + "held", plan=4, hold1=0, cause1=NEW)

# Lengths: a fixed row accepts its own alone
FIXED = "fixed: "
for length in [0, 1, 3, 255, 258]:
    master(dict(OPEN, last16=1, **BOTH), answer(16, length, 3, 1), FIXED + "row 16 in length %d of 2" % length, refusal=14, hold0=None,
           cause0=DAMAGED)
for length in [0, 2, 4, 255, 259]:
    master(dict(OPEN, last17=1, **BOTH), answer(17, length, 3, 1), FIXED + "row 17 in length %d of 3" % length, refusal=14, hold1=None,
           cause1=DAMAGED)
master(dict(OPEN, last16=1, **BOTH), answer(16, 2, 3, 1), FIXED + "row 16 in length 2 of 2", lost=1, last16=3, hold0=0)
master(dict(OPEN, last17=1, **BOTH), answer(17, 3, 3, 1), FIXED + "row 17 in length 3 of 3", hold1=0)

# A variable row (R1.5) accepts any length up to its own, and none above
VARIABLE = "variable: "
for length in [0, 1, 2]:
    master(dict(OPEN, last16=1, **BOTH), answer(16, length, 3, 1), VARIABLE + "row 16 in length %d of 2" % length, plan=7, lost=1, last16=3,
           hold0=0)
    master(OPEN, answer(16, length, 2, 1), VARIABLE + "length %d, none before: lost 0" % length, plan=7, last16=2, hold0=0)
    master(dict(OPEN, cause0=DAMAGED), answer(16, length, 0, 1), VARIABLE + "length %d, held after damage" % length, plan=7, last16=0, hold0=0,
           cause0=NEW)
    master(dict(OPEN, **BOTH), answer(16, length, 0), VARIABLE + "length %d, refusing" % length, plan=7, last16=0, hold0=None, cause0=REFUSED)
    master(dict(OPEN, **BOTH), answer(16, length, 0, 1, 1), VARIABLE + "length %d, wake bit" % length, plan=7, last16=0, **WOKEN)
    master(dict(SENDING, **BOTH), answer(16, length, 0, 1), VARIABLE + "length %d, held in Sending" % length, plan=7, last16=0, hold0=0)
    master(dict(OPEN, **BOTH), answer(16, length, 0, 1, result=1), VARIABLE + "length %d, damaged" % length, refusal=13, plan=7, hold0=None,
           cause0=DAMAGED)
for length in [3, 255, 258]:
    master(dict(OPEN, last16=1, **BOTH), answer(16, length, 3, 1), VARIABLE + "row 16 in length %d of 2" % length, refusal=14, plan=7,
           hold0=None, cause0=DAMAGED)
    master(dict(OPEN, **BOTH), answer(16, length, 0, 1, 1), VARIABLE + "length %d with the wake bit: the others stay held" % length,
           refusal=14, plan=7, hold0=None, cause0=DAMAGED)
    master(dict(SENDING, **BOTH), answer(16, length, 0, 1), VARIABLE + "length %d in Sending: Withdrawn" % length, refusal=14, plan=7,
           hold0=None, cause0=DAMAGED, phase="Withdrawn")
    master(dict(CLOSING, delay=1, **BOTH), answer(16, length, 0, 1), VARIABLE + "length %d in Closing: Open" % length, refusal=14, plan=7,
           hold0=None, cause0=DAMAGED, phase="Open", delay=0)
    master(dict(OPEN, **BOTH), answer(16, length, 0, 1, result=1), VARIABLE + "length %d, 13 before 14" % length, refusal=13, plan=7,
           hold0=None, cause0=DAMAGED)
for length in [0, 2, 3]:
    master(dict(OPEN, last17=1, **BOTH), answer(17, length, 3, 1), VARIABLE + "row 17 in length %d of 3: no count stored" % length, plan=7,
           hold1=0)
for length in [4, 255, 259, 65535]:
    master(dict(OPEN, last17=1, **BOTH), answer(17, length, 3, 1), VARIABLE + "row 17 in length %d of 3" % length, refusal=14, plan=7,
           hold1=None, cause1=DAMAGED)
master(STANDBY, answer(16, 1, 0, 1), VARIABLE + "shorter in Standby", refusal=16, plan=7)
master(OPEN, answer(16, 1, 4, 1), VARIABLE + "shorter with count 4", refusal=15, plan=7)
master(OPEN, answer(17, 1, 4, 1), VARIABLE + "shorter with count 4, of a row without one", refusal=15, plan=7)
master(OPEN, answer(18, 0), VARIABLE + "a master's row", refusal=12, plan=7)
# 7: a last byte above 3
master(OPEN, TICK, "kind 4", refusal=7, plan=8)
master(OPEN, answer(16, 2, 0, 1), "kind 4 of another row", refusal=7, plan=8)
master(dict(OPEN, hold0=11), answer(17, 1, 4), "kind 4: 7 before 11 and 15", refusal=7, plan=8)

# Panels that never sleep (R3.1, R3.12): in Normal and Open all goes on as ever
NEVER = "never sleeps: "
master(dict(OPEN, ticks=LAST, hold0=9, hold1=10), TICK, NEVER + "tick", plan=5, ticks=0, hold0=10, hold1=None, cause1=AGED)
master(dict(OPEN, **BOTH), answer(99, 2, 0, 1), NEVER + "ReqId not in the plan", refusal=12, plan=5)
master(dict(OPEN, **BOTH), answer(18, 0), NEVER + "a master's row", refusal=12, plan=5)
master(dict(OPEN, **BOTH), answer(16, 2, 0, 1, result=1), NEVER + "damaged", refusal=13, plan=5, hold0=None, cause0=DAMAGED)
master(dict(OPEN, **BOTH), answer(17, 2, 0, 1), NEVER + "length too short", refusal=14, plan=5, hold1=None, cause1=DAMAGED)
master(dict(OPEN, last16=1, cause0=WAKE), answer(16, 2, 0, 1), NEVER + "held, two lost", plan=5, lost=2, last16=0, hold0=0, cause0=NEW)
master(dict(OPEN, **BOTH), answer(16, 2, 0), NEVER + "refusing", plan=5, last16=0, hold0=None, cause0=REFUSED)
master(dict(OPEN, **BOTH), answer(16, 2, 0, 1, 1), NEVER + "an answer with the wake bit", plan=5, last16=0, **WOKEN)
master(dict(OPEN, cause0=AGED, hold1=3), PULSE, NEVER + "pulse", plan=5, hold1=None, cause1=WAKE)
master(dict(OPEN, permits=1, **BOTH), WAKE_ASK, NEVER + "own ask to wake", plan=5, **WOKEN)
master(dict(OPEN, **BOTH), permission(1), NEVER + "own yes", plan=5, permits=1)
master(dict(OPEN, permits=1, **BOTH), permission(0), NEVER + "own no", plan=5, permits=0)
# 25 before 19 and 20; 17 as ever
master(dict(OPEN, permits=1, **BOTH), SLEEP_ASK, NEVER + "sleep ask", refusal=25, plan=5)
master(dict(OPEN, **BOTH), SLEEP_ASK, NEVER + "25 before 19", refusal=25, plan=5)
master(dict(OPEN, permits=1, hold0=1), SLEEP_ASK, NEVER + "25 before 20, and names no node", refusal=25, plan=5)
master(OPEN, SLEEP_ASK, NEVER + "25 before 19 and 20", refusal=25, plan=5)
master(OPEN, send_result(1), NEVER + "sent", refusal=17, plan=5)
master(dict(OPEN, permits=1, **BOTH), send_result(0), NEVER + "failed", refusal=17, plan=5)
# 11: a state not Normal, a phase not Open
for other in [STANDBY, POWER_ON, SENDING, WITHDRAWN, CLOSING]:
    name = NEVER + (other["phase"] if other["state"] == "Normal" else other["state"])
    ready = dict(other, permits=1, hold0=1, hold1=1)
    for event, what in [(TICK, "tick"), (PULSE, "pulse"), (WAKE_ASK, "own ask to wake"), (permission(0), "own no"), (answer(16, 2), "answer"),
                        (answer(16, 2, 4), "11 before 15"), (SLEEP_ASK, "11 before 25"), (send_result(1), "send result")]:
        master(ready, event, name + ", " + what, refusal=11, plan=5)
master(dict(OPEN, delay=1), TICK, NEVER + "a delay in Open", refusal=11, plan=5)
master(dict(OPEN, hold0=11), SLEEP_ASK, NEVER + "age above W, 11 before 25", refusal=11, plan=5)
master(dict(OPEN, hold0=1, cause0=AGED), SLEEP_ASK, NEVER + "cause of a held node, 11 before 25", refusal=11, plan=5)
master(OPEN, answer(16, 2, 4, 1), NEVER + "count 4", refusal=15, plan=5)
master(OPEN, SLEEP_ASK, "profile 2: 3 before 25", refusal=3, plan=6)
master(STANDBY, TICK, "profile 2: 3 before 11", refusal=3, plan=6)

# Plan 3 to 8, then 11, 15, 16
master(OPEN, TICK, "revision 0", refusal=4, plan=2)
master(dict(OPEN, hold0=11), TICK, "4 before 11", refusal=4, plan=2)
master(dict(OPEN, hold0=11), TICK, "age above W", refusal=11)
master(OPEN, TICK, "age of a node not held", refusal=11, wrong=(6, 1, "Normal Open - 1 - 0 4 4 0 0 "))
master(dict(OPEN, hold1=0), TICK, "a place from N on held", refusal=11, plan=3)
master(dict(OPEN, hold0=0), TICK, "the places below N", ticks=1, hold0=1, plan=3)
master(dict(STANDBY, phase="Sending"), TICK, "a phase outside Normal", refusal=11)
master(dict(POWER_ON, phase="Closing"), TICK, "a phase in Sleep", refusal=11)
master(dict(STANDBY, delay=2), TICK, "delay C in Standby", refusal=11)
master(dict(CLOSING, delay=2), TICK, "delay D in Closing", refusal=11)
master(dict(POWER_ON, delay=1), TICK, "a delay in Sleep", refusal=11)
master(dict(OPEN, delay=1), TICK, "a delay in Open", refusal=11)
master(dict(SENDING, delay=1), TICK, "a delay in Sending", refusal=11)
master(dict(OPEN, last17=5), TICK, "last count 5", refusal=11)
for wrong in range(1, 6):
    master(dict(OPEN, hold0=0, cause0=wrong), TICK, "cause %d of a held node" % wrong, refusal=11)
    master(dict(STANDBY, cause1=wrong), TICK, "cause %d in Standby" % wrong, refusal=11)
    master(dict(POWER_ON, cause0=wrong), PULSE, "cause %d in Sleep" % wrong, refusal=11)
    master(dict(OPEN, cause1=wrong), TICK, "cause %d from N on" % wrong, refusal=11, plan=3)
for wrong in [5, 6, 255]:
    master(dict(OPEN, cause0=wrong), TICK, "cause %d" % wrong, refusal=11)
    master(dict(OPEN, cause1=wrong), TICK, LAST_NODE + "cause %d" % wrong, refusal=11, plan=4)
master(dict(OPEN, cause0=5), answer(16, 2, 4), "11 for a cause before 15", refusal=11)
master(dict(OPEN, cause0=5), TICK, "4 before 11 for a cause", refusal=4, plan=2)
master(dict(OPEN, hold0=11), answer(16, 2, 4), "11 before 15", refusal=11)
master(OPEN, answer(16, 2, 4, 1), "count 4", refusal=15)
master(OPEN, answer(128, 2, 0, 1), "ReqId 128", refusal=15)
master(POWER_ON, answer(16, 2, 4, 1), "15 before 16", refusal=15)
master(OPEN, answer(17, 3, 4, 1), "15 for a row without a count too", refusal=15)

# A node

ASLEEP = dict(state="Sleep", permits=0, error=0, wake=0, heard=0, caller=0, quiet=0, delay=None, standby=0, count16=0, count17=0)
CALLED = dict(ASLEEP, state="Standby")
CALLER = dict(CALLED, caller=1, wake=1)
AWAKE = dict(ASLEEP, state="Normal")
FLAGS = ["permits", "error", "wake", "heard", "caller"]
CLOCK, DARK, HEARD, OWN_WAKE, MESSAGE = [0, 1], [0, 0], [1], [2], [4]
FULL = dict(error=1, wake=1, heard=1, quiet=3, delay=1, count16=2, count17=3)
CLEAR = dict(state="Sleep", error=0, wake=0, heard=0, caller=0, quiet=0, delay=None, standby=0, count16=0, count17=0)


def permit(yes):
    return [3, yes]


def request(reqid):
    return [5, reqid]


def ask(reqid):
    return [6, reqid]


def sent(permission, wake, count):
    return "send %d %d %d" % (permission, wake, count)


def node(s, event, shows, command="nothing", refusal=0, me=0, plan=0, **changes):
    numbers = [1, plan, STATES.index(s["state"])] + [s[flag] for flag in FLAGS]
    numbers += [s["quiet"], 0 if s["delay"] is None else s["delay"] + 1, s["standby"], s["count16"], s["count17"]]
    numbers += (event + [0])[:2] + [me]
    r = dict(s, **changes)
    printed = r["state"] + " " + "".join(flag + " " for flag in FLAGS if r[flag])
    printed += "%d %s %d %d %d " % (r["quiet"], "-" if r["delay"] is None else r["delay"], r["standby"], r["count16"], r["count17"])
    case(numbers, printed + "%s %d " % (command, refusal), shows)


# Tick with clock
node(dict(AWAKE, error=1, quiet=4, heard=1, wake=1, count16=2), CLOCK, "clock in Normal: error off, quiet 0", error=0, quiet=0)
node(dict(AWAKE, quiet=2, delay=1), CLOCK, "S 3: a delay still runs", quiet=0, delay=2)
node(dict(AWAKE, permits=1, **dict(FULL, delay=2)), CLOCK, "S 3: reached, Sleep, all but permission clear", **CLEAR)
node(dict(AWAKE, delay=0), CLOCK, "S 1: reached in the first tick", plan=1, **CLEAR)
node(dict(CALLED, permits=1, standby=3, **FULL), CLOCK, "clock in Standby: Normal, the wake bit stays",
     state="Normal", error=0, heard=0, quiet=0, delay=None, standby=0, count16=0, count17=0)
node(dict(CALLER, standby=10, error=1), CLOCK, "the caller too", state="Normal", caller=0, error=0, standby=0)
node(ASLEEP, CLOCK, "clock in Sleep: Standby, not caller", state="Standby")
node(dict(ASLEEP, permits=1, **FULL), CLOCK, "clock in Sleep: the rest stays", state="Standby")

# Tick without
node(AWAKE, DARK, "E 4: quiet up by one", quiet=1)
node(dict(AWAKE, quiet=2), DARK, "E 4: one short of it", quiet=3)
node(dict(AWAKE, quiet=3, wake=1, count16=1), DARK, "E 4: error on, no permission, no Sleep", quiet=4, error=1)
node(dict(AWAKE, quiet=4, error=1), DARK, "quiet not above E")
node(dict(AWAKE, quiet=4), DARK, "error on again where quiet stood at E", error=1)
node(dict(AWAKE, quiet=3, permits=1, wake=1, heard=1, count17=2), DARK, "E 4: permitted, Sleep", **CLEAR)
node(AWAKE, DARK, "E 1: in the first tick", plan=1, quiet=1, error=1)
node(dict(AWAKE, delay=0), DARK, "a delay and the quiet count run together", delay=1, quiet=1)
node(dict(AWAKE, quiet=3, delay=0), DARK, "E 4 with a delay running: error on", delay=1, quiet=4, error=1)
node(dict(AWAKE, delay=2, **dict(quiet=3, wake=1)), DARK, "S 3: reached before E is looked at", **CLEAR)
node(dict(CALLER, standby=3), DARK, "R 5: one short of it", standby=4)
node(dict(CALLER, standby=4), DARK, "R 5: second pulse", "pulse", standby=5)
node(dict(CALLER, standby=5), DARK, "R 5: one past it", standby=6)
node(dict(CALLER, standby=8), DARK, "2R 10: one short of it", standby=9)
node(dict(CALLER, standby=9), DARK, "2R 10: error on, no permission, no Sleep", standby=10, error=1)
node(dict(CALLER, standby=10, error=1), DARK, "standby count not above 2R")
node(dict(CALLER, standby=10), DARK, "error on again where the count stood at 2R", error=1)
node(dict(CALLER, standby=9, permits=1), DARK, "2R 10: permitted, Sleep", **CLEAR)
node(CALLER, DARK, "R 1: second pulse in the first tick", "pulse", plan=1, standby=1)
node(dict(CALLER, standby=1), DARK, "2R 2 in the second", plan=1, standby=2, error=1)
node(dict(CALLED, standby=4), DARK, "P 6: one short of it", standby=5)
node(dict(CALLED, standby=5, wake=1), DARK, "P 6: Sleep", **CLEAR)
node(CALLED, DARK, "P 1: in the first tick", plan=1, **CLEAR)
node(dict(CALLED, delay=1, quiet=2), DARK, "a delay runs in Normal only", standby=1)
node(ASLEEP, DARK, "Sleep without clock: nothing")
node(dict(ASLEEP, **FULL), DARK, "Sleep without clock: nothing, whatever shows")

# Pulse heard
node(ASLEEP, HEARD, "pulse in Sleep: Standby, not caller", state="Standby")
node(dict(ASLEEP, permits=1, **FULL), HEARD, "pulse in Sleep: the rest stays", state="Standby")
node(dict(CALLED, standby=3), HEARD, "pulse in Standby: nothing")
node(dict(CALLER, standby=3), HEARD, "pulse in Standby as caller: nothing")
node(dict(AWAKE, delay=1), HEARD, "pulse in Normal: nothing")

# Own ask to wake
node(ASLEEP, OWN_WAKE, "own ask in Sleep: caller, pulse", "pulse", state="Standby", caller=1, wake=1)
node(dict(CALLED, standby=3), OWN_WAKE, "own ask in Standby, not caller: caller, count 0, pulse", "pulse", caller=1, wake=1, standby=0)
node(dict(CALLER, wake=0, standby=3), OWN_WAKE, "own ask as caller: wake bit only", wake=1)
node(dict(AWAKE, delay=1), OWN_WAKE, "own ask in Normal: wake bit only", wake=1)
node(dict(ASLEEP, **dict(FULL, wake=0)), OWN_WAKE, "own ask in Sleep: the rest stays", "pulse", state="Standby", caller=1, wake=1)
node(dict(CALLED, error=1, quiet=2, standby=3), OWN_WAKE, "own ask in Standby, not caller: the rest stays", "pulse", caller=1, wake=1, standby=0)

# W-204: own ask to wake in Normal while the error shows
CALLS_ANEW = dict(state="Standby", caller=1, wake=1, error=0, quiet=0, delay=None)
node(dict(AWAKE, error=1, quiet=4), OWN_WAKE, "own ask while the error shows: caller, quiet 0, error off, pulse", "pulse", **CALLS_ANEW)
node(dict(AWAKE, permits=1, error=1, quiet=4), OWN_WAKE, "the same permitted", "pulse", **CALLS_ANEW)
node(dict(AWAKE, **dict(FULL, wake=0)), OWN_WAKE, "sleep delay off, heard and sequence counts stay", "pulse", **CALLS_ANEW)
node(dict(AWAKE, permits=1, **FULL), OWN_WAKE, "the same permitted, the wake bit 1 before", "pulse", **CALLS_ANEW)
node(dict(AWAKE, error=1, quiet=1), OWN_WAKE, "E 1", "pulse", plan=1, **CALLS_ANEW)
node(dict(AWAKE, quiet=4, heard=1), OWN_WAKE, "own ask at E without the error: wake bit only", wake=1)
node(dict(AWAKE, permits=1, quiet=3), OWN_WAKE, "own ask before E, permitted: wake bit only", wake=1)
node(dict(CALLER, wake=0, error=1, standby=10), OWN_WAKE, "own ask of a caller that gave up: wake bit only", wake=1)

# Permission
node(ASLEEP, permit(1), "yes in Sleep", permits=1)
node(dict(AWAKE, permits=1), permit(0), "no in Normal", permits=0)
node(dict(AWAKE, quiet=2, delay=1), permit(1), "yes in Normal", permits=1)
node(dict(AWAKE, error=1, quiet=4, wake=1, count16=1), permit(1), "yes while the error shows: Sleep", **dict(CLEAR, permits=1))
node(dict(AWAKE, error=1, quiet=4), permit(0), "no while the error shows")
node(dict(CALLER, error=1, standby=10), permit(1), "yes while the caller's error shows: Sleep", **dict(CLEAR, permits=1))
node(dict(ASLEEP, **FULL), permit(1), "yes while the error shows in Sleep: clear", **dict(CLEAR, permits=1))
node(CALLED, permit(1), "yes in Standby", permits=1)

# Sleep message
node(ASLEEP, MESSAGE, "sleep message in Sleep", refusal=16)
node(CALLED, MESSAGE, "sleep message in Standby", refusal=16)
node(CALLER, MESSAGE, "sleep message in Standby as caller", refusal=16)
node(AWAKE, MESSAGE, "sleep message in Normal: delay 0", delay=0)
node(dict(AWAKE, delay=2), MESSAGE, "another one restarts it", delay=0)

# Request and ask to send: 16, 12, 21
node(ASLEEP, request(16), "request in Sleep", refusal=16)
node(CALLER, request(16), "request in Standby", refusal=16)
node(ASLEEP, request(99), "16 before 12", refusal=16)
node(AWAKE, request(99), "ReqId not in the plan: not heard", refusal=12)
node(AWAKE, request(17), "another's row: heard, nothing sent", heard=1)
node(AWAKE, request(18), "a master's row: heard, nothing sent", heard=1)
node(AWAKE, request(16), "its own row: heard and sent", sent(0, 0, 0), heard=1, count16=1)
node(dict(AWAKE, permits=1, wake=1, count16=2), request(16), "sent with permission, wake bit and count", sent(1, 1, 2), heard=1, wake=0, count16=3)
node(dict(AWAKE, count16=3), request(16), "the count goes from 3 to 0", sent(0, 0, 3), heard=1, count16=0)
node(dict(AWAKE, delay=1, quiet=2), request(17), "a row without a count counts too", sent(0, 0, 0), me=1, heard=1, count17=1)
node(ASLEEP, ask(17), "ask to send in Sleep", refusal=16, me=1)
node(CALLED, ask(17), "ask to send in Standby", refusal=16, me=1)
node(ASLEEP, ask(16), "16 before 21", refusal=16)
node(AWAKE, ask(99), "ask to send of a ReqId not in the plan", refusal=12, me=1)
node(AWAKE, ask(16), "ask to send another's row", refusal=12, me=1)
node(AWAKE, ask(18), "ask to send a master's row", refusal=12, me=1)
node(AWAKE, ask(17), "12 before 21", refusal=12)
node(AWAKE, ask(16), "polled, not heard", refusal=21)
node(dict(AWAKE, heard=1, wake=1, count16=1), ask(16), "polled, heard", sent(0, 1, 1), wake=0, count16=2)
node(dict(AWAKE, permits=1, count17=3), ask(17), "event-triggered, not heard", sent(1, 0, 3), me=1, count17=0)

# Variable rows (R1.5): a node sends as ever, and counts for each
node(dict(AWAKE, permits=1, wake=1, count16=2), request(16), VARIABLE + "its own row: heard and sent", sent(1, 1, 2), plan=7, heard=1, wake=0,
     count16=3)
node(dict(AWAKE, count17=3), ask(17), VARIABLE + "without a count counts too", sent(0, 0, 3), plan=7, me=1, count17=0)
node(AWAKE, ask(16), VARIABLE + "another's row", refusal=12, plan=7, me=1)
node(AWAKE, DARK, "kind 4", refusal=7, plan=8)
node(AWAKE, DARK, "kind 4: 7 before 11", refusal=7, plan=8, me=2)

# Panels that never sleep (R4.7, R4.11, R4.12): the error at E without sleeping, a wake bit and a permission that are only set
SHOWS = dict(AWAKE, error=1, quiet=4)
MIXED = dict(error=1, heard=1, quiet=3, count16=2, count17=3)
node(dict(SHOWS, wake=1, heard=1, count16=2), CLOCK, NEVER + "clock: error off, quiet 0", plan=5, error=0, quiet=0)
node(dict(AWAKE, quiet=2, permits=1), DARK, NEVER + "one short of E", plan=5, quiet=3)
node(dict(AWAKE, quiet=3, permits=1, wake=1, heard=1, count17=2), DARK, NEVER + "at E error on, permitted, no Sleep", plan=5, quiet=4, error=1)
node(dict(AWAKE, quiet=3), DARK, NEVER + "at E error on, not permitted", plan=5, quiet=4, error=1)
node(dict(SHOWS, permits=1), DARK, NEVER + "quiet not above E, permitted, no Sleep", plan=5)
node(dict(AWAKE, quiet=4, permits=1), DARK, NEVER + "error on again where quiet stood at E", plan=5, error=1)
node(dict(AWAKE, permits=1, **MIXED), HEARD, NEVER + "pulse: nothing", plan=5)
node(AWAKE, OWN_WAKE, NEVER + "own ask: wake bit only", plan=5, wake=1)
node(SHOWS, OWN_WAKE, NEVER + "own ask while the error shows: wake bit only", plan=5, wake=1)
node(dict(AWAKE, permits=1, **MIXED), OWN_WAKE, NEVER + "the same permitted, all else stays", plan=5, wake=1)
node(dict(SHOWS, wake=1), OWN_WAKE, NEVER + "own ask, the wake bit 1 before", plan=5)
node(dict(AWAKE, quiet=2), permit(1), NEVER + "yes", plan=5, permits=1)
node(dict(SHOWS, wake=1, count16=1), permit(1), NEVER + "yes while the error shows: only set", plan=5, permits=1)
node(dict(SHOWS, permits=1), permit(1), NEVER + "yes after a yes while the error shows", plan=5)
node(dict(SHOWS, permits=1), permit(0), NEVER + "no while the error shows", plan=5, permits=0)
node(dict(AWAKE, permits=1, wake=1, count16=3), request(16), NEVER + "its own row: sent", sent(1, 1, 3), plan=5, heard=1, wake=0, count16=0)
node(SHOWS, request(17), NEVER + "another's row: heard", plan=5, heard=1)
node(AWAKE, request(99), NEVER + "ReqId not in the plan", refusal=12, plan=5)
node(AWAKE, ask(16), NEVER + "polled, not heard", refusal=21, plan=5)
node(dict(SHOWS, heard=1, wake=1), ask(16), NEVER + "polled, heard", sent(0, 1, 0), plan=5, wake=0, count16=1)
node(AWAKE, ask(16), NEVER + "another's row", refusal=12, plan=5, me=1)
node(dict(AWAKE, count17=1), ask(17), NEVER + "event-triggered, not heard", sent(0, 0, 1), plan=5, me=1, count17=2)
# 25: a sleep message
node(AWAKE, MESSAGE, NEVER + "sleep message", refusal=25, plan=5)
node(dict(AWAKE, permits=1, wake=1, **MIXED), MESSAGE, NEVER + "sleep message while the error shows", refusal=25, plan=5, me=1)
# 11: a state not Normal, a sleep delay
for other, name in [(ASLEEP, "Sleep"), (CALLED, "Standby"), (CALLER, "Standby as caller"), (dict(AWAKE, delay=0), "sleep delay 0"),
                    (dict(AWAKE, delay=2), "sleep delay 2"), (dict(SHOWS, delay=1), "sleep delay while the error shows")]:
    for event, what in [(CLOCK, "clock"), (DARK, "no clock"), (HEARD, "pulse"), (OWN_WAKE, "own ask"), (permit(1), "yes"),
                        (MESSAGE, "11 before 25"), (request(16), "request"), (request(128), "11 before 15"), (ask(16), "ask to send")]:
        node(other, event, NEVER + name + ", " + what, refusal=11, plan=5)
node(dict(AWAKE, quiet=5), MESSAGE, NEVER + "quiet above E, 11 before 25", refusal=11, plan=5)
node(AWAKE, MESSAGE, NEVER + "node number N, 11 before 25", refusal=11, plan=5, me=2)
node(AWAKE, ask(128), NEVER + "ask to send ReqId 128", refusal=15, plan=5)
node(AWAKE, MESSAGE, "profile 2: 3 before 25", refusal=3, plan=6)
node(ASLEEP, DARK, "profile 2: 3 before 11", refusal=3, plan=6)

# Plan 3 to 8, then 11, 15, 16
node(AWAKE, DARK, "revision 0", refusal=4, plan=2)
node(AWAKE, DARK, "4 before 11", refusal=4, plan=2, me=2)
node(AWAKE, DARK, "node number N", refusal=11, me=2)
node(AWAKE, DARK, "node number 255", refusal=11, me=255)
node(AWAKE, DARK, "node number N of one node", refusal=11, plan=3, me=1)
node(dict(AWAKE, quiet=5), DARK, "quiet above E", refusal=11)
node(dict(ASLEEP, quiet=5), DARK, "quiet above E in Sleep", refusal=11)
node(dict(AWAKE, delay=3), DARK, "delay S", refusal=11)
node(dict(CALLER, standby=11), DARK, "standby count above 2R", refusal=11)
node(dict(CALLED, standby=6), DARK, "standby count P, not caller", refusal=11)
node(dict(AWAKE, caller=1), DARK, "caller in Normal", refusal=11)
node(dict(ASLEEP, caller=1), DARK, "caller in Sleep", refusal=11)
node(dict(AWAKE, standby=1), DARK, "standby count in Normal", refusal=11)
node(dict(ASLEEP, standby=1), DARK, "standby count in Sleep", refusal=11)
node(dict(AWAKE, count17=4), DARK, "sequence count 4", refusal=11)
node(dict(AWAKE, quiet=5), request(128), "11 before 15", refusal=11)
node(AWAKE, request(128), "request of ReqId 128", refusal=15)
node(AWAKE, ask(128), "ask to send ReqId 128", refusal=15)
node(ASLEEP, request(255), "15 before 16", refusal=15)

os.makedirs("crates/test_machines/data", exist_ok=True)
for number, plan in SETS.items():
    with open("crates/test_machines/data/%d.set" % number, "wb") as f:
        f.write(plan_set(**plan))
for name, lines in [("stdin", stdin), ("stdout", stdout)]:
    with open("crates/test_machines/" + name, "w") as f:
        f.write("\n".join(lines) + "\n")
