#!/usr/bin/env python3
"""Writes the lists of moves of crates/test_moves and what must be printed of each: data, args and stdout.

Run at the repository's root. A list is moves as bytes, 16 for each (crates/bus_moves/src/lib.rt has the table). What is printed is
worked out by hand from the documents of docs/SOURCES.md; nothing here calls the product or works a rule out.

The plan: two nodes, each with a row of length 2, ReqId 1 with a sequence count and 2 without one; W 3, D 2, S 2, E 1, R 2, P 3, C 1. Of each
list is printed what it comes to under the plan; in a line more under the same plan of panels that never sleep (W-206), where no machine leaves
Normal; and in a third under the same plan with variable rows (W-207), where it comes to the same: a whole answer has a length that its row
accepts, whatever bytes 11 and 12 say. No set can hold the refused plan of the last line: the program makes it of the first."""

import sys

sys.dont_write_bytecode = True
sys.path.insert(1, "tests/sets")
from layout import plan_set
from records import DAMAGED, FAILED, LOST, NONE, SENT, SLEEP_ASK, TICK, move

PLAN = dict(revision=1, times=[3, 2, 2, 1, 2, 3, 1], nodes=[(1, 1, 0), (2, 1, 0)], rows=[(1, 0, 2, 1), (2, 1, 2, 0)])
SETS = {"sleeps": PLAN, "never_sleeps": dict(PLAN, profile=1), "variable": dict(PLAN, rows=[(1, 0, 2, 3), (2, 1, 2, 2)])}
args, printed = [], []


def case(name, moves, refusal, machines):
    name += ".moves"
    with open("crates/test_moves/data/" + name, "wb") as file:
        file.write(b"".join(moves))
    args.append(name)
    printed.append("%s %d %s" % (name, refusal, machines))
    printed.append("%s %d %s" % (name, refusal, AWAKE_FOR_EVER))
    printed.append("%s %d %s" % (name, refusal, machines))


WAKE = move(1)
# All wake up and permit; the first answer of node 0 has the wake bit.
PERMITTED = [WAKE, TICK, move(3, node=0, value=1), move(3, node=1, value=1), move(4, value=1), move(5, value=1)]
# All answer; the sleep message is sent.
AWAKE = PERMITTED + [move(5, value=1), move(5, value=2), SLEEP_ASK]
# Node 0 calls and nobody hears; its second pulse, at the R-th tick, wakes node 1.
CALL, OFF = move(1, hearing=NONE, master=0), move(0, master=0)
ASLEEP, AWAKE_FOR_EVER = "Sleep Open Sleep Sleep", "Normal Open Normal Normal"

case("none", [], 0, ASLEEP)
case("sending", AWAKE, 0, "Normal Sending Normal Normal")
case("closing", AWAKE + [SENT, TICK], 0, "Normal Closing Normal Normal")
case("stopped", AWAKE + [SENT] + 2 * [TICK], 0, ASLEEP)
case("called_back", AWAKE + [move(5, value=1, fate=DAMAGED, result=5), SENT] + 2 * [TICK], 0, "Normal Open Sleep Sleep")
case("answer_lost", AWAKE + [SENT, TICK, move(5, value=1, fate=LOST), TICK], 0, ASLEEP)
case("settling_4", [CALL] + 4 * [OFF], 0, "Sleep Open Standby! Standby")
case("settling_5", [CALL] + 5 * [OFF], 0, "Sleep Open Standby! Sleep")
case("failed_3", AWAKE + [FAILED] + 3 * [TICK], 0, "Normal Open Standby Standby")
case("failed_4", AWAKE + [FAILED] + 4 * [TICK], 0, "Normal Open Normal Normal")
# A request that its publisher does not hear: no answer of node 0 is held.
case("publisher_not_reached", PERMITTED + [move(5, value=1, reached=0b10), move(5, value=2), SLEEP_ASK], 0, "Normal Open Normal Normal")
# A sleep message that node 1 does not hear. The node permits no more, finds the clock off and shows its error.
case("one_node_reached", AWAKE + [move(8, value=1, reached=0b01), move(3, node=1, value=0)] + 2 * [TICK], 0, "Sleep Open Sleep Normal!")
# Both nodes call, unheard; their second pulses, both in the R-th tick, reach each other and the master.
case("two_callers", [CALL, move(1, node=1, hearing=NONE, master=0), OFF, TICK], 0, "Standby Open Standby Standby")
# Whole answers with lengths in bytes 11 and 12: none, shorter, the row's, longer.
for length in [0, 1, 2, 3, 255, 258, 65535]:
    asked = [move(5, value=1, length=length), move(5, value=2, length=length), SLEEP_ASK]
    sent = [move(6, node=0, value=1, length=length), move(6, node=1, value=2, length=length)]
    case("length_%d" % length, PERMITTED + asked + sent, 0, "Normal Sending Normal Normal")
    # the wake bit counts in an answer of any length, and a refusal calls back
    case("length_%d_wakes" % length, AWAKE + [SENT, WAKE, move(5, value=1, length=length), TICK, TICK], 0, "Normal Open Sleep Sleep")
    case("length_%d_refuses" % length, AWAKE + [move(3, node=1, value=0), move(6, node=1, value=2, length=length)], 0,
         "Normal Withdrawn Normal Normal")
    # damaged or lost, an answer is so in any length
    case("length_%d_damaged" % length, AWAKE + [move(5, value=2, fate=DAMAGED, result=1, length=length, permission=1)], 0,
         "Normal Withdrawn Normal Normal")
    case("length_%d_lost" % length, PERMITTED + [move(5, value=1), move(5, value=2, fate=LOST, length=length), SLEEP_ASK], 0,
         "Normal Open Normal Normal")
# Moves that a bus does not make are refused as 15, and change nothing.
case("reqid_128", AWAKE + [move(5, value=128)], 0, "Normal Sending Normal Normal")
case("damaged_with_result_0", AWAKE + [move(5, value=1, fate=DAMAGED, result=0)], 0, "Normal Sending Normal Normal")
case("no_such_node", [move(1, node=2)], 0, ASLEEP)
case("half_a_move", [WAKE, TICK[:8]], 15, ASLEEP)
case("no_act_9", [WAKE, move(9)], 15, ASLEEP)
case("flag_2", [WAKE, move(4, value=2)], 15, ASLEEP)
case("fate_3", [WAKE, move(0, fate=3)], 15, ASLEEP)
printed.append("none.moves 4 " + ASLEEP)

for name, plan in SETS.items():
    with open("crates/test_moves/data/%s.set" % name, "wb") as file:
        file.write(plan_set(**plan))
with open("crates/test_moves/args", "w") as file:
    file.write("".join(name + "\n" for name in args))
with open("crates/test_moves/stdout", "w") as file:
    file.write("".join(line + "\n" for line in printed))
