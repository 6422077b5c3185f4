#!/usr/bin/env python3
"""Writes recorded moves and what must be written of them: data/plan.set, stdin and stdout of crates/replay and crates/test_states.

Run at the repository's root. Beside each record stands what it prints, or the fields that it changes, by hand from the
documents of docs/SOURCES.md. Nothing here calls the product or works a rule out."""
import os
import sys

sys.dont_write_bytecode = True
sys.path[:0] = ["tests/sets", "tests/moves"]
from layout import plan_set
from records import DAMAGED, LOST, NONE, SENT, SLEEP_ASK, TICK, move

POLLED, EVENT = 1, 0
BAD = "?"


def write(crate, name, data):
    path = "crates/%s/%s" % (crate, name)
    os.makedirs(os.path.dirname(path), exist_ok=True)
    with open(path, "wb") as file:
        file.write(data)


# Lines: set T with two variable rows (W-207), 20 of length 3 and 21 of length 2 with a sequence count

request, permits = move(5, value=16), move(3, value=1)
off, unheard = move(0, master=0), move(8, value=1, reached=NONE)
unread = move(0, node=255, value=255, result=65535, length=65535, count=255)
# the sleep message is lost to the node, whose user is back at work; the clock stops and the quiet limit passes
missed = [
    (SLEEP_ASK, "N1 1 N 0"),
    (unheard, "N3 1 N 0"),
    (move(3, value=0), "N3 1 N 0"),
    (TICK, "N3 1 N 0"),
    (TICK, "Z0 0 N 0"),
    (TICK, "Z0 0 N 0"),
    (TICK, "Z0 0 N 0"),
    (TICK, "Z0 0 N! 0"),
]
# the first answer has the wake bit, so that its permission is not held
answers = [
    (permits, "N0 1 N 0"),
    (request, "N0 1 N 0"),
    (SLEEP_ASK, "N0 1 N 20"),
    (request, "N0 1 N 0"),
]
lines = [
    # the drill of R6.7, nothing lost
    (move(1), "S0 0 S 0"),
    (TICK, "N0 1 N 0"),
    (permits, "N0 1 N 0"),
    (move(4, value=1), "N0 1 N 0"),
    (request, "N0 1 N 0"),
    (SLEEP_ASK, "N0 1 N 20"),
    (request, "N0 1 N 0"),
    (SLEEP_ASK, "N1 1 N 0"),
    (SENT, "N3 1 N 0"),
    (TICK, "N3 1 N 0"),
    (TICK, "Z0 0 N 0"),
    (TICK, "Z0 0 Z 0"),
    # node 0 calls and nobody hears; its second pulse, at the R-th tick, reaches the master
    (move(1, hearing=NONE, master=0), "Z0 0 S 0"),
    (off, "Z0 0 S 0"),
    (off, "Z0 0 S 0"),
    (off, "Z0 0 S 0"),
    (off, "Z0 0 S 0"),
    (TICK, "S0 0 S 0"),
    (TICK, "N0 1 N 0"),
    # a request that reaches every node but its publisher, which has then not been asked; an answer that is lost; the node's own sending
    (move(5, value=16, reached=0xFFFE), "N0 1 N 0"),
    (move(6, value=16), "N0 1 N 21"),
    (move(5, value=16, reached=0x0001, fate=LOST), "N0 1 N 0"),
    (move(6, value=16), "N0 1 N 0"),
    (SLEEP_ASK, "N1 1 N 0"),
    # a damaged answer calls back, whatever its bits; the sleep message reaches nobody
    (move(5, value=16, fate=DAMAGED, result=5, length=2, count=3, permission=1), "N2 1 N 13"),
    (unheard, "N0 1 N 0"),
    # moves that a bus does not make, and others that are refused
    (move(5, value=16, fate=DAMAGED, result=0), "N0 1 N 15"),
    (move(5, value=16, fate=DAMAGED, result=5, count=4), "N0 1 N 15"),
    (move(5, value=128), "N0 1 N 15"),
    (move(5, value=17), "N0 1 N 12"),
    (move(3, node=1, value=1), "N0 1 N 11"),
    (move(6, node=255, value=16), "N0 1 N 11"),
    # records that are no move: the act; the flags of the three acts that have one; what becomes of an answer; the other flags
    (move(9), BAD),
    (move(3, value=2), BAD),
    (move(4, value=2), BAD),
    (move(8, value=255), BAD),
    (move(0, fate=3), BAD),
    (move(0, master=2), BAD),
    (move(0, permission=2), BAD),
    (move(0, wake=255), BAD),
    (b"\xff" * 16, BAD),
    # a tick whose other bytes may be anything
    (unread, "N0 1 N 0"),
    # W-204: the switch is pressed, the master comes up
    (request, "N0 1 N 0"),
    *missed,
    (move(1), "S0 0 S 0"),
    (TICK, "N0 1 N 0"),
    *answers,
    # the same with the first pulse lost: the second, at the R-th tick, is needed
    *missed,
    (move(1, master=0), "Z0 0 S 0"),
    (TICK, "Z0 0 S 0"),
    (TICK, "Z0 0 S 0"),
    (TICK, "Z0 0 S 0"),
    (TICK, "Z0 0 S 0"),
    (TICK, "S0 0 S 0"),
    (TICK, "N0 1 N 0"),
    *answers,
    (SLEEP_ASK, "N1 1 N 0"),
    # whole answers while the sleep message is under way, which a wrong length would call back. A fixed row ignores the length ..
    *[(move(5, value=16, length=length), "N1 1 N 0") for length in (0, 1, 2, 3, 255, 258, 65535)],
    # .. and a variable one has it, or its own where it is above that
    *[(move(5, value=20, length=length), "N1 1 N 0") for length in (0, 1, 2, 3, 4, 255, 256, 259, 65535)],
    *[(move(6, value=21, length=length), "N1 1 N 0") for length in (0, 1, 2, 3, 255, 256, 258, 65535)],
    # lost, and damaged in a length that the row accepts
    (move(5, value=20, length=1, fate=LOST), "N1 1 N 0"),
    (move(5, value=20, length=1, fate=DAMAGED, result=1, permission=1), "N2 1 N 13"),
    (SENT, "N0 1 N 0"),
    # a shorter answer holds the permission again
    (SLEEP_ASK, "N0 1 N 20"),
    (move(6, value=20, length=0), "N0 1 N 0"),
    (SLEEP_ASK, "N1 1 N 0"),
    # a record that ends early
    (TICK[:7], BAD),
]
write("replay", "data/plan.set", plan_set(7, [10, 2, 3, 4, 5, 6, 1], [(0x41, 1, POLLED)], [(16, 0, 2, 1), (20, 0, 3, 2), (21, 0, 2, 3)]))
write("replay", "stdin", b"".join(data for data, _ in lines))
write("replay", "stdout", "".join("%d %s\n" % (k + 1, text) for k, (_, text) in enumerate(lines)).encode())

# Frames: three nodes, R 1; a fixed row of node 0 and a variable one of node 1 with sequence counts, a variable one of node 2 without. Every
# field of a machine by its place in docs/LAYOUTS.md; what a record does not change stays

NORMAL, STANDBY, SLEEP = 0, 1, 2
MOVE, NO_MOVE = 0, 1
MASTER = dict(state=SLEEP, phase=0, permission=0, delay=0, ticks=0)
NODE = dict(state=SLEEP, permission=0, error=0, wake=0, heard=0, caller=0, quiet=0, delay=0, delay_ticks=0, standby=0)
SIZES = dict(delay=2, ticks=4), dict(quiet=2, delay_ticks=2, standby=4)


def packed(machine, sizes):
    return b"".join(value.to_bytes(sizes.get(field, 1), "big") for field, value in machine.items())


def table(size, filler, places):
    data = bytearray([filler]) * size
    for place, value in places.items():
        data[place] = value
    return bytes(data)


def frame(kind, refusal, master, nodes, last={}, causes={}, counts={}):
    """Nothing is held. The master's last counts by ReqId, its causes by node; each node's own count by its ReqId, which is 16 more."""
    data = bytes([kind, refusal]) + packed(master, SIZES[0]) + bytes(48) + table(128, 4, last) + table(16, 0, causes)
    for number, node in enumerate(nodes + [NODE] * (16 - len(nodes))):
        data += packed(node, SIZES[1]) + table(128, 0, {16 + number: counts.get(16 + number, 0)})
    return data


caller = dict(NODE, state=STANDBY, wake=1, caller=1)
called = dict(caller, standby=1)
woken = dict(NODE, state=STANDBY)
woken_master = dict(MASTER, state=STANDBY, ticks=1)
awake_master, awake, wakes = dict(MASTER, state=NORMAL, ticks=2), dict(NODE, state=NORMAL), dict(NODE, state=NORMAL, wake=1)
asked, asked_wakes = dict(awake, heard=1), dict(wakes, heard=1)
REFUSED, WAKE = 1, 4
frames = [
    # nodes 0 and 1 call and nobody hears
    (move(1, node=0, hearing=NONE, master=0), frame(MOVE, 0, MASTER, [caller])),
    (move(1, node=1, hearing=NONE, master=0), frame(MOVE, 0, MASTER, [caller, caller])),
    # no clock, no request
    (move(5, value=16), frame(MOVE, 16, MASTER, [caller, caller])),
    # their second pulses, both in the R-th tick, wake node 2 and the master
    (TICK, frame(MOVE, 0, woken_master, [called, called, woken])),
    (move(9), frame(NO_MOVE, 0, woken_master, [called, called, woken])),
    # the clock comes; answers shorter than planned, as planned, and of lengths that are no answer's
    (TICK, frame(MOVE, 0, awake_master, [wakes, wakes, awake])),
    (move(5, value=18, length=1), frame(MOVE, 0, awake_master, [asked_wakes, asked_wakes, asked], causes={2: REFUSED}, counts={18: 1})),
    (move(6, node=1, value=17, length=0),
     frame(MOVE, 0, awake_master, [asked_wakes, asked, asked], last={17: 0}, causes={1: WAKE, 2: REFUSED}, counts={17: 1, 18: 1})),
    (move(6, node=1, value=17, length=3),
     frame(MOVE, 0, awake_master, [asked_wakes, asked, asked], last={17: 1}, causes={1: REFUSED, 2: REFUSED}, counts={17: 2, 18: 1})),
    (move(6, node=0, value=16, length=1),
     frame(MOVE, 0, awake_master, [asked] * 3, last={16: 0, 17: 1}, causes={0: WAKE, 1: REFUSED, 2: REFUSED}, counts={16: 1, 17: 2, 18: 1})),
    (move(6, node=2, value=18, length=65535),
     frame(MOVE, 0, awake_master, [asked] * 3, last={16: 0, 17: 1}, causes={0: WAKE, 1: REFUSED, 2: REFUSED}, counts={16: 1, 17: 2, 18: 2})),
    (TICK[:7],
     frame(NO_MOVE, 0, awake_master, [asked] * 3, last={16: 0, 17: 1}, causes={0: WAKE, 1: REFUSED, 2: REFUSED}, counts={16: 1, 17: 2, 18: 2})),
]
nodes, rows = [(0x41 + i, 1, EVENT) for i in range(3)], [(16, 0, 2, 1), (17, 1, 2, 3), (18, 2, 2, 2)]
write("test_states", "data/plan.set", plan_set(7, [10, 2, 3, 4, 1, 6, 1], nodes, rows))
write("test_states", "stdin", b"".join(data for data, _ in frames))
write("test_states", "stdout", b"".join(data for _, data in frames))
