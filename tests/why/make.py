#!/usr/bin/env python3
"""Writes the cases of the program why (W-205 to W-207): sets and scripts in tests/why/data, tests/why/args and tests/why/stdout.

Run at the repository's root. Beside each move stands what it prints, by hand from the documents of docs/SOURCES.md; the
words after it in a case are those of the line why (R6.8). Nothing here calls the product."""
import sys

sys.dont_write_bytecode = True
sys.path[:0] = ["tests/drills", "tests/sets"]
from layout import mended, plan_set
from scripts import EVENT, MASTER, POLLED, Scripts

cases = Scripts("tests/why")
sets = cases.sets


def why(name, case, table, words, **more):
    cases.script(name, case, table, after="why %s\n" % words, **more)


# Times are W window, D clock stop, S node sleep, E quiet limit, R wake-up recovery, P wake-up space, C clock start.
ONE, TWO = [(16, 0, 2, 1)], [(16, 0, 2, 1), (17, 1, 2, 1)]
cases.release_set("t", [10, 2, 3, 4, 5, 6, 1], [POLLED], ONE)
cases.release_set("two", [10, 2, 3, 12, 5, 4, 1], [POLLED, EVENT], TWO)
# a window of two ticks; of one, which runs out while the clock is about to stop
cases.release_set("short-window", [2, 2, 3, 12, 5, 6, 1], [POLLED], ONE)
cases.release_set("long-stop", [1, 4, 4, 12, 5, 6, 1], [POLLED], ONE)
# windows of two and three ticks, where the nodes fall asleep at the third
cases.release_set("two-ticks", [2, 2, 3, 12, 5, 4, 1], [POLLED, EVENT], TWO)
cases.release_set("three-ticks", [3, 2, 3, 12, 5, 4, 1], [POLLED, EVENT], TWO)
# a clock start above R, so that a caller's second pulse comes before the clock
cases.release_set("late-clock", [10, 2, 3, 12, 2, 4, 4], [POLLED, EVENT], TWO)
SIXTEEN = [(16 + i, i, 2, 1) for i in range(16)] + [(127, MASTER, 0, 0)]
cases.release_set("sixteen", [10, 2, 3, 12, 5, 4, 1], [POLLED, EVENT] * 8, SIXTEEN)
# variable rows, with a sequence count and without one, the longest and one of no bytes
DIAL = [(16, 0, 2, 3), (17, 1, 255, 2), (18, 0, 0, 2)]
cases.release_set("dial", [2, 2, 3, 12, 5, 6, 1], [POLLED, EVENT], DIAL)
cases.release_set("truck-dial", [2, 2, 3, 12, 5, 6, 1], [POLLED, EVENT], DIAL, profile=1)
# panels that never sleep
cases.release_set("truck", [2, 2, 3, 4, 5, 6, 1], [POLLED], ONE, profile=1)
cases.release_set("truck-two", [10, 2, 3, 12, 5, 4, 1], [POLLED, EVENT], TWO, profile=1)
cases.release_set("truck-sixteen", [10, 2, 3, 12, 5, 4, 1], [POLLED, EVENT] * 8, SIXTEEN, profile=1)

# The drill of R6.7, after each of its moves
TWELVE = """
wake 0     | S0 0 S 0
tick       | N0 1 N 0
permit 0 1 | N0 1 N 0
permit m 1 | N0 1 N 0
req 16 ok  | N0 1 N 0
sleep      | N0 1 N 20
req 16 ok  | N0 1 N 0
sleep      | N1 1 N 0
sent ok    | N3 1 N 0
tick       | N3 1 N 0
tick       | Z0 0 N 0
tick       | Z0 0 Z 0
"""
AFTER_EACH = ["16", "own", "own", "0 new", "0 wake", "0 wake", "none", "sleep", "sleep", "sleep", "16", "16"]
for k, words in enumerate(AFTER_EACH):
    why("t", "document-01-%d" % (k + 1), "\n".join(TWELVE.strip().split("\n")[:k + 1]), words)

# No move at all; lines that are none; the last without its LF
cases.raw("t", "no-move", [], after="why 16\n")
cases.raw("t", "one-empty-line", [(b"", "?")], after="why 16\n")
cases.raw("t", "no-moves", [(b"why", "?"), (b"tick\r", "?")], after="why 16\n")
cases.raw("t", "wake-without-lf", [(b"wake m", "S0 0 Z 0")], last=b"", after="why 16\n")

# One node: up, then ready for the sleep ask
UP = """
wake m     | S0 0 Z 0
tick       | N0 1 S 0
tick       | N0 1 N 0
permit 0 1 | N0 1 N 0
permit m 1 | N0 1 N 0
"""
READY = UP + "req 16 ok | N0 1 N 0\n"
why("t", "standby", "wake m | S0 0 Z 0", "16")
why("t", "new", UP, "0 new")
why("t", "new-node-in-standby", UP.replace("tick       | N0 1 N 0\n", "").replace("1 N 0", "1 S 0"), "0 new")
why("t", "new-answer-lost", UP + "req 16 lost | N0 1 N 0", "0 new")
why("t", "ready", READY, "none")
why("t", "ready-without-lf", READY, "none", last=b"")
why("t", "ready-odd-lines", READY + "why | ?\nwake 1 | ?\nsent | ?", "none")
why("t", "own-before-node", UP + "permit m 0 | N0 1 N 0", "own")
why("t", "own", READY + "permit m 0 | N0 1 N 0", "own")
why("t", "own-and-back", READY + "permit m 0 | N0 1 N 0\npermit m 1 | N0 1 N 0", "none")

# Sleep under way: Sending and Closing; a failed result
SENDING = READY + "sleep | N1 1 N 0\n"
CLOSING = SENDING + "sent ok | N3 1 N 0\n"
why("t", "sending", SENDING, "sleep")
why("t", "sending-asked-again", SENDING + "sleep | N1 1 N 18", "sleep")
why("t", "sent-failed", SENDING + "sent fail | N0 1 N 0", "none")
why("t", "closing", CLOSING, "sleep")
why("t", "closing-one-tick", CLOSING + "tick | N3 1 N 0", "sleep")
why("t", "stopped", CLOSING + "tick | N3 1 N 0\ntick | Z0 0 N 0", "16")

# Owed: called back in Sending, whatever else holds, until the result
BACK = {
    "own": ("permit m 0 | N{} 1 N 0\n", "own"),
    "own-and-yes": ("permit m 0 | N{} 1 N 0\npermit m 1 | N{} 1 N 0\n", "none"),
    "refused": ("permit 0 0 | N{before} 1 N 0\nreq 16 ok | N{} 1 N 0\n", "0 refused"),
    "damaged": ("req 16 bad | N{} 1 N 13\n", "0 damaged"),
    "woken": ("wake m | N{} 1 N 0\n", "0 wake"),
    "carried": ("wake 0 | N{before} 1 N 0\nreq 16 ok | N{} 1 N 0\n", "0 wake"),
}
for case, (moves, words) in BACK.items():
    withdrawn = SENDING + moves.replace("{before}", "1").replace("{}", "2")
    why("t", "owed-" + case, withdrawn, "owed")
    why("t", "owed-%s-sent" % case, withdrawn + "sent ok | N0 1 N 0", words)
    why("t", "owed-%s-failed" % case, withdrawn + "sent fail | N0 1 N 0", words)
    why("t", "closing-" + case, CLOSING + moves.replace("{before}", "3").replace("{}", "0"), words)

# Sleep under way before a node: ageing out is no call-back
why("long-stop", "sending-aged", SENDING + "tick | N1 1 N 0\ntick | N1 1 N 0", "sleep")
why("long-stop", "sending-aged-failed", SENDING + "tick | N1 1 N 0\ntick | N1 1 N 0\nsent fail | N0 1 N 0", "0 aged")
AGED_IN_CLOSING = CLOSING + "tick | N3 1 N 0\ntick | N3 1 N 0\n"
why("long-stop", "closing-aged", AGED_IN_CLOSING, "sleep")
why("long-stop", "closing-aged-back", AGED_IN_CLOSING + "permit m 0 | N0 1 N 0\npermit m 1 | N0 1 N 0", "0 aged")

# Out of Normal and into it again: nothing is remembered but the own permission
STOPPED = AGED_IN_CLOSING + "tick | N3 1 N 0\ntick | Z0 0 Z 0\n"
why("long-stop", "aged-stopped", STOPPED, "16")
why("long-stop", "aged-standby", STOPPED + "wake m | S0 0 Z 0", "16")
why("long-stop", "aged-again", STOPPED + "wake m | S0 0 Z 0\ntick | N0 1 S 0", "0 new")
why("long-stop", "aged-again-own", STOPPED + "permit m 0 | Z0 0 Z 0\nwake m | S0 0 Z 0\ntick | N0 1 S 0", "own")
why("t", "held-again", TWELVE + "wake m | S0 0 Z 0\ntick | N0 1 S 0", "0 new")
why("t", "held-again-carried", TWELVE + "wake 0 | S0 0 S 0\ntick | N0 1 N 0\nreq 16 ok | N0 1 N 0", "0 wake")

# Each cause, and each after each other; carried: by the node's own answer, whatever its permission bit; woken: held, and then let go
CAUSES = {
    "refused": ("permit 0 0 | N0 1 N 0\nreq 16 ok | N0 1 N 0\n", "refused"),
    "aged": ("permit 0 1 | N0 1 N 0\nreq 16 ok | N0 1 N 0\n" + "tick | N0 1 N 0\n" * 3, "aged"),
    "damaged": ("permit 0 1 | N0 1 N 0\nreq 16 bad | N0 1 N 13\n", "damaged"),
    "carried": ("permit 0 1 | N0 1 N 0\nwake 0 | N0 1 N 0\nreq 16 ok | N0 1 N 0\n", "wake"),
    "carried-no": ("permit 0 0 | N0 1 N 0\nwake 0 | N0 1 N 0\nreq 16 ok | N0 1 N 0\n", "wake"),
    "woken": ("permit 0 1 | N0 1 N 0\nreq 16 ok | N0 1 N 0\nwake m | N0 1 N 0\n", "wake"),
}
# what touches no node that is not held
KEEPS = "req 16 lost | N0 1 N 0\nwake m | N0 1 N 0\nsleep | N0 1 N 20\nsent ok | N0 1 N 17\ntick | N0 1 N 0\npermit m 1 | N0 1 N 0\n"
why("short-window", "new-kept", UP + KEEPS, "0 new")
for first, (moves, word) in CAUSES.items():
    why("short-window", first, UP + moves, "0 " + word)
    why("short-window", first + "-kept", UP + moves + KEEPS, "0 " + word)
    why("short-window", first + "-held", UP + moves + "permit 0 1 | N0 1 N 0\nreq 16 ok | N0 1 N 0", "none")
    for then, (more, last_word) in CAUSES.items():
        why("short-window", "%s-then-%s" % (first, then), UP + moves + more, "0 " + last_word)
why("short-window", "damaged-with-wake-bit", UP + "wake 0 | N0 1 N 0\nreq 16 bad | N0 1 N 13", "0 damaged")
why("short-window", "damaged-with-wake-bit-held", UP + "wake 0 | N0 1 N 0\nreq 16 bad | N0 1 N 13\nreq 16 ok | N0 1 N 0", "none")
why("short-window", "wake-bit-not-sent", READY + "wake 0 | N0 1 N 0", "none")
why("short-window", "wake-bit-lost", READY + "wake 0 | N0 1 N 0\nreq 16 lost | N0 1 N 0", "none")

# The window's edge: held at age W, aged one tick later; a wake-up before that tick and after it
AT_EDGE = READY + "tick | N0 1 N 0\ntick | N0 1 N 0\n"
why("short-window", "edge", AT_EDGE, "none")
why("short-window", "edge-woken", AT_EDGE + "wake m | N0 1 N 0", "0 wake")
why("short-window", "edge-woken-tick", AT_EDGE + "wake m | N0 1 N 0\ntick | N0 1 N 0", "0 wake")
why("short-window", "edge-tick", AT_EDGE + "tick | N0 1 N 0", "0 aged")
why("short-window", "edge-tick-woken", AT_EDGE + "tick | N0 1 N 0\nwake m | N0 1 N 0", "0 aged")
why("short-window", "edge-new-answer", AT_EDGE + "req 16 ok | N0 1 N 0\ntick | N0 1 N 0", "none")

# Two nodes: the lowest not held, and what another's answer does to it
UP_TWO = """
wake m     | S0 0 ZZ 0
tick       | N0 1 SS 0
tick       | N0 1 NN 0
permit 0 1 | N0 1 NN 0
permit 1 1 | N0 1 NN 0
permit m 1 | N0 1 NN 0
"""
HELD_0, HELD_1 = "req 16 ok | N0 1 NN 0\n", "send 1 17 ok | N0 1 NN 0\n"
READY_TWO = UP_TWO + HELD_0 + HELD_1
why("two", "two-new", UP_TWO, "0 new")
why("two", "two-first-held", UP_TWO + HELD_0, "1 new")
why("two", "two-second-held", UP_TWO + HELD_1, "0 new")
why("two", "two-ready", READY_TWO, "none")
TWO_CAUSES = UP_TWO + "req 16 bad | N0 1 NN 13\npermit 1 0 | N0 1 NN 0\nsend 1 17 ok | N0 1 NN 0\n"
why("two", "two-causes", TWO_CAUSES, "0 damaged")
why("two", "two-causes-first-held", TWO_CAUSES + HELD_0, "1 refused")
CARRIED = "wake 1 | N0 1 NN 0\nreq 17 ok | N0 1 NN 0\n"
why("two", "two-carried", READY_TWO + CARRIED, "0 wake")
why("two", "two-carried-first-held", READY_TWO + CARRIED + HELD_0, "1 wake")
why("two", "two-carried-both-held", READY_TWO + CARRIED + HELD_0 + HELD_1, "none")
why("two", "two-carried-over-new", UP_TWO + CARRIED, "0 new")
why("two", "two-carried-over-new-held", UP_TWO + CARRIED + HELD_0, "1 wake")
REFUSED_0 = "permit 0 0 | N0 1 NN 0\nreq 16 ok | N0 1 NN 0\n"
why("two", "two-carried-over-refused", READY_TWO + REFUSED_0 + CARRIED, "0 refused")
why("two", "two-carried-over-refused-held", READY_TWO + REFUSED_0 + CARRIED + "permit 0 1 | N0 1 NN 0\n" + HELD_0, "1 wake")
why("two", "two-woken", READY_TWO + "wake m | N0 1 NN 0", "0 wake")
why("two", "two-woken-first-held", READY_TWO + "wake m | N0 1 NN 0\n" + HELD_0, "1 wake")
OVER_DAMAGED = READY_TWO + "req 17 bad | N0 1 NN 13\nwake m | N0 1 NN 0\n"
why("two", "two-woken-over-damaged", OVER_DAMAGED, "0 wake")
why("two", "two-woken-over-damaged-held", OVER_DAMAGED + HELD_0, "1 damaged")
SPOILED = READY_TWO + "wake 0 | N0 1 NN 0\nreq 16 bad | N0 1 NN 13\n"
why("two", "two-damaged-with-wake-bit", SPOILED, "0 damaged")
why("two", "two-damaged-with-wake-bit-held", SPOILED + HELD_0, "none")
# one ages out, the other a tick later is still held when the wake-up comes
AGES = UP_TWO + HELD_0 + "tick | N0 1 NN 0\n" + HELD_1 + "tick | N0 1 NN 0\ntick | N0 1 NN 0\n"
why("two-ticks", "two-ages", AGES, "0 aged")
why("two-ticks", "two-ages-first-held", AGES + HELD_0, "none")
why("two-ticks", "two-ages-woken", AGES + "wake m | N0 1 NN 0", "0 aged")
why("two-ticks", "two-ages-woken-first-held", AGES + "wake m | N0 1 NN 0\n" + HELD_0, "1 wake")

# A pulse in Normal comes from a node that fell asleep with the clock on. In the tick before it the window of two ticks ran out: the master
# ages its permissions first, so they are aged; one of three ticks had not, so they are dropped. (Nodes send no pulse in a tick with clock,
# so none reaches a master in Normal in a tick itself.)
ASLEEP = READY_TWO + """
sleep      | N1 1 NN 0
permit m 0 | N2 1 NN 0
sent ok    | N0 1 NN 0
permit m 1 | N0 1 NN 0
tick       | N0 1 NN 0
tick       | N0 1 NN 0
tick       | N0 1 ZZ 0
""".lstrip()
PULSE = "wake 1 | N0 1 SS 0\n"
AWAKE = "tick | N0 1 NN 0\n"
for name, before, after in [("two-ticks", "0 aged", "aged"), ("three-ticks", "none", "wake")]:
    why(name, name + "-asleep", ASLEEP, before)
    why(name, name + "-pulse", ASLEEP + PULSE, "0 " + after)
    why(name, name + "-pulse-awake", ASLEEP + PULSE + AWAKE, "0 " + after)
    why(name, name + "-pulse-first-held", ASLEEP + PULSE + AWAKE + HELD_0, "1 " + after)
    why(name, name + "-pulse-carried", ASLEEP + PULSE + AWAKE + HELD_0 + "req 17 ok | N0 1 NN 0", "0 wake")
# one tick later the window of three ticks has run out too
why("three-ticks", "three-ticks-next", ASLEEP + "tick | N0 1 SS 0\nwake 1 | N0 1 SS 0", "0 aged")
# pulses in a tick reach a master that is not in Normal
LATE = "wake 1 | S0 0 SS 0\ntick | S0 0 SS 0\n"
why("late-clock", "second-pulse", LATE + "tick | S0 0 SS 0", "16")
why("late-clock", "second-pulse-clock", LATE + "permit m 1 | S0 0 SS 0\ntick | S0 0 SS 0\ntick | S0 0 SS 0\ntick | N0 1 NN 0", "0 new")

# Sixteen nodes
N, S, Z = ("N" * 16, "S" * 16, "Z" * 16)
PERMITTED = "".join("permit %s 1 | N0 1 %s 0\n" % (who, N) for who in ["m", *range(16)])
UP_ALL = "wake m | S0 0 %s 0\ntick | N0 1 %s 0\ntick | N0 1 %s 0\n" % (Z, S, N) + PERMITTED


def held(nodes):
    return "".join("req %d ok | N0 1 %s 0\n" % (16 + node, N) for node in nodes)


READY_ALL = UP_ALL + held(reversed(range(16)))
why("sixteen", "all-new", UP_ALL, "0 new")
why("sixteen", "all-ready", READY_ALL, "none")
for node in range(16):
    damaged = "req %d bad | N0 1 %s 13\n" % (16 + node, N)
    why("sixteen", "new-from-%d" % node, UP_ALL + held(range(node)), "%d new" % node)
    why("sixteen", "damaged-%d" % node, READY_ALL + damaged, "%d damaged" % node)
WOKEN_ALL = READY_ALL + "wake m | N0 1 %s 0\n" % N
why("sixteen", "all-woken", WOKEN_ALL, "0 wake")
why("sixteen", "all-woken-but-15", WOKEN_ALL + held(range(15)), "15 wake")
why("sixteen", "all-woken-ready", WOKEN_ALL + held(range(16)), "none")
CARRIED_9 = READY_ALL + "req 28 bad | N0 1 %s 13\nwake 9 | N0 1 %s 0\nreq 25 ok | N0 1 %s 0\n" % (N, N, N)
why("sixteen", "carried-by-9", CARRIED_9, "0 wake")
why("sixteen", "carried-by-9-held-to-8", CARRIED_9 + held(range(9)), "9 wake")
why("sixteen", "carried-by-9-held-to-11", CARRIED_9 + held(range(12)), "12 damaged")
why("sixteen", "carried-by-9-held-to-12", CARRIED_9 + held(range(13)), "13 wake")
AGED_ALL = READY_ALL + ("tick | N0 1 %s 0\n" % N) * 11
why("sixteen", "all-aged", AGED_ALL, "0 aged")
why("sixteen", "all-aged-but-15", AGED_ALL + held(range(15)), "15 aged")
why("sixteen", "all-aged-woken", AGED_ALL + held([3]) + "wake m | N0 1 %s 0\n" % N + held(range(3)), "3 wake")
why("sixteen", "all-aged-woken-above", AGED_ALL + held([3]) + "wake m | N0 1 %s 0\n" % N + held(range(4)), "4 aged")

# W-206: of panels that never sleep the profile is the reason, before all others and from power-on on
cases.raw("truck", "truck-no-move", [], after="why profile\n")
cases.raw("truck", "truck-no-moves", [(b"", "?"), (b"why", "?")], last=b"", after="why profile\n")
MOVES = [line.split("|")[0].strip() for line in TWELVE.strip().split("\n")]
TRUCK_TWELVE = ["%s | N0 1 N %d" % line for line in zip(MOVES, [0, 0, 0, 0, 0, 25, 0, 25, 17, 0, 0, 0])]
for k in range(len(TRUCK_TWELVE)):
    why("truck", "truck-document-01-%d" % (k + 1), "\n".join(TRUCK_TWELVE[:k + 1]), "profile")
TRUCK_UP = "permit 0 1 | N0 1 N 0\npermit m 1 | N0 1 N 0\n"
TRUCK_READY = TRUCK_UP + "req 16 ok | N0 1 N 0\n"
why("truck", "truck-new", TRUCK_UP, "profile")
why("truck", "truck-ready", TRUCK_READY, "profile")
why("truck", "truck-own", TRUCK_READY + "permit m 0 | N0 1 N 0", "profile")
why("truck", "truck-asked", TRUCK_READY + "sleep | N0 1 N 25", "profile")
why("truck", "truck-sent", TRUCK_READY + "sleep | N0 1 N 25\nsent ok | N0 1 N 17", "profile")
for case, (moves, _) in CAUSES.items():
    why("truck", "truck-" + case, TRUCK_READY + moves, "profile")
why("truck-two", "truck-two-ready", """
permit 0 1   | N0 1 NN 0
permit 1 1   | N0 1 NN 0
permit m 1   | N0 1 NN 0
req 16 ok    | N0 1 NN 0
send 1 17 ok | N0 1 NN 0
""", "profile")
why("truck-two", "truck-two-damaged", "req 17 bad | N0 1 NN 13", "profile")
why("truck-sixteen", "truck-all-new", PERMITTED, "profile")
why("truck-sixteen", "truck-all-ready", PERMITTED + held(range(16)), "profile")

# W-207: an answer of a variable row is whole in its row's own length
READY_DIAL = UP_TWO + HELD_0 + HELD_1
why("dial", "dial-new", UP_TWO, "0 new")
why("dial", "dial-first-held", UP_TWO + HELD_0, "1 new")
why("dial", "dial-ready", READY_DIAL, "none")
why("dial", "dial-no-bytes", UP_TWO + "req 18 ok | N0 1 NN 0\n" + HELD_1, "none")
why("dial", "dial-damaged", READY_DIAL + "req 17 bad | N0 1 NN 13", "1 damaged")
why("dial", "dial-damaged-held", READY_DIAL + "req 17 bad | N0 1 NN 13\n" + HELD_1, "none")
why("dial", "dial-lost", READY_DIAL + "req 17 lost | N0 1 NN 0", "none")
why("dial", "dial-refused", READY_DIAL + "permit 0 0 | N0 1 NN 0\nreq 18 ok | N0 1 NN 0", "0 refused")
why("dial", "dial-aged", READY_DIAL + "tick | N0 1 NN 0\n" * 3 + HELD_0, "1 aged")
why("dial", "dial-carried", READY_DIAL + "wake 1 | N0 1 NN 0\nreq 17 ok | N0 1 NN 0\n" + HELD_0, "1 wake")
why("dial", "dial-sending", READY_DIAL + "sleep | N1 1 NN 0\nreq 17 ok | N1 1 NN 0\nreq 18 ok | N1 1 NN 0", "sleep")
why("dial", "dial-owed", READY_DIAL + "sleep | N1 1 NN 0\nreq 18 bad | N2 1 NN 13", "owed")
why("truck-dial", "truck-dial", "req 17 ok | N0 1 NN 0\nreq 18 bad | N0 1 NN 13", "profile")

# A refused set, and one that is missing: nothing but its number, no line why
TIMES, NODES = [10, 2, 3, 4, 5, 6, 1], [(0x41, 1, 1)]
sets["size"] = sets["t"][:1023]
sets["check"] = sets["t"][:511] + b"\0" + sets["t"][512:]
sets["block"] = mended(b"\x51" + sets["t"][1:])
sets["revision"] = plan_set(0, TIMES, NODES, ONE)
sets["time"] = plan_set(7, [0] + TIMES[1:], NODES, ONE)
sets["node"] = plan_set(7, TIMES, [(0x41, 4, 1)], ONE)
sets["row"] = plan_set(7, TIMES, NODES, [(16, 0, 2, 4)])
sets["silent"] = plan_set(7, TIMES, NODES + [(0x42, 1, 1)], ONE)
sets["filler"] = mended(sets["t"][:20] + b"\1" + sets["t"][21:])
sets["profile"] = mended(sets["t"][:5] + b"\2" + sets["t"][6:])
for refusal, name in enumerate(["size", "check", "block", "revision", "time", "node", "row", "silent", "filler"]):
    cases.refused(name, "document-01-12", refusal + 1)
cases.refused("profile", "document-01-12", 3)
cases.refused("missing", "document-01-12", 1)
cases.refused("missing", "no-move", 1)

cases.store()
