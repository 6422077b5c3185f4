"""Runs programs that replay recorded moves on lists worked out by hand from the documents of docs/SOURCES.md, and compares lines and frames.

Usage: check_replay.py REPLAY STATES
"""
import os
import subprocess
import sys
import tempfile

ALL, NONE = 0xFFFF, 0
MASTER = 255
FRAME, NODES_AT, NODE = 2491, 203, 143


def move(act, node=0, value=0, fate=0, reached=ALL, hearing=ALL, master=1, result=0, length=0, count=0, permission=0, wake=0):
    numbers = [(act, 1), (node, 1), (value, 1), (fate, 1), (reached, 2), (hearing, 2), (master, 1), (result, 2), (length, 2)]
    numbers += [(count, 1), (permission, 1), (wake, 1)]
    return b"".join(number.to_bytes(size, "big") for number, size in numbers)


def block(values):
    data = bytearray(512)
    for offset, value in values:
        data[offset:offset + len(value)] = value
    check = sum((offset + 1) * byte for offset, byte in enumerate(data[:510])) % 65521
    data[510:] = check.to_bytes(2, "big")
    return bytes(data)


def plan_set(times, methods, rows, profile=0):
    """A set of revision 7: the times W, D, S, E, R, P, C, each node's method, each row's ReqId and publisher, and where it is not of two
    bytes with a sequence count its length and kind; profile 1 never sleeps."""
    head = b"".join(time.to_bytes(2, "big") for time in times)
    entries = b"".join(bytes([0x41 + node, 1, method, 0]) for node, method in enumerate(methods))
    listed = b"".join(bytes(row if len(row) == 4 else [*row, 2, 1]) for row in rows)
    first = block([(0, bytes([0x50, 1, 0, 7, len(methods), profile])), (6, head), (32, entries)])
    return first + block([(0, bytes([0x4D, 1, 0, 7, len(rows)])), (8, listed)])


SET_T = plan_set([10, 2, 3, 4, 5, 6, 1], [1], [(16, 0)])
# Three polled nodes with a row each, and a row of the master.
THREE = plan_set([3, 2, 2, 1, 2, 3, 1], [1, 1, 1], [(1, 0), (2, 1), (3, 2), (4, MASTER)])
# Two nodes and R 1: a caller's second pulse comes with its first tick.
QUICK = plan_set([3, 2, 2, 1, 1, 3, 1], [0, 0], [(1, 0), (2, 1)])
# Two nodes with a variable row each, with a sequence count and without one, and a fixed one.
DIAL = plan_set([3, 2, 2, 1, 1, 3, 1], [0, 0], [(1, 0, 2, 3), (2, 1, 3, 2), (3, 0, 2, 0), (4, 1, 2, 1)])
# The three nodes of panels that never sleep.
TRUCK = plan_set([3, 2, 2, 1, 2, 3, 1], [1, 1, 1], [(1, 0), (2, 1), (3, 2), (4, MASTER)], profile=1)

TICK, SLEEP_ASK, SENT = move(0), move(7), move(8, value=1)
WAKE_MASTER, PERMIT_MASTER, FORBID_MASTER = move(2), move(4, value=1), move(4, value=0)
# The three nodes are awake, permit and have answered; ten moves.
ASKED = [WAKE_MASTER, TICK, TICK] + [move(3, node=node, value=1) for node in range(3)] + [PERMIT_MASTER]
ASKED += [move(5, value=reqid) for reqid in (1, 2, 3)]
ASKED_LINES = ["S0 0 ZZZ 0", "N0 1 SSS 0"] + 8 * ["N0 1 NNN 0"]
# The same of the two.
ASKED_TWO = [WAKE_MASTER, TICK, TICK, move(3, node=0, value=1), move(3, node=1, value=1), PERMIT_MASTER, move(5, value=1), move(5, value=2)]
ASKED_TWO_LINES = ["S0 0 ZZ 0", "N0 1 SS 0"] + 6 * ["N0 1 NN 0"]

CASES = [
    ("no moves", SET_T, [], []),
    ("the drill's twelve moves", SET_T,
     [move(1), TICK, move(3, value=1), PERMIT_MASTER, move(5, value=16), SLEEP_ASK, move(5, value=16), SLEEP_ASK, SENT, TICK, TICK, TICK],
     ["S0 0 S 0", "N0 1 N 0", "N0 1 N 0", "N0 1 N 0", "N0 1 N 0", "N0 1 N 20", "N0 1 N 0", "N1 1 N 0", "N3 1 N 0", "N3 1 N 0", "Z0 0 N 0",
      "Z0 0 Z 0"]),
    ("records that are no moves", SET_T,
     [move(9), move(255), move(0, fate=3), move(0, master=2), move(0, permission=2), move(0, wake=255), move(3, value=2), move(4, value=2),
      move(8, value=255), move(3, node=1, value=2), move(5, value=128, fate=3), WAKE_MASTER, WAKE_MASTER[:15]],
     11 * ["?"] + ["S0 0 Z 0", "?"]),
    ("a piece of one byte", SET_T, [WAKE_MASTER[:1]], ["?"]),
    ("bytes that an act does not need", SET_T,
     [move(0, node=255, value=255, fate=1, result=0, count=255), move(2, node=16, value=2, fate=1, count=4),
      move(4, node=1, value=1, fate=1, count=9), move(7, node=255, value=255, fate=1), move(0, node=1, value=200)],
     ["Z0 0 Z 0", "S0 0 Z 0", "S0 0 Z 0", "S0 0 Z 16", "N0 1 S 0"]),
    ("order of refusals without clock", SET_T,
     [move(6, node=1, value=200), move(6, node=255, value=16), move(6, value=128), move(5, value=255), move(5, value=16, fate=1),
      move(5, value=16, fate=1, result=1, count=4), move(5, value=16, fate=1, result=1, count=3), move(5, value=16, count=255),
      move(5, value=16, fate=2, count=4), move(5, value=0), move(6, value=17), move(1, node=1), move(3, node=16, value=1), SLEEP_ASK, SENT,
      move(6, node=1, value=16, fate=1), move(6, value=16, fate=1, result=256, count=4)],
     ["Z0 0 Z %d" % refusal for refusal in (11, 11, 15, 15, 15, 15, 16, 16, 16, 16, 16, 11, 11, 16, 16, 11, 15)]),
    ("order of refusals with clock", SET_T,
     [WAKE_MASTER, TICK, move(5, value=16), move(6, value=16), move(5, value=16, reached=NONE), TICK, move(6, value=16), move(5, value=0),
      move(6, value=17), move(5, value=16, reached=0xFFFE), move(6, value=16), move(5, value=16, fate=1, result=256), move(6, value=16),
      move(5, value=17, fate=1, result=0), move(5, value=16, fate=1, result=1, count=4, reached=NONE), SENT, SLEEP_ASK,
      move(5, value=16, fate=2)],
     ["S0 0 Z 0", "N0 1 S 0", "N0 1 S 16", "N0 1 S 16", "N0 1 S 0"] +
     ["N0 1 N %d" % refusal for refusal in (0, 21, 12, 12, 0, 21, 13, 0, 15, 15, 17, 19, 0)]),
    ("two callers", THREE,
     [move(1, node=0, hearing=4, master=0), move(1, node=1, master=0), TICK, move(0, hearing=NONE, master=0), TICK, TICK,
      move(3, node=0, value=1), move(1, node=0, hearing=NONE), TICK],
     ["Z0 0 SZS 0", "Z0 0 SSS 0", "Z0 0 SSS 0", "Z0 0 SSS 0", "Z0 0 SSZ 0", "Z0 0 S!S!Z 0", "Z0 0 ZS!Z 0", "S0 0 SS!Z 0", "N0 1 NNS 0"]),
    ("second pulse of two callers", THREE,
     [move(1, node=0, hearing=NONE, master=0), move(1, node=1, hearing=NONE, master=0), TICK, move(0, hearing=4), TICK],
     ["Z0 0 SZZ 0", "Z0 0 SSZ 0", "Z0 0 SSZ 0", "S0 0 SSS 0", "N0 1 NNN 0"]),
    ("second pulse heard in part", THREE,
     [move(1, node=0, hearing=NONE, master=0), TICK, move(0, hearing=2), TICK],
     ["Z0 0 SZZ 0", "Z0 0 SZZ 0", "S0 0 SSZ 0", "N0 1 NNS 0"]),
    ("a sleep message for one node", THREE,
     ASKED + [SLEEP_ASK, move(3, node=0, value=0), move(8, value=1, reached=2), TICK, TICK, move(3, node=0, value=1)],
     ASKED_LINES + ["N1 1 NNN 0", "N1 1 NNN 0", "N3 1 NNN 0", "N3 1 NNN 0", "Z0 0 N!ZZ 0", "Z0 0 ZZZ 0"]),
    ("an ask to wake before the error shows, and one while it does", SET_T,
     [move(1), TICK, move(3, value=1), PERMIT_MASTER, move(5, value=16), move(5, value=16), SLEEP_ASK, move(8, value=1, reached=NONE),
      move(3, value=0), TICK, TICK, TICK, move(1), TICK, TICK, move(1), TICK, move(3, value=1), move(5, value=16), SLEEP_ASK,
      move(5, value=16), SLEEP_ASK],
     ["S0 0 S 0"] + 5 * ["N0 1 N 0"] + ["N1 1 N 0", "N3 1 N 0", "N3 1 N 0", "N3 1 N 0"] + 4 * ["Z0 0 N 0"] +
     ["Z0 0 N! 0", "S0 0 S 0"] + 3 * ["N0 1 N 0"] + ["N0 1 N 20", "N0 1 N 0", "N1 1 N 0"]),
    ("the same heard by its second pulse alone", SET_T,
     [move(1), TICK, move(3, value=1), PERMIT_MASTER, move(5, value=16), move(5, value=16), SLEEP_ASK, move(8, value=1, reached=NONE),
      move(3, value=0)] + 5 * [TICK] + [move(1, master=0)] + 6 * [TICK],
     ["S0 0 S 0"] + 5 * ["N0 1 N 0"] + ["N1 1 N 0", "N3 1 N 0", "N3 1 N 0", "N3 1 N 0"] + 3 * ["Z0 0 N 0"] +
     ["Z0 0 N! 0"] + 5 * ["Z0 0 S 0"] + ["S0 0 S 0", "N0 1 N 0"]),
    ("a caller that gave up", SET_T,
     [move(1, master=0)] + 10 * [move(0, master=0)] + [move(1), TICK, move(3, value=1), move(1)],
     10 * ["Z0 0 S 0"] + 3 * ["Z0 0 S! 0"] + ["Z0 0 Z 0", "S0 0 S 0"]),
    ("a failed sleep message that reaches a node", THREE,
     ASKED + [SLEEP_ASK, move(8, value=0, reached=1), TICK, TICK, TICK],
     ASKED_LINES + ["N1 1 NNN 0", "N0 1 NNN 0", "N0 1 NNN 0", "N0 1 ZNN 0", "N0 1 SNN 0"]),
    ("a sleep message after a call-back", THREE,
     ASKED + [SLEEP_ASK, FORBID_MASTER, SENT, TICK, TICK],
     ASKED_LINES + ["N1 1 NNN 0", "N2 1 NNN 0", "N0 1 NNN 0", "N0 1 NNN 0", "N0 1 ZZZ 0"]),
    ("a refused result", THREE,
     ASKED + [SENT, TICK, TICK],
     ASKED_LINES + ["N0 1 NNN 17", "N0 1 NNN 0", "N0 1 NNN 0"]),
    ("who hears a request", THREE,
     [WAKE_MASTER, TICK, TICK, move(5, value=4, reached=2), move(6, node=1, value=2), move(6, node=0, value=1), move(5, value=1, reached=4),
      move(6, node=0, value=1), move(6, node=2, value=3), move(6, node=0, value=2), move(6, node=1, value=4)],
     ["S0 0 ZZZ 0", "N0 1 SSS 0"] + ["N0 1 NNN %d" % refusal for refusal in (0, 0, 0, 21, 0, 21, 0, 12, 12)]),
    ("answers while a sleep message is under way", THREE,
     ASKED + [SLEEP_ASK, move(5, value=1, fate=2), move(5, value=1), move(6, node=0, value=1, fate=1, result=1, permission=1), SENT,
              SLEEP_ASK, move(5, value=1), SLEEP_ASK, SENT, move(5, value=2, fate=1, result=65535, length=2, permission=1), TICK],
     ASKED_LINES + ["N1 1 NNN 0", "N1 1 NNN 0", "N1 1 NNN 0", "N2 1 NNN 13", "N0 1 NNN 0", "N0 1 NNN 20", "N0 1 NNN 0", "N1 1 NNN 0",
                    "N3 1 NNN 0", "N0 1 NNN 13", "N0 1 NNN 0"]),
    ("a second pulse in the tick that stops the clock", QUICK,
     ASKED_TWO + [SLEEP_ASK, SENT, FORBID_MASTER, PERMIT_MASTER, TICK, SLEEP_ASK, move(8, value=1, reached=NONE), TICK,
                  move(1, hearing=NONE, master=0), TICK],
     ASKED_TWO_LINES + ["N1 1 NN 0", "N3 1 NN 0", "N0 1 NN 0", "N0 1 NN 0", "N0 1 NN 0", "N1 1 NN 0", "N3 1 NN 0", "N3 1 ZZ 0", "N3 1 SZ 0",
                        "S0 0 SS 0"]),
    ("whole answers in any length", DIAL,
     ASKED_TWO + [SLEEP_ASK] + [move(5, value=reqid, length=length) for reqid in (1, 2, 3, 4) for length in (0, 1, 2, 3, 4, 255, 258, 65535)] +
     [move(6, node=1, value=2, length=0), move(5, value=2, fate=2, length=1), move(5, value=2, fate=1, result=1, length=1, permission=1), SENT,
      SLEEP_ASK, move(6, node=1, value=2, length=1), SLEEP_ASK],
     ASKED_TWO_LINES + ["N1 1 NN 0"] * 35 + ["N2 1 NN 13", "N0 1 NN 0", "N0 1 NN 20", "N0 1 NN 0", "N1 1 NN 0"]),
    ("panels that never sleep", TRUCK,
     [SLEEP_ASK, SENT, move(8, value=0), move(6, node=0, value=1), move(6, node=1, value=1), move(5, value=4)] + 12 * [TICK] +
     [move(3, node=node, value=1) for node in range(3)] + [PERMIT_MASTER] + [move(5, value=reqid) for reqid in (1, 2, 3)] +
     [SLEEP_ASK, SENT, FORBID_MASTER, SLEEP_ASK, move(1, node=2), WAKE_MASTER, move(5, value=3), move(5, value=1, fate=1, result=1),
      move(1, node=3), move(6, node=0, value=2), move(5, value=9), move(5, value=128), SLEEP_ASK] + 9 * [TICK],
     ["N0 1 NNN %d" % refusal for refusal in [25, 17, 17, 21, 12, 0] + 12 * [0] + 3 * [0] + [0] + 3 * [0] +
      [25, 17, 0, 25, 0, 0, 0, 13, 11, 12, 12, 15, 25] + 9 * [0]]),
]

FOLDER = object()  # in the place of a set's bytes: plan.set can't be read
REFUSED_SETS = [("missing set", None, "set 1"), ("set that can't be read", FOLDER, "set 1"), ("short set", SET_T[:512], "set 1"),
                ("long set", SET_T + bytes(1024), "set 1"), ("set with a byte too many", SET_T + b"\0", "set 1"),
                ("third block of zeros", SET_T + bytes(512), "set 3"), ("wrong check", SET_T[:1023] + b"\0", "set 2"),
                ("row of kind 4", plan_set([3, 2, 2, 1, 1, 3, 1], [0], [(1, 0, 2, 4)]), "set 7")]


def run(program, data, moves):
    """What the program writes in a folder that holds the set, or none."""
    with tempfile.TemporaryDirectory() as folder:
        path = os.path.join(folder, "plan.set")
        if data is FOLDER:
            os.mkdir(path)
        elif data is not None:
            with open(path, "wb") as file:
                file.write(data)
        return subprocess.run([program], cwd=folder, input=moves, stdout=subprocess.PIPE, check=True).stdout


def lines_of(frames, nodes):
    """The lines that frames tell."""
    lines = []
    for at in range(0, len(frames), FRAME):
        frame = frames[at:at + FRAME]
        letters = ""
        for node in range(nodes):
            state = frame[NODES_AT + NODE * node:]
            letters += "NSZ"[state[0]] + "!" * state[2]
        told = f"{'NSZ'[frame[2]]}{frame[3]} {int(frame[2] == 0)} {letters} {frame[1]}"
        lines.append(told if frame[0] == 0 else "?")
    return lines


def main():
    replay, states = (os.path.abspath(program) for program in sys.argv[1:])
    wrong = []
    for name, data, moves, lines in CASES:
        moves = b"".join(moves)
        wanted = "".join(f"{number} {line}\n" for number, line in enumerate(lines, 1))
        if run(replay, data, moves) != wanted.encode():
            wrong.append(f"{name}, lines:\n{run(replay, data, moves).decode()}")
        frames = run(states, data, moves)
        if len(frames) != FRAME * len(lines) or lines_of(frames, data[4]) != lines:
            wrong.append(f"{name}, frames:\n{lines_of(frames, data[4])}")
    for name, data, line in REFUSED_SETS:
        if run(replay, data, TICK) != line.encode() + b"\n" or run(states, data, TICK) != b"":
            wrong.append(name)
    if wrong:
        sys.exit("\n".join(wrong))
    print(f"{len(CASES)} lists of moves and {len(REFUSED_SETS)} refused sets as worked out by hand")


if __name__ == "__main__":
    main()
