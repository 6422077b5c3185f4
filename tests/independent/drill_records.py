#!/usr/bin/env python3
"""Reads a drill's moves from standard input and writes them as recorded moves: messages reach all nodes, pulses reach everybody, and an
answer has its row's own length.

Run: python3 tests/independent/drill_records.py < moves > records
A program that replays the records must print what the drill prints of the moves. Lines that are no moves have no record and are refused."""
import sys

ALL, NONE = b"\xff\xff", b"\0\0"
ROWS_OWN = b"\xff\xff"  # a length above every row's
FATES = {"ok": 0, "bad": 1, "lost": 2}


def record(act, node=0, value=0, fate=0, reached=ALL):
    result = 1 if fate == FATES["bad"] else 0
    return bytes([act, node, value, fate]) + reached + ALL + bytes([1, 0, result]) + ROWS_OWN + bytes(3)


def record_of(line):
    match line.split(" "):
        case ["tick"]:
            return record(0)
        case ["wake", "m"]:
            return record(2)
        case ["wake", node]:
            return record(1, node=int(node))
        case ["permit", "m", yes]:
            return record(4, value=int(yes))
        case ["permit", node, yes]:
            return record(3, node=int(node), value=int(yes))
        case ["req", reqid, fate]:
            return record(5, value=int(reqid), fate=FATES[fate])
        case ["send", node, reqid, fate]:
            return record(6, node=int(node), value=int(reqid), fate=FATES[fate])
        case ["sleep"]:
            return record(7)
        case ["sent", "ok"]:
            return record(8, value=1)
        case ["sent", "fail"]:
            return record(8, reached=NONE)
    sys.exit("no move: " + line)


def main():
    for line in sys.stdin:
        sys.stdout.buffer.write(record_of(line.rstrip("\n")))


main()
