"""A move's record of 16 bytes, by the table in crates/bus_moves/src/lib.rt. Its length is a damaged answer's, and a whole answer's of a variable
row, where one above the row's is the row's."""

ALL, NONE = 0xFFFF, 0
WHOLE, DAMAGED, LOST = 0, 1, 2


def move(act, node=0, value=0, fate=WHOLE, reached=ALL, hearing=ALL, master=1, result=0, length=0, count=0, permission=0, wake=0):
    numbers = [(act, 1), (node, 1), (value, 1), (fate, 1), (reached, 2), (hearing, 2), (master, 1), (result, 2), (length, 2)]
    numbers += [(count, 1), (permission, 1), (wake, 1)]
    return b"".join(n.to_bytes(size, "big") for n, size in numbers)


TICK, SLEEP_ASK, SENT, FAILED = move(0), move(7), move(8, value=1), move(8, value=0)
