"""A release set's bytes (R1.2 to R1.6), from the documents of docs/SOURCES.md."""


def check(block):
    return sum((offset + 1) * byte for offset, byte in enumerate(block[:510])) % 65521


def mended(data):
    """The bytes with each block's check put right."""
    data = bytearray(data)
    for start in range(0, len(data) - 511, 512):
        data[start + 510 : start + 512] = check(data[start : start + 512]).to_bytes(2, "big")
    return bytes(data)


def plan_set(revision, times, nodes, rows, profile=0):
    """A set's bytes. Nodes are (address, class, method); rows are (ReqId, publisher, length, kind): kind 0 fixed, 1 fixed with a
    sequence count, 2 variable, 3 variable with one."""
    plan = bytearray(512)
    plan[0:2] = b"\x50\x01"
    plan[2:4] = revision.to_bytes(2, "big")
    plan[4] = len(nodes)
    plan[5] = profile
    for i, ticks in enumerate(times):
        plan[6 + 2 * i : 8 + 2 * i] = ticks.to_bytes(2, "big")
    for i, node in enumerate(nodes):
        plan[32 + 4 * i : 35 + 4 * i] = bytes(node)
    data = bytes(plan)
    for part in [rows[:100]] + ([rows[100:]] if len(rows) > 100 else []):
        block = bytearray(512)
        block[0:2] = b"\x4d\x01"
        block[2:4] = revision.to_bytes(2, "big")
        block[4] = len(part)
        for i, row in enumerate(part):
            block[8 + 4 * i : 12 + 4 * i] = bytes(row)
        data += bytes(block)
    return mended(data)
