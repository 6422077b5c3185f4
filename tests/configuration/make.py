#!/usr/bin/env python3
"""Writes requests to a node, W-202, and what must be printed of each: crates/test_node_configuration/args and stdout.

Run at the repository's root. The node is of supplier 0123, function 4567 and variant 89, its serial number is 01020304, all hex. Each case
gives the answer buffer's length and the request and, by hand from W-202 and ISO 14229-8's tables, what comes of it. Nothing here calls the
product or works a rule out; what a case leaves out stays, the blank address 00 and the buffer's bytes AA."""

args, printed = [], []
address = "00"


def case(room, request, came, new=None):
    """came: the bytes of an answer, "silence" or a refusal's number; new: the address after it."""
    global address
    address = new or address
    answer = came.split() if came[:3] in ("62 ", "6E ") else []
    buffer = answer + (room - len(answer)) * ["AA"]
    said = "answer " + came if answer else came if came == "silence" else "refused " + came
    args.append("%s%02X" % (request.replace(" ", ""), room))
    printed.append(" ".join(["request"] + request.split()) + ": %s, address %s, " % (said, address) + " ".join(["buffer"] + buffer))


ASSIGNED = "6E FF 07"
PRODUCT = "62 FF 05 01 23 45 67 89"
SERIAL = "62 F1 8C 01 02 03 04"

# Addresses 1 to 125.
case(3, "2E FF 07 01 23 45 67 41", ASSIGNED, "41")
case(3, "2E FF 07 01 23 45 67 01", ASSIGNED, "01")
case(3, "2E FF 07 01 23 45 67 7D", ASSIGNED, "7D")
# Addresses outside.
case(3, "2E FF 07 01 23 45 67 00", "silence")
case(3, "2E FF 07 01 23 45 67 7E", "silence")
case(3, "2E FF 07 01 23 45 67 7F", "silence")
case(3, "2E FF 07 01 23 45 67 80", "silence")
case(3, "2E FF 07 01 23 45 67 FF", "silence")
# Supplier or function differs, by their lower or their higher byte.
case(3, "2E FF 07 01 22 45 67 41", "silence")
case(3, "2E FF 07 01 23 45 66 41", "silence")
case(3, "2E FF 07 00 23 45 67 41", "silence")
case(3, "2E FF 07 01 23 44 67 41", "silence")
# ISO's wildcards differ like any other value.
case(3, "2E FF 07 7F FF FF FF 41", "silence")
case(3, "2E FF 07 7F FF 45 67 41", "silence")
case(3, "2E FF 07 01 23 FF FF 41", "silence")
# Silence needs no room, an answer does; what lies past it stays.
case(0, "2E FF 07 01 22 45 67 41", "silence")
case(2, "2E FF 07 01 23 45 67 41", "10")
case(0, "2E FF 07 01 23 45 67 41", "10")
case(16, "2E FF 07 01 23 45 67 42", ASSIGNED, "42")
# The reads.
case(8, "22 FF 05", PRODUCT)
case(7, "22 FF 05", "10")
case(16, "22 FF 05", PRODUCT)
case(7, "22 F1 8C", SERIAL)
case(6, "22 F1 8C", "10")
case(16, "22 F1 8C", SERIAL)
# Lengths, before services and identifiers.
case(8, "", "23")
case(0, "", "23")
case(8, "2E FF 07", "23")
case(8, "2E FF 03 00", "23")
case(8, "2E", "23")
case(8, "2E FF 07 01 23 45 67", "23")
case(8, "2E FF 07 01 23 45 67 41 43", "23")
case(0, "22", "23")
case(8, "22 FF", "23")
case(8, "22 FF 05 F1 8C", "23")
# Other identifiers of Table A.1, and others.
case(8, "2E FF 05 01 23 45 67 41", "24")
case(8, "2E F1 8C 01 23 45 67 41", "24")
case(8, "2E FF 02 01 23 45 67 41", "24")
case(8, "2E FF 03 01 23 45 67 41", "24")
case(8, "2E FF 06 01 23 45 67 41", "24")
case(8, "2E 07 FF 01 23 45 67 41", "24")
case(8, "22 FF 07", "24")
case(8, "22 FF 04", "24")
case(8, "22 F1 90", "24")
case(8, "22 F1 8B", "24")
case(8, "22 F2 8C", "24")
# Other services.
case(8, "10 03", "24")
case(8, "3E", "24")
case(8, "6E FF 07 01 23 45 67 41", "24")
case(8, "7F 22 12", "24")
case(0, "FF", "24")
# The lengths 0 to 4,096 of these bytes with zeros behind them.
printed.append("lengths 0 to 4096 of 2E FF 07 01 23 45 67 41: 1 taken, 4096 refused 23, 0 refused 24")
printed.append("lengths 0 to 4096 of 22 FF 05: 1 taken, 4096 refused 23, 0 refused 24")
printed.append("lengths 0 to 4096 of 10: 0 taken, 1 refused 23, 4096 refused 24")

with open("crates/test_node_configuration/args", "w") as file:
    file.write("".join(case + "\n" for case in args))
with open("crates/test_node_configuration/stdout", "w") as file:
    file.write("".join(line + "\n" for line in printed))
