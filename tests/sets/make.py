#!/usr/bin/env python3
"""Makes the sets that the programs are tested on, and what must be printed of each, from the documents of docs/SOURCES.md alone.

Run at the repository's root. It writes crates/test_sets/data/*.set, crates/test_sets/args, crates/test_sets/stdout,
crates/show/data/plan.set, crates/show/stdout and examples/set-t/plan.set. The numbers and words below are the documents'; nothing
here calls the product."""
import os
import sys

sys.dont_write_bytecode = True
from layout import check, mended, plan_set

TIMES = ["W window", "D clock stop", "S node sleep", "E quiet limit", "R wake-up recovery", "P wake-up space", "C clock start"]
KINDS = ["%d, without sequence count", "%d, with sequence count", "up to %d, without sequence count", "up to %d, with sequence count"]
RULES = {
    1: "the length is not 1,024 or 1,536 bytes",
    2: "a block's check differs",
    3: "byte 0 or 1 of a block or the profile is wrong",
    4: "the revision is 0, or blocks differ in it",
    5: "a time breaks its rule",
    6: "the number of nodes or a node entry breaks its rule",
    7: "a row count or a row breaks its rule",
    8: "a node publishes nothing",
    9: "filler is not zero",
}


def words(revision, times, nodes, rows, profile=0):
    lines = ["revision %d" % revision]
    lines += ["profile: the ignition cuts the power, no sleep"] * profile
    lines += ["%s, ticks: %d" % pair for pair in zip(TIMES, times)]
    for i, (address, diagnostic, method) in enumerate(nodes):
        lines.append("node %d: address %02X hex, diagnostic class %d, %s" % (i, address, diagnostic, ["event-triggered", "polled"][method]))
    for reqid, publisher, length, kind in rows:
        who = "master" if publisher == 255 else "node %d" % publisher
        lines.append("ReqId %d: publisher %s, length " % (reqid, who) + KINDS[kind] % length)
    return "".join(line + "\n" for line in lines)


def refused(number):
    return "set %d\n%s\n" % (number, RULES[number])


def put(data, *changes):
    """The bytes with some changed: (offset, byte) pairs."""
    data = bytearray(data)
    for offset, byte in changes:
        data[offset] = byte
    return bytes(data)


T = dict(revision=7, times=[10, 2, 3, 4, 5, 6, 1], nodes=[(0x41, 1, 1)], rows=[(16, 0, 2, 1)])
# Sixteen nodes and 127 rows: two message blocks, every edge value that is right.
FULL = dict(
    revision=65535,
    times=[30000, 1, 1, 30000, 1, 30000, 30000],
    nodes=[(125 - i, 1 + i % 3, i % 2) for i in range(16)],
    rows=[(i + 1, 255 if i % 17 == 16 else i % 17, 255 - i, i % 4) for i in range(127)],
)
HUNDRED = dict(T, rows=[(i + 1, 255 if i else 0, i, i % 2) for i in range(100)])
ONE_MORE = dict(T, rows=[(i + 1, 255 if i else 0, i, i % 2) for i in range(101)])
TWO = dict(T, nodes=[(0x41, 1, 1), (0x42, 3, 0)], rows=[(16, 0, 2, 1), (127, 1, 0, 0)])
# Rows of all four kinds, each of the lengths 0, 1 and 255.
KINDS_AND_LENGTHS = dict(T, rows=[(1 + i, 0 if i % 3 else 255, [0, 1, 255][i // 4], i % 4) for i in range(12)])

set_t, full, two = plan_set(**T), plan_set(**FULL), plan_set(**TWO)
one_more = plan_set(**ONE_MORE)
assert check(set_t[:512]) == 0x0AA9 and check(set_t[512:]) == 0x0122

cases = [
    # accepted
    ("t", set_t, words(**T)),
    ("full", full, words(**FULL)),
    ("hundred_rows", plan_set(**HUNDRED), words(**HUNDRED)),
    ("one_row_more", one_more, words(**ONE_MORE)),
    ("sleep_equals_stop", mended(put(set_t, (11, 2))), words(**dict(T, times=[10, 2, 2, 4, 5, 6, 1]))),
    ("kind_0", mended(put(set_t, (523, 0))), words(**dict(T, rows=[(16, 0, 2, 0)]))),
    ("kind_2", mended(put(set_t, (523, 2))), words(**dict(T, rows=[(16, 0, 2, 2)]))),
    ("kind_3", mended(put(set_t, (523, 3))), words(**dict(T, rows=[(16, 0, 2, 3)]))),
    ("kinds", plan_set(**KINDS_AND_LENGTHS), words(**KINDS_AND_LENGTHS)),
    ("profile_kinds", plan_set(**KINDS_AND_LENGTHS, profile=1), words(**KINDS_AND_LENGTHS, profile=1)),
    ("profile", plan_set(**T, profile=1), words(**T, profile=1)),
    ("profile_full", plan_set(**FULL, profile=1), words(**FULL, profile=1)),
    # 1
    ("empty", b"", refused(1)),
    ("one_block", set_t[:512], refused(1)),
    ("short_by_one", set_t[:1023], refused(1)),
    ("long_by_one", full + b"\0", refused(1)),
    # 2, also before 3
    ("check_of_plan", put(set_t, (511, 0xAA)), refused(2)),
    ("check_of_rows", put(set_t, (1022, 2)), refused(2)),
    ("check_of_second_rows", put(full, (1535, full[1535] ^ 1)), refused(2)),
    ("byte_509", put(set_t, (509, 1)), refused(2)),
    ("type_and_check", put(set_t, (0, 0x4D)), refused(2)),
    ("profile_and_check", put(set_t, (5, 1)), refused(2)),
    ("profile_2_and_check", put(set_t, (5, 2)), refused(2)),
    # 3, also before 4
    ("type_of_plan", mended(put(set_t, (0, 0x4D))), refused(3)),
    ("version_of_rows", mended(put(set_t, (513, 2), (515, 8))), refused(3)),
    ("third_block_of_zeros", set_t + bytes(512), refused(3)),
    ("profile_2", mended(put(set_t, (5, 2))), refused(3)),
    ("profile_255", mended(put(set_t, (5, 255))), refused(3)),
    ("profile_2_revision_zero", mended(put(set_t, (5, 2), (3, 0), (515, 0))), refused(3)),
    # 4, also before 5
    ("other_revision", mended(put(set_t, (515, 8))), refused(4)),
    ("other_revision_second", mended(put(full, (1026, 0))), refused(4)),
    ("revision_zero", mended(put(set_t, (3, 0), (515, 0), (7, 0))), refused(4)),
    ("profile_revision_zero", mended(put(set_t, (5, 1), (3, 0), (515, 0))), refused(4)),
    # 5, also before 6
    ("sleep_below_stop", mended(put(set_t, (11, 1))), refused(5)),
    ("time_zero", mended(put(set_t, (19, 0), (4, 0))), refused(5)),
    ("time_30001", mended(put(set_t, (6, 0x75), (7, 0x31))), refused(5)),
    # 6, also before 7
    ("no_node", mended(put(set_t, (4, 0))), refused(6)),
    ("nodes_17", mended(put(full, (4, 17))), refused(6)),
    ("address_zero", mended(put(set_t, (32, 0))), refused(6)),
    ("address_126", mended(put(set_t, (32, 126))), refused(6)),
    ("same_address", mended(put(two, (36, 0x41))), refused(6)),
    ("class_4", mended(put(set_t, (33, 4), (516, 0))), refused(6)),
    ("method_2", mended(put(set_t, (34, 2))), refused(6)),
    ("fourth_byte_1", mended(put(set_t, (35, 1))), refused(6)),
    # 7, also before 8
    ("no_row", mended(put(set_t, (516, 0))), refused(7)),
    ("rows_101", mended(put(set_t, (516, 101))), refused(7)),
    ("first_of_two_99", mended(put(one_more, (516, 99))), refused(7)),
    ("rows_28_more", mended(put(full, (1028, 28))), refused(7)),
    ("reqid_zero", mended(put(set_t, (520, 0))), refused(7)),
    ("reqid_128", mended(put(set_t, (520, 128))), refused(7)),
    ("same_reqid", mended(put(two, (524, 16))), refused(7)),
    ("falling_over_blocks", mended(put(one_more, (1032, 100))), refused(7)),
    ("publisher_n", mended(put(set_t, (521, 1))), refused(7)),
    ("kind_4", mended(put(set_t, (523, 4))), refused(7)),
    ("kind_255", mended(put(set_t, (523, 255))), refused(7)),
    ("kind_4_of_last_row", mended(put(two, (527, 4))), refused(7)),
    ("kind_4_of_master", mended(put(two, (516, 3), (524, 126), (526, 0), (528, 127), (529, 255), (531, 4))), refused(7)),
    ("kind_4_of_second_rows", mended(put(full, (1035, 4))), refused(7)),
    ("kind_4_and_silent", mended(put(two, (525, 0), (527, 4))), refused(7)),
    # 8, also before 9
    ("node_publishes_nothing", mended(put(two, (525, 0), (20, 1))), refused(8)),
    # 9
    ("filler_20", mended(put(set_t, (20, 1))), refused(9)),
    ("filler_31", mended(put(set_t, (31, 1))), refused(9)),
    ("filler_after_nodes", mended(put(set_t, (36, 1))), refused(9)),
    ("filler_509", mended(put(set_t, (509, 1))), refused(9)),
    ("profile_and_filler", mended(put(set_t, (5, 1), (20, 1))), refused(9)),
    ("filler_of_rows_5", mended(put(set_t, (517, 1))), refused(9)),
    ("filler_of_rows_7", mended(put(set_t, (519, 1))), refused(9)),
    ("filler_after_rows", mended(put(set_t, (524, 1))), refused(9)),
    ("filler_1021", mended(put(set_t, (1021, 1))), refused(9)),
    ("filler_of_second_rows", mended(put(full, (1140, 1))), refused(9)),
]


def printed(name, data, text):
    """What the test program prints of a set: the record of a refused one is all zero, so that writing it is refused by 4."""
    if text.startswith("set "):
        number, written = int(text.split()[1]), "write 4 0 untouched\nwrite 4 0 untouched\n"
    else:
        number, written = 0, "write 0 %d same\nwrite 10 0 untouched\n" % len(data)
    return "%s.set %d\n%s%s" % (name, number, text, written)


def store(path, data):
    os.makedirs(os.path.dirname(path), exist_ok=True)
    with open(path, "wb") as file:
        file.write(data)


for name, data, _ in cases:
    store("crates/test_sets/data/%s.set" % name, data)
store("crates/test_sets/args", "".join("%s.set\n" % name for name, _, _ in cases).encode())
store("crates/test_sets/stdout", "".join(printed(*case) for case in cases).encode())
store("crates/show/data/plan.set", set_t)
store("crates/show/stdout", words(**T).encode())
store("examples/set-t/plan.set", set_t)
