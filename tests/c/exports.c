/* Tests each export on right and wrong input, by expectations written by hand from the documents of docs/SOURCES.md and
 * include/cxpi.h.
 *
 * Every buffer is lent between guard bytes. Each case says what the call returns and which bytes it changes; all others must stay.
 *
 * Compile, product:   gcc -std=c11 -O2 -Wall -Wextra -Werror -pedantic -Iinclude tests/c/exports.c libcxpi.a -o exports
 * Compile, reference: gcc -std=c11 -O2 -Wall -Wextra -Werror -pedantic -DCXPI_REFERENCE -Iinclude -Itests/independent tests/c/exports.c
 *                     tests/independent/reference_packed.c tests/independent/reference.c tests/independent/configuration.c -o exports
 * Run:                ./exports examples/set-t/plan.set */
#include <stdio.h>
#include <stdlib.h>

#include "lent.h"
#include "set_t.h"
#include "subject.h"

/* Counting */

static unsigned checks, failures, checks_of_group, failures_of_group;

static void check(bool right, const char *what) {
    checks_of_group++;
    if (!right) {
        failures_of_group++;
        printf("  wrong: %s\n", what);
    }
}

static void end_group(const char *name) {
    printf("%-28s %6u checks, %u wrong\n", name, checks_of_group, failures_of_group);
    checks += checks_of_group;
    failures += failures_of_group;
    checks_of_group = failures_of_group = 0;
}

/* Edits of bytes, by which cases are told */

typedef struct {
    size_t offset; /* END after the last */
    uint8_t value;
} edit;

#define END SIZE_MAX
#define EDITS(...) ((const edit[]){__VA_ARGS__, {END, 0}})
#define NONE ((const edit[]){{END, 0}})
#define BYTES(...) (const uint8_t[]){__VA_ARGS__}, sizeof((const uint8_t[]){__VA_ARGS__})

static void apply(const edit *edits, uint8_t *bytes) {
    for (; edits->offset != END; edits++) {
        bytes[edits->offset] = edits->value;
    }
}

/* Reading */

static lent lent_set, wanted_set, lent_plan, wanted_plan, lent_state, wanted_state, lent_event, wanted_event, lent_reply, wanted_reply;

/* Plan T of revision 6, with bytes in every unused place. */
static uint8_t old_plan[CXPI_PLAN_LENGTH];

static void make_old_plan(void) {
    memset(old_plan, 0xEE, sizeof old_plan);
    memcpy(old_plan, plan_t, 23);
    memcpy(old_plan + 83, plan_t + 83, 4);
    old_plan[1] = 6;
}

static void mend_checks(uint8_t *set, size_t length) {
    for (size_t block = 0; block + 512 <= length; block += 512) {
        unsigned long sum = 0;
        for (size_t offset = 0; offset < 510; offset++) {
            sum += (offset + 1) * set[block + offset];
        }
        set[block + 510] = (uint8_t)(sum % 65521 >> 8);
        set[block + 511] = (uint8_t)(sum % 65521);
    }
}

/* Reads into a plan buffer of that length, which holds the plan of before. Where the read is refused record is null: the buffer then
 * holds zeros, or what it held where it is too short. */
static void expect_read(const char *what, const uint8_t *set, size_t length, size_t room, uint32_t result, const uint8_t *record) {
    static const uint8_t zeros[CXPI_PLAN_LENGTH];
    lent_fill(&lent_set, set, length);
    lent_paint(&lent_plan, room);
    memcpy(lent_bytes(&lent_plan), old_plan, room < CXPI_PLAN_LENGTH ? room : CXPI_PLAN_LENGTH);
    wanted_set = lent_set;
    wanted_plan = lent_plan;
    if (room >= CXPI_PLAN_LENGTH) {
        memcpy(lent_bytes(&wanted_plan), record != NULL ? record : zeros, CXPI_PLAN_LENGTH);
    }
    check(cxpi_read(lent_bytes(&lent_set), length, lent_bytes(&lent_plan), room) == result, what);
    check(lent_same(&lent_set, &wanted_set) && lent_same(&lent_plan, &wanted_plan), what);
}

/* Reads set T with edits and its checks mended; a result of 0 comes with plan T with edits. */
static void expect_mended(const char *what, const edit *edits, uint32_t result, const edit *record_edits) {
    uint8_t set[CXPI_SET_LENGTH_ONE];
    uint8_t record[CXPI_PLAN_LENGTH];
    memcpy(set, set_t, sizeof set);
    memcpy(record, plan_t, sizeof record);
    apply(edits, set);
    apply(record_edits, record);
    mend_checks(set, sizeof set);
    expect_read(what, set, sizeof set, CXPI_PLAN_LENGTH, result, result == 0 ? record : NULL);
    expect_read(what, set, sizeof set, CXPI_PLAN_LENGTH + 40, result, result == 0 ? record : NULL);
}

static void expect_refused_set(const char *what, const edit *edits, uint32_t result) {
    expect_mended(what, edits, result, NONE);
}

static void test_read_lengths(void) {
    static uint8_t longer[LENT_ROOM];
    memcpy(longer, set_t, sizeof set_t);
    expect_read("edge 1: T reads", set_t, sizeof set_t, CXPI_PLAN_LENGTH, 0, plan_t);
    expect_read("T reads into a longer buffer", set_t, sizeof set_t, CXPI_PLAN_LENGTH + 40, 0, plan_t);
    expect_read("edge 3: 512 bytes", longer, 512, CXPI_PLAN_LENGTH, 1, NULL);
    for (size_t length = 0; length <= LENT_ROOM; length++) {
        if (length != 1024 && length != 1536) {
            expect_read("wrong length", longer, length, CXPI_PLAN_LENGTH, 1, NULL);
        }
    }
    expect_read("third block of zeros", longer, 1536, CXPI_PLAN_LENGTH, 3, NULL);
    for (size_t room = 0; room < CXPI_PLAN_LENGTH; room++) {
        expect_read("short plan buffer", set_t, sizeof set_t, room, 10, NULL);
        expect_read("short plan buffer, wrong length", longer, 1023, room, 1, NULL);
    }
    expect_read("wrong length, longer plan buffer", longer, 1023, CXPI_PLAN_LENGTH + 40, 1, NULL);
    end_group("read: lengths");
}

static void test_read_bytes(void) {
    uint8_t set[CXPI_SET_LENGTH_ONE];
    for (size_t offset = 0; offset < sizeof set; offset++) {
        memcpy(set, set_t, sizeof set);
        set[offset]++;
        expect_read("a changed byte, check not mended", set, sizeof set, CXPI_PLAN_LENGTH, 2, NULL);
        set[offset] ^= 0x80;
        expect_read("a changed byte, check not mended", set, sizeof set, 0, 2, NULL);
    }
    for (size_t offset = 0; offset < sizeof set; offset++) {
        size_t in_block = offset % 512;
        bool filler = offset < 512 ? (in_block >= 20 && in_block < 32) || (in_block >= 36 && in_block < 510)
                                   : (in_block >= 5 && in_block < 8) || (in_block >= 12 && in_block < 510);
        if (filler) {
            expect_refused_set("filler 1", EDITS({offset, 1}), 9);
            expect_refused_set("filler 255", EDITS({offset, 255}), 9);
        }
    }
    end_group("read: checks and filler");
}

static void test_read_plan_block(void) {
    expect_refused_set("plan block's byte 0", EDITS({0, 0x4D}), 3);
    expect_refused_set("plan block's byte 1", EDITS({1, 0}), 3);
    expect_refused_set("message block's byte 0", EDITS({512, 0x50}), 3);
    expect_refused_set("message block's byte 1", EDITS({513, 2}), 3);
    expect_refused_set("profile 2", EDITS({5, 2}), 3);
    expect_refused_set("profile 255", EDITS({5, 255}), 3);
    expect_mended("profile 1", EDITS({5, 1}), 0, EDITS({CXPI_PLAN_PROFILE_AT, 1}));
    expect_refused_set("revision 0", EDITS({3, 0}, {515, 0}), 4);
    expect_refused_set("edge 2: block 1 of revision 8", EDITS({515, 8}), 4);
    expect_refused_set("block 1 of revision 263", EDITS({514, 1}), 4);
    expect_refused_set("block 1 of revision 0", EDITS({515, 0}), 4);
    expect_mended("revision 65,535", EDITS({2, 255}, {3, 255}, {514, 255}, {515, 255}), 0, EDITS({0, 255}, {1, 255}));
    for (size_t time = 0; time < 7; time++) {
        size_t at = 6 + 2 * time;
        bool of_its_own = time != 1 && time != 2;
        expect_refused_set("time 0", EDITS({at + 1, 0}), 5);
        expect_refused_set("time 30,001", EDITS({at, 0x75}, {at + 1, 0x31}), 5);
        expect_refused_set("time 65,535", EDITS({at, 0xff}, {at + 1, 0xff}), 5);
        if (of_its_own) {
            expect_mended("time 30,000", EDITS({at, 0x75}, {at + 1, 0x30}), 0, EDITS({at - 1, 0x75}, {at, 0x30}));
            expect_mended("time 1", EDITS({at + 1, 1}), 0, EDITS({at, 1}));
        }
    }
    expect_mended("S 30,000", EDITS({10, 0x75}, {11, 0x30}), 0, EDITS({9, 0x75}, {10, 0x30}));
    expect_mended("edge 4: S 2, D 2", EDITS({11, 2}), 0, EDITS({10, 2}));
    expect_refused_set("edge 5: S 1, D 2", EDITS({11, 1}), 5);
    expect_refused_set("S 3, D 256", EDITS({8, 1}, {9, 0}), 5);
    end_group("read: heads and times");
}

static void test_read_nodes(void) {
    expect_refused_set("no node", EDITS({4, 0}), 6);
    expect_refused_set("17 nodes", EDITS({4, 17}), 6);
    expect_refused_set("255 nodes", EDITS({4, 255}), 6);
    expect_refused_set("address 0", EDITS({32, 0}), 6);
    expect_refused_set("address 126", EDITS({32, 126}), 6);
    expect_refused_set("class 0", EDITS({33, 0}), 6);
    expect_refused_set("class 4", EDITS({33, 4}), 6);
    expect_refused_set("method 2", EDITS({34, 2}), 6);
    expect_refused_set("fourth byte of an entry", EDITS({35, 1}), 6);
    expect_refused_set("second node of zeros", EDITS({4, 2}), 6);
    expect_refused_set("the same address twice", EDITS({4, 2}, {36, 0x41}, {37, 1}, {516, 2}, {524, 17}, {525, 1}), 6);
    expect_mended("two nodes", EDITS({4, 2}, {36, 125}, {37, 3}, {516, 2}, {524, 127}, {525, 1}, {526, 255}), 0,
                  EDITS({2, 2}, {23, 125}, {24, 3}, {4, 2}, {87, 127}, {88, 1}, {89, 255}));
    expect_mended("address 1, class 2, method 0", EDITS({32, 1}, {33, 2}, {34, 0}), 0, EDITS({19, 1}, {20, 2}, {21, 0}));
    expect_refused_set("a node that publishes nothing", EDITS({4, 2}, {36, 125}, {37, 3}), 8);
    end_group("read: nodes");
}

static void test_read_rows(void) {
    expect_refused_set("no row", EDITS({516, 0}), 7);
    expect_refused_set("101 rows", EDITS({516, 101}), 7);
    expect_refused_set("255 rows", EDITS({516, 255}), 7);
    expect_refused_set("ReqId 0", EDITS({520, 0}), 7);
    expect_refused_set("ReqId 128", EDITS({520, 128}), 7);
    expect_refused_set("publisher N", EDITS({521, 1}), 7);
    expect_refused_set("publisher 254", EDITS({521, 254}), 7);
    for (unsigned kind = 0; kind <= 3; kind++) {
        expect_mended("a row of that kind", EDITS({523, (uint8_t)kind}), 0, EDITS({86, (uint8_t)kind}));
    }
    for (unsigned kind = 4; kind <= 255; kind++) {
        expect_refused_set("kind above 3", EDITS({523, (uint8_t)kind}), 7);
    }
    expect_refused_set("second row of zeros", EDITS({516, 2}), 7);
    expect_refused_set("the same ReqId twice", EDITS({516, 2}, {524, 16}), 7);
    expect_refused_set("a falling ReqId", EDITS({516, 2}, {524, 15}), 7);
    expect_mended("ReqId 1, length 255, no count", EDITS({520, 1}, {522, 255}, {523, 0}), 0, EDITS({83, 1}, {85, 255}, {86, 0}));
    expect_mended("a master's row", EDITS({516, 2}, {524, 31}, {525, 255}), 0, EDITS({4, 2}, {87, 31}, {88, 255}));
    expect_refused_set("only the master's row", EDITS({521, 255}), 8);
    end_group("read: rows");
}

static void test_read_order(void) {
    uint8_t set[CXPI_SET_LENGTH_ONE];
    memcpy(set, set_t, sizeof set);
    apply(EDITS({0, 0}, {1023, 0}), set);
    expect_read("2 in the last block before 3 in the first", set, sizeof set, 0, 2, NULL);
    expect_refused_set("3 in the last block before 4", EDITS({3, 0}, {513, 0}), 3);
    expect_refused_set("3 of the profile before 4", EDITS({5, 2}, {3, 0}, {515, 0}), 3);
    expect_refused_set("4 before 5", EDITS({515, 8}, {7, 0}), 4);
    expect_refused_set("5 before 6", EDITS({19, 0}, {4, 0}), 5);
    expect_refused_set("6 before 7", EDITS({35, 1}, {516, 0}), 6);
    expect_refused_set("7 before 8", EDITS({521, 255}, {522, 0}, {523, 4}), 7);
    expect_refused_set("8 before 9", EDITS({521, 255}, {20, 1}), 8);
    memcpy(set, set_t, sizeof set);
    apply(EDITS({20, 1}), set);
    mend_checks(set, sizeof set);
    expect_read("9 before 10", set, sizeof set, 0, 9, NULL);
    end_group("read: order");
}

/* Writing */

/* Writes into a set buffer of that length. Where the write is refused no set is written, and its length is 0. */
static void expect_write(const char *what, const uint8_t *plan, size_t length, size_t room, uint32_t result, const uint8_t *set,
                         uint16_t set_length) {
    uint16_t lengths[3] = {0xA5A5, 0xA5A5, 0xA5A5};
    lent_fill(&lent_plan, plan, length);
    lent_paint(&lent_set, room);
    wanted_plan = lent_plan;
    wanted_set = lent_set;
    memcpy(lent_bytes(&wanted_set), set, set_length);
    check(cxpi_write(lent_bytes(&lent_plan), length, lent_bytes(&lent_set), room, &lengths[1]) == result, what);
    check(lengths[1] == set_length && lengths[0] == 0xA5A5 && lengths[2] == 0xA5A5, what);
    check(lent_same(&lent_plan, &wanted_plan) && lent_same(&lent_set, &wanted_set), what);
}

static void expect_written(const char *what, const uint8_t *plan, size_t room, const uint8_t *set, uint16_t set_length) {
    expect_write(what, plan, CXPI_PLAN_LENGTH, room, 0, set, set_length);
}

static void expect_refused_plan(const char *what, const uint8_t *plan, size_t length, size_t room, uint32_t result) {
    expect_write(what, plan, length, room, result, set_t, 0);
}

static void test_write_lengths(void) {
    uint8_t filled[CXPI_PLAN_LENGTH];
    static uint8_t longer[LENT_ROOM];
    memcpy(filled, plan_t, sizeof filled);
    memset(filled + 23, 0xEE, 60);
    memset(filled + 87, 0xEE, 504);
    memcpy(longer, plan_t, sizeof plan_t);
    expect_written("T is written", plan_t, CXPI_SET_LENGTH_ONE, set_t, 1024);
    expect_written("T is written into a longer buffer", plan_t, 2000, set_t, 1024);
    expect_written("unused places are ignored", filled, CXPI_SET_LENGTH_ONE, set_t, 1024);
    for (size_t room = 0; room < CXPI_SET_LENGTH_ONE; room++) {
        expect_refused_plan("short set buffer", plan_t, sizeof plan_t, room, 10);
    }
    for (size_t length = 0; length <= 1200; length++) {
        if (length != CXPI_PLAN_LENGTH) {
            expect_refused_plan("another length of a plan", longer, length, CXPI_SET_LENGTH_ONE, 4);
        }
    }
    expect_refused_plan("another length before 10", longer, CXPI_PLAN_LENGTH - 1, 0, 4);
    end_group("write: lengths");
}

/* Plan T with edits that break a rule, for all exports that judge a plan. */
typedef struct {
    const char *what;
    const edit *edits;
    uint32_t refusal;
} broken_plan;

static const broken_plan broken_plans[] = {
    {"profile 2", EDITS({CXPI_PLAN_PROFILE_AT, 2}), 3},
    {"profile 255", EDITS({CXPI_PLAN_PROFILE_AT, 255}), 3},
    {"revision 0", EDITS({1, 0}), 4},
    {"revision 0 under the profile", EDITS({CXPI_PLAN_PROFILE_AT, 1}, {1, 0}), 4},
    {"W 0", EDITS({6, 0}), 5},
    {"D 0", EDITS({8, 0}), 5},
    {"S 0", EDITS({10, 0}), 5},
    {"E 0", EDITS({12, 0}), 5},
    {"R 0", EDITS({14, 0}), 5},
    {"P 0", EDITS({16, 0}), 5},
    {"C 0", EDITS({18, 0}), 5},
    {"W 30,001", EDITS({5, 0x75}, {6, 0x31}), 5},
    {"C 65,535", EDITS({17, 0xff}, {18, 0xff}), 5},
    {"S 1, D 2", EDITS({10, 1}), 5},
    {"no node", EDITS({2, 0}), 6},
    {"17 nodes", EDITS({2, 17}), 6},
    {"255 nodes", EDITS({2, 255}), 6},
    {"address 0", EDITS({19, 0}), 6},
    {"address 126", EDITS({19, 126}), 6},
    {"class 0", EDITS({20, 0}), 6},
    {"class 4", EDITS({20, 4}), 6},
    {"method 2", EDITS({21, 2}), 6},
    {"fourth byte of an entry", EDITS({22, 1}), 6},
    {"the same address twice", EDITS({2, 2}, {23, 0x41}, {24, 1}), 6},
    {"no row", EDITS({4, 0}), 7},
    {"128 rows", EDITS({4, 128}), 7},
    {"257 rows", EDITS({3, 1}), 7},
    {"65,535 rows", EDITS({3, 255}, {4, 255}), 7},
    {"ReqId 0", EDITS({83, 0}), 7},
    {"ReqId 128", EDITS({83, 128}), 7},
    {"publisher N", EDITS({84, 1}), 7},
    {"kind 4", EDITS({86, 4}), 7},
    {"kind 255", EDITS({86, 255}), 7},
    {"second row of zeros", EDITS({4, 2}), 7},
    {"the same ReqId twice", EDITS({4, 2}, {87, 16}), 7},
    {"a silent node", EDITS({84, 255}), 8},
    {"a silent second node", EDITS({2, 2}, {23, 1}, {24, 1}), 8},
    {"3 before 4", EDITS({CXPI_PLAN_PROFILE_AT, 2}, {1, 0}), 3},
    {"4 before 5", EDITS({1, 0}, {6, 0}), 4},
    {"5 before 6", EDITS({6, 0}, {2, 0}), 5},
    {"6 before 7", EDITS({20, 0}, {83, 0}), 6},
    {"7 before 8", EDITS({84, 255}, {86, 4}), 7},
};

enum { BROKEN_PLANS = sizeof broken_plans / sizeof broken_plans[0] };

static void break_plan(const broken_plan *broken, uint8_t *plan) {
    memcpy(plan, plan_t, CXPI_PLAN_LENGTH);
    apply(broken->edits, plan);
}

static void test_write_profile(void) {
    uint8_t plan[CXPI_PLAN_LENGTH];
    uint8_t set[CXPI_SET_LENGTH_ONE];
    memcpy(plan, plan_t, sizeof plan);
    memcpy(set, set_t, sizeof set);
    plan[CXPI_PLAN_PROFILE_AT] = 1;
    set[5] = 1;
    mend_checks(set, sizeof set);
    expect_written("the profile is written", plan, CXPI_SET_LENGTH_ONE, set, 1024);
    end_group("write: profile");
}

static void test_write_refusals(void) {
    uint8_t plan[CXPI_PLAN_LENGTH];
    for (size_t place = 0; place < BROKEN_PLANS; place++) {
        const broken_plan *broken = &broken_plans[place];
        break_plan(broken, plan);
        expect_refused_plan(broken->what, plan, sizeof plan, 2000, broken->refusal);
        expect_refused_plan(broken->what, plan, sizeof plan, 0, broken->refusal);
    }
    end_group("write: refusals");
}

/* Plan T with that many rows, ReqIds from 1 on, all of node 0, of the four kinds in turn; and the set of it by hand. */
static void make_rows(unsigned rows, uint8_t *plan, uint8_t *set) {
    memcpy(plan, plan_t, CXPI_PLAN_LENGTH);
    memset(set, 0, CXPI_SET_LENGTH_TWO);
    memcpy(set, set_t, 520);
    plan[4] = (uint8_t)rows;
    set[516] = (uint8_t)(rows > 100 ? 100 : rows);
    if (rows > 100) {
        memcpy(set + 1024, set_t + 512, 8);
        set[1028] = (uint8_t)(rows - 100);
    }
    for (unsigned row = 0; row < rows; row++) {
        uint8_t bytes[4] = {(uint8_t)(row + 1), 0, (uint8_t)(2 * row), (uint8_t)(row % 4)};
        memcpy(plan + 83 + 4 * row, bytes, 4);
        memcpy(set + (row < 100 ? 520 + 4 * row : 1032 + 4 * (row - 100)), bytes, 4);
    }
    mend_checks(set, rows > 100 ? CXPI_SET_LENGTH_TWO : CXPI_SET_LENGTH_ONE);
}

static void expect_damaged_two(const char *what, const edit *edits, uint32_t result) {
    uint8_t plan[CXPI_PLAN_LENGTH];
    uint8_t set[CXPI_SET_LENGTH_TWO];
    make_rows(110, plan, set);
    apply(edits, set);
    mend_checks(set, sizeof set);
    expect_read(what, set, sizeof set, CXPI_PLAN_LENGTH, result, NULL);
}

static void test_two_blocks(void) {
    uint8_t plan[CXPI_PLAN_LENGTH];
    uint8_t set[CXPI_SET_LENGTH_TWO];
    for (unsigned rows = 1; rows <= CXPI_MOST_ROWS; rows++) {
        uint16_t length = rows > 100 ? 1536 : 1024;
        make_rows(rows, plan, set);
        memset(plan + 83 + 4 * rows, 0, 4 * (127 - rows));
        expect_written("rows are written", plan, length + 7u, set, length);
        expect_refused_plan("short by one", plan, sizeof plan, length - 1u, 10);
        expect_read("rows are read", set, length, CXPI_PLAN_LENGTH, 0, plan);
    }
    expect_damaged_two("head of block 2", EDITS({1024, 0x50}), 3);
    expect_damaged_two("revision of block 2", EDITS({1027, 8}), 4);
    expect_damaged_two("99 rows in the first", EDITS({516, 99}), 7);
    expect_damaged_two("101 rows in the first", EDITS({516, 101}), 7);
    expect_damaged_two("no row in the second", EDITS({1028, 0}), 7);
    expect_damaged_two("28 rows in the second", EDITS({1028, 28}), 7);
    expect_damaged_two("255 rows in the second", EDITS({1028, 255}), 7);
    expect_damaged_two("ReqId not rising over blocks", EDITS({1032, 100}), 7);
    expect_damaged_two("publisher in the second", EDITS({1033, 1}), 7);
    expect_damaged_two("kind in the second", EDITS({1035, 4}), 7);
    expect_damaged_two("filler in the second", EDITS({1029, 1}), 9);
    expect_damaged_two("filler behind the rows of the second", EDITS({1072, 1}), 9);
    expect_damaged_two("last filler of the second", EDITS({1533, 1}), 9);
    end_group("two message blocks");
}

/* Power-on */

/* Under a plan, into a state buffer of that length; refused, it leaves the buffer as it was. At power-on the machine is in that state. */
static void expect_power_on(const char *what, const uint8_t *plan, size_t length, bool master, size_t room, uint32_t result,
                            uint8_t state) {
    lent_fill(&lent_plan, plan, length);
    lent_paint(&lent_state, room);
    wanted_plan = lent_plan;
    wanted_state = lent_state;
    if (result == 0) {
        memset(lent_bytes(&wanted_state), 0, master ? CXPI_MASTER_LENGTH : CXPI_NODE_LENGTH);
        lent_bytes(&wanted_state)[0] = state;
        if (master) {
            memset(lent_bytes(&wanted_state) + 57, 4, 128);
        }
    }
    uint32_t got = master ? cxpi_master_power_on(lent_bytes(&lent_plan), length, lent_bytes(&lent_state), room)
                          : cxpi_node_power_on(lent_bytes(&lent_plan), length, lent_bytes(&lent_state), room);
    check(got == result && lent_same(&lent_plan, &wanted_plan) && lent_same(&lent_state, &wanted_state), what);
}

/* Sleep, or Normal where the plan is of panels that never sleep; all else the same. */
static void test_power_on(void) {
    static uint8_t plan[LENT_ROOM];
    memcpy(plan, plan_t, sizeof plan_t);
    memset(plan + 23, 0xEE, 60); /* unused places */
    for (uint8_t profile = 0; profile < 2; profile++) {
        uint8_t state = profile == 1 ? 0 : 2;
        plan[CXPI_PLAN_PROFILE_AT] = profile;
        for (size_t room = 0; room < 250; room++) {
            expect_power_on("master", plan, CXPI_PLAN_LENGTH, true, room, room < CXPI_MASTER_LENGTH ? 10 : 0, state);
            expect_power_on("node", plan, CXPI_PLAN_LENGTH, false, room, room < CXPI_NODE_LENGTH ? 10 : 0, state);
        }
        for (size_t length = 0; length <= 1200; length++) {
            if (length != CXPI_PLAN_LENGTH) {
                expect_power_on("master, another length of a plan", plan, length, true, 250, 4, 0);
                expect_power_on("node, another length of a plan before 10", plan, length, false, 0, 4, 0);
            }
        }
    }
    for (size_t place = 0; place < BROKEN_PLANS; place++) {
        const broken_plan *broken = &broken_plans[place];
        break_plan(broken, plan);
        for (size_t master = 0; master < 2; master++) {
            expect_power_on(broken->what, plan, CXPI_PLAN_LENGTH, master, 250, broken->refusal, 0);
            expect_power_on("3 to 8 before 10", plan, CXPI_PLAN_LENGTH, master, 100, broken->refusal, 0);
        }
    }
    end_group("power-on");
}

/* Steps: plan U has two nodes, 0 polled and 1 event-triggered. ReqId 16 is node 0's with a count, 17 node 1's without one, 32 the
 * master's. Its times are W 10, D 2, S 3, E 4, R 5, P 6, C 2. */

static uint8_t plan_u[CXPI_PLAN_LENGTH];
static uint8_t truck_u[CXPI_PLAN_LENGTH]; /* the same of panels that never sleep */
static uint8_t plan_v[CXPI_PLAN_LENGTH];  /* plan U with variable rows: 16 with a count, of 2 bytes at most, 17 without one, of 255 */
static const uint8_t *stepped_plan = plan_u;

static void make_plan_u(void) {
    memcpy(plan_u, plan_t, sizeof plan_u);
    apply(EDITS({2, 2}, {4, 3}, {18, 2}, {23, 0x42}, {24, 2}, {25, 0}), plan_u);
    apply(EDITS({87, 17}, {88, 1}, {89, 0}, {90, 0}, {91, 32}, {92, 255}, {93, 1}, {94, 1}), plan_u);
    memcpy(truck_u, plan_u, sizeof truck_u);
    truck_u[CXPI_PLAN_PROFILE_AT] = 1;
    memcpy(plan_v, plan_u, sizeof plan_v);
    apply(EDITS({86, 3}, {89, 255}, {90, 2}), plan_v);
}

/* A step as it is lent; the state's machine is the master, or a node of that number. */
typedef struct {
    const uint8_t *plan;
    size_t plan_length;
    bool master;
    uint8_t number;
    const uint8_t *state;
    size_t state_length;
    const uint8_t *event;
    size_t event_length;
    size_t reply_length;
} call;

/* What the reply buffer holds before a call: clock off, three lost, node 15; or an answer with all bits set. */
static const uint8_t old_replies[2][4] = {{2, 1, 1, 3}, {2, 3, 15}};

static size_t reply_needed(const call *made) {
    return made->master ? 3 : 4;
}

static uint32_t make_call(const call *made) {
    size_t needed = reply_needed(made);
    lent_fill(&lent_plan, made->plan, made->plan_length);
    lent_fill(&lent_state, made->state, made->state_length);
    lent_fill(&lent_event, made->event, made->event_length);
    lent_paint(&lent_reply, made->reply_length);
    memcpy(lent_bytes(&lent_reply), old_replies[made->master], made->reply_length < needed ? made->reply_length : needed);
    wanted_plan = lent_plan;
    wanted_state = lent_state;
    wanted_event = lent_event;
    wanted_reply = lent_reply;
    if (made->master) {
        return cxpi_master_step(lent_bytes(&lent_plan), made->plan_length, lent_bytes(&lent_state), made->state_length,
                                lent_bytes(&lent_event), made->event_length, lent_bytes(&lent_reply), made->reply_length);
    }
    return cxpi_node_step(lent_bytes(&lent_plan), made->plan_length, made->number, lent_bytes(&lent_state), made->state_length,
                          lent_bytes(&lent_event), made->event_length, lent_bytes(&lent_reply), made->reply_length);
}

/* The reply is zeros but for the edits; a buffer that is too short for it stays. */
static void expect_call(const char *what, const call *made, uint32_t result, const edit *changes, const edit *reply) {
    uint32_t got = make_call(made);
    apply(changes, lent_bytes(&wanted_state));
    if (made->reply_length >= reply_needed(made)) {
        memset(lent_bytes(&wanted_reply), 0, reply_needed(made));
        apply(reply, lent_bytes(&wanted_reply));
    }
    check(got == result, what);
    check(lent_same(&lent_plan, &wanted_plan) && lent_same(&lent_state, &wanted_state) && lent_same(&lent_event, &wanted_event) &&
              lent_same(&lent_reply, &wanted_reply),
          what);
}

/* The same lent buffers for the question why, whose reply held a reason of before. */
static uint32_t ask_why(const call *made) {
    static const uint8_t old_reason[3] = {3, 15, 4};
    lent_fill(&lent_plan, made->plan, made->plan_length);
    lent_fill(&lent_state, made->state, made->state_length);
    lent_paint(&lent_reply, made->reply_length);
    memcpy(lent_bytes(&lent_reply), old_reason, made->reply_length < 3 ? made->reply_length : 3);
    wanted_plan = lent_plan;
    wanted_state = lent_state;
    wanted_reply = lent_reply;
    return cxpi_master_why(lent_bytes(&lent_plan), made->plan_length, lent_bytes(&lent_state), made->state_length,
                           lent_bytes(&lent_reply), made->reply_length);
}

/* The reply is these three bytes; a buffer that is too short for them stays. */
static void expect_why(const char *what, const call *made, uint32_t result, uint8_t reason, uint8_t node, uint8_t cause) {
    uint32_t got = ask_why(made);
    if (made->reply_length >= 3) {
        apply(EDITS({0, reason}, {1, node}, {2, cause}), lent_bytes(&wanted_reply));
    }
    check(got == result, what);
    check(lent_same(&lent_plan, &wanted_plan) && lent_same(&lent_state, &wanted_state) && lent_same(&lent_reply, &wanted_reply), what);
}

/* The master in Normal, Open, nothing held, no counts; before has what differs. */
static const uint8_t *master_with(const edit *before) {
    static uint8_t state[CXPI_MASTER_LENGTH];
    memset(state, 0, sizeof state);
    memset(state + 57, 4, 128);
    apply(before, state);
    return state;
}

/* Node 0 in Normal with all else clear; before has what differs. */
static const uint8_t *node_with(const edit *before) {
    static uint8_t state[CXPI_NODE_LENGTH];
    memset(state, 0, sizeof state);
    apply(before, state);
    return state;
}

static call master_call(const edit *before, const uint8_t *event, size_t event_length) {
    return (call){.plan = stepped_plan,
                  .plan_length = CXPI_PLAN_LENGTH,
                  .master = true,
                  .state = master_with(before),
                  .state_length = CXPI_MASTER_LENGTH,
                  .event = event,
                  .event_length = event_length,
                  .reply_length = 3};
}

static call node_call(uint8_t number, const edit *before, const uint8_t *event, size_t event_length) {
    return (call){.plan = stepped_plan,
                  .plan_length = CXPI_PLAN_LENGTH,
                  .number = number,
                  .state = node_with(before),
                  .state_length = CXPI_NODE_LENGTH,
                  .event = event,
                  .event_length = event_length,
                  .reply_length = 4};
}

static void master_does(const char *what, const edit *before, const uint8_t *event, size_t event_length, const edit *changes,
                        uint8_t command, uint8_t lost) {
    call made = master_call(before, event, event_length);
    expect_call(what, &made, 0, changes, EDITS({0, command}, {1, lost}));
    made.reply_length = 50;
    expect_call(what, &made, 0, changes, EDITS({0, command}, {1, lost}));
}

static void master_refuses(const char *what, const edit *before, const uint8_t *event, size_t event_length, uint32_t result) {
    call made = master_call(before, event, event_length);
    expect_call(what, &made, result, NONE, NONE);
    made.reply_length = 50;
    expect_call(what, &made, result, NONE, NONE);
}

/* 13 and 14: the state changes, and nothing is commanded. */
static void master_drops(const char *what, const edit *before, const uint8_t *event, size_t event_length, uint32_t result,
                         const edit *changes) {
    call made = master_call(before, event, event_length);
    expect_call(what, &made, result, changes, NONE);
    made.reply_length = 50;
    expect_call(what, &made, result, changes, NONE);
}

static void node_does(const char *what, const edit *before, const uint8_t *event, size_t event_length, const edit *changes,
                      uint8_t command) {
    call made = node_call(0, before, event, event_length);
    expect_call(what, &made, 0, changes, EDITS({0, command}));
}

static void node_answers(const char *what, uint8_t number, const edit *before, const uint8_t *event, size_t event_length,
                         const edit *changes, uint8_t permission, uint8_t wake, uint8_t count) {
    call made = node_call(number, before, event, event_length);
    expect_call(what, &made, 0, changes, EDITS({0, 2}, {1, permission}, {2, wake}, {3, count}));
    made.reply_length = 50;
    expect_call(what, &made, 0, changes, EDITS({0, 2}, {1, permission}, {2, wake}, {3, count}));
}

static void node_refuses(const char *what, uint8_t number, const edit *before, const uint8_t *event, size_t event_length,
                         uint32_t result) {
    call made = node_call(number, before, event, event_length);
    expect_call(what, &made, result, NONE, NONE);
    made.reply_length = 50;
    expect_call(what, &made, result, NONE, NONE);
}

/* Offsets of the packed states, as in include/cxpi.h */

enum { M_STATE, M_PHASE, M_OWN, M_DELAY = 4, M_TICK = 8, M_HELD_0, M_AGE_0 = 11, M_HELD_1, M_AGE_1 = 14, M_HELD_2, M_COUNTS = 57,
       M_CAUSE_0 = 185, M_CAUSE_1 };

enum { N_STATE, N_PERMISSION, N_ERROR, N_WAKE, N_HEARD, N_CALLER, N_QUIET = 7, N_RUNS, N_DELAY = 10, N_STANDBY = 14, N_COUNTS };

#define TICK BYTES(0)
#define ANSWER(reqid, result, length, count, permission, wake) BYTES(1, reqid, 0, result, 0, length, count, permission, wake)
#define PULSE BYTES(2)
#define WAKE BYTES(3)
#define PERMIT(value) BYTES(4, value)
#define SLEEP BYTES(5)
#define RESULT(sent) BYTES(6, sent)

static void test_master_tick(void) {
    master_does("tick in Normal", NONE, TICK, EDITS({M_TICK, 1}), 0, 0);
    master_does("tick in Sleep", EDITS({M_STATE, 2}), TICK, EDITS({M_TICK, 1}), 0, 0);
    master_does("tick number carries", EDITS({6, 1}, {7, 255}, {8, 255}), TICK, EDITS({6, 2}, {7, 0}, {8, 0}), 0, 0);
    master_does("tick number returns to 0", EDITS({5, 255}, {6, 255}, {7, 255}, {8, 255}), TICK, EDITS({5, 0}, {6, 0}, {7, 0}, {8, 0}),
                0, 0);
    master_does("ages go up", EDITS({M_HELD_0, 1}, {M_HELD_1, 1}, {M_AGE_1, 9}), TICK, EDITS({M_TICK, 1}, {M_AGE_0, 1}, {M_AGE_1, 10}),
                0, 0);
    master_does("an age above W is let go, no call-back", EDITS({M_PHASE, 1}, {M_HELD_0, 1}, {M_AGE_0, 10}), TICK,
                EDITS({M_TICK, 1}, {M_HELD_0, 0}, {M_AGE_0, 0}, {M_CAUSE_0, 2}), 0, 0);
    master_does("held ages also outside Normal", EDITS({M_STATE, 2}, {M_HELD_0, 1}, {M_AGE_0, 3}), TICK,
                EDITS({M_TICK, 1}, {M_AGE_0, 4}), 0, 0);
    master_does("and have no cause there", EDITS({M_STATE, 2}, {M_HELD_0, 1}, {M_AGE_0, 10}), TICK,
                EDITS({M_TICK, 1}, {M_HELD_0, 0}, {M_AGE_0, 0}), 0, 0);
    master_does("Standby, first tick", EDITS({M_STATE, 1}), TICK, EDITS({M_TICK, 1}, {M_DELAY, 1}), 0, 0);
    master_does("Standby, tick C",
                EDITS({M_STATE, 1}, {M_DELAY, 1}, {M_COUNTS, 0}, {M_COUNTS + 16, 3}, {M_COUNTS + 127, 1}, {M_HELD_1, 1}), TICK,
                EDITS({M_STATE, 0}, {M_DELAY, 0}, {M_TICK, 1}, {M_COUNTS, 4}, {M_COUNTS + 16, 4}, {M_COUNTS + 127, 4}, {M_AGE_1, 1}), 1,
                0);
    master_does("Closing, first tick", EDITS({M_PHASE, 3}, {M_HELD_0, 1}), TICK, EDITS({M_TICK, 1}, {M_DELAY, 1}, {M_AGE_0, 1}), 0, 0);
    master_does("Closing, tick D", EDITS({M_PHASE, 3}, {M_DELAY, 1}, {M_HELD_0, 1}, {M_AGE_0, 3}, {M_HELD_1, 1}, {M_COUNTS + 16, 2}),
                TICK, EDITS({M_STATE, 2}, {M_PHASE, 0}, {M_DELAY, 0}, {M_TICK, 1}, {M_HELD_0, 0}, {M_AGE_0, 0}, {M_HELD_1, 0}), 2, 0);
    master_does("Closing, tick D: no causes", EDITS({M_PHASE, 3}, {M_DELAY, 1}, {M_HELD_0, 1}, {M_AGE_0, 10}, {M_CAUSE_1, 3}), TICK,
                EDITS({M_STATE, 2}, {M_PHASE, 0}, {M_DELAY, 0}, {M_TICK, 1}, {M_HELD_0, 0}, {M_AGE_0, 0}, {M_CAUSE_1, 0}), 2, 0);
    end_group("master: tick");
}

static void test_master_answer(void) {
    master_does("permission is held", NONE, ANSWER(16, 0, 2, 3, 1, 0), EDITS({M_HELD_0, 1}, {M_COUNTS + 16, 3}), 0, 0);
    master_does("age starts anew", EDITS({M_HELD_1, 1}, {M_AGE_1, 7}), ANSWER(17, 0, 0, 3, 1, 0), EDITS({M_AGE_1, 0}), 0, 0);
    master_does("a row without a count stores none", EDITS({M_COUNTS + 17, 1}), ANSWER(17, 0, 0, 3, 1, 0), EDITS({M_HELD_1, 1}), 0, 0);
    master_does("edge 8: last 3, count 0", EDITS({M_COUNTS + 16, 3}), ANSWER(16, 0, 2, 0, 1, 0),
                EDITS({M_HELD_0, 1}, {M_COUNTS + 16, 0}), 0, 0);
    master_does("edge 9: last 1, count 1", EDITS({M_COUNTS + 16, 1}), ANSWER(16, 0, 2, 1, 1, 0), EDITS({M_HELD_0, 1}), 0, 3);
    master_does("last 3, count 2", EDITS({M_COUNTS + 16, 3}), ANSWER(16, 0, 2, 2, 1, 0), EDITS({M_HELD_0, 1}, {M_COUNTS + 16, 2}), 0,
                2);
    master_does("last 0, count 2", EDITS({M_COUNTS + 16, 0}), ANSWER(16, 0, 2, 2, 1, 0), EDITS({M_HELD_0, 1}, {M_COUNTS + 16, 2}), 0,
                1);
    master_does("edge 10: wake and permission bits both 1", EDITS({M_PHASE, 1}, {M_HELD_0, 1}, {M_AGE_0, 2}, {M_HELD_1, 1}),
                ANSWER(16, 0, 2, 0, 1, 1),
                EDITS({M_PHASE, 2}, {M_HELD_0, 0}, {M_AGE_0, 0}, {M_HELD_1, 0}, {M_COUNTS + 16, 0}, {M_CAUSE_0, 4}, {M_CAUSE_1, 4}), 0,
                0);
    master_does("edge 11: refusal in Closing", EDITS({M_PHASE, 3}, {M_DELAY, 1}, {M_HELD_0, 1}, {M_AGE_0, 2}, {M_HELD_1, 1}),
                ANSWER(17, 0, 0, 0, 0, 0), EDITS({M_PHASE, 0}, {M_DELAY, 0}, {M_HELD_1, 0}, {M_CAUSE_1, 1}), 0, 0);
    master_does("permission does not call back", EDITS({M_PHASE, 3}, {M_DELAY, 1}), ANSWER(17, 0, 0, 0, 1, 0), EDITS({M_HELD_1, 1}), 0,
                0);
    master_drops("result 1", EDITS({M_PHASE, 1}, {M_HELD_0, 1}, {M_AGE_0, 5}, {M_HELD_1, 1}), ANSWER(16, 1, 2, 0, 1, 1), 13,
                 EDITS({M_PHASE, 2}, {M_HELD_0, 0}, {M_AGE_0, 0}, {M_CAUSE_0, 3}));
    master_drops("result 256", EDITS({M_HELD_0, 1}), BYTES(1, 16, 1, 0, 0, 2, 0, 1, 0), 13, EDITS({M_HELD_0, 0}, {M_CAUSE_0, 3}));
    master_drops("length 3", EDITS({M_PHASE, 3}, {M_DELAY, 1}, {M_HELD_0, 1}), ANSWER(16, 0, 3, 0, 1, 0), 14,
                 EDITS({M_PHASE, 0}, {M_DELAY, 0}, {M_HELD_0, 0}, {M_CAUSE_0, 3}));
    master_drops("length 258", EDITS({M_HELD_0, 1}), BYTES(1, 16, 0, 0, 1, 2, 0, 1, 0), 14,
                 EDITS({M_HELD_0, 0}, {M_CAUSE_0, 3}));
    master_drops("13 before 14", NONE, ANSWER(16, 1, 3, 0, 1, 0), 13, EDITS({M_CAUSE_0, 3}));
    for (uint8_t before = 0; before <= 4; before++) {
        const edit *other = EDITS({M_CAUSE_0, 3}, {M_CAUSE_1, before});
        master_does("held: no cause", other, ANSWER(17, 0, 0, 0, 1, 0), EDITS({M_HELD_1, 1}, {M_CAUSE_1, 0}), 0, 0);
        master_does("refused", other, ANSWER(17, 0, 0, 0, 0, 0), EDITS({M_CAUSE_1, 1}), 0, 0);
        master_drops("damaged", other, ANSWER(17, 1, 0, 0, 1, 0), 13, EDITS({M_CAUSE_1, 3}));
        master_drops("wrong length", other, ANSWER(17, 0, 1, 0, 0, 0), 14, EDITS({M_CAUSE_1, 3}));
        master_does("wake bit: the other was not held", other, ANSWER(17, 0, 0, 0, 0, 1), EDITS({M_CAUSE_1, 4}), 0, 0);
    }
    master_refuses("a master's row", EDITS({M_HELD_0, 1}), ANSWER(32, 1, 9, 0, 1, 0), 12);
    master_refuses("ReqId not in the plan", EDITS({M_PHASE, 1}), ANSWER(18, 1, 9, 0, 1, 0), 12);
    master_refuses("ReqId 0", NONE, ANSWER(0, 0, 0, 0, 1, 0), 12);
    master_refuses("in Standby", EDITS({M_STATE, 1}), ANSWER(18, 0, 2, 0, 1, 0), 16);
    master_refuses("in Sleep", EDITS({M_STATE, 2}), ANSWER(16, 0, 2, 0, 1, 0), 16);
    end_group("master: answer");
}

/* An answer of a length of two bytes. */
#define ANSWER_OF(reqid, length, count, permission, wake) \
    BYTES(1, reqid, 0, 0, (uint8_t)((length) >> 8), (uint8_t)(length), count, permission, wake)

/* A fixed row takes its own length alone, one of none among them. */
static void test_fixed_rows(void) {
    for (unsigned length = 0; length <= 700; length++) {
        if (length != 2) {
            master_drops("another length than 2", EDITS({M_PHASE, 1}, {M_HELD_0, 1}), ANSWER_OF(16, length, 1, 1, 0), 14,
                         EDITS({M_PHASE, 2}, {M_HELD_0, 0}, {M_CAUSE_0, 3}));
        }
        if (length != 0) {
            master_drops("another length than 0", EDITS({M_HELD_1, 1}), ANSWER_OF(17, length, 1, 1, 0), 14,
                         EDITS({M_HELD_1, 0}, {M_CAUSE_1, 3}));
        }
    }
    end_group("master: fixed rows");
}

/* W-207: a variable row takes any length up to its own; all else is as of a fixed row. */
static void test_variable_rows(void) {
    stepped_plan = plan_v;
    for (unsigned length = 0; length <= 2; length++) {
        master_does("shorter, with count", EDITS({M_COUNTS + 16, 1}), ANSWER_OF(16, length, 1, 1, 0), EDITS({M_HELD_0, 1}), 0, 3);
        master_does("shorter, first count", EDITS({M_CAUSE_0, 3}), ANSWER_OF(16, length, 2, 1, 0),
                    EDITS({M_HELD_0, 1}, {M_CAUSE_0, 0}, {M_COUNTS + 16, 2}), 0, 0);
        master_does("shorter, refusing", EDITS({M_PHASE, 3}, {M_DELAY, 1}, {M_HELD_0, 1}), ANSWER_OF(16, length, 0, 0, 0),
                    EDITS({M_PHASE, 0}, {M_DELAY, 0}, {M_HELD_0, 0}, {M_CAUSE_0, 1}, {M_COUNTS + 16, 0}), 0, 0);
        master_does("shorter, wake bit", EDITS({M_PHASE, 1}, {M_HELD_1, 1}), ANSWER_OF(16, length, 0, 1, 1),
                    EDITS({M_PHASE, 2}, {M_HELD_1, 0}, {M_CAUSE_0, 4}, {M_CAUSE_1, 4}, {M_COUNTS + 16, 0}), 0, 0);
        master_does("shorter, no call-back", EDITS({M_PHASE, 1}, {M_HELD_0, 1}, {M_AGE_0, 5}), ANSWER_OF(16, length, 0, 1, 0),
                    EDITS({M_AGE_0, 0}, {M_COUNTS + 16, 0}), 0, 0);
        master_drops("shorter and damaged", EDITS({M_HELD_0, 1}), ANSWER(16, 1, length, 0, 1, 0), 13,
                     EDITS({M_HELD_0, 0}, {M_CAUSE_0, 3}));
        master_refuses("shorter, count 4", EDITS({M_HELD_0, 1}), ANSWER_OF(16, length, 4, 1, 0), 15);
        master_refuses("shorter, in Sleep", EDITS({M_STATE, 2}), ANSWER_OF(16, length, 0, 1, 0), 16);
    }
    for (unsigned length = 3; length <= 700; length++) {
        master_drops("longer, with count", EDITS({M_PHASE, 3}, {M_DELAY, 1}, {M_HELD_0, 1}, {M_HELD_1, 1}, {M_COUNTS + 16, 1}),
                     ANSWER_OF(16, length, 3, 1, 1), 14, EDITS({M_PHASE, 0}, {M_DELAY, 0}, {M_HELD_0, 0}, {M_CAUSE_0, 3}));
    }
    for (unsigned length = 0; length <= 255; length++) {
        master_does("up to 255, no count", EDITS({M_COUNTS + 17, 1}), ANSWER_OF(17, length, 3, 1, 0), EDITS({M_HELD_1, 1}), 0, 0);
    }
    for (unsigned length = 256; length <= 700; length++) {
        master_drops("above 255", EDITS({M_HELD_1, 1}), ANSWER_OF(17, length, 3, 1, 0), 14, EDITS({M_HELD_1, 0}, {M_CAUSE_1, 3}));
    }
    master_drops("length 65,535", NONE, ANSWER_OF(17, 65535, 0, 1, 0), 14, EDITS({M_CAUSE_1, 3}));
    master_refuses("a master's row, shorter", EDITS({M_HELD_0, 1}), ANSWER(32, 0, 0, 0, 1, 0), 12);
    stepped_plan = plan_u;
    end_group("master: variable rows");
}

/* The explanation follows: of node 0's answer, the other node held and the master permitting, a longer one alone is damage. */
static void test_explained_lengths(void) {
    uint8_t state[CXPI_MASTER_LENGTH];
    for (unsigned length = 0; length <= 300; length++) {
        for (int variable = 0; variable < 2; variable++) {
            stepped_plan = variable ? plan_v : plan_u;
            bool whole = variable ? length <= 2 : length == 2;
            call made = master_call(EDITS({M_OWN, 1}, {M_HELD_0, 1}, {M_HELD_1, 1}), ANSWER_OF(16, length, 0, 1, 0));
            check(make_call(&made) == (whole ? 0 : 14), "answer to be explained");
            memcpy(state, lent_bytes(&lent_state), sizeof state);
            made.state = state;
            expect_why("answer explained", &made, 0, whole ? 0 : 4, 0, whole ? 0 : 3);
        }
    }
    stepped_plan = plan_u;
    end_group("why: lengths");
}

/* Edge 7: a tick on the state of edge 6, then the sleep ask. */
static void test_late_sleep_ask(void) {
    uint8_t state[CXPI_MASTER_LENGTH];
    call made = master_call(EDITS({M_OWN, 1}, {M_HELD_0, 1}, {M_AGE_0, 10}, {M_HELD_1, 1}), TICK);
    check(make_call(&made) == 0, "edge 7: the tick");
    memcpy(state, lent_bytes(&lent_state), sizeof state);
    made = master_call(NONE, SLEEP);
    made.state = state;
    expect_call("edge 7: the same after one more tick", &made, 20, NONE, NONE);
}

/* Plan T with sixteen nodes, each with a row of its own. */
static void make_plan_of_sixteen(uint8_t *plan) {
    memset(plan, 0, CXPI_PLAN_LENGTH);
    memcpy(plan, plan_t, 19);
    apply(EDITS({2, 16}, {4, 16}), plan);
    for (uint8_t node = 0; node < CXPI_MOST_NODES; node++) {
        const uint8_t entry[4] = {(uint8_t)(node + 1), 1, 0, 0};
        const uint8_t row[4] = {(uint8_t)(node + 1), node, 0, 0};
        memcpy(plan + 19 + 4 * node, entry, 4);
        memcpy(plan + 83 + 4 * node, row, 4);
    }
}

/* 20 names the lowest node whose permission is not held: each of sixteen, with those above it held and not held. */
static void test_named_nodes(void) {
    uint8_t plan[CXPI_PLAN_LENGTH];
    make_plan_of_sixteen(plan);
    for (uint8_t named = 0; named < CXPI_MOST_NODES; named++) {
        for (uint8_t above = 0; above < 2; above++) {
            uint8_t state[CXPI_MASTER_LENGTH];
            call made = master_call(NONE, SLEEP);
            memcpy(state, master_with(EDITS({M_OWN, 1})), sizeof state);
            for (uint8_t node = 0; node < CXPI_MOST_NODES; node++) {
                state[M_HELD_0 + 3 * node] = node < named || (node > named && above);
            }
            made.plan = plan;
            made.state = state;
            expect_call("node named", &made, 20, NONE, EDITS({2, named}));
            made.reply_length = 50;
            expect_call("node named in a longer buffer", &made, 20, NONE, EDITS({2, named}));
        }
    }
    end_group("master: node named by 20");
}

static void test_master_others(void) {
    for (uint8_t kind = 2; kind <= 3; kind++) {
        master_does("wake-up in Sleep", EDITS({M_STATE, 2}, {M_HELD_0, 1}), BYTES(kind), EDITS({M_STATE, 1}), 0, 0);
        master_does("wake-up in Standby", EDITS({M_STATE, 1}, {M_DELAY, 1}, {M_HELD_0, 1}), BYTES(kind), NONE, 0, 0);
        master_does("wake-up in Sending", EDITS({M_PHASE, 1}, {M_HELD_0, 1}, {M_AGE_0, 4}), BYTES(kind),
                    EDITS({M_PHASE, 2}, {M_HELD_0, 0}, {M_AGE_0, 0}, {M_CAUSE_0, 4}), 0, 0);
        master_does("wake-up in Closing", EDITS({M_PHASE, 3}, {M_DELAY, 1}), BYTES(kind), EDITS({M_PHASE, 0}, {M_DELAY, 0}), 0, 0);
        master_does("wake-up in Withdrawn", EDITS({M_PHASE, 2}, {M_HELD_1, 1}), BYTES(kind), EDITS({M_HELD_1, 0}, {M_CAUSE_1, 4}), 0,
                    0);
        master_does("wake-up over a node not held", EDITS({M_CAUSE_0, 1}, {M_HELD_1, 1}), BYTES(kind),
                    EDITS({M_HELD_1, 0}, {M_CAUSE_1, 4}), 0, 0);
    }
    master_does("permission yes", EDITS({M_STATE, 2}), PERMIT(1), EDITS({M_OWN, 1}), 0, 0);
    master_does("permission yes in Sending", EDITS({M_PHASE, 1}), PERMIT(1), EDITS({M_OWN, 1}), 0, 0);
    master_does("permission no in Sending", EDITS({M_PHASE, 1}, {M_OWN, 1}, {M_HELD_0, 1}), PERMIT(0), EDITS({M_OWN, 0}, {M_PHASE, 2}),
                0, 0);
    master_does("permission no in Closing, no before", EDITS({M_PHASE, 3}, {M_DELAY, 1}), PERMIT(0), EDITS({M_PHASE, 0}, {M_DELAY, 0}),
                0, 0);
    master_does("edge 6: sleep ask at age W", EDITS({M_OWN, 1}, {M_HELD_0, 1}, {M_AGE_0, 10}, {M_HELD_1, 1}), SLEEP,
                EDITS({M_PHASE, 1}), 3, 0);
    test_late_sleep_ask();
    master_refuses("19 before 20", NONE, SLEEP, 19);
    master_refuses("18 before 19, Sending", EDITS({M_PHASE, 1}), SLEEP, 18);
    master_refuses("18, Withdrawn", EDITS({M_PHASE, 2}, {M_OWN, 1}, {M_HELD_0, 1}, {M_HELD_1, 1}), SLEEP, 18);
    master_refuses("18, Closing", EDITS({M_PHASE, 3}, {M_OWN, 1}), SLEEP, 18);
    master_refuses("sleep ask in Standby", EDITS({M_STATE, 1}), SLEEP, 16);
    master_does("sent", EDITS({M_PHASE, 1}), RESULT(1), EDITS({M_PHASE, 3}), 0, 0);
    master_does("failed", EDITS({M_PHASE, 1}), RESULT(0), EDITS({M_PHASE, 0}), 0, 0);
    master_does("sent after a call-back", EDITS({M_PHASE, 2}), RESULT(1), EDITS({M_PHASE, 0}), 0, 0);
    master_does("failed after a call-back", EDITS({M_PHASE, 2}), RESULT(0), EDITS({M_PHASE, 0}), 0, 0);
    master_refuses("result in Open", NONE, RESULT(1), 17);
    master_refuses("result in Closing", EDITS({M_PHASE, 3}), RESULT(0), 17);
    master_refuses("result in Sleep", EDITS({M_STATE, 2}), RESULT(1), 16);
    end_group("master: other events");
}

/* Why the bus is awake, in the reply buffer of three bytes and in a longer one */

static void expect_in_both(const char *what, const edit *before, uint32_t result, uint8_t reason, uint8_t node, uint8_t cause) {
    call made = master_call(before, TICK);
    expect_why(what, &made, result, reason, node, cause);
    made.reply_length = 50;
    expect_why(what, &made, result, reason, node, cause);
}

static void master_says(const char *what, const edit *before, uint8_t reason, uint8_t node, uint8_t cause) {
    expect_in_both(what, before, 0, reason, node, cause);
}

static void master_says_nothing(const char *what, const edit *before, uint32_t result) {
    expect_in_both(what, before, result, 0, 0, 0);
}

static void test_reasons(void) {
    master_says("none", EDITS({M_OWN, 1}, {M_HELD_0, 1}, {M_HELD_1, 1}), 0, 0, 0);
    master_says("none at age W", EDITS({M_OWN, 1}, {M_HELD_0, 1}, {M_AGE_0, 10}, {M_HELD_1, 1}, {M_AGE_1, 10}), 0, 0, 0);
    master_says("Sending", EDITS({M_PHASE, 1}, {M_OWN, 1}, {M_HELD_0, 1}, {M_HELD_1, 1}), 1, 0, 0);
    master_says("Sending before own and nodes", EDITS({M_PHASE, 1}, {M_CAUSE_0, 3}), 1, 0, 0);
    master_says("Closing", EDITS({M_PHASE, 3}, {M_DELAY, 1}, {M_OWN, 1}, {M_HELD_0, 1}, {M_HELD_1, 1}), 1, 0, 0);
    master_says("Closing before own and nodes", EDITS({M_PHASE, 3}, {M_CAUSE_1, 2}), 1, 0, 0);
    master_says("Withdrawn", EDITS({M_PHASE, 2}, {M_OWN, 1}, {M_HELD_0, 1}, {M_HELD_1, 1}), 2, 0, 0);
    master_says("Withdrawn before own", EDITS({M_PHASE, 2}, {M_HELD_0, 1}, {M_HELD_1, 1}), 2, 0, 0);
    master_says("Withdrawn before nodes", EDITS({M_PHASE, 2}, {M_OWN, 1}, {M_CAUSE_0, 1}), 2, 0, 0);
    master_says("own", EDITS({M_HELD_0, 1}, {M_HELD_1, 1}), 3, 0, 0);
    master_says("own before nodes", EDITS({M_CAUSE_0, 4}, {M_CAUSE_1, 1}), 3, 0, 0);
    for (uint8_t cause = 0; cause <= 4; cause++) {
        uint8_t other = (uint8_t)(4 - cause);
        master_says("node 0 alone", EDITS({M_OWN, 1}, {M_HELD_1, 1}, {M_CAUSE_0, cause}), 4, 0, cause);
        master_says("node 1 alone", EDITS({M_OWN, 1}, {M_HELD_0, 1}, {M_CAUSE_1, cause}), 4, 1, cause);
        master_says("the lower of both", EDITS({M_OWN, 1}, {M_CAUSE_0, cause}, {M_CAUSE_1, other}), 4, 0, cause);
    }
    master_says_nothing("in Standby", EDITS({M_STATE, 1}, {M_DELAY, 1}, {M_OWN, 1}), 16);
    master_says_nothing("in Sleep", EDITS({M_STATE, 2}), 16);
    master_says_nothing("in Sleep, all held", EDITS({M_STATE, 2}, {M_OWN, 1}, {M_HELD_0, 1}, {M_HELD_1, 1}), 16);
    master_says_nothing("a cause above 4", EDITS({M_OWN, 1}, {M_HELD_0, 1}, {M_CAUSE_1, 5}), 11);
    master_says_nothing("a cause of a node held", EDITS({M_OWN, 1}, {M_HELD_0, 1}, {M_CAUSE_0, 1}), 11);
    master_says_nothing("a cause from N on", EDITS({M_OWN, 1}, {M_CAUSE_1 + 1, 1}), 11);
    master_says_nothing("a cause in Sleep: 11 before 16", EDITS({M_STATE, 2}, {M_CAUSE_0, 1}), 11);
    master_says_nothing("no state: 11 before 16", EDITS({M_STATE, 3}), 11);
    end_group("why: reasons");
}

/* Each of sixteen nodes as the lowest not held, with each cause, those above it held or not. */
static void test_reasons_of_sixteen(void) {
    uint8_t plan[CXPI_PLAN_LENGTH];
    make_plan_of_sixteen(plan);
    for (uint8_t named = 0; named <= CXPI_MOST_NODES; named++) {
        for (uint8_t cause = 0; cause <= 4; cause++) {
            for (uint8_t above = 0; above < 2; above++) {
                uint8_t state[CXPI_MASTER_LENGTH];
                call made = master_call(NONE, TICK);
                memcpy(state, master_with(EDITS({M_OWN, 1})), sizeof state);
                for (uint8_t node = 0; node < CXPI_MOST_NODES; node++) {
                    state[M_HELD_0 + 3 * node] = node < named || (node > named && above);
                    state[M_CAUSE_0 + node] = node == named ? cause : node > named && !above ? 4 - cause : 0;
                }
                made.plan = plan;
                made.state = state;
                expect_why("the lowest of sixteen", &made, 0, named < 16 ? 4 : 0, named & 15, named < 16 ? cause : 0);
            }
        }
    }
    end_group("why: sixteen nodes");
}

/* The order of judging: 3 to 8, 10, 11, 16, and other lengths of plan, state and reply buffer. */
static void test_reason_order(void) {
    uint8_t plan[CXPI_PLAN_LENGTH];
    static uint8_t bytes[LENT_ROOM];
    const call asked = master_call(EDITS({M_OWN, 1}), TICK);
    for (size_t place = 0; place < BROKEN_PLANS; place++) {
        call made = asked;
        break_plan(&broken_plans[place], plan);
        made.plan = plan;
        expect_why(broken_plans[place].what, &made, broken_plans[place].refusal, 0, 0, 0);
        made.state_length = 0;
        expect_why("3 to 8 before 11", &made, broken_plans[place].refusal, 0, 0, 0);
        made.reply_length = 2;
        expect_why("3 to 8 before 10", &made, broken_plans[place].refusal, 0, 0, 0);
    }
    memcpy(bytes, plan_u, sizeof plan_u);
    for (size_t length = 0; length <= 1200; length++) {
        call made = asked;
        if (length != CXPI_PLAN_LENGTH) {
            made.plan = bytes;
            made.plan_length = length;
            expect_why("another length of a plan", &made, 4, 0, 0, 0);
            made.reply_length = 0;
            expect_why("another length of a plan before 10", &made, 4, 0, 0, 0);
        }
    }
    memset(bytes, 0, sizeof bytes);
    for (size_t length = 0; length < 3; length++) {
        call made = asked;
        made.reply_length = length;
        expect_why("short reply buffer", &made, 10, 0, 0, 0);
        made.state_length = 0;
        expect_why("10 before 11", &made, 10, 0, 0, 0);
        made = master_call(EDITS({M_STATE, 2}), TICK);
        made.reply_length = length;
        expect_why("10 before 16", &made, 10, 0, 0, 0);
    }
    for (size_t length = 0; length <= 400; length++) {
        call made = asked;
        made.state = bytes;
        made.state_length = length;
        if (length != CXPI_MASTER_LENGTH) {
            expect_why("another length of a state", &made, 11, 0, 0, 0);
        }
    }
    memcpy(plan, plan_u, sizeof plan);
    memset(plan + 27, 0xEE, 56);
    memset(plan + 95, 18, 496);
    call made = master_call(EDITS({M_OWN, 1}, {M_HELD_0, 1}, {M_CAUSE_1, 2}), TICK);
    made.plan = plan;
    expect_why("unused places of a plan", &made, 0, 4, 1, 2);
    end_group("why: order and lengths");
}

/* Length of each kind of event, by include/cxpi.h. */
static const size_t master_event_lengths[] = {1, 9, 1, 1, 2, 1, 2};
static const size_t node_event_lengths[] = {2, 1, 1, 2, 1, 2, 2};

static void test_no_events(void) {
    uint8_t event[32] = {0};
    for (unsigned kind = 0; kind < 256; kind++) {
        for (size_t length = 0; length <= 12; length++) {
            event[0] = (uint8_t)kind;
            if (kind > 6 || length != master_event_lengths[kind]) {
                master_refuses("wrong kind or length", NONE, event, length, 15);
            }
            if (kind > 6 || length != node_event_lengths[kind]) {
                node_refuses("wrong kind or length", 0, NONE, event, length, 15);
            }
        }
    }
    for (unsigned value = 2; value < 256; value++) {
        uint8_t wrong = (uint8_t)value;
        master_refuses("permission above 1", EDITS({M_STATE, 2}), PERMIT(wrong), 15);
        master_refuses("result above 1, before 16", EDITS({M_STATE, 2}), RESULT(wrong), 15);
        master_refuses("answer's permission above 1", NONE, ANSWER(16, 0, 2, 0, wrong, 0), 15);
        master_refuses("answer's wake above 1, before 13", NONE, ANSWER(16, 1, 2, 0, 0, wrong), 15);
        node_refuses("clock above 1", 0, NONE, BYTES(0, wrong), 15);
        node_refuses("permission above 1", 0, NONE, BYTES(3, wrong), 15);
        if (value > 3) {
            master_refuses("answer's count above 3", EDITS({M_STATE, 1}), ANSWER(16, 0, 2, wrong, 1, 0), 15);
        }
        if (value > 127) {
            master_refuses("answer's ReqId above 127", EDITS({M_STATE, 2}), ANSWER(wrong, 0, 2, 0, 1, 0), 15);
            node_refuses("request's ReqId above 127", 0, EDITS({N_STATE, 2}), BYTES(5, wrong), 15);
            node_refuses("ask's ReqId above 127", 0, NONE, BYTES(6, wrong), 15);
        }
    }
    end_group("no events");
}

/* Whether a tick, and the question why, are refused 11 from that state; else the one is done, and the other outside Normal is 16. */
static void master_state_is(const char *what, bool right, const edit *before) {
    call made = master_call(before, TICK);
    if (right) {
        check(make_call(&made) == 0, what);
        check(ask_why(&made) == (made.state[M_STATE] == 0 ? 0 : 16), what);
    } else {
        expect_call(what, &made, 11, NONE, NONE);
        expect_why(what, &made, 11, 0, 0, 0);
    }
}

static void node_state_is(const char *what, bool right, const edit *before) {
    call made = node_call(0, before, BYTES(0, 1));
    if (right) {
        check(make_call(&made) == 0, what);
    } else {
        expect_call(what, &made, 11, NONE, NONE);
    }
}

static void test_master_range(void) {
    for (unsigned value = 0; value < 256; value++) {
        uint8_t byte = (uint8_t)value;
        master_state_is("state", value <= 2, EDITS({M_STATE, byte}));
        master_state_is("phase in Normal", value <= 3, EDITS({M_PHASE, byte}));
        master_state_is("phase in Standby", value == 0, EDITS({M_STATE, 1}, {M_PHASE, byte}));
        master_state_is("phase in Sleep", value == 0, EDITS({M_STATE, 2}, {M_PHASE, byte}));
        master_state_is("own permission", value <= 1, EDITS({M_OWN, byte}));
        master_state_is("delay in Open", value == 0, EDITS({M_DELAY, byte}));
        master_state_is("delay in Sending", value == 0, EDITS({M_PHASE, 1}, {M_DELAY, byte}));
        master_state_is("delay in Withdrawn", value == 0, EDITS({M_PHASE, 2}, {M_DELAY, byte}));
        master_state_is("delay in Sleep", value == 0, EDITS({M_STATE, 2}, {M_DELAY, byte}));
        master_state_is("delay in Standby below C", value < 2, EDITS({M_STATE, 1}, {M_DELAY, byte}));
        master_state_is("delay in Closing below D", value < 2, EDITS({M_PHASE, 3}, {M_DELAY, byte}));
        master_state_is("high byte of the delay", value == 0, EDITS({M_STATE, 1}, {M_DELAY - 1, byte}));
        master_state_is("tick number", true, EDITS({5, byte}, {6, byte}, {7, byte}, {8, byte}));
        for (size_t node = 0; node < CXPI_MOST_NODES; node++) {
            size_t held = M_HELD_0 + 3 * node;
            master_state_is("held", value == 0 || (value == 1 && node < 2), EDITS({held, byte}));
            master_state_is("age of one not held", value == 0, EDITS({held + 2, byte}));
            master_state_is("age of one held", value <= 10 && node < 2, EDITS({held, 1}, {held + 2, byte}));
            master_state_is("high byte of the age", value == 0 && node < 2, EDITS({held, 1}, {held + 1, byte}));
            master_state_is("held in Sleep", value <= 10 && node < 2, EDITS({M_STATE, 2}, {held, 1}, {held + 2, byte}));
            size_t cause = M_CAUSE_0 + node;
            master_state_is("cause", value == 0 || (value <= 4 && node < 2), EDITS({cause, byte}));
            master_state_is("cause of one held", value == 0 && node < 2, EDITS({held, 1}, {cause, byte}));
            master_state_is("cause in Standby", value == 0, EDITS({M_STATE, 1}, {cause, byte}));
            master_state_is("cause in Sleep", value == 0, EDITS({M_STATE, 2}, {cause, byte}));
        }
        for (size_t reqid = 0; reqid < CXPI_REQIDS; reqid++) {
            master_state_is("last count", value <= 4, EDITS({M_COUNTS + reqid, byte}));
        }
    }
    end_group("master: range of the state");
}

static void test_node_range(void) {
    static const uint8_t states[] = {0, 1, 2};
    for (unsigned value = 0; value < 256; value++) {
        uint8_t byte = (uint8_t)value;
        node_state_is("state", value <= 2, EDITS({N_STATE, byte}));
        for (size_t place = 0; place < 3; place++) {
            uint8_t state = states[place];
            node_state_is("permission", value <= 1, EDITS({N_STATE, state}, {N_PERMISSION, byte}));
            node_state_is("error", value <= 1, EDITS({N_STATE, state}, {N_ERROR, byte}));
            node_state_is("wake bit", value <= 1, EDITS({N_STATE, state}, {N_WAKE, byte}));
            node_state_is("heard", value <= 1, EDITS({N_STATE, state}, {N_HEARD, byte}));
            node_state_is("caller", value == 0 || (value == 1 && state == 1), EDITS({N_STATE, state}, {N_CALLER, byte}));
            node_state_is("quiet count", value <= 4, EDITS({N_STATE, state}, {N_QUIET, byte}));
            node_state_is("quiet count, high byte", value == 0, EDITS({N_STATE, state}, {N_QUIET - 1, byte}));
            node_state_is("delay runs", value <= 1, EDITS({N_STATE, state}, {N_RUNS, byte}));
            node_state_is("delay where none runs", value == 0, EDITS({N_STATE, state}, {N_DELAY, byte}));
            node_state_is("delay below S", value < 3, EDITS({N_STATE, state}, {N_RUNS, 1}, {N_DELAY, byte}));
            node_state_is("delay, high byte", value == 0, EDITS({N_STATE, state}, {N_RUNS, 1}, {N_DELAY - 1, byte}));
            node_state_is("standby count below P", value == 0 || (value < 6 && state == 1), EDITS({N_STATE, state}, {N_STANDBY, byte}));
            for (size_t high = 1; high <= 3; high++) {
                node_state_is("standby count, high bytes", value == 0, EDITS({N_STATE, state}, {N_STANDBY - high, byte}));
            }
        }
        node_state_is("standby count up to 2R", value <= 10, EDITS({N_STATE, 1}, {N_CALLER, 1}, {N_STANDBY, byte}));
        for (size_t reqid = 0; reqid < CXPI_REQIDS; reqid++) {
            node_state_is("sequence count", value <= 3, EDITS({N_COUNTS + reqid, byte}));
        }
        node_refuses("node number", byte < 2 ? 2 : byte, NONE, BYTES(1), 11);
    }
    end_group("node: range of the state");
}

#define CLOCK BYTES(0, 1)
#define NO_CLOCK BYTES(0, 0)
#define NODE_PULSE BYTES(1)
#define NODE_WAKE BYTES(2)
#define NODE_PERMIT(value) BYTES(3, value)
#define SLEEP_MESSAGE BYTES(4)
#define REQUEST(reqid) BYTES(5, reqid)
#define SEND(reqid) BYTES(6, reqid)

static void test_node_tick(void) {
    node_does("clock in Normal", EDITS({N_ERROR, 1}, {N_QUIET, 4}, {N_WAKE, 1}, {N_HEARD, 1}), CLOCK, EDITS({N_ERROR, 0}, {N_QUIET, 0}),
              0);
    node_does("clock, delay runs on", EDITS({N_RUNS, 1}, {N_DELAY, 1}), CLOCK, EDITS({N_DELAY, 2}), 0);
    node_does("clock, delay reaches S",
              EDITS({N_PERMISSION, 1}, {N_WAKE, 1}, {N_HEARD, 1}, {N_RUNS, 1}, {N_DELAY, 2}, {N_COUNTS + 16, 3}), CLOCK,
              EDITS({N_STATE, 2}, {N_WAKE, 0}, {N_HEARD, 0}, {N_RUNS, 0}, {N_DELAY, 0}, {N_COUNTS + 16, 0}), 0);
    node_does("clock in Standby",
              EDITS({N_STATE, 1}, {N_PERMISSION, 1}, {N_ERROR, 1}, {N_WAKE, 1}, {N_HEARD, 1}, {N_CALLER, 1}, {N_QUIET, 3}, {N_RUNS, 1},
                    {N_DELAY, 2}, {N_STANDBY, 7}, {N_COUNTS, 1}, {N_COUNTS + 127, 2}),
              CLOCK,
              EDITS({N_STATE, 0}, {N_ERROR, 0}, {N_HEARD, 0}, {N_CALLER, 0}, {N_QUIET, 0}, {N_RUNS, 0}, {N_DELAY, 0}, {N_STANDBY, 0},
                    {N_COUNTS, 0}, {N_COUNTS + 127, 0}),
              0);
    node_does("clock in Sleep", EDITS({N_STATE, 2}), CLOCK, EDITS({N_STATE, 1}), 0);
    node_does("clock in Sleep changes no more",
              EDITS({N_STATE, 2}, {N_ERROR, 1}, {N_WAKE, 1}, {N_QUIET, 2}, {N_RUNS, 1}, {N_COUNTS, 3}), CLOCK, EDITS({N_STATE, 1}), 0);
    node_does("no clock, quiet goes up", NONE, NO_CLOCK, EDITS({N_QUIET, 1}), 0);
    node_does("no clock, quiet and delay go up", EDITS({N_RUNS, 1}, {N_DELAY, 1}, {N_QUIET, 1}), NO_CLOCK,
              EDITS({N_QUIET, 2}, {N_DELAY, 2}), 0);
    node_does("no clock, delay reaches S", EDITS({N_RUNS, 1}, {N_DELAY, 2}, {N_QUIET, 3}), NO_CLOCK,
              EDITS({N_STATE, 2}, {N_RUNS, 0}, {N_DELAY, 0}, {N_QUIET, 0}), 0);
    node_does("no clock, quiet reaches E", EDITS({N_QUIET, 3}), NO_CLOCK, EDITS({N_QUIET, 4}, {N_ERROR, 1}), 0);
    node_does("no clock, quiet stays at E", EDITS({N_QUIET, 4}), NO_CLOCK, EDITS({N_ERROR, 1}), 0);
    node_does("no clock, E and permitted", EDITS({N_PERMISSION, 1}, {N_QUIET, 3}, {N_WAKE, 1}), NO_CLOCK,
              EDITS({N_STATE, 2}, {N_QUIET, 0}, {N_WAKE, 0}), 0);
    node_does("no clock, quiet stands at E, permitted", EDITS({N_PERMISSION, 1}, {N_QUIET, 4}, {N_ERROR, 1}), NO_CLOCK,
              EDITS({N_STATE, 2}, {N_QUIET, 0}, {N_ERROR, 0}), 0);
    node_does("caller counts", EDITS({N_STATE, 1}, {N_CALLER, 1}), NO_CLOCK, EDITS({N_STANDBY, 1}), 0);
    node_does("caller's second pulse at R", EDITS({N_STATE, 1}, {N_CALLER, 1}, {N_STANDBY, 4}), NO_CLOCK, EDITS({N_STANDBY, 5}), 1);
    node_does("caller's second pulse, error shown", EDITS({N_STATE, 1}, {N_CALLER, 1}, {N_ERROR, 1}, {N_STANDBY, 4}), NO_CLOCK,
              EDITS({N_STANDBY, 5}), 1);
    node_does("caller after R", EDITS({N_STATE, 1}, {N_CALLER, 1}, {N_STANDBY, 5}), NO_CLOCK, EDITS({N_STANDBY, 6}), 0);
    node_does("caller at 2R", EDITS({N_STATE, 1}, {N_CALLER, 1}, {N_STANDBY, 9}), NO_CLOCK, EDITS({N_STANDBY, 10}, {N_ERROR, 1}), 0);
    node_does("caller stays at 2R", EDITS({N_STATE, 1}, {N_CALLER, 1}, {N_STANDBY, 10}), NO_CLOCK, EDITS({N_ERROR, 1}), 0);
    node_does("caller at 2R, permitted", EDITS({N_STATE, 1}, {N_PERMISSION, 1}, {N_CALLER, 1}, {N_WAKE, 1}, {N_STANDBY, 9}), NO_CLOCK,
              EDITS({N_STATE, 2}, {N_CALLER, 0}, {N_WAKE, 0}, {N_STANDBY, 0}), 0);
    node_does("another counts", EDITS({N_STATE, 1}, {N_STANDBY, 4}), NO_CLOCK, EDITS({N_STANDBY, 5}), 0);
    node_does("another sleeps at P", EDITS({N_STATE, 1}, {N_STANDBY, 5}), NO_CLOCK, EDITS({N_STATE, 2}, {N_STANDBY, 0}), 0);
    node_does("no delay runs in Standby", EDITS({N_STATE, 1}, {N_RUNS, 1}, {N_DELAY, 2}), NO_CLOCK, EDITS({N_STANDBY, 1}), 0);
    node_does("no clock in Sleep", EDITS({N_STATE, 2}, {N_RUNS, 1}, {N_DELAY, 2}, {N_QUIET, 4}), NO_CLOCK, NONE, 0);
    end_group("node: tick");
}

static void test_node_others(void) {
    node_does("pulse in Sleep", EDITS({N_STATE, 2}, {N_PERMISSION, 1}), NODE_PULSE, EDITS({N_STATE, 1}), 0);
    node_does("pulse in Standby", EDITS({N_STATE, 1}, {N_STANDBY, 3}), NODE_PULSE, NONE, 0);
    node_does("pulse in Normal", EDITS({N_QUIET, 2}), NODE_PULSE, NONE, 0);
    node_does("wake in Sleep", EDITS({N_STATE, 2}), NODE_WAKE, EDITS({N_STATE, 1}, {N_CALLER, 1}, {N_WAKE, 1}), 1);
    node_does("wake in Standby, not caller", EDITS({N_STATE, 1}, {N_STANDBY, 3}), NODE_WAKE,
              EDITS({N_CALLER, 1}, {N_WAKE, 1}, {N_STANDBY, 0}), 1);
    node_does("wake in Standby, caller", EDITS({N_STATE, 1}, {N_CALLER, 1}, {N_STANDBY, 3}), NODE_WAKE, EDITS({N_WAKE, 1}), 0);
    node_does("wake in Normal", EDITS({N_QUIET, 4}, {N_RUNS, 1}), NODE_WAKE, EDITS({N_WAKE, 1}), 0);
    node_does("wake in Normal, error shows", EDITS({N_ERROR, 1}, {N_QUIET, 4}, {N_RUNS, 1}, {N_DELAY, 2}, {N_HEARD, 1}), NODE_WAKE,
              EDITS({N_STATE, 1}, {N_ERROR, 0}, {N_WAKE, 1}, {N_CALLER, 1}, {N_QUIET, 0}, {N_RUNS, 0}, {N_DELAY, 0}), 1);
    node_does("wake in Normal, error shows, permitted", EDITS({N_PERMISSION, 1}, {N_ERROR, 1}, {N_QUIET, 4}, {N_COUNTS + 16, 3}), NODE_WAKE,
              EDITS({N_STATE, 1}, {N_ERROR, 0}, {N_WAKE, 1}, {N_CALLER, 1}, {N_QUIET, 0}), 1);
    node_does("wake in Standby, caller that gave up", EDITS({N_STATE, 1}, {N_CALLER, 1}, {N_STANDBY, 10}, {N_ERROR, 1}), NODE_WAKE,
              EDITS({N_WAKE, 1}), 0);
    node_does("permission yes", NONE, NODE_PERMIT(1), EDITS({N_PERMISSION, 1}), 0);
    node_does("permission no, error shows", EDITS({N_PERMISSION, 1}, {N_ERROR, 1}), NODE_PERMIT(0), EDITS({N_PERMISSION, 0}), 0);
    node_does("permission yes, error shows", EDITS({N_ERROR, 1}, {N_QUIET, 4}, {N_WAKE, 1}), NODE_PERMIT(1),
              EDITS({N_STATE, 2}, {N_PERMISSION, 1}, {N_ERROR, 0}, {N_QUIET, 0}, {N_WAKE, 0}), 0);
    node_does("permission yes, caller's error shows", EDITS({N_STATE, 1}, {N_CALLER, 1}, {N_STANDBY, 10}, {N_ERROR, 1}), NODE_PERMIT(1),
              EDITS({N_STATE, 2}, {N_PERMISSION, 1}, {N_CALLER, 0}, {N_STANDBY, 0}, {N_ERROR, 0}), 0);
    node_does("permission yes, error in Sleep", EDITS({N_STATE, 2}, {N_ERROR, 1}, {N_HEARD, 1}), NODE_PERMIT(1),
              EDITS({N_PERMISSION, 1}, {N_ERROR, 0}, {N_HEARD, 0}), 0);
    node_does("sleep message", NONE, SLEEP_MESSAGE, EDITS({N_RUNS, 1}), 0);
    node_does("sleep message restarts the delay", EDITS({N_RUNS, 1}, {N_DELAY, 2}), SLEEP_MESSAGE, EDITS({N_DELAY, 0}), 0);
    node_refuses("sleep message in Standby", 0, EDITS({N_STATE, 1}), SLEEP_MESSAGE, 16);
    node_refuses("sleep message in Sleep", 0, EDITS({N_STATE, 2}), SLEEP_MESSAGE, 16);
    node_does("request of another's row", NONE, REQUEST(17), EDITS({N_HEARD, 1}), 0);
    node_does("request of a master's row", NONE, REQUEST(32), EDITS({N_HEARD, 1}), 0);
    node_answers("request of its own row", 0, EDITS({N_PERMISSION, 1}, {N_WAKE, 1}, {N_COUNTS + 16, 2}), REQUEST(16),
                 EDITS({N_HEARD, 1}, {N_WAKE, 0}, {N_COUNTS + 16, 3}), 1, 1, 2);
    node_answers("count returns to 0, also without one", 1, EDITS({N_COUNTS + 17, 3}), REQUEST(17),
                 EDITS({N_HEARD, 1}, {N_COUNTS + 17, 0}), 0, 0, 3);
    node_answers("ask to send, event-triggered", 1, EDITS({N_PERMISSION, 1}), SEND(17), EDITS({N_COUNTS + 17, 1}), 1, 0, 0);
    node_answers("ask to send, polled and heard", 0, EDITS({N_HEARD, 1}, {N_WAKE, 1}), SEND(16), EDITS({N_WAKE, 0}, {N_COUNTS + 16, 1}),
                 0, 1, 0);
    node_refuses("ask to send, polled and not heard", 0, NONE, SEND(16), 21);
    node_refuses("ask to send another's row, before 21", 0, NONE, SEND(17), 12);
    node_refuses("ask to send a master's row", 1, NONE, SEND(32), 12);
    node_refuses("ask to send a row not in the plan", 1, NONE, SEND(18), 12);
    node_refuses("request of a row not in the plan", 0, NONE, REQUEST(127), 12);
    node_refuses("request of ReqId 0", 0, NONE, REQUEST(0), 12);
    node_refuses("request in Standby, before 12", 0, EDITS({N_STATE, 1}), REQUEST(18), 16);
    node_refuses("ask to send in Sleep, before 12", 0, EDITS({N_STATE, 2}), SEND(17), 16);
    end_group("node: other events");
}

/* Panels that never sleep (W-206) */

static void test_never_sleeping_master(void) {
    const edit *ready = EDITS({M_OWN, 1}, {M_HELD_0, 1}, {M_AGE_0, 10}, {M_HELD_1, 1});
    stepped_plan = truck_u;
    master_does("tick", ready, TICK, EDITS({M_TICK, 1}, {M_HELD_0, 0}, {M_AGE_0, 0}, {M_CAUSE_0, 2}, {M_AGE_1, 1}), 0, 0);
    master_does("held", EDITS({M_COUNTS + 16, 1}), ANSWER(16, 0, 2, 0, 1, 0), EDITS({M_HELD_0, 1}, {M_COUNTS + 16, 0}), 0, 2);
    master_does("refused", ready, ANSWER(17, 0, 0, 0, 0, 0), EDITS({M_HELD_1, 0}, {M_CAUSE_1, 1}), 0, 0);
    master_does("wake bit", ready, ANSWER(17, 0, 0, 0, 1, 1),
                EDITS({M_HELD_0, 0}, {M_AGE_0, 0}, {M_HELD_1, 0}, {M_CAUSE_0, 4}, {M_CAUSE_1, 4}), 0, 0);
    master_drops("damaged", ready, ANSWER(17, 1, 0, 0, 1, 0), 13, EDITS({M_HELD_1, 0}, {M_CAUSE_1, 3}));
    master_drops("wrong length", ready, ANSWER(17, 0, 1, 0, 1, 0), 14, EDITS({M_HELD_1, 0}, {M_CAUSE_1, 3}));
    master_refuses("a master's row", ready, ANSWER(32, 0, 1, 0, 1, 0), 12);
    for (uint8_t kind = 2; kind <= 3; kind++) {
        master_does("wake-up", ready, BYTES(kind),
                    EDITS({M_HELD_0, 0}, {M_AGE_0, 0}, {M_HELD_1, 0}, {M_CAUSE_0, 4}, {M_CAUSE_1, 4}), 0, 0);
    }
    master_does("permission no", ready, PERMIT(0), EDITS({M_OWN, 0}), 0, 0);
    master_does("permission yes", NONE, PERMIT(1), EDITS({M_OWN, 1}), 0, 0);
    master_refuses("sleep ask", ready, SLEEP, 25);
    master_refuses("25 before 19", EDITS({M_HELD_0, 1}, {M_HELD_1, 1}), SLEEP, 25);
    master_refuses("25 before 20", EDITS({M_OWN, 1}, {M_HELD_0, 1}), SLEEP, 25);
    master_refuses("sent", ready, RESULT(1), 17);
    master_refuses("failed", NONE, RESULT(0), 17);
    for (uint8_t wrong = 1; wrong <= 3; wrong++) {
        master_refuses("phase, 11 before 25", EDITS({M_PHASE, wrong}), SLEEP, 11);
        master_refuses("phase, 11 before 15", EDITS({M_PHASE, wrong}), PERMIT(2), 11);
        master_refuses("phase, send result", EDITS({M_PHASE, wrong}), RESULT(1), 11);
        master_refuses("state, 11 before 16", EDITS({M_STATE, wrong}), SLEEP, 11);
    }
    master_refuses("15", NONE, PERMIT(2), 15);
    for (unsigned value = 0; value < 256; value++) {
        uint8_t byte = (uint8_t)value;
        master_state_is("state", value == 0, EDITS({M_STATE, byte}));
        master_state_is("phase", value == 0, EDITS({M_PHASE, byte}));
        master_state_is("delay", value == 0, EDITS({M_DELAY, byte}));
        master_state_is("phase in Standby", false, EDITS({M_STATE, 1}, {M_PHASE, byte}));
        master_state_is("delay in Closing", false, EDITS({M_PHASE, 3}, {M_DELAY, byte}));
        master_state_is("own permission", value <= 1, EDITS({M_OWN, byte}));
        master_state_is("age of one held", value <= 10, EDITS({M_HELD_0, 1}, {M_AGE_0, byte}));
        master_state_is("cause", value <= 4, EDITS({M_CAUSE_0, byte}));
        master_state_is("last count", value <= 4, EDITS({M_COUNTS + 16, byte}));
    }
    stepped_plan = plan_u;
    end_group("never sleeps: master");
}

/* The profile is the reason in every state in range. */
static void test_reason_of_profile(void) {
    stepped_plan = truck_u;
    master_says("ready", EDITS({M_OWN, 1}, {M_HELD_0, 1}, {M_HELD_1, 1}), 5, 0, 0);
    master_says("before own", EDITS({M_HELD_0, 1}, {M_HELD_1, 1}), 5, 0, 0);
    for (uint8_t cause = 0; cause <= 4; cause++) {
        master_says("before nodes", EDITS({M_OWN, 1}, {M_HELD_0, 1}, {M_CAUSE_1, cause}), 5, 0, 0);
    }
    master_says_nothing("Sending", EDITS({M_PHASE, 1}), 11);
    master_says_nothing("Withdrawn", EDITS({M_PHASE, 2}), 11);
    master_says_nothing("Closing", EDITS({M_PHASE, 3}), 11);
    master_says_nothing("Standby, 11 before 16", EDITS({M_STATE, 1}), 11);
    master_says_nothing("Sleep, 11 before 16", EDITS({M_STATE, 2}), 11);
    stepped_plan = plan_u;
    end_group("never sleeps: why");
}

static void test_never_sleeping_node(void) {
    const edit *shows = EDITS({N_ERROR, 1}, {N_QUIET, 4}, {N_HEARD, 1}, {N_COUNTS + 16, 2});
    stepped_plan = truck_u;
    node_does("clock", shows, CLOCK, EDITS({N_ERROR, 0}, {N_QUIET, 0}), 0);
    node_does("no clock", EDITS({N_PERMISSION, 1}), NO_CLOCK, EDITS({N_QUIET, 1}), 0);
    node_does("quiet reaches E, permitted", EDITS({N_PERMISSION, 1}, {N_WAKE, 1}, {N_QUIET, 3}), NO_CLOCK,
              EDITS({N_QUIET, 4}, {N_ERROR, 1}), 0);
    node_does("quiet stands at E, permitted", EDITS({N_PERMISSION, 1}, {N_QUIET, 4}), NO_CLOCK, EDITS({N_ERROR, 1}), 0);
    node_does("error stands, permitted", EDITS({N_PERMISSION, 1}, {N_QUIET, 4}, {N_ERROR, 1}), NO_CLOCK, NONE, 0);
    node_does("pulse", shows, NODE_PULSE, NONE, 0);
    node_does("wake", NONE, NODE_WAKE, EDITS({N_WAKE, 1}), 0);
    node_does("wake, error shows", shows, NODE_WAKE, EDITS({N_WAKE, 1}), 0);
    node_does("permission yes", NONE, NODE_PERMIT(1), EDITS({N_PERMISSION, 1}), 0);
    node_does("permission yes, error shows", shows, NODE_PERMIT(1), EDITS({N_PERMISSION, 1}), 0);
    node_does("permission no, error shows", EDITS({N_PERMISSION, 1}, {N_ERROR, 1}), NODE_PERMIT(0), EDITS({N_PERMISSION, 0}), 0);
    node_does("request of another's row", NONE, REQUEST(17), EDITS({N_HEARD, 1}), 0);
    node_answers("request of its own row", 0, EDITS({N_PERMISSION, 1}, {N_WAKE, 1}, {N_ERROR, 1}), REQUEST(16),
                 EDITS({N_HEARD, 1}, {N_WAKE, 0}, {N_COUNTS + 16, 1}), 1, 1, 0);
    node_answers("ask to send", 1, NONE, SEND(17), EDITS({N_COUNTS + 17, 1}), 0, 0, 0);
    node_refuses("ask to send, not heard", 0, NONE, SEND(16), 21);
    node_refuses("ask to send another's row", 0, NONE, SEND(17), 12);
    node_refuses("sleep message", 0, NONE, SLEEP_MESSAGE, 25);
    node_refuses("sleep message, error shows", 0, shows, SLEEP_MESSAGE, 25);
    node_refuses("sleep message, 11 before 25", 0, EDITS({N_RUNS, 1}), SLEEP_MESSAGE, 11);
    node_refuses("sleep message, 11 before 16", 0, EDITS({N_STATE, 2}), SLEEP_MESSAGE, 11);
    node_refuses("node number, 11 before 25", 2, NONE, SLEEP_MESSAGE, 11);
    node_refuses("11 before 15", 0, EDITS({N_STATE, 1}), REQUEST(128), 11);
    node_refuses("15", 0, NONE, REQUEST(128), 15);
    for (unsigned value = 0; value < 256; value++) {
        uint8_t byte = (uint8_t)value;
        node_state_is("state", value == 0, EDITS({N_STATE, byte}));
        node_state_is("delay runs", value == 0, EDITS({N_RUNS, byte}));
        node_state_is("delay", false, EDITS({N_RUNS, 1}, {N_DELAY, byte}));
        node_state_is("standby count", value == 0, EDITS({N_STANDBY, byte}));
        node_state_is("caller in Standby", false, EDITS({N_STATE, 1}, {N_CALLER, 1}, {N_STANDBY, byte}));
        node_state_is("quiet count", value <= 4, EDITS({N_QUIET, byte}));
        node_state_is("error", value <= 1, EDITS({N_ERROR, byte}));
        node_state_is("sequence count", value <= 3, EDITS({N_COUNTS + 16, byte}));
    }
    stepped_plan = plan_u;
    end_group("never sleeps: node");
}

/* The order of judging a step: 3 to 8, 10, 11, 15, and wrong lengths of plan, state and reply buffer. */
static void test_step_order(void) {
    uint8_t plan[CXPI_PLAN_LENGTH];
    static uint8_t bytes[LENT_ROOM];
    call masters = master_call(NONE, TICK);
    call nodes = node_call(0, NONE, CLOCK);
    call *both[2] = {&masters, &nodes};
    for (size_t machine = 0; machine < 2; machine++) {
        call made = *both[machine];
        for (size_t place = 0; place < BROKEN_PLANS; place++) {
            break_plan(&broken_plans[place], plan);
            made.plan = plan;
            expect_call(broken_plans[place].what, &made, broken_plans[place].refusal, NONE, NONE);
            made.state_length = 0;
            made.event_length = 0;
            expect_call("3 to 8 before 11 and 15", &made, broken_plans[place].refusal, NONE, NONE);
            made.reply_length = reply_needed(&made) - 1;
            expect_call("3 to 8 before 10", &made, broken_plans[place].refusal, NONE, NONE);
            made = *both[machine];
        }
        memcpy(bytes, plan_u, sizeof plan_u);
        made.plan = bytes;
        for (size_t length = 0; length <= 1200; length++) {
            if (length != CXPI_PLAN_LENGTH) {
                made.plan_length = length;
                expect_call("another length of a plan", &made, 4, NONE, NONE);
                made.reply_length = 0;
                expect_call("another length of a plan before 10", &made, 4, NONE, NONE);
                made.reply_length = both[machine]->reply_length;
            }
        }
        made = *both[machine];
        for (size_t length = 0; length < reply_needed(&made); length++) {
            made.reply_length = length;
            expect_call("short reply buffer", &made, 10, NONE, NONE);
            made.state_length = 0;
            made.event_length = 0;
            expect_call("10 before 11 and 15", &made, 10, NONE, NONE);
            made = *both[machine];
        }
        memset(bytes, 0, sizeof bytes);
        made.state = bytes;
        for (size_t length = 0; length <= 400; length++) {
            if (length != both[machine]->state_length) {
                made.state_length = length;
                expect_call("wrong length of a state", &made, 11, NONE, NONE);
            }
        }
        made = *both[machine];
        bytes[0] = 3;
        made.state = bytes;
        made.event_length = 0;
        expect_call("11 before 15", &made, 11, NONE, NONE);
    }
    nodes.number = 2;
    nodes.event_length = 0;
    expect_call("node number before 15", &nodes, 11, NONE, NONE);
    nodes.reply_length = 3;
    expect_call("10 before the node number", &nodes, 10, NONE, NONE);
    end_group("steps: order and lengths");
}

/* Unused places of a plan are ignored in a step. */
static void test_unused_places(void) {
    uint8_t plan[CXPI_PLAN_LENGTH];
    memcpy(plan, plan_u, sizeof plan);
    memset(plan + 27, 0xEE, 56);
    memset(plan + 95, 18, 496);
    call made = master_call(NONE, ANSWER(16, 0, 2, 0, 1, 0));
    made.plan = plan;
    expect_call("master", &made, 0, EDITS({M_HELD_0, 1}, {M_COUNTS + 16, 0}), NONE);
    made = master_call(NONE, ANSWER(18, 0, 2, 0, 1, 0));
    made.plan = plan;
    expect_call("a row past the count", &made, 12, NONE, NONE);
    made = node_call(0, NONE, REQUEST(18));
    made.plan = plan;
    expect_call("a row past the count", &made, 12, NONE, NONE);
    end_group("steps: unused places");
}

/* The node configuration */

static const uint8_t identity[CXPI_IDENTITY_LENGTH] = {0x01, 0x23, 0x45, 0x67, 0x89, 0x01, 0x02, 0x03, 0x04};

typedef struct {
    const char *what;
    size_t identity_length;
    uint8_t address;
    const uint8_t *request;
    size_t request_length;
    size_t room;
} configuration;

/* The request is answered by these bytes, none for silence and refusals, and leaves the node with an address. */
static void expect_configured(const configuration *made, uint32_t result, const uint8_t *answer, size_t length, uint8_t address) {
    uint8_t addresses[3] = {LENT_PAINT, made->address, LENT_PAINT}, lengths[3] = {LENT_PAINT, LENT_PAINT, LENT_PAINT};
    const uint8_t wanted_addresses[3] = {LENT_PAINT, address, LENT_PAINT}, wanted_lengths[3] = {LENT_PAINT, (uint8_t)length, LENT_PAINT};
    lent_fill(&lent_event, made->request, made->request_length);
    wanted_event = lent_event;
    lent_paint(&lent_reply, made->room);
    wanted_reply = lent_reply;
    if (length > 0) {
        memcpy(lent_bytes(&wanted_reply), answer, length);
    }
    check(cxpi_node_configure(identity, made->identity_length, &addresses[1], lent_bytes(&lent_event), made->request_length,
                              lent_bytes(&lent_reply), made->room, &lengths[1]) == result,
          made->what);
    check(memcmp(addresses, wanted_addresses, 3) == 0 && memcmp(lengths, wanted_lengths, 3) == 0, made->what);
    check(lent_same(&lent_event, &wanted_event) && lent_same(&lent_reply, &wanted_reply), made->what);
}

/* In buffers of every length: the refusal where there is one, else the answer, or 10 where it does not fit. */
static void expect_in_rooms(const char *what, const uint8_t *request, size_t request_length, uint32_t result, const uint8_t *answer,
                            size_t length, uint8_t address) {
    for (size_t room = 0; room <= 12; room++) {
        configuration made = {what, sizeof identity, 0, request, request_length, room};
        if (room < length) {
            expect_configured(&made, 10, NULL, 0, 0);
        } else {
            expect_configured(&made, result, answer, length, address);
        }
    }
}

static void expect_unanswered(const char *what, const uint8_t *request, size_t request_length, uint32_t result) {
    expect_in_rooms(what, request, request_length, result, NULL, 0, 0);
}

static void test_configuration(void) {
    static const uint8_t reads[2][3] = {{0x22, 0xFF, 0x05}, {0x22, 0xF1, 0x8C}};
    expect_in_rooms("product identification", reads[0], 3, 0, BYTES(0x62, 0xFF, 0x05, 0x01, 0x23, 0x45, 0x67, 0x89), 0);
    expect_in_rooms("serial number", reads[1], 3, 0, BYTES(0x62, 0xF1, 0x8C, 0x01, 0x02, 0x03, 0x04), 0);
    for (unsigned address = 0; address < 256; address++) {
        const uint8_t assign[8] = {0x2E, 0xFF, 0x07, 0x01, 0x23, 0x45, 0x67, (uint8_t)address};
        if (address >= 1 && address <= 125) {
            expect_in_rooms("an address", assign, 8, 0, BYTES(0x6E, 0xFF, 0x07), (uint8_t)address);
        } else {
            expect_unanswered("an address outside 1 to 125", assign, 8, 0);
        }
    }
    for (size_t offset = 3; offset < 7; offset++) {
        for (unsigned change = 1; change < 256; change++) {
            uint8_t assign[8] = {0x2E, 0xFF, 0x07, 0x01, 0x23, 0x45, 0x67, 0x41};
            assign[offset] ^= (uint8_t)change;
            expect_unanswered("another supplier or function", assign, 8, 0);
        }
    }
    expect_unanswered("wildcards", BYTES(0x2E, 0xFF, 0x07, 0x7F, 0xFF, 0xFF, 0xFF, 0x41), 0);
    end_group("configuration: answers");
}

static void test_configuration_refusals(void) {
    static uint8_t longer[LENT_ROOM] = {0x2E, 0xFF, 0x07, 0x01, 0x23, 0x45, 0x67, 0x41};
    for (size_t length = 0; length <= LENT_ROOM; length++) {
        longer[0] = 0x2E;
        if (length != 8) {
            expect_unanswered("an assign's length", longer, length, 23);
        }
        longer[0] = 0x22;
        if (length != 3) {
            expect_unanswered("a read's length", longer, length, 23);
        }
        longer[0] = 0x10;
        expect_unanswered("another service", longer, length, length == 0 ? 23 : 24);
    }
    expect_unanswered("a length before an identifier", BYTES(0x2E, 0xFF, 0x03, 0x00), 23);
    expect_unanswered("a read's identifier written", BYTES(0x2E, 0xFF, 0x05, 0x01, 0x23, 0x45, 0x67, 0x41), 24);
    expect_unanswered("an assign's identifier read", BYTES(0x22, 0xFF, 0x07), 24);
    expect_unanswered("another identifier of Table A.1", BYTES(0x22, 0xFF, 0x04), 24);
    for (size_t length = 0; length < sizeof identity; length++) {
        configuration made = {"an identity's length, before all others", length, 0x41, longer, 0, 0};
        expect_configured(&made, 11, NULL, 0, 0x41);
    }
    end_group("configuration: refusals");
}

static void test_file(const char *path) {
    uint8_t set[CXPI_SET_LENGTH_ONE + 1];
    FILE *file = fopen(path, "rb");
    size_t length = file != NULL ? fread(set, 1, sizeof set, file) : 0;
    check(length == sizeof set_t && memcmp(set, set_t, sizeof set_t) == 0, "the file is set T");
    if (file != NULL) {
        fclose(file);
    }
    end_group("set T as a file");
}

int main(int count, char **arguments) {
    make_old_plan();
    make_plan_u();
    if (count > 1) {
        test_file(arguments[1]);
    }
    check(cxpi_version() == 6, "version");
    end_group("version");
    test_read_lengths();
    test_read_bytes();
    test_read_plan_block();
    test_read_nodes();
    test_read_rows();
    test_read_order();
    test_write_lengths();
    test_write_profile();
    test_write_refusals();
    test_two_blocks();
    test_power_on();
    test_master_tick();
    test_master_answer();
    test_fixed_rows();
    test_variable_rows();
    test_explained_lengths();
    test_named_nodes();
    test_master_others();
    test_master_range();
    test_reasons();
    test_reasons_of_sixteen();
    test_reason_order();
    test_node_tick();
    test_node_others();
    test_node_range();
    test_never_sleeping_master();
    test_reason_of_profile();
    test_never_sleeping_node();
    test_no_events();
    test_step_order();
    test_unused_places();
    test_configuration();
    test_configuration_refusals();
    printf("%u checks, %u wrong\n", checks, failures);
    return failures == 0 ? EXIT_SUCCESS : EXIT_FAILURE;
}
