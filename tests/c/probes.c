/* Probes of the archive by the header's constants alone: what a call leaves is where the header says, in the numbers that it has.
 *
 * Each constant of the header has a probe that fails where it is off by one (check_header_test.py). Sets are made by the
 * offsets of R1.2 to R1.4, so that nothing here reads what the header's constants wrote.
 *
 * Compile: gcc -std=c11 -Wall -Wextra -Werror -pedantic -Iinclude tests/c/probes.c libcxpi.a -o probes */
#include <stdbool.h>
#include <stdio.h>
#include <stdlib.h>
#include <string.h>

#include "cxpi.h"

static unsigned probes, wrong;

static void check(bool right, const char *what, int line) {
    probes++;
    if (!right) {
        wrong++;
        printf("line %d: not %s\n", line, what);
    }
}

#define IS(condition) check(condition, #condition, __LINE__)

/* Buffers have room to spare, so that wrong lengths stay within them. */
enum { ROOM = 4096, PAINT = 0xA5 };

static uint8_t set[ROOM], back[ROOM], plan[ROOM], state[ROOM], reply[ROOM], event[ROOM];

static uint32_t two_at(const uint8_t *bytes, size_t at) {
    return (uint32_t)bytes[at] << 8 | bytes[at + 1];
}

static uint32_t four_at(const uint8_t *bytes, size_t at) {
    return two_at(bytes, at) << 16 | two_at(bytes, at + 2);
}

static void put_two(uint8_t *bytes, size_t at, uint32_t number) {
    bytes[at] = (uint8_t)(number >> 8);
    bytes[at + 1] = (uint8_t)number;
}

/* Sets by R1.2 to R1.4: revision 263; W 10, D 2, S 3, E 4, R 5, P 6, C 7 */

enum { TIMES = 7, BLOCK = 512 };

static const uint8_t times[TIMES] = {10, 2, 3, 4, 5, 6, 7};

/* Three nodes: 0 polled, 1 event-triggered, 2 polled. */
static const uint8_t entries[3][4] = {{0x41, 1, 1, 0}, {0x42, 2, 0, 0}, {0x43, 3, 1, 0}};

/* ReqIds 16 and 17 are node 0's and 1's, 18 is node 2's with a sequence count, 32 the master's. */
static const uint8_t rows[4][4] = {{16, 0, 2, 1}, {17, 1, 17, 0}, {18, 2, 9, 1}, {32, 255, 1, 0}};

static void mend_checks(size_t length) {
    for (size_t block = 0; block < length; block += BLOCK) {
        uint32_t sum = 0;
        for (uint32_t offset = 0; offset < BLOCK - 2; offset++) {
            sum += (offset + 1) * set[block + offset];
        }
        put_two(set, block + BLOCK - 2, sum % 65521);
    }
}

static void make_set(void) {
    memset(set, 0, sizeof set);
    memcpy(set, "\x50\x01\x01\x07\x03", 5);
    for (size_t time = 0; time < TIMES; time++) {
        set[7 + 2 * time] = times[time];
    }
    memcpy(set + 32, entries, sizeof entries);
    memcpy(set + BLOCK, "\x4D\x01\x01\x07\x04", 5);
    memcpy(set + BLOCK + 8, rows, sizeof rows);
    mend_checks(1024);
}

/* Sixteen nodes, 127 rows: two message blocks. */
static void make_largest_set(void) {
    make_set();
    set[4] = 16;
    for (uint8_t node = 0; node < CXPI_MOST_NODES; node++) {
        const uint8_t entry[4] = {(uint8_t)(node + 1), 1, 0, 0};
        memcpy(set + 32 + 4 * node, entry, 4);
    }
    memcpy(set + 2 * BLOCK, set + BLOCK, 8);
    set[BLOCK + 4] = 100;
    set[2 * BLOCK + 4] = 27;
    for (uint8_t row = 0; row < CXPI_MOST_ROWS; row++) {
        const uint8_t bytes[4] = {(uint8_t)(row + 1), row % 16, row, 0};
        memcpy(set + (row < 100 ? BLOCK + 8 + 4 * row : 2 * BLOCK + 8 + 4 * (row - 100)), bytes, 4);
    }
    mend_checks(1536);
}

static uint32_t read_set(size_t length) {
    memset(plan, PAINT, sizeof plan);
    return cxpi_read(set, length, plan, sizeof plan);
}

static bool is_painted(const uint8_t *bytes, size_t at) {
    return bytes[at] == PAINT;
}

/* Sets and plans */

static void probe_plan(void) {
    make_set();
    IS(read_set(1024) == CXPI_DONE);
    IS(two_at(plan, CXPI_PLAN_REVISION_AT) == 263);
    IS(plan[CXPI_PLAN_NODE_COUNT_AT] == 3);
    IS(two_at(plan, CXPI_PLAN_ROW_COUNT_AT) == 4);
    IS(two_at(plan, CXPI_PLAN_WINDOW_AT) == 10);
    IS(two_at(plan, CXPI_PLAN_CLOCK_STOP_AT) == 2);
    IS(two_at(plan, CXPI_PLAN_NODE_SLEEP_AT) == 3);
    IS(two_at(plan, CXPI_PLAN_QUIET_LIMIT_AT) == 4);
    IS(two_at(plan, CXPI_PLAN_RECOVERY_AT) == 5);
    IS(two_at(plan, CXPI_PLAN_SPACE_AT) == 6);
    IS(two_at(plan, CXPI_PLAN_CLOCK_START_AT) == 7);
    for (size_t node = 0; node < 3; node++) {
        const uint8_t *entry = plan + CXPI_PLAN_ENTRIES_AT + CXPI_ENTRY_LENGTH * node;
        IS(entry[CXPI_ENTRY_ADDRESS_AT] == entries[node][0]);
        IS(entry[CXPI_ENTRY_CLASS_AT] == node + 1);
        IS(entry[CXPI_ENTRY_METHOD_AT] == (node == 1 ? CXPI_EVENT_TRIGGERED : CXPI_POLLED));
    }
    for (size_t place = 0; place < 4; place++) {
        const uint8_t *row = plan + CXPI_PLAN_ROWS_AT + CXPI_ROW_LENGTH * place;
        IS(row[CXPI_ROW_REQID_AT] == rows[place][0]);
        IS(row[CXPI_ROW_PUBLISHER_AT] == (place < 3 ? place : CXPI_MASTER_PUBLISHES));
        IS(row[CXPI_ROW_DATA_LENGTH_AT] == rows[place][2]);
        IS(row[CXPI_ROW_KIND_AT] == (place % 2 == 0 && place < 3 ? CXPI_FIXED_COUNTED : CXPI_FIXED));
    }
    IS(plan[CXPI_PLAN_PROFILE_AT] == 0 && is_painted(plan, CXPI_PLAN_LENGTH));
    IS(cxpi_read(set, 1024, plan, CXPI_PLAN_LENGTH) == CXPI_DONE);
    IS(cxpi_read(set, 1024, plan, CXPI_PLAN_LENGTH - 1) == CXPI_BUFFER_SHORT);
    plan[CXPI_PLAN_ENTRIES_AT + CXPI_ENTRY_ZERO_AT] = 1;
    uint16_t length;
    IS(cxpi_write(plan, CXPI_PLAN_LENGTH, back, sizeof back, &length) == CXPI_WRONG_NODE && length == 0);
    set[5] = 1;
    mend_checks(1024);
    IS(read_set(1024) == CXPI_DONE && plan[CXPI_PLAN_PROFILE_AT] == 1);
    plan[CXPI_PLAN_PROFILE_AT] = 2;
    IS(cxpi_write(plan, CXPI_PLAN_LENGTH, back, sizeof back, &length) == CXPI_WRONG_BLOCK && length == 0);
}

static void probe_lengths_of_sets(void) {
    uint16_t length;
    make_set();
    IS(read_set(CXPI_SET_LENGTH_ONE) == CXPI_DONE);
    IS(cxpi_write(plan, CXPI_PLAN_LENGTH, back, sizeof back, &length) == CXPI_DONE && length == CXPI_SET_LENGTH_ONE);
    IS(memcmp(back, set, CXPI_SET_LENGTH_ONE) == 0);
    make_largest_set();
    IS(read_set(CXPI_SET_LENGTH_TWO) == CXPI_DONE);
    IS(plan[CXPI_PLAN_NODE_COUNT_AT] == CXPI_MOST_NODES);
    IS(two_at(plan, CXPI_PLAN_ROW_COUNT_AT) == CXPI_MOST_ROWS);
    IS(cxpi_write(plan, CXPI_PLAN_LENGTH, back, sizeof back, &length) == CXPI_DONE && length == CXPI_SET_LENGTH_TWO);
    IS(memcmp(back, set, CXPI_SET_LENGTH_TWO) == 0);
    plan[CXPI_PLAN_ROW_COUNT_AT + 1] = CXPI_MOST_ROWS + 1;
    IS(cxpi_write(plan, CXPI_PLAN_LENGTH, back, sizeof back, &length) == CXPI_WRONG_ROW);
    plan[CXPI_PLAN_NODE_COUNT_AT] = CXPI_MOST_NODES + 1;
    IS(cxpi_write(plan, CXPI_PLAN_LENGTH, back, sizeof back, &length) == CXPI_WRONG_NODE);
}

/* A set with a byte changed, its checks mended, is refused by that number, and leaves zeros. */
static bool is_refused(size_t at, uint8_t byte, uint32_t number) {
    make_set();
    set[at] = byte;
    mend_checks(1024);
    if (read_set(1024) != number) {
        return false;
    }
    for (size_t offset = 0; offset < CXPI_PLAN_LENGTH; offset++) {
        if (plan[offset] != 0) {
            return false;
        }
    }
    return true;
}

/* The last byte of a row. */
static void probe_kinds_of_rows(void) {
    static const uint8_t kinds[4] = {CXPI_FIXED, CXPI_FIXED_COUNTED, CXPI_VARIABLE, CXPI_VARIABLE_COUNTED};
    for (uint8_t kind = 0; kind < 4; kind++) {
        make_set();
        set[523] = kind;
        mend_checks(1024);
        IS(read_set(1024) == CXPI_DONE && plan[CXPI_PLAN_ROWS_AT + CXPI_ROW_KIND_AT] == kinds[kind]);
    }
    IS(is_refused(523, CXPI_VARIABLE_COUNTED + 1, CXPI_WRONG_ROW));
}

static void probe_refusals_of_sets(void) {
    make_set();
    IS(read_set(1023) == CXPI_WRONG_SIZE);
    set[511]++;
    IS(read_set(1024) == CXPI_WRONG_CHECK);
    IS(is_refused(1, 2, CXPI_WRONG_BLOCK));
    IS(is_refused(5, 2, CXPI_WRONG_BLOCK));
    IS(is_refused(515, 8, CXPI_WRONG_REVISION));
    IS(is_refused(9, 0, CXPI_WRONG_TIME));
    IS(is_refused(33, 4, CXPI_WRONG_NODE));
    IS(is_refused(520, 17, CXPI_WRONG_ROW));
    IS(is_refused(529, 1, CXPI_NO_ROW_OF_NODE));
    IS(is_refused(20, 1, CXPI_FILLER));
}

/* The master */

/* A step by the bytes of event; the reply is painted before. */
static uint32_t step_master(size_t length) {
    memset(reply, PAINT, sizeof reply);
    return cxpi_master_step(plan, CXPI_PLAN_LENGTH, state, CXPI_MASTER_LENGTH, event, length, reply, sizeof reply);
}

static uint32_t master_does(uint8_t kind) {
    event[0] = kind;
    return step_master(CXPI_PLAIN_EVENT_LENGTH);
}

static uint32_t master_gets(uint8_t kind, uint8_t value) {
    memset(event, 0, sizeof event);
    event[0] = kind;
    event[CXPI_EVENT_VALUE_AT] = value;
    return step_master(CXPI_VALUE_EVENT_LENGTH);
}

static uint32_t master_answered(uint8_t reqid, uint32_t result, uint32_t length, uint8_t count, uint8_t permission, uint8_t wake) {
    memset(event, 0, sizeof event);
    event[0] = CXPI_MASTER_ANSWER;
    event[CXPI_ANSWER_REQID_AT] = reqid;
    put_two(event, CXPI_ANSWER_RESULT_AT, result);
    put_two(event, CXPI_ANSWER_DATA_LENGTH_AT, length);
    event[CXPI_ANSWER_COUNT_AT] = count;
    event[CXPI_ANSWER_PERMISSION_AT] = permission;
    event[CXPI_ANSWER_WAKE_AT] = wake;
    return step_master(CXPI_ANSWER_EVENT_LENGTH);
}

static bool master_is(uint8_t named_state, uint8_t phase, uint8_t command) {
    return state[CXPI_MASTER_STATE_AT] == named_state && state[CXPI_MASTER_PHASE_AT] == phase &&
           reply[CXPI_MASTER_REPLY_COMMAND_AT] == command;
}

static bool holds(size_t node, uint8_t held, uint32_t age) {
    size_t at = CXPI_MASTER_HOLDS_AT + CXPI_HOLD_LENGTH * node;
    return state[at + CXPI_HOLD_HELD_AT] == held && two_at(state, at + CXPI_HOLD_AGE_AT) == age;
}

static bool has_cause(size_t node, uint8_t cause) {
    return state[CXPI_MASTER_CAUSES_AT + node] == cause;
}

static void probe_master_power_on(void) {
    memset(state, PAINT, sizeof state);
    IS(cxpi_master_power_on(plan, CXPI_PLAN_LENGTH, state, CXPI_MASTER_LENGTH - 1) == CXPI_BUFFER_SHORT && is_painted(state, 0));
    IS(cxpi_master_power_on(plan, CXPI_PLAN_LENGTH - 1, state, CXPI_MASTER_LENGTH) == CXPI_WRONG_REVISION && is_painted(state, 0));
    IS(cxpi_master_power_on(plan, CXPI_PLAN_LENGTH, state, CXPI_MASTER_LENGTH) == CXPI_DONE);
    IS(state[CXPI_MASTER_STATE_AT] == CXPI_SLEEP);
    IS(is_painted(state, CXPI_MASTER_LENGTH) && !is_painted(state, CXPI_MASTER_LENGTH - 1));
    for (size_t reqid = 0; reqid < CXPI_REQIDS; reqid++) {
        IS(state[CXPI_MASTER_COUNTS_AT + reqid] == CXPI_NO_COUNT);
    }
    for (size_t node = 0; node < CXPI_MOST_NODES; node++) {
        IS(has_cause(node, CXPI_CAUSE_NEW));
    }
    IS(CXPI_MASTER_COUNTS_AT + CXPI_REQIDS == CXPI_MASTER_CAUSES_AT);
    IS(CXPI_MASTER_CAUSES_AT + CXPI_MOST_NODES == CXPI_MASTER_LENGTH);
}

static void probe_master_wake_up(void) {
    IS(CXPI_MASTER_PULSE != CXPI_MASTER_WAKE); /* which do the same */
    IS(master_does(CXPI_MASTER_SLEEP) == CXPI_NEEDS_NORMAL);
    IS(master_gets(CXPI_MASTER_PERMISSION, 1) == CXPI_DONE && state[CXPI_MASTER_PERMISSION_AT] == 1);
    IS(reply[CXPI_MASTER_REPLY_COMMAND_AT] == CXPI_MASTER_NOTHING);
    IS(master_does(CXPI_MASTER_WAKE) == CXPI_DONE && state[CXPI_MASTER_STATE_AT] == CXPI_STANDBY);
    IS(master_does(CXPI_MASTER_PULSE) == CXPI_DONE && master_is(CXPI_STANDBY, CXPI_OPEN, CXPI_MASTER_NOTHING));
    IS(master_does(CXPI_MASTER_TICK) == CXPI_DONE);
    IS(two_at(state, CXPI_MASTER_DELAY_AT) == 1 && four_at(state, CXPI_MASTER_TICKS_AT) == 1);
    for (uint32_t tick = 2; tick <= 7; tick++) {
        IS(state[CXPI_MASTER_STATE_AT] == CXPI_STANDBY && master_does(CXPI_MASTER_TICK) == CXPI_DONE);
        IS(four_at(state, CXPI_MASTER_TICKS_AT) == tick);
    }
    IS(master_is(CXPI_NORMAL, CXPI_OPEN, CXPI_CLOCK_ON));
}

static void probe_master_answers(void) {
    IS(master_answered(17, 0, 17, 0, 1, 0) == CXPI_DONE && holds(1, 1, 0) && holds(0, 0, 0) && holds(2, 0, 0));
    IS(master_does(CXPI_MASTER_TICK) == CXPI_DONE && holds(1, 1, 1));
    IS(master_answered(18, 0, 9, 2, 1, 0) == CXPI_DONE && holds(2, 1, 0) && state[CXPI_MASTER_COUNTS_AT + 18] == 2);
    IS(master_answered(18, 0, 9, 1, 1, 0) == CXPI_DONE && reply[CXPI_MASTER_REPLY_LOST_AT] == 2);
    IS(is_painted(reply, CXPI_MASTER_REPLY_LENGTH) && !is_painted(reply, CXPI_MASTER_REPLY_LENGTH - 1));
    IS(master_answered(18, 1, 9, 1, 1, 0) == CXPI_DAMAGED && holds(2, 0, 0));
    IS(master_answered(17, 0, 16, 0, 1, 0) == CXPI_WRONG_LENGTH && holds(1, 0, 0));
    IS(master_answered(99, 0, 9, 0, 1, 0) == CXPI_NO_REQID);
    IS(master_answered(18, 0, 9, 4, 1, 0) == CXPI_NO_EVENT);
    IS(master_answered(17, 0, 17, 0, 1, 0) == CXPI_DONE && master_answered(16, 0, 2, 3, 1, 1) == CXPI_DONE && holds(1, 0, 0));
}

/* Goes on from there, with node 1's row as a variable one: 17 bytes at most. */
static void probe_shorter_answers(void) {
    uint8_t *kind = plan + CXPI_PLAN_ROWS_AT + CXPI_ROW_LENGTH + CXPI_ROW_KIND_AT;
    *kind = CXPI_VARIABLE;
    IS(master_answered(17, 0, 16, 2, 1, 0) == CXPI_DONE && holds(1, 1, 0) && state[CXPI_MASTER_COUNTS_AT + 17] == CXPI_NO_COUNT);
    IS(master_answered(17, 0, 18, 2, 1, 0) == CXPI_WRONG_LENGTH && holds(1, 0, 0) && has_cause(1, CXPI_CAUSE_DAMAGED));
    *kind = CXPI_VARIABLE_COUNTED;
    IS(master_answered(17, 0, 0, 2, 1, 0) == CXPI_DONE && holds(1, 1, 0) && state[CXPI_MASTER_COUNTS_AT + 17] == 2);
    *kind = CXPI_FIXED;
}

/* Each cause of node 1; a number past the last is no state. */
static void probe_causes(void) {
    IS(master_answered(17, 0, 17, 0, 0, 0) == CXPI_DONE && has_cause(1, CXPI_CAUSE_REFUSED));
    IS(master_answered(17, 1, 17, 0, 1, 0) == CXPI_DAMAGED && has_cause(1, CXPI_CAUSE_DAMAGED));
    IS(master_answered(17, 0, 17, 0, 1, 0) == CXPI_DONE && has_cause(1, CXPI_CAUSE_NEW));
    for (uint32_t tick = 0; tick <= 10; tick++) {
        IS(holds(1, 1, tick) && has_cause(1, CXPI_CAUSE_NEW) && master_does(CXPI_MASTER_TICK) == CXPI_DONE);
    }
    IS(holds(1, 0, 0) && has_cause(1, CXPI_CAUSE_AGED));
    IS(master_answered(17, 0, 17, 0, 1, 0) == CXPI_DONE && has_cause(1, CXPI_CAUSE_NEW));
    IS(master_does(CXPI_MASTER_PULSE) == CXPI_DONE && has_cause(1, CXPI_CAUSE_WAKE));
    state[CXPI_MASTER_CAUSES_AT + 1] = CXPI_CAUSE_WAKE + 1;
    IS(master_does(CXPI_MASTER_TICK) == CXPI_NO_STATE);
    state[CXPI_MASTER_CAUSES_AT + 1] = CXPI_CAUSE_WAKE;
}

/* The stored state is explained in a reply that is painted before. */
static uint32_t explained(size_t room) {
    memset(reply, PAINT, sizeof reply);
    return cxpi_master_why(plan, CXPI_PLAN_LENGTH, state, CXPI_MASTER_LENGTH, reply, room);
}

static bool reason_is(uint8_t reason, uint8_t node, uint8_t cause) {
    return explained(sizeof reply) == CXPI_DONE && reply[CXPI_REASON_AT] == reason && reply[CXPI_REASON_NODE_AT] == node &&
           reply[CXPI_REASON_CAUSE_AT] == cause;
}

/* Goes on from there: permitted, and no node is held. */
static void probe_reasons(void) {
    IS(reason_is(CXPI_REASON_NODE, 0, CXPI_CAUSE_WAKE));
    IS(is_painted(reply, CXPI_REASON_LENGTH) && !is_painted(reply, CXPI_REASON_LENGTH - 1));
    IS(master_answered(16, 0, 2, 0, 1, 0) == CXPI_DONE && master_answered(17, 1, 17, 0, 1, 0) == CXPI_DAMAGED);
    IS(reason_is(CXPI_REASON_NODE, 1, CXPI_CAUSE_DAMAGED));
    IS(master_answered(17, 0, 17, 0, 1, 0) == CXPI_DONE && master_answered(18, 0, 9, 0, 1, 0) == CXPI_DONE);
    IS(reason_is(CXPI_REASON_NONE, 0, 0));
    IS(master_gets(CXPI_MASTER_PERMISSION, 0) == CXPI_DONE && reason_is(CXPI_REASON_OWN, 0, 0));
    IS(master_gets(CXPI_MASTER_PERMISSION, 1) == CXPI_DONE && master_does(CXPI_MASTER_SLEEP) == CXPI_DONE);
    IS(reason_is(CXPI_REASON_SLEEP, 0, 0));
    IS(master_does(CXPI_MASTER_PULSE) == CXPI_DONE && reason_is(CXPI_REASON_OWED, 0, 0));
    IS(master_gets(CXPI_MASTER_SEND_RESULT, 1) == CXPI_DONE && reason_is(CXPI_REASON_NODE, 0, CXPI_CAUSE_WAKE));
    IS(explained(CXPI_REASON_LENGTH) == CXPI_DONE);
    IS(explained(CXPI_REASON_LENGTH - 1) == CXPI_BUFFER_SHORT && is_painted(reply, CXPI_REASON_AT));
}

static void probe_master_sleep(void) {
    IS(master_gets(CXPI_MASTER_PERMISSION, 0) == CXPI_DONE && master_does(CXPI_MASTER_SLEEP) == CXPI_NOT_PERMITTED);
    IS(master_gets(CXPI_MASTER_PERMISSION, 1) == CXPI_DONE);
    IS(master_answered(16, 0, 2, 0, 1, 0) == CXPI_DONE && master_answered(17, 0, 17, 0, 1, 0) == CXPI_DONE);
    IS(master_does(CXPI_MASTER_SLEEP) == CXPI_NOT_HELD && reply[CXPI_MASTER_REPLY_NODE_AT] == 2);
    IS(master_answered(18, 0, 9, 2, 1, 0) == CXPI_DONE);
    IS(master_gets(CXPI_MASTER_SEND_RESULT, 1) == CXPI_NO_RESULT_DUE);
    IS(master_does(CXPI_MASTER_SLEEP) == CXPI_DONE && master_is(CXPI_NORMAL, CXPI_SENDING, CXPI_SEND_SLEEP_MESSAGE));
    IS(master_does(CXPI_MASTER_SLEEP) == CXPI_UNDER_WAY);
    IS(master_gets(CXPI_MASTER_PERMISSION, 0) == CXPI_DONE && master_is(CXPI_NORMAL, CXPI_WITHDRAWN, CXPI_MASTER_NOTHING));
    IS(master_gets(CXPI_MASTER_SEND_RESULT, 1) == CXPI_DONE && master_is(CXPI_NORMAL, CXPI_OPEN, CXPI_MASTER_NOTHING));
    IS(master_gets(CXPI_MASTER_PERMISSION, 1) == CXPI_DONE && master_does(CXPI_MASTER_SLEEP) == CXPI_DONE);
    IS(master_gets(CXPI_MASTER_SEND_RESULT, 1) == CXPI_DONE && master_is(CXPI_NORMAL, CXPI_CLOSING, CXPI_MASTER_NOTHING));
    IS(master_does(CXPI_MASTER_TICK) == CXPI_DONE && two_at(state, CXPI_MASTER_DELAY_AT) == 1);
    IS(master_does(CXPI_MASTER_TICK) == CXPI_DONE && master_is(CXPI_SLEEP, CXPI_OPEN, CXPI_CLOCK_OFF));
}

static void probe_master(void) {
    make_set();
    IS(read_set(1024) == CXPI_DONE);
    probe_master_power_on();
    probe_master_wake_up();
    probe_master_answers();
    probe_shorter_answers();
    probe_causes();
    probe_reasons();
    probe_master_sleep();
    IS(explained(sizeof reply) == CXPI_NEEDS_NORMAL && reply[CXPI_REASON_AT] == 0 && is_painted(reply, CXPI_REASON_LENGTH));
    event[0] = CXPI_MASTER_TICK;
    for (size_t room = CXPI_MASTER_REPLY_LENGTH - 1; room <= CXPI_MASTER_REPLY_LENGTH; room++) {
        uint32_t number = room < CXPI_MASTER_REPLY_LENGTH ? CXPI_BUFFER_SHORT : CXPI_DONE;
        IS(cxpi_master_step(plan, CXPI_PLAN_LENGTH, state, CXPI_MASTER_LENGTH, event, 1, reply, room) == number);
    }
    IS(cxpi_master_step(plan, CXPI_PLAN_LENGTH, state, CXPI_MASTER_LENGTH - 1, event, 1, reply, sizeof reply) == CXPI_NO_STATE);
    IS(cxpi_master_step(plan, CXPI_PLAN_LENGTH + 1, state, 0, event, 1, reply, sizeof reply) == CXPI_WRONG_REVISION);
}

/* The node */

static uint32_t step_node(uint8_t node, size_t length) {
    memset(reply, PAINT, sizeof reply);
    return cxpi_node_step(plan, CXPI_PLAN_LENGTH, node, state, CXPI_NODE_LENGTH, event, length, reply, sizeof reply);
}

static uint32_t node_does(uint8_t node, uint8_t kind) {
    event[0] = kind;
    return step_node(node, CXPI_PLAIN_EVENT_LENGTH);
}

static uint32_t node_gets(uint8_t node, uint8_t kind, uint8_t value) {
    memset(event, 0, sizeof event);
    event[0] = kind;
    event[CXPI_EVENT_VALUE_AT] = value;
    return step_node(node, CXPI_VALUE_EVENT_LENGTH);
}

static bool sends(uint8_t permission, uint8_t wake, uint8_t count) {
    return reply[CXPI_NODE_REPLY_COMMAND_AT] == CXPI_SEND_ANSWER && reply[CXPI_NODE_REPLY_PERMISSION_AT] == permission &&
           reply[CXPI_NODE_REPLY_WAKE_AT] == wake && reply[CXPI_NODE_REPLY_COUNT_AT] == count;
}

static void node_to_power_on(void) {
    memset(state, PAINT, sizeof state);
    IS(cxpi_node_power_on(plan, CXPI_PLAN_LENGTH, state, CXPI_NODE_LENGTH - 1) == CXPI_BUFFER_SHORT && is_painted(state, 0));
    IS(cxpi_node_power_on(plan, CXPI_PLAN_LENGTH - 1, state, CXPI_NODE_LENGTH) == CXPI_WRONG_REVISION && is_painted(state, 0));
    IS(cxpi_node_power_on(plan, CXPI_PLAN_LENGTH, state, CXPI_NODE_LENGTH) == CXPI_DONE);
    IS(state[CXPI_NODE_STATE_AT] == CXPI_SLEEP);
    IS(is_painted(state, CXPI_NODE_LENGTH) && !is_painted(state, CXPI_NODE_LENGTH - 1));
    IS(CXPI_NODE_COUNTS_AT + CXPI_REQIDS == CXPI_NODE_LENGTH);
}

static void probe_node_wake_up(void) {
    node_to_power_on();
    IS(node_does(1, CXPI_NODE_PULSE) == CXPI_DONE && state[CXPI_NODE_STATE_AT] == CXPI_STANDBY);
    IS(state[CXPI_NODE_CALLER_AT] == 0 && reply[CXPI_NODE_REPLY_COMMAND_AT] == CXPI_NODE_NOTHING);
    IS(node_does(1, CXPI_NODE_WAKE) == CXPI_DONE && reply[CXPI_NODE_REPLY_COMMAND_AT] == CXPI_SEND_PULSE);
    IS(state[CXPI_NODE_CALLER_AT] == 1 && state[CXPI_NODE_WAKE_AT] == 1 && state[CXPI_NODE_ERROR_AT] == 0);
    IS(node_gets(1, CXPI_NODE_TICK, 0) == CXPI_DONE && four_at(state, CXPI_NODE_STANDBY_AT) == 1);
    IS(node_gets(1, CXPI_NODE_TICK, 1) == CXPI_DONE && state[CXPI_NODE_STATE_AT] == CXPI_NORMAL);
    IS(node_gets(1, CXPI_NODE_TICK, 0) == CXPI_DONE && two_at(state, CXPI_NODE_QUIET_AT) == 1);
    for (int tick = 0; tick < 3; tick++) {
        IS(state[CXPI_NODE_ERROR_AT] == 0 && node_gets(1, CXPI_NODE_TICK, 0) == CXPI_DONE);
    }
    IS(state[CXPI_NODE_ERROR_AT] == 1 && two_at(state, CXPI_NODE_QUIET_AT) == 4);
    IS(node_gets(1, CXPI_NODE_TICK, 1) == CXPI_DONE && state[CXPI_NODE_ERROR_AT] == 0);
}

/* Goes on from there: Normal, the wake bit set. */
static void probe_node_messages(void) {
    IS(node_gets(1, CXPI_NODE_REQUEST, 17) == CXPI_DONE && sends(0, 1, 0) && state[CXPI_NODE_HEARD_AT] == 1);
    IS(is_painted(reply, CXPI_NODE_REPLY_LENGTH) && !is_painted(reply, CXPI_NODE_REPLY_LENGTH - 1));
    IS(state[CXPI_NODE_WAKE_AT] == 0 && state[CXPI_NODE_COUNTS_AT + 17] == 1);
    IS(node_gets(1, CXPI_NODE_PERMISSION, 1) == CXPI_DONE && state[CXPI_NODE_PERMISSION_AT] == 1);
    IS(node_gets(1, CXPI_NODE_SEND, 17) == CXPI_DONE && node_gets(1, CXPI_NODE_SEND, 17) == CXPI_DONE && sends(1, 0, 2));
    IS(node_gets(1, CXPI_NODE_SEND, 18) == CXPI_NO_REQID && reply[CXPI_NODE_REPLY_COMMAND_AT] == CXPI_NODE_NOTHING);
    IS(node_does(1, CXPI_NODE_SLEEP_MESSAGE) == CXPI_DONE);
    IS(state[CXPI_NODE_DELAY_AT] == 1 && two_at(state, CXPI_NODE_DELAY_TICKS_AT) == 0);
    IS(node_gets(1, CXPI_NODE_TICK, 1) == CXPI_DONE && two_at(state, CXPI_NODE_DELAY_TICKS_AT) == 1);
    IS(node_gets(1, CXPI_NODE_TICK, 1) == CXPI_DONE && node_gets(1, CXPI_NODE_TICK, 1) == CXPI_DONE);
    IS(state[CXPI_NODE_STATE_AT] == CXPI_SLEEP && state[CXPI_NODE_PERMISSION_AT] == 1);
    IS(node_does(1, CXPI_NODE_SLEEP_MESSAGE) == CXPI_NEEDS_NORMAL);
}

/* Node 0 is polled: it sends only after a request. */
static void probe_polled_node(void) {
    node_to_power_on();
    IS(node_gets(0, CXPI_NODE_TICK, 1) == CXPI_DONE && node_gets(0, CXPI_NODE_TICK, 1) == CXPI_DONE);
    IS(node_gets(0, CXPI_NODE_SEND, 16) == CXPI_NOT_ASKED);
    IS(node_gets(0, CXPI_NODE_REQUEST, 16) == CXPI_DONE && sends(0, 0, 0));
    IS(node_gets(0, CXPI_NODE_SEND, 16) == CXPI_DONE && sends(0, 0, 1));
}

static void probe_node(void) {
    make_set();
    IS(read_set(1024) == CXPI_DONE);
    probe_node_wake_up();
    probe_node_messages();
    probe_polled_node();
    event[0] = CXPI_NODE_PULSE;
    for (size_t room = CXPI_NODE_REPLY_LENGTH - 1; room <= CXPI_NODE_REPLY_LENGTH; room++) {
        uint32_t number = room < CXPI_NODE_REPLY_LENGTH ? CXPI_BUFFER_SHORT : CXPI_DONE;
        IS(cxpi_node_step(plan, CXPI_PLAN_LENGTH, 0, state, CXPI_NODE_LENGTH, event, 1, reply, room) == number);
    }
    IS(node_does(3, CXPI_NODE_PULSE) == CXPI_NO_STATE);
    IS(step_node(0, 0) == CXPI_NO_EVENT);
}

/* Panels that never sleep: Normal from power-on on, no sleep message, and the profile as the reason. */
static void probe_never_sleeps(void) {
    make_set();
    set[5] = 1;
    mend_checks(1024);
    IS(read_set(1024) == CXPI_DONE);
    IS(cxpi_master_power_on(plan, CXPI_PLAN_LENGTH, state, CXPI_MASTER_LENGTH) == CXPI_DONE);
    IS(state[CXPI_MASTER_STATE_AT] == CXPI_NORMAL && state[CXPI_MASTER_PHASE_AT] == CXPI_OPEN);
    IS(master_does(CXPI_MASTER_SLEEP) == CXPI_NEVER_SLEEPS && master_is(CXPI_NORMAL, CXPI_OPEN, CXPI_MASTER_NOTHING));
    IS(reason_is(CXPI_REASON_PROFILE, 0, 0));
    state[CXPI_MASTER_PHASE_AT] = CXPI_SENDING;
    IS(master_does(CXPI_MASTER_TICK) == CXPI_NO_STATE);
    IS(cxpi_node_power_on(plan, CXPI_PLAN_LENGTH, state, CXPI_NODE_LENGTH) == CXPI_DONE);
    IS(state[CXPI_NODE_STATE_AT] == CXPI_NORMAL);
    IS(node_does(0, CXPI_NODE_SLEEP_MESSAGE) == CXPI_NEVER_SLEEPS && state[CXPI_NODE_DELAY_AT] == 0);
    state[CXPI_NODE_DELAY_AT] = 1;
    IS(node_gets(0, CXPI_NODE_TICK, 1) == CXPI_NO_STATE);
}

/* A list of events: fewer replies than events is refused, and a list's reply is its step's. */
static void probe_batch(void) {
    struct cxpi_master_event events[2] = {{.kind = CXPI_MASTER_WAKE}, {.kind = CXPI_MASTER_SLEEP}};
    struct cxpi_master_reply replies[2] = {{9, 9, 9, 9}, {9, 9, 9, 9}};
    make_set();
    IS(cxpi_read(set, 1024, plan, CXPI_PLAN_LENGTH) == CXPI_DONE);
    IS(cxpi_master_power_on(plan, CXPI_PLAN_LENGTH, state, CXPI_MASTER_LENGTH) == CXPI_DONE);
    IS(cxpi_master_batch(plan, CXPI_PLAN_LENGTH, state, CXPI_MASTER_LENGTH, events, 2, replies, 1) == CXPI_REPLIES_SHORT);
    IS(replies[0].refusal == 9 && state[CXPI_MASTER_STATE_AT] == CXPI_SLEEP);
    IS(cxpi_master_batch(plan, CXPI_PLAN_LENGTH, state, CXPI_MASTER_LENGTH, events, 2, replies, 2) == CXPI_DONE);
    IS(replies[0].refusal == CXPI_DONE && state[CXPI_MASTER_STATE_AT] == CXPI_STANDBY);
    IS(replies[1].refusal == CXPI_NEEDS_NORMAL && replies[1].command == CXPI_MASTER_NOTHING);
}

/* A list with a shorter and a longer answer of node 1's row as a variable one. */
static void probe_batch_of_lengths(void) {
    struct cxpi_master_event events[2] = {{.kind = CXPI_MASTER_ANSWER, .reqid = 17, .length = 16, .permission = 1},
                                          {.kind = CXPI_MASTER_ANSWER, .reqid = 17, .length = 18, .permission = 1}};
    struct cxpi_master_reply replies[2];
    plan[CXPI_PLAN_ROWS_AT + CXPI_ROW_LENGTH + CXPI_ROW_KIND_AT] = CXPI_VARIABLE;
    state[CXPI_MASTER_STATE_AT] = CXPI_NORMAL;
    IS(cxpi_master_batch(plan, CXPI_PLAN_LENGTH, state, CXPI_MASTER_LENGTH, events, 1, replies, 1) == CXPI_DONE && holds(1, 1, 0));
    IS(cxpi_master_batch(plan, CXPI_PLAN_LENGTH, state, CXPI_MASTER_LENGTH, events, 2, replies, 2) == CXPI_DONE && holds(1, 0, 0));
    IS(replies[0].refusal == CXPI_DONE && replies[1].refusal == CXPI_WRONG_LENGTH && has_cause(1, CXPI_CAUSE_DAMAGED));
}

/* The node configuration */

static uint8_t identity[ROOM], answer[ROOM], address, answer_length;

static void make_identity(void) {
    memset(identity, 0, sizeof identity);
    put_two(identity, CXPI_IDENTITY_SUPPLIER_AT, 0x0123);
    put_two(identity, CXPI_IDENTITY_FUNCTION_AT, 0x4567);
    identity[CXPI_IDENTITY_VARIANT_AT] = 0x89;
    put_two(identity, CXPI_IDENTITY_SERIAL_NUMBER_AT, 0xABCD);
    put_two(identity, CXPI_IDENTITY_SERIAL_NUMBER_AT + 2, 0xEF10);
}

/* A request of a service and an identifier, with bytes behind them or none. */
static uint32_t configure(uint8_t service, uint32_t identifier, const char *bytes, size_t length, size_t room) {
    uint8_t request[8] = {service};
    put_two(request, 1, identifier);
    memcpy(request + 3, bytes, length);
    memset(answer, PAINT, sizeof answer);
    return cxpi_node_configure(identity, CXPI_IDENTITY_LENGTH, &address, request, 3 + length, answer, room, &answer_length);
}

static uint32_t read_data(uint32_t identifier, size_t room) {
    return configure(CXPI_READ_DATA_BY_IDENTIFIER, identifier, "", 0, room);
}

static bool answers(const char *bytes, size_t length) {
    return answer_length == length && memcmp(answer, bytes, length) == 0 && is_painted(answer, length);
}

static void probe_configuration(void) {
    make_identity();
    IS(configure(CXPI_WRITE_DATA_BY_IDENTIFIER, CXPI_ASSIGN_NODE_ADDRESS, "\x01\x23\x45\x67\x41", 5, ROOM) == CXPI_DONE);
    IS(answers("\x6E\xFF\x07", 3) && address == 0x41);
    IS(read_data(CXPI_NODE_PRODUCT_IDENTIFICATION, CXPI_CONFIGURATION_LENGTH) == CXPI_DONE);
    IS(answers("\x62\xFF\x05\x01\x23\x45\x67\x89", 8));
    IS(read_data(CXPI_NODE_PRODUCT_IDENTIFICATION, CXPI_CONFIGURATION_LENGTH - 1) == CXPI_BUFFER_SHORT && answer_length == 0);
    IS(read_data(CXPI_NODE_SERIAL_NUMBER_IDENTIFICATION, ROOM) == CXPI_DONE);
    IS(answers("\x62\xF1\x8C\xAB\xCD\xEF\x10", 7));
    IS(configure(CXPI_READ_DATA_BY_IDENTIFIER, CXPI_NODE_PRODUCT_IDENTIFICATION, "\x00", 1, ROOM) == CXPI_WRONG_REQUEST);
    IS(read_data(CXPI_ASSIGN_NODE_ADDRESS, ROOM) == CXPI_NOT_SUPPORTED);
    IS(cxpi_node_configure(identity, CXPI_IDENTITY_LENGTH - 1, &address, event, 0, answer, 0, &answer_length) == CXPI_NO_STATE);
    /* no call takes these: by Table A.1 */
    IS(CXPI_ASSIGN_FRAME_IDENTIFIER_RANGE == 0xFF02 && CXPI_SAVE_CONFIGURATION == 0xFF03);
    IS(CXPI_NODE_CONFIGURATION_FILE_AVAILABILITY == 0xFF04 && CXPI_DATA_DUMP == 0xFF06);
}

int main(void) {
    IS(cxpi_version() == CXPI_VERSION);
    probe_plan();
    probe_lengths_of_sets();
    probe_refusals_of_sets();
    probe_kinds_of_rows();
    probe_master();
    probe_node();
    probe_never_sleeps();
    probe_batch();
    probe_batch_of_lengths();
    probe_configuration();
    printf("%u probes by the header's constants, %u wrong\n", probes, wrong);
    return wrong == 0 ? EXIT_SUCCESS : EXIT_FAILURE;
}
