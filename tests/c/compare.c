/* Compares the exports with the independent implementation on random input, right and wrong: what they return and every lent byte,
 * guards included. The same arguments give the same run.
 *
 * Compile, product:   gcc -std=c11 -O2 -Wall -Wextra -Werror -pedantic -Iinclude -Itests/independent tests/c/compare.c
 *                     tests/independent/reference_packed.c tests/independent/reference.c libcxpi.a -o compare
 * Compile, reference: the same with -DCXPI_REFERENCE and without libcxpi.a
 * Run:                ./compare [STEPS [SETS [SEED]]], by default 10,000,000 steps and 1,000,000 sets */
#include <inttypes.h>
#include <stdio.h>
#include <stdlib.h>

#include "chance.h"
#include "lent.h"
#include "reference_packed.h"
#include "subject.h"

static void put_two(uint8_t *bytes, uint32_t number) {
    bytes[0] = (uint8_t)(number >> 8);
    bytes[1] = (uint8_t)number;
}

/* What came */

enum { READ, WRITE, MASTER_POWER_ON, NODE_POWER_ON, MASTER_STEP, NODE_STEP, MASTER_BATCH, MASTER_WHY, EXPORTS };

static const char *const export_names[EXPORTS] = {"cxpi_read",        "cxpi_write",     "cxpi_master_power_on", "cxpi_node_power_on",
                                                  "cxpi_master_step", "cxpi_node_step", "cxpi_master_batch",    "cxpi_master_why"};

enum { NUMBERS = 26, OTHER_NUMBER = NUMBERS };

/* The numbers that include/cxpi.h names for each export; -1 ends a list. */
static const int expected_numbers[EXPORTS][NUMBERS] = {
    {0, 1, 2, 3, 4, 5, 6, 7, 8, 9, 10, -1},
    {0, 3, 4, 5, 6, 7, 8, 10, -1},
    {0, 3, 4, 5, 6, 7, 8, 10, -1},
    {0, 3, 4, 5, 6, 7, 8, 10, -1},
    {0, 3, 4, 5, 6, 7, 8, 10, 11, 12, 13, 14, 15, 16, 17, 18, 19, 20, 25, -1},
    {0, 3, 4, 5, 6, 7, 8, 10, 11, 12, 15, 16, 21, 25, -1},
    {0, 22, -1},
    {0, 3, 4, 5, 6, 7, 8, 10, 11, 16, -1},
};

static uint64_t came[EXPORTS][OTHER_NUMBER + 1];
static uint64_t lengths[2];             /* of sets written: 1,024 and 1,536 */
static uint64_t named[REFERENCE_NODES]; /* by 20 */
static uint64_t commands[2][4];         /* of the master, of a node */
static uint64_t lost[4];
static uint64_t judged_lengths[4][3]; /* of answers neither damaged nor otherwise refused, by kind of row: shorter, the row's, longer */
static uint64_t round_trips;
static uint64_t power_ons[2]; /* by profile */
static uint64_t batch_events; /* in lists that were not refused */
static uint64_t reasons[6];
static uint64_t explained[REFERENCE_NODES]; /* nodes that were the reason */
static uint64_t causes[5];                  /* of these */
static uint64_t differences;

static void count_result(int export, uint32_t result) {
    came[export][result < NUMBERS ? result : OTHER_NUMBER]++;
}

static void differ(int export, uint32_t got, uint32_t wanted) {
    differences++;
    if (differences <= 20) {
        printf("%s: returned %" PRIu32 ", the reference %" PRIu32 "%s\n", export_names[export], got, wanted,
               got == wanted ? ", and lent bytes differ" : "");
    }
}

/* Plans */

static reference_times random_times(void) {
    reference_times times;
    uint16_t *all[7] = {&times.window, &times.stop, &times.sleep, &times.quiet, &times.recovery, &times.space, &times.start};
    bool large = percent(10);
    for (size_t time = 0; time < 7; time++) {
        *all[time] = (uint16_t)(large ? (percent(30) ? 30000 : between(1, 30000)) : between(1, 6));
    }
    if (!large) {
        times.window = (uint16_t)between(1, 60);
    }
    if (times.sleep < times.stop) {
        times.sleep = times.stop;
    }
    return times;
}

static void random_nodes(reference_plan *plan) {
    plan->node_count = (uint8_t)(percent(50) ? between(1, 3) : percent(20) ? REFERENCE_NODES : between(1, REFERENCE_NODES));
    uint32_t address = between(1, 125);
    uint32_t stride = between(1, 124); /* 125 is 5 times 5 times 5, so other strides meet no address twice */
    if (stride % 5 == 0) {
        stride++;
    }
    for (size_t number = 0; number < plan->node_count; number++) {
        plan->nodes[number] = (reference_node_entry){(uint8_t)address, (uint8_t)between(1, 3), (uint8_t)below(2), 0};
        address = (address + stride - 1) % 125 + 1;
    }
}

static void random_rows(reference_plan *plan) {
    uint32_t sizes[4] = {between(plan->node_count, 127), 100, 101, 127};
    plan->row_count = (uint16_t)sizes[percent(70) ? 0 : below(4)];
    uint32_t left = plan->row_count;
    for (uint32_t reqid = 1; reqid < CXPI_REQIDS; reqid++) {
        if (below(128 - reqid) < left) {
            plan->rows[plan->row_count - left] =
                (reference_row){(uint8_t)reqid, percent(15) ? REFERENCE_MASTER_PUBLISHER : (uint8_t)below(plan->node_count),
                                percent(50) ? (uint8_t)below(4) : random_byte(), (uint8_t)below(REFERENCE_VARIABLE_COUNTED + 1)};
            left--;
        }
    }
    uint32_t first = below(plan->row_count);
    for (uint32_t number = 0; number < plan->node_count; number++) {
        plan->rows[(first + number) % plan->row_count].publisher = (uint8_t)number;
    }
}

static void random_plan(reference_plan *plan) {
    memset(plan, 0, sizeof *plan);
    plan->revision = (uint16_t)between(1, 65535);
    plan->profile = percent(25);
    plan->times = random_times();
    random_nodes(plan);
    random_rows(plan);
}

/* Bytes in the places of a packed plan that its counts leave unused. */
static void litter_plan(const reference_plan *plan, uint8_t *bytes) {
    random_bytes(bytes + 19 + 4 * plan->node_count, 4 * (size_t)(REFERENCE_NODES - plan->node_count));
    random_bytes(bytes + 83 + 4 * plan->row_count, 4 * (size_t)(REFERENCE_ROWS - plan->row_count));
}

/* Breaks one rule of a packed plan, more often than not. */
static void break_plan(const reference_plan *plan, uint8_t *bytes) {
    uint8_t *node = bytes + 19 + 4 * below(plan->node_count);
    uint8_t *row = bytes + 83 + 4 * below(plan->row_count);
    uint8_t silent = (uint8_t)below(plan->node_count);
    switch (below(11)) {
    case 0:
        put_two(bytes, 0);
        break;
    case 1:
        put_two(bytes + 5 + 2 * below(7), percent(30) ? 0 : percent(50) ? 30001 : below(65536));
        break;
    case 2: /* S about D */
        put_two(bytes + 9, plan->times.stop - below(2));
        break;
    case 3:
        bytes[2] = percent(50) ? (uint8_t)(16 + below(3)) : another_byte(bytes[2]);
        break;
    case 4:
        node[below(4)] = random_byte() & (percent(50) ? 255 : 3);
        break;
    case 5:
        node[0] = percent(50) ? bytes[19] : (uint8_t)(124 + below(4));
        break;
    case 6:
        put_two(bytes + 3, percent(50) ? 127 + below(3) : percent(50) ? below(65536) : plan->row_count + 256u);
        break;
    case 7:
        row += below(4);
        *row = another_byte(*row);
        break;
    case 8:
        bytes[CXPI_PLAN_PROFILE_AT] = percent(50) ? 2 : another_byte(bytes[CXPI_PLAN_PROFILE_AT]);
        break;
    case 9: /* a kind about the last */
        row[CXPI_ROW_KIND_AT] = (uint8_t)between(2, 5);
        break;
    default: /* a node's rows become the master's */
        for (size_t place = 0; place < plan->row_count; place++) {
            if (bytes[83 + 4 * place + 1] == silent) {
                bytes[83 + 4 * place + 1] = REFERENCE_MASTER_PUBLISHER;
            }
        }
        break;
    }
}

/* Sets and their records */

static lent subject_set, reference_set, subject_plan, reference_plan_bytes;

static void compare_read(const uint8_t *set, size_t length, size_t room) {
    lent_fill(&subject_set, set, length);
    lent_paint(&subject_plan, room);
    reference_set = subject_set;
    reference_plan_bytes = subject_plan;
    uint32_t got = cxpi_read(lent_bytes(&subject_set), length, lent_bytes(&subject_plan), room);
    uint32_t wanted = reference_cxpi_read(lent_bytes(&reference_set), length, lent_bytes(&reference_plan_bytes), room);
    count_result(READ, wanted);
    if (got != wanted || !lent_same(&subject_set, &reference_set) || !lent_same(&subject_plan, &reference_plan_bytes)) {
        differ(READ, got, wanted);
    }
}

static void compare_write(const uint8_t *plan, size_t length, size_t room) {
    lent_fill(&subject_plan, plan, length);
    lent_paint(&subject_set, room);
    reference_plan_bytes = subject_plan;
    reference_set = subject_set;
    uint16_t got_length = 0xA5A5;
    uint16_t wanted_length = 0xA5A5;
    uint32_t got = cxpi_write(lent_bytes(&subject_plan), length, lent_bytes(&subject_set), room, &got_length);
    uint32_t wanted =
        reference_cxpi_write(lent_bytes(&reference_plan_bytes), length, lent_bytes(&reference_set), room, &wanted_length);
    count_result(WRITE, wanted);
    if (wanted == CXPI_DONE) {
        lengths[wanted_length == CXPI_SET_LENGTH_TWO]++;
    }
    if (got != wanted || got_length != wanted_length || !lent_same(&subject_set, &reference_set) ||
        !lent_same(&subject_plan, &reference_plan_bytes)) {
        differ(WRITE, got, wanted);
    }
}

/* A set that reads is written back as it was. */
static void check_round_trip(const uint8_t *set, size_t length) {
    uint8_t plan[CXPI_PLAN_LENGTH];
    uint8_t back[CXPI_SET_LENGTH_TWO];
    if (cxpi_read(set, length, plan, sizeof plan) != CXPI_DONE) {
        return;
    }
    uint16_t written;
    round_trips++;
    uint32_t got = cxpi_write(plan, sizeof plan, back, sizeof back, &written);
    if (got != CXPI_DONE || written != length || memcmp(set, back, length) != 0) {
        differ(WRITE, got, CXPI_DONE);
    }
}

static void mend_check(uint8_t *block) {
    uint32_t sum = 0;
    for (uint32_t offset = 0; offset < 510; offset++) {
        sum += (offset + 1) * block[offset];
    }
    put_two(block + 510, sum % 65521);
}

static void mend_checks(uint8_t *set, size_t length) {
    for (size_t block = 0; block + 512 <= length; block += 512) {
        mend_check(set + block);
    }
}

/* A place of a set where a rule looks. */
static size_t likely_offset(const reference_plan *plan, size_t length) {
    size_t block = 512 * below((uint32_t)(length / 512));
    size_t rows = plan->row_count < 100 ? plan->row_count : 100;
    if (percent(10)) {
        return below((uint32_t)length);
    }
    if (block == 0) {
        return percent(60) ? below(20) : 32 + below(4u * plan->node_count);
    }
    return block + (percent(30) ? below(8) : 8 + below((uint32_t)(4 * rows)));
}

static void damage_set(const reference_plan *plan, uint8_t *set, size_t length) {
    uint8_t silent = (uint8_t)below(plan->node_count);
    switch (below(10)) {
    case 0: /* a node's rows become the master's */
        for (size_t row = 0; row < plan->row_count; row++) {
            uint8_t *publisher = set + (row < 100 ? 521 + 4 * row : 1033 + 4 * (row - 100));
            *publisher = *publisher == silent ? REFERENCE_MASTER_PUBLISHER : *publisher;
        }
        break;
    case 1: /* revision 0 in all blocks */
        for (size_t block = 0; block < length; block += 512) {
            put_two(set + block + 2, 0);
        }
        break;
    case 2: /* another row count in the last block */
        set[length - 512 + 4] = (uint8_t)between(0, 101);
        break;
    default:
        for (uint32_t more = between(1, 3); more > 0; more--) {
            size_t offset = likely_offset(plan, length);
            set[offset] = another_byte(set[offset]);
        }
        break;
    }
    if (percent(85)) {
        mend_checks(set, length);
    }
}

static size_t odd_length(void) {
    static const size_t lengths[] = {0, 1, 511, 512, 513, 1023, 1024, 1025, 1535, 1536, 1537, 2048};
    return percent(50) ? lengths[below(sizeof lengths / sizeof lengths[0])] : below(2049);
}

static size_t random_room(size_t needed) {
    return percent(90) ? needed + (percent(50) ? 0 : below(40)) : needed - 1 - below(percent(50) ? 1 : (uint32_t)needed);
}

/* A right set and its packed plan, which the next sets are made of. */
static reference_plan set_plan;
static uint8_t packed_plan[CXPI_PLAN_LENGTH];
static uint8_t right_set[LENT_ROOM];
static uint16_t right_length;

static void next_right_set(void) {
    random_plan(&set_plan);
    reference_pack_plan(&set_plan, packed_plan);
    memset(right_set, 0, sizeof right_set);
    reference_write(&set_plan, right_set, sizeof right_set, &right_length);
}

static void compare_a_set(void) {
    static uint8_t set[LENT_ROOM];
    uint32_t kind = below(100);
    size_t length = right_length;
    memcpy(set, right_set, sizeof set);
    if (kind < 65) {
        damage_set(&set_plan, set, length);
    } else if (kind < 70) {
        length = odd_length();
    } else if (kind < 75) {
        length = percent(70) ? (percent(50) ? CXPI_SET_LENGTH_ONE : CXPI_SET_LENGTH_TWO) : odd_length();
        random_bytes(set, length);
        if (percent(50)) {
            mend_checks(set, length);
        }
    } else if (kind < 80) { /* the length of the other kind of set */
        length = length == CXPI_SET_LENGTH_ONE ? CXPI_SET_LENGTH_TWO : CXPI_SET_LENGTH_ONE;
    }
    compare_read(set, length, random_room(CXPI_PLAN_LENGTH));
    if (kind >= 80) {
        check_round_trip(set, length);
    }
}

/* The packed plan, littered, broken or of another length at times; gives its length. */
static size_t lent_plan_of_set(uint8_t *plan) {
    size_t length = CXPI_PLAN_LENGTH;
    memset(plan, 0, LENT_ROOM);
    memcpy(plan, packed_plan, CXPI_PLAN_LENGTH);
    if (percent(50)) {
        litter_plan(&set_plan, plan);
    }
    if (percent(60)) {
        for (uint32_t more = between(1, 2); more > 0; more--) {
            break_plan(&set_plan, plan);
        }
    }
    if (percent(3)) {
        random_bytes(plan, CXPI_PLAN_LENGTH);
    }
    if (percent(4)) {
        length = percent(50) ? CXPI_PLAN_LENGTH - 1 + 2 * below(2) : below(1000);
    }
    return length;
}

static void compare_a_plan(void) {
    static uint8_t plan[LENT_ROOM];
    size_t length = lent_plan_of_set(plan);
    compare_write(plan, length, random_room(right_length));
}

static void compare_sets(uint64_t sets) {
    for (uint64_t set = 0; set < sets; set++) {
        if (set % 4 == 0) {
            next_right_set();
        }
        compare_a_set();
        compare_a_plan();
    }
}

/* Power-on */

enum { POWER_ONS = 4000 };

typedef uint32_t power_on(const uint8_t *plan, size_t plan_length, uint8_t *state, size_t state_length);

static lent subject_state, reference_state;

static void compare_power_on(int export, power_on *subject, power_on *reference, size_t needed) {
    static uint8_t plan[LENT_ROOM];
    size_t length = lent_plan_of_set(plan);
    size_t room = random_room(needed);
    lent_fill(&subject_plan, plan, length);
    lent_paint(&subject_state, room);
    reference_plan_bytes = subject_plan;
    reference_state = subject_state;
    uint32_t got = subject(lent_bytes(&subject_plan), length, lent_bytes(&subject_state), room);
    uint32_t wanted = reference(lent_bytes(&reference_plan_bytes), length, lent_bytes(&reference_state), room);
    count_result(export, wanted);
    if (wanted == CXPI_DONE) {
        power_ons[plan[CXPI_PLAN_PROFILE_AT]]++;
    }
    if (got != wanted || !lent_same(&subject_plan, &reference_plan_bytes) || !lent_same(&subject_state, &reference_state)) {
        differ(export, got, wanted);
    }
}

static void compare_power_ons(void) {
    for (size_t made = 0; made < POWER_ONS; made++) {
        next_right_set();
        compare_power_on(MASTER_POWER_ON, cxpi_master_power_on, reference_cxpi_master_power_on, CXPI_MASTER_LENGTH);
        compare_power_on(NODE_POWER_ON, cxpi_node_power_on, reference_cxpi_node_power_on, CXPI_NODE_LENGTH);
    }
}

/* Steps: networks whose states walk on under accepted plans */

enum { PLANS = 256, BROKEN_PLANS = 1024, NETWORKS = 64 };

typedef struct {
    reference_plan record;
    uint8_t bytes[LENT_ROOM]; /* packed, zeros behind */
} pool_plan;

typedef struct {
    const pool_plan *plan;
    uint8_t master[CXPI_MASTER_LENGTH];
    uint8_t nodes[REFERENCE_NODES][CXPI_NODE_LENGTH];
} network;

static pool_plan plans[PLANS];
static uint8_t broken_plans[BROKEN_PLANS][CXPI_PLAN_LENGTH];
static network networks[NETWORKS];

static void make_pool(void) {
    for (size_t place = 0; place < PLANS; place++) {
        random_plan(&plans[place].record);
        reference_pack_plan(&plans[place].record, plans[place].bytes);
        if (percent(50)) {
            litter_plan(&plans[place].record, plans[place].bytes);
        }
    }
    for (size_t place = 0; place < BROKEN_PLANS; place++) {
        const pool_plan *whole = &plans[below(PLANS)];
        memcpy(broken_plans[place], whole->bytes, CXPI_PLAN_LENGTH);
        for (uint32_t more = between(1, 2); more > 0; more--) {
            break_plan(&whole->record, broken_plans[place]);
        }
    }
}

/* A number up to a limit, often at its ends. */
static uint32_t up_to(uint32_t limit) {
    return percent(25) ? limit : percent(25) ? 0 : below(limit + 1);
}

/* Whether a state is to be one of panels that never sleep; where limits may be passed it is so only at times. */
static bool never_sleeps(const reference_plan *plan, uint32_t beyond) {
    return plan->profile == 1 && (beyond == 0 || percent(50));
}

/* Any master's state in range; beyond is 0, or 1 to let each limit be passed by one. */
static void random_master(const reference_plan *plan, uint8_t *state, uint32_t beyond) {
    bool awake = never_sleeps(plan, beyond);
    bool ready = percent(40); /* for a sleep ask, but for one node at times, so that 20 names any */
    uint32_t held_share = ready || percent(20) ? 100 : below(101);
    memset(state, 0, CXPI_MASTER_LENGTH);
    state[0] = (uint8_t)(awake || ready || percent(50) ? CXPI_NORMAL : below(3));
    state[1] = (uint8_t)(state[0] == CXPI_NORMAL && !awake && !ready ? below(4) : CXPI_OPEN);
    state[2] = ready || percent(60);
    if (state[0] == CXPI_STANDBY) {
        put_two(state + 3, up_to(plan->times.start - 1u + beyond));
    } else if (state[1] == CXPI_CLOSING) {
        put_two(state + 3, up_to(plan->times.stop - 1u + beyond));
    } else {
        put_two(state + 3, below(8) == 0 ? beyond : 0);
    }
    if (percent(30)) {
        memset(state + 5, 255, 4);
    } else {
        random_bytes(state + 5, 4);
    }
    for (size_t number = 0; number < plan->node_count; number++) {
        if (percent(held_share)) {
            state[9 + 3 * number] = 1;
            put_two(state + 10 + 3 * number, up_to(plan->times.window + beyond));
        }
    }
    if (percent(60)) {
        memset(state + 9 + 3 * below(plan->node_count), 0, 3);
    }
    for (size_t reqid = 0; reqid < REFERENCE_REQIDS; reqid++) {
        state[57 + reqid] = (uint8_t)below(5);
    }
    for (size_t number = 0; number < REFERENCE_NODES; number++) {
        bool may_have_one = state[0] == CXPI_NORMAL && number < plan->node_count && !state[9 + 3 * number];
        uint32_t most = may_have_one ? REFERENCE_CAUSE_WAKE : REFERENCE_CAUSE_NEW;
        state[185 + number] = (uint8_t)(below(32) == 0 ? most + beyond : below(most + 1));
    }
}

static void random_node(const reference_plan *plan, uint8_t *state, uint32_t beyond) {
    bool awake = never_sleeps(plan, beyond);
    memset(state, 0, CXPI_NODE_LENGTH);
    state[0] = (uint8_t)(awake ? CXPI_NORMAL : below(3));
    for (size_t flag = 1; flag <= 4; flag++) {
        state[flag] = (uint8_t)below(2);
    }
    put_two(state + 6, up_to(plan->times.quiet + beyond));
    if (!awake && percent(40)) {
        state[8] = 1;
        put_two(state + 9, up_to(plan->times.sleep - 1u + beyond));
    }
    if (state[0] == CXPI_STANDBY) {
        state[5] = (uint8_t)below(2);
        put_two(state + 13, up_to(state[5] ? 2u * plan->times.recovery + beyond : plan->times.space - 1u + beyond));
    }
    for (size_t reqid = 0; reqid < REFERENCE_REQIDS; reqid++) {
        state[15 + reqid] = (uint8_t)below(4);
    }
}

static void start_network(network *started) {
    started->plan = &plans[below(PLANS)];
    reference_cxpi_master_power_on(started->plan->bytes, CXPI_PLAN_LENGTH, started->master, CXPI_MASTER_LENGTH);
    for (size_t number = 0; number < REFERENCE_NODES; number++) {
        reference_cxpi_node_power_on(started->plan->bytes, CXPI_PLAN_LENGTH, started->nodes[number], CXPI_NODE_LENGTH);
    }
    if (percent(30)) {
        random_master(&started->plan->record, started->master, 0);
        for (size_t number = 0; number < started->plan->record.node_count; number++) {
            random_node(&started->plan->record, started->nodes[number], 0);
        }
    }
}

static const reference_row *random_row(const reference_plan *plan) {
    return &plan->rows[below(plan->row_count)];
}

/* Mostly a ReqId of the plan. */
static uint8_t random_reqid(const reference_plan *plan) {
    return percent(90) ? random_row(plan)->reqid : percent(80) ? (uint8_t)below(128) : random_byte();
}

static uint8_t random_flag(uint32_t share) {
    return percent(1) ? random_byte() : percent(share);
}

/* Room for any event, and for bytes that are none. */
enum { EVENT_ROOM = 12 };

/* Mostly a length that the row accepts, else one at the edges of what it does. */
static uint32_t random_length(const reference_row *row) {
    uint32_t own = row->length;
    const uint32_t edges[] = {0, own - 1, own, own + 1, 255, own + 256};
    if (percent(94)) {
        return reference_row_is_variable(row) && percent(60) ? below(own + 1) : own;
    }
    return percent(80) ? edges[below(sizeof edges / sizeof edges[0])] : below(65536);
}

static size_t random_answer_event(const reference_plan *plan, uint8_t *event) {
    const reference_row *row = random_row(plan);
    event[0] = CXPI_MASTER_ANSWER;
    event[1] = percent(95) ? row->reqid : random_reqid(plan);
    put_two(event + 2, percent(94) ? 0 : percent(50) ? 256 : below(65536));
    put_two(event + 4, random_length(row));
    event[6] = (uint8_t)(percent(99) ? below(4) : random_byte());
    event[7] = random_flag(90);
    event[8] = random_flag(4);
    return 9;
}

static size_t random_master_event(const reference_plan *plan, uint8_t *event) {
    uint32_t kind = below(100);
    if (kind < 30) {
        event[0] = CXPI_MASTER_TICK;
        return 1;
    }
    if (kind < 72) {
        return random_answer_event(plan, event);
    }
    if (kind < 76) {
        event[0] = (uint8_t)(percent(50) ? CXPI_MASTER_PULSE : CXPI_MASTER_WAKE);
        return 1;
    }
    if (kind < 82) {
        event[0] = CXPI_MASTER_PERMISSION;
        event[1] = random_flag(80);
        return 2;
    }
    if (kind < 91) {
        event[0] = CXPI_MASTER_SLEEP;
        return 1;
    }
    event[0] = CXPI_MASTER_SEND_RESULT;
    event[1] = random_flag(80);
    return 2;
}

static size_t random_node_event(const reference_plan *plan, uint8_t *event) {
    uint32_t kind = below(100);
    if (kind < 45) {
        event[0] = CXPI_NODE_TICK;
        event[1] = random_flag(45);
        return 2;
    }
    if (kind < 53) {
        event[0] = (uint8_t)(percent(50) ? CXPI_NODE_PULSE : CXPI_NODE_WAKE);
        return 1;
    }
    if (kind < 60) {
        event[0] = CXPI_NODE_PERMISSION;
        event[1] = random_flag(50);
        return 2;
    }
    if (kind < 66) {
        event[0] = CXPI_NODE_SLEEP_MESSAGE;
        return 1;
    }
    event[0] = (uint8_t)(percent(50) ? CXPI_NODE_REQUEST : CXPI_NODE_SEND);
    event[1] = random_reqid(plan);
    return 2;
}

static size_t spoil_event(uint8_t *event, size_t length) {
    if (percent(40)) {
        event[below((uint32_t)length)] = random_byte();
        return length;
    }
    if (percent(50)) {
        return below(EVENT_ROOM);
    }
    random_bytes(event, EVENT_ROOM);
    return percent(50) ? below(EVENT_ROOM) : between(1, 2);
}

/* One step as it is lent. */
typedef struct {
    const uint8_t *plan;
    size_t plan_length;
    uint8_t number;
    uint8_t state[LENT_ROOM];
    size_t state_length;
    uint8_t event[EVENT_ROOM];
    size_t event_length;
    size_t reply_length;
} step;

static void choose_plan(step *made, const pool_plan *plan) {
    made->plan = plan->bytes;
    made->plan_length = CXPI_PLAN_LENGTH;
    if (percent(4)) {
        made->plan = broken_plans[below(BROKEN_PLANS)];
    } else if (percent(1)) {
        made->plan_length = percent(50) ? CXPI_PLAN_LENGTH - 1 + 2 * below(2) : below(1000);
    }
}

/* Takes the walking state, or one made for this step alone; says whether it is the walking one. */
static bool choose_state(step *made, const reference_plan *plan, const uint8_t *walking, bool master) {
    void (*random_state)(const reference_plan *, uint8_t *, uint32_t) = master ? random_master : random_node;
    size_t length = master ? CXPI_MASTER_LENGTH : CXPI_NODE_LENGTH;
    uint32_t kind = below(100);
    made->state_length = length;
    memcpy(made->state, walking, length);
    if (kind < 86) {
        return true;
    }
    if (kind < 92) {
        random_state(plan, made->state, 0);
    } else if (kind < 95) {
        random_state(plan, made->state, 1);
    } else if (kind < 98) {
        size_t offset = percent(50) ? below(57) : below((uint32_t)length);
        made->state[offset] = another_byte(made->state[offset]);
    } else if (kind < 99) {
        random_bytes(made->state, length);
    } else {
        made->state_length = percent(50) ? length - 1 + 2 * below(2) : below(400);
        memset(made->state + length, 0, 400 - length);
    }
    return false;
}

static void choose_event(step *made, const reference_plan *plan, bool master) {
    made->event_length = master ? random_master_event(plan, made->event) : random_node_event(plan, made->event);
    if (percent(4)) {
        made->event_length = spoil_event(made->event, made->event_length);
    }
}

static void choose_reply(step *made, size_t needed) {
    made->reply_length = percent(98) ? needed + (percent(50) ? 0 : below(9)) : below((uint32_t)needed);
}

/* The buffers of both sides; the reference's copies are made from the subject's before the call. */
static lent subject_step_plan, subject_event, subject_reply, reference_step_plan, reference_event, reference_reply;

static void lend_step(const step *made) {
    lent_fill(&subject_step_plan, made->plan, made->plan_length);
    lent_fill(&subject_state, made->state, made->state_length);
    lent_fill(&subject_event, made->event, made->event_length);
    lent_paint(&subject_reply, made->reply_length);
    lent_fill(&reference_step_plan, made->plan, made->plan_length);
    lent_fill(&reference_state, made->state, made->state_length);
    lent_fill(&reference_event, made->event, made->event_length);
    lent_paint(&reference_reply, made->reply_length);
}

static bool step_same(void) {
    return lent_same(&subject_step_plan, &reference_step_plan) && lent_same(&subject_state, &reference_state) &&
           lent_same(&subject_event, &reference_event) && lent_same(&subject_reply, &reference_reply);
}

static void count_step(int export, uint32_t wanted) {
    const uint8_t *reply = lent_bytes(&reference_reply);
    count_result(export, wanted);
    if (wanted == CXPI_DONE) {
        commands[export == NODE_STEP][reply[0] & 3]++;
        if (export == MASTER_STEP) {
            lost[reply[1] & 3]++;
        }
    }
    if (wanted == CXPI_NOT_HELD && reply[2] < REFERENCE_NODES) {
        named[reply[2]]++;
    }
}

static void count_length(const reference_plan *plan, const uint8_t *event) {
    if (event[0] == CXPI_MASTER_ANSWER) {
        const reference_row *row = reference_find_row(plan, event[1]);
        uint32_t length = (uint32_t)event[4] << 8 | event[5];
        judged_lengths[row->kind][length < row->length ? 0 : length == row->length ? 1 : 2]++;
    }
}

static void compare_master_step(network *walked) {
    static step made;
    const reference_plan *plan = &walked->plan->record;
    choose_plan(&made, walked->plan);
    bool walking = choose_state(&made, plan, walked->master, true);
    choose_event(&made, plan, true);
    choose_reply(&made, CXPI_MASTER_REPLY_LENGTH);
    lend_step(&made);
    uint32_t got = cxpi_master_step(lent_bytes(&subject_step_plan), made.plan_length, lent_bytes(&subject_state), made.state_length,
                                    lent_bytes(&subject_event), made.event_length, lent_bytes(&subject_reply), made.reply_length);
    uint32_t wanted =
        reference_cxpi_master_step(lent_bytes(&reference_step_plan), made.plan_length, lent_bytes(&reference_state), made.state_length,
                                   lent_bytes(&reference_event), made.event_length, lent_bytes(&reference_reply), made.reply_length);
    count_step(MASTER_STEP, wanted);
    if (made.plan == walked->plan->bytes && (wanted == CXPI_DONE || wanted == CXPI_WRONG_LENGTH)) {
        count_length(plan, made.event);
    }
    if (got != wanted || !step_same()) {
        differ(MASTER_STEP, got, wanted);
    }
    if (walking && made.plan == walked->plan->bytes) {
        memcpy(walked->master, lent_bytes(&reference_state), CXPI_MASTER_LENGTH);
    }
}

static void compare_node_step(network *walked) {
    static step made;
    const reference_plan *plan = &walked->plan->record;
    uint8_t number = (uint8_t)below(plan->node_count);
    choose_plan(&made, walked->plan);
    bool walking = choose_state(&made, plan, walked->nodes[number], false);
    choose_event(&made, plan, false);
    choose_reply(&made, CXPI_NODE_REPLY_LENGTH);
    made.number = percent(98) ? number : percent(50) ? plan->node_count : random_byte();
    lend_step(&made);
    uint32_t got =
        cxpi_node_step(lent_bytes(&subject_step_plan), made.plan_length, made.number, lent_bytes(&subject_state), made.state_length,
                       lent_bytes(&subject_event), made.event_length, lent_bytes(&subject_reply), made.reply_length);
    uint32_t wanted = reference_cxpi_node_step(lent_bytes(&reference_step_plan), made.plan_length, made.number,
                                               lent_bytes(&reference_state), made.state_length, lent_bytes(&reference_event),
                                               made.event_length, lent_bytes(&reference_reply), made.reply_length);
    count_step(NODE_STEP, wanted);
    if (got != wanted || !step_same()) {
        differ(NODE_STEP, got, wanted);
    }
    if (walking && made.plan == walked->plan->bytes) {
        memcpy(walked->nodes[number], lent_bytes(&reference_state), CXPI_NODE_LENGTH);
    }
}

/* Lists of the master's events, against the reference and against a step for each event */

enum { MOST_EVENTS = 40, MOST_REPLIES = MOST_EVENTS + 8 };

static struct cxpi_master_event batch[MOST_EVENTS];
static struct cxpi_master_reply subject_replies[MOST_REPLIES], reference_replies[MOST_REPLIES];

static void random_event_record(const reference_plan *plan, struct cxpi_master_event *record) {
    uint8_t event[EVENT_ROOM], *bytes = (uint8_t *)record;
    random_bytes(bytes, sizeof *record);
    size_t length = random_master_event(plan, event);
    record->kind = event[0];
    if (length == 9) {
        record->reqid = event[1];
        record->result = (uint16_t)(event[2] << 8 | event[3]);
        record->length = (uint16_t)(event[4] << 8 | event[5]);
        record->count = event[6];
        record->permission = event[7];
        record->wake = event[8];
    } else if (length == 2) {
        record->flag = event[1];
    }
    if (percent(4)) {
        bytes[below(sizeof *record)] = random_byte();
    }
}

/* The bytes of the same event; an unknown kind by itself is none either. */
static size_t event_bytes(const struct cxpi_master_event *record, uint8_t *event) {
    event[0] = record->kind;
    if (record->kind == CXPI_MASTER_ANSWER) {
        event[1] = record->reqid;
        put_two(event + 2, record->result);
        put_two(event + 4, record->length);
        event[6] = record->count;
        event[7] = record->permission;
        event[8] = record->wake;
        return 9;
    }
    event[1] = record->flag;
    return record->kind == CXPI_MASTER_PERMISSION || record->kind == CXPI_MASTER_SEND_RESULT ? 2 : 1;
}

/* Says whether steps event by event leave the state and the replies of the reference's list. */
static bool steps_agree(const step *made, size_t count) {
    uint8_t event[EVENT_ROOM], reply[CXPI_MASTER_REPLY_LENGTH];
    bool same = true;
    lent_fill(&subject_state, made->state, made->state_length);
    for (size_t place = 0; place < count; place++) {
        const struct cxpi_master_reply *given = &reference_replies[place];
        size_t length = event_bytes(&batch[place], event);
        uint32_t refusal = cxpi_master_step(lent_bytes(&subject_step_plan), made->plan_length, lent_bytes(&subject_state),
                                            made->state_length, event, length, reply, sizeof reply);
        same = same && refusal == given->refusal && reply[0] == given->command && reply[1] == given->lost && reply[2] == given->node;
    }
    return same && lent_same(&subject_state, &reference_state);
}

static void compare_master_batch(network *walked) {
    static step made;
    const reference_plan *plan = &walked->plan->record;
    size_t count = below(MOST_EVENTS + 1);
    size_t room = percent(90) ? count + (percent(50) ? 0 : below(9)) : below((uint32_t)count + 1);
    choose_plan(&made, walked->plan);
    bool walking = choose_state(&made, plan, walked->master, true);
    for (size_t place = 0; place < count; place++) {
        random_event_record(plan, &batch[place]);
    }
    lend_step(&made);
    memset(subject_replies, LENT_PAINT, sizeof subject_replies);
    memset(reference_replies, LENT_PAINT, sizeof reference_replies);
    uint32_t got = cxpi_master_batch(lent_bytes(&subject_step_plan), made.plan_length, lent_bytes(&subject_state), made.state_length,
                                     batch, count, subject_replies, room);
    uint32_t wanted = reference_cxpi_master_batch(lent_bytes(&reference_step_plan), made.plan_length, lent_bytes(&reference_state),
                                                  made.state_length, batch, count, reference_replies, room);
    count_result(MASTER_BATCH, wanted);
    bool same = step_same() && memcmp(subject_replies, reference_replies, sizeof subject_replies) == 0;
    if (wanted == CXPI_DONE) {
        batch_events += count;
        same = same && steps_agree(&made, count);
    }
    if (got != wanted || !same) {
        differ(MASTER_BATCH, got, wanted);
    }
    if (walking && made.plan == walked->plan->bytes) {
        memcpy(walked->master, lent_bytes(&reference_state), CXPI_MASTER_LENGTH);
    }
}

/* Why the bus is awake, asked of a walking state or of one made for this question alone */

static void count_why(uint32_t wanted) {
    const uint8_t *reply = lent_bytes(&reference_reply);
    count_result(MASTER_WHY, wanted);
    if (wanted == CXPI_DONE) {
        reasons[reply[0]]++;
        if (reply[0] == CXPI_REASON_NODE) {
            explained[reply[1]]++;
            causes[reply[2]]++;
        }
    }
}

static void compare_master_why(const network *walked) {
    static step made; /* without an event */
    choose_plan(&made, walked->plan);
    choose_state(&made, &walked->plan->record, walked->master, true);
    choose_reply(&made, CXPI_REASON_LENGTH);
    lend_step(&made);
    uint32_t got = cxpi_master_why(lent_bytes(&subject_step_plan), made.plan_length, lent_bytes(&subject_state), made.state_length,
                                   lent_bytes(&subject_reply), made.reply_length);
    uint32_t wanted = reference_cxpi_master_why(lent_bytes(&reference_step_plan), made.plan_length, lent_bytes(&reference_state),
                                                made.state_length, lent_bytes(&reference_reply), made.reply_length);
    count_why(wanted);
    if (got != wanted || !step_same()) {
        differ(MASTER_WHY, got, wanted);
    }
}

static void compare_steps(uint64_t steps) {
    make_pool();
    for (size_t place = 0; place < NETWORKS; place++) {
        start_network(&networks[place]);
    }
    for (uint64_t made = 0; made < steps; made++) {
        network *walked = &networks[below(NETWORKS)];
        if (below(2000) == 0) {
            start_network(walked);
        }
        if (percent(3)) {
            compare_master_batch(walked);
        } else if (percent(50)) {
            compare_master_step(walked);
        } else {
            compare_node_step(walked);
        }
        compare_master_why(walked);
    }
}

/* The table, and whether all came that can */

static bool print_results(int export) {
    bool all = true;
    printf("%s\n", export_names[export]);
    for (const int *expected = expected_numbers[export]; *expected >= 0; expected++) {
        bool some = came[export][*expected] > 0;
        printf("  %4d %12" PRIu64 "%s\n", *expected, came[export][*expected], some ? "" : "  never came");
        all = all && some;
    }
    return all;
}

static bool print_counts(const char *name, const uint64_t *counts, size_t length) {
    bool all = true;
    printf("%-26s", name);
    for (size_t place = 0; place < length; place++) {
        printf(" %" PRIu64, counts[place]);
        all = all && counts[place] > 0;
    }
    printf("%s\n", all ? "" : "  (one never came)");
    return all;
}

static bool print_table(bool sets, bool steps) {
    bool all = true;
    for (int export = 0; export < EXPORTS; export ++) {
        bool run = export == READ || export == WRITE ? sets : export >= MASTER_STEP ? steps : true;
        all = (!run || print_results(export)) && all;
    }
    all = print_counts("power-ons by profile", power_ons, 2) && all;
    if (sets) {
        all = print_counts("sets of 1,024 and 1,536", lengths, 2) && all;
        all = print_counts("round trips", &round_trips, 1) && all;
    }
    if (steps) {
        all = print_counts("20 by node named", named, REFERENCE_NODES) && all;
        all = print_counts("master's commands", commands[0], 4) && all;
        all = print_counts("lost 0 to 3", lost, 4) && all;
        all = print_counts("lengths of fixed rows", judged_lengths[REFERENCE_FIXED], 3) && all;
        all = print_counts("with count", judged_lengths[REFERENCE_FIXED_COUNTED], 3) && all;
        all = print_counts("lengths of variable rows", judged_lengths[REFERENCE_VARIABLE], 3) && all;
        all = print_counts("with count", judged_lengths[REFERENCE_VARIABLE_COUNTED], 3) && all;
        all = print_counts("node's commands", commands[1], 3) && all;
        all = print_counts("reasons", reasons, 6) && all;
        all = print_counts("nodes explained", explained, REFERENCE_NODES) && all;
        all = print_counts("their causes", causes, 5) && all;
    }
    return all;
}

static uint64_t argument(int count, char **arguments, int place, uint64_t otherwise) {
    return count > place ? strtoull(arguments[place], NULL, 10) : otherwise;
}

int main(int count, char **arguments) {
    uint64_t steps = argument(count, arguments, 1, 10000000);
    uint64_t sets = argument(count, arguments, 2, 1000000);
    uint64_t seed = argument(count, arguments, 3, 1);
    chance_seed(seed);
    compare_power_ons();
    compare_sets(sets);
    compare_steps(steps);
    bool all = print_table(sets > 0, steps > 0);
    printf("%" PRIu64 " steps and explanations, %" PRIu64 " events in lists, %" PRIu64 " sets, seed %" PRIu64 ": %" PRIu64 " differences\n", steps,
           batch_events, sets, seed, differences);
    return all && differences == 0 ? EXIT_SUCCESS : EXIT_FAILURE;
}
