/* The calls that are measured: exports, the independent implementation and functions that do nothing, on the same inputs of a plan. */
#ifndef WORKLOADS_H
#define WORKLOADS_H

#include <string.h>

#include "reference_packed.h"
#include "subject.h"

typedef struct {
    uint32_t (*read)(const uint8_t *, size_t, uint8_t *, size_t);
    uint32_t (*write)(const uint8_t *, size_t, uint8_t *, size_t, uint16_t *);
    uint32_t (*master_power_on)(const uint8_t *, size_t, uint8_t *, size_t);
    uint32_t (*node_power_on)(const uint8_t *, size_t, uint8_t *, size_t);
    uint32_t (*master_step)(const uint8_t *, size_t, uint8_t *, size_t, const uint8_t *, size_t, uint8_t *, size_t);
    uint32_t (*node_step)(const uint8_t *, size_t, uint8_t, uint8_t *, size_t, const uint8_t *, size_t, uint8_t *, size_t);
    uint32_t (*master_batch)(const uint8_t *, size_t, uint8_t *, size_t, const struct cxpi_master_event *, size_t,
                             struct cxpi_master_reply *, size_t);
} side;

static const side product = {cxpi_read,        cxpi_write,     cxpi_master_power_on, cxpi_node_power_on,
                             cxpi_master_step, cxpi_node_step, cxpi_master_batch};
static const side baseline = {reference_cxpi_read,
                              reference_cxpi_write,
                              reference_cxpi_master_power_on,
                              reference_cxpi_node_power_on,
                              reference_cxpi_master_step,
                              reference_cxpi_node_step,
                              reference_cxpi_master_batch};

/* Functions that do nothing, for what the harness itself takes. */

static uint32_t no_read(const uint8_t *from, size_t from_length, uint8_t *to, size_t to_length) {
    (void)from, (void)from_length, (void)to, (void)to_length;
    return 0;
}

static uint32_t no_write(const uint8_t *from, size_t from_length, uint8_t *to, size_t to_length, uint16_t *length) {
    (void)from, (void)from_length, (void)to, (void)to_length, (void)length;
    return 0;
}

static uint32_t no_power_on(const uint8_t *plan, size_t plan_length, uint8_t *state, size_t state_length) {
    (void)plan, (void)plan_length, (void)state, (void)state_length;
    return 0;
}

static uint32_t no_master_step(const uint8_t *plan, size_t plan_length, uint8_t *state, size_t state_length, const uint8_t *event,
                               size_t event_length, uint8_t *reply, size_t reply_length) {
    (void)plan, (void)plan_length, (void)state, (void)state_length, (void)event, (void)event_length, (void)reply, (void)reply_length;
    return 0;
}

static uint32_t no_node_step(const uint8_t *plan, size_t plan_length, uint8_t node, uint8_t *state, size_t state_length,
                             const uint8_t *event, size_t event_length, uint8_t *reply, size_t reply_length) {
    (void)plan, (void)plan_length, (void)node, (void)state, (void)state_length, (void)event, (void)event_length, (void)reply,
        (void)reply_length;
    return 0;
}

static uint32_t no_master_batch(const uint8_t *plan, size_t plan_length, uint8_t *state, size_t state_length,
                                const struct cxpi_master_event *events, size_t event_count, struct cxpi_master_reply *replies,
                                size_t reply_count) {
    (void)plan, (void)plan_length, (void)state, (void)state_length, (void)events, (void)event_count, (void)replies, (void)reply_count;
    return 0;
}

static const side nothing = {no_read, no_write, no_power_on, no_power_on, no_master_step, no_node_step, no_master_batch};

/* Inputs of a plan */

static uint8_t set[CXPI_SET_LENGTH_TWO];
static uint16_t set_length;
static uint8_t plan[CXPI_PLAN_LENGTH];
static uint8_t requests[REFERENCE_ROWS]; /* the ReqId of each row */
static size_t request_count;
static uint8_t answers[REFERENCE_ROWS][9]; /* a whole answer with permission for each row of a node */
static size_t answer_count;
static uint8_t master[CXPI_MASTER_LENGTH];
static uint8_t held_master[CXPI_MASTER_LENGTH]; /* Normal, all permissions held */
static size_t held_ticks;                       /* for which they stay so */
static uint8_t node_number;                     /* the node that steps: a polled one */
static uint8_t node[CXPI_NODE_LENGTH];
static uint8_t set_room[CXPI_SET_LENGTH_TWO];
static uint8_t plan_room[CXPI_PLAN_LENGTH];
static uint8_t state_room[CXPI_MASTER_LENGTH];

static void make_requests(const reference_plan *record) {
    request_count = answer_count = 0;
    for (size_t place = 0; place < record->row_count; place++) {
        const reference_row *row = &record->rows[place];
        requests[request_count++] = row->reqid;
        if (row->publisher != REFERENCE_MASTER_PUBLISHER) {
            uint8_t event[9] = {CXPI_MASTER_ANSWER, row->reqid, 0, 0, 0, row->length, (uint8_t)(place % 4), 1, 0};
            memcpy(answers[answer_count++], event, sizeof event);
        }
    }
}

static void make_master(const reference_plan *record) {
    reference_cxpi_master_power_on(plan, sizeof plan, held_master, sizeof held_master);
    held_master[0] = CXPI_NORMAL;
    for (size_t number = 0; number < record->node_count; number++) {
        held_master[9 + 3 * number] = 1;
    }
    memcpy(master, held_master, sizeof master);
    held_ticks = record->times.window < 32 ? record->times.window : 32;
}

static void make_node(const reference_plan *record) {
    static const uint8_t to_normal[2] = {CXPI_NODE_TICK, 1};
    uint8_t reply[CXPI_NODE_REPLY_LENGTH];
    node_number = record->node_count / 2;
    while (!record->nodes[node_number].polled) {
        node_number++;
    }
    reference_cxpi_node_power_on(plan, sizeof plan, node, sizeof node);
    for (int tick = 0; tick < 2; tick++) {
        reference_cxpi_node_step(plan, sizeof plan, node_number, node, sizeof node, to_normal, sizeof to_normal, reply, sizeof reply);
    }
}

static void make_inputs(const reference_plan *record) {
    reference_write(record, set, sizeof set, &set_length);
    reference_pack_plan(record, plan);
    make_requests(record);
    make_master(record);
    make_node(record);
}

/* Workloads: each makes one call that is not refused, and gives 0; turn runs through the rows */

static uint32_t run_read(const side *tested, size_t turn) {
    (void)turn;
    return tested->read(set, set_length, plan_room, sizeof plan_room);
}

static uint32_t run_write(const side *tested, size_t turn) {
    uint16_t length;
    (void)turn;
    return tested->write(plan, sizeof plan, set_room, sizeof set_room, &length);
}

static uint32_t run_master_power_on(const side *tested, size_t turn) {
    (void)turn;
    return tested->master_power_on(plan, sizeof plan, state_room, sizeof state_room);
}

static uint32_t run_node_power_on(const side *tested, size_t turn) {
    (void)turn;
    return tested->node_power_on(plan, sizeof plan, state_room, sizeof state_room);
}

static uint32_t run_master_answer(const side *tested, size_t turn) {
    uint8_t reply[CXPI_MASTER_REPLY_LENGTH];
    return tested->master_step(plan, sizeof plan, master, sizeof master, answers[turn % answer_count], 9, reply, sizeof reply);
}

static uint32_t run_master_tick(const side *tested, size_t turn) {
    static const uint8_t event[1] = {CXPI_MASTER_TICK};
    uint8_t reply[CXPI_MASTER_REPLY_LENGTH];
    if (turn % held_ticks == 0) {
        memcpy(master, held_master, sizeof master);
    }
    return tested->master_step(plan, sizeof plan, master, sizeof master, event, sizeof event, reply, sizeof reply);
}

static uint32_t run_node_request(const side *tested, size_t turn) {
    uint8_t event[2] = {CXPI_NODE_REQUEST, requests[turn % request_count]};
    uint8_t reply[CXPI_NODE_REPLY_LENGTH];
    return tested->node_step(plan, sizeof plan, node_number, node, sizeof node, event, sizeof event, reply, sizeof reply);
}

static uint32_t run_node_tick(const side *tested, size_t turn) {
    static const uint8_t event[2] = {CXPI_NODE_TICK, 1};
    uint8_t reply[CXPI_NODE_REPLY_LENGTH];
    (void)turn;
    return tested->node_step(plan, sizeof plan, node_number, node, sizeof node, event, sizeof event, reply, sizeof reply);
}

/* A frame slot: whole answers, and a tick after each third. */
enum { SLOT = 32 };

static struct cxpi_master_event slot[SLOT];

static void fill_slot(size_t turn) {
    memcpy(master, held_master, sizeof master);
    for (size_t place = 0; place < SLOT; place++) {
        const uint8_t *answer = answers[(turn * SLOT + place) % answer_count];
        slot[place] = (struct cxpi_master_event){.kind = CXPI_MASTER_TICK};
        if (place % 4 != 3) {
            slot[place] = (struct cxpi_master_event){.kind = CXPI_MASTER_ANSWER,
                                                     .reqid = answer[CXPI_ANSWER_REQID_AT],
                                                     .length = answer[CXPI_ANSWER_DATA_LENGTH_AT + 1],
                                                     .count = answer[CXPI_ANSWER_COUNT_AT],
                                                     .permission = 1};
        }
    }
}

static uint32_t run_master_batch(const side *tested, size_t turn) {
    struct cxpi_master_reply replies[SLOT];
    fill_slot(turn);
    return tested->master_batch(plan, sizeof plan, master, sizeof master, slot, SLOT, replies, SLOT);
}

/* The same slot, a call for each event. */
static uint32_t run_slot_by_steps(const side *tested, size_t turn) {
    static const uint8_t tick[1] = {CXPI_MASTER_TICK};
    uint8_t reply[CXPI_MASTER_REPLY_LENGTH];
    uint32_t refused = 0;
    fill_slot(turn);
    for (size_t place = 0; place < SLOT; place++) {
        const uint8_t *answer = answers[(turn * SLOT + place) % answer_count];
        bool is_tick = place % 4 == 3;
        refused |= tested->master_step(plan, sizeof plan, master, sizeof master, is_tick ? tick : answer, is_tick ? 1 : 9, reply,
                                       sizeof reply);
    }
    return refused;
}

typedef struct {
    const char *name;
    uint32_t (*run)(const side *, size_t);
} workload;

static const workload workloads[] = {
    {"`cxpi_read`", run_read},
    {"`cxpi_write`", run_write},
    {"`cxpi_master_power_on`", run_master_power_on},
    {"`cxpi_node_power_on`", run_node_power_on},
    {"`cxpi_master_step`, an answer", run_master_answer},
    {"`cxpi_master_step`, a tick", run_master_tick},
    {"`cxpi_node_step`, a request", run_node_request},
    {"`cxpi_node_step`, a tick", run_node_tick},
    {"`cxpi_master_batch`, 32 events", run_master_batch},
    {"`cxpi_master_step`, the same 32", run_slot_by_steps},
};

enum { WORKLOADS = sizeof workloads / sizeof workloads[0] };

#endif
