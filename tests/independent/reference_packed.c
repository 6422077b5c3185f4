/* The functions of include/cxpi.h on packed bytes, over the independent implementation.
 *
 * Compile: gcc -std=c11 -O2 -Wall -Wextra -Werror -pedantic -Iinclude -c tests/independent/reference_packed.c */
#include "reference_packed.h"

#include <string.h>

#include "cxpi.h"

static uint16_t get_two(const uint8_t *bytes) {
    return (uint16_t)(bytes[0] << 8 | bytes[1]);
}

static uint32_t get_four(const uint8_t *bytes) {
    return (uint32_t)get_two(bytes) << 16 | get_two(bytes + 2);
}

static void put_two(uint8_t *bytes, uint16_t number) {
    bytes[0] = (uint8_t)(number >> 8);
    bytes[1] = (uint8_t)number;
}

static void put_four(uint8_t *bytes, uint32_t number) {
    put_two(bytes, (uint16_t)(number >> 16));
    put_two(bytes + 2, (uint16_t)number);
}

/* Entries and rows are four bytes in the record as in packed form, so they are copied whole. */
_Static_assert(sizeof(reference_node_entry) == 4, "a node entry has four bytes");
_Static_assert(sizeof(reference_row) == 4, "a row has four bytes");

void reference_pack_plan(const reference_plan *plan, uint8_t *bytes) {
    put_two(bytes, plan->revision);
    bytes[2] = plan->node_count;
    put_two(bytes + 3, plan->row_count);
    put_two(bytes + 5, plan->times.window);
    put_two(bytes + 7, plan->times.stop);
    put_two(bytes + 9, plan->times.sleep);
    put_two(bytes + 11, plan->times.quiet);
    put_two(bytes + 13, plan->times.recovery);
    put_two(bytes + 15, plan->times.space);
    put_two(bytes + 17, plan->times.start);
    memcpy(bytes + 19, plan->nodes, sizeof plan->nodes);
    memcpy(bytes + 83, plan->rows, sizeof plan->rows);
    bytes[591] = plan->profile;
}

void reference_unpack_plan(const uint8_t *bytes, reference_plan *plan) {
    plan->revision = get_two(bytes);
    plan->node_count = bytes[2];
    plan->row_count = get_two(bytes + 3);
    plan->times.window = get_two(bytes + 5);
    plan->times.stop = get_two(bytes + 7);
    plan->times.sleep = get_two(bytes + 9);
    plan->times.quiet = get_two(bytes + 11);
    plan->times.recovery = get_two(bytes + 13);
    plan->times.space = get_two(bytes + 15);
    plan->times.start = get_two(bytes + 17);
    memcpy(plan->nodes, bytes + 19, sizeof plan->nodes);
    memcpy(plan->rows, bytes + 83, sizeof plan->rows);
    plan->profile = bytes[591];
}

/* Unpacks a lent plan; one of another length is the all-zero record. */
static void take_plan(const uint8_t *bytes, size_t length, reference_plan *plan) {
    if (length == CXPI_PLAN_LENGTH) {
        reference_unpack_plan(bytes, plan);
    } else {
        memset(plan, 0, sizeof *plan);
    }
}

uint32_t reference_cxpi_version(void) {
    return 6;
}

uint32_t reference_cxpi_read(const uint8_t *set, size_t set_length, uint8_t *plan, size_t plan_length) {
    reference_plan record;
    uint32_t refusal = reference_read(set, set_length, &record);
    if (plan_length < CXPI_PLAN_LENGTH) {
        return refusal != CXPI_DONE ? refusal : CXPI_BUFFER_SHORT;
    }
    reference_pack_plan(&record, plan);
    return refusal;
}

uint32_t reference_cxpi_write(const uint8_t *plan, size_t plan_length, uint8_t *set, size_t set_length, uint16_t *length) {
    reference_plan record;
    take_plan(plan, plan_length, &record);
    return reference_write(&record, set, set_length, length);
}

/* The master */

void reference_pack_master(const reference_master *master, uint8_t *bytes) {
    bytes[0] = master->state;
    bytes[1] = master->phase;
    bytes[2] = master->own_permission;
    put_two(bytes + 3, master->delay);
    put_four(bytes + 5, master->tick_number);
    for (size_t number = 0; number < REFERENCE_NODES; number++) {
        bytes[9 + 3 * number] = master->permissions[number].held;
        put_two(bytes + 10 + 3 * number, master->permissions[number].age);
    }
    memcpy(bytes + 57, master->last_counts, sizeof master->last_counts);
    memcpy(bytes + 185, master->causes, sizeof master->causes);
}

static void unpack_master(const uint8_t *bytes, reference_master *master) {
    master->state = bytes[0];
    master->phase = bytes[1];
    master->own_permission = bytes[2];
    master->delay = get_two(bytes + 3);
    master->tick_number = get_four(bytes + 5);
    for (size_t number = 0; number < REFERENCE_NODES; number++) {
        master->permissions[number].held = bytes[9 + 3 * number];
        master->permissions[number].age = get_two(bytes + 10 + 3 * number);
    }
    memcpy(master->last_counts, bytes + 57, sizeof master->last_counts);
    memcpy(master->causes, bytes + 185, sizeof master->causes);
}

uint32_t reference_cxpi_master_power_on(const uint8_t *plan, size_t plan_length, uint8_t *state, size_t state_length) {
    reference_plan record;
    reference_master master;
    take_plan(plan, plan_length, &record);
    uint32_t refusal = reference_plan_refusal(&record);
    if (refusal != 0) {
        return refusal;
    }
    if (state_length < CXPI_MASTER_LENGTH) {
        return CXPI_BUFFER_SHORT;
    }
    reference_master_power_on(&record, &master);
    reference_pack_master(&master, state);
    return CXPI_DONE;
}

static size_t master_event_length(uint8_t kind) {
    switch (kind) {
    case CXPI_MASTER_ANSWER:
        return 9;
    case CXPI_MASTER_PERMISSION:
    case CXPI_MASTER_SEND_RESULT:
        return 2;
    default:
        return 1;
    }
}

/* Says whether the bytes have an event's length; the values are judged in the step. */
static bool unpack_master_event(const uint8_t *bytes, size_t length, reference_master_event *event) {
    *event = (reference_master_event){0};
    if (length == 0 || length != master_event_length(bytes[0])) {
        return false;
    }
    event->kind = bytes[0];
    if (event->kind == CXPI_MASTER_ANSWER) {
        event->reqid = bytes[1];
        event->result = get_two(bytes + 2);
        event->length = get_two(bytes + 4);
        event->count = bytes[6];
        event->permission = bytes[7];
        event->wake = bytes[8];
    } else if (event->kind == CXPI_MASTER_PERMISSION) {
        event->permission = bytes[1];
    } else if (event->kind == CXPI_MASTER_SEND_RESULT) {
        event->sent = bytes[1];
    }
    return true;
}

uint32_t reference_cxpi_master_step(const uint8_t *plan, size_t plan_length, uint8_t *state, size_t state_length, const uint8_t *event,
                                    size_t event_length, uint8_t *reply, size_t reply_length) {
    reference_plan record;
    reference_master master;
    reference_master_event happened;
    reference_master_reply given;
    if (reply_length >= CXPI_MASTER_REPLY_LENGTH) {
        memset(reply, 0, CXPI_MASTER_REPLY_LENGTH);
    }
    take_plan(plan, plan_length, &record);
    uint32_t refusal = reference_plan_refusal(&record);
    if (refusal != 0) {
        return refusal;
    }
    if (reply_length < CXPI_MASTER_REPLY_LENGTH) {
        return CXPI_BUFFER_SHORT;
    }
    if (state_length != CXPI_MASTER_LENGTH) {
        return CXPI_NO_STATE;
    }
    unpack_master(state, &master);
    if (!reference_master_in_range(&record, &master)) {
        return CXPI_NO_STATE;
    }
    if (!unpack_master_event(event, event_length, &happened)) {
        return CXPI_NO_EVENT;
    }
    refusal = reference_master_act(&record, &master, &happened, &given);
    if (refusal == CXPI_DONE || refusal == CXPI_DAMAGED || refusal == CXPI_WRONG_LENGTH) {
        reference_pack_master(&master, state);
    }
    reply[0] = given.command;
    reply[1] = given.lost;
    reply[2] = given.node;
    return refusal;
}

static reference_master_event master_event_of(const struct cxpi_master_event *record) {
    return (reference_master_event){.kind = record->kind,
                                    .reqid = record->reqid,
                                    .result = record->result,
                                    .length = record->length,
                                    .count = record->count,
                                    .permission = record->kind == CXPI_MASTER_PERMISSION ? record->flag : record->permission,
                                    .wake = record->wake,
                                    .sent = record->flag};
}

uint32_t reference_cxpi_master_batch(const uint8_t *plan, size_t plan_length, uint8_t *state, size_t state_length,
                                     const struct cxpi_master_event *events, size_t event_count, struct cxpi_master_reply *replies,
                                     size_t reply_count) {
    reference_plan record;
    reference_master master;
    if (reply_count < event_count) {
        return CXPI_REPLIES_SHORT;
    }
    if (event_count == 0) {
        return CXPI_DONE;
    }
    take_plan(plan, plan_length, &record);
    uint32_t standing = reference_plan_refusal(&record);
    if (standing == 0 && state_length != CXPI_MASTER_LENGTH) {
        standing = CXPI_NO_STATE;
    }
    if (standing == 0) {
        unpack_master(state, &master);
        standing = reference_master_in_range(&record, &master) ? CXPI_DONE : CXPI_NO_STATE;
    }
    for (size_t place = 0; place < event_count; place++) {
        reference_master_reply given = {0};
        uint32_t refusal = standing;
        if (standing == 0) {
            reference_master_event event = master_event_of(&events[place]);
            refusal = reference_master_act(&record, &master, &event, &given);
        }
        replies[place] = (struct cxpi_master_reply){(uint8_t)refusal, given.node, given.command, given.lost};
    }
    if (standing == 0) {
        reference_pack_master(&master, state);
    }
    return CXPI_DONE;
}

uint32_t reference_cxpi_master_why(const uint8_t *plan, size_t plan_length, const uint8_t *state, size_t state_length, uint8_t *reply,
                                   size_t reply_length) {
    reference_plan record;
    reference_master master;
    reference_reason reason;
    bool fits = reply_length >= CXPI_REASON_LENGTH;
    if (fits) {
        memset(reply, 0, CXPI_REASON_LENGTH);
    }
    take_plan(plan, plan_length, &record);
    uint32_t refusal = reference_plan_refusal(&record);
    if (refusal != 0) {
        return refusal;
    }
    if (!fits) {
        return CXPI_BUFFER_SHORT;
    }
    if (state_length != CXPI_MASTER_LENGTH) {
        return CXPI_NO_STATE;
    }
    unpack_master(state, &master);
    refusal = reference_master_why(&record, &master, &reason);
    reply[0] = reason.kind;
    reply[1] = reason.node;
    reply[2] = reason.cause;
    return refusal;
}

/* The node */

void reference_pack_node(const reference_node *node, uint8_t *bytes) {
    bytes[0] = node->state;
    bytes[1] = node->permission;
    bytes[2] = node->error;
    bytes[3] = node->wake;
    bytes[4] = node->heard;
    bytes[5] = node->caller;
    put_two(bytes + 6, node->quiet_count);
    bytes[8] = node->delay_runs;
    put_two(bytes + 9, node->delay);
    put_four(bytes + 11, node->standby_count);
    memcpy(bytes + 15, node->counts, sizeof node->counts);
}

static void unpack_node(const uint8_t *bytes, reference_node *node) {
    node->state = bytes[0];
    node->permission = bytes[1];
    node->error = bytes[2];
    node->wake = bytes[3];
    node->heard = bytes[4];
    node->caller = bytes[5];
    node->quiet_count = get_two(bytes + 6);
    node->delay_runs = bytes[8];
    node->delay = get_two(bytes + 9);
    node->standby_count = get_four(bytes + 11);
    memcpy(node->counts, bytes + 15, sizeof node->counts);
}

uint32_t reference_cxpi_node_power_on(const uint8_t *plan, size_t plan_length, uint8_t *state, size_t state_length) {
    reference_plan record;
    reference_node node;
    take_plan(plan, plan_length, &record);
    uint32_t refusal = reference_plan_refusal(&record);
    if (refusal != 0) {
        return refusal;
    }
    if (state_length < CXPI_NODE_LENGTH) {
        return CXPI_BUFFER_SHORT;
    }
    reference_node_power_on(&record, &node);
    reference_pack_node(&node, state);
    return CXPI_DONE;
}

static size_t node_event_length(uint8_t kind) {
    switch (kind) {
    case CXPI_NODE_TICK:
    case CXPI_NODE_PERMISSION:
    case CXPI_NODE_REQUEST:
    case CXPI_NODE_SEND:
        return 2;
    default:
        return 1;
    }
}

/* Says whether the bytes have an event's length; the values are judged in the step. */
static bool unpack_node_event(const uint8_t *bytes, size_t length, reference_node_event *event) {
    *event = (reference_node_event){0};
    if (length == 0 || length != node_event_length(bytes[0])) {
        return false;
    }
    event->kind = bytes[0];
    if (event->kind == CXPI_NODE_TICK) {
        event->clock = bytes[1];
    } else if (event->kind == CXPI_NODE_PERMISSION) {
        event->permission = bytes[1];
    } else if (event->kind == CXPI_NODE_REQUEST || event->kind == CXPI_NODE_SEND) {
        event->reqid = bytes[1];
    }
    return true;
}

uint32_t reference_cxpi_node_step(const uint8_t *plan, size_t plan_length, uint8_t node, uint8_t *state, size_t state_length,
                                  const uint8_t *event, size_t event_length, uint8_t *reply, size_t reply_length) {
    reference_plan record;
    reference_node machine;
    reference_node_event happened;
    reference_node_reply given;
    if (reply_length >= CXPI_NODE_REPLY_LENGTH) {
        memset(reply, 0, CXPI_NODE_REPLY_LENGTH);
    }
    take_plan(plan, plan_length, &record);
    uint32_t refusal = reference_plan_refusal(&record);
    if (refusal != 0) {
        return refusal;
    }
    if (reply_length < CXPI_NODE_REPLY_LENGTH) {
        return CXPI_BUFFER_SHORT;
    }
    if (node >= record.node_count || state_length != CXPI_NODE_LENGTH) {
        return CXPI_NO_STATE;
    }
    unpack_node(state, &machine);
    if (!reference_node_in_range(&record, &machine)) {
        return CXPI_NO_STATE;
    }
    if (!unpack_node_event(event, event_length, &happened)) {
        return CXPI_NO_EVENT;
    }
    refusal = reference_node_act(&record, node, &machine, &happened, &given);
    if (refusal == CXPI_DONE) {
        reference_pack_node(&machine, state);
    }
    reply[0] = given.command;
    reply[1] = given.permission;
    reply[2] = given.wake;
    reply[3] = given.count;
    return refusal;
}
