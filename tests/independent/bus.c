/* The whole bus of demand 3 over the independent machines: recorded moves, and what a move does to the master and the nodes.
 *
 * Compile: gcc -std=c11 -O2 -Wall -Wextra -Werror -pedantic -c tests/independent/bus.c */
#include "bus.h"

/* Recorded moves */

static uint16_t number_at(const uint8_t *bytes, size_t offset) {
    return (uint16_t)(bytes[offset] << 8 | bytes[offset + 1]);
}

static void put_number(uint8_t *bytes, size_t offset, uint16_t number) {
    bytes[offset] = (uint8_t)(number >> 8);
    bytes[offset + 1] = (uint8_t)number;
}

static bool value_is_flag(uint8_t act) {
    return act == REFERENCE_ACT_NODE_PERMISSION || act == REFERENCE_ACT_MASTER_PERMISSION || act == REFERENCE_ACT_SEND_RESULT;
}

/* Flags and fate are judged in every record, whatever its act. */
bool reference_decode_move(const uint8_t *record, reference_move *move) {
    *move = (reference_move){.act = record[0],
                             .node = record[1],
                             .value = record[2],
                             .fate = record[3],
                             .reached = number_at(record, 4),
                             .hearing = number_at(record, 6),
                             .master_hears = record[8],
                             .result = number_at(record, 9),
                             .length = number_at(record, 11),
                             .count = record[13],
                             .permission = record[14],
                             .wake = record[15]};
    return move->act < REFERENCE_ACTS && move->fate <= REFERENCE_LOST && move->master_hears <= 1 && move->permission <= 1 &&
           move->wake <= 1 && (!value_is_flag(move->act) || move->value <= 1);
}

void reference_encode_move(const reference_move *move, uint8_t *record) {
    record[0] = move->act;
    record[1] = move->node;
    record[2] = move->value;
    record[3] = move->fate;
    put_number(record, 4, move->reached);
    put_number(record, 6, move->hearing);
    record[8] = move->master_hears;
    put_number(record, 9, move->result);
    put_number(record, 11, move->length);
    record[13] = move->count;
    record[14] = move->permission;
    record[15] = move->wake;
}

/* The world */

void reference_world_power_on(const reference_plan *plan, reference_world *world) {
    reference_master_power_on(plan, &world->master);
    for (size_t number = 0; number < REFERENCE_NODES; number++) {
        reference_node_power_on(plan, &world->nodes[number]);
    }
}

bool reference_clock_is_on(const reference_world *world) {
    return world->master.state == REFERENCE_NORMAL;
}

/* The node that 20 names is no part of what a move tells. */
static uint32_t step_master(const reference_plan *plan, reference_world *world, reference_master_event event) {
    reference_master_reply reply;
    return reference_master_act(plan, &world->master, &event, &reply);
}

static uint32_t step_node(const reference_plan *plan, reference_world *world, uint8_t number, reference_node_event event,
                          reference_node_reply *reply) {
    return reference_node_act(plan, number, &world->nodes[number], &event, reply);
}

static bool is_in(uint16_t set, uint8_t number) {
    return (set >> number & 1) != 0;
}

/* A machine never hears its own pulse, so a caller hears only if another called too. */
static void spread_pulses(const reference_plan *plan, reference_world *world, const reference_move *move, uint16_t callers) {
    if (callers == 0) {
        return;
    }
    for (uint8_t number = 0; number < plan->node_count; number++) {
        reference_node_reply reply;
        bool another_called = (callers & ~(1u << number)) != 0;
        if (another_called && is_in(move->hearing, number)) {
            step_node(plan, world, number, (reference_node_event){.kind = REFERENCE_NODE_PULSE}, &reply);
        }
    }
    if (move->master_hears) {
        step_master(plan, world, (reference_master_event){.kind = REFERENCE_MASTER_PULSE});
    }
}

/* A fixed row has the row's own length, a variable one what the move says, or its own where that is above it. */
static uint16_t whole_length(const reference_row *row, const reference_move *move) {
    return reference_row_is_variable(row) && move->length < row->length ? move->length : row->length;
}

/* Whole with a length that the row accepts; damaged with the ReqId kept and all else as the move says. */
static uint32_t deliver_answer(const reference_plan *plan, reference_world *world, const reference_move *move,
                               const reference_node_reply *sent) {
    reference_master_event event = {.kind = REFERENCE_MASTER_ANSWER, .reqid = move->value};
    switch (move->fate) {
    case REFERENCE_WHOLE:
        event.length = whole_length(reference_find_row(plan, move->value), move);
        event.count = sent->count;
        event.permission = sent->permission;
        event.wake = sent->wake;
        break;
    case REFERENCE_DAMAGED:
        event.result = move->result;
        event.length = move->length;
        event.count = move->count;
        event.permission = move->permission;
        event.wake = move->wake;
        break;
    default: /* lost */
        return 0;
    }
    return step_master(plan, world, event);
}

/* The acts; each returns the refusal told */

static uint32_t act_tick(const reference_plan *plan, reference_world *world, const reference_move *move) {
    uint16_t callers = 0;
    step_master(plan, world, (reference_master_event){.kind = REFERENCE_MASTER_TICK});
    reference_node_event event = {.kind = REFERENCE_NODE_TICK, .clock = reference_clock_is_on(world)};
    for (uint8_t number = 0; number < plan->node_count; number++) {
        reference_node_reply reply;
        step_node(plan, world, number, event, &reply);
        if (reply.command == REFERENCE_SEND_PULSE) {
            callers |= (uint16_t)(1u << number);
        }
    }
    spread_pulses(plan, world, move, callers);
    return 0;
}

static uint32_t act_node_wake(const reference_plan *plan, reference_world *world, const reference_move *move) {
    reference_node_reply reply;
    if (move->node >= plan->node_count) {
        return 11;
    }
    uint32_t refusal = step_node(plan, world, move->node, (reference_node_event){.kind = REFERENCE_NODE_WAKE}, &reply);
    if (reply.command == REFERENCE_SEND_PULSE) {
        spread_pulses(plan, world, move, (uint16_t)(1u << move->node));
    }
    return refusal;
}

static uint32_t act_node_permission(const reference_plan *plan, reference_world *world, const reference_move *move) {
    reference_node_reply reply;
    if (move->node >= plan->node_count) {
        return 11;
    }
    reference_node_event event = {.kind = REFERENCE_NODE_PERMISSION, .permission = move->value};
    return step_node(plan, world, move->node, event, &reply);
}

/* A damaged answer has a result other than 0 and a count of 0 to 3; no bus delivers another. */
static bool bus_can_deliver(const reference_move *move) {
    return move->fate != REFERENCE_DAMAGED || (move->result != 0 && move->count <= 3);
}

/* What refuses a request or an ask to send before it reaches anybody, or 0. */
static uint32_t refusal_of_bus(const reference_plan *plan, const reference_world *world, const reference_move *move) {
    if (move->value >= REFERENCE_REQIDS || !bus_can_deliver(move)) {
        return 15;
    }
    if (!reference_clock_is_on(world)) {
        return 16;
    }
    return reference_find_row(plan, move->value) == NULL ? 12 : 0;
}

static uint32_t act_request(const reference_plan *plan, reference_world *world, const reference_move *move) {
    uint32_t refusal = refusal_of_bus(plan, world, move);
    if (refusal != 0) {
        return refusal;
    }
    uint8_t publisher = reference_find_row(plan, move->value)->publisher;
    reference_node_event event = {.kind = REFERENCE_NODE_REQUEST, .reqid = move->value};
    reference_node_reply of_publisher = {0}; /* stays so where the master publishes, or the request misses its publisher */
    for (uint8_t number = 0; number < plan->node_count; number++) {
        if (is_in(move->reached, number)) {
            reference_node_reply reply;
            uint32_t of_node = step_node(plan, world, number, event, &reply);
            if (number == publisher) {
                refusal = of_node;
                of_publisher = reply;
            }
        }
    }
    return of_publisher.command == REFERENCE_SEND_ANSWER ? deliver_answer(plan, world, move, &of_publisher) : refusal;
}

static uint32_t act_send(const reference_plan *plan, reference_world *world, const reference_move *move) {
    reference_node_reply reply;
    if (move->node >= plan->node_count) {
        return 11;
    }
    uint32_t refusal = refusal_of_bus(plan, world, move);
    if (refusal == 0) {
        reference_node_event event = {.kind = REFERENCE_NODE_SEND, .reqid = move->value};
        refusal = step_node(plan, world, move->node, event, &reply);
    }
    return refusal != 0 ? refusal : deliver_answer(plan, world, move, &reply);
}

/* The sleep message reaches nodes with its result, also with a failed one and after a call-back. */
static uint32_t act_send_result(const reference_plan *plan, reference_world *world, const reference_move *move) {
    reference_master_event result = {.kind = REFERENCE_MASTER_SEND_RESULT, .sent = move->value};
    uint32_t refusal = step_master(plan, world, result);
    if (refusal != 0) {
        return refusal;
    }
    for (uint8_t number = 0; number < plan->node_count; number++) {
        reference_node_reply reply;
        if (is_in(move->reached, number)) {
            step_node(plan, world, number, (reference_node_event){.kind = REFERENCE_NODE_SLEEP_MESSAGE}, &reply);
        }
    }
    return 0;
}

uint32_t reference_world_act(const reference_plan *plan, reference_world *world, const reference_move *move) {
    switch (move->act) {
    case REFERENCE_ACT_TICK:
        return act_tick(plan, world, move);
    case REFERENCE_ACT_NODE_WAKE:
        return act_node_wake(plan, world, move);
    case REFERENCE_ACT_MASTER_WAKE:
        return step_master(plan, world, (reference_master_event){.kind = REFERENCE_MASTER_WAKE});
    case REFERENCE_ACT_NODE_PERMISSION:
        return act_node_permission(plan, world, move);
    case REFERENCE_ACT_MASTER_PERMISSION:
        return step_master(plan, world, (reference_master_event){.kind = REFERENCE_MASTER_PERMISSION, .permission = move->value});
    case REFERENCE_ACT_REQUEST:
        return act_request(plan, world, move);
    case REFERENCE_ACT_SEND:
        return act_send(plan, world, move);
    case REFERENCE_ACT_SLEEP:
        return step_master(plan, world, (reference_master_event){.kind = REFERENCE_MASTER_SLEEP});
    default: /* the send result */
        return act_send_result(plan, world, move);
    }
}
