/* The drill (R6.1 to R6.7) over the independent implementation: reads plan.set in the working folder and moves from standard input. With the
 * argument why it prints a line more after the moves (R6.8).
 *
 * Compile: gcc -std=c11 -O2 -Wall -Wextra -Werror -pedantic tests/independent/drill.c tests/independent/reference.c -o drill
 * Run:     ./drill [why] < moves (tests/independent/check_drill.sh runs the twelve of R6.7) */
#include <inttypes.h>
#include <stdio.h>
#include <string.h>

#include "reference.h"

typedef struct {
    reference_plan plan;
    reference_master master;
    reference_node nodes[REFERENCE_NODES];
} network;

typedef enum { WHOLE, DAMAGED, LOST } passage; /* what the bus does to an answer */

typedef enum { TICK, WAKE, PERMIT, REQUEST, SEND, SLEEP, SENT } move_kind;

enum { MASTER = 255 }; /* X when it is m */

typedef struct {
    move_kind kind;
    uint8_t who;
    uint8_t value; /* permission, or whether the sleep message was sent */
    uint8_t reqid;
    passage passage;
} move;

/* The bus */

static bool clock_is_on(const network *bus) {
    return bus->master.state == REFERENCE_NORMAL;
}

static uint32_t step_master(network *bus, reference_master_event event) {
    reference_master_reply reply;
    return reference_master_act(&bus->plan, &bus->master, &event, &reply);
}

static uint32_t step_node(network *bus, uint8_t number, reference_node_event event, reference_node_reply *reply) {
    return reference_node_act(&bus->plan, number, &bus->nodes[number], &event, reply);
}

static void deliver_pulse(network *bus, uint8_t sender) {
    reference_node_reply reply;
    step_master(bus, (reference_master_event){.kind = REFERENCE_MASTER_PULSE});
    for (uint8_t number = 0; number < bus->plan.node_count; number++) {
        if (number != sender) {
            step_node(bus, number, (reference_node_event){.kind = REFERENCE_NODE_PULSE}, &reply);
        }
    }
}

static uint32_t deliver_answer(network *bus, uint8_t reqid, const reference_node_reply *sent, passage passage) {
    if (passage == LOST) {
        return 0;
    }
    return step_master(bus, (reference_master_event){.kind = REFERENCE_MASTER_ANSWER,
                                                     .reqid = reqid,
                                                     .result = passage == DAMAGED,
                                                     .length = reference_find_row(&bus->plan, reqid)->length,
                                                     .count = sent->count,
                                                     .permission = sent->permission,
                                                     .wake = sent->wake});
}

/* The moves; each returns the refusal to print */

static uint32_t move_tick(network *bus) {
    bool pulses[REFERENCE_NODES] = {false};
    step_master(bus, (reference_master_event){.kind = REFERENCE_MASTER_TICK});
    reference_node_event event = {.kind = REFERENCE_NODE_TICK, .clock = clock_is_on(bus)};
    for (uint8_t number = 0; number < bus->plan.node_count; number++) {
        reference_node_reply reply;
        step_node(bus, number, event, &reply);
        pulses[number] = reply.command == REFERENCE_SEND_PULSE;
    }
    for (uint8_t number = 0; number < bus->plan.node_count; number++) {
        if (pulses[number]) {
            deliver_pulse(bus, number);
        }
    }
    return 0;
}

static uint32_t move_wake(network *bus, uint8_t who) {
    reference_node_reply reply;
    if (who == MASTER) {
        return step_master(bus, (reference_master_event){.kind = REFERENCE_MASTER_WAKE});
    }
    step_node(bus, who, (reference_node_event){.kind = REFERENCE_NODE_WAKE}, &reply);
    if (reply.command == REFERENCE_SEND_PULSE) {
        deliver_pulse(bus, who);
    }
    return 0;
}

static uint32_t move_permit(network *bus, uint8_t who, uint8_t permission) {
    reference_node_reply reply;
    if (who == MASTER) {
        return step_master(bus, (reference_master_event){.kind = REFERENCE_MASTER_PERMISSION, .permission = permission});
    }
    return step_node(bus, who, (reference_node_event){.kind = REFERENCE_NODE_PERMISSION, .permission = permission}, &reply);
}

/* "Without clock, .. 16 and reach nobody; then a ReqId not in the plan gives 12." */
static uint32_t refusal_of_bus(const network *bus, uint8_t reqid) {
    if (!clock_is_on(bus)) {
        return 16;
    }
    return reference_find_row(&bus->plan, reqid) == NULL ? 12 : 0;
}

static uint32_t move_request(network *bus, uint8_t reqid, passage passage) {
    uint32_t refusal = refusal_of_bus(bus, reqid);
    if (refusal != 0) {
        return refusal;
    }
    uint8_t publisher = reference_find_row(&bus->plan, reqid)->publisher;
    reference_node_event event = {.kind = REFERENCE_NODE_REQUEST, .reqid = reqid};
    reference_node_reply reply;
    reference_node_reply of_publisher = {0};
    for (uint8_t number = 0; number < bus->plan.node_count; number++) {
        uint32_t of_node = step_node(bus, number, event, &reply);
        if (number == publisher) {
            refusal = of_node;
            of_publisher = reply;
        }
    }
    if (refusal != 0 || publisher == REFERENCE_MASTER_PUBLISHER) {
        return refusal;
    }
    return deliver_answer(bus, reqid, &of_publisher, passage);
}

static uint32_t move_send(network *bus, uint8_t who, uint8_t reqid, passage passage) {
    reference_node_reply reply;
    uint32_t refusal = refusal_of_bus(bus, reqid);
    if (refusal == 0) {
        refusal = step_node(bus, who, (reference_node_event){.kind = REFERENCE_NODE_SEND, .reqid = reqid}, &reply);
    }
    return refusal != 0 ? refusal : deliver_answer(bus, reqid, &reply, passage);
}

static uint32_t move_sent(network *bus, uint8_t sent) {
    uint32_t refusal = step_master(bus, (reference_master_event){.kind = REFERENCE_MASTER_SEND_RESULT, .sent = sent});
    if (refusal != 0 || !sent) {
        return refusal;
    }
    for (uint8_t number = 0; number < bus->plan.node_count; number++) {
        reference_node_reply reply;
        step_node(bus, number, (reference_node_event){.kind = REFERENCE_NODE_SLEEP_MESSAGE}, &reply);
    }
    return 0;
}

static uint32_t make_move(network *bus, const move *made) {
    switch (made->kind) {
    case TICK:
        return move_tick(bus);
    case WAKE:
        return move_wake(bus, made->who);
    case PERMIT:
        return move_permit(bus, made->who, made->value);
    case REQUEST:
        return move_request(bus, made->reqid, made->passage);
    case SEND:
        return move_send(bus, made->who, made->reqid, made->passage);
    case SLEEP:
        return step_master(bus, (reference_master_event){.kind = REFERENCE_MASTER_SLEEP});
    default:
        return move_sent(bus, made->value);
    }
}

/* Lines */

enum { LINE_ROOM = 32 }; /* the longest move, "permit 15 1" or "send 15 127 lost", is shorter */

/* A line; of one too long for any move only its being so is kept. */
typedef struct {
    char text[LINE_ROOM];
    size_t length;
} line;

static bool read_line(line *read) {
    int character = getchar();
    read->length = 0;
    if (character == EOF) {
        return false;
    }
    for (; character != EOF && character != '\n'; character = getchar()) {
        if (read->length < LINE_ROOM) {
            read->text[read->length++] = (char)character;
        }
    }
    return true;
}

/* What is left of a line while it is taken apart. */
typedef struct {
    const char *text;
    size_t length;
} rest;

static bool take(rest *left, const char *word) {
    size_t length = strlen(word);
    if (left->length < length || memcmp(left->text, word, length) != 0) {
        return false;
    }
    left->text += length;
    left->length -= length;
    return true;
}

/* A number from 0 to the limit without leading zeros. */
static bool take_number(rest *left, uint32_t limit, uint8_t *number) {
    uint32_t value = 0;
    size_t digits = 0;
    while (digits < left->length && left->text[digits] >= '0' && left->text[digits] <= '9' && value <= limit) {
        value = 10 * value + (uint32_t)(left->text[digits] - '0');
        digits++;
    }
    if (digits == 0 || value > limit || (digits > 1 && left->text[0] == '0')) {
        return false;
    }
    left->text += digits;
    left->length -= digits;
    *number = (uint8_t)value;
    return true;
}

static bool take_node(rest *left, const network *bus, uint8_t *who) {
    return take_number(left, (uint32_t)bus->plan.node_count - 1, who);
}

static bool take_machine(rest *left, const network *bus, uint8_t *who) {
    if (take(left, "m")) {
        *who = MASTER;
        return true;
    }
    return take_node(left, bus, who);
}

static bool take_passage(rest *left, passage *taken) {
    if (take(left, "ok")) {
        *taken = WHOLE;
    } else if (take(left, "bad")) {
        *taken = DAMAGED;
    } else {
        *taken = LOST;
        return take(left, "lost");
    }
    return true;
}

static bool take_sent(rest *left, uint8_t *sent) {
    *sent = take(left, "ok");
    return *sent || take(left, "fail");
}

static bool take_move(rest *left, const network *bus, move *taken) {
    if (take(left, "tick")) {
        taken->kind = TICK;
        return true;
    }
    if (take(left, "wake ")) {
        taken->kind = WAKE;
        return take_machine(left, bus, &taken->who);
    }
    if (take(left, "permit ")) {
        taken->kind = PERMIT;
        return take_machine(left, bus, &taken->who) && take(left, " ") && take_number(left, 1, &taken->value);
    }
    if (take(left, "req ")) {
        taken->kind = REQUEST;
        return take_number(left, 127, &taken->reqid) && take(left, " ") && take_passage(left, &taken->passage);
    }
    if (take(left, "send ")) {
        taken->kind = SEND;
        return take_node(left, bus, &taken->who) && take(left, " ") && take_number(left, 127, &taken->reqid) && take(left, " ") &&
               take_passage(left, &taken->passage);
    }
    if (take(left, "sent ")) {
        taken->kind = SENT;
        return take_sent(left, &taken->value);
    }
    taken->kind = SLEEP;
    return take(left, "sleep");
}

static bool parse_move(const line *read, const network *bus, move *taken) {
    rest left = {read->text, read->length};
    return take_move(&left, bus, taken) && left.length == 0;
}

/* The program */

static void print_state(uint64_t number, const network *bus, uint32_t refusal) {
    static const char letters[] = {'N', 'S', 'Z'};
    char nodes[2 * REFERENCE_NODES + 1];
    size_t length = 0;
    for (size_t node = 0; node < bus->plan.node_count; node++) {
        nodes[length++] = letters[bus->nodes[node].state];
        if (bus->nodes[node].error) {
            nodes[length++] = '!';
        }
    }
    nodes[length] = '\0';
    printf("%" PRIu64 " %c%u %d %s %u\n", number, letters[bus->master.state], (unsigned)bus->master.phase, clock_is_on(bus), nodes,
           (unsigned)refusal);
}

/* A file that is missing or can't be read has refusal 1. */
static uint32_t read_plan(reference_plan *plan) {
    uint8_t set[3 * REFERENCE_BLOCK + 1];
    FILE *file = fopen("plan.set", "rb");
    if (file == NULL) {
        return 1;
    }
    size_t length = fread(set, 1, sizeof set, file);
    bool failed = ferror(file) != 0;
    fclose(file);
    return failed ? 1 : reference_read(set, length, plan);
}

static void print_why(const network *bus) {
    static const char *const words[] = {[REFERENCE_REASON_NONE] = "none",
                                        [REFERENCE_REASON_SLEEP] = "sleep",
                                        [REFERENCE_REASON_OWED] = "owed",
                                        [REFERENCE_REASON_OWN] = "own",
                                        [REFERENCE_REASON_PROFILE] = "profile"};
    static const char *const causes[] = {"new", "refused", "aged", "damaged", "wake"};
    reference_reason reason;
    uint32_t refusal = reference_master_why(&bus->plan, &bus->master, &reason);
    if (refusal != 0) {
        printf("why %u\n", (unsigned)refusal);
    } else if (reason.kind == REFERENCE_REASON_NODE) {
        printf("why %u %s\n", (unsigned)reason.node, causes[reason.cause]);
    } else {
        printf("why %s\n", words[reason.kind]);
    }
}

int main(int count, char **arguments) {
    static network bus;
    line read;
    bool asked_why = count == 2 && strcmp(arguments[1], "why") == 0;
    if (count > 1 && !asked_why) {
        fprintf(stderr, "usage: %s [why] < moves\n", arguments[0]);
        return 2;
    }
    uint32_t refusal = read_plan(&bus.plan);
    if (refusal != 0) {
        printf("set %u\n", (unsigned)refusal);
        return 0;
    }
    reference_master_power_on(&bus.plan, &bus.master);
    for (size_t node = 0; node < bus.plan.node_count; node++) {
        reference_node_power_on(&bus.plan, &bus.nodes[node]);
    }
    for (uint64_t number = 1; read_line(&read); number++) {
        move made;
        if (parse_move(&read, &bus, &made)) {
            print_state(number, &bus, make_move(&bus, &made));
        } else {
            printf("%" PRIu64 " ?\n", number);
        }
    }
    if (asked_why) {
        print_why(&bus);
    }
    return 0;
}
