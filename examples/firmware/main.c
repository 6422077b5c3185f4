/* A small firmware host of CXPI network management: one master and its nodes on a bus that is stood in for by function calls.
 *
 * On a real unit the tick is a timer interrupt, the bus is the CXPI driver, and the unit runs the master or one node. Here all of them
 * run in one program. Node 0 is given its address and tells its identity, as on the moulding line; then the drill's twelve moves (R6.7)
 * are made, and after each the drill's line is printed, and indented what the nodes and the machines sent and commanded, and
 * after a refused sleep ask why the panel is awake; then a master takes the events of a frame slot in one call. Only the headers and the
 * archive are used; see README.md for how to compile. */
#include <signal.h>
#include <stdbool.h>
#include <stdio.h>

#include "cxpi.h"
#include "cxpi_text.h"

/* Set T, R1.14, as it would stand in flash. */
static const uint8_t set_in_flash[CXPI_SET_LENGTH_ONE] = {
    [0] = 0x50,    [1] = 1,       [3] = 7,   [4] = 1,                                 /* plan block: revision 7, one node */
    [7] = 10,      [9] = 2,       [11] = 3,  [13] = 4,  [15] = 5, [17] = 6, [19] = 1, /* times W, D, S, E, R, P, C */
    [32] = 0x41,   [33] = 1,      [34] = 1,                                           /* node 0: address 41 hex, class 1, polled */
    [510] = 0x0A,  [511] = 0xA9,                                                      /* check */
    [512] = 0x4D,  [513] = 1,     [515] = 7, [516] = 1,                               /* message block: one row */
    [520] = 16,    [521] = 0,     [522] = 2, [523] = 1,                               /* ReqId 16 of node 0, two bytes, with a count */
    [1022] = 0x01, [1023] = 0x22,                                                     /* check */
};

/* All that the host keeps: the plan record and the packed states. */
static uint8_t plan[CXPI_PLAN_LENGTH];
static uint8_t master[CXPI_MASTER_LENGTH];
static uint8_t nodes[CXPI_MOST_NODES][CXPI_NODE_LENGTH];
static uint8_t address_of_node; /* node 0's: 0 as long as it has none */
static bool clock_runs;
static volatile sig_atomic_t tick_due;

static unsigned node_count(void) {
    return plan[CXPI_PLAN_NODE_COUNT_AT];
}

/* The row of a ReqId in the plan record, or null. */
static const uint8_t *find_row(uint8_t reqid) {
    unsigned rows = (unsigned)plan[CXPI_PLAN_ROW_COUNT_AT] << 8 | plan[CXPI_PLAN_ROW_COUNT_AT + 1];
    for (unsigned row = 0; row < rows; row++) {
        const uint8_t *bytes = &plan[CXPI_PLAN_ROWS_AT + CXPI_ROW_LENGTH * row];
        if (bytes[CXPI_ROW_REQID_AT] == reqid) {
            return bytes;
        }
    }
    return NULL;
}

/* The master's side: a step, and what it commands is done; a refused one commands nothing */

static uint32_t step_master(const uint8_t *event, size_t length) {
    uint8_t reply[CXPI_MASTER_REPLY_LENGTH];
    uint32_t refusal = cxpi_master_step(plan, sizeof plan, master, sizeof master, event, length, reply, sizeof reply);
    if (refusal == CXPI_NOT_HELD) {
        printf("  master: permission of node %u is not held\n", reply[CXPI_MASTER_REPLY_NODE_AT]);
    }
    switch (reply[CXPI_MASTER_REPLY_COMMAND_AT]) {
    case CXPI_CLOCK_ON:
        clock_runs = true;
        printf("  master: clock on\n");
        break;
    case CXPI_CLOCK_OFF:
        clock_runs = false;
        printf("  master: clock off\n");
        break;
    case CXPI_SEND_SLEEP_MESSAGE: /* the driver sends it and reports by bus_result */
        printf("  master: sleep message\n");
        break;
    default:
        break;
    }
    if (reply[CXPI_MASTER_REPLY_LOST_AT] > 0) {
        printf("  master: %u answers lost\n", reply[CXPI_MASTER_REPLY_LOST_AT]);
    }
    return refusal;
}

/* A node's side: a step; the reply says what the bus is to carry, nothing where it is refused */

static uint32_t step_node(unsigned node, const uint8_t *event, size_t length, uint8_t *reply) {
    return cxpi_node_step(plan, sizeof plan, (uint8_t)node, nodes[node], CXPI_NODE_LENGTH, event, length, reply,
                          CXPI_NODE_REPLY_LENGTH);
}

/* The bus stand-in: nothing is lost on it */

static void bus_pulse(unsigned sender) {
    static const uint8_t to_master[] = {CXPI_MASTER_PULSE};
    static const uint8_t to_node[] = {CXPI_NODE_PULSE};
    uint8_t reply[CXPI_NODE_REPLY_LENGTH];
    printf("  node %u: wake-up pulse\n", sender);
    step_master(to_master, sizeof to_master);
    for (unsigned node = 0; node < node_count(); node++) {
        if (node != sender) {
            step_node(node, to_node, sizeof to_node, reply);
        }
    }
}

/* The answer that a node's reply has goes to the master, and comes whole: result 0. */
static uint32_t bus_answer(unsigned sender, const uint8_t *row, const uint8_t *reply) {
    uint8_t event[CXPI_ANSWER_EVENT_LENGTH] = {CXPI_MASTER_ANSWER};
    event[CXPI_ANSWER_REQID_AT] = row[CXPI_ROW_REQID_AT];
    event[CXPI_ANSWER_DATA_LENGTH_AT + 1] = row[CXPI_ROW_DATA_LENGTH_AT];
    event[CXPI_ANSWER_COUNT_AT] = reply[CXPI_NODE_REPLY_COUNT_AT];
    event[CXPI_ANSWER_PERMISSION_AT] = reply[CXPI_NODE_REPLY_PERMISSION_AT];
    event[CXPI_ANSWER_WAKE_AT] = reply[CXPI_NODE_REPLY_WAKE_AT];
    printf("  node %u: answer to %u, permission %u, wake bit %u, count %u\n", sender, row[CXPI_ROW_REQID_AT],
           reply[CXPI_NODE_REPLY_PERMISSION_AT], reply[CXPI_NODE_REPLY_WAKE_AT], reply[CXPI_NODE_REPLY_COUNT_AT]);
    return step_master(event, sizeof event);
}

/* A request goes to all nodes, the publisher's answer back to the master. */
static uint32_t bus_request(uint8_t reqid) {
    uint8_t event[CXPI_VALUE_EVENT_LENGTH] = {CXPI_NODE_REQUEST, reqid};
    uint8_t replies[CXPI_MOST_NODES][CXPI_NODE_REPLY_LENGTH];
    const uint8_t *row = find_row(reqid);
    uint32_t refusal = CXPI_DONE;
    if (!clock_runs) {
        return CXPI_NEEDS_NORMAL;
    }
    if (row == NULL) {
        return CXPI_NO_REQID;
    }
    uint8_t publisher = row[CXPI_ROW_PUBLISHER_AT];
    for (unsigned node = 0; node < node_count(); node++) {
        uint32_t of_node = step_node(node, event, sizeof event, replies[node]);
        if (node == publisher) {
            refusal = of_node;
        }
    }
    if (refusal != CXPI_DONE || publisher == CXPI_MASTER_PUBLISHES) {
        return refusal;
    }
    return bus_answer(publisher, row, replies[publisher]);
}

/* The driver's report that the sleep message went out; with it the nodes have got it. */
static uint32_t bus_result(bool sent) {
    uint8_t to_master[CXPI_VALUE_EVENT_LENGTH] = {CXPI_MASTER_SEND_RESULT, sent};
    static const uint8_t to_node[] = {CXPI_NODE_SLEEP_MESSAGE};
    uint8_t reply[CXPI_NODE_REPLY_LENGTH];
    uint32_t refusal = step_master(to_master, sizeof to_master);
    if (refusal != CXPI_DONE || !sent) {
        return refusal;
    }
    for (unsigned node = 0; node < node_count(); node++) {
        step_node(node, to_node, sizeof to_node, reply);
    }
    return CXPI_DONE;
}

/* The tick: the interrupt leaves a mark, the main loop does the work */

static void tick_interrupt(void) {
    tick_due = 1;
}

static uint32_t handle_tick(void) {
    static const uint8_t to_master[] = {CXPI_MASTER_TICK};
    bool pulses[CXPI_MOST_NODES] = {false};
    uint8_t to_node[CXPI_VALUE_EVENT_LENGTH] = {CXPI_NODE_TICK, 0};
    uint32_t refusal = step_master(to_master, sizeof to_master);
    to_node[CXPI_EVENT_VALUE_AT] = clock_runs;
    for (unsigned node = 0; node < node_count(); node++) {
        uint8_t reply[CXPI_NODE_REPLY_LENGTH];
        step_node(node, to_node, sizeof to_node, reply);
        pulses[node] = reply[CXPI_NODE_REPLY_COMMAND_AT] == CXPI_SEND_PULSE;
    }
    for (unsigned node = 0; node < node_count(); node++) {
        if (pulses[node]) {
            bus_pulse(node);
        }
    }
    return refusal;
}

/* The node configuration: node 0 as it leaves the moulding line, with an identity and without an address */

static const uint8_t identity_in_flash[CXPI_IDENTITY_LENGTH] = {
    [CXPI_IDENTITY_SUPPLIER_AT] = 0x01,      0x23,            /* supplier 0123 hex */
    [CXPI_IDENTITY_FUNCTION_AT] = 0x45,      0x67,            /* function 4567 hex */
    [CXPI_IDENTITY_VARIANT_AT] = 0x89,                        /* variant 89 hex */
    [CXPI_IDENTITY_SERIAL_NUMBER_AT] = 0x01, 0x02, 0x03, 0x04 /* serial number 01020304 hex */
};

/* A request that the bus brought; what the call leaves in the response is to be sent, nothing where the node is silent. */
static void configure_node(const uint8_t *request, size_t request_length) {
    uint8_t response[CXPI_CONFIGURATION_LENGTH], length;
    cxpi_node_configure(identity_in_flash, sizeof identity_in_flash, &address_of_node, request, request_length, response,
                        sizeof response, &length);
    printf("  node 0:");
    for (unsigned place = 0; place < length; place++) {
        printf(" %02X", response[place]);
    }
    printf("%s, address %02X hex\n", length == 0 ? " silence" : "", address_of_node);
}

/* The line asks by the numbers of ISO 14229-8, Table A.1: an address for another function, one for this node, and both reads. */
static void configure_on_the_line(void) {
    static const uint8_t assign_to_another[] = {0x2E, 0xFF, 0x07, 0x01, 0x23, 0x45, 0x68, 0x42};
    static const uint8_t assign[] = {0x2E, 0xFF, 0x07, 0x01, 0x23, 0x45, 0x67, 0x41};
    static const uint8_t read_product[] = {0x22, 0xFF, 0x05};
    static const uint8_t read_serial_number[] = {0x22, 0xF1, 0x8C};
    configure_node(assign_to_another, sizeof assign_to_another);
    configure_node(assign, sizeof assign);
    configure_node(read_product, sizeof read_product);
    configure_node(read_serial_number, sizeof read_serial_number);
}

/* What the application asks for */

static uint32_t wake_node(unsigned node) {
    static const uint8_t event[] = {CXPI_NODE_WAKE};
    uint8_t reply[CXPI_NODE_REPLY_LENGTH];
    uint32_t refusal = step_node(node, event, sizeof event, reply);
    if (reply[CXPI_NODE_REPLY_COMMAND_AT] == CXPI_SEND_PULSE) {
        bus_pulse(node);
    }
    return refusal;
}

static uint32_t permit_node(unsigned node, bool permission) {
    uint8_t event[CXPI_VALUE_EVENT_LENGTH] = {CXPI_NODE_PERMISSION, permission};
    uint8_t reply[CXPI_NODE_REPLY_LENGTH];
    return step_node(node, event, sizeof event, reply);
}

static uint32_t permit_master(bool permission) {
    uint8_t event[CXPI_VALUE_EVENT_LENGTH] = {CXPI_MASTER_PERMISSION, permission};
    return step_master(event, sizeof event);
}

/* What a service tool asks of the stored state: why is this panel still awake? */
static void print_reason(void) {
    static const char *const reasons[] = {
        [CXPI_REASON_NONE] = "nothing stands in the way",
        [CXPI_REASON_SLEEP] = "sleep is under way",
        [CXPI_REASON_OWED] = "the result of a called-back message is owed",
        [CXPI_REASON_OWN] = "own permission is missing",
        [CXPI_REASON_NODE] = "permission is not held of node",
        [CXPI_REASON_PROFILE] = "the panels of this set never sleep",
    };
    static const char *const causes[] = {
        [CXPI_CAUSE_NEW] = "never answered", [CXPI_CAUSE_REFUSED] = "refused",          [CXPI_CAUSE_AGED] = "aged out",
        [CXPI_CAUSE_DAMAGED] = "damaged",    [CXPI_CAUSE_WAKE] = "dropped by a wake-up",
    };
    uint8_t reply[CXPI_REASON_LENGTH];
    uint32_t refusal = cxpi_master_why(plan, sizeof plan, master, sizeof master, reply, sizeof reply);
    printf("  awake: %s", refusal == CXPI_DONE ? reasons[reply[CXPI_REASON_AT]] : cxpi_refusal_text(refusal));
    if (reply[CXPI_REASON_AT] == CXPI_REASON_NODE) {
        printf(" %u, %s", reply[CXPI_REASON_NODE_AT], causes[reply[CXPI_REASON_CAUSE_AT]]);
    }
    printf("\n");
}

static uint32_t ask_for_sleep(void) {
    static const uint8_t event[] = {CXPI_MASTER_SLEEP};
    uint32_t refusal = step_master(event, sizeof event);
    if (refusal != CXPI_DONE) {
        print_reason();
    }
    return refusal;
}

/* The drill's twelve moves, R6.7 */

typedef enum { MOVE_TICK, MOVE_WAKE_NODE, MOVE_PERMIT_NODE, MOVE_PERMIT_MASTER, MOVE_REQUEST, MOVE_SLEEP, MOVE_SENT } move;

static const move moves[] = {MOVE_WAKE_NODE, MOVE_TICK,  MOVE_PERMIT_NODE, MOVE_PERMIT_MASTER, MOVE_REQUEST, MOVE_SLEEP,
                             MOVE_REQUEST,   MOVE_SLEEP, MOVE_SENT,        MOVE_TICK,          MOVE_TICK,    MOVE_TICK};

enum { MOVES = sizeof moves / sizeof moves[0] };

static uint32_t make_move(move made) {
    switch (made) {
    case MOVE_WAKE_NODE:
        return wake_node(0);
    case MOVE_PERMIT_NODE:
        return permit_node(0, true);
    case MOVE_PERMIT_MASTER:
        return permit_master(true);
    case MOVE_REQUEST:
        return bus_request(16);
    case MOVE_SLEEP:
        return ask_for_sleep();
    case MOVE_SENT:
        return bus_result(true);
    default:
        return CXPI_DONE;
    }
}

static void print_line(unsigned number, uint32_t refusal) {
    static const char letters[] = {[CXPI_NORMAL] = 'N', [CXPI_STANDBY] = 'S', [CXPI_SLEEP] = 'Z'};
    printf("%u %c%u %d ", number, letters[master[CXPI_MASTER_STATE_AT]], master[CXPI_MASTER_PHASE_AT], clock_runs);
    for (unsigned node = 0; node < node_count(); node++) {
        printf("%c%s", letters[nodes[node][CXPI_NODE_STATE_AT]], nodes[node][CXPI_NODE_ERROR_AT] ? "!" : "");
    }
    printf(" %u\n", (unsigned)refusal);
}

static void main_loop(void) {
    for (unsigned number = 1; number <= MOVES; number++) {
        uint32_t refusal;
        move made = moves[number - 1];
        if (made == MOVE_TICK) {
            tick_interrupt();
        }
        if (tick_due) {
            tick_due = 0;
            refusal = handle_tick();
        } else {
            refusal = make_move(made);
        }
        print_line(number, refusal);
    }
}

/* Reads the set of a file, or the one in flash, into the plan record. */
static uint32_t read_set(const char *path) {
    static uint8_t set[CXPI_SET_LENGTH_TWO + 1]; /* one more, so that a longer file is seen to be */
    if (path == NULL) {
        return cxpi_read(set_in_flash, sizeof set_in_flash, plan, sizeof plan);
    }
    FILE *file = fopen(path, "rb");
    if (file == NULL) {
        return CXPI_WRONG_SIZE;
    }
    size_t length = fread(set, 1, sizeof set, file);
    fclose(file);
    return cxpi_read(set, length, plan, sizeof plan);
}

/* A master that starts in Normal, as one of panels that never sleep does, commands no clock: its unit switches it on at once. */
static void power_on(void) {
    cxpi_master_power_on(plan, sizeof plan, master, sizeof master);
    clock_runs = master[CXPI_MASTER_STATE_AT] == CXPI_NORMAL;
    for (unsigned node = 0; node < node_count(); node++) {
        cxpi_node_power_on(plan, sizeof plan, nodes[node], sizeof nodes[node]);
    }
}

/* What a unit gathered between two interrupts, handed over in one call: from power-on to the clock's stop. */
static void frame_slot(void) {
    static const struct cxpi_master_event queue[] = {
        {.kind = CXPI_MASTER_WAKE},
        {.kind = CXPI_MASTER_TICK},
        {.kind = CXPI_MASTER_ANSWER, .reqid = 16, .length = 2, .permission = 1},
        {.kind = CXPI_MASTER_SLEEP},
        {.kind = CXPI_MASTER_PERMISSION, .flag = 1},
        {.kind = CXPI_MASTER_SLEEP},
        {.kind = CXPI_MASTER_SEND_RESULT, .flag = 1},
        {.kind = CXPI_MASTER_TICK},
        {.kind = CXPI_MASTER_TICK},
    };
    enum { EVENTS = sizeof queue / sizeof queue[0] };
    struct cxpi_master_reply replies[EVENTS];
    cxpi_master_power_on(plan, sizeof plan, master, sizeof master);
    cxpi_master_batch(plan, sizeof plan, master, sizeof master, queue, EVENTS, replies, EVENTS);
    for (unsigned place = 0; place < EVENTS; place++) {
        printf("event %u: refusal %u, command %u\n", place, replies[place].refusal, replies[place].command);
    }
}

int main(int count, char **arguments) {
    if (cxpi_version() != CXPI_VERSION) {
        printf("the archive and the header differ in their version\n");
        return 1;
    }
    uint32_t refusal = read_set(count > 1 ? arguments[1] : NULL);
    if (refusal != CXPI_DONE) {
        printf("set %u: %s\n", (unsigned)refusal, cxpi_refusal_text(refusal));
        return 1;
    }
    power_on();
    configure_on_the_line();
    main_loop();
    frame_slot();
    return 0;
}
