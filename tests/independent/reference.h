/* Release sets, the master machine and the node machine in plain C, written from the documents of docs/SOURCES.md alone.
 *
 * It serves as the independent check of the product and as the baseline of its speed. Values are as the requirements number
 * them; every field is wide enough to hold a wrong value, which is then refused by number. */
#ifndef REFERENCE_H
#define REFERENCE_H

#include <stdbool.h>
#include <stddef.h>
#include <stdint.h>

enum {
    REFERENCE_BLOCK = 512,
    REFERENCE_NODES = 16,
    REFERENCE_ROWS = 127,
    REFERENCE_ROWS_OF_BLOCK = 100,
    REFERENCE_REQIDS = 128,
    REFERENCE_MASTER_PUBLISHER = 255,
    REFERENCE_NO_COUNT = 4 /* the master's last count of a ReqId that has none */
};

typedef struct {
    uint8_t address;
    uint8_t diagnostic_class;
    uint8_t polled;
    uint8_t zero;
} reference_node_entry;

/* The kinds of row (R1.5): whether its answers carry a sequence count, and whether they may be shorter than planned. */
enum { REFERENCE_FIXED, REFERENCE_FIXED_COUNTED, REFERENCE_VARIABLE, REFERENCE_VARIABLE_COUNTED };

typedef struct {
    uint8_t reqid;
    uint8_t publisher;
    uint8_t length;
    uint8_t kind;
} reference_row;

/* The seven times (R1.2), in the order of the set. */
typedef struct {
    uint16_t window;   /* W */
    uint16_t stop;     /* D */
    uint16_t sleep;    /* S */
    uint16_t quiet;    /* E */
    uint16_t recovery; /* R */
    uint16_t space;    /* P */
    uint16_t start;    /* C */
} reference_times;

typedef struct {
    uint16_t revision;
    uint8_t profile; /* W-206: 1 for panels whose power the ignition cuts, else 0 */
    uint8_t node_count;
    uint16_t row_count;
    reference_times times;
    reference_node_entry nodes[REFERENCE_NODES];
    reference_row rows[REFERENCE_ROWS];
} reference_plan;

enum { REFERENCE_NORMAL, REFERENCE_STANDBY, REFERENCE_SLEEP };

enum { REFERENCE_OPEN, REFERENCE_SENDING, REFERENCE_WITHDRAWN, REFERENCE_CLOSING };

/* The causes (R3.13): why a node's permission is not held. */
enum { REFERENCE_CAUSE_NEW, REFERENCE_CAUSE_REFUSED, REFERENCE_CAUSE_AGED, REFERENCE_CAUSE_DAMAGED, REFERENCE_CAUSE_WAKE };

typedef struct {
    uint8_t held;
    uint16_t age;
} reference_permission;

typedef struct {
    uint8_t state;
    uint8_t phase;
    uint8_t own_permission;
    uint16_t delay;
    uint32_t tick_number;
    reference_permission permissions[REFERENCE_NODES];
    uint8_t causes[REFERENCE_NODES];
    uint8_t last_counts[REFERENCE_REQIDS];
} reference_master;

enum {
    REFERENCE_MASTER_TICK,
    REFERENCE_MASTER_ANSWER,
    REFERENCE_MASTER_PULSE,
    REFERENCE_MASTER_WAKE,
    REFERENCE_MASTER_PERMISSION,
    REFERENCE_MASTER_SLEEP,
    REFERENCE_MASTER_SEND_RESULT
};

/* Only the fields that the kind has are looked at. */
typedef struct {
    uint8_t kind;
    uint8_t reqid;      /* answer */
    uint16_t result;    /* answer */
    uint16_t length;    /* answer */
    uint8_t count;      /* answer */
    uint8_t permission; /* answer, own permission */
    uint8_t wake;       /* answer */
    uint8_t sent;       /* send result */
} reference_master_event;

enum { REFERENCE_MASTER_NOTHING, REFERENCE_CLOCK_ON, REFERENCE_CLOCK_OFF, REFERENCE_SEND_SLEEP_MESSAGE };

/* What a step gives back. */
typedef struct {
    uint8_t command;
    uint8_t lost;
    uint8_t node; /* that 20 names */
} reference_master_reply;

/* The reasons (R3.15) why the bus stays awake, first before last but for W-206's. */
enum {
    REFERENCE_REASON_NONE,
    REFERENCE_REASON_SLEEP,
    REFERENCE_REASON_OWED,
    REFERENCE_REASON_OWN,
    REFERENCE_REASON_NODE,
    REFERENCE_REASON_PROFILE /* W-206: before all others */
};

typedef struct {
    uint8_t kind;
    uint8_t node;  /* with REFERENCE_REASON_NODE, else 0 */
    uint8_t cause; /* likewise */
} reference_reason;

typedef struct {
    uint8_t state;
    uint8_t permission;
    uint8_t error;
    uint8_t wake;
    uint8_t heard;
    uint8_t caller;
    uint16_t quiet_count;
    uint8_t delay_runs;
    uint16_t delay;
    uint32_t standby_count;
    uint8_t counts[REFERENCE_REQIDS];
} reference_node;

enum {
    REFERENCE_NODE_TICK,
    REFERENCE_NODE_PULSE,
    REFERENCE_NODE_WAKE,
    REFERENCE_NODE_PERMISSION,
    REFERENCE_NODE_SLEEP_MESSAGE,
    REFERENCE_NODE_REQUEST,
    REFERENCE_NODE_SEND
};

/* Only the fields that the kind has are looked at. */
typedef struct {
    uint8_t kind;
    uint8_t clock;      /* tick */
    uint8_t permission; /* permission */
    uint8_t reqid;      /* request, ask to send */
} reference_node_event;

enum { REFERENCE_NODE_NOTHING, REFERENCE_SEND_PULSE, REFERENCE_SEND_ANSWER };

/* What a step gives back; from permission on, the answer that is sent. */
typedef struct {
    uint8_t command;
    uint8_t permission;
    uint8_t wake;
    uint8_t count;
} reference_node_reply;

/* Reads a set. Returns 0 or a refusal from 1 to 9, which leaves an all-zero record. */
uint32_t reference_read(const uint8_t *set, size_t length, reference_plan *plan);

/* Writes a set into a buffer of so many bytes. Returns 0 and the set's length; or a refusal, 3 to 8 or 10, which leaves the buffer
 * untouched, and length 0. */
uint32_t reference_write(const reference_plan *plan, uint8_t *set, size_t room, uint16_t *length);

/* The first of the refusals 3 to 8 of a plan record, or 0. */
uint32_t reference_plan_refusal(const reference_plan *plan);

/* The row of a ReqId, or null. */
const reference_row *reference_find_row(const reference_plan *plan, uint8_t reqid);

/* What the kind of a right row says. */
bool reference_row_is_counted(const reference_row *row);
bool reference_row_is_variable(const reference_row *row);

/* Power-on under an accepted plan; the all-zero record of a refused set serves as one without W-206's profile. */
void reference_master_power_on(const reference_plan *plan, reference_master *master);
bool reference_master_in_range(const reference_plan *plan, const reference_master *master);

/* A step of the master. Returns 0 or the refusal. */
uint32_t reference_master_step(const reference_plan *plan, reference_master *master, const reference_master_event *event,
                               reference_master_reply *reply);

/* The same for a plan and a state that are known to be right. */
uint32_t reference_master_act(const reference_plan *plan, reference_master *master, const reference_master_event *event,
                              reference_master_reply *reply);

/* Why the master's bus stays awake. Returns 0 or the refusal, 3 to 8, 11 or 16, which leaves a reason of zeros. */
uint32_t reference_master_why(const reference_plan *plan, const reference_master *master, reference_reason *reason);

void reference_node_power_on(const reference_plan *plan, reference_node *node);
bool reference_node_in_range(const reference_plan *plan, const reference_node *node);

/* A step of the node of that number. Returns 0 or the refusal. */
uint32_t reference_node_step(const reference_plan *plan, uint8_t number, reference_node *node, const reference_node_event *event,
                             reference_node_reply *reply);

/* The same for a plan, a number and a state that are known to be right. */
uint32_t reference_node_act(const reference_plan *plan, uint8_t number, reference_node *node, const reference_node_event *event,
                            reference_node_reply *reply);

#endif
