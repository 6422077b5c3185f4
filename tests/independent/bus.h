/* The whole bus of demand 3 over the independent machines: a master and sixteen nodes, recorded moves, and what a move does.
 *
 * Written from the documents of docs/SOURCES.md, their settled readings and the table of a recorded move alone. */
#ifndef BUS_H
#define BUS_H

#include "reference.h"

enum { REFERENCE_MOVE_LENGTH = 16 }; /* bytes of a recorded move */

enum {
    REFERENCE_ACT_TICK,
    REFERENCE_ACT_NODE_WAKE,
    REFERENCE_ACT_MASTER_WAKE,
    REFERENCE_ACT_NODE_PERMISSION,
    REFERENCE_ACT_MASTER_PERMISSION,
    REFERENCE_ACT_REQUEST,
    REFERENCE_ACT_SEND,
    REFERENCE_ACT_SLEEP,
    REFERENCE_ACT_SEND_RESULT,
    REFERENCE_ACTS
};

enum { REFERENCE_WHOLE, REFERENCE_DAMAGED, REFERENCE_LOST };

/* A move with all that the bus does in it; only what its act needs is looked at. */
typedef struct {
    uint8_t act;
    uint8_t node;         /* whose ask to wake, permission or ask to send it is */
    uint8_t value;        /* ReqId, permission, or whether the sleep message was sent */
    uint8_t fate;         /* of an answer */
    uint16_t reached;     /* by a request or a sleep message, bit i for node i */
    uint16_t hearing;     /* nodes that hear a wake-up pulse of another, bit i for node i */
    uint8_t master_hears; /* a wake-up pulse */
    uint16_t result;      /* of a damaged answer */
    uint16_t length;      /* likewise; and of a whole one of a variable row, not above the row's */
    uint8_t count;        /* from here on: of a damaged answer */
    uint8_t permission;
    uint8_t wake;
} reference_move;

/* Nodes from the plan's N on stay at power-on, as a node of the plan's profile starts. */
typedef struct {
    reference_master master;
    reference_node nodes[REFERENCE_NODES];
} reference_world;

/* Says whether the sixteen bytes are a move. */
bool reference_decode_move(const uint8_t *record, reference_move *move);

void reference_encode_move(const reference_move *move, uint8_t *record);

/* Power-on under an accepted plan, or without W-206's profile under the all-zero record of a refused one. */
void reference_world_power_on(const reference_plan *plan, reference_world *world);

bool reference_clock_is_on(const reference_world *world);

/* Makes a move under an accepted plan, in a world that a run from power-on came to. Returns the refusal told, or 0. */
uint32_t reference_world_act(const reference_plan *plan, reference_world *world, const reference_move *move);

#endif
