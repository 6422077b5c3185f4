/* The largest plan there is: 16 nodes, rows 1 to 127 of all four kinds, spread over the nodes and the master.
 *
 * Compile: gcc -std=c11 -O2 -Wall -Wextra -Werror -pedantic -c tests/independent/big_plan.c */
#include "big_plan.h"

#include <string.h>

void reference_big_plan(reference_plan *plan) {
    memset(plan, 0, sizeof *plan);
    plan->revision = 2024;
    plan->node_count = REFERENCE_NODES;
    plan->row_count = REFERENCE_ROWS;
    plan->times = (reference_times){.window = 60, .stop = 4, .sleep = 7, .quiet = 12, .recovery = 6, .space = 9, .start = 3};
    for (size_t number = 0; number < REFERENCE_NODES; number++) {
        plan->nodes[number] = (reference_node_entry){
            .address = (uint8_t)(125 - 7 * number), .diagnostic_class = (uint8_t)(1 + number % 3), .polled = (uint8_t)(number % 2)};
    }
    for (size_t place = 0; place < REFERENCE_ROWS; place++) {
        size_t turn = place % (REFERENCE_NODES + 1); /* the last in turn is the master */
        plan->rows[place] = (reference_row){.reqid = (uint8_t)(place + 1),
                                            .publisher = turn < REFERENCE_NODES ? (uint8_t)turn : REFERENCE_MASTER_PUBLISHER,
                                            .length = (uint8_t)(place * 2),
                                            .kind = (uint8_t)(place % 4)};
    }
}
