/* Replays recorded moves on the independent bus: reads a set, and moves from standard input, and prints what the drill prints of each.
 *
 * Compile: gcc -std=c11 -O2 -Wall -Wextra -Werror -pedantic tests/independent/replay.c tests/independent/run.c tests/independent/bus.c
 *          tests/independent/reference.c -o reference_replay
 * Run:     ./reference_replay [PLAN_SET] < moves (plan.set in the working folder where none is named) */
#include <inttypes.h>

#include "run.h"

static void print_line(const reference_run *run) {
    static const char letters[] = {'N', 'S', 'Z'};
    char nodes[2 * REFERENCE_NODES + 1];
    size_t length = 0;
    if (!run->is_move) {
        printf("%" PRIu64 " ?\n", run->number);
        return;
    }
    for (size_t number = 0; number < run->plan.node_count; number++) {
        nodes[length++] = letters[run->world.nodes[number].state];
        if (run->world.nodes[number].error) {
            nodes[length++] = '!';
        }
    }
    nodes[length] = '\0';
    printf("%" PRIu64 " %c%u %d %s %u\n", run->number, letters[run->world.master.state], (unsigned)run->world.master.phase,
           reference_clock_is_on(&run->world), nodes, (unsigned)run->refusal);
}

int main(int argc, char **argv) {
    static reference_run run;
    uint32_t refusal = reference_run_start(&run, argc > 1 ? argv[1] : "plan.set", stdin);
    if (refusal != 0) {
        printf("set %u\n", (unsigned)refusal);
    } else {
        while (reference_run_next(&run)) {
            print_line(&run);
        }
    }
    return fflush(stdout) == 0 ? 0 : 1;
}
