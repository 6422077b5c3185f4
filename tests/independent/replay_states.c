/* Replays recorded moves on the independent bus and writes a frame of bytes after each: every field of every machine.
 *
 *   0        0 a move, 1 no move
 *   1        refusal, 0 for none or no move
 *   2-202    the master, packed
 *   203-2490 the sixteen nodes, packed; those from N on stand at power-on, as the plan's profile has it
 *
 * For a refused set nothing is written.
 *
 * Compile: gcc -std=c11 -O2 -Wall -Wextra -Werror -pedantic -Iinclude tests/independent/replay_states.c tests/independent/run.c
 *          tests/independent/bus.c tests/independent/reference_packed.c tests/independent/reference.c -o reference_states
 * Run:     ./reference_states [PLAN_SET] < moves > frames (plan.set in the working folder where none is named) */
#include "cxpi.h"
#include "reference_packed.h"
#include "run.h"

enum { FRAME_LENGTH = 2 + CXPI_MASTER_LENGTH + REFERENCE_NODES * CXPI_NODE_LENGTH };

static bool write_frame(const reference_run *run) {
    uint8_t frame[FRAME_LENGTH];
    frame[0] = run->is_move ? 0 : 1;
    frame[1] = (uint8_t)run->refusal;
    reference_pack_master(&run->world.master, frame + 2);
    for (size_t number = 0; number < REFERENCE_NODES; number++) {
        reference_pack_node(&run->world.nodes[number], frame + 2 + CXPI_MASTER_LENGTH + number * CXPI_NODE_LENGTH);
    }
    return fwrite(frame, 1, sizeof frame, stdout) == sizeof frame;
}

int main(int argc, char **argv) {
    static reference_run run;
    if (reference_run_start(&run, argc > 1 ? argv[1] : "plan.set", stdin) != 0) {
        return 0;
    }
    while (reference_run_next(&run)) {
        if (!write_frame(&run)) {
            return 1;
        }
    }
    return fflush(stdout) == 0 ? 0 : 1;
}
