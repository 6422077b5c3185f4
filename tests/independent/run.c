/* A run of recorded moves from power-on, over the independent bus.
 *
 * Compile: gcc -std=c11 -O2 -Wall -Wextra -Werror -pedantic -c tests/independent/run.c */
#include "run.h"

static uint32_t read_plan(const char *path, reference_plan *plan) {
    uint8_t set[3 * REFERENCE_BLOCK + 1]; /* one byte more shows a file that is too long */
    FILE *file = fopen(path, "rb");
    if (file == NULL) {
        return 1;
    }
    size_t length = fread(set, 1, sizeof set, file);
    bool failed = ferror(file) != 0;
    fclose(file);
    return failed ? 1 : reference_read(set, length, plan);
}

uint32_t reference_run_start(reference_run *run, const char *set_path, FILE *moves) {
    *run = (reference_run){.moves = moves};
    uint32_t refusal = read_plan(set_path, &run->plan);
    reference_world_power_on(&run->plan, &run->world);
    return refusal;
}

bool reference_run_next(reference_run *run) {
    uint8_t record[REFERENCE_MOVE_LENGTH];
    size_t length = fread(record, 1, sizeof record, run->moves);
    if (length == 0) {
        return false;
    }
    run->number++;
    run->is_move = length == sizeof record && reference_decode_move(record, &run->move);
    run->refusal = run->is_move ? reference_world_act(&run->plan, &run->world, &run->move) : 0;
    return true;
}
