/* A run of recorded moves from power-on: takes the set from a file and the moves, one after the other, from a stream. */
#ifndef RUN_H
#define RUN_H

#include <stdio.h>

#include "bus.h"

typedef struct {
    reference_plan plan;
    reference_world world;
    FILE *moves;
    uint64_t number;     /* of the record taken last, from 1 */
    bool is_move;        /* whether its bytes are a move */
    reference_move move; /* the move, where they are */
    uint32_t refusal;    /* told of it, 0 where there is none or no move */
} reference_run;

/* Starts a run. Returns 0 or the set's refusal, 1 where the file is missing or can't be read. */
uint32_t reference_run_start(reference_run *run, const char *set_path, FILE *moves);

/* Takes the next record; a last piece of fewer bytes is a record that is no move. Says whether there was one. */
bool reference_run_next(reference_run *run);

#endif
