/* Writes the set of the largest plan to standard output; with the argument profile, of panels that never sleep (W-206).
 *
 * Compile: gcc -std=c11 -O2 -Wall -Wextra -Werror -pedantic tests/independent/make_set.c tests/independent/big_plan.c
 *          tests/independent/reference.c -o make_set
 * Run:     ./make_set [profile] > plan.set */
#include <stdio.h>
#include <string.h>

#include "big_plan.h"

int main(int count, char **arguments) {
    reference_plan plan;
    uint8_t set[3 * REFERENCE_BLOCK];
    if (count > 2 || (count == 2 && strcmp(arguments[1], "profile") != 0)) {
        fprintf(stderr, "usage: %s [profile]\n", arguments[0]);
        return 2;
    }
    reference_big_plan(&plan);
    plan.profile = count == 2;
    uint16_t length;
    uint32_t refusal = reference_write(&plan, set, sizeof set, &length);
    if (refusal != 0) {
        fprintf(stderr, "refused %u\n", (unsigned)refusal);
        return 1;
    }
    return fwrite(set, 1, length, stdout) == length && fflush(stdout) == 0 ? 0 : 1;
}
