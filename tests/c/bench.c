/* Times the exports against the independent implementation on the same inputs in one run, and measures the stack that each uses.
 *
 * The inputs are the largest there are: 16 nodes, 127 rows, a set of 1,536 bytes. The baseline stands in translation units of its own,
 * and is called through pointers as the exports are. bench.sh compiles it by two compilers, and bench.py runs both programs by turns.
 *
 * A line for each call: its name, nanoseconds of the export and of C, bytes of stack of the export and of C, parted by tabs. */
#define _XOPEN_SOURCE 700
#include <stdio.h>
#include <stdlib.h>
#include <time.h>
#include <ucontext.h>

#include "big_plan.h"
#include "workloads.h"

enum { ROUNDS = 100 };

/* Calls in one timing, which differ as their times do. */
static const size_t calls[WORKLOADS] = {500, 500, 1270, 1270, 1270, 1270, 1270, 1270, 60, 60};

static uint64_t refused; /* calls that were; must stay 0 */

/* Time */

static double seconds(void) {
    struct timespec now;
    clock_gettime(CLOCK_MONOTONIC, &now);
    return (double)now.tv_sec + 1e-9 * (double)now.tv_nsec;
}

static double nanoseconds_of_call(const workload *measured, const side *tested, size_t times) {
    double start = seconds();
    for (size_t turn = 0; turn < times; turn++) {
        refused += measured->run(tested, turn) != 0;
    }
    return 1e9 * (seconds() - start) / (double)times;
}

/* Stack: the call runs on a painted stack, and the lowest byte that lost its paint tells how deep it went. A call beforehand on the
 * ordinary stack keeps the dynamic linker's first-call work out. */

enum { STACK = 1 << 20 };

static uint8_t stack[STACK];
static ucontext_t harness_context, call_context;
static const workload *called_workload;
static const side *called_side;
static size_t called_turn;

static uint8_t paint_at(size_t offset) {
    return (uint8_t)(0xA5 ^ offset * 31);
}

static void call_on_stack(void) {
    called_workload->run(called_side, called_turn);
    swapcontext(&call_context, &harness_context);
}

static size_t depth_of_call(const workload *measured, const side *tested, size_t turn) {
    size_t offset = 0;
    for (size_t place = 0; place < STACK; place++) {
        stack[place] = paint_at(place);
    }
    called_workload = measured;
    called_side = tested;
    called_turn = turn;
    getcontext(&call_context);
    call_context.uc_stack.ss_sp = stack;
    call_context.uc_stack.ss_size = STACK;
    call_context.uc_link = NULL;
    makecontext(&call_context, call_on_stack, 0);
    swapcontext(&harness_context, &call_context);
    while (offset < STACK && stack[offset] == paint_at(offset)) {
        offset++;
    }
    return STACK - offset;
}

static size_t peak_stack(const workload *measured, const side *tested) {
    size_t own = depth_of_call(measured, &nothing, 0);
    size_t peak = own;
    for (size_t turn = 0; turn < REFERENCE_ROWS; turn += 9) {
        size_t depth;
        measured->run(tested, turn);
        depth = depth_of_call(measured, tested, turn);
        peak = depth > peak ? depth : peak;
    }
    return peak - own;
}

int main(void) {
    static double best[WORKLOADS][2];
    static const side *const sides[2] = {&product, &baseline};
    reference_plan record;
    reference_big_plan(&record);
    make_inputs(&record);
    for (int round = 0; round < ROUNDS; round++) {
        for (size_t place = 0; place < WORKLOADS; place++) {
            for (size_t tested = 0; tested < 2; tested++) {
                double time = nanoseconds_of_call(&workloads[place], sides[tested], calls[place]);
                if (round == 0 || time < best[place][tested]) {
                    best[place][tested] = time;
                }
            }
        }
    }
    for (size_t place = 0; place < WORKLOADS; place++) {
        printf("%s\t%.1f\t%.1f\t%zu\t%zu\n", workloads[place].name, best[place][0], best[place][1],
               peak_stack(&workloads[place], &product), peak_stack(&workloads[place], &baseline));
    }
    if (refused != 0) {
        printf("%llu calls were refused\n", (unsigned long long)refused);
        return EXIT_FAILURE;
    }
    return EXIT_SUCCESS;
}
