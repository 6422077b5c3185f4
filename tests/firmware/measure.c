/* Counts the instructions of each call and measures its stack on an emulated Cortex-M: the exports beside the independent implementation,
 * on the largest plan and on set T.
 *
 * Instructions: the emulator's clock goes on by the same time in each (-icount), and the counter SysTick is read before and after; a run
 * of known length tells how far it goes. Stack: the words below the stack pointer are painted, and the lowest that lost its paint tells
 * how deep the call went. What a function that does nothing takes is subtracted from both.
 *
 * A line for each plan and call, parted by tabs: their names, instructions of export and C, bytes of stack of export and C. */
#include <stdio.h>
#include <stdlib.h>

#include "big_plan.h"
#include "set_t.h"
#include "workloads.h"

enum { TURNS = 127, PAINTED = 1536 /* words */ };

#define PAINT 0xA55A3CC3u

static reference_plan record;
static uint64_t refused; /* calls that were; must stay 0 */

/* Instructions */

#define SYSTICK ((volatile uint32_t *)0xE000E010u) /* control, reload, count */
#define COUNTS 0xFFFFFFu                           /* it counts down, over 24 bits */

static uint32_t counts_since(uint32_t start) {
    return (start - SYSTICK[2]) & COUNTS;
}

/* 4,000 instructions that do nothing, and the return. */
void four_thousand(void);
__asm__(".pushsection .text.four_thousand\n.thumb_func\n.global four_thousand\n"
        "four_thousand:\n.rept 4000\nnop\n.endr\nbx lr\n.popsection");

static double counts_of_instruction;

static void start_counting(void) {
    SYSTICK[1] = COUNTS;
    SYSTICK[2] = 0;
    SYSTICK[0] = 5; /* on, by the processor's clock */
    uint32_t none = counts_since(SYSTICK[2]);
    uint32_t start = SYSTICK[2];
    four_thousand();
    counts_of_instruction = (counts_since(start) - none) / 4002.0; /* with call and return */
}

static __attribute__((noinline)) double instructions(const workload *measured, const side *tested) {
    uint64_t counts = 0;
    make_inputs(&record);
    for (size_t turn = 0; turn < TURNS; turn++) {
        uint32_t start = SYSTICK[2];
        uint32_t result = measured->run(tested, turn);
        counts += counts_since(start);
        refused += tested != &nothing && result != 0;
    }
    return (double)counts / counts_of_instruction / TURNS;
}

/* Stack */

static __attribute__((noinline)) size_t depth(const workload *measured, const side *tested) {
    size_t most = 0; /* words */
    make_inputs(&record);
    for (size_t turn = 0; turn < TURNS; turn++) {
        volatile uint32_t *top;
        size_t below = PAINTED;
        __asm__ volatile("mov %0, sp" : "=r"(top));
        for (size_t words = 1; words <= PAINTED; words++) {
            top[-(ptrdiff_t)words] = PAINT;
        }
        measured->run(tested, turn);
        while (below > most && top[-(ptrdiff_t)below] == PAINT) {
            below--;
        }
        most = below;
    }
    return 4 * most;
}

static void measure(const char *plan_name) {
    for (size_t place = 0; place < WORKLOADS; place++) {
        const workload *measured = &workloads[place];
        double own = instructions(measured, &nothing);
        size_t own_depth = depth(measured, &nothing);
        double export = instructions(measured, &product) - own;
        double c = instructions(measured, &baseline) - own;
        printf("%s\t%s\t%.0f\t%.0f\t%u\t%u\n", plan_name, measured->name, export, c, (unsigned)(depth(measured, &product) - own_depth),
               (unsigned)(depth(measured, &baseline) - own_depth));
    }
}

int main(void) {
    start_counting();
    reference_big_plan(&record);
    measure("the largest plan");
    reference_unpack_plan(plan_t, &record);
    measure("set T");
    if (refused != 0) {
        printf("%llu calls were refused\n", (unsigned long long)refused);
        return EXIT_FAILURE;
    }
    return EXIT_SUCCESS;
}
