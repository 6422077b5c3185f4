/* Counts what recorded moves bring about on the independent bus, so that it is known what a comparison over them has tried.
 *
 * Compile: gcc -std=c11 -O2 -Wall -Wextra -Werror -pedantic tests/independent/count_moves.c tests/independent/run.c
 *          tests/independent/bus.c tests/independent/reference.c -o count_moves
 * Run:     ./count_moves DIR... (each with plan.set and moves, as make_moves writes them) */
#include <inttypes.h>
#include <stdlib.h>
#include <string.h>

#include "run.h"

enum { LABELS = 400, LABEL_ROOM = 96, REFUSALS = 26 };

static const char *const act_names[REFERENCE_ACTS] = {
    "tick",        "node's ask to wake", "master's ask to wake", "node's permission", "master's permission", "request",
    "ask to send", "sleep ask",          "send result"};
static const char *const state_names[] = {"Normal", "Standby", "Sleep"};
static const char *const phase_names[] = {"Open", "Sending", "Withdrawn", "Closing"};
static const char *const row_names[] = {"fixed row", "fixed row with count", "variable row", "variable row with count"};

static uint64_t told[REFERENCE_ACTS][REFUSALS];
static uint64_t no_moves;

/* Counts by label, in the order in which they first came up; sorted when printed. */
static struct {
    char label[LABEL_ROOM];
    uint64_t times;
} counts[LABELS];
static size_t labels;

static void count(const char *group, const char *first, const char *second) {
    char label[LABEL_ROOM];
    size_t place = 0;
    snprintf(label, sizeof label, "%s: %s%s%s", group, first, second[0] == '\0' ? "" : ", ", second);
    while (place < labels && strcmp(counts[place].label, label) != 0) {
        place++;
    }
    if (place == labels) {
        if (labels == LABELS) {
            fprintf(stderr, "more labels than there is room for\n");
            exit(1);
        }
        memcpy(counts[labels++].label, label, sizeof label);
    }
    counts[place].times++;
}

/* What a move did, with the world before it. */
typedef struct {
    const reference_plan *plan;
    const reference_world *before;
    const reference_world *after;
    const reference_move *move;
    uint32_t refusal;
} deed;

static uint16_t used_nodes(const reference_plan *plan) {
    return (uint16_t)((1u << plan->node_count) - 1);
}

static const char *share_of(uint16_t set, uint16_t whole) {
    uint16_t within = set & whole;
    return within == whole ? "all" : within == 0 ? "none" : "some";
}

static const char *share(const reference_plan *plan, uint16_t set) {
    return share_of(set, used_nodes(plan));
}

static const char *where(const reference_world *world) {
    return reference_clock_is_on(world) ? phase_names[world->master.phase] : state_names[world->master.state];
}

static uint32_t members(uint16_t set) {
    uint32_t number = 0;
    for (; set != 0; set &= (uint16_t)(set - 1)) {
        number++;
    }
    return number;
}

/* The nodes whose pulse the move sent, told by the states before it. */
static uint16_t callers_of(const deed *done) {
    uint16_t callers = 0;
    for (uint8_t number = 0; number < done->plan->node_count; number++) {
        const reference_node *node = &done->before->nodes[number];
        bool in_standby = node->state == REFERENCE_STANDBY;
        bool shows = node->state == REFERENCE_NORMAL && node->error;
        bool asks = done->move->act == REFERENCE_ACT_NODE_WAKE && done->move->node == number &&
                    (node->state == REFERENCE_SLEEP || (in_standby && !node->caller) || shows);
        /* A pulse takes the master no further than Standby, so the nodes ticked without clock exactly if it is not Normal now. */
        bool recovers = done->move->act == REFERENCE_ACT_TICK && !reference_clock_is_on(done->after) && in_standby && node->caller &&
                        node->standby_count + 1 == done->plan->times.recovery;
        if (asks || recovers) {
            callers |= (uint16_t)(1u << number);
        }
    }
    return callers;
}

static void count_pulses(const deed *done) {
    static const char *const numbers[] = {"one caller", "two callers", "three callers or more"};
    uint16_t callers = callers_of(done);
    uint32_t number = members(callers);
    if (number == 0) {
        return;
    }
    bool tick = done->move->act == REFERENCE_ACT_TICK;
    count(tick ? "pulse in a tick" : "pulse of an ask", numbers[number < 3 ? number - 1 : 2],
          done->move->master_hears ? "master hears" : "master misses");
    if (number < done->plan->node_count) {
        count("pulse heard by", share_of(done->move->hearing, (uint16_t)(used_nodes(done->plan) & ~(unsigned)callers)),
              tick ? "of the nodes that did not call, tick" : "of the nodes that did not call, ask");
    }
    if (done->move->master_hears && !tick) {
        count("pulse of an ask reaches the master", where(done->before), "");
    }
}

static void count_master(const deed *done) {
    const reference_master *before = &done->before->master;
    const reference_master *after = &done->after->master;
    const char *act = act_names[done->move->act];
    if (before->state != after->state) {
        char change[LABEL_ROOM / 2];
        snprintf(change, sizeof change, "%s to %s", state_names[before->state], state_names[after->state]);
        count("master", change, act);
        if (before->phase == REFERENCE_CLOSING && after->state == REFERENCE_STANDBY) {
            count("master", "stop of the clock and a pulse in the same tick", "");
        }
    } else if (before->phase != after->phase) {
        char change[LABEL_ROOM / 2];
        snprintf(change, sizeof change, "%s to %s", phase_names[before->phase], phase_names[after->phase]);
        count("master", change, act);
    }
    for (uint8_t number = 0; number < done->plan->node_count; number++) {
        if (done->move->act == REFERENCE_ACT_TICK && before->permissions[number].held && !after->permissions[number].held &&
            before->permissions[number].age == done->plan->times.window) {
            count("permission aged out", where(done->before), "");
        }
    }
}

static void count_nodes(const deed *done) {
    bool tick = done->move->act == REFERENCE_ACT_TICK;
    bool clock = reference_clock_is_on(done->after);
    const char *act = !tick ? act_names[done->move->act] : clock ? "tick with clock" : "tick without clock";
    for (uint8_t number = 0; number < done->plan->node_count; number++) {
        const reference_node *before = &done->before->nodes[number];
        const reference_node *after = &done->after->nodes[number];
        if (before->state != after->state) {
            char change[LABEL_ROOM / 2];
            snprintf(change, sizeof change, "%s%s to %s", state_names[before->state], before->caller ? " as caller" : "",
                     state_names[after->state]);
            count("node", change, act);
        }
        if (before->error != after->error) {
            count(after->error ? "node shows an error" : "node's error ends", state_names[before->state], act);
        }
        if (tick && before->state == REFERENCE_NORMAL && after->state == REFERENCE_SLEEP) {
            bool delay_ends = before->delay_runs && before->delay + 1 == done->plan->times.sleep;
            count("node falls asleep", delay_ends ? "sleep delay" : "quiet limit", act);
        }
        if (tick && !clock && before->state == REFERENCE_STANDBY && !before->caller && after->state == REFERENCE_STANDBY &&
            before->standby_count + 1 == done->plan->times.space) {
            count("node", "gives up at P and is called again", act);
        }
    }
}

/* The length that the move gives, beside the row's. */
static const char *length_beside(const deed *done, const reference_row *row) {
    uint16_t length = done->move->length;
    return length == row->length ? "row's length" : length > row->length ? "longer" : length == 0 ? "none" : "shorter";
}

/* The publisher's answer, told by the wake bit and count that it takes from its node. */
static void count_answer(const deed *done) {
    const reference_row *row = reference_find_row(done->plan, done->move->value);
    const char *phase = where(done->before);
    if (row == NULL || row->publisher == REFERENCE_MASTER_PUBLISHER) {
        return;
    }
    const reference_node *sender = &done->before->nodes[row->publisher];
    uint8_t counted = sender->counts[row->reqid];
    if (done->after->nodes[row->publisher].counts[row->reqid] == counted) {
        return;
    }
    switch (done->move->fate) {
    case REFERENCE_WHOLE:
        count("whole answer", sender->wake ? "wake bit" : sender->permission ? "permission" : "refusing", phase);
        count("whole answer's length", row_names[row->kind], length_beside(done, row));
        uint8_t last = done->before->master.last_counts[row->reqid];
        if (reference_row_is_counted(row)) {
            const char *after_last = ((counted - last - 1) & 3) == 0 ? "next" : "some lost";
            count("whole answer's count", last == REFERENCE_NO_COUNT ? "first" : after_last, "");
        } else {
            count("whole answer's count", "row without", "");
        }
        break;
    case REFERENCE_DAMAGED:
        count("damaged answer", done->before->master.permissions[row->publisher].held ? "publisher held" : "publisher not held", phase);
        count("damaged answer says",
              done->move->wake         ? "wake bit"
              : done->move->permission ? "permission"
                                       : "no permission",
              length_beside(done, row));
        break;
    default:
        count("lost answer", sender->wake ? "wake bit" : sender->permission ? "permission" : "refusing", phase);
        break;
    }
}

/* The first cause of 15 in its order. */
static void count_no_event(const deed *done) {
    if (done->refusal == 15) {
        const char *damage = done->move->result == 0 ? "damaged with result 0" : "damaged with a count above 3";
        count("15", done->move->value > 127 ? "ReqId above 127" : damage,
              reference_clock_is_on(done->before) ? "clock on" : "clock off");
    }
}

/* 16 and 12 of the bus itself come before those of the node. */
static void count_refused_message(const deed *done) {
    const reference_row *row = reference_find_row(done->plan, done->move->value);
    const char *act = act_names[done->move->act];
    if (done->refusal == 16) {
        count("16", reference_clock_is_on(done->before) ? "publisher or sender not Normal" : "no clock", act);
    } else if (done->refusal == 12) {
        bool of_master = row != NULL && row->publisher == REFERENCE_MASTER_PUBLISHER;
        count("12", row == NULL ? "not in the plan" : of_master ? "master's row" : "another node's row", act);
    }
}

static void count_request(const deed *done) {
    const reference_row *row = reference_find_row(done->plan, done->move->value);
    if (row == NULL || !reference_clock_is_on(done->before) || done->refusal == 15) {
        return;
    }
    count("request reaches", share(done->plan, done->move->reached), "");
    if (row->publisher == REFERENCE_MASTER_PUBLISHER) {
        count("request", "master's row", share(done->plan, done->move->reached));
    } else if (!(done->move->reached >> row->publisher & 1)) {
        count("request", "publisher not reached", "");
    }
}

static void count_sleep_message(const deed *done) {
    if (done->refusal != 0) {
        return;
    }
    char result[LABEL_ROOM / 2];
    snprintf(result, sizeof result, "%s in %s", done->move->value ? "sent" : "failed", where(done->before));
    count("sleep message reaches", share(done->plan, done->move->reached), result);
    for (uint8_t number = 0; number < done->plan->node_count; number++) {
        const reference_node *node = &done->before->nodes[number];
        if (done->move->reached >> number & 1) {
            count("node reached by a sleep message", state_names[node->state], node->delay_runs ? "delay restarts" : "");
        }
    }
}

/* How far numbers of two bytes come. */
static uint32_t most_age, most_quiet, most_delay, most_standby;

static uint32_t most(uint32_t one, uint32_t other) {
    return one > other ? one : other;
}

static void measure(const deed *done) {
    for (uint8_t number = 0; number < done->plan->node_count; number++) {
        const reference_node *node = &done->after->nodes[number];
        most_age = most(most_age, done->after->master.permissions[number].age);
        most_quiet = most(most_quiet, node->quiet_count);
        most_delay = most(most_delay, node->delay);
        most_standby = most(most_standby, node->standby_count);
    }
}

static void count_deed(const deed *done) {
    told[done->move->act][done->refusal]++;
    count_pulses(done);
    count_master(done);
    count_nodes(done);
    measure(done);
    if (done->move->act == REFERENCE_ACT_REQUEST) {
        count_request(done);
    }
    if (done->move->act == REFERENCE_ACT_REQUEST || done->move->act == REFERENCE_ACT_SEND) {
        count_answer(done);
        count_no_event(done);
        count_refused_message(done);
    }
    if (done->move->act == REFERENCE_ACT_SEND_RESULT) {
        count_sleep_message(done);
    }
}

/* Says whether the folder's moves could be run. */
static bool count_folder(const char *folder) {
    static reference_run run;
    char path[4096];
    snprintf(path, sizeof path, "%s/moves", folder);
    FILE *moves = fopen(path, "rb");
    if (moves == NULL) {
        return false;
    }
    snprintf(path, sizeof path, "%s/plan.set", folder);
    if (reference_run_start(&run, path, moves) != 0) {
        fclose(moves);
        return false;
    }
    for (reference_world before = run.world; reference_run_next(&run); before = run.world) {
        if (run.is_move) {
            count_deed(&(deed){.plan = &run.plan, .before = &before, .after = &run.world, .move = &run.move, .refusal = run.refusal});
        } else {
            no_moves++;
        }
    }
    fclose(moves);
    return true;
}

static int by_label(const void *one, const void *other) {
    return strcmp(one, other);
}

static void print_counts(void) {
    for (size_t act = 0; act < REFERENCE_ACTS; act++) {
        for (size_t refusal = 0; refusal < REFUSALS; refusal++) {
            if (told[act][refusal] != 0) {
                printf("%10" PRIu64 "  %s, refusal %zu\n", told[act][refusal], act_names[act], refusal);
            }
        }
    }
    printf("%10" PRIu64 "  no move\n", no_moves);
    qsort(counts, labels, sizeof counts[0], by_label);
    for (size_t place = 0; place < labels; place++) {
        printf("%10" PRIu64 "  %s\n", counts[place].times, counts[place].label);
    }
    printf("largest age %" PRIu32 ", quiet count %" PRIu32 ", sleep delay %" PRIu32 ", standby count %" PRIu32 "\n", most_age,
           most_quiet, most_delay, most_standby);
}

int main(int argc, char **argv) {
    for (int place = 1; place < argc; place++) {
        if (!count_folder(argv[place])) {
            fprintf(stderr, "%s can't be run\n", argv[place]);
            return 1;
        }
    }
    print_counts();
    return 0;
}
