/* Writes a random accepted plan and random recorded moves under it, the same for the same seed: DIR/plan.set and DIR/moves.
 *
 * Each move is also made on the independent bus, so that the next one can lead on through the sleep sequence, its disturbances and
 * wake-ups. Bytes that an act does not need are random. The last record has fewer than sixteen bytes more often than not.
 *
 * Compile: gcc -std=c11 -O2 -Wall -Wextra -Werror -pedantic tests/independent/make_moves.c tests/independent/bus.c
 *          tests/independent/reference.c -o make_moves
 * Run:     ./make_moves SEED COUNT DIR */
#include <stdio.h>
#include <stdlib.h>

#include "bus.h"

enum { ALL_NODES = 0xffff };

typedef struct {
    uint64_t random;
    reference_plan plan;
    reference_world world;
    uint64_t left;      /* records still to write */
    size_t last_length; /* bytes of the last one */
    bool deaf;          /* the master misses the pulses of ticks for a while */
    FILE *moves;
} maker;

/* Random numbers (splitmix64). No call has two of them among its arguments: their order would be the compiler's. */

static uint32_t below(maker *make, uint32_t limit) {
    make->random += 0x9e3779b97f4a7c15u;
    uint64_t mixed = make->random;
    mixed = (mixed ^ mixed >> 30) * 0xbf58476d1ce4e5b9u;
    mixed = (mixed ^ mixed >> 27) * 0x94d049bb133111ebu;
    mixed ^= mixed >> 31;
    return (uint32_t)((mixed >> 32) * limit >> 32);
}

static uint32_t between(maker *make, uint32_t low, uint32_t high) {
    return low + below(make, high - low + 1);
}

static bool chance(maker *make, uint32_t percent) {
    return below(make, 100) < percent;
}

static uint8_t any_byte(maker *make) {
    return (uint8_t)below(make, 256);
}

static uint16_t any_two(maker *make) {
    return (uint16_t)below(make, 65536);
}

/* A byte from the limit on, the edges more often than the rest. */
static uint8_t byte_from(maker *make, uint32_t limit) {
    switch (below(make, 3)) {
    case 0:
        return (uint8_t)limit;
    case 1:
        return 255;
    default:
        return (uint8_t)between(make, limit, 255);
    }
}

static uint32_t least(uint32_t one, uint32_t other) {
    return one < other ? one : other;
}

/* The plan */

/* Mostly so short that every limit is reached again and again. */
static uint16_t any_time(maker *make, uint32_t most) {
    uint32_t kind = below(make, 100);
    if (kind < 75) {
        return (uint16_t)between(make, 1, 6);
    }
    if (kind < 94) {
        return (uint16_t)between(make, 7, 40);
    }
    return (uint16_t)between(make, least(most, 200), kind < 98 ? least(most, 700) : most);
}

/* Clock start and stop stay short: little happens while they run. With R 1 a second pulse can fall into the tick that stops the clock.
 */
static void make_times(maker *make) {
    reference_times *times = &make->plan.times;
    times->window = any_time(make, 30000);
    times->stop = any_time(make, 60);
    times->sleep = any_time(make, 30000);
    times->quiet = any_time(make, 30000);
    times->recovery = chance(make, 15) ? 1 : any_time(make, 30000);
    times->space = any_time(make, 30000);
    times->start = any_time(make, 60);
    if (times->sleep < times->stop) {
        times->sleep = (uint16_t)(times->stop + below(make, 3));
    }
}

static void make_nodes(maker *make) {
    bool taken[126] = {false};
    for (size_t number = 0; number < make->plan.node_count; number++) {
        reference_node_entry *entry = &make->plan.nodes[number];
        do {
            entry->address = (uint8_t)between(make, 1, 125);
        } while (taken[entry->address]);
        taken[entry->address] = true;
        entry->diagnostic_class = (uint8_t)between(make, 1, 3);
        entry->polled = (uint8_t)below(make, 2);
    }
}

static uint16_t any_row_count(maker *make) {
    uint32_t kind = below(make, 10);
    if (kind < 2) {
        return make->plan.node_count;
    }
    if (kind == 2) {
        return REFERENCE_ROWS;
    }
    if (kind == 3) {
        return (uint16_t)between(make, REFERENCE_ROWS_OF_BLOCK, REFERENCE_ROWS_OF_BLOCK + 1);
    }
    return (uint16_t)between(make, make->plan.node_count, REFERENCE_ROWS);
}

/* Each node publishes the row at its own number, the others have any publisher; then the publishers are mixed. */
static void make_publishers(maker *make, uint8_t *publishers) {
    reference_plan *plan = &make->plan;
    for (size_t place = 0; place < plan->row_count; place++) {
        bool of_master = chance(make, 20);
        uint8_t node = (uint8_t)below(make, plan->node_count);
        publishers[place] = place < plan->node_count ? (uint8_t)place : of_master ? REFERENCE_MASTER_PUBLISHER : node;
    }
    for (uint32_t place = plan->row_count - 1u; place > 0; place--) {
        uint32_t other = below(make, place + 1);
        uint8_t kept = publishers[place];
        publishers[place] = publishers[other];
        publishers[other] = kept;
    }
}

static void make_rows(maker *make) {
    reference_plan *plan = &make->plan;
    uint8_t publishers[REFERENCE_ROWS];
    uint32_t made = 0;
    plan->row_count = any_row_count(make);
    make_publishers(make, publishers);
    for (uint32_t reqid = 1; reqid < REFERENCE_REQIDS; reqid++) {
        uint32_t needed = plan->row_count - made;
        if (below(make, REFERENCE_REQIDS - reqid) < needed) {
            reference_row *row = &plan->rows[made];
            row->reqid = (uint8_t)reqid;
            row->publisher = publishers[made];
            row->length = chance(make, 20) ? 255 : (uint8_t)below(make, 13);
            row->kind = (uint8_t)below(make, REFERENCE_VARIABLE_COUNTED + 1);
            made++;
        }
    }
}

/* The number of nodes goes round with the seed, so that few seeds have every number; every fifth plan is of panels that never sleep. */
static void make_plan(maker *make, uint64_t seed) {
    make->plan.revision = (uint16_t)between(make, 1, 65535);
    make->plan.profile = seed % 5 == 0;
    make->plan.node_count = (uint8_t)(1 + seed % REFERENCE_NODES);
    make_times(make);
    make_nodes(make);
    make_rows(make);
}

/* Records */

static void put_record(maker *make, const uint8_t *record) {
    reference_move move;
    if (make->left == 0) {
        return;
    }
    make->left--;
    fwrite(record, 1, make->left == 0 ? make->last_length : REFERENCE_MOVE_LENGTH, make->moves);
    if (reference_decode_move(record, &move)) {
        reference_world_act(&make->plan, &make->world, &move);
    }
}

/* A set of nodes: all below N, any or none. Bits from N on are random. */
static uint16_t some_set(maker *make, uint32_t all_percent) {
    uint16_t used = (uint16_t)((1u << make->plan.node_count) - 1);
    uint16_t random = any_two(make);
    uint16_t within = chance(make, all_percent) ? used : chance(make, 85) ? (uint16_t)(random & used) : 0;
    return (uint16_t)(within | (random & ~(unsigned)used));
}

static reference_move new_move(maker *make, uint8_t act) {
    reference_move move = {.act = act};
    bool flag = act == REFERENCE_ACT_NODE_PERMISSION || act == REFERENCE_ACT_MASTER_PERMISSION || act == REFERENCE_ACT_SEND_RESULT;
    move.node = any_byte(make);
    move.value = flag ? (uint8_t)below(make, 2) : any_byte(make);
    move.fate = (uint8_t)below(make, 3);
    move.reached = some_set(make, 80);
    move.hearing = some_set(make, 50);
    move.master_hears = (uint8_t)below(make, 2);
    move.result = any_two(make);
    move.length = any_two(make);
    move.count = any_byte(make);
    move.permission = (uint8_t)below(make, 2);
    move.wake = (uint8_t)below(make, 2);
    return move;
}

/* A record that is no move, for one reason or, of random bytes, for many. */
static void put_no_move(maker *make) {
    static const uint8_t flag_acts[] = {REFERENCE_ACT_NODE_PERMISSION, REFERENCE_ACT_MASTER_PERMISSION, REFERENCE_ACT_SEND_RESULT};
    uint8_t record[REFERENCE_MOVE_LENGTH];
    reference_move move = new_move(make, (uint8_t)below(make, REFERENCE_ACTS));
    reference_encode_move(&move, record);
    switch (below(make, 7)) {
    case 0:
        record[0] = byte_from(make, REFERENCE_ACTS);
        break;
    case 1:
        record[3] = byte_from(make, REFERENCE_LOST + 1);
        break;
    case 2:
        record[8] = byte_from(make, 2);
        break;
    case 3:
        record[14] = byte_from(make, 2);
        break;
    case 4:
        record[15] = byte_from(make, 2);
        break;
    case 5:
        record[0] = flag_acts[below(make, 3)];
        record[2] = byte_from(make, 2);
        break;
    default:
        for (size_t offset = 0; offset < sizeof record; offset++) {
            record[offset] = any_byte(make);
        }
        break;
    }
    put_record(make, record);
}

static void put_move(maker *make, const reference_move *move) {
    uint8_t record[REFERENCE_MOVE_LENGTH];
    if (chance(make, 2)) {
        put_no_move(make);
    }
    reference_encode_move(move, record);
    put_record(make, record);
}

/* What moves are about */

static uint8_t some_node(maker *make) {
    return chance(make, 2) ? byte_from(make, make->plan.node_count) : (uint8_t)below(make, make->plan.node_count);
}

static uint8_t some_reqid(maker *make) {
    uint32_t kind = below(make, 100);
    if (kind < 90) {
        return make->plan.rows[below(make, make->plan.row_count)].reqid;
    }
    return kind < 96 ? (uint8_t)below(make, REFERENCE_REQIDS) : byte_from(make, REFERENCE_REQIDS);
}

/* A ReqId that the node publishes. */
static uint8_t reqid_of(maker *make, uint8_t node) {
    uint8_t own[REFERENCE_ROWS];
    uint32_t rows = 0;
    for (size_t place = 0; place < make->plan.row_count; place++) {
        if (make->plan.rows[place].publisher == node) {
            own[rows++] = make->plan.rows[place].reqid;
        }
    }
    return own[below(make, rows)];
}

/* Mostly a length about the row's, at the edges of what a variable row accepts; a number that is too small by one is too large. */
static void choose_length(maker *make, reference_move *move) {
    const reference_row *row = reference_find_row(&make->plan, move->value);
    if (row != NULL && chance(make, 80)) {
        const uint16_t lengths[] = {0, (uint16_t)(row->length - 1), row->length, row->length + 1, 255, row->length + 256};
        move->length = lengths[below(make, sizeof lengths / sizeof lengths[0])];
    }
}

/* Damage of every kind, now and then one that no bus does. */
static void damage(maker *make, reference_move *move) {
    static const uint16_t results[] = {1, 255, 256, 65535};
    move->fate = REFERENCE_DAMAGED;
    move->result = chance(make, 50) ? results[below(make, 4)] : (uint16_t)between(make, 1, 65535);
    move->count = (uint8_t)below(make, 4);
    if (chance(make, 4)) {
        move->result = 0;
    }
    if (chance(make, 4)) {
        move->count = byte_from(make, 4);
    }
}

static void choose_fate(maker *make, reference_move *move, uint32_t whole_percent) {
    choose_length(make, move);
    if (chance(make, whole_percent)) {
        move->fate = REFERENCE_WHOLE;
    } else if (chance(make, 60)) {
        damage(make, move);
    } else {
        move->fate = REFERENCE_LOST;
    }
}

/* Single moves */

static void tick(maker *make) {
    reference_move move = new_move(make, REFERENCE_ACT_TICK);
    move.master_hears = !make->deaf && chance(make, 60);
    put_move(make, &move);
}

static void ticks(maker *make, uint32_t number) {
    for (uint32_t made = 0; made < number && make->left > 0; made++) {
        tick(make);
    }
}

static void wake_node(maker *make, uint8_t node, bool master_hears) {
    reference_move move = new_move(make, REFERENCE_ACT_NODE_WAKE);
    move.node = node;
    move.master_hears = master_hears;
    put_move(make, &move);
}

static void wake_master(maker *make) {
    reference_move move = new_move(make, REFERENCE_ACT_MASTER_WAKE);
    put_move(make, &move);
}

static void permit_node(maker *make, uint8_t node, bool yes) {
    reference_move move = new_move(make, REFERENCE_ACT_NODE_PERMISSION);
    move.node = node;
    move.value = yes;
    put_move(make, &move);
}

static void permit_master(maker *make, bool yes) {
    reference_move move = new_move(make, REFERENCE_ACT_MASTER_PERMISSION);
    move.value = yes;
    put_move(make, &move);
}

static void request(maker *make, uint8_t reqid, uint32_t whole_percent) {
    reference_move move = new_move(make, REFERENCE_ACT_REQUEST);
    move.value = reqid;
    choose_fate(make, &move, whole_percent);
    put_move(make, &move);
}

static void ask_to_send(maker *make, uint8_t node, uint8_t reqid, uint32_t whole_percent) {
    reference_move move = new_move(make, REFERENCE_ACT_SEND);
    move.node = node;
    move.value = reqid;
    choose_fate(make, &move, whole_percent);
    put_move(make, &move);
}

static void sleep_ask(maker *make) {
    reference_move move = new_move(make, REFERENCE_ACT_SLEEP);
    put_move(make, &move);
}

static void send_result(maker *make, bool sent) {
    reference_move move = new_move(make, REFERENCE_ACT_SEND_RESULT);
    move.value = sent;
    move.reached = some_set(make, 55);
    put_move(make, &move);
}

/* Several moves together */

static void request_or_send(maker *make, uint8_t node, uint8_t reqid, uint32_t whole_percent) {
    if (chance(make, 65)) {
        request(make, reqid, whole_percent);
    } else {
        ask_to_send(make, node, reqid, whole_percent);
    }
}

static void traffic(maker *make) {
    uint8_t reqid = some_reqid(make);
    uint8_t node = some_node(make);
    if (node < make->plan.node_count && chance(make, 50)) {
        reqid = reqid_of(make, node);
    }
    request_or_send(make, node, reqid, 85);
}

static void permissions(maker *make, uint32_t yes_percent) {
    for (uint8_t number = 0; number < make->plan.node_count; number++) {
        if (chance(make, 60)) {
            permit_node(make, number, chance(make, yes_percent));
        }
    }
    if (chance(make, 50)) {
        permit_master(make, chance(make, yes_percent));
    }
}

static void any_moves(maker *make, uint32_t number) {
    for (uint32_t made = 0; made < number && make->left > 0; made++) {
        reference_move move = new_move(make, (uint8_t)below(make, REFERENCE_ACTS));
        if (chance(make, 90)) {
            move.node = some_node(make);
        }
        if (move.act == REFERENCE_ACT_REQUEST || move.act == REFERENCE_ACT_SEND) {
            move.value = some_reqid(make);
            choose_length(make, &move);
        }
        put_move(make, &move);
    }
}

static void work(maker *make) {
    for (uint32_t moves = between(make, 1, 30); moves > 0 && make->left > 0; moves--) {
        uint32_t kind = below(make, 100);
        if (kind < 50) {
            traffic(make);
        } else if (kind < 75) {
            tick(make);
        } else if (kind < 85) {
            uint8_t node = some_node(make);
            permit_node(make, node, chance(make, 60));
        } else {
            any_moves(make, 1);
        }
    }
}

/* Lets each limit pass: errors show, nodes fall asleep and give up. */
static void rest(maker *make) {
    const reference_times *times = &make->plan.times;
    uint32_t most = least(2u * times->recovery + times->quiet + times->space + times->window, chance(make, 10) ? 1500 : 60);
    make->deaf = chance(make, 50);
    ticks(make, between(make, 1, most + 2));
    make->deaf = false;
}

/* With the clock on each node is Normal after two ticks. */
static void rouse(maker *make) {
    for (uint8_t number = 0; number < make->plan.node_count; number++) {
        while (make->world.nodes[number].state != REFERENCE_NORMAL && reference_clock_is_on(&make->world) && make->left > 0) {
            tick(make);
        }
    }
}

/* Asks each node whose permission is not held; the first answer after an ask to wake lets all go again. */
static void gather(maker *make) {
    for (int round = 0; round < 4; round++) {
        for (uint8_t number = 0; number < make->plan.node_count; number++) {
            if (make->world.master.permissions[number].held) {
                continue;
            }
            if (!make->world.nodes[number].permission && chance(make, 95)) {
                permit_node(make, number, true);
            }
            request_or_send(make, number, reqid_of(make, number), 96);
        }
    }
}

static bool can_call(const reference_node *node) {
    return node->state == REFERENCE_SLEEP || (node->state == REFERENCE_STANDBY && !node->caller);
}

/* A node that is not awake asks to wake, if there is one. */
static void call(maker *make, bool master_hears) {
    uint32_t first = below(make, make->plan.node_count);
    for (uint32_t turn = 0; turn < make->plan.node_count; turn++) {
        uint8_t number = (uint8_t)((first + turn) % make->plan.node_count);
        if (can_call(&make->world.nodes[number])) {
            wake_node(make, number, master_hears);
            return;
        }
    }
}

/* What may come between a sleep ask and the stop of the clock. */
static void disturb(maker *make) {
    uint8_t node = (uint8_t)below(make, make->plan.node_count);
    uint8_t reqid = reqid_of(make, node);
    switch (below(make, 9)) {
    case 0: /* a damaged answer */
        request_or_send(make, node, reqid, 0);
        break;
    case 1: /* an answer with the wake bit */
        wake_node(make, node, false);
        request_or_send(make, node, reqid, 95);
        break;
    case 2: /* an answer that refuses */
        permit_node(make, node, false);
        request_or_send(make, node, reqid, 95);
        break;
    case 3:
        call(make, true);
        break;
    case 4:
        call(make, false);
        break;
    case 5:
        wake_master(make);
        break;
    case 6:
        permit_master(make, false);
        permit_master(make, chance(make, 80));
        break;
    case 7:
        sleep_ask(make);
        break;
    default:
        any_moves(make, 1);
        break;
    }
}

/* Ticks up to the stop of the clock, disturbed in one of three sequences or so. */
static void close_down(maker *make) {
    while (make->world.master.phase == REFERENCE_CLOSING && make->left > 0) {
        if (below(make, 3u * make->plan.times.stop) == 0) {
            disturb(make);
        }
        if (chance(make, 5)) {
            request(make, some_reqid(make), 100);
        }
        if (chance(make, 40)) {
            call(make, chance(make, 20));
        }
        tick(make);
    }
}

static void send_sleep_message(maker *make) {
    permit_master(make, chance(make, 96));
    gather(make);
    sleep_ask(make);
    if (chance(make, 15)) {
        ticks(make, between(make, 1, least(make->plan.times.window, 10) + 2));
    }
    if (chance(make, 25)) {
        disturb(make);
    }
    if (chance(make, 15)) {
        traffic(make);
    }
    send_result(make, chance(make, 85));
}

static void fall_asleep(maker *make) {
    rouse(make);
    send_sleep_message(make);
    close_down(make);
}

/* A sleep message that is called back puts its nodes to sleep while the next one is under way; asleep, they can call. */
static void fall_asleep_between(maker *make) {
    uint32_t delay = least(make->plan.times.sleep, 60);
    rouse(make);
    send_sleep_message(make);
    permit_master(make, false);
    ticks(make, delay - between(make, 1, least(delay, 3)));
    permit_master(make, true);
    gather(make);
    sleep_ask(make);
    if (chance(make, 40)) {
        disturb(make);
    }
    if (chance(make, 70)) {
        ticks(make, between(make, 1, 2));
        call(make, chance(make, 50));
    }
    send_result(make, chance(make, 85));
    close_down(make);
}

static void wake_up(maker *make) {
    if (chance(make, 25)) {
        wake_master(make);
    } else {
        uint8_t node = some_node(make);
        wake_node(make, node, chance(make, 70));
    }
    ticks(make, make->plan.times.start + below(make, 3));
}

/* Several nodes call, mostly between the same two ticks, so that their second pulses fall into one tick. */
static void call_together(maker *make) {
    make->deaf = chance(make, 75);
    for (uint32_t callers = between(make, 1, make->plan.node_count); callers > 0; callers--) {
        uint8_t node = some_node(make);
        wake_node(make, node, !make->deaf && chance(make, 30));
        if (chance(make, 10)) {
            tick(make);
        }
    }
    ticks(make, between(make, 1, least(2u * make->plan.times.recovery, chance(make, 10) ? 1500 : 80) + 2));
    make->deaf = false;
    if (chance(make, 50)) {
        permissions(make, 50);
    }
}

static void make_moves(maker *make) {
    while (make->left > 0) {
        uint32_t kind = below(make, 100);
        if (reference_clock_is_on(&make->world)) {
            if (kind < 35) {
                work(make);
            } else if (kind < 75) {
                fall_asleep(make);
            } else if (kind < 88) {
                fall_asleep_between(make);
            } else if (kind < 94) {
                rest(make);
            } else {
                any_moves(make, between(make, 1, 30));
            }
        } else if (kind < 45) {
            wake_up(make);
        } else if (kind < 65) {
            call_together(make);
        } else if (kind < 78) {
            rest(make);
        } else if (kind < 88) {
            permissions(make, 50);
        } else if (kind < 94) {
            work(make);
        } else {
            any_moves(make, between(make, 1, 30));
        }
    }
}

/* The program */

static FILE *open_in(const char *folder, const char *name) {
    char path[4096];
    int length = snprintf(path, sizeof path, "%s/%s", folder, name);
    FILE *file = length < (int)sizeof path ? fopen(path, "wb") : NULL;
    if (file == NULL) {
        fprintf(stderr, "%s/%s can't be written\n", folder, name);
        exit(1);
    }
    return file;
}

static void close_written(FILE *file) {
    bool failed = ferror(file) != 0;
    if (fclose(file) != 0 || failed) {
        fprintf(stderr, "a file was not written whole\n");
        exit(1);
    }
}

static void write_set(const reference_plan *plan, const char *folder) {
    uint8_t set[3 * REFERENCE_BLOCK];
    uint16_t length;
    uint32_t refusal = reference_write(plan, set, sizeof set, &length);
    if (refusal != 0) {
        fprintf(stderr, "the plan is refused: %u\n", (unsigned)refusal);
        exit(1);
    }
    FILE *file = open_in(folder, "plan.set");
    fwrite(set, 1, length, file);
    close_written(file);
}

int main(int argc, char **argv) {
    static maker make;
    if (argc != 4) {
        fprintf(stderr, "usage: make_moves SEED COUNT DIR\n");
        return 2;
    }
    uint64_t seed = strtoull(argv[1], NULL, 10);
    make.random = seed;
    make.left = strtoull(argv[2], NULL, 10);
    make.last_length = between(&make, 1, REFERENCE_MOVE_LENGTH);
    make_plan(&make, seed);
    write_set(&make.plan, argv[3]);
    reference_world_power_on(&make.plan, &make.world);
    make.moves = open_in(argv[3], "moves");
    make_moves(&make);
    close_written(make.moves);
    return 0;
}
