/* Sections 1 to 4 of the requirements in plain C: the reader and writer of release sets, the master machine and the node machine, with W-204
 * to W-207.
 *
 * Compile: gcc -std=c11 -O2 -Wall -Wextra -Werror -pedantic -c tests/independent/reference.c */
#include "reference.h"

#include <string.h>

/* Numbers of the set */

static uint16_t number_at(const uint8_t *bytes, size_t offset) {
    return (uint16_t)(bytes[offset] << 8 | bytes[offset + 1]);
}

static void put_number(uint8_t *bytes, size_t offset, uint16_t number) {
    bytes[offset] = (uint8_t)(number >> 8);
    bytes[offset + 1] = (uint8_t)number;
}

/* "the sum over bytes 0 to 509 of (offset + 1) times the byte, remainder by 65,521". The benchmark also has it by the flashing station's
 * sheet: from byte 509 down to byte 0 a running total, and a running total of totals. */
static uint16_t check_of(const uint8_t *block) {
#ifdef CHECK_BY_SHEET
    uint32_t total = 0;
    uint32_t sum = 0;
    for (uint32_t left = 510; left > 0; left--) {
        total += block[left - 1];
        sum += total;
    }
#else
    uint32_t sum = 0;
    for (uint32_t offset = 0; offset < 510; offset++) {
        sum += (offset + 1) * block[offset];
    }
#endif
    return (uint16_t)(sum % 65521);
}

static bool all_zero(const uint8_t *bytes, size_t from, size_t to) {
    for (size_t offset = from; offset < to; offset++) {
        if (bytes[offset] != 0) {
            return false;
        }
    }
    return true;
}

/* The plan's rules, 3 to 8 */

static bool profile_is_right(uint8_t profile) {
    return profile <= 1;
}

static bool time_is_right(uint16_t ticks) {
    return ticks >= 1 && ticks <= 30000;
}

static bool times_are_right(const reference_times *times) {
    return time_is_right(times->window) && time_is_right(times->stop) && time_is_right(times->sleep) && time_is_right(times->quiet) &&
           time_is_right(times->recovery) && time_is_right(times->space) && time_is_right(times->start) && times->sleep >= times->stop;
}

static bool nodes_are_right(const reference_plan *plan) {
    bool taken[126] = {false};
    if (plan->node_count < 1 || plan->node_count > REFERENCE_NODES) {
        return false;
    }
    for (size_t number = 0; number < plan->node_count; number++) {
        const reference_node_entry *entry = &plan->nodes[number];
        if (entry->address < 1 || entry->address > 125 || taken[entry->address]) {
            return false;
        }
        taken[entry->address] = true;
        if (entry->diagnostic_class < 1 || entry->diagnostic_class > 3 || entry->polled > 1 || entry->zero != 0) {
            return false;
        }
    }
    return true;
}

static bool rows_are_right(const reference_plan *plan) {
    uint8_t before = 0;
    if (plan->row_count < 1 || plan->row_count > REFERENCE_ROWS) {
        return false;
    }
    for (size_t place = 0; place < plan->row_count; place++) {
        const reference_row *row = &plan->rows[place];
        if (row->reqid <= before || row->reqid > 127) {
            return false;
        }
        before = row->reqid;
        if (row->publisher >= plan->node_count && row->publisher != REFERENCE_MASTER_PUBLISHER) {
            return false;
        }
        if (row->kind > REFERENCE_VARIABLE_COUNTED) {
            return false;
        }
    }
    return true;
}

static bool each_node_publishes(const reference_plan *plan) {
    bool publishes[256] = {false};
    for (size_t place = 0; place < plan->row_count; place++) {
        publishes[plan->rows[place].publisher] = true;
    }
    for (size_t number = 0; number < plan->node_count; number++) {
        if (!publishes[number]) {
            return false;
        }
    }
    return true;
}

uint32_t reference_plan_refusal(const reference_plan *plan) {
    if (!profile_is_right(plan->profile)) {
        return 3;
    }
    if (plan->revision == 0) {
        return 4;
    }
    if (!times_are_right(&plan->times)) {
        return 5;
    }
    if (!nodes_are_right(plan)) {
        return 6;
    }
    if (!rows_are_right(plan)) {
        return 7;
    }
    if (!each_node_publishes(plan)) {
        return 8;
    }
    return 0;
}

const reference_row *reference_find_row(const reference_plan *plan, uint8_t reqid) {
    size_t low = 0;
    size_t high = plan->row_count;
    while (low < high) {
        size_t middle = (low + high) / 2;
        if (plan->rows[middle].reqid < reqid) {
            low = middle + 1;
        } else {
            high = middle;
        }
    }
    return low < plan->row_count && plan->rows[low].reqid == reqid ? &plan->rows[low] : NULL;
}

bool reference_row_is_counted(const reference_row *row) {
    return row->kind == REFERENCE_FIXED_COUNTED || row->kind == REFERENCE_VARIABLE_COUNTED;
}

bool reference_row_is_variable(const reference_row *row) {
    return row->kind == REFERENCE_VARIABLE || row->kind == REFERENCE_VARIABLE_COUNTED;
}

/* "such a row accepts any length up to its own"; a fixed row its own alone */
static bool row_accepts(const reference_row *row, uint16_t length) {
    return reference_row_is_variable(row) ? length <= row->length : length == row->length;
}

/* Reading a set */

static bool checks_are_right(const uint8_t *set, size_t blocks) {
    for (size_t block = 0; block < blocks; block++) {
        const uint8_t *bytes = set + block * REFERENCE_BLOCK;
        if (check_of(bytes) != number_at(bytes, 510)) {
            return false;
        }
    }
    return true;
}

static bool heads_are_right(const uint8_t *set, size_t blocks) {
    for (size_t block = 0; block < blocks; block++) {
        const uint8_t *bytes = set + block * REFERENCE_BLOCK;
        if (bytes[0] != (block == 0 ? 0x50 : 0x4D) || bytes[1] != 1) {
            return false;
        }
        if (block == 0 && !profile_is_right(bytes[5])) {
            return false;
        }
    }
    return true;
}

static bool revisions_are_right(const uint8_t *set, size_t blocks) {
    uint16_t revision = number_at(set, 2);
    for (size_t block = 1; block < blocks; block++) {
        if (number_at(set + block * REFERENCE_BLOCK, 2) != revision) {
            return false;
        }
    }
    return revision != 0;
}

/* "rows, 1 to 100, exactly 100 in the first of two"; more than 127 in all could not rise strictly. */
static bool row_counts_are_right(const uint8_t *set, size_t blocks) {
    uint8_t first = set[REFERENCE_BLOCK + 4];
    if (blocks == 2) {
        return first >= 1 && first <= REFERENCE_ROWS_OF_BLOCK;
    }
    uint8_t second = set[2 * REFERENCE_BLOCK + 4];
    return first == REFERENCE_ROWS_OF_BLOCK && second >= 1 && second <= REFERENCE_ROWS - REFERENCE_ROWS_OF_BLOCK;
}

static bool filler_is_zero(const uint8_t *set, size_t blocks) {
    if (!all_zero(set, 20, 32) || !all_zero(set, 32 + 4 * (size_t)set[4], 510)) {
        return false;
    }
    for (size_t block = 1; block < blocks; block++) {
        const uint8_t *bytes = set + block * REFERENCE_BLOCK;
        if (!all_zero(bytes, 5, 8) || !all_zero(bytes, 8 + 4 * (size_t)bytes[4], 510)) {
            return false;
        }
    }
    return true;
}

static void read_times(const uint8_t *set, reference_times *times) {
    times->window = number_at(set, 6);
    times->stop = number_at(set, 8);
    times->sleep = number_at(set, 10);
    times->quiet = number_at(set, 12);
    times->recovery = number_at(set, 14);
    times->space = number_at(set, 16);
    times->start = number_at(set, 18);
}

static void read_nodes(const uint8_t *set, reference_plan *plan) {
    plan->node_count = set[4];
    for (size_t number = 0; number < plan->node_count && number < REFERENCE_NODES; number++) {
        const uint8_t *bytes = set + 32 + 4 * number;
        plan->nodes[number] = (reference_node_entry){bytes[0], bytes[1], bytes[2], bytes[3]};
    }
}

static void read_rows(const uint8_t *set, size_t blocks, reference_plan *plan) {
    for (size_t block = 1; block < blocks; block++) {
        const uint8_t *bytes = set + block * REFERENCE_BLOCK;
        for (size_t row = 0; row < bytes[4]; row++) {
            const uint8_t *at = bytes + 8 + 4 * row;
            plan->rows[plan->row_count++] = (reference_row){at[0], at[1], at[2], at[3]};
        }
    }
}

static uint32_t read_blocks(const uint8_t *set, size_t length, reference_plan *plan) {
    size_t blocks = length / REFERENCE_BLOCK;
    if (length != 1024 && length != 1536) {
        return 1;
    }
    if (!checks_are_right(set, blocks)) {
        return 2;
    }
    if (!heads_are_right(set, blocks)) {
        return 3;
    }
    if (!revisions_are_right(set, blocks)) {
        return 4;
    }
    plan->revision = number_at(set, 2);
    plan->profile = set[5];
    read_times(set, &plan->times);
    if (!times_are_right(&plan->times)) {
        return 5;
    }
    read_nodes(set, plan);
    if (!nodes_are_right(plan)) {
        return 6;
    }
    if (!row_counts_are_right(set, blocks)) {
        return 7;
    }
    read_rows(set, blocks, plan);
    if (!rows_are_right(plan)) {
        return 7;
    }
    if (!each_node_publishes(plan)) {
        return 8;
    }
    return filler_is_zero(set, blocks) ? 0 : 9;
}

uint32_t reference_read(const uint8_t *set, size_t length, reference_plan *plan) {
    memset(plan, 0, sizeof *plan);
    uint32_t refusal = read_blocks(set, length, plan);
    if (refusal != 0) {
        memset(plan, 0, sizeof *plan);
    }
    return refusal;
}

/* Writing a set */

static void close_block(uint8_t *block) {
    put_number(block, 510, check_of(block));
}

static void write_plan_block(const reference_plan *plan, uint8_t *block) {
    const reference_times *times = &plan->times;
    block[0] = 0x50;
    block[1] = 1;
    put_number(block, 2, plan->revision);
    block[4] = plan->node_count;
    block[5] = plan->profile;
    put_number(block, 6, times->window);
    put_number(block, 8, times->stop);
    put_number(block, 10, times->sleep);
    put_number(block, 12, times->quiet);
    put_number(block, 14, times->recovery);
    put_number(block, 16, times->space);
    put_number(block, 18, times->start);
    for (size_t number = 0; number < plan->node_count; number++) {
        const reference_node_entry *entry = &plan->nodes[number];
        uint8_t *bytes = block + 32 + 4 * number;
        bytes[0] = entry->address;
        bytes[1] = entry->diagnostic_class;
        bytes[2] = entry->polled;
        bytes[3] = entry->zero;
    }
    close_block(block);
}

static void write_message_block(const reference_plan *plan, size_t first, size_t rows, uint8_t *block) {
    block[0] = 0x4D;
    block[1] = 1;
    put_number(block, 2, plan->revision);
    block[4] = (uint8_t)rows;
    for (size_t place = 0; place < rows; place++) {
        const reference_row *row = &plan->rows[first + place];
        uint8_t *bytes = block + 8 + 4 * place;
        bytes[0] = row->reqid;
        bytes[1] = row->publisher;
        bytes[2] = row->length;
        bytes[3] = row->kind;
    }
    close_block(block);
}

uint32_t reference_write(const reference_plan *plan, uint8_t *set, size_t room, uint16_t *length) {
    *length = 0;
    uint32_t refusal = reference_plan_refusal(plan);
    if (refusal != 0) {
        return refusal;
    }
    bool two = plan->row_count > REFERENCE_ROWS_OF_BLOCK;
    uint16_t needed = two ? 1536 : 1024;
    if (room < needed) {
        return 10;
    }
    memset(set, 0, needed);
    write_plan_block(plan, set);
    if (two) {
        write_message_block(plan, 0, REFERENCE_ROWS_OF_BLOCK, set + REFERENCE_BLOCK);
        write_message_block(plan, REFERENCE_ROWS_OF_BLOCK, plan->row_count - (size_t)REFERENCE_ROWS_OF_BLOCK,
                            set + 2 * REFERENCE_BLOCK);
    } else {
        write_message_block(plan, 0, plan->row_count, set + REFERENCE_BLOCK);
    }
    *length = needed;
    return 0;
}

/* W-206's profile: "Machines of such a set start in Normal with the clock on, never leave it". */
static bool never_sleeps(const reference_plan *plan) {
    return plan->profile == 1;
}

static uint8_t state_at_power_on(const reference_plan *plan) {
    return never_sleeps(plan) ? REFERENCE_NORMAL : REFERENCE_SLEEP;
}

/* The master */

void reference_master_power_on(const reference_plan *plan, reference_master *master) {
    memset(master, 0, sizeof *master);
    master->state = state_at_power_on(plan);
    memset(master->last_counts, REFERENCE_NO_COUNT, sizeof master->last_counts);
}

static bool delay_in_range(const reference_plan *plan, const reference_master *master) {
    if (master->state == REFERENCE_STANDBY) {
        return master->delay < plan->times.start;
    }
    if (master->phase == REFERENCE_CLOSING) {
        return master->delay < plan->times.stop;
    }
    return master->delay == 0;
}

static bool permissions_in_range(const reference_plan *plan, const reference_master *master) {
    for (size_t number = 0; number < REFERENCE_NODES; number++) {
        const reference_permission *permission = &master->permissions[number];
        uint8_t held_limit = number < plan->node_count ? 1 : 0;
        uint16_t age_limit = permission->held ? plan->times.window : 0;
        if (permission->held > held_limit || permission->age > age_limit) {
            return false;
        }
    }
    return true;
}

/* "stored as 0 for never answered, a held node, outside Normal and from N on" */
static bool causes_in_range(const reference_plan *plan, const reference_master *master) {
    for (size_t number = 0; number < REFERENCE_NODES; number++) {
        bool may_have_one = master->state == REFERENCE_NORMAL && number < plan->node_count && !master->permissions[number].held;
        if (master->causes[number] > (may_have_one ? REFERENCE_CAUSE_WAKE : REFERENCE_CAUSE_NEW)) {
            return false;
        }
    }
    return true;
}

static bool counts_in_range(const uint8_t *counts, uint8_t limit) {
    for (size_t reqid = 0; reqid < REFERENCE_REQIDS; reqid++) {
        if (counts[reqid] > limit) {
            return false;
        }
    }
    return true;
}

bool reference_master_in_range(const reference_plan *plan, const reference_master *master) {
    if (master->state > REFERENCE_SLEEP || master->phase > REFERENCE_CLOSING || master->own_permission > 1) {
        return false;
    }
    if (master->state != REFERENCE_NORMAL && master->phase != REFERENCE_OPEN) {
        return false;
    }
    if (never_sleeps(plan) && (master->state != REFERENCE_NORMAL || master->phase != REFERENCE_OPEN)) {
        return false;
    }
    return delay_in_range(plan, master) && permissions_in_range(plan, master) && causes_in_range(plan, master) &&
           counts_in_range(master->last_counts, REFERENCE_NO_COUNT);
}

/* "Each change of state or phase sets the delay to 0." */
static void enter(reference_master *master, uint8_t state, uint8_t phase) {
    master->state = state;
    master->phase = phase;
    master->delay = 0;
}

static void call_back(reference_master *master) {
    if (master->phase == REFERENCE_SENDING) {
        enter(master, REFERENCE_NORMAL, REFERENCE_WITHDRAWN);
    } else if (master->phase == REFERENCE_CLOSING) {
        enter(master, REFERENCE_NORMAL, REFERENCE_OPEN);
    }
}

static void let_go(reference_master *master, size_t number, uint8_t cause) {
    master->permissions[number].held = 0;
    master->permissions[number].age = 0;
    master->causes[number] = cause;
}

/* "A wake-up is the cause for nodes it let go": one that was not held keeps its own. */
static void wake_all(reference_master *master) {
    for (size_t number = 0; number < REFERENCE_NODES; number++) {
        if (master->permissions[number].held) {
            let_go(master, number, REFERENCE_CAUSE_WAKE);
        }
    }
}

static void forget_causes(reference_master *master) {
    memset(master->causes, REFERENCE_CAUSE_NEW, sizeof master->causes);
}

static void age_permissions(const reference_plan *plan, reference_master *master) {
    for (size_t number = 0; number < plan->node_count; number++) {
        reference_permission *permission = &master->permissions[number];
        if (permission->held) {
            permission->age++;
            if (permission->age > plan->times.window) {
                let_go(master, number, master->state == REFERENCE_NORMAL ? REFERENCE_CAUSE_AGED : REFERENCE_CAUSE_NEW);
            }
        }
    }
}

static uint32_t master_tick(const reference_plan *plan, reference_master *master, reference_master_reply *reply) {
    master->tick_number++;
    age_permissions(plan, master);
    if (master->state == REFERENCE_STANDBY) {
        master->delay++;
        if (master->delay >= plan->times.start) {
            enter(master, REFERENCE_NORMAL, REFERENCE_OPEN);
            memset(master->last_counts, REFERENCE_NO_COUNT, sizeof master->last_counts);
            forget_causes(master);
            reply->command = REFERENCE_CLOCK_ON;
        }
    } else if (master->phase == REFERENCE_CLOSING) {
        master->delay++;
        if (master->delay >= plan->times.stop) {
            enter(master, REFERENCE_SLEEP, REFERENCE_OPEN);
            memset(master->permissions, 0, sizeof master->permissions);
            forget_causes(master);
            reply->command = REFERENCE_CLOCK_OFF;
        }
    }
    return 0;
}

static uint8_t store_count(reference_master *master, uint8_t reqid, uint8_t count) {
    uint8_t last = master->last_counts[reqid];
    master->last_counts[reqid] = count;
    return last == REFERENCE_NO_COUNT ? 0 : (uint8_t)(count - last - 1) & 3;
}

static uint32_t master_answer(const reference_plan *plan, reference_master *master, const reference_master_event *event,
                              reference_master_reply *reply) {
    const reference_row *row = reference_find_row(plan, event->reqid);
    if (row == NULL || row->publisher == REFERENCE_MASTER_PUBLISHER) {
        return 12;
    }
    if (event->result != 0 || !row_accepts(row, event->length)) {
        let_go(master, row->publisher, REFERENCE_CAUSE_DAMAGED);
        call_back(master);
        return event->result != 0 ? 13 : 14;
    }
    if (reference_row_is_counted(row)) {
        reply->lost = store_count(master, event->reqid, event->count);
    }
    if (event->wake) {
        wake_all(master);
        master->causes[row->publisher] = REFERENCE_CAUSE_WAKE;
        call_back(master);
    } else if (event->permission) {
        master->permissions[row->publisher] = (reference_permission){.held = 1, .age = 0};
        master->causes[row->publisher] = REFERENCE_CAUSE_NEW;
    } else {
        let_go(master, row->publisher, REFERENCE_CAUSE_REFUSED);
        call_back(master);
    }
    return 0;
}

static uint32_t master_wake(reference_master *master) {
    if (master->state == REFERENCE_NORMAL) {
        wake_all(master);
        call_back(master);
    } else if (master->state == REFERENCE_SLEEP) {
        enter(master, REFERENCE_STANDBY, REFERENCE_OPEN);
    }
    return 0;
}

static uint32_t master_permission(reference_master *master, uint8_t permission) {
    master->own_permission = permission;
    if (!permission) {
        call_back(master);
    }
    return 0;
}

static uint32_t master_sleep(const reference_plan *plan, reference_master *master, reference_master_reply *reply) {
    if (master->phase != REFERENCE_OPEN) {
        return 18;
    }
    if (!master->own_permission) {
        return 19;
    }
    for (uint8_t number = 0; number < plan->node_count; number++) {
        if (!master->permissions[number].held) {
            reply->node = number;
            return 20;
        }
    }
    enter(master, REFERENCE_NORMAL, REFERENCE_SENDING);
    reply->command = REFERENCE_SEND_SLEEP_MESSAGE;
    return 0;
}

static uint32_t master_send_result(reference_master *master, uint8_t sent) {
    if (master->phase == REFERENCE_WITHDRAWN) {
        enter(master, REFERENCE_NORMAL, REFERENCE_OPEN);
    } else if (master->phase == REFERENCE_SENDING) {
        enter(master, REFERENCE_NORMAL, sent ? REFERENCE_CLOSING : REFERENCE_OPEN);
    } else {
        return 17;
    }
    return 0;
}

static bool master_event_is_right(const reference_master_event *event) {
    switch (event->kind) {
    case REFERENCE_MASTER_ANSWER:
        return event->reqid <= 127 && event->count <= 3 && event->permission <= 1 && event->wake <= 1;
    case REFERENCE_MASTER_PERMISSION:
        return event->permission <= 1;
    case REFERENCE_MASTER_SEND_RESULT:
        return event->sent <= 1;
    default:
        return event->kind <= REFERENCE_MASTER_SEND_RESULT;
    }
}

static bool master_event_needs_normal(uint8_t kind) {
    return kind == REFERENCE_MASTER_ANSWER || kind == REFERENCE_MASTER_SLEEP || kind == REFERENCE_MASTER_SEND_RESULT;
}

uint32_t reference_master_act(const reference_plan *plan, reference_master *master, const reference_master_event *event,
                              reference_master_reply *reply) {
    *reply = (reference_master_reply){0};
    if (!master_event_is_right(event)) {
        return 15;
    }
    if (master_event_needs_normal(event->kind) && master->state != REFERENCE_NORMAL) {
        return 16;
    }
    if (event->kind == REFERENCE_MASTER_SLEEP && never_sleeps(plan)) {
        return 25;
    }
    switch (event->kind) {
    case REFERENCE_MASTER_TICK:
        return master_tick(plan, master, reply);
    case REFERENCE_MASTER_ANSWER:
        return master_answer(plan, master, event, reply);
    case REFERENCE_MASTER_PERMISSION:
        return master_permission(master, event->permission);
    case REFERENCE_MASTER_SLEEP:
        return master_sleep(plan, master, reply);
    case REFERENCE_MASTER_SEND_RESULT:
        return master_send_result(master, event->sent);
    default: /* a pulse or the own ask to wake */
        return master_wake(master);
    }
}

uint32_t reference_master_step(const reference_plan *plan, reference_master *master, const reference_master_event *event,
                               reference_master_reply *reply) {
    *reply = (reference_master_reply){0};
    uint32_t refusal = reference_plan_refusal(plan);
    if (refusal != 0) {
        return refusal;
    }
    if (!reference_master_in_range(plan, master)) {
        return 11;
    }
    return reference_master_act(plan, master, event, reply);
}

/* "the first true reason of these: sleep under way; result of a called-back message owed; own permission missing; or the lowest node
 * not held"; W-206: "the profile itself as the reason, before all others" */
static reference_reason first_reason(const reference_plan *plan, const reference_master *master) {
    if (never_sleeps(plan)) {
        return (reference_reason){.kind = REFERENCE_REASON_PROFILE};
    }
    if (master->phase == REFERENCE_SENDING || master->phase == REFERENCE_CLOSING) {
        return (reference_reason){.kind = REFERENCE_REASON_SLEEP};
    }
    if (master->phase == REFERENCE_WITHDRAWN) {
        return (reference_reason){.kind = REFERENCE_REASON_OWED};
    }
    if (!master->own_permission) {
        return (reference_reason){.kind = REFERENCE_REASON_OWN};
    }
    for (uint8_t number = 0; number < plan->node_count; number++) {
        if (!master->permissions[number].held) {
            return (reference_reason){.kind = REFERENCE_REASON_NODE, .node = number, .cause = master->causes[number]};
        }
    }
    return (reference_reason){.kind = REFERENCE_REASON_NONE};
}

uint32_t reference_master_why(const reference_plan *plan, const reference_master *master, reference_reason *reason) {
    *reason = (reference_reason){0};
    uint32_t refusal = reference_plan_refusal(plan);
    if (refusal != 0) {
        return refusal;
    }
    if (!reference_master_in_range(plan, master)) {
        return 11;
    }
    if (master->state != REFERENCE_NORMAL) {
        return 16;
    }
    *reason = first_reason(plan, master);
    return 0;
}

/* The node */

void reference_node_power_on(const reference_plan *plan, reference_node *node) {
    memset(node, 0, sizeof *node);
    node->state = state_at_power_on(plan);
}

bool reference_node_in_range(const reference_plan *plan, const reference_node *node) {
    const reference_times *times = &plan->times;
    if (node->state > REFERENCE_SLEEP || node->permission > 1 || node->error > 1 || node->wake > 1 || node->heard > 1 ||
        node->caller > 1 || node->delay_runs > 1) {
        return false;
    }
    if (node->quiet_count > times->quiet) {
        return false;
    }
    if (node->delay_runs ? node->delay >= times->sleep : node->delay != 0) {
        return false;
    }
    if (never_sleeps(plan) && (node->state != REFERENCE_NORMAL || node->delay_runs)) {
        return false;
    }
    if (node->state != REFERENCE_STANDBY) {
        if (node->caller || node->standby_count != 0) {
            return false;
        }
    } else if (node->caller ? node->standby_count > 2 * (uint32_t)times->recovery : node->standby_count >= times->space) {
        return false;
    }
    return counts_in_range(node->counts, 3);
}

/* "Entering Sleep clears all but permission." */
static void enter_sleep(reference_node *node) {
    *node = (reference_node){.state = REFERENCE_SLEEP, .permission = node->permission};
}

/* "Entering Normal clears error, heard, caller, sleep delay and every count." */
static void enter_normal(reference_node *node) {
    node->state = REFERENCE_NORMAL;
    node->error = 0;
    node->heard = 0;
    node->caller = 0;
    node->delay_runs = 0;
    node->delay = 0;
    node->quiet_count = 0;
    node->standby_count = 0;
    memset(node->counts, 0, sizeof node->counts);
}

static void enter_standby(reference_node *node, uint8_t caller) {
    node->state = REFERENCE_STANDBY;
    node->caller = caller;
    node->standby_count = 0;
}

/* Says whether a running sleep delay reached its end, which puts the node to sleep. */
static bool delay_ends(const reference_plan *plan, reference_node *node) {
    if (!node->delay_runs) {
        return false;
    }
    node->delay++;
    if (node->delay < plan->times.sleep) {
        return false;
    }
    enter_sleep(node);
    return true;
}

/* W-206: "set the network error at E without sleeping". */
static void show_error(const reference_plan *plan, reference_node *node) {
    node->error = 1;
    if (node->permission && !never_sleeps(plan)) {
        enter_sleep(node);
    }
}

static void tick_with_clock(const reference_plan *plan, reference_node *node) {
    switch (node->state) {
    case REFERENCE_NORMAL:
        node->error = 0;
        node->quiet_count = 0;
        delay_ends(plan, node);
        break;
    case REFERENCE_STANDBY:
        enter_normal(node);
        break;
    default:
        enter_standby(node, 0);
        break;
    }
}

static void quiet_tick(const reference_plan *plan, reference_node *node) {
    if (delay_ends(plan, node)) {
        return;
    }
    if (node->quiet_count < plan->times.quiet) {
        node->quiet_count++;
    }
    if (node->quiet_count == plan->times.quiet) {
        show_error(plan, node);
    }
}

static void caller_tick(const reference_plan *plan, reference_node *node, reference_node_reply *reply) {
    uint32_t recovery = plan->times.recovery;
    if (node->standby_count < 2 * recovery) {
        node->standby_count++;
    }
    if (node->standby_count == recovery) {
        reply->command = REFERENCE_SEND_PULSE;
    }
    if (node->standby_count == 2 * recovery) {
        show_error(plan, node);
    }
}

static void called_tick(const reference_plan *plan, reference_node *node) {
    node->standby_count++;
    if (node->standby_count >= plan->times.space) {
        enter_sleep(node);
    }
}

static void tick_without_clock(const reference_plan *plan, reference_node *node, reference_node_reply *reply) {
    if (node->state == REFERENCE_NORMAL) {
        quiet_tick(plan, node);
    } else if (node->state == REFERENCE_STANDBY && node->caller) {
        caller_tick(plan, node, reply);
    } else if (node->state == REFERENCE_STANDBY) {
        called_tick(plan, node);
    }
}

static uint32_t node_tick(const reference_plan *plan, reference_node *node, uint8_t clock, reference_node_reply *reply) {
    if (clock) {
        tick_with_clock(plan, node);
    } else {
        tick_without_clock(plan, node, reply);
    }
    return 0;
}

static uint32_t node_pulse(reference_node *node) {
    if (node->state == REFERENCE_SLEEP) {
        enter_standby(node, 0);
    }
    return 0;
}

static void call_master(reference_node *node, reference_node_reply *reply) {
    enter_standby(node, 1);
    reply->command = REFERENCE_SEND_PULSE;
}

/* W-204: "in Normal while the error shows" too, "count and quiet count 0, error and sleep delay off". W-206: under its profile an ask "only
 * sets the wake bit". */
static uint32_t node_wake(const reference_plan *plan, reference_node *node, reference_node_reply *reply) {
    node->wake = 1;
    if (never_sleeps(plan)) {
        return 0;
    }
    if (node->state == REFERENCE_SLEEP || (node->state == REFERENCE_STANDBY && !node->caller)) {
        call_master(node, reply);
    } else if (node->state == REFERENCE_NORMAL && node->error) {
        node->error = 0;
        node->quiet_count = 0;
        node->delay_runs = 0;
        node->delay = 0;
        call_master(node, reply);
    }
    return 0;
}

/* W-206: under its profile "its permission is only set". */
static uint32_t node_permission(const reference_plan *plan, reference_node *node, uint8_t permission) {
    node->permission = permission;
    if (permission && node->error && !never_sleeps(plan)) {
        enter_sleep(node);
    }
    return 0;
}

static uint32_t node_sleep_message(reference_node *node) {
    node->delay_runs = 1;
    node->delay = 0;
    return 0;
}

static void send_answer(reference_node *node, uint8_t reqid, reference_node_reply *reply) {
    reply->command = REFERENCE_SEND_ANSWER;
    reply->permission = node->permission;
    reply->wake = node->wake;
    reply->count = node->counts[reqid];
    node->wake = 0;
    node->counts[reqid] = (node->counts[reqid] + 1) & 3;
}

static uint32_t node_request(const reference_plan *plan, uint8_t number, reference_node *node, uint8_t reqid,
                             reference_node_reply *reply) {
    const reference_row *row = reference_find_row(plan, reqid);
    if (row == NULL) {
        return 12;
    }
    node->heard = 1;
    if (row->publisher == number) {
        send_answer(node, reqid, reply);
    }
    return 0;
}

static uint32_t node_send(const reference_plan *plan, uint8_t number, reference_node *node, uint8_t reqid,
                          reference_node_reply *reply) {
    const reference_row *row = reference_find_row(plan, reqid);
    if (row == NULL || row->publisher != number) {
        return 12;
    }
    if (plan->nodes[number].polled && !node->heard) {
        return 21;
    }
    send_answer(node, reqid, reply);
    return 0;
}

static bool node_event_is_right(const reference_node_event *event) {
    switch (event->kind) {
    case REFERENCE_NODE_TICK:
        return event->clock <= 1;
    case REFERENCE_NODE_PERMISSION:
        return event->permission <= 1;
    case REFERENCE_NODE_REQUEST:
    case REFERENCE_NODE_SEND:
        return event->reqid <= 127;
    default:
        return event->kind <= REFERENCE_NODE_SEND;
    }
}

static bool node_event_needs_normal(uint8_t kind) {
    return kind == REFERENCE_NODE_SLEEP_MESSAGE || kind == REFERENCE_NODE_REQUEST || kind == REFERENCE_NODE_SEND;
}

uint32_t reference_node_act(const reference_plan *plan, uint8_t number, reference_node *node, const reference_node_event *event,
                            reference_node_reply *reply) {
    *reply = (reference_node_reply){0};
    if (!node_event_is_right(event)) {
        return 15;
    }
    if (node_event_needs_normal(event->kind) && node->state != REFERENCE_NORMAL) {
        return 16;
    }
    if (event->kind == REFERENCE_NODE_SLEEP_MESSAGE && never_sleeps(plan)) {
        return 25;
    }
    switch (event->kind) {
    case REFERENCE_NODE_TICK:
        return node_tick(plan, node, event->clock, reply);
    case REFERENCE_NODE_PULSE:
        return node_pulse(node);
    case REFERENCE_NODE_WAKE:
        return node_wake(plan, node, reply);
    case REFERENCE_NODE_PERMISSION:
        return node_permission(plan, node, event->permission);
    case REFERENCE_NODE_SLEEP_MESSAGE:
        return node_sleep_message(node);
    case REFERENCE_NODE_REQUEST:
        return node_request(plan, number, node, event->reqid, reply);
    default: /* the own ask to send */
        return node_send(plan, number, node, event->reqid, reply);
    }
}

uint32_t reference_node_step(const reference_plan *plan, uint8_t number, reference_node *node, const reference_node_event *event,
                             reference_node_reply *reply) {
    *reply = (reference_node_reply){0};
    uint32_t refusal = reference_plan_refusal(plan);
    if (refusal != 0) {
        return refusal;
    }
    if (number >= plan->node_count || !reference_node_in_range(plan, node)) {
        return 11;
    }
    return reference_node_act(plan, number, node, event, reply);
}
