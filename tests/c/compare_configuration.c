/* Compares cxpi_node_configure with the independent implementation on random requests, right and nearly right: what they return and
 * every lent byte, guards included. The same arguments give the same run.
 *
 * Compile, product:   gcc -std=c11 -O2 -Wall -Wextra -Werror -pedantic -Iinclude -Itests/independent tests/c/compare_configuration.c
 *                     tests/independent/configuration.c libcxpi.a -o compare_configuration
 * Compile, reference: the same with -DCXPI_REFERENCE and without libcxpi.a
 * Run:                ./compare_configuration [REQUESTS [SEED]], by default 1,000,000 requests */
#include <inttypes.h>
#include <stdio.h>
#include <stdlib.h>

#include "chance.h"
#include "configuration.h"
#include "lent.h"
#include "subject.h"

enum { LONGEST_REQUEST = 12, LONGEST_ROOM = 12 };

/* What came: an answer of each kind, silence, and the refusals that include/cxpi.h names, each for every length that it can have. */
enum { ASSIGNED, PRODUCT, SERIAL, SILENCE, SHORT, NO_IDENTITY, WRONG_REQUEST, NOT_SUPPORTED, OUTCOMES };

static const char *const outcome_names[OUTCOMES] = {"assigned", "product", "serial number", "silence", "10", "11", "23", "24"};

static uint64_t came[OUTCOMES][LONGEST_REQUEST + 1];
static uint64_t differences;

/* The lengths of requests that an outcome must come of. */
static bool can_come(int outcome, size_t length) {
    switch (outcome) {
    case ASSIGNED:
    case SILENCE:
        return length == 8;
    case PRODUCT:
    case SERIAL:
        return length == 3;
    case SHORT:
        return length == 3 || length == 8;
    case NOT_SUPPORTED:
        return length > 0;
    default:
        return true;
    }
}

/* One call's arguments, lent to each of the two. */
typedef struct {
    lent identity;
    lent address;
    lent request;
    lent answer;
    lent answer_length;
} call;

static call subject, reference;

static void put_number(uint8_t *bytes, uint32_t number) {
    bytes[0] = (uint8_t)(number >> 8);
    bytes[1] = (uint8_t)number;
}

/* A right request for the identity, or one that starts as another service or identifier does; its length. */
static size_t right_request(const uint8_t *identity, uint8_t *request) {
    static const uint32_t identifiers[] = {CXPI_NODE_PRODUCT_IDENTIFICATION,          CXPI_NODE_SERIAL_NUMBER_IDENTIFICATION,
                                           CXPI_ASSIGN_NODE_ADDRESS,                  CXPI_ASSIGN_FRAME_IDENTIFIER_RANGE,
                                           CXPI_NODE_CONFIGURATION_FILE_AVAILABILITY, CXPI_SAVE_CONFIGURATION,
                                           CXPI_DATA_DUMP};
    random_bytes(request, LONGEST_REQUEST);
    if (percent(50)) {
        request[0] = CXPI_WRITE_DATA_BY_IDENTIFIER;
        put_number(request + 1, percent(90) ? CXPI_ASSIGN_NODE_ADDRESS : identifiers[below(7)]);
        memcpy(request + 3, identity, 4);
        request[7] = (uint8_t)(percent(20) ? between(124, 128) : percent(20) ? below(3) : between(1, 125));
        return 8;
    }
    request[0] = (uint8_t)(percent(90) ? CXPI_READ_DATA_BY_IDENTIFIER : random_byte());
    put_number(request + 1, identifiers[below(percent(80) ? 2 : 7)]);
    return 3;
}

static void make_call(void) {
    uint8_t identity[LONGEST_ROOM], request[LONGEST_REQUEST], answer[LONGEST_ROOM];
    random_bytes(identity, sizeof identity);
    size_t length = right_request(identity, request);
    if (percent(40)) {
        uint8_t *byte = &request[below((uint32_t)length)];
        *byte = another_byte(*byte);
    }
    if (percent(20)) {
        length = below(LONGEST_REQUEST + 1);
    }
    if (percent(5)) { /* ISO's wildcards */
        put_number(request + 3, 0x7FFF);
        put_number(request + 5, 0xFFFF);
    }
    size_t identity_length = percent(98) ? CXPI_IDENTITY_LENGTH : below(LONGEST_ROOM + 1);
    uint8_t address = random_byte();
    random_bytes(answer, sizeof answer);
    lent_fill(&subject.identity, identity, identity_length);
    lent_fill(&subject.address, &address, 1);
    lent_fill(&subject.request, request, length);
    lent_fill(&subject.answer, answer, below(LONGEST_ROOM + 1));
    lent_paint(&subject.answer_length, 1);
    reference = subject;
}

static int outcome_of(uint32_t result) {
    switch (result) {
    case CXPI_BUFFER_SHORT:
        return SHORT;
    case CXPI_NO_STATE:
        return NO_IDENTITY;
    case CXPI_WRONG_REQUEST:
        return WRONG_REQUEST;
    case CXPI_NOT_SUPPORTED:
        return NOT_SUPPORTED;
    default:
        break;
    }
    switch (*lent_bytes(&reference.answer_length)) {
    case 3:
        return ASSIGNED;
    case 8:
        return PRODUCT;
    case 7:
        return SERIAL;
    default:
        return SILENCE;
    }
}

static bool calls_same(void) {
    return lent_same(&subject.identity, &reference.identity) && lent_same(&subject.address, &reference.address) &&
           lent_same(&subject.request, &reference.request) && lent_same(&subject.answer, &reference.answer) &&
           lent_same(&subject.answer_length, &reference.answer_length);
}

static void compare_call(void) {
    make_call();
    uint32_t got = cxpi_node_configure(lent_bytes(&subject.identity), subject.identity.length, lent_bytes(&subject.address),
                                       lent_bytes(&subject.request), subject.request.length, lent_bytes(&subject.answer),
                                       subject.answer.length, lent_bytes(&subject.answer_length));
    uint32_t wanted = reference_cxpi_node_configure(lent_bytes(&reference.identity), reference.identity.length,
                                                    lent_bytes(&reference.address), lent_bytes(&reference.request),
                                                    reference.request.length, lent_bytes(&reference.answer), reference.answer.length,
                                                    lent_bytes(&reference.answer_length));
    came[outcome_of(wanted)][reference.request.length]++;
    if (got != wanted || !calls_same()) {
        differences++;
        if (differences <= 20) {
            printf("returned %" PRIu32 ", the reference %" PRIu32 "%s\n", got, wanted, got == wanted ? ", and lent bytes differ" : "");
        }
    }
}

/* The table of outcomes by the request's length, and whether all came that can. */
static bool print_table(void) {
    bool all = true;
    for (int outcome = 0; outcome < OUTCOMES; outcome++) {
        printf("%-14s", outcome_names[outcome]);
        for (size_t length = 0; length <= LONGEST_REQUEST; length++) {
            bool missing = can_come(outcome, length) && came[outcome][length] == 0;
            printf(" %" PRIu64 "%s", came[outcome][length], missing ? " (never came)" : "");
            all = all && !missing;
        }
        printf("\n");
    }
    return all;
}

static uint64_t argument(int count, char **arguments, int place, uint64_t otherwise) {
    return count > place ? strtoull(arguments[place], NULL, 10) : otherwise;
}

int main(int count, char **arguments) {
    uint64_t requests = argument(count, arguments, 1, 1000000);
    uint64_t seed = argument(count, arguments, 2, 1);
    chance_seed(seed);
    for (uint64_t made = 0; made < requests; made++) {
        compare_call();
    }
    bool all = print_table();
    printf("%" PRIu64 " requests, seed %" PRIu64 ": %" PRIu64 " differences\n", requests, seed, differences);
    return all && differences == 0 ? EXIT_SUCCESS : EXIT_FAILURE;
}
