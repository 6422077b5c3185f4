/* The node side of the node configuration in plain C: the assign, and the reads of product identification and serial number.
 *
 * Compile: gcc -std=c11 -O2 -Wall -Wextra -Werror -pedantic -c tests/independent/configuration.c */
#include "configuration.h"

#include <stdbool.h>
#include <string.h>

enum {
    READ_DATA_BY_IDENTIFIER = 0x22,
    WRITE_DATA_BY_IDENTIFIER = 0x2E,
    POSITIVE = 0x40, /* a positive response's service byte lies this much above the request's */
    /* Table A.1 */
    NODE_PRODUCT_IDENTIFICATION = 0xFF05,
    ASSIGN_NODE_ADDRESS = 0xFF07,
    NODE_SERIAL_NUMBER_IDENTIFICATION = 0xF18C
};

/* A node's identity, Tables 11 and 13. */
typedef struct {
    uint8_t supplier[2];
    uint8_t function[2];
    uint8_t variant;
    uint8_t serial_number[4];
} identification;

static uint32_t identifier_of(const uint8_t *request) {
    return (uint32_t)request[1] << 8 | request[2];
}

/* The length that a request of a service has, 0 where W-202 sets none. */
static size_t length_of(uint8_t service) {
    switch (service) {
    case WRITE_DATA_BY_IDENTIFIER:
        return 8;
    case READ_DATA_BY_IDENTIFIER:
        return 3;
    default:
        return 0;
    }
}

static uint32_t judge(const uint8_t *request, size_t length) {
    if (length == 0) {
        return 23;
    }
    size_t right = length_of(request[0]);
    if (right == 0) {
        return 24;
    }
    if (length != right) {
        return 23;
    }
    switch (identifier_of(request)) {
    case ASSIGN_NODE_ADDRESS:
        return request[0] == WRITE_DATA_BY_IDENTIFIER ? 0 : 24;
    case NODE_PRODUCT_IDENTIFICATION:
    case NODE_SERIAL_NUMBER_IDENTIFICATION:
        return request[0] == READ_DATA_BY_IDENTIFIER ? 0 : 24;
    default:
        return 24;
    }
}

/* Whether an assign is for the node, with an address that it takes. Table 15: supplier, function, new address behind the identifier. */
static bool takes(const identification *node, const uint8_t *request) {
    return memcmp(request + 3, node->supplier, 2) == 0 && memcmp(request + 5, node->function, 2) == 0 && request[7] >= 1 &&
           request[7] <= 125;
}

/* Writes the response to a request that was judged right, and gives its length, 0 for silence. */
static size_t respond(const identification *node, const uint8_t *request, uint8_t *response) {
    size_t length = 0;
    response[length++] = (uint8_t)(request[0] + POSITIVE);
    response[length++] = request[1];
    response[length++] = request[2];
    switch (identifier_of(request)) {
    case ASSIGN_NODE_ADDRESS:
        return takes(node, request) ? length : 0;
    case NODE_PRODUCT_IDENTIFICATION:
        memcpy(response + length, node->supplier, 2);
        memcpy(response + length + 2, node->function, 2);
        response[length + 4] = node->variant;
        return length + 5;
    default:
        memcpy(response + length, node->serial_number, 4);
        return length + 4;
    }
}

uint32_t reference_cxpi_node_configure(const uint8_t *identity, size_t identity_length, uint8_t *address, const uint8_t *request,
                                       size_t request_length, uint8_t *answer, size_t answer_room, uint8_t *answer_length) {
    *answer_length = 0;
    if (identity_length != 9) {
        return 11;
    }
    identification node;
    memcpy(node.supplier, identity, 2);
    memcpy(node.function, identity + 2, 2);
    node.variant = identity[4];
    memcpy(node.serial_number, identity + 5, 4);

    uint32_t refusal = judge(request, request_length);
    if (refusal != 0) {
        return refusal;
    }
    uint8_t response[8];
    size_t length = respond(&node, request, response);
    if (length > answer_room) {
        return 10;
    }
    if (length > 0) {
        memcpy(answer, response, length);
        if (request[0] == WRITE_DATA_BY_IDENTIFIER) {
            *address = request[7];
        }
    }
    *answer_length = (uint8_t)length;
    return 0;
}
