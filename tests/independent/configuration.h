/* The node side of the node configuration in plain C, written from W-202 and ISO 14229-8 alone. */
#ifndef CONFIGURATION_H
#define CONFIGURATION_H

#include <stddef.h>
#include <stdint.h>

/* include/cxpi.h's cxpi_node_configure: same arguments, same answers. */
uint32_t reference_cxpi_node_configure(const uint8_t *identity, size_t identity_length, uint8_t *address, const uint8_t *request,
                                       size_t request_length, uint8_t *answer, size_t answer_room, uint8_t *answer_length);

#endif
