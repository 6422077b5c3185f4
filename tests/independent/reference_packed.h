/* The functions of include/cxpi.h on packed bytes, by the independent implementation: same arguments, same results. */
#ifndef REFERENCE_PACKED_H
#define REFERENCE_PACKED_H

#include <stddef.h>
#include <stdint.h>

#include "cxpi.h"
#include "reference.h"

uint32_t reference_cxpi_version(void);
uint32_t reference_cxpi_read(const uint8_t *set, size_t set_length, uint8_t *plan, size_t plan_length);
uint32_t reference_cxpi_write(const uint8_t *plan, size_t plan_length, uint8_t *set, size_t set_length, uint16_t *length);
uint32_t reference_cxpi_master_power_on(const uint8_t *plan, size_t plan_length, uint8_t *state, size_t state_length);
uint32_t reference_cxpi_node_power_on(const uint8_t *plan, size_t plan_length, uint8_t *state, size_t state_length);
uint32_t reference_cxpi_master_step(const uint8_t *plan, size_t plan_length, uint8_t *state, size_t state_length, const uint8_t *event,
                                    size_t event_length, uint8_t *reply, size_t reply_length);
uint32_t reference_cxpi_node_step(const uint8_t *plan, size_t plan_length, uint8_t node, uint8_t *state, size_t state_length,
                                  const uint8_t *event, size_t event_length, uint8_t *reply, size_t reply_length);
uint32_t reference_cxpi_master_batch(const uint8_t *plan, size_t plan_length, uint8_t *state, size_t state_length,
                                     const struct cxpi_master_event *events, size_t event_count, struct cxpi_master_reply *replies,
                                     size_t reply_count);
uint32_t reference_cxpi_master_why(const uint8_t *plan, size_t plan_length, const uint8_t *state, size_t state_length, uint8_t *reply,
                                   size_t reply_length);

/* Packs a plan record into CXPI_PLAN_LENGTH bytes, and back. */
void reference_pack_plan(const reference_plan *plan, uint8_t *bytes);
void reference_unpack_plan(const uint8_t *bytes, reference_plan *plan);

/* Packs a state into CXPI_MASTER_LENGTH or CXPI_NODE_LENGTH bytes. */
void reference_pack_master(const reference_master *master, uint8_t *bytes);
void reference_pack_node(const reference_node *node, uint8_t *bytes);

#endif
