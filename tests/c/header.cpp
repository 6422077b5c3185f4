// Compile check of the headers from C++: each may be included twice, and every export is declared with C linkage.
//
// Compile: g++ -std=c++98 -Wall -Wextra -Werror -pedantic -Iinclude -c tests/c/header.cpp -o header.o
#include "cxpi_text.h"
#include "cxpi.h"
#include "cxpi_text.h"

extern "C" {
uint32_t (*version)() = cxpi_version;
uint32_t (*read_set)(const uint8_t *, size_t, uint8_t *, size_t) = cxpi_read;
uint32_t (*write_set)(const uint8_t *, size_t, uint8_t *, size_t, uint16_t *) = cxpi_write;
uint32_t (*master_power_on)(const uint8_t *, size_t, uint8_t *, size_t) = cxpi_master_power_on;
uint32_t (*node_power_on)(const uint8_t *, size_t, uint8_t *, size_t) = cxpi_node_power_on;
uint32_t (*master_step)(const uint8_t *, size_t, uint8_t *, size_t, const uint8_t *, size_t, uint8_t *, size_t) = cxpi_master_step;
uint32_t (*master_why)(const uint8_t *, size_t, const uint8_t *, size_t, uint8_t *, size_t) = cxpi_master_why;
const char *(*refusal_text)(uint32_t) = cxpi_refusal_text;
uint32_t (*node_step)(const uint8_t *, size_t, uint8_t, uint8_t *, size_t, const uint8_t *, size_t, uint8_t *, size_t) = cxpi_node_step;
uint32_t (*node_configure)(const uint8_t *, size_t, uint8_t *, const uint8_t *, size_t, uint8_t *, size_t, uint8_t *) = cxpi_node_configure;
}
uint32_t (*master_batch)(const uint8_t *, size_t, uint8_t *, size_t, const struct cxpi_master_event *, size_t, struct cxpi_master_reply *,
                         size_t) = cxpi_master_batch;
