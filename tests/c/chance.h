/* Chance, by Marsaglia's xorshift: the same seed gives the same run. */
#ifndef CHANCE_H
#define CHANCE_H

#include <stdbool.h>
#include <stddef.h>
#include <stdint.h>

static uint64_t chance_state;

static inline void chance_seed(uint64_t seed) {
    chance_state = seed * 0x9E3779B97F4A7C15u | 1;
}

static inline uint64_t chance(void) {
    chance_state ^= chance_state << 13;
    chance_state ^= chance_state >> 7;
    chance_state ^= chance_state << 17;
    return chance_state;
}

static inline uint32_t below(uint32_t limit) {
    return (uint32_t)((chance() >> 32) * limit >> 32);
}

static inline uint32_t between(uint32_t low, uint32_t high) {
    return low + below(high - low + 1);
}

static inline bool percent(uint32_t share) {
    return below(100) < share;
}

static inline uint8_t random_byte(void) {
    return (uint8_t)(chance() >> 32);
}

static inline void random_bytes(uint8_t *bytes, size_t length) {
    for (size_t offset = 0; offset < length; offset++) {
        bytes[offset] = random_byte();
    }
}

/* A byte that differs a little or a lot. */
static inline uint8_t another_byte(uint8_t byte) {
    switch (below(6)) {
    case 0:
        return (uint8_t)(byte + 1);
    case 1:
        return (uint8_t)(byte - 1);
    case 2:
        return 0;
    case 3:
        return 255;
    case 4:
        return (uint8_t)(byte ^ 1 << below(8));
    default:
        return random_byte();
    }
}

#endif
