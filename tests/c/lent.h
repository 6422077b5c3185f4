/* A buffer as it is lent to a call: its bytes stand between guard bytes, which no call may touch. */
#ifndef LENT_H
#define LENT_H

#include <stdbool.h>
#include <stddef.h>
#include <stdint.h>
#include <string.h>

/* With an odd number of guard bytes every buffer is at an odd address. */
#ifndef LENT_GUARD
#define LENT_GUARD 32
#endif

enum { LENT_ROOM = 2112, LENT_PAINT = 0xA5 };

typedef struct {
    size_t length;
    uint8_t room[LENT_GUARD + LENT_ROOM + LENT_GUARD];
} lent;

static inline uint8_t *lent_bytes(lent *buffer) {
    return buffer->room + LENT_GUARD;
}

/* Makes a buffer of a length between fresh guards, its bytes painted too. */
static inline void lent_paint(lent *buffer, size_t length) {
    buffer->length = length;
    memset(buffer->room, LENT_PAINT, LENT_GUARD + length + LENT_GUARD);
}

/* Makes a buffer of a length between fresh guards; the content has at least as many bytes. */
static inline void lent_fill(lent *buffer, const uint8_t *content, size_t length) {
    buffer->length = length;
    memset(buffer->room, LENT_PAINT, LENT_GUARD);
    memcpy(buffer->room + LENT_GUARD, content, length);
    memset(buffer->room + LENT_GUARD + length, LENT_PAINT, LENT_GUARD);
}

/* Equal lengths, bytes and guards. */
static inline bool lent_same(const lent *one, const lent *other) {
    return one->length == other->length && memcmp(one->room, other->room, LENT_GUARD + one->length + LENT_GUARD) == 0;
}

#endif
