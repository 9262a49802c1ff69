/* Buffers that tell when a call touches a byte beside them. */
#ifndef GUARDED_H
#define GUARDED_H

#include <stdbool.h>
#include <stddef.h>
#include <stdint.h>

/* No buffer is longer. */
#define GUARDED_ROOM 4096

struct guarded {
    uint8_t *room; /* a page between two pages that can be neither read nor written */
    uint8_t *at;
    size_t length;
};

struct guarded guarded_make(void);
/*
 * A copy of these bytes, against the page before it or against the page after it, with guard bytes
 * on its other side.
 */
void *guarded_lend(struct guarded *guarded, const void *bytes, size_t length, bool at_end);
/* Whether every guard byte is as it was. */
bool guarded_intact(const struct guarded *guarded);

#endif
