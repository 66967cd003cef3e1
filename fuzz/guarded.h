/* Buffers between two pages that nobody may touch, filled with a pattern. */
#ifndef GUARDED_H
#define GUARDED_H

#include <stdbool.h>
#include <stddef.h>
#include <stdint.h>

enum { AREA = 32768, AROUND = 64 };

/* An area with the part of it that is lent. */
struct area {
    uint8_t *start, *lent;
    size_t length;
    uint8_t fill;
};

void area_lend(struct area *area, size_t length, bool at_end, uint8_t fill);
bool area_stays(const struct area *area, size_t from);

#endif
