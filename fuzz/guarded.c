#include "guarded.h"

#include <stdlib.h>
#include <sys/mman.h>

enum { PAGE = 4096 };

/* Maps the area with a forbidden page on each side. */
static uint8_t *area_map(void)
{
    uint8_t *all = mmap(NULL, AREA + 2 * PAGE, PROT_NONE, MAP_PRIVATE | MAP_ANONYMOUS, -1, 0);

    if (all == MAP_FAILED || mprotect(all + PAGE, AREA, PROT_READ | PROT_WRITE) != 0)
        abort();
    return all + PAGE;
}

/* The pattern's byte at a place of the area. */
static uint8_t pattern(const struct area *area, const uint8_t *place)
{
    return (uint8_t)((size_t)(place - area->start) * 0x95) ^ area->fill;
}

/* The place a number of bytes before the lent part, or the area's start. */
static uint8_t *before(const struct area *area)
{
    return area->lent - area->start > AROUND ? area->lent - AROUND : area->start;
}

/* The place a number of bytes past the lent part, or the area's end. */
static uint8_t *after(const struct area *area)
{
    uint8_t *end = area->lent + area->length;

    return area->start + AREA - end > AROUND ? end + AROUND : area->start + AREA;
}

/* Lends so many bytes against one of the forbidden pages, with the pattern in and around them. */
void area_lend(struct area *area, size_t length, bool at_end, uint8_t fill)
{
    uint8_t *place;

    if (!area->start)
        area->start = area_map();
    if (length > AREA)
        abort();
    area->lent = at_end ? area->start + AREA - length : area->start;
    area->length = length;
    area->fill = fill;
    for (place = before(area); place < after(area); place++)
        *place = pattern(area, place);
}

/* Whether the pattern is whole around the lent part and in it from a place on. */
bool area_stays(const struct area *area, size_t from)
{
    const uint8_t *place;

    for (place = before(area); place < area->lent; place++)
        if (*place != pattern(area, place))
            return false;
    for (place = area->lent + from; place < after(area); place++)
        if (*place != pattern(area, place))
            return false;
    return true;
}
