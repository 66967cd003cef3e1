#include "check.h"

#include <stdio.h>
#include <stdlib.h>
#include <string.h>

#include "random.h"

struct area text_area, calls_area, engine_area, reference_area;
struct slice text, calls;
struct bundle lines;
uint32_t role_principals;

/* Prints bytes: text as it is where that is asked for, anything else as hexadecimal. */
static void print(const char *name, struct slice bytes, bool as_text)
{
    size_t i;

    fprintf(stderr, "%s (%zu bytes):\n", name, bytes.length);
    for (i = 0; i < bytes.length; i++) {
        uint8_t byte = bytes.start[i];
        bool plain = as_text && (byte == '\n' || (byte >= ' ' && byte < 127));
        fprintf(stderr, plain ? "%c" : "[%02X]", byte);
    }
    fprintf(stderr, "\n");
}

/* Stops with a message and the case unless a condition holds. */
void must(bool holds, const char *what)
{
    if (holds)
        return;
    fprintf(stderr, "VIOLATION: %s\n", what);
    print("bundle", text, true);
    print("calls", calls, false);
    print("engine's buffer", (struct slice){engine_area.lent, engine_area.length}, false);
    print("reference's buffer", (struct slice){reference_area.lent, reference_area.length}, false);
    abort();
}

/* Puts bytes against a forbidden page, so that a read past them is a crash. */
struct slice placed(struct area *area, struct slice bytes)
{
    area_lend(area, bytes.length, random_any() & 1, 0);
    if (bytes.length)
        memcpy(area->lent, bytes.start, bytes.length);
    return (struct slice){area->lent, bytes.length};
}

/* Stops unless both returned the same and left the same bytes. */
void must_agree(uint64_t engine, uint64_t reference)
{
    if (engine != reference)
        fprintf(stderr, "engine %#lx, reference %#lx\n", (unsigned long)engine, (unsigned long)reference);
    must(engine == reference, "engine and reference return different values");
    must(area_stays(&engine_area, engine_area.length), "bytes around the lent buffer changed");
    must(memcmp(engine_area.lent, reference_area.lent, engine_area.length) == 0, "engine and reference leave different bytes");
}

/* Lends the engine and the reference buffers of one length, filled alike. */
void lend(size_t room)
{
    bool at_end = random_any() & 1;
    uint8_t fill = (uint8_t)random_any();

    area_lend(&engine_area, room, at_end, fill);
    area_lend(&reference_area, room, at_end, fill);
}
