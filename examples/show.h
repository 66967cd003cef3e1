/* What the examples share: loading a bundle, and printing what a call answers. */
#ifndef SHOW_H
#define SHOW_H

#include <stdio.h>

#include "case_access.h"

/* Loads the bundle; says so and answers 0 when it is refused. */
static inline int load(access_record *into, const char *bundle, size_t length)
{
    uint64_t result = access_load(into, (const uint8_t *)bundle, length);
    unsigned number = access_number(result);

    if (number != ACCESS_ACCEPTED)
        printf("the bundle is refused (%u), line %u: %s\n", number, (unsigned)access_value(result), access_number_text(number));
    return number == ACCESS_ACCEPTED;
}

static inline void decided(const char *what, access_decision decision)
{
    int p, members = 0;

    printf("%-34s ", what);
    if (decision.number != ACCESS_ACCEPTED) {
        const char *word = decision.number == ACCESS_NO_SET ? "denied" : "refused";
        printf("%s (%u), evaluations %u\n", word, decision.number, decision.evaluations);
        return;
    }
    printf("granted {");
    for (p = 0; p < 20; p++)
        if (decision.set >> p & 1)
            printf(members++ ? ", %d" : "%d", p);
    printf("}, evaluations %u\n", decision.evaluations);
}

static inline void answered(const char *what, access_verdict verdict)
{
    printf("%-34s %s\n", what, verdict.number != ACCESS_ACCEPTED ? "refused" : verdict.yes ? "yes" : "no");
}

static inline void edited(const char *what, unsigned number)
{
    printf("%-34s %s\n", what, access_number_text(number));
}

static inline void proposed(const char *what, unsigned number)
{
    if (number == ACCESS_ACCEPTED)
        printf("%-34s accepted\n", what);
    else
        printf("%-34s refused (%u): %s\n", what, number, access_number_text(number));
}

/* The number of the set that has this one member; that of a larger set is the sum over its members. */
static inline uint32_t alone(unsigned principal)
{
    return (uint32_t)1 << principal;
}

#endif
