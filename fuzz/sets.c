#include "sets.h"

#include "random.h"

enum { NOTED = 8 };

static uint32_t noted[NOTED];
static size_t notes;

/* The set number of a call, in its last four octets. */
uint32_t set_of_call(const uint8_t *call)
{
    return (uint32_t)call[4] << 24 | (uint32_t)call[5] << 16 | (uint32_t)call[6] << 8 | call[7];
}

/* The set number of an answer. */
uint32_t set_of_answer(const uint8_t *answer)
{
    return (uint32_t)answer[1] << 16 | (uint32_t)answer[2] << 8 | answer[3];
}

/* Gives a call a set number. */
void set_put(uint8_t *call, uint32_t set)
{
    call[4] = (uint8_t)(set >> 24), call[5] = (uint8_t)(set >> 16), call[6] = (uint8_t)(set >> 8), call[7] = (uint8_t)set;
}

/* A set of one member of a set, or the empty one. */
static uint32_t one_of(uint32_t set)
{
    unsigned passed;

    for (passed = below((unsigned)__builtin_popcount(set)); passed > 0; passed--)
        set &= set - 1;
    return set & -set;
}

/* A set with as many members: one of them is exchanged, mostly a role principal for another principal or the reverse. */
static uint32_t set_exchanged(uint32_t set, uint32_t all, uint32_t role_principals)
{
    uint32_t without = one_of(set & all), others = without & role_principals ? all & ~role_principals : all & role_principals;
    uint32_t with = one_of((one_in(4) ? all : others) & ~set);

    return with ? (set & ~without) | with : set;
}

/* The set, one with a principal more or fewer, any of so many principals, one with a member that may be none, any number, or one with a
 * member exchanged. */
uint32_t set_near(uint32_t set, size_t principals, uint32_t role_principals)
{
    uint32_t all = principals < 32 ? ((uint32_t)1 << principals) - 1 : UINT32_MAX;

    switch (below(12)) {
    case 0:
    case 1:
        return set;
    case 2:
    case 3:
        return set ^ (uint32_t)1 << below(principals < 32 ? (unsigned)principals : 32);
    case 4:
    case 5:
        return random_any() & all;
    case 6:
        return set | (uint32_t)1 << below(32);
    case 7:
        return random_any();
    default:
        return set_exchanged(set, all, role_principals);
    }
}

/* Whether a set comes before another: fewer members, then fewer role principals, then the smaller number. */
bool set_less(uint32_t one, uint32_t other, uint32_t role_principals)
{
    int members = __builtin_popcount(one), others = __builtin_popcount(other);
    int roles = __builtin_popcount(one & role_principals), other_roles = __builtin_popcount(other & role_principals);

    if (members != others)
        return members < others;
    return roles != other_roles ? roles < other_roles : one < other;
}

/* Notes a set that was granted. */
void set_note(uint32_t set)
{
    noted[notes++ % NOTED] = set;
}

/* One of the last sets that were granted. */
uint32_t set_noted(void)
{
    return noted[below(NOTED)];
}
