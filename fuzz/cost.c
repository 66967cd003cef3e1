#include "cost.h"

#include <string.h>

#include "formulas.h"

static const uint64_t MOST = (uint64_t)1 << 40;

/* The smaller of a cost and the most that is told apart. */
static uint64_t capped(uint64_t cost)
{
    return cost < MOST ? cost : MOST;
}

/* The most edges of a label that leave (end 0) or enter (end 1) one object. */
static unsigned degree(const struct bundle *bundle, unsigned label, unsigned end)
{
    unsigned counts[256] = {0}, most = 0;
    size_t i;

    for (i = 0; i < bundle->count; i++) {
        const uint8_t *octets = bundle->lines[i].octets;
        if (octets[1] == EDGE && octets[2] == label && ++counts[octets[3 + end]] > most)
            most = counts[octets[3 + end]];
    }
    return most;
}

/* A bound on the steps of evaluating one formula at any vertex, from those of the formulas before it: the reference goes along every walk
 * of edges that the formula's steps follow, and evaluates each part anew wherever it is asked for, that of an op 9 or 11 too. */
static uint64_t formula_cost(const struct bundle *bundle, const uint8_t *octets, const uint64_t *costs, unsigned adds)
{
    unsigned op = octets[2], a = octets[3], b = octets[4];

    if (op == FORWARD || op == BACKWARD)
        return capped(count_of(bundle, EDGE) + adds + (degree(bundle, a, op - FORWARD) + adds) * costs[b]);
    return capped(1 + (a_is_part(op) ? costs[a] : 0) + (b_is_part(op) ? costs[b] : 0));
}

/* A bound on the steps of evaluating every principal's formula once. */
static uint64_t evaluation_cost(const struct bundle *bundle, unsigned adds)
{
    uint64_t costs[256] = {0}, sum = 0;
    size_t i, formulas = 0;

    for (i = 0; i < bundle->count; i++) {
        const uint8_t *octets = bundle->lines[i].octets;
        if (octets[1] == FORMULA)
            costs[formulas++] = formula_cost(bundle, octets, costs, adds);
        if (octets[1] == PRINCIPAL)
            sum = capped(sum + costs[octets[2]]);
    }
    return sum;
}

/* The number of calls that add an edge. */
static unsigned adds_of(struct slice calls)
{
    unsigned adds = 0;
    size_t i;

    for (i = 0; i + CALL <= calls.length; i += CALL)
        adds += calls.start[i] == ACCESS_CALL_ADD;
    return adds;
}

/* Keeps the calls on an accepted bundle without those past the budget; returns their length. */
size_t affordable(const struct bundle *bundle, struct slice calls, uint64_t budget, uint8_t *kept)
{
    uint64_t evaluation = evaluation_cost(bundle, adds_of(calls));
    uint64_t search = (uint64_t)4 << count_of(bundle, PRINCIPAL);
    size_t i, length = 0;

    for (i = 0; i + CALL <= calls.length; i += CALL) {
        unsigned kind = calls.start[i];
        bool evaluates = kind >= ACCESS_CALL_EAGER && kind <= ACCESS_CALL_TICKET, searches = evaluates && kind < ACCESS_CALL_LIBERAL;
        uint64_t cost = evaluates ? capped(evaluation + (searches ? search : 0)) : 0;
        if (cost > budget)
            continue;
        budget -= cost;
        memcpy(kept + length, calls.start + i, CALL);
        length += CALL;
    }
    memcpy(kept + length, calls.start + i, calls.length - i);
    return length + calls.length - i;
}
