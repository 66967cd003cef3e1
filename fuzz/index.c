#include "index.h"

#include <string.h>

#include "random.h"

const char *const index_ways[WAYS] = {
    "a first place", "a number of edges", "first places of the next label", "an edge under another label", "two places exchanged",
    "a place twice", "a place past the edges", "a place past all", "an unused place", "places in the edges' own order"};

/* The index in a record. */
struct edge_index index_of(const access_record *record)
{
    struct edge_index index;

    memcpy(&index, (const uint8_t *)record + INDEX, sizeof index);
    return index;
}

/* Puts an index into a record. */
void index_put(access_record *record, struct edge_index index)
{
    memcpy((uint8_t *)record + INDEX, &index, sizeof index);
}

/* Another number: one more, one less, or any. */
static uint16_t another(uint16_t number)
{
    return (uint16_t)(one_in(2) ? number + 1 + below(65535) : one_in(2) ? number + 1 : number - 1);
}

/* Makes the first places fit the numbers of edges. */
static void fit(struct edge_index *index)
{
    unsigned label;

    for (label = 1; label < 16; label++)
        index->firsts[label] = (uint16_t)(index->firsts[label - 1] + index->counts[label - 1]);
}

/* Counts an edge of the first label from a given one on that has any under the label after it. */
static void recount(struct edge_index *index, unsigned label)
{
    unsigned tries = 16;

    while (tries && index->counts[label] == 0)
        label = (label + 1) % 16, tries--;
    if (tries)
        index->counts[label]--, index->counts[(label + 1 + below(15)) % 16]++;
    fit(index);
}

/* A right index altered in one of the ways, or as it was where there is nothing to alter. */
struct edge_index index_altered(struct edge_index right, unsigned way)
{
    struct edge_index index = right;
    unsigned i, label = below(16), edges = (unsigned)right.firsts[15] + right.counts[15], one = below(edges), other = below(edges);

    if (way == 0)
        index.firsts[label] = another(right.firsts[label]);
    if (way == 1)
        index.counts[label] = another(right.counts[label]);
    for (i = 0; i < 16 && way == 2; i++)
        index.firsts[i] = (uint16_t)(right.firsts[i] + right.counts[i]);
    if (way == 3)
        recount(&index, label);
    if (way == 4)
        index.places[one] = right.places[other], index.places[other] = right.places[one];
    if (way == 5)
        index.places[one] = right.places[other];
    if (way == 6 && edges && edges < 512)
        index.places[one] = (uint16_t)(one_in(2) ? edges : edges + below(512 - edges));
    if (way == 7 && edges)
        index.places[one] = (uint16_t)(one_in(2) ? 512 : 512 + below(65536 - 512));
    if (way == 8 && edges < 512)
        index.places[one_in(2) ? edges : edges + below(512 - edges)] = (uint16_t)(one_in(2) ? 1 : 1 + below(65535));
    for (i = 0; i < edges && way == 9; i++)
        index.places[i] = (uint16_t)i;
    return index;
}
