/* The index in a record: where it is, and ways to make it disagree with the edges. */
#ifndef INDEX_H
#define INDEX_H

#include "../include/case_access.h"

/* By label the first place and the number of its edges; the places of the edges by label, then to, then from. */
struct edge_index {
    uint16_t firsts[16], counts[16], places[512];
};

/* Where the index is in a record; where the memo is behind it. */
enum { INDEX = 4968, BEHIND_INDEX = INDEX + sizeof(struct edge_index) };

/* So many ways there are, by name. */
enum { WAYS = 10 };

extern const char *const index_ways[WAYS];

struct edge_index index_of(const access_record *record);
void index_put(access_record *record, struct edge_index index);
struct edge_index index_altered(struct edge_index right, unsigned way);

#endif
