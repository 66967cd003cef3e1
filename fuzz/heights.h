/* The formulas in a record: where they are, how high they are, and others put on top of them. */
#ifndef HEIGHTS_H
#define HEIGHTS_H

#include "../include/case_access.h"

/* The greatest height of a formula (request 2026-05), and the most formulas. */
enum { HIGHEST = 5, MOST_FORMULAS = 64 };

/* How many formulas there are; their ops, and the numbers a and b of each. */
struct formula_table {
    uint64_t count;
    uint8_t ops[MOST_FORMULAS], a[MOST_FORMULAS], b[MOST_FORMULAS];
};

/* Where the formulas are in a record. */
enum { FORMULA_TABLE = 2328 };

/* A height for every number that an octet can name; 0 where there is no formula. */
struct heights {
    unsigned of[256];
};

struct formula_table formulas_of(const access_record *record);
void formulas_put(access_record *record, struct formula_table formulas);
struct heights heights_of(const struct formula_table *formulas);
bool formulas_raise(struct formula_table *formulas, unsigned height);

#endif
