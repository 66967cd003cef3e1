#include "heights.h"

#include <string.h>

#include "formulas.h"
#include "random.h"

/* The formulas in a record. */
struct formula_table formulas_of(const access_record *record)
{
    struct formula_table formulas;

    memcpy(&formulas, (const uint8_t *)record + FORMULA_TABLE, sizeof formulas);
    return formulas;
}

/* Puts formulas into a record. */
void formulas_put(access_record *record, struct formula_table formulas)
{
    memcpy((uint8_t *)record + FORMULA_TABLE, &formulas, sizeof formulas);
}

/* The heights of formulas, which need not be in range. */
struct heights heights_of(const struct formula_table *formulas)
{
    struct heights heights = {{0}};
    unsigned i;

    for (i = 0; i < formulas->count && i < MOST_FORMULAS; i++) {
        uint8_t body[] = {formulas->ops[i], formulas->a[i], formulas->b[i]};
        heights.of[i] = height_over(body, heights.of);
    }
    return heights;
}

/* The number of the first formula that is as high as any; 0 where there is none. */
static uint8_t highest_of(const struct formula_table *formulas)
{
    struct heights heights = heights_of(formulas);
    uint8_t i, highest = 0;

    for (i = 0; i < formulas->count; i++)
        highest = heights.of[i] > heights.of[highest] ? i : highest;
    return highest;
}

/* Adds a formula of an op with a part on top of the highest one, or op 0 where there is none. Of two parts the other one is any. */
static void add_formula(struct formula_table *formulas)
{
    uint8_t part = highest_of(formulas), other = (uint8_t)below((unsigned)formulas->count);
    uint8_t op = formulas->count ? ops_with_part[below(WITH_PART)] : 0;
    bool two = a_is_part(op) && b_is_part(op), exchanged = two && one_in(2);

    formulas->ops[formulas->count] = op;
    formulas->a[formulas->count] = two && !exchanged ? other : a_is_part(op) ? part : (uint8_t)(op ? below(SLOTS) : 0);
    formulas->b[formulas->count] = exchanged ? other : b_is_part(op) ? part : 0;
    formulas->count++;
}

/* Adds formulas until one has a height; false where there is no room for them. */
bool formulas_raise(struct formula_table *formulas, unsigned height)
{
    while (formulas->count == 0 || heights_of(formulas).of[highest_of(formulas)] < height) {
        if (formulas->count >= MOST_FORMULAS)
            return false;
        add_formula(formulas);
    }
    return true;
}
