/* Formulas: which of their numbers name others, how high they are, what they do with slots, and whose are of op 3. */
#ifndef FORMULAS_H
#define FORMULAS_H

#include "bundle.h"
#include "heights.h"

enum { ROLE = 3, NOT = 4, AND = 5, OR = 6, FORWARD = 7, BACKWARD = 8, KEEP = 9, HERE = 10, AT = 11, OPS = 12 };
enum { ROLES = 16, LABELS = 16, SLOTS = 4 };

/* So many ops have a part, which makes their formulas higher. */
enum { WITH_PART = 7 };

extern const uint8_t ops_with_part[WITH_PART];

/* What the principals' formulas have in them, one bit each: ops 9, 10 and 11, a slot that is kept and asked for, one that is kept and
 * asked for within its own op 9, one that is asked for unset; and from HIGHEST_BY on, by its op, a formula as high as there may be. */
enum { USES_KEEP, USES_HERE, USES_AT, ASKS_KEPT, HIDES, ASKS_UNSET, HIGHEST_BY, USES = HIGHEST_BY + OPS };

bool a_is_part(unsigned op);
bool b_is_part(unsigned op);
unsigned height_over(const uint8_t *body, const unsigned *heights);
unsigned uses_of(const struct bundle *bundle);
uint32_t role_principals_of(const struct bundle *bundle);
unsigned too_high_by(const struct bundle *bundle, size_t place);

#endif
