#include "formulas.h"

const uint8_t ops_with_part[WITH_PART] = {NOT, AND, OR, FORWARD, BACKWARD, KEEP, AT};

/* What is in a formula: the bits of its uses, the slots asked for outside of an op 9 on them, and those kept to be asked for. */
struct content {
    unsigned uses, asked, kept;
};

/* Whether a is a formula's number. */
bool a_is_part(unsigned op)
{
    return op >= NOT && op < FORWARD;
}

/* Whether b is a formula's number. */
bool b_is_part(unsigned op)
{
    return (op > NOT && op <= KEEP) || op == AT;
}

/* The height of a formula, from those of the formulas before it. */
unsigned height_over(const uint8_t *body, const unsigned *heights)
{
    unsigned a = a_is_part(body[0]) ? 1 + heights[body[1]] : 0, b = b_is_part(body[0]) ? 1 + heights[body[2]] : 0;

    return a > b ? a : b;
}

/* What an op 9, 10 or 11 on a slot has in it, from what its part has. */
static struct content on_slot(unsigned op, unsigned slot, struct content part)
{
    unsigned bit = 1u << slot;

    part.uses |= 1u << (op - KEEP + USES_KEEP);
    if (op != KEEP) {
        part.asked |= bit;
        return part;
    }
    if (part.kept & bit)
        part.uses |= 1u << HIDES;
    if (part.asked & bit)
        part.uses |= 1u << ASKS_KEPT, part.kept |= bit;
    part.asked &= ~bit;
    return part;
}

/* What a formula has in it, from what the formulas before it have. */
static struct content content_of(const uint8_t *body, const struct content *before)
{
    struct content none = {0, 0, 0}, a = a_is_part(body[0]) ? before[body[1]] : none, b = b_is_part(body[0]) ? before[body[2]] : none;
    struct content both = {a.uses | b.uses, a.asked | b.asked, a.kept | b.kept};

    return body[0] >= KEEP ? on_slot(body[0], body[1], both) : both;
}

/* What the principals of an accepted bundle have in their formulas. */
unsigned uses_of(const struct bundle *bundle)
{
    struct content contents[256];
    unsigned heights[256], uses = 0;
    size_t i, formulas = 0;

    for (i = 0; i < bundle->count; i++) {
        const uint8_t *octets = bundle->lines[i].octets;
        if (octets[1] == FORMULA) {
            contents[formulas] = content_of(octets + 2, contents);
            heights[formulas] = height_over(octets + 2, heights);
            contents[formulas].uses |= heights[formulas] == HIGHEST ? 1u << (HIGHEST_BY + octets[2]) : 0;
            formulas++;
        }
        if (octets[1] == PRINCIPAL)
            uses |= contents[octets[2]].uses | (contents[octets[2]].asked ? 1u << ASKS_UNSET : 0);
    }
    return uses;
}

/* The set of a bundle's role principals: those whose own formula is of op 3, not those whose formula contains one. */
uint32_t role_principals_of(const struct bundle *bundle)
{
    uint8_t ops[256] = {0};
    uint32_t set = 0;
    size_t i, formulas = 0, principals = 0;

    for (i = 0; i < bundle->count; i++) {
        const uint8_t *octets = bundle->lines[i].octets;
        if (octets[1] == FORMULA)
            ops[formulas++ % 256] = octets[2];
        if (octets[1] == PRINCIPAL)
            set |= (uint32_t)(ops[octets[2]] == ROLE) << principals++ % 32;
    }
    return set;
}

/* Whether the numbers of a formula with a part are in range behind so many others. */
static bool numbers_fit(const uint8_t *body, size_t own)
{
    unsigned op = body[0], most = op < KEEP ? LABELS : SLOTS;

    if (!a_is_part(op) && !b_is_part(op))
        return false;
    return body[1] < (a_is_part(op) ? own : most) && (b_is_part(op) ? body[2] < own : body[2] == 0);
}

/* The op of the formula at a place behind lines that are accepted, where nothing but its height is out of range; else 0. */
unsigned too_high_by(const struct bundle *bundle, size_t place)
{
    const uint8_t *octets = bundle->lines[place].octets;
    unsigned heights[256];
    size_t i, formulas = 0;

    for (i = 0; i < place; i++)
        if (kind_of(&bundle->lines[i]) == FORMULA)
            heights[formulas] = height_over(bundle->lines[i].octets + 2, heights), formulas++;
    if (octets[1] != FORMULA || !numbers_fit(octets + 2, formulas))
        return 0;
    return height_over(octets + 2, heights) > HIGHEST ? octets[2] : 0;
}
