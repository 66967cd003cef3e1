#include "tally.h"

#include <stdio.h>

#include "check.h"
#include "formulas.h"
#include "index.h"
#include "sets.h"

static size_t bundles[19], answers[23], kinds[8], granted, yes, tickets, dropped;
static size_t parts, writes[20], again, of_edited, refused, altered[20];
static size_t mixed, mixed_granted, with_role, without_role, by_roles;
static size_t using[USES], evaluated[USES], misindexed[WAYS], too_high[OPS], lent_too_high[OPS];

/* What the formulas of the bundle at hand have in them, and whether it has role principals and others. */
static unsigned uses;
static bool is_mixed;

/* Counts a bundle by its number. */
void tally_bundle(uint64_t number)
{
    bundles[number]++;
}

/* Counts an accepted bundle by what its principals' formulas have in them, and if some are of op 3 and others are not. */
void tally_formulas(const struct bundle *bundle)
{
    unsigned i;

    uses = uses_of(bundle);
    for (i = 0; i < USES; i++)
        using[i] += uses >> i & 1;
    is_mixed = role_principals != 0 && (size_t)__builtin_popcount(role_principals) < count_of(bundle, PRINCIPAL);
    mixed += is_mixed;
}

/* Counts a bundle that is refused for the height of a formula, by its op. */
void tally_too_high(unsigned op)
{
    too_high[op]++;
}

/* Counts a buffer that was too short. */
void tally_short(void)
{
    bundles[18]++;
}

/* Whether a call that may evaluate formulas got as far as that. */
static bool evaluates(unsigned kind, unsigned number)
{
    return kind >= ACCESS_CALL_EAGER && kind <= ACCESS_CALL_TICKET && (number < 14 || number > 16);
}

/* Counts a granted set other than the empty one, and whether a role principal is in it or could have been. */
static void tally_granted(uint32_t set)
{
    bool has_role = (set & role_principals) != 0;

    granted++;
    mixed_granted += is_mixed;
    with_role += has_role;
    without_role += !has_role && role_principals != 0;
}

/* Counts an answer by its number, by the kind of its call, and by what is in the formulas. */
void tally_answer(unsigned kind, const uint8_t *answer)
{
    uint32_t set = set_of_answer(answer);
    unsigned i;

    for (i = 0; i < USES && evaluates(kind, answer[0]); i++)
        evaluated[i] += uses >> i & 1;
    answers[answer[0]]++;
    kinds[kind > ACCESS_CALL_TICKET ? 7 : kind]++;
    if ((kind == ACCESS_CALL_EAGER || kind == ACCESS_CALL_LAZY) && set != 0)
        tally_granted(set);
    yes += (kind == ACCESS_CALL_LIBERAL || kind == ACCESS_CALL_STRICT) && set != 0;
    tickets += kind == ACCESS_CALL_TICKET && answer[0] == 0;
}

/* Counts a grant where the role principals decided. */
void tally_by_roles(void)
{
    by_roles++;
}

/* Counts the calls left out as too slow. */
void tally_dropped(size_t calls)
{
    dropped += calls;
}

/* Counts a part of a list on a lent record. */
void tally_lent_part(void)
{
    parts++;
}

/* Counts a write of a lent record by its number. */
void tally_lent_write(uint64_t number)
{
    writes[number]++;
}

/* Counts what was written and loaded again, and whether it was another bundle than the one loaded before. */
void tally_lent_again(bool edited)
{
    again++;
    of_edited += edited;
}

/* Counts a bundle that was refused over rules. */
void tally_lent_refused(void)
{
    refused++;
}

/* Counts a record with octets altered by what it is written with. */
void tally_lent_altered(uint64_t number)
{
    altered[number]++;
}

/* Counts a record with another index by the way it was altered. */
void tally_lent_misindexed(unsigned way)
{
    misindexed[way]++;
}

/* Counts a record with a formula that is too high, by its op. */
void tally_lent_too_high(unsigned op)
{
    lent_too_high[op]++;
}

/* Prints the counts of the order of sets. */
static void tally_order_print(void)
{
    fprintf(stderr, "role principals and others: accepted bundles:%zu, sets granted on them:%zu; ", mixed, mixed_granted);
    fprintf(stderr, "sets granted with a role principal:%zu, without though there is one:%zu, ", with_role, without_role);
    fprintf(stderr, "before one of as many members and a smaller number, whose ticket was accepted:%zu\n", by_roles);
}

/* Prints the counts of lent records. */
static void tally_lent_print(void)
{
    unsigned i;

    fprintf(stderr, "lent records: parts of lists:%zu; writes by number: 0:%zu 18:%zu 19:%zu; ", parts, writes[0], writes[18], writes[19]);
    fprintf(stderr, "written and loaded again:%zu, after an edit:%zu; refused over rules:%zu; ", again, of_edited, refused);
    fprintf(stderr, "with octets altered, by number: 0:%zu 19:%zu; with another index (19):", altered[0], altered[19]);
    for (i = 0; i < WAYS; i++)
        fprintf(stderr, "%s %s:%zu", i ? "," : "", index_ways[i], misindexed[i]);
    fprintf(stderr, "\n");
}

/* Prints the counts of formulas that are as high as there may be, and of those that are too high. */
static void tally_heights_print(void)
{
    unsigned i;

    fprintf(stderr, "the same, with a principal's formula of height %d, by its op:", HIGHEST);
    for (i = 0; i < WITH_PART; i++) {
        unsigned op = ops_with_part[i];
        fprintf(stderr, "%s %u:%zu, %zu", i ? ";" : "", op, using[HIGHEST_BY + op], evaluated[HIGHEST_BY + op]);
    }
    fprintf(stderr, "\nwith a formula of height %d, by its op, bundles refused and lent records refused (19):", HIGHEST + 1);
    for (i = 0; i < WITH_PART; i++) {
        unsigned op = ops_with_part[i];
        fprintf(stderr, "%s %u:%zu, %zu", i ? ";" : "", op, too_high[op], lent_too_high[op]);
    }
    fprintf(stderr, "\n");
}

/* Prints the counts of what is in formulas. */
static void tally_formulas_print(void)
{
    static const char *names[] = {"op 9", "op 10", "op 11", "a kept slot asked for", "one that hides another", "an unset one asked for"};
    unsigned i;

    fprintf(stderr, "accepted bundles, and questions, liberal, strict and tickets past 14 to 16, with, in the principals' formulas,");
    for (i = 0; i < HIGHEST_BY; i++)
        fprintf(stderr, "%s %s:%zu, %zu", i ? ";" : "", names[i], using[i], evaluated[i]);
    fprintf(stderr, "\n");
    tally_heights_print();
}

/* Prints the counts. */
void tally_print(void)
{
    static const char *names[] = {"add", "remove", "eager", "lazy", "liberal", "strict", "ticket", "other"};
    int i;

    fprintf(stderr, "bundles by number: 0:%zu", bundles[0]);
    for (i = 1; i <= 9; i++)
        fprintf(stderr, " %d:%zu", i, bundles[i]);
    fprintf(stderr, "; buffers too short 18:%zu\nanswers by number: 0:%zu 4:%zu", bundles[18], answers[0], answers[4]);
    for (i = 10; i <= 17; i++)
        fprintf(stderr, " %d:%zu", i, answers[i]);
    for (i = 20; i <= 22; i++)
        fprintf(stderr, " %d:%zu", i, answers[i]);
    fprintf(stderr, "\nanswers by kind:");
    for (i = 0; i < 8; i++)
        fprintf(stderr, " %s:%zu", names[i], kinds[i]);
    fprintf(stderr, "; sets granted other than the empty one: %zu; yes: %zu; tickets accepted: %zu; ", granted, yes, tickets);
    fprintf(stderr, "calls left out as too slow: %zu\n", dropped);
    tally_order_print();
    tally_formulas_print();
    tally_lent_print();
}
