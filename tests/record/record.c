/* The header's record beside the engine's: size and alignment when this is compiled, what stands in its fields when it is run.
 * mirror.h has the engine's structs, read from its source (mirror.awk). The crown's bundle is on standard input. */
#include <stdio.h>
#include <string.h>

#include "case_access.h"
#include "mirror.h"

_Static_assert(sizeof(struct Record) == ACCESS_RECORD_OCTETS, "ACCESS_RECORD_OCTETS is the size of the engine's record");
_Static_assert(sizeof(access_record) == ACCESS_RECORD_OCTETS, "access_record has that size");
_Static_assert(_Alignof(access_record) == _Alignof(struct Record), "access_record is aligned as the engine's record");

#define EXPECT(what) expect(what, #what)
#define BEGINS(type, field, ...) EXPECT(memcmp(r.field, (const type[]){__VA_ARGS__}, sizeof((const type[]){__VA_ARGS__})) == 0)
#define COLUMN(column, ...) BEGINS(uint8_t, column, __VA_ARGS__)
#define INDEX(row, ...) BEGINS(uint16_t, index.row, __VA_ARGS__)

static int passed, failed;

static void expect(int holds, const char *what)
{
    passed += holds;
    failed += !holds;
    if (!holds)
        printf("record: %s FAILED\n", what);
}

/* The fields of a record. */
static struct Record fields(const access_record *record)
{
    struct Record r;

    memcpy(&r, record, sizeof r);
    return r;
}

/* How many formulas the memo knows. */
static int known(const access_record *record)
{
    struct Record r = fields(record);
    int i, count = 0;

    for (i = 0; i < 64; i++)
        count += r.memo.known[i];
    return count;
}

/* The crown of document 01, as it is loaded. */
static void crown(const access_record *record)
{
    struct Record r = fields(record);

    EXPECT(r.objects == 3);
    EXPECT(r.user_count == 2);
    COLUMN(user_objects, 1, 2, 0);
    EXPECT(r.user_roles[0] == 1 && r.user_roles[1] == 0);
    EXPECT(r.edge_count == 3);
    COLUMN(edge_labels, 0, 1, 1, 0);
    COLUMN(edge_sources, 0, 0, 0, 0);
    COLUMN(edge_targets, 1, 1, 2, 0);
    INDEX(firsts, 0, 1, 3, 3, 3, 3, 3, 3, 3, 3, 3, 3, 3, 3, 3, 3);
    INDEX(counts, 1, 2, 0, 0, 0, 0, 0, 0, 0, 0, 0, 0, 0, 0, 0, 0);
    INDEX(places, 0, 1, 2, 0);
    EXPECT(r.formula_count == 4);
    COLUMN(formula_ops, 1, 7, 7, 3, 0);
    COLUMN(formula_lefts, 0, 0, 1, 0, 0);
    COLUMN(formula_rights, 0, 0, 0, 0, 0);
    EXPECT(r.demarcation_count == 3);
    EXPECT(r.demarcation_privileges[0] == 1 && r.demarcation_privileges[1] == 2 && r.demarcation_privileges[2] == 4);
    EXPECT(r.hierarchy_count == 1);
    COLUMN(inferiors, 0, 0);
    COLUMN(superiors, 1, 0);
    EXPECT(r.principal_count == 3);
    COLUMN(principal_formulas, 1, 2, 3, 0);
    COLUMN(principal_demarcations, 2, 1, 0, 0);
    EXPECT(r.exclusion_count == 1);
    COLUMN(exclusion_lows, 0, 0);
    COLUMN(exclusion_highs, 1, 0);
    EXPECT(r.prerequisite_count == 1);
    COLUMN(prerequisites, 2, 0);
    COLUMN(dependents, 1, 0);
    EXPECT(r.method_count == 4);
    COLUMN(method_forms, 1, 0, 1, 1, 0);
    EXPECT(r.method_privileges[0] == 3 && r.method_privileges[1] == 4 && r.method_privileges[2] == 0 && r.method_privileges[3] == 7);
    EXPECT(r.memo.object == 0 && r.memo.requestor == 0 && known(record) == 0);
}

/* What questions and edits leave in it. */
static void kept(access_record *record)
{
    EXPECT(access_lazy(record, 0, 0, 1).set == 6);
    EXPECT(fields(record).memo.object == 0 && fields(record).memo.requestor == 1 && known(record) == 2);
    EXPECT(fields(record).memo.known[2] && fields(record).memo.value[2]);
    EXPECT(access_remove(record, 1, 0, 1) == ACCESS_ACCEPTED);
    EXPECT(fields(record).edge_count == 2 && fields(record).edge_targets[1] == 2 && fields(record).edge_targets[2] == 0);
    EXPECT(fields(record).memo.requestor == 0 && known(record) == 0);
}

/* What edits leave in the index: places are by label, then to, then from, and so in another order than the edges. */
static void indexed(access_record record)
{
    struct Record r;

    EXPECT(access_add(&record, 1, 2, 0) == ACCESS_ACCEPTED && access_add(&record, 15, 2, 2) == ACCESS_ACCEPTED);
    r = fields(&record);
    INDEX(firsts, 0, 1, 4, 4, 4, 4, 4, 4, 4, 4, 4, 4, 4, 4, 4, 4);
    INDEX(counts, 1, 3, 0, 0, 0, 0, 0, 0, 0, 0, 0, 0, 0, 0, 0, 1);
    INDEX(places, 0, 3, 1, 2, 4, 0);
    EXPECT(access_remove(&record, 0, 0, 1) == ACCESS_ACCEPTED);
    r = fields(&record);
    INDEX(firsts, 0, 0, 3, 3, 3, 3, 3, 3, 3, 3, 3, 3, 3, 3, 3, 3);
    INDEX(counts, 0, 3, 0, 0, 0, 0, 0, 0, 0, 0, 0, 0, 0, 0, 0, 1);
    INDEX(places, 2, 0, 1, 3, 0, 0);
}

/* Whether two records have the same octets in every field, the memo's too; nothing lies behind the memo. */
static int same(const access_record *one, const access_record *other)
{
    return memcmp(one, other, offsetof(struct Record, memo) + sizeof(struct Memo)) == 0;
}

/* Tickets on the crown, whose memo knows something of Ana: whatever they are answered with, the record stays. */
static void tickets(access_record record)
{
    const uint8_t list[] = {ACCESS_CALL_TICKET, 0, 0, 1, 0, 0, 0, 6, ACCESS_CALL_TICKET, 0, 0, 2, 0, 0, 0, 6},
                  lazy[] = {ACCESS_CALL_LAZY, 0, 0, 1, 255, 255, 255, 255}, granted[] = {0, 0, 0, 6, 0};
    access_record before;
    uint8_t answers[10] = {1, 1, 1, 1, 1, 1, 1, 1, 1, 1};

    EXPECT(access_lazy(&record, 0, 0, 1).set == 6);
    before = record;
    EXPECT(access_ticket(&record, 0, 0, 1, 6) == ACCESS_ACCEPTED);
    EXPECT(access_ticket(&record, 1, 0, 1, 1) == ACCESS_ACCEPTED);
    EXPECT(access_ticket(&record, 1, 0, 1, 5) == ACCESS_ACCEPTED);
    EXPECT(access_ticket(&record, 2, 0, 2, 0) == ACCESS_ACCEPTED);
    EXPECT(access_ticket(&record, 0, 0, 2, 6) == ACCESS_NOT_ENABLED);
    EXPECT(access_ticket(&record, 0, 0, 1, 6 + 8) == ACCESS_NOT_ENABLED);
    EXPECT(access_ticket(&record, 0, 0, 1, 0x80000006u) == ACCESS_NOT_ENABLED);
    EXPECT(access_ticket(&record, 0, 0, 1, 0xFFFFFFFFu) == ACCESS_NOT_ENABLED);
    EXPECT(access_ticket(&record, 0, 0, 1, 3) == ACCESS_NOT_CONSISTENT);
    EXPECT(access_ticket(&record, 0, 0, 2, 2) == ACCESS_NOT_CONSISTENT);
    EXPECT(access_ticket(&record, 0, 0, 1, 4) == ACCESS_GUARD_NOT_MET);
    EXPECT(access_ticket(&record, 4, 3, 0, 8) == ACCESS_NO_METHOD);
    EXPECT(access_ticket(&record, 0, 3, 0, 8) == ACCESS_NO_OBJECT);
    EXPECT(access_ticket(&record, 0, 0, 0, 8) == ACCESS_NOT_USER);
    EXPECT(same(&record, &before));
    EXPECT(access_answer(&record, list, sizeof list, answers, sizeof answers) == 2 && same(&record, &before));
    EXPECT(memcmp(answers, (const uint8_t[]){0, 0, 0, 0, 0, ACCESS_NOT_ENABLED, 0, 0, 0, 0}, sizeof answers) == 0);
    EXPECT(access_answer(&record, lazy, sizeof lazy, answers, 5) == 1 && memcmp(answers, granted, 5) == 0);
}

/* A number of a record's index, 0 to 543: firsts, counts, places. */
static void put(access_record *record, size_t number, uint16_t value)
{
    memcpy((uint8_t *)record + offsetof(struct Record, index) + 2 * number, &value, 2);
}

/* An index that disagrees with the edges: every call is refused and the record stays; with the old number it answers again. */
static void misindexed(access_record record, size_t number, uint16_t value, uint16_t old)
{
    access_record before;
    uint8_t out[512];

    put(&record, number, value);
    before = record;
    EXPECT(access_add(&record, 0, 0, 0) == ACCESS_NOT_LOADABLE);
    EXPECT(access_remove(&record, 1, 0, 1) == ACCESS_NOT_LOADABLE);
    EXPECT(access_eager(&record, 0, 0, 1).number == ACCESS_NOT_LOADABLE);
    EXPECT(access_lazy(&record, 0, 0, 1).number == ACCESS_NOT_LOADABLE);
    EXPECT(access_liberal(&record, 0, 0, 1).number == ACCESS_NOT_LOADABLE);
    EXPECT(access_strict(&record, 0, 0, 1).number == ACCESS_NOT_LOADABLE);
    EXPECT(access_ticket(&record, 0, 0, 1, 6) == ACCESS_NOT_LOADABLE);
    EXPECT(access_write(&record, out, sizeof out) == (uint64_t)ACCESS_NOT_LOADABLE << 32);
    EXPECT(same(&record, &before));
    put(&record, number, old);
    EXPECT(access_lazy(&record, 0, 0, 1).set == 6);
}

/* Loading into a record that has rules. */
static void loaded_over(access_record *record, const uint8_t *bundle, size_t length)
{
    const uint8_t wrong[] = "0201";
    uint64_t refusal = ((uint64_t)ACCESS_WRONG_CHARACTERS << 32) + 1;

    EXPECT(access_replace(record, wrong, 4) == refusal && fields(record).edge_count == 2);
    EXPECT(access_replace(record, bundle, length) == 0 && fields(record).edge_count == 3);
    EXPECT(access_load(record, wrong, 4) == refusal);
    EXPECT(fields(record).objects == 1 && fields(record).edge_count == 0 && fields(record).method_count == 0);
    EXPECT(access_lazy(record, 0, 0, 1).number == ACCESS_NO_METHOD);
}

/* A record of zeros, which no bundle loads to; numbers above an octet; a call of an unknown kind. */
static void refused(const access_record *crown)
{
    access_record zero = ACCESS_RECORD_ZERO, record = *crown;
    uint8_t call[] = {7, 0, 0, 0, 0, 0, 0, 0}, answer[5], out[64];

    EXPECT(access_lazy(&zero, 0, 0, 1).number == ACCESS_NOT_LOADABLE);
    EXPECT(access_add(&zero, 0, 0, 0) == ACCESS_NOT_LOADABLE);
    EXPECT(access_ticket(&zero, 0, 0, 1, 0) == ACCESS_NOT_LOADABLE);
    EXPECT(access_write(&zero, out, sizeof out) == (uint64_t)ACCESS_NOT_LOADABLE << 32);
    EXPECT(access_lazy(&record, 256, 0, 1).number == ACCESS_NO_METHOD);
    EXPECT(access_eager(&record, 0, 256, 1).number == ACCESS_NO_OBJECT);
    EXPECT(access_lazy(&record, 0, 0, 257).number == ACCESS_NOT_USER);
    EXPECT(access_liberal(&record, 0, 0, 257).number == ACCESS_NOT_USER && !access_liberal(&record, 0, 0, 257).yes);
    EXPECT(access_remove(&record, 257, 0, 1) == ACCESS_EDGE_OUT_OF_RANGE);
    EXPECT(access_add(&record, 0, 0, 258) == ACCESS_EDGE_OUT_OF_RANGE);
    EXPECT(access_answer(&record, call, sizeof call, answer, sizeof answer) == 1 && answer[0] == ACCESS_WRONG_KIND);
    EXPECT(access_answer(&record, call, sizeof call, answer, 4) == 0);
    EXPECT(access_answer(&record, call, sizeof call - 1, answer, sizeof answer) == 0);
    EXPECT(fields(&record).edge_count == 3);
}

int main(void)
{
    static uint8_t bundle[ACCESS_LARGEST_BUNDLE];
    static struct { access_record record; uint8_t after[64]; } own;
    static const uint8_t untouched[sizeof own.after];
    size_t length = fread(bundle, 1, sizeof bundle, stdin);
    access_record snapshot;

    EXPECT(access_load(&own.record, bundle, length) == 0);
    snapshot = own.record;
    crown(&own.record);
    kept(&own.record);
    loaded_over(&own.record, bundle, length);
    EXPECT(memcmp(own.after, untouched, sizeof untouched) == 0);
    crown(&snapshot);
    indexed(snapshot);
    tickets(snapshot);
    misindexed(snapshot, 2, 2, 3);
    misindexed(snapshot, 16 + 15, 1, 0);
    misindexed(snapshot, 32 + 1, 2, 1);
    misindexed(snapshot, 32 + 2, 3, 2);
    misindexed(snapshot, 32 + 2, 512, 2);
    misindexed(snapshot, 32 + 511, 1, 0);
    refused(&snapshot);
    if (failed == 0)
        printf("record: %d checks passed\n", passed);
    return failed != 0;
}
