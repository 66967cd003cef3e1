/* Records that are lent: loaded once, given lists part by part, written and loaded again, at the engine and at the reference. */
#include "lent.h"

#include <string.h>

#include "../include/case_access.h"
#include "check.h"
#include "heights.h"
#include "index.h"
#include "random.h"
#include "tally.h"

void *reference_record(void);
void reference_zero(void *record);
uint64_t reference_load(void *record, const uint8_t *bundle, size_t bundle_length);
uint64_t reference_answer(void *record, const uint8_t *calls, size_t calls_length, uint8_t *answers, size_t answers_length);
uint64_t reference_write(const void *record, uint8_t *out, size_t out_length);
void reference_index(const void *record, struct edge_index *index);

/* A record at both: the engine's lies against a forbidden page. */
struct lent {
    struct area area;
    access_record *engine;
    void *reference;
};

/* A record on its way through a list of calls, with the answers of one replay and the bundle it was loaded from. */
struct walk {
    struct lent *lent;
    struct slice list;
    const uint8_t *answers;
    struct slice bundle;
    bool edited;
};

/* Where a record's memo is: a pair, then octets that are bools; nothing of the record is behind them. */
enum { MEMO = BEHIND_INDEX, FIRST_BOOL = MEMO + 2, BOOLS = 128, IN_USE = FIRST_BOOL + BOOLS };

static const char smallest[] = "02010101FB\n06FF000100000100F9\n";

/* Two objects, one edge, one principal who is granted method 0 by it. */
static const char rules[] = "02010102FA\n0302010001F9\n0303000001F9\n0304010000F8\n0304070000F2\n"
                            "08050000000000000001F2\n02070100F6\n090A000000000000000001EC\n06FF000800000800EB\n";

static struct lent first, second, again;
static struct area bundle_area;

/* The walk whose record was written and loaded again, if there is one. */
static const struct walk *followed;

/* The octets of a constant text. */
static struct slice constant(const char *bytes)
{
    return (struct slice){(const uint8_t *)bytes, strlen(bytes)};
}

/* Whether two slices hold the same bytes. */
static bool same(struct slice one, struct slice other)
{
    return one.length == other.length && memcmp(one.start, other.start, one.length) == 0;
}

/* Makes a record as it must be before the first load. */
static void zero(struct lent *lent)
{
    area_lend(&lent->area, sizeof *lent->engine, random_any() & 1, (uint8_t)random_any());
    memset(lent->area.lent, 0, lent->area.length);
    lent->engine = (access_record *)lent->area.lent;
    if (!lent->reference)
        lent->reference = reference_record();
    reference_zero(lent->reference);
}

/* Stops unless the bytes around the record are as they were. */
static void must_stay_around(const struct lent *lent)
{
    must(area_stays(&lent->area, lent->area.length), "bytes around the record changed");
}

/* Stops unless the index in the engine's record is the one that the reference builds anew from its edges. */
static void must_be_indexed(const struct lent *lent)
{
    struct edge_index expected, found = index_of(lent->engine);

    reference_index(lent->reference, &expected);
    must(memcmp(&expected, &found, sizeof found) == 0, "index: not the one that building anew gives");
}

/* Loads a bundle into a record by both. */
static uint64_t load(struct lent *lent, struct slice bundle)
{
    struct slice read = placed(&bundle_area, bundle);
    uint64_t value;

    lend(0);
    value = access_load(lent->engine, read.start, read.length);
    must_agree(value, reference_load(lent->reference, read.start, read.length));
    must_stay_around(lent);
    must_be_indexed(lent);
    must(same(read, bundle) && area_stays(&bundle_area, read.length), "load: the bundle or bytes around it changed");
    return value;
}

/* Loads a bundle that is accepted. */
static void load_accepted(struct lent *lent, struct slice bundle)
{
    must(load(lent, bundle) == 0, "load: refused what was accepted, or what was written");
}

/* Whether none of so many calls is an edit or a question: these leave the record. */
static bool leave_record(struct slice list, size_t count)
{
    while (count--)
        if (list.start[CALL * count] < ACCESS_CALL_LIBERAL)
            return false;
    return true;
}

/* Answers calls on a record by both into so much room; bytes past the answers stay. */
static size_t answer(struct lent *lent, struct slice list, size_t room)
{
    size_t whole = list.length / CALL, fit = room / ANSWER, count = whole < fit ? whole : fit;
    access_record before = *lent->engine;
    uint64_t value;

    lend(room);
    value = access_answer(lent->engine, list.start, list.length, engine_area.lent, room);
    must_agree(value, reference_answer(lent->reference, list.start, list.length, reference_area.lent, room));
    must_stay_around(lent);
    must_be_indexed(lent);
    must(value == count, "answer: another number of answers");
    must(area_stays(&engine_area, ANSWER * count), "answer: bytes past the answers changed");
    if (leave_record(list, count))
        must(memcmp(&before, lent->engine, IN_USE) == 0, "answer: no edit and no question, and the record changed");
    return count;
}

/* Writes a record by both into so much room; no octet of it changes. */
static uint64_t write_into(const struct lent *lent, size_t room)
{
    access_record before;
    uint64_t value;

    memcpy(&before, lent->engine, sizeof before);
    lend(room);
    value = access_write(lent->engine, engine_area.lent, room);
    must_agree(value, reference_write(lent->reference, reference_area.lent, room));
    must_stay_around(lent);
    must(memcmp(&before, lent->engine, sizeof before) == 0, "write: the record changed");
    must(area_stays(&engine_area, value >> 32 == 0 ? (uint32_t)value : 0), "write: bytes past the end, or of a refusal, changed");
    tally_lent_write(value >> 32);
    return value;
}

/* Writes a record into no room, which tells the length, into some room and into just enough; what was written. */
static struct slice written(const struct lent *lent, uint8_t *bytes)
{
    uint64_t value = write_into(lent, 0), length = (uint32_t)value, short_of = (uint64_t)18 << 32 | length;
    size_t some[] = {length - 1, below((unsigned)length), length + 1 + below(100)}, room = some[below(3)];

    must(value == short_of, "write: not refused for want of room");
    must(write_into(lent, room) == (room < length ? short_of : length), "write: room or no room");
    must(write_into(lent, length) == length, "write: refused in just enough room");
    memcpy(bytes, engine_area.lent, length);
    return (struct slice){bytes, length};
}

/* Answers a list on a bundle by one replay of the engine; the answers. */
static const uint8_t *replayed(struct slice bundle, struct slice list, uint8_t *answers)
{
    size_t room = ANSWER * (list.length / CALL);

    lend(room);
    must(access_replay(bundle.start, bundle.length, list.start, list.length, engine_area.lent, room) == list.length / CALL,
         "replay: another number of answers");
    memcpy(answers, engine_area.lent, room);
    return answers;
}

/* A record that no bundle loads to: every call is answered with 19, but for kinds that there are not, and the record stays. */
static void check_unloadable(const uint8_t *answers, size_t count, bool stays)
{
    size_t i;

    for (i = 0; i < count; i++) {
        bool known = calls.start[CALL * i] <= ACCESS_CALL_TICKET;
        must(answers[ANSWER * i] == (known ? 19 : 4), "answer: not 19 on a record that no bundle loads to");
    }
    must(stays, "answer: 19 changed the record");
}

/* A record that was never loaded. */
static void check_zeroed(void)
{
    access_record zeros = {0};
    size_t count;

    zero(&first);
    count = answer(&first, calls, ANSWER * (calls.length / CALL));
    check_unloadable(engine_area.lent, count, memcmp(first.engine, &zeros, IN_USE) == 0);
    must(write_into(&first, below(100)) == (uint64_t)19 << 32, "write: not 19 on a record that was never loaded");
}

/* The next part of a list: some calls, perhaps a piece of the one after them, and room that may be too little. */
static struct slice part_of(struct slice list, size_t *room)
{
    size_t length = one_in(4) ? list.length : CALL * (size_t)below(4) + below(CALL);
    struct slice part = {list.start, length < list.length ? length : list.length};

    *room = ANSWER * (part.length / CALL) + below(8);
    if (one_in(4))
        *room = below((unsigned)*room + 1);
    return part;
}

/* The same calls on the record that was loaded from what was written: number and set are the same, evaluations may not be. */
static void check_again(struct slice list, const uint8_t *answers)
{
    size_t i, count = answer(&again, list, ANSWER * (list.length / CALL));

    for (i = 0; i < ANSWER * count; i += ANSWER)
        must(memcmp(engine_area.lent + i, answers + i, 4) == 0, "answer: writing and loading changed number or set");
}

/* Writes the record, and loads what was written into another one, which writes the same and follows from then on. */
static void check_written(const struct walk *walk)
{
    static uint8_t bytes[AREA], others[AREA];
    struct slice now = written(walk->lent, bytes);

    must(walk->edited || same(now, walk->bundle), "write: not the bundle that was loaded");
    if (one_in(2))
        zero(&again);
    load_accepted(&again, now);
    must(same(written(&again, others), now), "write: not the same after loading again");
    tally_lent_again(!same(now, walk->bundle));
    followed = walk;
}

/* Gives the next part of the list; the answers are those of one replay. */
static void check_part(struct walk *walk)
{
    size_t room, i, count;
    struct slice part = part_of(walk->list, &room);

    count = answer(walk->lent, part, room);
    must(memcmp(engine_area.lent, walk->answers, ANSWER * count) == 0, "answer: in parts otherwise than by one replay");
    tally_lent_part();
    if (followed == walk)
        check_again((struct slice){part.start, CALL * count}, walk->answers);
    for (i = 0; i < count; i++)
        walk->edited |= part.start[CALL * i] < ACCESS_CALL_EAGER && walk->answers[ANSWER * i] == 0;
    walk->list.start += CALL * count, walk->list.length -= CALL * count, walk->answers += ANSWER * count;
    if (one_in(6))
        check_written(walk);
}

/* Gives a whole list part by part. */
static void check_parts(struct lent *lent, struct slice list, const uint8_t *answers, struct slice bundle)
{
    struct walk walk = {lent, list, answers, bundle, false};

    followed = NULL;
    while (walk.list.length >= CALL)
        check_part(&walk);
}

/* Two records in turns, the second on a list that begins elsewhere; loading leaves nothing of what they held. */
static void check_turns(const uint8_t *answers)
{
    static uint8_t bytes[CALL * 8], theirs[ANSWER * 8];
    size_t count = calls.length / CALL, from = CALL * (size_t)below((unsigned)count), i;
    struct slice list = {bytes, CALL * (count < 8 ? count : 8)};
    struct walk walks[] = {{&first, calls, answers, text, false}, {&second, list, theirs, text, false}};

    for (i = 0; i < list.length; i++)
        bytes[i] = calls.start[(from + i) % (CALL * count)];
    replayed(text, list, theirs);
    load_accepted(&first, text);
    load_accepted(&second, text);
    followed = NULL;
    while (walks[0].list.length >= CALL || walks[1].list.length >= CALL)
        check_part(&walks[walks[0].list.length < CALL || (walks[1].list.length >= CALL && one_in(2))]);
}

/* Loads a refused bundle into a record that held rules: from then on it is the smallest bundle's. */
static void check_blank(struct lent *lent, struct slice bundle, uint64_t refusal, struct slice list)
{
    static uint8_t bytes[AREA], answers[ANSWER * MOST_CALLS];
    struct slice blank = constant(smallest);
    uint64_t value = load(lent, bundle);

    must(refusal ? value == refusal : value >> 32 >= 1 && value >> 32 <= 9, "load: not the refusal");
    must(same(written(lent, bytes), blank), "write: a refused bundle left more than the blank record");
    check_parts(lent, list, replayed(blank, list, answers), blank);
    tally_lent_refused();
}

/* The bundle once more over its own record: the memo is empty, and the last calls are answered as on a fresh one. */
static void check_over(void)
{
    static uint8_t bytes[AREA], answers[ANSWER * MOST_CALLS];
    size_t count = calls.length / CALL, last = count < 2 ? count : 2;
    struct slice list = {calls.start + CALL * (count - last), CALL * last};

    load_accepted(&first, text);
    must(same(written(&first, bytes), text), "write: something is left of the rules before");
    check_parts(&first, list, replayed(text, list, answers), text);
    bytes[below((unsigned)text.length)] ^= (uint8_t)(1 + below(255));
    check_blank(&first, (struct slice){bytes, text.length}, 0, list);
}

/* Octets of a record altered, the memo emptied: it has no bundle, or is the record of the one that it writes. By the engine alone. */
static void check_altered_record(void)
{
    static uint8_t bytes[AREA], theirs[ANSWER * MOST_CALLS];
    static access_record altered, before, other;
    size_t room = ANSWER * (calls.length / CALL), count;
    uint64_t value;
    unsigned i;

    altered = *first.engine;
    memset(&other, 0, sizeof other);
    memset((uint8_t *)&altered + FIRST_BOOL, 0, BOOLS);
    for (i = 1 + below(2); i; i--)
        ((uint8_t *)&altered)[below(FIRST_BOOL)] = (uint8_t)(one_in(2) ? below(one_in(2) ? 4 : 13) : random_any());
    before = altered;
    value = access_write(&altered, bytes, sizeof bytes);
    must(value >> 32 == 19 ? (uint32_t)value == 0 : value >> 32 == 0, "write: neither 0 nor 19 in room for any bundle");
    tally_lent_altered(value >> 32);
    if (value >> 32 == 0)
        must(access_load(&other, bytes, (size_t)value) == 0, "load: what was written is refused");
    lend(room);
    count = (size_t)access_answer(&altered, calls.start, calls.length, engine_area.lent, room);
    must(count == calls.length / CALL && area_stays(&engine_area, room), "answer: another number of answers, or bytes around them changed");
    if (value >> 32 == 19) {
        check_unloadable(engine_area.lent, count, memcmp(&before, &altered, IN_USE) == 0);
        return;
    }
    access_answer(&other, calls.start, calls.length, theirs, room);
    must(memcmp(engine_area.lent, theirs, room) == 0, "answer: not that of the bundle that the record writes");
}

/* One call of each kind is refused, and so are the list and writing; the record and the buffer stay. */
static void check_each_refused(access_record *record)
{
    access_record before = *record;
    uint8_t call[CALL] = {0};
    size_t room = ANSWER * (calls.length / CALL);

    lend(ANSWER);
    for (call[0] = ACCESS_CALL_ADD; call[0] <= ACCESS_CALL_TICKET; call[0]++) {
        access_answer(record, call, CALL, engine_area.lent, ANSWER);
        must(engine_area.lent[0] == 19, "answer: not 19 with an index that disagrees or a formula that is too high");
    }
    lend(text.length);
    must(access_write(record, engine_area.lent, text.length) == (uint64_t)19 << 32,
         "write: not 19 with an index that disagrees or a formula that is too high");
    must(area_stays(&engine_area, 0), "write: 19 changed the buffer");
    must(memcmp(&before, record, IN_USE) == 0, "19 with an index that disagrees or a formula that is too high changed the record");
    lend(room);
    access_answer(record, calls.start, calls.length, engine_area.lent, room);
    check_unloadable(engine_area.lent, calls.length / CALL, memcmp(&before, record, IN_USE) == 0);
}

/* A record that differs from the first one in formulas alone, if at all, answers as that does and is left as that is, but for them. */
static void check_answers_stay(access_record record)
{
    static uint8_t theirs[ANSWER * MOST_CALLS];
    access_record other = *first.engine;
    struct formula_table formulas = formulas_of(&record);
    size_t room = ANSWER * (calls.length / CALL);

    lend(room);
    access_answer(&record, calls.start, calls.length, engine_area.lent, room);
    access_answer(&other, calls.start, calls.length, theirs, room);
    must(memcmp(engine_area.lent, theirs, room) == 0, "answer: otherwise once the record was put right, or with formulas that nobody has");
    formulas_put(&other, formulas);
    must(memcmp(&record, &other, IN_USE) == 0, "answer: another record once it was put right, or with formulas that nobody has");
}

/* An index that disagrees with the edges: every call is refused and the record stays; put right, it answers. By the engine alone. */
static void check_altered_index(void)
{
    access_record altered = *first.engine;
    struct edge_index right = index_of(first.engine);
    unsigned way = below(WAYS);
    struct edge_index wrong = index_altered(right, way);

    if (memcmp(&right, &wrong, sizeof wrong) == 0)
        return;
    index_put(&altered, wrong);
    check_each_refused(&altered);
    index_put(&altered, right);
    check_answers_stay(altered);
    tally_lent_misindexed(way);
}

/* Formulas put on top of the others: up to the greatest height the record is written and answers as before; with one that is higher
 * every call is refused and the record stays; without it, it answers. By the engine alone. */
static void check_raised(void)
{
    static uint8_t bytes[AREA];
    access_record altered = *first.engine, other = ACCESS_RECORD_ZERO;
    struct formula_table right = formulas_of(first.engine), highest = right, higher;
    uint64_t value;

    if (!formulas_raise(&highest, HIGHEST))
        return;
    formulas_put(&altered, highest);
    value = access_write(&altered, bytes, sizeof bytes);
    must(value >> 32 == 0 && access_load(&other, bytes, (size_t)value) == 0, "write: refused with a formula of the greatest height");
    check_answers_stay(altered);
    higher = highest;
    if (!formulas_raise(&higher, HIGHEST + 1))
        return;
    formulas_put(&altered, higher);
    check_each_refused(&altered);
    formulas_put(&altered, right);
    check_answers_stay(altered);
    tally_lent_too_high(higher.ops[highest.count]);
}

/* The calls that evaluate afresh; the length of them. */
static size_t afresh(uint8_t *list)
{
    size_t i, length = 0;

    for (i = 0; i + CALL <= calls.length; i += CALL)
        if (calls.start[i] >= ACCESS_CALL_LIBERAL && calls.start[i] <= ACCESS_CALL_TICKET)
            memcpy(list + length, calls.start + i, CALL), length += CALL;
    return length;
}

/* Any memo, for the object and the requestor of a call. */
static void fill_memo(access_record *record, const uint8_t *call)
{
    uint8_t *memo = (uint8_t *)record + MEMO;
    unsigned i;

    memo[0] = call[2], memo[1] = call[3];
    for (i = 2; i < IN_USE - MEMO; i++)
        memo[i] = random_any() & 1;
}

/* Tickets, liberal and strict evaluate afresh: two records that differ in the memo alone answer the same. By the engine alone. */
static void check_afresh(void)
{
    static uint8_t list[2 * MOST_CALLS], theirs[ANSWER * MOST_CALLS];
    access_record filled = *first.engine, other = *first.engine, before;
    size_t length = afresh(list), room = ANSWER * (length / CALL);

    if (length == 0)
        return;
    fill_memo(&filled, list + CALL * (size_t)below((unsigned)(length / CALL)));
    before = filled;
    lend(room);
    access_answer(&filled, list, length, engine_area.lent, room);
    access_answer(&other, list, length, theirs, room);
    must(memcmp(engine_area.lent, theirs, room) == 0, "answer: liberal, strict or a ticket took a value from the memo");
    must(memcmp(&before, &filled, IN_USE) == 0, "answer: liberal, strict or a ticket changed the memo");
}

/* Lent records on an accepted bundle, whose calls have these answers in one list. */
void check_lent(const uint8_t *answers)
{
    if (one_in(8))
        check_zeroed();
    zero(&first), zero(&second), zero(&again);
    if (one_in(2))
        load_accepted(&first, constant(rules));
    load_accepted(&first, text);
    check_parts(&first, calls, answers, text);
    if (one_in(2))
        check_altered_record();
    check_altered_index();
    check_raised();
    check_afresh();
    if (calls.length >= CALL && one_in(3))
        check_turns(answers);
    check_over();
}

/* A refused bundle over rules that were asked about. */
void check_lent_refused(uint64_t refusal)
{
    static const uint8_t ask[CALL] = {ACCESS_CALL_LAZY, 0, 0, 1}, granted[ANSWER] = {0, 0, 0, 1, 1};

    zero(&first), zero(&again);
    load_accepted(&first, constant(rules));
    must(answer(&first, (struct slice){ask, CALL}, ANSWER) == 1, "answer: another number of answers");
    must(memcmp(engine_area.lent, granted, ANSWER) == 0, "answer: not granted by the rules");
    check_blank(&first, text, refusal, calls);
}
