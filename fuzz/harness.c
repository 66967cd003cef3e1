/* The C functions on one input: what must always hold, and the same from the reference. */
#include <stdlib.h>
#include <string.h>

#include "../include/case_access.h"
#include "check.h"
#include "cost.h"
#include "coverage.h"
#include "formulas.h"
#include "lent.h"
#include "random.h"
#include "sets.h"
#include "tally.h"

uint64_t reference_rewrite(const uint8_t *bundle, size_t bundle_length, uint8_t *out, size_t out_length);
uint64_t reference_replay(const uint8_t *bundle, size_t bundle_length, const uint8_t *calls, size_t calls_length, uint8_t *answers,
                          size_t answers_length);

/* Rewrites the text by both into so much room. */
static uint64_t rewrite(size_t room)
{
    uint64_t value;

    lend(room);
    value = access_rewrite(text.start, text.length, engine_area.lent, room);
    must_agree(value, reference_rewrite(text.start, text.length, reference_area.lent, room));
    return value;
}

/* Replays a list on the text by the engine alone into so much room. */
static uint64_t replay_alone(struct slice list, size_t room)
{
    lend(room);
    return access_replay(text.start, text.length, list.start, list.length, engine_area.lent, room);
}

/* Replays a list on the text by both into so much room. */
static uint64_t replay(struct slice list, size_t room)
{
    uint64_t value = replay_alone(list, room);

    must_agree(value, reference_replay(text.start, text.length, list.start, list.length, reference_area.lent, room));
    return value;
}

/* The lines of the text, one without a final 0A included. */
static size_t lines_of_text(void)
{
    size_t i, count = 0;

    for (i = 0; i < text.length; i++)
        count += text.start[i] == '\n';
    return count + (text.length && text.start[text.length - 1] != '\n');
}

/* A refused bundle names a line that is there (for 8 also the one past the last; for 9 the last), and the buffer stays. */
static void check_refused(uint64_t value)
{
    uint64_t number = value >> 32, line = (uint32_t)value, count = lines_of_text();

    must(number >= 1 && number <= 9, "rewrite: number not in the documents");
    must(line >= 1 && line <= count + (number == 8), "rewrite: no such line");
    must(number != 9 || line == count, "rewrite: circle not at the end line");
    must(area_stays(&engine_area, 0), "rewrite: a refusal changed the buffer");
}

/* An accepted bundle is written as it was read, or is too long for the room and the buffer stays. */
static void check_written(uint64_t value, size_t room)
{
    uint64_t number = value >> 32, length = (uint32_t)value;

    must(length == text.length, "rewrite: another length");
    must(number == (room < length ? 18 : 0), "rewrite: room or no room");
    must(number == 0 || area_stays(&engine_area, 0), "rewrite: 18 changed the buffer");
    must(number != 0 || memcmp(engine_area.lent, text.start, text.length) == 0, "rewrite: not the bytes that were read");
    must(number != 0 || area_stays(&engine_area, length), "rewrite: bytes past the end changed");
    if (number == 18)
        tally_short();
}

/* Rewrites into buffers of several lengths; returns the number of the bundle and its line. */
static uint64_t check_rewrites(void)
{
    size_t exact = text.length, i, rooms[] = {exact, exact ? exact - 1 : 0, 0, below((unsigned)exact), exact + 1 + below(100)};
    uint64_t first = rewrite(exact);
    bool accepted = first >> 32 == 0;

    for (i = 0; i < sizeof rooms / sizeof *rooms; i++) {
        uint64_t value = rewrite(rooms[i]);
        if (accepted)
            check_written(value, rooms[i]);
        else
            check_refused(value);
        must(accepted || value == first, "rewrite: the room changed the refusal");
    }
    tally_bundle(first >> 32);
    return accepted ? 0 : first;
}

/* What was written is rewritten to the same again. */
static void check_again(void)
{
    static uint8_t once[AREA];
    uint64_t value;

    rewrite(text.length);
    memcpy(once, engine_area.lent, text.length);
    lend(text.length);
    value = access_rewrite(once, text.length, engine_area.lent, text.length);
    must(value == text.length && memcmp(engine_area.lent, once, text.length) == 0, "rewrite: not the same the second time");
}

/* An accepted bundle with exactly one byte altered is refused. */
static void check_altered(void)
{
    uint8_t *place = text_area.lent + below((unsigned)text.length), byte = *place;
    uint64_t value;

    *place ^= (uint8_t)(1 + below(255));
    if (one_in(2))
        *place = (uint8_t)"0123456789ABCDEF\n"[below(17)];
    value = *place == byte ? 0 : rewrite(text.length);
    must(*place == byte || (value >> 32 >= 1 && value >> 32 <= 9), "rewrite: one byte altered, and not refused");
    if (value)
        check_refused(value);
    *place = byte;
}

/* Counts a refused bundle if it is the height of a formula that it is refused for. */
static void note_height(uint64_t refusal)
{
    if (refusal >> 32 != ACCESS_OUT_OF_RANGE)
        return;
    bundle_read(&lines, text);
    tally_too_high(too_high_by(&lines, (uint32_t)refusal - 1));
}

/* A refused bundle has no answers: its number, value 0, and the buffer stays. */
static void check_unanswered(uint64_t number)
{
    size_t i, rooms[] = {ANSWER * (calls.length / CALL), 0, below(400)};

    for (i = 0; i < sizeof rooms / sizeof *rooms; i++) {
        must(replay(calls, rooms[i]) == number << 32, "replay: not the loader's number, or answers");
        must(area_stays(&engine_area, 0), "replay: a refusal changed the buffer");
    }
}

/* Whether a number is one that this kind of call may be answered with. */
static bool number_fits(unsigned kind, unsigned number)
{
    static const uint8_t fits[7][7] = {{0, 10, 11, 13}, {0, 10, 12},     {0, 14, 15, 16, 17},        {0, 14, 15, 16, 17},
                                       {0, 14, 15, 16}, {0, 14, 15, 16}, {0, 14, 15, 16, 20, 21, 22}};

    return kind > ACCESS_CALL_TICKET ? number == 4 : memchr(fits[kind], (int)number, 7) != NULL;
}

/* Whether a kind of call is a question. */
static bool is_question(unsigned kind)
{
    return kind == ACCESS_CALL_EAGER || kind == ACCESS_CALL_LAZY;
}

/* One answer: number, set and evaluations are of its kind. */
static void check_answer(unsigned kind, const uint8_t *answer)
{
    uint32_t set = set_of_answer(answer);
    size_t principals = count_of(&lines, PRINCIPAL);
    bool question = is_question(kind), asks = question || kind == ACCESS_CALL_LIBERAL || kind == ACCESS_CALL_STRICT;

    must(number_fits(kind, answer[0]), "replay: number not of this kind of call");
    must(set == 0 || (asks && answer[0] == 0), "replay: a set without a grant");
    must(question ? set >> principals == 0 : set <= 1, "replay: no such set");
    must(answer[4] == 0 || (question && (answer[0] == 0 || answer[0] == 17)), "replay: evaluations without any");
    must(answer[4] <= principals, "replay: more evaluations than principals");
    tally_answer(kind, answer);
    if (question && answer[0] == 0)
        set_note(set);
}

/* As many answers as whole calls and room; bytes past them stay. */
static void check_count(uint64_t value, struct slice list, size_t room)
{
    size_t whole = list.length / CALL, fit = room / ANSWER, count = whole < fit ? whole : fit;

    must(value == count, "replay: another number of answers");
    must(area_stays(&engine_area, ANSWER * count), "replay: bytes past the answers changed");
}

/* A beginning of the calls, in any room, is answered as it is in the whole list. */
static void check_beginning(const uint8_t *answers)
{
    struct slice list = {calls.start, below((unsigned)calls.length + 1)};
    size_t room = below((unsigned)(ANSWER * (calls.length / CALL) + 12));
    uint64_t value = replay(list, room);

    check_count(value, list, room);
    must(memcmp(engine_area.lent, answers, ANSWER * (size_t)value) == 0, "replay: a beginning is answered otherwise");
}

/* The other form of a question at the same point has the same set, and lazy no more evaluations. */
static void check_forms(const uint8_t *answers)
{
    size_t number = below((unsigned)(calls.length / CALL)), room = ANSWER * (number + 1);
    uint8_t *kind = calls_area.lent + CALL * number;
    const uint8_t *one = answers + ANSWER * number, *other;

    if (calls.length < CALL || !is_question(*kind))
        return;
    *kind ^= 1;
    must(replay_alone((struct slice){calls.start, CALL * (number + 1)}, room) == number + 1, "replay: another number of answers");
    other = engine_area.lent + ANSWER * number;
    must(memcmp(one, other, 4) == 0, "replay: eager and lazy give different sets");
    must(*kind == ACCESS_CALL_EAGER ? one[4] <= other[4] : one[4] >= other[4], "replay: lazy evaluates more than eager");
    *kind ^= 1;
}

/* The number of a ticket beside a grant: what was granted is accepted, and nothing less than it. Where a set is accepted that comes before
 * it by members and number alone, the role principals decided. */
static void check_beside_grant(uint32_t granted, uint32_t set, unsigned number)
{
    must(set == granted ? number == 0 : number != 0 || !set_less(set, granted, role_principals), "replay: ticket and grant don't agree");
    if (number == 0 && set_less(set, granted, 0))
        tally_by_roles();
}

/* The number of a ticket beside the answer to its question at the same point. */
static void check_ticket(const uint8_t *question, uint32_t set, unsigned number)
{
    if (question[0] == 17)
        must(number >= 20 && number <= 22, "replay: a ticket accepted where no set will do");
    else if (question[0] != 0)
        must(number == question[0], "replay: ticket and question refused with different numbers");
    else
        check_beside_grant(set_of_answer(question), set, number);
}

/* The calls with tickets put behind questions, for the set of the answer or one near it; added tells which calls are these. */
static struct slice with_tickets(const uint8_t *answers, bool *added)
{
    static uint8_t list[2 * MOST_CALLS];
    size_t i, length = 0, count = calls.length / CALL, rest = calls.length % CALL;

    for (i = 0; i < count; i++) {
        const uint8_t *call = calls.start + CALL * i;
        memcpy(list + length, call, CALL), added[length / CALL] = false, length += CALL;
        if (!is_question(call[0]) || one_in(3))
            continue;
        memcpy(list + length, call, CALL), added[length / CALL] = true;
        list[length] = ACCESS_CALL_TICKET;
        set_put(list + length, set_near(set_of_answer(answers + ANSWER * i), count_of(&lines, PRINCIPAL), role_principals));
        length += CALL;
    }
    memcpy(list + length, calls.start + CALL * count, rest);
    return (struct slice){list, length + rest};
}

/* From here on the calls are those with tickets put among them: the others are answered as before, since tickets leave the record. */
static void check_tickets(uint8_t *answers)
{
    static uint8_t before[ANSWER * MOST_CALLS];
    static bool added[MOST_CALLS];
    const uint8_t *old = before;
    size_t i, room;

    memcpy(before, answers, ANSWER * (calls.length / CALL));
    calls = placed(&calls_area, with_tickets(answers, added));
    room = ANSWER * (calls.length / CALL);
    check_count(replay(calls, room), calls, room);
    memcpy(answers, engine_area.lent, room);
    for (i = 0; i < calls.length / CALL; i++)
        if (added[i]) {
            check_ticket(old - ANSWER, set_of_call(calls.start + CALL * i), answers[ANSWER * i]);
        } else {
            must(memcmp(answers + ANSWER * i, old, ANSWER) == 0, "replay: a ticket changed what follows it");
            old += ANSWER;
        }
}

/* Answers the calls on an accepted bundle: whole, with tickets among them, again, in part, and with the other form. */
static void check_answers(void)
{
    static uint8_t answers[ANSWER * MOST_CALLS];
    size_t i, count = calls.length / CALL, room = ANSWER * count + below(12);

    check_count(replay(calls, room), calls, room);
    memcpy(answers, engine_area.lent, ANSWER * count);
    check_tickets(answers);
    count = calls.length / CALL, room = ANSWER * count;
    for (i = 0; i < count; i++)
        check_answer(calls.start[CALL * i], answers + ANSWER * i);
    check_count(replay_alone(calls, room), calls, room);
    must(memcmp(engine_area.lent, answers, room) == 0, "replay: two runs differ");
    check_beginning(answers);
    check_forms(answers);
    check_lent(answers);
}

/* Leaves out the calls that would take long, but for one input in 64. */
static void keep_affordable(struct slice all)
{
    static uint8_t kept[MOST_CALLS];
    uint64_t budget = one_in(64) ? 10000000 : 300000;

    bundle_read(&lines, text);
    role_principals = role_principals_of(&lines);
    tally_formulas(&lines);
    calls = placed(&calls_area, (struct slice){kept, affordable(&lines, all, budget, kept)});
    tally_dropped((all.length - calls.length) / CALL);
}

/* Choices within a run depend on the input alone. */
static void choose_by(const uint8_t *data, size_t size)
{
    uint64_t hash = 14695981039346656037u;
    size_t i;

    for (i = 0; i < size; i++)
        hash = (hash ^ data[i]) * 1099511628211u;
    random_start(hash);
}

/* No function writes to what it was lent to read. */
static void check_unchanged(struct input input)
{
    must(text.length == 0 || memcmp(text.start, input.text.start, text.length) == 0, "the bundle was changed");
    must(area_stays(&text_area, text.length) && area_stays(&calls_area, calls.length), "bytes around the bundle or the calls changed");
}

/* All checks on one input. */
int LLVMFuzzerTestOneInput(const uint8_t *data, size_t size)
{
    struct input input = input_split(data, size);
    uint64_t refusal;

    if (input.text.length > MOST_TEXT)
        return -1;
    choose_by(data, size);
    text = placed(&text_area, input.text);
    calls = placed(&calls_area, input.calls);
    refusal = check_rewrites();
    if (refusal != 0) {
        note_height(refusal);
        check_unanswered(refusal >> 32);
        check_lent_refused(refusal);
    } else {
        check_again();
        check_altered();
        keep_affordable(input.calls);
        check_answers();
    }
    check_unchanged(input);
    return 0;
}

/* Prints the figures at the end. */
static void finish(void)
{
    tally_print();
    coverage_print();
}

/* Starts the coverage of the engine, from the list beside the program. */
int LLVMFuzzerInitialize(int *argc, char ***argv)
{
    (void)argc;
    coverage_start((*argv)[0]);
    atexit(finish);
    return 0;
}
