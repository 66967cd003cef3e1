/* The case access engine, for C and C++.
 *
 * A bundle is the text of document 01 (lines of hexadecimal octets); docs/FORMAT.md says what stands in it, what each call answers,
 * and what each number means.
 *
 * What is asked of a caller:
 *   - Each pointer comes with the number of bytes behind it, which the engine may read (bundle, calls) or read and write (out,
 *     answers) until the function returns. Any length is taken. Where a length is 0 the engine reads and writes nothing through the
 *     pointer beside it, whatever it is, NULL included.
 *   - Buffers do not overlap: out has no byte of bundle, answers has none of bundle and none of calls.
 *   - Nobody else changes bundle or calls, or uses out or answers, before the function returns.
 *   - The calling thread has 256 kB of stack (measured on x86-64: 118 kB at most).
 *
 * What the caller may rely on: nothing is allocated, and nothing is kept between calls but in the record that a caller lends (further
 * down), so there is nothing to free. Any thread may call with its own buffers; bundle and calls may be lent to several calls at once,
 * as they are only read. Every function returns, whatever the bytes are. */
#ifndef CASE_ACCESS_H
#define CASE_ACCESS_H

#ifndef __cplusplus
#include <stdbool.h>
#endif
#include <stddef.h>
#include <stdint.h>

/* ---- version */

#define ACCESS_VERSION_MAJOR 0
#define ACCESS_VERSION_MINOR 6
#define ACCESS_VERSION_PATCH 0
#define ACCESS_VERSION "0.6.0"

/* ---- sizes */

/* A call and its answer, in octets. */
#define ACCESS_CALL_OCTETS 8
#define ACCESS_ANSWER_OCTETS 5

/* The longest input that the program `rewrite` reads, in bytes. It is a limit of that program alone: the functions below take a text
 * of any length. No text that loads is longer, so that a buffer of this size holds any bundle (the longest has 18,583 bytes). */
#define ACCESS_LARGEST_BUNDLE 65536

/* ---- numbers: document 01, "Grounds for refusing"; 20 to 22 are those of request 2026-01 */

enum access_refusal {
    /* success */
    ACCESS_ACCEPTED = 0,

    /* loading */
    ACCESS_WRONG_CHARACTERS = 1,
    ACCESS_WRONG_LENGTH = 2,
    ACCESS_WRONG_SUM = 3,
    ACCESS_WRONG_KIND = 4, /* also the answer to a call of an unknown kind */
    ACCESS_OVER_LIMIT = 5,
    ACCESS_OUT_OF_RANGE = 6,
    ACCESS_NOT_RISING = 7,
    ACCESS_WRONG_END = 8,
    ACCESS_CIRCLE = 9,

    /* edits */
    ACCESS_EDGE_OUT_OF_RANGE = 10,
    ACCESS_EDGE_PRESENT = 11,
    ACCESS_EDGE_ABSENT = 12,
    ACCESS_EDGES_FULL = 13,

    /* questions, liberal, strict and tickets (17: questions alone) */
    ACCESS_NO_METHOD = 14,
    ACCESS_NO_OBJECT = 15,
    ACCESS_NOT_USER = 16,
    ACCESS_NO_SET = 17,

    /* writing */
    ACCESS_SHORT_BUFFER = 18,

    /* any call but loading; no record that was loaded is refused so */
    ACCESS_NOT_LOADABLE = 19,

    /* tickets */
    ACCESS_NOT_ENABLED = 20, /* a member; or it is no principal */
    ACCESS_NOT_CONSISTENT = 21,
    ACCESS_GUARD_NOT_MET = 22
};

/* What a number means. Another number has a text too, which says so. */
static inline const char *access_number_text(unsigned number)
{
    switch (number) {
    case ACCESS_ACCEPTED:
        return "accepted";
    case ACCESS_WRONG_CHARACTERS:
        return "line empty, odd, with another character, or without final 0A";
    case ACCESS_WRONG_LENGTH:
        return "line under 3 octets, or its length octet wrong";
    case ACCESS_WRONG_SUM:
        return "line sum not zero";
    case ACCESS_WRONG_KIND:
        return "kind unknown, misplaced, or of another body length";
    case ACCESS_OVER_LIMIT:
        return "one line over its kind's limit";
    case ACCESS_OUT_OF_RANGE:
        return "a body number out of range or naming nothing";
    case ACCESS_NOT_RISING:
        return "line not rising";
    case ACCESS_WRONG_END:
        return "end line missing or its numbers wrong";
    case ACCESS_CIRCLE:
        return "circle in the hierarchy or the prerequisites";
    case ACCESS_EDGE_OUT_OF_RANGE:
        return "label or object out of range";
    case ACCESS_EDGE_PRESENT:
        return "edge is there";
    case ACCESS_EDGE_ABSENT:
        return "edge is not there";
    case ACCESS_EDGES_FULL:
        return "512 edges";
    case ACCESS_NO_METHOD:
        return "no such method";
    case ACCESS_NO_OBJECT:
        return "no such object";
    case ACCESS_NOT_USER:
        return "requestor is not a user";
    case ACCESS_NO_SET:
        return "no set will do";
    case ACCESS_SHORT_BUFFER:
        return "buffer too short";
    case ACCESS_NOT_LOADABLE:
        return "no bundle loads to this record";
    case ACCESS_NOT_ENABLED:
        return "member is no principal or is not enabled";
    case ACCESS_NOT_CONSISTENT:
        return "set is not consistent";
    case ACCESS_GUARD_NOT_MET:
        return "set does not meet the guard";
    default:
        return "no such number";
    }
}

/* ---- calls: the first octet of a call */

enum access_call {
    ACCESS_CALL_ADD = 0,     /* label, from, to */
    ACCESS_CALL_REMOVE = 1,  /* label, from, to */
    ACCESS_CALL_EAGER = 2,   /* method, object, requestor */
    ACCESS_CALL_LAZY = 3,    /* method, object, requestor */
    ACCESS_CALL_LIBERAL = 4, /* method, object, requestor */
    ACCESS_CALL_STRICT = 5,  /* method, object, requestor */
    ACCESS_CALL_TICKET = 6   /* method, object, requestor; set */
};

/* ---- results: number * 2^32 + value, with document 01's numbers (0 for success) */

static inline unsigned access_number(uint64_t result)
{
    return (unsigned)(result >> 32);
}

static inline uint32_t access_value(uint64_t result)
{
    return (uint32_t)(result & 0xFFFFFFFFu);
}

/* ---- functions on a bundle, which is loaded at each call */

#ifdef __cplusplus
extern "C" {
#endif

/* Loads a bundle and writes it again into out. A bundle that is refused: its number (1 to 9) and the line; out stays.
 * Else 0 and the length written, or 18 and the length needed where out is too short (it stays). Bytes past what is written stay. */
uint64_t access_rewrite(const uint8_t *bundle, size_t bundle_length, uint8_t *out, size_t out_length);

/* Loads a bundle, then answers each call in turn, on the record that the calls before it left.
 * A call is 8 octets: its kind, three numbers (enum access_call), then a ticket's set number in 4 octets, the high one first; these
 * four are ignored by the other kinds. A kind above 6 is answered with number 4 and changes nothing.
 * An answer is 5 octets: number; set number in 3 octets, the high one first (1 for yes of liberal and strict); evaluations. Of an
 * edit's and of a ticket's only the number can differ from 0.
 * As many calls are answered as are whole in calls and have room in answers; bytes past them stay.
 * The value is the count of answers; for a bundle that is refused its number (1 to 9) and the value 0, and answers stays. */
uint64_t access_replay(const uint8_t *bundle, size_t bundle_length, const uint8_t *calls, size_t calls_length, uint8_t *answers,
                       size_t answers_length);

/* ---- functions on a record, which the caller owns and lends
 *
 * A record is loaded once, then asked and edited; each call finds it as the calls before left it:
 *
 *   access_record record = ACCESS_RECORD_ZERO;
 *   if (access_load(&record, bundle, bundle_length) == ACCESS_ACCEPTED)
 *       decision = access_lazy(&record, method, object, requestor);
 *
 * What is asked of a caller, beside the above:
 *   - A record is zero before it is first lent: by ACCESS_RECORD_ZERO, memset or calloc. Some of its octets are truth values, which
 *     must be 0 or 1: so octets from elsewhere (a file, another version of the library) are not a record. To keep rules, write them.
 *     A record of zeros is refused with 19 by every call but access_load.
 *   - No buffer of a call has an octet of its record.
 *   - Nobody else uses the record before the function returns, but that several access_write may read it at once. Other records may
 *     be used at the same time.
 *
 * What the caller may rely on: a record is plain data without pointers. It may be copied, by assignment or memcpy, and a copy is a
 * snapshot; it may be dropped. Two records with the same rules may differ in octets: compare what they write.
 *
 * Beside the rules a record holds an index of its edges (request 2026-04), which loading builds and each edit keeps, and the memo of
 * the last pair that was asked about. A record whose index disagrees with its edges is refused with 19 by every call but access_load. */

/* What a record takes; it is aligned to 8 octets. */
#define ACCESS_RECORD_OCTETS 6192

typedef struct access_record {
    uint64_t opaque[ACCESS_RECORD_OCTETS / 8];
} access_record;

#define ACCESS_RECORD_ZERO {{0}}

/* Loads a bundle into the record: 0, and the record has its rules. For a bundle that is refused its number (1 to 9) and the line;
 * the record is then blank (one object and nothing else), so that every question is refused. access_replace keeps the old rules. */
uint64_t access_load(access_record *record, const uint8_t *bundle, size_t bundle_length);

/* Answers each call in turn, as access_replay does, and leaves the record that the last of them left. The count of answers. */
uint64_t access_answer(access_record *record, const uint8_t *calls, size_t calls_length, uint8_t *answers, size_t answers_length);

/* Writes the record's rules into out, as a bundle, without index and memo: 0 and the length written, or 18 and the length needed where
 * out is too short, or 19 and 0 for a record that no bundle loads to; out then stays. The record stays. */
uint64_t access_write(const access_record *record, uint8_t *out, size_t out_length);

/* ---- one call on a record. A number above 255 is taken as 255, which is no method, no object and no label. */

/* The answer to a question. Number 0: granted, the least set that will do: fewest members, then fewest role principals (formula of
 * op 3), then the smallest set number. Number 17: denied. Other numbers: refused. The set is empty but for a grant; principal p is a
 * member where set >> p & 1. */
typedef struct access_decision {
    unsigned number;
    uint32_t set;
    unsigned evaluations;
} access_decision;

/* The answer of liberal and strict; no where the number is not 0. */
typedef struct access_verdict {
    unsigned number;
    bool yes;
} access_verdict;

static inline uint8_t access_octet(unsigned number)
{
    return (uint8_t)(number < 255 ? number : 255);
}

/* Answers one call of any kind. The set is a ticket's, and ignored by the other kinds. */
static inline access_decision access_one(access_record *record, enum access_call kind, unsigned a, unsigned b, unsigned c, uint32_t set)
{
    const uint8_t call[ACCESS_CALL_OCTETS] = {(uint8_t)kind,        access_octet(a),      access_octet(b),     access_octet(c),
                                              (uint8_t)(set >> 24), (uint8_t)(set >> 16), (uint8_t)(set >> 8), (uint8_t)set};
    uint8_t answer[ACCESS_ANSWER_OCTETS] = {ACCESS_NOT_LOADABLE, 0, 0, 0, 0};
    access_decision decision;

    access_answer(record, call, sizeof call, answer, sizeof answer);
    decision.number = answer[0];
    decision.set = (uint32_t)answer[1] << 16 | (uint32_t)answer[2] << 8 | answer[3];
    decision.evaluations = answer[4];
    return decision;
}

/* Adds an edge, or removes one: the number. */
static inline unsigned access_add(access_record *record, unsigned label, unsigned from, unsigned to)
{
    return access_one(record, ACCESS_CALL_ADD, label, from, to, 0).number;
}

static inline unsigned access_remove(access_record *record, unsigned label, unsigned from, unsigned to)
{
    return access_one(record, ACCESS_CALL_REMOVE, label, from, to, 0).number;
}

/* Decides whether the requestor may use the method on the object. Both forms give the same number and set; on equal records lazy
 * evaluates no more formulas than eager. */
static inline access_decision access_eager(access_record *record, unsigned method, unsigned object, unsigned requestor)
{
    return access_one(record, ACCESS_CALL_EAGER, method, object, requestor, 0);
}

static inline access_decision access_lazy(access_record *record, unsigned method, unsigned object, unsigned requestor)
{
    return access_one(record, ACCESS_CALL_LAZY, method, object, requestor, 0);
}

static inline access_verdict access_verdict_of(access_decision answer)
{
    access_verdict verdict;

    verdict.number = answer.number;
    verdict.yes = answer.number == ACCESS_ACCEPTED && answer.set == 1;
    return verdict;
}

/* Whether all enabled principals together meet the method's guard (liberal), or one alone does (strict). Neither is a decision:
 * constraints are ignored. The record stays. */
static inline access_verdict access_liberal(access_record *record, unsigned method, unsigned object, unsigned requestor)
{
    return access_verdict_of(access_one(record, ACCESS_CALL_LIBERAL, method, object, requestor, 0));
}

static inline access_verdict access_strict(access_record *record, unsigned method, unsigned object, unsigned requestor)
{
    return access_verdict_of(access_one(record, ACCESS_CALL_STRICT, method, object, requestor, 0));
}

/* Checks a ticket, a grant that somebody proposes by its set number (principal p is a member where set >> p & 1): the number. It is 0
 * exactly when every member is a principal and enabled (else 20), the set is consistent (else 21) and it meets the method's guard
 * (else 22), whoever proposed it and whether or not another set is less; 19 and 14 to 16 come first. All is evaluated afresh. The
 * record stays, memo included. */
static inline unsigned access_ticket(access_record *record, unsigned method, unsigned object, unsigned requestor, uint32_t set)
{
    return access_one(record, ACCESS_CALL_TICKET, method, object, requestor, set).number;
}

/* Loads a bundle as access_load does, but a refused one leaves the record as it was: its rules, edits included, stay in force. */
static inline uint64_t access_replace(access_record *record, const uint8_t *bundle, size_t bundle_length)
{
    access_record fresh = ACCESS_RECORD_ZERO;
    uint64_t result = access_load(&fresh, bundle, bundle_length);

    if (access_number(result) == ACCESS_ACCEPTED)
        *record = fresh;
    return result;
}

#ifdef __cplusplus
}
#endif

#endif
