/* Bundles as lines of octets, and inputs of the fuzzer as calls and a bundle. */
#ifndef BUNDLE_H
#define BUNDLE_H

#include <stdbool.h>
#include <stddef.h>
#include <stdint.h>

#include "../include/case_access.h"

enum { HEAD = 1, USER, EDGE, FORMULA, DEMARCATION, HIERARCHY, PRINCIPAL, EXCLUSION, PREREQUISITE, METHOD, END = 255 };
enum { MOST_LINES = 2000, MOST_OCTETS = 24, MOST_TEXT = 24576 };

/* Octets of a call, of its answer, and of all calls: 63 and a piece of one. */
enum { CALL = ACCESS_CALL_OCTETS, ANSWER = ACCESS_ANSWER_OCTETS, MOST_CALLS = 511 };

/* Octets of a line: length, kind, body, check. */
struct line {
    uint8_t octets[MOST_OCTETS];
    unsigned count;
    unsigned place;
};

struct bundle {
    struct line lines[MOST_LINES];
    size_t count;
};

struct slice {
    const uint8_t *start;
    size_t length;
};

/* An input: a number n in COUNT octets, the high one first, taken modulo 512; n octets of calls; the bundle's text. */
struct input {
    struct slice calls, text;
};

enum { COUNT = 2 };

struct input input_split(const uint8_t *data, size_t size);
size_t input_join(uint8_t *data, size_t room, struct slice calls, const struct bundle *bundle);
void bundle_read(struct bundle *bundle, struct slice text);
unsigned kind_of(const struct line *line);
size_t count_of(const struct bundle *bundle, unsigned kind);
const struct line *line_of(const struct bundle *bundle, unsigned kind, size_t number);
unsigned objects_of(const struct bundle *bundle);

#endif
