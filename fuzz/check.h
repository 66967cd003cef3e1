/* What all checks use: the input at hand, the lent buffers, and how to stop. */
#ifndef CHECK_H
#define CHECK_H

#include "bundle.h"
#include "guarded.h"

/* The bundle's text and the calls, each against a forbidden page; the lines of an accepted text, and the set of its role principals. */
extern struct area text_area, calls_area;
extern struct slice text, calls;
extern struct bundle lines;
extern uint32_t role_principals;

/* The buffers lent to the engine and to the reference. */
extern struct area engine_area, reference_area;

void must(bool holds, const char *what);
void must_agree(uint64_t engine, uint64_t reference);
struct slice placed(struct area *area, struct slice bytes);
void lend(size_t room);

#endif
