/* What the runs came across. */
#ifndef TALLY_H
#define TALLY_H

#include "bundle.h"

void tally_bundle(uint64_t number);
void tally_formulas(const struct bundle *bundle);
void tally_too_high(unsigned op);
void tally_short(void);
void tally_answer(unsigned kind, const uint8_t *answer);
void tally_by_roles(void);
void tally_dropped(size_t calls);
void tally_lent_part(void);
void tally_lent_write(uint64_t number);
void tally_lent_again(bool edited);
void tally_lent_refused(void);
void tally_lent_altered(uint64_t number);
void tally_lent_misindexed(unsigned way);
void tally_lent_too_high(unsigned op);
void tally_print(void);

#endif
