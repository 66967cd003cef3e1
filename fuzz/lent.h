/* Checks on records that are lent. */
#ifndef LENT_H
#define LENT_H

#include <stdint.h>

void check_lent(const uint8_t *answers);
void check_lent_refused(uint64_t refusal);

#endif
