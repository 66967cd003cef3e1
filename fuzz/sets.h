/* Sets of principals: in a call, in an answer, worth proposing in a ticket, and their order. */
#ifndef SETS_H
#define SETS_H

#include "bundle.h"

uint32_t set_of_call(const uint8_t *call);
uint32_t set_of_answer(const uint8_t *answer);
void set_put(uint8_t *call, uint32_t set);
uint32_t set_near(uint32_t set, size_t principals, uint32_t role_principals);
bool set_less(uint32_t one, uint32_t other, uint32_t role_principals);
void set_note(uint32_t set);
uint32_t set_noted(void);

#endif
