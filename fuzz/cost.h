/* How much a list of calls may cost, so that the slow corners of the reference stay short. */
#ifndef COST_H
#define COST_H

#include "bundle.h"

size_t affordable(const struct bundle *bundle, struct slice calls, uint64_t budget, uint8_t *kept);

#endif
