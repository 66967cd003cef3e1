#include "random.h"

/* One state for all: mutator and harness each start it from a seed of their own. */
uint64_t random_state = 1;
