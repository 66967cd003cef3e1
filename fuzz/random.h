/* Random choices, repeatable from a seed. */
#ifndef RANDOM_H
#define RANDOM_H

#include <stdbool.h>
#include <stdint.h>

extern uint64_t random_state;

/* Starts from a seed. */
static inline void random_start(uint64_t seed)
{
    random_state = seed * 0x9E3779B97F4A7C15u + 0x632BE59BD9B4E019u;
}

/* The next number, by splitmix. */
static inline uint32_t random_any(void)
{
    uint64_t z = random_state += 0x9E3779B97F4A7C15u;

    z = (z ^ z >> 30) * 0xBF58476D1CE4E5B9u;
    z = (z ^ z >> 27) * 0x94D049BB133111EBu;
    return (uint32_t)(z >> 32);
}

/* A number below n, and 0 for n = 0. */
static inline unsigned below(unsigned n)
{
    return n ? random_any() % n : 0;
}

/* True once in n times. */
static inline bool one_in(unsigned n)
{
    return below(n) == 0;
}

#endif
