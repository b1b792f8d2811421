/* Random numbers from a fixed seed: the same everywhere, so that a difference can be run again. */
#ifndef COMPARE_RANDOM_H
#define COMPARE_RANDOM_H

#include <stdbool.h>
#include <stdint.h>

extern uint64_t random_state;

/* The generator splitmix64. */
static inline uint64_t random_bits(void)
{
    uint64_t z = random_state += UINT64_C(0x9e3779b97f4a7c15);
    z = (z ^ (z >> 30)) * UINT64_C(0xbf58476d1ce4e5b9);
    z = (z ^ (z >> 27)) * UINT64_C(0x94d049bb133111eb);
    return z ^ (z >> 31);
}

static inline uint32_t below(uint32_t limit)
{
    return (uint32_t)((random_bits() >> 32) * limit >> 32);
}

/* True in so many cases of a hundred. */
static inline bool percent(uint32_t cases)
{
    return below(100) < cases;
}

/* A member of a set that is not empty. */
static inline uint32_t member_of(uint32_t set)
{
    uint32_t member = below(32);
    while (!(set >> member & 1))
        member = (member + 1) % 32;
    return member;
}

#endif
