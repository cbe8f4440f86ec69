/* SPDX-License-Identifier: MIT */
/* Numbers that tests and benches in C draw. */
#ifndef DRAWN_H
#define DRAWN_H

#include <stdint.h>

/* The next number from a state that is not 0 (xorshift64, Marsaglia 2003). */
static inline uint64_t drawn_from(uint64_t *state)
{
    *state ^= *state << 13;
    *state ^= *state >> 7;
    return *state ^= *state << 17;
}

#endif
