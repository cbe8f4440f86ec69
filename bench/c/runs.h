/* SPDX-License-Identifier: MIT */
/* How benches in C time what they do. */
#ifndef RUNS_H
#define RUNS_H

#include <stdint.h>
#include <time.h>

/* What a clock shows, as CLOCK_MONOTONIC does elapsed time. */
static inline uint64_t nanoseconds(clockid_t clock)
{
    struct timespec now;
    clock_gettime(clock, &now);
    return (uint64_t)now.tv_sec * 1000000000 + (uint64_t)now.tv_nsec;
}

#endif
