/* SPDX-License-Identifier: MIT */
/* Counts how often a call has begun to sleep, for a program that is linked with --wrap of
   nanosleep, with which a call waits. */
#ifndef SLEEPS_H
#define SLEEPS_H

#include <stdatomic.h>
#include <stddef.h>
#include <time.h>

static atomic_uint sleeps;

int __real_nanosleep(const struct timespec *wanted, struct timespec *left);
int __wrap_nanosleep(const struct timespec *wanted, struct timespec *left);

int __wrap_nanosleep(const struct timespec *wanted, struct timespec *left)
{
    atomic_fetch_add(&sleeps, 1);
    return __real_nanosleep(wanted, left);
}

/* Sleeps for a millisecond, which does not count. */
static void wait_a_little(void)
{
    const struct timespec moment = {.tv_nsec = 1000000};
    __real_nanosleep(&moment, NULL);
}

#endif
