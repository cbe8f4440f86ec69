/* SPDX-License-Identifier: MIT */
/* suspend.c: a machine that was suspended, for a test. It is preloaded to a program (LD_PRELOAD),
   and with each SIGUSR2 100 seconds have gone by, of which CLOCK_MONOTONIC knows nothing. */
#include <signal.h>
#include <stdatomic.h>
#include <sys/syscall.h>
#include <time.h>
#include <unistd.h>

static atomic_int suspended;

static void suspend(int signal)
{
    (void)signal;
    suspended += 100;
}

__attribute__((constructor)) static void begin(void)
{
    signal(SIGUSR2, suspend);
}

int clock_gettime(clockid_t clock, struct timespec *time)
{
    int status = (int)syscall(SYS_clock_gettime, clock, time);
    if (status == 0 && clock != CLOCK_MONOTONIC)
        time->tv_sec += suspended;
    return status;
}
