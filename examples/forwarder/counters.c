/* SPDX-License-Identifier: MIT */
#include "counters.h"

#include <inttypes.h>
#include <poll.h>
#include <stdio.h>
#include <unistd.h>

#include "answers.h"
#include "shares.h"

static const char *const NAMES[COUNTERS] = {
    "queries", "fresh", "negative", "stale",  "fetched",  "failed",    "turned-away", "truncated",
    "joined",  "sent",  "upgraded", "strays", "failures", "displaced", "connections", "octets",
};
static _Atomic uint64_t counters[COUNTERS];

void count(enum counter which, uint64_t by)
{
    atomic_fetch_add_explicit(&counters[which], by, memory_order_relaxed);
}

/* Whether a line can be written. A pipe that is ready takes 4,096 octets at once (PIPE_BUF), and no
   line has that many. */
static bool takes_line(int file)
{
    return poll(&(struct pollfd){.fd = file, .events = POLLOUT}, 1, 0) == 1;
}

void print_counters(void)
{
    struct rrcache_stats stats = {0};
    if (!takes_line(STDOUT_FILENO))
        return;
    for (int i = 0; i < COUNTERS; i++)
        printf("%s %" PRIu64 " ", NAMES[i], counters[i]);
    rrcache_stats(cache, &stats);
    printf("swept %" PRIu64 " evicted %" PRIu64 " keys %" PRIu64 " held %" PRIu64
           " waiting %" PRIu64,
           stats.expired, stats.evicted, stats.keys, stats.octets, shared_octets);
    for (uint64_t i = 0; rrcache_stats_of(cache, i, &stats) == RRCACHE_DONE; i++)
        printf(" part-%" PRIu64 " %" PRIu64, i, stats.keys);
    putchar('\n');
    fflush(stdout);
}

void log_counters(uint64_t seconds)
{
    static uint64_t last[COUNTERS];
    uint64_t since[COUNTERS];
    struct rrcache_stats stats = {0};
    for (int i = 0; i < COUNTERS; i++) {
        since[i] = counters[i] - last[i];
        last[i] += since[i];
    }
    if (!takes_line(STDERR_FILENO))
        return;
    rrcache_stats(cache, &stats);
    fprintf(stderr,
            "forwarder: in %" PRIu64 " s %" PRIu64 " queries, %" PRIu64 " hits, %" PRIu64
            " stale, %" PRIu64 " failures, %" PRIu64 " octets sent; %" PRIu64 " keys of %" PRIu64
            " octets\n",
            seconds, since[QUERIES], since[FRESH] + since[NEGATIVE], since[STALE], since[FAILED],
            since[OCTETS], stats.keys, stats.octets);
}
