/* SPDX-License-Identifier: MIT */
/* counters.h: counts of what all threads of the forwarder did, and the clock. */
#pragma once

#include <stdint.h>
#include <time.h>

/* A query ends in one of the ways FRESH to TURNED_AWAY. A waiting query that is replaced by another
   query of its client ends in none of them. */
enum counter {
    QUERIES,     /* from clients */
    FRESH,       /* answered from the cache */
    NEGATIVE,    /* the same, with NODATA or NXDOMAIN */
    STALE,       /* the same, with stale data (RFC 8767) */
    FETCHED,     /* answered after a fetch */
    FAILED,      /* SERVFAIL */
    TURNED_AWAY, /* refused because of the query itself */
    CUT,         /* replies with TC set */
    JOINED,      /* queries that wait for a fetch that another query began */
    SENT,        /* queries to upstreams */
    UPGRADED,    /* the same, over TCP */
    STRAYS,      /* messages from upstreams that belong to no query */
    FAILURES,    /* fetches whose tries all failed */
    DISPLACED,   /* fetches that gave way to others */
    CONNECTIONS, /* from clients */
    OCTETS,      /* sent to clients */
    COUNTERS
};

void count(enum counter which, uint64_t by);

/* Prints all counters, and what the cache and the clients' shares hold, in one line on standard
   output. Here and below, a line that cannot be written immediately is dropped. */
void print_counters(void);

/* Prints on standard error what was done since the last call, `seconds` seconds ago. */
void log_counters(uint64_t seconds);

/* Milliseconds of a clock that cannot be set, and keeps running while the machine is suspended. */
static inline uint64_t milliseconds(void)
{
    struct timespec now;
    clock_gettime(CLOCK_BOOTTIME, &now);
    return (uint64_t)now.tv_sec * 1000 + (uint64_t)now.tv_nsec / 1000000;
}
