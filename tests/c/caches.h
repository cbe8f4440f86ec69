/* SPDX-License-Identifier: MIT */
/* How tests in C open a cache and store in it what they hand to it (structs.h). */
#ifndef CACHES_H
#define CACHES_H

#include "expect.h"
#include "structs.h"

/* The wire form of a name. */
struct wire {
    uint8_t octets[256];
    size_t size;
};

static inline struct rrcache *open_by(const struct rrcache_config *config)
{
    struct rrcache *cache = NULL;
    NEED(rrcache_open(&cache, config) == RRCACHE_DONE && cache != NULL);
    return cache;
}

/* These return what became of what is stored. */
static inline uint32_t store_set(struct rrcache *cache, struct rrcache_set set)
{
    uint32_t outcome = 0;
    NEED(rrcache_store_set(cache, &set, &outcome) == RRCACHE_DONE);
    return outcome;
}

static inline uint32_t store_negative(struct rrcache *cache, struct rrcache_negative negative)
{
    uint32_t outcome = 0;
    NEED(rrcache_store_negative(cache, &negative, &outcome) == RRCACHE_DONE);
    return outcome;
}

static inline uint32_t store_failure(struct rrcache *cache, struct rrcache_failure failure)
{
    uint32_t outcome = 0;
    NEED(rrcache_store_failure(cache, &failure, &outcome) == RRCACHE_DONE);
    return outcome;
}

#endif
