/* SPDX-License-Identifier: MIT */
/* answers.h: the cache, which all threads share, and the replies that are made from it. Any thread
   may make any call. */
#pragma once

#include "counters.h"
#include "dns.h"

/* What the host says about itself (RFC 4892), or NULL. */
struct identity {
    const char *version, *name;
};

extern struct rrcache *cache;

/* Whether a look-up found an answer. */
static inline bool is_found(enum rrcache_kind kind)
{
    return kind == RRCACHE_FRESH || kind == RRCACHE_STALE || kind == RRCACHE_NODATA
           || kind == RRCACHE_NXDOMAIN;
}

/* The counter for a reply of this kind. */
static inline enum counter counter_of(enum rrcache_kind kind)
{
    return kind == RRCACHE_FRESH ? FRESH : kind == RRCACHE_STALE ? STALE : NEGATIVE;
}

/* Opens the cache. Returns false if that fails. */
bool open_cache(uint64_t octets, const struct identity *said);

/* Hashes the lower-case form of a name under a secret seed. */
uint64_t hash_of(const uint8_t *name, size_t size);

/* Answers a question from the cache, with its CNAME chain. If nothing was found, the reply is
   SERVFAIL. Returns 0 if no reply can have the answer, for example because of a loop of CNAME
   records. */
enum rrcache_kind look_up(const struct question *question, enum rrcache_mode mode,
                          struct reply *reply);

/* Stores a response to a question. Returns one of two replies: what the response says, with what
   the cache has of the rest if the response says only a part; or what the cache has if memory was
   refused. The returned reply uses the buffers of both. Returns NULL if the response answers
   nothing. */
const struct reply *keep(const struct question *question, const uint8_t *message, size_t size,
                         struct reply replies[2]);

/* Stores for 30 seconds that a question could not be resolved (RFC 2308 section 7). */
void remember_failure(const struct question *question);

/* Answers questions about the host itself in class CH. The reply to any other question is
   REFUSED. */
void identify(const struct question *question, struct reply *reply);
