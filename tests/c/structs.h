/* SPDX-License-Identifier: MIT */
/* What tests and benches in C hand to the library: structs of class IN at the moment FIRST, which
   take nothing stale. Who needs another value of a field sets it. */
#ifndef STRUCTS_H
#define STRUCTS_H

#include "rrcache.h"

/* Octets, with how many they are. */
#define OF(octets) (octets), sizeof(octets)

enum { FIRST = 1000 };
enum { A = 1, NS = 2, CNAME = 5, SOA = 6, TXT = 16, AAAA = 28, DNAME = 39, OPT = 41, RRSIG = 46 };
enum { NSEC = 47, ANY = 255 };

/* A zone, and the data of its SOA record: two roots and five numbers, of which MINIMUM is 60. */
static const uint8_t EXAMPLE[] = "\7example";
static const uint8_t SOA_DATA[] = {0, 0, 0, 0, 0, 1, 0, 0, 0, 2, 0,
                                   0, 0, 3, 0, 0, 0, 4, 0, 0, 0, 60};

/* An RRset of the highest rank. */
static inline struct rrcache_set plain_set(const uint8_t *owner, size_t owner_size, uint16_t rtype,
                                           uint32_t ttl, const uint8_t *data, size_t data_size)
{
    return (struct rrcache_set){.owner = owner,
                                .owner_size = owner_size,
                                .rtype = rtype,
                                .rclass = RRCACHE_IN,
                                .trust = RRCACHE_AUTHORITATIVE_ANSWER,
                                .ttl = ttl,
                                .data = data,
                                .data_size = data_size,
                                .moment = FIRST};
}

static inline struct rrcache_negative plain_negative(const uint8_t *name, size_t name_size,
                                                     uint16_t rtype, enum rrcache_kind kind,
                                                     uint32_t ttl)
{
    return (struct rrcache_negative){.name = name,
                                     .name_size = name_size,
                                     .rtype = rtype,
                                     .rclass = RRCACHE_IN,
                                     .kind = kind,
                                     .trust = RRCACHE_AUTHORITY,
                                     .ttl = ttl,
                                     .soa_owner = EXAMPLE,
                                     .soa_owner_size = sizeof EXAMPLE,
                                     .soa = SOA_DATA,
                                     .soa_size = sizeof SOA_DATA,
                                     .moment = FIRST};
}

static inline struct rrcache_failure plain_failure(const uint8_t *name, size_t name_size,
                                                   uint16_t rtype, uint32_t ttl)
{
    return (struct rrcache_failure){.name = name,
                                    .name_size = name_size,
                                    .rtype = rtype,
                                    .rclass = RRCACHE_IN,
                                    .ttl = ttl,
                                    .moment = FIRST};
}

/* A question to a shelf. */
static inline struct rrcache_question plain_question(uint16_t rtype)
{
    return (struct rrcache_question){.moment = FIRST,
                                     .rtype = rtype,
                                     .rclass = RRCACHE_IN,
                                     .purpose = RRCACHE_QUESTION,
                                     .mode = RRCACHE_NO_STALE};
}

/* A question to a cache. */
static inline struct rrcache_request plain_request(const uint8_t *name, size_t name_size,
                                                   uint16_t rtype)
{
    return (struct rrcache_request){.name = name,
                                    .name_size = name_size,
                                    .rtype = rtype,
                                    .rclass = RRCACHE_IN,
                                    .moment = FIRST,
                                    .mode = RRCACHE_NO_STALE};
}

#endif
