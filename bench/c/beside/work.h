/* SPDX-License-Identifier: MIT */
/* What a cache of RRsets does for work.c. */
#ifndef WORK_H
#define WORK_H

#include <stdbool.h>
#include <stddef.h>
#include <stdint.h>

enum { SHARDS = 64, MOMENT = 1000, TTL = 3600 };

struct name {
    uint8_t octets[24]; /* its wire form */
    size_t size;
};

/* Makes the cache, with room for about this number of RRsets of one address. */
void make_cache(size_t sets);

/* The number of the shard of a name, below SHARDS. */
unsigned shard_of(const struct name *name);

/* What a thread needs in addition to the cache. */
void *begin_thread(unsigned number);

/* Puts one address of a name; `turn` picks which. */
void put(void *thread, const struct name *name, unsigned turn);

/* Whether the name has an address, which is copied out. */
bool ask(void *thread, const struct name *name);

void fail(const char *what);

#endif
