/* SPDX-License-Identifier: MIT */
/* `struct rrcache` for work.c. It has its own locks. */
#include "sets.h"

/* The octets that an RRset of one address takes (`rrcache_sizes`), if its name is stored inline. */
enum { SET_OCTETS = RRCACHE_ENTRY_OCTETS + 2 * RRCACHE_SHARED_OCTETS + 2 * RRCACHE_VALUE_OCTETS };

static struct rrcache *cache;

void make_cache(size_t sets)
{
    const struct rrcache_config config = {
        .octets = sets * SET_OCTETS, .shelves = SHARDS, .seed = SEED};
    if (rrcache_open(&cache, &config) != RRCACHE_DONE)
        fail("no cache");
}

void put(void *thread, const struct name *name, unsigned turn)
{
    const uint8_t data[] = {0, 4, 192, 0, 2, (uint8_t)turn};
    const struct rrcache_set set = address_of(name, data, sizeof data);
    uint32_t outcome;
    (void)thread;
    if (rrcache_store_set(cache, &set, &outcome) != RRCACHE_DONE)
        fail("a put was refused");
}

bool ask(void *thread, const struct name *name)
{
    const struct rrcache_request request = plain_request(name->octets, name->size, A);
    uint8_t buffer[512];
    struct rrcache_answer answer = {.buffer = buffer, .room = sizeof buffer};
    (void)thread;
    if (rrcache_lookup(cache, &request, &answer) != RRCACHE_DONE)
        fail("an ask was refused");
    return answer.kind == RRCACHE_FRESH;
}
