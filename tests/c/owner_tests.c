/* SPDX-License-Identifier: MIT */
/* Tests of lib/owners.c inside a cache: each alias that is held may be one by its bits, and few
   other names may. What look-ups tell is tested by cache_tests.c. The last line is 'N passed, M
   failed'. */
#include "cache.h"

#include <stdio.h>

#include "caches.h"

enum { KEYS = 4096, TURNOVERS = 12 };

/* The name of a number. */
static void make_name(const struct rrcache *cache, unsigned number, struct rrcache_name *name)
{
    uint8_t octets[32];
    int size = snprintf((char *)octets + 1, sizeof octets - 1, "n%u", number);
    octets[0] = (uint8_t)size;
    octets[size + 1] = 0;
    NEED(rrcache_make_name(name, octets, (size_t)size + 2, &cache->parts) == RRCACHE_DONE);
}

/* Stores an alias or an address under a name. */
static void store(struct rrcache *cache, unsigned number, bool is_alias)
{
    static const uint8_t root[] = {0, 1, 0}, address[] = {0, 4, 192, 0, 2, 1};
    struct rrcache_name name;
    make_name(cache, number, &name);
    struct rrcache_set set = plain_set(name.octets, name.size, A, 300, OF(address));
    if (is_alias)
        set = plain_set(name.octets, name.size, CNAME, 300, OF(root));
    NEED(store_set(cache, set) == RRCACHE_KEPT);
}

/* How many of some names may be aliases. */
static unsigned count(const struct rrcache *cache, unsigned from, unsigned step)
{
    struct rrcache_name name;
    unsigned found = 0;
    for (unsigned i = 0; i < KEYS; i += step) {
        make_name(cache, from + i, &name);
        found += may_be_alias(&cache->part[name.part], &name);
    }
    return found;
}

/* Fills a cache many times over, with aliases as one key in so many. No name may be an alias at the
   beginning, and at the end those that were stored lately may, and few others. */
static void check(uint64_t shelves, uint64_t octets, unsigned each, unsigned hundredths)
{
    const struct rrcache_config config = {
        .shelves = shelves, .keys = KEYS, .octets = octets, .seed = {1, 2, 3}};
    struct rrcache *cache = open_by(&config);
    struct rrcache_stats stats;
    unsigned end = TURNOVERS * KEYS;
    EXPECT(count(cache, 0, 1) == 0);
    for (unsigned i = 0; i < end; i++)
        store(cache, i, i % each == 0);
    EXPECT(rrcache_stats(cache, &stats) == RRCACHE_DONE && stats.evicted > end - 2 * KEYS);
    unsigned others = count(cache, 2 * end, 1);
    printf("of %d other names %u may be aliases, with 1 in %u\n", KEYS, others, each);
    EXPECT(others * 100 < hundredths * KEYS);
    unsigned held = (unsigned)(stats.keys / 2 / each * each);
    for (unsigned i = each; i < held; i += each) {
        struct rrcache_name name;
        make_name(cache, (end - 1) / each * each - i, &name);
        EXPECT(may_be_alias(&cache->part[name.part], &name));
    }
    rrcache_close(cache);
}

int main(void)
{
    check(1, 0, 4, 3);
    check(16, 0, 4, 3);
    check(1, KEYS / 2 * 320, 4, 3);
    check(1, 0, 1, 25);
    return told_status();
}
