/* SPDX-License-Identifier: MIT */
/* cache.c: opening and closing a cache, keeping it within its limits, and its statistics. */
#include "memos.h"

#include <inttypes.h>
#include <stdio.h>
#include <stdlib.h>
#include <time.h>
#include <unistd.h>

enum { SHELVES = 64, READERS = 16, MOST_READERS = 64, SHELF_KEYS = 65536 };
/* The maximum number of events of a chapter, if histories are recorded. */
enum { CHAPTER_EVENTS = 65536 };
static const uint64_t OCTETS = UINT64_C(64) << 20, LEAST_OCTETS = 65536;
static const uint64_t MOST_OCTETS = UINT64_C(1) << 46;
static const struct rrcache_limits LIMITS = RRCACHE_LIMITS;

/* ---- Opening and closing. */

static uint64_t or_else(uint64_t number, uint64_t otherwise)
{
    return number != 0 ? number : otherwise;
}

/* The number of processors, but at most READERS. */
static uint64_t readers_here(void)
{
    long processors = sysconf(_SC_NPROCESSORS_ONLN);
    return processors < 1 ? 1 : processors < READERS ? (uint64_t)processors : READERS;
}

/* A config with its defaults in place of zeros. */
static struct rrcache_config completed(const struct rrcache_config *given)
{
    static const struct rrcache_config zeros = {0};
    struct rrcache_config config = given != NULL ? *given : zeros;
    config.octets = or_else(config.octets, OCTETS);
    config.shelves = or_else(config.shelves, SHELVES);
    config.readers = or_else(config.readers, readers_here());
    if (config.keys == 0 && config.shelves <= SHELVES)
        config.keys = config.shelves * SHELF_KEYS;
    config.limits.cap = (uint32_t)or_else(config.limits.cap, LIMITS.cap);
    config.limits.negative_cap = (uint32_t)or_else(config.limits.negative_cap, LIMITS.negative_cap);
    config.limits.recheck = (uint32_t)or_else(config.limits.recheck, LIMITS.recheck);
    return config;
}

static bool are_good(const struct rrcache_limits *limits)
{
    return limits->cap <= 604800 && limits->negative_cap <= 604800 && limits->recheck <= 300;
}

/* Why no cache can be made from a completed config. The shelves check the other numbers of their
   rules. */
static enum rrcache_status refusal_of(const struct rrcache_config *config)
{
    if (config->octets < LEAST_OCTETS || config->octets > MOST_OCTETS || config->shelves > SHELVES
        || config->readers > MOST_READERS || config->keys > config->shelves * SHELF_KEYS)
        return RRCACHE_BAD_RULES;
    return are_good(&config->limits) ? RRCACHE_DONE : RRCACHE_BAD_LIMITS;
}

/* Makes the locks and the shelf of a part. If that fails, neither is left. The first trim of a
   shelf makes it keep a count of its octets, which `settle` reads after each store. */
static enum rrcache_status make_part(const struct rrcache *cache, struct part *part,
                                     const struct rrcache_rules *rules)
{
    const struct rrcache_trim_to trim = {.limit = UINT64_MAX, .most = 1};
    struct rrcache_trimmed trimmed = {0};
    enum rrcache_status status = rrcache_make(&part->shelf, rules);
    if (status != RRCACHE_DONE)
        return status;
    rrcache_trim(&part->shelf, &trim, &trimmed); /* the shelf is empty, so this cannot fail */
    if (make_locks(cache, part))
        return RRCACHE_DONE;
    rrcache_free(&part->shelf);
    return RRCACHE_MEMORY;
}

static void free_part(struct part *part)
{
    free_locks(part);
    rrcache_free(&part->shelf);
}

/* The number of places of all readers. Each reader has one more place than there are parts
   (places.h). */
static uint64_t place_count(const struct rrcache_config *config)
{
    return config->readers * (config->shelves + 1);
}

/* Makes the parts of a cache in its block. */
static enum rrcache_status make_parts(struct rrcache *cache, const struct rrcache_config *config)
{
    uint64_t count = config->shelves;
    const struct rrcache_rules rules = {
        .capacity = cache->most_keys,
        .chapter = CHAPTER_EVENTS,
        .max_stale = config->max_stale,
    };
    struct rrcache_rules seeded = rules;
    uint8_t *behind = (uint8_t *)(cache->places + place_count(config)) + memo_octets(cache);
    uint64_t *owners = (uint64_t *)behind, words = owner_words(cache);
    memcpy(seeded.seed, cache->parts.seed, sizeof seeded.seed);
    for (uint64_t i = 0; i < count; i++) {
        place_owners(&cache->part[i], owners + 2 * i * words, words);
        enum rrcache_status status = make_part(cache, &cache->part[i], &seeded);
        if (status == RRCACHE_DONE)
            continue;
        while (i > 0)
            free_part(&cache->part[--i]);
        return status;
    }
    return RRCACHE_DONE;
}

/* Sets the seed of a cache: that of the config, or one from the system. */
static bool choose_seed(struct rrcache *cache, const struct rrcache_config *config)
{
    static const uint8_t none[sizeof config->seed] = {0};
    uint8_t *seed = cache->parts.seed;
    memcpy(seed, config->seed, sizeof none);
    return memcmp(seed, none, sizeof none) != 0
           || (getentropy(seed, sizeof none) == 0 && memcmp(seed, none, sizeof none) != 0);
}

/* Fills in a cache that is zeros. */
static enum rrcache_status make_cache(struct rrcache *cache, const struct rrcache_config *config)
{
    enum rrcache_status status;
    if (!choose_seed(cache, config))
        return RRCACHE_BAD_SEED;
    cache->parts.count = config->shelves;
    cache->limits = config->limits;
    cache->readers = config->readers;
    cache->share_of_reader = ((UINT64_C(1) << 32) + config->readers - 1) / config->readers;
    cache->most_octets = config->octets / config->shelves;
    cache->most_keys = (config->keys + config->shelves - 1) / config->shelves;
    cache->exact_recency = config->exact_recency;
    size_t parts = config->shelves * sizeof(struct part);
    size_t places = place_count(config) * sizeof(struct place), memos = memo_octets(cache);
    size_t owners = config->shelves * 2 * owner_words(cache) * sizeof(uint64_t);
    cache->block = calloc(1, LINE + parts + places + memos + owners);
    if (cache->block == NULL)
        return RRCACHE_MEMORY;
    cache->part = (void *)((uint8_t *)cache->block + (-(uintptr_t)cache->block & (LINE - 1)));
    cache->places = (struct place *)(cache->part + config->shelves);
    place_memos(cache, cache->places + place_count(config));
    status = make_parts(cache, config);
    if (status != RRCACHE_DONE)
        free(cache->block);
    return status;
}

enum rrcache_status rrcache_open(struct rrcache **cache, const struct rrcache_config *config)
{
    if (cache == NULL)
        return RRCACHE_NULL;
    const struct rrcache_config whole = completed(config);
    enum rrcache_status status = refusal_of(&whole);
    if (status != RRCACHE_DONE)
        return status;
    struct rrcache *made = calloc(1, sizeof *made);
    if (made == NULL)
        return RRCACHE_MEMORY;
    status = make_cache(made, &whole);
    if (status != RRCACHE_DONE) {
        free(made);
        return status;
    }
    pthread_mutex_init(&made->recorder, NULL); /* in glibc this never fails */
    pthread_mutex_init(&made->sweeper, NULL);
    *cache = made;
    return RRCACHE_DONE;
}

void rrcache_close(struct rrcache *cache)
{
    if (cache == NULL)
        return;
    for (uint64_t i = 0; i < cache->parts.count; i++)
        free_part(&cache->part[i]);
    pthread_mutex_destroy(&cache->recorder);
    pthread_mutex_destroy(&cache->sweeper);
    free(cache->block);
    free(cache);
}

/* ---- Timestamps and limits. */

uint64_t moment_now(void)
{
    struct timespec now = {0};
    if (clock_gettime(CLOCK_BOOTTIME, &now) != 0) /* a sandbox may refuse this clock */
        clock_gettime(CLOCK_MONOTONIC, &now);
    return (uint64_t)now.tv_sec;
}

/* The age up to which a look-up does not move an entry. No key is evicted while there is room, so
   look-ups need not move entries until three quarters of the room are taken. While the last quarter
   fills, names that are asked for have time to come to the front. */
static uint64_t oldest_left(const struct rrcache *cache, const struct rrcache_usage *usage)
{
    if (cache->exact_recency)
        return 0;
    bool has_room =
        usage->octets * 4 < cache->most_octets * 3 && usage->keys * 4 < cache->most_keys * 3;
    return has_room ? UINT64_MAX : usage->keys / 4;
}

/* A trim may remove failures with TTL 0 that it does not count. So there may be fewer keys than are
   noted here, until the next call. The exact number of keys matters only if it may be the
   maximum. A trim that fails does not report what it has removed. */
void settle(const struct rrcache *cache, struct part *part, uint64_t moment)
{
    const struct rrcache_trim_to trim = {
        .moment = moment,
        .limit = cache->most_octets,
        .most = UINT64_MAX,
    };
    struct rrcache_trimmed trimmed = {0};
    struct rrcache_usage usage = {0};
    rrcache_sizes(&part->shelf, &usage);
    if (usage.octets > cache->most_octets) {
        uint64_t before = usage.keys;
        bool is_done = rrcache_trim(&part->shelf, &trim, &trimmed) == RRCACHE_DONE;
        usage.keys -= trimmed.removed;
        if (!is_done || usage.keys >= cache->most_keys)
            rrcache_sizes(&part->shelf, &usage);
        else
            usage.octets = trimmed.octets;
        part->evicted += is_done ? trimmed.removed : before - usage.keys;
    }
    part->keys = usage.keys;
    renew_owners(part);
    part->oldest_left = oldest_left(cache, &usage);
}

/* ---- Statistics. */

static void count_part(const struct rrcache *cache, struct part *part, struct rrcache_stats *stats)
{
    struct rrcache_usage usage = {0};
    uint64_t sum[KINDS] = {0};
    lock_part(cache, part);
    for (uint64_t i = 0; i < cache->readers; i++) {
        const uint64_t *told = place_at(cache, part, i)->told;
        for (int kind = 0; kind < KINDS; kind++)
            sum[kind] += told[kind] + told_by_memos(cache, part, i, kind);
    }
    stats->hits += sum[RRCACHE_FRESH];
    stats->stale += sum[RRCACHE_STALE];
    stats->negative += sum[RRCACHE_NODATA] + sum[RRCACHE_NXDOMAIN];
    stats->misses += sum[RRCACHE_MISS];
    stats->failed += sum[RRCACHE_FAILED];
    rrcache_sizes(&part->shelf, &usage);
    stats->kept += part->kept;
    stats->outranked += part->outranked;
    stats->evicted += part->evicted;
    stats->expired += part->expired;
    unlock_part(cache, part);
    stats->keys += usage.keys;
    stats->octets += usage.octets;
}

enum rrcache_status rrcache_stats(struct rrcache *cache, struct rrcache_stats *stats)
{
    struct rrcache_stats sum = {0};
    if (cache == NULL || stats == NULL)
        return RRCACHE_NULL;
    for (uint64_t i = 0; i < cache->parts.count; i++)
        count_part(cache, &cache->part[i], &sum);
    *stats = sum;
    return RRCACHE_DONE;
}

enum rrcache_status rrcache_stats_of(struct rrcache *cache, uint64_t shelf,
                                     struct rrcache_stats *stats)
{
    struct rrcache_stats sum = {0};
    if (cache == NULL || stats == NULL)
        return RRCACHE_NULL;
    if (shelf >= cache->parts.count)
        return RRCACHE_BAD_RULES;
    count_part(cache, &cache->part[shelf], &sum);
    *stats = sum;
    return RRCACHE_DONE;
}

enum rrcache_status rrcache_stats_text(const struct rrcache_stats *stats, char *text, size_t size)
{
    char whole[RRCACHE_STATS_OCTETS];
    if (stats == NULL || (text == NULL && size != 0))
        return RRCACHE_NULL;
    int wanted = snprintf(
        whole, sizeof whole,
        "hits %" PRIu64 " stale %" PRIu64 " negative %" PRIu64 " misses %" PRIu64 " failed %" PRIu64
        " kept %" PRIu64 " outranked %" PRIu64 " evicted %" PRIu64 " expired %" PRIu64
        " keys %" PRIu64 " octets %" PRIu64,
        stats->hits, stats->stale, stats->negative, stats->misses, stats->failed, stats->kept,
        stats->outranked, stats->evicted, stats->expired, stats->keys, stats->octets);
    if (text == NULL || (size_t)wanted >= size)
        return RRCACHE_SMALL;
    memcpy(text, whole, (size_t)wanted + 1);
    return RRCACHE_DONE;
}
