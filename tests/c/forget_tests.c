/* SPDX-License-Identifier: MIT */
/* Tests of `rrcache_forget` with type ANY: between its steps other threads look up and store. What
   an NXDOMAIN hides is then never in an answer (RFC 2308 section 5, RFC 2181 section 5.4.1).

   The program is linked with --wrap for pthread_mutex_unlock. A shelf changes only while its writer
   holds that lock, so a call behind each release finds all that a thread can find in between.
   The last line is 'N passed, M failed'. */
#include "rrcache.h"

#include <pthread.h>
#include <stdio.h>
#include <string.h>

#include "caches.h"

enum { LAST_TYPE = 65535, NOW = 1100, MAX_STALE = 3600 };
static const uint8_t NAME[] = "\3www\7example";
static const uint8_t ALIAS[] = "\5alias\7example", OTHER[] = "\5other\7example";
static const uint8_t DATUM[] = {0, 4, 192, 0, 2, 1}, ROOT[] = {0, 1, 0};

/* ---- Calls between the steps. */

/* The types that are looked up: A is fresh, TXT is stale, AAAA has NODATA, and the last type is
   fresh. */
static const uint16_t TYPES[] = {A, TXT, AAAA, LAST_TYPE};
enum { TYPES_COUNT = sizeof TYPES / sizeof *TYPES };

/* The cache in which calls follow each release of a lock, or null, what they are, and how often a
   look-up among them returned each kind. */
static struct rrcache *watched;
static void (*between)(struct rrcache *cache);
static unsigned told[RRCACHE_FAILED + 1];

static struct rrcache_answer look(struct rrcache *cache, const uint8_t *name, size_t size,
                                  uint16_t rtype)
{
    static uint8_t space[RRCACHE_ANSWER_OCTETS];
    struct rrcache_answer answer = {.buffer = space, .room = sizeof space};
    struct rrcache_request request = plain_request(name, size, rtype);
    request.moment = NOW;
    request.mode = RRCACHE_STALE_NOW;
    EXPECT(rrcache_lookup(cache, &request, &answer) == RRCACHE_DONE);
    return answer;
}

static uint32_t kind_of(struct rrcache *cache, uint16_t rtype)
{
    return look(cache, NAME, sizeof NAME, rtype).kind;
}

static void expect_of_types(struct rrcache *cache, uint32_t kind)
{
    for (int i = 0; i < TYPES_COUNT; i++)
        EXPECT(kind_of(cache, TYPES[i]) == kind);
}

static void look_up_types(struct rrcache *cache)
{
    for (int i = 0; i < TYPES_COUNT; i++)
        told[kind_of(cache, TYPES[i])]++;
}

/* Makes the calls, without any after those that they make themselves. */
static void call_between(void)
{
    struct rrcache *cache = watched;
    watched = NULL;
    between(cache);
    watched = cache;
}

int __real_pthread_mutex_unlock(pthread_mutex_t *lock);
int __wrap_pthread_mutex_unlock(pthread_mutex_t *lock);

int __wrap_pthread_mutex_unlock(pthread_mutex_t *lock)
{
    int status = __real_pthread_mutex_unlock(lock);
    if (watched != NULL)
        call_between();
    return status;
}

/* ---- What is stored of the name. */

static void keep_of_rank(struct rrcache *cache, uint16_t rtype, uint32_t ttl, uint64_t moment,
                         enum rrcache_trust trust)
{
    struct rrcache_set set = plain_set(OF(NAME), rtype, ttl, OF(DATUM));
    set.trust = trust;
    set.moment = moment;
    EXPECT(store_set(cache, set) == RRCACHE_KEPT);
}

static void keep(struct rrcache *cache, uint16_t rtype, uint32_t ttl, uint64_t moment)
{
    keep_of_rank(cache, rtype, ttl, moment, RRCACHE_AUTHORITATIVE_ANSWER);
}

static void keep_alias(struct rrcache *cache)
{
    EXPECT(store_set(cache, plain_set(OF(ALIAS), CNAME, 3600, OF(ROOT))) == RRCACHE_KEPT);
}

/* Stores an address under another name, behind the first release of a lock alone. */
static void keep_other(struct rrcache *cache)
{
    EXPECT(store_set(cache, plain_set(OF(OTHER), A, 3600, OF(DATUM))) == RRCACHE_KEPT);
    between = look_up_types;
}

static void deny_of_rank(struct rrcache *cache, uint16_t rtype, enum rrcache_kind kind,
                         uint32_t ttl, uint64_t moment, enum rrcache_trust trust)
{
    struct rrcache_negative negative = plain_negative(OF(NAME), rtype, kind, ttl);
    negative.trust = trust;
    negative.moment = moment;
    EXPECT(store_negative(cache, negative) == RRCACHE_KEPT);
}

static void deny(struct rrcache *cache, uint16_t rtype, enum rrcache_kind kind, uint32_t ttl,
                 uint64_t moment)
{
    deny_of_rank(cache, rtype, kind, ttl, moment, RRCACHE_AUTHORITATIVE_ANSWER);
}

static void keep_types(struct rrcache *cache)
{
    keep(cache, A, 3600, FIRST);
    keep(cache, TXT, 60, FIRST);
    deny(cache, AAAA, RRCACHE_NODATA, 3600, FIRST);
    keep(cache, LAST_TYPE, 3600, FIRST);
}

static struct rrcache *open_cache(uint64_t most_keys)
{
    const struct rrcache_config config = {
        .shelves = 1, .readers = 2, .keys = most_keys, .max_stale = MAX_STALE, .seed = {1}};
    return open_by(&config);
}

/* Forgets the name while calls are made in between, and returns the statistics then. */
static struct rrcache_stats forget_among(struct rrcache *cache,
                                         void (*calls)(struct rrcache *cache))
{
    struct rrcache_request request = plain_request(OF(NAME), ANY);
    struct rrcache_stats stats = {0};
    request.moment = NOW;
    memset(told, 0, sizeof told);
    between = calls;
    watched = cache;
    EXPECT(rrcache_forget(cache, &request) == RRCACHE_DONE);
    watched = NULL;
    EXPECT(rrcache_stats(cache, &stats) == RRCACHE_DONE);
    expect_of_types(cache, RRCACHE_MISS);
    return stats;
}

/* Forgets the name, the only one, while look-ups are made in between. */
static void forget_watched(struct rrcache *cache)
{
    EXPECT(forget_among(cache, look_up_types).keys == 0);
}

/* ---- Tests. */

/* Without an NXDOMAIN the data are there until they are forgotten, one type after another. So the
   look-ups in between do find what is held. */
static void test_that_look_ups_come_between(void)
{
    struct rrcache *cache = open_cache(64);
    keep_types(cache);
    EXPECT(kind_of(cache, A) == RRCACHE_FRESH && kind_of(cache, TXT) == RRCACHE_STALE
           && kind_of(cache, AAAA) == RRCACHE_NODATA && kind_of(cache, LAST_TYPE) == RRCACHE_FRESH);
    forget_watched(cache);
    EXPECT(told[RRCACHE_FRESH] > 0 && told[RRCACHE_STALE] > 0 && told[RRCACHE_NODATA] > 0
           && told[RRCACHE_MISS] > 0 && told[RRCACHE_NXDOMAIN] == 0);
    rrcache_close(cache);
}

/* What an NXDOMAIN hides stays hidden while the name is forgotten: each look-up in between returns
   the NXDOMAIN or a miss. */
static void test_that_nothing_older_comes_back(void)
{
    struct rrcache *cache = open_cache(64);
    keep_types(cache);
    deny(cache, A, RRCACHE_NXDOMAIN, 3600, NOW);
    expect_of_types(cache, RRCACHE_NXDOMAIN);
    forget_watched(cache);
    EXPECT(told[RRCACHE_FRESH] == 0 && told[RRCACHE_STALE] == 0 && told[RRCACHE_NODATA] == 0);
    /* Each type is forgotten in a step of its own, and the NXDOMAIN after them. */
    EXPECT(told[RRCACHE_NXDOMAIN] >= TYPES_COUNT * TYPES_COUNT
           && told[RRCACHE_MISS] >= TYPES_COUNT);
    rrcache_close(cache);
}

/* An NXDOMAIN that has expired hides them too, as long as it is held: each look-up is a miss. */
static void test_that_an_expired_nxdomain_hides_until_it_goes(void)
{
    struct rrcache *cache = open_cache(64);
    keep_types(cache);
    deny(cache, A, RRCACHE_NXDOMAIN, 60, FIRST);
    expect_of_types(cache, RRCACHE_MISS);
    forget_watched(cache);
    EXPECT(told[RRCACHE_FRESH] == 0 && told[RRCACHE_STALE] == 0 && told[RRCACHE_NODATA] == 0
           && told[RRCACHE_NXDOMAIN] == 0 && told[RRCACHE_MISS] >= (TYPES_COUNT + 1) * TYPES_COUNT);
    rrcache_close(cache);
}

/* Data that are newer than the NXDOMAIN are not hidden, and are in answers until they are forgotten
   themselves. What is older is in none. */
static void test_that_newer_data_stay_until_they_go(void)
{
    struct rrcache *cache = open_cache(64);
    keep(cache, TXT, 60, FIRST);
    deny(cache, A, RRCACHE_NXDOMAIN, 3600, NOW);
    keep(cache, A, 3600, NOW);
    EXPECT(kind_of(cache, A) == RRCACHE_FRESH && kind_of(cache, TXT) == RRCACHE_NXDOMAIN);
    forget_watched(cache);
    EXPECT(told[RRCACHE_FRESH] > 0 && told[RRCACHE_NXDOMAIN] > 0 && told[RRCACHE_MISS] > 0
           && told[RRCACHE_STALE] == 0 && told[RRCACHE_NODATA] == 0);
    rrcache_close(cache);
}

/* An unexpired NXDOMAIN of higher rank hides newer data too: none of them is in an answer. */
static void test_that_nothing_of_lower_rank_comes_out(void)
{
    struct rrcache *cache = open_cache(64);
    deny(cache, A, RRCACHE_NXDOMAIN, 3600, FIRST);
    keep_of_rank(cache, A, 3600, FIRST, RRCACHE_NON_AUTHORITATIVE_ANSWER);
    keep_of_rank(cache, TXT, 60, FIRST, RRCACHE_NON_AUTHORITATIVE_ANSWER);
    expect_of_types(cache, RRCACHE_NXDOMAIN);
    forget_watched(cache);
    EXPECT(told[RRCACHE_FRESH] == 0 && told[RRCACHE_STALE] == 0
           && told[RRCACHE_NXDOMAIN] >= 2 * TYPES_COUNT && told[RRCACHE_MISS] >= TYPES_COUNT);
    rrcache_close(cache);
}

static void look_up_address(struct rrcache *cache)
{
    told[kind_of(cache, A)]++;
}

/* An NXDOMAIN of lower rank hides no older unexpired data, and no answer has it instead. */
static void test_that_data_of_higher_rank_stay_until_they_go(void)
{
    struct rrcache *cache = open_cache(64);
    keep(cache, A, 3600, FIRST);
    deny_of_rank(cache, A, RRCACHE_NXDOMAIN, 3600, NOW, RRCACHE_NON_AUTHORITATIVE_ANSWER);
    EXPECT(kind_of(cache, A) == RRCACHE_FRESH && kind_of(cache, TXT) == RRCACHE_NXDOMAIN);
    EXPECT(forget_among(cache, look_up_address).keys == 0);
    EXPECT(told[RRCACHE_FRESH] > 0 && told[RRCACHE_MISS] > 0 && told[RRCACHE_NXDOMAIN] == 0);
    rrcache_close(cache);
}

/* Stores a CNAME record of the name, which leads to the root. */
static void keep_cname(struct rrcache *cache, uint64_t moment)
{
    struct rrcache_set set = plain_set(OF(NAME), CNAME, 3600, OF(ROOT));
    set.moment = moment;
    EXPECT(store_set(cache, set) == RRCACHE_KEPT);
}

/* What a CNAME record has replaced stays hidden too (RFC 1034 section 3.6.2: there are no other
   data beside it): each look-up in between misses, at its target or at the name. */
static void test_that_nothing_that_an_alias_replaced_comes_back(void)
{
    struct rrcache *cache = open_cache(64);
    keep_types(cache);
    keep_cname(cache, NOW);
    EXPECT(look(cache, NAME, sizeof NAME, A).aliases == 1);
    expect_of_types(cache, RRCACHE_MISS);
    forget_watched(cache);
    EXPECT(told[RRCACHE_FRESH] == 0 && told[RRCACHE_STALE] == 0 && told[RRCACHE_NODATA] == 0
           && told[RRCACHE_MISS] >= (TYPES_COUNT + 1) * TYPES_COUNT);
    rrcache_close(cache);
}

static unsigned followed;

static void look_up_newer(struct rrcache *cache)
{
    struct rrcache_answer answer = look(cache, NAME, sizeof NAME, A);
    told[answer.kind]++;
    followed += (unsigned)answer.aliases;
}

/* A CNAME record that newer data have replaced goes before these, so no look-up follows it. */
static void test_that_an_alias_that_was_replaced_is_not_followed(void)
{
    struct rrcache *cache = open_cache(64);
    keep_cname(cache, FIRST);
    keep(cache, A, 3600, NOW);
    EXPECT(kind_of(cache, A) == RRCACHE_FRESH);
    followed = 0;
    EXPECT(forget_among(cache, look_up_newer).keys == 0);
    EXPECT(told[RRCACHE_FRESH] > 0 && told[RRCACHE_MISS] > 0 && followed == 0);
    rrcache_close(cache);
}

/* What is forgotten makes room at once. So a key that is stored between two steps, in a shelf that
   was full, evicts nothing. If it counted as an eviction, an alias that is held would be taken for
   evicted (`renew_owners`), and look-ups would not find it. */
static void test_that_there_is_room_between(void)
{
    struct rrcache *cache = open_cache(4);
    keep_alias(cache);
    keep(cache, A, 3600, FIRST);
    keep(cache, TXT, 3600, FIRST);
    deny(cache, A, RRCACHE_NXDOMAIN, 3600, NOW);
    struct rrcache_stats stats = forget_among(cache, keep_other);
    EXPECT(stats.keys == 2 && stats.evicted == 0);
    EXPECT(look(cache, ALIAS, sizeof ALIAS, A).aliases == 1);
    EXPECT(look(cache, OTHER, sizeof OTHER, A).kind == RRCACHE_FRESH);
    rrcache_close(cache);
}

int main(void)
{
    test_that_look_ups_come_between();
    test_that_nothing_older_comes_back();
    test_that_an_expired_nxdomain_hides_until_it_goes();
    test_that_newer_data_stay_until_they_go();
    test_that_nothing_of_lower_rank_comes_out();
    test_that_data_of_higher_rank_stay_until_they_go();
    test_that_nothing_that_an_alias_replaced_comes_back();
    test_that_an_alias_that_was_replaced_is_not_followed();
    test_that_there_is_room_between();
    return told_status();
}
