/* SPDX-License-Identifier: MIT */
/* Tests that threads come to their turn in a shelf during a call that locks it again and again: a
   sweep, the storing of a response whose offers are stored one by one, and `rrcache_forget` with
   type ANY. The program is linked with --wrap for rrc_sizes, which each step of such a call makes
   under the lock of the shelf. Each step goes on until another thread sleeps in its call, since it
   waits for that lock. A mutex is not fair, so a call that took it again at once would have it
   before the other thread wakes up. The tests see the inside of lib/. The last line is 'N passed, M
   failed'. */
#include "cache.h"

#include <stdio.h>
#include <time.h>

#include "caches.h"

/* Keys that expire in seconds of their own, and those that one step of a sweep removes. */
enum { SWEPT = 2048, STEP = 64 };
/* Types that a response has, and that are forgotten; and the number of offers that are stored one
   by one before others may go first. */
enum { TYPES = 320, OFFERS = 16 };
enum { LAST = FIRST + SWEPT, LONG = 2 * SWEPT, FIRST_TYPE = 256 };
static const uint8_t NAME[] = "\3www\7example", OTHER[] = "\5other\7example";
static const uint8_t DATUM[] = {0, 4, 192, 0, 2, 1};

static struct rrcache *cache;
static atomic_ulong calls; /* of the other thread */
static atomic_bool is_over;
static _Thread_local bool is_watched; /* whether this thread makes the call that has steps */
/* The steps; how many of them come before the call lets others go first; and how often such a
   number of steps began after the other thread had made a call. */
static unsigned steps, every, turns;

uint32_t __real_rrc_sizes(struct rrcache_shelf *shelf, struct rrcache_usage *sizes);
uint32_t __wrap_rrc_sizes(struct rrcache_shelf *shelf, struct rrcache_usage *sizes);

/* Waits until the other thread waits for the lock, but not for more than ten seconds, and then
   until it sleeps. */
static void wait_for_other(void)
{
    const struct timespec moment = {.tv_nsec = 2000000};
    for (int i = 0; i < 5000 && atomic_load(&cache->part->waiting) == 0; i++)
        nanosleep(&moment, NULL);
    nanosleep(&moment, NULL);
}

uint32_t __wrap_rrc_sizes(struct rrcache_shelf *shelf, struct rrcache_usage *sizes)
{
    static unsigned long before;
    if (is_watched) {
        wait_for_other();
        unsigned long now = atomic_load(&calls);
        turns += steps != 0 && steps % every == every - 1 && now != before;
        steps++;
        before = now;
    }
    return __real_rrc_sizes(shelf, sizes);
}

static void keep(const uint8_t *name, size_t size, uint16_t rtype, uint32_t ttl)
{
    NEED(store_set(cache, plain_set(name, size, rtype, ttl, OF(DATUM))) == RRCACHE_KEPT);
}

/* ---- The calls that have steps. */

static void sweep(void)
{
    struct rrcache_swept swept = {0};
    for (unsigned i = 0; i < SWEPT; i++)
        keep(OF(NAME), (uint16_t)(FIRST_TYPE + i), 1 + i);
    is_watched = true;
    EXPECT(rrcache_sweep_all(cache, LAST, UINT64_MAX, &swept) == RRCACHE_DONE
           && swept.removed == SWEPT && swept.is_done == 1);
    EXPECT(steps >= SWEPT / STEP);
}

/* Writes a response to a query of type ANY, with one RRset of each of some types. */
static size_t write_response(const struct rrcache_query *query, uint8_t *octets, size_t room)
{
    struct rrcache_parsed_set sets[TYPES];
    const struct rrcache_parsed_response response = {.sets = sets, .count = TYPES, .aa = true};
    size_t size = 0;
    for (unsigned i = 0; i < TYPES; i++)
        sets[i] = (struct rrcache_parsed_set){.owner = NAME,
                                              .owner_size = sizeof NAME,
                                              .rtype = (uint16_t)(FIRST_TYPE + i),
                                              .rclass = RRCACHE_IN,
                                              .ttl = LONG,
                                              .section = RRCACHE_ANSWER_SECTION,
                                              .data = DATUM,
                                              .data_size = sizeof DATUM};
    EXPECT(rrcache_compose_response(query, &response, octets, room, &size) == RRCACHE_DONE);
    return size;
}

/* The shelf may reach its maximum number of keys, or the response may have too many RRsets to be
   stored at once. So each RRset is stored by itself. */
static void store(void)
{
    static uint8_t octets[RRCACHE_MESSAGE_OCTETS];
    const struct rrcache_query query = {
        .name = NAME, .name_size = sizeof NAME, .rtype = ANY, .rclass = RRCACHE_IN};
    const struct rrcache_response response = {.octets = octets,
                                              .size = write_response(&query, octets, sizeof octets),
                                              .zone = NAME + 4,
                                              .zone_size = sizeof NAME - 4,
                                              .moment = FIRST};
    struct rrcache_report report;
    is_watched = true;
    EXPECT(rrcache_store(cache, &query, &response, &report, NULL) == RRCACHE_DONE
           && report.counts.kept == TYPES);
    EXPECT(steps == TYPES);
}

static void forget(void)
{
    const struct rrcache_request request = plain_request(OF(NAME), ANY);
    for (unsigned i = 0; i < TYPES; i++)
        keep(OF(NAME), (uint16_t)(FIRST_TYPE + i), LONG);
    is_watched = true;
    EXPECT(rrcache_forget(cache, &request) == RRCACHE_DONE);
    EXPECT(steps >= TYPES);
}

/* ---- The other thread. */

/* Looks up, or stores, until the call is over. */
static void *call(void *stores)
{
    const bool *is_store = stores;
    static uint8_t space[RRCACHE_ANSWER_OCTETS];
    const struct rrcache_request request = plain_request(OF(OTHER), A);
    while (!atomic_load(&is_over)) {
        struct rrcache_answer answer = {.buffer = space, .room = sizeof space};
        if (*is_store)
            keep(OF(OTHER), A, LONG);
        else
            NEED(rrcache_lookup(cache, &request, &answer) == RRCACHE_DONE
                 && answer.kind == RRCACHE_FRESH);
        atomic_fetch_add(&calls, 1);
    }
    return NULL;
}

static void check(void (*has_steps)(void), unsigned each, uint64_t most_keys, bool stores)
{
    const struct rrcache_config config = {
        .shelves = 1, .readers = 2, .keys = most_keys, .seed = {1}};
    pthread_t thread;
    cache = open_by(&config);
    keep(OF(OTHER), A, LONG);
    steps = turns = 0;
    every = each;
    atomic_store(&is_over, false);
    EXPECT(pthread_create(&thread, NULL, call, &stores) == 0);
    has_steps();
    is_watched = false;
    atomic_store(&is_over, true);
    pthread_join(thread, NULL);
    printf("%s %u times in %u steps\n", stores ? "stores" : "look-ups", turns, steps);
    EXPECT(turns >= steps / every * 3 / 4);
    rrcache_close(cache);
}

int main(void)
{
    for (int stores = 0; stores < 2; stores++) {
        check(sweep, 1, 0, stores);
        check(store, OFFERS, TYPES + 1, stores);
        check(store, OFFERS, 0, stores);
        check(forget, 1, 0, stores);
    }
    return told_status();
}
