/* SPDX-License-Identifier: MIT */
/* Threads look at one shelf at once under a lock for readers, while one thread offers, clears and
   asks under the lock for writers. Every reply is compared with what was offered last. With
   SHARED_HANDLE the looks are handed the handle itself and not a copy, which is a race: what
   watches threads has to catch it. The program takes the number of rounds, and its status is 1
   where a reply was wrong. */
#define _GNU_SOURCE
#include <pthread.h>
#include <stdatomic.h>
#include <stdio.h>
#include <stdlib.h>
#include <string.h>

#include "drawn.h"
#include "structs.h"

enum { NAMES = 400, READERS = 4, DATUM = 6, BUFFER = 300 };

/* A name, as it is written and as it was made for asks, and the version of its address that was
   offered last: 0 where nothing is held. */
struct entry {
    uint8_t octets[24];
    size_t size;
    struct rrcache_name name;
    uint32_t version;
};

static struct rrcache_shelf shelf;
static struct entry entries[NAMES];
static pthread_rwlock_t lock = PTHREAD_RWLOCK_WRITER_NONRECURSIVE_INITIALIZER_NP;
static atomic_int looking, most_looking, faults;
static atomic_long looks, hits;
static int rounds = 20000;

static const struct rrcache_rules RULES = {1024, 1024, 0, {1, 2, 3, 4, 5}};
static const struct rrcache_parts PARTS = {1, {1, 2, 3, 4, 5}};
static const struct rrcache_question QUESTION = {.moment = FIRST,
                                                 .rtype = A,
                                                 .rclass = RRCACHE_IN,
                                                 .purpose = RRCACHE_ANYTHING,
                                                 .mode = RRCACHE_NO_STALE};

static struct entry *any_entry(uint64_t *state)
{
    return &entries[drawn_from(state) % NAMES];
}

static void expect(bool holds, const char *what)
{
    if (holds)
        return;
    faults++;
    fprintf(stderr, "FAIL %s\n", what);
}

static enum rrcache_status look(const struct rrcache_name *name, struct rrcache_told *told,
                                uint8_t *buffer)
{
#ifdef SHARED_HANDLE
    return (enum rrcache_status)rrc_peek(&shelf, name, &QUESTION, told, buffer, BUFFER);
#else
    return rrcache_peek(&shelf, name, &QUESTION, told, buffer, BUFFER);
#endif
}

/* Whether a reply is the address of a name of this version. */
static bool is_held(const struct entry *entry, const struct rrcache_told *told,
                    const uint8_t *buffer)
{
    const uint8_t *datum = buffer + told->owner_size + 2;
    uint32_t version =
        (uint32_t)datum[0] << 24 | (uint32_t)datum[1] << 16 | (uint32_t)datum[2] << 8 | datum[3];
    return told->kind == RRCACHE_FRESH && told->owner_size == entry->size
           && memcmp(buffer, entry->octets, entry->size) == 0 && told->data_size == DATUM
           && version == entry->version;
}

static void look_once(const struct entry *entry)
{
    uint8_t buffer[BUFFER];
    struct rrcache_told told = {0};
    expect(look(&entry->name, &told, buffer) == RRCACHE_DONE, "a peek is done");
    if (entry->version == 0)
        expect(told.kind == RRCACHE_MISS, "a peek tells a miss");
    else
        expect(is_held(entry, &told, buffer), "a peek tells what was offered");
    hits += entry->version != 0;
}

static void look_at_all(const struct entry *entry)
{
    uint8_t buffer[BUFFER];
    struct rrcache_told told;
    struct rrcache_stored stored;
    struct rrcache_usage sizes;
    uint64_t moment;
    expect(rrcache_tell_stored(&shelf, &entry->name, &QUESTION, &stored) == RRCACHE_DONE
               && (stored.set.trust != 0) == (entry->version != 0),
           "what is stored is told");
    expect(rrcache_peek_alias(&shelf, &entry->name, &QUESTION, &told, buffer, sizeof buffer)
                   == RRCACHE_DONE
               && told.rtype == QUESTION.rtype && told.entry.number == stored.set.number,
           "there is no alias");
    expect(rrcache_sizes(&shelf, &sizes) == RRCACHE_DONE && sizes.keys <= NAMES,
           "the sizes are told");
    expect(rrcache_next_expiry(&shelf, &moment) == RRCACHE_DONE && moment >= FIRST,
           "the next expiry is told");
}

static void *read_on(void *seed)
{
    uint64_t state = 88172645463325252u + 7919u * (uint64_t)(uintptr_t)seed;
    for (int round = 0; round < rounds; round++) {
        const struct entry *entry = any_entry(&state);
        pthread_rwlock_rdlock(&lock);
        int now = ++looking, most = most_looking;
        while (now > most && !atomic_compare_exchange_weak(&most_looking, &most, now))
            continue;
        look_once(entry);
        if (round % 16 == 0)
            look_at_all(entry);
        looks++;
        looking--;
        pthread_rwlock_unlock(&lock);
    }
    return NULL;
}

static void offer(struct entry *entry, uint32_t version)
{
    uint8_t data[DATUM] = {0,
                           4,
                           (uint8_t)(version >> 24),
                           (uint8_t)(version >> 16),
                           (uint8_t)(version >> 8),
                           (uint8_t)version};
    const struct rrcache_set set =
        plain_set(entry->octets, entry->size, A, version == 0 ? 0 : 3600, OF(data));
    uint32_t outcome;
    expect(rrcache_offer_set(&shelf, &set, &outcome) == RRCACHE_DONE, "an offer is taken");
    entry->version = version;
}

static void ask(const struct entry *entry)
{
    uint8_t buffer[BUFFER];
    struct rrcache_told told = {0};
    expect(rrcache_ask(&shelf, &entry->name, &QUESTION, &told, buffer, sizeof buffer)
                   == RRCACHE_DONE
               && (told.kind == RRCACHE_FRESH) == (entry->version != 0),
           "an ask tells what was offered");
}

static void *write_on(void *none)
{
    uint64_t state = 0x9e3779b97f4a7c15u;
    for (int round = 0; round < rounds / 2; round++) {
        struct entry *entry = any_entry(&state);
        pthread_rwlock_wrlock(&lock);
        expect(looking == 0, "nobody looks while one writes");
        if (round % 3 == 0)
            ask(entry);
        else
            offer(entry, round % 29 == 1 ? 0 : entry->version + 1);
        pthread_rwlock_unlock(&lock);
    }
    return none;
}

static void name_all(void)
{
    for (int at = 0; at < NAMES; at++) {
        struct entry *entry = &entries[at];
        int size = snprintf((char *)entry->octets + 1, 16, "host%d", at);
        entry->octets[0] = (uint8_t)size;
        memcpy(entry->octets + 1 + size, "\7example", 9);
        entry->size = (size_t)size + 10;
        expect(rrcache_make_name(&entry->name, entry->octets, entry->size, &PARTS) == RRCACHE_DONE,
               "a name is made");
        if (at % 7 != 0)
            offer(entry, 1);
    }
}

int main(int count, char **words)
{
    pthread_t threads[READERS + 1];
    if (count > 1)
        rounds = atoi(words[1]);
    expect(rrcache_make(&shelf, &RULES) == RRCACHE_DONE, "a shelf is made");
    name_all();
    for (uintptr_t at = 0; at < READERS; at++)
        pthread_create(&threads[at], NULL, read_on, (void *)at);
    pthread_create(&threads[READERS], NULL, write_on, NULL);
    for (int at = 0; at <= READERS; at++)
        pthread_join(threads[at], NULL);
    printf("looks %ld, hits %ld, most at once %d, faults %d\n", (long)looks, (long)hits,
           (int)most_looking, (int)faults);
    expect(rrcache_free(&shelf) == RRCACHE_DONE, "the shelf is freed");
    return faults != 0;
}
