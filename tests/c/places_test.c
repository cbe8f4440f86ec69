/* SPDX-License-Identifier: MIT */
/* places_test PLACES READERS WRITERS ROUNDS: threads that take the one part of a cache, to read or
   to change two numbers, which are the same while nobody changes them. Each thread makes so many
   rounds, and goes on until all have, or until a fault: so it ends only if each of them comes to
   its turn. The status is 1 if a reader saw two numbers, or a writer that did not wait for it.

   Where LEAVES_NO_ORDER or STORES_PLAINLY is defined, the lock is wrong on purpose. With the first
   a reader leaves without an order, which what watches threads has to catch. With the second a
   reader tells that it is there by a store in place of an exchange. So it may look for a writer
   before others see that it is there, and the program itself has to catch that. */
#define _GNU_SOURCE
#include <pthread.h>
#include <stdatomic.h>
#include <stdio.h>
#include <stdlib.h>

#ifdef LEAVES_NO_ORDER
#define memory_order_release memory_order_relaxed
#endif
#include "places.h"
#ifdef LEAVES_NO_ORDER
#undef memory_order_release
#endif

enum { MOST_THREADS = 32 };

static struct rrcache *cache;
static struct part *part;
static volatile unsigned one, other; /* guarded by the part */
static unsigned long rounds;
static atomic_uint working, faults;

struct worker {
    pthread_t thread;
    bool writes;
    unsigned long made;
};

static void expect(bool holds)
{
    if (!holds)
        atomic_fetch_add(&faults, 1);
}

static struct place *take(void)
{
#ifdef STORES_PLAINLY
    struct place *place = place_of(cache, part);
    atomic_store_explicit(&place->is_taken, 1, memory_order_release);
    if (atomic_load_explicit(&part->turn, memory_order_acquire) % 2 == 0)
        return place;
    atomic_store_explicit(&place->is_taken, 0, memory_order_release);
    return wait_for_place(cache, part);
#else
    return take_place(cache, part);
#endif
}

static void read_numbers(void)
{
    struct place *place = take();
    uint64_t turn = turn_here(part);
    unsigned seen = one;
    expect(seen == other && turn == turn_here(part));
    leave_place(part, place);
}

static void change_numbers(void)
{
    lock_part(cache, part);
    one = one + 1;
    other = other + 1;
    unlock_part(cache, part);
}

static void *work(void *argument)
{
    struct worker *worker = argument;
    do {
        if (worker->writes)
            change_numbers();
        else
            read_numbers();
        if (++worker->made == rounds)
            atomic_fetch_sub(&working, 1);
    } while (atomic_load_explicit(&working, memory_order_relaxed) != 0
             && atomic_load_explicit(&faults, memory_order_relaxed) == 0);
    return NULL;
}

int main(int count, char **words)
{
    static struct worker workers[MOST_THREADS];
    if (count != 5)
        return 2;
    unsigned readers = (unsigned)atoi(words[2]), all = readers + (unsigned)atoi(words[3]);
    const struct rrcache_config config = {.shelves = 1, .readers = (uint64_t)atoi(words[1])};
    rounds = strtoul(words[4], NULL, 10);
    if (all > MOST_THREADS || rrcache_open(&cache, &config) != RRCACHE_DONE)
        return 2;
    part = cache->part;
    atomic_store(&working, all);
    for (unsigned i = 0; i < all; i++) {
        workers[i].writes = i >= readers;
        pthread_create(&workers[i].thread, NULL, work, &workers[i]);
    }
    unsigned long changes = 0;
    for (unsigned i = 0; i < all; i++) {
        pthread_join(workers[i].thread, NULL);
        changes += workers[i].writes ? workers[i].made : 0;
        printf("%s %lu\n", workers[i].writes ? "changes" : "looks", workers[i].made);
    }
    expect(one == (unsigned)changes && part->turn == 2 * changes);
    rrcache_close(cache);
    printf("faults %u\n", faults);
    return faults != 0;
}
