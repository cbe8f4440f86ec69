/* SPDX-License-Identifier: MIT */
/* rrcache for work.c: 64 shelves, each with a lock, that record no history. A lock is a mutex that
   spins for a while before it sleeps. With SPINS defined it is a spin lock, as in unbound. With
   PEEKS defined it is a readers-writer lock, under which an ask is a peek. */
#define _GNU_SOURCE
#include <pthread.h>

#include "sets.h"

#if defined PEEKS
typedef pthread_rwlock_t lock;
#define TAKE        pthread_rwlock_wrlock
#define GIVE        pthread_rwlock_unlock
#define TAKE_TO_ASK pthread_rwlock_rdlock
#define ASK         rrcache_peek
#elif defined SPINS
typedef pthread_spinlock_t lock;
#define TAKE pthread_spin_lock
#define GIVE pthread_spin_unlock
#else
typedef pthread_mutex_t lock;
#define TAKE pthread_mutex_lock
#define GIVE pthread_mutex_unlock
#endif
#ifndef PEEKS
#define TAKE_TO_ASK TAKE
#define ASK         rrcache_ask
#endif

struct shelf {
    lock lock;
    struct rrcache_shelf cache;
    char apart[64]; /* so that two locks are on two cache lines of the processor */
};

static struct shelf shelves[SHARDS];

static bool make_lock(lock *made)
{
#if defined PEEKS
    return pthread_rwlock_init(made, NULL) == 0;
#elif defined SPINS
    return pthread_spin_init(made, PTHREAD_PROCESS_PRIVATE) == 0;
#else
    pthread_mutexattr_t spins;
    return pthread_mutexattr_init(&spins) == 0
           && pthread_mutexattr_settype(&spins, PTHREAD_MUTEX_ADAPTIVE_NP) == 0
           && pthread_mutex_init(made, &spins) == 0;
#endif
}

void make_cache(size_t sets)
{
    const struct rrcache_rules rules = {sets / SHARDS, 4096, 0, SEED};
    for (struct shelf *shelf = shelves; shelf < shelves + SHARDS; shelf++)
        if (!make_lock(&shelf->lock) || rrcache_make(&shelf->cache, &rules) != RRCACHE_DONE)
            fail("no shelf");
}

void put(void *thread, const struct name *name, unsigned turn)
{
    const uint8_t data[] = {0, 4, 192, 0, 2, (uint8_t)turn};
    const struct rrcache_set set = address_of(name, data, sizeof data);
    uint32_t outcome;
    struct rrcache_name made;
    (void)thread;
    make_name(&made, name);
    struct shelf *shelf = &shelves[made.part];
    TAKE(&shelf->lock);
    if (rrcache_offer_set(&shelf->cache, &set, &outcome) != RRCACHE_DONE)
        fail("a put was refused");
    GIVE(&shelf->lock);
}

bool ask(void *thread, const struct name *name)
{
    const struct rrcache_question question = plain_question(A);
    struct rrcache_told told;
    uint8_t buffer[512];
    struct rrcache_name made;
    (void)thread;
    make_name(&made, name);
    struct shelf *shelf = &shelves[made.part];
    TAKE_TO_ASK(&shelf->lock);
    if (ASK(&shelf->cache, &made, &question, &told, buffer, sizeof buffer) != RRCACHE_DONE)
        fail("an ask was refused");
    GIVE(&shelf->lock);
    return told.kind == RRCACHE_FRESH;
}
