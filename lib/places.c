/* SPDX-License-Identifier: MIT */
/* places.c: the locks of parts: writers, and readers that have to wait. */
#include "places.h"

#include <sched.h>
#include <time.h>

/* How often a thread checks again before it yields its processor, and before it sleeps. */
enum { PAUSES = 64, YIELDS = 128 };
/* How often a thread that gives way checks, which takes about two milliseconds. */
enum { MOST_RESTS = YIELDS + 20 };
/* After this number, the numbers of threads begin again. `reader_here` is exact up to the number
   2^26: the amount by which the share is rounded up is less than 64, and the product of this amount
   and the number has to stay below 2^32. */
enum { MOST_THREADS = 1 << 20 };

_Thread_local uint32_t thread_number __attribute__((tls_model("initial-exec")));

uint32_t number_thread(void)
{
    static atomic_uint threads;
    uint32_t before = atomic_fetch_add_explicit(&threads, 1, memory_order_relaxed);
    return thread_number = 1 + before % MOST_THREADS;
}

/* ---- Waiting. */

static void pause_processor(void)
{
#if defined __x86_64__ || defined __i386__
    __builtin_ia32_pause();
#elif defined __aarch64__
    __asm__ __volatile__("yield");
#endif
}

/* Sleeps for a while. A thread may hold the lock of writers here, so it is not canceled before it
   has released this lock. */
static void sleep_uncanceled(void)
{
    const struct timespec moment = {.tv_nsec = 50000};
    int state;
    pthread_setcancelstate(PTHREAD_CANCEL_DISABLE, &state);
    nanosleep(&moment, NULL);
    pthread_setcancelstate(state, &state);
}

/* Lets some time pass for a thread that has checked `looked` times whether it can continue. It
   waits for something that takes little time, unless the thread that does this has lost its
   processor. */
static void rest(unsigned looked)
{
    if (looked < PAUSES)
        pause_processor();
    else if (looked < YIELDS)
        sched_yield();
    else
        sleep_uncanceled();
}

/* Takes the lock of writers. The threads that wait for it are counted. */
static void lock_writer(struct part *part)
{
    if (pthread_mutex_trylock(&part->writer) == 0)
        return;
    atomic_fetch_add_explicit(&part->waiting, 1, memory_order_relaxed);
    pthread_mutex_lock(&part->writer);
    atomic_fetch_sub_explicit(&part->waiting, 1, memory_order_relaxed);
}

/* A mutex is not fair: a thread that releases it and immediately takes it again gets it before
   another thread wakes up. So this thread waits until the others have had their turn. New threads
   may keep coming, so it does not wait for long. */
void give_way(const struct part *part)
{
    for (unsigned looked = 0;
         looked < MOST_RESTS && atomic_load_explicit(&part->waiting, memory_order_relaxed) != 0;
         looked++)
        rest(looked);
}

/* ---- Readers. */

/* Takes any free place of a part, beginning with this thread's, or returns null. */
static struct place *try_places(const struct rrcache *cache, struct part *part)
{
    uint64_t own = reader_here(cache);
    for (uint64_t i = 0; i < cache->readers; i++) {
        struct place *place = place_at(cache, part, (own + i) % cache->readers);
        bool is_free = atomic_load_explicit(&place->is_taken, memory_order_relaxed) == 0;
        if (is_free && try_place(part, place))
            return place;
    }
    return NULL;
}

/* Takes a place, unless it is taken. */
static bool take_free(struct place *place)
{
    return atomic_load_explicit(&place->is_taken, memory_order_relaxed) == 0
           && atomic_exchange_explicit(&place->is_taken, 1, memory_order_seq_cst) == 0;
}

/* Waits for any place of a part as a writer does, with the lock of writers, so that no other reader
   takes a place in the meantime. Otherwise a reader that leaves its place and takes it again at
   once could have the place each time this thread looks, and all writers would wait too. Nothing is
   changed, so the turn is the same afterwards, and memos are still right. */
static struct place *wait_alone(const struct rrcache *cache, struct part *part)
{
    uint64_t turn = atomic_load_explicit(&part->turn, memory_order_relaxed);
    uint64_t reader = reader_here(cache), looked = 0;
    atomic_store_explicit(&part->turn, turn + 1, memory_order_seq_cst);
    while (!take_free(place_at(cache, part, reader))) {
        reader = (reader + 1) % cache->readers;
        if (++looked % cache->readers == 0)
            rest((unsigned)(looked / cache->readers));
    }
    atomic_store_explicit(&part->turn, turn, memory_order_release);
    struct place *place = place_at(cache, part, reader);
    WATCH_TAKEN(place, true);
    WATCH_TAKEN(part, false);
    return place;
}

/* Takes any place of a part once one is free, but does not look for long. */
static struct place *look_for_place(const struct rrcache *cache, struct part *part)
{
    struct place *place = NULL;
    for (unsigned looked = 0; looked < PAUSES && place == NULL; looked++) {
        if (atomic_load_explicit(&part->turn, memory_order_relaxed) % 2 == 0)
            place = try_places(cache, part);
        if (place == NULL)
            rest(looked);
    }
    return place;
}

/* A reader first waits on its processor. Then it waits as a writer does, so neither writers nor
   other readers can keep it out for long. While it holds their lock, the part is not changed. */
struct place *wait_for_place(const struct rrcache *cache, struct part *part)
{
    struct place *place = look_for_place(cache, part);
    if (place != NULL)
        return place;
    lock_writer(part);
    place = look_for_place(cache, part);
    if (place == NULL)
        place = wait_alone(cache, part);
    pthread_mutex_unlock(&part->writer);
    return place;
}

/* ---- Writers. */

/* A writer that waits for another writer spins for a while before it sleeps, because a write takes
   little time. */
bool make_locks(const struct rrcache *cache, struct part *part)
{
    pthread_mutexattr_t spins;
    if (pthread_mutexattr_init(&spins) != 0)
        return false;
    bool is_made = pthread_mutexattr_settype(&spins, PTHREAD_MUTEX_ADAPTIVE_NP) == 0
                   && pthread_mutex_init(&part->writer, &spins) == 0;
    pthread_mutexattr_destroy(&spins);
    WATCH_NO(&part->turn, sizeof part->turn);
    WATCH_NO(&part->waiting, sizeof part->waiting);
    for (uint64_t i = 0; i < cache->readers; i++)
        WATCH_NO(&place_at(cache, part, i)->is_taken, sizeof(atomic_uint));
    return is_made;
}

void free_locks(struct part *part)
{
    pthread_mutex_destroy(&part->writer);
}

void lock_part(const struct rrcache *cache, struct part *part)
{
    lock_writer(part);
    uint64_t turn = atomic_load_explicit(&part->turn, memory_order_relaxed);
    atomic_store_explicit(&part->turn, turn + 1, memory_order_seq_cst);
    for (uint64_t i = 0; i < cache->readers; i++) {
        struct place *place = place_at(cache, part, i);
        for (unsigned looked = 0; atomic_load_explicit(&place->is_taken, memory_order_seq_cst) != 0;
             looked++)
            rest(looked);
        WATCH_TAKEN(place, true);
    }
    WATCH_TAKEN(part, true);
}

void unlock_part(const struct rrcache *cache, struct part *part)
{
    uint64_t turn = atomic_load_explicit(&part->turn, memory_order_relaxed);
    WATCH_LEFT(part);
    for (uint64_t i = 0; i < cache->readers; i++)
        WATCH_LEFT(place_at(cache, part, i));
    atomic_store_explicit(&part->turn, turn + 1, memory_order_release);
    pthread_mutex_unlock(&part->writer);
}
