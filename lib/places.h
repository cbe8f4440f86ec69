/* SPDX-License-Identifier: MIT */
/* places.h: how a reader takes a part, as each look-up does.

   A reader takes a place of the part, and then checks whether a writer has begun. A writer begins,
   and then checks whether a place is taken. Each of them first writes and then reads, in the single
   order of all operations that are memory_order_seq_cst. So at least one of the two sees the other.
   If a reader sees a writer, the reader leaves its place, so a writer waits only for readers that
   were there before it. A reader writes only to its own place, and a writer only reads places. So
   readers do not wait for each other's cache lines of the processor. A reader that has waited for a
   place begins as a writer does, so it waits only for readers that were there before it. */
#ifndef PLACES_H
#define PLACES_H

#include "cache.h"
#include "watched.h"

/* The number of this thread, counted from 1, or 0 if it has none yet. Each look-up reads the
   number. With this TLS model, the read needs no call into the loader. */
extern _Thread_local uint32_t thread_number __attribute__((tls_model("initial-exec")));

/* Gives this thread a number, and returns the number. */
uint32_t number_thread(void);

/* Returns which place of each part is this thread's, counted from 0. It is the remainder of the
   thread's number after division by the number of readers. A multiplication computes it, because a
   division takes as long as everything else here. */
static inline uint64_t reader_here(const struct rrcache *cache)
{
    uint64_t number = thread_number != 0 ? thread_number : number_thread();
    return number - cache->readers * (number * cache->share_of_reader >> 32);
}

/* The place of a reader in a part. The places of one reader are next to each other in memory.
   Between the places of two readers, one cache line of the processor is left free. */
static inline struct place *place_at(const struct rrcache *cache, const struct part *part,
                                     uint64_t reader)
{
    return cache->places + reader * (cache->parts.count + 1) + (uint64_t)(part - cache->part);
}

/* The place of this thread in a part. */
static inline struct place *place_of(const struct rrcache *cache, const struct part *part)
{
    return place_at(cache, part, reader_here(cache));
}

/* Takes a place, unless it is taken or a writer has begun. */
static inline bool try_place(struct part *part, struct place *place)
{
    if (atomic_exchange_explicit(&place->is_taken, 1, memory_order_seq_cst) != 0)
        return false;
    if (atomic_load_explicit(&part->turn, memory_order_seq_cst) % 2 == 0) {
        WATCH_TAKEN(place, true);
        WATCH_TAKEN(part, false);
        return true;
    }
    atomic_store_explicit(&place->is_taken, 0, memory_order_release);
    return false;
}

/* Takes a place of a part once one is free and no writer has begun. */
struct place *wait_for_place(const struct rrcache *cache, struct part *part);

/* Takes the place of this thread in a part, or another one if this place is taken. */
static inline struct place *take_place(const struct rrcache *cache, struct part *part)
{
    struct place *place = place_of(cache, part);
    return try_place(part, place) ? place : wait_for_place(cache, part);
}

/* Returns the turn of a part in which this thread holds a place, without the increment of a writer
   that has begun since the place was taken. Such a writer waits. */
static inline uint64_t turn_here(const struct part *part)
{
    uint64_t turn = atomic_load_explicit(&part->turn, memory_order_relaxed);
    return turn - turn % 2;
}

static inline void leave_place(struct part *part, struct place *place)
{
    (void)part;
    WATCH_LEFT(part);
    WATCH_LEFT(place);
    atomic_store_explicit(&place->is_taken, 0, memory_order_release);
}

#endif
