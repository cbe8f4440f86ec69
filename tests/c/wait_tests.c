/* SPDX-License-Identifier: MIT */
/* Tests that a look-up which waits for a place of a shelf gets the next one that is free, even if
   other threads take places all the time. The tests see the inside of lib/, and are linked with
   --wrap for nanosleep, with which a call waits. The last line is 'N passed, M failed'. */
#include "places.h"

#include "caches.h"
#include "sleeps.h"

enum { MOST_MILLISECONDS = 5000 };

static struct rrcache *cache;
static struct part *part;
static atomic_bool is_in, is_over;

/* Takes a place, as a look-up does, and keeps it for a while. */
static void *look_up(void *none)
{
    struct place *place = take_place(cache, part);
    atomic_store(&is_in, true);
    while (!atomic_load(&is_over))
        wait_a_little();
    leave_place(part, place);
    return none;
}

/* A thread waits while all places are taken. Once one is free it has that, and not a reader that
   looks in between. The part is not changed, so its turn is the same. */
static void check(uint64_t readers)
{
    const struct rrcache_config config = {.shelves = 1, .readers = readers, .seed = {1}};
    pthread_t thread;
    unsigned taken = 0;
    cache = open_by(&config);
    part = cache->part;
    for (uint64_t i = 0; i < readers; i++)
        EXPECT(try_place(part, place_at(cache, part, i)));
    uint64_t turn = turn_here(part);
    atomic_store(&sleeps, 0);
    atomic_store(&is_in, false);
    atomic_store(&is_over, false);
    EXPECT(pthread_create(&thread, NULL, look_up, NULL) == 0);
    for (int i = 0; i < MOST_MILLISECONDS && atomic_load(&sleeps) == 0; i++)
        wait_a_little();
    EXPECT(atomic_load(&sleeps) > 0 && turn_here(part) == turn);
    struct place *place = place_at(cache, part, readers - 1);
    leave_place(part, place);
    for (int i = 0; i < MOST_MILLISECONDS && !atomic_load(&is_in); i++) {
        taken += try_place(part, place);
        wait_a_little();
    }
    EXPECT(taken == 0 && atomic_load(&is_in) && part->turn == turn);
    atomic_store(&is_over, true);
    for (uint64_t i = 0; i + 1 < readers || (taken != 0 && i < readers); i++)
        leave_place(part, place_at(cache, part, i));
    pthread_join(thread, NULL);
    EXPECT(part->turn == turn && place->is_taken == 0);
    rrcache_close(cache);
}

int main(void)
{
    check(1);
    check(3);
    return told_status();
}
