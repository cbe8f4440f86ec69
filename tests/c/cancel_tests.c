/* SPDX-License-Identifier: MIT */
/* Tests that a thread that is canceled while it waits in a call ends the call first: it leaves no
   lock taken, for which others would wait forever. The tests see the inside of lib/, and are linked
   with --wrap for nanosleep, with which a call waits. The last line is 'N passed, M failed'. */
#include "places.h"

#include "caches.h"
#include "sleeps.h"

static const uint8_t NAME[] = "\3www\7example";

static struct rrcache *cache;

/* Waits until a call has slept some times more, but not for more than five seconds. */
static bool wait_for(unsigned times)
{
    unsigned before = atomic_load(&sleeps);
    for (int i = 0; i < 5000 && atomic_load(&sleeps) - before < times; i++)
        wait_a_little();
    return atomic_load(&sleeps) - before >= times;
}

static void *store(void *done)
{
    const struct rrcache_failure failure = plain_failure(OF(NAME), A, 30);
    uint32_t outcome;
    *(bool *)done = rrcache_store_failure(cache, &failure, &outcome) == RRCACHE_DONE;
    return NULL;
}

static void *look_up(void *done)
{
    uint8_t space[512];
    struct rrcache_answer answer = {.buffer = space, .room = sizeof space};
    const struct rrcache_request request = plain_request(OF(NAME), A);
    *(bool *)done = rrcache_lookup(cache, &request, &answer) == RRCACHE_DONE;
    return NULL;
}

/* Cancels a thread that has the lock of writers, and waits in its call for the only place of the
   shelf. */
static void check(void *(*call)(void *))
{
    const struct rrcache_config config = {.shelves = 1, .readers = 1, .seed = {1}};
    pthread_t thread;
    bool done = false;
    cache = open_by(&config);
    struct part *part = cache->part;
    struct place *place = take_place(cache, part);
    EXPECT(pthread_create(&thread, NULL, call, &done) == 0);
    EXPECT(wait_for(1) && pthread_cancel(thread) == 0 && wait_for(2));
    leave_place(part, place);
    pthread_join(thread, NULL);
    bool is_free = pthread_mutex_trylock(&part->writer) == 0;
    EXPECT(done && is_free && part->turn % 2 == 0 && place->is_taken == 0);
    if (is_free)
        pthread_mutex_unlock(&part->writer);
    rrcache_close(cache);
}

int main(void)
{
    check(store);
    check(look_up);
    return told_status();
}
