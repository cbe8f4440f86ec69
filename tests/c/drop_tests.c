/* SPDX-License-Identifier: MIT */
/* Tests that what shelves recorded is freed without their locks if it is not written, since that
   takes as long as there are events. The tests see the inside of lib/, and are linked with --wrap
   for the calls that free it. The last line is 'N passed, M failed'. */
#include "cache.h"

#include "caches.h"

enum { SHELVES = 4 };

static struct rrcache *cache;
static unsigned freed, dropped; /* the calls without a lock and with one */

uint32_t __real_rrc_free_chapters(struct rrcache_chapters *chapters);
uint32_t __wrap_rrc_free_chapters(struct rrcache_chapters *chapters);
uint32_t __real_rrc_stop_and_drop(struct rrcache_shelf *shelf);
uint32_t __wrap_rrc_stop_and_drop(struct rrcache_shelf *shelf);

uint32_t __wrap_rrc_free_chapters(struct rrcache_chapters *chapters)
{
    freed++;
    for (uint64_t i = 0; i < SHELVES; i++)
        EXPECT(cache->part[i].turn % 2 == 0);
    return __real_rrc_free_chapters(chapters);
}

uint32_t __wrap_rrc_stop_and_drop(struct rrcache_shelf *shelf)
{
    dropped++;
    return __real_rrc_stop_and_drop(shelf);
}

static int refuse(void *state, uint64_t shelf, const void *octets, size_t size)
{
    (void)state;
    (void)shelf;
    return octets != NULL && size != 0;
}

/* The sink refuses the first archive, so those of the other shelves are not written either. */
static void test_archives_that_are_not_written(void)
{
    const struct rrcache_config config = {.shelves = SHELVES, .readers = 1, .seed = {1}};
    cache = open_by(&config);
    EXPECT(rrcache_record_all(cache) == RRCACHE_DONE);
    EXPECT(rrcache_stop_recording_all(cache, refuse, NULL) == RRCACHE_SINK);
    EXPECT(freed == SHELVES && dropped == 0);
    for (uint64_t i = 0; i < SHELVES; i++)
        EXPECT(!cache->part[i].is_recorded);
    rrcache_close(cache);
}

int main(void)
{
    test_archives_that_are_not_written();
    return told_status();
}
