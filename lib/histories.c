/* SPDX-License-Identifier: MIT */
/* histories.c: recording and writing the histories of a cache's shelves, and writing their
   contents. */
#include "cache.h"

/* The sink for the lines of a shelf. */
struct line_sink {
    rrcache_shelf_sink sink;
    void *state;
    uint64_t shelf;
};

static int write_octets(void *state, const void *octets, size_t size)
{
    const struct line_sink *to = state;
    return to->sink(to->state, to->shelf, octets, size);
}

/* Stops recording a part, and takes its chapters out, or drops them if that fails. */
static enum rrcache_status take_record(struct rrcache *cache, struct part *part,
                                       struct rrcache_chapters *chapters, uint64_t *count)
{
    lock_part(cache, part);
    enum rrcache_status status = rrcache_stop_recording(&part->shelf, chapters, count);
    if (status != RRCACHE_DONE)
        rrcache_stop_and_drop(&part->shelf);
    part->is_recorded = false;
    unlock_part(cache, part);
    return status;
}

/* Stops recording a part, and frees what was recorded: without the lock if malloc allows, since
   that takes as long as there are events. */
static void drop_record(struct rrcache *cache, struct part *part)
{
    struct rrcache_chapters chapters = {0};
    uint64_t count = 0;
    if (take_record(cache, part, &chapters, &count) == RRCACHE_DONE)
        rrcache_free_chapters(&chapters);
}

static enum rrcache_status begin_record(struct rrcache *cache, struct part *part)
{
    lock_part(cache, part);
    enum rrcache_status status = rrcache_record(&part->shelf);
    part->is_recorded = status == RRCACHE_DONE;
    unlock_part(cache, part);
    return status;
}

/* Writes all chapters of a shelf. */
static enum rrcache_status write_chapters(struct rrcache_chapters *chapters, uint64_t count,
                                          struct line_sink *to)
{
    enum rrcache_status status = RRCACHE_DONE;
    for (uint64_t i = 0; i < count && status == RRCACHE_DONE; i++)
        status = rrcache_write_chapter(chapters, i, write_octets, to);
    return status;
}

/* Stops recording a part, and writes what was recorded. */
static enum rrcache_status write_record(struct rrcache *cache, struct line_sink *to)
{
    struct rrcache_chapters chapters = {0};
    uint64_t count = 0;
    enum rrcache_status status = take_record(cache, &cache->part[to->shelf], &chapters, &count);
    if (status != RRCACHE_DONE)
        return status;
    status = write_chapters(&chapters, count, to);
    rrcache_free_chapters(&chapters);
    return status;
}

/* Starts recording all parts, or none if one fails. */
static enum rrcache_status begin_records(struct rrcache *cache)
{
    for (uint64_t i = 0; i < cache->parts.count; i++) {
        enum rrcache_status status = begin_record(cache, &cache->part[i]);
        if (status == RRCACHE_DONE)
            continue;
        while (i > 0)
            drop_record(cache, &cache->part[--i]);
        return status;
    }
    return RRCACHE_DONE;
}

enum rrcache_status rrcache_record_all(struct rrcache *cache)
{
    enum rrcache_status status = RRCACHE_DONE;
    if (cache == NULL)
        return RRCACHE_NULL;
    pthread_mutex_lock(&cache->recorder);
    if (!cache->is_recorded)
        status = begin_records(cache);
    cache->is_recorded |= status == RRCACHE_DONE;
    pthread_mutex_unlock(&cache->recorder);
    return status;
}

enum rrcache_status rrcache_stop_recording_all(struct rrcache *cache, rrcache_shelf_sink sink,
                                               void *state)
{
    struct line_sink to = {.sink = sink, .state = state};
    enum rrcache_status status = RRCACHE_DONE;
    if (cache == NULL || sink == NULL)
        return RRCACHE_NULL;
    pthread_mutex_lock(&cache->recorder);
    for (; cache->is_recorded && to.shelf < cache->parts.count; to.shelf++)
        if (status == RRCACHE_DONE)
            status = write_record(cache, &to);
        else
            drop_record(cache, &cache->part[to.shelf]);
    cache->is_recorded = false;
    pthread_mutex_unlock(&cache->recorder);
    return status;
}

/* Writes the contents of a part: a chapter that begins with them and ends immediately. */
static enum rrcache_status dump_part(struct rrcache *cache, struct line_sink *to)
{
    struct part *part = &cache->part[to->shelf];
    struct rrcache_chapters chapters = {0};
    uint64_t count = 0;
    lock_part(cache, part);
    enum rrcache_status status = rrcache_record(&part->shelf);
    if (status == RRCACHE_DONE)
        status = rrcache_stop_recording(&part->shelf, &chapters, &count);
    if (status != RRCACHE_DONE)
        rrcache_stop_and_drop(&part->shelf);
    unlock_part(cache, part);
    if (status == RRCACHE_DONE)
        status = write_chapters(&chapters, count, to);
    rrcache_free_chapters(&chapters);
    return status;
}

enum rrcache_status rrcache_dump(struct rrcache *cache, rrcache_shelf_sink sink, void *state)
{
    struct line_sink to = {.sink = sink, .state = state};
    enum rrcache_status status = RRCACHE_DONE;
    if (cache == NULL || sink == NULL)
        return RRCACHE_NULL;
    pthread_mutex_lock(&cache->recorder);
    if (cache->is_recorded)
        status = RRCACHE_HAS_CHAPTERS;
    for (; to.shelf < cache->parts.count && status == RRCACHE_DONE; to.shelf++)
        status = dump_part(cache, &to);
    pthread_mutex_unlock(&cache->recorder);
    return status;
}
