/* SPDX-License-Identifier: MIT */
/* THREADS CALLS hit|zipf|hot|replace|evict NAMES [apart]: times a cache of RRsets. THREADS threads
   together make CALLS calls on names `host<i>.example`, each with one A record, in random order.
   `hit` asks for names that are cached; `zipf` does too, but asks for the n-th name with a
   frequency proportional to 1 / n; `hot` always asks for one name. `replace` puts cached names with
   another address, and `evict` puts names that are not cached into a cache that has no room. With
   `apart`, which goes with `hit`, `replace` and `evict`, no two threads use the same shard. The
   program prints the number of calls, the nanoseconds of elapsed time that they took, and the
   nanoseconds of processor time. */
#include "work.h"

#include <pthread.h>
#include <stdalign.h>
#include <stdio.h>
#include <stdlib.h>
#include <string.h>

#include "../../../tests/c/drawn.h"
#include "../runs.h"

enum { MOST_THREADS = 64 };

enum kind { HIT, ZIPF, HOT, REPLACE, EVICT };

struct worker {
    alignas(128) pthread_t thread; /* each call writes `seed`: two workers share no cache line */
    unsigned number;
    size_t first, count; /* its names */
    uint64_t calls, seed, processor;
};

static const char *const KINDS[] = {"hit", "zipf", "hot", "replace", "evict"};
static struct name *names;
static struct worker workers[MOST_THREADS];
static uint32_t by_zipf[1 << 16]; /* names, each as often as Zipf's law says */
static size_t name_count, worker_count;
static enum kind kind;
static bool is_apart;
static pthread_barrier_t start;

void fail(const char *what)
{
    fprintf(stderr, "%s\n", what);
    exit(1);
}

static void make_names(size_t count)
{
    name_count = count;
    names = calloc(count, sizeof *names);
    if (names == NULL)
        fail("no memory");
    for (size_t i = 0; i < count; i++) {
        char label[12];
        size_t size = (size_t)snprintf(label, sizeof label, "host%u", (unsigned)i);
        names[i].octets[0] = (uint8_t)size;
        memcpy(names[i].octets + 1, label, size);
        memcpy(names[i].octets + 1 + size, "\7example", 9);
        names[i].size = size + 10;
    }
}

/* Names by Zipf's law: the n-th name is in the table with a frequency proportional to 1 / n. The
   hash of a name decides in which shard it is, so the first names may be in any shard. */
static void make_table(void)
{
    const size_t room = sizeof by_zipf / sizeof *by_zipf;
    double sum = 0, passed = 0;
    for (size_t i = 0; i < name_count; i++)
        sum += 1.0 / (double)(i + 1);
    for (size_t at = 0, i = 0; i < name_count; i++) {
        passed += 1.0 / (double)(i + 1);
        while (at < room && (double)at < passed / sum * (double)room)
            by_zipf[at++] = (uint32_t)i;
    }
}

/* Gives each thread the names of which it makes calls: all names, or, if the threads are to stay
   apart, the names of every `worker_count`-th shard. */
static void give_names(void)
{
    struct name *given = calloc(name_count, sizeof *given);
    if (given == NULL)
        fail("no memory");
    size_t count = 0;
    for (unsigned i = 0; i < worker_count; i++) {
        workers[i].first = is_apart ? count : 0;
        for (size_t at = 0; is_apart && at < name_count; at++)
            if (shard_of(&names[at]) % worker_count == i)
                given[count++] = names[at];
        workers[i].count = is_apart ? count - workers[i].first : name_count;
        if (workers[i].count == 0)
            fail("a thread has no names");
    }
    if (is_apart)
        memcpy(names, given, name_count * sizeof *names);
    free(given);
}

/* The name of a call. Puts that evict cycle through all names of the thread or, if the threads
   share the names, together through all names. The cache holds the last half of these. */
static size_t place_of(struct worker *worker, uint64_t turn)
{
    if (kind == HOT)
        return 0;
    if (kind == EVICT)
        return is_apart ? worker->first + turn % worker->count
                        : (worker->number + turn * worker_count) % name_count;
    uint64_t drawn = drawn_from(&worker->seed);
    return kind == ZIPF ? by_zipf[drawn % (1 << 16)] : worker->first + drawn % worker->count;
}

static void call(struct worker *worker, void *thread, uint64_t turn)
{
    const struct name *name = &names[place_of(worker, turn)];
    if (kind == REPLACE || kind == EVICT)
        put(thread, name, (unsigned)turn);
    else if (!ask(thread, name))
        fail("an ask found nothing");
}

static void *work(void *argument)
{
    struct worker *worker = argument;
    void *thread = begin_thread(worker->number + 1);
    pthread_barrier_wait(&start);
    uint64_t began = nanoseconds(CLOCK_THREAD_CPUTIME_ID);
    for (uint64_t turn = 0; turn < worker->calls; turn++)
        call(worker, thread, turn);
    worker->processor = nanoseconds(CLOCK_THREAD_CPUTIME_ID) - began;
    return NULL;
}

static void run(uint64_t calls)
{
    uint64_t processor = 0;
    pthread_barrier_init(&start, NULL, (unsigned)worker_count + 1);
    for (unsigned i = 0; i < worker_count; i++) {
        workers[i].number = i;
        workers[i].calls = calls / worker_count;
        workers[i].seed = i + 88172;
        if (pthread_create(&workers[i].thread, NULL, work, &workers[i]) != 0)
            fail("no thread");
    }
    pthread_barrier_wait(&start);
    uint64_t began = nanoseconds(CLOCK_MONOTONIC);
    for (unsigned i = 0; i < worker_count; i++) {
        pthread_join(workers[i].thread, NULL);
        processor += workers[i].processor;
    }
    uint64_t took = nanoseconds(CLOCK_MONOTONIC) - began;
    printf("%llu %llu %llu\n", (unsigned long long)(calls / worker_count * worker_count),
           (unsigned long long)took, (unsigned long long)processor);
}

int main(int count, char **words)
{
    is_apart = count == 6 && strcmp(words[5], "apart") == 0;
    if (count != 5 + is_apart)
        fail("THREADS CALLS hit|zipf|hot|replace|evict NAMES [apart]");
    worker_count = strtoul(words[1], NULL, 10);
    if (worker_count < 1 || worker_count > MOST_THREADS)
        fail("1 to 64 threads");
    while (strcmp(words[3], KINDS[kind]) != 0)
        if (kind++ == EVICT)
            fail("no such kind");
    if (is_apart && (kind == ZIPF || kind == HOT))
        fail("threads that share few names cannot stay apart");
    size_t room = strtoul(words[4], NULL, 10);
    make_names(kind == EVICT ? 2 * room : room);
    make_table();
    make_cache(kind == EVICT ? room : 2 * room);
    give_names();
    void *thread = begin_thread(0);
    for (size_t i = 0; i < name_count; i++)
        put(thread, &names[i], 1);
    run(strtoull(words[2], NULL, 10));
    return 0;
}
