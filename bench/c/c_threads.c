/* SPDX-License-Identifier: MIT */
/* c_threads THREADS CALLS shared|own ask|put|both: times the C library. THREADS threads
   together make CALLS calls on 16 shelves. With `shared`, each shelf has a lock, and each thread
   picks the shelf of each name. With `own`, each thread has 16 shelves of its own and takes no
   lock. The time of an ask includes the making of the name, for which no lock is held. The program
   prints the number of calls and the nanoseconds of elapsed time that they took. `bench/run c` runs
   it. */
#include <pthread.h>
#include <stdalign.h>
#include <stdio.h>
#include <stdlib.h>
#include <string.h>

#include "../../tests/c/drawn.h"
#include "../../tests/c/structs.h"
#include "runs.h"

enum { SHELVES = 16, MOST_THREADS = 64, NAMES = 16384, TTL = 3600 };

struct shelf {
    pthread_mutex_t lock;
    struct rrcache_shelf cache;
    char apart[64]; /* so that two locks are on two cache lines of the processor */
};

struct worker {
    alignas(128) pthread_t thread; /* each call writes `seed`: two workers share no cache line */
    struct shelf *shelves;         /* NULL if the thread is to make its own */
    uint64_t calls, seed, done;
    bool is_locked;
    unsigned puts; /* how many of 16 calls are puts */
};

#define SEED "sixteen octets."

static const struct rrcache_parts PARTS = {SHELVES, SEED};
static uint8_t names[NAMES][16];
static uint64_t parts[NAMES];
static pthread_barrier_t start;

static void fail(const char *what)
{
    fprintf(stderr, "%s\n", what);
    exit(1);
}

static struct rrcache_name made_name(const uint8_t *octets)
{
    struct rrcache_name name;
    if (rrcache_make_name(&name, octets, sizeof names[0], &PARTS) != RRCACHE_DONE)
        fail("a name is none");
    return name;
}

static void put(struct shelf *shelf, const uint8_t *name, uint64_t line)
{
    static const uint8_t data[] = {0, 4, 192, 0, 2, 1, 0, 4, 192, 0, 2, 2};
    struct rrcache_set set = plain_set(name, sizeof names[0], A, TTL, OF(data));
    uint32_t outcome;
    set.line = line;
    if (rrcache_offer_set(&shelf->cache, &set, &outcome) != RRCACHE_DONE)
        fail("a put was refused");
}

static void ask(struct shelf *shelf, const struct rrcache_name *name, uint64_t line)
{
    struct rrcache_question question = plain_question(A);
    struct rrcache_told told;
    uint8_t buffer[512];
    question.line = line;
    if (rrcache_ask(&shelf->cache, name, &question, &told, buffer, sizeof buffer) != RRCACHE_DONE
        || told.kind != RRCACHE_FRESH)
        fail("an ask found nothing fresh");
}

/* Makes 16 shelves with all names in them. */
static struct shelf *make_shelves(void)
{
    static const struct rrcache_rules rules = {NAMES, NAMES, 0, SEED};
    struct shelf *shelves = calloc(SHELVES, sizeof *shelves);
    if (shelves == NULL)
        fail("no memory");
    for (int i = 0; i < SHELVES; i++)
        if (pthread_mutex_init(&shelves[i].lock, NULL) != 0
            || rrcache_make(&shelves[i].cache, &rules) != RRCACHE_DONE)
            fail("a shelf was refused");
    for (unsigned i = 0; i < NAMES; i++)
        put(&shelves[parts[i]], names[i], i);
    return shelves;
}

static void free_shelves(struct shelf *shelves)
{
    for (int i = 0; i < SHELVES; i++) {
        rrcache_free(&shelves[i].cache);
        pthread_mutex_destroy(&shelves[i].lock);
    }
    free(shelves);
}

static struct shelf *taken(const struct worker *worker, uint64_t part)
{
    struct shelf *shelf = &worker->shelves[part];
    if (worker->is_locked)
        pthread_mutex_lock(&shelf->lock);
    return shelf;
}

static void give(const struct worker *worker, struct shelf *shelf)
{
    if (worker->is_locked)
        pthread_mutex_unlock(&shelf->lock);
}

static void put_one(const struct worker *worker, uint64_t number, uint64_t line)
{
    struct shelf *shelf = taken(worker, parts[number]);
    put(shelf, names[number], line);
    give(worker, shelf);
}

static void ask_one(const struct worker *worker, uint64_t number, uint64_t line)
{
    struct rrcache_name name = made_name(names[number]);
    struct shelf *shelf = taken(worker, name.part);
    ask(shelf, &name, line);
    give(worker, shelf);
}

static void *work(void *argument)
{
    struct worker *worker = argument;
    if (worker->shelves == NULL)
        worker->shelves = make_shelves();
    pthread_barrier_wait(&start);
    for (uint64_t call = 0; call < worker->calls; call++, worker->done++) {
        uint64_t drawn = drawn_from(&worker->seed);
        if (worker->puts > (drawn >> 32 & 15))
            put_one(worker, drawn % NAMES, call);
        else
            ask_one(worker, drawn % NAMES, call);
    }
    pthread_barrier_wait(&start);
    return NULL;
}

static void make_names(void)
{
    for (unsigned i = 0; i < NAMES; i++) {
        memcpy(names[i], "\6n00000\7example", sizeof names[0]); /* and the zero octet of the root */
        for (unsigned digit = 0, rest = i; digit < 5; digit++, rest /= 10)
            names[i][6 - digit] = (uint8_t)('0' + rest % 10);
        parts[i] = made_name(names[i]).part;
    }
}

int main(int argc, char **argv)
{
    static struct worker workers[MOST_THREADS];
    unsigned threads = argc == 5 ? (unsigned)strtoul(argv[1], NULL, 10) : 0;
    uint64_t calls = argc == 5 ? strtoull(argv[2], NULL, 10) : 0, done = 0;
    if (threads < 1 || threads > MOST_THREADS)
        fail("usage: c_threads THREADS CALLS shared|own ask|put|both");
    bool is_shared = strcmp(argv[3], "shared") == 0;
    unsigned puts = strcmp(argv[4], "ask") == 0 ? 0 : strcmp(argv[4], "put") == 0 ? 16 : 8;
    make_names();
    struct shelf *shared = is_shared ? make_shelves() : NULL;
    pthread_barrier_init(&start, NULL, threads + 1);
    for (unsigned i = 0; i < threads; i++) {
        workers[i] = (struct worker){.shelves = shared,
                                     .calls = calls / threads,
                                     .seed = 88172645463325252 + i,
                                     .is_locked = is_shared,
                                     .puts = puts};
        if (pthread_create(&workers[i].thread, NULL, work, &workers[i]) != 0)
            fail("a thread was refused");
    }
    pthread_barrier_wait(&start);
    uint64_t began = nanoseconds(CLOCK_MONOTONIC);
    pthread_barrier_wait(&start);
    uint64_t took = nanoseconds(CLOCK_MONOTONIC) - began;
    for (unsigned i = 0; i < threads; i++) {
        pthread_join(workers[i].thread, NULL);
        done += workers[i].done;
        if (!is_shared)
            free_shelves(workers[i].shelves);
    }
    if (is_shared)
        free_shelves(shared);
    printf("%llu calls %llu nanoseconds\n", (unsigned long long)done, (unsigned long long)took);
    return 0;
}
