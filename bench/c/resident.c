/* SPDX-License-Identifier: MIT */
/* THREADS MEBIBYTES NAMES: fills a `struct rrcache` whose limit is MEBIBYTES. THREADS threads
   together store RRsets of one address under NAMES different names, with TTLs of 60 to 3,659
   seconds. For each 1,000 stores of a thread, its clock moves on by a second, and the thread sweeps
   up to 100 keys. The program prints the number of keys that the cache then holds, the octets that
   these keys count, and the octets of memory that the process has had at most since the cache was
   opened. */
#include <pthread.h>
#include <stdio.h>
#include <stdlib.h>
#include <string.h>

#include "../../tests/c/resident.h"
#include "../../tests/c/structs.h"

enum { MOST_THREADS = 64, EACH = 1000, MOST_SWEPT = 100 };

struct worker {
    pthread_t thread;
    uint64_t first, names;
};

static struct rrcache *cache;

static void need(bool holds, const char *what)
{
    if (holds)
        return;
    fprintf(stderr, "%s\n", what);
    exit(1);
}

static void store(uint64_t number, uint64_t moment)
{
    const uint8_t data[] = {0, 4, 192, 0, 2, (uint8_t)number};
    uint8_t name[32];
    uint32_t outcome;
    int size = snprintf((char *)name + 1, sizeof name - 1, "host%llu", (unsigned long long)number);
    name[0] = (uint8_t)size;
    memcpy(name + 1 + size, "\7example", 9);
    struct rrcache_set set = plain_set(name, (size_t)size + 10, A, 0, data, sizeof data);
    set.ttl = 60 + (uint32_t)(number * 2654435761U % 3600);
    set.moment = moment;
    need(rrcache_store_set(cache, &set, &outcome) == RRCACHE_DONE, "a store was refused");
}

static void *work(void *argument)
{
    const struct worker *worker = argument;
    for (uint64_t turn = 0; turn < worker->names; turn++) {
        uint64_t moment = FIRST + turn / EACH;
        struct rrcache_swept swept;
        store(worker->first + turn, moment);
        if (turn % EACH == 0)
            need(rrcache_sweep_all(cache, moment, MOST_SWEPT, &swept) == RRCACHE_DONE, "no sweep");
    }
    return NULL;
}

static void run(uint64_t threads, uint64_t names)
{
    static struct worker workers[MOST_THREADS];
    for (uint64_t i = 0; i < threads; i++) {
        workers[i] = (struct worker){.first = i * (names / threads), .names = names / threads};
        need(pthread_create(&workers[i].thread, NULL, work, &workers[i]) == 0, "no thread");
    }
    for (uint64_t i = 0; i < threads; i++)
        pthread_join(workers[i].thread, NULL);
}

int main(int count, char **words)
{
    need(count == 4, "THREADS MEBIBYTES NAMES");
    uint64_t threads = strtoull(words[1], NULL, 10), before = resident("VmRSS");
    struct rrcache_config config = {.octets = strtoull(words[2], NULL, 10) << 20};
    struct rrcache_stats stats;
    need(before != 0, "no /proc/self/status");
    need(threads >= 1 && threads <= MOST_THREADS, "1 to 64 threads");
    need(rrcache_open(&cache, &config) == RRCACHE_DONE, "no cache");
    run(threads, strtoull(words[3], NULL, 10));
    need(rrcache_stats(cache, &stats) == RRCACHE_DONE, "no counts");
    printf("%llu %llu %llu\n", (unsigned long long)stats.keys, (unsigned long long)stats.octets,
           (unsigned long long)(resident("VmHWM") - before));
    rrcache_close(cache);
    return 0;
}
