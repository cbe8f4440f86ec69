/* SPDX-License-Identifier: MIT */
/* one_reading MESSAGE TIMES RUNS: times what it takes to offer a message to one shelf, to 16
   shelves by one reading of it, and to 16 shelves by a reading for each. It prints the nanoseconds
   of processor time of each, the least of RUNS runs of TIMES times. Then it prints those of the
   longest call of `rrcache_offer_read`, for which a shelf's lock is held, in the run in which this
   call took least. `bench/run one-reading` runs it. */
#include <stdio.h>
#include <stdlib.h>

#include "rrcache.h"
#include "runs.h"

enum { SHELVES = 16, KEYS = 65536 };

#define SEED "sixteen octets."

static const uint8_t ROOT[] = {0};
static const struct rrcache_rules RULES = {KEYS, KEYS, 0, SEED};
static const struct rrcache_parts PARTS = {SHELVES, SEED};
static uint8_t message[65535];
static struct rrcache_response response = {
    .octets = message,
    .zone = ROOT,
    .zone_size = sizeof ROOT,
    .moment = 1,
    .limits = {86400, 3600, 30},
};
static struct rrcache_counts counts;

static void check(uint32_t status)
{
    if (status == RRCACHE_DONE)
        return;
    fprintf(stderr, "a call was refused: %u\n", (unsigned)status);
    exit(1);
}

static void offer_whole(struct rrcache_shelf *shelves)
{
    check(rrcache_offer_message_unchecked(shelves, &response, 1, &counts));
}

static void offer_share(struct rrcache_shelf *shelf, struct rrcache_offers *offers, uint64_t part)
{
    const struct rrcache_share share = {.part = part, .line = 1};
    check(rrcache_offer_read(shelf, offers, &share, &counts));
}

static void offer_read(struct rrcache_shelf *shelves)
{
    struct rrcache_offers offers = {0};
    uint64_t concerned;
    check(rrcache_read_message_unchecked(&offers, &response, &PARTS, &concerned));
    for (uint64_t part = 0; part < SHELVES; part++)
        offer_share(&shelves[part], &offers, part);
    check(rrcache_free_offers(&offers));
}

/* The same, once, on empty shelves: the time of the share that took longest. */
static uint64_t took_longest(void)
{
    struct rrcache_shelf shelves[SHELVES] = {{0}};
    struct rrcache_offers offers = {0};
    uint64_t concerned, longest = 0;
    check(rrcache_read_message_unchecked(&offers, &response, &PARTS, &concerned));
    for (uint64_t part = 0; part < SHELVES; part++) {
        check(rrcache_make(&shelves[part], &RULES));
        uint64_t begin = nanoseconds(CLOCK_THREAD_CPUTIME_ID);
        offer_share(&shelves[part], &offers, part);
        uint64_t it = nanoseconds(CLOCK_THREAD_CPUTIME_ID) - begin;
        longest = it > longest ? it : longest;
        check(rrcache_free(&shelves[part]));
    }
    check(rrcache_free_offers(&offers));
    return longest;
}

static void offer_parts(struct rrcache_shelf *shelves)
{
    for (uint64_t part = 0; part < SHELVES; part++) {
        const struct rrcache_share share = {.part = part, .line = 1};
        check(rrcache_offer_part_unchecked(&shelves[part], &response, &PARTS, &share, &counts));
    }
}

static uint64_t took(void (*offer)(struct rrcache_shelf *), unsigned long times)
{
    struct rrcache_shelf shelves[SHELVES] = {{0}};
    for (int i = 0; i < SHELVES; i++)
        check(rrcache_make(&shelves[i], &RULES));
    uint64_t begin = nanoseconds(CLOCK_THREAD_CPUTIME_ID);
    for (unsigned long time = 0; time < times; time++)
        offer(shelves);
    uint64_t end = nanoseconds(CLOCK_THREAD_CPUTIME_ID);
    for (int i = 0; i < SHELVES; i++)
        check(rrcache_free(&shelves[i]));
    return (end - begin) / times;
}

int main(int argc, char **argv)
{
    void (*const ways[])(struct rrcache_shelf *) = {offer_whole, offer_read, offer_parts};
    uint64_t least[] = {UINT64_MAX, UINT64_MAX, UINT64_MAX}, share = UINT64_MAX;
    FILE *file = argc == 4 ? fopen(argv[1], "rb") : NULL;
    if (file == NULL)
        return 1;
    response.size = fread(message, 1, sizeof message, file);
    fclose(file);
    for (unsigned long run = 0; run < strtoul(argv[3], NULL, 10); run++) {
        for (int i = 0; i < 3; i++) {
            uint64_t it = took(ways[i], strtoul(argv[2], NULL, 10));
            least[i] = it < least[i] ? it : least[i];
        }
        uint64_t longest = took_longest();
        share = longest < share ? longest : share;
    }
    printf("%llu %llu %llu %llu\n", (unsigned long long)least[0], (unsigned long long)least[1],
           (unsigned long long)least[2], (unsigned long long)share);
    return 0;
}
