/* SPDX-License-Identifier: MIT */
/* flood PERCENT WHAT OFFERS [WHAT OFFERS ..]: floods one shelf, and trims it to a limit after each
   offer. So a client does who asks for ever new names of a zone of its own: names may be short or
   long, and sets large or of many records, or asking for them fails. The memory of the process
   (/proc/self/status) has to stay within so many percent of the limit, beside what it was before
   the shelf. A line tells of each flood; the status is 0 where all went well. */
#include "rrcache.h"

#include <stdio.h>
#include <stdlib.h>
#include <string.h>
#include <time.h>

#include "../c/resident.h"
#include "../c/structs.h"

#define LIMIT (UINT64_C(16) << 20)

/* How many keys a shelf may hold, so many that the limit is met before, and how many go by a trim.
   The first label of a name, with its length octet, and the longest name. */
enum { CAPACITY = 65536, MOST = 8, LABEL = 9, LONGEST = 255 };
enum { STRINGS = 64, RECORDS = 4096 };

static const uint8_t ADDRESS[] = {0, 4, 192, 0, 2, 1};
/* A TXT record of 16,384 octets, and as many octets of addresses. */
static uint8_t text[2 + STRINGS * 256], addresses[RECORDS * sizeof ADDRESS];

/* What is offered: of names of so many octets sets of a type with these data, or where there are
   none that asking failed. */
static const struct flood {
    const char *what;
    size_t name_size;
    uint16_t rtype;
    const uint8_t *data;
    size_t data_size;
} FLOODS[] = {
    {"short-names", 18, A, ADDRESS, sizeof ADDRESS},
    {"long-names", LONGEST, A, ADDRESS, sizeof ADDRESS},
    {"large-sets", 18, TXT, text, sizeof text},
    {"many-records", 18, A, addresses, sizeof addresses},
    {"failures", LONGEST, A, NULL, 0},
};

static void need(bool holds, const char *what)
{
    if (!holds) {
        printf("FAIL: %s\n", what);
        exit(1);
    }
}

static void fill_data(void)
{
    text[0] = STRINGS;
    for (size_t n = 0; n < STRINGS; n++)
        text[2 + 256 * n] = 255;
    for (size_t n = 0; n < RECORDS; n++) {
        uint8_t *record = addresses + n * sizeof ADDRESS;
        memcpy(record, ADDRESS, sizeof ADDRESS);
        record[4] = (uint8_t)(n / 256);
        record[5] = (uint8_t)(n % 256);
    }
}

/* Fills a name of so many octets behind its first label. */
static void fill_name(uint8_t *name, size_t size)
{
    size_t place = LABEL;
    name[0] = LABEL - 1;
    while (place + 1 < size) {
        size_t label = size - place - 2 < 63 ? size - place - 2 : 63;
        name[place] = (uint8_t)label;
        memset(name + place + 1, 'x', label);
        place += label + 1;
    }
    name[place] = 0;
}

/* Makes the first label that of a number. */
static void number_name(uint8_t *name, unsigned long number)
{
    for (int place = LABEL - 1; place > 0; place--, number >>= 4)
        name[place] = (uint8_t) "0123456789abcdef"[number & 15];
}

/* Offers what a flood is of. */
static void offer(struct rrcache_shelf *shelf, const struct flood *flood, const uint8_t *name)
{
    const struct rrcache_set set =
        plain_set(name, flood->name_size, flood->rtype, 86400, flood->data, flood->data_size);
    const struct rrcache_failure failure = plain_failure(name, flood->name_size, flood->rtype, 30);
    uint32_t outcome, status = flood->data == NULL
                                   ? rrcache_offer_failure(shelf, &failure, &outcome)
                                   : rrcache_offer_set(shelf, &set, &outcome);
    need(status == RRCACHE_DONE && outcome == RRCACHE_KEPT, "an offer is kept");
}

/* Trims until no more than the limit is left, and tells how many calls that took. */
static unsigned trim(struct rrcache_shelf *shelf)
{
    static const struct rrcache_trim_to TO = {.moment = FIRST, .limit = LIMIT, .most = MOST};
    struct rrcache_trimmed trimmed;
    unsigned calls = 0;
    do {
        need(rrcache_trim(shelf, &TO, &trimmed) == RRCACHE_DONE, "a trim is done");
        need(trimmed.removed <= MOST, "no more keys go than may");
        calls++;
    } while (trimmed.octets > LIMIT && trimmed.removed == MOST);
    need(trimmed.octets <= LIMIT, "a trim ends within the limit");
    return calls;
}

/* Makes so many offers, and tells how many trims at most one took. */
static unsigned offer_all(struct rrcache_shelf *shelf, const struct flood *flood,
                          unsigned long offers)
{
    static unsigned long number;
    uint8_t name[LONGEST];
    unsigned most = 0;
    fill_name(name, flood->name_size);
    for (unsigned long n = 0; n < offers; n++) {
        number_name(name, number++);
        offer(shelf, flood, name);
        unsigned calls = trim(shelf);
        most = calls > most ? calls : most;
    }
    return most;
}

static void run(struct rrcache_shelf *shelf, const struct flood *flood, unsigned long offers)
{
    struct rrcache_usage usage;
    clock_t start = clock();
    unsigned most = offer_all(shelf, flood, offers);
    double seconds = (double)(clock() - start) / CLOCKS_PER_SEC;
    need(rrcache_sizes(shelf, &usage) == RRCACHE_DONE && usage.keys < CAPACITY
             && usage.keys < offers,
         "the limit is met, and before the capacity");
    printf("%s: %lu offers in %.1f s, each with at most %u trims; %llu keys", flood->what, offers,
           seconds, most, (unsigned long long)usage.keys);
}

int main(int count, char **words)
{
    static const struct rrcache_rules RULES = {.capacity = CAPACITY, .chapter = 1, .seed = {1}};
    struct rrcache_shelf shelf = {0};
    need(count >= 4 && count % 2 == 0, "the arguments are PERCENT WHAT OFFERS [WHAT OFFERS ..]");
    fill_data();
    uint64_t before = resident("VmRSS"), percent = strtoul(words[1], NULL, 10);
    need(before != 0, "/proc/self/status tells the memory");
    need(rrcache_make(&shelf, &RULES) == RRCACHE_DONE, "a shelf is made");
    for (int place = 2; place < count; place += 2) {
        const struct flood *flood = FLOODS, *end = FLOODS + sizeof FLOODS / sizeof *FLOODS;
        while (flood != end && strcmp(flood->what, words[place]) != 0)
            flood++;
        need(flood != end, "there is such a flood");
        run(&shelf, flood, strtoul(words[place + 1], NULL, 10));
        uint64_t most = resident("VmHWM") - before;
        printf(", %.0f %% of the limit at most\n", 100.0 * (double)most / (double)LIMIT);
        need(100 * most <= percent * LIMIT, "memory stays near the limit");
    }
    need(rrcache_free(&shelf) == RRCACHE_DONE, "the shelf is freed");
    return 0;
}
