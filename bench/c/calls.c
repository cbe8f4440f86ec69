/* SPDX-License-Identifier: MIT */
/* calls KIND COUNT: makes COUNT calls of one kind, on a cache that holds NAMES addresses, as many
   aliases and as many names without data. The kinds are those of CALLS. `bench/run calls` counts
   the instructions. */
#include <stdio.h>
#include <stdlib.h>
#include <string.h>

#include "../../tests/c/structs.h"

enum { NAMES = 1000, NAME = 10, TTL = 600 };

static struct rrcache *cache;
static uint8_t buffer[RRCACHE_ANSWER_OCTETS];

static void check(bool holds)
{
    if (holds)
        return;
    fprintf(stderr, "a call did something else\n");
    exit(1);
}

/* Names of three kinds, and responses of the first two: an address, and an alias of one. */
enum kind { ADDRESS, ALIAS, DENIAL, KINDS };
static uint8_t names[KINDS][NAMES][NAME];
static struct {
    uint8_t octets[128];
    size_t size;
} messages[DENIAL][NAMES];

static void make_names(void)
{
    char label[NAME];
    for (unsigned at = 0; at < KINDS * NAMES; at++) {
        uint8_t *name = names[at / NAMES][at % NAMES];
        snprintf(label, sizeof label, "%c%07u", "acd"[at / NAMES], at % NAMES);
        name[0] = NAME - 2;
        memcpy(name + 1, label, NAME - 2);
    }
}

static void look_up(enum kind kind, unsigned number, uint16_t rtype, uint32_t wanted)
{
    struct rrcache_answer answer = {.buffer = buffer, .room = sizeof buffer};
    const struct rrcache_request request = plain_request(names[kind][number], NAME, rtype);
    check(rrcache_lookup(cache, &request, &answer) == RRCACHE_DONE && answer.kind == wanted);
}

static void find_address(unsigned number)
{
    look_up(ADDRESS, number, A, RRCACHE_FRESH);
}

static void follow_alias(unsigned number)
{
    look_up(ALIAS, number, A, RRCACHE_FRESH);
}

static void find_denial(unsigned number)
{
    look_up(DENIAL, number, A, RRCACHE_NODATA);
}

static void find_nothing(unsigned number)
{
    look_up(ADDRESS, number, TXT, RRCACHE_MISS);
}

static void store_set(enum kind kind, unsigned number, uint16_t rtype, const uint8_t *data,
                      size_t size)
{
    uint32_t outcome = 0;
    const struct rrcache_set set = plain_set(names[kind][number], NAME, rtype, TTL, data, size);
    check(rrcache_store_set(cache, &set, &outcome) == RRCACHE_DONE && outcome == RRCACHE_KEPT);
}

static void store_address(unsigned number)
{
    static const uint8_t data[] = {0, 4, 192, 0, 2, 1};
    store_set(ADDRESS, number, A, data, sizeof data);
}

static void store_alias(unsigned number)
{
    uint8_t data[2 + NAME] = {0, NAME};
    memcpy(data + 2, names[ADDRESS][number], NAME);
    store_set(ALIAS, number, CNAME, data, sizeof data);
}

static void store_denial(unsigned number)
{
    static const uint8_t root[1] = {0};
    uint32_t outcome = 0;
    struct rrcache_negative negative =
        plain_negative(names[DENIAL][number], NAME, A, RRCACHE_NODATA, TTL);
    negative.soa_owner = root; /* names here are of one label */
    negative.soa_owner_size = sizeof root;
    check(rrcache_store_negative(cache, &negative, &outcome) == RRCACHE_DONE);
}

static struct rrcache_query query_of(enum kind kind, unsigned number)
{
    return (struct rrcache_query){
        .name = names[kind][number], .name_size = NAME, .rtype = A, .rclass = RRCACHE_IN};
}

static void make_message(enum kind kind, unsigned number)
{
    static const uint8_t address[] = {0, 4, 192, 0, 2, 1};
    const uint8_t *target = names[ADDRESS][number];
    uint8_t alias[2 + NAME] = {0, NAME};
    memcpy(alias + 2, target, NAME);
    const struct rrcache_query query = query_of(kind, number);
    const struct rrcache_parsed_set sets[] = {
        {query.name, NAME, CNAME, RRCACHE_IN, TTL, RRCACHE_ANSWER_SECTION, alias, sizeof alias},
        {target, NAME, A, RRCACHE_IN, TTL, RRCACHE_ANSWER_SECTION, address, sizeof address}};
    const struct rrcache_parsed_response parsed = {
        .aa = true, .sets = kind == ALIAS ? sets : sets + 1, .count = kind == ALIAS ? 2 : 1};
    check(rrcache_compose_response(&query, &parsed, messages[kind][number].octets,
                                   sizeof messages[kind][number].octets,
                                   &messages[kind][number].size)
          == RRCACHE_DONE);
}

static void store_response(enum kind kind, unsigned number)
{
    static const uint8_t root[1] = {0};
    const struct rrcache_query query = query_of(kind, number);
    const struct rrcache_response response = {.octets = messages[kind][number].octets,
                                              .size = messages[kind][number].size,
                                              .zone = root,
                                              .zone_size = sizeof root,
                                              .moment = FIRST};
    struct rrcache_report report;
    check(rrcache_store(cache, &query, &response, &report, NULL) == RRCACHE_DONE
          && report.counts.kept + report.counts.outranked == (kind == ALIAS ? 2 : 1));
}

static void store_plain(unsigned number)
{
    store_response(ADDRESS, number);
}

static void store_chain(unsigned number)
{
    store_response(ALIAS, number);
}

static void forget_name(unsigned number)
{
    const struct rrcache_request request = plain_request(names[ADDRESS][number], NAME, ANY);
    check(rrcache_forget(cache, &request) == RRCACHE_DONE);
}

static const struct {
    const char *kind;
    void (*make)(unsigned number);
} CALLS[] = {
    {"address", find_address}, {"alias", follow_alias}, {"denial", find_denial},
    {"nothing", find_nothing}, {"set", store_address},  {"response", store_plain},
    {"chain", store_chain},    {"forget", forget_name},
};

int main(int count, char **words)
{
    const struct rrcache_config config = {.readers = 4, .seed = "sixteen octets."};
    check(count == 3 && rrcache_open(&cache, &config) == RRCACHE_DONE);
    make_names();
    for (unsigned i = 0; i < NAMES; i++) {
        make_message(ADDRESS, i);
        make_message(ALIAS, i);
        store_address(i);
        store_alias(i);
        store_denial(i);
    }
    long calls = atol(words[2]);
    for (size_t i = 0; i < sizeof CALLS / sizeof *CALLS; i++)
        if (strcmp(words[1], CALLS[i].kind) == 0)
            for (long n = 0; n < calls; n++)
                CALLS[i].make((unsigned)(n % NAMES));
    rrcache_close(cache);
    return 0;
}
