/* SPDX-License-Identifier: MIT */
/* Tests of `struct rrcache`: each call of rrcache.h on its happy path, each status that a caller
   can bring about, and what a refusal leaves. What is expected follows from RFCs and the headers.

   The last line is 'N passed, M failed'. With the path of a folder as its word the program writes
   archives there instead. Where it is linked with --wrap for malloc, calloc, realloc and free, each
   allocation is refused in turn as well. */
#define _GNU_SOURCE /* of CLOCK_BOOTTIME */
#include "rrcache.h"

#include <stdio.h>
#include <stdlib.h>
#include <string.h>
#include <time.h>

#include "caches.h"

/* ---- Names, records and messages. */

enum { ID = 0x1234, MAX_STALE = 3600 };
/* The octets of a header in which QR and other bits stand (RFC 1035 section 4.1.1). */
enum { QR = 0x8000, AA = 0x0400, TC = 0x0200, FORMERR = 1, SERVFAIL = 2, NXDOMAIN = 3 };
/* The last moment, and one behind it. */
static const uint64_t LAST = UINT64_C(1) << 40, LATE = (UINT64_C(1) << 40) + 1;

static const uint8_t ADDRESS[] = {192, 0, 2, 1};
static const uint8_t OTHER_ADDRESS[] = {192, 0, 2, 2};

/* The wire form of a name that is written with dots, "" being the root. */
static struct wire wire_of(const char *text)
{
    struct wire wire = {{0}, 0};
    while (*text != 0) {
        size_t label = strcspn(text, ".");
        wire.octets[wire.size] = (uint8_t)label;
        memcpy(wire.octets + wire.size + 1, text, label);
        wire.size += label + 1;
        text += label + (text[label] == '.');
    }
    wire.octets[wire.size++] = 0;
    return wire;
}

/* Whether octets are the wire form of a name, letters in their case. */
static bool is_wire(const uint8_t *octets, size_t size, const char *text)
{
    struct wire wire = wire_of(text);
    return size == wire.size && memcmp(octets, wire.octets, size) == 0;
}

static bool is_name(const struct rrcache_name *name, const char *text)
{
    return is_wire(name->octets, name->size, text);
}

/* A message that is written record by record, with no name compressed. */
struct message {
    uint8_t octets[RRCACHE_MESSAGE_OCTETS];
    size_t size;
};

static void put(struct message *message, const void *octets, size_t size)
{
    memcpy(message->octets + message->size, octets, size);
    message->size += size;
}

static void put_number(struct message *message, uint64_t number, int octets)
{
    while (octets-- > 0)
        message->octets[message->size++] = (uint8_t)(number >> 8 * octets);
}

static void put_name(struct message *message, const char *text)
{
    struct wire wire = wire_of(text);
    put(message, wire.octets, wire.size);
}

/* Begins a response with a question of class IN. */
static void begin(struct message *message, unsigned flags, const char *name, uint16_t rtype)
{
    message->size = 0;
    put_number(message, ID, 2);
    put_number(message, QR | flags, 2);
    put_number(message, UINT64_C(1) << 48, 8);
    put_name(message, name);
    put_number(message, rtype, 2);
    put_number(message, RRCACHE_IN, 2);
}

/* Adds a record to a section, behind which none has a record yet. */
static void add(struct message *message, enum rrcache_section section, const char *owner,
                uint16_t rtype, uint32_t ttl, const void *data, size_t size)
{
    put_name(message, owner);
    put_number(message, rtype, 2);
    put_number(message, RRCACHE_IN, 2);
    put_number(message, ttl, 4);
    put_number(message, size, 2);
    put(message, data, size);
    message->octets[5 + 2 * section]++;
}

static void add_answer(struct message *message, const char *owner, uint32_t ttl)
{
    add(message, RRCACHE_ANSWER_SECTION, owner, A, ttl, OF(ADDRESS));
}

static void add_alias(struct message *message, const char *owner, const char *target, uint32_t ttl)
{
    struct wire wire = wire_of(target);
    add(message, RRCACHE_ANSWER_SECTION, owner, CNAME, ttl, wire.octets, wire.size);
}

static void add_soa(struct message *message, const char *zone, uint32_t ttl)
{
    add(message, RRCACHE_AUTHORITY_SECTION, zone, SOA, ttl, OF(SOA_DATA));
}

/* ---- Calls. */

/* A cache of so many shelves, by a seed of its own. */
static struct rrcache_config config_of(uint64_t shelves)
{
    return (struct rrcache_config){.shelves = shelves,
                                   .readers = 2,
                                   .keys = shelves * 4096,
                                   .max_stale = MAX_STALE,
                                   .seed = {1, 2, 3}};
}

static struct rrcache *open_small(void)
{
    struct rrcache_config config = config_of(4);
    return open_by(&config);
}

/* The shelf of a name, in a cache of so many by `config_of`. */
static uint64_t shelf_of(const char *name, uint64_t shelves)
{
    const struct rrcache_parts parts = {shelves, {1, 2, 3}};
    struct wire wire = wire_of(name);
    struct rrcache_name made = {0};
    NEED(rrcache_make_name(&made, wire.octets, wire.size, &parts) == RRCACHE_DONE);
    return made.part;
}

static uint8_t space[RRCACHE_ANSWER_OCTETS];

/* An answer that is to be made. */
static struct rrcache_answer blank(void)
{
    return (struct rrcache_answer){.buffer = space, .room = sizeof space};
}

static struct rrcache_request request_of(const struct wire *name, uint16_t rtype, uint64_t moment)
{
    struct rrcache_request request = plain_request(name->octets, name->size, rtype);
    request.moment = moment;
    return request;
}

static struct rrcache_answer look_in(struct rrcache *cache, const char *name, uint16_t rtype,
                                     uint64_t moment, enum rrcache_mode mode)
{
    struct wire wire = wire_of(name);
    struct rrcache_request request = request_of(&wire, rtype, moment);
    struct rrcache_answer answer = blank();
    request.mode = mode;
    NEED(rrcache_lookup(cache, &request, &answer) == RRCACHE_DONE);
    return answer;
}

static struct rrcache_answer look(struct rrcache *cache, const char *name, uint16_t rtype,
                                  uint64_t moment)
{
    return look_in(cache, name, rtype, moment, RRCACHE_NO_STALE);
}

static uint32_t kind_of(struct rrcache *cache, const char *name, uint16_t rtype, uint64_t moment)
{
    return look(cache, name, rtype, moment).kind;
}

static struct rrcache_answer delegation(struct rrcache *cache, const char *name, uint64_t moment)
{
    struct wire wire = wire_of(name);
    struct rrcache_request request = request_of(&wire, 0, moment);
    struct rrcache_answer answer = blank();
    request.mode = (enum rrcache_mode)0;
    NEED(rrcache_lookup_delegation(cache, &request, &answer) == RRCACHE_DONE);
    return answer;
}

static struct rrcache_set set_of(const struct wire *owner, uint16_t rtype, uint32_t ttl,
                                 const uint8_t *data, size_t size)
{
    return plain_set(owner->octets, owner->size, rtype, ttl, data, size);
}

static const uint8_t DATUM[] = {0, 4, 192, 0, 2, 1};

/* Stores the address under a name. */
static uint32_t keep_at(struct rrcache *cache, const char *owner, uint32_t ttl, uint64_t moment,
                        enum rrcache_trust trust)
{
    struct wire wire = wire_of(owner);
    struct rrcache_set set = set_of(&wire, A, ttl, OF(DATUM));
    set.moment = moment;
    set.trust = trust;
    return store_set(cache, set);
}

static uint32_t keep(struct rrcache *cache, const char *owner, uint32_t ttl)
{
    return keep_at(cache, owner, ttl, FIRST, RRCACHE_AUTHORITATIVE_ANSWER);
}

/* Stores a record whose data are a name. */
static uint32_t keep_name(struct rrcache *cache, const char *owner, uint16_t rtype,
                          const char *target, uint32_t ttl)
{
    struct wire wire = wire_of(owner), to = wire_of(target);
    uint8_t data[2 + sizeof to.octets] = {0, (uint8_t)to.size};
    memcpy(data + 2, to.octets, to.size);
    return store_set(cache, set_of(&wire, rtype, ttl, data, to.size + 2));
}

static uint32_t keep_alias(struct rrcache *cache, const char *owner, const char *target,
                           uint32_t ttl)
{
    return keep_name(cache, owner, CNAME, target, ttl);
}

static struct rrcache_negative negative_of(const struct wire *name, enum rrcache_kind kind,
                                           uint32_t ttl)
{
    return plain_negative(name->octets, name->size, A, kind, ttl);
}

static uint32_t deny(struct rrcache *cache, const char *name, enum rrcache_kind kind, uint32_t ttl)
{
    struct wire wire = wire_of(name);
    return store_negative(cache, negative_of(&wire, kind, ttl));
}

static struct rrcache_failure failure_of(const struct wire *name, uint32_t ttl, uint64_t moment)
{
    struct rrcache_failure failure = plain_failure(name->octets, name->size, A, ttl);
    failure.moment = moment;
    return failure;
}

static uint32_t fail(struct rrcache *cache, const char *name, uint32_t ttl, uint64_t moment)
{
    struct wire wire = wire_of(name);
    return store_failure(cache, failure_of(&wire, ttl, moment));
}

/* A query for a message's question, and the response that it is, of a server of `example`. */
static struct rrcache_query query_of(const struct wire *name, uint16_t rtype)
{
    return (struct rrcache_query){.name = name->octets,
                                  .name_size = name->size,
                                  .id = ID,
                                  .rtype = rtype,
                                  .rclass = RRCACHE_IN};
}

static struct rrcache_response response_of(const struct message *message)
{
    return (struct rrcache_response){.octets = message->octets,
                                     .size = message->size,
                                     .zone = EXAMPLE,
                                     .zone_size = sizeof EXAMPLE,
                                     .moment = FIRST};
}

static enum rrcache_status try_to_store(struct rrcache *cache, const struct message *message,
                                        const char *name, uint16_t rtype,
                                        struct rrcache_report *report,
                                        struct rrcache_answer *answer)
{
    struct wire wire = wire_of(name);
    struct rrcache_query query = query_of(&wire, rtype);
    struct rrcache_response response = response_of(message);
    return rrcache_store(cache, &query, &response, report, answer);
}

/* Stores a response, and tells its report and its answer. */
static struct rrcache_report store(struct rrcache *cache, const struct message *message,
                                   const char *name, uint16_t rtype, struct rrcache_answer *answer)
{
    struct rrcache_report report = {0};
    *answer = blank();
    NEED(try_to_store(cache, message, name, rtype, &report, answer) == RRCACHE_DONE);
    return report;
}

static enum rrcache_status forget(struct rrcache *cache, const char *name, uint16_t rtype)
{
    struct wire wire = wire_of(name);
    struct rrcache_request request = request_of(&wire, rtype, FIRST);
    request.mode = (enum rrcache_mode)0;
    return rrcache_forget(cache, &request);
}

static struct rrcache_stats stats_of(struct rrcache *cache)
{
    struct rrcache_stats stats = {0};
    NEED(rrcache_stats(cache, &stats) == RRCACHE_DONE);
    return stats;
}

static struct rrcache_stats stats_of_shelf(struct rrcache *cache, uint64_t shelf)
{
    struct rrcache_stats stats = {0};
    NEED(rrcache_stats_of(cache, shelf, &stats) == RRCACHE_DONE);
    return stats;
}

static uint64_t keys(struct rrcache *cache)
{
    return stats_of(cache).keys;
}

/* ---- What answers have. */

static unsigned count_of(const struct rrcache_answer *answer)
{
    struct rrcache_rrset rrset = {0};
    unsigned count = 0;
    while (rrcache_next(answer, &rrset))
        count++;
    return count;
}

/* An RRset of an answer by its number, counted from 0, or zeros. */
static struct rrcache_rrset nth(const struct rrcache_answer *answer, unsigned number)
{
    struct rrcache_rrset rrset = {0};
    while (rrcache_next(answer, &rrset) && number > 0)
        number--;
    return rrset;
}

static bool is_rrset(const struct rrcache_rrset *rrset, const char *owner, uint16_t rtype,
                     uint32_t ttl, uint32_t kind)
{
    bool is_denial = kind == RRCACHE_NODATA || kind == RRCACHE_NXDOMAIN;
    return rrset->kind == kind && rrset->set.rtype == rtype && rrset->set.rclass == RRCACHE_IN
           && rrset->set.ttl == ttl
           && rrset->set.section == (is_denial ? RRCACHE_AUTHORITY_SECTION : RRCACHE_ANSWER_SECTION)
           && rrset->set.owner_size != 0 && is_wire(rrset->set.owner, rrset->set.owner_size, owner);
}

/* Whether an RRset has one record, of these data. */
static bool has_datum(const struct rrcache_rrset *rrset, const uint8_t *data, size_t size)
{
    const struct rrcache_parsed_set *set = &rrset->set;
    return set->data_size == size + 2 && set->data[0] == size >> 8 && set->data[1] == (size & 255)
           && memcmp(set->data + 2, data, size) == 0;
}

static bool has_target(const struct rrcache_rrset *rrset, const char *target)
{
    struct wire wire = wire_of(target);
    return has_datum(rrset, wire.octets, wire.size);
}

/* Whether an answer has the address of a name alone. */
static bool is_address(const struct rrcache_answer *answer, const char *owner, uint32_t ttl)
{
    struct rrcache_rrset first = nth(answer, 0);
    return answer->kind == RRCACHE_FRESH && answer->aliases == 0 && count_of(answer) == 1
           && is_rrset(&first, owner, A, ttl, RRCACHE_FRESH) && has_datum(&first, OF(ADDRESS));
}

/* Whether an answer is a denial with the SOA record of `example` alone. */
static bool is_denial(const struct rrcache_answer *answer, uint32_t kind, uint32_t ttl)
{
    struct rrcache_rrset first = nth(answer, answer->aliases);
    return answer->kind == kind && count_of(answer) == answer->aliases + 1
           && is_rrset(&first, "example", SOA, ttl, kind) && has_datum(&first, OF(SOA_DATA));
}

/* Whether nothing was found, and what is to be asked for upstream is this name. */
static bool is_miss(const struct rrcache_answer *answer, uint32_t aliases, const char *end)
{
    return answer->kind == RRCACHE_MISS && answer->aliases == aliases && count_of(answer) == aliases
           && is_name(&answer->end, end) && answer->retry_from == 0 && !answer->is_endless;
}

/* ---- Opening. */

static enum rrcache_status opening(struct rrcache_config config)
{
    struct rrcache *cache = NULL;
    enum rrcache_status status = rrcache_open(&cache, &config);
    NEED((status == RRCACHE_DONE) == (cache != NULL));
    rrcache_close(cache);
    return status;
}

static void test_open(void)
{
    struct rrcache_config zeros = {0};
    struct rrcache *cache = NULL;
    EXPECT(rrcache_open(NULL, &zeros) == RRCACHE_NULL && opening(zeros) == RRCACHE_DONE);
    EXPECT(rrcache_open(&cache, NULL) == RRCACHE_DONE && cache != NULL);
    EXPECT(keep(cache, "www.example", 60) == RRCACHE_KEPT
           && kind_of(cache, "www.example", A, FIRST) == RRCACHE_FRESH);
    /* There are 64 shelves, and the last of them has the number 63. */
    EXPECT(stats_of_shelf(cache, 63).keys <= 1);
    EXPECT(rrcache_stats_of(cache, 64, &(struct rrcache_stats){0}) == RRCACHE_BAD_RULES);
    rrcache_close(cache);
    rrcache_close(NULL);
}

/* The first and the last number of each range, and those beside them. */
static void test_ranges(void)
{
    const struct rrcache_config small = {.shelves = 2, .keys = 2, .readers = 1};
    struct rrcache_config config;
#define OPENING(field, value) (config = small, config.field = (value), opening(config))
    EXPECT(OPENING(octets, 65536) == RRCACHE_DONE && OPENING(octets, 65535) == RRCACHE_BAD_RULES
           && OPENING(octets, 1) == RRCACHE_BAD_RULES);
    EXPECT(OPENING(octets, UINT64_C(1) << 46) == RRCACHE_DONE
           && OPENING(octets, (UINT64_C(1) << 46) + 1) == RRCACHE_BAD_RULES
           && OPENING(octets, UINT64_MAX) == RRCACHE_BAD_RULES);
    EXPECT(OPENING(shelves, 1) == RRCACHE_DONE && OPENING(shelves, 64) == RRCACHE_DONE
           && OPENING(shelves, 65) == RRCACHE_BAD_RULES
           && OPENING(shelves, UINT64_MAX) == RRCACHE_BAD_RULES);
    EXPECT(OPENING(readers, 64) == RRCACHE_DONE && OPENING(readers, 65) == RRCACHE_BAD_RULES
           && OPENING(readers, UINT64_MAX) == RRCACHE_BAD_RULES);
    EXPECT(OPENING(keys, 1) == RRCACHE_DONE && OPENING(keys, 2 * 65536) == RRCACHE_DONE
           && OPENING(keys, 2 * 65536 + 1) == RRCACHE_BAD_RULES
           && OPENING(keys, UINT64_MAX) == RRCACHE_BAD_RULES);
    EXPECT(OPENING(max_stale, 604800) == RRCACHE_DONE
           && OPENING(max_stale, 604801) == RRCACHE_BAD_RULES);
    EXPECT(OPENING(limits.cap, 604800) == RRCACHE_DONE
           && OPENING(limits.cap, 604801) == RRCACHE_BAD_LIMITS);
    EXPECT(OPENING(limits.negative_cap, 604800) == RRCACHE_DONE
           && OPENING(limits.negative_cap, 604801) == RRCACHE_BAD_LIMITS);
    EXPECT(OPENING(limits.recheck, 300) == RRCACHE_DONE
           && OPENING(limits.recheck, 301) == RRCACHE_BAD_LIMITS);
    EXPECT(opening((struct rrcache_config){.shelves = 65, .keys = 1}) == RRCACHE_BAD_RULES
           && opening((struct rrcache_config){.shelves = UINT64_MAX}) == RRCACHE_BAD_RULES);
#undef OPENING
}

/* By a seed that is given names lie where `rrcache_make_name` leads with it. By one that is drawn
   they lie elsewhere: 64 names all as another seed has them are one case of 2^128. */
static void test_seeds(void)
{
    struct rrcache_config given = config_of(4), drawn = config_of(4);
    memset(drawn.seed, 0, sizeof drawn.seed);
    struct rrcache *first = open_by(&given), *second = open_by(&drawn);
    bool is_same = true;
    for (int i = 0; i < 64; i++) {
        char name[24];
        snprintf(name, sizeof name, "n%d.example", i);
        uint64_t shelf = shelf_of(name, 4), before = stats_of_shelf(first, shelf).keys;
        uint64_t other = stats_of_shelf(second, shelf).keys;
        EXPECT(keep(first, name, 60) == RRCACHE_KEPT && keep(second, name, 60) == RRCACHE_KEPT);
        EXPECT(stats_of_shelf(first, shelf).keys == before + 1);
        is_same = is_same && stats_of_shelf(second, shelf).keys == other + 1;
    }
    EXPECT(!is_same && keys(first) == 64 && keys(second) == 64);
    rrcache_close(first);
    rrcache_close(second);
}

/* ---- Look-ups. */

static void test_lookup(void)
{
    struct rrcache *cache = open_small();
    struct rrcache_answer answer = look(cache, "www.example", A, FIRST);
    struct rrcache_rrset rrset;
    EXPECT(is_miss(&answer, 0, "www.example") && answer.size == 0 && !answer.is_stale);
    EXPECT(keep(cache, "www.example", 60) == RRCACHE_KEPT);
    answer = look(cache, "www.example", A, FIRST);
    EXPECT(is_address(&answer, "www.example", 60) && !answer.is_stale && answer.retry_from == 0
           && is_name(&answer.end, "www.example"));
    rrset = nth(&answer, 0);
    EXPECT(rrset.trust == RRCACHE_AUTHORITATIVE_ANSWER);
    answer = look(cache, "www.example", A, FIRST + 59);
    EXPECT(is_address(&answer, "www.example", 1));
    answer = look(cache, "www.example", A, FIRST + 60);
    EXPECT(is_miss(&answer, 0, "www.example"));
    answer = look(cache, "www.example", TXT, FIRST);
    EXPECT(is_miss(&answer, 0, "www.example"));
    /* A clock that stands before the data were stored. */
    answer = look(cache, "www.example", A, FIRST - 1);
    EXPECT(is_address(&answer, "www.example", 60));
    rrcache_close(cache);
}

static void test_denials(void)
{
    struct rrcache *cache = open_small();
    struct rrcache_answer answer;
    EXPECT(deny(cache, "www.example", RRCACHE_NODATA, 60) == RRCACHE_KEPT
           && deny(cache, "none.example", RRCACHE_NXDOMAIN, 90) == RRCACHE_KEPT);
    answer = look(cache, "www.example", A, FIRST + 10);
    EXPECT(is_denial(&answer, RRCACHE_NODATA, 50) && is_name(&answer.end, "www.example"));
    EXPECT(kind_of(cache, "www.example", TXT, FIRST) == RRCACHE_MISS);
    answer = look(cache, "none.example", A, FIRST + 10);
    EXPECT(is_denial(&answer, RRCACHE_NXDOMAIN, 80));
    answer = look(cache, "none.example", TXT, FIRST + 10);
    EXPECT(is_denial(&answer, RRCACHE_NXDOMAIN, 80));
    EXPECT(kind_of(cache, "none.example", TXT, FIRST + 90) == RRCACHE_MISS);
    /* Behind an alias. */
    EXPECT(keep_alias(cache, "alias.example", "none.example", 30) == RRCACHE_KEPT);
    answer = look(cache, "alias.example", A, FIRST + 10);
    EXPECT(answer.aliases == 1 && is_denial(&answer, RRCACHE_NXDOMAIN, 80)
           && is_name(&answer.end, "none.example"));
    rrcache_close(cache);
}

/* Writes the name of a link of a chain. */
static const char *link_of(int number)
{
    static char names[2][24];
    char *name = names[number & 1];
    snprintf(name, sizeof names[0], "c%d.example", number);
    return name;
}

/* Stores a chain of so many aliases, with an address at its end. */
static void keep_chain(struct rrcache *cache, int aliases)
{
    for (int i = 0; i < aliases; i++)
        NEED(keep_alias(cache, link_of(i), link_of(i + 1), (uint32_t)(100 + i)) == RRCACHE_KEPT);
    NEED(keep(cache, link_of(aliases), 60) == RRCACHE_KEPT);
}

/* A chain that ends is told in its order, each RRset with its own time. */
static void check_chain(int aliases)
{
    struct rrcache *cache = open_small();
    struct rrcache_answer answer;
    struct rrcache_rrset rrset = {0};
    keep_chain(cache, aliases);
    answer = look(cache, link_of(0), A, FIRST + 7);
    EXPECT(answer.kind == RRCACHE_FRESH && answer.aliases == (uint32_t)aliases && !answer.is_endless
           && !answer.is_stale && is_name(&answer.end, link_of(aliases)));
    for (int i = 0; i < aliases; i++)
        EXPECT(rrcache_next(&answer, &rrset)
               && is_rrset(&rrset, link_of(i), CNAME, (uint32_t)(93 + i), RRCACHE_FRESH)
               && has_target(&rrset, link_of(i + 1)));
    EXPECT(rrcache_next(&answer, &rrset) && is_rrset(&rrset, link_of(aliases), A, 53, RRCACHE_FRESH)
           && has_datum(&rrset, OF(ADDRESS)));
    EXPECT(!rrcache_next(&answer, &rrset) && rrset.next == 0 && rrset.set.owner == NULL);
    rrcache_close(cache);
}

static void test_chains(void)
{
    check_chain(1);
    check_chain(2);
    check_chain(RRCACHE_MOST_ALIASES);
    EXPECT(RRCACHE_MOST_ALIASES == 16);
}

static void test_endless_chains(void)
{
    struct rrcache *cache = open_small();
    struct rrcache_answer answer;
    keep_chain(cache, RRCACHE_MOST_ALIASES + 1);
    answer = look(cache, link_of(0), A, FIRST);
    EXPECT(answer.is_endless && answer.kind == RRCACHE_MISS
           && answer.aliases == RRCACHE_MOST_ALIASES && is_name(&answer.end, link_of(16)));
    answer = look(cache, link_of(1), A, FIRST);
    EXPECT(!answer.is_endless && answer.kind == RRCACHE_FRESH && answer.aliases == 16);
    /* A circle of two, and a name that is its own alias. */
    EXPECT(keep_alias(cache, "a.example", "b.example", 60) == RRCACHE_KEPT
           && keep_alias(cache, "b.example", "A.example", 60) == RRCACHE_KEPT
           && keep_alias(cache, "self.example", "self.example", 60) == RRCACHE_KEPT);
    answer = look(cache, "a.example", A, FIRST);
    EXPECT(answer.is_endless && answer.kind == RRCACHE_MISS && answer.retry_from == 0);
    answer = look(cache, "self.example", A, FIRST);
    EXPECT(answer.is_endless && answer.kind == RRCACHE_MISS);
    rrcache_close(cache);
}

/* A CNAME record that is asked for itself, and with ANY, is not followed (RFC 1034 section
   4.3.2). */
static void test_aliases_not_followed(void)
{
    struct rrcache *cache = open_small();
    struct rrcache_answer answer;
    struct rrcache_rrset rrset;
    keep_chain(cache, 1);
    answer = look(cache, link_of(0), CNAME, FIRST);
    rrset = nth(&answer, 0);
    EXPECT(answer.kind == RRCACHE_FRESH && answer.aliases == 0 && count_of(&answer) == 1
           && is_rrset(&rrset, link_of(0), CNAME, 100, RRCACHE_FRESH)
           && is_name(&answer.end, link_of(0)));
    answer = look(cache, link_of(0), ANY, FIRST);
    EXPECT(is_miss(&answer, 0, link_of(0)));
    rrcache_close(cache);
}

static void test_alias_to_a_missing_name(void)
{
    struct rrcache *cache = open_small();
    struct rrcache_answer answer;
    struct rrcache_rrset rrset;
    EXPECT(keep_alias(cache, "www.example", "other.example", 60) == RRCACHE_KEPT);
    answer = look(cache, "www.example", A, FIRST + 1);
    rrset = nth(&answer, 0);
    EXPECT(is_miss(&answer, 1, "other.example")
           && is_rrset(&rrset, "www.example", CNAME, 59, RRCACHE_FRESH));
    /* With the alias gone the name itself is the one to ask for. */
    answer = look(cache, "www.example", A, FIRST + 60);
    EXPECT(is_miss(&answer, 0, "www.example"));
    rrcache_close(cache);
}

/* Data past their time answer in each mode as RFC 8767 section 5 has it, with a TTL of 30, and for
   so long as the rules allow. */
static void test_stale(void)
{
    struct rrcache *cache = open_small();
    struct rrcache_answer answer;
    struct rrcache_rrset rrset;
    EXPECT(keep(cache, "www.example", 60) == RRCACHE_KEPT);
    EXPECT(kind_of(cache, "www.example", A, FIRST + 60) == RRCACHE_MISS);
    answer = look_in(cache, "www.example", A, FIRST + 60, RRCACHE_STALE_IF_FAILED);
    EXPECT(is_miss(&answer, 0, "www.example") && !answer.is_stale);
    answer = look_in(cache, "www.example", A, FIRST + 59, RRCACHE_STALE_NOW);
    EXPECT(answer.kind == RRCACHE_FRESH && !answer.is_stale);
    answer = look_in(cache, "www.example", A, FIRST + 60, RRCACHE_STALE_NOW);
    rrset = nth(&answer, 0);
    EXPECT(answer.kind == RRCACHE_STALE && answer.is_stale && count_of(&answer) == 1
           && is_rrset(&rrset, "www.example", A, 30, RRCACHE_STALE));
    answer = look_in(cache, "www.example", A, FIRST + 60 + MAX_STALE - 1, RRCACHE_STALE_NOW);
    EXPECT(answer.kind == RRCACHE_STALE);
    answer = look_in(cache, "www.example", A, FIRST + 60 + MAX_STALE, RRCACHE_STALE_NOW);
    EXPECT(answer.kind == RRCACHE_MISS && !answer.is_stale && count_of(&answer) == 0);

    EXPECT(fail(cache, "www.example", 30, FIRST + 100) == RRCACHE_KEPT);
    answer = look_in(cache, "www.example", A, FIRST + 129, RRCACHE_STALE_IF_FAILED);
    EXPECT(answer.kind == RRCACHE_STALE && answer.is_stale && answer.retry_from == 0);
    answer = look(cache, "www.example", A, FIRST + 129);
    EXPECT(answer.kind == RRCACHE_FAILED && answer.retry_from == FIRST + 130);
    answer = look_in(cache, "www.example", A, FIRST + 130, RRCACHE_STALE_IF_FAILED);
    EXPECT(answer.kind == RRCACHE_MISS);
    rrcache_close(cache);
}

static void test_no_stale(void)
{
    struct rrcache_config config = config_of(1);
    config.max_stale = 0;
    struct rrcache *cache = open_by(&config);
    struct rrcache_answer answer;
    EXPECT(keep(cache, "www.example", 60) == RRCACHE_KEPT);
    answer = look_in(cache, "www.example", A, FIRST + 60, RRCACHE_STALE_NOW);
    EXPECT(is_miss(&answer, 0, "www.example"));
    rrcache_close(cache);
}

/* A chain whose RRsets are past their time is told where asking for its question failed. */
static void test_stale_chain(void)
{
    struct rrcache *cache = open_small();
    struct rrcache_answer answer;
    struct rrcache_rrset rrset;
    EXPECT(keep_alias(cache, "www.example", "mid.example", 60) == RRCACHE_KEPT
           && keep_alias(cache, "mid.example", "other.example", 300) == RRCACHE_KEPT
           && keep(cache, "other.example", 60) == RRCACHE_KEPT);
    answer = look_in(cache, "www.example", A, FIRST + 105, RRCACHE_STALE_IF_FAILED);
    EXPECT(is_miss(&answer, 0, "www.example"));
    EXPECT(fail(cache, "www.example", 30, FIRST + 100) == RRCACHE_KEPT);
    answer = look_in(cache, "www.example", A, FIRST + 105, RRCACHE_STALE_IF_FAILED);
    EXPECT(answer.kind == RRCACHE_STALE && answer.is_stale && answer.aliases == 2
           && count_of(&answer) == 3 && is_name(&answer.end, "other.example"));
    rrset = nth(&answer, 0);
    EXPECT(is_rrset(&rrset, "www.example", CNAME, 30, RRCACHE_STALE));
    rrset = nth(&answer, 1);
    EXPECT(is_rrset(&rrset, "mid.example", CNAME, 195, RRCACHE_FRESH));
    rrset = nth(&answer, 2);
    EXPECT(is_rrset(&rrset, "other.example", A, 30, RRCACHE_STALE));
    /* Of the name in the middle no question failed. */
    answer = look_in(cache, "mid.example", A, FIRST + 105, RRCACHE_STALE_IF_FAILED);
    EXPECT(is_miss(&answer, 1, "other.example") && !answer.is_stale);
    answer = look_in(cache, "mid.example", A, FIRST + 105, RRCACHE_STALE_NOW);
    EXPECT(answer.kind == RRCACHE_STALE && answer.is_stale && answer.aliases == 1);
    /* A stale alias and a fresh address come to a stale answer. */
    EXPECT(keep_at(cache, "other.example", 300, FIRST + 100, RRCACHE_AUTHORITATIVE_ANSWER)
           == RRCACHE_KEPT);
    answer = look_in(cache, "www.example", A, FIRST + 105, RRCACHE_STALE_IF_FAILED);
    EXPECT(answer.kind == RRCACHE_FRESH && answer.is_stale && count_of(&answer) == 3);
    rrcache_close(cache);
}

/* What failed may be the question for the name at the end of an alias, which is the one to ask
   upstream for: then what is held of that name is told past its time (RFC 8767 section 5). */
static void test_stale_end(void)
{
    struct rrcache *cache = open_small();
    struct rrcache_answer answer;
    struct rrcache_rrset rrset;
    EXPECT(keep_alias(cache, "www.example", "other.example", 600) == RRCACHE_KEPT
           && keep(cache, "other.example", 60) == RRCACHE_KEPT);
    answer = look_in(cache, "www.example", A, FIRST + 100, RRCACHE_STALE_IF_FAILED);
    EXPECT(is_miss(&answer, 1, "other.example"));
    EXPECT(fail(cache, "other.example", 30, FIRST + 100) == RRCACHE_KEPT);
    answer = look_in(cache, "www.example", A, FIRST + 101, RRCACHE_STALE_IF_FAILED);
    rrset = nth(&answer, 1);
    EXPECT(answer.kind == RRCACHE_STALE && answer.is_stale && answer.aliases == 1
           && is_rrset(&rrset, "other.example", A, 30, RRCACHE_STALE));
    answer = look(cache, "www.example", A, FIRST + 101);
    EXPECT(answer.kind == RRCACHE_FAILED && answer.retry_from == FIRST + 130 && !answer.is_stale);
    answer = look_in(cache, "www.example", A, FIRST + 130, RRCACHE_STALE_IF_FAILED);
    EXPECT(is_miss(&answer, 1, "other.example"));
    rrcache_close(cache);
}

/* Where an alias has replaced an address, no stale address of the name is told, and the failure of
   its question counts for the alias's target (RFC 8767 section 7). */
static void test_stale_alias_over_an_address(void)
{
    struct rrcache *cache = open_small();
    EXPECT(keep(cache, "www.example", 60) == RRCACHE_KEPT
           && keep_alias(cache, "www.example", "other.example", 90) == RRCACHE_KEPT
           && keep(cache, "other.example", 60) == RRCACHE_KEPT
           && fail(cache, "www.example", 30, FIRST + 100) == RRCACHE_KEPT);
    struct rrcache_answer answer =
        look_in(cache, "www.example", A, FIRST + 101, RRCACHE_STALE_IF_FAILED);
    EXPECT(answer.kind == RRCACHE_STALE && answer.aliases == 1 && count_of(&answer) == 2
           && is_name(&answer.end, "other.example"));
    rrcache_close(cache);
}

/* The same if the address is not past its time, or a denial is there instead: it is older than the
   alias, and hides no failure that is younger than both (RFC 9520 section 3.2). */
static void test_failed_alias_over_fresh_data(void)
{
    for (int is_denied = 0; is_denied < 2; is_denied++) {
        struct rrcache *cache = open_small();
        struct rrcache_answer answer;
        EXPECT((is_denied ? deny(cache, "www.example", RRCACHE_NODATA, 600)
                          : keep(cache, "www.example", 600))
               == RRCACHE_KEPT);
        EXPECT(keep_alias(cache, "www.example", "other.example", 600) == RRCACHE_KEPT
               && keep(cache, "other.example", 60) == RRCACHE_KEPT);
        answer = look_in(cache, "www.example", A, FIRST + 101, RRCACHE_STALE_IF_FAILED);
        EXPECT(is_miss(&answer, 1, "other.example"));
        EXPECT(fail(cache, "www.example", 30, FIRST + 100) == RRCACHE_KEPT);
        answer = look_in(cache, "www.example", A, FIRST + 101, RRCACHE_STALE_IF_FAILED);
        EXPECT(answer.kind == RRCACHE_STALE && answer.aliases == 1 && count_of(&answer) == 2);
        answer = look(cache, "www.example", A, FIRST + 129);
        EXPECT(answer.kind == RRCACHE_FAILED && answer.retry_from == FIRST + 130);
        answer = look(cache, "www.example", A, FIRST + 130);
        EXPECT(is_miss(&answer, 1, "other.example"));
        /* What came later than the failure ends it, as the alias itself does. */
        EXPECT(deny(cache, "www.example", RRCACHE_NXDOMAIN, 5) == RRCACHE_KEPT
               && keep_alias(cache, "www.example", "other.example", 600) == RRCACHE_KEPT);
        answer = look(cache, "www.example", A, FIRST + 101);
        EXPECT(is_miss(&answer, 1, "other.example"));
        rrcache_close(cache);
    }
}

static void test_failed(void)
{
    struct rrcache *cache = open_small();
    struct rrcache_answer answer;
    EXPECT(fail(cache, "www.example", 30, FIRST) == RRCACHE_KEPT);
    answer = look(cache, "www.example", A, FIRST + 29);
    EXPECT(answer.kind == RRCACHE_FAILED && answer.retry_from == FIRST + 30
           && count_of(&answer) == 0 && is_name(&answer.end, "www.example"));
    answer = look(cache, "www.example", A, FIRST + 30);
    EXPECT(is_miss(&answer, 0, "www.example"));
    EXPECT(kind_of(cache, "www.example", TXT, FIRST) == RRCACHE_MISS);
    /* Behind an alias, of the name at its end. */
    EXPECT(keep_alias(cache, "alias.example", "www.example", 60) == RRCACHE_KEPT);
    answer = look(cache, "alias.example", A, FIRST + 1);
    EXPECT(answer.kind == RRCACHE_FAILED && answer.retry_from == FIRST + 30 && answer.aliases == 1
           && count_of(&answer) == 1 && is_name(&answer.end, "www.example"));
    /* Of the question itself, whose name is an alias. */
    EXPECT(keep_alias(cache, "asked.example", "gone.example", 60) == RRCACHE_KEPT
           && fail(cache, "asked.example", 40, FIRST) == RRCACHE_KEPT);
    answer = look(cache, "asked.example", A, FIRST + 1);
    EXPECT(answer.kind == RRCACHE_FAILED && answer.retry_from == FIRST + 40 && answer.aliases == 1);
    answer = look(cache, "asked.example", A, FIRST + 40);
    EXPECT(is_miss(&answer, 1, "gone.example"));
    /* An alias that came later leads to a name that was not asked for. */
    EXPECT(fail(cache, "late.example", 40, FIRST) == RRCACHE_KEPT
           && keep_alias(cache, "late.example", "gone.example", 60) == RRCACHE_KEPT);
    answer = look(cache, "late.example", A, FIRST + 1);
    EXPECT(is_miss(&answer, 1, "gone.example"));
    rrcache_close(cache);
}

/* If both the question and the name at the end of its chain have failed, the answer is a failure
   until the later of the two is over. */
static void test_failures_of_a_question_and_of_its_end(void)
{
    static const uint32_t ENDS[] = {5, 40, 50};
    for (size_t i = 0; i < sizeof ENDS / sizeof *ENDS; i++) {
        struct rrcache *cache = open_small();
        uint64_t last = FIRST + (ENDS[i] > 40 ? ENDS[i] : 40);
        EXPECT(keep_alias(cache, "www.example", "end.example", 600) == RRCACHE_KEPT
               && fail(cache, "www.example", 40, FIRST) == RRCACHE_KEPT
               && fail(cache, "end.example", ENDS[i], FIRST) == RRCACHE_KEPT);
        for (uint64_t moment = FIRST; moment <= last; moment++) {
            struct rrcache_answer answer = look(cache, "www.example", A, moment);
            EXPECT(moment == last ? is_miss(&answer, 1, "end.example")
                                  : answer.kind == RRCACHE_FAILED && answer.retry_from == last);
        }
        rrcache_close(cache);
    }
}

static void test_cases(void)
{
    struct rrcache *cache = open_small();
    struct rrcache_answer answer;
    EXPECT(keep_alias(cache, "wWw.Example", "OTHER.example", 60) == RRCACHE_KEPT
           && keep(cache, "Other.Example", 60) == RRCACHE_KEPT && keys(cache) == 2);
    answer = look(cache, "WWW.eXAMPLE", A, FIRST);
    struct rrcache_rrset first = nth(&answer, 0), second = nth(&answer, 1);
    EXPECT(answer.kind == RRCACHE_FRESH && is_name(&answer.end, "other.example"));
    /* Owners and data are told as they came. */
    EXPECT(is_rrset(&first, "wWw.Example", CNAME, 60, RRCACHE_FRESH)
           && has_target(&first, "OTHER.example")
           && is_rrset(&second, "Other.Example", A, 60, RRCACHE_FRESH));
    rrcache_close(cache);
}

/* Addresses that a referral brought answer no question (RFC 2181 section 5.4.1). */
static void test_glue(void)
{
    struct rrcache *cache = open_small();
    struct wire wire = wire_of("ns.example");
    struct rrcache_request request = request_of(&wire, A, FIRST);
    struct rrcache_answer answer = blank();
    EXPECT(keep_at(cache, "ns.example", 60, FIRST, RRCACHE_ADDITIONAL) == RRCACHE_KEPT);
    EXPECT(rrcache_lookup(cache, &request, &answer) == RRCACHE_DONE
           && is_miss(&answer, 0, "ns.example"));
    request.takes_glue = true;
    EXPECT(rrcache_lookup(cache, &request, &answer) == RRCACHE_DONE
           && is_address(&answer, "ns.example", 60));
    struct rrcache_rrset rrset = nth(&answer, 0);
    EXPECT(rrset.trust == RRCACHE_ADDITIONAL);
    rrcache_close(cache);
}

/* With each size of the buffer that is too small the answer has what found room. */
static void test_small_buffers(void)
{
    struct rrcache *cache = open_small();
    struct wire wire = wire_of("www.example");
    struct rrcache_request request = request_of(&wire, A, FIRST);
    EXPECT(keep_alias(cache, "www.example", "other.example", 60) == RRCACHE_KEPT
           && keep(cache, "other.example", 60) == RRCACHE_KEPT);
    struct rrcache_answer whole = look(cache, "www.example", A, FIRST);
    size_t first = nth(&whole, 0).next;
    EXPECT(whole.size > first && first > 0 && nth(&whole, 1).next == whole.size);
    for (size_t room = 0; room <= whole.size; room++) {
        uint8_t *buffer = malloc(room + 1);
        struct rrcache_answer answer = {.buffer = room == 0 ? NULL : buffer, .room = room};
        if (buffer == NULL)
            abort();
        buffer[room] = 0xee;
        EXPECT(rrcache_lookup(cache, &request, &answer)
               == (room < whole.size ? RRCACHE_SMALL : RRCACHE_DONE));
        EXPECT(count_of(&answer)
                   == (room < first        ? 0
                       : room < whole.size ? 1
                                           : 2)
               && answer.size <= room && buffer[room] == 0xee);
        free(buffer);
    }
    /* Of a miss no octet is needed. */
    struct rrcache_answer none = {0};
    request.rtype = TXT;
    EXPECT(rrcache_lookup(cache, &request, &none) == RRCACHE_SMALL);
    wire = wire_of("none.example");
    request = request_of(&wire, A, FIRST);
    EXPECT(rrcache_lookup(cache, &request, &none) == RRCACHE_DONE && none.kind == RRCACHE_MISS
           && none.buffer == NULL && none.room == 0);
    rrcache_close(cache);
}

static void test_lookups_refused(void)
{
    struct rrcache *cache = open_small();
    struct wire wire = wire_of("www.example");
    const struct rrcache_request good = request_of(&wire, A, FIRST);
    struct rrcache_answer answer = blank(), nowhere = {.room = 1};
    struct rrcache_request request;
    EXPECT(keep(cache, "www.example", 60) == RRCACHE_KEPT);
    EXPECT(rrcache_lookup(NULL, &good, &answer) == RRCACHE_NULL
           && rrcache_lookup(cache, NULL, &answer) == RRCACHE_NULL
           && rrcache_lookup(cache, &good, NULL) == RRCACHE_NULL
           && rrcache_lookup(cache, &good, &nowhere) == RRCACHE_NULL);
    EXPECT(rrcache_lookup_delegation(NULL, &good, &answer) == RRCACHE_NULL
           && rrcache_lookup_delegation(cache, NULL, &answer) == RRCACHE_NULL
           && rrcache_lookup_delegation(cache, &good, NULL) == RRCACHE_NULL
           && rrcache_lookup_delegation(cache, &good, &nowhere) == RRCACHE_NULL);
#define REFUSED(field, value, status)                                                              \
    (request = good, request.field = (value), rrcache_lookup(cache, &request, &answer) == (status))
    EXPECT(REFUSED(name, NULL, RRCACHE_NULL) && REFUSED(name_size, 0, RRCACHE_BAD_NAME)
           && REFUSED(name_size, wire.size - 1, RRCACHE_BAD_NAME)
           && REFUSED(name_size, wire.size + 1, RRCACHE_BAD_NAME)
           && REFUSED(name_size, sizeof wire.octets, RRCACHE_BAD_NAME));
    EXPECT(REFUSED(rtype, 0, RRCACHE_BAD_TYPE) && REFUSED(rclass, 0, RRCACHE_BAD_TYPE)
           && REFUSED(rclass, 2, RRCACHE_BAD_TYPE) && REFUSED(rclass, 255, RRCACHE_BAD_TYPE));
    EXPECT(REFUSED(mode, (enum rrcache_mode)0, RRCACHE_BAD_CHOICE)
           && REFUSED(mode, (enum rrcache_mode)4, RRCACHE_BAD_CHOICE));
    EXPECT(REFUSED(rtype, OPT, RRCACHE_DONE) && answer.kind == RRCACHE_MISS);
    EXPECT(REFUSED(rclass, RRCACHE_CH, RRCACHE_DONE) && answer.kind == RRCACHE_MISS);
#undef REFUSED
#define REFUSED(field, value, status)                                                              \
    (request = good, request.field = (value),                                                      \
     rrcache_lookup_delegation(cache, &request, &answer) == (status))
    EXPECT(REFUSED(name, NULL, RRCACHE_NULL) && REFUSED(name_size, 0, RRCACHE_BAD_NAME)
           && REFUSED(name_size, wire.size - 1, RRCACHE_BAD_NAME)
           && REFUSED(rclass, 0, RRCACHE_BAD_TYPE));
#undef REFUSED
    rrcache_close(cache);
}

/* A moment above 2^40 is refused whatever is held, whichever lock is taken for the look-up, and
   behind what else is to be refused. */
static void test_late_lookups(void)
{
    for (int exact_recency = 0; exact_recency < 2; exact_recency++) {
        struct rrcache_config config = config_of(1);
        config.exact_recency = exact_recency;
        struct rrcache *cache = open_by(&config);
        struct wire wire = wire_of("www.example");
        struct rrcache_request request = request_of(&wire, A, LATE);
        struct rrcache_answer answer = blank(), small = {0};
        EXPECT(rrcache_lookup(cache, &request, &answer) == RRCACHE_MOMENT_TOO_LARGE
               && rrcache_lookup_delegation(cache, &request, &answer) == RRCACHE_MOMENT_TOO_LARGE);
        for (int i = 0; i < 8; i++)
            NEED(keep_at(cache, i == 0 ? "www.example" : link_of(i), 60, LAST,
                         RRCACHE_AUTHORITATIVE_ANSWER)
                 == RRCACHE_KEPT);
        EXPECT(rrcache_lookup(cache, &request, &answer) == RRCACHE_MOMENT_TOO_LARGE
               && rrcache_lookup(cache, &request, &small) == RRCACHE_SMALL);
        request.moment = UINT64_MAX;
        EXPECT(rrcache_lookup(cache, &request, &answer) == RRCACHE_MOMENT_TOO_LARGE);
        request.mode = (enum rrcache_mode)0;
        EXPECT(rrcache_lookup(cache, &request, &answer) == RRCACHE_BAD_CHOICE);
        answer = look(cache, "www.example", A, LAST);
        EXPECT(is_address(&answer, "www.example", 60));
        EXPECT(stats_of(cache).hits == 1 && stats_of(cache).misses == 0);
        rrcache_close(cache);
    }
}

/* So is a look-up of a delegation whose negative answer needs no room. */
static void test_late_delegations(void)
{
    struct rrcache *cache = open_small();
    struct wire wire = wire_of("");
    struct rrcache_negative negative = negative_of(&wire, RRCACHE_NODATA, 60);
    struct rrcache_request request = request_of(&wire, A, LATE);
    struct rrcache_answer small = {0};
    negative.rtype = NS;
    negative.moment = LAST;
    NEED(store_negative(cache, negative) == RRCACHE_KEPT);
    EXPECT(rrcache_lookup_delegation(cache, &request, &small) == RRCACHE_MOMENT_TOO_LARGE);
    request.moment = LAST;
    EXPECT(rrcache_lookup_delegation(cache, &request, &small) == RRCACHE_DONE
           && small.kind == RRCACHE_MISS);
    rrcache_close(cache);
}

/* Whether an answer has nothing, as one that a refused call leaves. */
static bool is_empty(const struct rrcache_answer *answer)
{
    return answer->kind == RRCACHE_MISS && answer->size == 0 && count_of(answer) == 0
           && answer->aliases == 0 && answer->retry_from == 0 && answer->end.size == 0
           && !answer->is_stale && !answer->is_endless && answer->room == sizeof space;
}

/* A refused call leaves nothing of an answer that was there before. */
static void test_answers_of_refused_calls(void)
{
    static struct message message;
    struct rrcache *cache = open_small();
    struct wire wire = wire_of(link_of(0));
    struct rrcache_request request = request_of(&wire, A, FIRST);
    struct rrcache_report report;
    struct rrcache_answer before, answer;
    keep_chain(cache, 2);
    before = look(cache, link_of(0), A, FIRST);
#define EMPTIED(call, status) EXPECT((answer = before, (call) == (status)) && is_empty(&answer))
    EMPTIED(rrcache_lookup(NULL, &request, &answer), RRCACHE_NULL);
    EMPTIED(rrcache_lookup(cache, NULL, &answer), RRCACHE_NULL);
    EMPTIED(rrcache_lookup_delegation(NULL, &request, &answer), RRCACHE_NULL);
    EMPTIED(rrcache_store(cache, NULL, NULL, NULL, &answer), RRCACHE_NULL);
    request.rclass = 2;
    EMPTIED(rrcache_lookup(cache, &request, &answer), RRCACHE_BAD_TYPE);
    EMPTIED(rrcache_lookup_delegation(cache, &request, &answer), RRCACHE_BAD_TYPE);
    request = request_of(&wire, A, LATE);
    EMPTIED(rrcache_lookup(cache, &request, &answer), RRCACHE_MOMENT_TOO_LARGE);
    EMPTIED(rrcache_lookup_delegation(cache, &request, &answer), RRCACHE_MOMENT_TOO_LARGE);
    request.name_size--;
    EMPTIED(rrcache_lookup(cache, &request, &answer), RRCACHE_BAD_NAME);
    EMPTIED(rrcache_lookup_delegation(cache, &request, &answer), RRCACHE_BAD_NAME);
    begin(&message, AA, "www.example", A);
    EMPTIED(try_to_store(cache, &message, "other.example", A, &report, &answer),
            RRCACHE_OTHER_QUERY);
#undef EMPTIED
    rrcache_close(cache);
}

static uint64_t boot_time(void)
{
    struct timespec now;
    NEED(clock_gettime(CLOCK_BOOTTIME, &now) == 0);
    return (uint64_t)now.tv_sec;
}

/* Whether a name answers at a moment with a TTL from one number to another. */
static bool is_left(struct rrcache *cache, uint64_t moment, uint32_t least, uint32_t most)
{
    struct rrcache_answer answer = look(cache, "www.example", A, moment);
    uint32_t left = nth(&answer, 0).set.ttl;
    return answer.kind == RRCACHE_FRESH && least <= left && left <= most;
}

/* The moment 0 is now. A test takes less than 50 seconds. */
static void test_clock(void)
{
    struct rrcache *cache = open_small();
    struct rrcache_swept swept = {0};
    uint64_t now = boot_time();
    EXPECT(keep_at(cache, "www.example", 1000, 0, RRCACHE_AUTHORITATIVE_ANSWER) == RRCACHE_KEPT);
    EXPECT(is_left(cache, 0, 950, 1000) && is_left(cache, now + 900, 100, 150));
    EXPECT(kind_of(cache, "www.example", A, now + 1050) == RRCACHE_MISS);
    EXPECT(rrcache_sweep_all(cache, 0, 10, &swept) == RRCACHE_DONE && swept.removed == 0);
    EXPECT(fail(cache, "bad.example", 300, 0) == RRCACHE_KEPT);
    struct rrcache_answer answer = look(cache, "bad.example", A, 0);
    EXPECT(answer.kind == RRCACHE_FAILED && answer.retry_from >= now + 300
           && answer.retry_from <= now + 350);
    rrcache_close(cache);
}

/* ---- What an answer tells. */

static void test_next(void)
{
    struct rrcache *cache = open_small();
    struct rrcache_answer answer, empty = blank();
    struct rrcache_rrset rrset = {0}, first;
    keep_chain(cache, 2);
    answer = look(cache, link_of(0), A, FIRST);
    for (int round = 0; round < 2; round++) {
        size_t at = 0;
        for (int i = 0; i < 3; i++) {
            EXPECT(rrcache_next(&answer, &rrset) && rrset.set.owner >= answer.buffer + at
                   && rrset.set.owner + rrset.set.owner_size <= rrset.set.data
                   && rrset.set.data + rrset.set.data_size <= answer.buffer + rrset.next
                   && rrset.next <= answer.size && rrset.next > at);
            at = rrset.next;
        }
        EXPECT(!rrcache_next(&answer, &rrset) && rrset.kind == 0 && rrset.next == 0);
    }
    first = nth(&answer, 0);
    EXPECT(rrcache_next(&answer, &rrset) && rrset.set.owner == first.set.owner);
    memset(&rrset, 0, sizeof rrset);
    EXPECT(!rrcache_next(&empty, &rrset) && !rrcache_next(NULL, &rrset)
           && !rrcache_next(&answer, NULL));
    rrcache_close(cache);
}

static bool are_same_rrsets(const struct rrcache_rrset *one, const struct rrcache_rrset *other)
{
    const struct rrcache_parsed_set *a = &one->set, *b = &other->set;
    return one->kind == other->kind && a->rtype == b->rtype && a->rclass == b->rclass
           && a->ttl == b->ttl && a->section == b->section
           && rrcache_are_same(a->owner, a->owner_size, b->owner, b->owner_size)
           && rrcache_are_same(a->data, a->data_size, b->data, b->data_size);
}

/* Hands an answer from one cache to another, as a message that is composed of it. Of a denial the
   SOA record is kept as an RRset too. */
static void carry(struct rrcache *from, struct rrcache *to, const char *name, uint32_t kind)
{
    static uint8_t other_space[RRCACHE_ANSWER_OCTETS];
    static struct message message;
    struct rrcache_answer answer = look(from, name, A, FIRST + 10);
    struct rrcache_answer told = {.buffer = other_space, .room = sizeof other_space};
    struct rrcache_parsed_set sets[RRCACHE_MOST_ALIASES + 1];
    struct rrcache_rrset one = {0}, other = {0};
    struct wire wire = wire_of(name), root = wire_of("");
    struct rrcache_query query = query_of(&wire, A);
    struct rrcache_parsed_response parsed = {.aa = true, .sets = sets};
    struct rrcache_report report;
    uint32_t fault = 9;
    parsed.rcode = answer.kind == RRCACHE_NXDOMAIN ? NXDOMAIN : 0;
    while (rrcache_next(&answer, &one))
        sets[parsed.count++] = one.set;
    EXPECT(answer.kind == kind
           && rrcache_compose_response(&query, &parsed, OF(message.octets), &message.size)
                  == RRCACHE_DONE);
    EXPECT(rrcache_fault(message.octets, message.size, &fault) == RRCACHE_DONE
           && fault == RRCACHE_NO_FAULT);
    struct rrcache_response response = response_of(&message);
    response.zone = root.octets;
    response.zone_size = root.size;
    response.moment = FIRST + 10;
    EXPECT(rrcache_store(to, &query, &response, &report, &told) == RRCACHE_DONE && told.kind == kind
           && told.aliases == answer.aliases
           && report.counts.kept == parsed.count + (kind != RRCACHE_FRESH));
    for (size_t i = 0; i < parsed.count; i++)
        EXPECT(rrcache_next(&answer, &one) && rrcache_next(&told, &other)
               && are_same_rrsets(&one, &other));
    told.size = 0;
    struct rrcache_request request = request_of(&wire, A, FIRST + 10);
    EXPECT(rrcache_lookup(to, &request, &told) == RRCACHE_DONE && told.kind == kind
           && count_of(&told) == parsed.count);
    while (rrcache_next(&answer, &one))
        EXPECT(rrcache_next(&told, &other) && are_same_rrsets(&one, &other));
}

static void test_composed_answers(void)
{
    struct rrcache *from = open_small(), *to = open_small();
    keep_chain(from, 5);
    EXPECT(deny(from, "empty.example", RRCACHE_NODATA, 50) == RRCACHE_KEPT
           && deny(from, "none.example", RRCACHE_NXDOMAIN, 50) == RRCACHE_KEPT
           && keep_alias(from, "alias.example", "none.example", 30) == RRCACHE_KEPT);
    carry(from, to, link_of(0), RRCACHE_FRESH);
    carry(from, to, link_of(5), RRCACHE_FRESH);
    carry(from, to, "empty.example", RRCACHE_NODATA);
    carry(from, to, "none.example", RRCACHE_NXDOMAIN);
    rrcache_close(to);
    to = open_small();
    carry(from, to, "alias.example", RRCACHE_NXDOMAIN);
    rrcache_close(from);
    rrcache_close(to);
}

/* ---- Entries, by which a resolver sees when data are to be renewed. */

/* Whether an entry is of this kind, trust and TTL, and was stored at a moment. */
static bool is_entry(const struct rrcache_entry *entry, uint32_t kind, uint32_t trust, uint32_t ttl,
                     uint64_t moment)
{
    return entry->kind == kind && entry->trust == trust && entry->ttl == ttl
           && entry->moment == moment;
}

/* The TTL and the moment are those of storing, whatever time has passed since. */
static void test_entries(void)
{
    struct rrcache *cache = open_small();
    struct rrcache_answer answer;
    struct rrcache_rrset rrset;
    EXPECT(keep_at(cache, "www.example", 60, FIRST + 5, RRCACHE_NON_AUTHORITATIVE_ANSWER)
               == RRCACHE_KEPT
           && keep_alias(cache, "alias.example", "www.example", 90) == RRCACHE_KEPT
           && deny(cache, "none.example", RRCACHE_NXDOMAIN, 40) == RRCACHE_KEPT);
    answer = look(cache, "alias.example", A, FIRST + 55);
    rrset = nth(&answer, 0);
    EXPECT(rrset.set.ttl == 35 && rrset.trust == rrset.entry.trust
           && is_entry(&rrset.entry, RRCACHE_FRESH, RRCACHE_AUTHORITATIVE_ANSWER, 90, FIRST));
    rrset = nth(&answer, 1);
    EXPECT(
        rrset.set.ttl == 10
        && is_entry(&rrset.entry, RRCACHE_FRESH, RRCACHE_NON_AUTHORITATIVE_ANSWER, 60, FIRST + 5));
    answer = look_in(cache, "www.example", A, FIRST + 65, RRCACHE_STALE_NOW);
    rrset = nth(&answer, 0);
    EXPECT(
        rrset.kind == RRCACHE_STALE
        && is_entry(&rrset.entry, RRCACHE_FRESH, RRCACHE_NON_AUTHORITATIVE_ANSWER, 60, FIRST + 5));
    answer = look(cache, "none.example", A, FIRST + 39);
    rrset = nth(&answer, 0);
    EXPECT(rrset.set.ttl == 1
           && is_entry(&rrset.entry, RRCACHE_NXDOMAIN, RRCACHE_AUTHORITY, 40, FIRST));
    EXPECT(keep_name(cache, "sub.example", NS, "ns.sub.example", 300) == RRCACHE_KEPT);
    answer = delegation(cache, "host.sub.example", FIRST + 100);
    rrset = nth(&answer, 0);
    EXPECT(rrset.set.ttl == 200
           && is_entry(&rrset.entry, RRCACHE_FRESH, RRCACHE_AUTHORITATIVE_ANSWER, 300, FIRST));
    EXPECT(!rrcache_next(&answer, &rrset) && is_entry(&rrset.entry, 0, 0, 0, 0));
    rrcache_close(cache);
}

/* Numbers tell the entries of a shelf apart, and an age is told as it was before the look-up. */
static void test_entries_of_one_shelf(void)
{
    struct rrcache_config config = config_of(1);
    config.exact_recency = true;
    struct rrcache *cache = open_by(&config);
    struct rrcache_answer answer;
    struct rrcache_entry first, second;
    EXPECT(keep(cache, "first.example", 60) == RRCACHE_KEPT
           && keep(cache, "second.example", 60) == RRCACHE_KEPT);
    answer = look(cache, "second.example", A, FIRST);
    second = nth(&answer, 0).entry;
    answer = look(cache, "first.example", A, FIRST);
    first = nth(&answer, 0).entry;
    EXPECT(first.number < second.number && first.age == 1 && second.age == 0);
    answer = look(cache, "first.example", A, FIRST);
    EXPECT(nth(&answer, 0).entry.age == 0 && nth(&answer, 0).entry.number == first.number);
    answer = look(cache, "second.example", A, FIRST);
    EXPECT(nth(&answer, 0).entry.age == 1 && nth(&answer, 0).entry.number == second.number);
    EXPECT(keep(cache, "first.example", 60) == RRCACHE_KEPT);
    answer = look(cache, "first.example", A, FIRST);
    EXPECT(nth(&answer, 0).entry.number > second.number);
    rrcache_close(cache);
}

/* Of a response the entry is as it is stored, with a TTL that the limits cut, and without what a
   shelf alone tells. */
static void test_entries_of_responses(void)
{
    static struct message message;
    struct rrcache_config config = config_of(1);
    config.limits.cap = 1000;
    struct rrcache *cache = open_by(&config);
    struct rrcache_answer answer;
    struct rrcache_entry entry;
    EXPECT(keep(cache, "other.example", 60) == RRCACHE_KEPT);
    begin(&message, AA, "www.example", A);
    add_answer(&message, "www.example", 5000);
    store(cache, &message, "www.example", A, &answer);
    entry = nth(&answer, 0).entry;
    EXPECT(is_entry(&entry, RRCACHE_FRESH, RRCACHE_AUTHORITATIVE_ANSWER, 1000, FIRST)
           && entry.number == 0 && entry.age == 0);
    answer = look(cache, "www.example", A, FIRST + 900);
    entry = nth(&answer, 0).entry;
    EXPECT(is_entry(&entry, RRCACHE_FRESH, RRCACHE_AUTHORITATIVE_ANSWER, 1000, FIRST)
           && entry.number > 0 && nth(&answer, 0).set.ttl == 100);
    begin(&message, AA, "empty.example", A);
    add_soa(&message, "example", 900);
    store(cache, &message, "empty.example", A, &answer);
    entry = nth(&answer, 0).entry;
    EXPECT(is_entry(&entry, RRCACHE_NODATA, RRCACHE_AUTHORITATIVE_ANSWER, 60, FIRST));
    rrcache_close(cache);
}

/* ---- Delegations. */

static bool is_delegation(const struct rrcache_answer *answer, const char *zone, uint32_t ttl)
{
    struct rrcache_rrset rrset = nth(answer, 0);
    return answer->kind == RRCACHE_FRESH && answer->aliases == 0 && count_of(answer) == 1
           && is_rrset(&rrset, zone, NS, ttl, RRCACHE_FRESH) && is_name(&answer->end, zone);
}

static void test_delegations(void)
{
    struct rrcache *cache = open_small();
    struct rrcache_answer answer = delegation(cache, "host.sub.example", FIRST);
    EXPECT(answer.kind == RRCACHE_MISS && count_of(&answer) == 0);
    EXPECT(keep_name(cache, "sub.example", NS, "ns.sub.example", 30) == RRCACHE_KEPT
           && keep_name(cache, "example", NS, "ns.example", 60) == RRCACHE_KEPT
           && keep_name(cache, "", NS, "a.root.example", 90) == RRCACHE_KEPT
           && deny(cache, "host.sub.example", RRCACHE_NXDOMAIN, 60) == RRCACHE_KEPT);
    answer = delegation(cache, "host.sub.example", FIRST + 1);
    EXPECT(is_delegation(&answer, "sub.example", 29));
    answer = delegation(cache, "SUB.Example", FIRST + 1);
    EXPECT(is_delegation(&answer, "sub.example", 29));
    answer = delegation(cache, "host.sub.example", FIRST + 30);
    EXPECT(is_delegation(&answer, "example", 30));
    answer = delegation(cache, "example", FIRST + 30);
    EXPECT(is_delegation(&answer, "example", 30));
    answer = delegation(cache, "host.other", FIRST + 30);
    EXPECT(is_delegation(&answer, "", 60));
    answer = delegation(cache, "host.sub.example", FIRST + 60);
    EXPECT(is_delegation(&answer, "", 30));
    answer = delegation(cache, "", FIRST + 60);
    EXPECT(is_delegation(&answer, "", 30));
    answer = delegation(cache, "host.sub.example", FIRST + 90);
    EXPECT(answer.kind == RRCACHE_MISS && count_of(&answer) == 0);
    rrcache_close(cache);
}

/* A denial of a name's NS records, which takes more than an NS RRset above it, needs no room. */
static void test_small_delegations(void)
{
    struct rrcache *cache = open_small();
    struct wire wire = wire_of("host.sub.example");
    struct rrcache_request request = request_of(&wire, 0, FIRST);
    struct rrcache_answer none = {0};
    EXPECT(deny(cache, "host.sub.example", RRCACHE_NXDOMAIN, 60) == RRCACHE_KEPT);
    EXPECT(rrcache_lookup_delegation(cache, &request, &none) == RRCACHE_DONE
           && none.kind == RRCACHE_MISS);
    EXPECT(keep_name(cache, "", NS, "", 60) == RRCACHE_KEPT);
    EXPECT(rrcache_lookup_delegation(cache, &request, &none) == RRCACHE_SMALL);
    struct rrcache_answer answer = delegation(cache, "host.sub.example", FIRST);
    EXPECT(is_delegation(&answer, "", 60));
    answer.room = answer.size;
    EXPECT(rrcache_lookup_delegation(cache, &request, &answer) == RRCACHE_DONE
           && is_delegation(&answer, "", 60));
    answer.room = answer.size - 1;
    EXPECT(rrcache_lookup_delegation(cache, &request, &answer) == RRCACHE_SMALL);
    rrcache_close(cache);
}

/* The name of the request may lie anywhere in the buffer, where the SOA record of a denial is put
   while zones are looked up. In `end` it is refused. */
static void test_delegations_of_names_in_the_buffer(void)
{
    struct rrcache *cache = open_small();
    struct wire wire = wire_of("a.host.sub.example");
    struct rrcache_request request = request_of(&wire, 0, FIRST);
    EXPECT(deny(cache, "a.host.sub.example", RRCACHE_NXDOMAIN, 60) == RRCACHE_KEPT
           && keep_name(cache, "example", NS, "ns.example", 60) == RRCACHE_KEPT);
    for (size_t at = 0; at < 200; at++) {
        struct rrcache_answer answer = blank();
        memcpy(space + at, wire.octets, wire.size);
        request.name = space + at;
        EXPECT(rrcache_lookup_delegation(cache, &request, &answer) == RRCACHE_DONE
               && is_delegation(&answer, "example", 60));
        memcpy(answer.end.octets, wire.octets, wire.size);
        request.name = answer.end.octets;
        EXPECT(rrcache_lookup_delegation(cache, &request, &answer) == RRCACHE_OVERLAP);
    }
    rrcache_close(cache);
}

static void test_referral(void)
{
    static struct message message;
    struct rrcache *cache = open_small();
    struct wire server = wire_of("ns.sub.example");
    struct rrcache_answer answer;
    begin(&message, 0, "host.sub.example", A);
    add(&message, RRCACHE_AUTHORITY_SECTION, "sub.example", NS, 300, server.octets, server.size);
    add(&message, RRCACHE_ADDITIONAL_SECTION, "ns.sub.example", A, 200, OF(ADDRESS));
    struct rrcache_report report = store(cache, &message, "host.sub.example", A, &answer);
    EXPECT(report.summary.kind == RRCACHE_RESPONSE_REFERRAL && report.summary.rcode == 0
           && !report.summary.aa && !report.summary.tc && is_name(&report.name, "sub.example"));
    EXPECT(report.counts.kept == 2 && report.too_large == 0
           && is_miss(&answer, 0, "host.sub.example"));
    answer = delegation(cache, "host.sub.example", FIRST);
    struct rrcache_rrset rrset = nth(&answer, 0);
    EXPECT(is_delegation(&answer, "sub.example", 300) && rrset.trust == RRCACHE_ADDITIONAL);
    EXPECT(kind_of(cache, "sub.example", NS, FIRST) == RRCACHE_MISS);
    /* Nor does it answer a question for these servers. */
    begin(&message, 0, "sub.example", NS);
    add(&message, RRCACHE_AUTHORITY_SECTION, "sub.example", NS, 300, server.octets, server.size);
    report = store(cache, &message, "sub.example", NS, &answer);
    EXPECT(report.summary.kind == RRCACHE_RESPONSE_REFERRAL && is_miss(&answer, 0, "sub.example"));
    rrcache_close(cache);
}

/* ---- Responses. */

static void test_store_answer(void)
{
    static struct message message;
    struct rrcache *cache = open_small();
    struct rrcache_answer answer;
    begin(&message, AA, "www.example", A);
    add_answer(&message, "www.example", 300);
    struct rrcache_report report = store(cache, &message, "www.example", A, &answer);
    EXPECT(report.summary.kind == RRCACHE_RESPONSE_ANSWER && report.summary.aa
           && report.summary.rcode == 0 && report.counts.kept == 1 && report.counts.cleared == 0
           && report.counts.outranked == 0 && report.too_large == 0 && report.name.size == 0);
    EXPECT(is_address(&answer, "www.example", 300) && is_name(&answer.end, "www.example"));
    answer = look(cache, "www.example", A, FIRST + 100);
    EXPECT(is_address(&answer, "www.example", 200));
    /* Without an answer the same is stored. */
    struct rrcache *other = open_small();
    EXPECT(try_to_store(other, &message, "www.example", A, &report, NULL) == RRCACHE_DONE
           && report.counts.kept == 1 && kind_of(other, "www.example", A, FIRST) == RRCACHE_FRESH);
    rrcache_close(other);
    rrcache_close(cache);
}

static void test_store_chain(void)
{
    static struct message message;
    struct rrcache *cache = open_small();
    struct rrcache_answer answer;
    struct rrcache_rrset rrset;
    begin(&message, AA, "www.example", A);
    add_alias(&message, "www.example", "mid.example", 100);
    add_alias(&message, "mid.example", "other.example", 200);
    add_answer(&message, "other.example", 300);
    struct rrcache_report report = store(cache, &message, "www.example", A, &answer);
    EXPECT(report.summary.kind == RRCACHE_RESPONSE_ANSWER && report.counts.kept == 3);
    for (int round = 0; round < 2; round++) {
        EXPECT(answer.kind == RRCACHE_FRESH && answer.aliases == 2 && count_of(&answer) == 3
               && is_name(&answer.end, "other.example"));
        rrset = nth(&answer, 0);
        EXPECT(is_rrset(&rrset, "www.example", CNAME, 100, RRCACHE_FRESH));
        rrset = nth(&answer, 1);
        EXPECT(is_rrset(&rrset, "mid.example", CNAME, 200, RRCACHE_FRESH));
        rrset = nth(&answer, 2);
        EXPECT(is_rrset(&rrset, "other.example", A, 300, RRCACHE_FRESH));
        answer = look(cache, "www.example", A, FIRST);
    }
    rrcache_close(cache);
}

/* An alias that leads on to a name of which the response has nothing. */
static void test_store_alias(void)
{
    static struct message message;
    struct rrcache *cache = open_small();
    struct rrcache_answer answer;
    begin(&message, AA, "www.example", A);
    add_alias(&message, "www.example", "other.test", 100);
    struct rrcache_report report = store(cache, &message, "www.example", A, &answer);
    EXPECT(report.summary.kind == RRCACHE_RESPONSE_ALIAS && is_name(&report.name, "other.test")
           && report.counts.kept == 1 && is_miss(&answer, 1, "other.test"));
    /* Asked for itself it is the answer. */
    begin(&message, AA, "www.example", CNAME);
    add_alias(&message, "www.example", "other.test", 100);
    report = store(cache, &message, "www.example", CNAME, &answer);
    EXPECT(report.summary.kind == RRCACHE_RESPONSE_ANSWER && answer.kind == RRCACHE_FRESH
           && answer.aliases == 0 && count_of(&answer) == 1);
    /* Aliases in a circle. */
    begin(&message, AA, "a.example", A);
    add_alias(&message, "a.example", "b.example", 100);
    add_alias(&message, "b.example", "a.example", 100);
    report = store(cache, &message, "a.example", A, &answer);
    EXPECT(report.summary.kind == RRCACHE_RESPONSE_UNUSABLE && answer.is_endless
           && answer.kind == RRCACHE_MISS);
    rrcache_close(cache);
}

/* A denial lives as long as the lower one of its SOA record's TTL and MINIMUM (RFC 2308 section
   5). */
static void test_store_denials(void)
{
    static struct message message;
    struct rrcache *cache = open_small();
    struct rrcache_answer answer;
    begin(&message, AA | NXDOMAIN, "none.example", A);
    add_soa(&message, "example", 900);
    struct rrcache_report report = store(cache, &message, "none.example", A, &answer);
    EXPECT(report.summary.kind == RRCACHE_RESPONSE_NXDOMAIN && report.summary.rcode == NXDOMAIN
           && is_denial(&answer, RRCACHE_NXDOMAIN, 60) && answer.aliases == 0);
    answer = look(cache, "none.example", TXT, FIRST + 1);
    EXPECT(is_denial(&answer, RRCACHE_NXDOMAIN, 59));
    begin(&message, AA, "www.example", A);
    add_soa(&message, "example", 40);
    report = store(cache, &message, "www.example", A, &answer);
    EXPECT(report.summary.kind == RRCACHE_RESPONSE_NODATA
           && is_denial(&answer, RRCACHE_NODATA, 40));
    answer = look(cache, "www.example", A, FIRST + 1);
    EXPECT(is_denial(&answer, RRCACHE_NODATA, 39));
    /* Behind an alias it is the alias's target that is denied (RFC 2308 section 2.1). */
    begin(&message, AA | NXDOMAIN, "alias.example", A);
    add_alias(&message, "alias.example", "gone.example", 100);
    add_soa(&message, "example", 900);
    report = store(cache, &message, "alias.example", A, &answer);
    EXPECT(report.summary.kind == RRCACHE_RESPONSE_NXDOMAIN && answer.aliases == 1
           && is_denial(&answer, RRCACHE_NXDOMAIN, 60) && is_name(&answer.end, "gone.example"));
    EXPECT(kind_of(cache, "gone.example", A, FIRST) == RRCACHE_NXDOMAIN
           && kind_of(cache, "alias.example", CNAME, FIRST) == RRCACHE_FRESH);
    /* One without an SOA record is not kept (RFC 2308 section 5). */
    begin(&message, AA | NXDOMAIN, "bare.example", A);
    report = store(cache, &message, "bare.example", A, &answer);
    EXPECT(report.summary.kind == RRCACHE_RESPONSE_NXDOMAIN && report.counts.kept == 0
           && is_miss(&answer, 0, "bare.example"));
    rrcache_close(cache);
}

/* With `clears_denied` an NXDOMAIN clears what is held of the name, and is the answer all the same:
   in a cache in which all fits, and in one in which RRsets are stored one by one. */
static void test_store_that_clears(void)
{
    static struct message message;
    struct wire wire = wire_of("www.example");
    struct rrcache_query query = query_of(&wire, A);
    for (uint64_t octets = 65536; octets <= 1 << 20; octets *= 16) {
        struct rrcache_config config = config_of(64);
        struct rrcache_answer answer = blank();
        struct rrcache_report report;
        config.octets = octets;
        struct rrcache *cache = open_by(&config);
        EXPECT(keep_at(cache, "www.example", 300, FIRST, RRCACHE_NON_AUTHORITATIVE_ANSWER)
               == RRCACHE_KEPT);
        begin(&message, AA | NXDOMAIN, "www.example", A);
        add_soa(&message, "example", 900);
        struct rrcache_response response = response_of(&message);
        response.clears_denied = true;
        EXPECT(rrcache_store(cache, &query, &response, &report, &answer) == RRCACHE_DONE
               && report.summary.kind == RRCACHE_RESPONSE_NXDOMAIN && report.too_large == 0);
        EXPECT(is_denial(&answer, RRCACHE_NXDOMAIN, 60) && answer.aliases == 0);
        answer = look_in(cache, "www.example", A, FIRST + 60, RRCACHE_STALE_NOW);
        EXPECT(answer.kind == RRCACHE_MISS && forget(cache, "www.example", A) == RRCACHE_DONE);
        EXPECT(kind_of(cache, "www.example", A, FIRST) == RRCACHE_MISS);
        rrcache_close(cache);
    }
}

/* Begins a response with a question of class CH and one record, given by its octets. */
static void begin_chaos(struct message *message, const char *name, uint16_t rtype,
                        const uint8_t *record, size_t size)
{
    begin(message, AA, name, rtype);
    message->octets[message->size - 1] = RRCACHE_CH;
    put(message, record, size);
    message->octets[7] = 1;
}

/* A response to a.example TXT of class CH, with a record of 60 seconds. */
static void test_store_of_another_class(void)
{
    static struct message message;
    static const uint8_t record[] = {0xc0, 12, 0, TXT, 0, RRCACHE_CH, 0, 0, 0, 60, 0, 2, 1, 'A'};
    struct rrcache *cache = open_small();
    struct wire wire = wire_of("a.example");
    struct rrcache_query query = query_of(&wire, TXT);
    struct rrcache_request request = request_of(&wire, TXT, FIRST);
    struct rrcache_answer answer = blank();
    struct rrcache_report report;
    query.rclass = request.rclass = RRCACHE_CH;
    begin_chaos(&message, "a.example", TXT, OF(record));
    struct rrcache_response response = response_of(&message);
    EXPECT(rrcache_store(cache, &query, &response, &report, &answer) == RRCACHE_DONE
           && report.counts.kept == 1);
    for (int round = 0; round < 2; round++) {
        struct rrcache_rrset rrset = nth(&answer, 0);
        EXPECT(answer.kind == RRCACHE_FRESH && rrset.set.rclass == RRCACHE_CH
               && rrset.set.rtype == TXT && rrset.set.ttl == 60
               && has_datum(&rrset, record + 12, 2));
        EXPECT(rrcache_lookup(cache, &request, &answer) == RRCACHE_DONE);
    }
    EXPECT(kind_of(cache, "a.example", TXT, FIRST) == RRCACHE_MISS);
    request.rclass = RRCACHE_IN;
    EXPECT(rrcache_forget(cache, &request) == RRCACHE_DONE && keys(cache) == 1);
    request.rclass = RRCACHE_CH;
    EXPECT(rrcache_forget(cache, &request) == RRCACHE_DONE && keys(cache) == 0);
    rrcache_close(cache);
}

/* An address of class CH is a name and two octets (RFC 1034 section 3.6). None is kept. */
static void test_store_of_an_address_of_another_class(void)
{
    static struct message message;
    static const uint8_t record[] = {0xc0, 12, 0, A, 0,    RRCACHE_CH, 0, 0,
                                     0,    60, 0, 4, 0xc0, 14,         1, 2};
    static const uint8_t expanded[] = "\7example\0\1\2";
    struct rrcache *cache = open_small();
    struct wire wire = wire_of("a.example");
    struct rrcache_query query = query_of(&wire, A);
    struct rrcache_answer answer = blank();
    struct rrcache_report report;
    query.rclass = RRCACHE_CH;
    begin_chaos(&message, "a.example", A, OF(record));
    struct rrcache_response response = response_of(&message);
    EXPECT(rrcache_store(cache, &query, &response, &report, &answer) == RRCACHE_DONE
           && report.counts.kept == 0 && answer.kind == RRCACHE_FRESH && count_of(&answer) == 1);
    struct rrcache_rrset rrset = nth(&answer, 0);
    EXPECT(rrset.set.rclass == RRCACHE_CH && rrset.set.rtype == A && rrset.set.ttl == 60
           && has_datum(&rrset, expanded, sizeof expanded - 1) && keys(cache) == 0);
    rrcache_close(cache);
}

/* Behind a DNAME record stands the CNAME record that was made of it (RFC 6672 section 3.1). */
static void test_store_of_a_dname(void)
{
    static struct message message;
    struct rrcache *cache = open_small();
    struct wire target = wire_of("new.example");
    struct rrcache_answer answer;
    begin(&message, AA, "www.old.example", A);
    add(&message, RRCACHE_ANSWER_SECTION, "old.example", 39, 300, target.octets, target.size);
    add_alias(&message, "www.old.example", "www.new.example", 300);
    add_answer(&message, "www.new.example", 300);
    struct rrcache_report report = store(cache, &message, "www.old.example", A, &answer);
    EXPECT(report.summary.kind == RRCACHE_RESPONSE_ANSWER && report.counts.kept == 3
           && answer.kind == RRCACHE_FRESH && answer.aliases == 1 && count_of(&answer) == 2);
    answer = look(cache, "www.old.example", A, FIRST);
    EXPECT(answer.kind == RRCACHE_FRESH && answer.aliases == 1
           && kind_of(cache, "old.example", 39, FIRST) == RRCACHE_FRESH);
    rrcache_close(cache);
}

/* ---- DNAME records, told before the CNAME records that they made (RFC 6672 section 3.1). */

/* Looks up with DNAME records, in a buffer of so many octets. */
static enum rrcache_status look_with_dnames(struct rrcache *cache, const char *name, uint16_t rtype,
                                            uint64_t moment, size_t room,
                                            struct rrcache_answer *answer)
{
    struct wire wire = wire_of(name);
    struct rrcache_request request = request_of(&wire, rtype, moment);
    request.mode = RRCACHE_STALE_NOW;
    *answer = blank();
    answer->room = room;
    answer->with_dnames = true;
    return rrcache_lookup(cache, &request, answer);
}

static struct rrcache *open_with_dname(void)
{
    struct rrcache *cache = open_small();
    NEED(keep_name(cache, "old.example", DNAME, "new.example", 300) == RRCACHE_KEPT
         && keep_alias(cache, "w.x.old.example", "w.X.new.example", 200) == RRCACHE_KEPT
         && keep(cache, "w.x.new.example", 100) == RRCACHE_KEPT);
    return cache;
}

/* Whether an RRset is the DNAME record of `old.example`. */
static bool is_dname(const struct rrcache_answer *answer, unsigned number, uint32_t ttl,
                     uint32_t kind)
{
    struct rrcache_rrset rrset = nth(answer, number);
    return is_rrset(&rrset, "old.example", DNAME, ttl, kind) && has_target(&rrset, "new.example");
}

static void test_dnames(void)
{
    struct rrcache *cache = open_with_dname();
    struct rrcache_answer answer = look(cache, "w.x.old.example", A, FIRST);
    EXPECT(answer.kind == RRCACHE_FRESH && answer.aliases == 1 && count_of(&answer) == 2);
    EXPECT(look_with_dnames(cache, "W.x.old.example", A, FIRST + 9, sizeof space, &answer)
           == RRCACHE_DONE);
    struct rrcache_rrset alias = nth(&answer, 1), last = nth(&answer, 2);
    EXPECT(answer.kind == RRCACHE_FRESH && answer.aliases == 1 && count_of(&answer) == 3
           && is_dname(&answer, 0, 291, RRCACHE_FRESH) && !answer.is_stale
           && is_rrset(&alias, "w.x.old.example", CNAME, 191, RRCACHE_FRESH)
           && has_target(&alias, "w.X.new.example")
           && is_rrset(&last, "w.x.new.example", A, 91, RRCACHE_FRESH)
           && is_name(&answer.end, "w.x.new.example"));
    EXPECT(look_with_dnames(cache, "w.x.old.example", CNAME, FIRST, sizeof space, &answer)
           == RRCACHE_DONE);
    EXPECT(answer.kind == RRCACHE_FRESH && answer.aliases == 0 && count_of(&answer) == 2
           && is_dname(&answer, 0, 300, RRCACHE_FRESH));
    rrcache_close(cache);
}

/* An alias to another name than the DNAME record would make, and one of the name that has it. */
static void test_aliases_that_no_dname_made(void)
{
    struct rrcache *cache = open_with_dname();
    struct rrcache_answer answer;
    EXPECT(keep_alias(cache, "v.old.example", "v.other.example", 60) == RRCACHE_KEPT
           && keep_alias(cache, "u.old.example", "v.new.example", 60) == RRCACHE_KEPT
           && keep_alias(cache, "t.old.example", "t.x.new.example", 60) == RRCACHE_KEPT
           && keep_alias(cache, "old.example", "new.example", 60) == RRCACHE_KEPT);
    static const char *const NAMES[] = {"v.old.example", "u.old.example", "t.old.example",
                                        "old.example"};
    for (size_t i = 0; i < sizeof NAMES / sizeof *NAMES; i++)
        EXPECT(look_with_dnames(cache, NAMES[i], A, FIRST, sizeof space, &answer) == RRCACHE_DONE
               && answer.aliases == 1 && count_of(&answer) == 1);
    rrcache_close(cache);
}

/* What is past its time is told with an alias that is. */
static void test_stale_dnames(void)
{
    struct rrcache *cache = open_with_dname();
    struct rrcache_answer answer;
    EXPECT(look_with_dnames(cache, "w.x.old.example", A, FIRST + 400, sizeof space, &answer)
           == RRCACHE_DONE);
    EXPECT(answer.is_stale && answer.aliases == 1 && count_of(&answer) == 3
           && is_dname(&answer, 0, 30, RRCACHE_STALE));
    rrcache_close(cache);
}

/* With each room that is too small the call is refused, and what is told is whole. */
static void test_rooms_of_dnames(void)
{
    struct rrcache *cache = open_with_dname();
    struct rrcache_answer answer;
    EXPECT(look_with_dnames(cache, "w.x.old.example", A, FIRST, sizeof space, &answer)
           == RRCACHE_DONE);
    size_t whole = answer.size;
    for (size_t room = 0; room < whole; room++) {
        EXPECT(look_with_dnames(cache, "w.x.old.example", A, FIRST, room, &answer)
               == RRCACHE_SMALL);
        EXPECT(answer.size <= room && count_of(&answer) < 3);
    }
    EXPECT(look_with_dnames(cache, "w.x.old.example", A, FIRST, whole, &answer) == RRCACHE_DONE
           && count_of(&answer) == 3);
    rrcache_close(cache);
}

/* Data that may be used once are told, and so is the DNAME record that stands behind its alias. */
static void test_dnames_of_responses(void)
{
    static struct message message;
    struct rrcache *cache = open_small();
    struct wire target = wire_of("new.example");
    struct rrcache_answer answer = blank();
    struct rrcache_report report;
    begin(&message, 0, "w.old.example", A);
    add_alias(&message, "w.old.example", "w.new.example", 0);
    add(&message, RRCACHE_ANSWER_SECTION, "old.example", DNAME, 0, target.octets, target.size);
    add(&message, RRCACHE_ANSWER_SECTION, "other.example", DNAME, 0, target.octets, target.size);
    add_answer(&message, "w.new.example", 0);
    for (int with = 0; with < 2; with++) {
        answer.with_dnames = with;
        EXPECT(try_to_store(cache, &message, "w.old.example", A, &report, &answer) == RRCACHE_DONE);
        EXPECT(answer.kind == RRCACHE_FRESH && answer.aliases == 1
               && count_of(&answer) == 2u + (unsigned)with && keys(cache) == 0
               && is_dname(&answer, 0, 0, RRCACHE_FRESH) == with);
    }
    rrcache_close(cache);
}

/* ---- Responses that say more than what is relevant, and so stored. */

/* A response with a chain of so many aliases, and an address at its end. */
static void write_chain(struct message *message, int aliases)
{
    begin(message, 0, link_of(0), A);
    for (int i = 0; i < aliases; i++)
        add_alias(message, link_of(i), link_of(i + 1), 60);
    add_answer(message, link_of(aliases), 60);
}

/* At most 11 aliases are stored, and 16 are told. */
static void test_store_of_a_long_chain(void)
{
    static struct message message;
    struct rrcache *cache = open_small();
    struct rrcache_answer answer;
    write_chain(&message, RRCACHE_MOST_ALIASES);
    store(cache, &message, link_of(0), A, &answer);
    struct rrcache_rrset last = nth(&answer, RRCACHE_MOST_ALIASES);
    EXPECT(answer.kind == RRCACHE_FRESH && answer.aliases == RRCACHE_MOST_ALIASES
           && count_of(&answer) == RRCACHE_MOST_ALIASES + 1
           && is_rrset(&last, link_of(RRCACHE_MOST_ALIASES), A, 60, RRCACHE_FRESH)
           && last.trust == RRCACHE_NON_AUTHORITATIVE_ANSWER);
    answer = look(cache, link_of(0), A, FIRST);
    EXPECT(answer.kind == RRCACHE_MISS && answer.aliases < RRCACHE_MOST_ALIASES);
    write_chain(&message, RRCACHE_MOST_ALIASES + 1);
    store(cache, &message, link_of(0), A, &answer);
    EXPECT(answer.kind == RRCACHE_MISS && answer.is_endless);
    rrcache_close(cache);
}

/* A denial behind more aliases than are stored has the rank that it has in a shelf, also where the
   response was read as if AA were set. */
static void test_rank_of_a_denial_behind_a_long_chain(void)
{
    static struct message message;
    enum { ALIASES = 14 };
    struct rrcache *cache = open_small();
    struct wire wire = wire_of(link_of(0));
    struct rrcache_query query = query_of(&wire, A);
    struct rrcache_report report;
    begin(&message, 0, link_of(0), A);
    for (int i = 0; i < ALIASES; i++)
        add_alias(&message, link_of(i), link_of(i + 1), 60);
    add_soa(&message, "example", 300);
    struct rrcache_response response = response_of(&message);
    for (int lowest_ttl = 0; lowest_ttl < 2; lowest_ttl++) {
        struct rrcache_answer answer = blank();
        response.lowest_ttl = lowest_ttl;
        EXPECT(rrcache_store(cache, &query, &response, &report, &answer) == RRCACHE_DONE
               && answer.kind == RRCACHE_NODATA && answer.aliases == ALIASES);
        EXPECT(nth(&answer, ALIASES).kind == RRCACHE_NODATA
               && nth(&answer, ALIASES).trust == RRCACHE_NON_AUTHORITATIVE_ANSWER);
    }
    struct rrcache_answer held = look(cache, link_of(ALIASES), A, FIRST);
    EXPECT(held.kind == RRCACHE_NODATA && nth(&held, 0).trust == RRCACHE_NON_AUTHORITATIVE_ANSWER);
    rrcache_close(cache);
}

/* 1,025 addresses of 16 octets are more than the 16,384 octets that are kept of an RRset. With
   `lowest_ttl` they are told with the lowest of their TTLs, and else not, as AA is clear. */
static void test_store_of_a_large_rrset(void)
{
    static struct message message;
    enum { COUNT = 1025 };
    struct rrcache *cache = open_small();
    struct wire wire = wire_of("www.example");
    struct rrcache_query query = query_of(&wire, AAAA);
    struct rrcache_answer answer = blank();
    struct rrcache_report report;
    uint8_t address[16] = {0x20, 1, 0xd, 0xb8};
    begin(&message, 0, "www.example", AAAA);
    for (int i = 0; i < COUNT; i++) {
        address[14] = (uint8_t)(i >> 8);
        address[15] = (uint8_t)i;
        add(&message, RRCACHE_ANSWER_SECTION, "www.example", AAAA, 40u + (i == 7), OF(address));
    }
    message.octets[6] = COUNT >> 8;
    message.octets[7] = COUNT & 255;
    struct rrcache_response response = response_of(&message);
    EXPECT(rrcache_store(cache, &query, &response, &report, &answer) == RRCACHE_DONE
           && answer.kind == RRCACHE_MISS && count_of(&answer) == 0);
    response.lowest_ttl = true;
    EXPECT(rrcache_store(cache, &query, &response, &report, &answer) == RRCACHE_DONE);
    struct rrcache_rrset rrset = nth(&answer, 0);
    EXPECT(answer.kind == RRCACHE_FRESH && count_of(&answer) == 1 && keys(cache) == 0
           && is_rrset(&rrset, "www.example", AAAA, 40, RRCACHE_FRESH)
           && rrset.trust == RRCACHE_NON_AUTHORITATIVE_ANSWER && rrset.set.data_size == COUNT * 18);
    answer.room = 17 * COUNT;
    EXPECT(rrcache_store(cache, &query, &response, &report, &answer) == RRCACHE_SMALL);
    rrcache_close(cache);
}

/* ---- Types that no shelf keeps: each record is told as an RRset of its own. */

enum { NXT = 30, NAPTR = 35, PRIVATE = 65280, WEEK = 604800 };
/* The data of a NAPTR record (RFC 3403 section 4.1), whose name is a pointer to the question. */
static const uint8_t POINTED[] = {0, 1, 0, 2, 1, 'u', 0, 5, '!', 'x', '!', 'y', '!', 0xc0, 12};
/* The same with the name `a.example` in full (RFC 3597 section 4). */
static const uint8_t EXPANDED[] = "\0\1\0\2\1u\0\5!x!y!\1a\7example";

static void test_types_that_are_not_kept(void)
{
    static struct message message;
    struct rrcache *cache = open_small();
    struct rrcache_answer answer;
    begin(&message, 0, "a.example", NAPTR);
    add(&message, RRCACHE_ANSWER_SECTION, "b.example", NAPTR, 60, OF(POINTED));
    add(&message, RRCACHE_ANSWER_SECTION, "a.example", RRSIG, 60, OF(ADDRESS));
    add(&message, RRCACHE_ANSWER_SECTION, "A.Example", NAPTR, 0, OF(POINTED));
    add(&message, RRCACHE_ANSWER_SECTION, "a.example", NAPTR, WEEK + 1, OF(POINTED));
    store(cache, &message, "a.example", NAPTR, &answer);
    struct rrcache_rrset first = nth(&answer, 0), second = nth(&answer, 1);
    EXPECT(answer.kind == RRCACHE_FRESH && answer.aliases == 0 && count_of(&answer) == 2
           && is_rrset(&first, "A.Example", NAPTR, 0, RRCACHE_FRESH)
           && has_datum(&first, OF(EXPANDED))
           && is_rrset(&second, "a.example", NAPTR, WEEK, RRCACHE_FRESH)
           && second.trust == RRCACHE_NON_AUTHORITATIVE_ANSWER && keys(cache) == 0);
    /* Those of the name alone, and of any type. */
    begin(&message, AA, "a.example", ANY);
    add_answer(&message, "a.example", 60);
    add(&message, RRCACHE_ANSWER_SECTION, "a.example", RRSIG, 60, OF(ADDRESS));
    add(&message, RRCACHE_ANSWER_SECTION, "b.example", RRSIG, 60, OF(ADDRESS));
    store(cache, &message, "a.example", ANY, &answer);
    first = nth(&answer, 0);
    second = nth(&answer, 1);
    EXPECT(answer.kind == RRCACHE_FRESH && count_of(&answer) == 2
           && is_rrset(&first, "a.example", A, 60, RRCACHE_FRESH)
           && is_rrset(&second, "a.example", RRSIG, 60, RRCACHE_FRESH)
           && has_datum(&second, OF(ADDRESS)) && second.trust == RRCACHE_AUTHORITATIVE_ANSWER);
    rrcache_close(cache);
}

/* If the owner of a record is reached by more pointers than are followed, the record is left out,
   but an SOA record that follows does not deny that there is one. */
static void test_owners_behind_many_pointers(void)
{
    enum { POINTERS = 200, FIXED = 10, FLAG = 0xc000 };
    static struct message message;
    struct rrcache *cache = open_small();
    struct rrcache_answer answer;
    uint8_t chain[2 * POINTERS];
    begin(&message, AA, "a.example", NAPTR);
    size_t at = message.size + wire_of("b.example").size + FIXED, to = RRCACHE_HEADER_OCTETS;
    for (size_t i = 0; i < POINTERS; i++) {
        chain[2 * i] = (uint8_t)((FLAG | to) >> 8);
        chain[2 * i + 1] = (uint8_t)to;
        to = at + 2 * i;
    }
    add(&message, RRCACHE_ANSWER_SECTION, "b.example", PRIVATE, 60, OF(chain));
    size_t owner = message.size;
    add(&message, RRCACHE_ANSWER_SECTION, "", NAPTR, 60, OF(POINTED));
    memmove(message.octets + owner + 2, message.octets + owner + 1, message.size++ - owner - 1);
    message.octets[owner] = (uint8_t)((FLAG | to) >> 8);
    message.octets[owner + 1] = (uint8_t)to;
    add_soa(&message, "example", 60);
    store(cache, &message, "a.example", NAPTR, &answer);
    EXPECT(answer.kind == RRCACHE_MISS && count_of(&answer) == 0);
    rrcache_close(cache);
}

/* Behind an alias, and in each room that is too small. */
static void test_types_that_are_not_kept_behind_an_alias(void)
{
    static struct message message;
    struct rrcache *cache = open_small();
    struct rrcache_answer answer;
    struct rrcache_report report;
    begin(&message, AA, "b.example", NAPTR);
    add_alias(&message, "b.example", "a.example", 60);
    add(&message, RRCACHE_ANSWER_SECTION, "a.example", NAPTR, 60, OF(POINTED));
    store(cache, &message, "b.example", NAPTR, &answer);
    struct rrcache_rrset last = nth(&answer, 1);
    size_t whole = answer.size;
    EXPECT(answer.kind == RRCACHE_FRESH && answer.aliases == 1 && count_of(&answer) == 2
           && is_rrset(&last, "a.example", NAPTR, 60, RRCACHE_FRESH)
           && last.trust == RRCACHE_NON_AUTHORITATIVE_ANSWER);
    for (size_t room = 0; room < whole; room++) {
        answer = blank();
        answer.room = room;
        EXPECT(try_to_store(cache, &message, "b.example", NAPTR, &report, &answer) == RRCACHE_SMALL
               && answer.size <= room);
    }
    rrcache_close(cache);
}

/* A name with a CNAME record has NSEC and RRSIG records of its own (RFC 4035 section 2.5). If a
   response has them, it does not matter where the CNAME record leads. */
static void test_records_beside_an_alias(void)
{
    static struct message message;
    static const uint16_t TYPES[] = {NSEC, RRSIG};
    static const char *const TARGETS[] = {"b.example", "a.other"};
    struct rrcache *cache = open_small();
    for (int i = 0; i < 4; i++) {
        struct rrcache_answer answer;
        uint16_t rtype = TYPES[i / 2];
        begin(&message, AA, "a.example", rtype);
        add(&message, RRCACHE_ANSWER_SECTION, "a.example", rtype, 60, OF(ADDRESS));
        add_alias(&message, "a.example", TARGETS[i % 2], 60);
        add(&message, RRCACHE_ANSWER_SECTION, "b.example", rtype, 60, OF(ADDRESS));
        store(cache, &message, "a.example", rtype, &answer);
        struct rrcache_rrset first = nth(&answer, 0);
        EXPECT(answer.kind == RRCACHE_FRESH && answer.aliases == 0 && count_of(&answer) == 1
               && is_rrset(&first, "a.example", rtype, 60, RRCACHE_FRESH)
               && first.trust == RRCACHE_AUTHORITATIVE_ANSWER);
        /* Those of another name do not count. */
        begin(&message, AA, "a.example", rtype);
        add_alias(&message, "a.example", "b.example", 60);
        add(&message, RRCACHE_ANSWER_SECTION, "b.example", rtype, 60, OF(ADDRESS));
        store(cache, &message, "a.example", rtype, &answer);
        first = nth(&answer, 1);
        EXPECT(answer.kind == RRCACHE_FRESH && answer.aliases == 1 && count_of(&answer) == 2
               && is_rrset(&first, "b.example", rtype, 60, RRCACHE_FRESH));
    }
    EXPECT(kind_of(cache, "a.example", NSEC, FIRST) == RRCACHE_FRESH);
    rrcache_close(cache);
}

/* The names of the query and of the zone may lie in the answer, as the zone does after its
   delegation was looked up, although such a response is read twice. */
static void test_names_of_a_response_in_the_answer(void)
{
    static struct message message;
    struct rrcache *cache = open_small();
    struct wire wire = wire_of("b.example");
    struct rrcache_query query = query_of(&wire, NAPTR);
    struct rrcache_report report;
    begin(&message, AA, "b.example", NAPTR);
    add_alias(&message, "b.example", "a.example", 60);
    add(&message, RRCACHE_ANSWER_SECTION, "a.example", NAPTR, 60, OF(POINTED));
    struct rrcache_response response = response_of(&message);
    for (int in_end = 0; in_end < 2; in_end++)
        for (size_t at = 0; at < (in_end ? 1 : 200); at++) {
            struct rrcache_answer answer = blank();
            uint8_t *here = in_end ? answer.end.octets : space + at;
            query.name = memcpy(here, wire.octets, wire.size);
            response.zone = query.name + 2; /* "example", the rest of the name */
            EXPECT(rrcache_store(cache, &query, &response, &report, &answer) == RRCACHE_DONE
                   && answer.kind == RRCACHE_FRESH && answer.aliases == 1 && count_of(&answer) == 2
                   && is_name(&answer.end, "a.example"));
        }
    rrcache_close(cache);
}

/* That there are none is told by the SOA record of the zone, for its MINIMUM of 60 at most (RFC
   2308 section 5), and not by another one. */
static void test_absence_of_types_that_are_not_kept(void)
{
    static struct message message;
    struct rrcache *cache = open_small();
    struct rrcache_answer answer;
    begin(&message, AA, "a.example", RRSIG);
    add(&message, RRCACHE_AUTHORITY_SECTION, "b.example", SOA, 300, OF(SOA_DATA));
    store(cache, &message, "a.example", RRSIG, &answer);
    EXPECT(is_miss(&answer, 0, "a.example"));
    add(&message, RRCACHE_AUTHORITY_SECTION, "example", SOA, 300, OF(SOA_DATA));
    store(cache, &message, "a.example", RRSIG, &answer);
    EXPECT(is_denial(&answer, RRCACHE_NODATA, 60));
    begin(&message, AA, "a.example", RRSIG);
    add(&message, RRCACHE_AUTHORITY_SECTION, "example", SOA, 30, OF(SOA_DATA));
    store(cache, &message, "a.example", RRSIG, &answer);
    EXPECT(is_denial(&answer, RRCACHE_NODATA, 30));
    begin(&message, AA | NXDOMAIN, "a.example", RRSIG);
    add(&message, RRCACHE_AUTHORITY_SECTION, "example", SOA, 300, OF(SOA_DATA));
    store(cache, &message, "a.example", RRSIG, &answer);
    EXPECT(is_denial(&answer, RRCACHE_NXDOMAIN, 60));
    /* With type ANY, a name that does not exist has no records either, whatever a server adds. */
    begin(&message, AA | NXDOMAIN, "a.example", ANY);
    add(&message, RRCACHE_ANSWER_SECTION, "a.example", RRSIG, 60, OF(ADDRESS));
    add(&message, RRCACHE_AUTHORITY_SECTION, "example", SOA, 300, OF(SOA_DATA));
    store(cache, &message, "a.example", ANY, &answer);
    EXPECT(is_denial(&answer, RRCACHE_NXDOMAIN, 60));
    rrcache_close(cache);
}

/* A denial of such a type has the entry that a denial of another type has, with the same rank. */
static void test_entry_of_absence(void)
{
    static struct message message;
    static const unsigned FLAGS[] = {0, AA};
    static const uint16_t RTYPES[] = {A, RRSIG};
    struct rrcache *cache = open_small();
    for (int i = 0; i < 8; i++) {
        struct rrcache_answer answer;
        unsigned flags = FLAGS[i % 2], has_alias = i / 2 % 2;
        begin(&message, flags, "a.example", RTYPES[i / 4]);
        if (has_alias)
            add_alias(&message, "a.example", "b.example", 60);
        add(&message, RRCACHE_AUTHORITY_SECTION, "example", SOA, 300, OF(SOA_DATA));
        store(cache, &message, "a.example", RTYPES[i / 4], &answer);
        struct rrcache_rrset last = nth(&answer, has_alias);
        EXPECT(is_denial(&answer, RRCACHE_NODATA, 60) && last.entry.kind == RRCACHE_NODATA
               && last.entry.ttl == 60 && last.entry.moment == FIRST
               && last.trust
                      == (flags == AA && !has_alias ? RRCACHE_AUTHORITATIVE_ANSWER
                                                    : RRCACHE_NON_AUTHORITATIVE_ANSWER));
    }
    rrcache_close(cache);
}

/* An SOA record denies only from the authority section (RFC 2181 section 7.1), with AA or not. */
static void test_absence_by_another_section(void)
{
    static struct message message;
    static const unsigned FLAGS[] = {0, AA};
    struct rrcache *cache = open_small();
    struct rrcache_answer answer;
    for (int i = 0; i < 2; i++) {
        begin(&message, FLAGS[i], "a.example", RRSIG);
        add(&message, RRCACHE_ADDITIONAL_SECTION, "example", SOA, 300, OF(SOA_DATA));
        store(cache, &message, "a.example", RRSIG, &answer);
        EXPECT(is_miss(&answer, 0, "a.example"));
        begin(&message, FLAGS[i], "a.example", RRSIG);
        add_answer(&message, "b.example", 60);
        add(&message, RRCACHE_AUTHORITY_SECTION, "example", SOA, 300, OF(SOA_DATA));
        add(&message, RRCACHE_ADDITIONAL_SECTION, "a.example", SOA, 30, OF(SOA_DATA));
        store(cache, &message, "a.example", RRSIG, &answer);
        EXPECT(is_denial(&answer, RRCACHE_NODATA, 60));
    }
    rrcache_close(cache);
}

/* An SOA record denies nothing of a name whose records are left out for unequal TTLs. */
static void test_absence_beside_what_is_left_out(void)
{
    static struct message message;
    struct rrcache *cache = open_small();
    struct rrcache_answer answer;
    begin(&message, 0, "a.example", ANY);
    add_answer(&message, "a.example", 60);
    add_answer(&message, "a.example", 30);
    add_soa(&message, "example", 300);
    EXPECT(store(cache, &message, "a.example", ANY, &answer).summary.kind
           == RRCACHE_RESPONSE_ANSWER);
    EXPECT(is_miss(&answer, 0, "a.example"));
    begin(&message, 0, "a.example", RRSIG);
    add_alias(&message, "a.example", "b.example", 60);
    add_alias(&message, "a.example", "b.example", 30);
    add_soa(&message, "example", 300);
    store(cache, &message, "a.example", RRSIG, &answer);
    EXPECT(is_miss(&answer, 0, "a.example"));
    rrcache_close(cache);
}

/* As of other types, none of another zone is told (RFC 5452 section 6): neither behind an alias nor
   of a question that is out of bailiwick; nor of a response that is to no standard query. */
static void test_types_that_are_not_kept_of_another_zone(void)
{
    static struct message message;
    struct rrcache *cache = open_small();
    struct rrcache_answer answer;
    enum { NOTIFY = 4 << 11 };
    begin(&message, AA, "b.example", NAPTR);
    add_alias(&message, "b.example", "a.other", 60);
    add(&message, RRCACHE_ANSWER_SECTION, "a.other", NAPTR, 60, OF(EXPANDED));
    store(cache, &message, "b.example", NAPTR, &answer);
    EXPECT(is_miss(&answer, 1, "a.other") && count_of(&answer) == 1);
    begin(&message, AA, "a.other", RRSIG);
    add(&message, RRCACHE_ANSWER_SECTION, "a.other", RRSIG, 60, OF(ADDRESS));
    store(cache, &message, "a.other", RRSIG, &answer);
    EXPECT(is_miss(&answer, 0, "a.other"));
    begin(&message, AA | NOTIFY, "a.example", RRSIG);
    add(&message, RRCACHE_ANSWER_SECTION, "a.example", RRSIG, 60, OF(ADDRESS));
    store(cache, &message, "a.example", RRSIG, &answer);
    EXPECT(is_miss(&answer, 0, "a.example"));
    rrcache_close(cache);
}

/* A name in their data that cannot be read: it leads to itself, or behind the message, or is cut.
 */
static void test_types_that_are_not_kept_and_cannot_be_read(void)
{
    static struct message message;
    static const uint8_t BROKEN[][2] = {{0xc0, 0}, {0xff, 0xff}, {0x40, 0}, {3, 'a'}};
    struct rrcache *cache = open_small();
    for (size_t i = 0; i < sizeof BROKEN / sizeof *BROKEN; i++) {
        struct rrcache_answer answer = blank();
        struct rrcache_report report;
        begin(&message, AA, "a.example", NXT);
        add(&message, RRCACHE_ANSWER_SECTION, "a.example", NXT, 60, BROKEN[i], 2);
        if (i == 0)
            message.octets[message.size - 1] = (uint8_t)(message.size - 2);
        EXPECT(try_to_store(cache, &message, "a.example", NXT, &report, &answer) == RRCACHE_BAD_DATA
               && answer.size == 0 && answer.kind == RRCACHE_MISS);
        EXPECT(try_to_store(cache, &message, "a.example", NXT, &report, NULL) == RRCACHE_DONE);
    }
    rrcache_close(cache);
}

/* An alias and data of one name: as in a shelf the one counts that stands later. */
static void test_store_of_an_alias_beside_data(void)
{
    static struct message message;
    struct rrcache_answer answer;
    for (int is_later = 0; is_later < 2; is_later++) {
        struct rrcache *cache = open_small();
        begin(&message, AA, "a.example", A);
        if (is_later)
            add_answer(&message, "a.example", 60);
        add_alias(&message, "a.example", "b.example", 60);
        if (!is_later)
            add_answer(&message, "a.example", 60);
        add_answer(&message, "b.example", 60);
        store(cache, &message, "a.example", A, &answer);
        EXPECT(answer.kind == RRCACHE_FRESH && answer.aliases == (uint32_t)is_later);
        answer = look(cache, "a.example", A, FIRST);
        EXPECT(answer.kind == RRCACHE_FRESH && answer.aliases == (uint32_t)is_later);
        rrcache_close(cache);
    }
}

/* Data that may be used once are told, and nothing of them is kept (RFC 1035 section 3.2.1). */
static void test_store_of_no_time(void)
{
    static struct message message;
    struct rrcache *cache = open_small();
    struct rrcache_answer answer;
    begin(&message, AA, "www.example", A);
    add_answer(&message, "www.example", 0);
    struct rrcache_report report = store(cache, &message, "www.example", A, &answer);
    EXPECT(report.counts.kept == 0 && report.counts.cleared == 1 && keys(cache) == 0
           && is_address(&answer, "www.example", 0)
           && kind_of(cache, "www.example", A, FIRST) == RRCACHE_MISS);
    rrcache_close(cache);
}

/* What is trusted less than what is held is told, and not kept. */
static void test_store_outranked(void)
{
    static struct message message;
    struct rrcache *cache = open_small();
    struct rrcache_answer answer;
    EXPECT(keep(cache, "www.example", 60) == RRCACHE_KEPT);
    begin(&message, 0, "www.example", A);
    add(&message, RRCACHE_ANSWER_SECTION, "www.example", A, 300, OF(OTHER_ADDRESS));
    struct rrcache_report report = store(cache, &message, "www.example", A, &answer);
    struct rrcache_rrset rrset = nth(&answer, 0);
    EXPECT(report.counts.outranked == 1 && report.counts.kept == 0 && stats_of(cache).outranked == 1
           && answer.kind == RRCACHE_FRESH && has_datum(&rrset, OF(OTHER_ADDRESS))
           && rrset.trust == RRCACHE_NON_AUTHORITATIVE_ANSWER);
    answer = look(cache, "www.example", A, FIRST);
    EXPECT(is_address(&answer, "www.example", 60));
    rrcache_close(cache);
}

static void test_store_failure_of_a_server(void)
{
    static struct message message;
    struct rrcache *cache = open_small();
    struct rrcache_answer answer;
    begin(&message, SERVFAIL, "www.example", A);
    struct rrcache_report report = store(cache, &message, "www.example", A, &answer);
    EXPECT(report.summary.kind == RRCACHE_RESPONSE_FAILURE && report.summary.rcode == SERVFAIL
           && report.counts.kept == 1);
    EXPECT(answer.kind == RRCACHE_FAILED && answer.retry_from == FIRST + 30
           && count_of(&answer) == 0);
    answer = look(cache, "www.example", A, FIRST + 1);
    EXPECT(answer.kind == RRCACHE_FAILED && answer.retry_from == FIRST + 30);
    rrcache_close(cache);
}

/* With TC set nothing is offered (RFC 2181 section 9). */
static void test_store_truncated(void)
{
    static struct message message;
    struct rrcache *cache = open_small();
    struct rrcache_answer answer;
    begin(&message, AA | TC, "www.example", A);
    add_answer(&message, "www.example", 300);
    struct rrcache_report report = store(cache, &message, "www.example", A, &answer);
    EXPECT(report.summary.kind == RRCACHE_RESPONSE_UNUSABLE && report.summary.tc && keys(cache) == 0
           && is_miss(&answer, 0, "www.example"));
    rrcache_close(cache);
}

/* The answer of a question for ANY has all that is said of the name, and follows no alias. */
static void test_store_of_any_type(void)
{
    static const uint8_t text[] = "\1A";
    static struct message message;
    struct rrcache *cache = open_small();
    struct rrcache_answer answer;
    begin(&message, AA, "www.example", ANY);
    add_answer(&message, "www.example", 300);
    add(&message, RRCACHE_ANSWER_SECTION, "www.example", TXT, 200, text, 2);
    struct rrcache_report report = store(cache, &message, "www.example", ANY, &answer);
    struct rrcache_rrset first = nth(&answer, 0), second = nth(&answer, 1);
    EXPECT(report.counts.kept == 2 && answer.kind == RRCACHE_FRESH && answer.aliases == 0
           && count_of(&answer) == 2 && is_rrset(&first, "www.example", A, 300, RRCACHE_FRESH)
           && is_rrset(&second, "www.example", TXT, 200, RRCACHE_FRESH));
    EXPECT(kind_of(cache, "www.example", TXT, FIRST) == RRCACHE_FRESH);
    begin(&message, AA, "alias.example", ANY);
    add_alias(&message, "alias.example", "www.example", 300);
    report = store(cache, &message, "alias.example", ANY, &answer);
    first = nth(&answer, 0);
    EXPECT(answer.kind == RRCACHE_FRESH && answer.aliases == 0 && count_of(&answer) == 1
           && is_rrset(&first, "alias.example", CNAME, 300, RRCACHE_FRESH)
           && is_name(&answer.end, "alias.example"));
    rrcache_close(cache);
}

/* It has those that are not relevant too: an RRset of more than 16,384 octets, one of addresses
   that are too long, and the DS RRset of the zone itself. */
static void test_store_of_any_type_and_size(void)
{
    static struct message message;
    static uint8_t text[20000];
    enum { DS = 43, LONG = 5 };
    struct rrcache *cache = open_small();
    struct rrcache_answer answer;
    begin(&message, AA, "example", ANY);
    add(&message, RRCACHE_ANSWER_SECTION, "example", TXT, 300, OF(text));
    add(&message, RRCACHE_ANSWER_SECTION, "example", NS, 200, text, 1);
    add(&message, RRCACHE_ANSWER_SECTION, "example", A, 100, text, LONG);
    add(&message, RRCACHE_ANSWER_SECTION, "example", DS, 50, text, LONG);
    struct rrcache_report report = store(cache, &message, "example", ANY, &answer);
    struct rrcache_rrset first = nth(&answer, 0), second = nth(&answer, 1), third = nth(&answer, 2);
    struct rrcache_rrset fourth = nth(&answer, 3);
    EXPECT(report.counts.kept == 1 && keys(cache) == 1 && answer.kind == RRCACHE_FRESH
           && count_of(&answer) == 4 && is_rrset(&first, "example", TXT, 300, RRCACHE_FRESH)
           && first.set.data_size == 2 + sizeof text
           && is_rrset(&second, "example", NS, 200, RRCACHE_FRESH)
           && is_rrset(&third, "example", A, 100, RRCACHE_FRESH)
           && is_rrset(&fourth, "example", DS, 50, RRCACHE_FRESH));
    rrcache_close(cache);
}

/* Where the answer has no room the response is stored and reported all the same. */
static void test_store_with_small_buffers(void)
{
    static struct message message;
    struct rrcache_answer whole;
    struct rrcache *first = open_small();
    begin(&message, AA, "www.example", A);
    add_alias(&message, "www.example", "other.example", 100);
    add_answer(&message, "other.example", 300);
    store(first, &message, "www.example", A, &whole);
    rrcache_close(first);
    for (size_t room = 0; room <= whole.size; room++) {
        struct rrcache *cache = open_small();
        struct rrcache_answer answer = {.buffer = space, .room = room};
        struct rrcache_report report = {.too_large = 7};
        EXPECT(try_to_store(cache, &message, "www.example", A, &report, &answer)
               == (room < whole.size ? RRCACHE_SMALL : RRCACHE_DONE));
        EXPECT(report.counts.kept == 2 && report.too_large == 0
               && report.summary.kind == RRCACHE_RESPONSE_ANSWER && answer.size <= room);
        answer = look(cache, "www.example", A, FIRST);
        EXPECT(answer.kind == RRCACHE_FRESH && answer.aliases == 1);
        rrcache_close(cache);
    }
}

/* ---- The room that answers need, as rrcache.h has it of RRCACHE_ANSWER_OCTETS. */

enum { PTR = 12, MOST_DATA = 16384, MIB = 1 << 20 };

/* A buffer that has room for each answer of a look-up whose RRsets came in responses. */
static uint8_t large[MIB];

/* Adds a record to the answer section, whose owner is a pointer to a name that stands there. */
static void add_at(struct message *message, size_t owner, uint16_t rtype, const void *data,
                   size_t size)
{
    put_number(message, 0xc000 | owner, 2);
    put_number(message, rtype, 2);
    put_number(message, RRCACHE_IN, 2);
    put_number(message, 300, 4);
    put_number(message, size, 2);
    put(message, data, size);
}

/* Sets how many records the answer section has. */
static void set_count(struct message *message, unsigned count)
{
    message->octets[6] = (uint8_t)(count >> 8);
    message->octets[7] = (uint8_t)count;
}

/* Writes a response with one RRset of 16,384 octets of rdata. They are names: first the one that is
   given, then as many others as have room, of four octets and one of what is left. */
static void write_many(struct message *message, const char *owner, uint16_t rtype,
                       const char *first)
{
    struct wire target = wire_of(first);
    uint8_t rest[65] = {0};
    size_t left = MOST_DATA - target.size;
    unsigned count = 2;
    begin(message, AA, owner, PRIVATE);
    add_at(message, RRCACHE_HEADER_OCTETS, rtype, target.octets, target.size);
    for (; left > sizeof rest; left -= 4, count++) {
        const uint8_t name[] = {2, (uint8_t)(128 | count >> 7), (uint8_t)(128 | count), 0};
        add_at(message, RRCACHE_HEADER_OCTETS, rtype, name, sizeof name);
    }
    rest[0] = (uint8_t)(left - 2);
    memset(rest + 1, 'x', left - 2);
    add_at(message, RRCACHE_HEADER_OCTETS, rtype, rest, left);
    set_count(message, count);
}

/* How many octets the rdata of an RRset have, without their lengths. */
static size_t rdata_of(const struct rrcache_rrset *rrset)
{
    size_t all = 0, at = 0;
    while (at < rrset->set.data_size) {
        size_t size = (size_t)rrset->set.data[at] << 8 | rrset->set.data[at + 1];
        all += size;
        at += 2 + size;
    }
    return at == rrset->set.data_size ? all : 0;
}

/* A name that has 253 octets behind its front, another one for each number, as a text. */
static const char *far_name(const char *front, int number)
{
    static char names[2][256];
    static const char filler[] = "xxxxxxxxxxxxxxxxxxxxxxxxxxxxxxxxxxxxxxxxxxxxxxxxxxxxxxxxxxxxxxx";
    char *name = names[number & 1];
    snprintf(name, sizeof names[0], "%sd%02d.%s.%s.%s.%.47s.example", front, number, filler, filler,
             filler, filler);
    return name;
}

/* The longest chain of aliases of one record each, each of 255 octets to another of 255 and with
   the DNAME record that it is made from, and at its end 16,384 octets of rdata in more than 4,000
   records. */
static void test_room_for_the_longest_chain(void)
{
    static struct message message;
    struct rrcache *cache = open_small();
    struct rrcache_answer answer;
    for (int i = 0; i < RRCACHE_MOST_ALIASES; i++)
        EXPECT(keep_name(cache, far_name("", i), DNAME, far_name("", i + 1), 300) == RRCACHE_KEPT
               && keep_alias(cache, far_name("p.", i), far_name("p.", i + 1), 300) == RRCACHE_KEPT);
    const char *last = far_name("p.", RRCACHE_MOST_ALIASES);
    write_many(&message, last, PRIVATE, last);
    struct rrcache_report report = store(cache, &message, last, PRIVATE, &answer);
    EXPECT(wire_of(last).size == 255 && report.counts.kept == 1 && count_of(&answer) == 1);
    EXPECT(
        look_with_dnames(cache, far_name("p.", 0), PRIVATE, FIRST, RRCACHE_ANSWER_OCTETS, &answer)
        == RRCACHE_DONE);
    struct rrcache_rrset rrset = nth(&answer, 2 * RRCACHE_MOST_ALIASES);
    EXPECT(answer.kind == RRCACHE_FRESH && answer.aliases == RRCACHE_MOST_ALIASES
           && count_of(&answer) == 2 * RRCACHE_MOST_ALIASES + 1 && rrset.set.owner_size == 255
           && rdata_of(&rrset) == MOST_DATA && rrset.set.data_size > MOST_DATA + 2 * 4000);
    /* If one of the aliases has many records too, that answer does not fit. */
    write_many(&message, far_name("p.", 0), CNAME, far_name("p.", 1));
    report = store(cache, &message, far_name("p.", 0), PRIVATE, &answer);
    EXPECT(report.counts.kept == 1
           && look_with_dnames(cache, far_name("p.", 0), PRIVATE, FIRST, RRCACHE_ANSWER_OCTETS,
                               &answer)
                  == RRCACHE_SMALL
           && count_of(&answer) == 2 * RRCACHE_MOST_ALIASES);
    rrcache_close(cache);
}

/* Of 17 aliases, the last of which is one too many, each was made from a DNAME record. No more than
   16 owners of such records are tried, whether they have one or not. */
static void test_dnames_of_an_endless_chain(void)
{
    struct rrcache *cache = open_small();
    struct rrcache_answer answer;
    for (int i = 0; i <= RRCACHE_MOST_ALIASES; i++)
        EXPECT(keep_name(cache, far_name("", i), DNAME, far_name("", i + 1), 300) == RRCACHE_KEPT
               && keep_alias(cache, far_name("p.", i), far_name("p.", i + 1), 300) == RRCACHE_KEPT);
    EXPECT(look_with_dnames(cache, far_name("p.", 0), A, FIRST, sizeof space, &answer)
           == RRCACHE_DONE);
    EXPECT(answer.is_endless && answer.aliases == RRCACHE_MOST_ALIASES
           && count_of(&answer) == 2 * RRCACHE_MOST_ALIASES + 1
           && nth(&answer, 2 * RRCACHE_MOST_ALIASES).set.rtype == CNAME
           && stats_of(cache).hits == 2 * RRCACHE_MOST_ALIASES + 1);
    rrcache_close(cache);
}

/* Whether each RRset of an answer has all rdata that `write_many` wrote. */
static bool are_whole(const struct rrcache_answer *answer)
{
    struct rrcache_rrset rrset = {0};
    bool are = true;
    while (rrcache_next(answer, &rrset))
        are = are && rdata_of(&rrset) == MOST_DATA;
    return are;
}

/* So many aliases of many records each, and an RRset of many records at their end. Each of these
   RRsets has 16,384 octets of rdata and more than 8,000 of their lengths: with
   RRCACHE_ANSWER_OCTETS two of them fit. With a larger buffer the answer has each of them, as one
   RRset. */
static void check_room_of_many(unsigned aliases)
{
    static struct message message;
    struct rrcache *cache = open_small();
    struct wire wire = wire_of(link_of(0));
    struct rrcache_request request = request_of(&wire, PRIVATE, FIRST);
    struct rrcache_answer answer;
    for (unsigned i = 0; i <= aliases; i++) {
        write_many(&message, link_of((int)i), i < aliases ? CNAME : PRIVATE, link_of((int)i + 1));
        EXPECT(store(cache, &message, link_of((int)i), PRIVATE, &answer).counts.kept == 1
               && count_of(&answer) == 1 && are_whole(&answer));
    }
    answer = blank();
    EXPECT(rrcache_lookup(cache, &request, &answer) == (aliases > 1 ? RRCACHE_SMALL : RRCACHE_DONE)
           && count_of(&answer) == 2 && are_whole(&answer) && answer.size <= sizeof space);
    answer = (struct rrcache_answer){.buffer = large, .room = sizeof large};
    EXPECT(rrcache_lookup(cache, &request, &answer) == RRCACHE_DONE && answer.kind == RRCACHE_FRESH
           && answer.aliases == aliases && !answer.is_endless && count_of(&answer) == aliases + 1
           && are_whole(&answer));
    rrcache_close(cache);
}

static void test_room_of_aliases_of_many_records(void)
{
    check_room_of_many(1);
    check_room_of_many(2);
    check_room_of_many(5);
    check_room_of_many(RRCACHE_MOST_ALIASES);
}

/* Adds as many records of a type to the answer section, whose rdata are names of 203 octets each: a
   label of two octets, and a pointer to a name of 200. */
static void add_names(struct message *message, size_t owner, uint16_t rtype, size_t name,
                      unsigned count)
{
    for (unsigned i = 0; i < count; i++) {
        const uint8_t data[] = {2, (uint8_t)(128 | i >> 7), (uint8_t)(128 | i),
                                (uint8_t)(0xc0 | name >> 8), (uint8_t)name};
        add_at(message, owner, rtype, data, sizeof data);
    }
}

/* A name of 200 octets, as a text. */
static const char *name_of_200(void)
{
    static char name[199];
    memset(name, 'x', sizeof name - 1);
    name[63] = name[127] = name[190] = '.';
    memcpy(name + 191, "example", 7);
    return name;
}

/* An RRset with more than 16,384 octets of rdata, behind an alias: the buffer is too small for it,
   and then the alias is stored and in the answer. With a larger buffer the answer has both. */
static void test_room_of_stored_rrsets(void)
{
    static struct message message;
    enum { COUNT = 1000 };
    struct rrcache *cache = open_small();
    struct rrcache_answer answer = blank();
    struct rrcache_report report;
    struct wire wire = wire_of("www.example");
    /* Behind the question stand the owner and ten octets, and then the target. */
    const size_t target = RRCACHE_HEADER_OCTETS + 2 * wire.size + 4 + 10;
    begin(&message, AA, "www.example", PTR);
    add_alias(&message, "www.example", name_of_200(), 300);
    add_names(&message, target, PTR, target, COUNT);
    set_count(&message, COUNT + 1);
    EXPECT(try_to_store(cache, &message, "www.example", PTR, &report, &answer) == RRCACHE_SMALL);
    struct rrcache_rrset first = nth(&answer, 0);
    EXPECT(report.counts.kept == 1 && report.summary.kind == RRCACHE_RESPONSE_ANSWER
           && count_of(&answer) == 1 && has_target(&first, name_of_200()));
    answer = look(cache, "www.example", PTR, FIRST);
    EXPECT(is_miss(&answer, 1, name_of_200()));
    answer = (struct rrcache_answer){.buffer = large, .room = sizeof large};
    EXPECT(try_to_store(cache, &message, "www.example", PTR, &report, &answer) == RRCACHE_DONE);
    struct rrcache_rrset last = nth(&answer, 1);
    EXPECT(answer.kind == RRCACHE_FRESH && answer.aliases == 1 && count_of(&answer) == 2
           && rdata_of(&last) == COUNT * 203 && last.set.data_size == COUNT * 205);
    rrcache_close(cache);
}

/* A query of type ANY, for a name with five RRsets of 16,240 octets of rdata each: all are stored,
   and the answer has the three that fit. */
static void test_room_of_any_type(void)
{
    static const uint16_t TYPES[] = {NS, 7, 8, 9, PTR};
    static struct message message;
    enum { COUNT = 80, KINDS = sizeof TYPES / sizeof *TYPES };
    const char *name = name_of_200();
    struct rrcache *cache = open_small();
    struct rrcache_answer answer = blank();
    struct rrcache_report report;
    begin(&message, AA, name, ANY);
    for (size_t i = 0; i < KINDS; i++)
        add_names(&message, RRCACHE_HEADER_OCTETS, TYPES[i], RRCACHE_HEADER_OCTETS, COUNT);
    set_count(&message, KINDS * COUNT);
    EXPECT(try_to_store(cache, &message, name, ANY, &report, &answer) == RRCACHE_SMALL);
    EXPECT(report.counts.kept == KINDS && count_of(&answer) == 3);
    for (size_t i = 0; i < KINDS; i++)
        EXPECT(kind_of(cache, name, TYPES[i], FIRST) == RRCACHE_FRESH);
    answer = (struct rrcache_answer){.buffer = large, .room = sizeof large};
    EXPECT(try_to_store(cache, &message, name, ANY, &report, &answer) == RRCACHE_DONE
           && count_of(&answer) == KINDS && nth(&answer, KINDS - 1).set.data_size == COUNT * 205);
    rrcache_close(cache);
}

/* ---- Responses that are late or refused, and limits. */

/* A moment that is too large is found once the response was read. */
static void test_late_response(void)
{
    static struct message message;
    struct rrcache *cache = open_small();
    struct wire wire = wire_of("www.example");
    struct rrcache_query query = query_of(&wire, A);
    struct rrcache_answer answer = blank();
    struct rrcache_report report = {.too_large = 7};
    begin(&message, AA, "www.example", A);
    add_answer(&message, "www.example", 300);
    struct rrcache_response response = response_of(&message);
    response.moment = LATE;
    EXPECT(rrcache_store(cache, &query, &response, &report, &answer) == RRCACHE_MOMENT_TOO_LARGE
           && report.summary.kind == RRCACHE_RESPONSE_ANSWER && report.counts.kept == 0
           && keys(cache) == 0 && answer.kind == RRCACHE_MISS && count_of(&answer) == 0);
    rrcache_close(cache);
}

static void test_stores_refused(void)
{
    static struct message message;
    struct rrcache *cache = open_small();
    struct wire wire = wire_of("www.example");
    struct rrcache_query query = query_of(&wire, A);
    struct rrcache_answer answer = blank(), nowhere = {.room = 1};
    struct rrcache_report report;
    memset(&report, 7, sizeof report);
    begin(&message, AA, "www.example", A);
    add_answer(&message, "www.example", 300);
    struct rrcache_response response = response_of(&message);
    EXPECT(rrcache_store(NULL, &query, &response, &report, &answer) == RRCACHE_NULL
           && rrcache_store(cache, NULL, &response, &report, &answer) == RRCACHE_NULL
           && rrcache_store(cache, &query, NULL, &report, &answer) == RRCACHE_NULL
           && rrcache_store(cache, &query, &response, NULL, &answer) == RRCACHE_NULL
           && rrcache_store(cache, &query, &response, &report, &nowhere) == RRCACHE_NULL);
#define STORED(status)                                                                             \
    (rrcache_store(cache, &query, &response, &report, &answer) == (status)                         \
     && report.too_large == UINT64_C(0x0707070707070707) && keys(cache) == 0)
    query.id = ID + 1;
    EXPECT(STORED(RRCACHE_OTHER_QUERY));
    query = query_of(&wire, TXT);
    EXPECT(STORED(RRCACHE_OTHER_QUERY));
    query = query_of(&wire, A);
    message.octets[2] &= 0x7f;
    EXPECT(STORED(RRCACHE_OTHER_QUERY));
    message.octets[2] |= 0x80;
    response.size = 1;
    EXPECT(STORED(RRCACHE_OTHER_QUERY));
    response.size = message.size - 1;
    EXPECT(STORED(RRCACHE_BAD_MESSAGE));
    response = response_of(&message);
    response.limits.cap = 604801;
    EXPECT(STORED(RRCACHE_BAD_LIMITS));
    response = response_of(&message);
    response.zone_size = 2;
    EXPECT(STORED(RRCACHE_BAD_NAME));
    message.octets[3] |= FORMERR;
    message.octets[5] = message.octets[7] = 0;
    response = response_of(&message);
    response.size = RRCACHE_HEADER_OCTETS;
    EXPECT(STORED(RRCACHE_NO_QUESTION));
#undef STORED
    rrcache_close(cache);
}

/* What is kept lives as long as the response's limits allow, or else the cache's. */
static void test_limits(void)
{
    static struct message message;
    struct rrcache_config config = config_of(4);
    config.limits = (struct rrcache_limits){100, 20, 7};
    struct rrcache *cache = open_by(&config);
    struct wire wire = wire_of("www.example");
    struct rrcache_query query = query_of(&wire, A);
    struct rrcache_answer answer;
    struct rrcache_report report;
    begin(&message, AA, "www.example", A);
    add_answer(&message, "www.example", 300);
    store(cache, &message, "www.example", A, &answer);
    EXPECT(is_address(&answer, "www.example", 100));
    struct rrcache_response response = response_of(&message);
    response.limits.cap = 200;
    EXPECT(rrcache_store(cache, &query, &response, &report, &answer) == RRCACHE_DONE
           && is_address(&answer, "www.example", 200));
    answer = look(cache, "www.example", A, FIRST);
    EXPECT(is_address(&answer, "www.example", 200));
    begin(&message, AA, "empty.example", A);
    add_soa(&message, "example", 900);
    store(cache, &message, "empty.example", A, &answer);
    EXPECT(is_denial(&answer, RRCACHE_NODATA, 20));
    begin(&message, SERVFAIL, "bad.example", A);
    store(cache, &message, "bad.example", A, &answer);
    EXPECT(answer.kind == RRCACHE_FAILED && answer.retry_from == FIRST + 7);
    rrcache_close(cache);
}

/* The names of a response each lie in their own shelf. */
static void test_store_in_many_shelves(void)
{
    static struct message message;
    struct rrcache_config config = config_of(64);
    struct rrcache *cache = open_by(&config);
    struct rrcache_answer answer;
    uint64_t keys_of[64] = {0}, shelves = 0;
    begin(&message, AA, link_of(0), A);
    for (int i = 0; i < 10; i++)
        add_alias(&message, link_of(i), link_of(i + 1), 100);
    add_answer(&message, link_of(10), 100);
    struct rrcache_report report = store(cache, &message, link_of(0), A, &answer);
    EXPECT(report.counts.kept == 11 && answer.aliases == 10 && answer.kind == RRCACHE_FRESH);
    for (int i = 0; i <= 10; i++)
        keys_of[shelf_of(link_of(i), 64)]++;
    for (uint64_t i = 0; i < 64; i++) {
        struct rrcache_stats stats = stats_of_shelf(cache, i);
        EXPECT(stats.keys == keys_of[i] && stats.kept == keys_of[i]);
        shelves += keys_of[i] != 0;
    }
    EXPECT(shelves > 3);
    answer = look(cache, link_of(0), A, FIRST);
    EXPECT(answer.aliases == 10 && answer.kind == RRCACHE_FRESH);
    rrcache_close(cache);
}

/* ---- What is too large. */

/* A cache of which a shelf may have 1,024 octets, the least. */
static struct rrcache *open_least(void)
{
    struct rrcache_config config = config_of(64);
    config.octets = 65536;
    return open_by(&config);
}

/* Adds so many addresses of a name. */
static void add_addresses(struct message *message, const char *owner, unsigned count)
{
    for (unsigned i = 0; i < count; i++) {
        const uint8_t address[] = {10, 0, (uint8_t)(i >> 8), (uint8_t)i};
        add(message, RRCACHE_ANSWER_SECTION, owner, A, 300, OF(address));
    }
}

/* A short name with so many addresses takes 160 + 80 + 32 + 48 for each of them + 64 octets
   (`rrcache_sizes`): of 14 these are 1,008, and of 15 they are 1,056. */
static void test_too_large(void)
{
    static struct message message;
    struct rrcache *cache = open_least();
    struct rrcache_answer answer;
    begin(&message, AA, "www.example", A);
    add_alias(&message, "www.example", "other.example", 100);
    add_addresses(&message, "other.example", 15);
    struct rrcache_report report = store(cache, &message, "www.example", A, &answer);
    EXPECT(report.summary.kind == RRCACHE_RESPONSE_ANSWER && report.too_large == 1
           && report.counts.kept == 1 && keys(cache) == 1);
    struct rrcache_rrset rrset = nth(&answer, 1);
    EXPECT(answer.kind == RRCACHE_FRESH && answer.aliases == 1 && count_of(&answer) == 2
           && is_rrset(&rrset, "other.example", A, 300, RRCACHE_FRESH)
           && rrset.set.data_size == 15 * 6);
    answer = look(cache, "www.example", A, FIRST);
    EXPECT(is_miss(&answer, 1, "other.example"));

    begin(&message, AA, "other.example", A);
    add_addresses(&message, "other.example", 14);
    report = store(cache, &message, "other.example", A, &answer);
    EXPECT(report.too_large == 0 && report.counts.kept == 1
           && stats_of_shelf(cache, shelf_of("other.example", 64)).octets >= 1008);
    answer = look(cache, "other.example", A, FIRST);
    EXPECT(answer.kind == RRCACHE_FRESH && nth(&answer, 0).set.data_size == 14 * 6);
    rrcache_close(cache);
}

/* A name of 48 octets with 13 addresses takes 160 + 144 + 32 + 624 + 64 octets, which are all that
   a shelf of 1,024 may have. One of 49 takes one more. */
static void test_just_large_enough(void)
{
    static struct message message;
    for (int more = 0; more < 2; more++) {
        struct rrcache *cache = open_least();
        struct rrcache_answer answer;
        char name[48];
        memset(name, 'a', sizeof name);
        strcpy(name + 38 + more, ".example");
        begin(&message, AA, name, A);
        add_addresses(&message, name, 13);
        struct rrcache_report report = store(cache, &message, name, A, &answer);
        EXPECT(report.too_large == (uint64_t)more && report.counts.kept == (uint64_t)!more
               && stats_of(cache).octets == (more ? 0 : 1024) && answer.kind == RRCACHE_FRESH);
        rrcache_close(cache);
    }
}

/* A name of 252 octets below `example`. */
static struct wire long_name(void)
{
    static const uint8_t labels[] = {63, 63, 63, 50};
    struct wire name = {{0}, 0};
    for (size_t i = 0; i < sizeof labels; i++) {
        name.octets[name.size] = labels[i];
        memset(name.octets + name.size + 1, 'a', labels[i]);
        name.size += labels[i] + (size_t)1;
    }
    memcpy(name.octets + name.size, EXAMPLE, sizeof EXAMPLE);
    name.size += sizeof EXAMPLE;
    return name;
}

/* A response that names 64 servers of that name, each by a label of one octet and a pointer to the
   question (RFC 1035 section 4.1.4). */
static void write_servers(struct message *message, const struct wire *name)
{
    begin(message, AA, "", NS);
    message->size = RRCACHE_HEADER_OCTETS;
    put(message, name->octets, name->size);
    put_number(message, NS, 2);
    put_number(message, RRCACHE_IN, 2);
    for (uint8_t i = 0; i < 64; i++) {
        const uint8_t record[] = {0xc0, 12, 0, NS, 0, RRCACHE_IN, 0, 0, 1, 0, 0, 4, 1, i, 0xc0, 12};
        put(message, record, sizeof record);
    }
    message->octets[7] = 64;
}

/* Names that are compressed take far more than their octets in a message of 1,292: these 64 of 254
   octets take 48 + 16 + 254 each. Such an RRset drives no other key out of a shelf of 19,000. */
static void test_compressed_too_large(void)
{
    static struct message message;
    struct rrcache_config config = config_of(1);
    config.octets = 76000;
    struct wire name = long_name();
    struct rrcache_query query = query_of(&name, NS);
    for (uint64_t shelves = 1; shelves <= 4; shelves += 3) {
        struct rrcache_answer answer = blank();
        struct rrcache_report report;
        bool fits = shelves == 1;
        config.shelves = shelves;
        struct rrcache *cache = open_by(&config);
        for (int i = 0; i < 32; i++)
            NEED(keep(cache, link_of(i), 60) == RRCACHE_KEPT);
        write_servers(&message, &name);
        struct rrcache_response response = response_of(&message);
        EXPECT(message.size == 1292
               && rrcache_store(cache, &query, &response, &report, &answer) == RRCACHE_DONE);
        EXPECT(report.too_large == !fits && report.counts.kept == fits
               && stats_of(cache).evicted == 0 && keys(cache) == 32 + (uint64_t)fits);
        EXPECT(!fits || stats_of(cache).octets == 32 * 320 + 20956);
        EXPECT(answer.kind == RRCACHE_FRESH && nth(&answer, 0).set.data_size == 64 * 256);
        rrcache_close(cache);
    }
}

/* The data of so many addresses. */
static size_t addresses(uint8_t *data, size_t count)
{
    for (size_t i = 0; i < count; i++) {
        const uint8_t datum[] = {0, 4, 10, 0, (uint8_t)(i >> 8), (uint8_t)i};
        memcpy(data + 6 * i, datum, sizeof datum);
    }
    return 6 * count;
}

/* An RRset of the caller's own, and a denial whose SOA record takes too much. */
static void test_own_too_large(void)
{
    struct rrcache *cache = open_least();
    uint8_t data[6 * 15], soa[532] = {0};
    struct wire wire = wire_of("www.example"), name = wire_of("");
    struct rrcache_set set = set_of(&wire, A, 60, data, addresses(data, 15));
    uint32_t outcome = 7;
    EXPECT(rrcache_store_set(cache, &set, &outcome) == RRCACHE_TOO_LARGE && outcome == 7
           && keys(cache) == 0);
    set.data_size = addresses(data, 14);
    EXPECT(rrcache_store_set(cache, &set, &outcome) == RRCACHE_DONE && outcome == RRCACHE_KEPT
           && stats_of(cache).octets == 160 + 80 + 32 + 14 * 48 + 64);
    /* An owner that is spelled otherwise takes 32 + 48 octets more. */
    wire = wire_of("WWW.example");
    outcome = 7;
    EXPECT(rrcache_store_set(cache, &set, &outcome) == RRCACHE_TOO_LARGE && outcome == 7);
    set.data_size = addresses(data, 12);
    EXPECT(rrcache_store_set(cache, &set, &outcome) == RRCACHE_DONE && outcome == RRCACHE_KEPT
           && stats_of(cache).octets == 160 + 80 + 32 + 12 * 48 + 64 + 80);
    /* A zone's name of 252 octets with an SOA record of 22 takes 160 + 348 + 80 octets. With one
       that has that name twice it takes 160 + 348 + 620. */
    name = long_name();
    uint64_t before = stats_of(cache).octets;
    struct rrcache_negative negative = negative_of(&name, RRCACHE_NODATA, 60);
    negative.soa_owner = name.octets;
    negative.soa_owner_size = name.size;
    EXPECT(rrcache_store_negative(cache, &negative, &outcome) == RRCACHE_DONE
           && outcome == RRCACHE_KEPT && stats_of(cache).octets - before == 588);
    memcpy(soa, name.octets, name.size);
    memcpy(soa + name.size, name.octets, name.size);
    negative.soa = soa;
    negative.soa_size = 2 * name.size + 20;
    outcome = 7;
    EXPECT(rrcache_store_negative(cache, &negative, &outcome) == RRCACHE_TOO_LARGE && outcome == 7
           && keys(cache) == 2);
    rrcache_close(cache);
}

/* Data with TTL 0 take no room: they clear what is held, whatever their size (RFC 1035 section
   3.2.1: they are not to be cached). */
static void test_too_large_with_ttl_0(void)
{
    static struct message message;
    struct rrcache *cache = open_least();
    struct rrcache_answer answer;
    uint8_t data[6 * 15], soa[532] = {0};
    uint32_t outcome = 7;
    struct wire wire = wire_of("www.example"), name = long_name();
    EXPECT(keep(cache, "www.example", 600) == RRCACHE_KEPT && keys(cache) == 1);
    begin(&message, AA, "www.example", A);
    for (uint8_t i = 0; i < 15; i++)
        add(&message, RRCACHE_ANSWER_SECTION, "www.example", A, 0, (uint8_t[]){10, 0, 0, i}, 4);
    struct rrcache_report report = store(cache, &message, "www.example", A, &answer);
    struct rrcache_rrset rrset = nth(&answer, 0);
    EXPECT(report.counts.cleared == 1 && report.too_large == 0 && keys(cache) == 0);
    EXPECT(answer.kind == RRCACHE_FRESH && count_of(&answer) == 1
           && is_rrset(&rrset, "www.example", A, 0, RRCACHE_FRESH));

    struct rrcache_set set = set_of(&wire, A, 0, data, addresses(data, 15));
    EXPECT(keep(cache, "www.example", 600) == RRCACHE_KEPT
           && rrcache_store_set(cache, &set, &outcome) == RRCACHE_DONE && outcome == RRCACHE_CLEARED
           && keys(cache) == 0);
    struct rrcache_negative negative = negative_of(&wire, RRCACHE_NODATA, 0);
    memcpy(soa, name.octets, name.size);
    memcpy(soa + name.size, name.octets, name.size);
    negative.soa_owner = name.octets;
    negative.soa_owner_size = name.size;
    negative.soa = soa;
    negative.soa_size = 2 * name.size + 20;
    negative.trust = RRCACHE_AUTHORITATIVE_ANSWER;
    outcome = 7;
    EXPECT(keep(cache, "www.example", 600) == RRCACHE_KEPT
           && rrcache_store_negative(cache, &negative, &outcome) == RRCACHE_DONE
           && outcome == RRCACHE_CLEARED && keys(cache) == 0);
    rrcache_close(cache);
}

/* Memory stays bounded, whatever is stored: each of these keys takes 320 octets. */
static void test_octets(void)
{
    struct rrcache_config config = config_of(8);
    config.octets = UINT64_C(1) << 20;
    struct rrcache *cache = open_by(&config);
    bool is_bounded = true, is_kept = true;
    for (int i = 0; i < 20000; i++) {
        char name[24];
        snprintf(name, sizeof name, "n%d.example", i);
        is_kept = keep(cache, name, 300) == RRCACHE_KEPT && is_kept;
        is_bounded = is_bounded && (i % 100 != 0 || stats_of(cache).octets <= config.octets);
    }
    struct rrcache_stats stats = stats_of(cache);
    EXPECT(is_bounded && is_kept && stats.octets <= config.octets && stats.kept == 20000
           && stats.octets == 320 * stats.keys && stats.keys + stats.evicted == 20000);
    /* Each shelf is full: one more key would not fit. */
    EXPECT(stats.keys == 8 * ((1 << 17) / 320));
    EXPECT(kind_of(cache, "n19999.example", A, FIRST) == RRCACHE_FRESH
           && kind_of(cache, "n0.example", A, FIRST) == RRCACHE_MISS);
    rrcache_close(cache);
}

/* Stores 500 responses of two keys each in a cache of 65,536 octets. */
static void check_octets_of_responses(uint64_t shelves)
{
    static struct message message;
    struct rrcache_config config = config_of(shelves);
    uint64_t most = 65536 / shelves;
    config.octets = 65536;
    struct rrcache *cache = open_by(&config);
    struct rrcache_answer answer;
    for (int i = 0; i < 500; i++) {
        begin(&message, AA, link_of(2 * i), A);
        add_alias(&message, link_of(2 * i), link_of(2 * i + 1), 100);
        add_answer(&message, link_of(2 * i + 1), 100);
        struct rrcache_report report = store(cache, &message, link_of(2 * i), A, &answer);
        uint64_t shelf = shelf_of(link_of(2 * i), shelves);
        EXPECT(report.counts.kept == 2 && report.too_large == 0 && answer.kind == RRCACHE_FRESH
               && stats_of_shelf(cache, shelf).octets <= most
               && stats_of(cache).octets <= config.octets);
    }
    struct rrcache_stats stats = stats_of(cache);
    EXPECT(stats.kept == 1000 && stats.keys + stats.evicted == 1000
           && stats.octets == 320 * stats.keys && stats.keys == shelves * (most / 320));
    rrcache_close(cache);
}

/* So it does where responses are stored, at once or RRset by RRset. */
static void test_octets_of_responses(void)
{
    check_octets_of_responses(2);
    check_octets_of_responses(64);
}

/* ---- What the caller has of his own. */

static void test_own_sets(void)
{
    struct rrcache *cache = open_small();
    EXPECT(keep_at(cache, "www.example", 60, FIRST, RRCACHE_AUTHORITY) == RRCACHE_KEPT
           && keep_at(cache, "www.example", 60, FIRST, RRCACHE_ADDITIONAL) == RRCACHE_OUTRANKED
           && keep_at(cache, "www.example", 90, FIRST, RRCACHE_AUTHORITY) == RRCACHE_KEPT);
    struct rrcache_answer answer = look(cache, "www.example", A, FIRST);
    EXPECT(is_address(&answer, "www.example", 90));
    struct rrcache_stats stats = stats_of(cache);
    EXPECT(stats.kept == 2 && stats.outranked == 1 && stats.keys == 1 && stats.octets == 320);
    EXPECT(keep(cache, "www.example", 0) == RRCACHE_CLEARED && keys(cache) == 0
           && stats_of(cache).octets == 0 && stats_of(cache).kept == 2);
    EXPECT(deny(cache, "www.example", RRCACHE_NODATA, 60) == RRCACHE_KEPT
           && deny(cache, "www.example", RRCACHE_NODATA, 0) == RRCACHE_CLEARED
           && kind_of(cache, "www.example", A, FIRST) == RRCACHE_MISS);
    EXPECT(deny(cache, "www.example", RRCACHE_NXDOMAIN, 60) == RRCACHE_KEPT
           && deny(cache, "www.example", RRCACHE_NXDOMAIN, 0) == RRCACHE_CLEARED);
    EXPECT(keep(cache, "www.example", 60) == RRCACHE_KEPT
           && deny(cache, "www.example", RRCACHE_NODATA, 60) == RRCACHE_OUTRANKED
           && kind_of(cache, "www.example", A, FIRST) == RRCACHE_FRESH);
    EXPECT(fail(cache, "bad.example", 30, FIRST) == RRCACHE_KEPT
           && fail(cache, "bad.example", 0, FIRST) == RRCACHE_KEPT
           && kind_of(cache, "bad.example", A, FIRST) == RRCACHE_MISS);
    rrcache_close(cache);
}

static void test_own_sets_refused(void)
{
    struct rrcache *cache = open_small();
    struct wire wire = wire_of("www.example");
    const struct rrcache_set good = set_of(&wire, A, 60, OF(DATUM));
    struct rrcache_set set = good;
    uint32_t outcome = 7;
    EXPECT(rrcache_store_set(NULL, &good, &outcome) == RRCACHE_NULL
           && rrcache_store_set(cache, NULL, &outcome) == RRCACHE_NULL
           && rrcache_store_set(cache, &good, NULL) == RRCACHE_NULL);
#define REFUSED(field, value, status)                                                              \
    EXPECT((set = good, set.field = (value), rrcache_store_set(cache, &set, &outcome) == (status)) \
           && outcome == 7 && keys(cache) == 0)
    REFUSED(owner, NULL, RRCACHE_NULL);
    REFUSED(data, NULL, RRCACHE_NULL);
    REFUSED(owner_size, 0, RRCACHE_BAD_NAME);
    REFUSED(owner_size, wire.size - 1, RRCACHE_BAD_NAME);
    REFUSED(rtype, OPT, RRCACHE_BAD_TYPE);
    REFUSED(rtype, ANY, RRCACHE_BAD_TYPE);
    REFUSED(rtype, 0, RRCACHE_BAD_TYPE);
    REFUSED(rclass, 2, RRCACHE_BAD_TYPE);
    REFUSED(trust, (enum rrcache_trust)0, RRCACHE_BAD_CHOICE);
    REFUSED(trust, (enum rrcache_trust)5, RRCACHE_BAD_CHOICE);
    REFUSED(ttl, UINT32_C(1) << 31, RRCACHE_WRONG_BODY);
    REFUSED(data_size, 0, RRCACHE_WRONG_BODY);
    REFUSED(data_size, sizeof DATUM - 1, RRCACHE_BAD_DATA);
    REFUSED(data_size, 1, RRCACHE_BAD_DATA);
    REFUSED(moment, LATE, RRCACHE_MOMENT_TOO_LARGE);
#undef REFUSED
    set = good;
    set.moment = LAST;
    EXPECT(rrcache_store_set(cache, &set, &outcome) == RRCACHE_DONE && outcome == RRCACHE_KEPT);
    rrcache_close(cache);
}

static void test_own_denials_refused(void)
{
    struct rrcache *cache = open_small();
    struct wire wire = wire_of("www.example");
    const struct rrcache_negative good = negative_of(&wire, RRCACHE_NODATA, 60);
    struct rrcache_negative negative;
    uint32_t outcome = 7;
    EXPECT(rrcache_store_negative(NULL, &good, &outcome) == RRCACHE_NULL
           && rrcache_store_negative(cache, NULL, &outcome) == RRCACHE_NULL
           && rrcache_store_negative(cache, &good, NULL) == RRCACHE_NULL);
#define REFUSED(field, value, status)                                                              \
    EXPECT((negative = good, negative.field = (value),                                             \
            rrcache_store_negative(cache, &negative, &outcome) == (status))                        \
           && outcome == 7 && keys(cache) == 0)
    REFUSED(name, NULL, RRCACHE_NULL);
    REFUSED(soa_owner, NULL, RRCACHE_NULL);
    REFUSED(soa, NULL, RRCACHE_NULL);
    REFUSED(name_size, 1, RRCACHE_BAD_NAME);
    REFUSED(soa_owner_size, 1, RRCACHE_BAD_NAME);
    REFUSED(rclass, 0, RRCACHE_BAD_TYPE);
    REFUSED(rtype, OPT, RRCACHE_BAD_TYPE);
    REFUSED(kind, RRCACHE_FRESH, RRCACHE_BAD_CHOICE);
    REFUSED(kind, (enum rrcache_kind)0, RRCACHE_BAD_CHOICE);
    REFUSED(trust, (enum rrcache_trust)0, RRCACHE_BAD_CHOICE);
    REFUSED(soa_size, sizeof SOA_DATA - 1, RRCACHE_BAD_DATA);
    REFUSED(ttl, UINT32_C(1) << 31, RRCACHE_WRONG_BODY);
    REFUSED(moment, LATE, RRCACHE_MOMENT_TOO_LARGE);
#undef REFUSED
    /* A null pointer is found first, however many octets are said to be there. */
    negative = good;
    negative.soa = NULL;
    negative.soa_size = SIZE_MAX / 2;
    EXPECT(rrcache_store_negative(cache, &negative, &outcome) == RRCACHE_NULL);
    rrcache_close(cache);
}

static void test_own_failures_refused(void)
{
    struct rrcache *cache = open_small();
    struct wire wire = wire_of("www.example");
    const struct rrcache_failure good = failure_of(&wire, 30, FIRST);
    struct rrcache_failure failure;
    uint32_t outcome = 7;
    EXPECT(rrcache_store_failure(NULL, &good, &outcome) == RRCACHE_NULL
           && rrcache_store_failure(cache, NULL, &outcome) == RRCACHE_NULL
           && rrcache_store_failure(cache, &good, NULL) == RRCACHE_NULL);
#define REFUSED(field, value, status)                                                              \
    EXPECT((failure = good, failure.field = (value),                                               \
            rrcache_store_failure(cache, &failure, &outcome) == (status))                          \
           && outcome == 7 && keys(cache) == 0)
    REFUSED(name, NULL, RRCACHE_NULL);
    REFUSED(name_size, 1, RRCACHE_BAD_NAME);
    REFUSED(rclass, 0, RRCACHE_BAD_TYPE);
    REFUSED(rtype, 0, RRCACHE_BAD_TYPE);
    REFUSED(moment, LATE, RRCACHE_MOMENT_TOO_LARGE);
#undef REFUSED
    rrcache_close(cache);
}

static void test_forget(void)
{
    struct rrcache *cache = open_small();
    EXPECT(forget(cache, "www.example", A) == RRCACHE_DONE && keys(cache) == 0);
    EXPECT(keep(cache, "www.example", 60) == RRCACHE_KEPT
           && deny(cache, "empty.example", RRCACHE_NODATA, 60) == RRCACHE_KEPT
           && deny(cache, "none.example", RRCACHE_NXDOMAIN, 60) == RRCACHE_KEPT
           && fail(cache, "bad.example", 30, FIRST) == RRCACHE_KEPT && keys(cache) == 4);
    EXPECT(forget(cache, "www.example", TXT) == RRCACHE_DONE && keys(cache) == 4
           && forget(cache, "other.example", A) == RRCACHE_DONE && keys(cache) == 4);
    EXPECT(forget(cache, "WWW.example", A) == RRCACHE_DONE
           && kind_of(cache, "www.example", A, FIRST) == RRCACHE_MISS && keys(cache) == 3);
    EXPECT(forget(cache, "empty.example", A) == RRCACHE_DONE
           && kind_of(cache, "empty.example", A, FIRST) == RRCACHE_MISS && keys(cache) == 2);
    EXPECT(forget(cache, "none.example", TXT) == RRCACHE_DONE
           && kind_of(cache, "none.example", A, FIRST) == RRCACHE_MISS && keys(cache) == 1);
    EXPECT(forget(cache, "bad.example", A) == RRCACHE_DONE
           && kind_of(cache, "bad.example", A, FIRST) == RRCACHE_MISS && keys(cache) == 0
           && stats_of(cache).octets == 0 && stats_of(cache).expired == 0);
    EXPECT(forget(cache, "bad.example", A) == RRCACHE_DONE && keys(cache) == 0);
    rrcache_close(cache);
}

/* All that is held of one name goes at once. */
static void test_forget_all(void)
{
    struct rrcache *cache = open_small();
    struct wire wire = wire_of("www.example");
    struct rrcache_request request = request_of(&wire, A, FIRST);
    EXPECT(deny(cache, "www.example", RRCACHE_NXDOMAIN, 60) == RRCACHE_KEPT
           && keep(cache, "www.example", 60) == RRCACHE_KEPT
           && fail(cache, "www.example", 30, FIRST) == RRCACHE_KEPT);
    EXPECT(forget(cache, "www.example", A) == RRCACHE_DONE
           && kind_of(cache, "www.example", A, FIRST) == RRCACHE_MISS
           && kind_of(cache, "www.example", TXT, FIRST) == RRCACHE_MISS);
    EXPECT(rrcache_forget(NULL, &request) == RRCACHE_NULL
           && rrcache_forget(cache, NULL) == RRCACHE_NULL);
    request.name_size = 1;
    EXPECT(rrcache_forget(cache, &request) == RRCACHE_BAD_NAME);
    request = request_of(&wire, 0, FIRST);
    EXPECT(rrcache_forget(cache, &request) == RRCACHE_BAD_TYPE);
    request = request_of(&wire, A, FIRST);
    request.rclass = 2;
    EXPECT(rrcache_forget(cache, &request) == RRCACHE_BAD_TYPE);
    rrcache_close(cache);
}

/* Types of which something is held of a name: the first, the last, and others between these. */
static const uint16_t HELD_TYPES[] = {1, 2, 16, 256, 257, 258, 512, 513, 65534, 65535};
enum { HELD_TYPES_COUNT = sizeof HELD_TYPES / sizeof *HELD_TYPES };

static void deny_type(struct rrcache *cache, const char *name, uint16_t rtype, uint16_t rclass)
{
    struct wire wire = wire_of(name);
    struct rrcache_negative negative = negative_of(&wire, RRCACHE_NODATA, 60);
    uint32_t outcome = 0;
    negative.rtype = rtype;
    negative.rclass = rclass;
    NEED(rrcache_store_negative(cache, &negative, &outcome) == RRCACHE_DONE
         && outcome == RRCACHE_KEPT);
}

static void fail_type(struct rrcache *cache, const char *name, uint16_t rtype, uint16_t rclass)
{
    struct wire wire = wire_of(name);
    struct rrcache_failure failure = failure_of(&wire, 30, FIRST);
    uint32_t outcome = 0;
    failure.rtype = rtype;
    failure.rclass = rclass;
    NEED(rrcache_store_failure(cache, &failure, &outcome) == RRCACHE_DONE);
}

/* Each of what may be held of a name goes by type ANY, where it is held alone: of all types. */
static void test_forget_any_type(void)
{
    struct rrcache *cache = open_small();
    EXPECT(forget(cache, "www.example", ANY) == RRCACHE_DONE && keys(cache) == 0);
    EXPECT(keep(cache, "www.example", 60) == RRCACHE_KEPT
           && forget(cache, "WWW.Example", ANY) == RRCACHE_DONE && keys(cache) == 0);
    EXPECT(keep_alias(cache, "www.example", "a.example", 60) == RRCACHE_KEPT
           && forget(cache, "www.example", ANY) == RRCACHE_DONE && keys(cache) == 0);
    EXPECT(deny(cache, "www.example", RRCACHE_NXDOMAIN, 60) == RRCACHE_KEPT
           && forget(cache, "www.example", ANY) == RRCACHE_DONE && keys(cache) == 0);
    for (int i = 0; i < HELD_TYPES_COUNT; i++) {
        deny_type(cache, "www.example", HELD_TYPES[i], RRCACHE_IN);
        EXPECT(keys(cache) == 1 && forget(cache, "www.example", ANY) == RRCACHE_DONE
               && keys(cache) == 0);
        fail_type(cache, "www.example", HELD_TYPES[i], RRCACHE_IN);
        EXPECT(keys(cache) == 1 && forget(cache, "www.example", ANY) == RRCACHE_DONE
               && keys(cache) == 0);
    }
    EXPECT(stats_of(cache).octets == 0 && stats_of(cache).expired == 0
           && stats_of(cache).evicted == 0);
    rrcache_close(cache);
}

/* With type ANY all goes that is held of a name in a class, also where it is past its time; what is
   held of other names and of other classes stays. */
static void test_forget_all_types(void)
{
    static const char *const OTHERS[] = {"example", "other.example", "a.www.example"};
    struct rrcache *cache = open_small();
    enum { STAY = 2 * HELD_TYPES_COUNT };
    for (int i = 0; i < HELD_TYPES_COUNT; i++) {
        deny_type(cache, "www.example", HELD_TYPES[i], RRCACHE_IN);
        fail_type(cache, "www.example", HELD_TYPES[i], RRCACHE_IN);
        deny_type(cache, "www.example", HELD_TYPES[i], RRCACHE_HS);
        fail_type(cache, "www.example", HELD_TYPES[i], RRCACHE_HS);
    }
    EXPECT(keep_at(cache, "www.example", 1, 1, RRCACHE_AUTHORITATIVE_ANSWER) == RRCACHE_KEPT
           && deny(cache, "www.example", RRCACHE_NXDOMAIN, 60) == RRCACHE_KEPT);
    for (size_t i = 0; i < sizeof OTHERS / sizeof *OTHERS; i++)
        EXPECT(keep(cache, OTHERS[i], 60) == RRCACHE_KEPT);
    EXPECT(keys(cache) == 2 * STAY + 1 + 3);
    EXPECT(forget(cache, "www.example", ANY) == RRCACHE_DONE && keys(cache) == STAY + 3);
    for (int i = 0; i < HELD_TYPES_COUNT; i++)
        EXPECT(kind_of(cache, "www.example", HELD_TYPES[i], FIRST) == RRCACHE_MISS);
    for (size_t i = 0; i < sizeof OTHERS / sizeof *OTHERS; i++)
        EXPECT(kind_of(cache, OTHERS[i], A, FIRST) == RRCACHE_FRESH);
    rrcache_close(cache);
}

static void test_forget_any_refused(void)
{
    struct rrcache *cache = open_small();
    struct wire wire = wire_of("www.example");
    struct rrcache_request request = request_of(&wire, ANY, FIRST);
    EXPECT(keep(cache, "www.example", 60) == RRCACHE_KEPT);
    request.rclass = 2;
    EXPECT(rrcache_forget(cache, &request) == RRCACHE_BAD_TYPE);
    request = request_of(&wire, ANY, LATE);
    EXPECT(rrcache_forget(cache, &request) == RRCACHE_MOMENT_TOO_LARGE);
    request = request_of(&wire, ANY, FIRST);
    request.name_size = 3;
    EXPECT(rrcache_forget(cache, &request) == RRCACHE_BAD_NAME && keys(cache) == 1);
    rrcache_close(cache);
}

/* ---- Sweeps. */

static struct rrcache_swept sweep(struct rrcache *cache, uint64_t moment, uint64_t most)
{
    struct rrcache_swept swept = {77, 77};
    EXPECT(rrcache_sweep_all(cache, moment, most, &swept) == RRCACHE_DONE);
    return swept;
}

static void test_sweeps(void)
{
    struct rrcache_config config = config_of(4);
    config.max_stale = 0;
    struct rrcache *cache = open_by(&config);
    struct rrcache_swept swept = sweep(cache, FIRST, 1);
    uint64_t removed = 0;
    EXPECT(swept.removed == 0 && swept.is_done == 1);
    for (int i = 0; i < 20; i++)
        EXPECT(keep(cache, link_of(i), (uint32_t)(10 + i)) == RRCACHE_KEPT);
    swept = sweep(cache, FIRST + 9, 100);
    EXPECT(swept.removed == 0 && swept.is_done == 1 && keys(cache) == 20);
    /* Ten are over, each at a moment of its own, and go one by one. */
    for (int calls = 0; calls < 30 && !(swept = sweep(cache, FIRST + 19, 1), swept.is_done);
         calls++) {
        EXPECT(swept.removed == 1);
        removed += swept.removed;
    }
    removed += swept.removed;
    EXPECT(swept.is_done == 1 && removed == 10 && keys(cache) == 10
           && stats_of(cache).expired == 10);
    EXPECT(kind_of(cache, link_of(10), A, FIRST + 19) == RRCACHE_FRESH);
    swept = sweep(cache, FIRST + 100, 4);
    EXPECT(swept.removed == 4 && swept.is_done == 0);
    swept = sweep(cache, FIRST + 100, 1000);
    EXPECT(swept.removed == 6 && swept.is_done == 1 && keys(cache) == 0
           && stats_of(cache).octets == 0 && stats_of(cache).expired == 20);
    rrcache_close(cache);
}

/* Keys that expire in one second go in one step, however many they are. */
static void test_sweeps_of_a_second(void)
{
    struct rrcache_config config = config_of(1);
    config.max_stale = 0;
    struct rrcache *cache = open_by(&config);
    for (int i = 0; i < 1000; i++)
        NEED(keep(cache, link_of(i), i < 900 ? 60 : 61) == RRCACHE_KEPT);
    struct rrcache_swept swept = sweep(cache, FIRST + 100, 1);
    EXPECT(swept.removed == 900 && keys(cache) == 100);
    swept = sweep(cache, FIRST + 100, 101);
    EXPECT(swept.removed == 100 && swept.is_done == 1 && stats_of(cache).expired == 1000);
    rrcache_close(cache);
}

/* A name that lies in a shelf of two, other than those before. */
static void find_name(char *name, size_t size, uint64_t shelf, int *next)
{
    do
        snprintf(name, size, "s%d.example", (*next)++);
    while (shelf_of(name, 2) != shelf);
}

/* A sweep goes on where the last one ended, and does not begin with the first shelf again. */
static void test_sweeps_go_on(void)
{
    struct rrcache_config config = config_of(2);
    config.max_stale = 0;
    struct rrcache *cache = open_by(&config);
    char name[24];
    int next = 0;
    find_name(name, sizeof name, 0, &next);
    EXPECT(keep(cache, name, 1) == RRCACHE_KEPT);
    for (uint32_t i = 1; i <= 3; i++) {
        find_name(name, sizeof name, 1, &next);
        EXPECT(keep(cache, name, i) == RRCACHE_KEPT);
    }
    struct rrcache_swept swept = sweep(cache, FIRST + 100, 2);
    EXPECT(swept.removed == 2 && swept.is_done == 0 && stats_of_shelf(cache, 0).expired == 1
           && stats_of_shelf(cache, 1).expired == 1);
    find_name(name, sizeof name, 0, &next);
    EXPECT(keep(cache, name, 1) == RRCACHE_KEPT);
    swept = sweep(cache, FIRST + 100, 1);
    EXPECT(swept.removed == 1 && swept.is_done == 0 && stats_of_shelf(cache, 0).expired == 1
           && stats_of_shelf(cache, 1).expired == 2);
    swept = sweep(cache, FIRST + 100, 100);
    EXPECT(swept.removed == 2 && swept.is_done == 1 && keys(cache) == 0);
    rrcache_close(cache);
}

static void test_sweeps_refused(void)
{
    struct rrcache *cache = open_small();
    struct rrcache_swept swept = {77, 77};
    EXPECT(rrcache_sweep_all(NULL, FIRST, 1, &swept) == RRCACHE_NULL
           && rrcache_sweep_all(cache, FIRST, 1, NULL) == RRCACHE_NULL
           && rrcache_sweep_all(cache, FIRST, 0, &swept) == RRCACHE_BAD_RULES && swept.removed == 77
           && swept.is_done == 77);
    EXPECT(keep(cache, "www.example", 60) == RRCACHE_KEPT);
    EXPECT(rrcache_sweep_all(cache, LATE, 1, &swept) == RRCACHE_MOMENT_TOO_LARGE
           && keys(cache) == 1);
    EXPECT(rrcache_sweep_all(cache, LAST, 1, &swept) == RRCACHE_DONE && swept.removed == 1);
    rrcache_close(cache);
}

/* ---- What a cache did. */

static bool are_stats(const struct rrcache_stats *one, const struct rrcache_stats *other)
{
    return memcmp(one, other, sizeof *one) == 0;
}

static void test_stats(void)
{
    struct rrcache *cache = open_small();
    struct rrcache_stats sum = {0}, stats;
    EXPECT(keep(cache, "www.example", 60) == RRCACHE_KEPT
           && keep_alias(cache, "alias.example", "www.example", 600) == RRCACHE_KEPT
           && deny(cache, "none.example", RRCACHE_NXDOMAIN, 600) == RRCACHE_KEPT
           && deny(cache, "empty.example", RRCACHE_NODATA, 600) == RRCACHE_KEPT
           && fail(cache, "bad.example", 600, FIRST) == RRCACHE_KEPT
           && keep_at(cache, "www.example", 9, FIRST, RRCACHE_ADDITIONAL) == RRCACHE_OUTRANKED);
    look(cache, "www.example", A, FIRST);                            /* 1 hit */
    look(cache, "alias.example", A, FIRST);                          /* 2 */
    look(cache, "alias.example", A, FIRST + 60);                     /* 1, and 1 miss */
    look_in(cache, "www.example", A, FIRST + 60, RRCACHE_STALE_NOW); /* 1 stale */
    look(cache, "none.example", A, FIRST);                           /* 1 negative */
    look(cache, "empty.example", A, FIRST);                          /* 1 */
    look(cache, "bad.example", A, FIRST);                            /* 1 failed */
    look(cache, "nothing.example", A, FIRST);                        /* 1 miss */
    look(cache, "nothing.example", TXT, FIRST);                      /* 1 */
    stats = stats_of(cache);
    EXPECT(stats.hits == 4 && stats.stale == 1 && stats.negative == 2 && stats.misses == 3
           && stats.failed == 1);
    EXPECT(stats.kept == 5 && stats.outranked == 1 && stats.evicted == 0 && stats.expired == 0
           && stats.keys == 5);
    for (uint64_t i = 0; i < 4; i++) {
        struct rrcache_stats of = stats_of_shelf(cache, i);
        uint64_t *to = &sum.hits;
        const uint64_t *from = &of.hits;
        for (size_t field = 0; field < sizeof sum / sizeof *to; field++)
            to[field] += from[field];
    }
    EXPECT(are_stats(&sum, &stats));
    memset(&sum, 7, sizeof sum);
    stats = sum;
    EXPECT(rrcache_stats(NULL, &stats) == RRCACHE_NULL && rrcache_stats(cache, NULL) == RRCACHE_NULL
           && rrcache_stats_of(NULL, 0, &stats) == RRCACHE_NULL
           && rrcache_stats_of(cache, 0, NULL) == RRCACHE_NULL
           && rrcache_stats_of(cache, 4, &stats) == RRCACHE_BAD_RULES
           && rrcache_stats_of(cache, UINT64_MAX, &stats) == RRCACHE_BAD_RULES
           && are_stats(&stats, &sum));
    rrcache_close(cache);
}

/* Each name that is tried counts, also one whose reply needs more room than there is: a denial on
   the way to a delegation, and a DNAME RRset with more records than make an alias. */
static void test_counts_of_replies_without_room(void)
{
    struct rrcache *cache = open_small();
    struct wire wire = wire_of("host.sub.example");
    struct rrcache_request request = request_of(&wire, 0, FIRST);
    struct rrcache_answer answer = {0};
    EXPECT(deny(cache, "host.sub.example", RRCACHE_NXDOMAIN, 60) == RRCACHE_KEPT);
    EXPECT(rrcache_lookup_delegation(cache, &request, &answer) == RRCACHE_DONE);
    struct rrcache_stats stats = stats_of(cache);
    EXPECT(answer.kind == RRCACHE_MISS && stats.negative == 1 && stats.misses == 3);
    static uint8_t many[3 * 202] = {0, 200, 1, [202] = 0, 200, 2, [404] = 0, 200, 3};
    struct wire owner = wire_of("old.example");
    struct rrcache_set set = set_of(&owner, DNAME, 60, OF(many));
    uint32_t outcome = 0;
    EXPECT(rrcache_store_set(cache, &set, &outcome) == RRCACHE_DONE
           && keep_alias(cache, "w.old.example", "w.new.example", 60) == RRCACHE_KEPT);
    EXPECT(look_with_dnames(cache, "w.old.example", A, FIRST, sizeof space, &answer)
           == RRCACHE_DONE);
    stats = stats_of(cache);
    EXPECT(answer.aliases == 1 && count_of(&answer) == 1 && stats.hits == 2 && stats.misses == 4);
    rrcache_close(cache);
}

static void test_stats_text(void)
{
    static const char WANTED[] = "hits 1 stale 2 negative 3 misses 4 failed 5 kept 6 outranked 7 "
                                 "evicted 8 expired 9 keys 10 octets 11";
    const struct rrcache_stats stats = {1, 2, 3, 4, 5, 6, 7, 8, 9, 10, 11};
    struct rrcache_stats largest;
    char text[RRCACHE_STATS_OCTETS];
    EXPECT(rrcache_stats_text(&stats, text, sizeof text) == RRCACHE_DONE
           && strcmp(text, WANTED) == 0);
    memset(text, 7, sizeof text);
    for (size_t size = 0; size < sizeof WANTED; size++)
        EXPECT(rrcache_stats_text(&stats, text, size) == RRCACHE_SMALL && text[0] == 7);
    EXPECT(rrcache_stats_text(&stats, text, sizeof WANTED) == RRCACHE_DONE
           && strcmp(text, WANTED) == 0 && text[sizeof WANTED] == 7);
    memset(&largest, 0xff, sizeof largest);
    EXPECT(rrcache_stats_text(&largest, text, sizeof text) == RRCACHE_DONE);
    for (const char *at = text; (at = strpbrk(at, "0123456789")) != NULL; at += 20)
        EXPECT(strncmp(at, "18446744073709551615", 20) == 0);
    EXPECT(rrcache_stats_text(NULL, text, sizeof text) == RRCACHE_NULL
           && rrcache_stats_text(&stats, NULL, 1) == RRCACHE_NULL
           && rrcache_stats_text(&stats, NULL, 0) == RRCACHE_SMALL);
}

/* ---- Histories and what is held. */

/* What sinks were handed, of each shelf. */
struct text {
    char octets[64][4096];
    size_t size[64];
    uint64_t last;    /* the shelf of the last octets */
    long left;        /* how many calls are taken before one fails, or less than 0 */
    bool is_in_order; /* no shelf came before one with a lower number */
    bool is_whole;    /* all had room */
};

static int collect(void *state, uint64_t shelf, const void *octets, size_t size)
{
    struct text *text = state;
    if (text->left == 0)
        return 1;
    text->left -= text->left > 0;
    text->is_in_order = text->is_in_order && text->last <= shelf && shelf < 64;
    text->last = shelf;
    text->is_whole = text->is_whole && size < sizeof text->octets[0] - text->size[shelf];
    if (text->is_whole)
        memcpy(text->octets[shelf] + text->size[shelf], octets, size);
    text->size[shelf] += size;
    return 0;
}

static struct text collected;

static struct text *collector(long left)
{
    memset(&collected, 0, sizeof collected);
    collected.left = left;
    collected.is_in_order = collected.is_whole = true;
    return &collected;
}

/* How often words stand in what was collected of a shelf. */
static unsigned count_words(uint64_t shelf, const char *words)
{
    unsigned count = 0;
    for (const char *at = collected.octets[shelf]; (at = strstr(at, words)) != NULL; at++)
        count++;
    return count;
}

static void fill_for_dumps(struct rrcache *cache)
{
    NEED(keep(cache, "www.example", 60) == RRCACHE_KEPT
         && deny(cache, "empty.example", RRCACHE_NODATA, 70) == RRCACHE_KEPT
         && deny(cache, "none.example", RRCACHE_NXDOMAIN, 80) == RRCACHE_KEPT
         && fail(cache, "bad.example", 30, FIRST) == RRCACHE_KEPT
         && keep_alias(cache, "Alias.example", "www.example", 90) == RRCACHE_KEPT);
}

/* What is held, as docs/FORMATS.md has the lines of archives. */
static const struct {
    const char *name, *words;
} HELD[] = {
    {"www.example", " 1000 www.example. 1 set 4 60 www.example. c0000201\n"},
    {"empty.example", " 1000 empty.example. 1 negative 3 70 example. "},
    {"none.example", " 1000 none.example. nx negative 3 80 example. "},
    {"bad.example", " 1000 bad.example. failed1 failure 30\n"},
    {"alias.example", " 1000 alias.example. 5 set 4 90 Alias.example. "},
};

enum { HELD_KEYS = sizeof HELD / sizeof *HELD };

static void test_dump(void)
{
    struct rrcache *cache = open_small();
    unsigned entries = 0;
    EXPECT(rrcache_dump(NULL, collect, collector(-1)) == RRCACHE_NULL
           && rrcache_dump(cache, NULL, NULL) == RRCACHE_NULL);
    fill_for_dumps(cache);
    struct rrcache_stats before = stats_of(cache);
    for (int round = 0; round < 2; round++) {
        EXPECT(rrcache_dump(cache, collect, collector(-1)) == RRCACHE_DONE && collected.is_in_order
               && collected.is_whole);
        entries = 0;
        for (uint64_t i = 0; i < 4; i++) {
            entries += count_words(i, "\nentry ");
            EXPECT(count_words(i, "chapter ") == 1
                   && strncmp(collected.octets[i], "chapter ", 8) == 0
                   && count_words(i, "\n") == 1 + count_words(i, "\nentry ")
                   && count_words(i, "\nentry ") == stats_of_shelf(cache, i).keys);
        }
        EXPECT(entries == HELD_KEYS);
        for (int i = 0; i < HELD_KEYS; i++)
            EXPECT(count_words(shelf_of(HELD[i].name, 4), HELD[i].words) == 1);
    }
    struct rrcache_stats after = stats_of(cache);
    EXPECT(are_stats(&before, &after));
    /* A sink that fails ends it, and the next dump is whole. */
    EXPECT(rrcache_dump(cache, collect, collector(0)) == RRCACHE_SINK
           && rrcache_dump(cache, collect, collector(3)) == RRCACHE_SINK
           && rrcache_dump(cache, collect, collector(-1)) == RRCACHE_DONE);
    rrcache_close(cache);
}

/* Makes some events: each look-up is one, and so is each store. */
static void make_events(struct rrcache *cache)
{
    for (int i = 0; i < 5; i++)
        look_in(cache, i % 2 ? "www.example" : "Alias.Example", A, FIRST + 20 * (uint64_t)i,
                RRCACHE_STALE_NOW);
    EXPECT(keep(cache, "new.example", 60) == RRCACHE_KEPT
           && forget(cache, "none.example", A) == RRCACHE_DONE);
    sweep(cache, FIRST + 5000, 100);
}

static void test_records(void)
{
    struct rrcache *cache = open_small();
    uint64_t shelf = shelf_of("www.example", 4);
    EXPECT(rrcache_record_all(NULL) == RRCACHE_NULL
           && rrcache_stop_recording_all(NULL, collect, &collected) == RRCACHE_NULL
           && rrcache_stop_recording_all(cache, NULL, NULL) == RRCACHE_NULL);
    /* Nothing is recorded, and so nothing is written. */
    EXPECT(rrcache_stop_recording_all(cache, collect, collector(0)) == RRCACHE_DONE);
    fill_for_dumps(cache);
    EXPECT(rrcache_record_all(cache) == RRCACHE_DONE && rrcache_record_all(cache) == RRCACHE_DONE);
    EXPECT(rrcache_dump(cache, collect, collector(0)) == RRCACHE_HAS_CHAPTERS);
    EXPECT(kind_of(cache, "www.example", A, FIRST + 7) == RRCACHE_FRESH
           && keep(cache, "www.example", 61) == RRCACHE_KEPT
           && forget(cache, "nothing.example", A) == RRCACHE_DONE);
    EXPECT(rrcache_stop_recording_all(cache, collect, collector(-1)) == RRCACHE_DONE
           && collected.is_in_order && collected.is_whole);
    EXPECT(count_words(shelf, HELD[0].words) == 1
           && count_words(shelf, " 1007 www.example. 1 answer none fresh 53 www.example. c0000201")
                  == 1
           && count_words(shelf, " 1000 www.example. 1 set 4 61 www.example. c0000201 kept\n")
                  == 1);
    for (uint64_t i = 0; i < 4; i++)
        EXPECT(strncmp(collected.octets[i], "chapter ", 8) == 0
               && count_words(i, "nothing.example") == 0);
    EXPECT(rrcache_stop_recording_all(cache, collect, collector(0)) == RRCACHE_DONE
           && rrcache_dump(cache, collect, collector(-1)) == RRCACHE_DONE
           && kind_of(cache, "www.example", A, FIRST) == RRCACHE_FRESH);
    rrcache_close(cache);
}

/* Where a sink fails nothing is recorded any more, of no shelf. */
static void test_failed_sinks(void)
{
    for (long calls = 0; calls < 5; calls++) {
        struct rrcache *cache = open_small();
        fill_for_dumps(cache);
        EXPECT(rrcache_record_all(cache) == RRCACHE_DONE);
        make_events(cache);
        EXPECT(rrcache_stop_recording_all(cache, collect, collector(calls)) == RRCACHE_SINK);
        EXPECT(rrcache_stop_recording_all(cache, collect, collector(0)) == RRCACHE_DONE
               && rrcache_dump(cache, collect, collector(-1)) == RRCACHE_DONE);
        for (uint64_t i = 0; i < 4; i++)
            EXPECT(count_words(i, "chapter ") == 1 && count_words(i, "\nask ") == 0
                   && count_words(i, "\noffer ") == 0);
        rrcache_close(cache);
    }
    /* A cache that records may be closed. */
    struct rrcache *cache = open_small();
    EXPECT(rrcache_record_all(cache) == RRCACHE_DONE);
    make_events(cache);
    rrcache_close(cache);
}

/* ---- In which order keys go. */

/* A cache of one shelf that holds eight keys: the names of eight links, of which the last was
   stored last. */
static struct rrcache *open_eight(bool exact_recency)
{
    struct rrcache_config config = config_of(1);
    config.keys = 8;
    config.exact_recency = exact_recency;
    struct rrcache *cache = open_by(&config);
    for (int i = 0; i < 8; i++)
        NEED(keep(cache, link_of(i), 300) == RRCACHE_KEPT);
    /* That histories were recorded changes nothing. */
    NEED(rrcache_record_all(cache) == RRCACHE_DONE
         && rrcache_stop_recording_all(cache, collect, collector(-1)) == RRCACHE_DONE);
    return cache;
}

/* A name behind two of eight keys is moved only where each look-up moves: so six stores let it go,
   or the name behind it. */
static void check_recency(bool exact_recency)
{
    struct rrcache *cache = open_eight(exact_recency);
    EXPECT(kind_of(cache, link_of(5), A, FIRST) == RRCACHE_FRESH);
    for (int i = 8; i < 14; i++)
        EXPECT(keep(cache, link_of(i), 300) == RRCACHE_KEPT);
    EXPECT(kind_of(cache, link_of(5), A, FIRST) == (exact_recency ? RRCACHE_FRESH : RRCACHE_MISS));
    EXPECT(kind_of(cache, link_of(6), A, FIRST) == (exact_recency ? RRCACHE_MISS : RRCACHE_FRESH));
    EXPECT(kind_of(cache, link_of(4), A, FIRST) == RRCACHE_MISS && keys(cache) == 8);
    rrcache_close(cache);
    /* Behind three it is moved in any case. */
    cache = open_eight(exact_recency);
    EXPECT(kind_of(cache, link_of(4), A, FIRST) == RRCACHE_FRESH);
    for (int i = 8; i < 14; i++)
        EXPECT(keep(cache, link_of(i), 300) == RRCACHE_KEPT);
    EXPECT(kind_of(cache, link_of(4), A, FIRST) == RRCACHE_FRESH
           && kind_of(cache, link_of(6), A, FIRST) == RRCACHE_MISS);
    rrcache_close(cache);
    /* So is the one that would go first. */
    cache = open_eight(exact_recency);
    EXPECT(kind_of(cache, link_of(0), A, FIRST) == RRCACHE_FRESH
           && keep(cache, link_of(8), 300) == RRCACHE_KEPT
           && kind_of(cache, link_of(0), A, FIRST) == RRCACHE_FRESH
           && kind_of(cache, link_of(1), A, FIRST) == RRCACHE_MISS);
    rrcache_close(cache);
}

/* Five keys of seven are less than three quarters, so a look-up moves none, and six are more. */
static void test_recency_of_few_keys(void)
{
    for (int held = 5; held <= 6; held++) {
        struct rrcache_config config = config_of(1);
        config.keys = 7;
        struct rrcache *cache = open_by(&config);
        for (int i = 0; i < held; i++)
            EXPECT(keep(cache, link_of(i), 300) == RRCACHE_KEPT);
        EXPECT(kind_of(cache, link_of(0), A, FIRST) == RRCACHE_FRESH);
        for (int i = held; i < 8; i++)
            EXPECT(keep(cache, link_of(i), 300) == RRCACHE_KEPT);
        EXPECT(kind_of(cache, link_of(held == 5 ? 0 : 1), A, FIRST) == RRCACHE_MISS
               && kind_of(cache, link_of(held == 5 ? 1 : 0), A, FIRST) == RRCACHE_FRESH);
        rrcache_close(cache);
    }
}

/* Each shelf holds its share of the keys, a part of one counted as one. */
static void test_keys(void)
{
    struct rrcache_config config = config_of(2);
    config.keys = 3;
    struct rrcache *cache = open_by(&config);
    for (int i = 0; i < 20; i++)
        EXPECT(keep(cache, link_of(i), 300) == RRCACHE_KEPT);
    EXPECT(stats_of_shelf(cache, 0).keys == 2 && stats_of_shelf(cache, 1).keys == 2
           && stats_of(cache).evicted == 16);
    rrcache_close(cache);
    /* With 0 there is room for as many as a shelf may hold. */
    config.shelves = 1;
    config.keys = 0;
    cache = open_by(&config);
    for (int i = 0; i < 65536; i++)
        NEED(keep(cache, link_of(i), 300) == RRCACHE_KEPT);
    EXPECT(keys(cache) == 65536 && stats_of(cache).evicted == 0);
    for (int i = 65536; i < 70000; i++)
        NEED(keep(cache, link_of(i), 300) == RRCACHE_KEPT);
    EXPECT(keys(cache) == 65536 && stats_of(cache).evicted == 70000 - 65536);
    rrcache_close(cache);
}

/* Of four keys one goes for each new one that is kept, and none for what is held already or is not
   kept. */
static void test_evicted_keys(void)
{
    struct rrcache_config config = config_of(1);
    config.keys = 4;
    struct rrcache *cache = open_by(&config);
    EXPECT(keep(cache, "a.example", 60) == RRCACHE_KEPT
           && deny(cache, "b.example", RRCACHE_NODATA, 60) == RRCACHE_KEPT
           && deny(cache, "c.example", RRCACHE_NXDOMAIN, 60) == RRCACHE_KEPT
           && fail(cache, "d.example", 30, FIRST) == RRCACHE_KEPT);
    EXPECT(stats_of(cache).evicted == 0 && keys(cache) == 4);
    /* What is held is replaced, NODATA by data too, or trusted more, or cleared. */
    EXPECT(keep(cache, "a.example", 60) == RRCACHE_KEPT
           && keep_at(cache, "a.example", 60, FIRST, RRCACHE_ADDITIONAL) == RRCACHE_OUTRANKED
           && keep(cache, "b.example", 60) == RRCACHE_KEPT
           && deny(cache, "c.example", RRCACHE_NXDOMAIN, 60) == RRCACHE_KEPT
           && fail(cache, "d.example", 30, FIRST) == RRCACHE_KEPT
           && keep(cache, "e.example", 0) == RRCACHE_CLEARED);
    EXPECT(stats_of(cache).evicted == 0 && keys(cache) == 4);
    /* Each of these has a key of its own. */
    EXPECT(fail(cache, "a.example", 30, FIRST) == RRCACHE_KEPT && stats_of(cache).evicted == 1);
    EXPECT(deny(cache, "b.example", RRCACHE_NXDOMAIN, 60) == RRCACHE_KEPT
           && stats_of(cache).evicted == 2);
    EXPECT(keep(cache, "c.example", 60) == RRCACHE_KEPT && stats_of(cache).evicted == 3);
    EXPECT(deny(cache, "d.example", RRCACHE_NODATA, 60) == RRCACHE_KEPT
           && stats_of(cache).evicted == 4 && keys(cache) == 4);
    /* What is forgotten is not evicted, and has room for another one. */
    EXPECT(forget(cache, "d.example", A) == RRCACHE_DONE && keys(cache) == 3
           && keep(cache, "d.example", 60) == RRCACHE_KEPT && stats_of(cache).evicted == 4);
    rrcache_close(cache);
}

/* The keys that responses drive out are counted too. Each brings two, an alias or a name server and
   the address of what it leads to, and once more replaces them, where a shelf has room for both. */
static void check_evicted_by_responses(uint64_t shelves, uint64_t most, bool has_alias)
{
    static struct message message;
    const uint16_t rtype = has_alias ? A : NS, linking = has_alias ? CNAME : NS;
    struct rrcache_config config = config_of(shelves);
    struct rrcache_answer answer;
    config.keys = most;
    struct rrcache *cache = open_by(&config);
    for (int i = 0; i < 200; i += 2) {
        struct wire target = wire_of(link_of(i + 1));
        begin(&message, AA, link_of(i), rtype);
        add(&message, RRCACHE_ANSWER_SECTION, link_of(i), linking, 300, target.octets, target.size);
        add(&message, has_alias ? RRCACHE_ANSWER_SECTION : RRCACHE_ADDITIONAL_SECTION,
            link_of(i + 1), A, 300, OF(ADDRESS));
        for (int times = most < 2 * shelves ? 1 : 2; times > 0; times--) {
            EXPECT(store(cache, &message, link_of(i), rtype, &answer).counts.kept == 2);
            EXPECT(keys(cache) + stats_of(cache).evicted == (uint64_t)i + 2);
        }
        EXPECT(answer.kind == RRCACHE_FRESH && answer.aliases == has_alias);
    }
    EXPECT(keys(cache) == most && stats_of(cache).evicted == 200 - most);
    rrcache_close(cache);
}

static void test_evicted_by_responses(void)
{
    for (int has_alias = 0; has_alias < 2; has_alias++) {
        check_evicted_by_responses(1, 1, has_alias);
        check_evicted_by_responses(1, 2, has_alias);
        check_evicted_by_responses(1, 50, has_alias);
        check_evicted_by_responses(4, 4, has_alias);
        check_evicted_by_responses(4, 80, has_alias);
    }
}

/* A name that is asked for often stays, however many others come. */
static void check_hot_name(bool exact_recency)
{
    struct rrcache_config config = config_of(1);
    config.octets = 65536;
    config.exact_recency = exact_recency;
    struct rrcache *cache = open_by(&config);
    unsigned hits = 0;
    EXPECT(keep(cache, "hot.example", 3000) == RRCACHE_KEPT
           && keep(cache, "cold.example", 3000) == RRCACHE_KEPT);
    for (int i = 0; i < 1000; i++) {
        NEED(keep(cache, link_of(i), 3000) == RRCACHE_KEPT);
        hits += kind_of(cache, "hot.example", A, FIRST) == RRCACHE_FRESH;
    }
    EXPECT(hits == 1000 && kind_of(cache, "cold.example", A, FIRST) == RRCACHE_MISS
           && keys(cache) == 65536 / 320);
    rrcache_close(cache);
}

static void test_recency(void)
{
    check_recency(false);
    check_recency(true);
    check_hot_name(false);
    check_hot_name(true);
}

/* ---- Which names may be aliases. Of the others no CNAME record is looked for. */

/* Whether a question for an address is told a name's CNAME record exactly where one for type CNAME
   is, which looks for it whatever the name is. */
static bool is_alias_told(struct rrcache *cache, const char *name)
{
    bool is_told = look(cache, name, A, FIRST).aliases == 1;
    return is_told == (kind_of(cache, name, CNAME, FIRST) == RRCACHE_FRESH);
}

/* Stores an alias that leads nowhere: by a response, or the caller's own. */
static void store_alias(struct rrcache *cache, int number)
{
    static struct message message;
    struct rrcache_answer answer;
    if (number % 2 == 0) {
        NEED(keep_alias(cache, link_of(number), "nowhere.example", 300) == RRCACHE_KEPT);
        return;
    }
    begin(&message, AA, link_of(number), A);
    add_alias(&message, link_of(number), "nowhere.example", 300);
    NEED(store(cache, &message, link_of(number), A, &answer).counts.kept == 1);
}

/* Aliases and other names come and go, many times as many as there is room for. One alias is asked
   for all the time, by a type, and so is held all the time. */
static void check_aliases(const struct rrcache_config *config, uint16_t asked, bool is_recorded)
{
    struct rrcache *cache = open_by(config);
    unsigned told = 0, held = 0;
    EXPECT(!is_recorded || rrcache_record_all(cache) == RRCACHE_DONE);
    EXPECT(keep_alias(cache, "hot.example", "nowhere.example", 300) == RRCACHE_KEPT);
    for (int i = 0; i < 3000; i++) {
        if (i % 3 == 0)
            NEED(keep(cache, link_of(i), 300) == RRCACHE_KEPT);
        else
            store_alias(cache, i);
        told += look(cache, "hot.example", asked, FIRST).size != 0;
        int other = i - i * 11 % 151; /* of all ages, some with more keys behind them than stay */
        held += look(cache, link_of(other), A, FIRST).aliases;
        NEED(is_alias_told(cache, link_of(other)));
    }
    EXPECT(told == 3000 && held > 1000 && is_alias_told(cache, "hot.example")
           && stats_of(cache).evicted > 2000);
    rrcache_close(cache);
}

static void test_aliases_come_and_go(void)
{
    struct rrcache_config config = config_of(1);
    for (int by = 0; by < 16; by++) {
        config.octets = (by & 1) != 0 ? 65536 : 0;
        config.keys = (by & 1) != 0 ? 0 : 128;
        config.exact_recency = (by & 2) != 0;
        check_aliases(&config, (by & 4) != 0 ? A : CNAME, (by & 8) != 0);
    }
}

/* An alias that nobody asks for is told as long as it is held, and once it was stored anew. */
static void test_aliases_that_nobody_asks_for(void)
{
    struct rrcache_config config = config_of(1);
    config.keys = 16;
    struct rrcache *cache = open_by(&config);
    for (int age = 0; age < 40; age++) {
        int first = 100 * age;
        store_alias(cache, first);
        for (int i = 1; i <= age; i++)
            NEED(keep(cache, link_of(first + i), 300) == RRCACHE_KEPT);
        EXPECT(look(cache, link_of(first), A, FIRST).aliases == (age < 16));
        store_alias(cache, first);
        EXPECT(look(cache, link_of(first), A, FIRST).aliases == 1);
    }
    rrcache_close(cache);
}

/* What is forgotten, cleared or denied is no alias, and may be one again. */
static void test_aliases_that_end(void)
{
    struct rrcache *cache = open_small();
    for (int i = 0; i < 40; i++) {
        store_alias(cache, 7);
        EXPECT(look(cache, link_of(7), A, FIRST).aliases == 1);
        EXPECT(i % 2 == 0 ? forget(cache, link_of(7), CNAME) == RRCACHE_DONE
                          : keep_alias(cache, link_of(7), "other.example", 0) == RRCACHE_CLEARED);
        EXPECT(look(cache, link_of(7), A, FIRST).aliases == 0 && keys(cache) == 0);
    }
    rrcache_close(cache);
}

/* An alias of another class, and one whose owner is written by a pointer and in other letters. */
static void test_aliases_of_responses(void)
{
    static const uint8_t record[] = {0xc0, 12, 0, CNAME, 0, RRCACHE_CH, 0, 0, 0, 60, 0, 1, 0};
    static struct message message;
    struct rrcache *cache = open_small();
    struct wire wire = wire_of("A.example");
    struct rrcache_query query = query_of(&wire, A);
    struct rrcache_request request = request_of(&wire, A, FIRST);
    struct rrcache_answer answer = blank();
    struct rrcache_report report;
    query.rclass = request.rclass = RRCACHE_CH;
    begin_chaos(&message, "a.EXAMPLE", A, OF(record));
    struct rrcache_response response = response_of(&message);
    EXPECT(rrcache_store(cache, &query, &response, &report, NULL) == RRCACHE_DONE
           && report.counts.kept == 1);
    EXPECT(rrcache_lookup(cache, &request, &answer) == RRCACHE_DONE && answer.aliases == 1);
    request.rclass = RRCACHE_IN;
    EXPECT(rrcache_lookup(cache, &request, &answer) == RRCACHE_DONE && answer.aliases == 0);
    rrcache_close(cache);
}

#ifdef REFUSE
/* ---- Each allocation refused in turn. */

#include "refused.h"

/* What a cache answers of names, and what it holds. */
struct state {
    uint64_t keys, octets;
    uint32_t kinds[HELD_KEYS];
    uint64_t sizes[HELD_KEYS];
};

static struct state state_of(struct rrcache *cache)
{
    long before = granted;
    granted = -1;
    struct rrcache_stats stats = stats_of(cache);
    struct state state = {.keys = stats.keys, .octets = stats.octets};
    for (int i = 0; i < HELD_KEYS; i++) {
        struct rrcache_answer answer = look(cache, HELD[i].name, A, FIRST + 1);
        state.kinds[i] = answer.kind;
        state.sizes[i] = answer.size;
    }
    granted = before;
    return state;
}

static bool are_states(const struct state *one, const struct state *other)
{
    return memcmp(one, other, sizeof *one) == 0;
}

/* Stores a response with an alias and so many addresses of its target. */
static enum rrcache_status call_with_alias(struct rrcache *cache, const char *alias,
                                           const char *target, unsigned count)
{
    static struct message message;
    struct rrcache_answer answer = blank();
    struct rrcache_report report;
    begin(&message, AA, alias, A);
    add_alias(&message, alias, target, 100);
    add_addresses(&message, target, count);
    enum rrcache_status status = try_to_store(cache, &message, alias, A, &report, &answer);
    NEED(status == RRCACHE_DONE ? answer.aliases == 1 && count_of(&answer) == 2
                                : is_empty(&answer));
    return status;
}

static enum rrcache_status call_response(struct rrcache *cache)
{
    return call_with_alias(cache, "chain.example", "far.example", 5);
}

/* It does not fit surely, and so is stored one by one. */
static enum rrcache_status call_large_response(struct rrcache *cache)
{
    return call_with_alias(cache, "large.example", "many.example", 900);
}

static enum rrcache_status call_set(struct rrcache *cache)
{
    struct wire wire = wire_of("own.example");
    struct rrcache_set set = set_of(&wire, A, 60, OF(DATUM));
    uint32_t outcome;
    return rrcache_store_set(cache, &set, &outcome);
}

static enum rrcache_status call_negative(struct rrcache *cache)
{
    struct wire wire = wire_of("denied.example");
    struct rrcache_negative negative = negative_of(&wire, RRCACHE_NXDOMAIN, 60);
    uint32_t outcome;
    return rrcache_store_negative(cache, &negative, &outcome);
}

static enum rrcache_status call_failure(struct rrcache *cache)
{
    struct wire wire = wire_of("denied.example");
    struct rrcache_failure failure = failure_of(&wire, 10, FIRST);
    uint32_t outcome;
    return rrcache_store_failure(cache, &failure, &outcome);
}

static enum rrcache_status call_lookup(struct rrcache *cache)
{
    struct wire wire = wire_of("alias.example");
    struct rrcache_request request = request_of(&wire, A, FIRST);
    struct rrcache_answer answer = blank();
    enum rrcache_status status = rrcache_lookup(cache, &request, &answer);
    NEED(status == RRCACHE_DONE ? answer.kind == RRCACHE_FRESH && answer.aliases == 1
                                : is_empty(&answer));
    return status;
}

static enum rrcache_status call_delegation(struct rrcache *cache)
{
    struct wire wire = wire_of("www.example");
    struct rrcache_request request = request_of(&wire, A, FIRST);
    struct rrcache_answer answer = blank();
    return rrcache_lookup_delegation(cache, &request, &answer);
}

static enum rrcache_status call_forget(struct rrcache *cache)
{
    return forget(cache, "own.example", A);
}

/* Two keys go, one after the other. */
static enum rrcache_status call_forget_all(struct rrcache *cache)
{
    return forget(cache, "denied.example", A);
}

/* What is over by then are the failures alone. */
static enum rrcache_status call_sweep(struct rrcache *cache)
{
    struct rrcache_swept swept;
    return rrcache_sweep_all(cache, FIRST + 10, 1, &swept);
}

static enum rrcache_status call_stats(struct rrcache *cache)
{
    struct rrcache_stats stats;
    return rrcache_stats(cache, &stats);
}

static enum rrcache_status call_dump(struct rrcache *cache)
{
    enum rrcache_status status = rrcache_dump(cache, collect, collector(-1));
    return status == RRCACHE_HAS_CHAPTERS ? RRCACHE_DONE : status;
}

static enum rrcache_status call_record(struct rrcache *cache)
{
    enum rrcache_status status = rrcache_record_all(cache);
    if (status == RRCACHE_MEMORY) {
        /* Nothing is recorded, and so look-ups take no memory. */
        long before = wanted;
        state_of(cache);
        NEED(wanted == before);
    }
    return status;
}

/* After a refusal nothing is recorded, and the second call writes nothing. */
static enum rrcache_status call_stop(struct rrcache *cache)
{
    return rrcache_stop_recording_all(cache, collect, collector(-1));
}

/* Whether a call takes memory. */
enum takes { NONE, MAY, TAKES };

/* The calls in their order, and whether a refusal may leave a part of what one does: first while
   nothing is recorded, then while histories are. */
static const struct {
    enum rrcache_status (*make)(struct rrcache *cache);
    bool leaves_a_part;
    enum takes takes;
} CALLED[] = {
    {call_response, true, TAKES},       {call_large_response, true, TAKES},
    {call_set, false, TAKES},           {call_negative, false, TAKES},
    {call_failure, false, TAKES},       {call_lookup, false, NONE},
    {call_delegation, false, NONE},     {call_forget, false, MAY},
    {call_forget_all, true, MAY},       {call_sweep, false, MAY},
    {call_stats, false, NONE},          {call_dump, false, TAKES},
    {call_record, false, TAKES},        {call_response, true, TAKES},
    {call_large_response, true, TAKES}, {call_set, false, TAKES},
    {call_negative, false, TAKES},      {call_failure, false, TAKES},
    {call_lookup, false, TAKES},        {call_delegation, false, TAKES},
    {call_forget, false, TAKES},        {call_forget_all, true, TAKES},
    {call_sweep, false, TAKES},         {call_stats, false, NONE},
    {call_dump, false, NONE},           {call_stop, false, TAKES},
    {call_lookup, false, NONE},         {call_stop, false, NONE},
};

enum { CALLS = sizeof CALLED / sizeof *CALLED };

/* Which of the calls have met a refusal of memory, and whether the opening has. */
static bool met_refusal[CALLS], opening_met;

/* A small cache, opened with one allocation refused. */
static struct rrcache *open_refused(const struct rrcache_config *config)
{
    struct rrcache *cache = NULL;
    enum rrcache_status status = rrcache_open(&cache, config);
    if (status == RRCACHE_MEMORY) {
        opening_met = true;
        EXPECT(cache == NULL && blocks == 0);
        status = rrcache_open(&cache, config);
    }
    NEED(status == RRCACHE_DONE && cache != NULL);
    return cache;
}

/* Makes one of the calls, again where it is refused: that leaves the cache as it was. */
static bool call_refused(int number, struct rrcache *cache)
{
    struct state before = state_of(cache);
    bool right = true;
    enum rrcache_status status = CALLED[number].make(cache);
    if (status == RRCACHE_MEMORY) {
        struct state after = state_of(cache);
        met_refusal[number] = true;
        right = CALLED[number].leaves_a_part || are_states(&before, &after);
        status = CALLED[number].make(cache);
    }
    return right && status == RRCACHE_DONE;
}

/* Makes the calls with one allocation refused, and answers whether none was. */
static bool run_refused(long refused)
{
    struct rrcache_config config = config_of(2);
    config.octets = 65536;
    config.keys = 200;
    long out = blocks;
    blocks = 0;
    granted = refused;
    struct rrcache *cache = open_refused(&config);
    long left = granted;
    granted = -1;
    fill_for_dumps(cache);
    granted = left;
    bool right = true;
    for (int number = 0; number < CALLS; number++)
        right = call_refused(number, cache) && right;
    bool is_whole = granted >= 0;
    granted = -1;
    EXPECT(right && stats_of(cache).octets <= config.octets);
    rrcache_close(cache);
    EXPECT(blocks == 0);
    blocks = out;
    return is_whole;
}

static void test_refused_memory(void)
{
    long refused = 0;
    while (refused < 20000 && !run_refused(refused))
        refused++;
    EXPECT(refused > 20 && refused < 20000 && opening_met);
    printf("refused each of %ld allocations in turn\n", refused);
    for (int number = 0; number < CALLS; number++)
        EXPECT(CALLED[number].takes == MAY
               || met_refusal[number] == (CALLED[number].takes == TAKES));
}

/* A look-up takes no memory while nothing is recorded, also where it moves what it finds. */
static void test_lookups_take_no_memory(void)
{
    struct rrcache_config config = config_of(2);
    config.exact_recency = true;
    struct rrcache *cache = open_by(&config);
    fill_for_dumps(cache);
    wanted = 0;
    for (int i = 0; i < 100; i++)
        EXPECT(call_lookup(cache) == RRCACHE_DONE && call_delegation(cache) == RRCACHE_DONE
               && state_of(cache).keys == HELD_KEYS);
    EXPECT(wanted == 0 && rrcache_record_all(cache) == RRCACHE_DONE);
    wanted = 0;
    EXPECT(call_lookup(cache) == RRCACHE_DONE && wanted > 0);
    rrcache_close(cache);
}

/* Where room is to be made and memory is refused for it, the next call makes it. */
static void test_refused_room(void)
{
    struct rrcache_config config = config_of(1);
    config.octets = 65536;
    unsigned met = 0;
    for (long refused = 0; refused < 12; refused++) {
        struct rrcache *cache = open_by(&config);
        for (int i = 0; i < 400; i++)
            fail(cache, link_of(i), 300, FIRST);
        granted = refused;
        met += call_set(cache) == RRCACHE_MEMORY;
        granted = -1;
        EXPECT(call_set(cache) == RRCACHE_DONE && stats_of(cache).octets <= config.octets
               && kind_of(cache, "own.example", A, FIRST) == RRCACHE_FRESH);
        rrcache_close(cache);
    }
    EXPECT(met > 0);
}

/* Stores an RRset of 60 addresses in a full cache that records, with one allocation refused, and
   notes whether the eviction ended early. Returns whether an allocation was refused. */
static bool evict_refused(int filled, long refused, bool *ended_early)
{
    struct rrcache_config config = config_of(1);
    uint8_t data[60 * sizeof DATUM];
    struct wire owner = wire_of("many.example");
    uint32_t outcome;
    config.octets = 65536;
    struct rrcache *cache = open_by(&config);
    NEED(rrcache_record_all(cache) == RRCACHE_DONE);
    for (int i = 0; i < filled; i++)
        keep(cache, link_of(i), 300);
    for (size_t i = 0; i < 60; i++) {
        memcpy(data + i * sizeof DATUM, DATUM, sizeof DATUM);
        data[i * sizeof DATUM + 5] = (uint8_t)i;
    }
    const struct rrcache_set set = set_of(&owner, A, 300, OF(data));
    granted = refused;
    rrcache_store_set(cache, &set, &outcome);
    bool is_refused = granted < 0;
    granted = -1;
    const struct rrcache_stats stats = stats_of(cache);
    EXPECT(stats.keys + stats.evicted == stats.kept);
    *ended_early |= stats.octets > config.octets;
    rrcache_close(cache);
    return is_refused;
}

/* Each key that is evicted is counted, even if the eviction ends early. The list of events grows
   from time to time, so one of these evictions meets a refusal after it has begun. */
static void test_refused_evictions(void)
{
    bool ended_early = false;
    for (int filled = 210; filled < 270; filled += 4) {
        long refused = 0;
        while (refused < 100 && evict_refused(filled, refused, &ended_early))
            refused++;
        EXPECT(refused > 2 && refused < 100);
    }
    EXPECT(ended_early);
}

/* Forgets all that is held of a name, with one allocation refused. Then a part may stay, which a
   second call forgets. */
static enum rrcache_status forget_refused(long refused, bool is_recorded)
{
    struct rrcache *cache = open_small();
    EXPECT(deny(cache, "www.example", RRCACHE_NXDOMAIN, 60) == RRCACHE_KEPT
           && keep(cache, "www.example", 60) == RRCACHE_KEPT
           && keep(cache, "other.example", 60) == RRCACHE_KEPT);
    deny_type(cache, "www.example", TXT, RRCACHE_IN);
    fail_type(cache, "www.example", A, RRCACHE_IN);
    fail_type(cache, "www.example", 65535, RRCACHE_IN);
    EXPECT(!is_recorded || rrcache_record_all(cache) == RRCACHE_DONE);
    granted = refused;
    enum rrcache_status status = forget(cache, "www.example", ANY);
    granted = -1;
    EXPECT(status == RRCACHE_DONE
           || (status == RRCACHE_MEMORY && forget(cache, "www.example", ANY) == RRCACHE_DONE));
    EXPECT(keys(cache) == 1 && kind_of(cache, "other.example", A, FIRST) == RRCACHE_FRESH);
    rrcache_close(cache);
    return status;
}

static void test_refused_forgetting(void)
{
    for (int is_recorded = 0; is_recorded < 2; is_recorded++) {
        long refused = 0;
        while (refused < 200 && forget_refused(refused, is_recorded) == RRCACHE_MEMORY)
            refused++;
        EXPECT(refused > 2 && refused < 200);
    }
}
#endif

/* ---- Archives, which the program `rrcache` audits. */

static int write_archive(void *state, uint64_t shelf, const void *octets, size_t size)
{
    char path[4096];
    int length = snprintf(path, sizeof path, "%s/%02u", (const char *)state, (unsigned)shelf);
    FILE *to = length < (int)sizeof path ? fopen(path, "ab") : NULL;
    if (to == NULL)
        return 1;
    bool is_written = fwrite(octets, 1, size, to) == size;
    return fclose(to) != 0 || !is_written;
}

/* Writes the histories of four small shelves, in which keys were evicted, trimmed and swept. */
static int write_archives(char *folder)
{
    static struct message message;
    struct rrcache_config config = config_of(4);
    config.octets = 65536;
    config.keys = 160;
    struct rrcache *cache = open_by(&config);
    struct rrcache_answer answer;
    fill_for_dumps(cache);
    EXPECT(rrcache_record_all(cache) == RRCACHE_DONE);
    for (int i = 0; i < 400; i++) {
        begin(&message, AA, link_of(i), A);
        add_alias(&message, link_of(i), link_of(i + 1), 100);
        add_addresses(&message, link_of(i + 1), 1 + (unsigned)i % 20);
        store(cache, &message, link_of(i), A, &answer);
        look_in(cache, link_of(i / 2), A, FIRST + (uint64_t)i, RRCACHE_STALE_IF_FAILED);
        if (i % 7 == 0)
            fail(cache, link_of(i), 30, FIRST + (uint64_t)i);
        if (i % 50 == 0)
            sweep(cache, FIRST + (uint64_t)i, 10);
    }
    make_events(cache);
    EXPECT(rrcache_stop_recording_all(cache, write_archive, folder) == RRCACHE_DONE);
    rrcache_close(cache);
    return failed != 0;
}

static void (*const TESTS[])(void) = {
    test_open,
    test_ranges,
    test_seeds,
    test_lookup,
    test_denials,
    test_chains,
    test_endless_chains,
    test_aliases_not_followed,
    test_alias_to_a_missing_name,
    test_stale,
    test_no_stale,
    test_stale_chain,
    test_stale_end,
    test_stale_alias_over_an_address,
    test_failed_alias_over_fresh_data,
    test_failed,
    test_failures_of_a_question_and_of_its_end,
    test_cases,
    test_glue,
    test_small_buffers,
    test_lookups_refused,
    test_late_lookups,
    test_late_delegations,
    test_answers_of_refused_calls,
    test_clock,
    test_next,
    test_composed_answers,
    test_entries,
    test_entries_of_one_shelf,
    test_entries_of_responses,
    test_delegations,
    test_small_delegations,
    test_delegations_of_names_in_the_buffer,
    test_referral,
    test_store_answer,
    test_store_chain,
    test_store_alias,
    test_store_denials,
    test_store_that_clears,
    test_store_of_another_class,
    test_store_of_an_address_of_another_class,
    test_store_of_a_dname,
    test_dnames,
    test_aliases_that_no_dname_made,
    test_stale_dnames,
    test_rooms_of_dnames,
    test_dnames_of_responses,
    test_store_of_a_long_chain,
    test_rank_of_a_denial_behind_a_long_chain,
    test_store_of_a_large_rrset,
    test_types_that_are_not_kept,
    test_owners_behind_many_pointers,
    test_types_that_are_not_kept_behind_an_alias,
    test_records_beside_an_alias,
    test_names_of_a_response_in_the_answer,
    test_absence_of_types_that_are_not_kept,
    test_entry_of_absence,
    test_absence_by_another_section,
    test_absence_beside_what_is_left_out,
    test_types_that_are_not_kept_of_another_zone,
    test_types_that_are_not_kept_and_cannot_be_read,
    test_store_of_an_alias_beside_data,
    test_store_of_no_time,
    test_store_outranked,
    test_store_failure_of_a_server,
    test_store_truncated,
    test_store_of_any_type,
    test_store_of_any_type_and_size,
    test_store_with_small_buffers,
    test_room_for_the_longest_chain,
    test_dnames_of_an_endless_chain,
    test_room_of_aliases_of_many_records,
    test_room_of_stored_rrsets,
    test_room_of_any_type,
    test_late_response,
    test_stores_refused,
    test_limits,
    test_store_in_many_shelves,
    test_too_large,
    test_just_large_enough,
    test_compressed_too_large,
    test_own_too_large,
    test_too_large_with_ttl_0,
    test_octets,
    test_octets_of_responses,
    test_own_sets,
    test_own_sets_refused,
    test_own_denials_refused,
    test_own_failures_refused,
    test_forget,
    test_forget_all,
    test_forget_any_type,
    test_forget_all_types,
    test_forget_any_refused,
    test_sweeps,
    test_sweeps_of_a_second,
    test_sweeps_go_on,
    test_sweeps_refused,
    test_stats,
    test_counts_of_replies_without_room,
    test_stats_text,
    test_dump,
    test_records,
    test_failed_sinks,
    test_recency,
    test_recency_of_few_keys,
    test_aliases_come_and_go,
    test_aliases_that_nobody_asks_for,
    test_aliases_that_end,
    test_aliases_of_responses,
    test_keys,
    test_evicted_keys,
    test_evicted_by_responses,
#ifdef REFUSE
    test_refused_memory,
    test_lookups_take_no_memory,
    test_refused_room,
    test_refused_evictions,
    test_refused_forgetting,
#endif
};

int main(int words, char **word)
{
    if (words == 2)
        return write_archives(word[1]);
    for (size_t n = 0; n < sizeof TESTS / sizeof *TESTS; n++)
        TESTS[n]();
    return told_status();
}
