/* SPDX-License-Identifier: MIT */
/* Threads make every call of rrcache.h on one cache at once, and each reply is compared with what
   was stored.

   What is stored of a name has a version, which is counted up under a lock of the name's. All that
   is stored follows from the name, the version and the moment, and says them: an owner and an alias
   by the case of letters, addresses and SOA records by their octets. So a reply has to be, octet
   for octet, that of one version, which is no older than the last one that was stored before the
   look-up began, and no newer than the last that was begun before it ended; and its TTL is what is
   left. That replies follow the rules of shelves otherwise is found in their archives, of which the
   program writes files: test_cache_threads.py has these audited.

   cache_threads SECONDS ROUNDS READERS SIZE RECORD FOLDER

   Each thread makes ROUNDS calls, or as many as SECONDS allow. READERS is that of the config. SIZE
   is `small`, where keys are evicted all the time, or `large`, where none is. RECORD is `whole`,
   where all is recorded, `parts`, where one thread begins and ends records, or `loose`, where
   threads do so at random and nothing is written. The status is 1 where a reply was wrong.

   Many look-ups are made again at once, in lower case, so that memos answer (lib/memos.h).

   If lib/lookups.c or lib/memos.c is compiled so that no exchange of atomic numbers is made,
   look-ups take no place or no table of memos. What watches threads has to catch that. */
#define _GNU_SOURCE
#include <pthread.h>
#include <stdatomic.h>
#include <stdio.h>
#include <stdlib.h>
#include <string.h>
#include <time.h>

#include "drawn.h"
#include "structs.h"

enum { THREADS = 8, MOST_SHELVES = 16, KINDS = RRCACHE_FAILED + 1 };
/* In the place of a kind: a miss, or a failure of that name. With an answer that has aliases a
   caller is not told whether it is the question that failed, or the name at the end. */
enum { UNSURE = 0 };
enum { NO_ERROR = 0, SERVFAIL = 2, NX = 3 };
/* Names of each family, and those that an alias may lead to, which stand first. */
enum { HOSTS = 96, DENIED = 32, ALIASES = 48, ZONES = 16, GLUE = ZONES, FAILING = 16 };
enum { TARGETS = HOSTS + DENIED + ALIASES, SUBJECTS = TARGETS + ZONES + GLUE + FAILING };
/* Octets of a name, and of that those of its first label, whose letters have a case. */
enum { NAME = 75, LETTERS = 60, BITS = LETTERS / 2 };
enum { RECORD = 16, MOST_RECORDS = 200, MOST_DATA = MOST_RECORDS * (2 + RECORD), SOA_OCTETS = 22 };
enum { MOST_TICKS = 500000, LONG_TTL = 604800, MAX_STALE = 50 };
/* Of failures of hosts and aliases, and of the family that has failures alone: there the version is
   added to it. */
enum { FAILURE_TTL = 30, FAILING_TTL = 1000000 };
enum { REFUSED = 64, ENOUGH_RECORDS = 6, REPEATED = 4 };

enum family { HOST, DENIAL, ALIAS, ZONE, ADDRESS_OF_ZONE, FAILURE };

/* A name of which versions are stored. A steady one is never forgotten and does not expire. */
struct subject {
    uint8_t octets[NAME];
    uint32_t number;
    enum family family;
    uint16_t rtype;
    bool is_steady;
    uint64_t shelf;
    pthread_mutex_t lock;         /* of who stores it */
    atomic_uint begun, ended;     /* the last version whose storing began, and that was kept */
    atomic_uint failures;         /* how many were begun to be stored */
    atomic_uint refused[REFUSED]; /* versions that were outranked or too large */
};

/* What a version is. */
enum what { SET, NODATA, NXDOMAIN, NOTHING, FAILED };

struct plan {
    enum what what;
    enum rrcache_trust trust;
    uint32_t ttl;
    size_t records;
};

/* A version as it is stored. */
struct body {
    uint8_t owner[NAME];
    uint8_t data[MOST_DATA];
    size_t size;
};

struct worker {
    pthread_t thread;
    uint64_t state;
    uint8_t buffer[RRCACHE_ANSWER_OCTETS];
    uint8_t message[RRCACHE_MESSAGE_OCTETS];
    struct body body, other, expected;
    uint32_t before[SUBJECTS];
    uint64_t told[MOST_SHELVES][KINDS];
    struct rrcache_stats stats;
};

/* Where the archives of shelves go: into files of one name and the shelf's number. */
struct files {
    const char *name;
    int number;
    FILE *file[MOST_SHELVES];
};

static struct rrcache *cache;
static struct rrcache_config config = {
    .octets = UINT64_C(64) << 20,
    .shelves = MOST_SHELVES,
    .max_stale = MAX_STALE,
    .limits = {LONG_TTL, LONG_TTL, FAILURE_TTL},
    .seed = {7, 1, 2, 3, 4, 5},
};
static struct rrcache_parts parts;
static struct subject subjects[SUBJECTS];
static struct worker workers[THREADS];
static bool is_large, is_whole, is_loose;
static const char *folder;
static double seconds;
static long rounds;
static atomic_uint now = FIRST;
static atomic_int running, faults, is_over;
static atomic_long calls;

/* ---- Numbers that threads share. They order nothing, since what they ordered would hide races
   from what watches threads. Helgrind takes an atomic exchange for no race, but a mere store for
   one. */

static uint32_t seen(atomic_uint *number)
{
    return atomic_fetch_add_explicit(number, 0, memory_order_relaxed);
}

static void note(atomic_uint *number, uint32_t value)
{
    atomic_exchange_explicit(number, value, memory_order_relaxed);
}

static void expect(bool holds, const char *what)
{
    if (!holds && atomic_fetch_add(&faults, 1) < 20)
        fprintf(stderr, "FAIL %s\n", what);
}

static uint64_t draw(struct worker *worker)
{
    return drawn_from(&worker->state) >> 8;
}

static uint32_t mix(uint32_t one, uint32_t other)
{
    uint64_t mixed = ((uint64_t)one << 32 | other) * 0x9e3779b97f4a7c15u;
    mixed = (mixed ^ mixed >> 29) * 0xbf58476d1ce4e5b9u;
    return (uint32_t)(mixed >> 32);
}

static struct subject *any_subject(struct worker *worker)
{
    return &subjects[draw(worker) % SUBJECTS];
}

/* ---- What each version is. */

static struct plan plan_of(const struct subject *subject, uint32_t version)
{
    uint32_t drawn = mix(subject->number, version);
    uint32_t size = drawn % 256;
    struct plan plan = {
        .what = SET,
        .trust = RRCACHE_AUTHORITATIVE_ANSWER,
        .ttl = LONG_TTL,
        .records = size == 0   ? MOST_RECORDS
                   : size == 1 ? 100
                   : size < 16 ? 20
                               : 1 + size % 4,
    };
    bool is_short = (subject->family == HOST || subject->family == ALIAS) && !subject->is_steady;
    if (subject->family == ALIAS || subject->family == ZONE)
        plan.records = 1;
    if (subject->family == ZONE || subject->family == ADDRESS_OF_ZONE)
        plan.trust = RRCACHE_ADDITIONAL;
    if (subject->family == HOST && drawn >> 8 & 1)
        plan.trust = RRCACHE_NON_AUTHORITATIVE_ANSWER;
    if (is_short && drawn >> 9 & 1)
        plan.ttl = 3 + (drawn >> 10) % 40;
    if (subject->family == HOST && (drawn >> 16) % 8 == 0)
        plan.what = NODATA;
    if (subject->family == DENIAL && (drawn >> 16) % 4 != 0)
        plan.what = (drawn >> 16) % 4 == 1 ? NODATA : NXDOMAIN;
    if (subject->family == FAILURE)
        plan.what = FAILED;
    if (!subject->is_steady && version % 8 == 0)
        plan.what = NOTHING;
    return plan;
}

/* Where a version of an alias leads. The first ones are a chain that is longer than may be, and the
   last one leads to itself. */
static struct subject *target_of(const struct subject *alias, uint32_t version)
{
    uint32_t index = alias->number - HOSTS - DENIED;
    uint32_t target = mix(alias->number, version) % TARGETS;
    if (index <= RRCACHE_MOST_ALIASES)
        target = alias->number + 1;
    if (index == ALIASES - 1)
        target = alias->number;
    return &subjects[target];
}

static void put(uint8_t *octets, uint32_t number)
{
    for (int at = 0; at < 4; at++)
        octets[at] = (uint8_t)(number >> (24 - 8 * at));
}

static uint32_t number_at(const uint8_t *octets)
{
    return (uint32_t)octets[0] << 24 | (uint32_t)octets[1] << 16 | (uint32_t)octets[2] << 8
           | octets[3];
}

/* Writes a name with bits as the cases of its first letters. */
static void spell(const struct subject *subject, uint64_t bits, uint8_t *name)
{
    memcpy(name, subject->octets, NAME);
    for (int at = 0; at < LETTERS; at++)
        name[1 + at] -= bits >> at & 1 ? 'a' - 'A' : 0;
}

static uint64_t spelled(const uint8_t *name)
{
    uint64_t bits = 0;
    for (int at = 0; at < LETTERS; at++)
        bits |= (uint64_t)(name[1 + at] < 'a') << at;
    return bits;
}

static uint64_t bits_of(uint32_t version, uint32_t moment)
{
    return version | (uint64_t)moment << BITS;
}

static void put_addresses(const struct subject *subject, uint32_t version, uint32_t moment,
                          struct body *body)
{
    size_t records = plan_of(subject, version).records;
    for (uint32_t at = 0; at < records; at++) {
        uint8_t *datum = body->data + at * (2 + RECORD);
        datum[0] = 0;
        datum[1] = RECORD;
        put(datum + 2, subject->number << 16 | at);
        put(datum + 6, version);
        put(datum + 10, moment);
        put(datum + 14, mix(mix(subject->number, version), moment + at));
    }
    body->size = records * (2 + RECORD);
}

/* The one datum of an alias or of a zone: the name that it leads to. */
static void put_target(const struct subject *subject, uint32_t version, uint32_t moment,
                       struct body *body)
{
    const struct subject *target =
        subject->family == ZONE ? subject + ZONES : target_of(subject, version);
    body->data[0] = 0;
    body->data[1] = NAME;
    spell(target, bits_of(version, moment), body->data + 2);
    body->size = 2 + NAME;
}

static void put_denial(const struct subject *subject, uint32_t version, uint32_t moment,
                       struct body *body)
{
    uint8_t *soa = body->data + 2;
    body->data[0] = 0;
    body->data[1] = SOA_OCTETS;
    soa[0] = soa[1] = 0; /* two names, of the root */
    put(soa + 2, version);
    put(soa + 6, moment);
    put(soa + 10, subject->number);
    put(soa + 14, mix(mix(subject->number, version), moment));
    put(soa + 18, plan_of(subject, version).ttl); /* MINIMUM */
    body->size = 2 + SOA_OCTETS;
}

static void make_body(const struct subject *subject, uint32_t version, uint32_t moment,
                      struct body *body)
{
    spell(subject, bits_of(version, moment), body->owner);
    if (plan_of(subject, version).what != SET)
        put_denial(subject, version, moment, body);
    else if (subject->rtype == AAAA)
        put_addresses(subject, version, moment, body);
    else
        put_target(subject, version, moment, body);
}

/* ---- What answers say. */

/* A look-up whose answer is compared. */
struct look {
    struct worker *worker;
    const struct rrcache_request *request;
    struct subject *asked;
    bool is_counted; /* what the answer tells was looked up, and not said by a response */
};

static void note_told(const struct look *look, uint64_t shelf, uint32_t kind)
{
    if (look->is_counted)
        look->worker->told[shelf][kind]++;
}

/* Whether a version of a name may be told: none that was stored before the last one, that was not
   begun, or that was refused. */
static bool is_due(const struct look *look, struct subject *subject, uint32_t version)
{
    bool is_refused = look->is_counted && seen(&subject->refused[version % REFUSED]) == version;
    return version >= look->worker->before[subject->number] && version <= seen(&subject->begun)
           && version != 0 && !is_refused;
}

/* Whether the kind and the TTL of an RRset are what is left of a version's. */
static bool has_time(const struct look *look, struct subject *subject, uint32_t moment,
                     const struct plan *plan, const struct rrcache_rrset *rrset)
{
    uint64_t at = look->request->moment, age = at > moment ? at - moment : 0;
    if (rrset->kind != RRCACHE_STALE)
        return age < plan->ttl && rrset->set.ttl == plan->ttl - age;
    return age >= plan->ttl && age < (uint64_t)plan->ttl + MAX_STALE && rrset->set.ttl == 30
           && (look->request->mode == RRCACHE_STALE_NOW
               || (look->request->mode == RRCACHE_STALE_IF_FAILED
                   && (seen(&look->asked->failures) != 0 || seen(&subject->failures) != 0)));
}

static bool has_kind(const struct plan *plan, uint32_t kind)
{
    return plan->what == SET      ? kind == RRCACHE_FRESH || kind == RRCACHE_STALE
           : plan->what == NODATA ? kind == RRCACHE_NODATA
                                  : plan->what == NXDOMAIN && kind == RRCACHE_NXDOMAIN;
}

static bool is_denial(const struct rrcache_rrset *rrset)
{
    return rrset->kind == RRCACHE_NODATA || rrset->kind == RRCACHE_NXDOMAIN;
}

/* Whether an RRset has the octets, the type and the section of a version. */
static bool has_body(const struct look *look, const struct subject *subject, uint32_t version,
                     uint32_t moment, const struct rrcache_rrset *rrset)
{
    struct body *expected = &look->worker->expected;
    const struct rrcache_parsed_set *set = &rrset->set;
    bool denies = is_denial(rrset);
    const uint8_t *owner = denies ? EXAMPLE : expected->owner;
    size_t owner_size = denies ? sizeof EXAMPLE : NAME;
    make_body(subject, version, moment, expected);
    return set->owner_size == owner_size && memcmp(set->owner, owner, owner_size) == 0
           && set->data_size == expected->size
           && memcmp(set->data, expected->data, expected->size) == 0
           && set->rtype == (denies ? SOA : subject->rtype) && set->rclass == RRCACHE_IN
           && set->section == (denies ? RRCACHE_AUTHORITY_SECTION : RRCACHE_ANSWER_SECTION);
}

/* Compares an RRset of an answer with the version that it says to be of a name; the version. */
static uint32_t expect_rrset(const struct look *look, struct subject *subject,
                             const struct rrcache_rrset *rrset)
{
    const uint8_t *soa = rrset->set.data + 2;
    bool denies = is_denial(rrset);
    if (denies ? rrset->set.data_size != 2 + SOA_OCTETS : rrset->set.owner_size != NAME) {
        expect(false, "an RRset has the owner or the SOA record of a version");
        return 0;
    }
    uint64_t bits =
        denies ? bits_of(number_at(soa + 2), number_at(soa + 6)) : spelled(rrset->set.owner);
    uint32_t version = (uint32_t)(bits & ((1u << BITS) - 1)), moment = (uint32_t)(bits >> BITS);
    const struct plan plan = plan_of(subject, version);
    expect(is_due(look, subject, version), "an RRset is of a version that is due");
    expect(has_kind(&plan, rrset->kind), "an RRset is of its version's kind");
    expect(rrset->trust == plan.trust, "an RRset is trusted as its version");
    expect(plan.trust != RRCACHE_ADDITIONAL || look->request->takes_glue, "no glue is an answer");
    expect(moment <= seen(&now) && has_time(look, subject, moment, &plan, rrset),
           "a TTL is what is left");
    expect(has_body(look, subject, version, moment, rrset), "an RRset is that of one version");
    return version;
}

static bool is_name_of(const struct rrcache_name *name, const struct subject *subject)
{
    return name->size == NAME && memcmp(name->octets, subject->octets, NAME) == 0;
}

/* Whether nothing may be found of a name: of a steady one only in place of glue, where no key goes
   for room. */
static bool may_lack(const struct look *look, const struct subject *end, uint32_t kind)
{
    bool is_held = is_large && end->is_steady && look->worker->before[end->number] != 0;
    bool is_glue = end->family == ZONE || end->family == ADDRESS_OF_ZONE;
    if (!look->is_counted || !is_held)
        return true;
    return end->family == FAILURE ? kind == RRCACHE_FAILED : is_glue && !look->request->takes_glue;
}

/* Compares that nothing was found at the end of an answer, or that asking failed. */
static void expect_nothing(const struct look *look, struct subject *end,
                           const struct rrcache_answer *answer)
{
    uint64_t from = answer->retry_from;
    bool has_failed = answer->kind == RRCACHE_FAILED;
    expect(has_failed || answer->kind == RRCACHE_MISS, "nothing is a miss or a failure");
    expect(may_lack(look, end, answer->kind), "what is steady is told");
    note_told(look, end->shelf, has_failed && answer->aliases != 0 ? UNSURE : answer->kind);
    expect(has_failed == (from != 0), "a failure has a moment to try again");
    if (has_failed && end->family == FAILURE)
        expect(is_due(look, end, (uint32_t)(from - FIRST - FAILING_TTL)), "a failure is due");
    else if (has_failed)
        expect(seen(&look->asked->failures) + seen(&end->failures) != 0
                   && from > look->request->moment && from <= seen(&now) + FAILURE_TTL,
               "a failure was stored");
}

/* Compares each RRset of an answer, and what it comes to. */
static void expect_answer(const struct look *look, const struct rrcache_answer *answer)
{
    struct rrcache_rrset rrset = {0};
    struct subject *at = look->asked;
    uint32_t count = 0, last = RRCACHE_MISS;
    bool is_stale = false;
    while (rrcache_next(answer, &rrset)) {
        uint32_t version = expect_rrset(look, at, &rrset);
        note_told(look, at->shelf, rrset.kind);
        is_stale |= rrset.kind == RRCACHE_STALE;
        last = rrset.kind;
        if (count++ < answer->aliases)
            at = target_of(at, version);
    }
    expect(answer->is_stale == is_stale, "an answer is stale as its RRsets");
    expect(is_name_of(&answer->end, at) && answer->end.part == at->shelf, "an answer has its end");
    expect(!answer->is_endless || answer->aliases == RRCACHE_MOST_ALIASES,
           "aliases are endless that are many");
    if (answer->is_endless)
        expect(answer->kind == RRCACHE_MISS && count == answer->aliases + 1, "aliases end");
    else if (count > answer->aliases)
        expect(answer->kind == last && count == answer->aliases + 1, "an answer is its last RRset");
    else
        expect_nothing(look, at, answer);
}

/* ---- Looking up. */

/* Notes which versions of names are stored: all where aliases lead anywhere, else that of one. */
static void note_before(struct worker *worker, struct subject *subject)
{
    if (subject->family != ALIAS) {
        worker->before[subject->number] = seen(&subject->ended);
        return;
    }
    for (int at = 0; at < TARGETS; at++)
        worker->before[at] = seen(&subjects[at].ended);
}

/* What was told by a look-up for which the buffer was too small. */
static void expect_beginning(const struct look *look, const struct rrcache_answer *answer)
{
    struct rrcache_rrset rrset = {0};
    struct subject *at = look->asked;
    while (rrcache_next(answer, &rrset)) {
        uint32_t version = expect_rrset(look, at, &rrset);
        note_told(look, at->shelf, rrset.kind);
        expect(rrset.set.rtype == CNAME, "a beginning has aliases");
        at = target_of(at, version);
    }
}

/* Looks up a name, into a buffer that may be too small. */
static void look_up_name(struct worker *worker, struct subject *subject,
                         struct rrcache_request *request, bool is_narrow)
{
    struct rrcache_answer answer = {
        .buffer = worker->buffer,
        .room = is_narrow ? draw(worker) % 1024 : sizeof worker->buffer,
    };
    const struct look look = {worker, request, subject, true};
    note_before(worker, subject);
    request->moment = seen(&now);
    enum rrcache_status status = rrcache_lookup(cache, request, &answer);
    expect(status == RRCACHE_DONE || (is_narrow && status == RRCACHE_SMALL), "a look-up is done");
    if (request->rtype == CNAME)
        expect(answer.aliases == 0, "of aliases themselves none is followed");
    if (status == RRCACHE_DONE)
        expect_answer(&look, &answer);
    else
        expect_beginning(&look, &answer);
}

/* Looks up any name: once in any case of letters, or a few times in lower case. */
static void look_up(struct worker *worker)
{
    uint8_t name[NAME];
    struct subject *subject = any_subject(worker);
    struct rrcache_request request = {
        .name = name,
        .name_size = NAME,
        .rtype = subject->family == ALIAS && draw(worker) % 8 != 0 ? AAAA : subject->rtype,
        .rclass = RRCACHE_IN,
        .mode = 1 + draw(worker) % 3,
        .takes_glue = draw(worker) % 2,
    };
    bool is_repeated = draw(worker) % 2;
    spell(subject, is_repeated ? 0 : draw(worker), name);
    for (int left = is_repeated ? REPEATED : 1; left > 0; left--)
        look_up_name(worker, subject, &request, draw(worker) % 64 == 0);
}

/* Notes a look-up of each name on the way from the one that was asked up to the delegation. */
static void note_way(const struct look *look, const struct rrcache_answer *answer)
{
    struct rrcache_name name;
    bool is_found = false;
    for (size_t at = 0; at < look->request->name_size && !is_found;
         at += look->request->name[at] + (size_t)1) {
        rrcache_make_name(&name, look->request->name + at, look->request->name_size - at, &parts);
        is_found = answer->kind == RRCACHE_FRESH && name.size == answer->end.size
                   && memcmp(name.octets, answer->end.octets, name.size) == 0;
        note_told(look, name.part, is_found ? RRCACHE_FRESH : RRCACHE_MISS);
    }
    expect(is_found == (answer->kind == RRCACHE_FRESH), "a delegation is above the name");
}

/* Compares a delegation: that of the zone, or of one above it, which no version has. */
static void expect_delegation(const struct look *look, const struct rrcache_answer *answer)
{
    static const uint8_t servers[] = {0, 1, 0};
    struct subject *zone = look->asked;
    struct rrcache_rrset rrset = {0};
    bool is_held = is_large && zone->is_steady && look->worker->before[zone->number] != 0;
    bool is_zone = answer->kind == RRCACHE_FRESH && is_name_of(&answer->end, zone);
    expect(is_zone || !is_held, "a steady zone has its delegation");
    expect(answer->kind == RRCACHE_FRESH || !is_large, "there is a delegation");
    expect(rrcache_next(answer, &rrset) == (answer->kind == RRCACHE_FRESH), "it has an RRset");
    note_way(look, answer);
    if (is_zone)
        expect_rrset(look, zone, &rrset);
    else if (answer->kind == RRCACHE_FRESH)
        expect(rrset.set.data_size == sizeof servers && memcmp(rrset.set.data, servers, 3) == 0
                   && rrset.set.owner_size == answer->end.size && rrset.set.rtype == NS
                   && rrset.trust == RRCACHE_ADDITIONAL
                   && rrset.set.ttl == LONG_TTL - (look->request->moment - FIRST),
               "a delegation is the one that was stored");
    expect(!rrcache_next(answer, &rrset), "a delegation is one RRset");
}

static void look_up_delegation(struct worker *worker)
{
    uint8_t name[4 + NAME] = "\3www";
    struct subject *zone = &subjects[TARGETS + draw(worker) % ZONES];
    struct rrcache_request request = {.name = name,
                                      .name_size = sizeof name,
                                      .rclass = RRCACHE_IN,
                                      .takes_glue = true,
                                      .moment = seen(&now)};
    struct rrcache_answer answer = {.buffer = worker->buffer, .room = sizeof worker->buffer};
    const struct look look = {worker, &request, zone, true};
    spell(zone, draw(worker), name + 4);
    note_before(worker, zone);
    expect(rrcache_lookup_delegation(cache, &request, &answer) == RRCACHE_DONE,
           "a delegation is looked up");
    expect_delegation(&look, &answer);
}

/* ---- Storing. Who stores a version holds the lock of its name. */

/* Notes what became of a version. */
static void note_version(struct subject *subject, uint32_t version, bool is_kept)
{
    if (is_kept)
        note(&subject->ended, version);
    else
        note(&subject->refused[version % REFUSED], version);
}

static uint32_t begin_version(struct subject *subject)
{
    uint32_t version = seen(&subject->begun) + 1;
    note(&subject->begun, version);
    return version;
}

/* Whether a version was kept, by what the call returned. */
static bool is_kept(enum rrcache_status status, uint32_t outcome, const struct plan *plan)
{
    bool may_be_less = plan->trust != RRCACHE_AUTHORITATIVE_ANSWER;
    if (status == RRCACHE_TOO_LARGE) {
        expect(!is_large && plan->records >= 100, "what is too large is large");
        return false;
    }
    expect(status == RRCACHE_DONE, "a version is stored");
    expect(outcome == RRCACHE_KEPT || (outcome == RRCACHE_OUTRANKED && may_be_less),
           "a version is kept, or outranked");
    return outcome == RRCACHE_KEPT;
}

static bool store_set(struct worker *worker, const struct subject *subject, const struct plan *plan)
{
    const struct body *body = &worker->body;
    struct rrcache_set set =
        plain_set(body->owner, NAME, subject->rtype, plan->ttl, body->data, body->size);
    uint32_t outcome = 0;
    set.trust = plan->trust;
    set.moment = spelled(body->owner) >> BITS;
    enum rrcache_status status = rrcache_store_set(cache, &set, &outcome);
    return is_kept(status, outcome, plan);
}

static bool store_negative(struct worker *worker, const struct subject *subject,
                           const struct plan *plan)
{
    const struct body *body = &worker->body;
    enum rrcache_kind kind = plan->what == NODATA ? RRCACHE_NODATA : RRCACHE_NXDOMAIN;
    struct rrcache_negative negative =
        plain_negative(body->owner, NAME, subject->rtype, kind, plan->ttl);
    uint32_t outcome = 0;
    negative.trust = plan->trust;
    negative.soa = body->data + 2;
    negative.soa_size = SOA_OCTETS;
    negative.moment = spelled(body->owner) >> BITS;
    enum rrcache_status status = rrcache_store_negative(cache, &negative, &outcome);
    return is_kept(status, outcome, plan);
}

static bool store_failing(const struct subject *subject, uint32_t version)
{
    const struct rrcache_failure failure =
        plain_failure(subject->octets, NAME, subject->rtype, FAILING_TTL + version);
    uint32_t outcome = 0;
    enum rrcache_status status = rrcache_store_failure(cache, &failure, &outcome);
    expect(status == RRCACHE_DONE && outcome == RRCACHE_KEPT, "a failure is kept");
    return true;
}

/* Forgets a name, now and then with all that is held of it, of each type. */
static bool forget(struct worker *worker, const struct subject *subject)
{
    const struct rrcache_request request = {.name = worker->body.owner,
                                            .name_size = NAME,
                                            .rtype = draw(worker) % 16 == 0 ? ANY : subject->rtype,
                                            .rclass = RRCACHE_IN,
                                            .moment = seen(&now)};
    expect(rrcache_forget(cache, &request) == RRCACHE_DONE, "a name is forgotten");
    return true;
}

/* ---- Responses. */

/* A response on its way: the name that is asked for, and of which the version is that is stored,
   and another one of which it brings a version too, or null. */
struct reply {
    struct worker *worker;
    struct subject *subject, *other;
    struct plan plan, other_plan;
    uint32_t version, other_version, moment;
    uint8_t asked[4 + NAME];
    struct rrcache_query query;
    struct rrcache_parsed_set sets[2];
    struct rrcache_parsed_response parsed;
};

static void ask(struct reply *reply)
{
    bool is_below = reply->subject->family == ZONE; /* a referral leads to a zone below */
    memcpy(reply->asked, "\3www", 4);
    spell(reply->subject, draw(reply->worker), reply->asked + 4);
    reply->query = (struct rrcache_query){
        .name = reply->asked + (is_below ? 0 : 4),
        .name_size = NAME + (is_below ? 4 : 0),
        .id = (uint16_t)draw(reply->worker),
        .rtype = AAAA,
        .rclass = RRCACHE_IN,
    };
}

static struct rrcache_parsed_set set_of(const struct subject *subject, const struct plan *plan,
                                        const struct body *body)
{
    return (struct rrcache_parsed_set){
        .owner = plan->what == SET ? body->owner : EXAMPLE,
        .owner_size = plan->what == SET ? NAME : sizeof EXAMPLE,
        .rtype = plan->what == SET ? subject->rtype : SOA,
        .rclass = RRCACHE_IN,
        .ttl = plan->ttl,
        .section = plan->what == SET && subject->family != ZONE ? RRCACHE_ANSWER_SECTION
                                                                : RRCACHE_AUTHORITY_SECTION,
        .data = body->data,
        .data_size = body->size,
    };
}

/* Finds another name of which the response may bring the next version: what an alias leads to, with
   data that are trusted less, or the address of a zone's server. It takes that name's lock. */
static void find_other(struct reply *reply)
{
    struct subject *other = NULL;
    if (reply->subject->family == ALIAS)
        other = target_of(reply->subject, reply->version);
    else if (reply->subject->family == ZONE)
        other = reply->subject + ZONES;
    if (other == NULL || (other->family != HOST && other->family != ADDRESS_OF_ZONE))
        return;
    pthread_mutex_lock(&other->lock);
    reply->other_plan = plan_of(other, seen(&other->begun) + 1);
    if (reply->other_plan.what == SET && reply->other_plan.trust != RRCACHE_AUTHORITATIVE_ANSWER)
        reply->other = other;
    else
        pthread_mutex_unlock(&other->lock);
}

static void add_other(struct reply *reply)
{
    struct body *body = &reply->worker->other;
    reply->other_version = begin_version(reply->other);
    make_body(reply->other, reply->other_version, reply->moment, body);
    reply->sets[1] = set_of(reply->other, &reply->other_plan, body);
    if (reply->subject->family == ZONE)
        reply->sets[1].section = RRCACHE_ADDITIONAL_SECTION;
    reply->parsed.count = 2;
}

/* Stores a composed response, and compares what it came to and its answer, where one is wanted. */
static void store_parsed(struct reply *reply, struct rrcache_report *report,
                         enum rrcache_response_kind kind)
{
    struct worker *worker = reply->worker;
    const struct rrcache_request request = {.moment = reply->moment, .mode = RRCACHE_NO_STALE};
    const struct look look = {worker, &request, reply->subject, false};
    struct rrcache_answer answer = {.buffer = worker->buffer, .room = sizeof worker->buffer};
    bool is_answered = draw(worker) % 2;
    size_t size;
    enum rrcache_status status = rrcache_compose_response(
        &reply->query, &reply->parsed, worker->message, sizeof worker->message, &size);
    expect(status == RRCACHE_DONE, "a response is composed");
    const struct rrcache_response response = {
        .octets = worker->message,
        .size = size,
        .zone = EXAMPLE,
        .zone_size = sizeof EXAMPLE,
        .moment = reply->moment,
        .clears_denied = draw(worker) % 2,
    };
    status = rrcache_store(cache, &reply->query, &response, report, is_answered ? &answer : NULL);
    expect(status == RRCACHE_DONE && report->summary.kind == kind, "a response is stored");
    if (is_answered && kind == RRCACHE_RESPONSE_REFERRAL)
        expect(answer.kind == RRCACHE_MISS && answer.size == 0, "a referral is no answer");
    else if (is_answered)
        expect_answer(&look, &answer);
}

/* What a response comes to that brings a version. An alias of itself ends nowhere. */
static enum rrcache_response_kind kind_of(const struct reply *reply)
{
    const struct subject *subject = reply->subject;
    if (reply->plan.what == NODATA)
        return RRCACHE_RESPONSE_NODATA;
    if (reply->plan.what == NXDOMAIN)
        return RRCACHE_RESPONSE_NXDOMAIN;
    if (subject->family == ZONE)
        return RRCACHE_RESPONSE_REFERRAL;
    if (subject->family != ALIAS || reply->other != NULL)
        return RRCACHE_RESPONSE_ANSWER;
    return target_of(subject, reply->version) == subject ? RRCACHE_RESPONSE_UNUSABLE
                                                         : RRCACHE_RESPONSE_ALIAS;
}

/* Stores a version by a response, and tells whether it was kept: of all that the response brings
   each was kept, outranked or too large, and what is trusted most was kept. */
static bool store_reply(struct reply *reply)
{
    struct rrcache_report report = {0};
    struct worker *worker = reply->worker;
    bool denies = reply->plan.what != SET; /* the SOA record is an RRset too */
    ask(reply);
    reply->sets[0] = set_of(reply->subject, &reply->plan, &worker->body);
    reply->parsed = (struct rrcache_parsed_response){
        .rcode = reply->plan.what == NXDOMAIN ? NX : NO_ERROR,
        .aa = reply->plan.trust == RRCACHE_AUTHORITATIVE_ANSWER,
        .sets = reply->sets,
        .count = 1,
    };
    worker->before[reply->subject->number] = reply->version;
    if (reply->other != NULL) {
        add_other(reply);
        worker->before[reply->other->number] = reply->other_version;
    }
    store_parsed(reply, &report, kind_of(reply));
    expect(report.counts.kept + report.counts.outranked + report.too_large
               == reply->parsed.count + denies,
           "all that a response brings is stored, outranked or too large");
    if (reply->other != NULL) {
        note_version(reply->other, reply->other_version, report.counts.kept == 2);
        pthread_mutex_unlock(&reply->other->lock);
    }
    expect(report.counts.kept != 0 || reply->plan.trust != RRCACHE_AUTHORITATIVE_ANSWER
               || (report.too_large != 0 && !is_large),
           "what is trusted most is kept");
    return report.counts.kept != 0;
}

/* Whether a response can bring a version, and what it came to can be told from its counts: an
   address of a server comes with its zone, and beside a denial that is trusted less its SOA record
   may be kept or not. */
static bool may_reply(const struct subject *subject, const struct plan *plan)
{
    return subject->family != ADDRESS_OF_ZONE
           && (plan->what == SET
               || (plan->what != FAILED && plan->trust == RRCACHE_AUTHORITATIVE_ANSWER));
}

static void store_version(struct worker *worker, struct subject *subject)
{
    pthread_mutex_lock(&subject->lock);
    uint32_t version = begin_version(subject), moment = seen(&now);
    struct reply reply = {
        .worker = worker, .subject = subject, .version = version, .moment = moment};
    bool was_kept;
    reply.plan = plan_of(subject, version);
    make_body(subject, version, moment, &worker->body);
    if (reply.plan.what == NOTHING) {
        was_kept = forget(worker, subject);
    } else if (may_reply(subject, &reply.plan) && draw(worker) % 2 == 0) {
        find_other(&reply);
        was_kept = store_reply(&reply);
    } else if (reply.plan.what == FAILED) {
        was_kept = store_failing(subject, version);
    } else if (reply.plan.what == SET) {
        was_kept = store_set(worker, subject, &reply.plan);
    } else {
        was_kept = store_negative(worker, subject, &reply.plan);
    }
    note_version(subject, version, was_kept);
    pthread_mutex_unlock(&subject->lock);
}

/* Stores that asking for a host or an alias failed, by a response or without one. */
static void store_failure(struct worker *worker)
{
    struct subject *subject = &subjects[draw(worker) % TARGETS];
    struct reply reply = {.worker = worker, .subject = subject, .moment = seen(&now)};
    struct rrcache_report report = {0};
    uint32_t outcome = 0;
    atomic_fetch_add_explicit(&subject->failures, 1, memory_order_relaxed);
    ask(&reply);
    struct rrcache_failure failure =
        plain_failure(reply.query.name, reply.query.name_size, AAAA, FAILURE_TTL);
    failure.moment = reply.moment;
    if (draw(worker) % 2 == 0) {
        reply.parsed.rcode = SERVFAIL;
        store_parsed(&reply, &report, RRCACHE_RESPONSE_FAILURE);
        expect(report.counts.kept == 1, "a failure of a server is kept");
    } else {
        expect(rrcache_store_failure(cache, &failure, &outcome) == RRCACHE_DONE
                   && outcome == RRCACHE_KEPT,
               "a failure is kept");
    }
}

/* ---- All other calls. */

static void sweep(struct worker *worker)
{
    struct rrcache_swept swept = {0};
    uint64_t most = 1 + draw(worker) % 200;
    expect(rrcache_sweep_all(cache, seen(&now), most, &swept) == RRCACHE_DONE, "a sweep is done");
    expect(swept.is_done == 1 || swept.removed >= most, "a sweep goes on as far as it may");
}

/* Whether no number of what was done is lower than it was before. */
static bool grows(const struct rrcache_stats *from, const struct rrcache_stats *to)
{
    return to->hits >= from->hits && to->stale >= from->stale && to->negative >= from->negative
           && to->misses >= from->misses && to->failed >= from->failed && to->kept >= from->kept
           && to->outranked >= from->outranked && to->evicted >= from->evicted
           && to->expired >= from->expired;
}

static void tell_stats(struct worker *worker)
{
    struct rrcache_stats stats = {0};
    char text[RRCACHE_STATS_OCTETS];
    expect(rrcache_stats(cache, &stats) == RRCACHE_DONE, "what was done is told");
    expect(grows(&worker->stats, &stats), "what was done grows");
    expect(stats.octets <= config.octets && (!is_large || stats.evicted == 0), "keys have room");
    expect(rrcache_stats_text(&stats, text, sizeof text) == RRCACHE_DONE, "it is written");
    worker->stats = stats;
    uint64_t shelf = draw(worker) % (config.shelves + 1);
    enum rrcache_status status = rrcache_stats_of(cache, shelf, &stats);
    expect(status == (shelf < config.shelves ? RRCACHE_DONE : RRCACHE_BAD_RULES),
           "what a shelf did is told");
    expect(shelf == config.shelves || stats.octets <= config.octets / config.shelves,
           "keys of a shelf have room");
}

/* Takes octets of shelves, and compares that these come one after another. */
static int take_octets(void *state, uint64_t shelf, const void *octets, size_t size)
{
    uint64_t *last = state;
    expect(octets != NULL && size != 0 && shelf >= *last && shelf < config.shelves,
           "shelves are written in their order");
    *last = shelf;
    return 0;
}

static void dump(void)
{
    uint64_t last = 0;
    enum rrcache_status status = rrcache_dump(cache, take_octets, &last);
    expect(status == RRCACHE_HAS_CHAPTERS || (status == RRCACHE_DONE && !is_whole),
           "all is told, or recorded");
}

static void record(struct worker *worker)
{
    uint64_t last = 0;
    if (!is_loose)
        return;
    if (draw(worker) % 2 == 0)
        expect(rrcache_record_all(cache) == RRCACHE_DONE, "all is recorded");
    else
        expect(rrcache_stop_recording_all(cache, take_octets, &last) == RRCACHE_DONE,
               "records end");
}

static void call(struct worker *worker)
{
    uint64_t drawn = draw(worker) % 2048;
    if (drawn < 1400)
        look_up(worker);
    else if (drawn < 1500)
        look_up_delegation(worker);
    else if (drawn < 1900)
        store_version(worker, any_subject(worker));
    else if (drawn < 1990)
        store_failure(worker);
    else if (drawn < 2020)
        tell_stats(worker);
    else if (drawn < 2040)
        sweep(worker);
    else if (drawn < 2044)
        dump();
    else
        record(worker);
}

static void *work(void *given)
{
    struct worker *worker = given;
    for (long round = 0; round < rounds && atomic_fetch_add(&is_over, 0) == 0; round++) {
        call(worker);
        atomic_fetch_add_explicit(&calls, 1, memory_order_relaxed);
    }
    atomic_fetch_sub(&running, 1);
    return NULL;
}

/* ---- Archives. */

static int write_file(void *state, uint64_t shelf, const void *octets, size_t size)
{
    struct files *files = state;
    char path[4096];
    if (files->file[shelf] == NULL) {
        snprintf(path, sizeof path, "%s/%s-%d-%d", folder, files->name, files->number, (int)shelf);
        files->file[shelf] = fopen(path, "w");
    }
    return files->file[shelf] == NULL || fwrite(octets, 1, size, files->file[shelf]) != size;
}

static void close_files(struct files *files)
{
    for (int at = 0; at < MOST_SHELVES; at++)
        if (files->file[at] != NULL)
            expect(fclose(files->file[at]) == 0, "an archive is written");
}

static void end_record(int number)
{
    struct files files = {.name = "record", .number = number};
    expect(rrcache_stop_recording_all(cache, write_file, &files) == RRCACHE_DONE, "records end");
    close_files(&files);
}

static void dump_to_files(int number)
{
    struct files files = {.name = "dump", .number = number};
    expect(rrcache_dump(cache, write_file, &files) == RRCACHE_DONE, "all is told");
    close_files(&files);
}

/* Begins and ends records while the others work. */
static void *record_parts(void *none)
{
    const struct timespec pause = {.tv_nsec = 40000000};
    for (int number = 1; number <= ENOUGH_RECORDS && atomic_fetch_add(&running, 0) != 0; number++) {
        expect(rrcache_record_all(cache) == RRCACHE_DONE, "all is recorded");
        nanosleep(&pause, NULL);
        end_record(number);
        dump_to_files(number);
        nanosleep(&pause, NULL);
    }
    return none;
}

/* ---- The whole. */

static enum family family_at(uint32_t number)
{
    return number < HOSTS                    ? HOST
           : number < HOSTS + DENIED         ? DENIAL
           : number < TARGETS                ? ALIAS
           : number < TARGETS + ZONES        ? ZONE
           : number < TARGETS + ZONES + GLUE ? ADDRESS_OF_ZONE
                                             : FAILURE;
}

static void name_subject(uint32_t number)
{
    struct subject *subject = &subjects[number];
    struct rrcache_name name;
    subject->number = number;
    subject->family = family_at(number);
    subject->is_steady = number % 3 == 0;
    subject->rtype = subject->family == ALIAS ? CNAME : subject->family == ZONE ? NS : AAAA;
    subject->octets[0] = LETTERS;
    for (int at = 0; at < LETTERS; at++)
        subject->octets[1 + at] = (uint8_t)('a' + at % 26);
    snprintf((char *)subject->octets + 1 + LETTERS, 6, "\4s%03u", (unsigned)number % 1000);
    memcpy(subject->octets + NAME - sizeof EXAMPLE, EXAMPLE, sizeof EXAMPLE);
    expect(rrcache_make_name(&name, subject->octets, NAME, &parts) == RRCACHE_DONE,
           "a name is made");
    subject->shelf = name.part;
    pthread_mutex_init(&subject->lock, NULL);
}

/* Stores delegations of the root and of the zone that all names are in. */
static void store_base(size_t from)
{
    static const uint8_t servers[] = {0, 1, 0};
    struct rrcache_set set =
        plain_set(EXAMPLE + from, sizeof EXAMPLE - from, NS, LONG_TTL, OF(servers));
    uint32_t outcome = 0;
    set.trust = RRCACHE_ADDITIONAL;
    expect(rrcache_store_set(cache, &set, &outcome) == RRCACHE_DONE && outcome == RRCACHE_KEPT,
           "a delegation is stored");
}

/* Whether a shelf counted so many replies of each kind. */
static bool has_counted(const struct rrcache_stats *stats, const uint64_t *told)
{
    uint64_t failed = told[RRCACHE_FAILED], unsure = told[UNSURE];
    return stats->hits == told[RRCACHE_FRESH] && stats->stale == told[RRCACHE_STALE]
           && stats->negative == told[RRCACHE_NODATA] + told[RRCACHE_NXDOMAIN]
           && stats->misses + stats->failed == told[RRCACHE_MISS] + failed + unsure
           && stats->failed >= failed && stats->failed <= failed + unsure;
}

/* Compares what a shelf says that it told with what callers were told, and writes what it says. */
static void compare_shelf(uint64_t shelf)
{
    uint64_t told[KINDS] = {0};
    struct rrcache_stats stats = {0};
    struct files files = {.name = "stats"};
    char text[RRCACHE_STATS_OCTETS];
    for (int at = 0; at < THREADS; at++)
        for (int kind = 0; kind < KINDS; kind++)
            told[kind] += workers[at].told[shelf][kind];
    expect(rrcache_stats_of(cache, shelf, &stats) == RRCACHE_DONE, "what a shelf did is told");
    expect(has_counted(&stats, told), "a shelf counted what callers were told");
    rrcache_stats_text(&stats, text, sizeof text);
    write_file(&files, shelf, text, strlen(text));
    close_files(&files);
}

static double seconds_now(void)
{
    struct timespec moment;
    clock_gettime(CLOCK_MONOTONIC, &moment);
    return (double)moment.tv_sec + (double)moment.tv_nsec / 1e9;
}

/* Lets the threads work, and the moments go on, a second in each millisecond. */
static void work_all(bool records_parts)
{
    const struct timespec tick = {.tv_nsec = 1000000};
    double end = seconds_now() + seconds;
    pthread_t recorder;
    atomic_fetch_add(&running, THREADS);
    for (int at = 0; at < THREADS; at++)
        pthread_create(&workers[at].thread, NULL, work, &workers[at]);
    if (records_parts)
        pthread_create(&recorder, NULL, record_parts, NULL);
    while (atomic_fetch_add(&running, 0) != 0) {
        nanosleep(&tick, NULL);
        if (seen(&now) < FIRST + MOST_TICKS)
            note(&now, seen(&now) + 1);
        if (seconds_now() > end)
            atomic_fetch_or(&is_over, 1);
    }
    for (int at = 0; at < THREADS; at++)
        pthread_join(workers[at].thread, NULL);
    if (records_parts)
        pthread_join(recorder, NULL);
}

static void prepare(void)
{
    parts.count = config.shelves;
    memcpy(parts.seed, config.seed, sizeof parts.seed);
    for (uint32_t at = 0; at < SUBJECTS; at++)
        name_subject(at);
    for (uint64_t at = 0; at < THREADS; at++)
        workers[at].state = 88172645463325252u + 7919u * at;
    expect(rrcache_open(&cache, &config) == RRCACHE_DONE, "a cache is opened");
    if (is_whole)
        expect(rrcache_record_all(cache) == RRCACHE_DONE, "all is recorded");
    store_base(0);
    store_base(sizeof EXAMPLE - 1);
    for (int at = 0; at < SUBJECTS; at++)
        store_version(&workers[0], &subjects[at]);
}

static void tell_end(void)
{
    struct rrcache_stats stats = {0};
    char text[RRCACHE_STATS_OCTETS];
    for (uint64_t at = 0; at < config.shelves; at++)
        compare_shelf(at);
    if (is_whole)
        end_record(0);
    tell_stats(&workers[0]);
    expect(rrcache_stats(cache, &stats) == RRCACHE_DONE, "what was done is told");
    rrcache_stats_text(&stats, text, sizeof text);
    printf("calls %ld moments %u %s faults %d\n", (long)calls, (unsigned)seen(&now) - FIRST, text,
           (int)faults);
}

int main(int count, char **words)
{
    if (count != 7)
        return 2;
    seconds = atof(words[1]);
    rounds = atol(words[2]);
    config.readers = (uint64_t)atol(words[3]);
    config.exact_recency = config.readers == 2;
    is_large = strcmp(words[4], "large") == 0;
    is_whole = strcmp(words[5], "whole") == 0;
    is_loose = strcmp(words[5], "loose") == 0;
    folder = words[6];
    if (!is_large) {
        config.octets = 65536;
        config.shelves = 4;
        config.keys = 100;
    }
    prepare();
    work_all(!is_whole && !is_loose);
    tell_end();
    rrcache_close(cache);
    return faults != 0;
}
