/* SPDX-License-Identifier: MIT */
/* Tests of the C library: each call on its happy path, each status that a caller can bring
   about, at each call that can answer it, and what a refusal leaves. Two statuses are not met:
   RRCACHE_HISTORY_FULL asks for 2^62 events, and RRCACHE_WIDE for a datum that no call takes.

   The last line is 'N passed, M failed'. Where the program is linked with --wrap for malloc,
   calloc, realloc and free, each allocation is refused in turn as well, and those of calls that
   only look are counted: there are none. */
#include "rrcache.h"

#include <stdio.h>
#include <stdlib.h>
#include <string.h>

#include "expect.h"
#include "structs.h"

/* ---- What is offered and asked. */

/* The seed of all shelves and of all names, where no other is told. */
#define SEED                                                                                       \
    {                                                                                              \
        0, 1, 2, 3, 4, 5, 6, 7, 8, 9, 10, 11, 12, 13, 14, 15                                       \
    }
#define PARTED(count) (&(const struct rrcache_parts){(count), SEED})

static const uint8_t NAME[] = "\3www\7example"; /* the last octet is the literal's own 0 */
static const uint8_t UPPER[] = "\3WWW\7Example";
static const uint8_t OTHER[] = "\5other\7example";
static const uint8_t THIRD[] = "\5third\7example";
static const uint8_t NO_NAME[] = {3, 'w', 'w'};
static const struct rrcache_limits LIMITS = {86400, 3600, 30};
/* A moment that is too large, and the last one that is not. */
static const uint64_t LATE = (UINT64_C(1) << 40) + 1, LAST = UINT64_C(1) << 40;

enum { PARTS = 16, MAX_STALE = 3600 };

/* clang-format off */
/* A response to www.example A: two addresses of www.example for 300 seconds, authoritative (RFC
   1035 section 4.1). */
static const uint8_t ANSWER[] = {
    0x12, 0x34, 0x84, 0x00, 0, 1, 0, 2, 0, 0, 0, 0,
    3, 'w', 'w', 'w', 7, 'e', 'x', 'a', 'm', 'p', 'l', 'e', 0, 0, 1, 0, 1,
    0xc0, 12, 0, 1, 0, 1, 0, 0, 1, 44, 0, 4, 192, 0, 2, 1,
    0xc0, 12, 0, 1, 0, 1, 0, 0, 1, 44, 0, 4, 192, 0, 2, 2,
};
/* A response to www.example A: that name is an alias of other.example, which has an address; both
   for 300 seconds. */
static const uint8_t ALIAS[] = {
    0x12, 0x34, 0x84, 0x00, 0, 1, 0, 2, 0, 0, 0, 0,
    3, 'w', 'w', 'w', 7, 'e', 'x', 'a', 'm', 'p', 'l', 'e', 0, 0, 1, 0, 1,
    0xc0, 12, 0, 5, 0, 1, 0, 0, 1, 44, 0, 8, 5, 'o', 't', 'h', 'e', 'r', 0xc0, 16,
    0xc0, 41, 0, 1, 0, 1, 0, 0, 1, 44, 0, 4, 192, 0, 2, 9,
};
/* A response to www.example A with its address, which brings one of third.example as well. */
static const uint8_t POISON[] = {
    0x12, 0x34, 0x84, 0x00, 0, 1, 0, 2, 0, 0, 0, 0,
    3, 'w', 'w', 'w', 7, 'e', 'x', 'a', 'm', 'p', 'l', 'e', 0, 0, 1, 0, 1,
    0xc0, 12, 0, 1, 0, 1, 0, 0, 1, 44, 0, 4, 192, 0, 2, 1,
    5, 't', 'h', 'i', 'r', 'd', 0xc0, 16, 0, 1, 0, 1, 0, 0, 1, 44, 0, 4, 6, 6, 6, 6,
};
/* A response to a.example TXT of class CH with one record of 60 seconds. */
static const uint8_t CHAOS[] = {
    0x12, 0x34, 0x84, 0x00, 0, 1, 0, 1, 0, 0, 0, 0,
    1, 'a', 7, 'e', 'x', 'a', 'm', 'p', 'l', 'e', 0, 0, 16, 0, 3,
    0xc0, 12, 0, 16, 0, 3, 0, 0, 0, 60, 0, 2, 1, 'A',
};
/* The reply's octets: the owner, and each address behind its length. */
static const uint8_t ADDRESSES[] = {
    3, 'w', 'w', 'w', 7, 'e', 'x', 'a', 'm', 'p', 'l', 'e', 0,
    0, 4, 192, 0, 2, 1,
    0, 4, 192, 0, 2, 2,
};
/* clang-format on */
/* An address behind its length, and the name other.example. */
static const uint8_t ADDRESS[] = {0, 4, 192, 0, 2, 9};
static const uint8_t TARGET[] = {0,   15,  5,   'o', 't', 'h', 'e', 'r', 7,
                                 'e', 'x', 'a', 'm', 'p', 'l', 'e', 0};

#define SWEEP(moment, most)        (&(const struct rrcache_sweep_at){(moment), 1, (most)})
#define TRIM(moment, limit, most)  (&(const struct rrcache_trim_to){(moment), 8, (limit), (most)})
#define SHARE(part)                (&(const struct rrcache_share){(part), 1})
#define PLACE(chapter, line, from) (&(const struct rrcache_place){(chapter), (line), (from)})
#define RULES(capacity, chapter, life)                                                             \
    (&(const struct rrcache_rules){(capacity), (chapter), (life), SEED})

/* A shelf that records its history, so that its events can be counted. */
static uint32_t make_by(struct rrcache_shelf *shelf, uint64_t capacity, uint64_t chapter,
                        uint64_t stale)
{
    uint32_t status = rrcache_make(shelf, RULES(capacity, chapter, stale));
    return status == RRCACHE_DONE ? rrcache_record(shelf) : status;
}

static uint32_t make(struct rrcache_shelf *shelf)
{
    return make_by(shelf, 100, 4, MAX_STALE);
}

static struct rrcache_name name_of(const uint8_t *octets, size_t size)
{
    struct rrcache_name name = {0};
    EXPECT(rrcache_make_name(&name, octets, size, PARTED(PARTS)) == RRCACHE_DONE
           && name.part < PARTS);
    return name;
}

static uint64_t part_of(const uint8_t *name, size_t size)
{
    return name_of(name, size).part;
}

/* ---- What is asked. */

/* A question of a client that takes nothing stale. */
static struct rrcache_question question(uint16_t rtype, uint64_t moment)
{
    struct rrcache_question question = plain_question(rtype);
    question.moment = moment;
    question.line = 2;
    return question;
}

static struct rrcache_question question_by(uint16_t rtype, uint64_t moment, uint32_t purpose,
                                           uint32_t mode)
{
    struct rrcache_question made = question(rtype, moment);
    made.purpose = purpose;
    made.mode = mode;
    return made;
}

static struct rrcache_question question_in(uint16_t rclass, uint16_t rtype)
{
    struct rrcache_question made = question(rtype, FIRST);
    made.rclass = rclass;
    return made;
}

/* The calls that tell a reply, all under one type. */
typedef uint32_t (*asking)(struct rrcache_shelf *shelf, const struct rrcache_name *name,
                           const struct rrcache_question *question, struct rrcache_told *told,
                           uint8_t *buffer, size_t size);

static uint32_t to_ask(struct rrcache_shelf *shelf, const struct rrcache_name *name,
                       const struct rrcache_question *question, struct rrcache_told *told,
                       uint8_t *buffer, size_t size)
{
    return rrcache_ask(shelf, name, question, told, buffer, size);
}

static uint32_t to_ask_alias(struct rrcache_shelf *shelf, const struct rrcache_name *name,
                             const struct rrcache_question *question, struct rrcache_told *told,
                             uint8_t *buffer, size_t size)
{
    return rrcache_ask_alias(shelf, name, question, told, buffer, size);
}

static uint32_t to_peek(struct rrcache_shelf *shelf, const struct rrcache_name *name,
                        const struct rrcache_question *question, struct rrcache_told *told,
                        uint8_t *buffer, size_t size)
{
    return rrcache_peek(shelf, name, question, told, buffer, size);
}

static uint32_t to_peek_alias(struct rrcache_shelf *shelf, const struct rrcache_name *name,
                              const struct rrcache_question *question, struct rrcache_told *told,
                              uint8_t *buffer, size_t size)
{
    return rrcache_peek_alias(shelf, name, question, told, buffer, size);
}

enum { ASKINGS = 4, ASKS = 2 };

/* Those that write an event come first. */
static const asking ASKING[ASKINGS] = {to_ask, to_ask_alias, to_peek, to_peek_alias};

static uint32_t ask(struct rrcache_shelf *shelf, uint64_t moment, struct rrcache_told *told,
                    uint8_t *buffer, size_t size)
{
    struct rrcache_name name = name_of(OF(NAME));
    struct rrcache_question asked = question(A, moment);
    return rrcache_ask(shelf, &name, &asked, told, buffer, size);
}

static uint32_t peek(struct rrcache_shelf *shelf, uint64_t moment, struct rrcache_told *told,
                     uint8_t *buffer, size_t size)
{
    struct rrcache_name name = name_of(OF(NAME));
    struct rrcache_question asked = question(A, moment);
    return rrcache_peek(shelf, &name, &asked, told, buffer, size);
}

/* A reply, with its octets. */
struct reply {
    struct rrcache_told told;
    uint8_t octets[64];
};

static struct reply reply_by(asking call, struct rrcache_shelf *shelf, const uint8_t *octets,
                             size_t size, struct rrcache_question question)
{
    struct rrcache_name name = name_of(octets, size);
    struct reply reply;
    memset(&reply, 0, sizeof reply);
    EXPECT(call(shelf, &name, &question, &reply.told, reply.octets, sizeof reply.octets)
           == RRCACHE_DONE);
    return reply;
}

static struct reply asked(struct rrcache_shelf *shelf, const uint8_t *name, size_t size,
                          struct rrcache_question question)
{
    return reply_by(to_ask, shelf, name, size, question);
}

static struct reply peeked(struct rrcache_shelf *shelf, const uint8_t *name, size_t size,
                           struct rrcache_question question)
{
    return reply_by(to_peek, shelf, name, size, question);
}

/* What is told of a name for a type at a moment. */
static uint32_t kind_at(struct rrcache_shelf *shelf, const uint8_t *name, size_t size,
                        uint16_t rtype, uint64_t moment)
{
    return peeked(shelf, name, size, question(rtype, moment)).told.kind;
}

static bool is_entry(const struct rrcache_entry *entry, uint32_t kind, uint32_t trust, uint32_t ttl,
                     uint64_t moment, uint64_t number, uint64_t age)
{
    return entry->kind == kind && entry->trust == trust && entry->ttl == ttl
           && entry->moment == moment && entry->number == number && entry->age == age;
}

static bool is_no_entry(const struct rrcache_entry *entry)
{
    return is_entry(entry, 0, 0, 0, 0, 0, 0);
}

/* Whether two replies are the same, octets of no field left out. */
static bool are_same(const struct reply *one, const struct reply *other)
{
    const struct rrcache_told *a = &one->told, *b = &other->told;
    return a->kind == b->kind && a->rtype == b->rtype && a->left == b->left
           && a->retry_from == b->retry_from && a->owner_size == b->owner_size
           && a->data_size == b->data_size
           && is_entry(&a->entry, b->entry.kind, b->entry.trust, b->entry.ttl, b->entry.moment,
                       b->entry.number, b->entry.age)
           && memcmp(one->octets, other->octets, sizeof one->octets) == 0;
}

/* Whether a reply has just these data. */
static bool has_data(const struct reply *reply, const uint8_t *data, size_t size)
{
    return reply->told.data_size == size
           && memcmp(reply->octets + reply->told.owner_size, data, size) == 0;
}

static struct rrcache_stored stored_of(struct rrcache_shelf *shelf, const uint8_t *octets,
                                       size_t size, uint16_t rtype)
{
    struct rrcache_name name = name_of(octets, size);
    struct rrcache_question asked = question(rtype, 0);
    struct rrcache_stored stored;
    memset(&stored, 7, sizeof stored);
    EXPECT(rrcache_tell_stored(shelf, &name, &asked, &stored) == RRCACHE_DONE);
    return stored;
}

static struct rrcache_usage sizes_of(struct rrcache_shelf *shelf)
{
    struct rrcache_usage sizes = {7, 7, 7, 7};
    EXPECT(rrcache_sizes(shelf, &sizes) == RRCACHE_DONE);
    return sizes;
}

static uint64_t events(struct rrcache_shelf *shelf)
{
    struct rrcache_usage sizes = sizes_of(shelf);
    return sizes.events + 1000 * sizes.chapters;
}

static uint64_t keys(struct rrcache_shelf *shelf)
{
    return sizes_of(shelf).keys;
}

static uint64_t octets_of_keys(struct rrcache_shelf *shelf)
{
    return sizes_of(shelf).octets;
}

/* ---- What is offered. */

static struct rrcache_response response_of(const uint8_t *octets, size_t size)
{
    struct rrcache_response response = {.octets = octets,
                                        .size = size,
                                        .zone = EXAMPLE,
                                        .zone_size = sizeof EXAMPLE,
                                        .moment = FIRST};
    response.limits = LIMITS;
    return response;
}

static struct rrcache_query query_of(const uint8_t *name, size_t size)
{
    struct rrcache_query query = {
        .name = name, .name_size = size, .id = 0x1234, .rtype = A, .rclass = RRCACHE_IN};
    return query;
}

static struct rrcache_set set_of(const uint8_t *owner, size_t owner_size, uint16_t rtype,
                                 const uint8_t *data, size_t data_size)
{
    struct rrcache_set set = plain_set(owner, owner_size, rtype, 60, data, data_size);
    set.line = 1;
    return set;
}

static struct rrcache_negative negative_of(const uint8_t *name, size_t size, uint16_t rtype,
                                           enum rrcache_kind kind)
{
    struct rrcache_negative negative = plain_negative(name, size, rtype, kind, 60);
    negative.line = 1;
    return negative;
}

static struct rrcache_failure failure_of(const uint8_t *name, size_t size, uint16_t rtype)
{
    struct rrcache_failure failure = plain_failure(name, size, rtype, 30);
    failure.line = 1;
    return failure;
}

/* What a call returns, of which a refusal leaves its outcome alone. */
static uint32_t set_status(struct rrcache_shelf *shelf, struct rrcache_set set)
{
    uint32_t outcome = 7, status = rrcache_offer_set(shelf, &set, &outcome);
    EXPECT((status != RRCACHE_DONE) == (outcome == 7));
    return status;
}

static uint32_t negative_status(struct rrcache_shelf *shelf, struct rrcache_negative negative)
{
    uint32_t outcome = 7, status = rrcache_offer_negative(shelf, &negative, &outcome);
    EXPECT((status != RRCACHE_DONE) == (outcome == 7));
    return status;
}

static uint32_t failure_status(struct rrcache_shelf *shelf, struct rrcache_failure failure)
{
    uint32_t outcome = 7, status = rrcache_offer_failure(shelf, &failure, &outcome);
    EXPECT((status != RRCACHE_DONE) == (outcome == 7));
    return status;
}

/* What became of an offer that is made. */
static uint32_t offer_set(struct rrcache_shelf *shelf, struct rrcache_set set)
{
    uint32_t outcome = 0;
    EXPECT(rrcache_offer_set(shelf, &set, &outcome) == RRCACHE_DONE);
    return outcome;
}

static uint32_t offer_negative(struct rrcache_shelf *shelf, struct rrcache_negative negative)
{
    uint32_t outcome = 0;
    EXPECT(rrcache_offer_negative(shelf, &negative, &outcome) == RRCACHE_DONE);
    return outcome;
}

static uint32_t offer_failure(struct rrcache_shelf *shelf, struct rrcache_failure failure)
{
    uint32_t outcome = 0;
    EXPECT(rrcache_offer_failure(shelf, &failure, &outcome) == RRCACHE_DONE);
    return outcome;
}

static uint32_t offer_address(struct rrcache_shelf *shelf, const uint8_t *name, size_t size,
                              enum rrcache_trust trust, uint32_t ttl)
{
    struct rrcache_set set = set_of(name, size, A, OF(ADDRESS));
    set.trust = trust;
    set.ttl = ttl;
    return offer_set(shelf, set);
}

static uint32_t offer_denial(struct rrcache_shelf *shelf, const uint8_t *name, size_t size,
                             enum rrcache_kind kind, enum rrcache_trust trust, uint32_t ttl)
{
    struct rrcache_negative negative = negative_of(name, size, A, kind);
    negative.trust = trust;
    negative.ttl = ttl;
    return offer_negative(shelf, negative);
}

static uint32_t offer_message(struct rrcache_shelf *shelf, struct rrcache_response response,
                              struct rrcache_counts *counts)
{
    return rrcache_offer_message_unchecked(shelf, &response, 1, counts);
}

static uint32_t offer_part(struct rrcache_shelf *shelf, struct rrcache_response response,
                           uint64_t parts, uint64_t part, struct rrcache_counts *counts)
{
    return rrcache_offer_part_unchecked(shelf, &response, PARTED(parts), SHARE(part), counts);
}

static uint32_t read_message(struct rrcache_offers *offers, struct rrcache_response response,
                             uint64_t parts, uint64_t *concerned)
{
    return rrcache_read_message_unchecked(offers, &response, PARTED(parts), concerned);
}

static uint32_t read_response(struct rrcache_offers *offers, struct rrcache_response response,
                              struct rrcache_query query, uint64_t *concerned)
{
    return rrcache_read_response(offers, &response, &query, PARTED(1), concerned);
}

static uint32_t offer_answer(struct rrcache_shelf *shelf, uint64_t moment,
                             struct rrcache_counts *counts)
{
    struct rrcache_response response = response_of(OF(ANSWER));
    response.moment = moment;
    return offer_message(shelf, response, counts);
}

static uint32_t offer_alias(struct rrcache_shelf *shelf, uint64_t parts, uint64_t part,
                            uint64_t moment, struct rrcache_counts *counts)
{
    struct rrcache_response response = response_of(OF(ALIAS));
    response.moment = moment;
    return offer_part(shelf, response, parts, part, counts);
}

static uint32_t read_alias(struct rrcache_offers *offers, uint64_t parts, uint64_t *concerned)
{
    return read_message(offers, response_of(OF(ALIAS)), parts, concerned);
}

static bool are_counts(const struct rrcache_counts *counts, uint64_t kept, uint64_t cleared,
                       uint64_t outranked)
{
    return counts->kept == kept && counts->cleared == cleared && counts->outranked == outranked;
}

/* How many keys a sweep removes. */
static uint64_t sweep(struct rrcache_shelf *shelf, uint64_t moment)
{
    uint64_t removed = UINT64_MAX;
    EXPECT(rrcache_sweep(shelf, SWEEP(moment, 0), &removed) == RRCACHE_DONE);
    return removed;
}

/* ---- Calls on their happy path. */

/* The structs that the library shares are laid out as it has them. */
static void test_layout(void)
{
    EXPECT(sizeof(struct rrcache_shelf) == 32 && offsetof(struct rrcache_shelf, is_live) == 8
           && offsetof(struct rrcache_shelf, seed) == 16);
    EXPECT(sizeof(struct rrcache_offers) == 16 && offsetof(struct rrcache_offers, is_live) == 8);
    EXPECT(sizeof(struct rrcache_chapters) == 16 && offsetof(struct rrcache_chapters, is_live) == 8
           && sizeof(struct rrcache_line) == 16 && offsetof(struct rrcache_line, written) == 8);
    EXPECT(sizeof(struct rrcache_name) == 288 && offsetof(struct rrcache_name, part) == 8
           && offsetof(struct rrcache_name, seed) == 16 && offsetof(struct rrcache_name, size) == 32
           && offsetof(struct rrcache_name, octets) == 33);
    EXPECT(sizeof(struct rrcache_parts) == 24 && sizeof(struct rrcache_rules) == 40
           && offsetof(struct rrcache_rules, seed) == 24);
    EXPECT(sizeof(struct rrcache_question) == 32 && offsetof(struct rrcache_question, rtype) == 16
           && offsetof(struct rrcache_question, mode) == 24);
    EXPECT(sizeof(struct rrcache_entry) == 40 && offsetof(struct rrcache_entry, moment) == 16
           && sizeof(struct rrcache_stored) == 120);
    EXPECT(sizeof(struct rrcache_told) == 80 && offsetof(struct rrcache_told, retry_from) == 16
           && offsetof(struct rrcache_told, entry) == 40);
    EXPECT(sizeof(struct rrcache_counts) == 24 && sizeof(struct rrcache_limits) == 12
           && sizeof(struct rrcache_sweep_at) == 24 && sizeof(struct rrcache_swept) == 16);
    EXPECT(sizeof(struct rrcache_trim_to) == 32 && offsetof(struct rrcache_trim_to, limit) == 16
           && offsetof(struct rrcache_trim_to, most) == 24 && sizeof(struct rrcache_trimmed) == 16
           && offsetof(struct rrcache_trimmed, octets) == 8);
    EXPECT(sizeof(struct rrcache_usage) == 32 && sizeof(struct rrcache_share) == 16
           && sizeof(struct rrcache_place) == 24);
    EXPECT(rrcache_version() == RRCACHE_VERSION);
}

enum { STATUSES = 29 };

/* Each status has a text of its own, and so has a number that is none. */
static void test_status_texts(void)
{
    const char *unknown = rrcache_status_text((enum rrcache_status)STATUSES);
    EXPECT(RRCACHE_TOO_LARGE == STATUSES - 1 && unknown != NULL && *unknown != 0);
    EXPECT(strcmp(unknown, rrcache_status_text((enum rrcache_status)1000)) == 0);
    for (int one = 0; one < STATUSES; one++) {
        const char *text = rrcache_status_text((enum rrcache_status)one);
        bool is_its_own = text != NULL && *text != 0 && strcmp(text, unknown) != 0;
        for (int other = 0; is_its_own && other < one; other++)
            is_its_own = strcmp(text, rrcache_status_text((enum rrcache_status)other)) != 0;
        EXPECT(is_its_own);
    }
}

static void test_answers(void)
{
    struct rrcache_shelf shelf = {0};
    struct rrcache_counts counts = {9, 9, 9};
    struct rrcache_told told = {0};
    struct rrcache_name upper = name_of(OF(UPPER));
    struct rrcache_question anything = question_by(A, FIRST, RRCACHE_ANYTHING, RRCACHE_NO_STALE);
    uint8_t buffer[64];
    EXPECT(make(&shelf) == RRCACHE_DONE);
    EXPECT(ask(&shelf, FIRST, &told, NULL, 0) == RRCACHE_DONE);
    EXPECT(told.kind == RRCACHE_MISS && told.left == 0 && told.owner_size == 0
           && told.data_size == 0);
    EXPECT(events(&shelf) == 1);
    EXPECT(offer_answer(&shelf, FIRST, &counts) == RRCACHE_DONE);
    EXPECT(are_counts(&counts, 1, 0, 0) && events(&shelf) == 2);

    memset(buffer, 0xee, sizeof buffer);
    EXPECT(ask(&shelf, FIRST + 100, &told, buffer, sizeof buffer) == RRCACHE_DONE);
    EXPECT(told.kind == RRCACHE_FRESH && told.rtype == A && told.left == 200
           && told.retry_from == 0);
    EXPECT(told.owner_size == sizeof NAME && told.owner_size + told.data_size == sizeof ADDRESSES);
    EXPECT(memcmp(buffer, ADDRESSES, sizeof ADDRESSES) == 0);
    EXPECT(buffer[sizeof ADDRESSES] == 0xee && buffer[sizeof buffer - 1] == 0xee);
    EXPECT(events(&shelf) == 3);

    /* The name is asked for in any case, and a buffer of just the size will do. */
    memset(buffer, 0xee, sizeof buffer);
    EXPECT(rrcache_ask(&shelf, &upper, &anything, &told, buffer, sizeof ADDRESSES) == RRCACHE_DONE);
    EXPECT(memcmp(buffer, ADDRESSES, sizeof ADDRESSES) == 0 && events(&shelf) == 4);
    EXPECT(rrcache_free(&shelf) == RRCACHE_DONE && shelf.at == NULL && !shelf.is_live);
}

/* A buffer that is too small, of a shelf that records or does not. */
static void test_small_buffers_of(bool records)
{
    struct rrcache_shelf shelf = {0};
    struct rrcache_counts counts;
    struct rrcache_told told = {0};
    uint8_t buffer[sizeof ADDRESSES];
    EXPECT(make(&shelf) == RRCACHE_DONE
           && (records || rrcache_stop_and_drop(&shelf) == RRCACHE_DONE));
    EXPECT(offer_answer(&shelf, FIRST, &counts) == RRCACHE_DONE);
    for (size_t size = 0; size < sizeof ADDRESSES; size++) {
        memset(buffer, 0xee, sizeof buffer);
        memset(&told, 0, sizeof told);
        EXPECT(ask(&shelf, FIRST, &told, buffer, size) == RRCACHE_SMALL);
        EXPECT(told.kind == RRCACHE_FRESH && told.rtype == A && told.left == 300
               && told.owner_size + told.data_size == sizeof ADDRESSES);
        EXPECT(
            is_entry(&told.entry, RRCACHE_FRESH, RRCACHE_AUTHORITATIVE_ANSWER, 300, FIRST, 0, 0));
        EXPECT(peek(&shelf, FIRST, &told, buffer, size) == RRCACHE_SMALL);
        EXPECT(buffer[0] == 0xee && buffer[sizeof buffer - 1] == 0xee && events(&shelf) == records);
    }
    /* A moment that is too large tells nothing. */
    memset(&told, 7, sizeof told);
    EXPECT(ask(&shelf, LATE, &told, buffer, sizeof buffer) == RRCACHE_MOMENT_TOO_LARGE
           && told.kind == 0x07070707 && buffer[0] == 0xee && events(&shelf) == records);
    EXPECT(ask(&shelf, FIRST, &told, buffer, sizeof buffer) == RRCACHE_DONE
           && told.kind == RRCACHE_FRESH && memcmp(buffer, ADDRESSES, sizeof ADDRESSES) == 0);
    EXPECT(rrcache_free(&shelf) == RRCACHE_DONE);
}

static void test_small_buffers(void)
{
    test_small_buffers_of(false);
    test_small_buffers_of(true);
}

static void test_peek(void)
{
    struct rrcache_shelf shelf = {0};
    struct rrcache_counts counts;
    struct rrcache_told told = {0};
    uint8_t buffer[64];
    EXPECT(make(&shelf) == RRCACHE_DONE && offer_answer(&shelf, FIRST, &counts) == RRCACHE_DONE);
    EXPECT(peek(&shelf, FIRST + 1, &told, buffer, sizeof buffer) == RRCACHE_DONE);
    EXPECT(told.kind == RRCACHE_FRESH && told.left == 299
           && memcmp(buffer, ADDRESSES, sizeof ADDRESSES) == 0);
    /* It is not refused for its moment. */
    EXPECT(peek(&shelf, UINT64_MAX, &told, buffer, sizeof buffer) == RRCACHE_DONE
           && told.kind == RRCACHE_MISS);
    EXPECT(events(&shelf) == 1);
    EXPECT(rrcache_free(&shelf) == RRCACHE_DONE);
}

static void test_offers(void)
{
    struct rrcache_shelf shelf = {0};
    struct reply reply;
    EXPECT(make(&shelf) == RRCACHE_DONE);
    EXPECT(offer_address(&shelf, OF(NAME), RRCACHE_AUTHORITATIVE_ANSWER, 60) == RRCACHE_KEPT);
    EXPECT(offer_address(&shelf, OF(NAME), RRCACHE_ADDITIONAL, 60) == RRCACHE_OUTRANKED);
    reply = peeked(&shelf, OF(NAME), question(A, FIRST));
    EXPECT(reply.told.kind == RRCACHE_FRESH && reply.told.left == 60
           && has_data(&reply, OF(ADDRESS)));
    EXPECT(offer_address(&shelf, OF(NAME), RRCACHE_AUTHORITATIVE_ANSWER, 0) == RRCACHE_CLEARED);

    EXPECT(offer_denial(&shelf, OF(NAME), RRCACHE_NODATA, RRCACHE_AUTHORITY, 60) == RRCACHE_KEPT);
    reply = peeked(&shelf, OF(NAME), question(A, FIRST + 1));
    EXPECT(reply.told.kind == RRCACHE_NODATA && reply.told.left == 59);
    EXPECT(reply.told.owner_size == sizeof EXAMPLE
           && memcmp(reply.octets, EXAMPLE, sizeof EXAMPLE) == 0
           && reply.told.data_size == sizeof SOA_DATA + 2);
    EXPECT(reply.octets[sizeof EXAMPLE + 1] == sizeof SOA_DATA
           && memcmp(reply.octets + sizeof EXAMPLE + 2, SOA_DATA, sizeof SOA_DATA) == 0);

    EXPECT(offer_denial(&shelf, OF(OTHER), RRCACHE_NXDOMAIN, RRCACHE_AUTHORITY, 60)
           == RRCACHE_KEPT);
    EXPECT(kind_at(&shelf, OF(OTHER), TXT, FIRST) == RRCACHE_NXDOMAIN);

    EXPECT(offer_failure(&shelf, failure_of(OF(NAME), TXT)) == RRCACHE_KEPT);
    reply = peeked(&shelf, OF(NAME), question(TXT, FIRST + 1));
    EXPECT(reply.told.kind == RRCACHE_FAILED && reply.told.retry_from == FIRST + 30
           && reply.told.left == 0);
    EXPECT(rrcache_free(&shelf) == RRCACHE_DONE);
}

/* What a failure ends with, and what its own offer with a ttl of 0 ends. */
static void test_failures(void)
{
    struct rrcache_shelf shelf = {0};
    struct rrcache_failure failure = failure_of(OF(NAME), A);
    struct reply reply;
    EXPECT(make(&shelf) == RRCACHE_DONE && offer_failure(&shelf, failure) == RRCACHE_KEPT);
    EXPECT(kind_at(&shelf, OF(NAME), A, FIRST + 29) == RRCACHE_FAILED
           && kind_at(&shelf, OF(NAME), A, FIRST + 30) == RRCACHE_MISS);
    /* A stale answer tells no moment from which to try again, and a peek without it does. */
    EXPECT(offer_address(&shelf, OF(NAME), RRCACHE_AUTHORITY, 10) == RRCACHE_KEPT
           && offer_failure(&shelf, failure) == RRCACHE_KEPT);
    reply = peeked(&shelf, OF(NAME),
                   question_by(A, FIRST + 20, RRCACHE_QUESTION, RRCACHE_STALE_IF_FAILED));
    EXPECT(reply.told.kind == RRCACHE_STALE && reply.told.left == 30 && reply.told.retry_from == 0);
    reply = peeked(&shelf, OF(NAME), question(A, FIRST + 20));
    EXPECT(reply.told.kind == RRCACHE_FAILED && reply.told.retry_from == FIRST + 30);
    failure.ttl = 0;
    EXPECT(offer_failure(&shelf, failure) == RRCACHE_KEPT
           && kind_at(&shelf, OF(NAME), A, FIRST + 20) == RRCACHE_MISS);
    EXPECT(rrcache_free(&shelf) == RRCACHE_DONE);
}

/* What a name's text is in a class, where it has two letters. */
static uint32_t text_in(struct rrcache_shelf *shelf, const uint8_t *name, size_t size,
                        uint16_t rclass, char text[2])
{
    struct reply reply = asked(shelf, name, size, question_in(rclass, TXT));
    if (reply.told.kind == RRCACHE_FRESH)
        memcpy(text, reply.octets + reply.told.owner_size + 2, 2);
    return reply.told.kind;
}

static void offer_text(struct rrcache_shelf *shelf, uint16_t rclass, const uint8_t *text,
                       size_t size)
{
    struct rrcache_set set = set_of(OF(NAME), TXT, text, size);
    set.rclass = rclass;
    EXPECT(offer_set(shelf, set) == RRCACHE_KEPT);
}

/* Each class of a name has data of its own (RFC 1035 section 3.2.4). */
static void test_classes(void)
{
    static const uint8_t IN_TEXT[] = {0, 2, 1, 'I'}, CH_TEXT[] = {0, 2, 1, 'C'};
    struct rrcache_shelf shelf = {0};
    struct rrcache_negative denial = negative_of(OF(NAME), 0, RRCACHE_NXDOMAIN);
    struct rrcache_failure failure = failure_of(OF(OTHER), TXT);
    char text[2] = {0, 0};
    EXPECT(make(&shelf) == RRCACHE_DONE);
    offer_text(&shelf, RRCACHE_IN, OF(IN_TEXT));
    offer_text(&shelf, RRCACHE_CH, OF(CH_TEXT));
    EXPECT(keys(&shelf) == 2);
    EXPECT(text_in(&shelf, OF(NAME), RRCACHE_IN, text) == RRCACHE_FRESH && text[1] == 'I');
    EXPECT(text_in(&shelf, OF(NAME), RRCACHE_CH, text) == RRCACHE_FRESH && text[1] == 'C');
    EXPECT(text_in(&shelf, OF(NAME), RRCACHE_HS, text) == RRCACHE_MISS);
    denial.rclass = RRCACHE_CH;
    denial.trust = RRCACHE_AUTHORITATIVE_ANSWER;
    EXPECT(offer_negative(&shelf, denial) == RRCACHE_KEPT);
    EXPECT(text_in(&shelf, OF(NAME), RRCACHE_CH, text) == RRCACHE_NXDOMAIN);
    EXPECT(text_in(&shelf, OF(NAME), RRCACHE_IN, text) == RRCACHE_FRESH);
    failure.rclass = RRCACHE_HS;
    EXPECT(offer_failure(&shelf, failure) == RRCACHE_KEPT);
    EXPECT(text_in(&shelf, OF(OTHER), RRCACHE_HS, text) == RRCACHE_FAILED);
    EXPECT(text_in(&shelf, OF(OTHER), RRCACHE_IN, text) == RRCACHE_MISS);
    EXPECT(rrcache_free(&shelf) == RRCACHE_DONE);
}

/* A message's records count in its question's class. */
static void test_message_of_another_class(void)
{
    static const uint8_t CHAOS_NAME[] = "\1a\7example";
    struct rrcache_shelf shelf = {0};
    struct rrcache_counts counts = {0, 0, 0};
    char text[2] = {0, 0};
    EXPECT(make(&shelf) == RRCACHE_DONE);
    EXPECT(offer_message(&shelf, response_of(OF(CHAOS)), &counts) == RRCACHE_DONE
           && are_counts(&counts, 1, 0, 0));
    EXPECT(text_in(&shelf, OF(CHAOS_NAME), RRCACHE_CH, text) == RRCACHE_FRESH);
    EXPECT(text[1] == 'A');
    EXPECT(text_in(&shelf, OF(CHAOS_NAME), RRCACHE_IN, text) == RRCACHE_MISS);
    EXPECT(rrcache_free(&shelf) == RRCACHE_DONE);
}

/* Classes that are not kept, and type A of CH, whose data begin with a name. */
static void test_refused_classes(void)
{
    struct rrcache_shelf shelf = {0};
    struct rrcache_set set = set_of(OF(NAME), A, OF(ADDRESS));
    struct rrcache_failure failure = failure_of(OF(NAME), A);
    struct rrcache_negative nodata = negative_of(OF(NAME), A, RRCACHE_NODATA),
                            nxdomain = negative_of(OF(NAME), A, RRCACHE_NXDOMAIN);
    EXPECT(make(&shelf) == RRCACHE_DONE);
    set.rclass = 2;
    EXPECT(set_status(&shelf, set) == RRCACHE_BAD_TYPE);
    set.rclass = RRCACHE_CH;
    EXPECT(set_status(&shelf, set) == RRCACHE_BAD_TYPE);
    failure.rclass = RRCACHE_CH;
    EXPECT(failure_status(&shelf, failure) == RRCACHE_BAD_TYPE);
    nodata.rclass = RRCACHE_CH;
    EXPECT(negative_status(&shelf, nodata) == RRCACHE_BAD_TYPE);
    nxdomain.rclass = 254;
    EXPECT(negative_status(&shelf, nxdomain) == RRCACHE_BAD_TYPE);
    EXPECT(keys(&shelf) == 0 && events(&shelf) == 0);
    EXPECT(rrcache_free(&shelf) == RRCACHE_DONE);
}

static void test_stale(void)
{
    struct rrcache_shelf shelf = {0};
    struct rrcache_counts counts;
    struct rrcache_told told = {0};
    struct reply reply;
    uint8_t buffer[64];
    EXPECT(make(&shelf) == RRCACHE_DONE && offer_answer(&shelf, FIRST, &counts) == RRCACHE_DONE);
    EXPECT(ask(&shelf, FIRST + 300, &told, buffer, sizeof buffer) == RRCACHE_DONE
           && told.kind == RRCACHE_MISS);
    reply =
        asked(&shelf, OF(NAME), question_by(A, FIRST + 300, RRCACHE_QUESTION, RRCACHE_STALE_NOW));
    EXPECT(reply.told.kind == RRCACHE_STALE && reply.told.left == 30
           && memcmp(reply.octets, ADDRESSES, sizeof ADDRESSES) == 0);
    EXPECT(sweep(&shelf, FIRST + 300) == 0);
    EXPECT(sweep(&shelf, FIRST + 4000) == 1);
    EXPECT(rrcache_free(&shelf) == RRCACHE_DONE);
}

/* ---- Names that are made once. */

/* By SipHash-1-3 under the octets 0 to 15, as `openssl mac` tells it too; the tests of tests/python
   ask OpenSSL for others. By the lower 32 bits of the hash these were parts 3, 3 and 10. */
static void test_names(void)
{
    struct rrcache_name www = name_of(OF(NAME)), other = name_of(OF(OTHER)),
                        third = name_of(OF(THIRD)), upper;
    static const uint8_t seed[16] = SEED;
    EXPECT(www.hash == UINT64_C(0x5b200d5244c39373) && www.part == 2);
    EXPECT(other.hash == UINT64_C(0xaf6b398d9abd6483) && other.part == 13);
    EXPECT(third.hash == UINT64_C(0x3cd7eb6fdf705eca) && third.part == 15);
    EXPECT(www.size == sizeof NAME && memcmp(www.octets, NAME, sizeof NAME) == 0
           && memcmp(www.seed, seed, sizeof seed) == 0);

    /* In any case it is the same name, whatever stood there before. Behind its octets nothing is
       written. */
    memset(&upper, 0xee, sizeof upper);
    EXPECT(rrcache_make_name(&upper, OF(UPPER), PARTED(PARTS)) == RRCACHE_DONE
           && memcmp(&upper, &www, offsetof(struct rrcache_name, octets) + www.size) == 0);
    EXPECT(upper.octets[www.size] == 0xee && upper.octets[254] == 0xee);

    /* The number of parts changes the part alone. */
    EXPECT(rrcache_make_name(&upper, OF(UPPER), PARTED(64)) == RRCACHE_DONE && upper.part == 18
           && upper.hash == www.hash && upper.size == www.size);
    EXPECT(rrcache_make_name(&upper, OF(UPPER), PARTED(1)) == RRCACHE_DONE && upper.part == 0
           && upper.hash == www.hash);
}

/* Writes a name of `size` octets, from 3 to 255, whose labels have ever new octets, and the same
   name with A to Z in lower case. Returns the next octet. */
static uint8_t fill_names(uint8_t *wire, uint8_t *low, size_t size, uint8_t next)
{
    size_t at = 0;
    while (at < size - 1) {
        size_t rest = size - 2 - at, label = rest < 63 ? rest : 63;
        label -= rest - label == 1; /* what is left has to have room for a label */
        wire[at] = low[at] = (uint8_t)label;
        for (at++; label > 0; label--, at++, next++) {
            wire[at] = next;
            low[at] = next >= 'A' && next <= 'Z' ? (uint8_t)(next - 'A' + 'a') : next;
        }
    }
    wire[at] = low[at] = 0;
    return next;
}

/* Only the octets of A to Z change (RFC 4343 section 3), in names of every length, and nothing is
   left of the name that was made there before, which is shorter and then longer. */
static void test_folded_octets(void)
{
    uint8_t wire[255], low[255], next = 0;
    struct rrcache_name made = {0}, of_low = {0};
    for (size_t turn = 0; turn < 2 * (sizeof wire - 2); turn++) {
        size_t grown = turn + 3, size = grown <= sizeof wire ? grown : 2 * sizeof wire + 1 - grown;
        next = fill_names(wire, low, size, next);
        EXPECT(rrcache_make_name(&made, wire, size, PARTED(PARTS)) == RRCACHE_DONE
               && made.size == size && memcmp(made.octets, low, size) == 0);
        EXPECT(rrcache_make_name(&of_low, low, size, PARTED(PARTS)) == RRCACHE_DONE
               && of_low.hash == made.hash && of_low.part == made.part);
    }
}

/* A name may be copied, and its own place written over. */
static void test_copied_names(void)
{
    struct rrcache_shelf shelf = {0};
    struct rrcache_name name = name_of(OF(UPPER)), copy = name;
    struct rrcache_question asked = question(A, FIRST);
    struct rrcache_stored stored;
    struct rrcache_told told;
    uint8_t buffer[64];
    memset(&name, 0xee, sizeof name);
    EXPECT(make(&shelf) == RRCACHE_DONE);
    EXPECT(offer_address(&shelf, OF(NAME), RRCACHE_AUTHORITY, 60) == RRCACHE_KEPT);
    for (int call = 0; call < ASKINGS; call++)
        EXPECT(ASKING[call](&shelf, &copy, &asked, &told, buffer, sizeof buffer) == RRCACHE_DONE
               && told.kind == RRCACHE_FRESH && told.data_size == sizeof ADDRESS);
    EXPECT(rrcache_tell_stored(&shelf, &copy, &asked, &stored) == RRCACHE_DONE
           && stored.set.kind == RRCACHE_FRESH);
    name = name_of(OF(NAME));
    EXPECT(memcmp(&name, &copy, sizeof name) == 0);
    EXPECT(rrcache_free(&shelf) == RRCACHE_DONE);
}

/* Whether all calls that are handed a name return this for it, and tell nothing. */
static bool are_refused_for(struct rrcache_shelf *shelf, const struct rrcache_name *name,
                            uint32_t wanted)
{
    struct rrcache_question asked = question(A, FIRST);
    struct rrcache_stored stored;
    struct rrcache_told told;
    uint8_t buffer[64] = {7};
    bool right = true;
    memset(&told, 7, sizeof told);
    memset(&stored, 7, sizeof stored);
    for (int call = 0; call < ASKINGS; call++)
        right = ASKING[call](shelf, name, &asked, &told, buffer, sizeof buffer) == wanted && right;
    right = rrcache_tell_stored(shelf, name, &asked, &stored) == wanted && right;
    return right && told.kind == 0x07070707 && stored.failure.age == UINT64_C(0x0707070707070707)
           && buffer[0] == 7;
}

/* A shelf is asked for names of its own seed alone, whichever octet of another is another. */
static void test_two_seeds(void)
{
    struct rrcache_shelf shelf = {0}, other_shelf = {0};
    struct rrcache_rules rules = *RULES(100, 4, MAX_STALE);
    struct rrcache_name name = name_of(OF(NAME)), other;
    struct rrcache_parts parts;
    rules.seed[15] ^= 1;
    EXPECT(make(&shelf) == RRCACHE_DONE && rrcache_make(&other_shelf, &rules) == RRCACHE_DONE);
    EXPECT(offer_address(&shelf, OF(NAME), RRCACHE_AUTHORITY, 60) == RRCACHE_KEPT
           && offer_address(&other_shelf, OF(NAME), RRCACHE_AUTHORITY, 60) == RRCACHE_KEPT);
    for (size_t place = 0; place < sizeof parts.seed; place++) {
        parts = *PARTED(PARTS);
        parts.seed[place] ^= 1;
        EXPECT(rrcache_make_name(&other, OF(NAME), &parts) == RRCACHE_DONE);
        EXPECT(are_refused_for(&shelf, &other, RRCACHE_OTHER_SEED) && events(&shelf) == 1);
    }
    /* The last of these is the seed of the other shelf. */
    EXPECT(are_refused_for(&other_shelf, &name, RRCACHE_OTHER_SEED));
    struct rrcache_question asked = question(A, FIRST);
    struct rrcache_told told;
    uint8_t buffer[64];
    EXPECT(rrcache_ask(&other_shelf, &other, &asked, &told, buffer, sizeof buffer) == RRCACHE_DONE
           && told.kind == RRCACHE_FRESH);
    EXPECT(rrcache_ask(&shelf, &name, &asked, &told, buffer, sizeof buffer) == RRCACHE_DONE
           && told.kind == RRCACHE_FRESH);
    EXPECT(rrcache_free(&shelf) == RRCACHE_DONE && rrcache_free(&other_shelf) == RRCACHE_DONE);
}

/* What is no name, and no division: the first that is due, and the name is as it was. */
static void test_names_refused(void)
{
    struct rrcache_shelf shelf = {0};
    struct rrcache_name name, before;
    static const struct rrcache_name none = {0};
    struct rrcache_parts parts = {0};
    memset(&name, 7, sizeof name);
    before = name;
    EXPECT(rrcache_make_name(&name, OF(NO_NAME), &parts) == RRCACHE_BAD_RULES);
    parts.count = 65;
    EXPECT(rrcache_make_name(&name, OF(NO_NAME), &parts) == RRCACHE_BAD_RULES);
    parts.count = (UINT64_C(1) << 32) + 1;
    EXPECT(rrcache_make_name(&name, OF(NO_NAME), &parts) == RRCACHE_BAD_RULES);
    parts.count = 64;
    EXPECT(rrcache_make_name(&name, OF(NO_NAME), &parts) == RRCACHE_BAD_SEED
           && rrcache_make_name(&name, OF(NAME), &parts) == RRCACHE_BAD_SEED);
    parts.seed[15] = 1;
    EXPECT(rrcache_make_name(&name, OF(NO_NAME), &parts) == RRCACHE_BAD_NAME
           && rrcache_make_name(&name, NULL, 0, &parts) == RRCACHE_BAD_NAME);
    EXPECT(memcmp(&name, &before, sizeof name) == 0);
    EXPECT(rrcache_make_name(&name, OF(NAME), &parts) == RRCACHE_DONE && name.part < 64);

    /* A name of zeros is none, whatever its seed is. */
    EXPECT(make(&shelf) == RRCACHE_DONE && are_refused_for(&shelf, &none, RRCACHE_BAD_NAME));
    name = none;
    memcpy(name.seed, shelf.seed, sizeof name.seed);
    EXPECT(are_refused_for(&shelf, &name, RRCACHE_BAD_NAME) && events(&shelf) == 0);
    EXPECT(rrcache_free(&shelf) == RRCACHE_DONE);
}

static uint32_t status_of(const char *name, size_t size)
{
    struct rrcache_name made;
    return rrcache_make_name(&made, (const uint8_t *)name, size, PARTED(PARTS));
}

/* The status of the wire form of labels of so many octets each, which end with the root. */
static uint32_t status_of_labels(const char *counts)
{
    char name[300];
    size_t size = 0;
    for (; *counts; counts++) {
        size_t count = (size_t)*counts;
        name[size] = *counts;
        memset(name + size + 1, 'a', count);
        size += 1 + count;
    }
    name[size] = 0;
    return status_of(name, size + 1);
}

/* Which octets are the wire form of a name, within the limits of 63 and 255 octets (RFC 1035
   sections 2.3.4 and 3.1). */
static void test_wire_forms(void)
{
    EXPECT(status_of("", 1) == RRCACHE_DONE && status_of("\2.\\", 4) == RRCACHE_DONE);
    EXPECT(status_of("", 0) == RRCACHE_BAD_NAME && status_of("\3ww", 3) == RRCACHE_BAD_NAME
           && status_of("\3www", 4) == RRCACHE_BAD_NAME && status_of("\77", 1) == RRCACHE_BAD_NAME);
    EXPECT(status_of("\1a\0", 4) == RRCACHE_BAD_NAME && status_of("\0\1a", 4) == RRCACHE_BAD_NAME);
    /* A label of 64 octets, and a pointer, which names in messages alone may have. */
    EXPECT(status_of("\100", 2) == RRCACHE_BAD_NAME
           && status_of("\1a\300\14", 5) == RRCACHE_BAD_NAME);
    EXPECT(status_of_labels("\77") == RRCACHE_DONE && status_of_labels("\100") == RRCACHE_BAD_NAME);
    EXPECT(status_of_labels("\77\77\77\75") == RRCACHE_DONE);
    EXPECT(status_of_labels("\77\77\77\76") == RRCACHE_BAD_NAME
           && status_of_labels("\77\77\77\74\1") == RRCACHE_BAD_NAME);
}

/* ---- What is stored, and what a reply tells of it. */

/* The entry that gives a reply: fresh, stale, no data, no such name; with a miss there is none. */
static void test_entries(void)
{
    struct rrcache_shelf shelf = {0};
    struct rrcache_counts counts;
    struct rrcache_negative nodata = negative_of(OF(OTHER), TXT, RRCACHE_NODATA),
                            nxdomain = negative_of(OF(THIRD), 0, RRCACHE_NXDOMAIN);
    struct reply reply;
    nodata.moment = FIRST + 5;
    nxdomain.moment = FIRST + 6;
    nxdomain.trust = RRCACHE_NON_AUTHORITATIVE_ANSWER;
    nxdomain.ttl = 90;
    EXPECT(make_by(&shelf, 100, 100, MAX_STALE) == RRCACHE_DONE);
    EXPECT(offer_answer(&shelf, FIRST, &counts) == RRCACHE_DONE);
    EXPECT(offer_negative(&shelf, nodata) == RRCACHE_KEPT
           && offer_negative(&shelf, nxdomain) == RRCACHE_KEPT
           && offer_failure(&shelf, failure_of(OF(NAME), TXT)) == RRCACHE_KEPT);

    reply = peeked(&shelf, OF(NAME), question(A, FIRST + 299));
    EXPECT(reply.told.kind == RRCACHE_FRESH && reply.told.rtype == A && reply.told.left == 1);
    EXPECT(is_entry(&reply.told.entry, RRCACHE_FRESH, 4, 300, FIRST, 0, 3));
    reply =
        peeked(&shelf, OF(NAME), question_by(A, FIRST + 300, RRCACHE_QUESTION, RRCACHE_STALE_NOW));
    EXPECT(reply.told.kind == RRCACHE_STALE && reply.told.rtype == A && reply.told.left == 30);
    EXPECT(is_entry(&reply.told.entry, RRCACHE_FRESH, 4, 300, FIRST, 0, 3));
    reply = peeked(&shelf, OF(OTHER), question(TXT, FIRST + 10));
    EXPECT(reply.told.kind == RRCACHE_NODATA && reply.told.rtype == TXT && reply.told.left == 55);
    EXPECT(is_entry(&reply.told.entry, RRCACHE_NODATA, 3, 60, FIRST + 5, 1, 2));
    reply = peeked(&shelf, OF(THIRD), question(SOA, FIRST + 10));
    EXPECT(reply.told.kind == RRCACHE_NXDOMAIN && reply.told.rtype == SOA && reply.told.left == 86);
    EXPECT(is_entry(&reply.told.entry, RRCACHE_NXDOMAIN, 2, 90, FIRST + 6, 2, 1));

    /* Misses: nothing held, what is past its time, and a failure. */
    reply = peeked(&shelf, OF(NAME), question(SOA, FIRST));
    EXPECT(reply.told.kind == RRCACHE_MISS && reply.told.rtype == SOA
           && is_no_entry(&reply.told.entry));
    reply = peeked(&shelf, OF(NAME), question(A, FIRST + 300));
    EXPECT(reply.told.kind == RRCACHE_MISS && is_no_entry(&reply.told.entry));
    reply = peeked(&shelf, OF(NAME), question(TXT, FIRST));
    EXPECT(reply.told.kind == RRCACHE_FAILED && reply.told.rtype == TXT
           && is_no_entry(&reply.told.entry));
    EXPECT(rrcache_free(&shelf) == RRCACHE_DONE);
}

/* Additional data serve the resolver itself alone (RFC 2181 section 5.4.1). */
static void test_purposes(void)
{
    struct rrcache_shelf shelf = {0};
    struct reply reply;
    EXPECT(make(&shelf) == RRCACHE_DONE);
    EXPECT(offer_address(&shelf, OF(NAME), RRCACHE_ADDITIONAL, 60) == RRCACHE_KEPT);
    reply = peeked(&shelf, OF(NAME), question(A, FIRST));
    EXPECT(reply.told.kind == RRCACHE_MISS && is_no_entry(&reply.told.entry));
    reply = peeked(&shelf, OF(NAME), question_by(A, FIRST, RRCACHE_ANYTHING, RRCACHE_NO_STALE));
    EXPECT(reply.told.kind == RRCACHE_FRESH
           && is_entry(&reply.told.entry, RRCACHE_FRESH, RRCACHE_ADDITIONAL, 60, FIRST, 0, 0));
    EXPECT(rrcache_free(&shelf) == RRCACHE_DONE);
}

/* What is held: what it is, its rank, its TTL as it was stored, and when, also past its time. */
static void test_stored(void)
{
    struct rrcache_shelf shelf = {0};
    struct rrcache_stored stored;
    struct rrcache_negative nodata = negative_of(OF(OTHER), TXT, RRCACHE_NODATA);
    EXPECT(make_by(&shelf, 100, 100, MAX_STALE) == RRCACHE_DONE);
    stored = stored_of(&shelf, OF(NAME), A);
    EXPECT(is_no_entry(&stored.set) && is_no_entry(&stored.nxdomain)
           && is_no_entry(&stored.failure));
    EXPECT(offer_address(&shelf, OF(NAME), RRCACHE_AUTHORITY, 60) == RRCACHE_KEPT);
    stored = stored_of(&shelf, OF(UPPER), A);
    EXPECT(is_entry(&stored.set, RRCACHE_FRESH, RRCACHE_AUTHORITY, 60, FIRST, 0, 0)
           && is_no_entry(&stored.nxdomain) && is_no_entry(&stored.failure));
    stored = stored_of(&shelf, OF(NAME), TXT);
    EXPECT(is_no_entry(&stored.set));
    nodata.moment = FIRST + 5;
    nodata.ttl = 40;
    EXPECT(offer_negative(&shelf, nodata) == RRCACHE_KEPT);
    stored = stored_of(&shelf, OF(OTHER), TXT);
    EXPECT(is_entry(&stored.set, RRCACHE_NODATA, RRCACHE_AUTHORITY, 40, FIRST + 5, 1, 0));

    /* All three of one name, each with its own number and age. */
    EXPECT(offer_denial(&shelf, OF(NAME), RRCACHE_NXDOMAIN, RRCACHE_AUTHORITATIVE_ANSWER, 50)
               == RRCACHE_KEPT
           && offer_failure(&shelf, failure_of(OF(NAME), A)) == RRCACHE_KEPT);
    stored = stored_of(&shelf, OF(NAME), A);
    EXPECT(is_entry(&stored.set, RRCACHE_FRESH, RRCACHE_AUTHORITY, 60, FIRST, 0, 3)
           && is_entry(&stored.nxdomain, RRCACHE_NXDOMAIN, RRCACHE_AUTHORITATIVE_ANSWER, 50, FIRST,
                       2, 1)
           && is_entry(&stored.failure, RRCACHE_FAILED, 0, 30, FIRST, 3, 0));
    /* Of another type the name does not exist all the same. */
    stored = stored_of(&shelf, OF(NAME), SOA);
    EXPECT(is_no_entry(&stored.set) && stored.nxdomain.number == 2 && is_no_entry(&stored.failure));

    /* The largest TTL (RFC 2181 section 8). */
    EXPECT(offer_address(&shelf, OF(THIRD), RRCACHE_AUTHORITY, (1u << 31) - 1) == RRCACHE_KEPT);
    stored = stored_of(&shelf, OF(THIRD), A);
    EXPECT(stored.set.ttl == (1u << 31) - 1);
    EXPECT(events(&shelf) == 5 && rrcache_free(&shelf) == RRCACHE_DONE);
}

/* Of a question about what is stored the type and the class are looked at, and nothing else. */
static void test_stored_refused(void)
{
    struct rrcache_shelf shelf = {0};
    struct rrcache_name name = name_of(OF(NAME));
    static const struct rrcache_name none = {0};
    struct rrcache_question asked = {0};
    struct rrcache_stored stored;
    memset(&stored, 7, sizeof stored);
    EXPECT(rrcache_tell_stored(&shelf, &none, &asked, &stored) == RRCACHE_NO_SHELF);
    EXPECT(make(&shelf) == RRCACHE_DONE);
    EXPECT(rrcache_tell_stored(&shelf, &none, &asked, &stored) == RRCACHE_BAD_TYPE);
    asked.rtype = A;
    EXPECT(rrcache_tell_stored(&shelf, &none, &asked, &stored) == RRCACHE_BAD_TYPE);
    asked.rclass = 254;
    EXPECT(rrcache_tell_stored(&shelf, &none, &asked, &stored) == RRCACHE_BAD_TYPE);
    asked.rclass = RRCACHE_CH;
    EXPECT(rrcache_tell_stored(&shelf, &none, &asked, &stored) == RRCACHE_BAD_NAME);
    EXPECT(stored.set.kind == 0x07070707 && stored.failure.kind == 0x07070707);
    EXPECT(offer_address(&shelf, OF(NAME), RRCACHE_AUTHORITY, 60) == RRCACHE_KEPT);
    EXPECT(rrcache_tell_stored(&shelf, &name, &asked, &stored) == RRCACHE_DONE
           && is_no_entry(&stored.set));
    asked.rclass = RRCACHE_IN;
    EXPECT(rrcache_tell_stored(&shelf, &name, &asked, &stored) == RRCACHE_DONE
           && stored.set.kind == RRCACHE_FRESH);
    /* Of a type that is not kept it is known that the name does not exist. */
    asked.rtype = ANY;
    EXPECT(offer_denial(&shelf, OF(NAME), RRCACHE_NXDOMAIN, RRCACHE_AUTHORITY, 60) == RRCACHE_KEPT);
    EXPECT(rrcache_tell_stored(&shelf, &name, &asked, &stored) == RRCACHE_DONE
           && is_no_entry(&stored.set) && stored.nxdomain.kind == RRCACHE_NXDOMAIN);
    EXPECT(rrcache_free(&shelf) == RRCACHE_DONE);
}

/* Whether the addresses of three names have these ages, by what is stored and by a peek. */
static bool have_ages(struct rrcache_shelf *shelf, uint64_t www, uint64_t other, uint64_t third)
{
    static const struct {
        const uint8_t *octets;
        size_t size;
    } names[] = {{OF(NAME)}, {OF(OTHER)}, {OF(THIRD)}};
    const uint64_t wanted[] = {www, other, third};
    bool right = true;
    for (int n = 0; n < 3; n++) {
        struct rrcache_stored stored = stored_of(shelf, names[n].octets, names[n].size, A);
        struct reply reply = peeked(shelf, names[n].octets, names[n].size, question(A, FIRST));
        right = right && stored.set.age == wanted[n] && reply.told.entry.age == wanted[n];
    }
    return right;
}

/* Ages are counted in touches: an offer that is kept, and an ask that is answered. The ask tells
   the age from before it. */
static void test_ages_of_asks(struct rrcache_shelf *shelf)
{
    EXPECT(offer_address(shelf, OF(NAME), RRCACHE_AUTHORITY, 60) == RRCACHE_KEPT
           && have_ages(shelf, 0, 0, 0));
    EXPECT(offer_address(shelf, OF(OTHER), RRCACHE_AUTHORITY, 60) == RRCACHE_KEPT
           && have_ages(shelf, 1, 0, 0));
    EXPECT(offer_address(shelf, OF(THIRD), RRCACHE_AUTHORITY, 60) == RRCACHE_KEPT
           && have_ages(shelf, 2, 1, 0));
    EXPECT(asked(shelf, OF(NAME), question(A, FIRST)).told.entry.age == 2
           && have_ages(shelf, 0, 2, 1));
    /* An ask that the entry in front answers, a miss, an ask that is refused and one whose buffer
       is too small touch nothing. */
    EXPECT(asked(shelf, OF(NAME), question(A, FIRST)).told.entry.age == 0
           && have_ages(shelf, 0, 2, 1));
    struct rrcache_told told;
    EXPECT(asked(shelf, OF(NAME), question(TXT, FIRST)).told.kind == RRCACHE_MISS
           && ask(shelf, LATE, &told, NULL, 0) == RRCACHE_MOMENT_TOO_LARGE
           && ask(shelf, FIRST, &told, NULL, 0) == RRCACHE_SMALL && have_ages(shelf, 0, 2, 1));
    EXPECT(asked(shelf, OF(THIRD), question(A, FIRST)).told.entry.age == 1
           && have_ages(shelf, 1, 3, 0));
}

/* Nor do offers that are not kept and sweeps. */
static void test_ages_of_offers(struct rrcache_shelf *shelf)
{
    EXPECT(offer_address(shelf, OF(NAME), RRCACHE_ADDITIONAL, 60) == RRCACHE_OUTRANKED
           && have_ages(shelf, 1, 3, 0));
    EXPECT(offer_address(shelf, OF(OTHER), RRCACHE_AUTHORITY, 60) == RRCACHE_KEPT
           && have_ages(shelf, 2, 0, 1));
    struct rrcache_set text = set_of(OF(NAME), TXT, OF(ADDRESS));
    text.ttl = 0;
    EXPECT(offer_set(shelf, text) == RRCACHE_CLEARED && have_ages(shelf, 2, 0, 1));
    EXPECT(offer_failure(shelf, failure_of(OF(NAME), TXT)) == RRCACHE_KEPT
           && have_ages(shelf, 3, 1, 2));
    EXPECT(sweep(shelf, FIRST) == 0 && have_ages(shelf, 3, 1, 2));
    /* What is swept or cleared leaves the ages of the rest: that asking failed, then an address. */
    EXPECT(sweep(shelf, FIRST + 30) == 1 && have_ages(shelf, 3, 1, 2));
    EXPECT(offer_address(shelf, OF(THIRD), RRCACHE_AUTHORITY, 0) == RRCACHE_CLEARED
           && have_ages(shelf, 3, 1, 0) && keys(shelf) == 2);
}

/* Of the offers of a message those touch that are kept. */
static void test_ages_of_messages(struct rrcache_shelf *shelf)
{
    struct rrcache_counts counts;
    struct rrcache_stored stored;
    EXPECT(offer_message(shelf, response_of(OF(ALIAS)), &counts) == RRCACHE_DONE
           && are_counts(&counts, 1, 0, 1));
    /* The CNAME record is kept, and the address of other.example outranked. */
    stored = stored_of(shelf, OF(NAME), CNAME);
    EXPECT(stored.set.age == 0 && have_ages(shelf, 4, 2, 0));
}

static void test_ages(void)
{
    struct rrcache_shelf lean = {0}, shelf = {0};
    EXPECT(rrcache_make(&lean, RULES(100, 4, 0)) == RRCACHE_DONE
           && make_by(&shelf, 100, 4, 0) == RRCACHE_DONE);
    for (int turn = 0; turn < 2; turn++) {
        struct rrcache_shelf *its = turn == 0 ? &lean : &shelf;
        test_ages_of_asks(its);
        test_ages_of_offers(its);
        test_ages_of_messages(its);
        EXPECT(rrcache_free(its) == RRCACHE_DONE);
    }
}

/* ---- Chapters and records. */

static void test_chapters(void)
{
    struct rrcache_shelf shelf = {0};
    struct rrcache_counts counts;
    struct rrcache_told told = {0};
    uint64_t dropped = 9;
    uint8_t buffer[64];
    EXPECT(make(&shelf) == RRCACHE_DONE && offer_answer(&shelf, FIRST, &counts) == RRCACHE_DONE);
    for (int n = 0; n < 8; n++)
        EXPECT(ask(&shelf, FIRST, &told, buffer, sizeof buffer) == RRCACHE_DONE);
    /* Nine events in chapters of four. */
    EXPECT(events(&shelf) == 2001);
    EXPECT(rrcache_drop_chapters(&shelf, &dropped) == RRCACHE_DONE && dropped == 2
           && events(&shelf) == 1);
    EXPECT(rrcache_drop_chapters(&shelf, &dropped) == RRCACHE_DONE && dropped == 0);
    EXPECT(peek(&shelf, FIRST, &told, buffer, sizeof buffer) == RRCACHE_DONE
           && told.kind == RRCACHE_FRESH);
    EXPECT(rrcache_free(&shelf) == RRCACHE_DONE);
}

/* A full chapter is closed by the next call, unless that is refused for its moment. */
static void test_full_chapter(void)
{
    struct rrcache_shelf shelf = {0};
    struct rrcache_told told = {0};
    uint64_t removed = 9;
    EXPECT(make(&shelf) == RRCACHE_DONE);
    for (int n = 0; n < 4; n++)
        EXPECT(ask(&shelf, FIRST, &told, NULL, 0) == RRCACHE_DONE);
    EXPECT(rrcache_sweep(&shelf, SWEEP(LATE, 0), &removed) == RRCACHE_MOMENT_TOO_LARGE
           && removed == 9 && events(&shelf) == 4);
    EXPECT(sweep(&shelf, LAST) == 0 && events(&shelf) == 1001);
    EXPECT(rrcache_free(&shelf) == RRCACHE_DONE);
}

/* Offers and asks as often as this with both of two shelves, and answers whether they tell the same
   and hold as many keys and octets. */
static bool are_alike(struct rrcache_shelf *one, struct rrcache_shelf *other, uint64_t moment)
{
    struct rrcache_counts counts[2];
    bool alike = true;
    for (int n = 0; n < 5; n++) {
        struct rrcache_question now = question(A, moment + 100 * (uint64_t)n);
        struct reply replies[] = {asked(one, OF(NAME), now), asked(other, OF(NAME), now)};
        alike = alike && are_same(&replies[0], &replies[1]);
    }
    EXPECT(offer_answer(one, moment, &counts[0]) == RRCACHE_DONE
           && offer_answer(other, moment, &counts[1]) == RRCACHE_DONE);
    return alike && memcmp(&counts[0], &counts[1], sizeof counts[0]) == 0
           && keys(one) == keys(other) && octets_of_keys(one) == octets_of_keys(other);
}

/* A shelf that records nothing has no events, and no chapter of it is ever full. It answers as one
   does that records, and so it does when its record begins, and when that is dropped. */
static void test_records(void)
{
    struct rrcache_shelf shelf = {0}, other = {0};
    uint64_t dropped = 9;
    EXPECT(rrcache_make(&shelf, RULES(100, 4, MAX_STALE)) == RRCACHE_DONE
           && make(&other) == RRCACHE_DONE);
    for (uint64_t n = 0; n < 3; n++)
        EXPECT(are_alike(&shelf, &other, FIRST + 200 * n) && events(&shelf) == 0);
    EXPECT(rrcache_drop_chapters(&shelf, &dropped) == RRCACHE_DONE && dropped == 0);
    /* 18 events, of which chapters have four. */
    EXPECT(events(&other) == 4002);

    EXPECT(rrcache_stop_and_drop(&shelf) == RRCACHE_DONE && events(&shelf) == 0);
    EXPECT(rrcache_record(&shelf) == RRCACHE_DONE && events(&shelf) == 0);
    EXPECT(are_alike(&shelf, &other, FIRST + 600) && events(&shelf) == 1002);
    EXPECT(rrcache_record(&shelf) == RRCACHE_DONE && events(&shelf) == 1002);
    EXPECT(are_alike(&shelf, &other, FIRST + 800) && events(&shelf) == 2004);

    EXPECT(rrcache_stop_and_drop(&shelf) == RRCACHE_DONE && events(&shelf) == 0);
    EXPECT(rrcache_drop_chapters(&shelf, &dropped) == RRCACHE_DONE && dropped == 0);
    EXPECT(are_alike(&shelf, &other, FIRST + 1000) && events(&shelf) == 0);
    EXPECT(rrcache_record(&shelf) == RRCACHE_DONE && are_alike(&shelf, &other, FIRST + 1200)
           && events(&shelf) == 1002);
    EXPECT(rrcache_free(&shelf) == RRCACHE_DONE && rrcache_free(&other) == RRCACHE_DONE);
}

/* What a sink was handed, and which call of it is to end the writing, if any. */
struct text {
    char octets[16384];
    size_t size;
    unsigned calls, last;
};

static int write_text(void *state, const void *octets, size_t size)
{
    struct text *text = state;
    EXPECT(size != 0 && size <= RRCACHE_PIECE_OCTETS);
    if (++text->calls == text->last || size > sizeof text->octets - text->size)
        return -1;
    memcpy(text->octets + text->size, octets, size);
    text->size += size;
    return 0;
}

static bool is_text(const struct text *text, const char *wanted)
{
    bool same = text->size == strlen(wanted) && memcmp(text->octets, wanted, text->size) == 0;
    if (!same)
        printf("%.*s\n", (int)text->size, text->octets);
    return same;
}

/* Whether a line of a chapter is this. */
static bool is_line(struct rrcache_chapters *chapters, uint64_t chapter, uint64_t line,
                    const char *wanted)
{
    static struct text text;
    memset(&text, 0, sizeof text);
    return rrcache_write_line(chapters, PLACE(chapter, line, 0), write_text, &text) == RRCACHE_DONE
           && is_text(&text, wanted);
}

static bool is_chapter(struct rrcache_chapters *chapters, uint64_t chapter, const char *wanted)
{
    static struct text text;
    memset(&text, 0, sizeof text);
    return rrcache_write_chapter(chapters, chapter, write_text, &text) == RRCACHE_DONE
           && is_text(&text, wanted);
}

/* Two chapters of four events and the beginning of a third, of a shelf for three keys, by
   docs/FORMATS.md. The second one begins with what the first one led to; the offer of class CH
   evicts the key that was touched least recently, and the sweep removes all three. */
static const char FIRST_CHAPTER[] =
    "chapter 2 0 3 4 3600\n"
    "offer 1 0 1000 www.example. 1 set 4 60 WWW.Example. c0000209 kept\n"
    "offer 2 0 1000 www.example. 1 set 1 60 www.example. c0000209 less\n"
    "offer 3 0 1000 other.example. nx negative 3 60 example. "
    "0000000000010000000200000003000000040000003c kept\n"
    "offer 4 0 1000 www.example. failed16 failure 30 kept\n";
static const char SECOND_CHAPTER[] =
    "chapter 3 4 3 4 3600\n"
    "entry 3 1000 www.example. failed16 failure 30\n"
    "entry 2 1000 other.example. nx negative 3 60 example. "
    "0000000000010000000200000003000000040000003c\n"
    "entry 0 1000 www.example. 1 set 4 60 WWW.Example. c0000209\n"
    "ask 2 0 1010 www.example. 1 answer none fresh 50 WWW.Example. c0000209\n"
    "offer 5 0 1020 other.example. 16/3 set 4 5 other.example. 0141 kept other.example. nx\n"
    "ask 6 0 1021 other.example. 16/3 any now fresh 4 other.example. 0141\n"
    "sweep 7 0 11000 other.example. 16/3 www.example. 1 www.example. failed16\n";
static const char THIRD_CHAPTER[] = "chapter 4 8 3 4 3600\n"
                                    "ask 2 0 1010 www.example. 1 answer none miss\n";

/* The events of the first of these chapters. */
static void write_first_chapter(struct rrcache_shelf *shelf)
{
    struct rrcache_set set = set_of(OF(UPPER), A, OF(ADDRESS));
    struct rrcache_negative denial = negative_of(OF(OTHER), A, RRCACHE_NXDOMAIN);
    struct rrcache_failure failure = failure_of(OF(NAME), TXT);
    EXPECT(offer_set(shelf, set) == RRCACHE_KEPT);
    set = set_of(OF(NAME), A, OF(ADDRESS));
    set.trust = RRCACHE_ADDITIONAL;
    set.line = 2;
    EXPECT(offer_set(shelf, set) == RRCACHE_OUTRANKED);
    denial.line = 3;
    EXPECT(offer_negative(shelf, denial) == RRCACHE_KEPT);
    failure.line = 4;
    EXPECT(offer_failure(shelf, failure) == RRCACHE_KEPT);
}

/* Those of the second one. */
static void write_second_chapter(struct rrcache_shelf *shelf)
{
    static const uint8_t txt[] = {0, 2, 1, 'A'};
    const struct rrcache_sweep_at terms = {.moment = FIRST + 10000, .line = 7};
    struct rrcache_set set = set_of(OF(OTHER), TXT, OF(txt));
    struct rrcache_question anything =
        question_by(TXT, FIRST + 21, RRCACHE_ANYTHING, RRCACHE_STALE_NOW);
    uint64_t removed = 0;
    EXPECT(asked(shelf, OF(NAME), question(A, FIRST + 10)).told.kind == RRCACHE_FRESH);
    set.rclass = anything.rclass = RRCACHE_CH;
    set.ttl = 5;
    set.moment = FIRST + 20;
    set.line = 5;
    EXPECT(offer_set(shelf, set) == RRCACHE_KEPT);
    anything.line = 6;
    EXPECT(asked(shelf, OF(OTHER), anything).told.kind == RRCACHE_FRESH);
    EXPECT(rrcache_sweep(shelf, &terms, &removed) == RRCACHE_DONE && removed == 3);
}

/* A shelf with the events of these chapters, of which two are closed. */
static void make_chapters(struct rrcache_shelf *shelf)
{
    EXPECT(make_by(shelf, 3, 4, MAX_STALE) == RRCACHE_DONE);
    write_first_chapter(shelf);
    write_second_chapter(shelf);
    EXPECT(asked(shelf, OF(NAME), question(A, FIRST + 10)).told.kind == RRCACHE_MISS
           && events(shelf) == 2001);
}

/* Chapters are taken out of a shelf, which goes on, and written as they were recorded. */
static void test_taken_chapters(void)
{
    struct rrcache_shelf shelf = {0};
    struct rrcache_chapters chapters = {0}, rest = {0};
    struct text text = {0};
    uint64_t count = 9;
    make_chapters(&shelf);
    EXPECT(rrcache_take_chapters(&shelf, &chapters, &count) == RRCACHE_DONE && count == 2
           && events(&shelf) == 1);
    EXPECT(rrcache_write_chapter(&chapters, 0, write_text, &text) == RRCACHE_DONE
           && is_text(&text, FIRST_CHAPTER) && text.calls == 5);
    EXPECT(is_chapter(&chapters, 1, SECOND_CHAPTER));
    EXPECT(is_line(&chapters, 1, 2,
                   "entry 2 1000 other.example. nx negative 3 60 example. "
                   "0000000000010000000200000003000000040000003c\n"));

    /* The record ends, and its open chapter is the last one. The shelf may go before them. */
    EXPECT(rrcache_stop_recording(&shelf, &rest, &count) == RRCACHE_DONE && count == 1
           && events(&shelf) == 0);
    EXPECT(rrcache_free(&shelf) == RRCACHE_DONE);
    EXPECT(is_chapter(&rest, 0, THIRD_CHAPTER));
    EXPECT(rrcache_free_chapters(&chapters) == RRCACHE_DONE && chapters.at == NULL
           && !chapters.is_live && rrcache_free_chapters(&rest) == RRCACHE_DONE);
}

/* A record that ends is handed out whole, and the shelf answers as before. */
static void test_stopped_record(void)
{
    struct rrcache_shelf shelf = {0};
    struct rrcache_chapters chapters = {0};
    struct rrcache_counts counts;
    struct rrcache_told told = {0};
    uint64_t count = 9;
    uint8_t buffer[64];
    EXPECT(make(&shelf) == RRCACHE_DONE && offer_answer(&shelf, FIRST, &counts) == RRCACHE_DONE);
    for (int n = 0; n < 4; n++)
        EXPECT(ask(&shelf, FIRST, &told, buffer, sizeof buffer) == RRCACHE_DONE);
    EXPECT(events(&shelf) == 1001);
    EXPECT(rrcache_stop_recording(&shelf, &chapters, &count) == RRCACHE_DONE && count == 2
           && events(&shelf) == 0);
    EXPECT(is_chapter(&chapters, 1,
                      "chapter 3 4 100 4 3600\n"
                      "entry 0 1000 www.example. 1 set 4 300 www.example. c0000201,c0000202\n"
                      "ask 2 0 1000 www.example. 1 answer none fresh 300 www.example. "
                      "c0000201,c0000202\n"));
    EXPECT(peek(&shelf, FIRST + 1, &told, buffer, sizeof buffer) == RRCACHE_DONE
           && told.kind == RRCACHE_FRESH && told.left == 299);
    EXPECT(rrcache_free_chapters(&chapters) == RRCACHE_DONE);

    /* Where nothing is recorded there are no chapters, and the handle is live all the same. */
    EXPECT(rrcache_stop_recording(&shelf, &chapters, &count) == RRCACHE_DONE && count == 0);
    EXPECT(rrcache_chapter_line(&chapters, PLACE(0, 0, 0), NULL, 0, &(struct rrcache_line){0})
           == RRCACHE_NO_LINE);
    EXPECT(rrcache_free_chapters(&chapters) == RRCACHE_DONE);
    EXPECT(rrcache_take_chapters(&shelf, &chapters, &count) == RRCACHE_DONE && count == 0
           && rrcache_free_chapters(&chapters) == RRCACHE_DONE);
    EXPECT(rrcache_free(&shelf) == RRCACHE_DONE);
}

/* The number that a reply tells of its entry is that of the event that stored it, by which the
   event is found in the archive: behind the line of its chapter, and of each entry. */
static void test_numbers(void)
{
    static const char stored[] =
        "offer 1 0 1000 www.example. 1 set 3 60 www.example. c0000209 kept\n";
    struct rrcache_shelf shelf = {0};
    struct rrcache_chapters chapters = {0};
    struct rrcache_entry entry;
    uint64_t count = 0;
    EXPECT(make(&shelf) == RRCACHE_DONE);
    EXPECT(asked(&shelf, OF(NAME), question(A, FIRST)).told.kind == RRCACHE_MISS);
    EXPECT(offer_address(&shelf, OF(OTHER), RRCACHE_AUTHORITY, 60) == RRCACHE_KEPT
           && offer_address(&shelf, OF(NAME), RRCACHE_AUTHORITY, 60) == RRCACHE_KEPT);
    EXPECT(offer_address(&shelf, OF(NAME), RRCACHE_ADDITIONAL, 60) == RRCACHE_OUTRANKED);
    entry = asked(&shelf, OF(NAME), question(A, FIRST)).told.entry;
    EXPECT(is_entry(&entry, RRCACHE_FRESH, RRCACHE_AUTHORITY, 60, FIRST, 2, 0));
    EXPECT(peeked(&shelf, OF(OTHER), question(A, FIRST)).told.entry.number == 1);
    EXPECT(rrcache_stop_recording(&shelf, &chapters, &count) == RRCACHE_DONE && count == 2);
    EXPECT(is_line(&chapters, 0, 0, "chapter 2 0 100 4 3600\n")
           && is_line(&chapters, 0, 1 + entry.number, stored));
    /* The chapter behind begins with the same numbers. */
    EXPECT(is_chapter(&chapters, 1,
                      "chapter 3 4 100 4 3600\n"
                      "entry 2 1000 www.example. 1 set 3 60 www.example. c0000209\n"
                      "entry 1 1000 other.example. 1 set 3 60 other.example. c0000209\n"
                      "ask 2 0 1000 www.example. 1 answer none fresh 60 www.example. c0000209\n"));
    EXPECT(rrcache_free_chapters(&chapters) == RRCACHE_DONE
           && rrcache_free(&shelf) == RRCACHE_DONE);
}

/* Events take numbers where they are not recorded too. */
static void test_numbers_before_a_record(void)
{
    struct rrcache_shelf shelf = {0};
    struct rrcache_chapters chapters = {0};
    uint64_t count = 0;
    EXPECT(rrcache_make(&shelf, RULES(100, 4, MAX_STALE)) == RRCACHE_DONE);
    EXPECT(offer_address(&shelf, OF(NAME), RRCACHE_AUTHORITY, 60) == RRCACHE_KEPT
           && offer_address(&shelf, OF(OTHER), RRCACHE_AUTHORITY, 60) == RRCACHE_KEPT
           && asked(&shelf, OF(NAME), question(A, FIRST)).told.entry.number == 0);
    EXPECT(rrcache_record(&shelf) == RRCACHE_DONE);
    EXPECT(offer_address(&shelf, OF(THIRD), RRCACHE_AUTHORITY, 60) == RRCACHE_KEPT);
    EXPECT(stored_of(&shelf, OF(NAME), A).set.number == 0
           && stored_of(&shelf, OF(OTHER), A).set.number == 1
           && stored_of(&shelf, OF(THIRD), A).set.number == 3);
    EXPECT(rrcache_stop_recording(&shelf, &chapters, &count) == RRCACHE_DONE && count == 1);
    EXPECT(is_chapter(&chapters, 0,
                      "chapter 2 3 100 4 3600\n"
                      "entry 0 1000 www.example. 1 set 3 60 www.example. c0000209\n"
                      "entry 1 1000 other.example. 1 set 3 60 other.example. c0000209\n"
                      "offer 1 0 1000 third.example. 1 set 3 60 third.example. c0000209 kept\n"));
    EXPECT(rrcache_free_chapters(&chapters) == RRCACHE_DONE
           && rrcache_free(&shelf) == RRCACHE_DONE);
}

/* Each piece of a line, of any size and from any place, and what is left of the buffer. */
static void test_pieces(void)
{
    static const char head[] = "chapter 2 0 3 4 3600\n";
    enum { SIZE = sizeof head - 1 };
    struct rrcache_shelf shelf = {0};
    struct rrcache_chapters chapters = {0};
    struct rrcache_line told;
    uint64_t count = 0;
    uint8_t buffer[SIZE + 4];
    make_chapters(&shelf);
    EXPECT(rrcache_take_chapters(&shelf, &chapters, &count) == RRCACHE_DONE && count == 2);
    for (size_t from = 0; from <= SIZE + 1; from++)
        for (size_t room = 0; room <= sizeof buffer; room++) {
            size_t left = from < SIZE ? SIZE - from : 0;
            size_t wanted = left < room ? left : room;
            memset(buffer, 0xee, sizeof buffer);
            told.size = told.written = 99;
            bool right = rrcache_chapter_line(&chapters, PLACE(0, 0, from), buffer, room, &told)
                             == RRCACHE_DONE
                         && told.size == SIZE && told.written == wanted
                         && memcmp(buffer, head + (from < SIZE ? from : 0), wanted) == 0;
            for (size_t n = wanted; n < sizeof buffer; n++)
                right = right && buffer[n] == 0xee;
            EXPECT(right);
        }
    EXPECT(rrcache_chapter_line(&chapters, PLACE(0, 0, UINT64_MAX), buffer, sizeof buffer, &told)
               == RRCACHE_DONE
           && told.size == SIZE && told.written == 0);
    EXPECT(rrcache_free_chapters(&chapters) == RRCACHE_DONE
           && rrcache_free(&shelf) == RRCACHE_DONE);
}

/* A line is written from an octet of it on; from its end on the sink is not called. */
static void test_lines_from_a_place(void)
{
    struct rrcache_shelf shelf = {0};
    struct rrcache_chapters chapters = {0};
    struct text text = {0};
    uint64_t count = 0;
    make_chapters(&shelf);
    EXPECT(rrcache_take_chapters(&shelf, &chapters, &count) == RRCACHE_DONE && count == 2);
    EXPECT(rrcache_write_line(&chapters, PLACE(1, 0, 8), write_text, &text) == RRCACHE_DONE
           && is_text(&text, "3 4 3 4 3600\n"));
    EXPECT(rrcache_write_line(&chapters, PLACE(1, 0, 21), write_text, &text) == RRCACHE_DONE
           && rrcache_write_line(&chapters, PLACE(1, 0, UINT64_MAX), write_text, &text)
                  == RRCACHE_DONE
           && text.calls == 1);
    EXPECT(rrcache_free_chapters(&chapters) == RRCACHE_DONE
           && rrcache_free(&shelf) == RRCACHE_DONE);
}

/* A line of more octets than a sink is handed at once: a TXT record of twelve strings of 255. */
static void test_long_line(void)
{
    enum { STRINGS = 12, OCTETS = STRINGS * 256 };
    static uint8_t data[2 + OCTETS];
    static char wanted[256 + 2 * OCTETS];
    struct rrcache_shelf shelf = {0};
    struct rrcache_chapters chapters = {0};
    static struct text text;
    uint64_t count = 0;
    size_t size = (size_t)sprintf(wanted, "chapter 2 0 100 4 3600\n"
                                          "offer 1 0 1000 www.example. 16 set 4 60 www.example. ");
    data[0] = OCTETS / 256;
    data[1] = OCTETS % 256;
    for (int n = 0; n < OCTETS; n++) {
        data[2 + n] = n % 256 == 0 ? 255 : (uint8_t)(n % 251);
        size += (size_t)sprintf(wanted + size, "%02x", data[2 + n]);
    }
    sprintf(wanted + size, " kept\n");
    EXPECT(make(&shelf) == RRCACHE_DONE);
    EXPECT(offer_set(&shelf, set_of(OF(NAME), TXT, OF(data))) == RRCACHE_KEPT);
    EXPECT(rrcache_stop_recording(&shelf, &chapters, &count) == RRCACHE_DONE && count == 1);
    EXPECT(rrcache_write_chapter(&chapters, 0, write_text, &text) == RRCACHE_DONE
           && is_text(&text, wanted) && text.calls == 3);
    EXPECT(rrcache_free_chapters(&chapters) == RRCACHE_DONE
           && rrcache_free(&shelf) == RRCACHE_DONE);
}

/* Whether a line of chapters is told to be none, and nothing of it. */
static bool is_no_line(struct rrcache_chapters *chapters, uint64_t chapter, uint64_t line,
                       uint32_t status)
{
    struct rrcache_line told = {7, 7};
    uint8_t buffer[64] = {7};
    return rrcache_chapter_line(chapters, PLACE(chapter, line, 0), buffer, sizeof buffer, &told)
               == status
           && told.size == 7 && told.written == 7 && buffer[0] == 7;
}

/* Handles that hold no shelf, no chapters, or chapters already. */
static void test_refused_handles(void)
{
    struct rrcache_shelf shelf = {0};
    struct rrcache_chapters chapters = {0}, none = {0};
    struct text text = {0};
    uint64_t count = 7;
    EXPECT(rrcache_take_chapters(&shelf, &chapters, &count) == RRCACHE_NO_SHELF
           && rrcache_stop_recording(&shelf, &chapters, &count) == RRCACHE_NO_SHELF);
    make_chapters(&shelf);
    EXPECT(is_no_line(&none, 0, 0, RRCACHE_NO_CHAPTERS)
           && rrcache_write_chapter(&none, 0, write_text, &text) == RRCACHE_NO_CHAPTERS
           && rrcache_write_line(&none, PLACE(0, 0, 0), write_text, &text) == RRCACHE_NO_CHAPTERS
           && rrcache_free_chapters(&none) == RRCACHE_NO_CHAPTERS && count == 7);
    EXPECT(rrcache_take_chapters(&shelf, &chapters, &count) == RRCACHE_DONE && count == 2);
    count = 7;
    EXPECT(rrcache_take_chapters(&shelf, &chapters, &count) == RRCACHE_HAS_CHAPTERS
           && rrcache_stop_recording(&shelf, &chapters, &count) == RRCACHE_HAS_CHAPTERS
           && rrcache_take_chapters(&(struct rrcache_shelf){0}, &chapters, &count)
                  == RRCACHE_NO_SHELF
           && count == 7 && events(&shelf) == 1);
    EXPECT(rrcache_free_chapters(&chapters) == RRCACHE_DONE
           && rrcache_free(&shelf) == RRCACHE_DONE);
}

/* Lines that there are not, and a sink that ends the writing. */
static void test_refused_chapters(void)
{
    struct rrcache_shelf shelf = {0};
    struct rrcache_chapters chapters = {0};
    struct text text = {0};
    uint64_t count = 7;
    make_chapters(&shelf);
    EXPECT(rrcache_take_chapters(&shelf, &chapters, &count) == RRCACHE_DONE && count == 2);
    EXPECT(is_no_line(&chapters, 2, 0, RRCACHE_NO_LINE)
           && is_no_line(&chapters, 0, 5, RRCACHE_NO_LINE)
           && is_no_line(&chapters, 1, 8, RRCACHE_NO_LINE)
           && is_no_line(&chapters, UINT64_MAX, UINT64_MAX, RRCACHE_NO_LINE));
    EXPECT(rrcache_write_chapter(&chapters, 2, write_text, &text) == RRCACHE_NO_LINE
           && rrcache_write_line(&chapters, PLACE(0, 5, 0), write_text, &text) == RRCACHE_NO_LINE
           && text.calls == 0);

    /* A sink that ends the writing with its second line. */
    text.last = 2;
    EXPECT(rrcache_write_chapter(&chapters, 0, write_text, &text) == RRCACHE_SINK
           && is_text(&text, "chapter 2 0 3 4 3600\n") && text.calls == 2);
    text.last = 3;
    EXPECT(rrcache_write_line(&chapters, PLACE(0, 0, 0), write_text, &text) == RRCACHE_SINK);
    EXPECT(rrcache_free_chapters(&chapters) == RRCACHE_DONE
           && rrcache_free(&shelf) == RRCACHE_DONE);
}

/* ---- Sweeps and sizes. */

/* What is renewed often is removed by its last time, whether that is the latest or the earliest. */
static void test_renewed(void)
{
    enum { TIMES = 200 };
    struct rrcache_shelf shelf = {0};
    EXPECT(make(&shelf) == RRCACHE_DONE);
    for (uint32_t n = 1; n <= TIMES; n++) {
        struct rrcache_set set = set_of(OF(OTHER), A, OF(ADDRESS));
        set.moment = FIRST + n;
        EXPECT(offer_address(&shelf, OF(NAME), 4, 1000 - n) == RRCACHE_KEPT);
        EXPECT(offer_set(&shelf, set) == RRCACHE_KEPT);
    }
    EXPECT(sweep(&shelf, FIRST + TIMES + 60 + MAX_STALE - 1) == 0);
    EXPECT(sweep(&shelf, FIRST + TIMES + 60 + MAX_STALE) == 1);
    EXPECT(sweep(&shelf, FIRST + 1000 - TIMES + MAX_STALE - 1) == 0);
    EXPECT(sweep(&shelf, FIRST + 1000 - TIMES + MAX_STALE) == 1 && keys(&shelf) == 0);
    EXPECT(rrcache_free(&shelf) == RRCACHE_DONE);
}

/* As many names that failed as a shelf may hold, which is more than it marks before it marks them
   anew: each of them is found. */
static void test_failed_names(void)
{
    struct rrcache_shelf shelf = {0};
    uint8_t name[] = "\2aa\7example";
    EXPECT(rrcache_make(&shelf, RULES(64, 4, 0)) == RRCACHE_DONE);
    for (int n = 0; n < 64; n++) {
        name[1] = (uint8_t)('a' + n / 8);
        name[2] = (uint8_t)('a' + n % 8);
        EXPECT(offer_failure(&shelf, failure_of(OF(name), A)) == RRCACHE_KEPT);
    }
    for (int n = 0; n < 64; n++) {
        name[1] = (uint8_t)('a' + n / 8);
        name[2] = (uint8_t)('a' + n % 8);
        EXPECT(kind_at(&shelf, OF(name), A, FIRST) == RRCACHE_FAILED);
    }
    EXPECT(kind_at(&shelf, OF(NAME), A, FIRST) == RRCACHE_MISS);
    EXPECT(rrcache_free(&shelf) == RRCACHE_DONE);
}

/* How many keys a shelf holds is told through all that changes it. */
static void test_keys(void)
{
    struct rrcache_shelf shelf = {0};
    struct rrcache_counts counts;
    uint64_t number = 9;
    EXPECT(make_by(&shelf, 3, 4, 0) == RRCACHE_DONE && keys(&shelf) == 0);
    EXPECT(asked(&shelf, OF(NAME), question(A, FIRST)).told.kind == RRCACHE_MISS
           && keys(&shelf) == 0);
    EXPECT(offer_answer(&shelf, FIRST, &counts) == RRCACHE_DONE && keys(&shelf) == 1);
    EXPECT(offer_address(&shelf, OF(UPPER), 4, 60) == RRCACHE_KEPT && keys(&shelf) == 1);
    EXPECT(offer_address(&shelf, OF(NAME), 1, 60) == RRCACHE_OUTRANKED && keys(&shelf) == 1);
    EXPECT(offer_address(&shelf, OF(OTHER), 4, 60) == RRCACHE_KEPT && keys(&shelf) == 2);
    EXPECT(offer_negative(&shelf, negative_of(OF(NAME), TXT, RRCACHE_NODATA)) == RRCACHE_KEPT
           && keys(&shelf) == 3);
    EXPECT(asked(&shelf, OF(NAME), question(A, FIRST)).told.kind == RRCACHE_FRESH
           && keys(&shelf) == 3);

    /* There is room for three: the key touched least recently goes, which is that of OTHER. */
    EXPECT(offer_failure(&shelf, failure_of(OF(NAME), SOA)) == RRCACHE_KEPT && keys(&shelf) == 3);
    EXPECT(peeked(&shelf, OF(OTHER), question_by(A, FIRST, RRCACHE_ANYTHING, RRCACHE_NO_STALE))
               .told.kind
           == RRCACHE_MISS);
    EXPECT(rrcache_drop_chapters(&shelf, &number) == RRCACHE_DONE && number == 1
           && keys(&shelf) == 3);

    /* A ttl of 0 clears the key; what is fully expired is counted until it is swept. */
    EXPECT(offer_address(&shelf, OF(THIRD), 4, 0) == RRCACHE_CLEARED && keys(&shelf) == 3);
    EXPECT(offer_address(&shelf, OF(NAME), 4, 0) == RRCACHE_CLEARED && keys(&shelf) == 2);
    EXPECT(sweep(&shelf, FIRST + 29) == 0 && keys(&shelf) == 2);
    EXPECT(kind_at(&shelf, OF(NAME), TXT, FIRST + 60) == RRCACHE_MISS && keys(&shelf) == 2);
    EXPECT(sweep(&shelf, FIRST + 30) == 1 && keys(&shelf) == 1);
    EXPECT(sweep(&shelf, FIRST + 60) == 1 && keys(&shelf) == 0);
    EXPECT(rrcache_free(&shelf) == RRCACHE_DONE);
}

/* What keys take by hand. All that they hold is short: www.example has 13 octets, other.example and
   third.example 15, example 9, an address 4 and the SOA record's data 22. */
enum {
    OF_DATUM = RRCACHE_VALUE_OCTETS,
    OF_NAME = RRCACHE_SHARED_OCTETS + RRCACHE_VALUE_OCTETS,
    OF_DATA = RRCACHE_SHARED_OCTETS,
    OF_KEY = RRCACHE_ENTRY_OCTETS + OF_NAME,
    OF_ADDRESS = OF_KEY + OF_DATA + OF_DATUM,
    OF_TWO = OF_KEY + OF_DATA + RRCACHE_VALUE_OCTETS + RRCACHE_BLOCK_OCTETS + 2 * OF_DATUM,
    OF_DENIAL = OF_KEY + OF_NAME + OF_DATA + OF_DATUM
};

/* From when on a shelf counts octets: its first trim makes it. */
enum counting { NEVER, FROM_THE_FIRST, FROM_THE_MIDDLE };

static void count_octets(struct rrcache_shelf *shelf)
{
    struct rrcache_trimmed trimmed;
    uint64_t octets = octets_of_keys(shelf), before = events(shelf);
    EXPECT(rrcache_trim(shelf, TRIM(FIRST, UINT64_MAX, 1), &trimmed) == RRCACHE_DONE
           && trimmed.removed == 0 && trimmed.octets == octets && events(shelf) == before);
}

/* How many octets the keys take is told through all that changes them. */
static void check_octets_of_keys(enum counting counting)
{
    struct rrcache_shelf shelf = {0};
    struct rrcache_counts counts;
    uint64_t number = 9;
    EXPECT(make_by(&shelf, 2, 3, 0) == RRCACHE_DONE && octets_of_keys(&shelf) == 0);
    if (counting == FROM_THE_FIRST)
        count_octets(&shelf);

    EXPECT(offer_address(&shelf, OF(NAME), 3, 60) == RRCACHE_KEPT
           && octets_of_keys(&shelf) == OF_ADDRESS);
    /* A set of two addresses takes its place. What is outranked, and what is asked for, changes
       nothing. */
    EXPECT(offer_answer(&shelf, FIRST, &counts) == RRCACHE_DONE
           && octets_of_keys(&shelf) == OF_TWO);
    EXPECT(offer_address(&shelf, OF(NAME), 1, 60) == RRCACHE_OUTRANKED
           && octets_of_keys(&shelf) == OF_TWO);
    /* That other.example has no address. */
    EXPECT(offer_denial(&shelf, OF(OTHER), RRCACHE_NODATA, 3, 60) == RRCACHE_KEPT
           && octets_of_keys(&shelf) == OF_TWO + OF_DENIAL);
    if (counting == FROM_THE_MIDDLE)
        count_octets(&shelf);
    EXPECT(asked(&shelf, OF(NAME), question(A, FIRST)).told.kind == RRCACHE_FRESH
           && octets_of_keys(&shelf) == OF_TWO + OF_DENIAL);
    EXPECT(rrcache_drop_chapters(&shelf, &number) == RRCACHE_DONE && number == 1
           && octets_of_keys(&shelf) == OF_TWO + OF_DENIAL);
    /* There is room for two: that asking for third.example failed evicts other.example. */
    EXPECT(offer_failure(&shelf, failure_of(OF(THIRD), A)) == RRCACHE_KEPT && keys(&shelf) == 2
           && octets_of_keys(&shelf) == OF_TWO + OF_KEY);
    /* In the place of the two addresses: that there is none, then one again, whose owner is spelled
       in capitals and so counts beside the key's name, and none by a ttl of 0. */
    EXPECT(offer_denial(&shelf, OF(NAME), RRCACHE_NODATA, 4, 60) == RRCACHE_KEPT
           && octets_of_keys(&shelf) == OF_DENIAL + OF_KEY);
    EXPECT(offer_address(&shelf, OF(UPPER), 4, 60) == RRCACHE_KEPT
           && octets_of_keys(&shelf) == OF_ADDRESS + OF_NAME + OF_KEY);
    EXPECT(offer_address(&shelf, OF(NAME), 4, 0) == RRCACHE_CLEARED
           && octets_of_keys(&shelf) == OF_KEY);
    EXPECT(offer_address(&shelf, OF(NAME), 4, 60) == RRCACHE_KEPT
           && octets_of_keys(&shelf) == OF_ADDRESS + OF_KEY);

    /* What is fully expired is counted until it is swept. */
    EXPECT(sweep(&shelf, FIRST + 30) == 1 && octets_of_keys(&shelf) == OF_ADDRESS);
    EXPECT(sweep(&shelf, FIRST + 60) == 1 && keys(&shelf) == 0 && octets_of_keys(&shelf) == 0);
    EXPECT(rrcache_free(&shelf) == RRCACHE_DONE);
}

static void test_octets_of_keys(void)
{
    check_octets_of_keys(NEVER);
    check_octets_of_keys(FROM_THE_FIRST);
    check_octets_of_keys(FROM_THE_MIDDLE);
}

static uint64_t next_expiry(struct rrcache_shelf *shelf)
{
    uint64_t next = 7;
    EXPECT(rrcache_next_expiry(shelf, &next) == RRCACHE_DONE);
    return next;
}

/* Whether a sweep in steps returns and tells this, with so many events. */
static bool sweeps_some(struct rrcache_shelf *shelf, uint64_t moment, uint64_t most,
                        uint32_t status, uint64_t removed, uint32_t is_done, uint64_t steps)
{
    struct rrcache_swept swept = {7, 7};
    uint64_t before = events(shelf);
    return rrcache_sweep_some(shelf, SWEEP(moment, most), &swept) == status
           && swept.removed == removed && swept.is_done == is_done
           && events(shelf) == before + steps;
}

/* Sweeps in steps: what dies in one second goes in one. */
static void test_sweep_some(void)
{
    struct rrcache_shelf shelf = {0};
    struct rrcache_swept swept = {7, 7};
    uint64_t next = 7;
    EXPECT(make_by(&shelf, 100, 100, MAX_STALE) == RRCACHE_DONE
           && next_expiry(&shelf) == UINT64_MAX);
    EXPECT(sweeps_some(&shelf, FIRST, 10, RRCACHE_DONE, 0, 1, 0));
    EXPECT(offer_address(&shelf, OF(NAME), 4, 60) == RRCACHE_KEPT
           && offer_address(&shelf, OF(OTHER), 4, 60) == RRCACHE_KEPT
           && offer_address(&shelf, OF(THIRD), 4, 90) == RRCACHE_KEPT);

    /* A set may be stale for 3,600 seconds. */
    EXPECT(next_expiry(&shelf) == FIRST + 3660 && events(&shelf) == 3);
    EXPECT(sweeps_some(&shelf, FIRST + 3659, 10, RRCACHE_DONE, 0, 1, 0));
    EXPECT(sweeps_some(&shelf, LATE, 10, RRCACHE_MOMENT_TOO_LARGE, 0, 0, 0)
           && sweeps_some(&shelf, FIRST + 3690, 0, RRCACHE_BAD_RULES, 0, 0, 0)
           && sweeps_some(&shelf, LATE, 0, RRCACHE_BAD_RULES, 0, 0, 0));
    /* As many keys as were to be, or more: two go in one second. */
    EXPECT(sweeps_some(&shelf, FIRST + 3690, 1, RRCACHE_DONE, 2, 0, 1) && keys(&shelf) == 1);
    EXPECT(next_expiry(&shelf) == FIRST + 3690);
    EXPECT(sweeps_some(&shelf, FIRST + 3690, 2, RRCACHE_DONE, 1, 1, 1) && keys(&shelf) == 0);
    EXPECT(sweeps_some(&shelf, LAST, 1, RRCACHE_DONE, 0, 1, 0));
    EXPECT(rrcache_free(&shelf) == RRCACHE_DONE);
    EXPECT(rrcache_next_expiry(&shelf, &next) == RRCACHE_NO_SHELF && next == 7);
    EXPECT(rrcache_sweep_some(&shelf, SWEEP(FIRST, 0), &swept) == RRCACHE_NO_SHELF
           && swept.removed == 7 && swept.is_done == 7);
}

/* As many sweeps as were to be: before the first one a key is still due at the time that it had
   before it was renewed, and that step removes nothing. */
static void test_sweep_some_by_steps(void)
{
    struct rrcache_shelf shelf = {0};
    struct rrcache_swept swept = {7, 7};
    uint64_t next;
    EXPECT(make_by(&shelf, 100, 100, MAX_STALE) == RRCACHE_DONE);
    EXPECT(offer_address(&shelf, OF(NAME), 4, 60) == RRCACHE_KEPT
           && offer_address(&shelf, OF(NAME), 4, 90) == RRCACHE_KEPT);
    EXPECT(next_expiry(&shelf) == FIRST + 3660);
    EXPECT(sweeps_some(&shelf, FIRST + 3700, 1, RRCACHE_DONE, 0, 0, 1) && keys(&shelf) == 1);
    next = next_expiry(&shelf);
    EXPECT(next > FIRST + 3660 && next <= FIRST + 3690);
    EXPECT(rrcache_sweep_some(&shelf, SWEEP(FIRST + 3690, 100), &swept) == RRCACHE_DONE
           && swept.removed == 1 && swept.is_done == 1 && keys(&shelf) == 0);
    EXPECT(rrcache_free(&shelf) == RRCACHE_DONE);
}

/* A sweep in steps is gone on with until it is done, by whatever steps. */
static void test_sweep_some_to_the_end(void)
{
    enum { KEYS = 50 };
    uint8_t name[] = "\2aa\7example";
    for (uint64_t most = 1; most <= 3; most++) {
        struct rrcache_shelf shelf = {0};
        struct rrcache_swept swept = {0, 0};
        uint64_t removed = 0, calls = 0;
        EXPECT(rrcache_make(&shelf, RULES(100, 4, 0)) == RRCACHE_DONE);
        for (uint32_t n = 0; n < KEYS; n++) {
            name[1] = (uint8_t)('a' + n / 10);
            name[2] = (uint8_t)('a' + n % 10);
            EXPECT(offer_address(&shelf, OF(name), 4, 10 + n / 2) == RRCACHE_KEPT);
        }
        for (; !swept.is_done && calls < 10 * KEYS; calls++) {
            EXPECT(rrcache_sweep_some(&shelf, SWEEP(FIRST + 20, most), &swept) == RRCACHE_DONE);
            EXPECT(swept.removed <= most + 1);
            removed += swept.removed;
        }
        /* Those of 10 to 20 seconds, two of each. */
        EXPECT(swept.is_done == 1 && removed == 22 && keys(&shelf) == KEYS - 22
               && calls >= 22 / (most + 1));
        EXPECT(rrcache_free(&shelf) == RRCACHE_DONE);
    }
}

/* ---- Trims. */

/* How many octets keys take whose names have up to 32, by hand: a name takes 32 + 48, and a key 160
   beside it. A set of one record of up to 32 octets takes 32 + 48 more where its owner is spelled
   as the key's name is, and so does the data of a denial, whose SOA record's owner takes a name's
   room more. A failure takes no more than its key. */
enum { A_FAILURE = 160 + 80, A_SET = A_FAILURE + 80, A_DENIAL = A_FAILURE + 80 + 80 };

/* Whether a trim is done and tells this, with so many events. */
static bool trims(struct rrcache_shelf *shelf, uint64_t limit, uint64_t most, uint64_t removed,
                  uint64_t octets, uint64_t steps)
{
    struct rrcache_trimmed trimmed = {7, 7};
    uint64_t before = events(shelf);
    return rrcache_trim(shelf, TRIM(FIRST, limit, most), &trimmed) == RRCACHE_DONE
           && trimmed.removed == removed && trimmed.octets == octets
           && octets_of_keys(shelf) == octets && events(shelf) == before + steps;
}

/* Keys go by when they were touched last, and none while the octets are no more than the limit. A
   key that stays holds what it held. */
static void test_trim(void)
{
    struct rrcache_shelf shelf = {0};
    struct rrcache_stored stored;
    EXPECT(make_by(&shelf, 100, 100, MAX_STALE) == RRCACHE_DONE);
    EXPECT(trims(&shelf, 1, 1, 0, 0, 0));
    EXPECT(offer_address(&shelf, OF(NAME), RRCACHE_AUTHORITY, 60) == RRCACHE_KEPT
           && offer_address(&shelf, OF(OTHER), 4, 60) == RRCACHE_KEPT
           && offer_address(&shelf, OF(THIRD), 4, 60) == RRCACHE_KEPT);
    EXPECT(asked(&shelf, OF(NAME), question(A, FIRST)).told.kind == RRCACHE_FRESH);
    EXPECT(trims(&shelf, 3 * A_SET, 9, 0, 3 * A_SET, 0)
           && trims(&shelf, UINT64_MAX, UINT64_MAX, 0, 3 * A_SET, 0) && have_ages(&shelf, 0, 2, 1));

    /* The ask moved www.example to the front, so other.example goes, and then third.example. A peek
       moves nothing. */
    EXPECT(trims(&shelf, 3 * A_SET - 1, 9, 1, 2 * A_SET, 1));
    EXPECT(kind_at(&shelf, OF(OTHER), A, FIRST) == RRCACHE_MISS
           && kind_at(&shelf, OF(NAME), A, FIRST) == RRCACHE_FRESH
           && kind_at(&shelf, OF(THIRD), A, FIRST) == RRCACHE_FRESH && keys(&shelf) == 2);
    EXPECT(trims(&shelf, 2 * A_SET - 1, UINT64_MAX, 1, A_SET, 1) && keys(&shelf) == 1);
    stored = stored_of(&shelf, OF(NAME), A);
    EXPECT(is_entry(&stored.set, RRCACHE_FRESH, RRCACHE_AUTHORITY, 60, FIRST, 0, 0));
    EXPECT(trims(&shelf, A_SET - 1, 9, 1, 0, 1) && keys(&shelf) == 0
           && kind_at(&shelf, OF(NAME), A, FIRST) == RRCACHE_MISS);
    EXPECT(trims(&shelf, 1, UINT64_MAX, 0, 0, 0) && trims(&shelf, UINT64_MAX, 1, 0, 0, 0));
    EXPECT(rrcache_free(&shelf) == RRCACHE_DONE);
}

/* It ends at as many keys as are to go, and is gone on with. What goes is held no more in a shelf
   that records nothing either. */
static void test_trim_by_steps(void)
{
    enum { KEYS = 10 };
    struct rrcache_shelf shelf = {0};
    uint8_t name[] = "\1a\7example";
    EXPECT(rrcache_make(&shelf, RULES(100, 4, 0)) == RRCACHE_DONE);
    for (int n = 0; n < KEYS; n++) {
        name[1] = (uint8_t)('a' + n);
        EXPECT(offer_address(&shelf, OF(name), 4, 60) == RRCACHE_KEPT);
    }
    EXPECT(trims(&shelf, 1, 3, 3, 7 * A_SET, 0) && trims(&shelf, 1, 1, 1, 6 * A_SET, 0));
    EXPECT(trims(&shelf, 4 * A_SET, 2, 2, 4 * A_SET, 0)
           && trims(&shelf, 4 * A_SET - 1, 2, 1, 3 * A_SET, 0));
    for (int n = 0; n < KEYS; n++) {
        name[1] = (uint8_t)('a' + n);
        EXPECT(kind_at(&shelf, OF(name), A, FIRST) == (n < 7 ? RRCACHE_MISS : RRCACHE_FRESH));
    }
    EXPECT(trims(&shelf, 1, UINT64_MAX, 3, 0, 0) && keys(&shelf) == 0);
    EXPECT(rrcache_free(&shelf) == RRCACHE_DONE);
}

/* What goes may be anything that a key holds, past its time or not: a failure by two events. A set
   whose owner is spelled in another way than its key's name takes that name's room more, one of two
   records 48 + 16 for the list of them, and a datum of 33 octets 16 + 33 more than one of 32. */
static void test_trim_of_each_kind(void)
{
    static const uint8_t long_data[2 + 33] = {0, 33, 32};
    struct rrcache_shelf shelf = {0};
    struct rrcache_counts counts;
    uint64_t octets = A_FAILURE + A_DENIAL + A_SET + 48 + 48 + 16;
    EXPECT(make_by(&shelf, 100, 100, MAX_STALE) == RRCACHE_DONE);
    EXPECT(offer_failure(&shelf, failure_of(OF(THIRD), A)) == RRCACHE_KEPT
           && offer_denial(&shelf, OF(OTHER), RRCACHE_NXDOMAIN, 3, 60) == RRCACHE_KEPT);
    EXPECT(offer_answer(&shelf, FIRST, &counts) == RRCACHE_DONE && counts.kept == 1);
    EXPECT(trims(&shelf, octets, 9, 0, octets, 0));
    EXPECT(trims(&shelf, octets - 1, 9, 1, octets - A_FAILURE, 2)
           && kind_at(&shelf, OF(THIRD), A, FIRST) == RRCACHE_MISS);
    octets -= A_FAILURE;
    EXPECT(trims(&shelf, octets - 1, 9, 1, octets - A_DENIAL, 1)
           && kind_at(&shelf, OF(OTHER), A, FIRST) == RRCACHE_MISS
           && kind_at(&shelf, OF(NAME), A, FIRST) == RRCACHE_FRESH);
    octets -= A_DENIAL;

    /* Those that are past their time go no sooner: that of 30 seconds is in front. */
    EXPECT(offer_address(&shelf, OF(UPPER), 4, 60) == RRCACHE_KEPT
           && offer_set(&shelf, set_of(OF(OTHER), TXT, OF(long_data))) == RRCACHE_KEPT
           && offer_failure(&shelf, failure_of(OF(THIRD), A)) == RRCACHE_KEPT);
    octets = A_SET + 80 + A_SET + 16 + 33 + A_FAILURE;
    EXPECT(octets_of_keys(&shelf) == octets);
    EXPECT(trims(&shelf, octets - 1, 1, 1, octets - A_SET - 80, 1)
           && trims(&shelf, A_FAILURE, 9, 1, A_FAILURE, 1)
           && kind_at(&shelf, OF(THIRD), A, FIRST) == RRCACHE_FAILED);
    EXPECT(trims(&shelf, A_FAILURE - 1, 1, 1, 0, 2) && keys(&shelf) == 0);
    EXPECT(rrcache_free(&shelf) == RRCACHE_DONE);
}

/* Many failures, more of which are held at once than go in one call: two events for each. */
static void test_trim_of_failures(void)
{
    enum { KEYS = 20 };
    struct rrcache_shelf shelf = {0};
    uint8_t name[] = "\1a\7example";
    EXPECT(make_by(&shelf, 100, 1000, 0) == RRCACHE_DONE);
    for (int n = 0; n < KEYS; n++) {
        name[1] = (uint8_t)('a' + n);
        EXPECT(offer_failure(&shelf, failure_of(OF(name), A)) == RRCACHE_KEPT);
    }
    EXPECT(trims(&shelf, 17 * A_FAILURE, 9, 3, 17 * A_FAILURE, 6)
           && trims(&shelf, 1, 8, 8, 9 * A_FAILURE, 16));
    for (int n = 0; n < KEYS; n++) {
        name[1] = (uint8_t)('a' + n);
        EXPECT(kind_at(&shelf, OF(name), A, FIRST) == (n < 11 ? RRCACHE_MISS : RRCACHE_FAILED));
    }
    EXPECT(trims(&shelf, 1, KEYS, 9, 0, 18) && keys(&shelf) == 0);
    EXPECT(rrcache_free(&shelf) == RRCACHE_DONE);
}

/* What has no time goes first, by one sweep, wherever it stands, and is not counted. */
static void test_trim_of_no_time(void)
{
    struct rrcache_shelf shelf = {0};
    struct rrcache_failure none = failure_of(OF(OTHER), A), other = failure_of(OF(THIRD), A);
    none.ttl = other.ttl = 0;
    EXPECT(make_by(&shelf, 100, 100, MAX_STALE) == RRCACHE_DONE);
    EXPECT(offer_address(&shelf, OF(NAME), 4, 60) == RRCACHE_KEPT
           && offer_failure(&shelf, none) == RRCACHE_KEPT);
    EXPECT(trims(&shelf, A_SET + A_FAILURE, 1, 0, A_SET, 1) && keys(&shelf) == 1);
    EXPECT(offer_failure(&shelf, other) == RRCACHE_KEPT
           && offer_failure(&shelf, none) == RRCACHE_KEPT && keys(&shelf) == 3);
    EXPECT(trims(&shelf, A_SET, 1, 0, A_SET, 1)
           && kind_at(&shelf, OF(NAME), A, FIRST) == RRCACHE_FRESH);
    /* So it is where one was held since the last sweep, whatever is there now. */
    EXPECT(offer_failure(&shelf, none) == RRCACHE_KEPT
           && offer_failure(&shelf, failure_of(OF(OTHER), A)) == RRCACHE_KEPT);
    EXPECT(trims(&shelf, A_SET + A_FAILURE, 1, 0, A_SET + A_FAILURE, 1)
           && trims(&shelf, A_SET + A_FAILURE, 1, 0, A_SET + A_FAILURE, 0));
    /* A set is counted that goes after them. */
    EXPECT(offer_failure(&shelf, none) == RRCACHE_KEPT && trims(&shelf, 1, 1, 1, 0, 2)
           && keys(&shelf) == 0);
    EXPECT(rrcache_free(&shelf) == RRCACHE_DONE);
}

/* Whether a trim is refused with this, and nothing done or told. */
static bool refuses_trim(struct rrcache_shelf *shelf, uint64_t moment, uint64_t limit,
                         uint64_t most, uint32_t status)
{
    struct rrcache_trimmed trimmed = {7, 7};
    return rrcache_trim(shelf, TRIM(moment, limit, most), &trimmed) == status
           && trimmed.removed == 7 && trimmed.octets == 7;
}

static void test_trim_refused(void)
{
    struct rrcache_shelf shelf = {0};
    struct rrcache_failure none = failure_of(OF(OTHER), A);
    struct rrcache_trimmed trimmed;
    none.ttl = 0;
    EXPECT(refuses_trim(&shelf, FIRST, 1, 1, RRCACHE_NO_SHELF)
           && refuses_trim(&shelf, LATE, 0, 0, RRCACHE_NO_SHELF));
    EXPECT(make(&shelf) == RRCACHE_DONE && offer_address(&shelf, OF(NAME), 4, 60) == RRCACHE_KEPT
           && offer_failure(&shelf, none) == RRCACHE_KEPT);
    EXPECT(refuses_trim(&shelf, FIRST, 0, 1, RRCACHE_BAD_RULES)
           && refuses_trim(&shelf, FIRST, 1, 0, RRCACHE_BAD_RULES)
           && refuses_trim(&shelf, LATE, 0, 1, RRCACHE_BAD_RULES)
           && refuses_trim(&shelf, LATE, 1, 0, RRCACHE_BAD_RULES));
    /* Also where there is nothing to be done. */
    EXPECT(refuses_trim(&shelf, LATE, 1, 1, RRCACHE_MOMENT_TOO_LARGE)
           && refuses_trim(&shelf, LATE, UINT64_MAX, 1, RRCACHE_MOMENT_TOO_LARGE)
           && refuses_trim(&shelf, UINT64_MAX, 1, 1, RRCACHE_MOMENT_TOO_LARGE));
    EXPECT(keys(&shelf) == 2 && events(&shelf) == 2);
    EXPECT(rrcache_trim(&shelf, TRIM(LAST, 1, 1), &trimmed) == RRCACHE_DONE && trimmed.removed == 1
           && trimmed.octets == 0 && events(&shelf) == 4);
    EXPECT(rrcache_free(&shelf) == RRCACHE_DONE);
}

/* What is recorded of trims, by docs/FORMATS.md, in chapters of four events. Each event has the
   line and the moment of the trim but for a sweep, whose moment is 0; what clears a key is of the
   highest rank. The failure with a TTL of 0 is swept first. */
static const char FIRST_OF_TRIMS[] =
    "chapter 2 0 100 4 3600\n"
    "offer 1 0 1000 www.example. 1 set 3 60 WWW.Example. c0000209 kept\n"
    "offer 1 0 1000 other.example. nx negative 3 60 example. "
    "0000000000010000000200000003000000040000003c kept\n"
    "offer 1 0 1000 third.example. failed16 failure 30 kept\n"
    "offer 1 0 1000 www.example. failed16 failure 0 kept\n";
static const char SECOND_OF_TRIMS[] =
    "chapter 3 4 100 4 3600\n"
    "entry 3 1000 www.example. failed16 failure 0\n"
    "entry 2 1000 third.example. failed16 failure 30\n"
    "entry 1 1000 other.example. nx negative 3 60 example. "
    "0000000000010000000200000003000000040000003c\n"
    "entry 0 1000 www.example. 1 set 3 60 WWW.Example. c0000209\n"
    "sweep 8 0 0 www.example. failed16\n"
    "offer 8 0 2000 www.example. 1 set 4 0 WWW.Example. c0000209 cleared\n"
    "offer 8 0 2000 other.example. nx negative 4 0 example. "
    "0000000000010000000200000003000000040000003c cleared\n"
    "offer 8 0 2000 third.example. failed16 failure 0 kept\n";
static const char THIRD_OF_TRIMS[] = "chapter 4 8 100 4 3600\n"
                                     "entry 7 2000 third.example. failed16 failure 0\n"
                                     "sweep 8 0 0 third.example. failed16\n";

static void test_recorded_trims(void)
{
    struct rrcache_shelf shelf = {0};
    struct rrcache_chapters chapters = {0};
    struct rrcache_trimmed trimmed;
    struct rrcache_failure none = failure_of(OF(NAME), TXT);
    uint64_t count = 0;
    none.ttl = 0;
    EXPECT(make(&shelf) == RRCACHE_DONE);
    EXPECT(offer_address(&shelf, OF(UPPER), RRCACHE_AUTHORITY, 60) == RRCACHE_KEPT
           && offer_negative(&shelf, negative_of(OF(OTHER), A, RRCACHE_NXDOMAIN)) == RRCACHE_KEPT
           && offer_failure(&shelf, failure_of(OF(THIRD), TXT)) == RRCACHE_KEPT
           && offer_failure(&shelf, none) == RRCACHE_KEPT);
    EXPECT(rrcache_trim(&shelf, TRIM(FIRST + 1000, 1, 1), &trimmed) == RRCACHE_DONE
           && trimmed.removed == 1 && trimmed.octets == A_DENIAL + A_FAILURE
           && events(&shelf) == 1002);
    EXPECT(rrcache_trim(&shelf, TRIM(FIRST + 1000, 1, 9), &trimmed) == RRCACHE_DONE
           && trimmed.removed == 2 && trimmed.octets == 0 && events(&shelf) == 2001);
    EXPECT(rrcache_stop_recording(&shelf, &chapters, &count) == RRCACHE_DONE && count == 3);
    EXPECT(is_chapter(&chapters, 0, FIRST_OF_TRIMS) && is_chapter(&chapters, 1, SECOND_OF_TRIMS)
           && is_chapter(&chapters, 2, THIRD_OF_TRIMS));
    EXPECT(rrcache_free_chapters(&chapters) == RRCACHE_DONE
           && rrcache_free(&shelf) == RRCACHE_DONE);
}

/* In chapters of one event each event of a trim closes the one before it, and those of a failure
   stand in two. */
static void test_trims_in_small_chapters(void)
{
    struct rrcache_shelf shelf = {0};
    struct rrcache_chapters chapters = {0};
    struct rrcache_trimmed trimmed;
    uint64_t count = 0;
    EXPECT(make_by(&shelf, 100, 1, 0) == RRCACHE_DONE);
    EXPECT(offer_failure(&shelf, failure_of(OF(OTHER), A)) == RRCACHE_KEPT
           && offer_address(&shelf, OF(NAME), 4, 60) == RRCACHE_KEPT && events(&shelf) == 1001);
    EXPECT(rrcache_trim(&shelf, TRIM(FIRST, 1, 2), &trimmed) == RRCACHE_DONE && trimmed.removed == 2
           && trimmed.octets == 0 && events(&shelf) == 4001);
    EXPECT(rrcache_stop_recording(&shelf, &chapters, &count) == RRCACHE_DONE && count == 5);
    EXPECT(is_chapter(&chapters, 2,
                      "chapter 4 2 100 1 0\n"
                      "entry 1 1000 www.example. 1 set 4 60 www.example. c0000209\n"
                      "entry 0 1000 other.example. failed1 failure 30\n"
                      "offer 8 0 1000 other.example. failed1 failure 0 kept\n"));
    EXPECT(is_chapter(&chapters, 3,
                      "chapter 5 3 100 1 0\n"
                      "entry 2 1000 other.example. failed1 failure 0\n"
                      "entry 1 1000 www.example. 1 set 4 60 www.example. c0000209\n"
                      "sweep 8 0 0 other.example. failed1\n"));
    EXPECT(is_chapter(&chapters, 4,
                      "chapter 6 4 100 1 0\n"
                      "entry 1 1000 www.example. 1 set 4 60 www.example. c0000209\n"
                      "offer 8 0 1000 www.example. 1 set 4 0 www.example. c0000209 cleared\n"));
    EXPECT(rrcache_free_chapters(&chapters) == RRCACHE_DONE
           && rrcache_free(&shelf) == RRCACHE_DONE);
}

/* ---- Messages of more than one name, and what of them is relevant. */

/* A message of two names, which lie in two of sixteen shelves: each is kept where its name is asked
   for, and nowhere else. */
static void test_parts(void)
{
    struct rrcache_shelf shelves[PARTS];
    struct rrcache_counts counts;
    struct reply reply;
    uint64_t alias = part_of(OF(NAME)), target = part_of(OF(OTHER)), kept = 0;
    memset(shelves, 0, sizeof shelves);
    EXPECT(alias != target);
    for (uint64_t part = 0; part < PARTS; part++) {
        counts = (struct rrcache_counts){9, 9, 9};
        EXPECT(make(&shelves[part]) == RRCACHE_DONE
               && offer_alias(&shelves[part], PARTS, part, FIRST, &counts) == RRCACHE_DONE);
        uint64_t share = part == alias || part == target;
        EXPECT(are_counts(&counts, share, 0, 0));
        EXPECT(keys(&shelves[part]) == share && events(&shelves[part]) == share);
        kept += counts.kept;
    }
    reply = peeked(&shelves[alias], OF(NAME), question(CNAME, FIRST));
    EXPECT(kept == 2 && reply.told.kind == RRCACHE_FRESH && has_data(&reply, OF(TARGET)));
    reply = peeked(&shelves[target], OF(OTHER), question(A, FIRST));
    EXPECT(reply.told.kind == RRCACHE_FRESH && has_data(&reply, OF(ADDRESS)));
    EXPECT(kind_at(&shelves[alias], OF(OTHER), A, FIRST) == RRCACHE_MISS);

    /* What is outranked or cleared is counted in the share that it is of. */
    EXPECT(offer_address(&shelves[target], OF(OTHER), 4, 60) == RRCACHE_KEPT);
    EXPECT(offer_alias(&shelves[target], PARTS, target, FIRST, &counts) == RRCACHE_DONE);
    EXPECT(are_counts(&counts, 0, 0, 1) && keys(&shelves[target]) == 1);
    uint8_t cleared[sizeof ALIAS];
    memcpy(cleared, ALIAS, sizeof cleared);
    memset(cleared + 35, 0, 4); /* the alias's ttl */
    EXPECT(offer_part(&shelves[alias], response_of(OF(cleared)), PARTS, alias, &counts)
           == RRCACHE_DONE);
    EXPECT(are_counts(&counts, 0, 1, 0) && keys(&shelves[alias]) == 0);
    for (uint64_t part = 0; part < PARTS; part++)
        EXPECT(rrcache_free(&shelves[part]) == RRCACHE_DONE);
}

/* All parts together are offered what the whole message offers, which is also the share of one part
   alone. */
static void test_whole_message(void)
{
    struct rrcache_shelf whole = {0};
    struct rrcache_counts counts;
    EXPECT(make(&whole) == RRCACHE_DONE);
    EXPECT(offer_message(&whole, response_of(OF(ALIAS)), &counts) == RRCACHE_DONE);
    EXPECT(are_counts(&counts, 2, 0, 0) && keys(&whole) == 2 && events(&whole) == 2);
    EXPECT(offer_alias(&whole, 1, 0, FIRST, &counts) == RRCACHE_DONE && counts.kept == 2
           && keys(&whole) == 2 && events(&whole) == 4);
    EXPECT(rrcache_free(&whole) == RRCACHE_DONE);
}

/* Of a response what is relevant to its query is kept, and of another response nothing. */
static void test_relevant(void)
{
    struct rrcache_shelf shelf = {0};
    struct rrcache_offers offers = {0};
    struct rrcache_counts counts;
    struct rrcache_response poison = response_of(OF(POISON));
    uint64_t concerned = 7;
    EXPECT(make(&shelf) == RRCACHE_DONE);
    EXPECT(read_response(&offers, poison, query_of(OF(UPPER)), &concerned) == RRCACHE_DONE
           && concerned == 1);
    EXPECT(rrcache_offer_read(&shelf, &offers, SHARE(0), &counts) == RRCACHE_DONE
           && are_counts(&counts, 1, 0, 0));
    EXPECT(kind_at(&shelf, OF(NAME), A, FIRST) == RRCACHE_FRESH);
    EXPECT(peeked(&shelf, OF(THIRD), question_by(A, FIRST, RRCACHE_ANYTHING, RRCACHE_NO_STALE))
               .told.kind
           == RRCACHE_MISS);
    EXPECT(read_response(&offers, poison, query_of(OF(NAME)), &concerned) == RRCACHE_HAS_OFFERS
           && rrcache_free_offers(&offers) == RRCACHE_DONE);

    /* Without the query all of it is kept. */
    EXPECT(read_message(&offers, poison, 1, &concerned) == RRCACHE_DONE);
    EXPECT(rrcache_offer_read(&shelf, &offers, SHARE(0), &counts) == RRCACHE_DONE
           && counts.kept == 2 && rrcache_free_offers(&offers) == RRCACHE_DONE);

    /* A chain of aliases is relevant. */
    EXPECT(read_response(&offers, response_of(OF(ALIAS)), query_of(OF(NAME)), &concerned)
               == RRCACHE_DONE
           && rrcache_offer_read(&shelf, &offers, SHARE(0), &counts) == RRCACHE_DONE
           && counts.kept == 2 && rrcache_free_offers(&offers) == RRCACHE_DONE);
    EXPECT(rrcache_free(&shelf) == RRCACHE_DONE);
}

/* Whether the name and the reply that were told are of an offer at FIRST with a TTL of 300, and the
   buffer has its owner, which is the name, and its one datum. */
static bool is_told_offer(const struct rrcache_name *name, const struct rrcache_told *told,
                          const uint8_t *buffer, const uint8_t *owner, size_t owner_size,
                          uint16_t rtype, uint32_t trust, const uint8_t *datum, size_t size)
{
    struct rrcache_name made = name_of(owner, owner_size);
    return name->size == made.size && memcmp(name->octets, made.octets, made.size) == 0
           && name->hash == made.hash && name->part == made.part && told->kind == RRCACHE_FRESH
           && told->rtype == rtype && told->left == 300 && told->retry_from == 0
           && is_entry(&told->entry, RRCACHE_FRESH, trust, 300, FIRST, 0, 0)
           && told->owner_size == owner_size && told->data_size == size + 2
           && memcmp(buffer, owner, owner_size) == 0 && buffer[owner_size] == 0
           && buffer[owner_size + 1] == size && memcmp(buffer + owner_size + 2, datum, size) == 0;
}

/* Each offer that was read is told by its number. A buffer that is too small, and a number that
   there is not, leave what they may not write. */
static void test_told_offers(void)
{
    static const uint8_t ADDRESS_9[] = {192, 0, 2, 9};
    struct rrcache_offers offers = {0};
    struct rrcache_response response = response_of(OF(ALIAS));
    struct rrcache_query query = query_of(OF(UPPER));
    struct rrcache_name name = {0};
    struct rrcache_told told = {0}, as_it_was;
    uint8_t buffer[64] = {0}, zeros[64] = {0};
    uint64_t concerned;
#define TELL(index, room) rrcache_tell_offer(&offers, index, &name, &told, buffer, room)
    EXPECT(TELL(0, sizeof buffer) == RRCACHE_NO_OFFERS);
    EXPECT(rrcache_read_response(&offers, &response, &query, PARTED(PARTS), &concerned)
           == RRCACHE_DONE);
    EXPECT(TELL(2, sizeof buffer) == RRCACHE_NO_OFFERS
           && TELL(UINT64_MAX, sizeof buffer) == RRCACHE_NO_OFFERS && name.size == 0
           && told.kind == 0 && memcmp(buffer, zeros, sizeof buffer) == 0);
    EXPECT(TELL(0, sizeof NAME + sizeof OTHER + 1) == RRCACHE_SMALL && name.size == sizeof NAME
           && told.rtype == CNAME && told.owner_size == sizeof NAME
           && told.data_size == 2 + sizeof OTHER && memcmp(buffer, zeros, sizeof buffer) == 0);
    EXPECT(TELL(1, 0) == RRCACHE_SMALL && told.rtype == A);
    EXPECT(TELL(0, sizeof NAME + sizeof OTHER + 2) == RRCACHE_DONE
           && is_told_offer(&name, &told, buffer, OF(NAME), CNAME, RRCACHE_AUTHORITATIVE_ANSWER,
                            OF(OTHER)));
    EXPECT(TELL(1, sizeof buffer) == RRCACHE_DONE
           && is_told_offer(&name, &told, buffer, OF(OTHER), A, RRCACHE_NON_AUTHORITATIVE_ANSWER,
                            OF(ADDRESS_9)));
    as_it_was = told;
    EXPECT(TELL(2, sizeof buffer) == RRCACHE_NO_OFFERS
           && memcmp(&told, &as_it_was, sizeof told) == 0);
#undef TELL
    EXPECT(rrcache_tell_offer(NULL, 0, &name, &told, buffer, 1) == RRCACHE_NULL
           && rrcache_tell_offer(&offers, 0, NULL, &told, buffer, 1) == RRCACHE_NULL
           && rrcache_tell_offer(&offers, 0, &name, NULL, buffer, 1) == RRCACHE_NULL
           && rrcache_tell_offer(&offers, 0, &name, &told, NULL, 1) == RRCACHE_NULL
           && rrcache_tell_offer(&offers, 0, &name, &told, NULL, 0) == RRCACHE_SMALL);
    EXPECT(rrcache_tell_offer(&offers, 0, &name, &told, (uint8_t *)&told, 1) == RRCACHE_OVERLAP
           && rrcache_tell_offer(&offers, 0, &name, &told, (uint8_t *)&name, 1) == RRCACHE_OVERLAP
           && rrcache_tell_offer(&offers, 0, &name, &told, (uint8_t *)&offers, 1)
                  == RRCACHE_OVERLAP);
    EXPECT(rrcache_free_offers(&offers) == RRCACHE_DONE);
}

/* ---- What a response comes to. */

/* Records of www.example. in a message that begins with a question about it: addresses for 300 and
   60 seconds, an alias, its own servers, and the SOA record of example. */
/* clang-format off */
#define ADDRESS_300 0xc0, 12, 0, 1, 0, 1, 0, 0, 1, 44, 0, 4, 192, 0, 2, 1
#define ADDRESS_60 0xc0, 12, 0, 1, 0, 1, 0, 0, 0, 60, 0, 4, 192, 0, 2, 2
#define TO_OTHER 0xc0, 12, 0, 5, 0, 1, 0, 0, 1, 44, 0, 8, 5, 'o', 't', 'h', 'e', 'r', 0xc0, 16
#define SERVERS 0xc0, 12, 0, 2, 0, 1, 0, 0, 1, 44, 0, 2, 0xc0, 12
#define SOA_RECORD                                                                                 \
    0xc0, 16, 0, 6, 0, 1, 0, 0, 1, 44, 0, 22, 0, 0, 0, 0, 0, 1, 0, 0, 0, 2, 0, 0, 0, 3, 0, 0, 0, 4, \
    0, 0, 1, 44
/* clang-format on */

enum { QR_BIT = 0x80, AA_BIT = 4, TC_BIT = 2, RECORDS = 29 };

static const struct said {
    const char *what;
    uint8_t flags, rcode, answers, authorities;
    uint8_t records[48];
    size_t size;
    enum rrcache_response_kind kind;
    const uint8_t *name; /* that it leads to */
} SAID[] = {
    {"an address", AA_BIT, 0, 1, 0, {ADDRESS_300}, 16, RRCACHE_RESPONSE_ANSWER, NULL},
    {"unequal TTLs",
     0,
     0,
     2,
     0,
     {ADDRESS_300, ADDRESS_60},
     32,
     RRCACHE_RESPONSE_UNEQUAL_TTLS,
     NULL},
    {"no data", AA_BIT, 0, 0, 1, {SOA_RECORD}, 34, RRCACHE_RESPONSE_NODATA, NULL},
    {"no such name", AA_BIT, 3, 0, 1, {SOA_RECORD}, 34, RRCACHE_RESPONSE_NXDOMAIN, NULL},
    {"a referral", 0, 0, 0, 1, {SERVERS}, 14, RRCACHE_RESPONSE_REFERRAL, NAME},
    {"an alias", AA_BIT, 0, 1, 0, {TO_OTHER}, 20, RRCACHE_RESPONSE_ALIAS, OTHER},
    {"a failure", 0, 2, 0, 0, {0}, 0, RRCACHE_RESPONSE_FAILURE, NULL},
    {"truncated", AA_BIT | TC_BIT, 0, 1, 0, {ADDRESS_300}, 16, RRCACHE_RESPONSE_UNUSABLE, NULL},
    {"nothing", 0, 0, 0, 0, {0}, 0, RRCACHE_RESPONSE_UNUSABLE, NULL},
};

/* Reads such a response, by what is chosen. */
static void read_said(const struct said *said, bool lowest_ttl, bool clears_denied,
                      struct rrcache_offers *offers)
{
    uint8_t octets[RECORDS + sizeof said->records];
    struct rrcache_response response = response_of(octets, RECORDS + said->size);
    struct rrcache_query query = query_of(OF(NAME));
    uint64_t concerned;
    memcpy(octets, ANSWER, RECORDS);
    memcpy(octets + RECORDS, said->records, said->size);
    octets[2] = QR_BIT | said->flags;
    octets[3] = said->rcode;
    octets[7] = said->answers;
    octets[9] = said->authorities;
    response.lowest_ttl = lowest_ttl;
    response.clears_denied = clears_denied;
    EXPECT(rrcache_read_response(offers, &response, &query, PARTED(PARTS), &concerned)
           == RRCACHE_DONE);
}

/* The kind, RCODE, AA and TC of each are told, and the name that it leads to, which is then asked
   for: else the caller's name is as it was. */
static void test_told_responses(void)
{
    for (size_t i = 0; i < sizeof SAID / sizeof *SAID; i++) {
        const struct said *said = &SAID[i];
        struct rrcache_offers offers = {0};
        struct rrcache_summary summary = {0};
        struct rrcache_name name = {.part = 7}, made = {.part = 7};
        if (said->name != NULL)
            made = name_of(said->name, strlen((const char *)said->name) + 1);
        read_said(said, false, false, &offers);
        EXPECT(rrcache_tell_response(&offers, &name, &summary) == RRCACHE_DONE);
        EXPECT(summary.kind == (uint32_t)said->kind && summary.rcode == said->rcode
               && summary.aa == ((said->flags & AA_BIT) != 0)
               && summary.tc == ((said->flags & TC_BIT) != 0));
        EXPECT(name.size == made.size && name.hash == made.hash && name.part == made.part
               && memcmp(name.octets, made.octets, sizeof name.octets) == 0);
        EXPECT(rrcache_free_offers(&offers) == RRCACHE_DONE);
    }
}

static void test_refusals_of_told_responses(void)
{
    struct rrcache_offers offers = {0};
    struct rrcache_summary summary = {.kind = 9, .rcode = 9};
    struct rrcache_name name = {.part = 7};
    union {
        struct rrcache_name name;
        struct rrcache_summary summary;
        struct rrcache_offers offers;
    } shared = {.name = {0}};
    EXPECT(rrcache_tell_response(&offers, &name, &summary) == RRCACHE_NO_OFFERS && summary.kind == 9
           && summary.rcode == 9 && name.size == 0 && name.part == 7);
    EXPECT(rrcache_tell_response(NULL, &name, &summary) == RRCACHE_NULL
           && rrcache_tell_response(&offers, NULL, &summary) == RRCACHE_NULL
           && rrcache_tell_response(&offers, &name, NULL) == RRCACHE_NULL);
    EXPECT(rrcache_tell_response(&offers, &shared.name, &shared.summary) == RRCACHE_OVERLAP
           && rrcache_tell_response(&shared.offers, &shared.name, &summary) == RRCACHE_OVERLAP
           && rrcache_tell_response(&shared.offers, &name, &shared.summary) == RRCACHE_OVERLAP);
}

/* How many offers a handle holds, whose last one is told. */
static uint64_t count_offers(struct rrcache_offers *offers, struct rrcache_told *told)
{
    struct rrcache_name name = {0};
    uint8_t buffer[128];
    uint64_t count = 0;
    while (rrcache_tell_offer(offers, count, &name, told, buffer, sizeof buffer) == RRCACHE_DONE)
        count++;
    return count;
}

/* With `lowest_ttl` unequal TTLs are taken, and with `clears_denied` a denial comes with what it
   clears. */
static void test_choices_of_responses(void)
{
    struct rrcache_offers offers = {0};
    struct rrcache_summary summary = {0};
    struct rrcache_name name = {0};
    struct rrcache_told told = {0};
    read_said(&SAID[1], false, false, &offers);
    EXPECT(count_offers(&offers, &told) == 0 && rrcache_free_offers(&offers) == RRCACHE_DONE);
    read_said(&SAID[1], true, false, &offers);
    EXPECT(rrcache_tell_response(&offers, &name, &summary) == RRCACHE_DONE
           && summary.kind == RRCACHE_RESPONSE_ANSWER && count_offers(&offers, &told) == 1
           && told.left == 60 && rrcache_free_offers(&offers) == RRCACHE_DONE);
    read_said(&SAID[3], false, false, &offers);
    EXPECT(count_offers(&offers, &told) == 2 && told.kind == RRCACHE_NXDOMAIN
           && rrcache_free_offers(&offers) == RRCACHE_DONE);
    read_said(&SAID[3], false, true, &offers);
    EXPECT(count_offers(&offers, &told) == 5 && told.kind == RRCACHE_NODATA && told.rtype == CNAME
           && told.left == 0 && rrcache_free_offers(&offers) == RRCACHE_DONE);
}

/* One offer of those that were read is offered by its number. */
static void test_picked_offers(void)
{
    struct rrcache_shelf shelf = {0}, other = {0};
    struct rrcache_offers offers = {0};
    struct rrcache_offer_pick pick = {.index = 1, .line = 7};
    struct rrcache_response late = response_of(OF(ALIAS));
    uint64_t concerned;
    uint32_t outcome = 9;
#define PICK(shelf) rrcache_offer_one(shelf, &offers, &pick, &outcome)
    EXPECT(PICK(&shelf) == RRCACHE_NO_SHELF && make(&shelf) == RRCACHE_DONE
           && PICK(&shelf) == RRCACHE_NO_OFFERS);
    EXPECT(read_response(&offers, response_of(OF(ALIAS)), query_of(OF(NAME)), &concerned)
               == RRCACHE_DONE
           && PICK(&other) == RRCACHE_NO_SHELF);
    struct rrcache_rules rules = *RULES(100, 4, 0);
    rules.seed[0] ^= 1;
    EXPECT(rrcache_make(&other, &rules) == RRCACHE_DONE && PICK(&other) == RRCACHE_OTHER_SEED
           && keys(&other) == 0 && events(&other) == 0 && outcome == 9
           && rrcache_free(&other) == RRCACHE_DONE);
    EXPECT(PICK(&shelf) == RRCACHE_DONE && outcome == RRCACHE_KEPT && keys(&shelf) == 1
           && events(&shelf) == 1 && kind_at(&shelf, OF(OTHER), A, FIRST) == RRCACHE_FRESH
           && kind_at(&shelf, OF(NAME), CNAME, FIRST) == RRCACHE_MISS);
    pick.index = 2;
    EXPECT(PICK(&shelf) == RRCACHE_NO_OFFERS && events(&shelf) == 1);
    pick.index = 0;
    EXPECT(PICK(&shelf) == RRCACHE_DONE && outcome == RRCACHE_KEPT && keys(&shelf) == 2
           && kind_at(&shelf, OF(NAME), CNAME, FIRST) == RRCACHE_FRESH);
    EXPECT(offer_address(&shelf, OF(OTHER), RRCACHE_AUTHORITATIVE_ANSWER, 60) == RRCACHE_KEPT);
    pick.index = 1;
    EXPECT(PICK(&shelf) == RRCACHE_DONE && outcome == RRCACHE_OUTRANKED && events(&shelf) == 4);
    EXPECT(rrcache_offer_one(NULL, &offers, &pick, &outcome) == RRCACHE_NULL
           && rrcache_offer_one(&shelf, NULL, &pick, &outcome) == RRCACHE_NULL
           && rrcache_offer_one(&shelf, &offers, NULL, &outcome) == RRCACHE_NULL
           && rrcache_offer_one(&shelf, &offers, &pick, NULL) == RRCACHE_NULL
           && rrcache_offer_one(&shelf, &offers, &pick, (uint32_t *)&pick) == RRCACHE_OVERLAP
           && rrcache_offer_one(&shelf, &offers, &pick, (uint32_t *)&shelf) == RRCACHE_OVERLAP);
#undef PICK
    EXPECT(rrcache_free_offers(&offers) == RRCACHE_DONE);
    late.moment = LATE;
    EXPECT(read_response(&offers, late, query_of(OF(NAME)), &concerned) == RRCACHE_DONE
           && rrcache_offer_one(&shelf, &offers, &pick, &outcome) == RRCACHE_MOMENT_TOO_LARGE
           && events(&shelf) == 4 && rrcache_free_offers(&offers) == RRCACHE_DONE
           && rrcache_free(&shelf) == RRCACHE_DONE);
}

/* What is refused of a response, the first that is due, leaves the handle empty and nothing told.
 */
static void test_refused_responses(void)
{
    struct rrcache_offers offers = {0};
    struct rrcache_response response = response_of(POISON, 30);
    struct rrcache_query query = query_of(OF(NO_NAME));
    struct rrcache_parts parts = {0};
    uint64_t concerned = 7;
#define REFUSED(status)                                                                            \
    EXPECT(rrcache_read_response(&offers, &response, &query, &parts, &concerned) == (status)       \
           && concerned == 7 && offers.at == NULL && !offers.is_live)
    query.id = 0x1235;
    query.rtype = query.rclass = 0;
    response.zone = NO_NAME;
    response.zone_size = sizeof NO_NAME;
    response.limits.cap = 0;
    REFUSED(RRCACHE_BAD_RULES);
    parts.count = 65;
    REFUSED(RRCACHE_BAD_RULES);
    parts.count = 1;
    REFUSED(RRCACHE_BAD_SEED);
    parts = *PARTED(1);
    REFUSED(RRCACHE_BAD_LIMITS);
    response.limits = LIMITS;
    REFUSED(RRCACHE_BAD_NAME);
    response.zone = EXAMPLE;
    response.zone_size = sizeof EXAMPLE;
    REFUSED(RRCACHE_BAD_NAME);
    query.name = THIRD;
    query.name_size = sizeof THIRD;
    REFUSED(RRCACHE_OTHER_QUERY);
    query.id = 0x1234;
    REFUSED(RRCACHE_OTHER_QUERY);
    query = query_of(OF(NAME));
    REFUSED(RRCACHE_BAD_MESSAGE);
#undef REFUSED
    EXPECT(rrcache_free_offers(&offers) == RRCACHE_NO_OFFERS);
}

/* A response to another query than the one that was sent: another identifier, type, class or name,
   or one that was forgotten. */
static void test_other_queries(void)
{
    struct rrcache_offers offers = {0};
    struct rrcache_response response = response_of(OF(POISON));
    struct rrcache_query query;
    uint64_t concerned = 7;
#define OTHER_QUERY(field, value)                                                                  \
    (query = query_of(OF(NAME)), query.field = (value),                                            \
     EXPECT(read_response(&offers, response, query, &concerned) == RRCACHE_OTHER_QUERY             \
            && concerned == 7 && offers.at == NULL && !offers.is_live))
    OTHER_QUERY(id, 0x1235);
    OTHER_QUERY(id, 0);
    OTHER_QUERY(rtype, TXT);
    OTHER_QUERY(rtype, 0);
    OTHER_QUERY(rclass, RRCACHE_CH);
    OTHER_QUERY(rclass, 0);
#undef OTHER_QUERY
    EXPECT(read_response(&offers, response, query_of(OF(THIRD)), &concerned) == RRCACHE_OTHER_QUERY
           && concerned == 7 && rrcache_free_offers(&offers) == RRCACHE_NO_OFFERS);
    /* The case of letters counts where the query says so. */
    query = query_of(OF(UPPER));
    query.with_case = true;
    EXPECT(read_response(&offers, response, query, &concerned) == RRCACHE_OTHER_QUERY
           && concerned == 7);
    query = query_of(OF(NAME));
    query.with_case = true;
    EXPECT(read_response(&offers, response, query, &concerned) == RRCACHE_DONE
           && rrcache_free_offers(&offers) == RRCACHE_DONE);
    EXPECT(read_response(&offers, response, query_of(OF(NAME)), &concerned) == RRCACHE_DONE
           && rrcache_free_offers(&offers) == RRCACHE_DONE);
}

/* What is answered of octets to the query for NAME, which leave the handle empty. */
static uint32_t refused_answer(const uint8_t *octets, size_t size)
{
    struct rrcache_offers offers = {0};
    uint64_t concerned = 7;
    uint32_t status =
        read_response(&offers, response_of(octets, size), query_of(OF(NAME)), &concerned);
    EXPECT(concerned == 7 && rrcache_free_offers(&offers) == RRCACHE_NO_OFFERS);
    return status;
}

/* Octets of which the identifier, QR or the question is not that of a response to the query,
   whether they can be read or not, and those that answer it and cannot be read. */
static void test_octets_by_their_front(void)
{
    enum { QUESTION = 29 }; /* the octets of a header and the question */
    uint8_t octets[sizeof POISON];
#define ANSWERS(place, octet, wanted)                                                              \
    do {                                                                                           \
        memcpy(octets, POISON, sizeof octets);                                                     \
        memset(octets + QUESTION, 0xff, sizeof octets - QUESTION);                                 \
        octets[place] = (octet);                                                                   \
        EXPECT(refused_answer(OF(octets)) == (wanted));                                            \
    } while (0)
    ANSWERS(0, 0x12, RRCACHE_BAD_MESSAGE);
    ANSWERS(0, 0x13, RRCACHE_OTHER_QUERY);
    ANSWERS(1, 0x35, RRCACHE_OTHER_QUERY);
    ANSWERS(2, 0x04, RRCACHE_OTHER_QUERY); /* QR is clear */
    ANSWERS(5, 0, RRCACHE_OTHER_QUERY);    /* QDCOUNT */
    ANSWERS(5, 2, RRCACHE_OTHER_QUERY);
    ANSWERS(4, 1, RRCACHE_OTHER_QUERY);
    ANSWERS(12, 0xc0, RRCACHE_OTHER_QUERY); /* a pointer, and a label of another length */
    ANSWERS(12, 2, RRCACHE_OTHER_QUERY);
    ANSWERS(13, 'W', RRCACHE_BAD_MESSAGE);
    ANSWERS(13, 'x', RRCACHE_OTHER_QUERY);
    ANSWERS(24, 1, RRCACHE_OTHER_QUERY); /* the name's last octet, the type's and the class's */
    ANSWERS(26, 2, RRCACHE_OTHER_QUERY);
    ANSWERS(28, 3, RRCACHE_OTHER_QUERY);
#undef ANSWERS
    for (size_t size = 0; size < sizeof POISON; size++)
        EXPECT(refused_answer(POISON, size)
               == (size < QUESTION ? RRCACHE_OTHER_QUERY : RRCACHE_BAD_MESSAGE));
}

/* A header without a question is told as such where its RCODE is FORMERR, NOTIMP or REFUSED (RFC
   1035 section 4.1.1), whatever stands behind it. */
static void test_headers_alone(void)
{
    for (uint8_t rcode = 0; rcode < 16; rcode++) {
        uint8_t octets[] = {0x12, 0x34, 0x80, rcode, 0, 0, 0, 1, 0, 0, 0, 0, 0xff};
        bool is_told = rcode == 1 || rcode == 4 || rcode == 5;
        uint32_t status = is_told ? RRCACHE_NO_QUESTION : RRCACHE_OTHER_QUERY;
        EXPECT(refused_answer(octets, 12) == status && refused_answer(OF(octets)) == status
               && refused_answer(octets, 11) == RRCACHE_OTHER_QUERY);
        octets[2] = 0;
        EXPECT(refused_answer(octets, 12) == RRCACHE_OTHER_QUERY);
        octets[2] = 0x80, octets[1] = 0x35;
        EXPECT(refused_answer(octets, 12) == RRCACHE_OTHER_QUERY);
    }
}

/* A response of which all was forgotten, then one with limits alone, then one with no octets; and a
   query of which all was. */
static void test_forgotten_responses(void)
{
    static const uint32_t statuses[] = {RRCACHE_BAD_LIMITS, RRCACHE_BAD_NAME, RRCACHE_BAD_MESSAGE};
    static const struct rrcache_query no_query = {0};
    struct rrcache_shelf shelf = {0};
    struct rrcache_offers offers = {0};
    struct rrcache_response responses[3] = {{0}, {0}, response_of(NULL, 0)};
    struct rrcache_counts counts;
    uint64_t concerned;
    responses[1].limits = LIMITS;
    EXPECT(make(&shelf) == RRCACHE_DONE);
    for (int n = 0; n < 3; n++)
        EXPECT(offer_message(&shelf, responses[n], &counts) == statuses[n]
               && offer_part(&shelf, responses[n], 1, 0, &counts) == statuses[n]
               && read_message(&offers, responses[n], 1, &concerned) == statuses[n]
               && read_response(&offers, responses[n], query_of(OF(NAME)), &concerned)
                      == (n == 2 ? RRCACHE_OTHER_QUERY : statuses[n]));
    EXPECT(read_response(&offers, response_of(OF(ANSWER)), no_query, &concerned)
           == RRCACHE_BAD_NAME);
    EXPECT(!offers.is_live && events(&shelf) == 0 && rrcache_free(&shelf) == RRCACHE_DONE);
}

/* ---- A response that the caller parsed itself. */

/* clang-format off */
/* What a response to www.example A is written as: that name is an alias of other.example, which has
   two addresses; the servers of the zone; the address of one of them. AA and RA are set. */
static const uint8_t COMPOSED[] = {
    0x12, 0x34, 0x84, 0x80, 0, 1, 0, 3, 0, 1, 0, 1,
    3, 'w', 'w', 'w', 7, 'e', 'x', 'a', 'm', 'p', 'l', 'e', 0, 0, 1, 0, 1,
    0xc0, 12, 0, 5, 0, 1, 0, 0, 1, 44,
    0, 15, 5, 'o', 't', 'h', 'e', 'r', 7, 'e', 'x', 'a', 'm', 'p', 'l', 'e', 0,
    5, 'o', 't', 'h', 'e', 'r', 7, 'e', 'x', 'a', 'm', 'p', 'l', 'e', 0, 0, 1, 0, 1, 0, 0, 1, 44,
    0, 4, 192, 0, 2, 1,
    0xc0, 56, 0, 1, 0, 1, 0, 0, 1, 44, 0, 4, 192, 0, 2, 2,
    7, 'e', 'x', 'a', 'm', 'p', 'l', 'e', 0, 0, 2, 0, 1, 0, 0, 1, 44,
    0, 15, 5, 't', 'h', 'i', 'r', 'd', 7, 'e', 'x', 'a', 'm', 'p', 'l', 'e', 0,
    5, 't', 'h', 'i', 'r', 'd', 7, 'e', 'x', 'a', 'm', 'p', 'l', 'e', 0, 0, 1, 0, 1, 0, 0, 1, 44,
    0, 4, 192, 0, 2, 9,
};
/* clang-format on */
static const uint8_t TWO_ADDRESSES[] = {0, 4, 192, 0, 2, 1, 0, 4, 192, 0, 2, 2};
static const uint8_t SERVER[] = {0,   15,  5,   't', 'h', 'i', 'r', 'd', 7,
                                 'e', 'x', 'a', 'm', 'p', 'l', 'e', 0};
/* The data of a SOA record behind their length. */
static const uint8_t SOA_ITEM[] = {0, 22, 0, 0, 0, 0, 0, 1, 0, 0, 0, 2,
                                   0, 0,  0, 3, 0, 0, 0, 4, 0, 0, 0, 60};

static struct rrcache_parsed_set parsed_set(enum rrcache_section section, const uint8_t *owner,
                                            size_t owner_size, uint16_t rtype, const uint8_t *data,
                                            size_t data_size)
{
    struct rrcache_parsed_set set = {.owner = owner,
                                     .owner_size = owner_size,
                                     .rtype = rtype,
                                     .rclass = RRCACHE_IN,
                                     .ttl = 300,
                                     .section = section,
                                     .data = data,
                                     .data_size = data_size};
    return set;
}

/* An authoritative response without an error. */
static struct rrcache_parsed_response parsed_of(const struct rrcache_parsed_set *sets, size_t count)
{
    struct rrcache_parsed_response parsed = {.aa = true, .sets = sets, .count = count};
    return parsed;
}

/* What is written of a response to the query for NAME, into a buffer of just this room, which a
   refusal leaves as it was. The caller frees it. */
static uint8_t *composed(struct rrcache_parsed_response parsed, size_t room, uint32_t status,
                         size_t *size)
{
    struct rrcache_query query = query_of(OF(NAME));
    uint8_t *buffer = malloc(room + (room == 0));
    bool is_left = true;
    if (buffer == NULL)
        exit(2);
    memset(buffer, 7, room);
    *size = 77777;
    EXPECT(rrcache_compose_response(&query, &parsed, buffer, room, size) == status);
    for (size_t at = 0; at < room; at++)
        is_left = is_left && buffer[at] == 7;
    EXPECT((status == RRCACHE_DONE || is_left)
           && (*size == 77777) == (status != RRCACHE_DONE && status != RRCACHE_SMALL));
    return buffer;
}

static bool is_composed(struct rrcache_parsed_response parsed, const uint8_t *wanted, size_t size)
{
    size_t told;
    uint8_t *octets = composed(parsed, size, RRCACHE_DONE, &told);
    bool right = told == size && memcmp(octets, wanted, size) == 0;
    free(octets);
    return right;
}

/* The records of each section stand in the order of the array, whatever sections stand between. */
static void test_composed(void)
{
    struct rrcache_parsed_set sets[] = {
        parsed_set(RRCACHE_ADDITIONAL_SECTION, OF(THIRD), A, OF(ADDRESS)),
        parsed_set(RRCACHE_AUTHORITY_SECTION, OF(EXAMPLE), NS, OF(SERVER)),
        parsed_set(RRCACHE_ANSWER_SECTION, OF(NAME), CNAME, OF(TARGET)),
        parsed_set(RRCACHE_ANSWER_SECTION, OF(OTHER), A, OF(TWO_ADDRESSES)),
    };
    struct rrcache_parsed_set set =
        parsed_set(RRCACHE_ANSWER_SECTION, OF(NAME), A, OF(TWO_ADDRESSES));
    struct rrcache_parsed_response parsed = parsed_of(sets, 4);
    uint8_t wanted[29];
    parsed.ra = true;
    EXPECT(is_composed(parsed, OF(COMPOSED)));
    EXPECT(is_composed(parsed_of(&set, 1), OF(ANSWER)));
    /* The owner in other letters than the question's is written as it is. */
    set.owner = UPPER;
    size_t size;
    uint8_t *octets = composed(parsed_of(&set, 1), 512, RRCACHE_DONE, &size);
    EXPECT(size == sizeof ANSWER + sizeof UPPER - 2 && memcmp(octets + 29, OF(UPPER)) == 0
           && octets[29 + size - sizeof ANSWER + 2 + 14] == 0xc0
           && octets[29 + size - sizeof ANSWER + 2 + 15] == 29);
    free(octets);
    /* A header and the question alone, with each flag and RCODE. */
    for (uint8_t bits = 0; bits < 128; bits++) {
        struct rrcache_parsed_response empty = {.rcode = bits & 15,
                                                .aa = (bits & 16) != 0,
                                                .tc = (bits & 32) != 0,
                                                .ra = (bits & 64) != 0};
        memcpy(wanted, ANSWER, sizeof wanted);
        wanted[2] = (uint8_t)(0x80 | (empty.aa ? 4 : 0) | (empty.tc ? 2 : 0));
        wanted[3] = (uint8_t)((empty.ra ? 0x80 : 0) | empty.rcode);
        wanted[7] = 0;
        EXPECT(is_composed(empty, OF(wanted)));
    }
}

/* Numbers whose octets differ, and as many records. */
static void test_composed_numbers(void)
{
    enum { RECORDS = 300 };
    static const uint8_t empty_data[2 * RECORDS];
    static const uint8_t record[] = {0xc0, 12, 3, 4, 5, 6, 0x12, 0x34, 0x56, 0x78, 0, 0};
    struct rrcache_parsed_set set =
        parsed_set(RRCACHE_ADDITIONAL_SECTION, OF(NAME), 0x0304, OF(empty_data));
    size_t size;
    set.rclass = 0x0506;
    set.ttl = 0x12345678;
    uint8_t *octets = composed(parsed_of(&set, 1), 4096, RRCACHE_DONE, &size);
    EXPECT(size == 29 + RECORDS * sizeof record && octets[10] == RECORDS >> 8
           && octets[11] == (RECORDS & 255)
           && memcmp(octets + size - sizeof record, OF(record)) == 0);
    free(octets);
}

/* What is told of an offer, with its name. */
struct told_offer {
    struct rrcache_name name;
    struct rrcache_told told;
    uint8_t octets[64];
};

/* What is read of a response once it is written: how many offers, which are told. */
static unsigned offers_of(struct rrcache_parsed_response parsed, struct told_offer *told,
                          unsigned most)
{
    struct rrcache_offers offers = {0};
    uint64_t concerned;
    unsigned count = 0;
    size_t size;
    uint8_t *octets = composed(parsed, 512, RRCACHE_DONE, &size);
    EXPECT(read_response(&offers, response_of(octets, size), query_of(OF(NAME)), &concerned)
           == RRCACHE_DONE);
    free(octets);
    while (count < most
           && rrcache_tell_offer(&offers, count, &told[count].name, &told[count].told,
                                 OF(told[count].octets))
                  == RRCACHE_DONE)
        count++;
    EXPECT(rrcache_free_offers(&offers) == RRCACHE_DONE);
    return count;
}

static bool is_offer(const struct told_offer *offer, const uint8_t *name, size_t size,
                     uint32_t rtype, uint32_t kind, uint32_t trust)
{
    return offer->name.size == size && memcmp(offer->name.octets, name, size) == 0
           && offer->told.rtype == rtype && offer->told.kind == kind
           && offer->told.entry.trust == trust;
}

/* The octets that an offer takes once it is kept, as it was told and as a shelf counts them: of an
   alias, of an address under an owner in capitals, and of a denial. */
static void test_octets_of_told_offers(void)
{
    struct rrcache_parsed_set alias[] = {
        parsed_set(RRCACHE_ANSWER_SECTION, OF(NAME), CNAME, OF(TARGET)),
        parsed_set(RRCACHE_ANSWER_SECTION, OF(OTHER), A, OF(TWO_ADDRESSES)),
    };
    struct rrcache_parsed_set shouted =
        parsed_set(RRCACHE_ANSWER_SECTION, OF(UPPER), A, OF(ADDRESS));
    struct told_offer told[2];
    uint64_t octets = 7;
#define OCTETS(of) rrcache_tell_octets(&told[of].name, &told[of].told, OF(told[of].octets), &octets)
    /* 160 for the key, 80 for each name of up to 32 octets, 80 for one datum of as few, and for two
       data 32, 64 and 48 each. */
    EXPECT(offers_of(parsed_of(alias, 2), told, 2) == 2);
    EXPECT(OCTETS(0) == RRCACHE_DONE && octets == 160 + 80 + 80);
    EXPECT(OCTETS(1) == RRCACHE_DONE && octets == 160 + 80 + 32 + 64 + 48 + 48);
    EXPECT(offers_of(parsed_of(&shouted, 1), told, 1) == 1);
    EXPECT(OCTETS(0) == RRCACHE_DONE && octets == 160 + 80 + 80 + 80);
    /* A failure has a name alone, and more than 32 octets have a block of their own. */
    told[0].told.kind = RRCACHE_FAILED;
    told[0].told.owner_size = told[0].told.data_size = 0;
    EXPECT(OCTETS(0) == RRCACHE_DONE && octets == 160 + 80);
    told[0].name.size = 40;
    EXPECT(OCTETS(0) == RRCACHE_DONE && octets == 160 + 80 + 16 + 40);
    octets = 7;
    told[0].told.data_size = sizeof told[0].octets + 1;
    EXPECT(OCTETS(0) == RRCACHE_SMALL && octets == 7);
    told[0].told.owner_size = UINT64_MAX;
    EXPECT(OCTETS(0) == RRCACHE_SMALL && octets == 7);
    EXPECT(rrcache_tell_octets(NULL, &told[0].told, NULL, 0, &octets) == RRCACHE_NULL
           && rrcache_tell_octets(&told[0].name, NULL, NULL, 0, &octets) == RRCACHE_NULL
           && rrcache_tell_octets(&told[0].name, &told[0].told, NULL, 0, NULL) == RRCACHE_NULL
           && rrcache_tell_octets(&told[0].name, &told[0].told, NULL, 1, &octets) == RRCACHE_NULL);
#undef OCTETS
}

/* What is told of each offer of a response is what an empty shelf counts that keeps it. */
static void test_octets_of_kept_offers(void)
{
    for (size_t at = 0; at < sizeof SAID / sizeof SAID[0]; at++) {
        struct rrcache_offers offers = {0};
        struct rrcache_name name = {0};
        struct rrcache_told told = {0};
        struct rrcache_offer_pick pick = {.index = 0, .line = 1};
        uint8_t buffer[512];
        uint64_t octets;
        uint32_t outcome;
        read_said(&SAID[at], true, false, &offers);
        while (rrcache_tell_offer(&offers, pick.index, &name, &told, OF(buffer)) == RRCACHE_DONE) {
            struct rrcache_shelf shelf = {0};
            EXPECT(make(&shelf) == RRCACHE_DONE
                   && rrcache_offer_one(&shelf, &offers, &pick, &outcome) == RRCACHE_DONE);
            EXPECT(rrcache_tell_octets(&name, &told, OF(buffer), &octets) == RRCACHE_DONE
                   && octets_of_keys(&shelf) == (outcome == RRCACHE_KEPT ? octets : 0));
            EXPECT(rrcache_free(&shelf) == RRCACHE_DONE);
            pick.index++;
        }
        EXPECT(rrcache_free_offers(&offers) == RRCACHE_DONE);
    }
}

/* An answer, a negative answer, a referral, a failure and a truncated response, by what is read of
   them. */
static void test_composed_is_read(void)
{
    struct rrcache_parsed_set answer[] = {
        parsed_set(RRCACHE_ANSWER_SECTION, OF(NAME), CNAME, OF(TARGET)),
        parsed_set(RRCACHE_ANSWER_SECTION, OF(OTHER), A, OF(TWO_ADDRESSES)),
        parsed_set(RRCACHE_ADDITIONAL_SECTION, OF(THIRD), A, OF(ADDRESS)),
    };
    struct rrcache_parsed_set soa =
        parsed_set(RRCACHE_AUTHORITY_SECTION, OF(EXAMPLE), SOA, OF(SOA_ITEM));
    struct rrcache_parsed_set referral[] = {
        parsed_set(RRCACHE_AUTHORITY_SECTION, OF(NAME), NS, OF(SERVER)),
        parsed_set(RRCACHE_ADDITIONAL_SECTION, OF(THIRD), A, OF(ADDRESS)),
    };
    struct rrcache_parsed_response denial = parsed_of(&soa, 1), truncated = parsed_of(answer, 3),
                                   referring = parsed_of(referral, 2), failure = {.rcode = 2};
    struct told_offer told[4];
    EXPECT(offers_of(parsed_of(answer, 3), told, 4) == 2);
    EXPECT(is_offer(&told[0], OF(NAME), CNAME, RRCACHE_FRESH, RRCACHE_AUTHORITATIVE_ANSWER)
           && is_offer(&told[1], OF(OTHER), A, RRCACHE_FRESH, RRCACHE_NON_AUTHORITATIVE_ANSWER)
           && told[1].told.data_size == sizeof TWO_ADDRESSES && told[1].told.left == 300
           && memcmp(told[1].octets + sizeof OTHER, OF(TWO_ADDRESSES)) == 0);
    denial.rcode = 3;
    EXPECT(offers_of(denial, told, 4) == 2);
    EXPECT(is_offer(&told[0], OF(EXAMPLE), SOA, RRCACHE_FRESH, RRCACHE_AUTHORITY)
           && is_offer(&told[1], OF(NAME), 0, RRCACHE_NXDOMAIN, RRCACHE_AUTHORITATIVE_ANSWER)
           && told[1].told.left == 60);
    referring.aa = false;
    EXPECT(offers_of(referring, told, 4) == 2);
    EXPECT(is_offer(&told[0], OF(NAME), NS, RRCACHE_FRESH, RRCACHE_ADDITIONAL)
           && is_offer(&told[1], OF(THIRD), A, RRCACHE_FRESH, RRCACHE_ADDITIONAL));
    EXPECT(offers_of(failure, told, 4) == 1 && is_offer(&told[0], OF(NAME), A, RRCACHE_FAILED, 0));
    truncated.tc = true;
    EXPECT(offers_of(truncated, told, 4) == 0);
}

/* Each room that is too small, and each field of a set that is wrong. */
static void test_composing_refused(void)
{
    struct rrcache_parsed_set good = parsed_set(RRCACHE_ANSWER_SECTION, OF(NAME), A, OF(ADDRESS)),
                              sets[] = {good, good};
    struct rrcache_parsed_response parsed = parsed_of(sets, 2);
    size_t size;
    for (size_t room = 0; room < 61; room++) {
        free(composed(parsed, room, RRCACHE_SMALL, &size));
        EXPECT(size == 61);
    }
    free(composed(parsed, 61, RRCACHE_DONE, &size));
#define REFUSED(field, value, status)                                                              \
    (sets[1] = good, sets[1].field = (value), free(composed(parsed, 512, (status), &size)))
    REFUSED(section, (enum rrcache_section)0, RRCACHE_BAD_CHOICE);
    REFUSED(section, (enum rrcache_section)4, RRCACHE_BAD_CHOICE);
    REFUSED(rtype, 0, RRCACHE_BAD_TYPE);
    REFUSED(rclass, 0, RRCACHE_BAD_TYPE);
    REFUSED(owner_size, 0, RRCACHE_BAD_NAME);
    REFUSED(owner_size, sizeof NAME - 1, RRCACHE_BAD_NAME);
    REFUSED(data_size, 0, RRCACHE_WRONG_BODY);
    for (size_t cut = 1; cut < sizeof ADDRESS; cut++)
        REFUSED(data_size, cut, RRCACHE_BAD_DATA);
#undef REFUSED
    for (unsigned rcode = 16; rcode < 256; rcode++) {
        struct rrcache_parsed_response wrong = {.rcode = (uint8_t)rcode};
        free(composed(wrong, 512, RRCACHE_BAD_CHOICE, &size));
    }
}

/* Whether a response with one set is told to be so, of these octets as its owner and its data. */
static bool is_set(const uint8_t *owner, size_t owner_size, const uint8_t *data, size_t data_size,
                   uint32_t status)
{
    struct rrcache_parsed_set set =
        parsed_set(RRCACHE_ANSWER_SECTION, owner, owner_size, TXT, data, data_size);
    unsigned before = failed;
    size_t size;
    free(composed(parsed_of(&set, 1), 512, status, &size));
    return failed == before;
}

/* Owners that are no name, and data that are cut off. */
static void test_composed_octets(void)
{
    static const uint8_t no_names[][4] = {{3, 'w', 'w'}, {1, 'w', 1}, {1, 'w', 0, 0},
                                          {0xc0, 12},    {64},        {0, 0}};
    static const uint8_t sizes[] = {3, 3, 4, 2, 1, 2};
    static const uint8_t data[] = {0, 2, 1, 1, 0, 3, 1, 1};
    uint8_t label[66] = {64}, name[257];
    for (size_t n = 0; n < sizeof sizes; n++)
        EXPECT(is_set(no_names[n], sizes[n], OF(ADDRESS), RRCACHE_BAD_NAME));
    EXPECT(is_set(OF(label), OF(ADDRESS), RRCACHE_BAD_NAME)); /* 64 octets of a label are there */
    for (size_t cut = 1; cut <= sizeof data; cut++)
        EXPECT(is_set(OF(NAME), data, cut, cut == 4 ? RRCACHE_DONE : RRCACHE_BAD_DATA));
    /* Labels of one octet, behind one of two where the octets of the name are even. */
    for (size_t size = 254; size <= 256; size++) {
        memset(name, 1, sizeof name);
        name[0] = (uint8_t)(2 - (size & 1));
        name[size - 1] = 0;
        EXPECT(is_set(name, size, OF(ADDRESS), size < 256 ? RRCACHE_DONE : RRCACHE_BAD_NAME));
    }
}

/* Where more than one refusal is due, the first is told: what is wrong is put right one by one. The
   sets are wrong from the last to the first, so that the order of these does not matter. */
static void test_order_of_composing_refusals(void)
{
    struct rrcache_parsed_set good = parsed_set(RRCACHE_ANSWER_SECTION, OF(NAME), A, OF(ADDRESS)),
                              sets[] = {good, good, good, good};
    struct rrcache_parsed_response parsed = parsed_of(sets, 4);
    struct rrcache_query query = {.name = NO_NAME, .name_size = sizeof NO_NAME, .rclass = 1};
    uint8_t buffer[512];
    size_t size = 7;
#define RETURNS(room, status)                                                                      \
    EXPECT(rrcache_compose_response(&query, &parsed, buffer, (room), &size) == (status))
    sets[0].data_size = 5;
    sets[1].owner_size = 1;
    sets[2].rtype = 0;
    sets[3].section = (enum rrcache_section)0;
    parsed.rcode = 16;
    RETURNS(0, RRCACHE_BAD_CHOICE);
    parsed.rcode = 0;
    RETURNS(0, RRCACHE_BAD_CHOICE);
    sets[3] = good;
    RETURNS(0, RRCACHE_BAD_TYPE);
    sets[2] = good;
    RETURNS(0, RRCACHE_BAD_TYPE);
    query.rtype = A;
    query.rclass = 0;
    RETURNS(0, RRCACHE_BAD_TYPE);
    query.rclass = RRCACHE_IN;
    RETURNS(0, RRCACHE_BAD_NAME);
    sets[1] = good;
    RETURNS(0, RRCACHE_BAD_NAME);
    query = query_of(OF(NAME));
    RETURNS(0, RRCACHE_BAD_DATA);
    sets[0].data_size = 0;
    RETURNS(0, RRCACHE_WRONG_BODY);
    EXPECT(size == 7);
    sets[0] = good;
    RETURNS(0, RRCACHE_SMALL);
    RETURNS(size, RRCACHE_DONE);
#undef RETURNS
}

/* A response of two sets: a text of so many octets, in data of 1,000 octets and one that is the
   rest, and two addresses of other.example. Of its records those behind the first of a set have an
   owner by a pointer. */
enum { DATUM = 1002, TEXT_MOST = 70000, FRONT = 29, FIXED = 10 };
static uint8_t texts[TEXT_MOST];

static struct rrcache_parsed_response with_text(struct rrcache_parsed_set sets[2], size_t size)
{
    for (size_t at = 0; at < size; at += DATUM) {
        size_t octets = (size - at < DATUM ? size - at : DATUM) - 2;
        texts[at] = (uint8_t)(octets >> 8);
        texts[at + 1] = (uint8_t)(octets & 255);
    }
    sets[0] = parsed_set(RRCACHE_ANSWER_SECTION, OF(NAME), TXT, texts, size);
    sets[1] = parsed_set(RRCACHE_ANSWER_SECTION, OF(OTHER), A, OF(TWO_ADDRESSES));
    return parsed_of(sets, 2);
}

/* How many octets of data make a text end at a place of the message: each datum has a pointer and
   eight octets before it. */
static size_t text_to(size_t place)
{
    size_t records = (place - FRONT + DATUM + FIXED - 1) / (DATUM + FIXED);
    return place - FRONT - records * FIXED;
}

/* The second address has a pointer to the owner of the first where that stands below 0x4000. */
static void test_far_owners(void)
{
    static const uint8_t whole[] = {5, 'o', 't', 'h', 'e', 'r'};
    struct rrcache_parsed_set sets[2];
    for (size_t place = 0x3ffd; place < 0x4004; place++) {
        struct rrcache_parsed_response parsed = with_text(sets, text_to(place));
        bool is_far = place >= 0x4000;
        size_t size, second = place + sizeof OTHER + 14;
        uint32_t fault = 7;
        uint8_t *octets = composed(parsed, 20000, RRCACHE_DONE, &size);
        EXPECT(size == second + (is_far ? sizeof OTHER : 2) + 14
               && memcmp(octets + place, OF(OTHER)) == 0
               && rrcache_fault(octets, size, &fault) == RRCACHE_DONE && fault == RRCACHE_NO_FAULT);
        if (is_far)
            EXPECT(memcmp(octets + second, OF(whole)) == 0);
        else
            EXPECT(octets[second] == (0xc0 | place >> 8) && octets[second + 1] == (place & 255));
        free(octets);
    }
}

/* The longest message, and longer ones: these are told as 65,536 octets, however long they are. */
static void test_long_composed(void)
{
    enum { SETS = 300, REST = 2 * sizeof OTHER + 28 };
    static struct rrcache_parsed_set many[SETS];
    struct rrcache_parsed_set sets[2];
    for (size_t place = 65533 - REST; place <= 65540 - REST; place++) {
        struct rrcache_parsed_response parsed = with_text(sets, text_to(place));
        bool is_long = place + REST > RRCACHE_MESSAGE_OCTETS;
        size_t size, wanted = is_long ? RRCACHE_MESSAGE_OCTETS + 1 : place + REST;
        free(composed(parsed, 70000, is_long ? RRCACHE_SMALL : RRCACHE_DONE, &size));
        EXPECT(size == wanted);
        free(composed(parsed, place + REST - 1, RRCACHE_SMALL, &size));
        EXPECT(size == wanted);
    }
    /* Sets may have the same data. */
    with_text(sets, 65000);
    for (size_t n = 0; n < SETS; n++)
        many[n] = sets[0];
    size_t size;
    free(composed(parsed_of(many, SETS), 70000, RRCACHE_SMALL, &size));
    EXPECT(size == RRCACHE_MESSAGE_OCTETS + 1);
}

/* Whether two shelves tell the same of a name's addresses and alias. */
static bool tell_alike(struct rrcache_shelf *one, struct rrcache_shelf *other, const uint8_t *name,
                       size_t size)
{
    static const uint16_t TYPES[] = {A, CNAME};
    for (unsigned i = 0; i < 2; i++) {
        struct rrcache_question now = question(TYPES[i], FIRST);
        struct reply replies[] = {peeked(one, name, size, now), peeked(other, name, size, now)};
        if (!are_same(&replies[0], &replies[1]))
            return false;
    }
    return true;
}

enum { NAMES = 2900, NAME_SIZE = 15 };

static void write_name(uint8_t *name, unsigned number)
{
    memcpy(name, "\5n0000\7example", NAME_SIZE); /* and the zero octet of the root */
    for (unsigned digit = 0; digit < 4; digit++, number /= 10)
        name[5 - digit] = (uint8_t)('0' + number % 10);
}

/* A response as large as one can be, in which each record has a name of its own: as ANSWER, with
   n0000.example to n2899.example, and answers its size. */
static size_t write_many(uint8_t *message)
{
    uint8_t *at = message;
    memcpy(at, ANSWER, 29); /* its header and its question */
    at[6] = NAMES >> 8, at[7] = NAMES & 255, at += 29;
    for (unsigned number = 0; number < NAMES; number++, at += 22) {
        uint8_t name[NAME_SIZE];
        write_name(name, number);
        memcpy(at, name, 6);
        memcpy(at + 6, "\xc0\x10\0\1\0\1\0\0\1\x2c\0\4\xc0\0\2\1", 16);
    }
    return (size_t)(at - message);
}

/* Offers a part of what was read to one shelf, and the same part of the message to another one, and
   answers how many offers are kept by both. */
static uint64_t compare_shares(struct rrcache_offers *offers, struct rrcache_response response,
                               uint64_t part)
{
    struct rrcache_shelf read = {0}, offered = {0};
    struct rrcache_counts counts[2] = {{9, 9, 9}, {8, 8, 8}};
    bool alike = true;
    EXPECT(make_by(&read, 4096, 4096, 0) == RRCACHE_DONE
           && make_by(&offered, 4096, 4096, 0) == RRCACHE_DONE);
    EXPECT(rrcache_offer_read(&read, offers, SHARE(part), &counts[0]) == RRCACHE_DONE);
    EXPECT(offer_part(&offered, response, PARTS, part, &counts[1]) == RRCACHE_DONE);
    EXPECT(memcmp(&counts[0], &counts[1], sizeof counts[0]) == 0);
    EXPECT(keys(&read) == keys(&offered) && events(&read) == events(&offered));
    for (unsigned number = 0; number < NAMES; number++) {
        uint8_t name[NAME_SIZE];
        write_name(name, number);
        alike = alike && tell_alike(&read, &offered, OF(name));
    }
    EXPECT(alike && tell_alike(&read, &offered, OF(NAME))
           && tell_alike(&read, &offered, OF(OTHER)));
    EXPECT(rrcache_free(&read) == RRCACHE_DONE && rrcache_free(&offered) == RRCACHE_DONE);
    return counts[0].kept;
}

/* One reading of a message for sixteen shelves, beside a reading for each: the same is counted,
   kept and told by both. */
static void compare_readings(struct rrcache_response response, uint64_t wanted)
{
    struct rrcache_offers offers = {0};
    uint64_t concerned = 0, all = 0;
    EXPECT(read_message(&offers, response, PARTS, &concerned) == RRCACHE_DONE);
    for (uint64_t part = 0; part < PARTS; part++) {
        uint64_t kept = compare_shares(&offers, response, part);
        EXPECT((concerned >> part & 1) == (kept != 0));
        all += kept;
    }
    EXPECT(all == wanted && concerned >> PARTS == 0);
    EXPECT(rrcache_free_offers(&offers) == RRCACHE_DONE);
}

/* What is outranked is counted as well, a part may be offered again, and what a shelf keeps
   outlives the offers. */
static void test_offers_again(void)
{
    struct rrcache_shelf shelf = {0};
    struct rrcache_offers offers = {0};
    struct rrcache_counts counts;
    struct reply reply;
    uint64_t target = part_of(OF(OTHER)), concerned = 0;
    EXPECT(make(&shelf) == RRCACHE_DONE && read_alias(&offers, PARTS, &concerned) == RRCACHE_DONE);
    EXPECT(concerned == (UINT64_C(1) << part_of(OF(NAME)) | UINT64_C(1) << target));
    EXPECT(rrcache_offer_read(&shelf, &offers, SHARE(target), &counts) == RRCACHE_DONE
           && counts.kept == 1 && keys(&shelf) == 1);
    EXPECT(offer_address(&shelf, OF(OTHER), 4, 60) == RRCACHE_KEPT);
    EXPECT(rrcache_offer_read(&shelf, &offers, SHARE(target), &counts) == RRCACHE_DONE
           && are_counts(&counts, 0, 0, 1));
    EXPECT(rrcache_free_offers(&offers) == RRCACHE_DONE && offers.at == NULL && !offers.is_live);
    reply = peeked(&shelf, OF(OTHER), question(A, FIRST));
    EXPECT(reply.told.kind == RRCACHE_FRESH && memcmp(reply.octets, OTHER, sizeof OTHER) == 0);
    EXPECT(rrcache_free(&shelf) == RRCACHE_DONE);
}

/* A ttl of 0 clears, and with TC set nothing is offered; the handle is to be freed all the same. */
static void test_empty_readings(void)
{
    struct rrcache_shelf shelf = {0};
    struct rrcache_offers offers = {0};
    struct rrcache_counts counts;
    uint8_t changed[sizeof ALIAS];
    uint64_t concerned;
    EXPECT(make(&shelf) == RRCACHE_DONE && offer_address(&shelf, OF(OTHER), 4, 60) == RRCACHE_KEPT);
    memcpy(changed, ALIAS, sizeof changed);
    memset(changed + 35, 0, 4); /* the alias's ttl */
    EXPECT(read_message(&offers, response_of(OF(changed)), 1, &concerned) == RRCACHE_DONE
           && concerned == 1);
    EXPECT(rrcache_offer_read(&shelf, &offers, SHARE(0), &counts) == RRCACHE_DONE
           && are_counts(&counts, 0, 1, 1));
    EXPECT(rrcache_free_offers(&offers) == RRCACHE_DONE);
    memcpy(changed, ALIAS, sizeof changed);
    changed[2] |= 2;
    EXPECT(read_message(&offers, response_of(OF(changed)), 64, &concerned) == RRCACHE_DONE
           && concerned == 0 && offers.is_live);
    EXPECT(rrcache_offer_read(&shelf, &offers, SHARE(63), &counts) == RRCACHE_DONE
           && are_counts(&counts, 0, 0, 0) && events(&shelf) == 3);
    EXPECT(rrcache_free_offers(&offers) == RRCACHE_DONE && rrcache_free(&shelf) == RRCACHE_DONE);
}

static void test_one_reading(void)
{
    static uint8_t many[65535];
    compare_readings(response_of(OF(ALIAS)), 2);
    compare_readings(response_of(many, write_many(many)), NAMES);
    test_offers_again();
    test_empty_readings();
}

/* Each refusal of a reading, the first that is due. */
static void test_refused_readings(void)
{
    struct rrcache_offers offers = {0};
    struct rrcache_response response = response_of(NULL, 0);
    struct rrcache_parts parts = {0};
    uint64_t concerned = 7;
#define REFUSED(status)                                                                            \
    EXPECT(rrcache_read_message_unchecked(&offers, &response, &parts, &concerned) == (status)      \
           && concerned == 7 && offers.at == NULL && !offers.is_live)
    response.zone = NO_NAME;
    response.zone_size = sizeof NO_NAME;
    response.limits.recheck = 301;
    REFUSED(RRCACHE_BAD_RULES);
    parts.count = 65;
    REFUSED(RRCACHE_BAD_RULES);
    parts.count = 64;
    REFUSED(RRCACHE_BAD_SEED);
    parts.seed[7] = 1;
    REFUSED(RRCACHE_BAD_LIMITS);
    response.limits = LIMITS;
    REFUSED(RRCACHE_BAD_NAME);
    response.zone = EXAMPLE;
    response.zone_size = sizeof EXAMPLE;
    REFUSED(RRCACHE_BAD_MESSAGE);
#undef REFUSED
    EXPECT(rrcache_free_offers(&offers) == RRCACHE_NO_OFFERS);
    EXPECT(read_alias(&offers, 2, &concerned) == RRCACHE_DONE && concerned != 7);
    concerned = 7;
    EXPECT(read_alias(&offers, 0, &concerned) == RRCACHE_HAS_OFFERS && concerned == 7
           && offers.is_live);
    EXPECT(rrcache_free_offers(&offers) == RRCACHE_DONE);
}

/* What is refused of an offer of what was read. */
static void test_refused_shares(void)
{
    struct rrcache_shelf shelf = {0};
    struct rrcache_offers offers = {0};
    struct rrcache_response late = response_of(OF(ALIAS));
    struct rrcache_counts counts = {7, 7, 7};
    uint64_t concerned = 7;
    EXPECT(rrcache_offer_read(&shelf, &offers, SHARE(0), &counts) == RRCACHE_NO_SHELF
           && are_counts(&counts, 7, 7, 7));
    EXPECT(make(&shelf) == RRCACHE_DONE
           && rrcache_offer_read(&shelf, &offers, SHARE(0), &counts) == RRCACHE_NO_OFFERS
           && are_counts(&counts, 7, 7, 7) && events(&shelf) == 0);
    EXPECT(read_alias(&offers, 2, &concerned) == RRCACHE_DONE);
    EXPECT(rrcache_offer_read(&shelf, &offers, SHARE(2), &counts) == RRCACHE_BAD_RULES
           && are_counts(&counts, 0, 0, 0) && events(&shelf) == 0);
    EXPECT(rrcache_free_offers(&offers) == RRCACHE_DONE);

    /* A moment that is too large is read, and refused with the first offer. */
    late.moment = LATE;
    EXPECT(read_message(&offers, late, 1, &concerned) == RRCACHE_DONE && concerned == 1);
    counts.outranked = 7;
    EXPECT(rrcache_offer_read(&shelf, &offers, SHARE(0), &counts) == RRCACHE_MOMENT_TOO_LARGE
           && are_counts(&counts, 0, 0, 0) && events(&shelf) == 0);
    EXPECT(rrcache_free_offers(&offers) == RRCACHE_DONE && rrcache_free(&shelf) == RRCACHE_DONE);
}

/* What was read by another seed than the shelf's is refused, in one reading and in each, behind
   what is refused of the message and before its moment. */
static void test_shares_of_another_seed(void)
{
    struct rrcache_shelf shelf = {0};
    struct rrcache_offers offers = {0};
    struct rrcache_response response = response_of(OF(ALIAS));
    struct rrcache_parts parts = *PARTED(2);
    struct rrcache_counts counts = {7, 7, 7};
    uint64_t concerned = 7;
    parts.seed[15] ^= 1;
    response.moment = LATE;
    EXPECT(make(&shelf) == RRCACHE_DONE
           && rrcache_read_message_unchecked(&offers, &response, &parts, &concerned)
                  == RRCACHE_DONE);
    EXPECT(rrcache_offer_read(&shelf, &offers, SHARE(2), &counts) == RRCACHE_BAD_RULES);
    for (uint64_t part = 0; part < 2; part++) {
        counts.kept = 7;
        EXPECT(rrcache_offer_read(&shelf, &offers, SHARE(part), &counts) == RRCACHE_OTHER_SEED
               && are_counts(&counts, 0, 0, 0) && events(&shelf) == 0);
        counts.kept = 7;
        EXPECT(rrcache_offer_part_unchecked(&shelf, &response, &parts, SHARE(part), &counts)
                   == RRCACHE_OTHER_SEED
               && are_counts(&counts, 0, 0, 0) && events(&shelf) == 0);
    }
    response.size -= 1;
    EXPECT(rrcache_offer_part_unchecked(&shelf, &response, &parts, SHARE(0), &counts)
           == RRCACHE_BAD_MESSAGE);
    EXPECT(rrcache_free_offers(&offers) == RRCACHE_DONE && rrcache_free(&shelf) == RRCACHE_DONE);
}

/* The fault of a message in which one octet is another. */
static uint32_t fault_with(const uint8_t *octets, size_t size, size_t place, uint8_t octet)
{
    uint8_t changed[128];
    uint32_t fault = 99;
    memcpy(changed, octets, size);
    changed[place] = octet;
    EXPECT(rrcache_fault(changed, size, &fault) == RRCACHE_DONE);
    return fault;
}

static void test_faults(void)
{
    uint32_t fault = 9;
    static uint8_t many[65536];
    EXPECT(rrcache_fault(OF(ANSWER), &fault) == RRCACHE_DONE && fault == RRCACHE_NO_FAULT);
    EXPECT(rrcache_fault(ANSWER, sizeof ANSWER - 1, &fault) == RRCACHE_DONE
           && fault == RRCACHE_SHORT);
    EXPECT(rrcache_fault(NULL, 0, &fault) == RRCACHE_DONE && fault == RRCACHE_SHORT);
    EXPECT(fault_with(OF(ANSWER), 2, 0) == RRCACHE_NO_RESPONSE
           && fault_with(OF(ANSWER), 5, 2) == RRCACHE_NOT_ONE_QUESTION
           && fault_with(OF(ANSWER), 12, 64) == RRCACHE_RESERVED_BITS);
    /* The first record's owner is a pointer to itself, or it has one octet of data too many. */
    EXPECT(fault_with(OF(ANSWER), 30, 29) == RRCACHE_POINTER
           && fault_with(OF(ALIAS), 40, 9) == RRCACHE_LAYOUT);
    memcpy(many, ANSWER, sizeof ANSWER);
    EXPECT(rrcache_fault(OF(many), &fault) == RRCACHE_DONE && fault == RRCACHE_LONG_MESSAGE);
    /* A name of labels of 63 octets: the fourth is too many. */
    for (int label = 0; label < 4; label++)
        many[12 + 64 * label] = 63;
    EXPECT(rrcache_fault(many, 1000, &fault) == RRCACHE_DONE && fault == RRCACHE_LONG_NAME);
}

/* By another seed, whichever octet is another, names lie elsewhere. */
static void test_seeds(void)
{
    for (size_t place = 0; place < 16; place++) {
        struct rrcache_parts parts = *PARTED(64);
        uint64_t moved = 0;
        parts.seed[place] ^= 0x80;
        for (unsigned number = 0; number < 100; number++) {
            uint8_t octets[NAME_SIZE];
            struct rrcache_name by_one, by_other;
            write_name(octets, number);
            moved += rrcache_make_name(&by_one, OF(octets), PARTED(64)) == RRCACHE_DONE
                     && rrcache_make_name(&by_other, OF(octets), &parts) == RRCACHE_DONE
                     && by_one.part != by_other.part;
        }
        EXPECT(moved > 50);
    }
}

/* ---- Aliases. */

/* What a shelf holds of a name: an address, its CNAME record, that it has no address, that it does
   not exist, that asking for its address failed, or for its record. */
enum what { NOTHING, ADDR, RECORD, NO_ADDR, DENIED, FAILURE, ITS_FAILURE };

struct held {
    enum what what;
    enum rrcache_trust trust;
    uint32_t ttl;
};

/* A name of which this is offered, in this order and at one moment, and what a question for its
   address is told so many seconds later. */
struct alias_case {
    const char *what;
    struct held held[3];
    uint32_t later, mode;
    uint16_t rtype;
    uint32_t kind;
};

enum { NONE = RRCACHE_NO_STALE, IF_FAILS = RRCACHE_STALE_IF_FAILED, NOW = RRCACHE_STALE_NOW };
enum {
    FRESH = RRCACHE_FRESH,
    STALE = RRCACHE_STALE,
    NODATA = RRCACHE_NODATA,
    NXDOMAIN = RRCACHE_NXDOMAIN,
    MISS = RRCACHE_MISS,
    FAILED = RRCACHE_FAILED
};

/* Where there is nothing of the type that will do. */
static const struct alias_case MISSES[] = {
    {"nothing", {{NOTHING, 0, 0}}, 0, NONE, A, MISS},
    {"a record", {{RECORD, 4, 300}}, 299, NONE, CNAME, FRESH},
    {"an expired record", {{RECORD, 4, 300}}, 300, NONE, A, MISS},
    {"a stale record", {{RECORD, 4, 300}}, 300, NOW, CNAME, STALE},
    {"one near its end", {{RECORD, 4, 300}}, 3899, NOW, CNAME, STALE},
    {"one fully expired", {{RECORD, 4, 300}}, 3900, NOW, A, MISS},
    {"additional data", {{RECORD, 1, 300}}, 0, NONE, A, MISS},
    {"glue beside it", {{RECORD, 4, 300}, {ADDR, 1, 300}}, 0, NONE, CNAME, FRESH},
    {"glue behind it", {{RECORD, 2, 300}, {ADDR, 1, 300}}, 0, NONE, CNAME, FRESH},
    {"an expired address before it", {{ADDR, 4, 60}, {RECORD, 2, 300}}, 60, NONE, CNAME, FRESH},
    {"an expired address behind it", {{RECORD, 2, 300}, {ADDR, 4, 60}}, 60, NONE, CNAME, FRESH},
    {"a failure beside it", {{RECORD, 4, 300}, {FAILURE, 0, 30}}, 0, NONE, CNAME, FRESH},
};

/* Where the record was stored later than an address. */
static const struct alias_case LATER_RECORDS[] = {
    {"trusted as much", {{ADDR, 4, 300}, {RECORD, 4, 300}}, 0, NONE, CNAME, FRESH},
    {"trusted more", {{ADDR, 2, 300}, {RECORD, 4, 300}}, 0, NONE, CNAME, FRESH},
    {"trusted less", {{ADDR, 4, 300}, {RECORD, 2, 300}}, 0, NONE, A, FRESH},
    {"trusted less, and stale will do", {{ADDR, 4, 300}, {RECORD, 2, 300}}, 299, NOW, A, FRESH},
    {"trusted less than a stale address", {{ADDR, 4, 60}, {RECORD, 2, 300}}, 60, NOW, CNAME, FRESH},
    /* RFC 8767 section 7: no older address is told beside a newer alias. */
    {"both expired", {{ADDR, 4, 60}, {RECORD, 4, 60}}, 60, NOW, CNAME, STALE},
    {"both expired, trusted less", {{ADDR, 4, 60}, {RECORD, 2, 60}}, 60, NOW, CNAME, STALE},
    {"both expired, nothing stale will do", {{ADDR, 4, 60}, {RECORD, 4, 60}}, 60, NONE, A, MISS},
    {"the record expired", {{ADDR, 4, 300}, {RECORD, 4, 60}}, 60, NONE, A, FRESH},
    {"the record stale", {{ADDR, 4, 300}, {RECORD, 4, 60}}, 60, NOW, CNAME, STALE},
    {"the record stale, trusted less", {{ADDR, 4, 300}, {RECORD, 2, 60}}, 60, NOW, A, FRESH},
    {"the record fully expired", {{ADDR, 4, 300}, {RECORD, 4, 60}}, 3660, NOW, A, STALE},
};

/* Where the record was stored earlier than an address. */
static const struct alias_case EARLIER_RECORDS[] = {
    {"trusted as much", {{RECORD, 4, 300}, {ADDR, 4, 300}}, 0, NONE, A, FRESH},
    {"trusted more", {{RECORD, 4, 300}, {ADDR, 2, 300}}, 0, NONE, CNAME, FRESH},
    {"trusted less", {{RECORD, 2, 300}, {ADDR, 4, 300}}, 0, NONE, A, FRESH},
    {"trusted more, but expired", {{RECORD, 4, 60}, {ADDR, 2, 300}}, 60, NOW, A, FRESH},
    {"both expired", {{RECORD, 4, 60}, {ADDR, 2, 60}}, 60, NOW, A, STALE},
    {"a stale address trusted as much", {{RECORD, 4, 300}, {ADDR, 4, 60}}, 60, NOW, A, STALE},
    {"a stale address trusted less", {{RECORD, 4, 300}, {ADDR, 2, 60}}, 60, NOW, CNAME, FRESH},
};

/* Where the name was denied, or that it has an address. */
static const struct alias_case DENIALS[] = {
    {"no such name", {{DENIED, 4, 300}}, 0, NONE, A, NXDOMAIN},
    {"a record later", {{DENIED, 4, 300}, {RECORD, 4, 300}}, 0, NONE, CNAME, FRESH},
    {"trusted more", {{DENIED, 2, 300}, {RECORD, 4, 300}}, 0, NONE, CNAME, FRESH},
    {"trusted less", {{DENIED, 4, 300}, {RECORD, 2, 300}}, 0, NONE, A, NXDOMAIN},
    {"the denial expired", {{DENIED, 4, 60}, {RECORD, 2, 300}}, 60, NONE, CNAME, FRESH},
    {"the record expired", {{DENIED, 4, 300}, {RECORD, 4, 60}}, 60, NONE, A, NXDOMAIN},
    {"the record stale", {{DENIED, 4, 300}, {RECORD, 4, 60}}, 60, NOW, CNAME, STALE},
    {"a record earlier", {{RECORD, 4, 300}, {DENIED, 4, 300}}, 0, NONE, A, NXDOMAIN},
    {"earlier, trusted more", {{RECORD, 4, 300}, {DENIED, 2, 300}}, 0, NONE, CNAME, FRESH},
    /* A denial that is held governs over an earlier record also after its own time. */
    {"earlier, the denial expired", {{RECORD, 4, 300}, {DENIED, 4, 60}}, 60, NONE, A, MISS},
    {"no address", {{NO_ADDR, 4, 300}}, 0, NONE, A, NODATA},
    {"no address, a record later", {{NO_ADDR, 4, 300}, {RECORD, 4, 300}}, 0, NONE, CNAME, FRESH},
    {"later, trusted less", {{NO_ADDR, 4, 300}, {RECORD, 2, 300}}, 0, NONE, A, NODATA},
    {"no address, expired", {{NO_ADDR, 4, 60}, {RECORD, 2, 300}}, 60, NONE, CNAME, FRESH},
    {"no address, the record expired", {{NO_ADDR, 4, 300}, {RECORD, 4, 60}}, 60, NONE, A, NODATA},
    {"no address, the record stale", {{NO_ADDR, 4, 300}, {RECORD, 4, 60}}, 60, NOW, CNAME, STALE},
    {"no address, a record earlier", {{RECORD, 4, 300}, {NO_ADDR, 4, 300}}, 0, NONE, A, NODATA},
    {"earlier, trusted more", {{RECORD, 4, 300}, {NO_ADDR, 2, 300}}, 0, NONE, CNAME, FRESH},
    {"earlier, expired", {{RECORD, 4, 300}, {NO_ADDR, 4, 60}}, 60, NONE, CNAME, FRESH},
};

/* Where asking for the address has failed (RFC 8767 section 5), or stale data wait for that. */
static const struct alias_case FAILURES[] = {
    {"no failure", {{RECORD, 4, 60}}, 60, IF_FAILS, A, MISS},
    {"a failure", {{RECORD, 4, 60}, {FAILURE, 0, 100}}, 60, IF_FAILS, CNAME, STALE},
    {"a failure of its type", {{RECORD, 4, 60}, {ITS_FAILURE, 0, 100}}, 60, IF_FAILS, A, MISS},
    {"a failure before", {{FAILURE, 0, 100}, {RECORD, 4, 60}}, 60, IF_FAILS, CNAME, STALE},
    {"a failure of the past", {{RECORD, 4, 60}, {FAILURE, 0, 60}}, 60, IF_FAILS, A, MISS},
    {"nothing stale will do", {{RECORD, 4, 60}, {FAILURE, 0, 100}}, 60, NONE, A, FAILED},
    {"later one", {{ADDR, 4, 60}, {RECORD, 4, 60}, {FAILURE, 0, 99}}, 60, IF_FAILS, CNAME, STALE},
    {"an earlier one", {{RECORD, 4, 60}, {ADDR, 4, 60}, {FAILURE, 0, 99}}, 60, IF_FAILS, A, STALE},
    {"between", {{ADDR, 4, 60}, {FAILURE, 0, 99}, {RECORD, 4, 300}}, 60, IF_FAILS, CNAME, FRESH},
    {"before them", {{FAILURE, 0, 99}, {ADDR, 4, 60}, {RECORD, 4, 60}}, 60, IF_FAILS, A, MISS},
};

static void hold(struct rrcache_shelf *shelf, struct held held)
{
    struct rrcache_failure failure = failure_of(OF(NAME), A);
    struct rrcache_set alias = set_of(OF(NAME), CNAME, OF(TARGET));
    switch (held.what) {
    case NOTHING:
        break;
    case ADDR:
        EXPECT(offer_address(shelf, OF(NAME), held.trust, held.ttl) == RRCACHE_KEPT);
        break;
    case RECORD:
        alias.trust = held.trust;
        alias.ttl = held.ttl;
        EXPECT(offer_set(shelf, alias) == RRCACHE_KEPT);
        break;
    case NO_ADDR:
        EXPECT(offer_denial(shelf, OF(NAME), RRCACHE_NODATA, held.trust, held.ttl) == RRCACHE_KEPT);
        break;
    case DENIED:
        EXPECT(offer_denial(shelf, OF(NAME), RRCACHE_NXDOMAIN, held.trust, held.ttl)
               == RRCACHE_KEPT);
        break;
    case ITS_FAILURE:
        failure.rtype = CNAME;
        /* fall through */
    case FAILURE:
        failure.ttl = held.ttl;
        EXPECT(offer_failure(shelf, failure) == RRCACHE_KEPT);
        break;
    }
}

/* Whether www.example is told so, by a peek, which writes no event, and by an ask, which writes
   one. */
static bool tells(struct rrcache_shelf *shelf, struct rrcache_question question, uint16_t rtype,
                  uint32_t kind)
{
    uint64_t before = events(shelf);
    struct reply look = reply_by(to_peek_alias, shelf, OF(NAME), question);
    bool is_unseen = events(shelf) == before;
    struct reply reply = reply_by(to_ask_alias, shelf, OF(NAME), question);
    bool is_alias = rtype == CNAME && (kind == RRCACHE_FRESH || kind == RRCACHE_STALE);
    return is_unseen && events(shelf) == before + 1 && are_same(&look, &reply)
           && reply.told.rtype == rtype && reply.told.kind == kind
           && has_data(&reply, OF(TARGET)) == is_alias
           && (reply.told.entry.kind == 0) == (kind == RRCACHE_MISS || kind == RRCACHE_FAILED);
}

static void test_alias_cases(const struct alias_case *cases, size_t count)
{
    for (size_t n = 0; n < count; n++) {
        struct rrcache_shelf shelf = {0};
        EXPECT(make_by(&shelf, 100, 100, MAX_STALE) == RRCACHE_DONE);
        for (int place = 0; place < 3; place++)
            hold(&shelf, cases[n].held[place]);
        bool right =
            tells(&shelf, question_by(A, FIRST + cases[n].later, RRCACHE_QUESTION, cases[n].mode),
                  cases[n].rtype, cases[n].kind);
        if (!right)
            printf("alias case: %s\n", cases[n].what);
        EXPECT(right && rrcache_free(&shelf) == RRCACHE_DONE);
    }
}

static void test_aliases(void)
{
    test_alias_cases(MISSES, sizeof MISSES / sizeof *MISSES);
    test_alias_cases(LATER_RECORDS, sizeof LATER_RECORDS / sizeof *LATER_RECORDS);
    test_alias_cases(EARLIER_RECORDS, sizeof EARLIER_RECORDS / sizeof *EARLIER_RECORDS);
    test_alias_cases(DENIALS, sizeof DENIALS / sizeof *DENIALS);
    test_alias_cases(FAILURES, sizeof FAILURES / sizeof *FAILURES);
}

/* A record is told for each type but CNAME and ANY (RFC 1034 section 4.3.2), and RRSIG and NSEC
   (RFC 4035 section 2.5), in its own class. */
static void test_types_of_aliases(void)
{
    struct rrcache_shelf shelf = {0};
    EXPECT(make_by(&shelf, 100, 100, MAX_STALE) == RRCACHE_DONE);
    hold(&shelf, (struct held){RECORD, 4, 60});
    EXPECT(tells(&shelf, question(TXT, FIRST), CNAME, RRCACHE_FRESH)
           && tells(&shelf, question(CNAME, FIRST), CNAME, RRCACHE_FRESH)
           && tells(&shelf, question(ANY, FIRST), ANY, RRCACHE_MISS)
           && tells(&shelf, question(RRSIG, FIRST), RRSIG, RRCACHE_MISS)
           && tells(&shelf, question(NSEC, FIRST), NSEC, RRCACHE_MISS)
           && tells(&shelf, question(OPT, FIRST), CNAME, RRCACHE_FRESH)
           && tells(&shelf, question_in(RRCACHE_CH, TXT), TXT, RRCACHE_MISS));
    /* A failure is of one type. */
    hold(&shelf, (struct held){FAILURE, 0, 100});
    EXPECT(
        tells(&shelf, question_by(TXT, FIRST + 60, RRCACHE_QUESTION, IF_FAILS), TXT, RRCACHE_MISS)
        && tells(&shelf, question_by(A, FIRST + 60, RRCACHE_QUESTION, IF_FAILS), CNAME,
                 RRCACHE_STALE)
        && tells(&shelf, question_by(CNAME, FIRST + 60, RRCACHE_QUESTION, IF_FAILS), CNAME,
                 RRCACHE_MISS)
        && tells(&shelf, question_by(ANY, FIRST + 60, RRCACHE_QUESTION, NOW), ANY, RRCACHE_MISS));
    hold(&shelf, (struct held){DENIED, 4, 60});
    EXPECT(tells(&shelf, question(CNAME, FIRST), CNAME, RRCACHE_NXDOMAIN)
           && tells(&shelf, question(ANY, FIRST), ANY, RRCACHE_NXDOMAIN));
    /* Additional data do for the resolver itself. */
    EXPECT(rrcache_free(&shelf) == RRCACHE_DONE
           && make_by(&shelf, 100, 100, MAX_STALE) == RRCACHE_DONE);
    hold(&shelf, (struct held){RECORD, 1, 60});
    EXPECT(tells(&shelf, question_by(A, FIRST, RRCACHE_ANYTHING, NONE), CNAME, RRCACHE_FRESH));
    EXPECT(rrcache_free(&shelf) == RRCACHE_DONE);
}

/* An expired denial that is swept gives its earlier record back. */
static void test_alias_behind_a_denial(void)
{
    struct rrcache_shelf shelf = {0};
    EXPECT(make_by(&shelf, 100, 100, MAX_STALE) == RRCACHE_DONE);
    hold(&shelf, (struct held){RECORD, 4, 300});
    hold(&shelf, (struct held){DENIED, 4, 60});
    EXPECT(tells(&shelf, question(A, FIRST + 60), A, RRCACHE_MISS));
    EXPECT(sweep(&shelf, FIRST + 60) == 1);
    EXPECT(tells(&shelf, question(A, FIRST + 60), CNAME, RRCACHE_FRESH));
    EXPECT(rrcache_free(&shelf) == RRCACHE_DONE);
}

/* An alias of a message: what is told of it, its entry, and its event, which is one ask for the
   record. */
static void test_alias(void)
{
    struct rrcache_shelf shelf = {0};
    struct rrcache_chapters chapters = {0};
    struct rrcache_counts counts;
    struct rrcache_name name = name_of(OF(NAME));
    struct rrcache_question asked = question(A, FIRST + 10);
    struct rrcache_told told;
    struct reply reply;
    uint64_t count = 0;
    uint8_t small[8];
    EXPECT(make_by(&shelf, 100, 100, MAX_STALE) == RRCACHE_DONE);
    EXPECT(offer_message(&shelf, response_of(OF(ALIAS)), &counts) == RRCACHE_DONE
           && events(&shelf) == 2);
    /* What is too small for the alias is told as it is, and no event is written. */
    EXPECT(rrcache_ask_alias(&shelf, &name, &asked, &told, OF(small)) == RRCACHE_SMALL
           && told.rtype == CNAME && told.data_size == sizeof TARGET && events(&shelf) == 2);
    EXPECT(rrcache_peek_alias(&shelf, &name, &asked, &told, OF(small)) == RRCACHE_SMALL
           && told.rtype == CNAME && told.entry.age == 1 && events(&shelf) == 2);
    reply = reply_by(to_ask_alias, &shelf, OF(NAME), asked);
    EXPECT(reply.told.kind == RRCACHE_FRESH && reply.told.rtype == CNAME && reply.told.left == 290
           && reply.told.owner_size == sizeof NAME && has_data(&reply, OF(TARGET)));
    EXPECT(is_entry(&reply.told.entry, RRCACHE_FRESH, 4, 300, FIRST, 0, 1) && events(&shelf) == 3);
    reply = reply_by(to_ask_alias, &shelf, OF(OTHER), asked);
    EXPECT(reply.told.kind == RRCACHE_FRESH && reply.told.rtype == A
           && has_data(&reply, OF(ADDRESS)));
    reply = reply_by(to_ask_alias, &shelf, OF(THIRD), asked);
    EXPECT(reply.told.kind == RRCACHE_MISS && reply.told.rtype == A);
    EXPECT(rrcache_stop_recording(&shelf, &chapters, &count) == RRCACHE_DONE && count == 1);
    EXPECT(is_line(&chapters, 0, 3,
                   "ask 2 0 1010 www.example. 5 answer none fresh 290 www.example. "
                   "056f74686572076578616d706c6500\n")
           && is_line(&chapters, 0, 5, "ask 2 0 1010 third.example. 1 answer none miss\n"));
    EXPECT(rrcache_free_chapters(&chapters) == RRCACHE_DONE
           && rrcache_free(&shelf) == RRCACHE_DONE);
}

/* ---- Refusals. */

static void test_no_shelf(void)
{
    struct rrcache_shelf shelf = {0};
    struct rrcache_counts counts = {7, 7, 7};
    struct rrcache_usage sizes = {7, 7, 7, 7};
    struct rrcache_name name = name_of(OF(NAME));
    uint64_t number = 7;
    EXPECT(rrcache_free(&shelf) == RRCACHE_NO_SHELF);
    EXPECT(offer_alias(&shelf, PARTS, 0, FIRST, &counts) == RRCACHE_NO_SHELF
           && offer_answer(&shelf, FIRST, &counts) == RRCACHE_NO_SHELF
           && are_counts(&counts, 7, 7, 7));
    EXPECT(set_status(&shelf, set_of(OF(NAME), A, OF(ADDRESS))) == RRCACHE_NO_SHELF);
    EXPECT(negative_status(&shelf, negative_of(OF(NAME), A, RRCACHE_NODATA)) == RRCACHE_NO_SHELF);
    EXPECT(failure_status(&shelf, failure_of(OF(NAME), A)) == RRCACHE_NO_SHELF);
    EXPECT(are_refused_for(&shelf, &name, RRCACHE_NO_SHELF));
    EXPECT(rrcache_sweep(&shelf, SWEEP(FIRST, 1), &number) == RRCACHE_NO_SHELF
           && rrcache_drop_chapters(&shelf, &number) == RRCACHE_NO_SHELF && number == 7);
    EXPECT(rrcache_record(&shelf) == RRCACHE_NO_SHELF
           && rrcache_stop_and_drop(&shelf) == RRCACHE_NO_SHELF && shelf.at == NULL
           && !shelf.is_live);
    EXPECT(rrcache_sizes(&shelf, &sizes) == RRCACHE_NO_SHELF && sizes.keys == 7 && sizes.events == 7
           && sizes.chapters == 7 && sizes.octets == 7);
    EXPECT(make(&shelf) == RRCACHE_DONE && rrcache_free(&shelf) == RRCACHE_DONE
           && rrcache_free(&shelf) == RRCACHE_NO_SHELF);
}

/* Rules out of their ranges, and a seed of zeros. */
static void test_making_refused(void)
{
    struct rrcache_shelf shelf = {0};
    struct rrcache_rules rules = {0};
    EXPECT(rrcache_make(&shelf, RULES(0, 4, 0)) == RRCACHE_BAD_RULES
           && rrcache_make(&shelf, RULES(65537, 4, 0)) == RRCACHE_BAD_RULES);
    EXPECT(rrcache_make(&shelf, RULES(1, 0, 0)) == RRCACHE_BAD_RULES
           && rrcache_make(&shelf, RULES(1, 1048577, 0)) == RRCACHE_BAD_RULES);
    EXPECT(rrcache_make(&shelf, RULES(1, 1, 604801)) == RRCACHE_BAD_RULES);
    EXPECT(rrcache_make(&shelf, &rules) == RRCACHE_BAD_RULES);
    rules.capacity = rules.chapter = 1;
    EXPECT(rrcache_make(&shelf, &rules) == RRCACHE_BAD_SEED && shelf.at == NULL && !shelf.is_live);
    for (size_t place = 0; place < sizeof rules.seed; place++) {
        rules.seed[place] = 1;
        EXPECT(rrcache_make(&shelf, &rules) == RRCACHE_DONE
               && memcmp(shelf.seed, rules.seed, sizeof rules.seed) == 0
               && rrcache_free(&shelf) == RRCACHE_DONE);
        rules.seed[place] = 0;
    }
    EXPECT(rrcache_make(&shelf, RULES(65536, 1048576, 604800)) == RRCACHE_DONE);
    EXPECT(make(&shelf) == RRCACHE_HAS_SHELF && rrcache_free(&shelf) == RRCACHE_DONE);
}

/* Where the handle holds a shelf, that is told before any other refusal, and the shelf is as it
   was. */
static void test_has_shelf(void)
{
    struct rrcache_shelf shelf = {0}, before;
    static const struct rrcache_rules zeros = {0};
    struct rrcache_counts counts;
    EXPECT(make(&shelf) == RRCACHE_DONE && offer_answer(&shelf, FIRST, &counts) == RRCACHE_DONE);
    before = shelf;
    EXPECT(make(&shelf) == RRCACHE_HAS_SHELF
           && rrcache_make(&shelf, RULES(0, 0, 604801)) == RRCACHE_HAS_SHELF
           && rrcache_make(&shelf, &zeros) == RRCACHE_HAS_SHELF);
    EXPECT(shelf.at == before.at && shelf.is_live
           && memcmp(shelf.seed, before.seed, sizeof shelf.seed) == 0);
    EXPECT(events(&shelf) == 1 && keys(&shelf) == 1
           && asked(&shelf, OF(NAME), question(A, FIRST)).told.kind == RRCACHE_FRESH);
    EXPECT(rrcache_free(&shelf) == RRCACHE_DONE);
}

/* Each refusal of a message that reads what is handed in writes that no offer was made. */
static bool refuses(struct rrcache_shelf *shelf, struct rrcache_response response, uint32_t status)
{
    struct rrcache_counts counts = {7, 7, 7};
    return offer_message(shelf, response, &counts) == status && are_counts(&counts, 0, 0, 0);
}

static bool refuses_part(struct rrcache_shelf *shelf, struct rrcache_response response,
                         const struct rrcache_parts *parts, uint64_t part, uint32_t status)
{
    struct rrcache_counts counts = {7, 7, 7};
    return rrcache_offer_part_unchecked(shelf, &response, parts, SHARE(part), &counts) == status
           && are_counts(&counts, 0, 0, 0);
}

/* Of more than one the first is told: the limits before the zone, and that before the message, and
   its moment last. */
static void test_refused_messages(void)
{
    struct rrcache_shelf shelf = {0};
    struct rrcache_response response = response_of(ANSWER, 30);
    EXPECT(make(&shelf) == RRCACHE_DONE);
    response.moment = LATE;
    response.zone = NO_NAME;
    response.zone_size = sizeof NO_NAME;
    response.limits.recheck = 301;
    EXPECT(refuses(&shelf, response, RRCACHE_BAD_LIMITS));
    response.limits = LIMITS;
    EXPECT(refuses(&shelf, response, RRCACHE_BAD_NAME));
    response.zone = EXAMPLE;
    response.zone_size = sizeof EXAMPLE;
    EXPECT(refuses(&shelf, response, RRCACHE_BAD_MESSAGE));
    response.size = sizeof ANSWER;
    EXPECT(refuses(&shelf, response, RRCACHE_MOMENT_TOO_LARGE));
    EXPECT(events(&shelf) == 0 && rrcache_free(&shelf) == RRCACHE_DONE);
}

/* The same of a part, before which the number of parts and the seed are looked at. */
static void test_refused_parts(void)
{
    struct rrcache_shelf shelf = {0};
    struct rrcache_response response = response_of(ALIAS, 30);
    struct rrcache_parts parts = {0};
    const uint64_t part = part_of(OF(NAME));
    EXPECT(make(&shelf) == RRCACHE_DONE);
    response.moment = LATE;
    response.zone = NO_NAME;
    response.zone_size = sizeof NO_NAME;
    response.limits.cap = 0;
    EXPECT(refuses_part(&shelf, response, &parts, 0, RRCACHE_BAD_RULES));
    parts.count = 65;
    EXPECT(refuses_part(&shelf, response, &parts, part, RRCACHE_BAD_RULES));
    parts.count = UINT64_C(1) << 32;
    EXPECT(refuses_part(&shelf, response, &parts, part, RRCACHE_BAD_RULES));
    parts.count = PARTS;
    EXPECT(
        refuses_part(&shelf, response, &parts, PARTS, RRCACHE_BAD_RULES)
        && refuses_part(&shelf, response, &parts, (UINT64_C(1) << 32) + part, RRCACHE_BAD_RULES));
    EXPECT(refuses_part(&shelf, response, &parts, part, RRCACHE_BAD_SEED));
    parts = *PARTED(PARTS);
    EXPECT(refuses_part(&shelf, response, &parts, part, RRCACHE_BAD_LIMITS));
    response.limits = LIMITS;
    EXPECT(refuses_part(&shelf, response, &parts, part, RRCACHE_BAD_NAME));
    response.zone = EXAMPLE;
    response.zone_size = sizeof EXAMPLE;
    EXPECT(refuses_part(&shelf, response, &parts, part, RRCACHE_BAD_MESSAGE));
    response.size = sizeof ALIAS;
    EXPECT(refuses_part(&shelf, response, &parts, part, RRCACHE_MOMENT_TOO_LARGE));
    EXPECT(events(&shelf) == 0 && rrcache_free(&shelf) == RRCACHE_DONE);
}

/* Numbers of limits that are not in their ranges. */
static void test_refused_limits(void)
{
    static const struct {
        struct rrcache_limits limits;
        uint32_t status;
    } cases[] = {
        {{0, 3600, 30}, RRCACHE_BAD_LIMITS},    {{604801, 3600, 30}, RRCACHE_BAD_LIMITS},
        {{86400, 0, 30}, RRCACHE_BAD_LIMITS},   {{86400, 604801, 30}, RRCACHE_BAD_LIMITS},
        {{86400, 3600, 0}, RRCACHE_BAD_LIMITS}, {{86400, 3600, 301}, RRCACHE_BAD_LIMITS},
        {{0, 0, 0}, RRCACHE_BAD_LIMITS},        {{1, 1, 1}, RRCACHE_DONE},
        {{604800, 604800, 300}, RRCACHE_DONE},  {RRCACHE_LIMITS, RRCACHE_DONE},
    };
    struct rrcache_shelf shelf = {0};
    EXPECT(make(&shelf) == RRCACHE_DONE);
    for (size_t n = 0; n < sizeof cases / sizeof *cases; n++) {
        struct rrcache_response response = response_of(OF(ANSWER));
        struct rrcache_offers offers = {0};
        struct rrcache_counts counts;
        uint64_t concerned;
        response.limits = cases[n].limits;
        EXPECT(offer_message(&shelf, response, &counts) == cases[n].status);
        EXPECT(offer_part(&shelf, response, 1, 0, &counts) == cases[n].status);
        EXPECT(read_message(&offers, response, 1, &concerned) == cases[n].status);
        EXPECT((rrcache_free_offers(&offers) == RRCACHE_DONE) == (cases[n].status == RRCACHE_DONE));
        EXPECT(read_response(&offers, response, query_of(OF(NAME)), &concerned) == cases[n].status);
        EXPECT((rrcache_free_offers(&offers) == RRCACHE_DONE) == (cases[n].status == RRCACHE_DONE));
    }
    EXPECT(rrcache_free(&shelf) == RRCACHE_DONE);
}

/* That a name does not exist has no type, so none is asked for; that it has no data of a type has
   one. */
static void test_denied_names(void)
{
    struct rrcache_shelf shelf = {0};
    EXPECT(make(&shelf) == RRCACHE_DONE);
    EXPECT(negative_status(&shelf, negative_of(OF(NAME), OPT, RRCACHE_NODATA)) == RRCACHE_BAD_TYPE);
    EXPECT(offer_negative(&shelf, negative_of(OF(NAME), OPT, RRCACHE_NXDOMAIN)) == RRCACHE_KEPT);
    EXPECT(offer_negative(&shelf, negative_of(OF(OTHER), 0, RRCACHE_NXDOMAIN)) == RRCACHE_KEPT);
    EXPECT(kind_at(&shelf, OF(NAME), A, FIRST) == RRCACHE_NXDOMAIN);
    /* A question of a type that is not kept is told so too. */
    EXPECT(kind_at(&shelf, OF(NAME), OPT, FIRST) == RRCACHE_NXDOMAIN
           && kind_at(&shelf, OF(NAME), ANY, FIRST) == RRCACHE_NXDOMAIN
           && kind_at(&shelf, OF(THIRD), OPT, FIRST) == RRCACHE_MISS);
    EXPECT(rrcache_free(&shelf) == RRCACHE_DONE);
}

/* Whether each of the calls that tell a reply returns this for a question, and tells nothing. */
static bool is_refused(struct rrcache_shelf *shelf, struct rrcache_question question,
                       uint32_t status)
{
    struct rrcache_name name = name_of(OF(NAME));
    bool right = true;
    for (int call = 0; call < ASKINGS; call++) {
        struct rrcache_told told;
        uint8_t buffer[64] = {7};
        memset(&told, 7, sizeof told);
        right = ASKING[call](shelf, &name, &question, &told, buffer, sizeof buffer) == status
                && told.kind == 0x07070707 && told.owner_size == UINT64_C(0x0707070707070707)
                && buffer[0] == 7 && right;
    }
    return right;
}

/* Questions with a purpose or a mode that there is not, or of what is never kept: each field that
   may not be 0 is. */
static void test_refused_questions(void)
{
    static const uint32_t wrong[] = {0, 4, 7, UINT32_MAX};
    static const uint16_t classes[] = {0, 2, 5, 254, 255, UINT16_MAX};
    struct rrcache_shelf shelf = {0};
    struct rrcache_question asked;
    static const struct rrcache_question zeros = {0};
    EXPECT(make(&shelf) == RRCACHE_DONE);
    EXPECT(is_refused(&shelf, zeros, RRCACHE_BAD_CHOICE));
    for (size_t n = 0; n < sizeof wrong / sizeof *wrong; n++) {
        asked = question(A, FIRST);
        asked.mode = wrong[n];
        EXPECT(is_refused(&shelf, asked, RRCACHE_BAD_CHOICE));
        asked = question(A, FIRST);
        asked.purpose = wrong[n];
        EXPECT(is_refused(&shelf, asked, RRCACHE_BAD_CHOICE));
    }
    asked = question(A, FIRST);
    asked.purpose = 3;
    EXPECT(is_refused(&shelf, asked, RRCACHE_BAD_CHOICE));
    for (size_t n = 0; n < sizeof classes / sizeof *classes; n++)
        EXPECT(is_refused(&shelf, question_in(classes[n], A), RRCACHE_BAD_TYPE));
    EXPECT(is_refused(&shelf, question(0, FIRST), RRCACHE_BAD_TYPE)
           && is_refused(&shelf, question_in(RRCACHE_CH, 0), RRCACHE_BAD_TYPE));
    EXPECT(events(&shelf) == 0);
    /* A moment and a line of 0 will do, each class that is kept, and any other type. */
    asked = question(A, 0);
    asked.line = 0;
    EXPECT(reply_by(to_ask, &shelf, OF(NAME), asked).told.kind == RRCACHE_MISS);
    EXPECT(peeked(&shelf, OF(NAME), question_in(RRCACHE_CH, A)).told.kind == RRCACHE_MISS
           && peeked(&shelf, OF(NAME), question_in(RRCACHE_HS, A)).told.kind == RRCACHE_MISS
           && peeked(&shelf, OF(NAME), question(UINT16_MAX, FIRST)).told.kind == RRCACHE_MISS);
    EXPECT(rrcache_free(&shelf) == RRCACHE_DONE);
}

/* Where more than one refusal is due of a question, the first is told: what is wrong is put right
   one by one. */
static void test_order_of_refusals(void)
{
    for (int call = 0; call < ASKINGS; call++) {
        struct rrcache_shelf shelf = {0};
        struct rrcache_counts counts;
        struct rrcache_name name = {0};
        struct rrcache_parts parts = *PARTED(PARTS);
        struct rrcache_question asked = {.moment = LATE, .rclass = 2};
        struct rrcache_told told;
        uint8_t buffer[64];
#define RETURNS(size, status)                                                                      \
    EXPECT(ASKING[call](&shelf, &name, &asked, &told, buffer, (size)) == (status))
        RETURNS(0, RRCACHE_NO_SHELF);
        EXPECT(make(&shelf) == RRCACHE_DONE && offer_answer(&shelf, LAST, &counts) == RRCACHE_DONE);
        RETURNS(0, RRCACHE_BAD_CHOICE);
        asked.mode = RRCACHE_NO_STALE;
        RETURNS(0, RRCACHE_BAD_CHOICE);
        asked.purpose = RRCACHE_QUESTION;
        RETURNS(0, RRCACHE_BAD_TYPE);
        asked.rclass = RRCACHE_IN;
        RETURNS(0, RRCACHE_BAD_TYPE);
        asked.rtype = A;
        RETURNS(0, RRCACHE_BAD_NAME);
        parts.seed[0] ^= 1;
        EXPECT(rrcache_make_name(&name, OF(NAME), &parts) == RRCACHE_DONE);
        RETURNS(0, RRCACHE_OTHER_SEED);
        name = name_of(OF(NAME));
        RETURNS(0, RRCACHE_SMALL);
        RETURNS(sizeof buffer, call < ASKS ? RRCACHE_MOMENT_TOO_LARGE : RRCACHE_DONE);
        asked.moment = LAST;
        RETURNS(sizeof buffer, RRCACHE_DONE);
#undef RETURNS
        EXPECT(told.kind == RRCACHE_FRESH && rrcache_free(&shelf) == RRCACHE_DONE);
    }
}

/* Sets of which one field is wrong, or forgotten and so 0. */
static void test_refused_sets(struct rrcache_shelf *shelf)
{
    static const struct rrcache_set zeros = {0};
    struct rrcache_set set;
#define REFUSED(field, value, status)                                                              \
    (set = set_of(OF(NAME), A, OF(ADDRESS)), set.field = (value),                                  \
     EXPECT(set_status(shelf, set) == (status)))
    REFUSED(trust, (enum rrcache_trust)0, RRCACHE_BAD_CHOICE);
    REFUSED(trust, (enum rrcache_trust)5, RRCACHE_BAD_CHOICE);
    REFUSED(rtype, 0, RRCACHE_BAD_TYPE);
    REFUSED(rtype, OPT, RRCACHE_BAD_TYPE);
    REFUSED(rclass, 0, RRCACHE_BAD_TYPE);
    REFUSED(rclass, 254, RRCACHE_BAD_TYPE);
    REFUSED(owner_size, 0, RRCACHE_BAD_NAME);
    REFUSED(owner_size, 3, RRCACHE_BAD_NAME);
    REFUSED(data_size, sizeof ADDRESS - 1, RRCACHE_BAD_DATA);
    REFUSED(data_size, 1, RRCACHE_BAD_DATA);
    REFUSED(rtype, SOA, RRCACHE_BAD_DATA);
    REFUSED(data_size, 0, RRCACHE_WRONG_BODY);
    REFUSED(ttl, 1u << 31, RRCACHE_WRONG_BODY);
    REFUSED(moment, LATE, RRCACHE_MOMENT_TOO_LARGE);
#undef REFUSED
    set = set_of(OF(NO_NAME), A, NULL, 0);
    EXPECT(set_status(shelf, set) == RRCACHE_BAD_NAME);
    set = set_of(OF(NAME), A, NULL, 0);
    EXPECT(set_status(shelf, set) == RRCACHE_WRONG_BODY);
    EXPECT(set_status(shelf, zeros) == RRCACHE_BAD_CHOICE);
}

static void test_refused_negatives(struct rrcache_shelf *shelf)
{
    static const struct rrcache_negative zeros = {0};
    struct rrcache_negative negative;
#define REFUSED(field, value, status)                                                              \
    (negative = negative_of(OF(NAME), A, RRCACHE_NODATA), negative.field = (value),                \
     EXPECT(negative_status(shelf, negative) == (status)))
    for (int kind = 0; kind <= 7; kind++)
        if (kind != RRCACHE_NODATA && kind != RRCACHE_NXDOMAIN)
            REFUSED(kind, (enum rrcache_kind)kind, RRCACHE_BAD_CHOICE);
    REFUSED(trust, (enum rrcache_trust)0, RRCACHE_BAD_CHOICE);
    REFUSED(trust, (enum rrcache_trust)5, RRCACHE_BAD_CHOICE);
    REFUSED(rtype, 0, RRCACHE_BAD_TYPE);
    REFUSED(rtype, OPT, RRCACHE_BAD_TYPE);
    REFUSED(rclass, 0, RRCACHE_BAD_TYPE);
    REFUSED(name_size, 0, RRCACHE_BAD_NAME);
    REFUSED(name_size, 3, RRCACHE_BAD_NAME);
    REFUSED(soa_owner_size, 0, RRCACHE_BAD_NAME);
    REFUSED(soa_owner_size, 3, RRCACHE_BAD_NAME);
    REFUSED(soa_size, 0, RRCACHE_BAD_DATA);
    REFUSED(soa_size, 21, RRCACHE_BAD_DATA);
    REFUSED(ttl, 1u << 31, RRCACHE_WRONG_BODY);
    REFUSED(moment, LATE, RRCACHE_MOMENT_TOO_LARGE);
#undef REFUSED
    negative = negative_of(OF(NAME), 0, RRCACHE_NXDOMAIN);
    negative.rclass = 0;
    EXPECT(negative_status(shelf, negative) == RRCACHE_BAD_TYPE);
    EXPECT(negative_status(shelf, zeros) == RRCACHE_BAD_CHOICE);
}

static void test_refused_failures(struct rrcache_shelf *shelf)
{
    static const struct rrcache_failure zeros = {0};
    struct rrcache_failure failure;
#define REFUSED(field, value, status)                                                              \
    (failure = failure_of(OF(NAME), A), failure.field = (value),                                   \
     EXPECT(failure_status(shelf, failure) == (status)))
    REFUSED(rtype, 0, RRCACHE_BAD_TYPE);
    REFUSED(rtype, OPT, RRCACHE_BAD_TYPE);
    REFUSED(rclass, 0, RRCACHE_BAD_TYPE);
    REFUSED(name_size, 0, RRCACHE_BAD_NAME);
    REFUSED(name_size, 3, RRCACHE_BAD_NAME);
    REFUSED(ttl, 1u << 31, RRCACHE_WRONG_BODY);
    REFUSED(moment, LATE, RRCACHE_MOMENT_TOO_LARGE);
#undef REFUSED
    EXPECT(failure_status(shelf, zeros) == RRCACHE_BAD_TYPE);
}

/* Of a set all that is wrong is put right one by one, and the first refusal that is due is told. */
static void test_order_of_set_refusals(struct rrcache_shelf *shelf)
{
    struct rrcache_set set = {.owner = NO_NAME,
                              .owner_size = sizeof NO_NAME,
                              .rtype = OPT,
                              .rclass = RRCACHE_IN,
                              .ttl = UINT32_MAX,
                              .data = ADDRESS,
                              .data_size = 1,
                              .moment = LATE};
    EXPECT(set_status(shelf, set) == RRCACHE_BAD_CHOICE);
    set.trust = RRCACHE_ADDITIONAL;
    EXPECT(set_status(shelf, set) == RRCACHE_BAD_TYPE);
    set.rtype = A;
    EXPECT(set_status(shelf, set) == RRCACHE_BAD_NAME);
    set.owner = NAME;
    set.owner_size = sizeof NAME;
    EXPECT(set_status(shelf, set) == RRCACHE_BAD_DATA);
    set.data_size = 0;
    EXPECT(set_status(shelf, set) == RRCACHE_WRONG_BODY);
    set.data_size = sizeof ADDRESS;
    EXPECT(set_status(shelf, set) == RRCACHE_WRONG_BODY);
    set.ttl = 60;
    EXPECT(set_status(shelf, set) == RRCACHE_MOMENT_TOO_LARGE);
}

/* What is refused of offers and sweeps leaves no event. */
static void test_refusals(void)
{
    struct rrcache_shelf shelf = {0};
    uint64_t removed = 7;
    EXPECT(make(&shelf) == RRCACHE_DONE);
    test_refused_sets(&shelf);
    test_refused_negatives(&shelf);
    test_refused_failures(&shelf);
    test_order_of_set_refusals(&shelf);
    EXPECT(rrcache_sweep(&shelf, SWEEP(LATE, 1), &removed) == RRCACHE_MOMENT_TOO_LARGE
           && removed == 7);
    EXPECT(is_refused(&shelf, question_by(A, LATE, 3, RRCACHE_NO_STALE), RRCACHE_BAD_CHOICE));
    EXPECT(events(&shelf) == 0 && keys(&shelf) == 0);
    EXPECT(rrcache_free(&shelf) == RRCACHE_DONE);
}

/* ---- Pointers that are null, and memory that overlaps. */

#define IS_NULL(call) EXPECT((call) == RRCACHE_NULL)

/* A pointer that may not be null, where each call tells a reply; a buffer may be where it has no
   octets. */
static void test_null_asks(struct rrcache_shelf *shelf)
{
    struct rrcache_name name = name_of(OF(NAME));
    struct rrcache_question asked = question(A, FIRST);
    struct rrcache_stored stored;
    struct rrcache_told told;
    uint8_t buffer[64];
    for (int call = 0; call < ASKINGS; call++) {
        IS_NULL(ASKING[call](NULL, &name, &asked, &told, OF(buffer)));
        IS_NULL(ASKING[call](shelf, NULL, &asked, &told, OF(buffer)));
        IS_NULL(ASKING[call](shelf, &name, NULL, &told, OF(buffer)));
        IS_NULL(ASKING[call](shelf, &name, &asked, NULL, OF(buffer)));
        IS_NULL(ASKING[call](shelf, &name, &asked, &told, NULL, 1));
    }
    EXPECT(rrcache_peek(shelf, &name, &asked, &told, NULL, 0) == RRCACHE_DONE);
    IS_NULL(rrcache_tell_stored(NULL, &name, &asked, &stored));
    IS_NULL(rrcache_tell_stored(shelf, NULL, &asked, &stored));
    IS_NULL(rrcache_tell_stored(shelf, &name, NULL, &stored));
    IS_NULL(rrcache_tell_stored(shelf, &name, &asked, NULL));
    IS_NULL(rrcache_make_name(NULL, OF(NAME), PARTED(1)));
    IS_NULL(rrcache_make_name(&name, NULL, 1, PARTED(1)));
    IS_NULL(rrcache_make_name(&name, OF(NAME), NULL));
}

/* The same of calls that read a message. */
static void test_null_readings(void)
{
    struct rrcache_offers offers = {0};
    struct rrcache_response response = response_of(OF(ALIAS)), no_octets = response_of(NULL, 1),
                            no_zone = response;
    struct rrcache_query query = query_of(OF(NAME)), no_name = query_of(NULL, 1);
    uint64_t concerned;
    no_zone.zone = NULL;
    IS_NULL(read_message(NULL, response, PARTS, &concerned));
    IS_NULL(read_message(&offers, response, PARTS, NULL));
    IS_NULL(read_message(&offers, no_octets, PARTS, &concerned));
    IS_NULL(read_message(&offers, no_zone, PARTS, &concerned));
    IS_NULL(rrcache_read_message_unchecked(&offers, NULL, PARTED(PARTS), &concerned));
    IS_NULL(rrcache_read_message_unchecked(&offers, &response, NULL, &concerned));
    IS_NULL(read_response(NULL, response, query, &concerned));
    IS_NULL(read_response(&offers, response, query, NULL));
    IS_NULL(read_response(&offers, response, no_name, &concerned));
    IS_NULL(read_response(&offers, no_octets, query, &concerned));
    IS_NULL(read_response(&offers, no_zone, query, &concerned));
    IS_NULL(rrcache_read_response(&offers, NULL, &query, PARTED(1), &concerned));
    IS_NULL(rrcache_read_response(&offers, &response, NULL, PARTED(1), &concerned));
    IS_NULL(rrcache_read_response(&offers, &response, &query, NULL, &concerned));
    IS_NULL(rrcache_free_offers(NULL));
    EXPECT(!offers.is_live);
}

/* A pointer that may not be null, of a response that the caller parsed. */
static void test_null_composing(void)
{
    struct rrcache_query query = query_of(OF(NAME)), no_name = query_of(NULL, 1);
    struct rrcache_parsed_set good = parsed_set(RRCACHE_ANSWER_SECTION, OF(NAME), A, OF(ADDRESS)),
                              sets[] = {good, good};
    struct rrcache_parsed_response parsed = parsed_of(sets, 2), no_sets = parsed_of(NULL, 1);
    uint8_t buffer[64];
    size_t size = 7;
    IS_NULL(rrcache_compose_response(NULL, &parsed, OF(buffer), &size));
    IS_NULL(rrcache_compose_response(&no_name, &parsed, OF(buffer), &size));
    IS_NULL(rrcache_compose_response(&query, NULL, OF(buffer), &size));
    IS_NULL(rrcache_compose_response(&query, &no_sets, OF(buffer), &size));
    IS_NULL(rrcache_compose_response(&query, &parsed, NULL, 1, &size));
    IS_NULL(rrcache_compose_response(&query, &parsed, OF(buffer), NULL));
    sets[1].owner = NULL;
    IS_NULL(rrcache_compose_response(&query, &parsed, OF(buffer), &size));
    /* It is told before an overlap and before what the sets are refused for. */
    sets[0] = parsed_set((enum rrcache_section)0, buffer, 1, 0, NULL, 0);
    IS_NULL(rrcache_compose_response(&query, &parsed, OF(buffer), &size));
    sets[1] = good;
    sets[1].data = NULL;
    IS_NULL(rrcache_compose_response(&query, &parsed, OF(buffer), &size));
    EXPECT(size == 7);
    sets[0] = sets[1] = good;
    EXPECT(rrcache_compose_response(&query, &parsed, NULL, 0, &size) == RRCACHE_SMALL
           && size == 61);
}

static void test_null_messages(struct rrcache_shelf *shelf)
{
    struct rrcache_offers offers = {0};
    struct rrcache_response response = response_of(OF(ALIAS)), no_octets = response_of(NULL, 1),
                            no_zone = response;
    struct rrcache_counts counts;
    no_zone.zone = NULL;
    IS_NULL(offer_message(NULL, response, &counts));
    IS_NULL(offer_message(shelf, response, NULL));
    IS_NULL(offer_message(shelf, no_octets, &counts));
    IS_NULL(offer_message(shelf, no_zone, &counts));
    IS_NULL(rrcache_offer_message_unchecked(shelf, NULL, 1, &counts));
    IS_NULL(offer_part(NULL, response, PARTS, 0, &counts));
    IS_NULL(offer_part(shelf, response, PARTS, 0, NULL));
    IS_NULL(offer_part(shelf, no_octets, PARTS, 0, &counts));
    IS_NULL(offer_part(shelf, no_zone, PARTS, 0, &counts));
    IS_NULL(rrcache_offer_part_unchecked(shelf, NULL, PARTED(1), SHARE(0), &counts));
    IS_NULL(rrcache_offer_part_unchecked(shelf, &response, NULL, SHARE(0), &counts));
    IS_NULL(rrcache_offer_part_unchecked(shelf, &response, PARTED(1), NULL, &counts));
    IS_NULL(rrcache_offer_read(NULL, &offers, SHARE(0), &counts));
    IS_NULL(rrcache_offer_read(shelf, NULL, SHARE(0), &counts));
    IS_NULL(rrcache_offer_read(shelf, &offers, NULL, &counts));
    IS_NULL(rrcache_offer_read(shelf, &offers, SHARE(0), NULL));
}

static void test_null_offers(struct rrcache_shelf *shelf)
{
    struct rrcache_set set = set_of(OF(NAME), A, OF(ADDRESS));
    struct rrcache_negative negative = negative_of(OF(NAME), A, RRCACHE_NODATA);
    struct rrcache_failure failure = failure_of(OF(NAME), A);
    uint32_t outcome;
    IS_NULL(rrcache_offer_set(NULL, &set, &outcome));
    IS_NULL(rrcache_offer_set(shelf, NULL, &outcome));
    IS_NULL(rrcache_offer_set(shelf, &set, NULL));
    IS_NULL(set_status(shelf, set_of(NULL, 1, A, OF(ADDRESS))));
    IS_NULL(set_status(shelf, set_of(OF(NAME), A, NULL, 1)));
    IS_NULL(rrcache_offer_negative(NULL, &negative, &outcome));
    IS_NULL(rrcache_offer_negative(shelf, NULL, &outcome));
    IS_NULL(rrcache_offer_negative(shelf, &negative, NULL));
    IS_NULL(negative_status(shelf, negative_of(NULL, 1, A, RRCACHE_NODATA)));
    negative.soa_owner = NULL;
    IS_NULL(negative_status(shelf, negative));
    negative.soa_owner = EXAMPLE;
    negative.soa = NULL;
    IS_NULL(negative_status(shelf, negative));
    IS_NULL(rrcache_offer_failure(NULL, &failure, &outcome));
    IS_NULL(rrcache_offer_failure(shelf, NULL, &outcome));
    IS_NULL(rrcache_offer_failure(shelf, &failure, NULL));
    IS_NULL(failure_status(shelf, failure_of(NULL, 1, A)));
}

static void test_null_upkeep(struct rrcache_shelf *shelf)
{
    struct rrcache_swept swept;
    struct rrcache_trimmed trimmed;
    struct rrcache_usage sizes;
    uint64_t number;
    uint32_t fault;
    IS_NULL(rrcache_make(NULL, RULES(1, 1, 0)));
    IS_NULL(rrcache_make(shelf, NULL));
    IS_NULL(rrcache_free(NULL));
    IS_NULL(rrcache_record(NULL));
    IS_NULL(rrcache_stop_and_drop(NULL));
    IS_NULL(rrcache_sweep(NULL, SWEEP(FIRST, 1), &number));
    IS_NULL(rrcache_sweep(shelf, NULL, &number));
    IS_NULL(rrcache_sweep(shelf, SWEEP(FIRST, 1), NULL));
    IS_NULL(rrcache_sweep_some(NULL, SWEEP(FIRST, 1), &swept));
    IS_NULL(rrcache_sweep_some(shelf, NULL, &swept));
    IS_NULL(rrcache_sweep_some(shelf, SWEEP(FIRST, 1), NULL));
    IS_NULL(rrcache_trim(NULL, TRIM(FIRST, 1, 1), &trimmed));
    IS_NULL(rrcache_trim(shelf, NULL, &trimmed));
    IS_NULL(rrcache_trim(shelf, TRIM(FIRST, 1, 1), NULL));
    IS_NULL(rrcache_next_expiry(NULL, &number));
    IS_NULL(rrcache_next_expiry(shelf, NULL));
    IS_NULL(rrcache_drop_chapters(NULL, &number));
    IS_NULL(rrcache_drop_chapters(shelf, NULL));
    IS_NULL(rrcache_sizes(NULL, &sizes));
    IS_NULL(rrcache_sizes(shelf, NULL));
    IS_NULL(rrcache_fault(NULL, 1, &fault));
    IS_NULL(rrcache_fault(OF(ANSWER), NULL));
}

static void test_null_chapters(struct rrcache_shelf *shelf)
{
    struct rrcache_chapters chapters = {0};
    struct rrcache_line told;
    uint64_t count;
    uint8_t buffer[32];
    IS_NULL(rrcache_take_chapters(NULL, &chapters, &count));
    IS_NULL(rrcache_take_chapters(shelf, NULL, &count));
    IS_NULL(rrcache_take_chapters(shelf, &chapters, NULL));
    IS_NULL(rrcache_stop_recording(NULL, &chapters, &count));
    IS_NULL(rrcache_stop_recording(shelf, NULL, &count));
    IS_NULL(rrcache_stop_recording(shelf, &chapters, NULL));
    IS_NULL(rrcache_chapter_line(NULL, PLACE(0, 0, 0), OF(buffer), &told));
    IS_NULL(rrcache_chapter_line(&chapters, NULL, OF(buffer), &told));
    IS_NULL(rrcache_chapter_line(&chapters, PLACE(0, 0, 0), NULL, 1, &told));
    IS_NULL(rrcache_chapter_line(&chapters, PLACE(0, 0, 0), OF(buffer), NULL));
    IS_NULL(rrcache_write_line(NULL, PLACE(0, 0, 0), write_text, NULL));
    IS_NULL(rrcache_write_line(&chapters, NULL, write_text, NULL));
    IS_NULL(rrcache_write_line(&chapters, PLACE(0, 0, 0), NULL, NULL));
    IS_NULL(rrcache_write_chapter(NULL, 0, write_text, NULL));
    IS_NULL(rrcache_write_chapter(&chapters, 0, NULL, NULL));
    IS_NULL(rrcache_free_chapters(NULL));
    EXPECT(!chapters.is_live);
}

static void test_null(void)
{
    struct rrcache_shelf shelf = {0};
    EXPECT(make(&shelf) == RRCACHE_DONE);
    test_null_asks(&shelf);
    test_null_readings();
    test_null_composing();
    test_null_messages(&shelf);
    test_null_offers(&shelf);
    test_null_upkeep(&shelf);
    test_null_chapters(&shelf);
    EXPECT(events(&shelf) == 0 && rrcache_free(&shelf) == RRCACHE_DONE);
}

/* One stretch of memory that all lies in which a call is handed, each pair of what it writes and
   what else it is handed overlapping in turn. The handle lies at SHELF, and the rest before it. */
enum { ROOM = 2048, SHELF = 1024, END = SHELF + sizeof(struct rrcache_shelf) };

static uint8_t *memory;

#define AT(type, place) ((type *)(void *)(memory + (place)))
#define OVERLAPS(call)  EXPECT((call) == RRCACHE_OVERLAP)

/* Where a name, a question, what is told and a buffer lie. */
enum { TOLD = 128, NAMED = 256, ASKED = 704, BUFFER = 832 };

static void place_question(size_t place)
{
    struct rrcache_question asked = question(A, FIRST);
    memcpy(memory + place, &asked, sizeof asked);
}

static void test_overlaps_of_an_ask(struct rrcache_shelf *shelf, asking call)
{
    const struct rrcache_name *name = AT(struct rrcache_name, NAMED);
    const struct rrcache_question *asked = AT(struct rrcache_question, ASKED);
    struct rrcache_told *told = AT(struct rrcache_told, TOLD);
    uint8_t *buffer = memory + BUFFER;
    /* The handle with what is told, before it and behind it, and with the buffer. */
    OVERLAPS(call(shelf, name, asked, AT(struct rrcache_told, END - 8), buffer, 64));
    OVERLAPS(
        call(shelf, name, asked, AT(struct rrcache_told, SHELF + 8 - sizeof *told), buffer, 64));
    OVERLAPS(call(shelf, name, asked, told, memory + END - 1, 8));
    OVERLAPS(call(shelf, name, asked, told, memory + SHELF - 7, 8));
    /* The two with each other, and with what is read. */
    OVERLAPS(call(shelf, name, asked, told, memory + TOLD + sizeof *told - 1, 8));
    OVERLAPS(call(shelf, name, asked, told, memory + TOLD - 7, 8));
    OVERLAPS(
        call(shelf, name, asked, AT(struct rrcache_told, NAMED + sizeof *name - 8), buffer, 64));
    OVERLAPS(
        call(shelf, name, asked, AT(struct rrcache_told, ASKED + sizeof *asked - 8), buffer, 8));
    OVERLAPS(call(shelf, name, asked, told, memory + NAMED + sizeof *name - 1, 8));
    OVERLAPS(call(shelf, name, asked, told, memory + ASKED + sizeof *asked - 1, 8));
}

/* What a call that writes into the shelf reads may not overlap the handle. */
static void test_overlaps_of_what_is_asked(struct rrcache_shelf *shelf, asking call, bool writes)
{
    const struct rrcache_name *name = AT(struct rrcache_name, NAMED);
    const struct rrcache_question *asked = AT(struct rrcache_question, ASKED);
    struct rrcache_told *told = AT(struct rrcache_told, TOLD);
    uint8_t *buffer = memory + BUFFER;
    /* Behind the handle all is 0. */
    EXPECT(call(shelf, AT(struct rrcache_name, END - 8), asked, told, buffer, 64)
           == (writes ? RRCACHE_OVERLAP : RRCACHE_BAD_NAME));
    EXPECT(call(shelf, name, AT(struct rrcache_question, END - 8), told, buffer, 64)
           == (writes ? RRCACHE_OVERLAP : RRCACHE_BAD_CHOICE));
}

/* What is only read may overlap, and what lies side by side is no overlap, nor are no octets. */
static void test_no_overlaps_of_an_ask(struct rrcache_shelf *shelf, asking call)
{
    const struct rrcache_name *name = AT(struct rrcache_name, NAMED);
    const struct rrcache_question *asked = AT(struct rrcache_question, ASKED);
    struct rrcache_told *told = AT(struct rrcache_told, TOLD);
    EXPECT(call(shelf, name, AT(struct rrcache_question, NAMED + 128), told, memory + BUFFER, 64)
           == RRCACHE_DONE);
    EXPECT(call(shelf, name, asked, told, memory + TOLD + sizeof *told, 8) == RRCACHE_DONE
           && call(shelf, name, asked, told, memory + NAMED + sizeof *name, 8) == RRCACHE_DONE
           && call(shelf, name, asked, told, memory + SHELF - 8, 8) == RRCACHE_DONE
           && call(shelf, name, asked, told, memory + END, 8) == RRCACHE_DONE);
    EXPECT(call(shelf, name, asked, told, memory + TOLD, 0) == RRCACHE_DONE
           && call(shelf, name, asked, told, memory + SHELF + 1, 0) == RRCACHE_DONE);
}

static void test_overlaps_of_asks(struct rrcache_shelf *shelf)
{
    struct rrcache_name name = name_of(OF(NAME));
    memcpy(memory + NAMED, &name, sizeof name);
    place_question(ASKED);
    for (int call = 0; call < ASKINGS; call++) {
        test_overlaps_of_an_ask(shelf, ASKING[call]);
        test_overlaps_of_what_is_asked(shelf, ASKING[call], call < ASKS);
    }
    OVERLAPS(rrcache_tell_stored(shelf, AT(struct rrcache_name, NAMED),
                                 AT(struct rrcache_question, ASKED),
                                 AT(struct rrcache_stored, END - 8)));
    OVERLAPS(rrcache_tell_stored(shelf, AT(struct rrcache_name, NAMED),
                                 AT(struct rrcache_question, ASKED),
                                 AT(struct rrcache_stored, NAMED + sizeof name - 8)));
    OVERLAPS(rrcache_tell_stored(shelf, AT(struct rrcache_name, NAMED),
                                 AT(struct rrcache_question, ASKED),
                                 AT(struct rrcache_stored, ASKED + 24)));
}

/* Whether both calls that offer a message say that something overlaps. */
static bool offers_overlap(struct rrcache_shelf *shelf, struct rrcache_response response,
                           struct rrcache_counts *counts)
{
    return offer_message(shelf, response, counts) == RRCACHE_OVERLAP
           && offer_part(shelf, response, 1, 0, counts) == RRCACHE_OVERLAP;
}

/* Whether both that read one do. */
static bool readings_overlap(struct rrcache_offers *offers, struct rrcache_response response,
                             uint64_t *concerned)
{
    return read_message(offers, response, 1, concerned) == RRCACHE_OVERLAP
           && read_response(offers, response, query_of(OF(NAME)), concerned) == RRCACHE_OVERLAP;
}

/* A response whose zone lies there. */
static struct rrcache_response response_of_zone(const uint8_t *zone, size_t size)
{
    struct rrcache_response response = response_of(OF(ALIAS));
    response.zone = zone;
    response.zone_size = size;
    return response;
}

/* A message, its zone and what it is compared with. What is counted lies at 64, offers at 0. */
static void test_overlaps_of_messages(struct rrcache_shelf *shelf)
{
    struct rrcache_counts *counts = AT(struct rrcache_counts, 64);
    struct rrcache_offers *offers = AT(struct rrcache_offers, 0);
    struct rrcache_response response = response_of(OF(ALIAS));
    uint64_t *concerned = AT(uint64_t, 64);
    uint8_t *const of_shelf = memory + END - 1, *const of_offers = memory + sizeof *offers - 1;
    EXPECT(offers_overlap(shelf, response, AT(struct rrcache_counts, END - 8)));
    EXPECT(offers_overlap(shelf, response_of(of_shelf, 8), counts));
    EXPECT(offers_overlap(shelf, response_of_zone(of_shelf, 8), counts));
    EXPECT(offers_overlap(shelf, response_of(memory + 64 + sizeof *counts - 1, 8), counts));
    EXPECT(offers_overlap(shelf, response_of_zone(memory + 64 + sizeof *counts - 1, 8), counts));

    EXPECT(readings_overlap(offers, response, AT(uint64_t, sizeof *offers - 8)));
    EXPECT(readings_overlap(offers, response_of(of_offers, 8), concerned));
    EXPECT(readings_overlap(offers, response_of_zone(of_offers, 8), concerned));
    EXPECT(readings_overlap(offers, response_of(memory + 71, 8), concerned));
    EXPECT(readings_overlap(offers, response_of_zone(memory + 71, 8), concerned));
    OVERLAPS(read_response(offers, response, query_of(of_offers, 8), concerned));
    OVERLAPS(read_response(offers, response, query_of(memory + 71, 8), concerned));

    OVERLAPS(rrcache_offer_read(shelf, AT(struct rrcache_offers, END - 8), SHARE(0), counts));
    OVERLAPS(rrcache_offer_read(shelf, offers, SHARE(0), AT(struct rrcache_counts, END - 8)));
    OVERLAPS(rrcache_offer_read(shelf, offers, SHARE(0), AT(struct rrcache_counts, 8)));
    OVERLAPS(rrcache_offer_read(shelf, offers, AT(struct rrcache_share, END - 8), counts));
    OVERLAPS(rrcache_offer_read(shelf, offers, AT(struct rrcache_share, 8), counts));
    OVERLAPS(rrcache_offer_read(shelf, offers, AT(struct rrcache_share, 80), counts));
}

/* The octets of an offer with what it was told: a name at NAMED, what is told at TOLD, a buffer. A
   size that they overwrote there would be that of octets behind the buffer. */
static void test_overlaps_of_octets(void)
{
    const struct rrcache_name *name = AT(struct rrcache_name, NAMED);
    struct rrcache_told *told = AT(struct rrcache_told, TOLD);
    const uint8_t *buffer = memory + BUFFER;
    memset(told, 0, sizeof *told);
    told->kind = RRCACHE_FRESH;
    told->data_size = 6;
    OVERLAPS(rrcache_tell_octets(name, told, buffer, 64, &told->data_size));
    OVERLAPS(rrcache_tell_octets(name, told, buffer, 64, AT(uint64_t, NAMED + sizeof *name - 8)));
    OVERLAPS(rrcache_tell_octets(name, told, buffer, 64, AT(uint64_t, BUFFER + 56)));
    OVERLAPS(rrcache_tell_octets(name, told, buffer, 63, AT(uint64_t, BUFFER + 56)));
    IS_NULL(rrcache_tell_octets(name, told, NULL, 64, &told->data_size));
    EXPECT(rrcache_tell_octets(name, told, buffer, 5, &told->data_size) == RRCACHE_OVERLAP
           && told->data_size == 6);
    EXPECT(rrcache_tell_octets(name, told, buffer, 56, AT(uint64_t, BUFFER + 56)) == RRCACHE_DONE
           && *AT(uint64_t, BUFFER + 56) != 0);
}

/* What is composed lies at BUFFER, and how many octets it has at 64. The query and what a response
   was parsed to are read before anything is written, but for its array of sets. */
static void test_overlaps_of_composing(void)
{
    uint8_t *const buffer = memory + BUFFER, *const places[] = {buffer - 7, buffer + 63,
                                                                memory + 57, memory + 71};
    struct rrcache_query query = query_of(OF(NAME));
    struct rrcache_parsed_set good = parsed_set(RRCACHE_ANSWER_SECTION, OF(NAME), A, OF(ADDRESS)),
                              sets[] = {good, good};
    struct rrcache_parsed_response parsed = parsed_of(sets, 2);
    size_t *size = AT(size_t, 64);
#define COMPOSING rrcache_compose_response(&query, &parsed, buffer, 64, size)
    OVERLAPS(rrcache_compose_response(&query, &parsed, buffer, 64, AT(size_t, BUFFER)));
    OVERLAPS(rrcache_compose_response(&query, &parsed, buffer, 64, AT(size_t, BUFFER + 56)));
    for (int n = 0; n < 4; n++) {
        query = query_of(places[n], 8);
        OVERLAPS(COMPOSING);
        query = query_of(OF(NAME));
        sets[1] = parsed_set((enum rrcache_section)0, places[n], 8, 0, OF(ADDRESS));
        OVERLAPS(COMPOSING);
        sets[1] = parsed_set((enum rrcache_section)0, OF(NAME), 0, places[n], 8);
        OVERLAPS(COMPOSING);
        sets[1] = good;
    }
    parsed.sets = AT(struct rrcache_parsed_set, BUFFER + 56);
    memcpy(memory + BUFFER + 56, sets, sizeof *sets);
    parsed.count = 1;
    OVERLAPS(COMPOSING);
    parsed.sets = AT(struct rrcache_parsed_set, 64);
    memcpy(memory + 64, sets, sizeof *sets);
    OVERLAPS(COMPOSING);
    parsed = parsed_of(sets, 2);
#undef COMPOSING
    memcpy(buffer, &query, sizeof query);
    memcpy(memory + 64, &parsed, sizeof parsed);
    EXPECT(rrcache_compose_response(AT(struct rrcache_query, BUFFER),
                                    AT(struct rrcache_parsed_response, 64), buffer, 64, size)
               == RRCACHE_DONE
           && *size == 61 && buffer[0] == 0x12 && buffer[7] == 2);
}

/* A negative answer of which one list of octets lies elsewhere: its name, its SOA record's owner or
   that record's data. */
static struct rrcache_negative negative_at(int which, const uint8_t *octets, size_t size)
{
    struct rrcache_negative negative = negative_of(OF(NAME), A, RRCACHE_NODATA);
    if (which == 0) {
        negative.name = octets;
        negative.name_size = size;
    } else if (which == 1) {
        negative.soa_owner = octets;
        negative.soa_owner_size = size;
    } else {
        negative.soa = octets;
        negative.soa_size = size;
    }
    return negative;
}

/* What is offered and its outcome, which lies at 64. */
static void test_overlaps_of_offers(struct rrcache_shelf *shelf)
{
    uint32_t *const outcome = AT(uint32_t, 64), *const in_shelf = AT(uint32_t, END - 4);
    const uint8_t *const places[] = {memory + END - 1, memory + 64 + sizeof *outcome - 1};
    struct rrcache_set set = set_of(OF(NAME), A, OF(ADDRESS));
    struct rrcache_negative negative = negative_of(OF(NAME), A, RRCACHE_NODATA);
    struct rrcache_failure failure = failure_of(OF(NAME), A);
    OVERLAPS(rrcache_offer_set(shelf, &set, in_shelf));
    OVERLAPS(rrcache_offer_negative(shelf, &negative, in_shelf));
    OVERLAPS(rrcache_offer_failure(shelf, &failure, in_shelf));
    for (int place = 0; place < 2; place++) {
        set = set_of(places[place], 8, A, OF(ADDRESS));
        OVERLAPS(rrcache_offer_set(shelf, &set, outcome));
        set = set_of(OF(NAME), A, places[place], 8);
        OVERLAPS(rrcache_offer_set(shelf, &set, outcome));
        for (int which = 0; which < 3; which++) {
            negative = negative_at(which, places[place], 8);
            OVERLAPS(rrcache_offer_negative(shelf, &negative, outcome));
        }
        failure = failure_of(places[place], 8, A);
        OVERLAPS(rrcache_offer_failure(shelf, &failure, outcome));
    }
}

static void test_overlaps_of_upkeep(struct rrcache_shelf *shelf)
{
    struct rrcache_sweep_at terms = *SWEEP(FIRST, 1);
    memcpy(memory + 64, &terms, sizeof terms);
    OVERLAPS(rrcache_make(shelf, AT(struct rrcache_rules, END - 8)));
    OVERLAPS(rrcache_sweep(shelf, SWEEP(FIRST, 1), AT(uint64_t, END - 8)));
    OVERLAPS(rrcache_sweep(shelf, AT(struct rrcache_sweep_at, END - 8), AT(uint64_t, 0)));
    OVERLAPS(rrcache_sweep(shelf, AT(struct rrcache_sweep_at, 64), AT(uint64_t, 80)));
    OVERLAPS(rrcache_sweep_some(shelf, SWEEP(FIRST, 1), AT(struct rrcache_swept, END - 8)));
    OVERLAPS(rrcache_sweep_some(shelf, AT(struct rrcache_sweep_at, END - 8),
                                AT(struct rrcache_swept, 0)));
    OVERLAPS(
        rrcache_sweep_some(shelf, AT(struct rrcache_sweep_at, 64), AT(struct rrcache_swept, 80)));
    OVERLAPS(rrcache_trim(shelf, TRIM(FIRST, 1, 1), AT(struct rrcache_trimmed, END - 8)));
    OVERLAPS(
        rrcache_trim(shelf, AT(struct rrcache_trim_to, END - 8), AT(struct rrcache_trimmed, 0)));
    OVERLAPS(rrcache_trim(shelf, AT(struct rrcache_trim_to, 64), AT(struct rrcache_trimmed, 88)));
    OVERLAPS(rrcache_next_expiry(shelf, AT(uint64_t, END - 8)));
    OVERLAPS(rrcache_drop_chapters(shelf, AT(uint64_t, END - 8)));
    OVERLAPS(rrcache_sizes(shelf, AT(struct rrcache_usage, END - 8)));
    OVERLAPS(rrcache_fault(memory + 67, 8, AT(uint32_t, 64)));
    OVERLAPS(rrcache_make_name(AT(struct rrcache_name, 0), memory + sizeof(struct rrcache_name) - 1,
                               8, PARTED(1)));
    OVERLAPS(rrcache_make_name(AT(struct rrcache_name, 0), OF(NAME),
                               AT(struct rrcache_parts, sizeof(struct rrcache_name) - 8)));
}

/* Chapters lie at 0, and what is told of their lines at 64. */
static void test_overlaps_of_chapters(struct rrcache_shelf *shelf)
{
    struct rrcache_chapters *chapters = AT(struct rrcache_chapters, 0);
    struct rrcache_line *told = AT(struct rrcache_line, 64);
    const struct rrcache_place *place = AT(struct rrcache_place, 128);
    uint64_t *count = AT(uint64_t, 64);
    uint8_t *buffer = memory + BUFFER;
    OVERLAPS(rrcache_take_chapters(shelf, AT(struct rrcache_chapters, END - 8), count));
    OVERLAPS(rrcache_take_chapters(shelf, chapters, AT(uint64_t, END - 8)));
    OVERLAPS(rrcache_take_chapters(shelf, chapters, AT(uint64_t, 8)));
    OVERLAPS(rrcache_stop_recording(shelf, AT(struct rrcache_chapters, END - 8), count));
    OVERLAPS(rrcache_stop_recording(shelf, chapters, AT(uint64_t, END - 8)));
    OVERLAPS(rrcache_stop_recording(shelf, chapters, AT(uint64_t, 8)));
    OVERLAPS(rrcache_chapter_line(chapters, place, buffer, 8, AT(struct rrcache_line, 8)));
    OVERLAPS(rrcache_chapter_line(chapters, place, memory + sizeof *chapters - 1, 8, told));
    OVERLAPS(rrcache_chapter_line(chapters, place, memory + 64 + sizeof *told - 1, 8, told));
    OVERLAPS(rrcache_chapter_line(chapters, AT(struct rrcache_place, 8), buffer, 8, told));
    OVERLAPS(rrcache_chapter_line(chapters, AT(struct rrcache_place, 72), buffer, 8, told));
    OVERLAPS(rrcache_chapter_line(chapters, place, memory + 128 + sizeof *place - 1, 8, told));
}

/* A null pointer is told before an overlap, and that before a handle that holds nothing. */
static void test_order_of_overlaps(struct rrcache_shelf *shelf)
{
    struct rrcache_shelf empty = {0};
    struct rrcache_name name = name_of(OF(NAME));
    struct rrcache_question asked = question(A, FIRST);
    struct rrcache_response response = response_of(memory, 8);
    IS_NULL(rrcache_sweep(shelf, NULL, AT(uint64_t, END - 8)));
    IS_NULL(rrcache_ask(shelf, NULL, &asked, AT(struct rrcache_told, END - 8), memory, 8));
    IS_NULL(rrcache_read_message_unchecked(AT(struct rrcache_offers, 0), &response, NULL,
                                           AT(uint64_t, 64)));
    IS_NULL(rrcache_read_response(AT(struct rrcache_offers, 0), &response, NULL, PARTED(1),
                                  AT(uint64_t, 64)));
    IS_NULL(rrcache_offer_part_unchecked(shelf, &response, PARTED(1), NULL,
                                         AT(struct rrcache_counts, 0)));
    OVERLAPS(rrcache_next_expiry(&empty, (uint64_t *)(void *)&empty));
    OVERLAPS(rrcache_ask(&empty, &name, &asked, AT(struct rrcache_told, 0), memory, 8));
}

static void test_overlaps(void)
{
    struct rrcache_shelf held;
    memory = calloc(1, ROOM);
    if (memory == NULL)
        exit(2);
    struct rrcache_shelf *shelf = AT(struct rrcache_shelf, SHELF);
    OVERLAPS(rrcache_make(shelf, AT(struct rrcache_rules, END - 8)));
    EXPECT(!shelf->is_live && make(shelf) == RRCACHE_DONE);
    memcpy(&held, shelf, sizeof held);
    test_overlaps_of_asks(shelf);
    test_overlaps_of_messages(shelf);
    test_overlaps_of_octets();
    test_overlaps_of_composing();
    test_overlaps_of_offers(shelf);
    test_overlaps_of_upkeep(shelf);
    test_overlaps_of_chapters(shelf);
    test_order_of_overlaps(shelf);

    /* Nothing was written. */
    EXPECT(memcmp(&held, shelf, sizeof held) == 0 && events(shelf) == 0);
    place_question(NAMED + 128);
    for (int call = 0; call < ASKINGS; call++)
        test_no_overlaps_of_an_ask(shelf, ASKING[call]);
    struct rrcache_negative denial = negative_at(1, memory + BUFFER, sizeof NAME);
    memcpy(memory + BUFFER, NAME, sizeof NAME);
    denial.name = memory + BUFFER;
    EXPECT(offer_negative(shelf, denial) == RRCACHE_KEPT && rrcache_free(shelf) == RRCACHE_DONE);
    free(memory);
}

#ifdef REFUSE
/* ---- Each allocation refused in turn. */

#include "refused.h"

/* What a shelf answers, and how many keys and events it has. A chapter that was full may be closed
   by a call that is refused, so events are counted over all chapters of four. */
struct state {
    uint64_t keys, events, octets;
    struct reply reply;
};

static struct state state_of(struct rrcache_shelf *shelf)
{
    long before = granted;
    granted = -1;
    struct rrcache_usage sizes = sizes_of(shelf);
    struct state state = {
        .keys = sizes.keys, .events = sizes.events + 4 * sizes.chapters, .octets = sizes.octets};
    state.reply = peeked(shelf, OF(NAME), question(A, FIRST));
    granted = before;
    return state;
}

static bool are_same_states(const struct state *one, const struct state *other)
{
    return one->keys == other->keys && one->events == other->events && one->octets == other->octets
           && are_same(&one->reply, &other->reply);
}

static const uint8_t LONG[] = "\46a-label-that-is-longer-than-most-names\7example";
/* The part of OTHER. */
static uint64_t target;
/* What one call reads, the next one offers and the one after that frees. */
static struct rrcache_offers offers;
/* The same of the chapters that calls take. */
static struct rrcache_chapters chapters;

/* How one of the calls that tell a reply answers a question about a name. */
static uint32_t call_asking(asking call, struct rrcache_shelf *shelf, const uint8_t *octets,
                            size_t size)
{
    struct rrcache_name name = name_of(octets, size);
    struct rrcache_question asked = question(A, FIRST);
    struct rrcache_told told;
    uint8_t buffer[64];
    return call(shelf, &name, &asked, &told, OF(buffer));
}

static uint32_t call_answer(struct rrcache_shelf *shelf)
{
    struct rrcache_counts counts;
    return offer_answer(shelf, FIRST, &counts);
}

static uint32_t call_ask(struct rrcache_shelf *shelf)
{
    return call_asking(to_ask, shelf, OF(UPPER));
}

static uint32_t call_ask_alias(struct rrcache_shelf *shelf)
{
    return call_asking(to_ask_alias, shelf, OF(UPPER));
}

static uint32_t call_set(struct rrcache_shelf *shelf)
{
    return set_status(shelf, set_of(OF(OTHER), A, OF(ADDRESS)));
}

/* One key goes, that of www.example, whose set has two addresses. Its event is the first of a
   chapter, since it is the fifth. */
static uint32_t call_trim(struct rrcache_shelf *shelf)
{
    struct rrcache_trimmed trimmed = {7, 7};
    uint32_t status = rrcache_trim(shelf, TRIM(FIRST, 2 * A_SET, 9), &trimmed);
    bool is_done = status == RRCACHE_DONE;
    EXPECT(trimmed.removed == (is_done ? 1 : 7) && trimmed.octets == (is_done ? A_SET : 7));
    return status;
}

static uint32_t call_negative(struct rrcache_shelf *shelf)
{
    return negative_status(shelf, negative_of(OF(OTHER), TXT, RRCACHE_NODATA));
}

static uint32_t call_failure(struct rrcache_shelf *shelf)
{
    return failure_status(shelf, failure_of(OF(NAME), TXT));
}

/* One step, that removes the failure. */
static uint32_t call_sweep_some(struct rrcache_shelf *shelf)
{
    struct rrcache_swept swept;
    return rrcache_sweep_some(shelf, SWEEP(FIRST + 30, 1), &swept);
}

static uint32_t call_sweep(struct rrcache_shelf *shelf)
{
    uint64_t removed;
    return rrcache_sweep(shelf, SWEEP(FIRST + 10000, 0), &removed);
}

static uint32_t call_fault(struct rrcache_shelf *shelf)
{
    uint32_t fault;
    (void)shelf;
    return rrcache_fault(OF(ANSWER), &fault);
}

static uint32_t call_peek(struct rrcache_shelf *shelf)
{
    return call_asking(to_peek, shelf, OF(LONG));
}

static uint32_t call_peek_alias(struct rrcache_shelf *shelf)
{
    return call_asking(to_peek_alias, shelf, OF(LONG));
}

static uint32_t call_stored(struct rrcache_shelf *shelf)
{
    struct rrcache_name name = name_of(OF(LONG));
    struct rrcache_question asked = question(A, FIRST);
    struct rrcache_stored stored;
    return rrcache_tell_stored(shelf, &name, &asked, &stored);
}

static uint32_t call_part(struct rrcache_shelf *shelf)
{
    struct rrcache_counts counts;
    return offer_alias(shelf, PARTS, target, FIRST, &counts);
}

static uint32_t call_read(struct rrcache_shelf *shelf)
{
    uint64_t concerned;
    (void)shelf;
    return read_alias(&offers, PARTS, &concerned);
}

static uint32_t call_read_response(struct rrcache_shelf *shelf)
{
    uint64_t concerned;
    (void)shelf;
    return read_response(&offers, response_of(OF(ALIAS)), query_of(OF(NAME)), &concerned);
}

static uint32_t call_offer_read(struct rrcache_shelf *shelf)
{
    struct rrcache_counts counts;
    return rrcache_offer_read(shelf, &offers, SHARE(target), &counts);
}

static uint32_t call_free_offers(struct rrcache_shelf *shelf)
{
    (void)shelf;
    return rrcache_free_offers(&offers);
}

static uint32_t call_take(struct rrcache_shelf *shelf)
{
    uint64_t count;
    return rrcache_take_chapters(shelf, &chapters, &count);
}

/* While nothing is recorded there is no line. */
static uint32_t call_line(struct rrcache_shelf *shelf)
{
    struct rrcache_line line;
    uint8_t buffer[64];
    uint32_t status = rrcache_chapter_line(&chapters, PLACE(0, 1, 0), OF(buffer), &line);
    (void)shelf;
    return status == RRCACHE_NO_LINE ? RRCACHE_DONE : status;
}

static uint32_t call_free_chapters(struct rrcache_shelf *shelf)
{
    (void)shelf;
    return rrcache_free_chapters(&chapters);
}

static uint32_t call_stop(struct rrcache_shelf *shelf)
{
    uint64_t count;
    return rrcache_stop_recording(shelf, &chapters, &count);
}

static uint32_t call_make_name(struct rrcache_shelf *shelf)
{
    struct rrcache_name name;
    (void)shelf;
    return rrcache_make_name(&name, OF(LONG), PARTED(PARTS));
}

/* The calls in their order, and whether one takes memory where the history is recorded: to look
   takes none, and neither does to free. */
static const struct {
    uint32_t (*make)(struct rrcache_shelf *shelf);
    bool takes_memory;
} CALLED[] = {
    {call_answer, true},       {call_ask, true},
    {call_ask_alias, true},    {call_set, true},
    {call_trim, true},         {call_negative, true},
    {call_failure, true},      {call_sweep_some, true},
    {call_sweep, true},        {call_fault, true},
    {call_peek, false},        {call_peek_alias, false},
    {call_stored, false},      {call_part, true},
    {call_read, true},         {call_offer_read, true},
    {call_free_offers, false}, {call_read_response, true},
    {call_free_offers, false}, {call_take, true},
    {call_line, true},         {call_free_chapters, false},
    {call_stop, true},         {call_free_chapters, false},
    {call_make_name, false},
};

enum { CALLS = sizeof CALLED / sizeof *CALLED };

/* Which of the calls have met a refusal of memory, and whether the making of the shelf has, and the
   beginning of its record. */
static bool met_refusal[CALLS], making_met, record_met;

/* Makes an empty shelf, where one allocation may be refused, and answers whether what is told and
   left of that is right. */
static bool make_refused(struct rrcache_shelf *shelf)
{
    bool right = true;
    uint32_t made = rrcache_make(shelf, RULES(100, 4, MAX_STALE));
    if (made == RRCACHE_MEMORY) {
        making_met = true;
        right = shelf->at == NULL && !shelf->is_live && blocks == 0;
        made = rrcache_make(shelf, RULES(100, 4, MAX_STALE));
    }
    return right && made == RRCACHE_DONE;
}

/* The same where its history is to be recorded. */
static bool record_refused(struct rrcache_shelf *shelf)
{
    struct state before = state_of(shelf);
    bool right = true;
    uint32_t status = rrcache_record(shelf);
    struct state after = state_of(shelf);
    if (status == RRCACHE_MEMORY) {
        record_met = true;
        right = are_same_states(&before, &after);
        status = rrcache_record(shelf);
    }
    return right && status == RRCACHE_DONE;
}

/* Makes one of the calls, again where it is refused, and answers whether that left the shelf as it
   was. */
static bool call_refused(int number, struct rrcache_shelf *shelf)
{
    struct state before = state_of(shelf);
    bool right = true;
    uint32_t status = CALLED[number].make(shelf);
    struct state after = state_of(shelf);
    if (status == RRCACHE_MEMORY) {
        met_refusal[number] = true;
        right = are_same_states(&before, &after);
        status = CALLED[number].make(shelf);
    }
    return right && status == RRCACHE_DONE;
}

/* Makes the calls with one allocation refused, for a shelf that records or does not, and answers
   whether all were made with none refused. A call that does without what it was refused, as a note
   of what a chapter moved, is done like any other. */
static bool run_refused(long refused, bool records)
{
    struct rrcache_shelf shelf = {0};
    granted = refused;
    bool right = make_refused(&shelf) && (!records || record_refused(&shelf));
    for (int number = 0; number < CALLS; number++)
        right = call_refused(number, &shelf) && right;
    bool is_whole = granted >= 0;
    granted = -1;
    right = right && rrcache_stop_and_drop(&shelf) == RRCACHE_DONE
            && rrcache_free(&shelf) == RRCACHE_DONE && blocks == 0;
    EXPECT(right);
    return is_whole;
}

static void test_refused_memory(void)
{
    long out = blocks;
    target = part_of(OF(OTHER));
    blocks = 0;
    for (int records = 0; records < 2; records++) {
        long refused = 0;
        while (refused < 1000 && !run_refused(refused, records))
            refused++;
        EXPECT(refused > 20 && refused < 1000);
        printf("refused each of %ld allocations in turn%s\n", refused,
               records ? "" : " while nothing is recorded");
    }
    for (int number = 0; number < CALLS; number++)
        EXPECT(met_refusal[number] == CALLED[number].takes_memory);
    EXPECT(making_met && record_met);
    blocks = out;
}

enum { LONGEST = 255, LOOKS = 1000 };

/* Writes a name of so many octets whose labels are of one letter. */
static void fill_name(uint8_t *name, size_t size, char letter)
{
    size_t place = 0;
    while (place + 1 < size) {
        size_t label = size - place - 2 < 63 ? size - place - 2 : 63;
        name[place] = (uint8_t)label;
        memset(name + place + 1, letter, label);
        place += label + 1;
    }
    name[place] = 0;
}

/* Asks of a name that is kept and of one that is not, peeks at both, and tells of the first what is
   stored; the names are made first. Answers whether all that is told is right. */
static bool look(struct rrcache_shelf *shelf, const uint8_t *kept, const uint8_t *other,
                 size_t size)
{
    struct rrcache_name name = name_of(kept, size), none = name_of(other, size);
    struct rrcache_question asked = question(A, FIRST);
    struct rrcache_stored stored;
    struct rrcache_told told;
    uint8_t buffer[LONGEST + sizeof ADDRESS];
    bool right = true;
    for (int call = 0; call < ASKINGS; call++)
        right = right && ASKING[call](shelf, &name, &asked, &told, OF(buffer)) == RRCACHE_DONE
                && told.kind == RRCACHE_FRESH
                && ASKING[call](shelf, &none, &asked, &told, OF(buffer)) == RRCACHE_DONE
                && told.kind == RRCACHE_MISS;
    return right && rrcache_tell_stored(shelf, &name, &asked, &stored) == RRCACHE_DONE
           && stored.set.ttl == 60;
}

/* What only looks takes no memory, however long the name is and whatever its case; an ask takes
   some where it is recorded. */
static void test_looks_take_no_memory(void)
{
    static const size_t SIZES[] = {3, 40, LONGEST};
    for (size_t i = 0; i < sizeof SIZES / sizeof *SIZES; i++) {
        struct rrcache_shelf shelf = {0};
        uint8_t kept[LONGEST], other[LONGEST];
        bool right = true;
        fill_name(kept, SIZES[i], 'K');
        fill_name(other, SIZES[i], 'O');
        EXPECT(rrcache_make(&shelf, RULES(100, 4, MAX_STALE)) == RRCACHE_DONE);
        EXPECT(offer_address(&shelf, kept, SIZES[i], RRCACHE_AUTHORITATIVE_ANSWER, 60)
               == RRCACHE_KEPT);
        wanted = 0;
        for (int turn = 0; turn < LOOKS; turn++)
            right = look(&shelf, kept, other, SIZES[i]) && right;
        EXPECT(right && wanted == 0);
        EXPECT(rrcache_record(&shelf) == RRCACHE_DONE);
        wanted = 0;
        EXPECT(look(&shelf, kept, other, SIZES[i]) && wanted > 0);
        EXPECT(rrcache_free(&shelf) == RRCACHE_DONE);
    }
}

/* A shelf with data of each kind, of names of three lengths, and so many failures behind them. */
static void fill_for_trims(struct rrcache_shelf *shelf, int failures)
{
    static const size_t SIZES[] = {3, 40, LONGEST};
    static const uint8_t texts[] = {0, 2, 1, 'A', 0, 2, 1, 'B'};
    uint8_t name[LONGEST];
    for (int n = 0; n < 3; n++) {
        fill_name(name, SIZES[n], 'D');
        EXPECT(offer_address(shelf, name, SIZES[n], 4, 60) == RRCACHE_KEPT
               && offer_set(shelf, set_of(name, SIZES[n], TXT, OF(texts))) == RRCACHE_KEPT
               && offer_denial(shelf, name, SIZES[n], RRCACHE_NXDOMAIN, 3, 60) == RRCACHE_KEPT
               && offer_negative(shelf, negative_of(name, SIZES[n], SOA, RRCACHE_NODATA))
                      == RRCACHE_KEPT);
    }
    for (int n = 0; n < failures; n++) {
        fill_name(name, SIZES[n], 'F');
        EXPECT(offer_failure(shelf, failure_of(name, SIZES[n], A)) == RRCACHE_KEPT);
    }
}

enum { DATA_KEYS = 12, FAILURE_KEYS = 3 };

/* From a shelf that records nothing keys go with no memory asked for. */
static void test_trims_take_no_memory(void)
{
    struct rrcache_shelf shelf = {0};
    struct rrcache_trimmed trimmed;
    EXPECT(rrcache_make(&shelf, RULES(100, 4, MAX_STALE)) == RRCACHE_DONE);
    fill_for_trims(&shelf, FAILURE_KEYS);
    wanted = 0;
    EXPECT(rrcache_trim(&shelf, TRIM(FIRST, 1, 5), &trimmed) == RRCACHE_DONE && trimmed.removed == 5
           && wanted == 0);
    EXPECT(rrcache_trim(&shelf, TRIM(FIRST, 1, 100), &trimmed) == RRCACHE_DONE
           && trimmed.removed == DATA_KEYS + FAILURE_KEYS - 5 && trimmed.octets == 0
           && wanted == 0);
    EXPECT(rrcache_free(&shelf) == RRCACHE_DONE);
}

/* Trims a shelf to nothing with one allocation refused, and answers whether none was. What went
   before stays gone, and nothing of it is told; the next trim goes on. A failure that lasts no
   second is swept first, which asks for memory in each shelf. */
static bool trim_refused(long refused, bool records)
{
    struct rrcache_shelf shelf = {0};
    struct rrcache_trimmed trimmed = {7, 7};
    struct rrcache_failure no_second = failure_of(OF(OTHER), A);
    no_second.ttl = 0;
    EXPECT(rrcache_make(&shelf, RULES(100, 4, MAX_STALE)) == RRCACHE_DONE
           && (!records || rrcache_record(&shelf) == RRCACHE_DONE));
    fill_for_trims(&shelf, FAILURE_KEYS);
    EXPECT(offer_failure(&shelf, no_second) == RRCACHE_KEPT);
    granted = refused;
    uint32_t status = rrcache_trim(&shelf, TRIM(FIRST, 1, 100), &trimmed);
    bool is_whole = granted >= 0;
    granted = -1;
    EXPECT(status == RRCACHE_DONE || (status == RRCACHE_MEMORY && !is_whole));
    if (status == RRCACHE_MEMORY) {
        uint64_t left = keys(&shelf);
        EXPECT(trimmed.removed == 7 && trimmed.octets == 7 && left >= 1
               && left <= DATA_KEYS + FAILURE_KEYS + 1);
        EXPECT(rrcache_trim(&shelf, TRIM(FIRST, 1, 100), &trimmed) == RRCACHE_DONE
               && trimmed.removed <= left);
    } else {
        EXPECT(trimmed.removed == DATA_KEYS + FAILURE_KEYS);
    }
    EXPECT(trimmed.octets == 0 && keys(&shelf) == 0 && rrcache_free(&shelf) == RRCACHE_DONE);
    return is_whole;
}

static void test_refused_trims(void)
{
    for (int records = 0; records < 2; records++) {
        long refused = 0;
        while (refused < 1000 && !trim_refused(refused, records))
            refused++;
        EXPECT(refused > 0 && refused < 1000);
        printf("refused each of %ld allocations of a trim in turn%s\n", refused,
               records ? "" : " while nothing is recorded");
    }
}
#endif

static void (*const TESTS[])(void) = {
    test_layout,
    test_status_texts,
    test_answers,
    test_small_buffers,
    test_peek,
    test_offers,
    test_failures,
    test_classes,
    test_message_of_another_class,
    test_refused_classes,
    test_stale,
    test_names,
    test_folded_octets,
    test_copied_names,
    test_two_seeds,
    test_names_refused,
    test_wire_forms,
    test_seeds,
    test_entries,
    test_purposes,
    test_stored,
    test_stored_refused,
    test_ages,
    test_chapters,
    test_full_chapter,
    test_records,
    test_taken_chapters,
    test_stopped_record,
    test_numbers,
    test_numbers_before_a_record,
    test_pieces,
    test_lines_from_a_place,
    test_long_line,
    test_refused_handles,
    test_refused_chapters,
    test_renewed,
    test_failed_names,
    test_keys,
    test_octets_of_keys,
    test_sweep_some,
    test_sweep_some_by_steps,
    test_sweep_some_to_the_end,
    test_trim,
    test_trim_by_steps,
    test_trim_of_each_kind,
    test_trim_of_failures,
    test_trim_of_no_time,
    test_trim_refused,
    test_recorded_trims,
    test_trims_in_small_chapters,
    test_parts,
    test_whole_message,
    test_relevant,
    test_told_offers,
    test_told_responses,
    test_refusals_of_told_responses,
    test_choices_of_responses,
    test_picked_offers,
    test_refused_responses,
    test_other_queries,
    test_octets_by_their_front,
    test_headers_alone,
    test_forgotten_responses,
    test_composed,
    test_composed_numbers,
    test_composed_is_read,
    test_octets_of_told_offers,
    test_octets_of_kept_offers,
    test_composing_refused,
    test_composed_octets,
    test_order_of_composing_refusals,
    test_far_owners,
    test_long_composed,
    test_one_reading,
    test_refused_readings,
    test_refused_shares,
    test_shares_of_another_seed,
    test_faults,
    test_aliases,
    test_types_of_aliases,
    test_alias_behind_a_denial,
    test_alias,
    test_no_shelf,
    test_making_refused,
    test_has_shelf,
    test_refused_messages,
    test_refused_parts,
    test_refused_limits,
    test_denied_names,
    test_refused_questions,
    test_order_of_refusals,
    test_refusals,
    test_null,
    test_overlaps,
#ifdef REFUSE
    test_refused_memory,
    test_looks_take_no_memory,
    test_trims_take_no_memory,
    test_refused_trims,
#endif
};

int main(void)
{
    for (size_t n = 0; n < sizeof TESTS / sizeof *TESTS; n++)
        TESTS[n]();
    return told_status();
}
