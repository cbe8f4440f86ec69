/* SPDX-License-Identifier: MIT */
/* Tests of the memos of a cache (lib/memos.h), by calls of rrcache.h. Questions are asked again and
   again, so that memos answer, and what they answer is compared with what was stored, or with a
   cache that is told the same and is asked in capitals, for which no memo is kept. Of lib/ only the
   marks of names are used, to find names that have the same. The last line is 'N passed, M
   failed'. */
#include "memos.h"

#include <stdio.h>
#include <stdlib.h>
#include <string.h>

#include "caches.h"
#include "drawn.h"

enum { TTL = 600, OFTEN = 4, ROOM = 1024 };

/* An answer with its buffer. */
struct reply {
    enum rrcache_status status;
    struct rrcache_answer answer;
    uint8_t buffer[ROOM];
};

static struct rrcache *opened(uint64_t octets, uint64_t shelves, uint8_t seed)
{
    const struct rrcache_config config = {
        .octets = octets, .shelves = shelves, .readers = 1, .max_stale = 100, .seed = {seed, 1}};
    return open_by(&config);
}

/* A name of labels of one letter and one label that is a number. */
static struct wire wire_of(unsigned number)
{
    struct wire wire;
    int size = snprintf((char *)wire.octets + 1, 32, "n%06u", number);
    wire.octets[0] = (uint8_t)size;
    memcpy(wire.octets + 1 + size, "\7example", 9);
    wire.size = (size_t)size + 10;
    return wire;
}

/* The same name with its first letter in capitals. */
static struct wire in_capitals(struct wire wire)
{
    wire.octets[1] = (uint8_t)(wire.octets[1] - 'a' + 'A');
    return wire;
}

static void store_data(struct rrcache *cache, const struct wire *owner, uint16_t rtype,
                       uint64_t moment, const uint8_t *data, size_t size)
{
    struct rrcache_set set = plain_set(owner->octets, owner->size, rtype, TTL, data, size);
    set.moment = moment;
    NEED(store_set(cache, set) == RRCACHE_KEPT);
}

/* Stores a record whose data are a name. */
static void store_target(struct rrcache *cache, const struct wire *owner, uint64_t moment,
                         const struct wire *target)
{
    uint8_t data[2 + sizeof target->octets] = {0, (uint8_t)target->size};
    memcpy(data + 2, target->octets, target->size);
    store_data(cache, owner, CNAME, moment, data, 2 + target->size);
}

/* Stores an address that says a number. */
static void store(struct rrcache *cache, const struct wire *owner, unsigned number)
{
    const uint8_t data[] = {
        0, 4, 192, (uint8_t)(number >> 16), (uint8_t)(number >> 8), (uint8_t)number};
    store_data(cache, owner, A, FIRST, data, sizeof data);
}

static void ask_in(struct rrcache *cache, const struct wire *name, struct rrcache_request request,
                   size_t room, struct reply *reply)
{
    reply->answer = (struct rrcache_answer){.buffer = reply->buffer, .room = room};
    request.name = name->octets;
    request.name_size = name->size;
    reply->status = rrcache_lookup(cache, &request, &reply->answer);
}

static struct rrcache_request request_of(uint16_t rtype, uint64_t moment)
{
    return (struct rrcache_request){
        .rtype = rtype, .rclass = RRCACHE_IN, .moment = moment, .mode = RRCACHE_NO_STALE};
}

/* Asks for the address of a name at the moment at which it is stored. */
static void ask(struct rrcache *cache, const struct wire *name, struct reply *reply)
{
    ask_in(cache, name, request_of(A, FIRST), ROOM, reply);
}

/* Whether an answer is the address that says a number. */
static bool is_number(const struct reply *reply, unsigned number)
{
    struct rrcache_rrset rrset = {0};
    const uint8_t data[] = {
        0, 4, 192, (uint8_t)(number >> 16), (uint8_t)(number >> 8), (uint8_t)number};
    return reply->status == RRCACHE_DONE && reply->answer.kind == RRCACHE_FRESH
           && rrcache_next(&reply->answer, &rrset) && rrset.set.data_size == sizeof data
           && memcmp(rrset.set.data, data, sizeof data) == 0 && rrset.set.rtype == A
           && !rrcache_next(&reply->answer, &rrset);
}

/* Whether a name has been made of octets in lower case, under a seed and in a part. */
static bool is_made(const struct rrcache_name *name, const struct wire *wire, uint8_t seed,
                    uint64_t shelves)
{
    const struct rrcache_parts parts = {shelves, {seed, 1}};
    struct rrcache_name made = {0};
    NEED(rrcache_make_name(&made, wire->octets, wire->size, &parts) == RRCACHE_DONE);
    return name->hash == made.hash && name->part == made.part && name->size == made.size
           && memcmp(name->seed, made.seed, sizeof made.seed) == 0
           && memcmp(name->octets, made.octets, made.size) == 0;
}

/* ---- Names that are alike. */

/* Asks for each of some names over and over, in turn and one by one. */
static void expect_numbers(struct rrcache *cache, const struct wire *names, unsigned count,
                           uint8_t seed, uint64_t shelves)
{
    static struct reply reply;
    for (unsigned turn = 0; turn < 2 * OFTEN; turn++)
        for (unsigned i = 0; i < count; i++)
            for (unsigned again = turn < OFTEN ? 1 : OFTEN; again > 0; again--) {
                ask(cache, &names[i], &reply);
                EXPECT(is_number(&reply, i)
                       && is_made(&reply.answer.end, &names[i], seed, shelves));
            }
}

/* More names than memos: they differ in one of 18 octets, and all have the same size. */
static void test_names_of_one_size(void)
{
    enum { NAMES = 1500 };
    static struct wire names[NAMES];
    for (int is_small = 0; is_small < 2; is_small++) {
        struct rrcache *cache = opened(is_small ? 1 << 20 : 64 << 20, 4, 7);
        for (unsigned i = 0; i < NAMES; i++) {
            names[i] = wire_of(i);
            store(cache, &names[i], i);
        }
        expect_numbers(cache, names, NAMES, 7, 4);
        rrcache_close(cache);
    }
}

/* Names of each size, each one the beginning of the next but for its root, up to the longest. */
static void test_names_of_all_sizes(void)
{
    enum { NAMES = 126 };
    static struct wire names[NAMES];
    struct rrcache *cache = opened(64 << 20, 4, 7);
    for (unsigned i = 0; i < NAMES; i++) {
        for (unsigned label = 0; label <= i; label++)
            memcpy(names[i].octets + 2 * label, "\1x", 2);
        names[i].size = 2 * i + 3;
        names[i].octets[names[i].size - 1] = 0;
        store(cache, &names[i], i);
    }
    expect_numbers(cache, names, NAMES, 7, 4);
    rrcache_close(cache);
}

/* Names that differ in one octet alone, at each place of a label, and by each of its values. */
static void test_names_of_one_octet_apart(void)
{
    enum { PLACES = 20, VALUES = 256, NAMES = PLACES * 8 + VALUES };
    static struct wire names[NAMES];
    struct rrcache *cache = opened(64 << 20, 4, 7);
    unsigned count = 0;
    for (unsigned i = 0; i < NAMES; i++) {
        unsigned at = i < PLACES * 8 ? i / 8 : 0;
        unsigned value = i < PLACES * 8 ? 'k' ^ 1u << i % 8 : i - PLACES * 8;
        struct wire *name = &names[count];
        name->octets[0] = PLACES;
        memset(name->octets + 1, 'k', PLACES);
        name->octets[1 + at] = (uint8_t)value;
        name->octets[1 + PLACES] = 0;
        name->size = PLACES + 2;
        bool is_new = value < 'A' || value > 'Z';
        for (unsigned other = 0; other < count; other++)
            is_new &= memcmp(names[other].octets, name->octets, name->size) != 0;
        if (is_new)
            store(cache, name, count++);
    }
    expect_numbers(cache, names, count, 7, 4);
    rrcache_close(cache);
}

/* Names of one size that have the same mark, so that a memo of one seems to be of the other. */
static void test_names_of_one_mark(void)
{
    enum { DRAWN = 400000, BITS = 22, MOST = 64 };
    static unsigned drawn[1 << BITS];
    static struct wire names[MOST];
    struct rrcache *cache = opened(64 << 20, 4, 7);
    unsigned count = 0;
    for (unsigned number = 1; number <= DRAWN && count < MOST; number++) {
        const struct wire name = wire_of(number);
        uint32_t mark = mark_of(name.octets, name.size, A);
        const struct wire other = wire_of(drawn[mark >> (32 - BITS)]);
        if (mark_of(other.octets, other.size, A) == mark && drawn[mark >> (32 - BITS)] != 0) {
            names[count++] = other;
            names[count++] = name;
        }
        drawn[mark >> (32 - BITS)] = number;
    }
    EXPECT(count >= 4);
    for (unsigned i = 0; i < count; i++)
        store(cache, &names[i], i);
    expect_numbers(cache, names, count, 7, 4);
    rrcache_close(cache);
}

/* A name in capitals is the same name, whichever of both was asked for first (RFC 4343). */
static void test_letters_in_any_case(void)
{
    static struct reply reply;
    const struct wire lower = wire_of(1), upper = in_capitals(lower);
    struct rrcache *cache = opened(64 << 20, 4, 7);
    store(cache, &upper, 5);
    for (unsigned turn = 0; turn < 4; turn++)
        for (unsigned again = 0; again < OFTEN; again++) {
            ask(cache, turn % 2 == 0 ? &upper : &lower, &reply);
            EXPECT(is_number(&reply, 5) && is_made(&reply.answer.end, &lower, 7, 4));
        }
    rrcache_close(cache);
}

/* A cache that is opened where one was closed has another seed and other data. */
static void test_other_seed_after_reopening(void)
{
    static struct reply reply;
    const struct wire name = wire_of(1);
    for (uint8_t seed = 1; seed < 9; seed++) {
        struct rrcache *cache = opened(64 << 20, 16, seed);
        for (unsigned again = 0; again < OFTEN; again++) {
            ask(cache, &name, &reply);
            EXPECT(reply.answer.kind == RRCACHE_MISS
                   && is_made(&reply.answer.end, &name, seed, 16));
        }
        store(cache, &name, seed);
        for (unsigned again = 0; again < OFTEN; again++) {
            ask(cache, &name, &reply);
            EXPECT(is_number(&reply, seed) && is_made(&reply.answer.end, &name, seed, 16));
        }
        rrcache_close(cache);
    }
}

/* ---- Answers. */

/* Each part of a question counts: the type, the class, the moment, the mode, and glue. */
static void test_other_questions(void)
{
    static const uint8_t text[] = {0, 2, 1, 'x'};
    static struct reply reply;
    struct rrcache_rrset rrset = {0};
    const struct wire name = wire_of(1);
    struct rrcache *cache = opened(64 << 20, 4, 7);
    store(cache, &name, 5);
    store_data(cache, &name, TXT, FIRST, text, sizeof text);
    for (unsigned again = 0; again < OFTEN; again++) {
        struct rrcache_request chaos = request_of(A, FIRST), stale = request_of(A, FIRST + TTL);
        ask(cache, &name, &reply);
        EXPECT(is_number(&reply, 5));
        ask_in(cache, &name, request_of(TXT, FIRST), ROOM, &reply);
        rrset = (struct rrcache_rrset){0};
        EXPECT(rrcache_next(&reply.answer, &rrset) && rrset.set.rtype == TXT);
        ask_in(cache, &name, request_of(AAAA, FIRST), ROOM, &reply);
        EXPECT(reply.answer.kind == RRCACHE_MISS);
        chaos.rclass = RRCACHE_CH;
        ask_in(cache, &name, chaos, ROOM, &reply);
        EXPECT(reply.answer.kind == RRCACHE_MISS && reply.answer.size == 0);
        ask_in(cache, &name, request_of(A, FIRST + 1 + again), ROOM, &reply);
        rrset = (struct rrcache_rrset){0};
        EXPECT(is_number(&reply, 5) && rrcache_next(&reply.answer, &rrset)
               && rrset.set.ttl == TTL - 1 - again);
        ask_in(cache, &name, stale, ROOM, &reply);
        EXPECT(reply.answer.kind == RRCACHE_MISS);
        stale.mode = RRCACHE_STALE_NOW;
        ask_in(cache, &name, stale, ROOM, &reply);
        EXPECT(reply.answer.kind == RRCACHE_STALE && reply.answer.is_stale);
        stale.mode = 0;
        ask_in(cache, &name, stale, ROOM, &reply);
        EXPECT(reply.status == RRCACHE_BAD_CHOICE && reply.answer.size == 0
               && reply.answer.end.size == 0);
    }
    rrcache_close(cache);
}

/* What is stored, replaced or forgotten is told at once, in other shelves too. */
static void test_changes_are_told(void)
{
    static struct reply reply;
    const struct wire name = wire_of(1), other = wire_of(2);
    const struct rrcache_request forgotten = plain_request(name.octets, name.size, A);
    struct rrcache *cache = opened(64 << 20, 2, 7);
    for (unsigned number = 0; number < 50; number++) {
        store(cache, &name, number);
        for (unsigned again = 0; again < OFTEN; again++) {
            ask(cache, &name, &reply);
            EXPECT(is_number(&reply, number));
            store(cache, &other, again);
            ask(cache, &name, &reply);
            EXPECT(is_number(&reply, number));
        }
        NEED(rrcache_forget(cache, &forgotten) == RRCACHE_DONE);
        for (unsigned again = 0; again < OFTEN; again++) {
            ask(cache, &name, &reply);
            EXPECT(reply.answer.kind == RRCACHE_MISS && is_made(&reply.answer.end, &name, 7, 2));
        }
    }
    rrcache_close(cache);
}

/* The target of an alias changes, in another shelf than the alias may be in. */
static void test_targets_of_aliases_are_told(void)
{
    static struct reply reply;
    struct rrcache *cache = opened(64 << 20, 64, 7);
    for (unsigned number = 0; number < 32; number++) {
        const struct wire alias = wire_of(number), target = wire_of(1000 + number);
        struct rrcache_rrset rrset = {0};
        store_target(cache, &alias, FIRST, &target);
        for (unsigned again = 0; again < OFTEN; again++) {
            store(cache, &target, again / 2);
            ask(cache, &alias, &reply);
            rrset.next = 0;
            EXPECT(reply.answer.kind == RRCACHE_FRESH && reply.answer.aliases == 1
                   && rrcache_next(&reply.answer, &rrset) && rrset.set.rtype == CNAME
                   && rrcache_next(&reply.answer, &rrset) && rrset.set.data[5] == again / 2
                   && is_made(&reply.answer.end, &target, 7, 64));
        }
    }
    rrcache_close(cache);
}

/* A DNAME RRset comes with an alias that was made of it, if it is wanted (RFC 6672). It is in the
   shelf of another name. */
static void test_dnames_are_told(void)
{
    static const uint8_t to_b[] = {0, 3, 1, 'b', 0}, to_nb[] = {0, 5, 1, 'n', 1, 'b', 0};
    static const struct wire top = {"\1a", 3}, below = {"\1n\1a", 5};
    static struct reply reply;
    struct rrcache *cache = opened(64 << 20, 64, 7);
    store_data(cache, &below, CNAME, FIRST, to_nb, sizeof to_nb);
    for (unsigned turn = 0; turn < 2 * OFTEN; turn++) {
        struct rrcache_rrset rrset = {0};
        struct rrcache_request request = request_of(CNAME, FIRST);
        request.name = below.octets;
        request.name_size = below.size;
        reply.answer = (struct rrcache_answer){
            .buffer = reply.buffer, .room = ROOM, .with_dnames = turn % 2 == 0};
        EXPECT(rrcache_lookup(cache, &request, &reply.answer) == RRCACHE_DONE
               && rrcache_next(&reply.answer, &rrset));
        EXPECT(rrset.set.rtype == (turn % 2 == 0 && turn >= OFTEN ? DNAME : CNAME));
        if (turn == OFTEN - 1)
            store_data(cache, &top, DNAME, FIRST, to_b, sizeof to_b);
    }
    rrcache_close(cache);
}

/* A buffer may be too small for what was told before, and the name may lie in the answer. */
static void test_room_and_overlap(void)
{
    static struct reply reply;
    const struct wire name = wire_of(1);
    struct rrcache *cache = opened(64 << 20, 4, 7);
    store(cache, &name, 5);
    ask(cache, &name, &reply);
    size_t size = reply.answer.size;
    for (unsigned again = 0; again < OFTEN; again++) {
        struct rrcache_request request = request_of(A, FIRST);
        for (size_t room = size - 2; room < size + 2; room++) {
            ask_in(cache, &name, request_of(A, FIRST), room, &reply);
            EXPECT(room < size ? reply.status == RRCACHE_SMALL && reply.answer.size == 0
                               : is_number(&reply, 5));
        }
        memcpy(reply.answer.end.octets, name.octets, name.size);
        request.name = reply.answer.end.octets;
        request.name_size = name.size;
        EXPECT(rrcache_lookup(cache, &request, &reply.answer) == RRCACHE_OVERLAP);
    }
    rrcache_close(cache);
}

/* A name that is asked for again and again stays, as others come and go. */
static void test_a_name_in_use_stays(void)
{
    static struct reply reply;
    const struct wire name = wire_of(0);
    struct rrcache *cache = opened(1 << 20, 1, 7);
    store(cache, &name, 5);
    for (unsigned number = 1; number < 20000; number++) {
        const struct wire other = wire_of(number);
        store(cache, &other, number);
        for (unsigned again = 0; again < OFTEN; again++)
            ask(cache, &name, &reply);
        if (number % 100 == 0)
            EXPECT(is_number(&reply, 5));
    }
    rrcache_close(cache);
}

/* ---- Two caches, of which one keeps no memos. */

enum { NAMES = 40, STEPS = 20000 };

static uint64_t state = 88172645463325252u;

static unsigned draw(unsigned below)
{
    return (unsigned)(drawn_from(&state) >> 8) % below;
}

static bool same_replies(const struct reply *one, const struct reply *other)
{
    const struct rrcache_answer *a = &one->answer, *b = &other->answer;
    return one->status == other->status && a->size == b->size && a->kind == b->kind
           && a->aliases == b->aliases && a->is_stale == b->is_stale
           && a->is_endless == b->is_endless && a->retry_from == b->retry_from
           && a->end.hash == b->end.hash && a->end.part == b->end.part && a->end.size == b->end.size
           && memcmp(a->end.octets, b->end.octets, a->end.size) == 0;
}

/* Whether two answers have the same RRsets, with the entries that these come from. If look-ups may
   be asks, which are events, the entries have other numbers: one that a memo answers is none. */
static bool same_rrsets(const struct rrcache_answer *one, const struct rrcache_answer *other,
                        bool may_be_asks)
{
    struct rrcache_rrset a = {0}, b = {0};
    bool is_same = true;
    while (is_same && rrcache_next(one, &a)) {
        is_same = rrcache_next(other, &b) && a.kind == b.kind && a.trust == b.trust
                  && a.set.ttl == b.set.ttl && a.set.rtype == b.set.rtype
                  && a.set.rclass == b.set.rclass && a.set.section == b.set.section
                  && a.set.owner_size == b.set.owner_size && a.set.data_size == b.set.data_size
                  && memcmp(a.set.owner, b.set.owner, a.set.owner_size) == 0
                  && memcmp(a.set.data, b.set.data, a.set.data_size) == 0
                  && a.entry.ttl == b.entry.ttl && a.entry.moment == b.entry.moment
                  && (a.entry.number == b.entry.number || may_be_asks)
                  && a.entry.age == b.entry.age;
    }
    return is_same && !rrcache_next(other, &b);
}

/* Asks both caches the same, a few times. */
static void ask_both(struct rrcache *const caches[2], uint64_t moment, bool may_be_asks)
{
    static const uint16_t types[] = {A, TXT, CNAME, ANY};
    static struct reply replies[2];
    const struct wire lower = wire_of(draw(NAMES)), upper = in_capitals(lower);
    struct rrcache_request request = request_of(types[draw(4)], moment);
    request.mode = 1 + draw(3);
    request.takes_glue = draw(2);
    for (unsigned left = 1 + draw(OFTEN); left > 0; left--) {
        size_t room = draw(16) == 0 ? draw(256) : ROOM;
        ask_in(caches[0], &lower, request, room, &replies[0]);
        ask_in(caches[1], &upper, request, room, &replies[1]);
        EXPECT(same_replies(&replies[0], &replies[1]));
        EXPECT(same_rrsets(&replies[0].answer, &replies[1].answer, may_be_asks));
    }
}

static uint32_t store_failing(struct rrcache *cache, const struct wire *name, uint64_t moment)
{
    struct rrcache_failure failure = plain_failure(name->octets, name->size, A, 5);
    failure.moment = moment;
    return store_failure(cache, failure);
}

static uint32_t store_denial(struct rrcache *cache, const struct wire *name, uint64_t moment,
                             enum rrcache_kind kind)
{
    struct rrcache_negative negative = plain_negative(name->octets, name->size, A, kind, 20);
    negative.trust = RRCACHE_AUTHORITATIVE_ANSWER;
    negative.moment = moment;
    return store_negative(cache, negative);
}

static uint32_t store_address(struct rrcache *cache, const struct wire *name, uint64_t moment,
                              unsigned drawn)
{
    const uint8_t data[] = {0, 4, 192, 0, 2, (uint8_t)drawn};
    struct rrcache_set set =
        plain_set(name->octets, name->size, drawn % 4 == 0 ? TXT : A, 1 + drawn % 40, OF(data));
    set.moment = moment;
    if (drawn % 8 == 0)
        set.trust = RRCACHE_ADDITIONAL;
    return store_set(cache, set);
}

/* Changes a cache, by what was drawn. */
static uint32_t change(struct rrcache *cache, const struct wire *name, uint64_t moment,
                       unsigned what, unsigned drawn)
{
    struct rrcache_swept swept = {0};
    const struct wire target = wire_of(drawn % NAMES);
    struct rrcache_request request =
        plain_request(name->octets, name->size, drawn % 2 == 0 ? A : CNAME);
    request.moment = moment;
    if (what == 0)
        return store_failing(cache, name, moment);
    if (what == 1)
        return store_denial(cache, name, moment, drawn % 2 ? RRCACHE_NODATA : RRCACHE_NXDOMAIN);
    if (what == 2)
        return rrcache_forget(cache, &request);
    if (what == 3)
        return rrcache_sweep_all(cache, moment, 1 + drawn % 8, &swept);
    if (what == 4) {
        store_target(cache, name, moment, &target);
        return 0;
    }
    return store_address(cache, name, moment, drawn);
}

static int take_nothing(void *state, uint64_t shelf, const void *octets, size_t size)
{
    (void)state, (void)shelf, (void)octets, (void)size;
    return 0;
}

static void test_both_tell_the_same(bool exact_recency)
{
    struct rrcache *caches[2];
    struct rrcache_stats stats[2];
    uint64_t moment = FIRST;
    const struct rrcache_config config = {.shelves = 4,
                                          .readers = 1,
                                          .max_stale = 100,
                                          .exact_recency = exact_recency,
                                          .seed = {7, 1}};
    caches[0] = open_by(&config);
    caches[1] = open_by(&config);
    for (unsigned step = 0; step < STEPS; step++) {
        const struct wire name = wire_of(draw(NAMES));
        unsigned what = draw(24), drawn = draw(1 << 16);
        moment += draw(8) == 0;
        for (int i = 0; i < 2 && step % 5000 == 4000; i++)
            NEED(rrcache_record_all(caches[i]) == RRCACHE_DONE);
        for (int i = 0; i < 2 && step % 5000 == 4500; i++)
            NEED(rrcache_stop_recording_all(caches[i], take_nothing, NULL) == RRCACHE_DONE);
        if (what < 8)
            EXPECT(change(caches[0], &name, moment, what, drawn)
                   == change(caches[1], &name, moment, what, drawn));
        ask_both(caches, moment, exact_recency);
    }
    for (uint64_t shelf = 0; shelf < config.shelves; shelf++) {
        NEED(rrcache_stats_of(caches[0], shelf, &stats[0]) == RRCACHE_DONE);
        NEED(rrcache_stats_of(caches[1], shelf, &stats[1]) == RRCACHE_DONE);
        EXPECT(memcmp(&stats[0], &stats[1], sizeof stats[0]) == 0 && stats[0].hits > 1000);
    }
    rrcache_close(caches[0]);
    rrcache_close(caches[1]);
}

int main(void)
{
    test_names_of_one_size();
    test_names_of_all_sizes();
    test_names_of_one_octet_apart();
    test_names_of_one_mark();
    test_letters_in_any_case();
    test_other_seed_after_reopening();
    test_other_questions();
    test_changes_are_told();
    test_targets_of_aliases_are_told();
    test_dnames_are_told();
    test_room_and_overlap();
    test_a_name_in_use_stays();
    test_both_tell_the_same(false);
    test_both_tell_the_same(true);
    return told_status();
}
