/* SPDX-License-Identifier: MIT */
#include "answers.h"

#include <string.h>
#include <unistd.h>

/* A shelf has room for the largest RRsets. */
enum { SHELF_OCTETS = 4 << 20, MOST_SHELVES = 64 };
enum { MAX_STALE = 86400, FAILURE_SECONDS = 30 }; /* RFC 8767 section 5, RFC 2308 section 7 */
enum { RA = 0x80 }; /* in the fourth octet of a message (RFC 1035 section 4.1.1) */

struct rrcache *cache;
static struct rrcache_parts hashes = {.count = 1};
static const struct identity *identity;
static const uint8_t ROOT[1] = {0}; /* upstreams are trusted for every name */

bool open_cache(uint64_t octets, const struct identity *said)
{
    struct rrcache_config config = {.octets = octets, .shelves = 1, .max_stale = MAX_STALE};
    if (octets > SHELF_OCTETS)
        config.shelves = octets / SHELF_OCTETS;
    if (config.shelves > MOST_SHELVES)
        config.shelves = MOST_SHELVES;
    identity = said;
    return getentropy(hashes.seed, sizeof hashes.seed) == 0
           && rrcache_open(&cache, &config) == RRCACHE_DONE;
}

uint64_t hash_of(const uint8_t *name, size_t size)
{
    struct rrcache_name made = {0};
    rrcache_make_name(&made, name, size, &hashes);
    return made.hash;
}

/* ---- What is cached, and what a response says. */

/* An answer whose RRsets will be in the buffer of a reply. */
static struct rrcache_answer answer_in(struct reply *reply)
{
    return (struct rrcache_answer){
        .buffer = reply->buffer, .room = sizeof reply->buffer, .with_dnames = true};
}

/* Makes a reply from the answer in its buffer. Returns false, and the reply is SERVFAIL, if the
   CNAME chain does not end or there are too many RRsets. */
static bool make_reply(struct reply *reply, unsigned rcode, const struct rrcache_answer *answer)
{
    struct rrcache_rrset rrset = {0};
    refuse(reply, (enum rcode)rcode);
    while (reply->count < MOST_SETS && rrcache_next(answer, &rrset))
        reply->sets[reply->count++] = rrset.set;
    bool is_good = !answer->is_endless && reply->count < MOST_SETS;
    if (!is_good)
        refuse(reply, SERVFAIL);
    return is_good;
}

enum rrcache_kind look_up(const struct question *question, enum rrcache_mode mode,
                          struct reply *reply)
{
    const struct rrcache_request request = {.name = question->name,
                                            .name_size = question->size,
                                            .rtype = question->type,
                                            .rclass = RRCACHE_IN,
                                            .mode = mode};
    struct rrcache_answer answer = answer_in(reply);
    enum rrcache_status status = rrcache_lookup(cache, &request, &answer);
    enum rrcache_kind kind = (enum rrcache_kind)answer.kind;
    bool is_good = make_reply(reply, kind == RRCACHE_NXDOMAIN ? NXDOMAIN : NOERROR, &answer);
    if (!is_found(kind) || status != RRCACHE_DONE)
        refuse(reply, SERVFAIL);
    if (!is_good || status != RRCACHE_DONE)
        return 0;
    return kind == RRCACHE_FRESH && answer.is_stale ? RRCACHE_STALE : kind; /* because of a stale
                                                                               CNAME record */
}

/* Whether a response is a negative answer. If it has no suitable SOA record, only its kind says so
   (RFC 2308 section 2). */
static bool denies(const struct rrcache_summary *summary, const struct rrcache_answer *answer)
{
    bool is_negative =
        summary->kind == RRCACHE_RESPONSE_NXDOMAIN || summary->kind == RRCACHE_RESPONSE_NODATA;
    return answer->kind == RRCACHE_NXDOMAIN || answer->kind == RRCACHE_NODATA
           || (answer->kind == RRCACHE_MISS && is_negative);
}

/* Clears the data that a negative answer denies, so they do not come back when the answer expires,
   neither fresh nor stale. Of an NXDOMAIN with AA set and an SOA record, the library has done so,
   for the types of addresses, of aliases and of the question. But upstreams are resolvers, which
   clear AA, and some send no SOA record. A NODATA denies that the name is an alias, and data of the
   type of the question. If it has an SOA record, it is stored in place of these data, and has to
   stay. The rank is that of the negative answer. */
static void clear_denied(const struct question *question, const struct rrcache_summary *summary,
                         const struct rrcache_answer *answer)
{
    static const uint8_t SOA[22] = {0}; /* of any content, because it is not stored */
    const struct rrcache_name *end = &answer->end;
    const uint16_t types[] = {CNAME, question->type, A, AAAA};
    bool is_own = is_same_name(end->octets, end->size, question->name, question->size);
    size_t count = summary->rcode == NXDOMAIN ? 4 : 2;
    if (answer->kind == RRCACHE_NODATA)
        count = question->type != CNAME;
    for (size_t i = 0; i < count; i++) {
        const struct rrcache_negative denied = {.name = end->octets,
                                                .name_size = end->size,
                                                .rtype = types[i],
                                                .rclass = RRCACHE_IN,
                                                .kind = RRCACHE_NODATA,
                                                .trust = summary->aa && is_own
                                                             ? RRCACHE_AUTHORITATIVE_ANSWER
                                                             : RRCACHE_NON_AUTHORITATIVE_ANSWER,
                                                .soa_owner = ROOT,
                                                .soa_owner_size = sizeof ROOT,
                                                .soa = SOA,
                                                .soa_size = sizeof SOA};
        uint32_t outcome;
        rrcache_store_negative(cache, &denied, &outcome); /* with TTL 0 it stores nothing */
    }
}

/* Adds what the cache has of the name at the end of a chain to a reply that has only the chain. The
   name of the question itself may lead nowhere: an alias with TTL 0 is not cached. */
static void add_rest(struct reply *reply, uint16_t type, const struct rrcache_name *end,
                     struct reply *rest)
{
    struct question question = {.type = type, .size = end->size};
    memcpy(question.name, end->octets, end->size);
    if (!is_found(look_up(&question, RRCACHE_NO_STALE, rest))
        || rest->count > MOST_SETS - reply->count)
        return;
    memcpy(reply->sets + reply->count, rest->sets, rest->count * sizeof *rest->sets);
    reply->count += rest->count;
    reply->rcode = rest->rcode;
}

/* Whether a response leads to other servers or says nothing, so that another upstream has to be
   asked (RFC 1034 section 5.3.3). A server that does not serve the name may send NOERROR with
   neither data nor an SOA record, and with AA and RA clear. An upstream that sets AA or RA knows
   whether there are data. If the type of the question is not kept, the library cannot tell this, so
   the kind of the response is the same. */
static bool answers_nothing(const uint8_t *message, const struct rrcache_summary *summary,
                            const struct rrcache_answer *answer)
{
    bool has_nothing = answer->kind == RRCACHE_MISS && !answer->is_endless;
    bool is_lame = summary->kind == RRCACHE_RESPONSE_UNUSABLE && summary->rcode == NOERROR
                   && !summary->aa && (message[3] & RA) == 0;
    return summary->kind == RRCACHE_RESPONSE_REFERRAL || (is_lame && has_nothing);
}

/* The limits of the library apply: data live a week at most (RFC 8767 section 4). All queries go to
   the upstreams, so the lowest of different TTLs applies even if AA is clear (RFC 2181 section
   5.2). If memory is refused, a second call may store a part of the response. */
const struct reply *keep(const struct question *question, const uint8_t *message, size_t size,
                         struct reply replies[2])
{
    const struct rrcache_query query = query_of(question, message);
    const struct rrcache_response response = {.octets = message,
                                              .size = size,
                                              .zone = ROOT,
                                              .zone_size = sizeof ROOT,
                                              .lowest_ttl = true,
                                              .clears_denied = true};
    struct rrcache_report report = {0};
    struct rrcache_answer answer = answer_in(replies);
    enum rrcache_status status = rrcache_store(cache, &query, &response, &report, &answer);
    if (status == RRCACHE_MEMORY)
        status = rrcache_store(cache, &query, &response, &report, &answer);
    bool has_no_room = status == RRCACHE_MEMORY || status == RRCACHE_SMALL;
    if (!has_no_room
        && (status != RRCACHE_DONE || answers_nothing(message, &report.summary, &answer)))
        return NULL;
    bool has_data = answer.kind == RRCACHE_FRESH; /* then the cache answers NOERROR, even if the
                                                     RCODE of the response is NXDOMAIN */
    bool is_good = make_reply(replies, has_data ? NOERROR : report.summary.rcode, &answer);
    if (has_no_room) { /* a part of it may be stored */
        refuse(replies, SERVFAIL);
        return replies + is_found(look_up(question, RRCACHE_NO_STALE, replies + 1));
    }
    if (is_good && denies(&report.summary, &answer))
        clear_denied(question, &report.summary, &answer);
    else if (is_good && answer.kind == RRCACHE_MISS)
        add_rest(replies, question->type, &answer.end, replies + 1);
    return replies;
}

void remember_failure(const struct question *question)
{
    const struct rrcache_failure failure = {.name = question->name,
                                            .name_size = question->size,
                                            .rtype = question->type,
                                            .rclass = RRCACHE_IN,
                                            .ttl = FAILURE_SECONDS};
    uint32_t outcome;
    rrcache_store_failure(cache, &failure, &outcome);
}

/* ---- What the forwarder says about itself. */

void identify(const struct question *question, struct reply *reply)
{
    static const struct {
        uint8_t name[16];
        size_t size;
    } NAMES[] = {{"\7version\4bind", 14},
                 {"\7version\6server", 16},
                 {"\2id\6server", 11},
                 {"\10hostname\4bind", 15}};
    const char *text = NULL;
    if (question->class == RRCACHE_CH && (question->type == TXT || question->type == ANY))
        for (size_t i = 0; i < 4; i++)
            if (is_same_name(NAMES[i].name, NAMES[i].size, question->name, question->size))
                text = i < 2 ? identity->version : identity->name;
    refuse(reply, text == NULL ? REFUSED : NOERROR);
    if (text == NULL)
        return;
    size_t size = strlen(text);
    write_word(reply->buffer, (unsigned)size + 1);
    reply->buffer[2] = (uint8_t)size;
    memcpy(reply->buffer + 3, text, size);
    reply->sets[reply->count++] = (struct rrcache_parsed_set){.owner = question->name,
                                                              .owner_size = question->size,
                                                              .rtype = TXT,
                                                              .rclass = RRCACHE_CH,
                                                              .section = RRCACHE_ANSWER_SECTION,
                                                              .data = reply->buffer,
                                                              .data_size = size + 3};
}
