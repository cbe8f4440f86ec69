/* SPDX-License-Identifier: MIT */
/* responses.c: the answer that a response gives by itself, even if its data are not stored. */
#include "cache.h"

#include <stdlib.h>

enum { SOA = 6, RRSIG = 46, NSEC = 47, ANY = 255 };
enum { MOST_NAME = 255 };
/* In the third octet of a message (RFC 1035 section 4.1.1). */
enum { AA = 0x04, OPCODE = 0x78 };

/* What a response says: its offers, and its kind. */
struct said {
    const struct rrcache *cache;
    struct rrcache_offers *offers;
    const struct rrcache_summary *summary;
    uint16_t rclass;
    bool is_signed;   /* signatures are asked for, and it has some of the question's name */
    bool is_raised;   /* it was read as if AA were set */
    uint64_t *hashes; /* of the name of each offer, if there may be thousands of offers; otherwise
                         null */
    uint64_t count;
};

static bool is_same_name(const struct rrcache_name *one, const struct rrcache_name *other)
{
    return one->hash == other->hash && one->size == other->size
           && memcmp(one->octets, other->octets, one->size) == 0;
}

/* Whether a reply is an RRset of the answer section. */
static bool is_answer(const struct rrcache_told *told)
{
    return told->kind == RRCACHE_FRESH
           && (told->entry.trust == RRCACHE_AUTHORITATIVE_ANSWER
               || told->entry.trust == RRCACHE_NON_AUTHORITATIVE_ANSWER);
}

/* Whether a reply is for a type (any type if that is ANY). A reply is an RRset, NODATA, NXDOMAIN or
   a failure. */
static bool is_of(const struct rrcache_told *told, uint16_t rtype)
{
    if (told->kind == RRCACHE_FRESH)
        return is_answer(told) && (told->rtype == rtype || rtype == ANY);
    return told->kind == RRCACHE_NXDOMAIN || told->rtype == rtype;
}

/* Finds the next offer of a response for a name and a type, starting at the number `index`. If
   there is none, `told` is a miss. */
static enum rrcache_status find_said(struct said *said, const struct rrcache_name *wanted,
                                     uint16_t rtype, uint64_t *index, struct rrcache_told *told,
                                     uint8_t *buffer, size_t room)
{
    struct rrcache_name name = {0};
    enum rrcache_status status;
    do {
        while (*index < said->count && said->hashes[*index] != wanted->hash)
            ++*index;
        status = rrcache_tell_offer(said->offers, (*index)++, &name, told, NULL, 0);
        if (status == RRCACHE_NO_OFFERS) {
            *told = (struct rrcache_told){.kind = RRCACHE_MISS};
            return RRCACHE_DONE;
        }
    } while (!is_same_name(&name, wanted) || !is_of(told, rtype));
    status = rrcache_tell_offer(said->offers, *index - 1, &name, told, buffer, room);
    if (said->is_raised)
        told->entry.trust = RRCACHE_NON_AUTHORITATIVE_ANSWER;
    return status;
}

/* Finds the next offer for the name that the answer of a response has reached, and appends the
   offer to this answer. */
static enum rrcache_status take_said(struct said *said, struct rrcache_answer *answer,
                                     uint16_t rtype, uint64_t *index, struct rrcache_told *told)
{
    size_t room;
    uint8_t *buffer = begin_rrset(answer, &room);
    enum rrcache_status status = find_said(said, &answer->end, rtype, index, told, buffer, room);
    if (status == RRCACHE_DONE && told->kind != RRCACHE_MISS && told->kind != RRCACHE_FAILED)
        end_rrset(answer, told, said->rclass);
    return status;
}

/* Whether a response has a CNAME record for the name that its answer has reached, in place of data
   of a type: it has no data of the type, or it has them before the CNAME record. In a shelf the
   later of the two would govern. A name with a CNAME record has NSEC and RRSIG records of its own
   (RFC 4035 section 2.5), so the CNAME record does not take their place. */
static bool is_aliased(struct said *said, const struct rrcache_answer *answer, uint16_t rtype)
{
    struct rrcache_told told;
    uint64_t of_type = 0, of_alias = 0;
    find_said(said, &answer->end, RRTYPE_CNAME, &of_alias, &told, NULL, 0);
    if (told.kind != RRCACHE_FRESH || rtype == RRTYPE_CNAME || rtype == ANY
        || (said->is_signed && answer->aliases == 0))
        return false;
    find_said(said, &answer->end, rtype, &of_type, &told, NULL, 0);
    return told.kind == RRCACHE_MISS || (rtype != NSEC && of_type < of_alias);
}

/* Appends to the answer of a response what the response says about one name: what it has for the
   type (everything if that is ANY), or the CNAME record instead. */
static enum rrcache_status take_name(struct said *said, uint16_t rtype,
                                     struct rrcache_answer *answer, struct rrcache_told *told)
{
    struct rrcache_told more = {0};
    uint64_t index = 0;
    if (is_aliased(said, answer, rtype))
        return take_said(said, answer, RRTYPE_CNAME, &index, told);
    enum rrcache_status status = take_said(said, answer, rtype, &index, told);
    more.kind = told->kind;
    while (rtype == ANY && status == RRCACHE_DONE && more.kind == RRCACHE_FRESH)
        status = take_said(said, answer, rtype, &index, &more);
    return status;
}

/* Finds the DNAME RRset that a response has for a name. */
static enum rrcache_status find_dname(void *from, const struct rrcache_name *owner,
                                      struct rrcache_told *told, uint8_t *octets, size_t room)
{
    uint64_t index = 0;
    return find_said(from, owner, RRTYPE_DNAME, &index, told, octets, room);
}

/* Appends what a response says about the name that its answer has reached. If this is a CNAME
   record and the caller requests DNAME RRsets, inserts its DNAME RRset before it. */
static enum rrcache_status take_step(struct said *said, uint16_t rtype, struct dname_search *dnames,
                                     struct rrcache_answer *answer, struct rrcache_told *told)
{
    size_t at = answer->size;
    enum rrcache_status status = take_name(said, rtype, answer, told);
    bool is_cname = told->kind == RRCACHE_FRESH && told->rtype == RRTYPE_CNAME && rtype != ANY;
    if (status == RRCACHE_DONE && is_cname && answer->with_dnames)
        status = put_dname(said->cache, dnames, answer, at, told);
    return status;
}

/* Makes the answer of a response: the CNAME chain of its question, and the reply for the name at
   the end of the chain. */
static enum rrcache_status answer_from(struct said *said, const struct rrcache_query *query,
                                       struct rrcache_answer *answer)
{
    struct rrcache_told told = {0};
    struct dname_search dnames = {.find = find_dname, .from = said, .rclass = query->rclass};
    enum rrcache_status status =
        rrcache_make_name(&answer->end, query->name, query->name_size, &said->cache->parts);
    while (status == RRCACHE_DONE) {
        status = take_step(said, query->rtype, &dnames, answer, &told);
        bool is_alias = told.rtype != query->rtype && query->rtype != ANY;
        if (status != RRCACHE_DONE || told.kind != RRCACHE_FRESH || !is_alias)
            break;
        if (answer->aliases == RRCACHE_MOST_ALIASES) {
            answer->is_endless = true;
            return RRCACHE_DONE;
        }
        status = follow_alias(said->cache, answer, &told);
    }
    if (status == RRCACHE_DONE) {
        answer->kind = told.kind;
        answer->retry_from = told.retry_from;
    }
    return status;
}

/* Whether a query asks for signatures, and the response has some of the name of the query. */
static bool has_signatures(const struct rrcache *cache, const struct rrcache_query *query,
                           const struct rrcache_response *response)
{
    struct rrcache_name name = {0};
    return query->rtype == RRSIG
           && rrcache_make_name(&name, query->name, query->name_size, &cache->parts) == RRCACHE_DONE
           && has_record(cache, query, response, RRCACHE_ANSWER_SECTION, RRSIG, &name);
}

/* An RRset has a record of 11 octets or more, and there may also be a negative answer. */
size_t most_offers(const struct rrcache_response *response)
{
    return response->size / 11 + 1;
}

/* Notes the hash of the name of each offer, so that the names of an answer are found quickly. */
static void note_hashes(struct said *said, uint64_t most)
{
    struct rrcache_name name = {0};
    struct rrcache_told told;
    while (said->count < most
           && rrcache_tell_offer(said->offers, said->count, &name, &told, NULL, 0)
                  != RRCACHE_NO_OFFERS)
        said->hashes[said->count++] = name.hash;
}

/* Reads a response again, as a copy in a block of memory, without limits on the number of CNAME
   records that are followed and on the size of an RRset. Such a reading leaves out RRsets whose
   TTLs differ if AA is clear. So if `lowest_ttl` is chosen, AA is set first. */
static enum rrcache_status read_whole(struct said *said, void *block,
                                      const struct rrcache_response *response)
{
    struct rrcache_response raised = *response;
    said->hashes = block;
    uint8_t *octets = (uint8_t *)(said->hashes + most_offers(response));
    rrcache_free_offers(said->offers);
    said->is_raised = response->lowest_ttl && !said->summary->aa;
    memcpy(octets, response->octets, response->size);
    if (said->is_raised)
        octets[2] |= AA;
    raised.octets = octets;
    uint64_t concerned;
    enum rrcache_status status =
        rrcache_read_message_unchecked(said->offers, &raised, &said->cache->parts, &concerned);
    if (status == RRCACHE_DONE)
        note_hashes(said, most_offers(response));
    return status;
}

/* Makes the answer of a response from everything that it says. */
static enum rrcache_status answer_from_whole(struct said *said, const struct rrcache_query *query,
                                             const struct rrcache_response *response,
                                             struct rrcache_answer *answer)
{
    void *block = malloc(most_offers(response) * sizeof *said->hashes + response->size);
    if (block == NULL)
        return RRCACHE_MEMORY;
    enum rrcache_status status = read_whole(said, block, response);
    clear_answer(answer);
    if (status == RRCACHE_DONE)
        status = answer_from(said, query, answer);
    free(block);
    said->count = 0; /* the hashes are gone */
    return status;
}

/* ---- Types that no shelf keeps. */

/* Whether a name is at or below the apex of a zone. */
static bool is_in(const struct rrcache_name *name, const struct rrcache_name *zone)
{
    size_t at = 0;
    while (name->size - at > zone->size)
        at += name->octets[at] + (size_t)1;
    return name->size - at == zone->size
           && memcmp(name->octets + at, zone->octets, zone->size) == 0;
}

/* Finds behind the answer section the first SOA record of a zone that contains a name, and returns
   the number of its offer. If there is none, `told` is a miss. */
static uint64_t find_soa(const struct said *said, const struct rrcache_name *name,
                         struct rrcache_name *zone, struct rrcache_told *told)
{
    uint64_t index = 0;
    enum rrcache_status status;
    *told = (struct rrcache_told){0};
    do {
        status = rrcache_tell_offer(said->offers, index++, zone, told, NULL, 0);
    } while (status != RRCACHE_NO_OFFERS
             && (told->kind != RRCACHE_FRESH || told->rtype != SOA || is_answer(told)
                 || !is_in(name, zone)));
    if (status == RRCACHE_NO_OFFERS)
        *told = (struct rrcache_told){.kind = RRCACHE_MISS};
    return index - 1;
}

/* Turns an SOA record into a negative answer (RFC 2308 sections 2.2 and 5). The TTL of the negative
   answer is at most `cap`, and at most MINIMUM, the last four octets of the record. If there are
   several records, the first one counts. */
static void make_denial(struct rrcache_told *told, const uint8_t *data, uint32_t cap)
{
    size_t size = 2 + ((size_t)data[0] << 8 | data[1]);
    const uint8_t *last = data + size - 4;
    uint32_t minimum =
        (uint32_t)last[0] << 24 | (uint32_t)last[1] << 16 | (uint32_t)last[2] << 8 | last[3];
    uint32_t most = minimum < cap ? minimum : cap;
    told->kind = told->entry.kind = RRCACHE_NODATA;
    told->data_size = size;
    told->left = told->left < most ? told->left : most;
    told->entry.ttl = told->left;
}

/* The rank of a negative answer of a response (docs/RULES.md), which is not that of its SOA
   record. */
static uint32_t rank_of_denial(const struct said *said, const struct rrcache_answer *answer)
{
    return said->summary->aa && answer->aliases == 0 ? RRCACHE_AUTHORITATIVE_ANSWER
                                                     : RRCACHE_NON_AUTHORITATIVE_ANSWER;
}

/* Whether an SOA record denies data of the name that was reached. The record must be in the
   authority section (RFC 2181 section 7.1): if AA is clear, its rank does not tell this section
   from the additional one, whose offers are the last. The name must have no CNAME record that was
   left out. */
static bool is_denied(const struct said *said, const struct rrcache_query *query,
                      const struct rrcache_response *response, const struct rrcache_name *name,
                      const struct rrcache_name *zone)
{
    return has_record(said->cache, query, response, RRCACHE_AUTHORITY_SECTION, SOA, zone)
           && !has_record(said->cache, query, response, RRCACHE_ANSWER_SECTION, RRTYPE_CNAME, name);
}

/* Appends NODATA to an answer, if an SOA record says that there are no data of the type. */
static enum rrcache_status put_absence(const struct said *said, const struct rrcache_query *query,
                                       const struct rrcache_response *response,
                                       struct rrcache_answer *answer)
{
    struct rrcache_name zone = {0};
    struct rrcache_told told;
    size_t room;
    uint8_t *buffer = begin_rrset(answer, &room);
    uint64_t index = find_soa(said, &answer->end, &zone, &told);
    if (told.kind == RRCACHE_MISS || !is_denied(said, query, response, &answer->end, &zone))
        return RRCACHE_DONE;
    enum rrcache_status status =
        rrcache_tell_offer(said->offers, index, &zone, &told, buffer, room);
    if (status != RRCACHE_DONE)
        return status;
    make_denial(&told, buffer + told.owner_size, response->limits.negative_cap);
    told.entry.trust = rank_of_denial(said, answer);
    end_rrset(answer, &told, said->rclass);
    answer->kind = RRCACHE_NODATA;
    return RRCACHE_DONE;
}

/* Whether records that are not kept may belong to an answer, as for those that are kept: the
   response is to a standard query, and the name that was reached is in the zone (RFC 5452 section
   6). */
static bool may_have_rest(const struct said *said, const struct rrcache_response *response,
                          const struct rrcache_answer *answer)
{
    struct rrcache_name zone = {0};
    rrcache_make_name(&zone, response->zone, response->zone_size, &said->cache->parts);
    return (response->octets[2] & OPCODE) == 0 && is_in(&answer->end, &zone);
}

/* Appends to an answer the records of types that no shelf keeps, or NODATA if there are none. */
static enum rrcache_status put_rest(const struct said *said, const struct rrcache_query *query,
                                    const struct rrcache_response *response,
                                    struct rrcache_answer *answer)
{
    size_t before = answer->size;
    bool is_whole;
    if (!may_have_rest(said, response, answer))
        return RRCACHE_DONE;
    enum rrcache_status status =
        put_unkept(said->cache, query, response, said->summary->aa, answer, &is_whole);
    if (status == RRCACHE_DONE && answer->size != before)
        answer->kind = RRCACHE_FRESH;
    bool may_be_denied = answer->kind == RRCACHE_MISS && is_whole && said->summary->rcode == 0
                         && said->summary->kind != RRCACHE_RESPONSE_ANSWER; /* all left out */
    if (status == RRCACHE_DONE && may_be_denied)
        status = put_absence(said, query, response, answer);
    return status;
}

/* ---- The whole answer. */

/* The relevant offers may be less than what a response says, for example if the CNAME chain is long
   or an RRset is large. If they have no answer, all offers of the response may have one. An answer
   for type ANY has all data of the response. The name of the query and the zone may be in the
   memory of the answer, which this call writes: for example, a zone is there after its delegation
   was looked up. So both are copied first. */
enum rrcache_status tell_answer(const struct rrcache *cache, struct rrcache_offers *offers,
                                const struct rrcache_summary *summary,
                                const struct rrcache_query *query,
                                const struct rrcache_response *response,
                                struct rrcache_answer *answer)
{
    uint8_t name[MOST_NAME], zone[MOST_NAME];
    struct rrcache_query asked = *query;
    struct rrcache_response told = *response;
    asked.name = memcpy(name, query->name, query->name_size);
    told.zone = memcpy(zone, response->zone, response->zone_size);
    struct said said = {
        .cache = cache, .offers = offers, .summary = summary, .rclass = asked.rclass};
    said.is_signed = has_signatures(cache, &asked, &told);
    bool has_answer = summary->kind != RRCACHE_RESPONSE_REFERRAL
                      && summary->kind != RRCACHE_RESPONSE_FAILURE && !summary->tc;
    enum rrcache_status status = answer_from(&said, &asked, answer);
    bool may_have_more = answer->kind == RRCACHE_MISS || asked.rtype == ANY;
    if (status == RRCACHE_DONE && has_answer && may_have_more && !answer->is_endless)
        status = answer_from_whole(&said, &asked, &told, answer);
    may_have_more =
        answer->kind == RRCACHE_MISS || (asked.rtype == ANY && answer->kind != RRCACHE_NXDOMAIN);
    if (status == RRCACHE_DONE && has_answer && may_have_more && !answer->is_endless
        && is_unkept(asked.rtype, asked.rclass))
        status = put_rest(&said, &asked, &told, answer);
    return status;
}
