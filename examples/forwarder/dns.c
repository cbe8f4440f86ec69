/* SPDX-License-Identifier: MIT */
#include "dns.h"

#include <ctype.h>
#include <string.h>

enum { QR = 0x80, OPCODE = 0x78, TC = 0x02, RD = 0x01, RA = 0x80, CD = 0x10, RCODE = 0x0f };
enum { POINTER = 0xc0, MOST_LABEL = 63, MOST_LABELS = 127 };
enum { RECORD = 10 };        /* the octets between the owner of a record and its data */
enum { DNSSEC_OK = 0x8000 }; /* in the TTL of an OPT record (RFC 3225) */
enum { FIRST_META = 128 };   /* the first of the types that occur only in queries, up to ANY */

/* The OPT records of a message. There may be at most one, and its owner is the root (RFC 6891
   section 6.1.1). Its class is a size, and its TTL has the upper octet of the RCODE, the version
   and DO. */
struct edns {
    unsigned count, payload, ttl;
    bool is_broken;
};

/* ---- Names. Lengths of labels are at most 63, so folding does not change them. */

bool is_same_name(const uint8_t *one, size_t one_size, const uint8_t *other, size_t other_size)
{
    size_t i = 0;
    while (i < one_size && one_size == other_size && tolower(one[i]) == tolower(other[i]))
        i++;
    return i == one_size && one_size == other_size;
}

bool is_same_question(const struct question *one, const struct question *other)
{
    return one->type == other->type && one->class == other->class
           && is_same_name(one->name, one->size, other->name, other->size);
}

/* Below in-addr.arpa a domain is a /24, and below ip6.arpa a /48, because most networks have such a
   domain. Below the label of a country, a label of at most three letters is usually shared, as in
   `co.uk`. */
size_t domain_of(const uint8_t *name, size_t size)
{
    static const uint8_t FOUR[] = "\7in-addr\4arpa", SIX[] = "\3ip6\4arpa";
    uint8_t starts[MOST_LABELS + 2] = {0};
    size_t count = 2; /* the number of labels, plus two */
    for (size_t at = 0; at < size && name[at] != 0; at += name[at] + 1u)
        starts[count++] = (uint8_t)at;
    const uint8_t *end = name + starts[count - 2];
    size_t left = size - starts[count - 2];
    size_t labels = name[starts[count - 1]] == 2 && *end <= 3 ? 3 : 2;
    if (is_same_name(end, left, FOUR, sizeof FOUR))
        labels = 5;
    else if (is_same_name(end, left, SIX, sizeof SIX))
        labels = 14;
    return count - 2 <= labels ? 0 : starts[count - labels];
}

/* Returns where the labels that begin at an offset end. */
static size_t end_of_labels(const uint8_t *octets, size_t size, size_t at)
{
    while (at < size && octets[at] != 0 && octets[at] <= MOST_LABEL)
        at += octets[at] + 1u;
    return at;
}

/* Returns where a name ends that begins at an offset, and may end in a pointer, or 0 if it is not
   whole. */
static size_t end_of_name(const uint8_t *octets, size_t size, size_t at)
{
    at = end_of_labels(octets, size, at);
    bool is_pointer = at < size && octets[at] >= POINTER;
    if (at >= size || (octets[at] != 0 && !is_pointer))
        return 0;
    return at + (is_pointer ? 2 : 1);
}

/* ---- Records. */

/* Reads the record at an offset (RFC 1035 section 4.1.3). Returns where the record ends, or 0 if it
   is not complete. All options of an OPT record are skipped (RFC 6891 section 6.1.2). Another
   version may have other options, and gets the reply that it is not supported. */
static size_t read_record(const uint8_t *message, size_t size, size_t owner, struct edns *edns)
{
    size_t at = end_of_name(message, size, owner);
    if (at == 0 || at + RECORD > size)
        return 0;
    const uint8_t *fields = message + at;
    size_t end = at + RECORD + word_at(fields + 8);
    if (end > size || word_at(fields) != OPT)
        return end > size ? 0 : end;
    at += RECORD;
    while (at + 4 <= end)
        at += 4 + word_at(message + at + 2);
    edns->count++;
    bool has_options = at == end || fields[5] != 0;
    edns->is_broken |= edns->count > 1 || message[owner] != 0 || !has_options;
    edns->payload = word_at(fields + 2);
    edns->ttl |= word_at(fields + 4) << 16 | word_at(fields + 6);
    return end;
}

/* Reads `count` records. Returns where they end, or 0 if they are not complete. */
static size_t read_records(const uint8_t *message, size_t size, size_t at, unsigned count,
                           struct edns *edns)
{
    *edns = (struct edns){0};
    for (; count > 0 && at != 0; count--)
        at = read_record(message, size, at, edns);
    return at;
}

/* ---- Queries. */

/* Reads the question of a message. Returns where the question ends, or 0 if it is not complete. */
static size_t read_question(const uint8_t *octets, size_t size, struct question *question)
{
    size_t last = end_of_labels(octets, size, HEADER), end = last + 5;
    if (end > size || octets[last] != 0 || last - HEADER >= NAME)
        return 0;
    question->size = last + 1 - HEADER;
    memcpy(question->name, octets + HEADER, question->size);
    question->type = (uint16_t)word_at(octets + end - 4);
    question->class = (uint16_t)word_at(octets + end - 2);
    return end;
}

/* Passes over so many questions. Returns where they end, or 0 if they are not whole. */
static size_t skip_questions(const uint8_t *octets, size_t size, unsigned count)
{
    size_t at = HEADER;
    for (; count > 0 && at != 0; count--) {
        at = end_of_name(octets, size, at);
        at = at == 0 || at + 4 > size ? 0 : at + 4;
    }
    return at;
}

/* Whatever the message is, its OPT record is found, since a refusal has one too then (RFC 6891
   section 6.1.1). */
enum rcode read_query(const uint8_t *octets, size_t size, struct query *query)
{
    struct edns edns = {0};
    const struct question *question = &query->question;
    *query = (struct query){.id = {octets[0], octets[1]}, .flags = {octets[2], octets[3]}};
    query->payload = PLAIN_PAYLOAD;
    bool is_other = octets[2] & OPCODE;
    bool has_one = memcmp(octets + 4, "\0\1\0\0", 4) == 0; /* question, and no answer */
    bool is_one = !is_other && has_one;
    size_t end = is_one ? read_question(octets, size, &query->question)
                        : skip_questions(octets, size, word_at(octets + 4));
    unsigned records = word_at(octets + 6) + word_at(octets + 8) + word_at(octets + 10);
    end = read_records(octets, size, end, records, &edns);
    query->has_edns = edns.count != 0;
    query->is_dnssec_ok = edns.ttl & DNSSEC_OK;
    if (edns.payload > PLAIN_PAYLOAD) /* a smaller size counts as this size (RFC 6891 section
                                         6.2.3) */
        query->payload = edns.payload < PAYLOAD ? edns.payload : PAYLOAD;
    if (is_other)
        return NOTIMP;
    bool is_odd = word_at(octets + 8) != 0 && question->type != IXFR; /* RFC 1995 section 3 */
    if (!is_one || is_odd || end != size || edns.is_broken)
        return FORMERR;
    if (edns.ttl >> 16 & 255)
        return BADVERS;
    bool is_meta = question->type >= FIRST_META && question->type < ANY;
    return question->type == 0 || question->type == OPT || is_meta ? NOTIMP : NOERROR;
}

/* Adds an OPT record to a message that has no additional record, and returns the new size of the
   message. */
static size_t add_opt(uint8_t *octets, size_t size, unsigned rcode, bool is_dnssec_ok)
{
    const uint8_t upper = (uint8_t)(rcode >> 4), flags = is_dnssec_ok ? DNSSEC_OK >> 8 : 0;
    const uint8_t opt[OPT_RECORD] = {0, 0, OPT, PAYLOAD >> 8, PAYLOAD & 255, upper, 0, flags};
    memcpy(octets + size, opt, sizeof opt);
    octets[11] = 1;
    return size + sizeof opt;
}

size_t write_query(const struct query *query, uint8_t octets[QUERY])
{
    static const struct rrcache_parsed_response none = {0};
    const struct rrcache_query asked = query_of(&query->question, query->id);
    size_t size = 0;
    rrcache_compose_response(&asked, &none, octets, QUERY, &size);
    octets[2] = RD; /* and not QR */
    return query->has_edns ? add_opt(octets, size, NOERROR, false) : size;
}

/* ---- Replies. */

void refuse(struct reply *reply, enum rcode rcode)
{
    reply->rcode = rcode;
    reply->count = 0;
}

/* Composes a reply, or only its header and question with TC set. An owner that is the name of the
   question gets the spelling of the question, so that it is written as a pointer to the
   question. */
static enum rrcache_status compose(const struct reply *reply, const struct query *query,
                                   bool is_cut, uint8_t *octets, size_t room, size_t *size)
{
    struct rrcache_parsed_set sets[MOST_SETS];
    const struct rrcache_query asked = query_of(&query->question, query->id);
    const struct rrcache_parsed_response response = {.rcode = reply->rcode & RCODE,
                                                     .tc = is_cut,
                                                     .ra = true,
                                                     .sets = sets,
                                                     .count = is_cut ? 0 : reply->count};
    for (size_t i = 0; i < response.count; i++) {
        sets[i] = reply->sets[i];
        if (is_same_name(sets[i].owner, sets[i].owner_size, asked.name, asked.name_size))
            sets[i].owner = asked.name;
    }
    return rrcache_compose_response(&asked, &response, octets, room, size);
}

size_t write_reply(const struct reply *reply, const struct query *query, size_t most,
                   uint8_t *octets)
{
    size_t room = most - (query->has_edns ? OPT_RECORD : 0), size = 0;
    enum rrcache_status status = compose(reply, query, false, octets, room, &size);
    if (status == RRCACHE_SMALL) {
        bool fits = size <= MESSAGE - (most - room); /* over TCP */
        status = compose(reply, query, true, octets, room, &size);
        if (!fits)
            write_word(octets + 2, QR << 8 | RA | SERVFAIL);
    }
    if (status != RRCACHE_DONE) { /* the query has no question that can be repeated */
        size = HEADER;
        memset(octets, 0, HEADER);
        memcpy(octets, query->id, sizeof query->id);
        write_word(octets + 2, QR << 8 | RA | (reply->rcode & RCODE));
    }
    octets[2] |= query->flags[0] & (OPCODE | RD);
    octets[3] |= query->flags[1] & CD;
    return query->has_edns ? add_opt(octets, size, reply->rcode, query->is_dnssec_ok) : size;
}

/* ---- Responses. */

enum verdict judge(const struct query *query, const uint8_t *message, size_t size)
{
    if (size < HEADER || memcmp(message, query->id, 2) != 0 || (message[2] & (QR | OPCODE)) != QR)
        return STRAY;
    unsigned rcode = message[3] & RCODE;
    bool wants_plain = query->has_edns && (rcode == FORMERR || rcode == NOTIMP);
    bool is_bare = size == HEADER && memcmp(message + 4, "\0\0\0\0\0\0\0\0", 8) == 0;
    if (wants_plain && is_bare) /* a server that cannot read a query may not repeat its question */
        return WANTS_PLAIN;
    struct question question;
    struct edns edns;
    size_t end = word_at(message + 4) == 1 ? read_question(message, size, &question) : 0;
    if (end == 0 || !is_same_question(&question, &query->question))
        return STRAY;
    unsigned records = word_at(message + 6) + word_at(message + 8) + word_at(message + 10);
    bool is_whole = read_records(message, size, end, records, &edns) != 0;
    if (wants_plain && edns.count == 0)
        return WANTS_PLAIN;
    if (message[2] & TC)
        return TRUNCATED;
    bool is_answer = is_whole && (rcode == NOERROR || rcode == NXDOMAIN) && edns.ttl >> 24 == 0;
    return is_answer ? ANSWER : FAILURE;
}
