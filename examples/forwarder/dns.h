/* SPDX-License-Identifier: MIT */
/* dns.h: DNS messages as octets (RFC 1035 section 4): queries are read and written, replies are
   written, and responses are judged. No function of this file allocates, blocks or asks the cache.
   Names are in wire form. */
#pragma once

#include <stdbool.h>
#include <stddef.h>
#include <stdint.h>

#include "rrcache.h"

/* Sizes in octets: a header, an OPT record without options, the longest name, the longest message,
   the length that precedes a message over TCP, and the longest query to an upstream. */
enum { HEADER = 12, OPT_RECORD = 11, NAME = 255, MESSAGE = 65535, LENGTH = 2 };
enum { QUERY = HEADER + NAME + 4 + OPT_RECORD };

/* The maximum number of octets of a reply over UDP: without EDNS (RFC 1035 section 4.2.1), and with
   EDNS, so that no path has to fragment the reply. */
enum { PLAIN_PAYLOAD = 512, PAYLOAD = 1232 };

enum rcode { NOERROR, FORMERR, SERVFAIL, NXDOMAIN, NOTIMP, REFUSED, BADVERS = 16 };
enum type { A = 1, CNAME = 5, TXT = 16, AAAA = 28, OPT = 41, IXFR = 251, ANY = 255 };

struct question {
    uint8_t name[NAME]; /* as it was spelled */
    size_t size;        /* 0 if there is no question */
    uint16_t type, class;
    uint64_t hash; /* of the name in lower case, under a secret seed (answers.h) */
};

/* A query of a client, or a query to an upstream. */
struct query {
    uint8_t id[2], flags[2];
    struct question question;
    size_t payload; /* the maximum number of octets of a reply over UDP: 512 to 1,232 */
    bool has_edns, is_dnssec_ok;
};

/* The maximum number of RRsets of a reply, and of the octets that they use. */
enum { MOST_SETS = 256, REPLY_ROOM = 2 * RRCACHE_ANSWER_OCTETS };

/* A reply to all clients that asked the same question. */
struct reply {
    enum rcode rcode;
    size_t count;
    struct rrcache_parsed_set sets[MOST_SETS];
    uint8_t buffer[REPLY_ROOM]; /* has the owners and the data of the sets */
};

/* What octets from an upstream mean for the query that was sent to it. */
enum verdict {
    STRAY,       /* not a response to this query */
    ANSWER,      /* a response with the RCODE NOERROR or NXDOMAIN */
    TRUNCATED,   /* a response with TC set */
    WANTS_PLAIN, /* the upstream does not support OPT records (RFC 6891 section 7) */
    FAILURE      /* any other RCODE, or a message that cannot be read */
};

static inline unsigned word_at(const uint8_t *octets)
{
    return octets[0] * 256u + octets[1];
}

static inline void write_word(uint8_t *octets, unsigned word)
{
    octets[0] = (uint8_t)(word >> 8);
    octets[1] = (uint8_t)word;
}

/* Returns a question and an identifier in the form that the library takes. */
static inline struct rrcache_query query_of(const struct question *question, const uint8_t id[2])
{
    return (struct rrcache_query){.name = question->name,
                                  .name_size = question->size,
                                  .id = (uint16_t)word_at(id),
                                  .rtype = question->type,
                                  .rclass = question->class};
}

/* Whether two names are the same, apart from the case of letters (RFC 4343 section 3). */
bool is_same_name(const uint8_t *one, size_t one_size, const uint8_t *other, size_t other_size);
bool is_same_question(const struct question *one, const struct question *other);

/* Returns where the domain of a name begins: its last two labels, as in `example.com`, or more
   labels if many domains share these two, as in `example.co.uk` and in reverse zones. */
size_t domain_of(const uint8_t *name, size_t size);

/* Reads a query of a client, of at least HEADER octets. Returns NOERROR, or the RCODE of a refusal:
   FORMERR if it is not a query with one question, NOTIMP for other opcodes and for meta-types,
   BADVERS for a version of EDNS above 0 (RFC 6891 section 6.1.3). */
enum rcode read_query(const uint8_t *octets, size_t size, struct query *query);

/* Writes a query to an upstream, with RD set, and returns its size. */
size_t write_query(const struct query *query, uint8_t octets[QUERY]);

/* Makes a reply without records. */
void refuse(struct reply *reply, enum rcode rcode);

/* Writes a reply to a query, with an OPT record if the query has one, and returns its size. If the
   reply has more than `most` octets, it is written without records and with TC set (RFC 2181
   section 9), or as SERVFAIL if no message has room for the records. */
size_t write_reply(const struct reply *reply, const struct query *query, size_t most,
                   uint8_t *octets);

enum verdict judge(const struct query *query, const uint8_t *message, size_t size);
