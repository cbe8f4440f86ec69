/* SPDX-License-Identifier: MIT */
/* unkept.c: records of types that no shelf keeps, such as RRSIG and NAPTR (docs/RULES.md). They are
   read from the octets of a response, to be returned in an answer. All records of the response were
   read before. */
#include "cache.h"

enum { A = 1, SIG = 24, NXT = 30, NAPTR = 35, RRSIG = 46, FIRST_META = 128, ANY = 255 };
/* The number of octets of a header, of the fields between the owner and the data of a record, of a
   name at most, and of the data at most. */
enum { HEADER = 12, FIXED = 10, NAME = 255, MOST_DATA = 65535 };
enum { POINTER = 0xc0, MOST_LABEL = 63, MOST_POINTERS = 127 };

/* A record of a message: where its owner and its data begin, and where it ends. */
struct record {
    size_t owner, data, end;
    uint16_t rtype, rclass;
    uint32_t ttl;
};

/* The owner of a record, as it is spelled, without compression. */
struct owner {
    size_t size;
    uint8_t octets[NAME];
};

/* Memory to which octets are written, as far as there is room. */
struct writer {
    uint8_t *octets;
    size_t room, size;
};

bool is_unkept(uint16_t rtype, uint16_t rclass)
{
    return rtype == SIG || rtype == NXT || rtype == NAPTR || rtype == RRSIG
           || (rtype >= FIRST_META && rtype <= ANY) || (rtype == A && rclass == RRCACHE_CH);
}

static void put(struct writer *to, const void *octets, size_t size)
{
    if (to->size <= to->room && size <= to->room - to->size)
        memcpy(to->octets + to->size, octets, size);
    to->size += size;
}

/* ---- Names and records. */

static uint32_t number_at(const uint8_t *octets, int size)
{
    uint32_t number = 0;
    for (int i = 0; i < size; i++)
        number = number << 8 | octets[i];
    return number;
}

/* Reads the name at an offset of a message, and moves the offset to the end of the name.
   Compression pointers are followed (RFC 1035 section 4.1.4), but at most as many as a name can
   have labels. Returns the size of the name, or 0 if there is none. */
static size_t expand(const uint8_t *message, size_t size, size_t *place, uint8_t name[NAME])
{
    size_t got = 0, at = *place, behind = 0;
    for (int pointers = 0; at + 1 < size && message[at] != 0;) {
        size_t length = message[at] + (size_t)1;
        if (message[at] >= POINTER && pointers++ < MOST_POINTERS) {
            behind = behind == 0 ? at + 2 : behind;
            at = number_at(message + at, 2) & 0x3fff;
        } else if (length <= MOST_LABEL + 1 && at + length < size && got + length < NAME) {
            memcpy(name + got, message + at, length);
            got += length;
            at += length;
        } else {
            return 0;
        }
    }
    bool is_whole = at < size && message[at] == 0;
    name[got] = 0;
    *place = behind == 0 ? at + 1 : behind;
    return is_whole ? got + 1 : 0;
}

/* Reads the record at an offset of a message. Returns false if there is no complete record. */
static bool read_record(const struct rrcache_response *message, size_t at, struct record *record)
{
    const uint8_t *octets = message->octets;
    record->owner = at;
    while (at < message->size && octets[at] != 0 && octets[at] <= MOST_LABEL)
        at += octets[at] + (size_t)1;
    at += at < message->size && octets[at] >= POINTER ? 2 : 1;
    if (at + FIXED > message->size)
        return false;
    record->rtype = (uint16_t)number_at(octets + at, 2);
    record->rclass = (uint16_t)number_at(octets + at + 2, 2);
    record->ttl = number_at(octets + at + 4, 4);
    record->data = at + FIXED;
    record->end = record->data + number_at(octets + at + 8, 2);
    return record->end <= message->size;
}

/* Returns the offset of the name that may be compressed in the data of a record of such a type (RFC
   3597 section 4; for type A, which is of class CH here, RFC 1034 section 3.6). Returns the end of
   the data if there is no such name. */
static size_t name_in(const uint8_t *message, const struct record *record)
{
    size_t at = record->data + (record->rtype == SIG ? 18 : record->rtype == NAPTR ? 4 : 0);
    for (int strings = record->rtype == NAPTR ? 3 : 0; strings > 0 && at < record->end; strings--)
        at += message[at] + (size_t)1;
    bool has_name = record->rtype == A || record->rtype == SIG || record->rtype == NXT
                    || record->rtype == NAPTR;
    return has_name && at < record->end ? at : record->end;
}

/* ---- Answers. */

/* Writes the length of the data of a record, and then the data, with that name in full. Returns
   false if the name cannot be read or the data are too long. */
static bool put_data(struct writer *to, const uint8_t *message, const struct record *record)
{
    uint8_t name[NAME];
    size_t at = name_in(message, record), length_at = to->size;
    put(to, "\0", 2);
    put(to, message + record->data, at - record->data);
    if (at < record->end) {
        size_t size = expand(message, record->end, &at, name);
        if (size == 0 || at > record->end)
            return false;
        put(to, name, size);
        put(to, message + at, record->end - at);
    }
    size_t size = to->size - length_at - 2;
    if (size > MOST_DATA)
        return false;
    if (to->size <= to->room) {
        to->octets[length_at] = (uint8_t)(size >> 8);
        to->octets[length_at + 1] = (uint8_t)size;
    }
    return true;
}

/* Appends a record with an owner to an answer, as an RRset of its own. */
static enum rrcache_status put_record(const struct rrcache_response *response, bool aa,
                                      const struct record *record, const struct owner *owner,
                                      struct rrcache_answer *answer)
{
    size_t room;
    uint8_t *buffer = begin_rrset(answer, &room);
    struct writer to = {buffer, room, 0};
    struct rrcache_told told = {
        .kind = RRCACHE_FRESH,
        .rtype = record->rtype,
        .left = record->ttl < response->limits.cap ? record->ttl : response->limits.cap,
        .owner_size = owner->size,
    };
    put(&to, owner->octets, owner->size);
    if (!put_data(&to, response->octets, record))
        return RRCACHE_BAD_DATA;
    if (to.size > room)
        return RRCACHE_SMALL;
    told.data_size = to.size - told.owner_size;
    told.entry.kind = RRCACHE_FRESH;
    told.entry.trust = aa && answer->aliases == 0 ? RRCACHE_AUTHORITATIVE_ANSWER
                                                  : RRCACHE_NON_AUTHORITATIVE_ANSWER;
    told.entry.ttl = told.left;
    told.entry.moment = response->moment;
    end_rrset(answer, &told, record->rclass);
    return RRCACHE_DONE;
}

/* Reads the owner of a record. Returns false if it cannot be read. */
static bool read_owner(const struct rrcache_response *response, const struct record *record,
                       struct owner *owner)
{
    size_t at = record->owner;
    owner->size = expand(response->octets, response->size, &at, owner->octets);
    return owner->size != 0;
}

/* Whether an owner is a name. */
static bool is_name(const struct rrcache *cache, const struct owner *owner,
                    const struct rrcache_name *wanted)
{
    struct rrcache_name name = {0};
    return rrcache_make_name(&name, owner->octets, owner->size, &cache->parts) == RRCACHE_DONE
           && name.size == wanted->size && memcmp(name.octets, wanted->octets, name.size) == 0;
}

/* Whether a record has a type that was asked for. */
static bool is_wanted(const struct rrcache_query *query, const struct record *record)
{
    return is_unkept(record->rtype, record->rclass) && record->rclass == query->rclass
           && (record->rtype == query->rtype || query->rtype == ANY);
}

/* Appends a record to an answer if its owner is the name that was reached. If the owner cannot be
   read, the record is left out. */
static enum rrcache_status put_if_reached(const struct rrcache *cache,
                                          const struct rrcache_response *response, bool aa,
                                          const struct record *record,
                                          struct rrcache_answer *answer, bool *is_whole)
{
    struct owner owner;
    bool is_read = read_owner(response, record, &owner);
    *is_whole &= is_read;
    return is_read && is_name(cache, &owner, &answer->end)
               ? put_record(response, aa, record, &owner, answer)
               : RRCACHE_DONE;
}

enum rrcache_status put_unkept(const struct rrcache *cache, const struct rrcache_query *query,
                               const struct rrcache_response *response, bool aa,
                               struct rrcache_answer *answer, bool *is_whole)
{
    struct record record = {.end = HEADER + query->name_size + 4};
    uint32_t left = number_at(response->octets + 6, 2);
    enum rrcache_status status = RRCACHE_DONE;
    *is_whole = true;
    for (; left > 0 && status == RRCACHE_DONE && read_record(response, record.end, &record); left--)
        if (is_wanted(query, &record))
            status = put_if_reached(cache, response, aa, &record, answer, is_whole);
    return status;
}

bool has_record(const struct rrcache *cache, const struct rrcache_query *query,
                const struct rrcache_response *response, enum rrcache_section section,
                uint16_t rtype, const struct rrcache_name *name)
{
    struct record record = {.end = HEADER + query->name_size + 4};
    struct owner owner;
    uint32_t answers = number_at(response->octets + 6, 2);
    bool is_first = section == RRCACHE_ANSWER_SECTION;
    uint32_t begin = is_first ? 0 : answers;
    uint32_t end = is_first ? answers : answers + number_at(response->octets + 8, 2);
    for (uint32_t i = 0; i < end && read_record(response, record.end, &record); i++)
        if (i >= begin && record.rtype == rtype && record.rclass == query->rclass
            && read_owner(response, &record, &owner) && is_name(cache, &owner, name))
            return true;
    return false;
}
