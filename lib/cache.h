/* SPDX-License-Identifier: MIT */
/* cache.h: declarations that the files of `struct rrcache` share. */
#ifndef CACHE_H
#define CACHE_H

#ifndef _GNU_SOURCE /* a program that compiles these files may define it for all its files */
#define _GNU_SOURCE /* for CLOCK_BOOTTIME, getentropy and adaptive mutexes */
#endif
#include <pthread.h>
#include <stdatomic.h>
#include <stddef.h>
#include <string.h>

#include "rrcache.h"

/* The size of a cache line of the processor, in octets. No two places share a cache line. */
enum { LINE = 64 };

/* The size of an array that has a counter for each kind of reply. */
enum { KINDS = RRCACHE_FAILED + 1 };

/* A lock of a shelf, under which one thread at a time looks up names in the shelf (places.h). */
struct place {
    _Alignas(LINE) atomic_uint is_taken;
    int moves;            /* how often recent look-ups moved their entry: 0 to MOST_MOVES */
    uint64_t told[KINDS]; /* look-ups by the kind of their replies. Each place counts its own
                             look-ups, so no thread waits */
};

/* If `moves` is at least MOVES_EXPECTED, a look-up takes all places at once, because it probably
   moves its entry. */
enum { MOVES_EXPECTED = 4, MOST_MOVES = 8 };

/* A filter of the names for which a part may hold a CNAME RRset. The hash of a name determines two
   bits. If either is clear, the name is not an alias. Both bits are set before a CNAME RRset of the
   name is stored, and when a look-up has moved that RRset to the front. */
struct owners {
    uint64_t *all, *late;   /* the bits of all names, and those that were set since `late` began */
    uint64_t last;          /* the number of the last bit, which is a power of two minus 1 */
    uint64_t keys, evicted; /* how many keys the part held, and how many it had evicted, when `late`
                               began */
};

/* A shelf with its locks. A look-up reads the first two cache lines of this struct. A writer
   changes the first one, and those after the second. */
struct part {
    _Alignas(LINE) atomic_uint_fast64_t turn; /* incremented when a writer begins and when it ends,
                                                 so it is odd while a writer changes the shelf. It
                                                 is also odd while a reader waits alone
                                                 (places.c) */
    struct rrcache_shelf shelf;
    uint64_t oldest_left; /* a look-up does not move an entry whose age is at most this */
    bool is_recorded;
    _Alignas(LINE) struct owners owners;
    _Alignas(LINE) pthread_mutex_t writer; /* held by a writer */
    atomic_uint waiting;                   /* how many threads wait for that lock */
    uint64_t keys; /* the number of keys when `settle` last counted them, or a few more */
    uint64_t kept, outranked, evicted, expired;
};

struct rrcache {
    struct rrcache_parts parts;
    struct rrcache_limits limits;
    uint64_t readers;
    uint64_t share_of_reader;        /* 2^32 / readers, rounded up */
    uint64_t most_octets, most_keys; /* of one shelf */
    bool exact_recency;
    pthread_mutex_t recorder; /* held while recording starts or stops; guards `is_recorded` */
    bool is_recorded;
    pthread_mutex_t sweeper; /* held by a sweep; guards `swept_part` */
    uint64_t swept_part;     /* the part in which the next sweep continues */
    void *block;             /* the memory of the parts and their places */
    struct part *part;
    struct place *places; /* the places of the first reader in all parts, then those of the next
                             reader */
    uint8_t *memos;       /* the memos of the first reader, then those of the next reader (memos.h),
                             or null */
    size_t octets_of_memos;
    unsigned mark_shift; /* a mark has 32 bits; without its lowest `mark_shift` bits it is the
                            number of its slot */
};

/* Returns the timestamp of a call: `moment`, or the current time if `moment` is 0. */
uint64_t moment_now(void);
static inline uint64_t moment_of(uint64_t moment)
{
    return moment != 0 ? moment : moment_now();
}

/* Whether there is an entry that is unexpired at a timestamp. Before the timestamp of the entry,
   its age is 0 (docs/RULES.md). */
static inline bool is_unexpired(const struct rrcache_entry *entry, uint64_t moment)
{
    uint64_t age = moment > entry->moment ? moment - entry->moment : 0;
    return entry->kind != 0 && age < entry->ttl;
}

/* Make the locks of a part that is all zeros, and free them. */
bool make_locks(const struct rrcache *cache, struct part *part);
void free_locks(struct part *part);

/* Lock a part to change it, and release it. No place of the part is taken in between. */
void lock_part(const struct rrcache *cache, struct part *part);
void unlock_part(const struct rrcache *cache, struct part *part);

/* Lets the threads that wait for a part take it first. A call that takes the part again and again
   calls this function while it does not hold the lock of the part. */
void give_way(const struct part *part);

/* Evicts keys from a locked part until it meets its limit of octets, and sets `oldest_left`. Called
   after each call that stores in the part. If malloc fails during the eviction, the next call
   evicts the rest. */
void settle(const struct rrcache *cache, struct part *part, uint64_t moment);

/* Return the number of words of each of the two bit sets of a part, and set where the sets are. */
uint64_t owner_words(const struct rrcache *cache);
void place_owners(struct part *part, uint64_t *words, uint64_t count);

enum { WORD_BITS = 64 };

/* The second bit of a name; the first is given by the low bits of its hash. The high bits of the
   hash chose the part, so the hash is mixed. */
static inline uint64_t second_bit(const struct owners *owners, uint64_t hash)
{
    return hash * UINT64_C(0x9e3779b97f4a7c15) >> 32 & owners->last;
}

static inline bool is_set(const uint64_t *bits, uint64_t number)
{
    return bits[number / WORD_BITS] >> number % WORD_BITS & 1;
}

/* Whether a part may hold a CNAME RRset of a name. The caller holds a place of the part. */
static inline bool may_be_alias(const struct part *part, const struct rrcache_name *name)
{
    const struct owners *owners = &part->owners;
    return is_set(owners->all, name->hash & owners->last)
           && is_set(owners->all, second_bit(owners, name->hash));
}

/* Sets the bits of a name in a locked part, before its CNAME RRset is stored, or when that RRset
   has moved to the front. */
void note_alias(struct part *part, const struct rrcache_name *name);

/* Once a locked part has evicted as many keys as it held when `late` began, clears the bits that
   have not been set since then: no name with a CNAME RRset needs them. */
void renew_owners(struct part *part);

/* What precedes the owner and the data of an RRset in the buffer of an answer. */
struct head {
    struct rrcache_told told;
    uint16_t rclass;
};

/* Append the RRset of a reply to an answer. The caller writes the owner and the rdata to the memory
   that `begin_rrset` returns, and `end_rrset` writes the head before them. */
static inline uint8_t *begin_rrset(const struct rrcache_answer *answer, size_t *room)
{
    static uint8_t none; /* if there is no room, nothing is written */
    size_t left = answer->room - answer->size;
    *room = left > sizeof(struct head) ? left - sizeof(struct head) : 0;
    return *room == 0 ? &none : answer->buffer + answer->size + sizeof(struct head);
}

static inline void end_rrset(struct rrcache_answer *answer, const struct rrcache_told *told,
                             uint16_t rclass)
{
    uint8_t *head = answer->buffer + answer->size;
    memcpy(head + offsetof(struct head, told), told, sizeof *told);
    memcpy(head + offsetof(struct head, rclass), &rclass, sizeof rclass);
    answer->size += sizeof(struct head) + (size_t)(told->owner_size + told->data_size);
    answer->is_stale |= told->kind == RRCACHE_STALE;
}

/* Inserts the RRset of a reply into an answer, before the RRset at the offset `at`. */
enum rrcache_status insert_rrset(struct rrcache_answer *answer, size_t at,
                                 const struct rrcache_told *told, const uint8_t *octets,
                                 uint16_t rclass);

enum { RRTYPE_CNAME = 5, RRTYPE_DNAME = 39, RRTYPE_ANY = 255 };

/* How to look up the DNAME RRsets of an answer. `find` gets the DNAME RRset of a name. If the kind
   of the reply is neither fresh nor stale, there is no such RRset. */
struct dname_search {
    enum rrcache_status (*find)(void *from, const struct rrcache_name *owner,
                                struct rrcache_told *told, uint8_t *octets, size_t room);
    void *from;
    uint16_t rclass;
    bool takes_stale; /* the CNAME record is stale, so the DNAME RRset may be stale too */
    unsigned sought;  /* the number of names that were looked up */
};

/* If `find` returns the DNAME RRset from which a CNAME record was synthesized, inserts this RRset
   before the CNAME record. The CNAME record is the last RRset of the answer, at the offset `at`,
   and `end` of the answer is still its owner. */
enum rrcache_status put_dname(const struct rrcache *cache, struct dname_search *search,
                              struct rrcache_answer *answer, size_t at,
                              const struct rrcache_told *alias);

/* Returns an upper bound on the number of offers of a response. */
size_t most_offers(const struct rrcache_response *response);

/* Makes the answer that a response gives to its query: from its offers and, if they contain less
   than the response, also from its octets. May read the offers again. */
enum rrcache_status tell_answer(const struct rrcache *cache, struct rrcache_offers *offers,
                                const struct rrcache_summary *summary,
                                const struct rrcache_query *query,
                                const struct rrcache_response *response,
                                struct rrcache_answer *answer);

/* Whether no data of a type are kept in a class, although queries may ask for the type
   (docs/RULES.md). */
bool is_unkept(uint16_t rtype, uint16_t rclass);

/* Appends to an answer the records of a response that are not kept: those in the answer section
   with the type of the query (any type if the query is for ANY) and with the name that the answer
   has reached. Returns RRCACHE_BAD_DATA if the data of one of them cannot be read. Sets `is_whole`
   to false if the owner of a record of such a type cannot be read because too many pointers lead to
   it. */
enum rrcache_status put_unkept(const struct rrcache *cache, const struct rrcache_query *query,
                               const struct rrcache_response *response, bool aa,
                               struct rrcache_answer *answer, bool *is_whole);

/* Whether a name has a record of a type in the answer section or the authority section of a
   response, even if no RRset of this name and type is offered. */
bool has_record(const struct rrcache *cache, const struct rrcache_query *query,
                const struct rrcache_response *response, enum rrcache_section section,
                uint16_t rtype, const struct rrcache_name *name);

/* Sets `end` of an answer to the target of the CNAME record with which the answer ends. */
enum rrcache_status follow_alias(const struct rrcache *cache, struct rrcache_answer *answer,
                                 const struct rrcache_told *told);

/* Empties an answer, but keeps its buffer. Returns false if the buffer is missing. */
static inline bool clear_answer(struct rrcache_answer *answer)
{
    answer->size = 0;
    answer->kind = RRCACHE_MISS;
    answer->aliases = 0;
    answer->is_stale = false;
    answer->is_endless = false;
    answer->retry_from = 0;
    answer->end.size = 0; /* it holds no name until one is made */
    return answer->buffer != NULL || answer->room == 0;
}

/* Ends a call that fills an answer: empties the answer after any error except RRCACHE_SMALL.
   Returns the status. */
static inline enum rrcache_status end_answer(struct rrcache_answer *answer,
                                             enum rrcache_status status)
{
    if (status != RRCACHE_DONE && status != RRCACHE_SMALL)
        clear_answer(answer);
    return status;
}

#endif
