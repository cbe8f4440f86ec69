/* SPDX-License-Identifier: MIT */
/* rrcache.h: an RRset cache for recursive DNS resolvers, shared by all threads.

   `struct rrcache` is a cache that does its own locking. The cache is written in C, on top of the
   shelves (shards) of rrcache_shelf.h. The names of the exported functions that rrcache_shelf.h
   declares begin with `rrc_`. These functions, except `rrc_version`, follow the rules in
   docs/RULES.md, and are proved to meet their contracts. The inline functions in rrcache_shelf.h
   and the C code of the cache are tested, not proved. A program with one thread, or with its own
   locks, can use the shelves directly. The terms that both headers use, such as *key* and *entry*,
   are defined in rrcache_shelf.h.

   The section "A caller's checklist" of SECURITY.md lists what a resolver itself has to do. The
   program examples/stub.c is a complete stub resolver that uses a `struct rrcache`. The program
   examples/iterate.c uses a cache to follow delegations from the root servers. A process may open
   several caches, for example one for each view. Each cache has its own seed and limits.

   Threads
   - The library starts no threads.
   - Any thread may call any function at any time, with three exceptions. First, `rrcache_close` may
     be called only while no other call on the cache is running, and it must be the last call on the
     cache. Second, no function may be called from a signal handler, or in the child of a process
     that forked while several threads were running. Third, the callback of
     `rrcache_stop_recording_all` or `rrcache_dump` must not call any function on the same cache.
   - A call may block on a lock. If a thread is canceled during a call (`pthread_cancel`, with
     deferred cancellation), the call completes before the thread ends. However, a thread must not
     be canceled during a callback.
   - If a process with one thread forks, the parent and the child each have their own copy of the
     cache. The two copies have the same seed, but neither process sees the data that the other
     process stores after the fork. Processes cannot share a cache.
   - The library chooses the shelf of a name by hashing the name with a secret seed. Each shelf has
     `readers` places (see `struct rrcache_config`). A place is a lock that one thread at a time can
     hold during a look-up. The library assigns threads to these places in turn. A look-up that
     changes nothing in its shelf takes only one place: the place of its thread or, if that place is
     taken, another place. If each shelf has at least as many places as there are threads, such
     look-ups do not block each other, even if they are for the same name. A call that changes a
     shelf keeps new look-ups out of the shelf, and waits until the look-ups already running in the
     shelf have finished. A look-up changes its shelf if, for example, it moves an entry in the LRU
     order (see the item on eviction below).
   - No call holds the locks of two shelves at the same time, so calls are not atomic across
     shelves: while one call looks up or stores data in several shelves, other calls may change
     these shelves. When `rrcache_store` stores several RRsets in one shelf, it may even release the
     lock of that shelf between two of them. However, the following calls are atomic
     (docs/ARCHITECTURE.md explains why, but this is not proved): `rrcache_lookup` if it finds no
     CNAME record, `rrcache_store_set`, `rrcache_store_negative`, `rrcache_store_failure`, and
     `rrcache_forget` with a type other than ANY.
   - If a look-up is repeated with the same timestamp and the name is in lower case, the library may
     copy the answer from a memo, which is a saved copy of an earlier answer. The library uses a
     memo only if nothing in the shelf of the name has changed since the earlier answer was
     returned. The library keeps memos only of negative answers and of answers with a single RRset.
     A look-up that is answered from a memo takes no place. Its result and its effect on the
     counters are the same as without a memo.
   - ThreadSanitizer cannot see the locks in the compiled library. To run a program under
     ThreadSanitizer, compile the files in lib/ with ThreadSanitizer too, and link them before the
     shared library. If you link the static library instead of the shared one, also pass
     `-Wl,--allow-multiple-definition`, because the static library contains the same functions as
     these files. ThreadSanitizer may still falsely report races in `free`, because it does not see
     how shelves count the references to data. To suppress these reports, add the line
     `race_top:free$` to a suppressions file.
   - Eviction follows the LRU order. However, the entry that a look-up finds does not always move to
     the front of this order, because a move changes the shelf and therefore blocks other look-ups.
     In a shelf that is at least three quarters full, by octets or by keys, a look-up moves its
     entry if more than a quarter of the shelf's keys may have been used since the last use of that
     entry. Otherwise, a look-up moves its entry in only two cases. First, the look-up does so if
     most of the recent look-ups that took the same place had to move their entries. Second, every
     look-up moves its entry if `exact_recency` is set or histories are being recorded.
     docs/RULES.md describes the order of eviction that a caller can rely on.

   Memory
   - An answer is a copy in the caller's buffer. The copy stays valid after the eviction of the
     entries that it came from, and after `rrcache_close`. Answers do not count toward the limit
     `octets` of `struct rrcache_config`.
   - The keys use at most `octets` octets of memory, as `rrcache_sizes` counts them. Their memory
     can exceed this limit only while a call stores data or after an eviction during which malloc
     failed. Each shelf may use only an equal share of `octets`, even if other shelves use less than
     their share. A call that stores data in a shelf evicts the least recently used keys of that
     shelf, if necessary, before it returns. If malloc fails during the eviction, the call still
     succeeds, and the next call that stores, forgets or sweeps entries of that shelf completes the
     eviction. `octets` limits only the memory of the keys, and an allocator may use more memory for
     them than is counted. Therefore, plan for two and a half times `octets`, and also for the
     memory that the next item describes. The total is about 2.575 times `octets`, plus 4 octets for
     each key that `keys` allows (2 octets with the default `keys`). For example, if the cache alone
     may take 512 MiB, set `octets` to 192 MiB, and leave `keys` at its default. The other memory of
     the process comes on top of this total. It includes the memory of running calls: for one
     message of 65,535 octets, `rrcache_store` may need about 5 MB until it returns. SECURITY.md
     reports the measurements behind the factor of two and a half, and says what was not measured.
   - In addition, `rrcache_open` allocates the places, the memos, and two filters: one for the names
     that may own a CNAME RRset, and one for the names that may have an NXDOMAIN or a failure. The
     places use 64 octets for each reader and shelf (256 KiB for 64 readers and 64 shelves). All
     memos together use at most 1/16 of `octets`, and at most about 460 KiB times `readers`. The
     first filter uses at most about 1/80 of `octets`, and at most 128 KiB for each shelf. The
     second filter uses 2 to 4 octets for each key that `keys` allows, because its size for each
     shelf is a power of 2. The size of the second filter does not depend on `octets`: with the
     default number of keys, the filter uses 8 MiB in all shelves together. Therefore, if `octets`
     is small, also set `keys` to a smaller number, so that the second filter is smaller.
   - A cache has at most 64 shelves with at most 65,536 keys each, and therefore at most 4,194,304
     keys. An RRset of one address record with a short owner name counts as 320 octets, so a cache
     holds at most about 1.3 GB of such RRsets, even if `octets` is larger. A million names, each
     with one A and one AAAA record, count as 640 MB. An NS RRset that contains the short names of
     two servers counts as 432 octets, and a negative answer with an SOA record of 61 octets of
     rdata as 477 octets. These are octets as the library counts them: by the rule above, plan for
     about 3.5 GB of memory instead of 1.3 GB, and for about 1.7 GB instead of 640 MB.
   - The configuration of an open cache cannot be changed. The library returns freed memory to
     malloc, and malloc decides whether to return this memory to the operating system.
   - An RRset that would use more memory than its shelf's share of `octets` is not stored. In tests,
     the largest RRset of a response used 242,208 octets. To let each of 64 shelves store an RRset
     of this size, set `octets` to at least 16 MiB. If `octets` has to be smaller, use fewer
     shelves.
   - Look-ups allocate memory only while histories are being recorded (`rrcache_record_all`).
     `rrcache_next`, `rrcache_stats`, `rrcache_stats_of` and `rrcache_stats_text` never allocate. If
     malloc fails during a call, the call returns RRCACHE_MEMORY, unless it can do without the
     memory, as it can during an eviction. After RRCACHE_MEMORY, the contents of the cache are
     unchanged, with three exceptions: `rrcache_store`, `rrcache_sweep_all` and `rrcache_forget` may
     have done part of their work.

   Timestamps
   - A timestamp (`moment`) is a number of seconds, at most 2^40. The timestamp 0 means the current
     time of CLOCK_BOOTTIME, a clock that cannot be set and that keeps running while the machine is
     suspended. If this clock cannot be read, for example in a sandbox, 0 means the time of
     CLOCK_MONOTONIC. That clock stops while the machine is suspended, so each suspension delays the
     expiry of data by its length. Each call chooses the clock anew, so a program that runs in such
     a sandbox must enter it before its first call.
   - A program must either pass 0 in every call, or pass timestamps from its own clock in every
     call. If a program passes 0 in some calls and timestamps from its own clock in others, data
     expire too late or too early. The program's own clock must never be set back. If this clock is
     set forward, all data suddenly become older: see "Timestamps" in rrcache_shelf.h. In two cases,
     a program may pass other timestamps. First, if CLOCK_BOOTTIME can be read, a program that
     passes 0 may also pass seconds of this clock, for example to log them, or when it restores a
     dump, because 0 means the current time of the same clock. Second, any program may call
     `rrcache_sweep_all` with the timestamp 2^40 to empty the cache. The field `retry_from` of an
     answer is a timestamp from the clock that the program uses.

   Errors
   - The header rrcache_shelf.h describes the wire form of names, the ownership of memory, and each
     status. On error, outputs other than answers are unmodified, unless the comment on the function
     says otherwise.
   - A function that fills an answer empties the answer first. On error, the answer is empty: its
     `kind` is RRCACHE_MISS, and `end` holds no name. The exception is RRCACHE_SMALL: the answer
     then contains the RRsets that fit, and `kind` and `end` are unspecified. The answer does not
     report the required size. Make the call again with a larger buffer. If the call was
     `rrcache_store`, the second call stores the response again.
   - Memory that a call reads must not overlap memory that it writes, with two exceptions. First,
     the name of a request or of a query, and the zone of a response, may be in the buffer of the
     answer. Second, the name of a query and the zone of a response may also be in `end` of the
     answer. However, if the name of a request is in `end`, a look-up returns RRCACHE_OVERLAP.
   - Every function that returns a status returns RRCACHE_NULL if a required pointer is null.
     RRCACHE_MEMORY means that malloc failed, RRCACHE_HISTORY_FULL that the event numbers of a shelf
     are used up, and RRCACHE_MOMENT_TOO_LARGE that a timestamp is above 2^40. The comments below do
     not repeat these conditions.
   - After RRCACHE_HISTORY_FULL, the shelf whose event numbers are used up can no longer store
     anything. In this case, close the cache and open a new one. At 10^9 events a second in one
     shelf, the event numbers last for 146 years.
   - If a field of `struct rrcache_config` is 0, its default applies. If a limit in the `response`
     argument of `rrcache_store` is 0, the corresponding limit of the cache applies. For the
     functions of rrcache_shelf.h, a limit of 0 or a seed of zeros is an error.

   ABI
   - Each struct in this header keeps its size and its fields in all versions with the same soname,
     because the library reads or writes the caller's structs. */
#ifndef RRCACHE_H
#define RRCACHE_H

#include "rrcache_shelf.h"

/* Each function declaration in this header begins with RRCACHE_API. bin/build-c exports these
   functions, and tools/manual.py makes man pages from their comments. RRCACHE_API expands to
   nothing, because the exports are selected by a list of names, not by a visibility attribute. */
#define RRCACHE_API

#ifdef __cplusplus
extern "C" {
#endif

struct rrcache;

/* The configuration of a cache. If all fields are 0, the defaults below apply, and the cache serves
   no stale data. */
struct rrcache_config {
    uint64_t octets;    /* the maximum number of octets of memory that the keys may use, divided
                           equally among the shelves: 65,536 to 2^46, or 0 for 64 MiB */
    uint64_t keys;      /* the maximum number of keys, divided equally among the shelves, with each
                           share rounded up: at most 65,536 for each shelf, or 0 for this maximum */
    uint64_t shelves;   /* the number of shelves: 1 to 64, or 0 for 64 */
    uint64_t readers;   /* the number of places of a shelf, which is the maximum number of threads
                           that can look up names in the shelf simultaneously: 1 to 64, or 0 for the
                           number of processors or 16, whichever is smaller */
    uint64_t max_stale; /* the number of seconds for which an RRset may be served after its TTL has
                           expired: 0 to 604,800 (one week). RFC 8767 section 5 suggests 1 to 3
                           days */
    struct rrcache_limits limits; /* the limits for responses; for a field that is 0, the default in
                                     RRCACHE_LIMITS applies */
    uint8_t seed[16];             /* 16 secret random octets, or zeros for random octets from the
                                     system */
    bool exact_recency; /* whether every look-up moves its entry to the front of the LRU order */
};

/* The question to look up, or the data to forget: a name, a class and a type. */
struct rrcache_request {
    const uint8_t *name;
    size_t name_size;
    uint16_t rtype;
    uint16_t rclass;        /* enum rrcache_class */
    uint64_t moment;        /* a timestamp, or 0 for now */
    enum rrcache_mode mode; /* when a stale answer is acceptable; in `rrcache_lookup`, 0 is an
                               error */
    bool takes_glue; /* whether additional data, such as glue, are acceptable; additional data must
                        not be used to answer a client's question (RFC 2181 section 5.4.1) */
};

/* The maximum number of CNAME records that a look-up follows. */
enum { RRCACHE_MOST_ALIASES = 16 };

/* The usual size of the buffer for an answer. A call whose buffer is too small returns
   RRCACHE_SMALL. The usual size is large enough for every answer from a look-up, with two
   exceptions. First, a server may have sent a CNAME RRset of several records, which RFC 2181
   section 10.1 forbids. Second, the caller itself may have stored a large RRset. For an answer from
   a look-up, a buffer of 1 MiB is always large enough if all RRsets of the answer were received in
   responses. An answer from `rrcache_store` may need more than RRCACHE_ANSWER_OCTETS in two more
   cases. First, the type of the query may be ANY or a type that is not kept, such as RRSIG. Second,
   an RRset may have more than 16,384 octets of rdata. If an answer from `rrcache_store` does not
   fit, the data are still stored, and the answer contains the RRsets that fit. */
enum { RRCACHE_ANSWER_OCTETS = 65536 };

/* The answer to a question: a kind, and a list of RRsets, which `rrcache_next` returns one by one.
   An answer without DNAME RRsets has at most RRCACHE_MOST_ALIASES + 1 RRsets. DNAME RRsets can add
   up to RRCACHE_MOST_ALIASES more. An answer from `rrcache_store` may have even more RRsets if the
   type of the query is ANY or is not kept. The caller sets `buffer` and its size `room`, sets
   `with_dnames` to get DNAME RRsets, and initializes the other fields to 0. */
struct rrcache_answer {
    uint8_t *buffer;
    size_t room;
    size_t size;             /* the number of octets of the buffer that are used */
    uint32_t kind;           /* the kind of the reply for the name at the end of the CNAME chain:
                                enum rrcache_kind */
    uint32_t aliases;        /* the number of CNAME RRsets that lead to `end` */
    bool is_stale;           /* at least one of the RRsets is stale */
    bool is_endless;         /* the CNAME chain is a loop, or has more than RRCACHE_MOST_ALIASES
                                records. `kind` is then RRCACHE_MISS. If the answer is from a
                                look-up, a query to a server will not help; if it is from
                                `rrcache_store`, another server may send another response */
    bool with_dnames;        /* set by the caller. If true, the DNAME RRset from which a CNAME
                                record was synthesized precedes this CNAME record (RFC 6672 section
                                3.1). For a look-up, the DNAME RRset must be cached; for
                                `rrcache_store`, it must be in the answer section of the response.
                                For each answer, the library tries at most 16 names as owners of
                                DNAME RRsets. If the answer is from a look-up, each of these names
                                counts as one more look-up in `struct rrcache_stats` */
    uint64_t retry_from;     /* if `kind` is RRCACHE_FAILED, the timestamp from which to try again;
                                otherwise 0. If an answer is stale, a second look-up with
                                RRCACHE_NO_STALE returns this timestamp, or 0 if no failure is
                                recent */
    struct rrcache_name end; /* the name at the end of the CNAME chain. If `kind` is RRCACHE_MISS
                                after a look-up, `end` is the name to query for. For a delegation,
                                `end` is the owner of the NS RRset */
};

/* An RRset of an answer. The field `set` has the form that `rrcache_compose_response` requires. In
   a negative answer, the last RRset is the SOA record, which belongs in the authority section of a
   response. Initialize this struct to zeros. */
struct rrcache_rrset {
    struct rrcache_parsed_set set; /* the RRset. `ttl` is the TTL for the client: the remaining TTL,
                                      or 30 if the RRset is stale. Each RRset of a CNAME chain has
                                      its own TTL */
    uint32_t kind;                 /* enum rrcache_kind: fresh, stale, NODATA or NXDOMAIN */
    uint32_t trust;                /* the rank of the RRset: enum rrcache_trust */
    struct rrcache_entry entry; /* the entry that the RRset comes from. Its `ttl` and `moment` are
                                   the TTL and the timestamp with which it was stored. A resolver
                                   can use them to decide when to prefetch. Two entries of one shelf
                                   never have the same `number`, but entries of two shelves or of
                                   two caches may, and no field identifies the shelf. So a caller
                                   that keeps a security status or other data for each entry must
                                   identify the entry by both a name and `number`. The name is the
                                   owner or, for the SOA record of a negative answer, `end`. In an
                                   answer from `rrcache_store`, `number` and `age` are 0 and mean
                                   nothing: the first entry of a shelf also has the `number` 0.
                                   docs/RULES.md, "DNSSEC", says how the caller gets the `number` of
                                   the entry that was stored */
    size_t next;                /* the offset of the next RRset in the buffer */
};

/* The result of `rrcache_store`. It counts the outcomes of offers, but does not list them. To find
   out what happened to each RRset, look up the RRset afterwards, or record a history
   (`rrcache_record_all`), whose events contain the outcome of each offer. */
struct rrcache_report {
    struct rrcache_summary summary; /* RCODE, AA and TC of the response, and its kind */
    struct rrcache_counts counts;
    uint64_t too_large;       /* the number of RRsets and negative answers that were left out
                                 because each would use more memory than a shelf may use */
    struct rrcache_name name; /* for a referral, its zone; for an alias, the name to which the CNAME
                                 chain leads; otherwise zeros */
};

/* The counters of a cache or of one shelf. Each name of a CNAME chain counts as one look-up.
   `rrcache_lookup_delegation` counts one look-up for each name that it tries. */
struct rrcache_stats {
    uint64_t hits;      /* look-ups answered by an unexpired RRset */
    uint64_t stale;     /* look-ups answered by a stale RRset */
    uint64_t negative;  /* look-ups answered by NODATA or NXDOMAIN */
    uint64_t misses;    /* look-ups without an answer and without a recent failure */
    uint64_t failed;    /* look-ups without an answer, but with a recent failure */
    uint64_t kept;      /* RRsets, negative answers and failures that were stored */
    uint64_t outranked; /* RRsets and negative answers that were not stored because data of higher
                           rank were cached */
    uint64_t evicted;   /* keys that were evicted to meet the limit of octets or of keys */
    uint64_t expired;   /* keys that sweeps removed */
    uint64_t keys;      /* keys that are cached now */
    uint64_t octets;    /* octets of memory that these keys use */
};

/* A buffer of this size is large enough for the text of any `struct rrcache_stats`. */
enum { RRCACHE_STATS_OCTETS = 384 };

/* The callback to which `rrcache_stop_recording_all` and `rrcache_dump` write. In each call, the
   callback receives `size` octets of the text of one shelf; `shelf` is the number of that shelf,
   counted from 0. The octets that a call passes may end in the middle of a line. The callback must
   process all these octets, and must return 0 to continue or nonzero to stop. `state` is the
   pointer that the caller passed together with the callback. During the callback, the library holds
   no lock of a shelf, but it holds the lock that is required to start or to stop recording. A call
   from the callback to a function that requires this lock would never return, so the callback must
   not call any function on this cache. The callback must return normally: it must not call
   `longjmp` or throw a C++ exception, and its thread must not be canceled before it returns. */
typedef int (*rrcache_shelf_sink)(void *state, uint64_t shelf, const void *octets, size_t size);

/* Opens a cache, and stores a pointer to it in `*cache`. A null `config` means a configuration of
   zeros. Close the cache with `rrcache_close`.

   Returns RRCACHE_BAD_RULES if `octets`, `keys`, `shelves`, `readers` or `max_stale` is out of
   range, RRCACHE_BAD_LIMITS if a limit is out of range, and RRCACHE_BAD_SEED if `seed` is all zeros
   and the system provides no random octets. May also return RRCACHE_MEMORY. */
RRCACHE_API enum rrcache_status rrcache_open(struct rrcache **cache,
                                             const struct rrcache_config *config);

/* Closes a cache, and frees all its memory. If `cache` is null, the call does nothing. After that,
   any call with the same pointer has undefined behavior, even a second `rrcache_close`. */
RRCACHE_API void rrcache_close(struct rrcache *cache);

/* Looks up the answer to a question. The answer contains the CNAME RRsets of the CNAME chain that
   begins at the name of the question, and the reply for the name at the end of the chain. This
   reply is an RRset of the question's type, a negative answer (RRCACHE_NODATA or RRCACHE_NXDOMAIN),
   or a miss (RRCACHE_MISS or RRCACHE_FAILED). Even if the reply is a miss, the answer contains the
   CNAME RRsets. At each name of the chain, the call chooses between a CNAME record and data of the
   question's type by the rule described at `rrcache_ask_alias` (RFC 1034 section 4.3.2). For a
   question of type CNAME, ANY, NSEC or RRSIG, the call follows no CNAME record.

   With the mode RRCACHE_STALE_IF_FAILED, stale data are acceptable for a name of the chain if
   resolution of that name and the question's type has failed recently (RFC 8767 section 5). If
   resolution of the question itself has failed recently, this failure has two effects. First, with
   RRCACHE_STALE_IF_FAILED, stale data are acceptable for every name of the chain. Second, in every
   mode, a miss at the end of the chain is RRCACHE_FAILED. If resolution has failed recently for
   `end` too, `retry_from` of the answer is the timestamp from which both failures have expired. The
   failure of the question has neither effect if the look-up follows a CNAME record that was stored
   for the question's name after the failure. docs/RULES.md, "Serving stale data", describes the
   whole procedure, including the timers.

   If the reply is a miss, the CNAME RRsets alone are not an answer for a client: the resolver has
   to resolve `end` next, and has to answer SERVFAIL if it cannot resolve that name. The cache does
   not combine queries: if look-ups for several clients miss with the same `end` and type, the
   caller has to make sure that it sends only one query for all of them.

   Returns RRCACHE_BAD_NAME if the name is not in wire form, RRCACHE_BAD_CHOICE if `mode` is not a
   value of `enum rrcache_mode`, RRCACHE_BAD_TYPE if the type is 0 or the class is not kept, and
   RRCACHE_SMALL if the buffer is too small. May also return RRCACHE_HISTORY_FULL,
   RRCACHE_MOMENT_TOO_LARGE and, while histories are being recorded, RRCACHE_MEMORY. */
RRCACHE_API enum rrcache_status rrcache_lookup(struct rrcache *cache,
                                               const struct rrcache_request *request,
                                               struct rrcache_answer *answer);

/* Looks up the deepest unexpired NS RRset at or above a name. A resolver can start resolution at
   the servers that this RRset names (RFC 1034 section 5.3.3, RFC 9156 section 2). The answer
   contains this RRset, and `end` is its owner. If there is no such RRset, `kind` is RRCACHE_MISS.
   The call skips an NS RRset while an NXDOMAIN of its owner name is the governing entry
   (docs/RULES.md, "What an ask answers"). The fields `rtype`, `mode` and `takes_glue` of the
   request are ignored. The DS RRset of a zone is in the parent zone (RFC 4035 section 2.4), so for
   a question of type DS, pass the name without its first label. If the servers that the NS RRset
   names cannot be used, for example because their addresses are no longer cached, pass a copy of
   `end` without its first label to find the next delegation above. This call never returns an
   expired NS RRset. To find one, call `rrcache_lookup` with type NS and a mode that allows stale
   data, and set `takes_glue` if the RRset may have come from a referral. The errors are those of
   `rrcache_lookup`, except RRCACHE_BAD_CHOICE. */
RRCACHE_API enum rrcache_status rrcache_lookup_delegation(struct rrcache *cache,
                                                          const struct rrcache_request *request,
                                                          struct rrcache_answer *answer);

/* Gets the next RRset of an answer, or the first RRset if `*rrset` is all zeros. Returns true if
   there is such an RRset. At the end of the answer, returns false and sets `*rrset` to zeros again.
   The pointers in `rrset` point into the buffer of the answer. */
RRCACHE_API bool rrcache_next(const struct rrcache_answer *answer, struct rrcache_rrset *rrset);

/* Reads the response to a query as `rrcache_read_response` does, and stores the data that are
   relevant to the query: RRsets, a negative answer or a failure. Each of these is stored in the
   shelf of its name. The call leaves out an RRset or a negative answer that would use more memory
   than one shelf may use. If a limit in the argument `response` is 0, the corresponding limit of
   the cache applies.

   Returns RRCACHE_OTHER_QUERY if the octets are not a response to the query. In that case, the
   caller has to drop these octets and keep waiting (RFC 5452 section 9.1). RRCACHE_NO_QUESTION
   means that the server has failed, and so does RRCACHE_BAD_MESSAGE, unless TC (the bit 0x02 of the
   third octet) is set. A call that returns one of these three errors stores nothing. A response
   with an RCODE other than NOERROR and NXDOMAIN, such as SERVFAIL, is stored as a failure of its
   question if the type of the question is kept. So pass a response with such an RCODE only if no
   other server is left to query. The RCODE is in the low four bits of the fourth octet of the
   response. The call stores nothing from a truncated response (TC set), and returns
   RRCACHE_BAD_MESSAGE if such a response ends inside a record. After any truncated response, send
   the query again over TCP.

   If the query has RD clear, and the response has AA clear and is not a referral, the server is not
   authoritative for the zone, so do not store the response, and query another server
   (docs/RULES.md, "Lame delegations").

   To read a response without storing it, call `rrcache_read_response` with nonzero limits and with
   a `struct rrcache_parts` that has one part and a seed other than zeros. That call compares the
   response with the query as `rrcache_store` does. Then `rrcache_tell_response` returns the kind
   and RCODE, and `rrcache_tell_offer` returns each relevant RRset, even one with TTL 0. In this
   way, a resolver with several servers to query can detect the failure of one of them without
   storing a failure.

   The RRsets of a referral are stored, but are not in `answer`. The field `name` of `report` is the
   zone of the referral, `rrcache_lookup_delegation` returns the NS RRset, and look-ups with
   `takes_glue` return the addresses. NS RRsets and addresses with TTL 0 are not stored, so look-ups
   do not find them. To get them, read the referral without storing it, as described above. An NS
   RRset with unequal TTLs is left out, unless `lowest_ttl` is set. The NS RRset of a referral has
   the lowest rank, so a cached negative answer takes precedence over it. If the name of the zone
   was looked up before the zone was delegated, the cache may hold an NXDOMAIN for that name, or a
   NODATA for that name and type NS. Until that negative answer expires, `rrcache_lookup_delegation`
   finds either the NS RRset of a zone above the zone of the referral or no NS RRset. If
   `rrcache_lookup_delegation` finds no NS RRset below the zone whose server was queried, call
   `rrcache_forget` with type NS for the zone of the referral, and store the response again. A
   cached negative answer for the name of a server hides the address of the server in the same way.
   If this happens, call `rrcache_forget` for this name and the type of the address, and store the
   response again.

   `answer` may be null. If it is not null, the call fills `answer` with the answer that the
   response itself contains, including data that are not stored: data with TTL 0, data that are too
   large, and data of lower rank than the cached data. In this way, a waiting client gets the data
   that the server sent. If AA is clear and `lowest_ttl` is not set, an RRset with unequal TTLs is
   neither stored nor returned in `answer`. If that RRset contains the data of the query's type, or
   a CNAME record that leads to these data, `kind` of `answer` is RRCACHE_MISS. For a query of type
   ANY, `answer` contains all RRsets that the answer section has for the name of the query, except
   those that are left out because their TTLs are unequal. However, a later look-up of type ANY
   finds none of the RRsets in `answer`, even if they were stored, because each RRset is stored
   under its own type. If the response is stored as a failure, `kind` of `answer` is RRCACHE_FAILED.

   To fill `answer`, the call follows at most RRCACHE_MOST_ALIASES CNAME records, and returns RRsets
   of any size. The limits for stored data are lower: at most 11 CNAME records are followed, and no
   RRset with more than 16,384 octets of rdata is stored. In `answer`, rdata of types A and AAAA may
   have any length. Each record of a type that is not kept, such as NAPTR, is returned as a separate
   RRset. For a query of such a type, `kind` is RRCACHE_NODATA if the response denies that data of
   the type exist, and contains an SOA record. If the query is of type NSEC or RRSIG and the answer
   section has records of this type for the name of the query, `answer` contains these records. No
   CNAME record is then followed, even if the kind of the response is RRCACHE_RESPONSE_ALIAS. If
   only `report` contains the result, as for a negative response without an SOA record, `kind` of
   `answer` is RRCACHE_MISS.

   If the response contains only the beginning of a CNAME chain, the kind of the response is
   RRCACHE_RESPONSE_ALIAS, and `kind` of `answer` is RRCACHE_MISS. Keep the CNAME RRsets of this
   answer, and look up `end` next. Do not look up the name of the query again: a CNAME record with
   TTL 0 is not stored, so if the chain has such a record, that look-up would be a miss again.

   Check the `kind` of the answer first. Check the kind of the response only if the answer is a
   miss, because records of a type that is not kept do not affect the kind of a response. If the
   query is of such a type, and the response contains data of the type or denies that there are any,
   the kind of the response is usually RRCACHE_RESPONSE_UNUSABLE or, if a CNAME record leads to the
   data, RRCACHE_RESPONSE_ALIAS.

   Also returns RRCACHE_BAD_LIMITS if a limit is out of range, and RRCACHE_BAD_NAME if the zone or
   the name of the query is not in wire form. If the call fails before it has read the response,
   `report` is unmodified. Once the call has read the response, it writes `report`, even if it then
   fails with RRCACHE_HISTORY_FULL, RRCACHE_MOMENT_TOO_LARGE or RRCACHE_MEMORY. The call returns two
   errors only after it has stored everything: RRCACHE_SMALL if the buffer of the answer is too
   small, and RRCACHE_BAD_DATA if a record whose type is not kept cannot be read. */
RRCACHE_API enum rrcache_status rrcache_store(struct rrcache *cache,
                                              const struct rrcache_query *query,
                                              const struct rrcache_response *response,
                                              struct rrcache_report *report,
                                              struct rrcache_answer *answer);

/* Stores an RRset from the caller under the same rules as `rrcache_offer_set`, and writes the
   outcome to `outcome` (`enum rrcache_outcome`). Returns RRCACHE_TOO_LARGE if the RRset might use
   more memory than one shelf may use for all its keys. The other errors are those of
   `rrcache_offer_set`. */
RRCACHE_API enum rrcache_status rrcache_store_set(struct rrcache *cache,
                                                  const struct rrcache_set *set, uint32_t *outcome);

/* Stores a negative answer under the same rules as `rrcache_offer_negative`, and writes the outcome
   to `outcome`. A negative answer says that a name does not exist, or that it has no data of a
   type. Returns RRCACHE_TOO_LARGE if the negative answer might use more memory than one shelf may
   use for all its keys. The other errors are those of `rrcache_offer_negative`. */
RRCACHE_API enum rrcache_status rrcache_store_negative(struct rrcache *cache,
                                                       const struct rrcache_negative *negative,
                                                       uint32_t *outcome);

/* Stores a resolution failure of a name and a type (RFC 9520) under the same rules as
   `rrcache_offer_failure`. If the call succeeds, the failure is stored, and `outcome` is
   RRCACHE_KEPT. The errors are those of `rrcache_offer_failure`. */
RRCACHE_API enum rrcache_status rrcache_store_failure(struct rrcache *cache,
                                                      const struct rrcache_failure *failure,
                                                      uint32_t *outcome);

/* Removes the cached data of a name, a class and a type: the RRset or NODATA, the failure, and the
   NXDOMAIN of the name. With type ANY (255), the call removes the data of every type. To do so, the
   call tries each type in turn, which takes about 10 milliseconds. The call releases the lock of
   the shelf after every 256 types. Data that other threads store for the name during the call may
   remain. If a shelf has never been swept, the first call that removes a failure from it takes as
   long as a first sweep, which visits all keys of the shelf. The fields `mode` and `takes_glue` of
   the request are ignored. No call removes the data of all names below a name. A response that
   arrives later may bring back the data that were removed. docs/RULES.md, "Flushing", says what to
   do in both cases.

   Returns RRCACHE_BAD_NAME if the name is not in wire form, and RRCACHE_BAD_TYPE if the type is 0
   or the class is not kept. If there are data to remove, the call may also return
   RRCACHE_HISTORY_FULL, RRCACHE_MOMENT_TOO_LARGE or RRCACHE_MEMORY. Data that were removed before
   an error stay removed. */
RRCACHE_API enum rrcache_status rrcache_forget(struct rrcache *cache,
                                               const struct rrcache_request *request);

/* Removes fully expired keys until at least `most` keys have been removed or no fully expired key
   is left. A key is fully expired if its entry can answer no question at `moment`, not even as
   stale data. `most` must be at least 1. The call writes the number of keys that it removed to
   `swept`; the field `is_done` of `swept` is 1 if no fully expired key is left, and 0 if such a key
   may be left. A sweep continues where the previous sweep ended. The call releases the locks of a
   shelf after every 64 keys, and lets threads that wait for these locks go first. However, the call
   does not release the locks while it removes keys that expire in the same second, or while the
   first sweep of a shelf visits all keys of the shelf. Sweeps are optional, because eviction makes
   room. A sweep at the timestamp 2^40 removes each key whose entry has a timestamp below 2^40 -
   2^32. So a caller whose timestamps come from a clock such as CLOCK_BOOTTIME can empty the cache
   in this way, if `most` is at least the number of keys. Later calls may pass smaller timestamps.

   Returns RRCACHE_BAD_RULES if `most` is 0. May also return RRCACHE_MOMENT_TOO_LARGE,
   RRCACHE_HISTORY_FULL or RRCACHE_MEMORY; `swept` then contains the number of keys that were
   removed before the error. */
RRCACHE_API enum rrcache_status rrcache_sweep_all(struct rrcache *cache, uint64_t moment,
                                                  uint64_t most, struct rrcache_swept *swept);

/* In C++, the function rrcache_stats hides the constructor of the struct of the same name, as
   stat() does. */
#if defined __cplusplus && defined __GNUC__
#pragma GCC diagnostic push
#pragma GCC diagnostic ignored "-Wshadow"
#endif

/* Writes to `stats` the counts since the cache was opened, the current number of keys, and the
   number of octets that these keys use. Each number is the sum over all shelves. The call reads one
   shelf after another. While the call reads a shelf, look-ups in that shelf wait, as they do while
   a call stores data in the shelf. */
RRCACHE_API enum rrcache_status rrcache_stats(struct rrcache *cache, struct rrcache_stats *stats);

#if defined __cplusplus && defined __GNUC__
#pragma GCC diagnostic pop
#endif

/* Writes the counters of the shelf with the number `shelf` to `stats`. Shelves are numbered from 0.
   Returns RRCACHE_BAD_RULES if there is no such shelf. */
RRCACHE_API enum rrcache_status rrcache_stats_of(struct rrcache *cache, uint64_t shelf,
                                                 struct rrcache_stats *stats);

/* Writes the counters of `stats` to `text` as one line for a log, for example `hits 12 stale 0 ..`.
   The line ends with a zero octet, and contains no LF. Returns RRCACHE_SMALL if the line and its
   zero octet do not fit into `size` octets. */
RRCACHE_API enum rrcache_status rrcache_stats_text(const struct rrcache_stats *stats, char *text,
                                                   size_t size);

/* Starts to record the history of each shelf: a list of events, each of which records one ask,
   offer or sweep and its result. While histories are being recorded, each look-up is an event,
   changes its shelf, and moves its entry to the front of the LRU order. Events use at least 96
   octets each and stay in memory until recording stops. `octets` does not limit this memory. If
   histories are already being recorded, the call does nothing. May return RRCACHE_HISTORY_FULL or
   RRCACHE_MEMORY. On error, nothing is recorded. */
RRCACHE_API enum rrcache_status rrcache_record_all(struct rrcache *cache);

/* Stops recording, and writes the history of each shelf as text (an archive) to `sink`, one shelf
   after another. Each shelf continues to record until the call reaches it. So while a slow sink
   processes the archives of earlier shelves, new events of later shelves use more and more memory.
   If nothing is being recorded, the call writes nothing. Returns RRCACHE_SINK if the sink returns
   nonzero. May also return RRCACHE_HISTORY_FULL or RRCACHE_MEMORY. After any of these errors,
   recording has stopped, and the histories that were not written have been dropped. */
RRCACHE_API enum rrcache_status rrcache_stop_recording_all(struct rrcache *cache,
                                                           rrcache_shelf_sink sink, void *state);

/* Writes the contents of each shelf to `sink`, one shelf after another, in the same format as the
   beginning of a chapter (segment) of an archive (docs/FORMATS.md). The text of a shelf shows its
   contents at one point in time, because other calls on the shelf wait while `rrcache_dump` lists
   the keys of the shelf. The call allocates memory for the keys of one shelf at a time. No call
   reads this text back into a cache. However, a caller can store each entry in a new cache, with
   the rank, TTL and timestamp from the entry's line. Each shelf numbers its own events, so store
   the entries shelf by shelf, and those of one shelf in the order of their event numbers. After a
   restart of the machine, CLOCK_BOOTTIME begins at zero again, so the caller must first convert the
   timestamps (docs/RULES.md, "Listing and saving keys"). docs/CAPTURES.md, "A wrong answer", says
   what a dump shows about an answer. Returns RRCACHE_HAS_CHAPTERS while histories are being
   recorded, and RRCACHE_SINK if the sink returns nonzero. May also return RRCACHE_HISTORY_FULL or
   RRCACHE_MEMORY. */
RRCACHE_API enum rrcache_status rrcache_dump(struct rrcache *cache, rrcache_shelf_sink sink,
                                             void *state);

#ifdef __cplusplus
}
#endif

#endif
