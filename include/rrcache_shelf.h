/* SPDX-License-Identifier: MIT */
/* rrcache_shelf.h: the shelves (shards) of an RRset cache for recursive DNS resolvers. This header
   is for C programs that have one thread or do their own locking. rrcache.h, which includes this
   header, provides a cache that has its own locks and that threads can share.

   A *shelf* is one shard of the cache. A resolver with several threads should make 16 to 64
   shelves, and keep a lock for each of them. For each question, the resolver calls
   `rrcache_make_name` once. This call folds the name of the question (converts its letters to lower
   case), hashes the folded name, and determines the shelf to which the name belongs. All data of a
   name are in one shelf, regardless of the case of the letters in the name. A hash of the name
   under a secret seed determines the shelf, and all shelves of a cache have the same seed (`struct
   rrcache_rules`, `struct rrcache_parts`). If the seed were not secret, an attacker could choose
   names that all belong to one shelf, and thereby fill that shelf and keep its lock busy. With more
   shelves, fewer threads wait for the same lock. For a program with one thread, one shelf without a
   lock is enough.

   This header uses the following terms. There are three kinds of *key*. The first consists of a
   name, a class and a type, and holds the RRset or NODATA of the type. The second consists of a
   name and a class, and holds the NXDOMAIN of the name. The third has the same components as the
   first, but holds a resolution failure. An *entry* is the RRset, negative answer or failure that a
   key holds. To *offer* data is to pass them to a shelf, which decides whether to store them (`enum
   rrcache_outcome`). An *ask* looks up an answer, and moves the entry that it finds to the front of
   the LRU order. A *peek* looks up an answer but changes nothing. A *part* is the set of all names
   that belong to one shelf. A part and its shelf have the same number, counted from 0. A type or a
   class is *kept* if the library stores its data; the library skips data of all other types and
   classes. A name and its data are *in bailiwick* if the name is at or below the apex of the zone
   whose servers were queried. The section "History and chapters" below defines *events* and
   *chapters*.

   docs/RULES.md describes the rules of the cache. Some names in this header differ from the terms
   in that document: `moment` means timestamp, `trust` means rank, `left` means remaining TTL, and
   `data` means rdata (docs/GLOSSARY.md). docs/UPGRADING.md explains how to change a program that
   was written for version 1 of the library.

   Ownership
   - The caller owns the handles, the locks and the buffers, and the library keeps no pointer to any
     of them after a call returns. The library owns the memory that it allocates. No pointer to this
     memory leaves the library, except inside a handle. `rrcache_free` frees the memory of a shelf.
   - Initialize a handle to zeros: `struct rrcache_shelf shelf = {0};`. The handle then holds no
     shelf. Once the handle is initialized, only the library may write to it. The caller may move a
     handle in memory while no call uses the handle, but must not use more than one copy of it. The
     same rules apply to `struct rrcache_offers`, which holds the offers of a message, and to
     `struct rrcache_chapters`, which holds chapters that were taken from a shelf.
     `rrcache_free_offers` frees the offers, and `rrcache_free_chapters` frees the chapters.
   - Initialize a `struct rrcache_name` to zeros too. The struct then holds no name. Once the struct
     is initialized, only the library may write to it, but the caller may copy it.

   Locking
   - Hold the lock of a shelf during every call that takes the handle of this shelf. Five of these
     calls are read-only, and need only a read lock: `rrcache_peek`, `rrcache_peek_alias`,
     `rrcache_tell_stored`, `rrcache_sizes` and `rrcache_next_expiry`. Read-only calls take a
     `const` handle, and write nothing that another thread reads. Any number of threads may make
     read-only calls on one shelf at the same time. Every other call on a shelf, including
     `rrcache_ask` and `rrcache_ask_alias`, needs a write lock: no other call on that shelf may run
     at the same time. If a caller breaks these rules, the behavior is undefined, and the library
     does not detect the error. No call takes more than one shelf, so no call needs the locks of two
     shelves.
   - The following calls on offers take no shelf, so they do not need the lock of a shelf:
     `rrcache_read_response`, `rrcache_read_message_unchecked`, `rrcache_tell_response`,
     `rrcache_tell_offer` and `rrcache_free_offers`. No two calls may use the same `struct
     rrcache_offers` at the same time. This restriction also applies to `rrcache_offer_read` and
     `rrcache_offer_one`, because these calls write to the `struct rrcache_offers` as well as to the
     handle of the shelf.
   - `rrcache_take_chapters` and `rrcache_stop_recording` need the write lock of the shelf. The
     following calls on taken chapters need neither the shelf nor a lock: `rrcache_chapter_line`,
     `rrcache_write_line`, `rrcache_write_chapter` and `rrcache_free_chapters`. While these calls
     run, other threads may use or free the shelf. No two calls may use the same `struct
     rrcache_chapters` at the same time.
   - `rrcache_fault`, `rrcache_make_name`, `rrcache_compose_response` and `rrcache_tell_octets` take
     no handle and need no lock.
   - No call waits, sleeps or takes a lock, unless `malloc`, `realloc`, `free` or the caller's sink
     does so. A sink is a callback that the caller passes (`rrcache_sink`). Only
     `rrcache_write_line` and `rrcache_write_chapter` call a sink. Do not call any function of the
     library from a signal handler. If a process with several threads calls `fork`, do not call any
     function of the library in the child process.

   Memory
   - The library allocates memory only with `malloc` and `realloc`, and frees it only with `free`.
     If an allocation fails during a call, the call returns RRCACHE_MEMORY, unless the call can do
     without the memory.
   - The following calls never allocate and never return RRCACHE_MEMORY, even for long names:
     `rrcache_peek`, `rrcache_peek_alias`, `rrcache_tell_stored`, `rrcache_sizes`,
     `rrcache_next_expiry`, `rrcache_make_name`, `rrcache_tell_response`, `rrcache_tell_offer`,
     `rrcache_tell_octets` and `rrcache_compose_response`. While a shelf is not recording its
     history, this is also true of `rrcache_ask` and `rrcache_ask_alias`.
   - The library copies each reply into the caller's buffer.

   Errors
   - Every function returns a status, except `rrcache_version`, `rrcache_status_text` and helpers
     such as `rrcache_room`. RRCACHE_DONE is 0, and every other status is an error. No error
     terminates the process.
   - For the functions of this header, 0 is not a valid purpose, mode, class, trust, kind, section,
     seed or limit. So if the caller leaves such a field at 0, for example by omitting it from an
     initializer, a call that uses the field returns an error. For the functions of rrcache.h, a
     seed or a limit of 0 means the default.
   - If a call fails, neither the history of the shelf nor its replies change, with five exceptions:
     `rrcache_offer_read`, `rrcache_offer_message_unchecked`, `rrcache_offer_part_unchecked`,
     `rrcache_sweep_some` and `rrcache_trim`. Each of these functions performs several steps
     (offers, sweeps or evictions), one after another. If a step fails, the earlier steps are not
     undone. The output `counts` then reports how many of the earlier offers had each outcome, and
     the output `swept` reports how many keys the earlier sweeps removed. If the shelf is recording,
     a failed call may have closed a full chapter, but closing a chapter changes neither the history
     nor the replies. If `rrcache_write_chapter` or `rrcache_write_line` fails, it may already have
     written the beginning of the text.
   - If `rrcache_take_chapters` fails, the chapters stay in the shelf. If `rrcache_stop_recording`
     fails, the shelf continues to record.
   - If a call fails, its outputs are unmodified, with two exceptions. A call that returns
     RRCACHE_SMALL still writes to its outputs `told`, `name` and `size`, if it has them. A call
     that has `counts` or `swept` as an output still writes to this output, unless the error is
     RRCACHE_NULL, RRCACHE_OVERLAP, RRCACHE_NO_SHELF or RRCACHE_NO_OFFERS.

   A message about names in several shelves
   - A response may contain data of names that do not belong to the shelf of the question's name,
     such as the target of a CNAME record, the owner of an SOA record, or the names of name servers.
     A resolver with several shelves reads the message once, by calling `rrcache_read_response`,
     which needs no lock. This call reports which shelves the message concerns. For each of these
     shelves, the resolver takes the lock of the shelf and calls `rrcache_offer_read` with the
     number of the shelf. Each of these calls offers only the data of names in one shelf, but
     together the calls offer everything that `rrcache_read_response` has read. The data of each
     name are then in the shelf that `rrcache_make_name` determines for that name, given the same
     `struct rrcache_parts`. No event is added to the history of a shelf that the message does not
     concern.
   - `rrcache_offer_part_unchecked` reads a message, and offers to one shelf the data of the names
     that belong to that shelf. For several shelves, the caller must make one call for each shelf,
     and each call reads the whole message under the lock of its shelf. So use this function only to
     offer data to a single shelf.
   - To follow a CNAME chain from shelf to shelf, call `rrcache_ask_alias` for each name of the
     chain, under the lock of that name's shelf. The caller must limit the number of CNAME records
     that it follows. This limit also ends loops. Each RRset of the chain has its own TTL.
   - `rrcache_offer_message_unchecked` offers all in-bailiwick data of a message to one shelf. Use
     this function only if the cache has a single shelf.

   What is stored
   - `rrcache_read_response` extracts from a message only the data that are relevant to the
     resolver's query. The call rejects a message whose identifier or question differs from that of
     the query. Use this function for all messages from servers. The caller must check that a
     message comes from the address and port to which the query was sent, and that it arrives at the
     address and port from which the query was sent.
   - A resolver that parses responses itself passes the parsed RRsets, with their sections, to
     `rrcache_compose_response`. This function writes the RRsets as a message, which the resolver
     then passes to `rrcache_read_response` like any other message.
   - A function whose name ends in `_unchecked` extracts all in-bailiwick data from a message, and
     does not compare the message with a query. Before calling such a function, the caller must
     check the addresses and ports, the identifier and the question of the message.
   - A message is truncated if TC (the bit 0x02 of the third octet) is set. Nothing from a truncated
     message is offered (RFC 2181 section 9). If such a message can be read, the call that reads it
     returns RRCACHE_DONE, all fields of `counts` are 0, no event is written, and
     `rrcache_tell_response` reports that TC is set. If the truncated message ends inside a record,
     the call returns RRCACHE_BAD_MESSAGE. Whether or not the truncated message can be read, the
     caller must send the query again over TCP. A message that ends inside a record but has TC clear
     also causes RRCACHE_BAD_MESSAGE. So the caller must check TC before it treats
     RRCACHE_BAD_MESSAGE as a failure of the server. Over TCP, a two-octet length field precedes
     each message: do not pass this field to the library.
   - Nothing from a message is offered if its opcode is not QUERY, if the class of its question is
     not kept, or if the name of its question is out of bailiwick.
   - The kept classes are IN, CH and HS (RFC 1035 section 3.2.4). docs/RULES.md lists the kept
     types. A name has separate keys for each class. A record of a message is ignored if the class
     of the record differs from that of the question. Data of type A in class CH are not kept,
     because the rdata of this type in this class begin with a name. It is an error to ask for a
     class that is not kept, or for type 0. A question for any other type that is not kept is
     allowed: the reply is a miss, or RRCACHE_NXDOMAIN if an unexpired NXDOMAIN of the name is
     cached. For type ANY, such an NXDOMAIN determines the reply even if unexpired RRsets of higher
     rank are cached for the name.
   - Even if a message that answers a question has just been offered, the next ask for that question
     may be a miss. Apart from evictions, there are six possible causes: the answer is at the end of
     a CNAME chain, or the chain is too long; the TTL of the answer is 0; the type of the question
     is not kept; the records of an RRset in the answer have different TTLs while AA is clear and
     `lowest_ttl` is not set; the response is negative but has no suitable SOA record
     (docs/RULES.md, "What a response offers"); or an RRset in the answer is not relevant. In all
     these cases, `rrcache_tell_response` still reports the kind of the response, and
     `rrcache_tell_offer` still reports each offer, even an RRset with TTL 0. The caller can answer
     the waiting client from the output of these calls. The caller has to parse the message only to
     obtain data that are not offered, such as data of a type that is not kept.
   - If a message answers its question, but nothing from it is stored for the question, the message
     does not end a failure that is cached for the question. Until the failure expires, an ask that
     finds no answer to the question still returns the kind RRCACHE_FAILED, not RRCACHE_MISS. To end
     the failure earlier, call `rrcache_offer_failure` with `ttl` 0.
   - A message from which nothing is stored changes a cached RRset only if an offer of the message
     has TTL 0 and clears the RRset. Otherwise, the RRset may still be returned, even as a stale
     answer. However, under RFC 8767 section 4, an authoritative response (AA set) with RCODE
     NOERROR or NXDOMAIN counts as a refresh, and the old RRset should no longer be returned. So if
     such a response is offered, but nothing that governs the reply to the question is stored
     (docs/RULES.md, "What is not stored"), the resolver should clear the old RRset. To do so, it
     calls `rrcache_offer_set` with `ttl` 0 and the rank RRCACHE_AUTHORITATIVE_ANSWER.
   - If the type of the question is kept, a response with any RCODE other than NOERROR or NXDOMAIN,
     including FORMERR, NOTIMP and REFUSED, offers a failure of the question. If no cached data may
     then answer the question, the reply is RRCACHE_FAILED until the failure expires or a later
     entry for the question is stored. So offer such a response only when the resolver can neither
     query another server nor try again without EDNS.
   - If the offers of a message need more new keys than the shelf can hold, later offers evict keys
     of earlier offers.

   Timestamps
   - A timestamp (`moment`) is a number of seconds, at most 2^40. The caller supplies timestamps,
     because the functions of this header read no clock. The timestamp of a call may be lower than
     that of a previous call.
   - In a call, the age of an entry is the timestamp of the call minus the timestamp of the entry.
     If the timestamp of the call is lower than that of the entry, the age is 0, and `left` is the
     whole TTL of the entry. The field `age` of `struct rrcache_entry` is not this age: it counts
     uses of keys.
   - An entry has expired when its age is at least its TTL. An entry is *fully expired* when it can
     no longer answer any question. A negative answer or a failure is fully expired as soon as it
     has expired. An RRset becomes fully expired `max_stale` seconds after it expires.
   - If the caller's clock is set back by a number of seconds, all cached data expire that many
     seconds too late. Data that had expired, but have not yet been replaced, cleared, evicted or
     swept, may answer again, and may prevent data of lower rank from being stored. If the clock is
     set forward, data expire too early, and a sweep then removes entries that are fully expired
     according to that clock. Use a clock that cannot be set, and that keeps running while the
     machine is suspended. On Linux, CLOCK_BOOTTIME is such a clock, but CLOCK_MONOTONIC stops
     during suspension.
   - The order of the calls, not the order of their timestamps, determines which of two events is
     later.

   History and chapters
   - The history of a shelf is a log of events. Each ask, sweep or offer that succeeds is one event,
     even an offer with the outcome RRCACHE_OUTRANKED. A message causes one event for each offer
     that is made from it. A trim causes one or two events for each key that it evicts, and one more
     event if it begins with a sweep.
   - A new shelf does not record its history. While a shelf is not recording, its events are
     numbered but use no memory, no chapter becomes full, and there are no chapters to drop.
     `rrcache_record` starts recording: from then on, the shelf keeps events in memory.
     `rrcache_stop_recording` stops recording and returns the recorded chapters that have not been
     taken or dropped. `rrcache_stop_and_drop` stops recording and frees these chapters. No reply
     depends on whether a shelf is recording. Except for the statements about event numbers and
     chapter numbers, the rest of this section applies only while a shelf is recording.
   - An event uses 96 octets of memory, plus the octets of its names and data.
   - A chapter is a segment of the history. The newest chapter is open, which means that new events
     are added to it. If a call has to write an event and the open chapter is full, the call first
     closes that chapter and opens the next one, under the lock of the shelf. A call that offers a
     message may close a chapter before each offer. No reply depends on where chapters end.
   - The time needed to close a chapter grows with the number of keys that the shelf holds, and with
     the number of keys that it held when the chapter began. The call that closes the chapter writes
     16 octets for each key, and copies an entry of 56 octets for each key that has been used since
     the chapter began. If the uses and removals of keys during the chapter outnumber the keys that
     the shelf held when the chapter began, the call copies the entries of all keys instead.
     `rrcache_record` begins a new chapter, and always copies the entries of all keys. Names, data
     and events are not copied. A good value for `chapter`, the maximum number of events in a
     chapter, is roughly the number of keys in the shelf.
   - A caller that records a history should regularly take the closed chapters with
     `rrcache_take_chapters`, or drop them with `rrcache_drop_chapters`. The time needed to take
     chapters does not depend on their number. Dropping chapters frees all their events, and all
     copied entries that are not used elsewhere. So the time needed to drop chapters, during which
     the caller holds the lock, grows with the number of events since chapters were last dropped or
     taken. This time is short if the caller drops chapters often. `rrcache_free_chapters` frees
     taken chapters without a lock.
   - `rrcache_write_chapter` writes a taken chapter as text: a first line with the number of the
     chapter, the number of its first event, and the rules of the shelf except the seed; a line for
     each key that was cached when the chapter began; and a line for each event. The text of all
     chapters of one recording, in the order in which they were taken, is an archive. The command
     `rrcache --audit-history` audits an archive: it checks whether the history in the archive
     follows the rules. Chapters are numbered from 1, and chapters that were not recorded have
     numbers too. A recording begins with a new chapter, so the number of its first chapter is 2 or
     higher.
   - Whether or not the shelf is recording, event numbers are used up when the next event would have
     the number 2^62. Chapter numbers are used up when the open chapter is full and has the number
     2^62. Once event numbers or chapter numbers are used up, each call that has to write an event
     returns RRCACHE_HISTORY_FULL, even after chapters have been dropped. However, `rrcache_peek`
     still returns replies. After RRCACHE_HISTORY_FULL, the resolver has to free the shelf and make
     a new, empty one. A resolver that uses `struct rrcache` has to close the cache and open a new
     one instead. At 10^9 events a second, event numbers are used up after 146 years.

   Which error is returned
   - If several errors apply, a function of this header returns the first one in this list:
     RRCACHE_NULL; RRCACHE_OVERLAP; RRCACHE_NO_SHELF or RRCACHE_HAS_SHELF; RRCACHE_NO_OFFERS or
     RRCACHE_HAS_OFFERS; RRCACHE_NO_CHAPTERS or RRCACHE_HAS_CHAPTERS; RRCACHE_NO_LINE; RRCACHE_SINK;
     RRCACHE_BAD_RULES; RRCACHE_BAD_SEED; RRCACHE_BAD_LIMITS; RRCACHE_BAD_CHOICE; RRCACHE_BAD_TYPE;
     RRCACHE_BAD_NAME; RRCACHE_OTHER_QUERY or RRCACHE_NO_QUESTION; RRCACHE_BAD_MESSAGE or
     RRCACHE_BAD_DATA; RRCACHE_OTHER_SEED; RRCACHE_WRONG_BODY; RRCACHE_WIDE; RRCACHE_SMALL;
     RRCACHE_HISTORY_FULL; RRCACHE_MOMENT_TOO_LARGE. The exceptions are `rrcache_sweep_some` and
     `rrcache_trim`, which check for RRCACHE_MOMENT_TOO_LARGE before RRCACHE_HISTORY_FULL.
   - If an allocation fails while a call checks for these errors, the call returns RRCACHE_MEMORY,
     even if an error for which the call has not yet checked also applies.
   - A call that offers a message checks for RRCACHE_HISTORY_FULL and RRCACHE_MOMENT_TOO_LARGE only
     when it makes an offer. If the message has no offers, the call returns RRCACHE_DONE, regardless
     of the timestamp and even if event numbers or chapter numbers are used up.
   - The end of this comment describes when a function returns RRCACHE_NULL or RRCACHE_OVERLAP. A
     function that uses the contents of a handle returns RRCACHE_NO_SHELF, RRCACHE_NO_OFFERS or
     RRCACHE_NO_CHAPTERS if the handle holds nothing. Calls that allocate memory may return
     RRCACHE_MEMORY. Calls that write an event return RRCACHE_HISTORY_FULL if event numbers or
     chapter numbers are used up, and RRCACHE_MOMENT_TOO_LARGE if the timestamp is above 2^40. The
     comments on most functions do not repeat these conditions.

   Names are in wire form (RFC 1035 section 3.1): complete, without compression pointers, and at
   most 255 octets long, including the zero octet at the end. Letters may be in upper or lower case.
   Except in `struct rrcache_place`, the field `line` of a struct may be any number that the caller
   chooses. While a shelf is recording, it keeps this number with each event of the call to which
   the struct is passed. A pointer to octets or to an array may be null only if the size that is
   passed with the pointer is 0.

   The names of the exported functions that this header declares begin with `rrc_`. These functions
   require pointers that are not null, and buffers that do not overlap. A resolver calls inline
   functions, which check these conditions. The inline functions then call an exported function,
   except `rrcache_compose_response`, `rrcache_tell_octets` and `rrcache_status_text`, which call
   none. An inline function returns RRCACHE_NULL if a required pointer is null. It returns
   RRCACHE_OVERLAP if any memory that it writes, including the handle, overlaps another output or an
   input. There is one exception: if an input struct of a call contains pointers, as `struct
   rrcache_response` does, an output may overlap any input struct of that call. The function reads
   these structs before it writes anything. Inputs may overlap each other. The library cannot check
   whether a handle or a `struct rrcache_name` was initialized to zeros, whether two threads use one
   handle at the same time, or whether a buffer is as large as the size that is passed with the
   buffer. */
#ifndef RRCACHE_SHELF_H
#define RRCACHE_SHELF_H

#include <stdbool.h>
#include <stddef.h>
#include <stdint.h>

/* The initializer with which inline functions set a struct to zeros. In C++, the initializer is
   `{}`, because C++ compilers warn about the fields that `{0}` leaves out. */
/* clang-format off */
#ifdef __cplusplus
#define RRCACHE_ZEROS {}
#else
#define RRCACHE_ZEROS {0}
#endif
/* clang-format on */

#ifdef __cplusplus
extern "C" {
#endif

/* The version of this header. `rrcache_version` returns the version of the library. */
#define RRCACHE_VERSION_MAJOR 2
#define RRCACHE_VERSION_MINOR 1
#define RRCACHE_VERSION_PATCH 0
#define RRCACHE_VERSION                                                                            \
    (RRCACHE_VERSION_MAJOR * 65536 + RRCACHE_VERSION_MINOR * 256 + RRCACHE_VERSION_PATCH)

/* The statuses that calls return. */
enum rrcache_status {
    RRCACHE_DONE = 0,
    RRCACHE_NO_SHELF = 1,         /* the handle holds no shelf */
    RRCACHE_HAS_SHELF = 2,        /* the handle already holds a shelf */
    RRCACHE_MEMORY = 3,           /* an allocation failed */
    RRCACHE_HISTORY_FULL = 4,     /* event numbers or chapter numbers are used up ("History and
                                     chapters" above) */
    RRCACHE_MOMENT_TOO_LARGE = 5, /* the timestamp is above 2^40 */
    RRCACHE_BAD_RULES = 6,        /* one of these is out of range: `capacity`, `chapter`,
                                     `max_stale`, the number of parts, the part, `limit` or `most`;
                                     in rrcache.h also `octets`, `keys`, `shelves`, `readers` or the
                                     number of a shelf */
    RRCACHE_BAD_SEED = 7,         /* all octets of the seed are 0 and, in `rrcache_open`, the system
                                     provides no random octets */
    RRCACHE_BAD_LIMITS = 8,       /* a field of `struct rrcache_limits` is out of range */
    RRCACHE_BAD_NAME = 9,         /* the octets are not a name in wire form, or the
                                     `struct rrcache_name` holds no name */
    RRCACHE_BAD_MESSAGE = 10,     /* the octets cannot be read as a response; `rrcache_fault`
                                     reports the reason */
    RRCACHE_BAD_CHOICE = 11,      /* a purpose, mode, kind, trust, section or RCODE is not valid */
    RRCACHE_BAD_TYPE = 12,        /* in an offer: data of its type are not kept in its class
                                     (docs/RULES.md lists the kept types). In a question: its class
                                     is not kept, or its type is 0. In a parsed response or its
                                     query: a class or a type is 0 */
    RRCACHE_BAD_DATA = 13,        /* the rdata do not match the layout of their type, or are cut
                                     off */
    RRCACHE_WRONG_BODY = 14,      /* an RRset has no data, or a TTL is above 2^31 - 1 */
    RRCACHE_WIDE = 15,            /* a record of the reply has more than 65,535 octets of rdata (too
                                     many for any message), or all records of the reply together
                                     have at least 2^64 octets of rdata */
    RRCACHE_SMALL = 16,           /* the buffer is too small. For functions of this header, `told`
                                     or `size` reports the required size, and no event is written */
    RRCACHE_NULL = 17,            /* a required pointer is null (never returned by `rrc_`
                                     functions) */
    RRCACHE_NO_OFFERS = 18,       /* the handle holds no offers, or no offer with the given
                                     number */
    RRCACHE_HAS_OFFERS = 19,      /* the handle already holds offers */
    RRCACHE_OTHER_QUERY = 20,     /* the identifier or the question of the message differs from that
                                     of the query, the message is itself a query, or it is too short
                                     for a header */
    RRCACHE_NO_CHAPTERS = 21,     /* the handle holds no chapters */
    RRCACHE_HAS_CHAPTERS = 22,    /* the handle already holds chapters or, in `rrcache_dump`,
                                     histories are being recorded */
    RRCACHE_NO_LINE = 23,         /* the handle has no chapter with the given number, or that
                                     chapter has no line with the given number */
    RRCACHE_SINK = 24,            /* the sink returned nonzero (never returned by `rrc_`
                                     functions) */
    RRCACHE_OVERLAP = 25,         /* an output overlaps another argument (never returned by `rrc_`
                                     functions) */
    RRCACHE_OTHER_SEED = 26,      /* the name was made, or the message was read, under a seed that
                                     is not the seed of the shelf */
    RRCACHE_NO_QUESTION = 27,     /* the response is a header without a question, from a server that
                                     could not or would not read the query. The RCODE of the
                                     response (the low four bits of its fourth octet) is FORMERR
                                     (1), NOTIMP (4) or REFUSED (5) */
    RRCACHE_TOO_LARGE = 28        /* the data to store would use more memory than a shelf may use
                                     (returned only by functions of rrcache.h) */
};

/* The kind of a reply or of a stored entry. The kind of an entry is RRCACHE_FRESH, RRCACHE_NODATA,
   RRCACHE_NXDOMAIN or RRCACHE_FAILED, or 0 if nothing is stored. */
enum rrcache_kind {
    RRCACHE_FRESH = 1,    /* an unexpired RRset; as the kind of an entry, any RRset, even if it has
                             expired */
    RRCACHE_STALE = 2,    /* an expired RRset (RFC 8767) */
    RRCACHE_NODATA = 3,   /* the name has no data of the type (RFC 2308 section 2.2) */
    RRCACHE_NXDOMAIN = 4, /* the name does not exist (RFC 2308 section 2.1) */
    RRCACHE_MISS = 5,     /* the cache holds nothing that may answer, and no recent failure */
    RRCACHE_FAILED = 6    /* the cache holds nothing that may answer, but holds a recent failure: an
                             unexpired failure that was stored later than all other entries for the
                             question. A resolver answers with SERVFAIL until `retry_from` (RFC
                             9520). As the kind of an entry, RRCACHE_FAILED means any failure */
};

/* The classes whose data are kept (RFC 1035 section 3.2.4). */
enum rrcache_class { RRCACHE_IN = 1, RRCACHE_CH = 3, RRCACHE_HS = 4 };

/* The purpose of an answer (RFC 2181 section 5.4.1). For RRCACHE_ANYTHING, additional data such as
   glue are acceptable. RRCACHE_QUESTION is for a client's question, which additional data must not
   answer. */
enum rrcache_purpose { RRCACHE_ANYTHING = 1, RRCACHE_QUESTION = 2 };

/* When a stale answer is acceptable (RFC 8767 section 5). RRCACHE_NO_STALE: never.
   RRCACHE_STALE_IF_FAILED: only if there is a recent failure (see RRCACHE_FAILED).
   RRCACHE_STALE_NOW: with or without a failure. */
enum rrcache_mode { RRCACHE_NO_STALE = 1, RRCACHE_STALE_IF_FAILED = 2, RRCACHE_STALE_NOW = 3 };

/* The rank of data (RFC 2181 section 5.4.1), from low to high. A negative answer from a response
   has rank 4 if AA is set and the negative answer is about the name of the question itself. All
   other negative answers from responses have rank 2. */
enum rrcache_trust {
    RRCACHE_ADDITIONAL = 1,               /* data of the additional section, or of the authority
                                             section of a non-authoritative response */
    RRCACHE_NON_AUTHORITATIVE_ANSWER = 2, /* data of the answer section that do not have the rank
                                             RRCACHE_AUTHORITATIVE_ANSWER */
    RRCACHE_AUTHORITY = 3,                /* data of the authority section of an authoritative
                                             response */
    RRCACHE_AUTHORITATIVE_ANSWER = 4      /* data of the answer section of an authoritative
                                             response, if the owner is the name of the question */
};

/* The sections of a response that contain records (RFC 1035 section 4.1). */
enum rrcache_section {
    RRCACHE_ANSWER_SECTION = 1,
    RRCACHE_AUTHORITY_SECTION = 2,
    RRCACHE_ADDITIONAL_SECTION = 3
};

/* The outcome of an offer. Kept: the data were stored. Cleared: the TTL was 0, and the key now
   holds nothing. Outranked: the key holds unexpired data of higher rank, so nothing was stored. */
enum rrcache_outcome { RRCACHE_KEPT = 1, RRCACHE_CLEARED = 2, RRCACHE_OUTRANKED = 3 };

/* The kind of a response from a server of a zone: what the response means for its question (RFC
   1034 section 5.3.3). In the comments below, *the type* is the type of the question. *The name* is
   the name at the end of the CNAME chain that begins at the name of the question. If the library
   follows no CNAME record, *the name* is the name of the question itself. The library follows at
   most 16 CNAME records, and only as long as their owners are in bailiwick. For a question of type
   CNAME or ANY, it follows no CNAME record. */
enum rrcache_response_kind {
    RRCACHE_RESPONSE_ANSWER = 1,       /* the response has data of the type for the name */
    RRCACHE_RESPONSE_UNEQUAL_TTLS = 2, /* the response has data of the type for the name, but these
                                          data are not offered, because their TTLs differ, AA is
                                          clear, and `lowest_ttl` is not set */
    RRCACHE_RESPONSE_NODATA = 3,       /* the name has no data of the type (RFC 2308 section 2.2).
                                          If the response has no SOA record, no negative answer is
                                          offered. For type ANY, data of types that are not kept do
                                          not count */
    RRCACHE_RESPONSE_NXDOMAIN = 4,     /* the name does not exist (RFC 2308 section 2.1). If the
                                          response has no SOA record, no negative answer is
                                          offered */
    RRCACHE_RESPONSE_REFERRAL = 5, /* AA is clear, and the response has NS records of a zone that is
                                      below the zone of the server and contains the name (RFC 1034
                                      section 4.3.2) */
    RRCACHE_RESPONSE_ALIAS = 6,    /* a CNAME chain leads to a name that is out of bailiwick, or to
                                      a name for which the response neither has data nor denies that
                                      there are data. Look up that name and, if the look-up misses,
                                      send a query for it */
    RRCACHE_RESPONSE_FAILURE = 7,  /* the RCODE is neither NOERROR nor NXDOMAIN */
    RRCACHE_RESPONSE_UNUSABLE = 8  /* none of the kinds above. For example, a response has this kind
                                      if TC is set, if the opcode is not QUERY, if the class of the
                                      question is not kept, or if the name of the question is out of
                                      bailiwick. It also has this kind if the CNAME chain is a loop
                                      or has more than 16 records, or if the RCODE is NXDOMAIN
                                      although the answer section has a record of the name (but none
                                      of the type). Another example is a response that has no data,
                                      does not deny that there are data, and is not a referral. A
                                      server that does not serve the zone may send such a response.
                                      A response with AA set is not a referral, even if it has NS
                                      records whose owner is below the zone apex. Data of a type
                                      that is not kept are skipped. So for a question of any such
                                      type other than ANY, a NOERROR response has this kind unless
                                      it is a referral or an alias */
};

/* The reason why octets cannot be read as a response (`rrcache_fault`). */
enum rrcache_message_fault {
    RRCACHE_NO_FAULT = 0,         /* the octets can be read */
    RRCACHE_SHORT = 1,            /* the message ends before its header, its question or one of its
                                     records is complete */
    RRCACHE_RESERVED_BITS = 2,    /* the top two bits of a length octet of a name are 01 or 10 */
    RRCACHE_POINTER = 3,          /* a compression pointer does not lead to an offset below the
                                     start of its run (docs/RULES.md, "Messages") */
    RRCACHE_LONG_NAME = 4,        /* a name has more than 255 octets */
    RRCACHE_LAYOUT = 5,           /* rdata do not match the layout of their type */
    RRCACHE_NO_RESPONSE = 6,      /* QR is clear, so the message is a query */
    RRCACHE_NOT_ONE_QUESTION = 7, /* the message does not have exactly one question */
    RRCACHE_LONG_MESSAGE = 8      /* the message has more than 65,535 octets */
};

/* A handle for a shelf. Initialize the handle to zeros; `rrcache_make` makes its shelf. */
struct rrcache_shelf {
    void *at;
    bool is_live;
    uint64_t seed[2];
};

/* A handle for the offers of a message. Initialize the handle to zeros; `rrcache_read_response`
   fills it. */
struct rrcache_offers {
    void *at;
    bool is_live;
};

/* A handle for chapters that were taken from a shelf. Initialize the handle to zeros;
   `rrcache_take_chapters` fills it. */
struct rrcache_chapters {
    void *at;
    bool is_live;
};

/* A name in the form that look-ups in shelves require: folded to lower case, and hashed. Initialize
   the struct to zeros; `rrcache_make_name` fills it. `part` is the number of the name's shelf,
   counted from 0. `hash` is the 64-bit SipHash-1-3 of the folded name under `seed`, and the caller
   may use this hash in its own tables. The caller may copy the struct. The struct and its copies
   are valid as long as the caller uses the same seed and the same number of parts. */
struct rrcache_name {
    uint64_t hash;
    uint64_t part;
    uint8_t seed[16];
    uint8_t size;
    uint8_t octets[255]; /* the first `size` octets are the name in wire form, with the letters A to
                            Z in lower case; the other octets are unmodified */
};

/* How names are divided among shelves: `count` is the number of shelves, from 1 to 64, and `seed`
   is the seed in the rules of these shelves. The library hashes names with SipHash-1-3 under this
   seed, and the upper 32 bits of the hash determine the shelf. Under a different seed, a name may
   belong to a different shelf. So calls return RRCACHE_OTHER_SEED for a name that was made, or a
   message that was read, under a seed that is not the seed of the shelf. */
struct rrcache_parts {
    uint64_t count;
    uint8_t seed[16];
};

/* The rules of a shelf. */
struct rrcache_rules {
    uint64_t capacity;  /* the maximum number of keys in the shelf: 1 to 65,536 */
    uint64_t chapter;   /* the maximum number of events in a recorded chapter: 1 to 1,048,576 */
    uint64_t max_stale; /* for how many seconds an RRset may be served past its TTL: 0 to 604,800 (a
                           week) */
    uint8_t seed[16];   /* 16 secret random octets, not all 0, the same for all shelves of a
                           cache */
};

/* What a caller asks about a name, and which answers are acceptable. */
struct rrcache_question {
    uint64_t moment;
    uint64_t line;
    uint16_t rtype;
    uint16_t rclass;  /* enum rrcache_class */
    uint32_t purpose; /* enum rrcache_purpose */
    uint32_t mode;    /* enum rrcache_mode */
};

/* The entry of a key. All fields are 0 if nothing is stored, and also if the reply to an ask or a
   peek has the kind RRCACHE_MISS or RRCACHE_FAILED. An auditor can look up `number` in the history
   of the shelf to find the event that stored the entry. Two entries of one shelf never have the
   same `number`, but entries of different shelves may. So a caller that keeps its own data about
   entries must look up these data by the shelf and `number`, or by the name and `number`. The name
   can be used instead of the shelf, because all entries of a name are in one shelf. */
struct rrcache_entry {
    uint32_t kind;   /* enum rrcache_kind, or 0 if nothing is stored */
    uint32_t trust;  /* enum rrcache_trust; 0 for a failure */
    uint32_t ttl;    /* the TTL that was stored. For data from a message, the limits in `struct
                        rrcache_limits` apply: the TTL of an RRset is at most `cap`, the TTL of a
                        negative answer is at most the lower of `cap` and `negative_cap`, and the
                        TTL of a failure is `recheck`. For other data, `ttl` is the TTL that was
                        offered. To prefetch, a resolver renews an entry if a client asks for it
                        shortly before `ttl` seconds have passed since `moment` */
    uint64_t moment; /* the timestamp of the offer that was stored */
    uint64_t number; /* the number of the event that stored the entry; no other entry of the shelf
                        has this number */
    uint64_t age;    /* not a time, but how many times keys of the shelf have been used since the
                        key of this entry was last used. At most `age` other keys have been used
                        since then. A key is used when an entry is stored under it, and when its
                        entry answers an ask. A reply contains the value that `age` had before the
                        ask or peek. An ask then moves the entry to the front of the LRU order, but
                        a peek does not. If the entry is already at the front (`age` 0), an ask does
                        not count as a use */
};

/* A reply. The first `owner_size` octets of the buffer are the owner of the RRset or, in a negative
   answer, of the SOA record. The owner is in wire form, in the spelling in which it was received.
   The next `data_size` octets are the rdata of all records of the RRset, or of the SOA record. A
   two-octet length field, high octet first, precedes the rdata of each record. A reply of kind
   RRCACHE_MISS or RRCACHE_FAILED has neither an owner nor rdata. */
struct rrcache_told {
    uint32_t kind;       /* enum rrcache_kind */
    uint32_t rtype;      /* the type of the reply: the type of the question, or CNAME (5) if
                            `rrcache_ask_alias` or `rrcache_peek_alias` returns the CNAME record of
                            the name */
    uint32_t left;       /* for how many seconds the reply may be used: the remaining TTL, 30 for
                            RRCACHE_STALE (RFC 8767 section 4), or 0 for RRCACHE_MISS and
                            RRCACHE_FAILED */
    uint64_t retry_from; /* for RRCACHE_FAILED, the timestamp from which the resolver may try again;
                            otherwise 0. After a reply of kind RRCACHE_STALE, a peek with
                            RRCACHE_NO_STALE returns this timestamp if the shelf holds a recent
                            failure; for a `struct rrcache`, use a look-up with RRCACHE_NO_STALE
                            instead */
    uint64_t owner_size;
    uint64_t data_size;
    struct rrcache_entry entry; /* the entry that gives the reply */
};

/* The properties of a response, apart from its offers. */
struct rrcache_summary {
    uint32_t kind; /* enum rrcache_response_kind */
    uint8_t rcode; /* the RCODE of the header, 0 to 15; the upper bits that an OPT record may add
                      are not read */
    bool aa;
    bool tc;
};

/* The entries that are stored for a name, a class and a type. */
struct rrcache_stored {
    struct rrcache_entry set;      /* an RRset of the type, or NODATA */
    struct rrcache_entry nxdomain; /* the NXDOMAIN of the name */
    struct rrcache_entry failure;  /* a failure of the type */
};

/* How many of the offers of a message had each outcome. */
struct rrcache_counts {
    uint64_t kept;
    uint64_t cleared;
    uint64_t outranked; /* offers whose data were not stored, because the key held unexpired data of
                           higher rank. Such an offer is an event, not an error */
};

/* The limits, in seconds, on how long data of a response may be cached. */
struct rrcache_limits {
    uint32_t cap;          /* the maximum TTL: 1 to 604,800 (RFC 8767 section 4) */
    uint32_t negative_cap; /* the maximum TTL of a negative answer: 1 to 604,800 (RFC 2308 section
                              5) */
    uint32_t recheck;      /* the TTL of a failure from a response: 1 to 300 (RFC 8767 section 5,
                              RFC 9520 section 3.2) */
};

/* Default limits for a resolver. */
#define RRCACHE_LIMITS                                                                             \
    {                                                                                              \
        604800, 10800, 30                                                                          \
    }

/* The timestamp at which to sweep, and a limit. `rrcache_sweep_some` makes at most `most` sweeps,
   and makes no further sweep once it has removed at least `most` keys. `rrcache_sweep` ignores
   `most`. */
struct rrcache_sweep_at {
    uint64_t moment;
    uint64_t line;
    uint64_t most; /* at least 1 */
};

/* The result of `rrcache_sweep_some`. */
struct rrcache_swept {
    uint64_t removed;
    uint32_t is_done; /* 1 if no key is left that is fully expired at the given timestamp, 0 if such
                         a key may be left */
};

/* The number of octets to which a shelf is trimmed, and the maximum number of keys to remove. */
struct rrcache_trim_to {
    uint64_t moment;
    uint64_t line;
    uint64_t limit; /* the maximum number of octets that the remaining keys may use, at least 1 */
    uint64_t most;  /* at least 1 */
};

/* The result of a trim: the number of keys that were removed, and the number of octets that the
   remaining keys use. */
struct rrcache_trimmed {
    uint64_t removed;
    uint64_t octets;
};

/* The sizes of a shelf (`rrcache_sizes`). */
struct rrcache_usage {
    uint64_t keys;
    uint64_t events;
    uint64_t chapters;
    uint64_t octets; /* the approximate number of octets of memory that the keys use */
};

/* Which offers of a message to make: the offers for one part. Parts are numbered from 0. */
struct rrcache_share {
    uint64_t part;
    uint64_t line;
};

/* Which offer of a message to make. Offers are numbered from 0. */
struct rrcache_offer_pick {
    uint64_t index;
    uint64_t line;
};

/* A position in the text of the chapters of a handle: a chapter, a line of this chapter, and an
   octet of this line, each counted from 0. */
struct rrcache_place {
    uint64_t chapter;
    uint64_t line;
    uint64_t from;
};

/* The number of octets in a line, including its LF, and the number of these octets that were
   written. */
struct rrcache_line {
    uint64_t size;
    uint64_t written;
};

/* ---- Function arguments. The field after each pointer to octets contains the number of these
   octets. Use designated initializers for the structs below, so that the fields that you leave out
   are 0.

   The structs of this header and of rrcache.h that exported functions read or write are part of the
   ABI of the library. These structs keep their size and their fields in all versions with the same
   soname. The inline functions of this header pass only the fields of the structs below to the
   library, never the structs themselves. However, exported functions of rrcache.h read or write all
   of the structs below except `struct rrcache_parsed_response`. So a later version of this header
   may add fields to `struct rrcache_parsed_response`, but not to the other structs below. */

/* The query that a response has to answer. */
struct rrcache_query {
    const uint8_t *name;
    size_t name_size;
    uint16_t id;
    uint16_t rtype;
    uint16_t rclass; /* enum rrcache_class */
    bool with_case;  /* whether a response has to repeat the letters of the name in the same case. A
                        resolver that chooses the case of each letter at random ("0x20") sets this
                        field, so that an attacker also has to guess the case of each letter */
};

/* A response: its octets, without the two-octet length field that precedes a response over TCP; the
   zone whose server sent the response; the timestamp of its arrival; and the limits on how long its
   data may be cached. */
struct rrcache_response {
    const uint8_t *octets;
    size_t size;
    const uint8_t *zone;
    size_t zone_size;
    uint64_t moment;
    struct rrcache_limits limits;
    bool lowest_ttl;    /* for a response with AA clear: whether an RRset whose records have
                           different TTLs is offered with the lowest of these TTLs. BIND and unbound
                           store such an RRset with its lowest TTL. If this field is not set, such
                           an RRset is left out (RFC 2181 section 5.2) */
    bool clears_denied; /* whether an authoritative NXDOMAIN clears the data of the denied name for
                           the types A, AAAA and CNAME and for the type of the question. If this
                           field is not set, data that were stored before the NXDOMAIN may answer
                           again, fresh or stale, after the NXDOMAIN has been removed */
};

/* An RRset of a response that a resolver parsed itself. `data` contains the rdata of all records,
   one after another, without compressed names. A two-octet length field, high octet first, precedes
   the rdata of each record. */
struct rrcache_parsed_set {
    const uint8_t *owner;
    size_t owner_size;
    uint16_t rtype;
    uint16_t rclass;
    uint32_t ttl;
    enum rrcache_section section;
    const uint8_t *data;
    size_t data_size;
};

/* A response that a resolver parsed itself: the RCODE and flags of its header (RFC 1035 section
   4.1.1), and its RRsets. `ra` affects the kind of the response, but not its offers. */
struct rrcache_parsed_response {
    uint8_t rcode; /* 0 to 15: only the lower four bits of the RCODE, even if an OPT record adds
                      upper bits (RFC 6891) */
    bool aa;
    bool tc;
    bool ra;
    const struct rrcache_parsed_set *sets;
    size_t count;
};

/* An RRset to offer. `data` contains the rdata of all records, one after another, without
   compressed names. A two-octet length field, high octet first, precedes the rdata of each
   record. */
struct rrcache_set {
    const uint8_t *owner;
    size_t owner_size;
    uint16_t rtype;
    uint16_t rclass;
    enum rrcache_trust trust;
    uint32_t ttl;
    const uint8_t *data;
    size_t data_size;
    uint64_t moment;
    uint64_t line;
};

/* A negative answer to offer: the name has no data of the type (`kind` RRCACHE_NODATA), or does not
   exist (RRCACHE_NXDOMAIN). `soa` contains the rdata of the SOA record of the negative answer,
   without compressed names. For RRCACHE_NXDOMAIN, `rtype` is ignored, because a name that does not
   exist has no data of any type. */
struct rrcache_negative {
    const uint8_t *name;
    size_t name_size;
    uint16_t rtype;
    uint16_t rclass;
    enum rrcache_kind kind;
    enum rrcache_trust trust;
    uint32_t ttl;
    const uint8_t *soa_owner;
    size_t soa_owner_size;
    const uint8_t *soa;
    size_t soa_size;
    uint64_t moment;
    uint64_t line;
};

/* A resolution failure of a name, a class and a type, to be cached for `ttl` seconds. */
struct rrcache_failure {
    const uint8_t *name;
    size_t name_size;
    uint16_t rtype;
    uint16_t rclass;
    uint32_t ttl;
    uint64_t moment;
    uint64_t line;
};

/* A callback that receives the text of chapters, piece by piece. The callback must process all
   octets that it receives, and return 0 to continue or nonzero to stop. `state` is the pointer that
   the caller passed together with the callback. */
typedef int (*rrcache_sink)(void *state, const void *octets, size_t size);

/* The numbers of octets that `rrcache_sizes` adds up. RRCACHE_ENTRY_OCTETS is added for each key,
   and includes its positions in the LRU order, the map of keys and the expiry queue.
   RRCACHE_VALUE_OCTETS is added for each name, for the rdata of each record, and for each list of
   several records. It includes room for RRCACHE_INLINE_OCTETS octets of the name or rdata. Longer
   names and rdata are stored in a separate block of memory, for which RRCACHE_BLOCK_OCTETS and the
   size of the name or rdata are added. A list of several records is also stored in a separate
   block, for which only RRCACHE_BLOCK_OCTETS is added. RRCACHE_SHARED_OCTETS is added for the
   reference count of a name or of the data of a key, and includes the block of memory that contains
   this count. */
enum {
    RRCACHE_ENTRY_OCTETS = 160,
    RRCACHE_VALUE_OCTETS = 48,
    RRCACHE_INLINE_OCTETS = 32,
    RRCACHE_BLOCK_OCTETS = 16,
    RRCACHE_SHARED_OCTETS = 32
};

/* The maximum number of octets that a sink receives in one call. */
enum { RRCACHE_PIECE_OCTETS = 4096 };

/* The maximum number of octets in a message (RFC 1035 section 4.2.2). */
enum { RRCACHE_MESSAGE_OCTETS = 65535 };

/* ---- The functions of the library that the inline functions call, and the structs that the inline
   functions pass to them. In the parameters of these functions, the size of an array follows the
   pointer to the array. The read-only functions take `look`, a copy of a handle. They write to this
   copy while they run, so no other call may use the copy at the same time. */

struct rrc_response {
    uint64_t moment;
    uint64_t line;
    struct rrcache_parts parts;
    uint64_t part;
    struct rrcache_limits limits;
    uint16_t id;
    uint16_t rtype;
    uint16_t rclass;
    bool with_case;
    bool lowest_ttl;
    bool clears_denied;
};

struct rrc_set {
    uint64_t moment;
    uint64_t line;
    uint32_t ttl;
    uint32_t trust;
    uint16_t rtype;
    uint16_t rclass;
};

struct rrc_negative {
    uint64_t moment;
    uint64_t line;
    uint32_t ttl;
    uint32_t trust;
    uint32_t denial;
    uint16_t rtype;
    uint16_t rclass;
};

struct rrc_failure {
    uint64_t moment;
    uint64_t line;
    uint32_t ttl;
    uint16_t rtype;
    uint16_t rclass;
};

uint32_t rrc_make(struct rrcache_shelf *shelf, const struct rrcache_rules *rules);
uint32_t rrc_free(struct rrcache_shelf *shelf);
uint32_t rrc_make_name(const uint8_t *octets, size_t size, const struct rrcache_parts *parts,
                       struct rrcache_name *name);
uint32_t rrc_record(struct rrcache_shelf *shelf);
uint32_t rrc_stop_and_drop(struct rrcache_shelf *shelf);
uint32_t rrc_ask(struct rrcache_shelf *shelf, const struct rrcache_name *name,
                 const struct rrcache_question *question, struct rrcache_told *told,
                 uint8_t *buffer, size_t buffer_size);
uint32_t rrc_ask_alias(struct rrcache_shelf *shelf, const struct rrcache_name *name,
                       const struct rrcache_question *question, struct rrcache_told *told,
                       uint8_t *buffer, size_t buffer_size);
uint32_t rrc_peek(struct rrcache_shelf *look, const struct rrcache_name *name,
                  const struct rrcache_question *question, struct rrcache_told *told,
                  uint8_t *buffer, size_t buffer_size);
uint32_t rrc_peek_alias(struct rrcache_shelf *look, const struct rrcache_name *name,
                        const struct rrcache_question *question, struct rrcache_told *told,
                        uint8_t *buffer, size_t buffer_size);
uint32_t rrc_stored(struct rrcache_shelf *look, const struct rrcache_name *name,
                    const struct rrcache_question *question, struct rrcache_stored *stored);
uint32_t rrc_read_response(struct rrcache_offers *offers, const uint8_t *octets, size_t size,
                           const uint8_t *zone, size_t zone_size, const uint8_t *name,
                           size_t name_size, const struct rrc_response *response,
                           uint64_t *concerned);
uint32_t rrc_read_message_unchecked(struct rrcache_offers *offers, const uint8_t *octets,
                                    size_t size, const uint8_t *zone, size_t zone_size,
                                    const struct rrc_response *response, uint64_t *concerned);
uint32_t rrc_tell_response(struct rrcache_offers *offers, struct rrcache_name *name,
                           struct rrcache_summary *told);
uint32_t rrc_tell_offer(struct rrcache_offers *offers, uint64_t index, struct rrcache_name *name,
                        struct rrcache_told *told, uint8_t *buffer, size_t buffer_size);
uint32_t rrc_offer_read(struct rrcache_shelf *shelf, struct rrcache_offers *offers,
                        const struct rrcache_share *share, struct rrcache_counts *counts);
uint32_t rrc_offer_one(struct rrcache_shelf *shelf, struct rrcache_offers *offers,
                       const struct rrcache_offer_pick *pick, uint32_t *outcome);
uint32_t rrc_free_offers(struct rrcache_offers *offers);
uint32_t rrc_offer_message_unchecked(struct rrcache_shelf *shelf, const uint8_t *octets,
                                     size_t size, const uint8_t *zone, size_t zone_size,
                                     const struct rrc_response *response,
                                     struct rrcache_counts *counts);
uint32_t rrc_offer_part_unchecked(struct rrcache_shelf *shelf, const uint8_t *octets, size_t size,
                                  const uint8_t *zone, size_t zone_size,
                                  const struct rrc_response *response,
                                  struct rrcache_counts *counts);
uint32_t rrc_offer_set(struct rrcache_shelf *shelf, const uint8_t *owner, size_t owner_size,
                       const struct rrc_set *set, const uint8_t *data, size_t data_size,
                       uint32_t *outcome);
uint32_t rrc_offer_negative(struct rrcache_shelf *shelf, const uint8_t *name, size_t name_size,
                            const struct rrc_negative *negative, const uint8_t *soa_owner,
                            size_t soa_owner_size, const uint8_t *soa, size_t soa_size,
                            uint32_t *outcome);
uint32_t rrc_offer_failure(struct rrcache_shelf *shelf, const uint8_t *name, size_t name_size,
                           const struct rrc_failure *failure, uint32_t *outcome);
uint32_t rrc_sweep(struct rrcache_shelf *shelf, const struct rrcache_sweep_at *sweep,
                   uint64_t *removed);
uint32_t rrc_sweep_some(struct rrcache_shelf *shelf, const struct rrcache_sweep_at *sweep,
                        struct rrcache_swept *swept);
uint32_t rrc_trim(struct rrcache_shelf *shelf, const struct rrcache_trim_to *trim,
                  struct rrcache_trimmed *trimmed);
uint32_t rrc_next_expiry(struct rrcache_shelf *look, uint64_t *moment);
uint32_t rrc_sizes(struct rrcache_shelf *look, struct rrcache_usage *sizes);
uint32_t rrc_drop_chapters(struct rrcache_shelf *shelf, uint64_t *dropped);
uint32_t rrc_take_chapters(struct rrcache_shelf *shelf, struct rrcache_chapters *chapters,
                           uint64_t *count);
uint32_t rrc_stop_recording(struct rrcache_shelf *shelf, struct rrcache_chapters *chapters,
                            uint64_t *count);
uint32_t rrc_chapter_line(struct rrcache_chapters *chapters, const struct rrcache_place *place,
                          uint8_t *buffer, size_t buffer_size, struct rrcache_line *told);
uint32_t rrc_free_chapters(struct rrcache_chapters *chapters);
uint32_t rrc_fault(const uint8_t *octets, size_t size, uint32_t *fault);
uint32_t rrc_version(void);

/* ---- The functions that a resolver calls. */

/* Returns the version of the library with which the program is linked, in the same form as
   RRCACHE_VERSION, the version of the header. A library with a different major version or an older
   minor version may lack functions that the header declares. */
static inline uint32_t rrcache_version(void)
{
    return rrc_version();
}

/* Returns a description of a status, for example for a log. */
static inline const char *rrcache_status_text(enum rrcache_status status)
{
    switch (status) {
    case RRCACHE_DONE:
        return "done";
    case RRCACHE_NO_SHELF:
        return "the handle holds no shelf";
    case RRCACHE_HAS_SHELF:
        return "the handle already holds a shelf";
    case RRCACHE_MEMORY:
        return "out of memory";
    case RRCACHE_HISTORY_FULL:
        return "the event numbers are used up";
    case RRCACHE_MOMENT_TOO_LARGE:
        return "the timestamp is too large";
    case RRCACHE_BAD_RULES:
        return "a number in the rules is out of range";
    case RRCACHE_BAD_SEED:
        return "the seed is all zeros";
    case RRCACHE_BAD_LIMITS:
        return "a limit is out of range";
    case RRCACHE_BAD_NAME:
        return "the octets are not the wire form of a name";
    case RRCACHE_BAD_MESSAGE:
        return "the octets cannot be read as a response";
    case RRCACHE_BAD_CHOICE:
        return "no purpose, mode, kind, rank, section or RCODE has this number";
    case RRCACHE_BAD_TYPE:
        return "this type or class is not supported";
    case RRCACHE_BAD_DATA:
        return "the rdata are malformed for their type";
    case RRCACHE_WRONG_BODY:
        return "the RRset has no data, or its TTL is too large";
    case RRCACHE_WIDE:
        return "the reply has too many octets of rdata";
    case RRCACHE_SMALL:
        return "the buffer is too small";
    case RRCACHE_NULL:
        return "a pointer is null";
    case RRCACHE_NO_OFFERS:
        return "the handle holds no offers, or none with this number";
    case RRCACHE_HAS_OFFERS:
        return "the handle already holds offers";
    case RRCACHE_OTHER_QUERY:
        return "the octets do not answer the query";
    case RRCACHE_NO_CHAPTERS:
        return "the handle holds no chapters";
    case RRCACHE_HAS_CHAPTERS:
        return "the handle already holds chapters";
    case RRCACHE_NO_LINE:
        return "there is no such line";
    case RRCACHE_SINK:
        return "the sink returned an error";
    case RRCACHE_OVERLAP:
        return "an output overlaps another argument";
    case RRCACHE_OTHER_SEED:
        return "the name or the message has a seed other than the shelf's";
    case RRCACHE_NO_QUESTION:
        return "the response has no question";
    case RRCACHE_TOO_LARGE:
        return "the data would use more memory than a shelf may use";
    }
    return "no such status";
}

/* Returns `octets` or, if `size` is 0, a pointer that is not null. */
static inline const uint8_t *rrcache_octets(const uint8_t *octets, size_t size)
{
    static const uint8_t none = 0;
    return size == 0 ? &none : octets;
}

/* Returns whether a pointer can be used for `size` octets, that is, whether the pointer is not null
   or `size` is 0. */
static inline bool rrcache_is_there(const void *octets, size_t size)
{
    return octets != NULL || size == 0;
}

/* Returns whether two ranges of memory overlap, that is, whether one of them begins within the
   other. An empty range overlaps nothing. `a` and `b` are the start addresses of the two ranges. If
   `a` is above `b`, `b - a` wraps around, and the result is larger than the size of any object. */
static inline bool rrcache_overlap(const void *one, size_t one_size, const void *other,
                                   size_t other_size)
{
    uintptr_t a = (uintptr_t)one, b = (uintptr_t)other;
    return one_size != 0 && other_size != 0 && (b - a < one_size || a - b < other_size);
}

/* Returns whether a range of memory that a call reads overlaps either of two ranges to which the
   call writes. */
static inline bool rrcache_touch(const void *one, size_t one_size, const void *other,
                                 size_t other_size, const void *read, size_t read_size)
{
    return rrcache_overlap(one, one_size, read, read_size)
           || rrcache_overlap(other, other_size, read, read_size);
}

/* Returns whether the handle of a shelf overlaps an input or another output of a call on this
   shelf. */
static inline bool rrcache_holds(const struct rrcache_shelf *shelf, const void *octets, size_t size)
{
    return rrcache_overlap(shelf, sizeof *shelf, octets, size);
}

/* Makes an empty shelf in a handle that holds no shelf. Until the caller calls `rrcache_record`,
   the shelf records nothing, and no chapter becomes full. The library hashes names with SipHash-1-3
   under the seed in the rules. The seed must be random and secret; otherwise, an attacker can slow
   calls down by choosing names whose hashes collide.

   Returns RRCACHE_HAS_SHELF if the handle already holds a shelf, even if the rules are not valid.
   The shelf in the handle is then unchanged. Returns RRCACHE_BAD_RULES if a number in the rules is
   out of range, and RRCACHE_BAD_SEED if the seed is all zeros. Needs the write lock. */
static inline enum rrcache_status rrcache_make(struct rrcache_shelf *shelf,
                                               const struct rrcache_rules *rules)
{
    if (shelf == NULL || rules == NULL)
        return RRCACHE_NULL;
    if (rrcache_holds(shelf, rules, sizeof *rules))
        return RRCACHE_OVERLAP;
    return (enum rrcache_status)rrc_make(shelf, rules);
}

/* Frees the shelf of a handle, with all its keys and recorded events. The handle then holds no
   shelf. Needs the write lock. */
static inline enum rrcache_status rrcache_free(struct rrcache_shelf *shelf)
{
    if (shelf == NULL)
        return RRCACHE_NULL;
    return (enum rrcache_status)rrc_free(shelf);
}

/* Folds and hashes a name in wire form, and determines the number of its part, counted from 0. The
   call writes the result to `name`; if the call fails, `name` is unmodified. The caller passes the
   result to the calls that look up a name in a shelf. `rrcache_make_name` never allocates, and
   needs no lock. Returns RRCACHE_BAD_RULES if `parts->count` is not in the range 1 to 64,
   RRCACHE_BAD_SEED if `parts->seed` is all zeros, and RRCACHE_BAD_NAME if `octets` are not the wire
   form of a name. */
static inline enum rrcache_status rrcache_make_name(struct rrcache_name *name,
                                                    const uint8_t *octets, size_t size,
                                                    const struct rrcache_parts *parts)
{
    if (name == NULL || parts == NULL || !rrcache_is_there(octets, size))
        return RRCACHE_NULL;
    if (rrcache_overlap(name, sizeof *name, octets, size)
        || rrcache_overlap(name, sizeof *name, parts, sizeof *parts))
        return RRCACHE_OVERLAP;
    return (enum rrcache_status)rrc_make_name(rrcache_octets(octets, size), size, parts, name);
}

/* Starts recording the history of the shelf. The open chapter ends without being recorded, and the
   next chapter begins with the entries of the shelf. The call needs as much memory and time as
   closing a chapter in which every key was used. Replies do not change. If the shelf is already
   recording, the call does nothing. Returns RRCACHE_HISTORY_FULL if the open chapter has the number
   2^62. If the call fails, the shelf is unchanged. Needs the write lock. */
static inline enum rrcache_status rrcache_record(struct rrcache_shelf *shelf)
{
    if (shelf == NULL)
        return RRCACHE_NULL;
    return (enum rrcache_status)rrc_record(shelf);
}

/* Stops recording, and frees all recorded events of the closed chapters and of the open chapter.
   Replies do not change, and no key is lost. If the shelf is not recording, the call does nothing.
   The call never allocates, and its only errors are RRCACHE_NULL and RRCACHE_NO_SHELF. Needs the
   write lock. */
static inline enum rrcache_status rrcache_stop_and_drop(struct rrcache_shelf *shelf)
{
    if (shelf == NULL)
        return RRCACHE_NULL;
    return (enum rrcache_status)rrc_stop_and_drop(shelf);
}

/* Returns whether two sequences of octets are equal. */
static inline bool rrcache_are_same(const uint8_t *one, size_t one_size, const uint8_t *other,
                                    size_t other_size)
{
    size_t at = 0;
    while (at < one_size && at < other_size && one[at] == other[at])
        at++;
    return at == one_size && at == other_size;
}

/* Returns whether octets consist of exactly one name in wire form. */
static inline bool rrcache_is_name(const uint8_t *octets, size_t size)
{
    size_t at = 0;
    while (at < size && octets[at] != 0 && octets[at] < 64)
        at += (size_t)octets[at] + 1;
    return size <= 255 && at + 1 == size && octets[at] == 0;
}

/* Returns the size of the rdata at the position `at`, including the two octets that contain their
   length. Returns 0 at the end of the data, or if the rdata are cut off. */
static inline size_t rrcache_datum_size(const struct rrcache_parsed_set *set, size_t at)
{
    size_t left = set->data_size - at, size;
    if (left < 2)
        return 0;
    size = 2 + ((size_t)set->data[at] << 8 | set->data[at + 1]);
    return size <= left ? size : 0;
}

/* Returns whether all rdata of an RRset are complete. If there are no rdata, the result is true. */
static inline bool rrcache_is_whole(const struct rrcache_parsed_set *set)
{
    size_t at = 0, size;
    for (size = rrcache_datum_size(set, 0); size != 0; size = rrcache_datum_size(set, at))
        at += size;
    return at == set->data_size;
}

/* Checks the pointers that the caller passes to `rrcache_compose_response`. Returns RRCACHE_NULL if
   a required pointer is null, and RRCACHE_OVERLAP if the two outputs overlap each other, or if one
   of them overlaps octets or an array that the call reads. */
static inline enum rrcache_status rrcache_can_compose(const struct rrcache_query *query,
                                                      const struct rrcache_parsed_response *parsed,
                                                      const uint8_t *buffer, size_t room,
                                                      const size_t *size)
{
    bool overlap;
    size_t n;
    if (query == NULL || parsed == NULL || size == NULL || !rrcache_is_there(buffer, room)
        || !rrcache_is_there(query->name, query->name_size)
        || !rrcache_is_there(parsed->sets, parsed->count))
        return RRCACHE_NULL;
    overlap = rrcache_overlap(buffer, room, size, sizeof *size)
              || rrcache_touch(buffer, room, size, sizeof *size, query->name, query->name_size)
              || rrcache_touch(buffer, room, size, sizeof *size, parsed->sets,
                               parsed->count * sizeof *parsed->sets);
    for (n = 0; n < parsed->count; n++) {
        const struct rrcache_parsed_set *set = &parsed->sets[n];
        if (!rrcache_is_there(set->owner, set->owner_size)
            || !rrcache_is_there(set->data, set->data_size))
            return RRCACHE_NULL;
        overlap = overlap
                  || rrcache_touch(buffer, room, size, sizeof *size, set->owner, set->owner_size)
                  || rrcache_touch(buffer, room, size, sizeof *size, set->data, set->data_size);
    }
    return overlap ? RRCACHE_OVERLAP : RRCACHE_DONE;
}

/* Checks whether a parsed response can be written as a message. Returns the first error that
   applies, or RRCACHE_DONE if none applies. */
static inline enum rrcache_status rrcache_can_say(const struct rrcache_query *query,
                                                  const struct rrcache_parsed_response *parsed)
{
    bool choices = parsed->rcode < 16, types = query->rtype != 0 && query->rclass != 0;
    bool names = rrcache_is_name(query->name, query->name_size), data = true, bodies = true;
    size_t n;
    for (n = 0; n < parsed->count; n++) {
        const struct rrcache_parsed_set *set = &parsed->sets[n];
        choices = choices && set->section >= RRCACHE_ANSWER_SECTION
                  && set->section <= RRCACHE_ADDITIONAL_SECTION;
        types = types && set->rtype != 0 && set->rclass != 0;
        names = names && rrcache_is_name(set->owner, set->owner_size);
        data = data && rrcache_is_whole(set);
        bodies = bodies && set->data_size != 0;
    }
    return !choices  ? RRCACHE_BAD_CHOICE
           : !types  ? RRCACHE_BAD_TYPE
           : !names  ? RRCACHE_BAD_NAME
           : !data   ? RRCACHE_BAD_DATA
           : !bodies ? RRCACHE_WRONG_BODY
                     : RRCACHE_DONE;
}

/* The number of octets in the header of a message. The name of the question follows the header. */
enum { RRCACHE_HEADER_OCTETS = 12 };

/* A message that is being written to the beginning of a buffer. A piece that does not fit is
   counted in `size` but not written. If the message becomes longer than RRCACHE_MESSAGE_OCTETS,
   `size` stays at RRCACHE_MESSAGE_OCTETS + 1. */
struct rrcache_draft {
    uint8_t *octets;
    size_t room;
    size_t size;
};

/* Appends `size` octets to a draft. `size` must be at least 1. */
static inline void rrcache_put(struct rrcache_draft *draft, const uint8_t *octets, size_t size)
{
    size_t left = RRCACHE_MESSAGE_OCTETS + 1 - draft->size, at;
    if (draft->size < draft->room && size <= draft->room - draft->size) {
        uint8_t *to = draft->octets + draft->size;
        for (at = 0; at < size; at++)
            to[at] = octets[at];
    }
    draft->size += size < left ? size : left;
}

/* Appends the owner of a record. If the owner has already been written at the offset `place`, and a
   compression pointer can lead there (RFC 1035 section 4.1.4), the call appends such a pointer.
   Otherwise, the call appends the whole name. `place` is 0 if the owner has not been written yet.
   Returns the offset of the whole name. */
static inline size_t rrcache_put_owner(struct rrcache_draft *draft,
                                       const struct rrcache_parsed_set *set, size_t place)
{
    const uint8_t pointer[2] = {(uint8_t)(0xc0 | (place >> 8 & 0x3f)), (uint8_t)(place & 255)};
    bool stands = place != 0 && place < 0x4000;
    size_t here = draft->size;
    if (stands)
        rrcache_put(draft, pointer, sizeof pointer);
    else
        rrcache_put(draft, set->owner, set->owner_size);
    return stands ? place : here;
}

/* Appends the records of an RRset, and returns their number. If the owner of the RRset is spelled
   exactly like the name of the question, including the case of its letters, the owner of each
   record is a compression pointer to the name of the question. Otherwise, the owner of the first
   record is the whole name. The owner of each later record is then a compression pointer to that
   whole name or, if a pointer cannot lead there, the whole name again. */
static inline size_t rrcache_put_set(struct rrcache_draft *draft, const struct rrcache_query *query,
                                     const struct rrcache_parsed_set *set)
{
    bool is_asked = rrcache_are_same(set->owner, set->owner_size, query->name, query->name_size);
    const uint8_t fields[8] = {(uint8_t)(set->rtype >> 8),     (uint8_t)(set->rtype & 255),
                               (uint8_t)(set->rclass >> 8),    (uint8_t)(set->rclass & 255),
                               (uint8_t)(set->ttl >> 24),      (uint8_t)(set->ttl >> 16 & 255),
                               (uint8_t)(set->ttl >> 8 & 255), (uint8_t)(set->ttl & 255)};
    size_t place = is_asked ? RRCACHE_HEADER_OCTETS : 0, at = 0, records = 0, size;
    for (size = rrcache_datum_size(set, 0); size != 0; size = rrcache_datum_size(set, at)) {
        place = rrcache_put_owner(draft, set, place);
        rrcache_put(draft, fields, sizeof fields);
        rrcache_put(draft, set->data + at, size); /* RDLENGTH and RDATA */
        at += size;
        records++;
    }
    return records;
}

/* Appends the RRsets of a section, and writes the number of records in the section into the
   header. */
static inline void rrcache_put_section(struct rrcache_draft *draft,
                                       const struct rrcache_query *query,
                                       const struct rrcache_parsed_response *parsed,
                                       enum rrcache_section section)
{
    size_t records = 0, n;
    for (n = 0; n < parsed->count; n++) {
        const struct rrcache_parsed_set *set = &parsed->sets[n];
        if (set->section == section)
            records += rrcache_put_set(draft, query, set);
    }
    if (draft->octets != NULL && draft->size <= draft->room) {
        draft->octets[4 + 2 * (size_t)section] = (uint8_t)(records >> 8 & 255);
        draft->octets[5 + 2 * (size_t)section] = (uint8_t)(records & 255);
    }
}

/* Writes as many pieces of a message as fit in the buffer. Returns the size of the whole message
   or, if this size exceeds RRCACHE_MESSAGE_OCTETS, the number RRCACHE_MESSAGE_OCTETS + 1. */
static inline size_t rrcache_put_response(const struct rrcache_query *query,
                                          const struct rrcache_parsed_response *parsed,
                                          uint8_t *octets, size_t room)
{
    struct rrcache_draft draft = {octets, room, 0};
    const uint8_t header[RRCACHE_HEADER_OCTETS] = {
        (uint8_t)(query->id >> 8),
        (uint8_t)(query->id & 255),
        (uint8_t)(0x80 | (parsed->aa ? 4 : 0) | (parsed->tc ? 2 : 0)),
        (uint8_t)((parsed->ra ? 0x80 : 0) | parsed->rcode),
        0,
        1};
    const uint8_t asked[4] = {(uint8_t)(query->rtype >> 8), (uint8_t)(query->rtype & 255),
                              (uint8_t)(query->rclass >> 8), (uint8_t)(query->rclass & 255)};
    rrcache_put(&draft, header, sizeof header);
    rrcache_put(&draft, query->name, query->name_size);
    rrcache_put(&draft, asked, sizeof asked);
    rrcache_put_section(&draft, query, parsed, RRCACHE_ANSWER_SECTION);
    rrcache_put_section(&draft, query, parsed, RRCACHE_AUTHORITY_SECTION);
    rrcache_put_section(&draft, query, parsed, RRCACHE_ADDITIONAL_SECTION);
    return draft.size;
}

/* Makes a message (RFC 1035 section 4) from a response that a resolver parsed itself. The call
   writes the message to the beginning of `buffer`, and the size of the message to `size`. The
   caller then passes the message to `rrcache_read_response`, with the same query, like any other
   response. So the rules on relevance, ranks, negative answers, referrals and failures apply to the
   parsed response too. `rrcache_compose_response` never allocates and needs no lock. The time that
   the call takes is linear in the number of octets of its arguments.

   Before this call, the caller must check that QR is set and that the opcode is QUERY in the
   response, and must compare the identifier and the question of the response with those of the
   query (RFC 5452 section 9.1). If the field `with_case` of `query` is set, the caller must also
   compare the case of the letters in the name. In the new message, QR is set, RD is clear, the
   opcode is QUERY, and the identifier and the question are those of the query, even if the response
   had other values. So `rrcache_read_response` never returns RRCACHE_OTHER_QUERY for the new
   message and the same query.

   In the message, the RRsets of a section are in the order of the array `sets`, and the records of
   an RRset are in the order of its data. If the records of an RRset have different TTLs, pass one
   `struct rrcache_parsed_set` for each record. When the message is read, all sets of a section that
   have the same owner, type and class become one RRset. An OPT record may be left out, because
   nothing from it is offered. If data do not match the layout of their type, the call that reads
   the message returns RRCACHE_BAD_MESSAGE. Names in the data must not contain compression pointers,
   because a pointer would lead to the wrong offset in the new message. `rrcache_compose_response`
   does not check for such pointers.

   Returns RRCACHE_BAD_CHOICE if the field `section` of a set is not a value of `enum
   rrcache_section`, or if the RCODE is above 15; RRCACHE_BAD_TYPE if a type or a class is 0, in a
   set or in the query (RFC 6895 reserves type 0 and class 0); RRCACHE_BAD_NAME if an owner or the
   name of the query is not in wire form; RRCACHE_BAD_DATA if the last rdata of a set are cut off;
   and RRCACHE_WRONG_BODY if a set has no data. Returns RRCACHE_SMALL if the buffer is too small:
   the buffer is then unmodified, and `size` is the required size. If the message would have more
   than RRCACHE_MESSAGE_OCTETS octets, no buffer is large enough, and `size` is
   RRCACHE_MESSAGE_OCTETS + 1. The new message may be too large even if the response was not,
   because only owners are compressed in the new message. In this case, leave out the additional
   section. */
static inline enum rrcache_status
rrcache_compose_response(const struct rrcache_query *query,
                         const struct rrcache_parsed_response *parsed, uint8_t *buffer, size_t room,
                         size_t *size)
{
    enum rrcache_status status = rrcache_can_compose(query, parsed, buffer, room, size);
    struct rrcache_query asked;
    struct rrcache_parsed_response response;
    size_t wanted;
    if (status == RRCACHE_DONE)
        status = rrcache_can_say(query, parsed);
    if (status != RRCACHE_DONE)
        return status;
    asked = *query;
    response = *parsed;
    wanted = rrcache_put_response(&asked, &response, NULL, 0);
    if (wanted > room || wanted > RRCACHE_MESSAGE_OCTETS)
        status = RRCACHE_SMALL;
    else
        rrcache_put_response(&asked, &response, buffer, room);
    *size = wanted;
    return status;
}

/* Checks the pointers of a call that reads a response and writes to two ranges of memory. Returns
   RRCACHE_NULL if a required pointer is null, and RRCACHE_OVERLAP if the two ranges overlap each
   other, or if one of them overlaps the octets of the response or the zone. */
static inline enum rrcache_status rrcache_can_read(const struct rrcache_response *response,
                                                   const void *one, size_t one_size,
                                                   const void *other, size_t other_size)
{
    if (response == NULL || one == NULL || other == NULL
        || !rrcache_is_there(response->octets, response->size)
        || !rrcache_is_there(response->zone, response->zone_size))
        return RRCACHE_NULL;
    if (rrcache_overlap(one, one_size, other, other_size)
        || rrcache_touch(one, one_size, other, other_size, response->octets, response->size)
        || rrcache_touch(one, one_size, other, other_size, response->zone, response->zone_size))
        return RRCACHE_OVERLAP;
    return RRCACHE_DONE;
}

/* Reads a response to a query that the resolver sent to a server of `response->zone`. `offers` must
   be a handle that holds no offers. After the call, the handle holds those offers of the response
   that are relevant to the query. In `concerned`, the call reports which parts these offers are
   for: bit 0 is set if there is an offer for part 0, bit 1 if there is an offer for part 1, and so
   on. The caller can then make the offers to shelves with `rrcache_offer_read` or
   `rrcache_offer_one`, get the contents of each offer with `rrcache_tell_offer`, and get the kind
   of the response with `rrcache_tell_response`. If a response has no offers, for example because TC
   is set, `concerned` is 0. When the contents of the handle are no longer needed, call
   `rrcache_free_offers`, even if the response had no offers. `rrcache_read_response` takes no
   shelf, needs no lock, and writes no event.

   Returns RRCACHE_HAS_OFFERS if the handle already holds offers, even if one of the errors below
   also applies. The handle then keeps its offers. Returns RRCACHE_BAD_RULES or RRCACHE_BAD_SEED if
   `parts` is not valid, RRCACHE_BAD_LIMITS if a limit is out of range, and RRCACHE_BAD_NAME if the
   zone or the name of the query is not in wire form.

   The call reads the header and the question of the message first, and compares the identifier and
   the question with those of the query (RFC 5452 section 9.1). If either differs, the call returns
   RRCACHE_OTHER_QUERY and does not read the rest of the message. So the time needed to reject such
   a message does not depend on the length of the message. Anyone may have sent the message, so the
   caller should drop it and keep waiting for the response. The call also returns
   RRCACHE_OTHER_QUERY if the message is too short for a header, or if QR is clear. If the field
   `with_case` of `query` is set, two names that differ only in the case of their letters count as
   different. The name in the question always counts as different if it contains a compression
   pointer. Two errors count as failures of the server (RFC 8767 section 5): RRCACHE_NO_QUESTION,
   which means that the response is a header without a question, and RRCACHE_BAD_MESSAGE, which
   means that the message answers the query but cannot be read. If TC is set, RRCACHE_BAD_MESSAGE
   does not count as a failure: send the query again over TCP. If a server returns FORMERR without a
   question, the reason may be that the server does not support EDNS (RFC 6891 section 7).

   The following data are relevant:
   - In the answer section, an RRset is relevant if it meets two conditions. First, its owner is one
     of the question's names: the name of the question, or one of at most 11 names to which CNAME
     records lead from that name. Second, its type is the type of the question or CNAME; for a
     question of type ANY, any type is allowed. A DNAME RRset is also relevant if its owner is above
     one of the question's names. For a question of type CNAME or ANY, the call follows no CNAME
     record.
   - In the authority section, for each of the types NS, SOA and DS, the first RRset whose owner is
     at or above the final name is relevant. The final name is the name at the end of the CNAME
     chain that begins at the name of the question. If the call follows no CNAME record, the final
     name is the name of the question. A chain of more than 16 CNAME records has no final name.
   - In the additional section, the A and AAAA RRsets of hosts are relevant. The hosts are the first
     20 names in the rdata of relevant NS, MX and SRV RRsets. The names in NS RRsets come first;
     apart from that, the names are taken in the order in which the first records of their RRsets
     appear in the message. A name that occurs several times counts only once. A name that is out of
     bailiwick counts too, although its addresses are left out.
   - A negative answer or a failure is always relevant. If `clears_denied` is set, the offers with
     which an NXDOMAIN clears data are relevant too.

   The following RRsets are not relevant:
   - A DS RRset whose owner is `zone` itself, because the DS RRset of a zone is in the parent zone
     (RFC 4035 section 2.4).
   - An NS RRset of the authority section, unless the question asks for this RRset or the response
     is a referral (RFC 1034 section 4.3.2). This restriction prevents the servers of a zone from
     renewing the delegation of the zone by adding NS records to the authority section of other
     responses. In a referral, AA is clear and the owner of the NS RRset is below `zone`. A repeated
     referral renews the NS RRset. To let a delegation end when the TTL from the first referral
     expires, a caller must peek for the NS RRset of each referral before it makes the offers of
     that referral. If an unexpired NS RRset with the same data is cached, the caller must not make
     the offers for the part to which the owner of this RRset belongs.
   - An RRset with more than 16,384 octets of rdata.
   - In class IN, an RRset of type A if the rdata of any record are not 4 octets long, or an RRset
     of type AAAA if the rdata of any record are not 16 octets long.

   Under these rules, a server that is queried for one name can replace the cached data of another
   name only in three cases. First, CNAME records in the server's response lead from the name of the
   question to the other name. Second, the other name is a host in NS, MX or SRV records of the
   response. Third, the response has NS, SOA, DS or DNAME records of the other name, and the other
   name is above the name of the question or above a name to which CNAME records lead from the name
   of the question. Even in these cases, an NS or DS RRset that the list above excludes does not
   replace cached data. */
static inline enum rrcache_status rrcache_read_response(struct rrcache_offers *offers,
                                                        const struct rrcache_response *response,
                                                        const struct rrcache_query *query,
                                                        const struct rrcache_parts *parts,
                                                        uint64_t *concerned)
{
    enum rrcache_status status =
        rrcache_can_read(response, offers, sizeof *offers, concerned, sizeof *concerned);
    struct rrc_response terms = RRCACHE_ZEROS;
    if (query == NULL || parts == NULL || !rrcache_is_there(query->name, query->name_size))
        return RRCACHE_NULL;
    if (status != RRCACHE_DONE)
        return status;
    if (rrcache_touch(offers, sizeof *offers, concerned, sizeof *concerned, query->name,
                      query->name_size))
        return RRCACHE_OVERLAP;
    terms.moment = response->moment;
    terms.limits = response->limits;
    terms.parts = *parts;
    terms.id = query->id;
    terms.rtype = query->rtype;
    terms.rclass = query->rclass;
    terms.with_case = query->with_case;
    terms.lowest_ttl = response->lowest_ttl;
    terms.clears_denied = response->clears_denied;
    return (enum rrcache_status)rrc_read_response(
        offers, rrcache_octets(response->octets, response->size), response->size,
        rrcache_octets(response->zone, response->zone_size), response->zone_size,
        rrcache_octets(query->name, query->name_size), query->name_size, &terms, concerned);
}

/* Reads a response as `rrcache_read_response` does, but does not compare the response with a query.
   The handle then holds all offers of the response that are in bailiwick. The call ignores the
   fields `lowest_ttl` and `clears_denied` of the argument `response`. A `response` line of a trace
   (docs/FORMATS.md) leads to the same offers. The errors are those of `rrcache_read_response`, but
   RRCACHE_BAD_MESSAGE replaces RRCACHE_OTHER_QUERY and RRCACHE_NO_QUESTION. Needs no lock. */
static inline enum rrcache_status
rrcache_read_message_unchecked(struct rrcache_offers *offers,
                               const struct rrcache_response *response,
                               const struct rrcache_parts *parts, uint64_t *concerned)
{
    enum rrcache_status status =
        rrcache_can_read(response, offers, sizeof *offers, concerned, sizeof *concerned);
    struct rrc_response terms = RRCACHE_ZEROS;
    if (parts == NULL)
        return RRCACHE_NULL;
    if (status != RRCACHE_DONE)
        return status;
    terms.moment = response->moment;
    terms.limits = response->limits;
    terms.parts = *parts;
    return (enum rrcache_status)rrc_read_message_unchecked(
        offers, rrcache_octets(response->octets, response->size), response->size,
        rrcache_octets(response->zone, response->zone_size), response->zone_size, &terms,
        concerned);
}

/* Makes all offers that a handle holds for one part. `shelf` must be the shelf of this part. The
   offers have the timestamp of the response. `share->part` is the index of the part, counted from
   0, and must be less than the number of parts for which the message was read. The handle keeps the
   offers, so the caller may make the offers for a part again. The shelf keeps its stored data even
   after the offers of the handle are freed. The call copies no names and no data. In `counts`, the
   call reports how many of the offers had each outcome. If an offer fails, `counts` covers only the
   earlier offers. Returns RRCACHE_BAD_RULES if there is no part with the index `share->part`.
   Returns RRCACHE_OTHER_SEED if the message was read under a seed that is not the seed of the
   shelf, because an ask would not find the data in this shelf. Needs the write lock of the
   shelf. */
static inline enum rrcache_status rrcache_offer_read(struct rrcache_shelf *shelf,
                                                     struct rrcache_offers *offers,
                                                     const struct rrcache_share *share,
                                                     struct rrcache_counts *counts)
{
    if (shelf == NULL || offers == NULL || share == NULL || counts == NULL)
        return RRCACHE_NULL;
    if (rrcache_holds(shelf, offers, sizeof *offers)
        || rrcache_touch(shelf, sizeof *shelf, offers, sizeof *offers, counts, sizeof *counts)
        || rrcache_touch(shelf, sizeof *shelf, offers, sizeof *offers, share, sizeof *share)
        || rrcache_overlap(counts, sizeof *counts, share, sizeof *share))
        return RRCACHE_OVERLAP;
    return (enum rrcache_status)rrc_offer_read(shelf, offers, share, counts);
}

/* Writes to `summary` the RCODE, AA and TC of a response that was read into a handle, and the kind
   of the response (`enum rrcache_response_kind`). For a referral, the call writes to `name` the
   name of the delegated zone; for an alias, it writes the name to which the CNAME chain leads. In
   both cases, `name` is made under the seed with which the response was read. For any other kind,
   `name` is unmodified. The call never allocates and needs no lock, and its only errors are
   RRCACHE_NULL, RRCACHE_OVERLAP and RRCACHE_NO_OFFERS. */
static inline enum rrcache_status rrcache_tell_response(struct rrcache_offers *offers,
                                                        struct rrcache_name *name,
                                                        struct rrcache_summary *summary)
{
    if (offers == NULL || name == NULL || summary == NULL)
        return RRCACHE_NULL;
    if (rrcache_touch(name, sizeof *name, summary, sizeof *summary, offers, sizeof *offers)
        || rrcache_overlap(name, sizeof *name, summary, sizeof *summary))
        return RRCACHE_OVERLAP;
    return (enum rrcache_status)rrc_tell_response(offers, name, summary);
}

/* Writes one of the offers of a handle to `told`, `buffer` and `name`. Offers are numbered from 0,
   in the order in which the response offers them (docs/RULES.md, "What a response offers"). The
   call writes the offer in the form of a reply to an ask at the timestamp of the response, when the
   whole TTL is left. So the caller can answer a waiting client even with data that no shelf stores:
   data with TTL 0, or data of lower rank than the cached data. The call writes to `name` the name
   of the offer: the owner of an RRset, or the name of a negative answer or a failure. This name is
   made under the seed with which the response was read, and its `part` is the part of the offer.

   `told->rtype` is the type of the offer, or 0 for RRCACHE_NXDOMAIN. For RRCACHE_FAILED,
   `told->retry_from` is the timestamp at which the failure expires. `told->entry` contains the
   kind, rank, TTL and timestamp of the offer. The `number` and `age` of this entry are 0, because
   only a stored entry has them. All offers of a response have the class of its question.

   Returns RRCACHE_NO_OFFERS if the handle has no offer with the number `index`. Returns
   RRCACHE_SMALL if the buffer is too small: the call then writes to `name` and `told`, but leaves
   the buffer unmodified. For an offer that `rrcache_read_response` has read, a buffer of 28,551
   octets is always large enough. The call never allocates, and needs no lock. */
static inline enum rrcache_status rrcache_tell_offer(struct rrcache_offers *offers, uint64_t index,
                                                     struct rrcache_name *name,
                                                     struct rrcache_told *told, uint8_t *buffer,
                                                     size_t buffer_size)
{
    uint8_t none;
    if (offers == NULL || name == NULL || told == NULL || !rrcache_is_there(buffer, buffer_size))
        return RRCACHE_NULL;
    if (rrcache_overlap(name, sizeof *name, told, sizeof *told)
        || rrcache_overlap(offers, sizeof *offers, buffer, buffer_size)
        || rrcache_touch(name, sizeof *name, told, sizeof *told, offers, sizeof *offers)
        || rrcache_touch(name, sizeof *name, told, sizeof *told, buffer, buffer_size))
        return RRCACHE_OVERLAP;
    return (enum rrcache_status)rrc_tell_offer(offers, index, name, told,
                                               buffer_size == 0 ? &none : buffer, buffer_size);
}

/* Returns how many octets of memory `size` octets of a name or rdata use, whether they are stored
   inline or in a separate block. */
static inline uint64_t rrcache_room(uint64_t size)
{
    return RRCACHE_VALUE_OCTETS + (size <= RRCACHE_INLINE_OCTETS ? 0 : RRCACHE_BLOCK_OCTETS + size);
}

/* Returns how many octets of memory the data of an entry use. `data` are the octets that follow the
   owner in a reply. */
static inline uint64_t rrcache_data_room(const uint8_t *data, uint64_t size)
{
    uint64_t at = 0, count = 0, octets = RRCACHE_SHARED_OCTETS;
    while (at + 2 <= size) {
        uint64_t length = (uint64_t)data[at] << 8 | data[at + 1];
        octets += rrcache_room(length);
        at += 2 + length;
        count += 1;
    }
    return octets + (count > 1 ? RRCACHE_VALUE_OCTETS + RRCACHE_BLOCK_OCTETS : 0);
}

/* Writes to `octets` the number of octets of memory that an offer would use if it were stored under
   a new key. The call counts octets in the same way as `rrcache_sizes`. `name`, `told` and `buffer`
   must be the output of `rrcache_tell_offer`. If an offer would use more octets than the limit to
   which the caller trims the shelf, the trim after this offer would evict all keys. To avoid this,
   the caller can make only the other offers of the message, with `rrcache_offer_one`, and answer
   the waiting client from the output of `rrcache_tell_offer`. Returns RRCACHE_SMALL if
   `buffer_size` is less than the sum of the sizes in `told`. Needs no lock. */
static inline enum rrcache_status rrcache_tell_octets(const struct rrcache_name *name,
                                                      const struct rrcache_told *told,
                                                      const uint8_t *buffer, size_t buffer_size,
                                                      uint64_t *octets)
{
    if (name == NULL || told == NULL || octets == NULL || !rrcache_is_there(buffer, buffer_size))
        return RRCACHE_NULL;
    if (rrcache_touch(name, sizeof *name, told, sizeof *told, octets, sizeof *octets)
        || rrcache_overlap(octets, sizeof *octets, buffer, buffer_size))
        return RRCACHE_OVERLAP;
    if (told->owner_size > buffer_size || told->data_size > buffer_size - told->owner_size)
        return RRCACHE_SMALL;
    *octets = RRCACHE_ENTRY_OCTETS + RRCACHE_SHARED_OCTETS + rrcache_room(name->size);
    if (told->kind == RRCACHE_FAILED)
        return RRCACHE_DONE;
    if (!rrcache_are_same(buffer, (size_t)told->owner_size, name->octets, name->size))
        *octets += RRCACHE_SHARED_OCTETS + rrcache_room(told->owner_size);
    *octets += rrcache_data_room(buffer + told->owner_size, told->data_size);
    return RRCACHE_DONE;
}

/* Makes one of the offers of a handle, and writes the outcome (`enum rrcache_outcome`) to
   `outcome`. With this call, a caller such as a validator can make only those offers of a message
   that it accepts. `pick->index` is the number of the offer, counted from 0. The offer is made to
   `shelf`, which must be the shelf of the offer's part: the `part` of the name that
   `rrcache_tell_offer` writes. The call does not check whether `shelf` is the shelf of this part.
   Returns RRCACHE_NO_OFFERS if the handle has no offer with the number `pick->index`, and
   RRCACHE_OTHER_SEED if the seed of the shelf is not the seed under which the message was read.
   Needs the write lock of the shelf. */
static inline enum rrcache_status rrcache_offer_one(struct rrcache_shelf *shelf,
                                                    struct rrcache_offers *offers,
                                                    const struct rrcache_offer_pick *pick,
                                                    uint32_t *outcome)
{
    if (shelf == NULL || offers == NULL || pick == NULL || outcome == NULL)
        return RRCACHE_NULL;
    if (rrcache_holds(shelf, offers, sizeof *offers)
        || rrcache_touch(shelf, sizeof *shelf, offers, sizeof *offers, outcome, sizeof *outcome)
        || rrcache_touch(shelf, sizeof *shelf, offers, sizeof *offers, pick, sizeof *pick)
        || rrcache_overlap(outcome, sizeof *outcome, pick, sizeof *pick))
        return RRCACHE_OVERLAP;
    return (enum rrcache_status)rrc_offer_one(shelf, offers, pick, outcome);
}

/* Frees the offers of a handle. The handle then holds no offers. Shelves keep the data that they
   have stored. Returns RRCACHE_NO_OFFERS if no call has filled the handle, or if its offers have
   already been freed. Does not need the lock of a shelf. */
static inline enum rrcache_status rrcache_free_offers(struct rrcache_offers *offers)
{
    if (offers == NULL)
        return RRCACHE_NULL;
    return (enum rrcache_status)rrc_free_offers(offers);
}

/* Offers to a shelf all in-bailiwick data of a response: its RRsets, and its negative answer or
   failure. Data of names that belong to other shelves are offered to this shelf too. So if there
   are other shelves, call `rrcache_read_message_unchecked` instead, and then `rrcache_offer_read`
   for each shelf that the message concerns. `rrcache_offer_message_unchecked` does not compare the
   response with a query, and ignores the fields `lowest_ttl` and `clears_denied` of the argument
   `response`. Nothing is offered from a response with TC set ("What is stored" above). In `counts`,
   the call reports how many of the offers had each outcome. If an offer fails, `counts` covers only
   the earlier offers. Returns RRCACHE_BAD_LIMITS if a limit is out of range, RRCACHE_BAD_NAME if
   the zone is not in wire form, and RRCACHE_BAD_MESSAGE if the octets cannot be read as a response.
   Needs the write lock. */
static inline enum rrcache_status
rrcache_offer_message_unchecked(struct rrcache_shelf *shelf,
                                const struct rrcache_response *response, uint64_t line,
                                struct rrcache_counts *counts)
{
    enum rrcache_status status =
        rrcache_can_read(response, shelf, sizeof *shelf, counts, sizeof *counts);
    struct rrc_response terms = RRCACHE_ZEROS;
    if (status != RRCACHE_DONE)
        return status;
    terms.moment = response->moment;
    terms.line = line;
    terms.limits = response->limits;
    return (enum rrcache_status)rrc_offer_message_unchecked(
        shelf, rrcache_octets(response->octets, response->size), response->size,
        rrcache_octets(response->zone, response->zone_size), response->zone_size, &terms, counts);
}

/* Does what `rrcache_offer_message_unchecked` does, but offers only the data of names in one part.
   Parts are numbered from 0. Offers for other parts are neither made nor counted. Returns
   RRCACHE_BAD_RULES if there is no part with the number `share->part`, or if `parts->count` is not
   in the range 1 to 64; RRCACHE_BAD_SEED if `parts->seed` is all zeros; and RRCACHE_OTHER_SEED if
   `parts->seed` is not the seed of the shelf. The other errors are those of
   `rrcache_offer_message_unchecked`. Needs the write lock. */
static inline enum rrcache_status
rrcache_offer_part_unchecked(struct rrcache_shelf *shelf, const struct rrcache_response *response,
                             const struct rrcache_parts *parts, const struct rrcache_share *share,
                             struct rrcache_counts *counts)
{
    enum rrcache_status status =
        rrcache_can_read(response, shelf, sizeof *shelf, counts, sizeof *counts);
    struct rrc_response terms = RRCACHE_ZEROS;
    if (parts == NULL || share == NULL)
        return RRCACHE_NULL;
    if (status != RRCACHE_DONE)
        return status;
    terms.moment = response->moment;
    terms.line = share->line;
    terms.limits = response->limits;
    terms.parts = *parts;
    terms.part = share->part;
    return (enum rrcache_status)rrc_offer_part_unchecked(
        shelf, rrcache_octets(response->octets, response->size), response->size,
        rrcache_octets(response->zone, response->zone_size), response->zone_size, &terms, counts);
}

/* Offers an RRset under its owner, and writes the outcome to `outcome` (`enum rrcache_outcome`). To
   flush an RRset or NODATA, offer an RRset with `ttl` 0, the rank RRCACHE_AUTHORITATIVE_ANSWER and
   any valid data of the type. Such an offer clears the RRset or NODATA that the shelf holds for the
   name, class and type. To flush an NXDOMAIN, call `rrcache_offer_negative` with the kind
   RRCACHE_NXDOMAIN, the rank RRCACHE_AUTHORITATIVE_ANSWER, `ttl` 0 and any SOA record, such as one
   with the root as its owner and 22 zero octets as its rdata. No call flushes all names below a
   given name. Replies contain the data exactly as they were offered, so the caller has to leave out
   duplicate records (RFC 2181 section 5).

   Returns RRCACHE_BAD_CHOICE if `trust` is not a rank; RRCACHE_BAD_TYPE if data of the type are not
   kept in the class; RRCACHE_BAD_NAME if the owner is not in wire form; RRCACHE_BAD_DATA if the
   data do not match the layout of their type or are cut off; and RRCACHE_WRONG_BODY if there are no
   data, or if `ttl` is above 2^31 - 1. Needs the write lock. */
static inline enum rrcache_status
rrcache_offer_set(struct rrcache_shelf *shelf, const struct rrcache_set *set, uint32_t *outcome)
{
    struct rrc_set terms = RRCACHE_ZEROS;
    if (shelf == NULL || set == NULL || outcome == NULL
        || !rrcache_is_there(set->owner, set->owner_size)
        || !rrcache_is_there(set->data, set->data_size))
        return RRCACHE_NULL;
    if (rrcache_holds(shelf, outcome, sizeof *outcome)
        || rrcache_touch(shelf, sizeof *shelf, outcome, sizeof *outcome, set->owner,
                         set->owner_size)
        || rrcache_touch(shelf, sizeof *shelf, outcome, sizeof *outcome, set->data, set->data_size))
        return RRCACHE_OVERLAP;
    terms.moment = set->moment;
    terms.line = set->line;
    terms.ttl = set->ttl;
    terms.trust = (uint32_t)set->trust;
    terms.rtype = set->rtype;
    terms.rclass = set->rclass;
    return (enum rrcache_status)rrc_offer_set(
        shelf, rrcache_octets(set->owner, set->owner_size), set->owner_size, &terms,
        rrcache_octets(set->data, set->data_size), set->data_size, outcome);
}

/* Offers a negative answer (RFC 2308), which states that a name has no data of a type, or that a
   name does not exist. Writes the outcome to `outcome`. Returns RRCACHE_BAD_CHOICE if `trust` is
   not a rank, or if `kind` is neither RRCACHE_NODATA nor RRCACHE_NXDOMAIN; RRCACHE_BAD_TYPE if the
   class is not kept or, for RRCACHE_NODATA, if data of the type are not kept in the class;
   RRCACHE_BAD_NAME if the name or the owner of the SOA record is not in wire form; RRCACHE_BAD_DATA
   if `soa` is not the rdata of an SOA record; and RRCACHE_WRONG_BODY if `ttl` is above 2^31 - 1.
   Needs the write lock. */
static inline enum rrcache_status rrcache_offer_negative(struct rrcache_shelf *shelf,
                                                         const struct rrcache_negative *negative,
                                                         uint32_t *outcome)
{
    struct rrc_negative terms = RRCACHE_ZEROS;
    if (shelf == NULL || negative == NULL || outcome == NULL
        || !rrcache_is_there(negative->name, negative->name_size)
        || !rrcache_is_there(negative->soa_owner, negative->soa_owner_size)
        || !rrcache_is_there(negative->soa, negative->soa_size))
        return RRCACHE_NULL;
    if (rrcache_holds(shelf, outcome, sizeof *outcome)
        || rrcache_touch(shelf, sizeof *shelf, outcome, sizeof *outcome, negative->name,
                         negative->name_size)
        || rrcache_touch(shelf, sizeof *shelf, outcome, sizeof *outcome, negative->soa_owner,
                         negative->soa_owner_size)
        || rrcache_touch(shelf, sizeof *shelf, outcome, sizeof *outcome, negative->soa,
                         negative->soa_size))
        return RRCACHE_OVERLAP;
    terms.moment = negative->moment;
    terms.line = negative->line;
    terms.ttl = negative->ttl;
    terms.trust = (uint32_t)negative->trust;
    terms.denial = (uint32_t)negative->kind;
    terms.rtype = negative->rtype;
    terms.rclass = negative->rclass;
    return (enum rrcache_status)rrc_offer_negative(
        shelf, rrcache_octets(negative->name, negative->name_size), negative->name_size, &terms,
        rrcache_octets(negative->soa_owner, negative->soa_owner_size), negative->soa_owner_size,
        rrcache_octets(negative->soa, negative->soa_size), negative->soa_size, outcome);
}

/* Offers a resolution failure of a name, a class and a type (RFC 9520). A failure is always stored,
   so `outcome` is RRCACHE_KEPT. A failure with `ttl` 0 replaces the failure that the shelf holds
   for the name, class and type, and so ends that failure. No ask or peek returns a failure with
   `ttl` 0. Even if there is no failure to end, a failure with `ttl` 0 occupies a key, and storing
   it may evict another key. So offer a failure with `ttl` 0 only if a reply or an entry of kind
   RRCACHE_FAILED has shown that the shelf holds a failure of this name, class and type. Returns
   RRCACHE_BAD_TYPE if data of the type are not kept in the class, RRCACHE_BAD_NAME if the name is
   not in wire form, and RRCACHE_WRONG_BODY if `ttl` is above 2^31 - 1. Needs the write lock. */
static inline enum rrcache_status rrcache_offer_failure(struct rrcache_shelf *shelf,
                                                        const struct rrcache_failure *failure,
                                                        uint32_t *outcome)
{
    struct rrc_failure terms = RRCACHE_ZEROS;
    if (shelf == NULL || failure == NULL || outcome == NULL
        || !rrcache_is_there(failure->name, failure->name_size))
        return RRCACHE_NULL;
    if (rrcache_holds(shelf, outcome, sizeof *outcome)
        || rrcache_touch(shelf, sizeof *shelf, outcome, sizeof *outcome, failure->name,
                         failure->name_size))
        return RRCACHE_OVERLAP;
    terms.moment = failure->moment;
    terms.line = failure->line;
    terms.ttl = failure->ttl;
    terms.rtype = failure->rtype;
    terms.rclass = failure->rclass;
    return (enum rrcache_status)rrc_offer_failure(shelf,
                                                  rrcache_octets(failure->name, failure->name_size),
                                                  failure->name_size, &terms, outcome);
}

/* Checks the pointers of a call that returns a reply. Returns RRCACHE_NULL if a required pointer is
   null, and RRCACHE_OVERLAP if an output overlaps another argument. */
static inline enum rrcache_status rrcache_can_tell(const struct rrcache_shelf *shelf,
                                                   const struct rrcache_name *name,
                                                   const struct rrcache_question *question,
                                                   const struct rrcache_told *told,
                                                   const uint8_t *buffer, size_t buffer_size)
{
    if (shelf == NULL || name == NULL || question == NULL || told == NULL
        || !rrcache_is_there(buffer, buffer_size))
        return RRCACHE_NULL;
    if (rrcache_holds(shelf, told, sizeof *told) || rrcache_holds(shelf, buffer, buffer_size)
        || rrcache_overlap(buffer, buffer_size, told, sizeof *told)
        || rrcache_touch(told, sizeof *told, buffer, buffer_size, name, sizeof *name)
        || rrcache_touch(told, sizeof *told, buffer, buffer_size, question, sizeof *question))
        return RRCACHE_OVERLAP;
    return RRCACHE_DONE;
}

/* Looks up the answer to a question. The call is one event, and moves the entry that answers the
   question to the front of the LRU order. The call writes the reply to `told` and `buffer`.

   Returns RRCACHE_BAD_CHOICE if the question has an unknown purpose or mode, RRCACHE_BAD_TYPE if
   its type is 0 or its class is not kept, RRCACHE_BAD_NAME if `name` holds no name, and
   RRCACHE_OTHER_SEED if the name was made under a seed that is not the seed of the shelf. Returns
   RRCACHE_SMALL if the buffer is too small: `told` then contains the reply and its sizes, and no
   event is written. The call checks for RRCACHE_SMALL before RRCACHE_HISTORY_FULL and
   RRCACHE_MOMENT_TOO_LARGE, so a second call with a large enough buffer may still fail. While the
   shelf is not recording, the call never allocates and never returns RRCACHE_MEMORY. Needs the
   write lock.

   A reply needs at most 255 octets for its owner, plus the octets of its data. For data that
   `rrcache_read_response` has read, 28,551 octets are always enough: 255 for the owner, 16,384 for
   the rdata, and 11,912 for the lengths that precede the rdata. Each length takes 2 octets, and at
   most 5,956 records fit in a message. */
static inline enum rrcache_status rrcache_ask(struct rrcache_shelf *shelf,
                                              const struct rrcache_name *name,
                                              const struct rrcache_question *question,
                                              struct rrcache_told *told, uint8_t *buffer,
                                              size_t buffer_size)
{
    uint8_t none;
    enum rrcache_status status = rrcache_can_tell(shelf, name, question, told, buffer, buffer_size);
    if (status != RRCACHE_DONE)
        return status;
    if (rrcache_holds(shelf, name, sizeof *name)
        || rrcache_holds(shelf, question, sizeof *question))
        return RRCACHE_OVERLAP;
    return (enum rrcache_status)rrc_ask(shelf, name, question, told,
                                        buffer_size == 0 ? &none : buffer, buffer_size);
}

/* Returns the reply that `rrcache_ask` would return, but writes no event and leaves the LRU order
   unchanged. The errors are those of `rrcache_ask`, except RRCACHE_HISTORY_FULL,
   RRCACHE_MOMENT_TOO_LARGE and RRCACHE_MEMORY. So the timestamp of a peek may be above 2^40. The
   call never allocates, and needs only the read lock. */
static inline enum rrcache_status rrcache_peek(const struct rrcache_shelf *shelf,
                                               const struct rrcache_name *name,
                                               const struct rrcache_question *question,
                                               struct rrcache_told *told, uint8_t *buffer,
                                               size_t buffer_size)
{
    struct rrcache_shelf look;
    uint8_t none;
    enum rrcache_status status = rrcache_can_tell(shelf, name, question, told, buffer, buffer_size);
    if (status != RRCACHE_DONE)
        return status;
    look = *shelf;
    return (enum rrcache_status)rrc_peek(&look, name, question, told,
                                         buffer_size == 0 ? &none : buffer, buffer_size);
}

/* Looks up the data of the question's type and the CNAME record of the name, and returns one of the
   two. Like `rrcache_ask`, the call is one event. `told->rtype` is 5 if the reply is the CNAME
   record, and otherwise the type of the question. The errors are those of `rrcache_ask`. Needs the
   write lock.

   The reply is the CNAME record if two conditions hold. First, the record would answer a question
   of type CNAME, either as a fresh answer or as an acceptable stale answer. Second, the record
   takes precedence over the reply for the type of the question. The record takes precedence in each
   of these cases:
   - The reply for the type is RRCACHE_MISS or RRCACHE_FAILED.
   - The record was stored later than the entry that gives the reply for the type, unless that entry
     is unexpired and of higher rank.
   - The record was stored earlier than the entry that gives the reply for the type, but is
     unexpired and of higher rank.

   By these rules, the call chooses between the CNAME record and the data of the type in the same
   way as an ask chooses between an RRset and an NXDOMAIN. As a result, if an address record has
   expired and a newer CNAME record may be returned, the call returns the CNAME record (RFC 8767
   section 7). If either of the two conditions above does not hold, the call returns the reply for
   the type of the question. For a question of type CNAME or ANY, the call always returns the reply
   for the type (RFC 1034 section 4.3.2). The same applies to a question of type NSEC or RRSIG,
   because a name with a CNAME record may have NSEC and RRSIG records of its own (RFC 4035 section
   2.5).

   If the reply is the CNAME record, the resolver then asks for the target of the record, under the
   lock of the target's shelf. If the RRset has several CNAME records, the target is the name in the
   first one. The resolver ignores the others, because a name may have only one CNAME record (RFC
   2181 section 10.1).

   A failure belongs to the name and type of the question. So with RRCACHE_STALE_IF_FAILED, an
   expired CNAME record may be returned as a stale answer only if the shelf holds a recent failure
   of the question's type. A failure of type CNAME does not count. A failure of the question is not
   a failure of the names to which the CNAME record leads, so an ask for these names ignores it. To
   learn whether stale answers are acceptable for these names, peek for the question with
   RRCACHE_NO_STALE. If the reply has the kind RRCACHE_FAILED, ask for each name of the chain with
   RRCACHE_STALE_NOW. If the shelf holds unexpired data of the question's type, and these data are
   older than the failure, the peek returns them instead. In this case, call `rrcache_tell_stored`:
   it also returns the failure, and the `number` fields of the entries show whether the failure was
   stored after the data. */
static inline enum rrcache_status rrcache_ask_alias(struct rrcache_shelf *shelf,
                                                    const struct rrcache_name *name,
                                                    const struct rrcache_question *question,
                                                    struct rrcache_told *told, uint8_t *buffer,
                                                    size_t buffer_size)
{
    uint8_t none;
    enum rrcache_status status = rrcache_can_tell(shelf, name, question, told, buffer, buffer_size);
    if (status != RRCACHE_DONE)
        return status;
    if (rrcache_holds(shelf, name, sizeof *name)
        || rrcache_holds(shelf, question, sizeof *question))
        return RRCACHE_OVERLAP;
    return (enum rrcache_status)rrc_ask_alias(shelf, name, question, told,
                                              buffer_size == 0 ? &none : buffer, buffer_size);
}

/* Returns the reply that `rrcache_ask_alias` would return, but writes no event and leaves the LRU
   order unchanged. The errors are those of `rrcache_peek`. Needs only the read lock. */
static inline enum rrcache_status rrcache_peek_alias(const struct rrcache_shelf *shelf,
                                                     const struct rrcache_name *name,
                                                     const struct rrcache_question *question,
                                                     struct rrcache_told *told, uint8_t *buffer,
                                                     size_t buffer_size)
{
    struct rrcache_shelf look;
    uint8_t none;
    enum rrcache_status status = rrcache_can_tell(shelf, name, question, told, buffer, buffer_size);
    if (status != RRCACHE_DONE)
        return status;
    look = *shelf;
    return (enum rrcache_status)rrc_peek_alias(&look, name, question, told,
                                               buffer_size == 0 ? &none : buffer, buffer_size);
}

/* Writes to `stored` the entries of a name, a class and a type: the RRset or NODATA of the type,
   the NXDOMAIN of the name, and the failure of the type. The call writes an entry even if the entry
   has expired, and even if another entry answers the question. The call reads only the type and the
   class of the question, writes no event, and leaves the LRU order unchanged. Returns
   RRCACHE_BAD_TYPE if the type is 0 or the class is not kept, RRCACHE_BAD_NAME if `name` holds no
   name, and RRCACHE_OTHER_SEED if the name was made under a seed that is not the seed of the shelf.
   The call never allocates, and needs only the read lock. */
static inline enum rrcache_status rrcache_tell_stored(const struct rrcache_shelf *shelf,
                                                      const struct rrcache_name *name,
                                                      const struct rrcache_question *question,
                                                      struct rrcache_stored *stored)
{
    struct rrcache_shelf look;
    if (shelf == NULL || name == NULL || question == NULL || stored == NULL)
        return RRCACHE_NULL;
    if (rrcache_holds(shelf, stored, sizeof *stored)
        || rrcache_overlap(stored, sizeof *stored, name, sizeof *name)
        || rrcache_overlap(stored, sizeof *stored, question, sizeof *question))
        return RRCACHE_OVERLAP;
    look = *shelf;
    return (enum rrcache_status)rrc_stored(&look, name, question, stored);
}

/* Removes all keys that are fully expired at the timestamp `sweep->moment`, and writes the number
   of these keys to `removed`. A sweep is one event. The first sweep of a shelf visits all its keys.
   A later sweep visits only keys that may have expired since the previous sweep. A caller need not
   sweep, because eviction makes room for new keys. The call ignores `sweep->most`. Needs the write
   lock.

   An NXDOMAIN hides an older RRset of the name, even after the NXDOMAIN has expired, unless the
   RRset is unexpired and of higher rank. After a sweep has removed the NXDOMAIN, the RRset may
   answer again: as a fresh answer if the RRset is unexpired, and otherwise as a stale answer. */
static inline enum rrcache_status
rrcache_sweep(struct rrcache_shelf *shelf, const struct rrcache_sweep_at *sweep, uint64_t *removed)
{
    if (shelf == NULL || sweep == NULL || removed == NULL)
        return RRCACHE_NULL;
    if (rrcache_holds(shelf, removed, sizeof *removed) || rrcache_holds(shelf, sweep, sizeof *sweep)
        || rrcache_overlap(sweep, sizeof *sweep, removed, sizeof *removed))
        return RRCACHE_OVERLAP;
    return (enum rrcache_status)rrc_sweep(shelf, sweep, removed);
}

/* Writes to `moment` a timestamp before which no key of the shelf is fully expired. A sweep at a
   timestamp before `moment` removes nothing, and even a sweep at `moment` may remove nothing. If
   the shelf holds a key but has not been swept yet, `moment` is the earliest timestamp at which any
   entry stored so far becomes fully expired. Entries that the shelf no longer holds count too.
   After a sweep, until an offer is made or a chapter is closed, `moment` is later than the
   timestamp of the sweep. So the following loop always ends: call this function; if `moment` is not
   later than the current time, sweep at `moment` and begin again. `moment` is UINT64_MAX if and
   only if the shelf holds no key. The call writes no event, and needs only the read lock. */
static inline enum rrcache_status rrcache_next_expiry(const struct rrcache_shelf *shelf,
                                                      uint64_t *moment)
{
    struct rrcache_shelf look;
    if (shelf == NULL || moment == NULL)
        return RRCACHE_NULL;
    if (rrcache_holds(shelf, moment, sizeof *moment))
        return RRCACHE_OVERLAP;
    look = *shelf;
    return (enum rrcache_status)rrc_next_expiry(&look, moment);
}

/* Sweeps in steps, so that a call usually takes little time. Each step is a sweep at the timestamp
   that `rrcache_next_expiry` would report at that point, and is one event. The call stops when that
   timestamp is later than `sweep->moment`, when at least `sweep->most` keys have been removed, or
   after `sweep->most` steps. A call may take a long time for two reasons: all keys that fully
   expire in the same second are removed in one step, and the first sweep of a shelf visits all its
   keys. Some steps may remove no key. The call writes to `swept` the number of keys that it
   removed. `swept->is_done` is 1 if no key is left that is fully expired at `sweep->moment`, and 0
   if such a key may be left.

   Returns RRCACHE_BAD_RULES if `sweep->most` is 0. If `sweep->moment` is above 2^40, the call
   returns RRCACHE_MOMENT_TOO_LARGE before the first step. Keys that were removed before an error
   stay removed, and `swept` counts them. Needs the write lock. */
static inline enum rrcache_status rrcache_sweep_some(struct rrcache_shelf *shelf,
                                                     const struct rrcache_sweep_at *sweep,
                                                     struct rrcache_swept *swept)
{
    if (shelf == NULL || sweep == NULL || swept == NULL)
        return RRCACHE_NULL;
    if (rrcache_holds(shelf, swept, sizeof *swept) || rrcache_holds(shelf, sweep, sizeof *sweep)
        || rrcache_overlap(sweep, sizeof *sweep, swept, sizeof *swept))
        return RRCACHE_OVERLAP;
    return (enum rrcache_status)rrc_sweep_some(shelf, sweep, swept);
}

/* Limits the memory of a shelf. The call evicts the least recently used keys until the remaining
   keys use at most `limit` octets (as `rrcache_sizes` counts them), until it has removed `most`
   keys, or until no key is left. The call writes to `trimmed` the number of keys that it removed,
   and the number of octets that the remaining keys use. If this number of octets is still above the
   limit, call `rrcache_trim` again. If a caller trims the shelf after each message, each trim frees
   about as many octets as the message added, and takes little time. The exception is the first trim
   of a shelf, which visits all keys to add up their octets. The entries of the remaining keys do
   not change. Needs the write lock.

   In a trim, the eviction of data is one event: an offer of these data with TTL 0, which clears the
   key. The eviction of a failure is two events: an offer of a failure with TTL 0, and a sweep at
   timestamp 0, which removes only entries with TTL 0. If the shelf already holds a failure with TTL
   0, or has held one since its last sweep, the trim begins with a sweep at timestamp 0. `trimmed`
   does not count the keys that this sweep removes.

   A trim does not limit all of the memory that a shelf uses. The first sweep of a shelf visits all
   its keys, and from then on the shelf keeps the times at which its keys fully expire.
   RRCACHE_ENTRY_OCTETS includes room for one expiry time per key, but the shelf may temporarily
   keep more expiry times than keys (see `rrcache_sizes`). SECURITY.md reports how much memory
   trimmed shelves used in tests.

   Returns RRCACHE_BAD_RULES if `limit` or `most` is 0, and RRCACHE_MOMENT_TOO_LARGE if the
   timestamp is above 2^40. In either case, the call does nothing. The call may return
   RRCACHE_MEMORY or RRCACHE_HISTORY_FULL after it has removed some keys: these keys stay removed,
   and `trimmed` is unmodified. While the shelf is not recording, a trim allocates memory only for a
   sweep at timestamp 0. */
static inline enum rrcache_status rrcache_trim(struct rrcache_shelf *shelf,
                                               const struct rrcache_trim_to *trim,
                                               struct rrcache_trimmed *trimmed)
{
    if (shelf == NULL || trim == NULL || trimmed == NULL)
        return RRCACHE_NULL;
    if (rrcache_holds(shelf, trimmed, sizeof *trimmed) || rrcache_holds(shelf, trim, sizeof *trim)
        || rrcache_overlap(trim, sizeof *trim, trimmed, sizeof *trimmed))
        return RRCACHE_OVERLAP;
    return (enum rrcache_status)rrc_trim(shelf, trim, trimmed);
}

/* Frees the closed chapters of the shelf, with all their events, and writes the number of these
   chapters to `dropped`. The number is 0 while the shelf is not recording. Replies do not change.
   Needs the write lock. */
static inline enum rrcache_status rrcache_drop_chapters(struct rrcache_shelf *shelf,
                                                        uint64_t *dropped)
{
    if (shelf == NULL || dropped == NULL)
        return RRCACHE_NULL;
    if (rrcache_holds(shelf, dropped, sizeof *dropped))
        return RRCACHE_OVERLAP;
    return (enum rrcache_status)rrc_drop_chapters(shelf, dropped);
}

/* Checks the pointers of a call that takes chapters. Returns RRCACHE_NULL if a required pointer is
   null, and RRCACHE_OVERLAP if an output overlaps another argument. */
static inline enum rrcache_status rrcache_can_take(const struct rrcache_shelf *shelf,
                                                   const struct rrcache_chapters *chapters,
                                                   const uint64_t *count)
{
    if (shelf == NULL || chapters == NULL || count == NULL)
        return RRCACHE_NULL;
    if (rrcache_holds(shelf, chapters, sizeof *chapters)
        || rrcache_touch(shelf, sizeof *shelf, chapters, sizeof *chapters, count, sizeof *count))
        return RRCACHE_OVERLAP;
    return RRCACHE_DONE;
}

/* Moves the closed chapters of the shelf, the oldest first, into a handle that holds no chapters,
   and writes the number of these chapters to `count`. `count` is 0 while the shelf is not
   recording. Replies do not change. The call allocates one small memory block of fixed size. The
   time that the call takes does not grow with the number of chapters or events. Later calls on
   these chapters do not need the lock of the shelf. Free the chapters with `rrcache_free_chapters`,
   even if `count` is 0. Returns RRCACHE_HAS_CHAPTERS if the handle already holds chapters. Needs
   the write lock. */
static inline enum rrcache_status rrcache_take_chapters(struct rrcache_shelf *shelf,
                                                        struct rrcache_chapters *chapters,
                                                        uint64_t *count)
{
    enum rrcache_status status = rrcache_can_take(shelf, chapters, count);
    if (status != RRCACHE_DONE)
        return status;
    return (enum rrcache_status)rrc_take_chapters(shelf, chapters, count);
}

/* Stops recording, and moves the recorded chapters into a handle that holds no chapters: first the
   closed chapters that have not been taken or dropped, and then the open chapter, which the call
   closes. The call writes the number of these chapters to `count`, which is 0 if the shelf was not
   recording. Replies do not change, and no key is lost. Returns RRCACHE_HAS_CHAPTERS if the handle
   already holds chapters, and RRCACHE_HISTORY_FULL if the open chapter has the number 2^62. After
   RRCACHE_HISTORY_FULL or RRCACHE_MEMORY, the shelf is still recording, and `rrcache_stop_and_drop`
   can stop the recording. Needs the write lock.

   If this call directly follows the call to `rrcache_record` that started the recording, the handle
   then holds one chapter, which has no events. The lines of this chapter list all entries of the
   shelf, so a caller can save the contents of the shelf in this way. No call restores a shelf from
   such a chapter. However, a caller can offer the entries to an empty shelf in the order of their
   event numbers, each with the timestamp, rank and TTL from its line. */
static inline enum rrcache_status rrcache_stop_recording(struct rrcache_shelf *shelf,
                                                         struct rrcache_chapters *chapters,
                                                         uint64_t *count)
{
    enum rrcache_status status = rrcache_can_take(shelf, chapters, count);
    if (status != RRCACHE_DONE)
        return status;
    return (enum rrcache_status)rrc_stop_recording(shelf, chapters, count);
}

/* Writes a line of a chapter to the beginning of `buffer`, starting with the octet `place->from` of
   the line. If the rest of the line does not fit, the call writes only as many octets as fit. In
   `place`, chapters, lines and octets are counted from 0. The call writes to `told->size` the
   number of octets of the line, including its LF, and to `told->written` the number of octets that
   it wrote to the buffer. `told->written` is 0 if `place->from` is at or after the end of the line.
   The first line of a chapter contains the number of the chapter, the number of its first event,
   and the rules of the shelf except the seed. The first line is followed by a line for each key
   that was cached when the chapter began, and then by a line for each event. The lines have the
   same form as in an archive (docs/FORMATS.md). Returns RRCACHE_NO_CHAPTERS if the handle holds no
   chapters. Returns RRCACHE_NO_LINE if the handle has no chapter `place->chapter`, or if this
   chapter has no line `place->line`. The call allocates memory for the whole line, and frees this
   memory before it returns. Needs no lock. */
static inline enum rrcache_status rrcache_chapter_line(struct rrcache_chapters *chapters,
                                                       const struct rrcache_place *place,
                                                       uint8_t *buffer, size_t buffer_size,
                                                       struct rrcache_line *told)
{
    uint8_t none;
    if (chapters == NULL || place == NULL || told == NULL || !rrcache_is_there(buffer, buffer_size))
        return RRCACHE_NULL;
    if (rrcache_overlap(chapters, sizeof *chapters, told, sizeof *told)
        || rrcache_touch(chapters, sizeof *chapters, told, sizeof *told, buffer, buffer_size)
        || rrcache_touch(chapters, sizeof *chapters, told, sizeof *told, place, sizeof *place)
        || rrcache_overlap(buffer, buffer_size, place, sizeof *place))
        return RRCACHE_OVERLAP;
    return (enum rrcache_status)rrc_chapter_line(chapters, place, buffer_size == 0 ? &none : buffer,
                                                 buffer_size, told);
}

/* Writes a line of a chapter to `sink`, from the octet `place->from` of the line to its LF. In
   `place`, chapters, lines and octets are counted from 0. Each call to the sink passes
   RRCACHE_PIECE_OCTETS octets of the line, except the last call, which passes the rest. If the sink
   returns nonzero, `rrcache_write_line` writes nothing more and returns RRCACHE_SINK. The other
   errors are those of `rrcache_chapter_line`. Needs no lock. */
static inline enum rrcache_status rrcache_write_line(struct rrcache_chapters *chapters,
                                                     const struct rrcache_place *place,
                                                     rrcache_sink sink, void *state)
{
    uint8_t buffer[RRCACHE_PIECE_OCTETS];
    struct rrcache_place at;
    struct rrcache_line told;
    enum rrcache_status status;
    if (chapters == NULL || place == NULL || sink == NULL)
        return RRCACHE_NULL;
    at = *place;
    do {
        status = rrcache_chapter_line(chapters, &at, buffer, sizeof buffer, &told);
        if (status != RRCACHE_DONE)
            return status;
        if (told.written != 0 && sink(state, buffer, (size_t)told.written) != 0)
            return RRCACHE_SINK;
        at.from += told.written;
    } while (at.from < told.size);
    return RRCACHE_DONE;
}

/* Writes all lines of a chapter to `sink`, each in the same way as `rrcache_write_line` does.
   `chapter` is the position of the chapter in the handle, counted from 0. The text of all chapters
   of one recording, in the order in which they were taken, is an archive of the history. The sink
   must not pass `chapters` to a function of the library. Returns RRCACHE_NO_LINE if the handle has
   no chapter at the position `chapter`. The other errors are those of `rrcache_write_line`. Needs
   no lock. */
static inline enum rrcache_status rrcache_write_chapter(struct rrcache_chapters *chapters,
                                                        uint64_t chapter, rrcache_sink sink,
                                                        void *state)
{
    struct rrcache_place place = RRCACHE_ZEROS;
    enum rrcache_status status;
    place.chapter = chapter;
    status = rrcache_write_line(chapters, &place, sink, state);
    if (status != RRCACHE_DONE)
        return status;
    while (status == RRCACHE_DONE) {
        place.line += 1;
        status = rrcache_write_line(chapters, &place, sink, state);
    }
    return status == RRCACHE_NO_LINE ? RRCACHE_DONE : status; /* there is no line left */
}

/* Frees the chapters of a handle, with all their events. The handle then holds no chapters. Returns
   RRCACHE_NO_CHAPTERS if no call has filled the handle, or if its chapters have already been freed.
   Does not need the lock of a shelf. */
static inline enum rrcache_status rrcache_free_chapters(struct rrcache_chapters *chapters)
{
    if (chapters == NULL)
        return RRCACHE_NULL;
    return (enum rrcache_status)rrc_free_chapters(chapters);
}

/* Writes to `sizes` the sizes of a shelf: the number of keys, the number of recorded events in the
   open chapter, the number of closed chapters, and the number of octets that the keys use. The
   number of keys includes fully expired keys that have not been swept yet. Keys of all three kinds
   are counted: those for the RRset or NODATA of a name, a class and a type; those for the NXDOMAIN
   of a name and a class; and those for the resolution failure of a name, a class and a type. While
   the shelf is not recording, the numbers of events and chapters are 0. Needs only the read lock.

   The number of octets is approximately the amount of memory that the keys use. A key uses
   RRCACHE_ENTRY_OCTETS, plus the octets for its name. An RRset uses RRCACHE_SHARED_OCTETS, plus the
   octets for the rdata of each record. An RRset of several records also uses RRCACHE_VALUE_OCTETS
   and RRCACHE_BLOCK_OCTETS. A negative answer uses RRCACHE_SHARED_OCTETS, plus the octets for the
   rdata of its SOA record. RRsets and negative answers also use the octets for the owner of their
   records, unless the owner is spelled exactly like the name of the key, which is in lower case.
   The rdata of a record use RRCACHE_VALUE_OCTETS. Rdata of more than RRCACHE_INLINE_OCTETS octets
   also use RRCACHE_BLOCK_OCTETS plus their own size. A name uses RRCACHE_SHARED_OCTETS more than
   rdata of the same size.

   The first call to `rrcache_trim` for a shelf adds up the octets of all its keys. From then on,
   the shelf updates this total whenever keys change, so the time that `rrcache_sizes` takes does
   not grow with the number of keys. Before the first trim, the octets are not limited, and the
   shelf does not keep this total, which makes storing data faster. Until then, each call to
   `rrcache_sizes` has to visit all keys. If you call `rrcache_sizes` often but do not limit the
   octets, trim the shelf once, with `limit` UINT64_MAX, right after you make it.

   The number of octets does not include the memory of events and chapters, which keep data even
   after the data have been replaced, evicted or swept. Nor does it include the names and expiry
   times of evicted and cleared keys: a shelf that has been swept keeps these names and times until
   the keys would have fully expired. If the shelf held n keys when data were last stored, it keeps
   at most 3n + 64 expiry times, including those of the keys that it still holds. */
static inline enum rrcache_status rrcache_sizes(const struct rrcache_shelf *shelf,
                                                struct rrcache_usage *sizes)
{
    struct rrcache_shelf look;
    if (shelf == NULL || sizes == NULL)
        return RRCACHE_NULL;
    if (rrcache_holds(shelf, sizes, sizeof *sizes))
        return RRCACHE_OVERLAP;
    look = *shelf;
    return (enum rrcache_status)rrc_sizes(&look, sizes);
}

/* Writes to `fault` the reason why octets cannot be read as a response
   (`enum rrcache_message_fault`), or RRCACHE_NO_FAULT if they can be read. Needs no lock. */
static inline enum rrcache_status rrcache_fault(const uint8_t *octets, size_t size, uint32_t *fault)
{
    if (fault == NULL || !rrcache_is_there(octets, size))
        return RRCACHE_NULL;
    if (rrcache_overlap(fault, sizeof *fault, octets, size))
        return RRCACHE_OVERLAP;
    return (enum rrcache_status)rrc_fault(rrcache_octets(octets, size), size, fault);
}

#ifdef __cplusplus
}
#endif

#endif
