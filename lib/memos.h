/* SPDX-License-Identifier: MIT */
/* memos.h: saved answers to look-ups, for names that are asked for again and again.

   Each reader of a cache has a table of memos. A memo is the whole answer to a question for which a
   peek found one RRset or one negative answer in a part. It also has the turn that the part had
   then. As long as the part has the same turn, nothing has changed in the part, so the part would
   give the same reply, octet for octet. A look-up then copies the answer of the memo, and takes no
   place. If the turn has changed, or the question differs in something other than the name and the
   type, a look-up can still use the name of the memo, which is already folded and hashed. A name is
   kept only if it was asked for in lower case, so that it equals the folded name. The whole name is
   compared.

   One thread at a time can take a table. A thread that finds the table taken does without it. To
   recall a memo, a thread takes the table only if the mark of the question is that of the memo in
   its slot. A slot remembers the last question that had no memo. If this question is asked again, a
   memo of it is made, unless the memo in the slot has answered since the last attempt to replace
   it. So questions that are asked only once cost little and do not displace memos, and the memo of
   a name in use stays. Marks are not secret: someone who chooses names that share a slot can cause
   memos to be replaced, but this costs only time. */
#ifndef MEMOS_H
#define MEMOS_H

#include "places.h"

#include <string.h>

/* The maximum sizes of the name and of the answer in a memo, in octets. With these sizes, a memo
   takes seven cache lines of the processor. */
enum { MEMO_NAME = 95, MEMO_ANSWER = 296 };

/* A turn that `turn_here` never returns. */
enum { NO_TURN = 1 };

struct memo {
    uint64_t turn; /* of the part, when it gave the answer */
    uint64_t moment;
    uint64_t retry_from;
    uint64_t hash, part; /* of the name */
    uint32_t mode, kind;
    uint16_t rtype, rclass, size;
    uint8_t purpose, name_size;
    bool is_used; /* it has answered since the last attempt to replace it */
    uint8_t name[MEMO_NAME];
    uint8_t answer[MEMO_ANSWER];
};

/* The mark of the question of the memo in a slot, and the mark of the last question of the slot
   that had no memo. 0 means that there is none. */
struct slot {
    atomic_uint held, seen;
};

/* The memos of a reader. */
struct memos {
    _Alignas(LINE) atomic_uint is_taken;
    struct slot *slots;
    struct memo *memo;
    atomic_uint_fast64_t (*told)[KINDS]; /* look-ups in each part that memos answered, by the kind
                                            of their replies */
};

/* Return the number of octets that the memos of a cache take, and set where the memos are. A cache
   with too little room has none. */
size_t memo_octets(const struct rrcache *cache);
void place_memos(struct rrcache *cache, void *octets);

/* The memos of a reader. */
static inline struct memos *memos_at(const struct rrcache *cache, uint64_t reader)
{
    return (struct memos *)(cache->memos + reader * cache->octets_of_memos);
}

/* The memos of this thread's reader. */
static inline struct memos *memos_of(const struct rrcache *cache)
{
    return memos_at(cache, reader_here(cache));
}

/* How many look-ups in a part the memos of a reader answered with replies of a kind. */
static inline uint64_t told_by_memos(const struct rrcache *cache, const struct part *part,
                                     uint64_t reader, int kind)
{
    if (cache->memos == NULL)
        return 0;
    return atomic_load_explicit(&memos_at(cache, reader)->told[part - cache->part][kind],
                                memory_order_relaxed);
}

/* What a memo has for a question. */
enum recalled { NOTHING, NAME, ANSWER };

static inline struct slot *slot_of(const struct rrcache *cache, const struct memos *memos,
                                   uint32_t mark)
{
    return &memos->slots[(uint64_t)mark >> cache->mark_shift];
}

/* Mixes eight octets into a sum. Each bit of the product depends on the bits below it, so the
   highest bits depend on all bits. */
static inline uint64_t mixed(uint64_t sum, uint64_t word)
{
    return (sum ^ word ^ sum >> 32) * UINT64_C(0x9e3779b97f4a7c15);
}

/* The mark of a name and a type. A mark is an odd number. It shows which memo may have the answer,
   and its highest bits choose the slot. The last eight octets of the name are mixed in together,
   even if some of them were mixed in before. */
static inline uint32_t mark_of(const uint8_t *name, size_t size, uint16_t rtype)
{
    uint64_t sum = (uint64_t)size << 16 | rtype, word = 0;
    if (size < sizeof word) {
        for (size_t at = 0; at < size; at++)
            word = word << 8 | name[at];
        return (uint32_t)(mixed(sum, word) >> 32) | 1;
    }
    for (size_t at = 0; at < size - sizeof word; at += sizeof word) {
        memcpy(&word, name + at, sizeof word);
        sum = mixed(sum, word);
    }
    memcpy(&word, name + size - sizeof word, sizeof word);
    return (uint32_t)(mixed(sum, word) >> 32) | 1;
}

/* Whether a memo may be kept for a request. This requires that `end` of the answer does not overlap
   the name of the request. */
static inline bool may_be_kept(const struct rrcache *cache, const struct rrcache_request *request,
                               const struct rrcache_answer *answer)
{
    return cache->memos != NULL && request->name_size - 1 < MEMO_NAME && request->name != NULL
           && !rrcache_overlap(&answer->end, sizeof answer->end, request->name, request->name_size);
}

/* What a look-up uses to recall and keep a memo. */
struct recall {
    const struct rrcache *cache;
    const struct rrcache_request *request;
    const struct rrcache_question *question;
    struct rrcache_answer *answer;
    struct memos *memos;
    struct slot *slot; /* null if no memo may be kept */
    uint32_t mark;
    enum recalled recalled;
};

/* Recalls what the memo with the mark of a question has for the question: the answer, or only the
   name (in `end`). */
enum recalled recall_memo(const struct recall *it);

static inline void recall(struct recall *it)
{
    const struct rrcache_request *request = it->request;
    it->slot = NULL;
    it->recalled = NOTHING;
    if (!may_be_kept(it->cache, request, it->answer))
        return;
    it->memos = memos_of(it->cache);
    it->mark = mark_of(request->name, request->name_size, request->rtype);
    it->slot = slot_of(it->cache, it->memos, it->mark);
    if (atomic_load_explicit(&it->slot->held, memory_order_relaxed) == it->mark)
        it->recalled = recall_memo(it);
}

/* Writes a memo of an answer that one part gave in a turn, if a memo has room for the answer and
   the rules above allow it. */
void write_memo(const struct recall *it, uint64_t turn);

/* Keeps an answer that one part gave in a turn, if the name was recalled, or if the question was
   the last one of its slot that had no memo. Otherwise, the question becomes the last one that had
   no memo. */
static inline void keep(const struct recall *it, uint64_t turn)
{
    if (it->recalled == NOTHING
        && atomic_load_explicit(&it->slot->seen, memory_order_relaxed) != it->mark)
        atomic_store_explicit(&it->slot->seen, it->mark, memory_order_relaxed);
    else if (turn != NO_TURN)
        write_memo(it, turn);
}

#endif
