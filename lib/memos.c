/* SPDX-License-Identifier: MIT */
/* memos.c: where memos are, and how they are recalled and kept. */
#include "memos.h"

/* The maximum number of memos of a reader. The memos of all readers take at most the cache's octets
   divided by SHARE_OF_OCTETS. */
enum { MOST_MEMOS = 1024, SHARE_OF_OCTETS = 16 };

/* ---- Where they are. */

static size_t in_lines(size_t octets)
{
    return (octets + LINE - 1) / LINE * LINE;
}

/* The octets that the memos of one reader take. */
static size_t octets_of_reader(const struct rrcache *cache, uint64_t count)
{
    size_t told = cache->parts.count * sizeof(*((struct memos *)NULL)->told);
    return in_lines(sizeof(struct memos)) + in_lines(count * sizeof(struct slot))
           + in_lines(count * sizeof(struct memo)) + in_lines(told) + LINE;
}

/* How many memos each reader has: a power of two, or 0 if the cache is too small. */
static uint64_t count_of(const struct rrcache *cache)
{
    uint64_t octets = cache->most_octets * cache->parts.count / SHARE_OF_OCTETS / cache->readers;
    uint64_t count = MOST_MEMOS;
    while (count > 0 && octets_of_reader(cache, count) > octets)
        count /= 2;
    return count;
}

size_t memo_octets(const struct rrcache *cache)
{
    uint64_t count = count_of(cache);
    return count == 0 ? 0 : cache->readers * octets_of_reader(cache, count);
}

static void place_reader(const struct rrcache *cache, struct memos *memos, uint64_t count)
{
    uint8_t *at = (uint8_t *)memos + in_lines(sizeof *memos);
    size_t slots = count * sizeof(struct slot), told = cache->parts.count * sizeof *memos->told;
    memos->slots = (struct slot *)at;
    memos->told = (void *)(at + in_lines(slots));
    memos->memo = (struct memo *)(at + in_lines(slots) + in_lines(told));
    WATCH_NO(&memos->is_taken, sizeof memos->is_taken);
    WATCH_NO(memos->slots, slots);
    WATCH_NO(memos->told, told);
}

void place_memos(struct rrcache *cache, void *octets)
{
    uint64_t count = count_of(cache);
    if (count == 0)
        return;
    cache->memos = octets;
    for (cache->mark_shift = 32; count >> (32 - cache->mark_shift) > 1; cache->mark_shift--)
        ;
    cache->octets_of_memos = octets_of_reader(cache, count);
    for (uint64_t i = 0; i < cache->readers; i++)
        place_reader(cache, memos_at(cache, i), count);
}

/* ---- Recalling and keeping. */

/* Takes a table, unless another thread has it. */
static bool take_memos(struct memos *memos)
{
    bool is_taken = atomic_exchange_explicit(&memos->is_taken, 1, memory_order_acquire) == 0;
    if (is_taken)
        WATCH_TAKEN(memos, true);
    return is_taken;
}

static void leave_memos(struct memos *memos)
{
    WATCH_LEFT(memos);
    atomic_store_explicit(&memos->is_taken, 0, memory_order_release);
}

static bool is_named(const struct memo *memo, const struct rrcache_request *request)
{
    return memo->name_size == request->name_size
           && memcmp(memo->name, request->name, memo->name_size) == 0;
}

static bool is_asked(const struct memo *memo, const struct rrcache_question *question)
{
    return memo->moment == question->moment && memo->rtype == question->rtype
           && memo->rclass == question->rclass && memo->purpose == question->purpose
           && memo->mode == question->mode;
}

/* Writes the name of a memo, as it was made. */
static void put_name(const struct rrcache *cache, const struct memo *memo,
                     struct rrcache_name *name)
{
    name->hash = memo->hash;
    name->part = memo->part;
    memcpy(name->seed, cache->parts.seed, sizeof name->seed);
    name->size = memo->name_size;
    memcpy(name->octets, memo->name, memo->name_size);
}

static void put_answer(struct memo *memo, struct rrcache_answer *answer)
{
    memo->is_used = true;
    memcpy(answer->buffer, memo->answer, memo->size);
    answer->size = memo->size;
    answer->kind = memo->kind;
    answer->is_stale = memo->kind == RRCACHE_STALE;
    answer->retry_from = memo->retry_from;
}

/* Only the thread that has the table counts in it. */
static void count_told(struct memos *memos, const struct memo *memo)
{
    atomic_uint_fast64_t *told = &memos->told[memo->part][memo->kind];
    uint64_t before = atomic_load_explicit(told, memory_order_relaxed);
    atomic_store_explicit(told, before + 1, memory_order_relaxed);
}

/* The turn of a part is read during the call that gets the answer. If it is the turn of the memo,
   no writer had begun to change the part by then, so the answer is right at that point. */
static bool is_current(const struct rrcache *cache, const struct memo *memo)
{
    const struct part *part = &cache->part[memo->part];
    return atomic_load_explicit(&part->turn, memory_order_acquire) == memo->turn;
}

static struct memo *memo_of(const struct recall *it)
{
    return &it->memos->memo[it->slot - it->memos->slots];
}

enum recalled recall_memo(const struct recall *it)
{
    struct memo *memo = memo_of(it);
    enum recalled recalled = NOTHING;
    if (!take_memos(it->memos))
        return NOTHING;
    if (is_named(memo, it->request)) {
        put_name(it->cache, memo, &it->answer->end);
        recalled = NAME;
        if (is_asked(memo, it->question) && memo->size <= it->answer->room
            && is_current(it->cache, memo)) {
            put_answer(memo, it->answer);
            count_told(it->memos, memo);
            recalled = ANSWER;
        }
    }
    leave_memos(it->memos);
    return recalled;
}

static void fill_memo(struct memo *memo, const struct rrcache_question *question,
                      const struct rrcache_answer *answer, uint64_t turn)
{
    const struct rrcache_name *name = &answer->end;
    memo->turn = turn;
    memo->moment = question->moment;
    memo->retry_from = answer->retry_from;
    memo->hash = name->hash;
    memo->part = name->part;
    memo->mode = question->mode;
    memo->kind = answer->kind;
    memo->rtype = question->rtype;
    memo->rclass = question->rclass;
    memo->size = (uint16_t)answer->size;
    memo->purpose = (uint8_t)question->purpose;
    memo->name_size = name->size;
    memo->is_used = false;
    memcpy(memo->name, name->octets, name->size);
    memcpy(memo->answer, answer->buffer, answer->size);
}

/* Whether the memo of a slot has to make way for the memo of a question. A memo in use is spared
   once. */
static bool makes_way(const struct recall *it)
{
    struct memo *memo = memo_of(it);
    bool makes_way = it->recalled == NAME || !memo->is_used;
    memo->is_used = false;
    return makes_way;
}

void write_memo(const struct recall *it, uint64_t turn)
{
    const struct rrcache_name *name = &it->answer->end;
    bool is_lower = memcmp(name->octets, it->request->name, name->size) == 0;
    if (it->answer->size > MEMO_ANSWER || !is_lower || !take_memos(it->memos))
        return;
    if (makes_way(it)) {
        fill_memo(memo_of(it), it->question, it->answer, turn);
        atomic_store_explicit(&it->slot->held, it->mark, memory_order_relaxed);
    }
    leave_memos(it->memos);
}
