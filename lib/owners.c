/* SPDX-License-Identifier: MIT */
/* owners.c: which names may be aliases, so that look-ups of other names ask for no CNAME RRset. */
#include "cache.h"

/* The number of bits for each CNAME RRset that a part has room for. If every fourth key is an
   alias, about 1 in 100 of the other names is taken for an alias. If all keys are aliases, about 1
   in 6 is. */
enum { BITS_OF_OWNER = 8 };
/* The minimum number of octets that a CNAME RRset takes (`rrcache_sizes`). */
enum { ALIAS_OCTETS = RRCACHE_ENTRY_OCTETS + 2 * RRCACHE_SHARED_OCTETS + 2 * RRCACHE_VALUE_OCTETS };

uint64_t owner_words(const struct rrcache *cache)
{
    uint64_t by_octets = cache->most_octets / ALIAS_OCTETS, words = 1;
    uint64_t most = by_octets < cache->most_keys ? by_octets : cache->most_keys;
    while (words * WORD_BITS < most * BITS_OF_OWNER)
        words *= 2;
    return words;
}

void place_owners(struct part *part, uint64_t *words, uint64_t count)
{
    part->owners.all = words;
    part->owners.late = words + count;
    part->owners.last = count * WORD_BITS - 1;
}

static void set(uint64_t *bits, uint64_t number)
{
    bits[number / WORD_BITS] |= UINT64_C(1) << number % WORD_BITS;
}

void note_alias(struct part *part, const struct rrcache_name *name)
{
    struct owners *owners = &part->owners;
    uint64_t one = name->hash & owners->last, other = second_bit(owners, name->hash);
    set(owners->all, one);
    set(owners->all, other);
    set(owners->late, one);
    set(owners->late, other);
}

/* A part evicts the least recently used key. So as long as it holds a key that was last used before
   `late` began, it evicts only keys that it held then, and fewer than all of them. */
void renew_owners(struct part *part)
{
    struct owners *owners = &part->owners;
    size_t octets = (owners->last + 1) / 8;
    if (part->evicted - owners->evicted < owners->keys)
        return;
    memcpy(owners->all, owners->late, octets);
    memset(owners->late, 0, octets);
    owners->keys = part->keys;
    owners->evicted = part->evicted;
}
