/* SPDX-License-Identifier: MIT */
/* answers.c: the RRsets of an answer, in its buffer. */
#include "cache.h"

enum { SOA = 6 };

enum rrcache_status insert_rrset(struct rrcache_answer *answer, size_t at,
                                 const struct rrcache_told *told, const uint8_t *octets,
                                 uint16_t rclass)
{
    const struct head head = {.told = *told, .rclass = rclass};
    size_t size = (size_t)(told->owner_size + told->data_size), whole = sizeof head + size;
    uint8_t *here = answer->buffer + at;
    if (answer->room - answer->size < whole)
        return RRCACHE_SMALL;
    memmove(here + whole, here, answer->size - at);
    memcpy(here, &head, sizeof head);
    memcpy(here + sizeof head, octets, size);
    answer->size += whole;
    answer->is_stale |= told->kind == RRCACHE_STALE;
    return RRCACHE_DONE;
}

/* The target is in the first rdata of the CNAME record, after the two octets of their length. */
enum rrcache_status follow_alias(const struct rrcache *cache, struct rrcache_answer *answer,
                                 const struct rrcache_told *told)
{
    const uint8_t *data = answer->buffer + answer->size - told->data_size;
    size_t size = (size_t)data[0] << 8 | data[1];
    answer->aliases++;
    return rrcache_make_name(&answer->end, data + 2, size, &cache->parts);
}

bool rrcache_next(const struct rrcache_answer *answer, struct rrcache_rrset *rrset)
{
    static const struct rrcache_rrset none = {0};
    struct head head;
    bool is_denial;
    if (answer == NULL || rrset == NULL)
        return false;
    size_t at = rrset->next;
    if (at >= answer->size) {
        *rrset = none;
        return false;
    }
    memcpy(&head, answer->buffer + at, sizeof head);
    is_denial = head.told.kind == RRCACHE_NODATA || head.told.kind == RRCACHE_NXDOMAIN;
    rrset->kind = head.told.kind;
    rrset->trust = head.told.entry.trust;
    rrset->entry = head.told.entry;
    rrset->set.owner = answer->buffer + at + sizeof head;
    rrset->set.owner_size = (size_t)head.told.owner_size;
    rrset->set.rtype = (uint16_t)(is_denial ? SOA : head.told.rtype);
    rrset->set.rclass = head.rclass;
    rrset->set.ttl = head.told.left;
    rrset->set.section = is_denial ? RRCACHE_AUTHORITY_SECTION : RRCACHE_ANSWER_SECTION;
    rrset->set.data = rrset->set.owner + rrset->set.owner_size;
    rrset->set.data_size = (size_t)head.told.data_size;
    rrset->next = at + sizeof head + rrset->set.owner_size + rrset->set.data_size;
    return true;
}
