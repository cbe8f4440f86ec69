/* SPDX-License-Identifier: MIT */
/* dnames.c: the DNAME RRsets from which CNAME records of an answer were synthesized (RFC 6672). */
#include "cache.h"

enum { MOST_LABELS = 127 };
/* A DNAME RRset has one record: an owner, and another name after the two octets of its length. */
enum { DNAME_OCTETS = 255 + 2 + 255 };
/* The maximum number of names that are looked up for an answer. */
enum { MOST_SOUGHT = 16 };

/* Returns how many labels two names have in common at the beginning, and writes where each of these
   labels ends. */
static size_t common_labels(const struct rrcache_name *one, const struct rrcache_name *other,
                            uint8_t ends[MOST_LABELS])
{
    size_t count = 0, at = 0, label;
    while ((label = one->octets[at] + (size_t)1) > 1 && at + label < other->size
           && memcmp(one->octets + at, other->octets + at, label) == 0) {
        at += label;
        ends[count++] = (uint8_t)at;
    }
    return count;
}

/* Makes a name from the first rdata of an RRset, which come after the two octets of their
   length. */
static enum rrcache_status make_target(const struct rrcache *cache, const uint8_t *data,
                                       struct rrcache_name *name)
{
    return rrcache_make_name(name, data + 2, (size_t)data[0] << 8 | data[1], &cache->parts);
}

/* Whether a reply is a DNAME RRset with one record, and the target of this record is the rest of a
   name from an offset on. */
static bool has_made(const struct rrcache *cache, const struct rrcache_told *told,
                     const uint8_t *octets, const struct rrcache_name *target, size_t from)
{
    struct rrcache_name name = {0};
    const uint8_t *data = octets + told->owner_size;
    bool is_dname =
        (told->kind == RRCACHE_FRESH || told->kind == RRCACHE_STALE) && told->rtype == RRTYPE_DNAME;
    return is_dname && make_target(cache, data, &name) == RRCACHE_DONE
           && told->data_size == 2 + (uint64_t)name.size && name.size == target->size - from
           && memcmp(name.octets, target->octets + from, name.size) == 0;
}

/* The owner and the target of a synthesized CNAME record begin with the same labels. After these
   labels they continue with the owner and the target of the DNAME record (RFC 6672 section 2.2).
   These two usually do not begin with a common label, so all common labels are tried first. */
enum rrcache_status put_dname(const struct rrcache *cache, struct dname_search *search,
                              struct rrcache_answer *answer, size_t at,
                              const struct rrcache_told *alias)
{
    uint8_t ends[MOST_LABELS], octets[DNAME_OCTETS];
    struct rrcache_name target = {0}, owner = {0};
    struct rrcache_told told = {0};
    enum rrcache_status status =
        make_target(cache, answer->buffer + answer->size - alias->data_size, &target);
    size_t left = status == RRCACHE_DONE ? common_labels(&answer->end, &target, ends) : 0;
    search->takes_stale = alias->kind == RRCACHE_STALE;
    while (left > 0 && search->sought < MOST_SOUGHT) {
        size_t front = ends[--left];
        search->sought++;
        rrcache_make_name(&owner, answer->end.octets + front, answer->end.size - front,
                          &cache->parts);
        status = search->find(search->from, &owner, &told, octets, sizeof octets);
        if (status == RRCACHE_SMALL) /* an RRset of several records made no CNAME record */
            status = RRCACHE_DONE;
        else if (status == RRCACHE_DONE && has_made(cache, &told, octets, &target, front))
            return insert_rrset(answer, at, &told, octets, search->rclass);
        if (status != RRCACHE_DONE)
            return status;
    }
    return status;
}
