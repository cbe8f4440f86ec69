/* SPDX-License-Identifier: MIT */
/* stores.c: storing in a cache, forgetting and sweeping. */
#include "places.h"

/* The maximum number of octets that an RRset of a response takes in a cache, without its rdata:
   OCTETS_FOR_ONE for each octet of the response, because a record has 11 octets or more and takes
   64 in addition to its rdata; and OCTETS_BESIDE for its names and the rest. */
enum { OCTETS_FOR_ONE = 6, OCTETS_BESIDE = 2048 };
/* The maximum number of octets that its rdata take: DATA_FOR_ONE for each octet of the response,
   because a record of 15 octets may have pointers to two names of 255 octets; and in total
   MOST_DATA, the limit of `rrcache_read_response`. */
enum { DATA_FOR_ONE = 34, MOST_DATA = 16384 };
/* A buffer of this size has room for each RRset, negative answer or failure of a response that was
   read for a query (`rrcache_tell_offer`). */
enum { OFFER_OCTETS = 28551 };
/* The number of keys that one step of a sweep removes, the number of types that one step of
   forgetting checks, and the number of offers that are stored one by one before other threads may
   go first. */
enum { STEP_KEYS = 64, STEP_TYPES = 256, STEP_OFFERS = 16 };
/* The maximum number of offers that are stored in a shelf at once. They may evict as many keys, or
   more. */
enum { MOST_AT_ONCE = 256 };
enum { TYPES = 65536 };

/* The key of stored data. An RRset and NODATA have the key of their name and type, a failure has
   another key for its name and type, and an NXDOMAIN has a key without a type. */
struct key {
    const struct rrcache_name *name;
    uint32_t kind; /* enum rrcache_kind */
    uint32_t rtype;
    uint16_t rclass;
};

/* Whether a part holds a key. */
static bool is_held(const struct part *part, const struct key *key)
{
    const struct rrcache_question question = {
        .rtype = key->kind == RRCACHE_NXDOMAIN ? RRTYPE_ANY : (uint16_t)key->rtype,
        .rclass = key->rclass,
    };
    struct rrcache_stored stored = {0};
    rrcache_tell_stored(&part->shelf, key->name, &question, &stored);
    const struct rrcache_entry *entry = key->kind == RRCACHE_NXDOMAIN ? &stored.nxdomain
                                        : key->kind == RRCACHE_FAILED ? &stored.failure
                                                                      : &stored.set;
    return entry->kind != 0;
}

/* Whether a locked part evicts a key if it stores this one: it has the maximum number of keys, and
   does not hold this one. */
static bool will_evict(const struct rrcache *cache, const struct part *part, const struct key *key)
{
    return part->keys >= cache->most_keys && !is_held(part, key);
}

/* Data of one key that are being stored. Their part is locked from `begin_storing` to
   `end_storing`. */
struct storing {
    struct rrcache *cache;
    struct part *part;
    uint64_t moment;
    bool evicts; /* whether the part evicts a key if the offer is kept */
};

/* Locks the part of a key. This function and the next one are inline, because calls of them would
   take about 50 instructions of each store. */
static inline struct storing begin_storing(struct rrcache *cache, const struct key *key,
                                           uint64_t moment)
{
    struct part *part = &cache->part[key->name->part];
    lock_part(cache, part);
    return (struct storing){cache, part, moment, will_evict(cache, part, key)};
}

/* Counts the outcome of an offer, which is not set if its status is an error, and unlocks the part.
   Returns the status. */
static inline enum rrcache_status end_storing(const struct storing *storing,
                                              enum rrcache_status status, const uint32_t *outcome)
{
    struct part *part = storing->part;
    if (status == RRCACHE_DONE) {
        part->kept += *outcome == RRCACHE_KEPT;
        part->outranked += *outcome == RRCACHE_OUTRANKED;
        part->evicted += *outcome == RRCACHE_KEPT && storing->evicts;
    }
    settle(storing->cache, part, storing->moment);
    unlock_part(storing->cache, part);
    return status;
}

/* ---- Responses. */

/* A response that is being stored. */
struct intake {
    struct rrcache *cache;
    struct rrcache_offers offers;
    struct rrcache_report report;
    uint64_t concerned;  /* a bit for each shelf */
    uint64_t one_by_one; /* the shelves in which the offers are stored one by one */
    uint64_t most_keys;  /* an upper bound of the number of keys that it stores */
    uint64_t moment;
    uint16_t rclass;
};

static void add_counts(struct intake *intake, const struct rrcache_counts *counts)
{
    intake->report.counts.kept += counts->kept;
    intake->report.counts.cleared += counts->cleared;
    intake->report.counts.outranked += counts->outranked;
}

/* Stores in a locked part its share of the offers that were read. */
static enum rrcache_status store_share(struct intake *intake, struct part *part,
                                       const struct rrcache_share *share)
{
    struct rrcache_counts counts = {0};
    enum rrcache_status status = rrcache_offer_read(&part->shelf, &intake->offers, share, &counts);
    add_counts(intake, &counts);
    part->kept += counts.kept;
    part->outranked += counts.outranked;
    settle(intake->cache, part, intake->moment);
    return status;
}

/* Stores in each shelf its share of the offers that were read, except in shelves in which the
   offers are stored one by one. These include shelves that may reach their maximum number of keys,
   so that evicted keys are counted. */
static enum rrcache_status store_shares(struct intake *intake)
{
    struct rrcache_share share = {0};
    enum rrcache_status status = RRCACHE_DONE;
    for (; share.part < intake->cache->parts.count && status == RRCACHE_DONE; share.part++) {
        struct part *part = &intake->cache->part[share.part];
        if (((intake->concerned & ~intake->one_by_one) >> share.part & 1) == 0)
            continue;
        lock_part(intake->cache, part);
        if (part->keys + intake->most_keys > intake->cache->most_keys)
            intake->one_by_one |= UINT64_C(1) << share.part;
        else
            status = store_share(intake, part, &share);
        unlock_part(intake->cache, part);
    }
    return status;
}

/* Stores one of the offers that were read, by its number. */
static enum rrcache_status store_one(struct intake *intake, uint64_t index, const struct key *key)
{
    const struct rrcache_offer_pick pick = {.index = index};
    if (index % STEP_OFFERS == STEP_OFFERS - 1)
        give_way(&intake->cache->part[key->name->part]);
    const struct storing storing = begin_storing(intake->cache, key, intake->moment);
    uint32_t outcome = 0;
    if (key->rtype == RRTYPE_CNAME)
        note_alias(storing.part, key->name);
    enum rrcache_status status =
        rrcache_offer_one(&storing.part->shelf, &intake->offers, &pick, &outcome);
    const struct rrcache_counts counts = {
        .kept = outcome == RRCACHE_KEPT,
        .cleared = outcome == RRCACHE_CLEARED,
        .outranked = outcome == RRCACHE_OUTRANKED,
    };
    add_counts(intake, &counts);
    return end_storing(&storing, status, &outcome);
}

/* Stores offers one by one in the shelves whose shares were not stored at once, except offers that
   are too large for a shelf. */
static enum rrcache_status store_what_fits(struct intake *intake)
{
    uint8_t buffer[OFFER_OCTETS];
    struct rrcache_name name = {0};
    struct rrcache_told told;
    uint64_t octets = 0;
    for (uint64_t index = 0;; index++) {
        enum rrcache_status status =
            rrcache_tell_offer(&intake->offers, index, &name, &told, buffer, sizeof buffer);
        if (status == RRCACHE_NO_OFFERS)
            return RRCACHE_DONE;
        if (status == RRCACHE_DONE)
            status = rrcache_tell_octets(&name, &told, buffer, sizeof buffer, &octets);
        if (status != RRCACHE_DONE)
            return status;
        if ((intake->one_by_one >> name.part & 1) == 0)
            continue;
        const struct key key = {&name, told.kind, told.rtype, intake->rclass};
        bool clears = told.entry.ttl == 0 && told.kind != RRCACHE_FAILED; /* and stores nothing */
        bool fits = clears || octets <= intake->cache->most_octets;
        intake->report.too_large += !fits;
        if (fits)
            status = store_one(intake, index, &key);
        if (status != RRCACHE_DONE)
            return status;
    }
}

/* Whether each offer that a response of this size can have surely fits into a shelf by itself. */
static bool fits_surely(const struct rrcache *cache, const struct rrcache_response *response)
{
    size_t data = response->size * DATA_FOR_ONE;
    return response->size <= RRCACHE_MESSAGE_OCTETS
           && response->size * OCTETS_FOR_ONE + (data < MOST_DATA ? data : MOST_DATA)
                      + OCTETS_BESIDE
                  <= cache->most_octets;
}

/* Whether a response may have a CNAME record of a class. In a record the class follows the type. */
static bool may_have_alias(const struct rrcache_response *response, uint16_t rclass)
{
    const uint8_t *at = response->octets + RRCACHE_HEADER_OCTETS,
                  *end = response->octets + response->size;
    while ((at = memchr(at, RRTYPE_CNAME, (size_t)(end - at))) != NULL) {
        if (end - at > 2 && at[-1] == 0 && at[1] == rclass >> 8 && at[2] == (rclass & 255))
            return true;
        at++;
    }
    return false;
}

/* A response with the cache's limits in place of those that are 0, and with its timestamp. */
static struct rrcache_response completed(const struct rrcache *cache,
                                         const struct rrcache_response *given)
{
    struct rrcache_response response = *given;
    response.moment = moment_of(given->moment);
    if (response.limits.cap == 0)
        response.limits.cap = cache->limits.cap;
    if (response.limits.negative_cap == 0)
        response.limits.negative_cap = cache->limits.negative_cap;
    if (response.limits.recheck == 0)
        response.limits.recheck = cache->limits.recheck;
    return response;
}

enum rrcache_status rrcache_store(struct rrcache *cache, const struct rrcache_query *query,
                                  const struct rrcache_response *response,
                                  struct rrcache_report *report, struct rrcache_answer *answer)
{
    struct intake intake = {.cache = cache};
    if ((answer != NULL && !clear_answer(answer)) || cache == NULL || query == NULL
        || response == NULL || report == NULL)
        return RRCACHE_NULL;
    const struct rrcache_response whole = completed(cache, response);
    intake.moment = whole.moment;
    intake.rclass = query->rclass;
    enum rrcache_status status =
        rrcache_read_response(&intake.offers, &whole, query, &cache->parts, &intake.concerned);
    if (status != RRCACHE_DONE)
        return status;
    rrcache_tell_response(&intake.offers, &intake.report.name, &intake.report.summary);
    intake.most_keys = most_offers(&whole);
    bool is_plain = intake.most_keys <= MOST_AT_ONCE && fits_surely(cache, &whole)
                    && !may_have_alias(&whole, query->rclass);
    intake.one_by_one = is_plain ? 0 : UINT64_MAX;
    status = store_shares(&intake);
    if (status == RRCACHE_DONE && intake.one_by_one != 0)
        status = store_what_fits(&intake);
    if (status == RRCACHE_DONE && answer != NULL)
        status = end_answer(answer, tell_answer(cache, &intake.offers, &intake.report.summary,
                                                query, &whole, answer));
    rrcache_free_offers(&intake.offers);
    *report = intake.report;
    return status;
}

/* ---- The caller's own data. */

/* Returns the octets that a key takes, given its owner and the octets of its data
   (`rrcache_sizes`). */
static uint64_t key_octets(const struct rrcache_name *name, const uint8_t *owner, size_t owner_size,
                           uint64_t data_room)
{
    uint64_t octets =
        RRCACHE_ENTRY_OCTETS + RRCACHE_SHARED_OCTETS + rrcache_room(name->size) + data_room;
    if (owner_size != name->size || memcmp(owner, name->octets, owner_size) != 0)
        octets += RRCACHE_SHARED_OCTETS + rrcache_room(owner_size);
    return octets;
}

enum rrcache_status rrcache_store_set(struct rrcache *cache, const struct rrcache_set *set,
                                      uint32_t *outcome)
{
    struct rrcache_name name;
    if (cache == NULL || set == NULL || outcome == NULL
        || !rrcache_is_there(set->data, set->data_size))
        return RRCACHE_NULL;
    struct rrcache_set offered = *set;
    offered.moment = moment_of(set->moment);
    enum rrcache_status status =
        rrcache_make_name(&name, set->owner, set->owner_size, &cache->parts);
    if (status != RRCACHE_DONE)
        return status;
    if (set->ttl != 0 /* else it only clears */
        && key_octets(&name, set->owner, set->owner_size,
                      rrcache_data_room(set->data, set->data_size))
               > cache->most_octets)
        return RRCACHE_TOO_LARGE;
    const struct key key = {&name, RRCACHE_FRESH, set->rtype, set->rclass};
    const struct storing storing = begin_storing(cache, &key, offered.moment);
    if (set->rtype == RRTYPE_CNAME)
        note_alias(storing.part, &name);
    status = rrcache_offer_set(&storing.part->shelf, &offered, outcome);
    return end_storing(&storing, status, outcome);
}

enum rrcache_status rrcache_store_negative(struct rrcache *cache,
                                           const struct rrcache_negative *negative,
                                           uint32_t *outcome)
{
    struct rrcache_name name;
    if (cache == NULL || negative == NULL || outcome == NULL
        || !rrcache_is_there(negative->soa_owner, negative->soa_owner_size)
        || !rrcache_is_there(negative->soa, negative->soa_size))
        return RRCACHE_NULL;
    struct rrcache_negative offered = *negative;
    offered.moment = moment_of(negative->moment);
    enum rrcache_status status =
        rrcache_make_name(&name, negative->name, negative->name_size, &cache->parts);
    if (status != RRCACHE_DONE)
        return status;
    if (negative->ttl != 0 /* else it only clears */
        && key_octets(&name, negative->soa_owner, negative->soa_owner_size,
                      RRCACHE_SHARED_OCTETS + rrcache_room(negative->soa_size))
               > cache->most_octets)
        return RRCACHE_TOO_LARGE;
    const struct key key = {&name, (uint32_t)negative->kind, negative->rtype, negative->rclass};
    const struct storing storing = begin_storing(cache, &key, offered.moment);
    status = rrcache_offer_negative(&storing.part->shelf, &offered, outcome);
    return end_storing(&storing, status, outcome);
}

enum rrcache_status rrcache_store_failure(struct rrcache *cache,
                                          const struct rrcache_failure *failure, uint32_t *outcome)
{
    struct rrcache_name name;
    if (cache == NULL || failure == NULL || outcome == NULL)
        return RRCACHE_NULL;
    struct rrcache_failure offered = *failure;
    offered.moment = moment_of(failure->moment);
    enum rrcache_status status =
        rrcache_make_name(&name, failure->name, failure->name_size, &cache->parts);
    if (status != RRCACHE_DONE)
        return status;
    const struct key key = {&name, RRCACHE_FAILED, failure->rtype, failure->rclass};
    const struct storing storing = begin_storing(cache, &key, offered.moment);
    status = rrcache_offer_failure(&storing.part->shelf, &offered, outcome);
    return end_storing(&storing, status, outcome);
}

/* ---- Forgetting. */

/* Clears the NXDOMAIN of a name, or its RRset or NODATA of a type. To do so, offers a negative
   answer with TTL 0, the highest rank, and an SOA record of zeros. */
static enum rrcache_status clear(struct part *part, const struct rrcache_request *request,
                                 enum rrcache_kind kind, uint64_t moment)
{
    static const uint8_t root[1] = {0}, soa[22] = {0};
    const struct rrcache_negative negative = {
        .name = request->name,
        .name_size = request->name_size,
        .rtype = request->rtype,
        .rclass = request->rclass,
        .kind = kind,
        .trust = RRCACHE_AUTHORITATIVE_ANSWER,
        .soa_owner = root,
        .soa_owner_size = sizeof root,
        .soa = soa,
        .soa_size = sizeof soa,
        .moment = moment,
    };
    uint32_t outcome;
    return rrcache_offer_negative(&part->shelf, &negative, &outcome);
}

/* Clears a failure: replaces it with a failure with TTL 0, and removes this one by a sweep at
   timestamp 0, at which only keys with TTL 0 are fully expired. */
static enum rrcache_status clear_failure(struct part *part, const struct rrcache_request *request,
                                         uint64_t moment)
{
    const struct rrcache_sweep_at sweep = {.moment = 0};
    const struct rrcache_failure failure = {
        .name = request->name,
        .name_size = request->name_size,
        .rtype = request->rtype,
        .rclass = request->rclass,
        .moment = moment,
    };
    uint64_t removed;
    uint32_t outcome;
    enum rrcache_status status = rrcache_offer_failure(&part->shelf, &failure, &outcome);
    return status == RRCACHE_DONE ? rrcache_sweep(&part->shelf, &sweep, &removed) : status;
}

/* Clears what a locked part holds for a name, a class and a type. */
static enum rrcache_status clear_all(struct part *part, const struct rrcache_name *name,
                                     const struct rrcache_request *request)
{
    const struct rrcache_question question = {.rtype = request->rtype, .rclass = request->rclass};
    struct rrcache_stored stored = {0};
    uint64_t moment = moment_of(request->moment);
    enum rrcache_status status = rrcache_tell_stored(&part->shelf, name, &question, &stored);
    if (status == RRCACHE_DONE && stored.set.kind != 0)
        status = clear(part, request, RRCACHE_NODATA, moment);
    if (status == RRCACHE_DONE && stored.nxdomain.kind != 0)
        status = clear(part, request, RRCACHE_NXDOMAIN, moment);
    if (status == RRCACHE_DONE && stored.failure.kind != 0)
        status = clear_failure(part, request, moment);
    return status;
}

/* Forgets what is held for a name, a class and a type. */
static enum rrcache_status forget_type(struct rrcache *cache, const struct rrcache_name *name,
                                       const struct rrcache_request *request)
{
    struct part *part = &cache->part[name->part];
    lock_part(cache, part);
    enum rrcache_status status = clear_all(part, name, request);
    settle(cache, part, moment_of(request->moment));
    unlock_part(cache, part);
    return status;
}

/* Whether an NXDOMAIN or a CNAME record of a name governs over what is stored for a type. The later
   of the two governs, unless the earlier is unexpired and of higher rank (docs/RULES.md). */
static bool is_hidden(const struct rrcache_entry *set, const struct rrcache_entry *by,
                      uint64_t moment)
{
    if (set->number > by->number)
        return is_unexpired(by, moment) && by->trust > set->trust;
    return !is_unexpired(set, moment) || set->trust <= by->trust;
}

/* Tells which entry of a name may hide others: its NXDOMAIN, or its CNAME record. The part of the
   name is taken. */
static struct rrcache_entry hiding(const struct part *part, const struct rrcache_name *name,
                                   uint16_t rclass, uint16_t rtype)
{
    const struct rrcache_question question = {.rtype = rtype, .rclass = rclass};
    struct rrcache_stored stored = {0};
    rrcache_tell_stored(&part->shelf, name, &question, &stored);
    if (rtype != RRTYPE_CNAME)
        return stored.nxdomain;
    return stored.set.kind == RRCACHE_FRESH ? stored.set : (struct rrcache_entry){0};
}

/* Forgets the RRset or NODATA of a name, a class and a type, if the NXDOMAIN of the name (`by` is
   ANY) or its CNAME record hides it. */
static enum rrcache_status forget_if_hidden(struct rrcache *cache, const struct rrcache_name *name,
                                            const struct rrcache_request *request, uint16_t by)
{
    struct part *part = &cache->part[name->part];
    const struct rrcache_question question = {.rtype = request->rtype, .rclass = request->rclass};
    uint64_t moment = moment_of(request->moment);
    struct rrcache_stored stored = {0};
    lock_part(cache, part);
    const struct rrcache_entry other = hiding(part, name, request->rclass, by);
    enum rrcache_status status = rrcache_tell_stored(&part->shelf, name, &question, &stored);
    if (status == RRCACHE_DONE && other.kind != 0 && stored.set.kind != 0 && request->rtype != by
        && is_hidden(&stored.set, &other, moment))
        status = clear(part, request, RRCACHE_NODATA, moment);
    settle(cache, part, moment);
    unlock_part(cache, part);
    return status;
}

static enum rrcache_status forget_denied(struct rrcache *cache, const struct rrcache_name *name,
                                         const struct rrcache_request *request)
{
    return forget_if_hidden(cache, name, request, RRTYPE_ANY);
}

static enum rrcache_status forget_aliased(struct rrcache *cache, const struct rrcache_name *name,
                                          const struct rrcache_request *request)
{
    return forget_if_hidden(cache, name, request, RRTYPE_CNAME);
}

/* Whether a name has an NXDOMAIN (ANY) or a CNAME record. */
static bool may_hide(struct rrcache *cache, const struct rrcache_name *name, uint16_t rclass,
                     uint16_t rtype)
{
    struct part *part = &cache->part[name->part];
    struct place *place = take_place(cache, part);
    const struct rrcache_entry found = hiding(part, name, rclass, rtype);
    leave_place(part, place);
    return found.kind != 0;
}

/* Checks up to STEP_TYPES types of a name, starting with `next`. Returns whether a part holds
   something for one of them, and sets `next` to the first such type. */
static bool step_to_held(const struct part *part, const struct rrcache_name *name, uint16_t rclass,
                         uint32_t *next)
{
    uint32_t end = *next + STEP_TYPES < TYPES ? *next + STEP_TYPES : TYPES;
    struct rrcache_stored stored = {0};
    for (; *next < end; ++*next) {
        const struct rrcache_question question = {.rtype = (uint16_t)*next, .rclass = rclass};
        rrcache_tell_stored(&part->shelf, name, &question, &stored);
        if (stored.set.kind != 0 || stored.failure.kind != 0)
            return true;
    }
    return false;
}

/* Finds the first type, starting with `next`, for which something is held for a name. No call of a
   shelf lists the types of a name, so this function checks each type. It takes a place again for
   each step, so that no other thread waits for long. */
static bool find_held(struct rrcache *cache, const struct rrcache_name *name, uint16_t rclass,
                      uint32_t *next)
{
    struct part *part = &cache->part[name->part];
    bool is_held;
    do {
        struct place *place = take_place(cache, part);
        is_held = step_to_held(part, name, rclass, next);
        leave_place(part, place);
    } while (!is_held && *next < TYPES);
    return is_held;
}

/* Calls `forget` for each type for which something is held for a name and a class. */
static enum rrcache_status
forget_types(struct rrcache *cache, const struct rrcache_name *name,
             const struct rrcache_request *request,
             enum rrcache_status (*forget)(struct rrcache *, const struct rrcache_name *,
                                           const struct rrcache_request *))
{
    struct rrcache_request of_type = *request;
    enum rrcache_status status = RRCACHE_DONE;
    uint32_t next = 1;
    while (status == RRCACHE_DONE && find_held(cache, name, request->rclass, &next)) {
        of_type.rtype = (uint16_t)next++;
        give_way(&cache->part[name->part]);
        status = forget(cache, name, &of_type);
    }
    return status;
}

/* Forgets all that is held for a name and a class. What an NXDOMAIN hides is removed before the
   NXDOMAIN, and what a CNAME record hides before this record, so that no look-up finds it in
   between. What hides the CNAME record comes after it. */
static enum rrcache_status forget_name(struct rrcache *cache, const struct rrcache_name *name,
                                       const struct rrcache_request *request)
{
    struct rrcache_request alias = *request;
    enum rrcache_status status = RRCACHE_DONE;
    alias.rtype = RRTYPE_CNAME;
    if (may_hide(cache, name, request->rclass, RRTYPE_ANY))
        status = forget_types(cache, name, request, forget_denied);
    if (status == RRCACHE_DONE)
        status = forget_type(cache, name, request); /* with type ANY, only the NXDOMAIN */
    if (status == RRCACHE_DONE && may_hide(cache, name, request->rclass, RRTYPE_CNAME)) {
        status = forget_types(cache, name, request, forget_aliased);
        if (status == RRCACHE_DONE)
            status = forget_type(cache, name, &alias);
    }
    if (status == RRCACHE_DONE)
        status = forget_types(cache, name, request, forget_type);
    return status;
}

enum rrcache_status rrcache_forget(struct rrcache *cache, const struct rrcache_request *request)
{
    struct rrcache_name name;
    if (cache == NULL || request == NULL)
        return RRCACHE_NULL;
    enum rrcache_status status =
        rrcache_make_name(&name, request->name, request->name_size, &cache->parts);
    if (status != RRCACHE_DONE)
        return status;
    return request->rtype == RRTYPE_ANY ? forget_name(cache, &name, request)
                                        : forget_type(cache, &name, request);
}

/* ---- Sweeping. */

/* Sweeps one part in steps, until `most` keys are removed or the sweep is done. */
static enum rrcache_status sweep_part(struct rrcache *cache, struct part *part, uint64_t moment,
                                      uint64_t most, struct rrcache_swept *swept)
{
    uint64_t removed = 0;
    enum rrcache_status status = RRCACHE_DONE;
    swept->is_done = 0;
    while (status == RRCACHE_DONE && removed < most && !swept->is_done) {
        uint64_t left = most - removed;
        const struct rrcache_sweep_at sweep = {.moment = moment,
                                               .most = left < STEP_KEYS ? left : STEP_KEYS};
        struct rrcache_swept step = {0};
        give_way(part);
        lock_part(cache, part);
        status = rrcache_sweep_some(&part->shelf, &sweep, &step);
        part->expired += step.removed;
        settle(cache, part, moment);
        unlock_part(cache, part);
        removed += step.removed;
        swept->is_done = step.is_done;
    }
    swept->removed += removed;
    return status;
}

/* Sweeps one part after another, from the one in which the last sweep ended. */
static enum rrcache_status sweep_parts(struct rrcache *cache, uint64_t moment, uint64_t most,
                                       struct rrcache_swept *swept)
{
    for (uint64_t done = 0; done < cache->parts.count; done++) {
        struct part *part = &cache->part[cache->swept_part];
        enum rrcache_status status = sweep_part(cache, part, moment, most - swept->removed, swept);
        if (status != RRCACHE_DONE || !swept->is_done)
            return status;
        cache->swept_part = (cache->swept_part + 1) % cache->parts.count;
        if (swept->removed >= most && done + 1 < cache->parts.count) {
            swept->is_done = 0;
            return RRCACHE_DONE;
        }
    }
    return RRCACHE_DONE;
}

enum rrcache_status rrcache_sweep_all(struct rrcache *cache, uint64_t moment, uint64_t most,
                                      struct rrcache_swept *swept)
{
    struct rrcache_swept sum = {0};
    if (cache == NULL || swept == NULL)
        return RRCACHE_NULL;
    if (most == 0)
        return RRCACHE_BAD_RULES;
    pthread_mutex_lock(&cache->sweeper);
    enum rrcache_status status = sweep_parts(cache, moment_of(moment), most, &sum);
    pthread_mutex_unlock(&cache->sweeper);
    *swept = sum;
    return status;
}
