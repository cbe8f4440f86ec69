/* SPDX-License-Identifier: MIT */
/* lookups.c: looking up names in a cache, one by one. */
#include "memos.h"

enum { NS = 2 };
/* The maximum timestamp. An ask checks it, and a peek does not. */
static const uint64_t LAST_MOMENT = UINT64_C(1) << 40;

/* ---- One name. */

/* The exported functions are called directly, since nothing here is null or overlaps. A peek takes
   a copy of the handle. */
typedef uint32_t (*exported)(struct rrcache_shelf *, const struct rrcache_name *,
                             const struct rrcache_question *, struct rrcache_told *, uint8_t *,
                             uint64_t);

/* How a name is looked up: by itself, or with its alias. */
struct manner {
    exported peek, ask;
};
static const struct manner BY_ITSELF = {rrc_peek, rrc_ask};
static const struct manner WITH_ALIAS = {rrc_peek_alias, rrc_ask_alias};

/* One name to look up. */
struct lookup {
    const struct manner *manner;
    const struct rrcache_name *name;
    const struct rrcache_question *question;
    struct rrcache_told *told;
    uint8_t *buffer;
    size_t room;
    uint64_t turn; /* gets the turn of the part if a peek returned the reply, and otherwise
                      NO_TURN */
};

/* Whether the entry that was found has to move to the front: too many keys may be in front of
   it. */
static bool is_due(const struct part *part, const struct rrcache_told *told)
{
    return told->entry.kind != 0 && told->entry.age > part->oldest_left;
}

/* Notes whether a look-up moved the entry that it found. If most look-ups do, for example because
   names are asked for at random, it costs less to take all places at once than to peek first. */
static void note_move(struct place *place, bool is_moved)
{
    int moves = is_moved ? place->moves + 1 : place->moves - 2;
    place->moves = moves < 0 ? 0 : moves > MOST_MOVES ? MOST_MOVES : moves;
}

/* How to look up a name in a part. A name that is not an alias is looked up by itself: the reply is
   the same. */
static const struct manner *manner_of(const struct part *part, const struct lookup *it)
{
    return it->manner == &WITH_ALIAS && !may_be_alias(part, it->name) ? &BY_ITSELF : it->manner;
}

/* Whether a look-up counts. A look-up of a name by itself counts even if its reply has no room: its
   caller goes on without a reply that is not an RRset, or without a DNAME RRset of that size. */
static bool is_counted(const struct lookup *it, enum rrcache_status status)
{
    return status == RRCACHE_DONE || (status == RRCACHE_SMALL && it->manner == &BY_ITSELF);
}

/* Peeks while a place is held. Returns false if an ask has to be made instead: because the entry
   that was found has to move to the front, or is expected to move, or because a history is
   recorded. */
static bool peek(struct part *part, struct place *place, struct lookup *it,
                 enum rrcache_status *status)
{
    struct rrcache_shelf shelf = part->shelf;
    if (part->is_recorded || place->moves >= MOVES_EXPECTED)
        return false;
    *status = (enum rrcache_status)manner_of(part, it)->peek(&shelf, it->name, it->question,
                                                             it->told, it->buffer, it->room);
    if (*status == RRCACHE_DONE && it->question->moment > LAST_MOMENT)
        *status = RRCACHE_MOMENT_TOO_LARGE;
    if (*status == RRCACHE_DONE && is_due(part, it->told))
        return false;
    place->told[it->told->kind] += is_counted(it, *status);
    note_move(place, false);
    it->turn = turn_here(part);
    return true;
}

/* Whether a reply is the CNAME record of a name. */
static bool is_cname(const struct rrcache_told *told)
{
    return (told->kind == RRCACHE_FRESH || told->kind == RRCACHE_STALE)
           && told->rtype == RRTYPE_CNAME;
}

/* Asks while all places are held. */
static enum rrcache_status ask(struct part *part, struct place *place, const struct lookup *it)
{
    enum rrcache_status status = (enum rrcache_status)manner_of(part, it)->ask(
        &part->shelf, it->name, it->question, it->told, it->buffer, it->room);
    if (status == RRCACHE_DONE && is_cname(it->told))
        note_alias(part, it->name);
    place->told[it->told->kind] += is_counted(it, status);
    note_move(place, status == RRCACHE_DONE && is_due(part, it->told));
    return status;
}

/* Looks up one name: peeks, and asks if that is needed. */
static enum rrcache_status look_up(struct rrcache *cache, struct lookup *it)
{
    struct part *part = &cache->part[it->name->part];
    struct place *place = take_place(cache, part);
    enum rrcache_status status = RRCACHE_DONE;
    it->turn = NO_TURN;
    bool is_told = peek(part, place, it, &status);
    leave_place(part, place);
    if (is_told)
        return status;
    lock_part(cache, part);
    status = ask(part, place, it);
    unlock_part(cache, part);
    return status;
}

/* ---- A CNAME chain. */

/* A walk along the CNAME chain of a name. */
struct walk {
    struct rrcache *cache;
    struct rrcache_answer *answer;
    struct rrcache_question question;
    uint64_t retry_from; /* of the question's failure, if one is recent */
    uint64_t turn;       /* of the part that gave the last reply, or NO_TURN */
    struct dname_search dnames;
};

/* Looks up the DNAME RRset of a name. */
static enum rrcache_status find_dname(void *from, const struct rrcache_name *owner,
                                      struct rrcache_told *told, uint8_t *octets, size_t room)
{
    const struct walk *walk = from;
    struct rrcache_question question = walk->question;
    struct lookup lookup = {&BY_ITSELF, owner, &question, told, octets, room, NO_TURN};
    question.rtype = RRTYPE_DNAME;
    if (walk->dnames.takes_stale)
        question.mode = RRCACHE_STALE_NOW;
    return look_up(walk->cache, &lookup);
}

/* Inserts the DNAME RRset of the CNAME record that begins at an offset of the answer. */
static enum rrcache_status put_dname_above(struct walk *walk, size_t at,
                                           const struct rrcache_told *told)
{
    walk->dnames.find = find_dname;
    walk->dnames.from = walk;
    walk->dnames.rclass = walk->question.rclass;
    return put_dname(walk->cache, &walk->dnames, walk->answer, at, told);
}

/* Looks up the name that was reached, and appends what is found to the answer. */
static enum rrcache_status take_step(struct walk *walk, struct rrcache_told *told)
{
    struct rrcache_answer *answer = walk->answer;
    size_t room, at = answer->size;
    uint8_t *buffer = begin_rrset(answer, &room);
    struct lookup lookup = {&WITH_ALIAS, &answer->end, &walk->question, told,
                            buffer,      room,         NO_TURN};
    enum rrcache_status status = look_up(walk->cache, &lookup);
    walk->turn = lookup.turn;
    if (status != RRCACHE_DONE)
        return status;
    if (told->kind != RRCACHE_MISS && told->kind != RRCACHE_FAILED)
        end_rrset(answer, told, walk->question.rclass);
    return is_cname(told) && answer->with_dnames ? put_dname_above(walk, at, told) : RRCACHE_DONE;
}

/* Whether a reply is a CNAME record that is to be followed. */
static bool is_alias(const struct walk *walk, const struct rrcache_told *told)
{
    return (told->kind == RRCACHE_FRESH || told->kind == RRCACHE_STALE)
           && told->rtype != walk->question.rtype;
}

/* Whether a failure is recent at a timestamp: it is unexpired, and was stored later than all else
   for the question, and than its alias. Older data of the type, which that alias replaced, may
   still be unexpired, so no reply of the type can tell. */
static bool is_recent(const struct rrcache_stored *stored, const struct rrcache_entry *alias,
                      uint64_t moment)
{
    const struct rrcache_entry *failure = &stored->failure;
    uint64_t age = moment > failure->moment ? moment - failure->moment : 0;
    return failure->kind != 0 && age < failure->ttl && failure->number > alias->number
           && failure->number > stored->set.number && failure->number > stored->nxdomain.number;
}

/* Checks whether the question has failed recently, once its name has turned out to be an alias. If
   it failed after the alias was stored, stale data are acceptable for every name of the chain, if
   the mode allows them at all. Otherwise they are acceptable only for names that have failed
   themselves, such as the one that was asked for upstream. */
static enum rrcache_status find_failure(struct walk *walk, const struct rrcache_told *alias)
{
    const struct rrcache_name *asked = &walk->answer->end;
    struct part *part = &walk->cache->part[asked->part];
    struct rrcache_stored stored = {0};
    struct place *place = take_place(walk->cache, part);
    enum rrcache_status status = rrcache_tell_stored(&part->shelf, asked, &walk->question, &stored);
    leave_place(part, place);
    if (status != RRCACHE_DONE || !is_recent(&stored, &alias->entry, walk->question.moment))
        return status;
    walk->retry_from = stored.failure.moment + stored.failure.ttl;
    if (walk->question.mode == RRCACHE_STALE_IF_FAILED)
        walk->question.mode = RRCACHE_STALE_NOW;
    return RRCACHE_DONE;
}

/* Writes the end of the chain to the answer. If that is a miss, the question may have failed too:
   the answer is then a failure as long as either of the two failures is recent. */
static void end_walk(const struct walk *walk, const struct rrcache_told *told)
{
    struct rrcache_answer *answer = walk->answer;
    bool is_miss = told->kind == RRCACHE_MISS || told->kind == RRCACHE_FAILED;
    bool is_later = is_miss && walk->retry_from > told->retry_from;
    answer->kind = is_later ? RRCACHE_FAILED : told->kind;
    answer->retry_from = is_later ? walk->retry_from : told->retry_from;
}

static enum rrcache_status walk_on(struct walk *walk)
{
    struct rrcache_told told = {0};
    enum rrcache_status status = take_step(walk, &told);
    if (status == RRCACHE_DONE && is_alias(walk, &told))
        status = find_failure(walk, &told);
    while (status == RRCACHE_DONE && is_alias(walk, &told)) {
        if (walk->answer->aliases == RRCACHE_MOST_ALIASES) {
            walk->answer->is_endless = true;
            return RRCACHE_DONE;
        }
        status = follow_alias(walk->cache, walk->answer, &told);
        if (status == RRCACHE_DONE)
            status = take_step(walk, &told);
    }
    if (status == RRCACHE_DONE)
        end_walk(walk, &told);
    return status;
}

static struct rrcache_question question_of(const struct rrcache_request *request)
{
    return (struct rrcache_question){
        .moment = moment_of(request->moment),
        .rtype = request->rtype,
        .rclass = request->rclass,
        .purpose = request->takes_glue ? RRCACHE_ANYTHING : RRCACHE_QUESTION,
        .mode = request->mode,
    };
}

/* ---- A question. */

/* Whether one part gave an answer by itself. A CNAME record that is asked for may come with a DNAME
   RRset of another part. */
static bool is_of_one_part(const struct walk *walk)
{
    const struct rrcache_answer *answer = walk->answer;
    return answer->size != 0 && answer->aliases == 0 && walk->question.rtype != RRTYPE_CNAME;
}

/* Walks from the name of a question, which was recalled or is made first, and keeps the answer in a
   memo if this is allowed. */
static enum rrcache_status answer_by_walk(struct walk *walk, const struct recall *recall)
{
    const struct rrcache_request *request = recall->request;
    enum rrcache_status status = RRCACHE_DONE;
    if (recall->recalled == NOTHING)
        status = rrcache_make_name(&walk->answer->end, request->name, request->name_size,
                                   &walk->cache->parts);
    if (status == RRCACHE_DONE)
        status = walk_on(walk);
    if (status == RRCACHE_DONE && recall->slot != NULL && is_of_one_part(walk))
        keep(recall, walk->turn);
    return end_answer(walk->answer, status);
}

enum rrcache_status rrcache_lookup(struct rrcache *cache, const struct rrcache_request *request,
                                   struct rrcache_answer *answer)
{
    if (answer == NULL || !clear_answer(answer) || cache == NULL || request == NULL)
        return RRCACHE_NULL;
    struct walk walk = {.cache = cache, .answer = answer, .question = question_of(request)};
    struct recall it = {
        .cache = cache, .request = request, .question = &walk.question, .answer = answer};
    recall(&it);
    return it.recalled == ANSWER ? RRCACHE_DONE : answer_by_walk(&walk, &it);
}

/* ---- Delegations. */

/* Looks up the NS RRset of a name, and appends it to the answer if it is fresh. A negative answer
   is left out, so it needs no room. */
static enum rrcache_status find_servers(struct rrcache *cache,
                                        const struct rrcache_question *question,
                                        struct rrcache_answer *answer)
{
    struct rrcache_told told = {0};
    size_t room;
    uint8_t *buffer = begin_rrset(answer, &room);
    struct lookup lookup = {&BY_ITSELF, &answer->end, question, &told, buffer, room, NO_TURN};
    enum rrcache_status status = look_up(cache, &lookup);
    if (status == RRCACHE_SMALL && told.kind != RRCACHE_FRESH)
        return question->moment > LAST_MOMENT ? RRCACHE_MOMENT_TOO_LARGE : RRCACHE_DONE;
    if (status != RRCACHE_DONE || told.kind != RRCACHE_FRESH)
        return status;
    end_rrset(answer, &told, question->rclass);
    answer->kind = RRCACHE_FRESH;
    return RRCACHE_DONE;
}

enum rrcache_status rrcache_lookup_delegation(struct rrcache *cache,
                                              const struct rrcache_request *request,
                                              struct rrcache_answer *answer)
{
    if (answer == NULL || !clear_answer(answer) || cache == NULL || request == NULL)
        return RRCACHE_NULL;
    struct rrcache_request servers = *request;
    servers.rtype = NS;
    servers.mode = RRCACHE_NO_STALE;
    servers.takes_glue = true; /* the NS RRset of a referral answers no question */
    const struct rrcache_question question = question_of(&servers);
    enum rrcache_status status =
        rrcache_make_name(&answer->end, request->name, request->name_size, &cache->parts);
    const struct rrcache_name name = answer->end; /* the caller's name may be in the buffer */
    for (size_t at = 0; status == RRCACHE_DONE;) {
        status = find_servers(cache, &question, answer);
        at += name.octets[at] + (size_t)1; /* after the first label */
        if (status != RRCACHE_DONE || answer->kind == RRCACHE_FRESH || at >= name.size)
            break;
        status = rrcache_make_name(&answer->end, name.octets + at, name.size - at, &cache->parts);
    }
    return end_answer(answer, status);
}
