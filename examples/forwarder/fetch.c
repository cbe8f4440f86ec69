/* SPDX-License-Identifier: MIT */
/* A fetch asks one upstream after another by UDP, first the one that answered last. All tries have
   one port and one identifier, both random, so an answer that is late for its try still counts. If
   a response is truncated, the query is sent again over TCP. A try by UDP after that has another
   port and identifier, and a query without an OPT record has another identifier, so older answers
   no longer count. */
#include "fetch.h"

#include <stdlib.h>
#include <sys/queue.h>
#include <sys/socket.h>
#include <unistd.h>

#include "answers.h"

enum {
    TRIES = 4,         /* or more, one for each upstream */
    TRY_MS = 800,      /* the time of the first of four tries */
    LONGER_MS = 100,   /* how much longer each try takes than the previous one */
    LATE_MS = 1800,    /* the time after which waiting clients get stale data (RFC 8767 section
                          5) */
    AGAIN_MS = 100,    /* how often stale data are looked up after that */
    PLAIN_MS = 900000, /* for how long an upstream that does not support OPT records gets none */
    GRACE_MS = 200,    /* for how long a fetch does not give way to another of the same weight */
    MOST_ASKERS = 256, /* the maximum number of queries that wait for a fetch */
    ASKER_SHARE = 4    /* over UDP, one client may have at most a fourth of them */
};
enum { BUCKETS = 64, BURST = 64, PORT_TRIES = 8, FIRST_PORT = 1024 };

struct upstream {
    union address address;
    unsigned bit;                 /* the bit of this upstream in sets of upstreams */
    _Atomic uint64_t plain_until; /* it gets no OPT record before this time, in milliseconds */
};

enum way { BY_UDP, CONNECTS, BY_TCP };

struct fetch {
    /* Guarded by the lock of the bucket. */
    LIST_ENTRY(fetch) others;
    struct asker *askers;
    unsigned count;

    /* Used only by its thread, except that other threads read the question, which does not
       change. */
    struct query query; /* the query that was sent last */
    struct fetcher *fetcher;
    bool is_live; /* false if the place is free */
    unsigned client, domain, turn, tries;
    unsigned asked, refused;   /* bits of the upstreams that this socket asked, and of those that
                                  refused */
    unsigned reached, lacking; /* bits of those to which any query was sent, and of those to which
                                  this system could not send one */
    unsigned plain;            /* bits of those that get no OPT record for this question */
    struct upstream *upstream; /* the upstream that was asked last */
    uint64_t began, try_ends, late_at;
    int sock;
    enum way way;
    uint8_t length[LENGTH], *message; /* the message that arrives over TCP */
    unsigned payer;                   /* the client whose share the message counts against */
    size_t got;
};

/* The fetches under way whose names have one hash. */
struct bucket {
    pthread_mutex_t lock;
    LIST_HEAD(, fetch) fetches;
};

static struct bucket under_way[BUCKETS] = {[0 ... BUCKETS - 1] = {PTHREAD_MUTEX_INITIALIZER, {0}}};
static struct upstream upstreams[MOST_UPSTREAMS];
static unsigned upstream_count;
static _Atomic unsigned preferred;   /* the upstream that answered last */
static sa_family_t family = AF_INET; /* the address family of the sockets of fetches */

/* Whether this host has IPv6 sockets at all. Its kernel may have none (`ipv6.disable`). */
static bool has_six(void)
{
    int sock = socket(AF_INET6, SOCK_DGRAM | SOCK_CLOEXEC, 0);
    bool has = sock >= 0 || errno != EAFNOSUPPORT;
    close(sock); /* or -1 */
    return has;
}

static void add_upstream(union address address)
{
    if (address.family != family) {
        const struct in_addr four = address.four.sin_addr;
        address.six = (struct sockaddr_in6){.sin6_family = family, .sin6_port = address.port};
        memset(address.six.sin6_addr.s6_addr + 10, 0xff, 2);
        memcpy(address.six.sin6_addr.s6_addr + 12, &four, sizeof four);
    }
    for (unsigned i = 0; i < upstream_count; i++) /* its address tells which upstream answers */
        if (is_same_address(&upstreams[i].address, &address))
            return;
    upstreams[upstream_count].address = address;
    upstreams[upstream_count].bit = 1u << upstream_count;
    upstream_count++;
}

/* One socket of a fetch asks all upstreams. So if one of the upstreams has an IPv6 address, the
   socket uses IPv6, and IPv4 addresses are mapped (RFC 4291 section 2.5.5.2). If the host has no
   IPv6 sockets, upstreams with IPv6 addresses are left out, and the others are asked by IPv4. */
void set_upstreams(const union address *addresses, size_t count)
{
    size_t of_six = 0;
    for (size_t i = 0; i < count; i++)
        of_six += addresses[i].family == AF_INET6;
    bool leaves_out = of_six > 0 && of_six < count && !has_six();
    family = of_six > 0 && !leaves_out ? AF_INET6 : AF_INET;
    for (size_t i = 0; i < count; i++)
        if (!leaves_out || addresses[i].family == AF_INET)
            add_upstream(addresses[i]);
}

bool make_fetcher(struct fetcher *fetcher, size_t places)
{
    fetcher->fetches = calloc(places, sizeof *fetcher->fetches);
    fetcher->places = places;
    return fetcher->fetches != NULL;
}

/* ---- Waiting clients. */

static struct bucket *bucket_of(const struct question *question)
{
    return &under_way[question->hash % BUCKETS];
}

/* The fetch of a question that is under way, or NULL. The lock of its bucket is held. */
static struct fetch *find(struct bucket *bucket, const struct question *question)
{
    struct fetch *fetch;
    LIST_FOREACH(fetch, &bucket->fetches, others)
        if (is_same_question(&fetch->query.question, question))
            break;
    return fetch;
}

/* Replies to all clients that wait for a fetch. */
static void tell(struct fetch *fetch, const struct reply *reply, enum counter what, bool is_over)
{
    struct bucket *bucket = bucket_of(&fetch->query.question);
    pthread_mutex_lock(&bucket->lock);
    struct asker *asker = fetch->askers, *next;
    fetch->askers = NULL;
    fetch->count = 0;
    if (is_over)
        LIST_REMOVE(fetch, others);
    pthread_mutex_unlock(&bucket->lock);
    for (; asker != NULL; asker = next) {
        next = asker->next;
        send_reply(asker, reply, what);
        give_back(asker->client, asker, sizeof *asker);
    }
}

/* ---- How a fetch ends. */

static void close_socket(struct fetch *fetch)
{
    close(fetch->sock); /* or -1 */
    if (fetch->message != NULL)
        give_back(fetch->payer, fetch->message, word_at(fetch->length) + 1u);
    fetch->sock = -1;
    fetch->message = NULL;
    fetch->got = 0;
    fetch->way = BY_UDP;
}

static void end_fetch(struct fetch *fetch, const struct reply *reply, enum counter what)
{
    close_socket(fetch);
    fetch->is_live = false;
    fetch->fetcher->by_client[fetch->client]--;
    fetch->fetcher->by_domain[fetch->domain]--;
    tell(fetch, reply, what, true);
}

/* Ends a fetch without a response. The waiting clients get cached data, even if these are stale. */
static void give_up(struct fetch *fetch)
{
    struct reply reply;
    enum rrcache_kind kind = look_up(&fetch->query.question, RRCACHE_STALE_NOW, &reply);
    end_fetch(fetch, &reply, counter_of(kind));
}

/* Sends stale data to the clients that wait for a fetch that is late. The fetch continues. */
static void turn_late(struct fetch *fetch, uint64_t now)
{
    struct reply reply;
    enum rrcache_kind kind = look_up(&fetch->query.question, RRCACHE_STALE_NOW, &reply);
    fetch->late_at = now + AGAIN_MS;
    if (is_found(kind))
        tell(fetch, &reply, counter_of(kind), false);
}

/* ---- Asking. */

static bool bind_anywhere(int sock)
{
    union address here = {.six = {.sin6_family = family}};
    for (int i = 0; i < PORT_TRIES; i++)
        if (getentropy(&here.port, sizeof here.port) == 0 && ntohs(here.port) >= FIRST_PORT
            && bind(sock, &here.any, address_size(&here)) == 0)
            return true;
    return false;
}

static bool draw_id(struct fetch *fetch)
{
    return getentropy(fetch->query.id, sizeof fetch->query.id) == 0;
}

/* Opens a UDP socket, if the fetch has none. The socket is not connected, because it asks one
   upstream after another. With IP_RECVERR it still learns which upstream's port is closed. */
static bool open_socket(struct fetch *fetch)
{
    bool is_six = family == AF_INET6;
    if (fetch->way == BY_UDP && fetch->sock >= 0)
        return true;
    close_socket(fetch);
    fetch->asked = 0;
    fetch->sock = socket(family, SOCK_DGRAM | SOCK_NONBLOCK | SOCK_CLOEXEC, 0);
    return fetch->sock >= 0 && set_option(fetch->sock, IPPROTO_IP, IP_RECVERR, 1)
           && (!is_six || set_option(fetch->sock, IPPROTO_IPV6, IPV6_V6ONLY, 0))
           && (!is_six || set_option(fetch->sock, IPPROTO_IPV6, IPV6_RECVERR, 1))
           && bind_anywhere(fetch->sock) && draw_id(fetch);
}

/* Each upstream has a try, so that one that is alive is found behind any number of dead ones. */
static unsigned most_tries(void)
{
    return upstream_count > TRIES ? upstream_count : TRIES;
}

/* The time of so many tries, one after another, if there are four. */
static uint64_t time_of(uint64_t tries)
{
    return tries * TRY_MS + tries * (tries - 1) / 2 * LONGER_MS;
}

/* If there are more than four tries, they are shorter, and take no longer together: an answer that
   is late for its try still counts. Over TCP none would count. */
static void begin_try(struct fetch *fetch)
{
    uint64_t time = TRY_MS + (uint64_t)LONGER_MS * (fetch->tries - 1);
    if (fetch->way == BY_UDP)
        time = time * time_of(TRIES) / time_of(most_tries());
    fetch->try_ends = milliseconds() + time;
}

/* Whether a call failed because of this system, which may lack a buffer, or an address or a route
   while it is off the network. It may also forbid the call, by a firewall (EPERM) or by a route
   that is unreachable, prohibit or blackhole (EHOSTUNREACH, EACCES and EINVAL). */
static bool is_lack(void)
{
    return errno == EAGAIN || errno == EADDRNOTAVAIL || errno == ENOBUFS || errno == ENOMEM
           || errno == ENETUNREACH || errno == ENETDOWN || errno == EPERM || errno == EHOSTUNREACH
           || errno == EACCES || errno == EINVAL;
}

/* Sends the query. Over TCP the length precedes the query, and both fit into an empty buffer. A
   call may return an error of an older datagram. Then it is made again. */
static bool send_query(struct fetch *fetch)
{
    uint8_t octets[LENGTH + QUERY];
    const union address *to = fetch->way == BY_UDP ? &fetch->upstream->address : NULL;
    size_t skipped = fetch->way == BY_UDP ? LENGTH : 0;
    fetch->query.has_edns = milliseconds() >= fetch->upstream->plain_until
                            && (fetch->plain & fetch->upstream->bit) == 0;
    size_t size = write_query(&fetch->query, octets + LENGTH);
    write_word(octets, (unsigned)size);
    size += LENGTH - skipped;
    begin_try(fetch);
    count(SENT, 1);
    count(UPGRADED, fetch->way == BY_TCP);
    fetch->asked |= fetch->upstream->bit;
    ssize_t sent = -1;
    for (int i = 0; i < 2 && sent < 0; i++)
        sent = sendto(fetch->sock, octets + skipped, size, MSG_NOSIGNAL | MSG_DONTWAIT,
                      to == NULL ? NULL : &to->any, to == NULL ? 0 : address_size(to));
    if (sent < 0 && is_lack())
        fetch->lacking |= fetch->upstream->bit;
    else if (sent >= 0)
        fetch->reached |= fetch->upstream->bit;
    return sent == (ssize_t)size;
}

/* The next upstream in turn that has not refused, or NULL if all tries were made or all upstreams
   refused. */
static struct upstream *next_upstream(struct fetch *fetch)
{
    for (unsigned i = 0; i < upstream_count && fetch->tries < most_tries(); i++) {
        struct upstream *upstream = &upstreams[fetch->turn++ % upstream_count];
        if ((fetch->refused & upstream->bit) == 0) {
            fetch->tries++;
            return upstream;
        }
    }
    return NULL;
}

/* Has an upstream not be asked this question again. If it was asked last, its try ended early, and
   does not count: another upstream may need all tries. */
static void leave_out(struct fetch *fetch, const struct upstream *upstream)
{
    fetch->refused |= upstream->bit;
    fetch->tries -= upstream == fetch->upstream;
}

/* Whether this system is the cause if no upstream has answered: it could send no query, or it could
   send none to an upstream to which it had sent one before. What it lacks for one upstream all the
   time it may have for another: a host with IPv6 turned off still has an IPv4 address. Then the
   failure is that of the other upstreams. */
static bool is_cut_off(const struct fetch *fetch)
{
    bool has_lost = (fetch->lacking & fetch->reached) != 0;
    return has_lost || (fetch->lacking != 0 && fetch->reached == 0);
}

/* Asks the next upstream by UDP. If all tries failed, the failure is stored. It is not stored if
   this system had no socket, port, buffer or route, because that is not a failure of the servers of
   the name. */
static void ask_next(struct fetch *fetch)
{
    bool is_open = true;
    while (is_open && (fetch->upstream = next_upstream(fetch)) != NULL) {
        is_open = open_socket(fetch);
        if (is_open && send_query(fetch))
            return;
        leave_out(fetch, fetch->upstream);
    }
    if (is_open && !is_cut_off(fetch)) {
        count(FAILURES, 1);
        remember_failure(&fetch->query.question);
    }
    give_up(fetch);
}

/* Called if an upstream cannot answer: it is not asked this question again. If another upstream was
   asked since, that one may still answer. */
static void refused(struct fetch *fetch, const struct upstream *upstream)
{
    leave_out(fetch, upstream);
    if (upstream == fetch->upstream)
        ask_next(fetch);
}

/* Asks the upstream again, over TCP (RFC 7766 section 5). */
static void upgrade(struct fetch *fetch)
{
    const union address *address = &fetch->upstream->address;
    close_socket(fetch);
    fetch->way = CONNECTS;
    begin_try(fetch);
    fetch->sock = socket(family, SOCK_STREAM | SOCK_NONBLOCK | SOCK_CLOEXEC, 0);
    if (family == AF_INET6) /* as for UDP, regardless of the system's default (bindv6only) */
        set_option(fetch->sock, IPPROTO_IPV6, IPV6_V6ONLY, 0);
    if (fetch->sock >= 0
        && (connect(fetch->sock, &address->any, address_size(address)) == 0
            || errno == EINPROGRESS))
        return;
    if (fetch->sock < 0 || is_lack())
        fetch->lacking |= fetch->upstream->bit;
    refused(fetch, fetch->upstream);
}

/* Asks the upstream again on the same socket, without an OPT record (RFC 6891 section 6.2.2). */
static void ask_plainly(struct fetch *fetch)
{
    fetch->plain |= fetch->upstream->bit;
    if (!draw_id(fetch) || !send_query(fetch))
        refused(fetch, fetch->upstream);
}

/* ---- Responses. */

static void take_answer(struct fetch *fetch, const uint8_t *message, size_t size)
{
    struct reply replies[2];
    const struct reply *reply = keep(&fetch->query.question, message, size, replies);
    if (reply == NULL) {
        refused(fetch, fetch->upstream);
        return;
    }
    preferred = (unsigned)(fetch->upstream - upstreams);
    end_fetch(fetch, reply, FETCHED);
}

/* Takes a message from an upstream that was asked. Returns true if the message is a stray one, so
   that the answer may still come. */
static bool take_stray(struct fetch *fetch, struct upstream *upstream, const uint8_t *message,
                       size_t size)
{
    enum verdict verdict = judge(&fetch->query, message, size);
    count(STRAYS, verdict == STRAY);
    if (verdict == STRAY)
        return true;
    if (verdict == FAILURE || (verdict == TRUNCATED && fetch->way != BY_UDP)) {
        refused(fetch, upstream);
        return false;
    }
    fetch->upstream = upstream; /* its answer counts, even if another upstream was asked since */
    bool refused_opt = verdict != WANTS_PLAIN && (fetch->plain & upstream->bit) != 0;
    if (refused_opt) /* and not the question, because the upstream answers it without an OPT
                        record */
        upstream->plain_until = milliseconds() + PLAIN_MS;
    if (verdict == ANSWER)
        take_answer(fetch, message, size);
    else if (verdict == WANTS_PLAIN)
        ask_plainly(fetch);
    else
        upgrade(fetch);
    return false;
}

/* The upstream at an address, if this socket asked it, or NULL. */
static struct upstream *asked_at(const struct fetch *fetch, const union address *address)
{
    for (struct upstream *it = upstreams; it < upstreams + upstream_count; it++)
        if ((fetch->asked & it->bit) != 0 && is_same_address(&it->address, address))
            return it;
    return NULL;
}

static void read_datagrams(struct fetch *fetch)
{
    uint8_t message[MESSAGE];
    for (int i = 0; i < BURST; i++) {
        union address from = {0};
        socklen_t from_size = sizeof from;
        ssize_t got = recvfrom(fetch->sock, message, sizeof message, 0, &from.any, &from_size);
        struct upstream *upstream = got < 0 ? NULL : asked_at(fetch, &from);
        if (got < 0 || (upstream != NULL && !take_stray(fetch, upstream, message, (size_t)got)))
            return;
    }
}

/* The error that a socket has, or 0. */
static int error_of(int sock)
{
    int error = 0;
    socklen_t size = sizeof error;
    return getsockopt(sock, SOL_SOCKET, SO_ERROR, &error, &size) != 0 ? errno : error;
}

/* Reads which upstream's query was returned by ICMP. If the port of this upstream is closed, it has
   refused. Any other error may be over soon. Anyone may send such a message, from any address. So
   the message has to quote the identifier of the query too, as all systems do that quote more than
   they must (RFC 1812 section 4.3.2.3). */
static void read_error(struct fetch *fetch)
{
    uint8_t query[QUERY];
    union address to = {0};
    socklen_t to_size = sizeof to;
    int error = error_of(fetch->sock);
    ssize_t got = recvfrom(fetch->sock, query, sizeof query, MSG_ERRQUEUE, &to.any, &to_size);
    struct upstream *upstream = got < 0 ? NULL : asked_at(fetch, &to);
    bool is_own = got >= 2 && memcmp(query, fetch->query.id, 2) == 0;
    if (upstream != NULL && is_own && error == ECONNREFUSED)
        refused(fetch, upstream);
}

/* Continues after a connection to the upstream was made, or failed. */
static void begin_stream(struct fetch *fetch)
{
    fetch->way = BY_TCP;
    if (error_of(fetch->sock) != 0 || !draw_id(fetch) || !send_query(fetch))
        refused(fetch, fetch->upstream);
}

/* Allocates memory for the message from the share of the client that asked first, or otherwise from
   the share of another client that waits. So the others can get the answer even if the first client
   has spent its share. */
static uint8_t *take_room(struct fetch *fetch, size_t size)
{
    struct bucket *bucket = bucket_of(&fetch->query.question);
    fetch->payer = fetch->client;
    uint8_t *room = take_share(fetch->payer, size);
    pthread_mutex_lock(&bucket->lock);
    for (struct asker *it = fetch->askers; it != NULL && room == NULL; it = it->next) {
        fetch->payer = it->client;
        room = take_share(fetch->payer, size);
    }
    pthread_mutex_unlock(&bucket->lock);
    return room;
}

/* Reads as much of the message as has arrived over TCP, first its length. Returns true if the
   message is complete. If it can never be complete, the fetch continues without it. If there is no
   memory for the message, that is not a failure of the name's servers either. */
static bool read_message(struct fetch *fetch)
{
    for (;;) {
        bool is_length = fetch->got < LENGTH;
        size_t whole = LENGTH + (is_length ? 0u : word_at(fetch->length));
        uint8_t *to = is_length ? fetch->length + fetch->got : fetch->message + fetch->got - LENGTH;
        if (!is_length && fetch->got == whole)
            return true;
        ssize_t got = recv(fetch->sock, to, whole - fetch->got, 0);
        if (got == 0 || (got < 0 && !would_block()))
            refused(fetch, fetch->upstream);
        if (got <= 0)
            return false;
        fetch->got += (size_t)got;
        if (!is_length || fetch->got < LENGTH)
            continue;
        fetch->message = take_room(fetch, word_at(fetch->length) + 1u);
        if (fetch->message == NULL) {
            give_up(fetch);
            return false;
        }
    }
}

static void read_stream(struct fetch *fetch)
{
    if (!read_message(fetch))
        return;
    uint8_t *message = fetch->message; /* has to be kept while it is judged */
    fetch->message = NULL;
    fetch->got = 0;
    if (take_stray(fetch, fetch->upstream, message, word_at(fetch->length)))
        refused(fetch, fetch->upstream);
    give_back(fetch->payer, message, word_at(fetch->length) + 1u);
}

void poll_fetches(const struct fetcher *fetcher, struct pollfd *polled)
{
    for (size_t i = 0; i < fetcher->places; i++) {
        const struct fetch *fetch = &fetcher->fetches[i];
        polled[i] = (struct pollfd){.fd = fetch->is_live ? fetch->sock : -1,
                                    .events = fetch->way == CONNECTS ? POLLOUT : POLLIN};
    }
}

static void tend(struct fetch *fetch, short revents, uint64_t now)
{
    if (revents & POLLERR && fetch->way == BY_UDP)
        read_error(fetch);
    else if (revents != 0 && fetch->way == BY_UDP)
        read_datagrams(fetch);
    else if (revents != 0 && fetch->way == CONNECTS)
        begin_stream(fetch);
    else if (revents != 0)
        read_stream(fetch);
    if (fetch->is_live && now >= fetch->late_at)
        turn_late(fetch, now);
    if (fetch->is_live && now >= fetch->try_ends)
        ask_next(fetch);
}

void tend_fetches(struct fetcher *fetcher, const struct pollfd *polled, uint64_t now)
{
    for (size_t i = 0; i < fetcher->places; i++)
        if (fetcher->fetches[i].is_live)
            tend(&fetcher->fetches[i], polled[i].revents, now);
}

/* ---- Places. If no place is free, a fetch gives way to a new fetch according to its weight: the
   number of places of its client, plus the number of places of its domain. So a client that asks
   for names that nobody answers does not keep others from getting a place, and neither does a
   domain whose servers are dead. */

static unsigned weight_of(const struct fetcher *fetcher, const struct fetch *fetch)
{
    return 0u + fetcher->by_client[fetch->client] + fetcher->by_domain[fetch->domain];
}

/* Returns the place for a new fetch. This is a free place if there is one. Otherwise, if the
   heaviest fetch weighs more than the new fetch would, it is the place of the heaviest fetch, or of
   the first of these. Otherwise it is the place of the first fetch that weighs as much, if this
   fetch has had its time. The fetch in that place ends. Returns NULL if no fetch gives way. */
static struct fetch *place_for(struct fetcher *fetcher, const struct fetch *new)
{
    struct fetch *heaviest = fetcher->fetches, *first = NULL;
    unsigned weight = weight_of(fetcher, new), most = 0;
    for (struct fetch *it = fetcher->fetches; it < fetcher->fetches + fetcher->places; it++) {
        unsigned its = weight_of(fetcher, it);
        if (!it->is_live)
            return it;
        if (its > most || (its == most && it->began < heaviest->began)) {
            heaviest = it;
            most = its;
        }
        if (its >= weight && (first == NULL || it->began < first->began))
            first = it;
    }
    if (most > weight + 2) /* the new fetch would count itself in both numbers */
        first = heaviest;
    else if (first == NULL || new->began < first->began + GRACE_MS)
        return NULL;
    count(DISPLACED, 1);
    give_up(first);
    return first;
}

static struct fetch new_fetch(struct fetcher *fetcher, const struct asker *asker)
{
    const struct question *question = &asker->query.question;
    size_t skipped = domain_of(question->name, question->size);
    uint64_t domain = hash_of(question->name + skipped, question->size - skipped);
    return (struct fetch){.fetcher = fetcher,
                          .is_live = true,
                          .query = {.question = *question},
                          .client = asker->client,
                          .domain = (unsigned)(domain % DOMAINS),
                          .turn = preferred,
                          .began = milliseconds(),
                          .late_at = milliseconds() + LATE_MS,
                          .sock = -1};
}

/* Returns the waiting query that a query over UDP replaces: the same query, if it was sent again;
   or the query in the slot that its client got first, if the client already has its share of the
   waiting queries. */
static struct asker *older_of(const struct fetch *fetch, const struct asker *asker)
{
    struct asker *first = NULL;
    unsigned own = 0;
    for (struct asker *it = fetch->askers; it != NULL && asker->clients == NULL; it = it->next) {
        if (it->clients != NULL || it->client != asker->client)
            continue;
        if (is_same_address(&it->from, &asker->from)
            && memcmp(it->query.id, asker->query.id, sizeof it->query.id) == 0)
            return it;
        first = it;
        own++;
    }
    return own < MOST_ASKERS / ASKER_SHARE ? NULL : first;
}

/* Lets a query wait for a fetch. Returns false if too many wait. The lock of its bucket is held. */
static bool add_asker(struct fetch *fetch, struct asker *added)
{
    struct asker *older = older_of(fetch, added);
    if (older != NULL) {
        added->next = older->next;
        *older = *added;
        give_back(added->client, added, sizeof *added);
        return true;
    }
    if (fetch->count == MOST_ASKERS)
        return false;
    added->next = fetch->askers;
    fetch->askers = added;
    fetch->count++;
    return true;
}

bool await_fetch(struct fetcher *fetcher, const struct asker *asker)
{
    struct bucket *bucket = bucket_of(&asker->query.question);
    struct asker *added = take_share(asker->client, sizeof *added);
    if (added == NULL)
        return false;
    *added = *asker;
    const struct fetch new = new_fetch(fetcher, asker);
    pthread_mutex_lock(&bucket->lock);
    struct fetch *fetch = find(bucket, &asker->query.question), *place = NULL;
    if (fetch == NULL) {
        pthread_mutex_unlock(&bucket->lock); /* the fetch in the place may be in any bucket */
        place = place_for(fetcher, &new);
        pthread_mutex_lock(&bucket->lock);
        fetch = find(bucket, &asker->query.question);
    }
    bool is_new = fetch == NULL && place != NULL;
    if (is_new) {
        fetch = place;
        *fetch = new;
        fetcher->by_client[new.client]++;
        fetcher->by_domain[new.domain]++;
        LIST_INSERT_HEAD(&bucket->fetches, fetch, others);
    }
    bool waits = fetch != NULL && add_asker(fetch, added);
    pthread_mutex_unlock(&bucket->lock);
    count(JOINED, waits && !is_new);
    if (!waits)
        give_back(added->client, added, sizeof *added);
    if (is_new)
        ask_next(fetch);
    return waits;
}

void free_fetcher(struct fetcher *fetcher)
{
    for (size_t i = 0; i < fetcher->places; i++)
        if (fetcher->fetches[i].is_live)
            give_up(&fetcher->fetches[i]);
    free(fetcher->fetches);
}
