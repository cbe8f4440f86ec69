/* SPDX-License-Identifier: MIT */
/* iterate PORT ROOT-SERVER .. NAME ..: prints IPv4 addresses of names. It follows delegations from
   the root servers, as a recursive resolver does (RFC 1034 section 5.3.3). It asks all servers at
   PORT, over UDP without EDNS. If a response is truncated, it asks the same server over TCP. */
#include <arpa/inet.h>
#include <errno.h>
#include <poll.h>
#include <resolv.h>
#include <rrcache.h>
#include <stdio.h>
#include <stdlib.h>
#include <string.h>
#include <time.h>
#include <unistd.h>

/* A question takes at most STEPS steps, each of which asks a server or gives up a name. So loops of
   referrals end, and a referral to many servers without addresses causes few queries (NXNSAttack).
   DEPTH limits how many names of servers wait for each other's addresses. A message has at most
   PLAIN octets over UDP, and LENGTH octets before it over TCP. */
enum { STEPS = 32, DEPTH = 4, ROOM = RRCACHE_ANSWER_OCTETS, TRY_MS = 800, PLAIN = 512, LENGTH = 2 };
static struct step {
    struct rrcache_name name; /* the name whose addresses are asked for */
    size_t zone_size;         /* the zone of the server is so many octets at the end of the name */
    uint8_t server[4];
} steps[STEPS + 1]; /* the steps of one question */
static uint8_t rooms[3][ROOM], roots[13 * 6];
static uint8_t framed[LENGTH + RRCACHE_MESSAGE_OCTETS], *const packet = framed + LENGTH;
static struct rrcache_answer answer = {.buffer = rooms[0], .room = ROOM};
static struct rrcache_answer zone = {.buffer = rooms[1], .room = ROOM};
static struct rrcache_answer host = {.buffer = rooms[2], .room = ROOM};
static struct rrcache_query query = {.rtype = 1, .rclass = 1};
static struct rrcache_response response = {.octets = framed + LENGTH, .limits = RRCACHE_LIMITS};
static struct sockaddr_in server = {.sin_family = AF_INET};
static struct timespec began; /* when the server was asked */
static struct rrcache *cache;
static size_t roots_size;

/* Prints the addresses of the answer. What a server sends as an address may have any size. */
static void print(void)
{
    struct rrcache_rrset it = {0};
    char text[INET_ADDRSTRLEN];
    while (rrcache_next(&answer, &it)) {
        const uint8_t *data = it.set.data, *end = data + it.set.data_size;
        for (; it.set.rtype == 1 && data < end; data += 2 + (data[0] << 8 | data[1]))
            if (data[0] == 0 && data[1] == 4)
                printf("%s TTL %u\n", inet_ntop(AF_INET, data + 2, text, sizeof text), it.set.ttl);
    }
}

/* Looks up the `answer` for a client, the addresses of a `host`, for which glue will do, or the
   delegation of the deepest `zone` that has a name. Returns RRCACHE_MISS if a query may help. */
static uint32_t look_up(const uint8_t *name, size_t size, struct rrcache_answer *it)
{
    struct rrcache_request request = {.name = name, .name_size = size, .takes_glue = it == &host};
    request.rtype = request.rclass = 1;
    request.mode = RRCACHE_NO_STALE;
    enum rrcache_status status = it == &zone ? rrcache_lookup_delegation(cache, &request, it)
                                             : rrcache_lookup(cache, &request, it);
    return status == RRCACHE_DONE && !it->is_endless ? it->kind : RRCACHE_FAILED;
}

/* Chooses the first of some addresses, each with a length of 4 before it, that no earlier step
   asked for the same name: a server is not asked again if it failed, or if its referral led
   nowhere. */
static bool choose(struct step *step, const uint8_t *data, size_t size)
{
    const struct step *it = NULL;
    for (; it != step && size != 0; data += 6, size -= 6) {
        memcpy(step->server, data + 2, 4);
        it = steps; /* and at the latest, the step itself is found */
        while (it->name.hash != step->name.hash || memcmp(it->server, step->server, 4) != 0)
            it++;
    }
    return it == step;
}

/* Chooses a server of the zone. `unknown` gets the name of the first without a cached address. */
static bool choose_host(struct step *step, struct rrcache_name *unknown)
{
    struct rrcache_rrset hosts = {0};
    bool is_chosen = !rrcache_next(&zone, &hosts);
    const uint8_t *name = hosts.set.data, *end = name + hosts.set.data_size;
    for (; !is_chosen && name < end; name += 2 + (name[0] << 8 | name[1])) {
        struct rrcache_rrset it = {0};
        uint32_t kind = look_up(name + 2, name[0] << 8 | name[1], &host);
        if (kind == RRCACHE_MISS && unknown->size == 0)
            *unknown = host.end;
        if (rrcache_next(&host, &it) && it.set.rtype == 1) /* a server's name is no alias */
            is_chosen = choose(step, it.set.data, it.set.data_size);
    }
    return is_chosen;
}

/* Finds a server to ask for the name of a step. If no server of the zone is left, the name becomes
   that of a server which has to be resolved first, or the servers of the zone above are tried. */
static bool find(struct step *step)
{
    size_t size = step->name.size, depth = 0;
    while (look_up(step->name.octets + step->name.size - size, size, &zone) == RRCACHE_FRESH) {
        struct rrcache_name unknown = {0};
        step->zone_size = zone.end.size;
        if (choose_host(step, &unknown))
            return true;
        size = zone.end.size - 1 - zone.end.octets[0]; /* of the root: 0, which is no name */
        if (unknown.size != 0 && depth++ < DEPTH) {
            step->name = unknown;
            size = unknown.size;
        }
    }
    step->zone_size = 1; /* the root */
    return choose(step, roots, roots_size);
}

/* Reads the packet, and stores its data. Returns its kind, or 0 if it does not answer the query. If
   the server has failed, nothing is stored: it would be a failure of the name, and other servers
   may be left. Nothing is stored from a lame server either, which neither is authoritative nor
   refers to a zone below. If the name of a zone was denied before the zone was delegated, the
   denial hides the delegation, and has to be forgotten. */
static uint32_t take_packet(void)
{
    const struct rrcache_parts parts = {.count = 1, .seed = {1}};
    struct rrcache_report report = {.summary.kind = RRCACHE_RESPONSE_FAILURE};
    struct rrcache_offers offers = {0};
    uint64_t concerned;
    enum rrcache_status status =
        rrcache_read_response(&offers, &response, &query, &parts, &concerned);
    rrcache_tell_response(&offers, &report.name, &report.summary);
    rrcache_free_offers(&offers);
    uint32_t kind = status == RRCACHE_OTHER_QUERY ? 0 : report.summary.kind;
    bool is_lame = !report.summary.aa && kind != RRCACHE_RESPONSE_REFERRAL;
    if (kind != 0 && is_lame)
        return RRCACHE_RESPONSE_FAILURE;
    if (kind != 0 && kind != RRCACHE_RESPONSE_FAILURE)
        rrcache_store(cache, &query, &response, &report, &answer);
    if (kind == RRCACHE_RESPONSE_REFERRAL
        && (look_up(query.name, query.name_size, &zone) != RRCACHE_FRESH
            || zone.end.size <= response.zone_size)) {
        struct rrcache_request denied = {.name = report.name.octets, .rtype = 2, .rclass = 1};
        denied.name_size = report.name.size;
        rrcache_forget(cache, &denied);
        rrcache_store(cache, &query, &response, &report, &answer);
    }
    return kind;
}

/* Waits until a socket can be read or written. Returns false if TRY_MS milliseconds have passed
   since the server was asked: a server that sends an octet now and then gets no more time. */
static bool wait_for(struct pollfd *peer, short events)
{
    struct timespec now;
    clock_gettime(CLOCK_BOOTTIME, &now);
    int64_t passed = (now.tv_sec - began.tv_sec) * 1000 + (now.tv_nsec - began.tv_nsec) / 1000000;
    peer->events = events;
    return passed < TRY_MS && poll(peer, 1, (int)(TRY_MS - passed)) == 1;
}

/* Receives a message over TCP. Its length precedes it, and all may arrive in pieces of any size.
   Returns the size of the message, or 0 if it does not arrive in time or the server closes. */
static ssize_t receive(struct pollfd *peer)
{
    ssize_t got = 0, whole = LENGTH;
    while (got < whole && wait_for(peer, POLLIN)) {
        ssize_t more = recv(peer->fd, framed + got, whole - got, 0);
        if (more <= 0)
            return 0;
        got += more;
        if (got == LENGTH)
            whole += framed[0] << 8 | framed[1];
    }
    return got == whole ? whole - LENGTH : 0;
}

/* Sends the query of a step over UDP or TCP, and receives the response. Returns its kind, or 0 if
   there is none. Gives up after eight messages that answer other queries. */
static uint32_t ask(const struct step *step, bool is_tcp)
{
    const struct rrcache_parsed_response none = {0};
    int type = is_tcp ? SOCK_STREAM : SOCK_DGRAM;
    struct pollfd peer = {.fd = socket(AF_INET, type | SOCK_NONBLOCK, 0)};
    size_t skipped = is_tcp ? 0 : LENGTH;
    uint32_t kind = 0;
    query.name = step->name.octets;
    query.name_size = step->name.size;
    response.zone = query.name + query.name_size - step->zone_size;
    response.zone_size = step->zone_size;
    response.lowest_ttl = true; /* AA is clear in referrals */
    memcpy(&server.sin_addr, step->server, 4);
    clock_gettime(CLOCK_BOOTTIME, &began);
    if (getentropy(&query.id, sizeof query.id) == 0
        && (connect(peer.fd, (void *)&server, sizeof server) == 0 || errno == EINPROGRESS)
        && rrcache_compose_response(&query, &none, packet, PLAIN, &response.size) == 0
        && wait_for(&peer, POLLOUT)) {
        packet[2] = 0; /* QR is clear, so this is the query. RD is clear too */
        framed[0] = response.size >> 8;
        framed[1] = response.size & 255;
        send(peer.fd, framed + skipped, LENGTH - skipped + response.size, MSG_NOSIGNAL);
    }
    for (int i = 0; i < 8 && kind == 0 && wait_for(&peer, POLLIN); i++) {
        ssize_t size = is_tcp ? receive(&peer) : recv(peer.fd, packet, PLAIN, 0);
        response.size = size > 0 ? size : 0;
        kind = take_packet();
    }
    close(peer.fd);
    return kind;
}

/* Resolves a name, and prints its addresses. Returns whether there is an answer. Each step begins
   with the question, since the cache has what the earlier steps found. If a response has TC set,
   it may lack records, so the calls store nothing from it. If it ends inside a record, they return
   RRCACHE_BAD_MESSAGE, but the server has not failed. In both cases, the same server is asked over
   TCP, and only that response counts (RFC 2181 section 9, RFC 7766 section 5). */
static bool resolve(struct rrcache_name name)
{
    for (int i = 0; i <= STEPS && look_up(name.octets, name.size, &answer) == RRCACHE_MISS; i++) {
        struct step *step = &steps[i];
        step->name = name = answer.end;
        bool is_asked = i < STEPS && find(step);
        uint32_t kind = is_asked ? ask(step, false) : 0;
        if (kind != 0 && (packet[2] & 2) != 0) /* TC is set */
            kind = ask(step, true);
        bool is_own = step->name.hash == name.hash; /* and not the name of a server */
        struct rrcache_failure failure = {.name = step->name.octets, .rtype = 1, .rclass = 1};
        uint32_t outcome;
        failure.name_size = step->name.size;
        failure.ttl = 30;
        if (!is_asked) /* RFC 9520 */
            rrcache_store_failure(cache, &failure, &outcome);
        else if (is_own && kind == RRCACHE_RESPONSE_ALIAS)
            name = answer.end; /* the CNAME record may have TTL 0, and is not in the cache then */
        else if (is_own && kind != 0 && kind < RRCACHE_RESPONSE_REFERRAL)
            break; /* likewise, the answer may only be in the response */
    }
    print();
    return answer.kind != RRCACHE_MISS && answer.kind != RRCACHE_FAILED;
}

int main(int count, char **words)
{
    struct rrcache_name name = {0};
    int at = 2, status = 0;
    for (; at < count && roots_size < sizeof roots
           && inet_pton(AF_INET, words[at], roots + roots_size + 2) == 1;
         at++)
        roots_size += 6;
    if (at == 2 || at == count || rrcache_open(&cache, NULL) != RRCACHE_DONE)
        return 2;
    server.sin_port = htons(atoi(words[1]));
    for (; status == 0 && at < count; at++) {
        bool is_name = ns_name_pton(words[at], name.octets, sizeof name.octets) >= 0;
        name.size = dn_skipname(name.octets, name.octets + sizeof name.octets);
        status = !is_name ? 2 : !resolve(name);
    }
    rrcache_close(cache);
    return status;
}
