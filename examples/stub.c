/* SPDX-License-Identifier: MIT */
/* stub PORT UPSTREAM UPSTREAM-PORT: a caching stub resolver on 127.0.0.1, over UDP without EDNS. */
#include <arpa/inet.h>
#include <poll.h>
#include <rrcache.h>
#include <stdlib.h>
#include <string.h>
#include <unistd.h>

enum { SERVFAIL = 2, NXDOMAIN = 3, OCTETS = 512, RRSETS = 64 };
static struct sockaddr_in here = {.sin_family = AF_INET}, upstream = {.sin_family = AF_INET};
static struct rrcache *cache;

/* Sends a query upstream, and stores the response. Returns the size of the response, or 0 if there
   is no response that can be read. But a truncated response may end inside a record, and is no
   failure: its header and question are returned. Gives up after eight packets that answer other
   queries, which are an attack. `is_sent` becomes false if this host cannot send the query. */
static size_t ask(struct rrcache_query query, uint8_t *it, struct rrcache_answer *answer,
                  bool *is_sent)
{
    static const uint8_t root[1]; /* the zone: upstream answers for all names */
    struct pollfd peer = {.fd = socket(AF_INET, SOCK_DGRAM, 0), .events = POLLIN};
    struct rrcache_response response = {.octets = it, .zone = root, .zone_size = 1};
    struct rrcache_report report;
    enum rrcache_status status = RRCACHE_OTHER_QUERY;
    memcpy(it + 2, "\1\0\0\1\0\0\0\0\0", 10);         /* RD set, and one question */
    memcpy(it + 12, query.name, query.name_size + 4); /* with its type and class */
    *is_sent = getentropy(it, 2) == 0 && connect(peer.fd, (void *)&upstream, sizeof upstream) == 0
               && send(peer.fd, it, 12 + query.name_size + 4, 0) >= 0;
    query.id = it[0] << 8 | it[1];
    response.lowest_ttl = true;
    int left = *is_sent ? 8 : 0;
    while (left-- > 0 && status == RRCACHE_OTHER_QUERY && poll(&peer, 1, 1800) == 1) {
        ssize_t size = recv(peer.fd, it, OCTETS, 0);
        response.size = size > 0 ? size : 0;
        status = rrcache_store(cache, &query, &response, &report, answer);
    }
    close(peer.fd);
    bool is_cut = status == RRCACHE_BAD_MESSAGE && (it[2] & 2) != 0; /* TC is set */
    if (is_cut) {
        memset(it + 6, 0, 6); /* no records */
        response.size = 12 + query.name_size + 4;
    }
    return status == RRCACHE_DONE || is_cut ? response.size : 0;
}

/* Writes an answer as a response, and returns its size. If the answer does not fit, TC is set. */
static size_t compose(const struct rrcache_query *query, const struct rrcache_answer *answer,
                      uint8_t *reply)
{
    struct rrcache_parsed_set sets[RRSETS];
    struct rrcache_parsed_response response = {.ra = true, .sets = sets};
    struct rrcache_rrset rrset = {0};
    size_t size = 0;
    if (answer->kind == RRCACHE_MISS || answer->kind == RRCACHE_FAILED)
        response.rcode = SERVFAIL;
    else if (answer->kind == RRCACHE_NXDOMAIN)
        response.rcode = NXDOMAIN;
    while (response.rcode != SERVFAIL && response.count < RRSETS && rrcache_next(answer, &rrset))
        sets[response.count++] = rrset.set;
    while (rrcache_compose_response(query, &response, reply, OCTETS, &size) == RRCACHE_SMALL) {
        response.count = 0;
        response.tc = true;
    }
    return size;
}

/* Answers a query from the cache, from upstream, or with stale data (RFC 8767). Returns the size of
   the response, or 0 if there is none. */
static size_t respond(const struct rrcache_query *query, uint8_t *reply)
{
    static uint8_t buffer[RRCACHE_ANSWER_OCTETS];
    struct rrcache_answer answer = {.buffer = buffer, .room = sizeof buffer};
    struct rrcache_request request = {.name = query->name, .name_size = query->name_size};
    struct rrcache_failure failure = {.name = query->name, .name_size = query->name_size};
    size_t came = 0;
    uint32_t outcome;
    bool is_sent = true;
    request.rtype = failure.rtype = query->rtype;
    request.rclass = failure.rclass = query->rclass;
    request.mode = RRCACHE_STALE_IF_FAILED;
    failure.ttl = 30;
    if (rrcache_lookup(cache, &request, &answer) != RRCACHE_DONE)
        return 0;
    if (answer.kind == RRCACHE_MISS && !answer.is_endless)
        came = ask(*query, reply, &answer, &is_sent);
    if (answer.kind == RRCACHE_MISS && came != 0)
        return came; /* nothing was stored, as with TC set: pass the response on */
    if (!is_sent)
        request.mode = RRCACHE_STALE_NOW; /* no server has failed, so no failure is stored */
    else if (answer.kind == RRCACHE_MISS)
        rrcache_store_failure(cache, &failure, &outcome);
    if (answer.kind == RRCACHE_MISS || answer.kind == RRCACHE_FAILED)
        rrcache_lookup(cache, &request, &answer); /* stale data are acceptable now */
    return compose(query, &answer, reply);
}

/* Receives a packet from a client, and answers it if it is a query with one question. */
static void serve(int clients)
{
    struct sockaddr_in client;
    socklen_t client_size = sizeof client;
    uint8_t it[OCTETS] = {0}, reply[OCTETS];
    ssize_t got = recvfrom(clients, it, sizeof it, 0, (void *)&client, &client_size);
    ssize_t end = 12; /* the end of the name, which follows the header */
    while (end < got && it[end] != 0 && it[end] < 64)
        end += it[end] + 1;
    if (end + 5 > got || it[end] != 0 || (it[2] & 0xf8) != 0 || it[4] != 0 || it[5] != 1)
        return;
    struct rrcache_query query = {.name = it + 12, .name_size = end - 11};
    query.rtype = it[end + 1] << 8 | it[end + 2];
    query.rclass = it[end + 3] << 8 | it[end + 4];
    size_t size = respond(&query, reply);
    if (size == 0)
        return;
    memcpy(reply, it, 2); /* the client's identifier, and RD */
    reply[2] = (reply[2] & 0xfe) | (it[2] & 1);
    sendto(clients, reply, size, 0, (void *)&client, client_size);
}

int main(int count, char **words)
{
    const struct rrcache_config config = {.max_stale = 86400};
    int clients = socket(AF_INET, SOCK_DGRAM, 0);
    if (count != 4 || inet_pton(AF_INET, words[2], &upstream.sin_addr) != 1)
        return 2;
    here.sin_addr.s_addr = htonl(INADDR_LOOPBACK);
    here.sin_port = htons(atoi(words[1]));
    upstream.sin_port = htons(atoi(words[3]));
    if (rrcache_open(&cache, &config) != RRCACHE_DONE
        || bind(clients, (void *)&here, sizeof here) != 0)
        return 1;
    for (;;)
        serve(clients);
}
