/* SPDX-License-Identifier: MIT */
/* lookup SERVER PORT NAME ..: prints IPv4 addresses of names. It asks the server, a resolver, only
   for what the cache does not hold. */
#include <arpa/inet.h>
#include <resolv.h>
#include <rrcache.h>
#include <stdio.h>
#include <stdlib.h>

static uint8_t received[65536], buffer[RRCACHE_ANSWER_OCTETS];

/* Prints the addresses of an answer. What a server sends as an address may have any size. */
static void print(const struct rrcache_answer *answer)
{
    struct rrcache_rrset rrset = {0};
    char text[INET_ADDRSTRLEN];
    while (rrcache_next(answer, &rrset)) { /* CNAME records first, and then the addresses */
        const uint8_t *data = rrset.set.data, *end = data + rrset.set.data_size;
        for (size_t size; rrset.set.rtype == 1 && data < end; data += 2 + size) {
            size = (size_t)data[0] << 8 | data[1];
            if (size == 4)
                printf("%s TTL %u\n", inet_ntop(AF_INET, data + 2, text, sizeof text),
                       rrset.set.ttl);
        }
    }
}

/* Looks up the name of a query of `size` octets, and returns whether there is an answer. */
static bool look_up(struct rrcache *cache, const uint8_t *sent, int size)
{
    struct rrcache_query query = {.name = sent + 12, .rtype = 1, .rclass = 1};
    struct rrcache_request request = {.name = sent + 12, .rtype = 1, .rclass = 1};
    struct rrcache_response response = {.octets = received, .zone = (const uint8_t *)""};
    struct rrcache_answer answer = {.buffer = buffer, .room = sizeof buffer};
    struct rrcache_report report;
    query.id = sent[0] << 8 | sent[1];
    query.name_size = request.name_size = size - 16;
    request.mode = RRCACHE_NO_STALE;
    response.zone_size = 1;     /* the root: a resolver answers for all names */
    response.lowest_ttl = true; /* a resolver clears AA */
    if (rrcache_lookup(cache, &request, &answer) == RRCACHE_DONE && answer.kind == RRCACHE_MISS) {
        int came = res_send(sent, size, received, sizeof received);
        response.size = came > 0 ? came : 0;
        rrcache_store(cache, &query, &response, &report, &answer); /* also of TTL 0 */
    }
    print(&answer);
    return answer.kind != RRCACHE_MISS && answer.kind != RRCACHE_FAILED;
}

int main(int count, char **words)
{
    struct rrcache *cache;
    uint8_t sent[512];
    int at = 3, size = 0;
    if (count < 4 || res_init() != 0 || rrcache_open(&cache, NULL) != RRCACHE_DONE)
        return 2;
    _res.nscount = inet_pton(AF_INET, words[1], &_res.nsaddr_list[0].sin_addr);
    _res.nsaddr_list[0].sin_port = htons(atoi(words[2]));
    _res.nsaddr_list[0].sin_family = AF_INET; /* otherwise an IPv6 server that resolv.conf names
                                                 first would be asked */
    for (bool is_found = true; is_found && at < count; at += is_found) {
        size = res_mkquery(0, words[at], 1, 1, NULL, 0, NULL, sent, sizeof sent);
        is_found = size >= 17 && look_up(cache, sent, size);
    }
    rrcache_close(cache);
    return at < count;
}
