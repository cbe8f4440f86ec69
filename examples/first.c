/* SPDX-License-Identifier: MIT */
#include <rrcache_shelf.h>
#include <stdio.h>
#include <string.h>

int main(void)
{
    static const uint8_t octets[] = "\3www\7example", address[] = {0, 4, 192, 0, 2, 1};
    struct rrcache_rules rules = {0};
    struct rrcache_parts parts = {0};
    struct rrcache_shelf shelf = {0};
    struct rrcache_name name = {0};
    struct rrcache_set set = {0};
    struct rrcache_question question = {0};
    struct rrcache_told told;
    uint8_t buffer[512];
    uint32_t outcome;
    rules.capacity = rules.chapter = 4096;
    rules.max_stale = 86400;
    rules.seed[0] = 1; /* a resolver uses 16 random octets */
    parts.count = 1;
    memcpy(parts.seed, rules.seed, sizeof parts.seed);
    if (rrcache_make(&shelf, &rules) != RRCACHE_DONE)
        return 1;
    set.owner = octets;
    set.owner_size = sizeof octets;
    set.rtype = question.rtype = 1; /* A */
    set.rclass = question.rclass = RRCACHE_IN;
    set.trust = RRCACHE_AUTHORITATIVE_ANSWER;
    set.ttl = 60;
    set.data = address;
    set.data_size = sizeof address;
    set.moment = 1000;
    rrcache_offer_set(&shelf, &set, &outcome);
    question.moment = 1010;
    question.purpose = RRCACHE_QUESTION;
    question.mode = RRCACHE_NO_STALE;
    rrcache_make_name(&name, octets, sizeof octets, &parts);
    if (rrcache_ask(&shelf, &name, &question, &told, buffer, sizeof buffer) == RRCACHE_DONE
        && told.kind == RRCACHE_FRESH)
        printf("TTL %u\n", (unsigned)told.left);
    rrcache_free(&shelf);
    return 0;
}
