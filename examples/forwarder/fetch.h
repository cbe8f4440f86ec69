/* SPDX-License-Identifier: MIT */
/* fetch.h: queries to upstreams. There is one fetch of a question at a time. All clients that ask
   the same question in the meantime, on any thread, wait for this fetch. */
#pragma once

#include "clients.h"

enum { MOST_UPSTREAMS = 8, DOMAINS = 1 << 16 };

/* The fetches that a thread began, at most 255, and how many of them each client and each domain
   has. A hash gives the number of a domain. */
struct fetcher {
    struct fetch *fetches;
    size_t places;
    uint8_t by_client[CLIENTS], by_domain[DOMAINS];
};

/* Sets the upstreams of all threads, before the first thread begins. */
void set_upstreams(const union address *addresses, size_t count);

bool make_fetcher(struct fetcher *fetcher, size_t places);

/* Writes to `polled` what to poll for in each place. */
void poll_fetches(const struct fetcher *fetcher, struct pollfd *polled);

/* Reads what has arrived, and asks again if nothing has. */
void tend_fetches(struct fetcher *fetcher, const struct pollfd *polled, uint64_t now);

/* Lets a query wait for the fetch of its question. If no such fetch is under way, it begins.
   Returns false if the query may not wait: there is no place, the share of its client is spent, or
   too many queries wait. */
bool await_fetch(struct fetcher *fetcher, const struct asker *asker);

/* Ends all fetches. The waiting clients get stale data or SERVFAIL. The thread that began the
   fetches makes this call, and its stack needs room for a reply. */
void free_fetcher(struct fetcher *fetcher);
