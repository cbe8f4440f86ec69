/* SPDX-License-Identifier: MIT */
/* clients.h: the sockets of clients. All threads take queries from the sockets for UDP. Each thread
   has its own connections (RFC 7766). Any thread may send any reply. */
#pragma once

#include <poll.h>
#include <pthread.h>

#include "counters.h"
#include "dns.h"
#include "shares.h"

enum { MOST_LISTENERS = 8 };
enum {
    MOST_QUERY = 4096, /* the maximum number of octets of a query */
    MOST_WAITING = 64, /* the maximum number of queries of a connection that wait for a reply */
    IDLE_MS = 5000,    /* for how long a connection may be idle (RFC 7766 section 6.2.3) */
    YIELD_MS = 200     /* the same if no place is free and new connections come */
};
/* The room for the address of this host to which a datagram was sent (IP_PKTINFO). */
enum { CONTROL = CMSG_SPACE(sizeof(struct in6_pktinfo)) };

/* Who sent a query. */
struct asker {
    struct asker *next;
    struct query query;
    unsigned client; /* the number of the client (shares.h) */
    union address from;
    _Alignas(struct cmsghdr) uint8_t control[CONTROL];
    size_t control_size;
    int sock;
    struct clients *clients; /* NULL if the query came over UDP */
    size_t place;
    uint64_t serial; /* of the connection in that place */
};

/* The connections of a thread, in places. */
struct clients {
    pthread_mutex_t lock; /* of the connections, since other threads send replies on them */
    struct connection *connections;
    size_t places;
    uint64_t shut_until; /* no connection is accepted before this time, in milliseconds */
};

/* Opens two sockets at each address, for UDP and TCP. If a port is 0, the system picks one. Returns
   false if that fails. */
bool open_listeners(union address *addresses, size_t count);
extern size_t listener_count; /* of these sockets */

bool make_clients(struct clients *clients, size_t places);

/* Writes to `polled` what to poll for: the listeners, and then each place. */
void poll_clients(struct clients *clients, struct pollfd *polled, uint64_t now);

/* Accepts connections, reads and writes, and shuts connections that have ended. */
void tend_connections(struct clients *clients, const struct pollfd *polled, uint64_t now);

/* Takes a datagram from a socket. Returns false if there is none. If the datagram is not a query,
   `size` is 0. */
bool take_datagram(int sock, uint8_t octets[MOST_QUERY], size_t *size, struct asker *asker);

/* Takes a query from the connection in a place, and returns its size, or 0 if there is none. */
size_t take_message(struct clients *clients, size_t place, uint8_t octets[MOST_QUERY],
                    struct asker *asker);

/* Sends a reply, and counts it as `what`, or as failed if it is SERVFAIL. */
void send_reply(const struct asker *asker, const struct reply *reply, enum counter what);

/* Shuts all connections. */
void free_clients(struct clients *clients);
