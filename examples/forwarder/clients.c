/* SPDX-License-Identifier: MIT */
#include "clients.h"

#include <linux/sockios.h>
#include <netinet/tcp.h>
#include <stdlib.h>
#include <sys/ioctl.h>
#include <sys/queue.h>
#include <sys/socket.h>
#include <unistd.h>

enum { BACKLOG = 128, BURST = 64, SHUT_MS = 100, PORT_TRIES = 16 };
/* SO_RCVBUF of a connection, which the system doubles: more than 64 usual queries. */
enum { MOST_UNREAD = 1 << 14 };

/* The rest of a reply that is not sent yet. Its memory comes from the client's share. */
struct unsent {
    STAILQ_ENTRY(unsent) others;
    size_t size, sent;
    uint8_t octets[];
};

struct connection {
    int sock; /* -1 if the place is free */
    unsigned client;
    uint64_t serial; /* increases when the connection is shut */
    unsigned waiting;
    uint64_t active_at; /* when a query was taken, or some of a reply was sent */
    bool has_ended;     /* the client sends nothing more */
    bool is_broken;     /* it will be shut */
    STAILQ_HEAD(, unsent) unsent;
    size_t in_size;
    uint8_t in[LENGTH + MOST_QUERY];
};

static int listeners[2 * MOST_LISTENERS]; /* for each address, the socket for UDP and that for
                                             TCP */
size_t listener_count;
/* Added to the time at which a connection was last active, if the connection is not idle. */
static const uint64_t BUSY = UINT64_MAX / 2;

/* ---- Listeners. */

/* A datagram comes with the address to which it was sent. What ICMP messages say about the MTU of a
   path is ignored: anyone may send them, and fragmented replies are easier to forge (RFC 9715). An
   IPv6 socket receives nothing that is sent over IPv4. */
static bool set_options(int sock, bool is_six, bool is_udp)
{
    if (is_six)
        return set_option(sock, IPPROTO_IPV6, IPV6_V6ONLY, 1)
               && set_option(sock, IPPROTO_IPV6, IPV6_RECVPKTINFO, 1)
               && (!is_udp
                   || set_option(sock, IPPROTO_IPV6, IPV6_MTU_DISCOVER, IPV6_PMTUDISC_OMIT));
    return set_option(sock, IPPROTO_IP, IP_PKTINFO, 1)
           && (!is_udp || set_option(sock, IPPROTO_IP, IP_MTU_DISCOVER, IP_PMTUDISC_OMIT));
}

/* Makes a socket. TCP gets its port immediately after a restart. Connections inherit the bound on
   what the system keeps of queries that are not read yet. Without it, that grows to megabytes for
   each client that sends queries and reads no replies (tcp_rmem). */
static int bound_socket(int kind, union address *address)
{
    bool is_six = address->family == AF_INET6, is_udp = kind == SOCK_DGRAM;
    socklen_t size = address_size(address);
    int sock = socket(address->family, kind | SOCK_NONBLOCK | SOCK_CLOEXEC, 0);
    if (sock < 0
        || (set_options(sock, is_six, is_udp)
            && (is_udp || set_option(sock, SOL_SOCKET, SO_REUSEADDR, 1))
            && (is_udp || set_option(sock, SOL_SOCKET, SO_RCVBUF, MOST_UNREAD))
            && bind(sock, &address->any, size) == 0 && getsockname(sock, &address->any, &size) == 0
            && (is_udp || listen(sock, BACKLOG) == 0)))
        return sock;
    close(sock);
    return -1;
}

/* Opens both sockets of an address. If the port that the system picks for UDP is already taken for
   TCP, the system picks another. */
static bool open_both(int sockets[2], union address *address)
{
    const union address wanted = *address;
    for (int tries = wanted.port == 0 ? PORT_TRIES : 1; tries > 0; tries--) {
        *address = wanted;
        sockets[0] = bound_socket(SOCK_DGRAM, address);
        sockets[1] = sockets[0] < 0 ? -1 : bound_socket(SOCK_STREAM, address);
        if (sockets[1] >= 0)
            return true;
        if (sockets[0] >= 0)
            close(sockets[0]);
    }
    return false;
}

bool open_listeners(union address *addresses, size_t count)
{
    for (; count > 0; count--, addresses++, listener_count += 2)
        if (!open_both(listeners + listener_count, addresses))
            return false;
    return true;
}

/* ---- A connection. In this section and the next, the caller holds the lock. */

/* Whether replies wait to be sent. */
static bool is_behind(const struct connection *connection)
{
    return !STAILQ_EMPTY(&connection->unsent);
}

static void drop_unsent(struct connection *connection)
{
    struct unsent *first = STAILQ_FIRST(&connection->unsent);
    STAILQ_REMOVE_HEAD(&connection->unsent, others);
    give_back(connection->client, first, sizeof *first + first->size);
}

static void shut(struct connection *connection)
{
    while (is_behind(connection))
        drop_unsent(connection);
    close(connection->sock);
    connection->sock = -1;
    connection->serial++;
}

/* Whether the system keeps replies that the client has not acknowledged. */
static bool is_untaken(const struct connection *connection)
{
    int size = 0;
    return ioctl(connection->sock, SIOCOUTQ, &size) == 0 && size > 0;
}

/* Shuts a connection, and drops the replies that the client did not take. Otherwise the system
   would keep these replies for minutes, and a client that makes one connection after another could
   make it keep any amount. */
static void reset(struct connection *connection)
{
    const struct linger at_once = {.l_onoff = 1};
    if (is_untaken(connection))
        setsockopt(connection->sock, SOL_SOCKET, SO_LINGER, &at_once, sizeof at_once);
    shut(connection);
}

/* The size of the first query that was read, or 0 if the query is not complete. */
static size_t whole_query(const struct connection *connection)
{
    size_t size = connection->in_size < LENGTH ? 0 : word_at(connection->in);
    return connection->in_size < LENGTH + size ? 0 : size;
}

/* Whether a client may ask more. It may not if it does not read its replies, or waits for many. */
static bool may_ask(const struct connection *connection)
{
    return !connection->is_broken && !is_behind(connection) && connection->waiting < MOST_WAITING;
}

/* Whether a connection was inactive for `most` milliseconds although it is the client's turn to
   act. */
static bool is_idle(const struct connection *connection, uint64_t now, uint64_t most)
{
    bool may_be = connection->waiting == 0 || is_behind(connection);
    return may_be && now >= connection->active_at + most;
}

static void read_more(struct connection *connection)
{
    size_t room = sizeof connection->in - connection->in_size;
    if (room == 0)
        return;
    ssize_t got = recv(connection->sock, connection->in + connection->in_size, room, 0);
    connection->has_ended |= got == 0;
    connection->is_broken |= got < 0 && !would_block();
    connection->in_size += got > 0 ? (size_t)got : 0;
}

/* Sends as many octets as it can, and returns their number. */
static size_t send_some(struct connection *connection, const uint8_t *octets, size_t size)
{
    ssize_t sent = send(connection->sock, octets, size, MSG_NOSIGNAL);
    connection->is_broken |= sent < 0 && !would_block();
    if (sent > 0)
        connection->active_at = milliseconds();
    return sent < 0 ? 0 : (size_t)sent;
}

static void keep_unsent(struct connection *connection, const uint8_t *octets, size_t size)
{
    struct unsent *kept = take_share(connection->client, sizeof *kept + size);
    connection->is_broken |= kept == NULL;
    if (kept == NULL)
        return;
    *kept = (struct unsent){.size = size};
    memcpy(kept->octets, octets, size);
    STAILQ_INSERT_TAIL(&connection->unsent, kept, others);
}

static void send_unsent(struct connection *connection)
{
    while (is_behind(connection)) {
        struct unsent *first = STAILQ_FIRST(&connection->unsent);
        first->sent +=
            send_some(connection, first->octets + first->sent, first->size - first->sent);
        if (first->sent < first->size)
            return;
        drop_unsent(connection);
    }
}

/* Reads and writes, and shuts a connection that has ended. */
static void tend(struct connection *connection, int revents, uint64_t now)
{
    if (revents & POLLIN)
        read_more(connection);
    if (revents & POLLOUT)
        send_unsent(connection);
    bool is_done = connection->has_ended && connection->waiting == 0 && !is_behind(connection)
                   && whole_query(connection) == 0 && !is_untaken(connection);
    if (is_done || connection->is_broken || revents & (POLLERR | POLLHUP | POLLNVAL)
        || is_idle(connection, now, IDLE_MS))
        reset(connection);
}

/* ---- Places. If no place is free for a new connection, the client that holds the most places,
   counting the new connection, gives up the place of its least recently active connection. If this
   client holds more places than the client of the new connection, even a busy connection gives way;
   otherwise only an idle connection does. So a single client may have all places, and each of two
   clients gets half of them.

   A new connection that gets no place is shut, because others wait after it in the queue of the
   system. This applies as long as a client without a place would get one. If it would not, each
   place is held by a different client, and new connections wait in the queue until a connection is
   idle. */

static size_t held_by(const struct clients *clients, unsigned client)
{
    size_t held = 0;
    for (size_t i = 0; i < clients->places; i++)
        held += clients->connections[i].sock >= 0 && clients->connections[i].client == client;
    return held;
}

/* The place for a new connection of a client, or NULL. */
static struct connection *place_for(struct clients *clients, unsigned client, uint64_t now)
{
    struct connection *place = NULL;
    size_t own = held_by(clients, client) + 1, most = 0;
    uint64_t first = BUSY;
    for (size_t i = 0; i < clients->places; i++) {
        struct connection *it = &clients->connections[i];
        if (it->sock < 0)
            return it;
        size_t held = it->client == client ? own : held_by(clients, it->client);
        uint64_t turn = it->active_at + (is_idle(it, now, YIELD_MS) ? 0 : BUSY);
        if (held < most || (held == most && turn >= first))
            continue;
        place = it;
        most = held;
        first = turn;
    }
    return most > own || first < BUSY ? place : NULL;
}

static bool is_open(struct clients *clients, uint64_t now)
{
    return now >= clients->shut_until && place_for(clients, CLIENTS, now) != NULL;
}

/* Gives a new connection a place, or shuts it. */
static void settle(struct clients *clients, int sock, unsigned client, uint64_t now)
{
    struct connection *place = place_for(clients, client, now);
    if (place == NULL) {
        close(sock);
        return;
    }
    if (place->sock >= 0)
        reset(place);
    set_option(sock, IPPROTO_TCP, TCP_NODELAY, 1);    /* each reply is one write */
    set_option(sock, SOL_SOCKET, SO_SNDBUF, MESSAGE); /* bounds what the system keeps */
    *place = (struct connection){
        .sock = sock, .client = client, .serial = place->serial, .active_at = now};
    STAILQ_INIT(&place->unsent);
    count(CONNECTIONS, 1);
}

/* Accepts the connections that wait at a listener. If descriptors or memory run out, no connection
   is accepted for a while, because the listener would be ready all the time. */
static void accept_all(struct clients *clients, int listener, uint64_t now)
{
    for (int i = 0; i < BURST && is_open(clients, now); i++) {
        union address from = {0};
        socklen_t size = sizeof from;
        int sock = accept4(listener, &from.any, &size, SOCK_NONBLOCK | SOCK_CLOEXEC);
        if (sock >= 0)
            settle(clients, sock, client_at(&from), now);
        else if (errno == EMFILE || errno == ENFILE || errno == ENOBUFS || errno == ENOMEM)
            clients->shut_until = now + SHUT_MS;
        else
            return;
    }
}

/* ---- The connections of a thread. From here on, the caller does not hold their lock. */

bool make_clients(struct clients *clients, size_t places)
{
    *clients = (struct clients){.connections = calloc(places, sizeof *clients->connections),
                                .places = places};
    for (size_t i = 0; clients->connections != NULL && i < places; i++)
        clients->connections[i].sock = -1;
    return clients->connections != NULL && pthread_mutex_init(&clients->lock, NULL) == 0;
}

void poll_clients(struct clients *clients, struct pollfd *polled, uint64_t now)
{
    pthread_mutex_lock(&clients->lock);
    bool accepts = is_open(clients, now);
    for (size_t i = 0; i < listener_count; i++)
        *polled++ =
            (struct pollfd){.fd = i % 2 == 0 || accepts ? listeners[i] : -1, .events = POLLIN};
    for (size_t i = 0; i < clients->places; i++) {
        const struct connection *it = &clients->connections[i];
        bool reads = it->sock >= 0 && may_ask(it) && !it->has_ended;
        bool writes = it->sock >= 0 && is_behind(it);
        polled[i].fd = it->sock; /* a reset is reported even if no event is requested */
        polled[i].events = (short)((reads ? POLLIN : 0) | (writes ? POLLOUT : 0));
    }
    pthread_mutex_unlock(&clients->lock);
}

void tend_connections(struct clients *clients, const struct pollfd *polled, uint64_t now)
{
    pthread_mutex_lock(&clients->lock);
    for (size_t i = 0; i < clients->places; i++)
        if (clients->connections[i].sock >= 0)
            tend(&clients->connections[i], polled[listener_count + i].revents, now);
    for (size_t i = 1; i < listener_count; i += 2)
        if (polled[i].revents != 0)
            accept_all(clients, listeners[i], now);
    pthread_mutex_unlock(&clients->lock);
}

void free_clients(struct clients *clients)
{
    for (size_t i = 0; i < clients->places; i++)
        if (clients->connections[i].sock >= 0)
            shut(&clients->connections[i]);
    free(clients->connections);
}

/* ---- Queries and replies. */

static struct msghdr datagram(const struct asker *asker, struct iovec *octets)
{
    return (struct msghdr){.msg_name = (void *)&asker->from,
                           .msg_namelen = address_size(&asker->from),
                           .msg_iov = octets,
                           .msg_iovlen = 1,
                           .msg_control = (void *)asker->control,
                           .msg_controllen = asker->control_size};
}

/* Lets the routes choose the interface of a reply, instead of the interface through which the query
   came. But a link-local address belongs to one interface (RFC 4007 section 6). */
static void leave_to_routes(sa_family_t family, uint8_t *info)
{
    struct in6_pktinfo six = {0};
    size_t interface = offsetof(struct in_pktinfo, ipi_ifindex);
    if (family == AF_INET6) {
        memcpy(&six, info, sizeof six);
        interface = offsetof(struct in6_pktinfo, ipi6_ifindex);
    }
    if (!IN6_IS_ADDR_LINKLOCAL(&six.ipi6_addr))
        memset(info + interface, 0, sizeof(int));
}

/* The reply is sent from the address that was asked, because clients compare it. */
bool take_datagram(int sock, uint8_t octets[MOST_QUERY], size_t *size, struct asker *asker)
{
    *asker = (struct asker){.sock = sock, .control_size = CONTROL, .from.family = AF_INET6};
    struct iovec all = {octets, MOST_QUERY};
    struct msghdr message = datagram(asker, &all);
    ssize_t got = recvmsg(sock, &message, MSG_TRUNC);
    if (got < 0)
        return false;
    *size = got >= HEADER && got <= MOST_QUERY && !(octets[2] & 0x80) ? (size_t)got : 0;
    asker->client = client_at(&asker->from);
    asker->control_size = message.msg_controllen;
    if (CMSG_FIRSTHDR(&message) != NULL)
        leave_to_routes(asker->from.family, CMSG_DATA(CMSG_FIRSTHDR(&message)));
    return true;
}

/* Takes the first query that was read. If the client sent anything else, the connection is marked
   as broken. */
size_t take_message(struct clients *clients, size_t place, uint8_t octets[MOST_QUERY],
                    struct asker *asker)
{
    struct connection *connection = &clients->connections[place];
    const uint8_t *query = connection->in + LENGTH;
    if (connection->sock < 0) /* no other thread changes this */
        return 0;
    pthread_mutex_lock(&clients->lock);
    size_t length = connection->in_size < LENGTH ? HEADER : word_at(connection->in);
    size_t size = whole_query(connection);
    connection->is_broken |=
        length < HEADER || length > MOST_QUERY || (size != 0 && query[2] & 0x80);
    if (!may_ask(connection))
        size = 0;
    if (size != 0) {
        *asker = (struct asker){.clients = clients,
                                .place = place,
                                .serial = connection->serial,
                                .client = connection->client};
        memcpy(octets, query, size);
        connection->in_size -= LENGTH + size;
        memmove(connection->in, query + size, connection->in_size);
        connection->waiting++;
        connection->active_at = milliseconds();
    }
    pthread_mutex_unlock(&clients->lock);
    return size;
}

/* Sends a message on a connection, if this is still the connection of the query. */
static void send_message(const struct asker *asker, const uint8_t *octets, size_t size)
{
    struct clients *clients = asker->clients;
    struct connection *connection = &clients->connections[asker->place];
    pthread_mutex_lock(&clients->lock);
    if (connection->serial == asker->serial && !connection->is_broken) {
        size_t sent = is_behind(connection) ? 0 : send_some(connection, octets, size);
        connection->waiting--;
        if (sent < size)
            keep_unsent(connection, octets + sent, size - sent);
    }
    pthread_mutex_unlock(&clients->lock);
}

void send_reply(const struct asker *asker, const struct reply *reply, enum counter what)
{
    uint8_t octets[LENGTH + MESSAGE];
    size_t most = asker->clients == NULL ? asker->query.payload : MESSAGE;
    size_t size = write_reply(reply, &asker->query, most, octets + LENGTH);
    write_word(octets, (unsigned)size);
    count((octets[LENGTH + 3] & 15) == SERVFAIL ? FAILED : what, 1);
    count(OCTETS, size);
    count(CUT, octets[LENGTH + 2] >> 1 & 1);
    if (asker->clients == NULL) {
        struct iovec all = {octets + LENGTH, size};
        struct msghdr message = datagram(asker, &all);
        sendmsg(asker->sock, &message, 0);
        return;
    }
    send_message(asker, octets, LENGTH + size);
}
