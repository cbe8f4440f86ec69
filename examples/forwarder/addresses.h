/* SPDX-License-Identifier: MIT */
/* addresses.h: IPv4 and IPv6 addresses with ports, and what their sockets need. */
#pragma once

#include <errno.h>
#include <netinet/in.h>
#include <stdbool.h>
#include <string.h>

/* All octets that an address does not use are 0. The largest member comes first, so that {0} sets
   all of them to 0. */
union address {
    struct sockaddr_in6 six;
    struct sockaddr_in four;
    struct sockaddr any;
    struct {
        sa_family_t family;
        in_port_t port; /* high octet first */
    };
};

static inline socklen_t address_size(const union address *address)
{
    return address->family == AF_INET6 ? sizeof address->six : sizeof address->four;
}

static inline bool is_same_address(const union address *one, const union address *other)
{
    return memcmp(one, other, sizeof *one) == 0;
}

static inline bool set_option(int sock, int level, int option, int value)
{
    return setsockopt(sock, level, option, &value, sizeof value) == 0;
}

/* Whether a call on a socket failed only because it would have to wait. */
static inline bool would_block(void)
{
    return errno == EAGAIN || errno == EWOULDBLOCK || errno == EINTR;
}
