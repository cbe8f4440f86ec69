/* SPDX-License-Identifier: MIT */
/* families.c: a host that has IPv4 and IPv6 in another way, for a test. It is preloaded to a
   program (LD_PRELOAD). With NO_SIX in its environment the host has IPv6 turned off (disable_ipv6),
   so no datagram goes to an address of IPv6, or with NO_ROUTE too no route to one. With
   NO_SIX_SOCKETS it has no sockets of IPv6 (ipv6.disable). With SIX_ALONE each new socket of IPv6
   speaks only that, unless the program chooses otherwise (bindv6only). */
#include <errno.h>
#include <netinet/in.h>
#include <stdbool.h>
#include <stddef.h>
#include <stdlib.h>
#include <sys/syscall.h>
#include <unistd.h>

static bool is_of_six(const struct sockaddr *address)
{
    const struct sockaddr_in6 *six = (const struct sockaddr_in6 *)address;
    return address != NULL && address->sa_family == AF_INET6
           && !IN6_IS_ADDR_V4MAPPED(&six->sin6_addr);
}

ssize_t sendto(int sock, const void *octets, size_t size, int flags, const struct sockaddr *to,
               socklen_t to_size)
{
    if (getenv("NO_SIX") == NULL || !is_of_six(to))
        return syscall(SYS_sendto, sock, octets, size, flags, to, to_size);
    errno = getenv("NO_ROUTE") == NULL ? EADDRNOTAVAIL : ENETUNREACH;
    return -1;
}

int socket(int family, int kind, int protocol)
{
    if (getenv("NO_SIX_SOCKETS") != NULL && family == AF_INET6) {
        errno = EAFNOSUPPORT;
        return -1;
    }
    int sock = (int)syscall(SYS_socket, family, kind, protocol), alone = 1;
    if (getenv("SIX_ALONE") != NULL && family == AF_INET6)
        setsockopt(sock, IPPROTO_IPV6, IPV6_V6ONLY, &alone, sizeof alone);
    return sock;
}
