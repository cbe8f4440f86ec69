/* SPDX-License-Identifier: MIT */
/* refusals.c: memory and ports that are refused, for a test. It is preloaded to a program
   (LD_PRELOAD), and each SIGUSR2 goes on to the next stage: no more memory than what is used now;
   none at all; all again. Of the ports that the program asks for on any address the first are
   refused, as many as REFUSED_PORTS of its environment says. With UNSENT in its environment, what
   it sends by sendto fails with that error number, but for the first datagrams, as many as SENT
   says; with UNCONNECTED, so does each connection that it makes. */
#include <errno.h>
#include <malloc.h>
#include <netinet/in.h>
#include <signal.h>
#include <stdatomic.h>
#include <stdbool.h>
#include <stddef.h>
#include <stdlib.h>
#include <sys/socket.h>
#include <sys/syscall.h>
#include <unistd.h>

void *__libc_malloc(size_t size);
void *__libc_calloc(size_t count, size_t size);
void *__libc_realloc(void *block, size_t size);
void __libc_free(void *block);

enum stage { GRANTED, USED_UP, REFUSED, STAGES };

static atomic_int stage;
static atomic_size_t used, most;
static atomic_int ports, sent;

static void go_on(int signal)
{
    (void)signal;
    most = used;
    stage = (stage + 1) % STAGES;
}

/* A number of the environment, or 0. */
static int number(const char *name)
{
    const char *text = getenv(name);
    return text == NULL ? 0 : atoi(text);
}

__attribute__((constructor)) static void begin(void)
{
    signal(SIGUSR2, go_on);
    ports = number("REFUSED_PORTS");
    sent = number("SENT");
}

static bool is_refused(size_t size)
{
    return stage == REFUSED || (stage == USED_UP && used + size > most);
}

static void *counted(void *block)
{
    used += block == NULL ? 0 : malloc_usable_size(block);
    return block;
}

void *malloc(size_t size)
{
    return is_refused(size) ? NULL : counted(__libc_malloc(size));
}

void *calloc(size_t count, size_t size)
{
    return is_refused(count * size) ? NULL : counted(__libc_calloc(count, size));
}

void *realloc(void *block, size_t size)
{
    size_t before = block == NULL ? 0 : malloc_usable_size(block);
    void *grown = size > before && is_refused(size - before) ? NULL : __libc_realloc(block, size);
    if (grown != NULL) {
        used -= before;
        counted(grown);
    }
    return grown;
}

void free(void *block)
{
    used -= block == NULL ? 0 : malloc_usable_size(block);
    __libc_free(block);
}

int bind(int sock, const struct sockaddr *address, socklen_t size)
{
    if (((const struct sockaddr_in *)address)->sin_addr.s_addr != INADDR_ANY || ports == 0)
        return (int)syscall(SYS_bind, sock, address, size);
    ports--;
    errno = EADDRINUSE;
    return -1;
}

ssize_t sendto(int sock, const void *octets, size_t size, int flags, const struct sockaddr *to,
               socklen_t to_size)
{
    int error = number("UNSENT");
    if (error == 0 || sent-- > 0)
        return syscall(SYS_sendto, sock, octets, size, flags, to, to_size);
    errno = error;
    return -1;
}

int connect(int sock, const struct sockaddr *to, socklen_t size)
{
    int error = number("UNCONNECTED");
    if (error == 0)
        return (int)syscall(SYS_connect, sock, to, size);
    errno = error;
    return -1;
}
