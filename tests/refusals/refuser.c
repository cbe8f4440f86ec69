/* SPDX-License-Identifier: MIT */
/* refuser.c: one request for memory or for a thread that is refused, for a test. It is preloaded to
   a program (LD_PRELOAD). KIND is the kind of request, 0 for memory and 1 for threads, and REFUSED
   which of that kind it is, the first by 1; ASKED is the number of an open file, in which stands
   how many there were of each. */
#define _GNU_SOURCE
#include <dlfcn.h>
#include <errno.h>
#include <pthread.h>
#include <stdatomic.h>
#include <stdbool.h>
#include <stddef.h>
#include <stdlib.h>
#include <sys/mman.h>

void *__libc_malloc(size_t size);
void *__libc_realloc(void *block, size_t size);

enum kind { MEMORY, THREADS, KINDS };

static _Atomic long *asked;

static bool is_refused(enum kind kind)
{
    const char *file = getenv("ASKED"), *refused = getenv("REFUSED");
    if (file == NULL || refused == NULL)
        return false;
    if (asked == NULL)
        asked =
            mmap(NULL, KINDS * sizeof *asked, PROT_READ | PROT_WRITE, MAP_SHARED, atoi(file), 0);
    long number = ++asked[kind];
    return (int)kind == atoi(getenv("KIND")) && number == atol(refused);
}

void *malloc(size_t size)
{
    return is_refused(MEMORY) ? NULL : __libc_malloc(size);
}

void *realloc(void *block, size_t size)
{
    return is_refused(MEMORY) ? NULL : __libc_realloc(block, size);
}

typedef int creator(pthread_t *thread, const pthread_attr_t *with, void *(*start)(void *),
                    void *argument);

int pthread_create(pthread_t *thread, const pthread_attr_t *with, void *(*start)(void *),
                   void *argument)
{
    static creator *create;
    if (create == NULL)
        create = (creator *)dlsym(RTLD_NEXT, "pthread_create");
    return is_refused(THREADS) ? EAGAIN : create(thread, with, start, argument);
}
