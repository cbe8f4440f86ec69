/* SPDX-License-Identifier: MIT */
/* in_turn.c: one request for memory or for a thread that is refused, for a test. It is linked to a
   program of which ld wraps the calls of malloc, calloc, realloc and pthread_create. Which request
   is refused stands in the file that REFUSALS names, which the test changes while the program runs;
   without it none is. */
#include <errno.h>
#include <fcntl.h>
#include <pthread.h>
#include <stdatomic.h>
#include <stdbool.h>
#include <stddef.h>
#include <stdint.h>
#include <stdlib.h>
#include <sys/mman.h>
#include <unistd.h>

/* Of one kind of request: how many there were, and which of them are refused, from 1 on: none where
   `first` is 0. */
struct refusals {
    _Atomic uint64_t made, first, last;
};

enum kind { MEMORY, THREADS, KINDS };

static struct refusals none[KINDS];
static struct refusals *told = none;

void *__real_malloc(size_t size);
void *__real_calloc(size_t count, size_t size);
void *__real_realloc(void *block, size_t size);
int __real_pthread_create(pthread_t *thread, const pthread_attr_t *with, void *(*start)(void *),
                          void *argument);

__attribute__((constructor)) static void begin(void)
{
    const char *name = getenv("REFUSALS");
    int file = name == NULL ? -1 : open(name, O_RDWR | O_CLOEXEC);
    void *mapped = file < 0 ? MAP_FAILED
                            : mmap(NULL, sizeof none, PROT_READ | PROT_WRITE, MAP_SHARED, file, 0);
    if (mapped != MAP_FAILED)
        told = mapped;
    close(file); /* below 0 it is none */
}

static bool is_refused(enum kind kind)
{
    uint64_t number = atomic_fetch_add(&told[kind].made, 1) + 1;
    uint64_t first = told[kind].first;
    return first != 0 && first <= number && number <= told[kind].last;
}

static bool lacks_memory(void)
{
    bool is_so = is_refused(MEMORY);
    if (is_so)
        errno = ENOMEM;
    return is_so;
}

void *__wrap_malloc(size_t size)
{
    return lacks_memory() ? NULL : __real_malloc(size);
}

void *__wrap_calloc(size_t count, size_t size)
{
    return lacks_memory() ? NULL : __real_calloc(count, size);
}

void *__wrap_realloc(void *block, size_t size)
{
    return lacks_memory() ? NULL : __real_realloc(block, size);
}

int __wrap_pthread_create(pthread_t *thread, const pthread_attr_t *with, void *(*start)(void *),
                          void *argument)
{
    if (!is_refused(THREADS))
        return __real_pthread_create(thread, with, start, argument);
    errno = EAGAIN;
    return EAGAIN;
}
