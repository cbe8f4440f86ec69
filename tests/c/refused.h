/* SPDX-License-Identifier: MIT */
/* An allocator that refuses one allocation, for a program that is linked with --wrap of malloc,
   calloc, realloc and free. */
#ifndef REFUSED_H
#define REFUSED_H

#include <stdbool.h>
#include <stddef.h>

void *__real_malloc(size_t size);
void *__real_calloc(size_t count, size_t size);
void *__real_realloc(void *old, size_t size);
void __real_free(void *old);

/* How many allocations are granted before one is refused, how many blocks are out, and how often
   memory was asked for. */
static long granted = -1, blocks, wanted;

static bool is_denied(void)
{
    wanted++;
    return granted >= 0 && granted-- == 0;
}

void *__wrap_malloc(size_t size)
{
    void *made = is_denied() ? NULL : __real_malloc(size);
    blocks += made != NULL;
    return made;
}

void *__wrap_calloc(size_t count, size_t size)
{
    void *made = is_denied() ? NULL : __real_calloc(count, size);
    blocks += made != NULL;
    return made;
}

void *__wrap_realloc(void *old, size_t size)
{
    void *made = is_denied() ? NULL : __real_realloc(old, size);
    blocks += made != NULL && old == NULL;
    return made;
}

void __wrap_free(void *old)
{
    blocks -= old != NULL;
    __real_free(old);
}

#endif
