/* SPDX-License-Identifier: MIT */
/* The three functions by which the proved code gets memory, as the Rattle kit has them for x86-64:
   over malloc, realloc and free, whose memory is aligned for all that the code stores. A call
   returns two words: whether it got memory, and where this memory is. For 0 octets it asks for as
   many octets as the alignment, because malloc(0) may return NULL. If it got no memory, the address
   is aligned and not NULL. */
#include <stdint.h>
#include <stdlib.h>

struct reply {
    uint64_t came;
    void *at;
};

static _Alignas(16) unsigned char nothing[16];

static struct reply reply_of(void *at)
{
    struct reply reply = {at != NULL, at != NULL ? at : nothing};
    return reply;
}

struct reply rattle_alloc(uint64_t octets, uint64_t alignment)
{
    return reply_of(malloc(octets != 0 ? octets : alignment));
}

struct reply rattle_realloc(void *at, uint64_t before, uint64_t octets, uint64_t alignment)
{
    (void)before;
    return reply_of(realloc(at, octets != 0 ? octets : alignment));
}

void rattle_dealloc(void *at)
{
    free(at);
}
