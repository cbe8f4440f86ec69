/* SPDX-License-Identifier: MIT */
/* The names and RRsets that rrcache gets, in both forms of it. */
#ifndef SETS_H
#define SETS_H

#include "../../../tests/c/structs.h"
#include "work.h"

#define SEED                                                                                       \
    {                                                                                              \
        7                                                                                          \
    }

void make_name(struct rrcache_name *made, const struct name *name);

static inline struct rrcache_set address_of(const struct name *name, const uint8_t *data,
                                            size_t size)
{
    return plain_set(name->octets, name->size, A, TTL, data, size);
}

#endif
