/* SPDX-License-Identifier: MIT */
/* What work.c needs of names and threads, the same for both forms of rrcache. */
#include "sets.h"

void make_name(struct rrcache_name *made, const struct name *name)
{
    static const struct rrcache_parts parts = {SHARDS, SEED};
    if (rrcache_make_name(made, name->octets, name->size, &parts) != RRCACHE_DONE)
        fail("no name");
}

unsigned shard_of(const struct name *name)
{
    struct rrcache_name made = {0};
    make_name(&made, name);
    return (unsigned)made.part;
}

void *begin_thread(unsigned number)
{
    (void)number;
    return NULL;
}
