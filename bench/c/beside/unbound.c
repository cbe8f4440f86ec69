/* SPDX-License-Identifier: MIT */
/* The RRset cache of unbound for work.c, with 64 slabs, called as unbound's resolver calls it.
   `bench/run unbound` builds this file with unbound's own source. */
#include "config.h"

#include "services/cache/rrset.h"
#include "util/alloc.h"
#include "util/config_file.h"
#include "util/data/msgreply.h"
#include "util/data/packed_rrset.h"
#include "util/net_help.h"
#include "util/regional.h"
#include "util/storage/slabhash.h"
#include "work.h"

struct thread {
    struct alloc_cache alloc;
    struct regional *region;
    unsigned calls;
};

static struct alloc_cache shared;
static struct rrset_cache *cache;

static void make_cache_of(size_t octets)
{
    struct config_file *config = config_create();
    if (config == NULL)
        fail("no memory");
    config->rrset_cache_slabs = SHARDS;
    config->rrset_cache_size = octets;
    cache = rrset_cache_create(config, &shared);
    config_delete(config);
    if (cache == NULL)
        fail("no cache");
}

void *begin_thread(unsigned number)
{
    struct thread *thread = calloc(1, sizeof *thread);
    if (thread == NULL || (thread->region = regional_create()) == NULL)
        fail("no memory");
    alloc_init(&thread->alloc, &shared, (int)number + 1);
    return thread;
}

/* The data of one address, in one block as unbound's parser makes it. */
static struct packed_rrset_data *data_of(unsigned turn)
{
    struct {
        struct packed_rrset_data data;
        size_t size;
        uint8_t *octets;
        time_t ttl;
        uint8_t address[6];
    } *made = calloc(1, sizeof *made);
    if (made == NULL)
        fail("no memory");
    struct packed_rrset_data *data = &made->data;
    data->ttl = made->ttl = MOMENT + TTL;
    data->count = 1;
    data->trust = rrset_trust_ans_AA;
    data->security = sec_status_unchecked;
    data->rr_len = &made->size;
    data->rr_data = &made->octets;
    data->rr_ttl = &made->ttl;
    made->size = sizeof made->address;
    made->octets = made->address;
    memcpy(made->address, (uint8_t[]){0, 4, 192, 0, 2, (uint8_t)turn}, sizeof made->address);
    return data;
}

unsigned shard_of(const struct name *name)
{
    struct packed_rrset_key key = {.dname = (uint8_t *)name->octets,
                                   .dname_len = name->size,
                                   .type = htons(1),
                                   .rrset_class = htons(1)};
    return (unsigned)(rrset_key_hash(&key) & cache->table.mask) >> cache->table.shift;
}

void put(void *argument, const struct name *name, unsigned turn)
{
    struct thread *thread = argument;
    struct ub_packed_rrset_key *key = alloc_special_obtain(&thread->alloc);
    if (key == NULL || (key->rk.dname = memdup((void *)name->octets, name->size)) == NULL)
        fail("no memory");
    key->rk.dname_len = name->size;
    key->rk.type = htons(1);
    key->rk.rrset_class = htons(1);
    key->rk.flags = 0;
    key->entry.key = key;
    key->entry.data = data_of(turn);
    key->entry.hash = rrset_key_hash(&key->rk);
    struct rrset_ref ref = {.key = key, .id = key->id};
    rrset_cache_update(cache, &ref, &thread->alloc, MOMENT);
}

bool ask(void *argument, const struct name *name)
{
    struct thread *thread = argument;
    struct ub_packed_rrset_key *found =
        rrset_cache_lookup(cache, (uint8_t *)name->octets, name->size, 1, 1, 0, MOMENT, 0);
    if (found == NULL)
        return false;
    bool is_copied = packed_rrset_copy_region(found, thread->region, MOMENT) != NULL;
    lock_rw_unlock(&found->entry.lock);
    if (++thread->calls % 16 == 0)
        regional_free_all(thread->region);
    return is_copied;
}

/* The octets that an RRset of one address takes, if there are many RRsets. */
static size_t octets_of_a_set(void)
{
    enum { SETS = 1024 };
    make_cache_of((size_t)64 << 20);
    size_t empty = slabhash_get_mem(&cache->table);
    void *thread = begin_thread(0);
    for (unsigned i = 0; i < SETS; i++) {
        struct name name = {.octets = "\11host00000\7example", .size = 19};
        for (unsigned digits = i, place = 9; digits != 0; digits /= 10, place--)
            name.octets[place] = (uint8_t)('0' + digits % 10);
        put(thread, &name, i);
    }
    size_t octets = (slabhash_get_mem(&cache->table) - empty) / SETS;
    rrset_cache_delete(cache);
    return octets;
}

void make_cache(size_t sets)
{
    alloc_init(&shared, NULL, 0);
    make_cache_of(sets * octets_of_a_set());
}
