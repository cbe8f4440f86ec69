/* SPDX-License-Identifier: MIT */
/* The heap of the page's module (page/heap.c), on a memory of this program: random requests, whose
   octets stay as they were written, until memory is refused. */
#include <assert.h>
#include <stdio.h>
#include <stdlib.h>
#include <string.h>

/* The memory, of which so many pages are there. __heap_base is made its front by the linker. */
enum { ALL_PAGES = 96, FIRST_PAGES = 2, SLOTS = 2000, STEPS = 200000 };
_Alignas(65536) unsigned char memory[ALL_PAGES * 65536];
static unsigned long pages = FIRST_PAGES, refused;

static unsigned long grown(unsigned long by)
{
    if (by > ALL_PAGES - pages) {
        refused++;
        return (unsigned long)-1;
    }
    pages += by;
    return pages - by;
}

#define __builtin_wasm_memory_size(which)     ((unsigned long)memory / 65536 + pages)
#define __builtin_wasm_memory_grow(which, by) grown(by)
#include "../../page/heap.c"

struct slot {
    octet *at;
    size wanted;
    octet filled;
};

static struct slot slots[SLOTS];

/* Mostly small requests, as names and rdata are, and some large ones. */
static size drawn(void)
{
    return (size)rand() % (rand() % 50 ? 300 : 200000);
}

static void fill(struct slot *slot, size wanted)
{
    slot->wanted = wanted;
    slot->filled = (octet)rand();
    memset(slot->at, slot->filled, wanted);
}

static void check(const struct slot *slot, size count)
{
    assert((size)slot->at % 16 == 0);
    assert(slot->at >= memory && slot->at + slot->wanted <= memory + pages * 65536);
    for (size place = 0; place < count; place++)
        assert(slot->at[place] == slot->filled);
}

static void take(struct slot *slot, size wanted)
{
    struct tried tried = rattle_alloc(wanted, 16);
    assert(tried.at);
    if (!tried.ok)
        return;
    slot->at = tried.at;
    fill(slot, wanted);
}

static void give(struct slot *slot)
{
    check(slot, slot->wanted);
    rattle_dealloc(slot->at);
    slot->at = NULL;
}

static void resize(struct slot *slot, size wanted)
{
    size kept = wanted < slot->wanted ? wanted : slot->wanted;
    struct tried tried = rattle_realloc(slot->at, kept, wanted, 16);
    if (!tried.ok) {
        check(slot, slot->wanted);
        return;
    }
    slot->at = tried.at;
    slot->wanted = wanted;
    check(slot, kept);
    fill(slot, wanted);
}

static void step(void)
{
    struct slot *slot = &slots[rand() % SLOTS];
    if (!slot->at)
        take(slot, drawn());
    else if (rand() % 2)
        give(slot);
    else
        resize(slot, drawn());
}

/* More than there ever is, and more than any block has. */
static void refuse_too_much(void)
{
    assert(!rattle_alloc(ALL_PAGES * 65536ul, 16).ok);
    assert(!rattle_alloc(1ul << 33, 16).ok && !rattle_alloc(~0ul, 16).ok);
    assert(!page_room(1ul << 40));
}

static void multiply(void)
{
    unsigned __int128 big = ((unsigned __int128)0x123456789abcdef0 << 64) | 0xfedcba9876543210;
    unsigned __int128 all = ~(unsigned __int128)0;
    assert(__multi3(big, 1) == big && __multi3(0, big) == 0 && __multi3(all, all) == 1);
    assert(__multi3(~0ul, ~0ul) == ((unsigned __int128)0xfffffffffffffffe << 64 | 1));
    assert(__multi3(big, 10) == (big << 3) + (big << 1) && __multi3(10, big) == __multi3(big, 10));
}

int main(void)
{
    srand(8767);
    for (int turn = 0; turn < STEPS; turn++)
        step();
    refuse_too_much();
    for (int place = 0; place < SLOTS; place++)
        if (slots[place].at)
            give(&slots[place]);
    multiply();
    printf("%lu requests for pages were refused\n", refused);
    return refused > 100 ? 0 : 1;
}
