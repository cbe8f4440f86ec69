/* SPDX-License-Identifier: MIT */
/* The heap of the module of the page. The proved code allocates memory by three functions of the
   kit. In a program these functions call malloc, realloc and free; here they use the memory of the
   module. This file is tested, not proved. It includes nothing, because there is no C library. */
typedef __UINT64_TYPE__ size;
typedef unsigned char octet;

/* The result of the kit's functions: whether there is memory, and where it is. */
struct tried {
    size ok;
    octet *at;
};

/* A block begins with this header of 16 octets. The memory for the caller follows, so it is at a
   multiple of 16. In a freed block, `next` is the next freed block of its class. */
struct block {
    size class;
    struct block *next;
};

enum {
    HEADER = 16,
    PAGE = 65536,
    MOST_BITS = 33,    /* a block has fewer than 2^33 octets */
    CLASSES = 60,      /* enough for blocks of these sizes */
    PAGES_AT_ONCE = 16 /* the least by which the memory grows */
};

extern octet __heap_base; /* set by the linker: the end of data and stack */

static octet *unused, *end; /* the memory that was never allocated */
static struct block *freed[CLASSES];
static octet nothing; /* the address of failed allocations, which is never read */

/* Returns the octets of a block of a class: 32, 48, 64, 96, 128, and so on. */
static size size_of(size class)
{
    return (2 + class % 2) * HEADER << class / 2;
}

static size class_for(size wanted)
{
    size class = 0;
    while (size_of(class) - HEADER < wanted)
        class ++;
    return class;
}

/* Grows the memory until `wanted` octets are unused. Returns whether that is so. */
static int has_unused(size wanted)
{
    size pages = (wanted + PAGE - 1) / PAGE;
    if (!unused) {
        unused = (octet *)(((size)&__heap_base + HEADER - 1) / HEADER * HEADER);
        end = (octet *)(__builtin_wasm_memory_size(0) * PAGE);
    }
    if (wanted <= (size)(end - unused))
        return 1;
    if (pages < PAGES_AT_ONCE)
        pages = PAGES_AT_ONCE;
    if (__builtin_wasm_memory_grow(0, pages) == (size)-1)
        return 0;
    end += pages * PAGE;
    return 1;
}

static octet *taken(size wanted)
{
    size class = class_for(wanted);
    struct block *block = freed[class];
    if (block) {
        freed[class] = block->next;
        return (octet *)block + HEADER;
    }
    if (!has_unused(size_of(class)))
        return 0;
    block = (struct block *)unused;
    block->class = class;
    unused += size_of(class);
    return (octet *)block + HEADER;
}

static struct block *block_of(octet *at)
{
    return (struct block *)(at - HEADER);
}

static struct tried tried(octet *at)
{
    return (struct tried){at != 0, at ? at : &nothing};
}

struct tried rattle_alloc(size wanted, size alignment)
{
    (void)alignment; /* it divides 16 */
    return tried(wanted >> MOST_BITS ? 0 : taken(wanted));
}

void rattle_dealloc(octet *at)
{
    struct block *block = block_of(at);
    block->next = freed[block->class];
    freed[block->class] = block;
}

struct tried rattle_realloc(octet *at, size kept, size wanted, size alignment)
{
    struct tried moved = {1, at};
    if (wanted <= size_of(block_of(at)->class) - HEADER)
        return moved;
    moved = rattle_alloc(wanted, alignment);
    if (moved.ok) {
        __builtin_memcpy(moved.at, at, kept);
        rattle_dealloc(at);
    }
    return moved;
}

/* For the page: returns room for input or output octets, or null. */
__attribute__((export_name("page_room"))) octet *page_room(size wanted)
{
    struct tried room = rattle_alloc(wanted, HEADER);
    return room.ok ? room.at : 0;
}

/* Returns the product of numbers of 128 bits. LLVM calls it because WebAssembly has no such
   instruction. */
unsigned __int128 __multi3(unsigned __int128 x, unsigned __int128 y)
{
    size x_low = (size)x, y_low = (size)y, low_mask = 0xffffffff;
    size low = (x_low & low_mask) * (y_low & low_mask);
    size across = (x_low >> 32) * (y_low & low_mask) + (low >> 32);
    size other = (x_low & low_mask) * (y_low >> 32) + (across & low_mask);
    size high = (x_low >> 32) * (y_low >> 32) + (across >> 32) + (other >> 32)
                + x_low * (size)(y >> 64) + (size)(x >> 64) * y_low;
    return (unsigned __int128)high << 64 | (other << 32 | (low & low_mask));
}
