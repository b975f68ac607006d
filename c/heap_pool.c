/* The heap that libosdp_c.a asks for, from a fixed pool: for a device without malloc.
 *
 * OSDP_POOL is the size of the pool in bytes, a multiple of 16, and can be set where this file is compiled. What it must be for a panel and for a
 * reader stands in docs/SIZES.md; as it is here it is enough for a panel with one device and a reader, with room for 64 each. The first free block that
 * is large enough is taken, and free neighbours are joined. There is no lock: use it from one thread. Nothing is needed from outside. */
#include "osdp.h"

/* A shared library that has this heap hands its names to no other one: each may have a heap of its own. */
#ifdef __GNUC__
#define OSDP_HIDDEN __attribute__((visibility("hidden")))
#else
#define OSDP_HIDDEN
#endif

#ifndef OSDP_POOL
#define OSDP_POOL 262144
#endif

/* The head of a block: how many units follow it, and whether they are in use. Each alignment that is asked for divides a unit. */
union unit {
    struct {
        size_t units;
        bool used;
    } head;
    unsigned char bytes[16];
};

#define UNITS (OSDP_POOL / 16)

#ifdef __GNUC__
__attribute__((aligned(16)))
#endif
static union unit pool[UNITS];

/* The units of the free block at this place, once it is joined with those right after it. */
static size_t joined(size_t at)
{
    size_t next = at + 1 + pool[at].head.units;
    while (next < UNITS && !pool[next].head.used) {
        pool[at].head.units += 1 + pool[next].head.units;
        next = at + 1 + pool[at].head.units;
    }
    return pool[at].head.units;
}

/* A block, or none. */
static struct osdp_block given(bool ok, void *block)
{
    struct osdp_block result;
    result.ok = ok;
    result.block = block;
    return result;
}

/* Uses so many units of a free block, and leaves the others free where they are worth a head. */
static struct osdp_block used(size_t at, size_t wanted)
{
    size_t left = pool[at].head.units - wanted;
    if (left > 1) {
        pool[at].head.units = wanted;
        pool[at + 1 + wanted].head.units = left - 1;
        pool[at + 1 + wanted].head.used = false;
    }
    pool[at].head.used = true;
    return given(true, &pool[at + 1]);
}

OSDP_HIDDEN struct osdp_block rattle_alloc(size_t size, size_t align)
{
    size_t wanted = size / 16 + (size % 16 != 0 || size == 0);
    (void)align;
    if (pool[0].head.units == 0) {
        pool[0].head.units = UNITS - 1; /* the first call of all */
    }
    for (size_t at = 0; at < UNITS; at += 1 + pool[at].head.units) {
        if (!pool[at].head.used && joined(at) >= wanted) {
            return used(at, wanted);
        }
    }
    return given(false, pool);
}

OSDP_HIDDEN void rattle_dealloc(void *block)
{
    ((union unit *)block - 1)->head.used = false;
}

OSDP_HIDDEN struct osdp_block rattle_realloc(void *block, size_t kept, size_t size, size_t align)
{
    struct osdp_block other = rattle_alloc(size, align);
    if (other.ok) {
        for (size_t i = 0; i < kept; i++) {
            ((unsigned char *)other.block)[i] = ((const unsigned char *)block)[i];
        }
        rattle_dealloc(block);
    }
    return other;
}
