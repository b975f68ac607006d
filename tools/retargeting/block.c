/* What the lowered module asks of the heap, in words that each target's C passes alike: the address of a block of so many bytes, or 0. */
#include "osdp_layout.h"

uint64_t osdp_take_block(uint64_t size, uint64_t align);

uint64_t osdp_take_block(uint64_t size, uint64_t align)
{
    if (size > SIZE_MAX) {
        return 0;
    }
    struct osdp_block given = rattle_alloc((size_t)size, (size_t)align);
    return given.ok ? (uintptr_t)given.block : 0;
}

uint64_t osdp_grow_block(uint64_t block, uint64_t kept, uint64_t size, uint64_t align);

uint64_t osdp_grow_block(uint64_t block, uint64_t kept, uint64_t size, uint64_t align)
{
    if (size > SIZE_MAX) {
        return 0;
    }
    struct osdp_block given = rattle_realloc((void *)(uintptr_t)block, (size_t)kept, (size_t)size, (size_t)align);
    return given.ok ? (uintptr_t)given.block : 0;
}
