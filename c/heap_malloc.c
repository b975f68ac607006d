/* The heap that libosdp_c.a asks for, over malloc. Each alignment that is asked for divides 16, which malloc gives on the targets of the archive. */
#include <stdlib.h>

#include "osdp.h"

/* A shared library that has this heap hands its names to no other one: each may have a heap of its own. */
#ifdef __GNUC__
#define OSDP_HIDDEN __attribute__((visibility("hidden")))
#else
#define OSDP_HIDDEN
#endif

/* Where there is no block, the pointer isn't null either, and nobody reads what it points to. */
static unsigned char none;

OSDP_HIDDEN struct osdp_block rattle_alloc(size_t size, size_t align)
{
    struct osdp_block given;
    given.block = malloc(size != 0 ? size : align);
    given.ok = given.block != NULL;
    if (!given.ok) {
        given.block = &none;
    }
    return given;
}

OSDP_HIDDEN struct osdp_block rattle_realloc(void *block, size_t kept, size_t size, size_t align)
{
    struct osdp_block given;
    (void)kept;
    given.block = realloc(block, size != 0 ? size : align);
    given.ok = given.block != NULL;
    if (!given.ok) {
        given.block = &none;
    }
    return given;
}

OSDP_HIDDEN void rattle_dealloc(void *block)
{
    free(block);
}
