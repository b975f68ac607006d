/* A heap of c/, by some thousand calls from a seeded generator: each block is aligned, keeps what was written into it, and lies apart from all
 * others; what was given back is given out again. With the word `pool` some blocks must be refused, and else none. */
#include <stdio.h>
#include <stdlib.h>
#include <string.h>

#include "osdp.h"

#define MOST 24

static struct {
    unsigned char *block;
    size_t size;
    unsigned char mark;
} held[MOST];

static uint32_t state = 2463534242u;

static uint32_t below(uint32_t count)
{
    state ^= state << 13;
    state ^= state >> 17;
    state ^= state << 5;
    return state % count;
}

static void demand(bool holds, const char *what)
{
    if (!holds) {
        printf("heap: %s\n", what);
        exit(1);
    }
}

static void check(int i)
{
    demand((uintptr_t)held[i].block % 16 == 0, "a block isn't aligned");
    for (size_t k = 0; k < held[i].size; k++) {
        demand(held[i].block[k] == held[i].mark, "a block has changed");
    }
}

/* Takes the block of one place, or gives it back. Whether one was refused. */
static bool step(int i)
{
    if (held[i].block != NULL) {
        check(i);
        rattle_dealloc(held[i].block);
        held[i].block = NULL;
        return false;
    }
    size_t size = below(16000);
    struct osdp_block given = rattle_alloc(size, 16);
    demand(given.block != NULL, "a pointer is null");
    if (given.ok) {
        held[i].block = given.block;
        held[i].size = size;
        held[i].mark = (unsigned char)below(256);
        memset(given.block, held[i].mark, size);
    }
    return !given.ok;
}

/* Makes a block of one place longer or shorter: what both have in common stays. Whether that was refused. */
static bool grow(int i)
{
    size_t size = below(16000), kept = size < held[i].size ? size : held[i].size;
    struct osdp_block given = rattle_realloc(held[i].block, kept, size, 16);
    demand(given.block != NULL, "a pointer is null");
    if (given.ok) {
        held[i].block = given.block;
        held[i].size = kept;
        check(i);
        held[i].size = size;
        memset(held[i].block, held[i].mark, size);
    }
    check(i);
    return !given.ok;
}

int main(int count, char **words)
{
    bool is_pool = count > 1 && strcmp(words[1], "pool") == 0;
    int refused = 0;
    struct osdp_block none = rattle_alloc(0, 16), next = rattle_alloc(0, 16); /* of no bytes, from a heap of which nothing was asked before */
    demand(none.ok && next.ok && none.block != next.block, "blocks of no bytes aren't given, or are one block");
    rattle_dealloc(none.block);
    rattle_dealloc(next.block);
    for (int k = 0; k < 20000; k++) {
        int i = (int)below(MOST);
        refused += held[i].block != NULL && below(2) == 0 ? grow(i) : step(i);
    }
    for (int i = 0; i < MOST; i++) {
        if (held[i].block != NULL) {
            step(i);
        }
    }
    demand(is_pool == (refused > 0), "blocks were refused, or none was");
    struct osdp_block most = rattle_alloc(131072 - 16, 16);
    demand(most.ok, "what was given back isn't joined");
    struct osdp_block more = rattle_alloc(SIZE_MAX / 2, 16);
    demand(!more.ok && more.block != NULL, "more was given than there is, or the pointer of none is null");
    memset(most.block, 7, 131072 - 16);
    more = rattle_realloc(most.block, 131072 - 16, SIZE_MAX / 2, 16);
    demand(!more.ok && more.block != NULL, "a block became longer than there is, or the pointer of none is null");
    demand(((unsigned char *)most.block)[0] == 7 && ((unsigned char *)most.block)[131071 - 16] == 7, "a block that couldn't become longer is gone");
    demand(!is_pool || !rattle_alloc(0, 1).ok, "more was given than there is");
    rattle_dealloc(most.block);
    return 0;
}
