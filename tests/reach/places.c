/* Calls what `reach_places.py` makes of each changed place, over memory from one seed, and prints what it leaves, a line for each. */
#include "osdp.h"
#include "reach.h"

typedef void tried(uint8_t *to, uint8_t *from, uint64_t count);
extern tried *const calls[];
extern const uint32_t calls_count;

enum { ROOM = 16384, ROUNDS = 6, WORDS = 2 * ROOM / 8 };

static union {
    uint8_t bytes[2 * ROOM];
    uint64_t words[WORDS];
} memory;
static uint64_t seed, heap[64], last;

uint64_t last_block(void);

/* The address of the block that was given last. */
uint64_t last_block(void)
{
    return last;
}

/* One block at a time; one that is larger than all there is isn't given. */
struct osdp_block rattle_alloc(size_t size, size_t align)
{
    struct osdp_block given = { size <= sizeof heap, &heap[align % 8] };
    last = (uintptr_t)given.block;
    return given;
}

/* A block that grows, where the byte at `kept` of the old one is even: so it tells both. */
struct osdp_block rattle_realloc(void *block, size_t kept, size_t size, size_t align)
{
    struct osdp_block given = rattle_alloc(size, align);
    given.ok = given.ok && ((const uint8_t *)block)[kept] % 2 == 0;
    return given;
}

void rattle_dealloc(void *block)
{
    (void)block;
}

static uint64_t next(void)
{
    seed ^= seed << 13;
    seed ^= seed >> 7;
    seed ^= seed << 17;
    return seed;
}

/* The bytes of a call are its place's own; in some rounds the numbers that it reads are small, or nothing but ones. */
static void fill(int round)
{
    for (uint32_t i = 0; i < WORDS; i++) {
        memory.words[i] = next();
    }
    for (uint32_t i = 0; round > 3 && i < 2; i++) {
        memory.words[i] = round == 4 ? memory.words[i] & 255 : UINT64_MAX;
    }
}

static uint64_t hashed(uint64_t hash)
{
    for (uint32_t i = 0; i < WORDS; i++) {
        hash = (hash ^ memory.words[i]) * 0x100000001B3u;
        hash ^= hash >> 29;
    }
    return hash;
}

static void tell(uint64_t hash)
{
    static const char digits[] = "0123456789abcdef";
    char text[18];
    for (int i = 0; i < 16; i++) {
        text[i] = digits[hash >> (60 - 4 * i) & 15];
    }
    text[16] = '\n';
    text[17] = 0;
    print(text);
}

/* What is written lies far from what is read, or eight bytes after it. */
void session(void)
{
    for (uint32_t i = 0; i < calls_count; i++) {
        uint64_t hash = 0xCBF29CE484222325u;
        seed = 0x9E3779B97F4A7C15u + i;
        for (int round = 0; round < ROUNDS; round++) {
            fill(round);
            calls[i](memory.bytes + (round % 2 == 0 ? ROOM : 8), memory.bytes, next() % 4096);
            hash = hashed(hash);
        }
        tell(hash);
    }
}
