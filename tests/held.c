/* Preloaded into a program, counts the bytes that it holds on the heap, and writes the most that it held at once to the file whose name
 * stands in HELD_MARK, when it ends. */
#include <malloc.h>
#include <stdio.h>
#include <stdlib.h>

extern void *__libc_malloc(size_t);
extern void *__libc_calloc(size_t, size_t);
extern void *__libc_realloc(void *, size_t);
extern void *__libc_memalign(size_t, size_t);
extern void __libc_free(void *);

static size_t held;
static size_t most;

static void *taken(void *block) {
    held += malloc_usable_size(block);
    if (held > most) most = held;
    return block;
}

void *malloc(size_t size) { return taken(__libc_malloc(size)); }

void *calloc(size_t count, size_t size) { return taken(__libc_calloc(count, size)); }

void *realloc(void *old, size_t size) {
    size_t before = malloc_usable_size(old);
    void *block = __libc_realloc(old, size);
    if (block == NULL && size != 0) return NULL;
    held -= before;
    return taken(block);
}

void *memalign(size_t alignment, size_t size) { return taken(__libc_memalign(alignment, size)); }

void *aligned_alloc(size_t alignment, size_t size) { return memalign(alignment, size); }

void free(void *block) {
    held -= malloc_usable_size(block);
    __libc_free(block);
}

__attribute__((destructor)) static void end(void) {
    const char *name = getenv("HELD_MARK");
    size_t told = most;
    FILE *file = name == NULL ? NULL : fopen(name, "w");
    if (file == NULL) return;
    fprintf(file, "%zu\n", told);
    fclose(file);
}
