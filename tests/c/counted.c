/* Stands between the heap and malloc: the linker is told `--wrap=malloc,--wrap=realloc,--wrap=free`. */
#include "counted.h"

size_t blocks_asked;
size_t bytes_given;
size_t blocks_held;
size_t block_refused;

void *__real_malloc(size_t size);
void *__real_realloc(void *block, size_t size);
void __real_free(void *block);
void *__wrap_malloc(size_t size);
void *__wrap_realloc(void *block, size_t size);
void __wrap_free(void *block);

void *__wrap_malloc(size_t size)
{
    blocks_asked++;
    if (blocks_asked == block_refused) {
        return NULL;
    }
    blocks_held++;
    bytes_given += size;
    return __real_malloc(size);
}

void *__wrap_realloc(void *block, size_t size)
{
    blocks_asked++;
    return blocks_asked == block_refused ? NULL : __real_realloc(block, size);
}

void __wrap_free(void *block)
{
    blocks_held--;
    __real_free(block);
}
