/* Preloaded into a program, refuses one of its requests for memory: the one whose number, from 1, stands in
 * REFUSED_REQUEST, and with a "+" after the number all that follow it too. Where it has refused one it makes the
 * file whose name stands in REFUSED_MARK. Counting begins before main. */
#include <errno.h>
#include <fcntl.h>
#include <stdatomic.h>
#include <stddef.h>
#include <stdlib.h>
#include <unistd.h>

extern void *__libc_malloc(size_t);
extern void *__libc_calloc(size_t, size_t);
extern void *__libc_realloc(void *, size_t);
extern void *__libc_memalign(size_t, size_t);

static unsigned long wanted;
static int and_all_after;
static const char *mark;
static atomic_ulong requests;

__attribute__((constructor)) static void begin(void) {
    const char *number = getenv("REFUSED_REQUEST");
    char *after = NULL;
    if (number == NULL) return;
    mark = getenv("REFUSED_MARK");
    wanted = strtoul(number, &after, 10);
    and_all_after = *after == '+';
}

static int is_refused(void) {
    if (wanted == 0) return 0;
    unsigned long request = ++requests;
    if (request != wanted && !(and_all_after && request > wanted)) return 0;
    if (mark != NULL) {
        int file = open(mark, O_CREAT | O_WRONLY, 0600);
        if (file >= 0) close(file);
    }
    errno = ENOMEM;
    return 1;
}

void *malloc(size_t size) { return is_refused() ? NULL : __libc_malloc(size); }

void *calloc(size_t count, size_t size) { return is_refused() ? NULL : __libc_calloc(count, size); }

void *realloc(void *old, size_t size) { return is_refused() ? NULL : __libc_realloc(old, size); }

void *memalign(size_t alignment, size_t size) { return is_refused() ? NULL : __libc_memalign(alignment, size); }

void *aligned_alloc(size_t alignment, size_t size) { return memalign(alignment, size); }

int posix_memalign(void **place, size_t alignment, size_t size) {
    void *found = memalign(alignment, size);
    if (found == NULL) return ENOMEM;
    *place = found;
    return 0;
}
