/* Preloaded into a program, makes each of its syncs take as many milliseconds longer as SLOW_SYNC says, while the file whose name stands in SLOW_WHERE is there. */
#define _GNU_SOURCE
#include <stdlib.h>
#include <sys/syscall.h>
#include <time.h>
#include <unistd.h>

static void waits(void)
{
    const char *where = getenv("SLOW_WHERE"), *time = getenv("SLOW_SYNC");
    if (where != NULL && time != NULL && access(where, F_OK) == 0) {
        long wait = strtol(time, NULL, 10);
        struct timespec most = {wait / 1000, wait % 1000 * 1000000};
        while (nanosleep(&most, &most) != 0) {
        }
    }
}

int fsync(int file)
{
    waits();
    return (int)syscall(SYS_fsync, file);
}

int fdatasync(int file)
{
    waits();
    return (int)syscall(SYS_fdatasync, file);
}
