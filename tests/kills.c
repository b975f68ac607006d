/* Preloaded into a program, counts what it does to the files of one folder, STORE_FOLDER: each write, cut, making, link, removal and sync. The program is killed before
 * the call whose number, from 1, stands in STORE_KILL; of a write half the bytes go out before that. STORE_COUNT names a file that gets a byte for each call.
 *
 * STORE_DURABLE names a folder that gets what a loss of power would leave: of a file the bytes that were there at its last sync, by its number, and of the folder
 * the names that it had at its own last sync, in `names`. While the file named by STORE_FULL is there no write succeeds; while that named by STORE_READ_ONLY is there no
 * file is opened to be written, either. While that named by STORE_SLOW is there each sync takes as many milliseconds longer as STORE_WAIT says, and while that named by
 * STORE_STOPPED is there none ends. */
#define _GNU_SOURCE
#include <dirent.h>
#include <errno.h>
#include <fcntl.h>
#include <limits.h>
#include <signal.h>
#include <stdarg.h>
#include <stdbool.h>
#include <stdio.h>
#include <stdlib.h>
#include <string.h>
#include <sys/stat.h>
#include <sys/syscall.h>
#include <time.h>
#include <unistd.h>

static long done; /* how many calls there were */

static bool is_there(const char *variable)
{
    const char *path = getenv(variable);
    return path != NULL && access(path, F_OK) == 0;
}

/* Whether a path lies in the folder, or is it. The mapped file of the log's index isn't asked for: no loss of power keeps it. */
static bool is_path_ours(const char *path)
{
    const char *folder = getenv("STORE_FOLDER");
    size_t length = folder != NULL ? strlen(folder) : 0, whole = strlen(path);
    return length > 0 && strncmp(path, folder, length) == 0 && (path[length] == '/' || path[length] == '\0') && !(whole > 4 && strcmp(path + whole - 4, "-shm") == 0);
}

static bool is_ours(int file)
{
    char name[40], path[PATH_MAX];
    (void)snprintf(name, sizeof name, "/proc/self/fd/%d", file);
    ssize_t length = readlink(name, path, sizeof path - 1);
    path[length > 0 ? length : 0] = '\0';
    return is_path_ours(path);
}

/* One more call. Whether the program is to be killed at it. */
static bool counts(void)
{
    const char *count = getenv("STORE_COUNT"), *at = getenv("STORE_KILL");
    int file = count != NULL ? open(count, O_WRONLY | O_CREAT | O_APPEND | O_CLOEXEC, 0600) : -1;
    if (file >= 0) {
        (void)!syscall(SYS_write, file, ".", 1);
        (void)close(file);
    }
    return ++done == (at != NULL ? strtol(at, NULL, 10) : 0);
}

static void ends(void)
{
    (void)kill(getpid(), SIGKILL);
}

static void counts_or_ends(void)
{
    if (counts()) {
        ends();
    }
}

/* What a loss of power leaves of a file from now on. */
static void keeps(int file)
{
    char path[PATH_MAX], new[PATH_MAX + 8], bytes[65536];
    struct stat found;
    const char *durable = getenv("STORE_DURABLE");
    if (durable == NULL || fstat(file, &found) != 0 || !S_ISREG(found.st_mode)) {
        return;
    }
    (void)snprintf(path, sizeof path, "%s/%llu", durable, (unsigned long long)found.st_ino);
    (void)snprintf(new, sizeof new, "%s.new", path);
    int kept = open(new, O_WRONLY | O_CREAT | O_TRUNC | O_CLOEXEC, 0600);
    for (off_t at = 0; kept >= 0 && at < found.st_size;) {
        ssize_t length = pread(file, bytes, sizeof bytes, at);
        if (length <= 0) {
            break;
        }
        (void)!syscall(SYS_write, kept, bytes, (size_t)length);
        at += length;
    }
    (void)close(kept);
    (void)syscall(SYS_rename, new, path);
}

/* The names that a loss of power leaves in the folder from now on, with the numbers of their files. */
static void keeps_names(int folder)
{
    char path[PATH_MAX], new[PATH_MAX + 8], line[PATH_MAX];
    const char *durable = getenv("STORE_DURABLE");
    int again = durable != NULL ? openat(folder, ".", O_RDONLY | O_DIRECTORY | O_CLOEXEC) : -1;
    DIR *names = again >= 0 ? fdopendir(again) : NULL;
    if (names == NULL) {
        return;
    }
    (void)snprintf(path, sizeof path, "%s/names", durable);
    (void)snprintf(new, sizeof new, "%s.new", path);
    int kept = open(new, O_WRONLY | O_CREAT | O_TRUNC | O_CLOEXEC, 0600);
    for (struct dirent *each = readdir(names); each != NULL; each = readdir(names)) {
        int length = snprintf(line, sizeof line, "%llu %s\n", (unsigned long long)each->d_ino, each->d_name);
        (void)!syscall(SYS_write, kept, line, (size_t)length);
    }
    (void)close(kept);
    (void)closedir(names);
    (void)syscall(SYS_rename, new, path);
}

static void sleeps(long milliseconds)
{
    struct timespec rest = { milliseconds / 1000, milliseconds % 1000 * 1000000 };
    while (nanosleep(&rest, &rest) != 0) {
    }
}

static int syncs(int file, long call)
{
    struct stat found;
    if (!is_ours(file)) {
        return (int)syscall(call, file);
    }
    counts_or_ends();
    if (is_there("STORE_SLOW")) {
        sleeps(strtol(getenv("STORE_WAIT"), NULL, 10));
    }
    while (is_there("STORE_STOPPED")) {
        sleeps(20);
    }
    int status = (int)syscall(call, file);
    if (status == 0 && fstat(file, &found) == 0) {
        S_ISDIR(found.st_mode) ? keeps_names(file) : keeps(file);
    }
    return status;
}

int fsync(int file)
{
    return syncs(file, SYS_fsync);
}

int fdatasync(int file)
{
    return syncs(file, SYS_fdatasync);
}

/* Whether a write is to fail: the disk is full, or may be read alone. */
static bool is_full(void)
{
    bool full = is_there("STORE_FULL"), read_only = is_there("STORE_READ_ONLY");
    errno = read_only ? EROFS : full ? ENOSPC : errno;
    return full || read_only;
}

static ssize_t writes(int file, const void *bytes, size_t length, off_t at, bool has_place)
{
    long call = has_place ? SYS_pwrite64 : SYS_write;
    if (!is_ours(file)) {
        return syscall(call, file, bytes, length, at);
    }
    if (counts()) {
        (void)!syscall(call, file, bytes, length / 2, at);
        ends();
    }
    return is_full() ? -1 : syscall(call, file, bytes, length, at);
}

ssize_t write(int file, const void *bytes, size_t length)
{
    return writes(file, bytes, length, 0, false);
}

ssize_t pwrite64(int file, const void *bytes, size_t length, off_t at)
{
    return writes(file, bytes, length, at, true);
}

ssize_t pwrite(int file, const void *bytes, size_t length, off_t at)
{
    return writes(file, bytes, length, at, true);
}

int ftruncate64(int file, off_t length)
{
    if (is_ours(file)) {
        counts_or_ends();
    }
    return (int)syscall(SYS_ftruncate, file, length);
}

int ftruncate(int file, off_t length)
{
    return ftruncate64(file, length);
}

int unlink(const char *path)
{
    if (is_path_ours(path)) {
        counts_or_ends();
    }
    return (int)syscall(SYS_unlink, path);
}

int link(const char *from, const char *to)
{
    if (is_path_ours(to)) {
        counts_or_ends();
    }
    return (int)syscall(SYS_link, from, to);
}

int linkat(int from_folder, const char *from, int to_folder, const char *to, int flags)
{
    if (is_path_ours(to)) {
        counts_or_ends();
    }
    return (int)syscall(SYS_linkat, from_folder, from, to_folder, to, flags);
}

/* A file that is made, or opened to be written. */
static int opens(const char *path, int flags, mode_t mode)
{
    if ((flags & (O_WRONLY | O_RDWR)) != 0 && is_path_ours(path) && is_there("STORE_READ_ONLY")) {
        errno = EROFS;
        return -1;
    }
    if ((flags & O_CREAT) != 0 && is_path_ours(path)) {
        counts_or_ends();
        if (access(path, F_OK) != 0 && is_full()) {
            return -1;
        }
    }
    return (int)syscall(SYS_openat, AT_FDCWD, path, flags, mode);
}

int open64(const char *path, int flags, ...)
{
    va_list rest;
    va_start(rest, flags);
    mode_t mode = (flags & (O_CREAT | O_TMPFILE)) != 0 ? va_arg(rest, mode_t) : 0;
    va_end(rest);
    return opens(path, flags, mode);
}

int open(const char *path, int flags, ...)
{
    va_list rest;
    va_start(rest, flags);
    mode_t mode = (flags & (O_CREAT | O_TMPFILE)) != 0 ? va_arg(rest, mode_t) : 0;
    va_end(rest);
    return opens(path, flags, mode);
}
