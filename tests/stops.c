/* Preloaded into a panel's program, stops it by SIGSTOP before a call that the test names, and writes down each packet that goes to its port: the last moment of the program before,
 * the moment of the write, both in milliseconds, whether it told the first one since its last line `tick`, and its bytes. The last moment is the one that it told `osdp panel` in its last
 * line `at`, or else the one that it took last. STOPS_CONTROL names a file of three numbers of 32 bits: before which call it is
 * to stop, 0 for none; how many of these go by before; and how often it has stopped. STOPS_LOG names what is written. Programs that it starts aren't stopped. */
#define _GNU_SOURCE
#include <errno.h>
#include <fcntl.h>
#include <poll.h>
#include <signal.h>
#include <stdint.h>
#include <stdio.h>
#include <stdlib.h>
#include <sys/mman.h>
#include <sys/select.h>
#include <sys/syscall.h>
#include <time.h>
#include <unistd.h>

enum call { WAIT = 1, CLOCK, READ, PIPE, PORT };

static volatile uint32_t *control;
static int log_end = -1;
static uint64_t taken;            /* the moment that was taken last */
static uint64_t told;             /* that of the last line `at`, by the program's own clock */
static uint64_t begun = UINT64_MAX; /* when that clock began: no line is written sooner than it says */
static int is_new;                /* whether that line came after the last line `tick` */

static uint64_t moment(void)
{
    struct timespec now;
    syscall(SYS_clock_gettime, CLOCK_BOOTTIME, &now);
    return (uint64_t)now.tv_sec * 1000 + (uint64_t)now.tv_nsec / 1000000;
}

__attribute__((constructor)) static void begin(void)
{
    const char *name = getenv("STOPS_CONTROL"), *log = getenv("STOPS_LOG");
    if (name == NULL || log == NULL) return;
    int file = open(name, O_RDWR | O_CLOEXEC), end = open(log, O_WRONLY | O_APPEND | O_CREAT | O_CLOEXEC, 0600);
    void *at = mmap(NULL, 3 * sizeof(uint32_t), PROT_READ | PROT_WRITE, MAP_SHARED, file, 0);
    if (at != MAP_FAILED) control = at;
    log_end = fcntl(end, F_DUPFD_CLOEXEC, 300); /* the program's own ends keep the numbers that they would have */
    close(file);
    close(end);
    unsetenv("LD_PRELOAD");
}

/* Stops where it is to stop before this call. */
static void stops(enum call call)
{
    int before = errno;
    if (control != NULL && control[0] == call) {
        if (control[1] > 0) {
            control[1]--;
        } else {
            control[0] = 0;
            control[2]++;
            syscall(SYS_kill, getpid(), SIGSTOP);
        }
    }
    errno = before;
}

int clock_gettime(clockid_t clock, struct timespec *now)
{
    if (clock != CLOCK_BOOTTIME) return (int)syscall(SYS_clock_gettime, clock, now);
    stops(CLOCK);
    int result = (int)syscall(SYS_clock_gettime, clock, now);
    taken = (uint64_t)now->tv_sec * 1000 + (uint64_t)now->tv_nsec / 1000000;
    return result;
}

#pragma GCC diagnostic ignored "-Wmaybe-uninitialized" /* the header says that poll reads nothing of its ends */
int ppoll(struct pollfd *ends, nfds_t count, const struct timespec *wait, const sigset_t *blocked)
{
    struct timespec most = {wait == NULL ? 0 : wait->tv_sec, wait == NULL ? 0 : wait->tv_nsec};
    stops(count > 0 && (ends[0].events & POLLOUT) != 0 ? PORT : WAIT); /* before a write the port is waited for */
    return (int)syscall(SYS_ppoll, ends, count, wait == NULL ? NULL : &most, blocked, 8);
}

int poll(struct pollfd *ends, nfds_t count, int wait)
{
    struct timespec most = {wait / 1000, wait % 1000 * 1000000};
    return ppoll(ends, count, wait < 0 ? NULL : &most, NULL);
}

int select(int count, fd_set *restrict reads, fd_set *restrict writes, fd_set *restrict fails, struct timeval *restrict wait)
{
    stops(reads == NULL && writes != NULL ? PORT : WAIT);
    struct timespec most = {wait == NULL ? 0 : wait->tv_sec, wait == NULL ? 0 : wait->tv_usec * 1000};
    return (int)syscall(SYS_pselect6, count, reads, writes, fails, wait == NULL ? NULL : &most, NULL);
}

ssize_t read(int end, void *bytes, size_t count)
{
    stops(READ);
    return (ssize_t)syscall(SYS_read, end, bytes, count);
}

/* Writes down a packet, with how it goes out. */
static void notes(const unsigned char *bytes, size_t count)
{
    char line[3000];
    unsigned long long last = begun == UINT64_MAX ? taken : begun + told, now = moment();
    int at = snprintf(line, sizeof line, "%llu %llu %d ", last, now, is_new);
    for (size_t each = 0; each < count && at < (int)sizeof line - 4; each++) at += snprintf(line + at, 3, "%02X", bytes[each]);
    line[at++] = '\n';
    (void)!syscall(SYS_write, log_end, line, (size_t)at);
}

/* Takes the moment of a line `at`, and notes a line `tick`. */
static void hears(const char *line, size_t count)
{
    if (count == 5 && line[0] == 't' && line[1] == 'i') is_new = 0;
    if (count < 4 || line[0] != 'a' || line[1] != 't' || line[2] != ' ') return;
    is_new = 1;
    told = 0;
    for (size_t each = 3; each < count && line[each] >= '0' && line[each] <= '9'; each++) told = 10 * told + (uint64_t)(line[each] - '0');
    uint64_t now = moment();
    if (now - told < begun) begun = now - told;
}

ssize_t write(int end, const void *bytes, size_t count)
{
    int before = errno, is_port = isatty(end);
    errno = before;
    if (!is_port) hears(bytes, count);
    stops(is_port ? PORT : PIPE);
    ssize_t result = (ssize_t)syscall(SYS_write, end, bytes, count);
    before = errno;
    if (is_port && result > 0) notes(bytes, (size_t)result);
    errno = before;
    return result;
}
