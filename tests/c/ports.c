/* The port of the examples (examples/c/port.c) on a pseudo terminal, with a clock that jumps, rates that the port hasn't and writes that go in pieces or not at
 * all: the calls that it makes are wrapped. It needs no archive. Each fault is told, and the status is 1 then. */
#define _GNU_SOURCE
#include "port.h"

#include <errno.h>
#include <fcntl.h>
#include <poll.h>
#include <signal.h>
#include <stdarg.h>
#include <stdio.h>
#include <stdlib.h>
#include <string.h>
#include <sys/wait.h>
#include <termios.h>
#include <time.h>
#include <unistd.h>

#include "words.h"

static int faults, port = -1, master, in_pieces;
static bool has_boot_time = true, is_blocked, skips_waits;
static clockid_t asked;      /* the clock that was asked last */
static time_t ahead, at_read, at_wait; /* how many seconds the clocks are ahead, and how many more at the next read of the port, or in the next wait */
static uint64_t stands, waited; /* the moment at which they stand still, or 0, and how long was waited since then, in milliseconds */
static speed_t missing = B0; /* the rate that the port hasn't */

static void demand(bool holds, const char *what)
{
    if (!holds) {
        printf("ports: %s\n", what);
        faults++;
    }
}

void tell(const char *format, ...)
{
    va_list rest;
    va_start(rest, format);
    vprintf(format, rest);
    va_end(rest);
}

void stop(int status, const char *format, ...)
{
    va_list rest;
    va_start(rest, format);
    vprintf(format, rest);
    va_end(rest);
    fflush(stdout);
    _exit(status);
}

void trace_sent(const uint8_t *bytes, size_t length)
{
    (void)bytes;
    (void)length;
}

void trace_came(const uint8_t *bytes, size_t length)
{
    (void)bytes;
    (void)length;
}

int __real_clock_gettime(clockid_t clock, struct timespec *now);
int __wrap_clock_gettime(clockid_t clock, struct timespec *now);
int __wrap_clock_gettime(clockid_t clock, struct timespec *now)
{
    asked = clock;
    if (clock == CLOCK_BOOTTIME && !has_boot_time) {
        errno = EINVAL;
        return -1;
    }
    int status = __real_clock_gettime(clock, now);
    now->tv_sec += ahead;
    if (stands != 0) {
        *now = (struct timespec){ (time_t)((stands + waited) / 1000), (long)((stands + waited) % 1000) * 1000000 };
    }
    return status;
}

/* A rate that the port hasn't becomes 9600, and the call says that all is well, as Linux does. */
int __real_tcsetattr(int file, int when, const struct termios *settings);
int __wrap_tcsetattr(int file, int when, const struct termios *settings);
int __wrap_tcsetattr(int file, int when, const struct termios *settings)
{
    struct termios set = *settings;
    if (missing != B0 && cfgetospeed(settings) == missing) {
        cfsetispeed(&set, B9600);
        cfsetospeed(&set, B9600);
    }
    return __real_tcsetattr(file, when, &set);
}

ssize_t __real_write(int file, const void *bytes, size_t length);
ssize_t __wrap_write(int file, const void *bytes, size_t length);
ssize_t __wrap_write(int file, const void *bytes, size_t length)
{
    if (file == port && (is_blocked || in_pieces % 3 == 1)) {
        in_pieces += in_pieces > 0;
        errno = EAGAIN;
        return -1;
    }
    if (file == port && in_pieces % 3 == 2) {
        in_pieces++;
        errno = EINTR;
        return -1;
    }
    bool is_piece = file == port && in_pieces > 0;
    in_pieces += is_piece;
    return __real_write(file, bytes, is_piece ? 1 : length);
}

/* The clocks go ahead at a read of the port, which gives two bytes at most. */
ssize_t __real_read(int file, void *bytes, size_t length);
ssize_t __wrap_read(int file, void *bytes, size_t length);
ssize_t __wrap_read(int file, void *bytes, size_t length)
{
    if (file == port) {
        ahead += at_read;
        at_read = 0;
    }
    return __real_read(file, bytes, file == port && length > 2 ? 2 : length);
}

int __real_ppoll(struct pollfd *ready, nfds_t count, const struct timespec *most, const sigset_t *held);
int __wrap_ppoll(struct pollfd *ready, nfds_t count, const struct timespec *most, const sigset_t *held);
int __wrap_ppoll(struct pollfd *ready, nfds_t count, const struct timespec *most, const sigset_t *held)
{
    if (skips_waits || stands != 0) {
        ahead += most->tv_sec;
        waited += (uint64_t)most->tv_sec * 1000 + (uint64_t)most->tv_nsec / 1000000;
        return 0;
    }
    int found = __real_ppoll(ready, count, most, held);
    ahead += at_wait;
    at_wait = 0;
    return found;
}

static speed_t speed(void)
{
    struct termios found;
    (void)tcgetattr(port, &found);
    return cfgetospeed(&found);
}

/* Time goes on while the computer sleeps, where the system has such a clock. */
static void clocks(void)
{
    uint64_t before = moment();
    demand(asked == CLOCK_BOOTTIME, "another clock is asked than that which goes on while the computer sleeps");
    has_boot_time = false;
    (void)moment();
    demand(asked == CLOCK_MONOTONIC, "without that clock no other one is asked");
    has_boot_time = true;
    demand(moment() >= before, "the clock goes backwards");
}

/* A rate that the port hasn't is refused, and the port stays as it was. */
static void rates(const char *path)
{
    demand(has_rate(19200) && has_rate(9600) && !has_rate(12345), "before the port is open other rates are there");
    missing = B19200;
    port = open_port(path, 38400);
    demand(!has_rate(19200) && has_rate(38400) && has_rate(9600) && has_rate(230400), "the rates of the port are others");
    demand(speed() == B38400, "the port isn't at its rate");
    demand(!set_rate(port, 19200) && speed() == B38400, "a rate that the port hasn't is set");
    missing = B57600; /* as where the adapter is another one now */
    demand(!set_rate(port, 57600) && speed() == B38400, "a rate that isn't read back is set");
    demand(set_rate(port, 9600) && speed() == B9600, "a rate that the port has isn't set");
}

/* Before the rate changes as much time passes as what was written takes, since an adapter may hold it still. */
static void goes_out(void)
{
    const struct osdp_burst burst = { 12, "\x53\x05\x0C\x00\x01\x54\x07\x00\x4B\x00\x00\x00" };
    uint8_t sent[64];
    stands = moment();
    demand(write_all(port, &burst, stands), "a burst that isn't late isn't written");
    demand(set_rate(port, 38400) && waited == 22, "at 9600 it isn't waited for twelve bytes and the adapter");
    demand(set_rate(port, 9600) && waited == 22, "it is waited for what has gone out");
    stands = 0;
    demand(read(master, sent, sizeof sent) == 12, "the burst is another one");
}

static uint64_t moment_read, wait_most; /* the moment that the last read gave, and how long a read waits at most */

/* How many bytes a read gives, after these have come. */
static size_t reads(const char *bytes)
{
    static struct lines lines = { .ended = true };
    uint8_t room[64];
    struct pollfd ready = { port, POLLIN, 0 };
    if (*bytes != '\0') {
        (void)__real_write(master, bytes, strlen(bytes));
        (void)__real_ppoll(&ready, 1, NULL, NULL);
    }
    return read_port(port, &lines, wait_most, room, sizeof room, &moment_read);
}

/* Bytes that came while the program was stopped are dropped, and those that come later are read. The moment is that of the wait's end. */
static void stopped(void)
{
    demand(reads("abc") == 3 && !was_stopped(), "what has come isn't read");
    ahead += 4;
    demand(reads("abcd") == 4 && !was_stopped(), "what came four seconds ago isn't read");
    ahead += 3600;
    demand(reads("ab") == 0 && was_stopped(), "what came an hour ago is read");
    demand(reads("abcde") == 5 && !was_stopped(), "after that nothing is read");
    demand(moment() - moment_read < 1000, "the moment is another one");
    at_read = 6; /* it stands still after the wait has ended, and before it has read */
    demand(reads("abc") == 0 && was_stopped(), "what was read late is handed on");
    demand(reads("") == 0 && was_stopped(), "that the program stood still isn't known at the next read");
    demand(reads("abc") == 3 && !was_stopped(), "after that nothing is read");
    at_wait = 6;
    demand(reads("ab") == 0 && was_stopped(), "what came before a wait that took too long is read");
    demand(reads("abc") == 3 && !was_stopped(), "after that nothing is read");
    wait_most = 60000;
    ahead += 6;
    demand(reads("ab") == 0 && was_stopped(), "what came before a turn that took too long is read where a wait may be long");
    wait_most = 0;
    at_wait = 4;
    demand(reads("ab") == 2 && !was_stopped(), "a wait that didn't take too long is taken for one");
    set_late(200);
    ahead += 1;
    demand(reads("ab") == 0 && was_stopped(), "a setting of 200 ms isn't kept");
    set_late(5000);
    (void)reads("");
    hear_all();
    ahead += 3600;
    demand(reads("ab") == 2 && was_stopped(), "a program that listens doesn't read what came an hour ago");
}

/* What is late isn't written, and what is as late as may be is. */
static void late_writes(void)
{
    const struct osdp_burst burst = { 8, "\x53\x05\x08\x00\x05\x60\x40\x41" };
    const struct osdp_burst nothing = { 0 };
    uint8_t sent[64];
    stands = moment();
    waited = 0;
    demand(!write_all(port, &burst, stands - 5001), "a burst that is late by 5,001 ms is written");
    demand(write_all(port, &nothing, 0), "where there is no burst one is late");
    demand(write_all(port, &burst, stands - 5000), "a burst that is late by 5,000 ms isn't written");
    set_late(200);
    demand(is_too_late(stands - 201) && !is_too_late(stands - 200), "another setting isn't kept");
    set_late(5000);
    stands = 0;
    demand(read(master, sent, sizeof sent) == 8, "the burst that isn't late is another one, or one more was written");
}

static void tell_cause(const char *cause)
{
    printf("%s ", cause);
}

/* How many bytes have come to the other end, once these are there or nothing comes for five seconds: a terminal hands pieces on one after the other. */
static size_t comes(uint8_t *sent, size_t wanted)
{
    struct pollfd other = { .fd = master, .events = POLLIN };
    size_t count = 0;
    while (count < wanted && poll(&other, 1, 5000) > 0) {
        ssize_t more = read(master, sent + count, wanted - count);
        if (more <= 0) {
            break;
        }
        count += (size_t)more;
    }
    return poll(&other, 1, 0) > 0 ? wanted + 1 : count;
}

/* A burst goes out whole, in however many pieces; where the port takes nothing the program ends. */
static void writes(void)
{
    const struct osdp_burst burst = { 8, "\x53\x05\x07\x00\x01\x60\x40\x41" };
    uint8_t sent[64];
    char said[128] = "";
    int pipes[2], status;
    in_pieces = 1;
    demand(write_all(port, &burst, moment()), "a burst in pieces isn't written");
    in_pieces = 0;
    demand(comes(sent, 8) == 8 && memcmp(sent, burst.bytes, 8) == 0, "a burst in pieces is another one");
    demand(pipe(pipes) == 0, "there is no pipe");
    fflush(stdout);
    pid_t child = fork();
    if (child == 0) {
        (void)dup2(pipes[1], STDOUT_FILENO);
        is_blocked = skips_waits = true;
        before_end(tell_cause);
        (void)write_all(port, &burst, moment());
        _exit(0);
    }
    (void)waitpid(child, &status, 0);
    demand(WIFEXITED(status) && WEXITSTATUS(status) == FAILED, "where the port takes nothing the program doesn't end");
    (void)!read(pipes[0], said, sizeof said - 1);
    demand(strcmp(said, "port-gone the port can't be written") == 0, said);
}

int main(void)
{
    struct termios raw;
    alarm(60);
    master = posix_openpt(O_RDWR | O_NOCTTY);
    demand(master >= 0 && grantpt(master) == 0 && unlockpt(master) == 0 && tcgetattr(master, &raw) == 0, "there is no pseudo terminal");
    cfmakeraw(&raw);
    (void)__real_tcsetattr(master, TCSANOW, &raw);
    clocks();
    rates(ptsname(master));
    goes_out();
    stopped();
    late_writes();
    writes();
    return faults == 0 ? 0 : 1;
}
