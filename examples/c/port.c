/* A serial port, a clock and lines, by POSIX calls. */
#define _GNU_SOURCE
#include "port.h"

#include <errno.h>
#include <fcntl.h>
#include <poll.h>
#include <signal.h>
#include <stdlib.h>
#include <string.h>
#include <sys/file.h>
#include <sys/ioctl.h>
#include <termios.h>
#include <time.h>
#include <unistd.h>

#include "owner.h"
#include "words.h"

static const struct {
    uint32_t rate;
    speed_t speed;
} speeds[] = { { 9600, B9600 }, { 19200, B19200 }, { 38400, B38400 }, { 57600, B57600 }, { 115200, B115200 }, { 230400, B230400 } };

enum { RATES = sizeof speeds / sizeof speeds[0] };
#define OUT_SLACK 10 /* milliseconds that an adapter may take until it begins to send */
#define FULL 5000    /* milliseconds after which a port that takes nothing has failed */

static uint32_t late = 5000; /* how late the program may be, in milliseconds */
static uint64_t gone_out;   /* when the last burst that was written has gone out */
static uint32_t port_rate;  /* the rate at which it goes */
static bool refuses[RATES]; /* which of these rates the port hasn't, as was tried when it was opened */

/* CLOCK_MONOTONIC stands still while the computer sleeps: a card from before would seem to be new after it. */
uint64_t moment(void)
{
    struct timespec now;
#ifdef CLOCK_BOOTTIME
    if (clock_gettime(CLOCK_BOOTTIME, &now) != 0) /* an old kernel hasn't it */
#endif
        clock_gettime(CLOCK_MONOTONIC, &now);
    return (uint64_t)now.tv_sec * 1000 + (uint64_t)now.tv_nsec / 1000000;
}

void set_late(uint32_t milliseconds)
{
    late = milliseconds;
}

uint32_t late_by(void)
{
    return late;
}

bool is_too_late(uint64_t since)
{
    return moment() - since > late;
}

/* The speed of a rate; B0 where the port hasn't it. */
static speed_t speed_of(uint32_t rate)
{
    for (size_t i = 0; i < RATES; i++) {
        if (speeds[i].rate == rate && !refuses[i]) {
            return speeds[i].speed;
        }
    }
    return B0;
}

bool has_rate(uint32_t rate)
{
    return speed_of(rate) != B0;
}

/* Whether the port stands as it was set: the call that sets it says so too where it has set a part. */
static bool is_set(int port, speed_t speed)
{
    struct termios found;
    return tcgetattr(port, &found) == 0 && cfgetospeed(&found) == speed && (cfgetispeed(&found) == speed || cfgetispeed(&found) == B0) &&
           (found.c_cflag & (CSIZE | PARENB | CSTOPB)) == CS8;
}

static int wait_for(struct pollfd *ready, nfds_t count, uint64_t wait);

/* Some adapters say that all has gone out while they hold the rest of it: the time that it takes is waited for. */
static void wait_out(void)
{
    for (uint64_t now = moment(); now < gone_out; now = moment()) {
        (void)wait_for(NULL, 0, gone_out - now);
    }
}

bool set_rate(int port, uint32_t rate)
{
    struct termios before, settings;
    speed_t speed = speed_of(rate);
    if (speed == B0 || tcgetattr(port, &before) != 0) {
        return false;
    }
    wait_out();
    settings = before;
    settings.c_iflag = settings.c_oflag = settings.c_lflag = 0;
    settings.c_cflag = CS8 | CREAD | CLOCAL;
    settings.c_cc[VMIN] = 1;
    settings.c_cc[VTIME] = 0;
    cfsetispeed(&settings, speed);
    cfsetospeed(&settings, speed);
    if (tcsetattr(port, TCSADRAIN, &settings) == 0 && is_set(port, speed)) {
        port_rate = rate;
        return true;
    }
    (void)tcsetattr(port, TCSADRAIN, &before);
    return false;
}

/* Tries each rate: a COMSET to one that the port hasn't would leave a device where nobody finds it. */
static void try_rates(int port)
{
    for (size_t i = 0; i < RATES; i++) {
        refuses[i] = !set_rate(port, speeds[i].rate);
    }
}

static volatile sig_atomic_t stopped; /* the signal that ends the program */
static sigset_t while_waiting;        /* the signals that are held back while the program waits: not those that end it */
static void (*last_words)(const char *cause);

static void note_signal(int number)
{
    stopped = number;
}

void before_end(void (*tells)(const char *cause))
{
    last_words = tells;
}

/* What is left to be told before the program ends. */
static void tell_last(const char *cause)
{
    void (*tells)(const char *) = last_words;
    last_words = NULL;
    if (tells != NULL) {
        tells(cause);
    }
}

/* The port has failed. */
static _Noreturn void fail(const char *why)
{
    tell_last("port-gone");
    stop(FAILED, "%s", why);
}

void demand_rate(int port, uint32_t rate)
{
    if (!set_rate(port, rate)) {
        fail("the port can't be set");
    }
}

/* Waits so many milliseconds at most, and ends the program at Ctrl-C, or where its terminal is closed. The signals that end it come here alone, so that none is missed. */
static int wait_for(struct pollfd *ready, nfds_t count, uint64_t wait)
{
    const struct timespec most = { (time_t)(wait / 1000), (long)(wait % 1000) * 1000000 };
    int found = ppoll(ready, count, &most, &while_waiting);
    if (stopped != 0) {
        tell_last("stopped");
        exit(128 + stopped);
    }
    return found;
}

/* Holds back the signals that end the program, but while it waits. */
static void take_signals(void)
{
    const struct sigaction ends = { .sa_handler = note_signal };
    static const int signals[] = { SIGINT, SIGTERM, SIGHUP };
    const size_t count = sizeof signals / sizeof signals[0];
    struct sigaction before;
    sigset_t held;
    sigemptyset(&held);
    for (size_t i = 0; i < count; i++) {
        bool is_ignored = signals[i] == SIGHUP && sigaction(SIGHUP, NULL, &before) == 0 && before.sa_handler == SIG_IGN; /* as under `nohup` */
        if (!is_ignored) {
            sigaddset(&held, signals[i]);
        }
    }
    sigprocmask(SIG_BLOCK, &held, &while_waiting);
    for (size_t i = 0; i < count; i++) {
        if (sigismember(&held, signals[i]) == 1) {
            sigdelset(&while_waiting, signals[i]);
            sigaction(signals[i], &ends, NULL);
        }
    }
}

/* Another program has the port. */
static _Noreturn void refuse_taken(const char *path)
{
    char owner[128];
    find_owner(path, owner, sizeof owner);
    stop(FAILED, "another program has the port %s%s%s", path, owner[0] != '\0' ? ": " : "", owner);
}

int open_port(const char *path, uint32_t rate)
{
    if (!has_rate(rate)) {
        stop(FAILED, "the port has no such rate");
    }
    int port = open(path, O_RDWR | O_NOCTTY | O_NONBLOCK | O_CLOEXEC);
    if (port < 0 && errno == EBUSY) {
        refuse_taken(path);
    }
    if (port < 0) {
        stop(FAILED, "the port can't be opened: %s", strerror(errno));
    }
    if (!isatty(port)) {
        stop(FAILED, "the port is no serial port");
    }
    if (flock(port, LOCK_EX | LOCK_NB) != 0 && errno == EWOULDBLOCK) {
        refuse_taken(path); /* the lock holds for programs of root too, which TIOCEXCL lets through */
    }
    try_rates(port);
    if (!set_rate(port, rate)) {
        stop(FAILED, has_rate(rate) ? "the port can't be set" : "the port has no such rate");
    }
    (void)ioctl(port, TIOCEXCL); /* no other program opens it, but for one of root */
    take_signals();
    return port;
}

bool write_all(int port, const struct osdp_burst *burst, uint64_t since)
{
    size_t at = 0;
    uint64_t began = moment();
    if (burst->length > 0 && is_too_late(since)) {
        return false;
    }
    while (at < burst->length) {
        ssize_t count = write(port, burst->bytes + at, burst->length - at);
        if (count < 0 && errno == EAGAIN && moment() - began <= FULL) {
            (void)wait_for(&(struct pollfd){ port, POLLOUT, 0 }, 1, 1000); /* what was written before has not gone out yet */
        } else if (count < 0 && errno != EINTR) {
            (void)tcflush(port, TCOFLUSH); /* what has not gone out by now is too old */
            fail("the port can't be written");
        }
        at += count > 0 ? (size_t)count : 0;
    }
    if (burst->length > 0) {
        gone_out = (began > gone_out ? began : gone_out) + 10000u * burst->length / port_rate + OUT_SLACK; /* a byte has ten bits */
        trace_sent(burst->bytes, burst->length);
    }
    return true;
}

/* Takes a piece of standard input to what is held of it, with a place left for the end of the last line. A line that doesn't fit is dropped. Whether that was all that is there. */
static bool read_lines(struct lines *lines)
{
    lines->length -= lines->start;
    memmove(lines->held, lines->held + lines->start, lines->length);
    lines->start = 0;
    if (lines->length + 1 == sizeof lines->held) {
        lines->length = 0;
        lines->skips = true;
    }
    size_t room = sizeof lines->held - lines->length - 1;
    ssize_t count = read(STDIN_FILENO, lines->held + lines->length, room);
    if (count < 0 && (errno == EINTR || errno == EAGAIN)) {
        return false; /* another program that has the same terminal has read first */
    }
    lines->ended = count <= 0;
    lines->length += count > 0 ? (size_t)count : 0;
    if (lines->ended && (lines->length > 0 || lines->skips)) {
        lines->held[lines->length++] = '\n';
    }
    return count < (ssize_t)room;
}

static bool stood_still; /* whether the program did when the last read ended */
static bool hears_all;   /* whether bytes are read that have waited for so long */

bool was_stopped(void)
{
    return stood_still;
}

void hear_all(void)
{
    hears_all = true;
}

/* The program stood still: what has come is dropped, and none of it is read. An order of long ago, which its panel has given up, isn't done. */
static void drop_all(int port)
{
    stood_still = true;
    if (!hears_all) {
        (void)tcflush(port, TCIFLUSH);
    }
}

/* Waits for a read, and takes the moments before and after it. What takes too long is either the turn since the last wait, or this wait. */
static int wait_to_read(struct pollfd *ready, uint64_t wait, uint64_t *before, uint64_t *now)
{
    static uint64_t last; /* when the last wait ended */
    uint64_t began = *before = moment();
    last = last != 0 ? last : began;
    int found = wait_for(ready, 2, wait);
    *now = moment();
    stood_still = began - last > late || *now - last > wait + late;
    last = *now;
    if (stood_still) {
        drop_all(ready[0].fd);
    }
    return found;
}

/* Reads all bytes that are there, and for which there is room: none where another program has taken them away, or they were too old. */
static size_t read_all(int port, uint8_t *bytes, size_t room)
{
    size_t length = 0;
    while (length < room) {
        ssize_t count = read(port, bytes + length, room - length);
        if (count < 0 && errno == EINTR) {
            continue;
        }
        if ((count < 0 && errno == EAGAIN) || (count <= 0 && length > 0)) {
            break;
        }
        if (count <= 0) {
            fail("the port can't be read");
        }
        length += (size_t)count;
    }
    return length;
}

size_t read_port(int port, struct lines *lines, uint64_t wait, uint8_t *bytes, size_t room, uint64_t *now)
{
    struct pollfd ready[] = { { port, POLLIN, 0 }, { lines->ended ? -1 : STDIN_FILENO, POLLIN, 0 } };
    size_t count = 0;
    uint64_t began;
    int found = wait_to_read(ready, wait < 60000 ? wait : 60000, &began, now);
    lines->since = lines->empty != 0 ? lines->empty : began;
    if (found <= 0 || ready[1].revents == 0) {
        lines->empty = began; /* nothing was there as the wait ended */
    } else if (read_lines(lines)) {
        lines->empty = *now;
    }
    if (found > 0 && ready[0].revents != 0) {
        count = read_all(port, bytes, room);
    }
    if (is_too_late(*now)) { /* it stood still since the wait has ended: what was read may be of long ago too */
        drop_all(port);
        count = hears_all ? count : 0;
    }
    trace_came(bytes, count);
    return count;
}

/* Whether all bytes are printable ASCII. */
static bool is_text(const char *bytes, size_t length)
{
    for (size_t i = 0; i < length; i++) {
        if (bytes[i] < ' ' || bytes[i] > '~') {
            return false;
        }
    }
    return true;
}

const char *next_line(struct lines *lines)
{
    for (;;) {
        char *line = lines->held + lines->start;
        char *end = memchr(line, '\n', lines->length - lines->start);
        if (end == NULL) {
            return NULL;
        }
        bool is_call = !lines->skips && is_text(line, (size_t)(end - line));
        *end = '\0';
        lines->start = (size_t)(end + 1 - lines->held);
        lines->skips = false;
        if (is_call) {
            return line;
        }
        tell("refused line\n");
    }
}
