/* The trace of what goes over a port. */
#define _DEFAULT_SOURCE
#include <errno.h>
#include <fcntl.h>
#include <stdio.h>
#include <stdlib.h>
#include <string.h>
#include <time.h>

#include "port.h"
#include "words.h"

#define GAP 20 /* after how many milliseconds of silence a burst is over */

static FILE *file;
static uint8_t held[4096];    /* what has come of a burst, */
static size_t held_length;    /* how much that is, */
static struct timespec since; /* the moment of its first byte, */
static uint64_t last;         /* and when its last one came */

static void append(const struct timespec *when, const char *way, const uint8_t *bytes, size_t length)
{
    char stamp[32];
    struct tm fields;
    if (file == NULL) {
        return;
    }
    strftime(stamp, sizeof stamp, "%Y-%m-%dT%H:%M:%S", gmtime_r(&when->tv_sec, &fields));
    fprintf(file, "# %s.%03ldZ %s\n", stamp, when->tv_nsec / 1000000, way);
    for (size_t i = 0; i < length; i++) {
        fprintf(file, "%02X", bytes[i]);
    }
    fputc('\n', file);
    if (fflush(file) != 0) {
        fprintf(stderr, "the trace can't be written, and ends\n");
        file = NULL;
    }
}

/* What has come is whole. */
static void flush(void)
{
    if (held_length > 0) {
        append(&since, "in", held, held_length);
    }
    held_length = 0;
}

void open_trace(const char *path)
{
    int trace = open(path, O_WRONLY | O_CREAT | O_APPEND | O_CLOEXEC, 0600); /* it has cards: only its owner may read it */
    file = trace >= 0 ? fdopen(trace, "a") : NULL;
    if (file == NULL) {
        stop(FAILED, "the trace can't be opened: %s", strerror(errno));
    }
    (void)atexit(flush);
}

void trace_sent(const uint8_t *bytes, size_t length)
{
    struct timespec now;
    clock_gettime(CLOCK_REALTIME, &now);
    flush();
    append(&now, "out", bytes, length);
}

void trace_came(const uint8_t *bytes, size_t length)
{
    if (moment() - last >= GAP || length > sizeof held - held_length) {
        flush();
    }
    if (length == 0) {
        return;
    }
    if (held_length == 0) {
        clock_gettime(CLOCK_REALTIME, &since);
    }
    memcpy(held + held_length, bytes, length);
    held_length += length;
    last = moment();
}
