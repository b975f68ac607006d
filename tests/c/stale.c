/* A port in simulated time for examples/c/door_device.c and keypad_reader.c, which run on it as they stand. A card that no panel asks for leaves after 30 s, as
 * withdrawn, and the panel that comes then isn't told it. One that was offered, and whose panel has gone, leaves as in doubt. Prints what the device says, between
 * marks. */
#include "port.h"

#include <stdio.h>
#include <stdlib.h>

#include "words.h"

#ifndef CARD
#define CARD "card " /* what stands before a card's digits in a line */
#endif

static const struct {
    uint64_t at;
    const char *line, *mark;
    uint8_t packet[9]; /* its checksum is made here */
} steps[] = {
    { 0, CARD "12345640", NULL, { 0 } },
    { 29950, NULL, "29950", { 0 } },
    { 30050, NULL, "30050", { 0 } },
    { 31000, NULL, NULL, { 0x53, 5, 8, 0, 0, 0x61, 0 } },
    { 31100, NULL, NULL, { 0x53, 5, 7, 0, 1, 0x60 } },
    { 31200, CARD "65432180", NULL, { 0 } },
    { 31300, NULL, NULL, { 0x53, 5, 7, 0, 2, 0x60 } },
    { 61150, NULL, "61150", { 0 } },
    { 61250, NULL, "61250", { 0 } },
    { 61300, NULL, NULL, { 0x53, 5, 8, 0, 0, 0x61, 0 } },
    { 61400, NULL, NULL, { 0x53, 5, 7, 0, 1, 0x60 } },
};
static uint64_t now;
static size_t next;
static const char *line;

uint64_t moment(void)
{
    return now;
}

int open_port(const char *path, uint32_t rate)
{
    (void)path;
    (void)rate;
    return 0;
}

bool has_rate(uint32_t rate)
{
    return rate != 0;
}

bool set_rate(int port, uint32_t rate)
{
    (void)port;
    return has_rate(rate);
}

void demand_rate(int port, uint32_t rate)
{
    (void)set_rate(port, rate);
}

bool was_stopped(void)
{
    return false;
}

void open_trace(const char *path)
{
    (void)path;
}

void set_late(uint32_t milliseconds)
{
    (void)milliseconds;
}

bool write_all(int port, const struct osdp_burst *burst, uint64_t since)
{
    (void)port;
    (void)since;
    if (burst->length > 0) {
        tell("sent %02X\n", (unsigned)burst->bytes[5]);
    }
    return true;
}

/* How many bytes come by the next step, or none where it isn't due within the wait. */
static size_t next_step(uint64_t wait, uint8_t *bytes)
{
    uint8_t sum = 0;
    if (next == sizeof steps / sizeof steps[0]) {
        exit(0);
    }
    if (now + wait < steps[next].at) {
        now += wait;
        return 0;
    }
    now = steps[next].at;
    line = steps[next].line;
    if (steps[next].mark != NULL) {
        tell("%s\n", steps[next].mark);
    }
    size_t length = steps[next].packet[2];
    for (size_t i = 0; i + 1 < length; i++) {
        bytes[i] = steps[next].packet[i];
        sum = (uint8_t)(sum + bytes[i]);
    }
    if (length > 0) {
        bytes[length - 1] = (uint8_t)-sum;
    }
    next++;
    return length;
}

size_t read_port(int port, struct lines *lines, uint64_t wait, uint8_t *bytes, size_t room, uint64_t *at)
{
    size_t length = next_step(wait, bytes);
    (void)port;
    (void)lines;
    (void)room;
    *at = now;
    return length;
}

const char *next_line(struct lines *lines)
{
    const char *found = line;
    (void)lines;
    line = NULL;
    return found;
}
