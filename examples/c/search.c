/* How a reader at another rate is looked for. */
#include "search.h"

#include <stdio.h>
#include <string.h>

#include "places.h"
#include "port.h"
#include "store.h"
#include "words.h"

#define MOST_PAUSE 64000 /* between two searches; it doubles up to this while none is found */

static struct osdp_panel_config config;
static int line;
static osdp_panel finder;
static bool is_out;         /* whether a reader is looked for: */
static size_t sought;       /* which one that is, or was the last time, */
static struct place there;  /* and where */
static uint32_t home;       /* the rate of the others */
static char comset[32];     /* the COMSET that it was given; empty where none was */
static uint64_t due, pause = PAUSE;

void prepare_search(const struct osdp_panel_config *settings, int port)
{
    config = *settings;
    config.capacity = 1;
    line = port;
}

osdp_panel *searching(void)
{
    return is_out ? &finder : NULL;
}

/* The next reader in turn that may be at another rate; NULL where there is none. */
static struct known *next_sought(uint32_t rate, size_t *entry)
{
    for (size_t i = 1; i <= MOST; i++) {
        *entry = (sought + i) % MOST;
        struct known *reader = known_reader(*entry);
        if (reader != NULL && place_elsewhere(reader, rate) != NULL) {
            return reader;
        }
    }
    return NULL;
}

void search_anew(void)
{
    due = moment();
    pause = PAUSE;
}

uint64_t next_search(uint32_t rate)
{
    size_t entry;
    if (is_out || !any_open() || comset_waits()) {
        return NEVER;
    }
    const struct known *reader = next_sought(rate, &entry);
    if (reader == NULL) {
        search_anew(); /* the next one that is missing is looked for at once */
    }
    return reader != NULL && reader->state == CLOSED ? due : NEVER; /* a session that has begun ends, and is told then */
}

/* The search is over: the port goes back to the others. */
static void end_search(struct known *reader, bool is_found, uint64_t now)
{
    (void)osdp_panel_free(&finder);
    demand_rate(line, home);
    is_out = false;
    comset[0] = '\0';
    pause = is_found ? PAUSE : pause < MOST_PAUSE ? 2 * pause : MOST_PAUSE;
    due = now + (is_found ? PAUSE : pause);
    reader_closed(reader, is_found ? now : now + PAUSE);
    if (!is_found && !reader->is_told) {
        reader->is_told = true;
        tell("out of reach %zu at %u\n", sought + 1, (unsigned)there.rate);
    }
}

void begin_search(uint32_t rate, uint64_t now, bool is_idle)
{
    osdp_size entry;
    size_t next;
    uint64_t begins = next_search(rate);
    if (begins > now || (!is_idle && now - begins < PATIENCE)) {
        return;
    }
    struct known *reader = next_sought(rate, &next);
    sought = next;
    there = *place_elsewhere(reader, rate);
    try_place(reader->stand, there);
    home = rate;
    is_out = true;
    reader->state = SOUGHT;
    tell("looks for %zu at %u %u\n", sought + 1, (unsigned)there.address, (unsigned)there.rate);
    if (!set_rate(line, there.rate) || osdp_panel_new(&finder, &config) != OSDP_OK || osdp_panel_add(&finder, there.address, 0, &entry) != OSDP_OK) {
        tell("no search: no such rate, or out of memory\n");
        end_search(reader, false, now);
        return;
    }
    (void)osdp_panel_begin(&finder, 0, now);
}

/* A reader is found: it is to come to the rate of the others, at its address there. Whether it was told so. */
static bool fetch(struct known *reader)
{
    const struct place *back = place_at(reader, home);
    struct place to = back != NULL ? *back : (struct place){ there.address, home };
    stands_at(reader->stand, there);
    if (!comset_goes(reader, to)) {
        tell("not kept: %s\n", store_fault());
        comset_over(reader);
        return false;
    }
    snprintf(comset, sizeof comset, "COMSET %u %u", (unsigned)to.address, (unsigned)to.rate);
    tell("ordered %zu %s\n", sought + 1, comset);
    static struct osdp_message command;
    uint64_t number;
    return osdp_comset(to.address, to.rate, &command) == OSDP_OK &&
           osdp_panel_submit(&finder, 0, command.code, command.data, command.length, OSDP_NEVER, &number) == OSDP_OK; /* a reader may come back at any moment */
}

void take_found(uint64_t now)
{
    static struct osdp_report report;
    struct known *reader = known_reader(sought);
    while (is_out && osdp_panel_next_report(&finder, &report) == OSDP_OK && report.kind != OSDP_REPORT_NONE) {
        bool is_moved = report.kind == OSDP_REPORT_MOVED, is_settled = report.kind == OSDP_REPORT_SETTLED;
        bool is_over = is_moved || is_settled || report.kind == OSDP_REPORT_LOST || report.kind == OSDP_REPORT_UNREAD;
        report.entry = sought;
        tell_report(&report);
        if (report.kind == OSDP_REPORT_OPENED) {
            is_over = tell_other(reader, &report) || !fetch(reader);
        } else if (is_moved) {
            comset_done(reader, place_told(&report.reply, there.rate));
        } else if (is_settled && report.reply.code == OSDP_NAK) {
            comset_over(reader);
            reader->refuses = true;
        }
        if (is_over) {
            end_search(reader, is_moved, now);
        }
    }
}

void tell_search_end(const char *cause)
{
    if (is_out && comset[0] != '\0') {
        tell("lost %zu %s %s\n", sought + 1, cause, comset);
    }
}
