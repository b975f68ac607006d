/*
 * What makers of panels write each time above a panel (osdp.h): which sessions begin when, which devices are online since when, and states that a device gets
 * again whose session opens anew. The words are those of the proved crate osdp_site, in Rattle. This page and c/osdp_site.c are plain C over the calls of a
 * panel: tested, and not proved. They take no memory: the caller owns the site and its entries.
 *
 * `osdp_site_act`, `osdp_site_turn` and `osdp_device_turn` keep reports and answers in static memory, so that a small stack is enough. One thread at a time makes
 * these calls, also for different panels and devices, and `takes` doesn't make them: else a report of one panel is taken for that of another. A program with a
 * thread for each line holds a lock over the call, or makes the calls of osdp.h by itself.
 *
 * The program says once how an LED, an output, a buzzer or a text is to be (`osdp_site_wants`), hands on each report (`osdp_site_heed`), and calls
 * `osdp_site_act` in each turn, before `osdp_panel_tick`. `osdp_site_turn` makes these calls:
 *
 *     static struct osdp_site_entry entries[3];
 *     osdp_site site;
 *     osdp_site_new(&site, entries, 3, OSDP_SITE_ANY_LENGTH, now);      the entries are those of the panel, in the order of adding
 *     osdp_site_wants(&site, door, &red);
 *     for (;;) {
 *         .. waits for bytes, at most osdp_site_wait(&site, &panel, now, most); takes the moment, and reads all that is there ..
 *         if (osdp_site_turn(&site, &panel, bytes, length, now, take_report, NULL)) {
 *             .. takes the moment anew, into now ..
 *             if (osdp_panel_write(&panel, now, &burst) == OSDP_OK) {
 *                 .. writes the burst, whole, where it has a length, and flushes it ..
 *             }
 *         }
 *     }
 */
#ifndef OSDP_SITE_H
#define OSDP_SITE_H

#include "osdp.h"

#ifdef __cplusplus
extern "C" {
#endif

enum {
    /* How many states may be wanted of each device. */
    OSDP_SITE_ROOM = 16,
    /* From a session that has ended to the next one, in milliseconds, where the program sets no other pause. */
    OSDP_SITE_PAUSE = 1000,
    /* The data of a state, in bytes, at most: those of the longest text. */
    OSDP_SITE_MOST_DATA = 261,
    /* The `bytes` of a site over a panel of `osdp_panel_new`, which has room for each command, however long it is. */
    OSDP_SITE_ANY_LENGTH = 0
};

/* What became of `osdp_site_wants`. A refused call has changed nothing. */
typedef enum osdp_site_status {
    OSDP_SITE_OK = 0,
    /* P2: there is no such entry. */
    OSDP_SITE_NO_ENTRY = 2,
    /* P3: as many states are wanted of the device as there is room for. */
    OSDP_SITE_FULL = 3,
    /* P4: several outputs or LEDs in one command: each is wanted by itself. */
    OSDP_SITE_SEVERAL = 4,
    /* P5: it lasts for a time, so it is an order and no state. */
    OSDP_SITE_TIMED = 5,
    /* P6: the command says nothing that holds from then on. */
    OSDP_SITE_NO_STATE = 6,
    /* P7: the command has more bytes than the panel has room for, so it would never go out. */
    OSDP_SITE_TOO_LONG = 7
} osdp_site_status;

/* A command that says a state. */
struct osdp_site_state {
    uint16_t length;
    uint8_t code;
    uint8_t data[OSDP_SITE_MOST_DATA];
};

/* What is kept of an entry. Its fields are read by the caller, and not written. */
struct osdp_site_entry {
    /* The moment from which on its next session is due; UINT64_MAX where one has begun. */
    uint64_t begins;
    /* Since when it is online, or offline. */
    uint64_t since;
    bool is_online;
    /* How many states are wanted, and how many of these, from the first on, were submitted since the session opened. */
    uint16_t count, done;
    struct osdp_site_state wanted[OSDP_SITE_ROOM];
};

/* A site. `pause` may be set by the caller. */
typedef struct osdp_site {
    struct osdp_site_entry *entries;
    size_t count;
    /* As handed to `osdp_site_new`. */
    size_t bytes;
    uint32_t pause;
} osdp_site;

/*
 * A site for so many entries, those of the panel: all are offline since this moment, and their sessions are due. It is made before a session opens. `bytes` are
 * those that were handed to `osdp_panel_new_with_room`, or OSDP_SITE_ANY_LENGTH over a panel of `osdp_panel_new`: a state that is longer is refused.
 */
void osdp_site_new(osdp_site *site, struct osdp_site_entry *entries, size_t count, size_t bytes, uint64_t now);

/*
 * From now on a device is to be as the command says: an OUT or LED of one record, a BUZ or a TEXT. It stands in place of what was wanted of the same output, LED,
 * buzzer or text before. Where the device is online, the next `osdp_site_act` submits it; and once again after each opening of its session.
 *
 * OSDP_SITE_NO_ENTRY. OSDP_SITE_SEVERAL. OSDP_SITE_TIMED: an output with control 5 or 6, an LED with a temporary state, a sound that is counted, a text for a
 * time. What lasts for a time is an order: an OUT that opens a door for five seconds would open it again after each session that was lost. OSDP_SITE_NO_STATE:
 * an output with another control, an LED without a permanent state, no tone, each other kind of command. OSDP_SITE_TOO_LONG: the panel would refuse it each
 * time, so that it and all states after it would wait for ever. OSDP_SITE_FULL.
 */
osdp_site_status osdp_site_wants(osdp_site *site, size_t entry, const struct osdp_message *command);

/*
 * A report of the panel, at the moment at which it came. Whether the device is online or offline by it and wasn't before: `entries[report->entry]` says
 * which, and since when. A session that is lost or moved makes the next one due after the pause.
 */
bool osdp_site_heed(osdp_site *site, const struct osdp_report *report, uint64_t now);

/*
 * Begins each session that is due. What waits for its device is taken back, orders too, since no state is to go out twice: a program that is to be told of its
 * orders withdraws them before, as it takes the report that their session was lost. Then what is wanted of each device that is online, and wasn't submitted since its session opened, goes to the panel in the order in which it was
 * wanted, and is never too late. What the panel refuses, as where its queue is full, and what comes after it is left for the next call: it waits for room that other commands take.
 * At a moment that the panel refuses (OSDP_MOMENT_TOO_FAR) no order is taken back, and the sessions stay due.
 */
void osdp_site_act(osdp_site *site, osdp_panel *panel, uint64_t now);

/* The earliest moment from which on `osdp_site_act` begins a session; UINT64_MAX where each has begun. */
uint64_t osdp_site_next_deadline(const osdp_site *site);

/* Whether a session of a device is due: the next `osdp_site_act` begins it. A program whose device may be elsewhere sets its address and rate before. */
bool osdp_site_is_due(const osdp_site *site, size_t entry, uint64_t now);

/* Whether a device is online, and all that is wanted of it was submitted since its session opened. */
bool osdp_site_is_refreshed(const osdp_site *site, size_t entry);

/* How long nothing is to be done at this moment, if nothing comes: until the site or its panel is due, and at most so long. */
uint64_t osdp_site_wait(const osdp_site *site, osdp_panel *panel, uint64_t now, uint64_t most);

/*
 * An order: a command that is submitted once, and goes out at no moment after `until`. Whether the panel took it; then its number is written to `order`. One for a device
 * that is offline is refused.
 */
bool osdp_site_order(
    const osdp_site *site, osdp_panel *panel, size_t entry, const struct osdp_message *command, uint64_t until, uint64_t *order);

/* ---- A turn of a loop ---- */

/*
 * What a program does with a report, after the site has heeded it. `has_changed`: the device is online or offline by it and wasn't before; its entry of the site
 * says which. `of` is what the program handed to `osdp_site_turn`: its own, such as the line that the panel belongs to; it may be null.
 */
typedef void osdp_site_takes(void *of, const struct osdp_report *report, bool has_changed, uint64_t now);

/*
 * One turn of a panel's loop: the program has waited for bytes, has taken the moment, and then has read all that was there. Each report is heeded and then taken by the
 * program, what the program wants and orders then is submitted, and what is due is done. Whether a burst is to go out: then the program takes the moment anew, and
 * writes what `osdp_panel_write` gives for it.
 *
 * A program that stood still, since its computer slept, it was stopped, or what it did took so long, takes its turn as any other. An order whose `until` has passed
 * doesn't go out, and an event tells by its `since` how old it may be. A moment that lies too far after the greatest one seen (OSDP_MOMENT_TOO_FAR) is seen all the
 * same, by `osdp_panel_set_moment`.
 */
bool osdp_site_turn(osdp_site *site, osdp_panel *panel, const uint8_t *bytes, size_t length, uint64_t now, osdp_site_takes *takes, void *of);

/*
 * What a program does with what its device says: it acts, and then writes `answer->burst`. What it sets for a command that is pending is answered. `of` is what it
 * handed to `osdp_device_turn`.
 */
typedef void osdp_device_takes(void *of, const struct osdp_answer *answer, uint64_t now);

/*
 * The same of a device's loop: the bytes are handed over until all are taken and nothing is said, and then what the moment brings. Where the moment lies too far
 * ahead the bytes are left, and a panel sends them again: so events that have become too old leave first (`osdp_device_expire_event`, before the next turn).
 */
void osdp_device_turn(osdp_device *device, const uint8_t *bytes, size_t length, uint64_t now, osdp_device_takes *takes, void *of);

/* ---- Commands as panels mostly give them ---- */

/* An output is on for so many tenths of a second: an order. */
void osdp_output_for(uint8_t output, uint16_t tenths, struct osdp_message *command);

/* The first LED of the first reader has a color from now on: a state. And for so many tenths of a second: an order. */
void osdp_color(uint8_t color, struct osdp_message *command);
void osdp_color_for(uint8_t color, uint16_t tenths, struct osdp_message *command);

/* The buzzer of the first reader sounds, half a second on and half a second off, until it is told otherwise, or is silent: states. */
void osdp_sound(bool sounds, struct osdp_message *command);

#ifdef __cplusplus
}
#endif

#endif
