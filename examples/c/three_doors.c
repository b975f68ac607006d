/* A panel for three doors: `three_doors PORT RATE`, with readers at 1, 2 and 3. A card of the list unlocks its doors for five seconds. A reader's LED is red, and
 * green while its door is unlocked. Input 0 of a reader is its door's contact, active while the door is open: its buzzer sounds once it is held open. */
#include <string.h>

#include "osdp_site.h"
#include "port.h"
#include "words.h"

enum { DOORS = 3, UNLOCK = 50 /* tenths of a second */, HELD = 10000 /* milliseconds */ };

/* Who may enter where: a card of 26 bits, and a bit for each door. */
static const struct {
    uint8_t card[4];
    unsigned doors;
} entrants[] = { { { 0x12, 0x34, 0x56, 0x40 }, 7 }, { { 0x65, 0x43, 0x21, 0x80 }, 1 } };

static osdp_panel panel;
static osdp_site site;
static struct osdp_site_entry entries[DOORS];
static uint64_t held[DOORS]; /* when a door is held open; UINT64_MAX while it is closed, and UINT64_MAX - 1 once its buzzer sounds */

static bool may_enter(const struct osdp_raw *card, size_t door)
{
    for (size_t i = 0; i < sizeof entrants / sizeof entrants[0]; i++) {
        if (card->bits == 26 && memcmp(card->bytes, entrants[i].card, 4) == 0) {
            return entrants[i].doors >> door & 1;
        }
    }
    return false;
}

/* The strike, output 0, and a green LED, both for a time: orders, which a reader that comes back doesn't get again, and which go out until this moment alone. */
static void unlock(size_t door, uint64_t until)
{
    static struct osdp_message command;
    uint64_t order;
    osdp_output_for(0, UNLOCK, &command);
    if (osdp_site_order(&site, &panel, door, &command, until, &order)) {
        osdp_color_for(OSDP_COLOR_GREEN, UNLOCK, &command);
        (void)osdp_site_order(&site, &panel, door, &command, until, &order);
    }
}

/* The buzzer sounds or is silent: a state, which a reader that comes back gets again. */
static void sound(size_t door, bool sounds)
{
    static struct osdp_message command;
    osdp_sound(sounds, &command);
    (void)osdp_site_wants(&site, door, &command);
}

/* The door's contact, as an event or an answer tells it. That a door is still open, as where another input has changed or its reader was away, is no news. */
static void take_contact(size_t door, bool open, uint64_t now)
{
    if (!open || held[door] == UINT64_MAX) {
        held[door] = open ? now + HELD : UINT64_MAX;
        sound(door, false);
    }
}

static void take_report(void *of, const struct osdp_report *report, bool has_changed, uint64_t now)
{
    static struct osdp_raw card;
    (void)of; /* the one site of this program */
    static struct osdp_states inputs;
    static struct osdp_message stale;
    static const struct osdp_message asks = { .present = 1, .code = OSDP_ISTAT };
    size_t door = (size_t)report->entry;
    uint64_t order;
    if (has_changed) {
        tell("door %zu is %s\n", door + 1, entries[door].is_online ? "online" : "offline");
        (void)osdp_site_order(&site, &panel, door, &asks, OSDP_NEVER, &order); /* a question is never too late */
    }
    if (report->command.present && (report->kind == OSDP_REPORT_LOST || report->kind == OSDP_REPORT_EXPIRED)) {
        tell_report(report); /* the order that was under way, which may have been done or not, or one that was too old to go out */
    }
    while (report->kind == OSDP_REPORT_LOST && osdp_panel_withdraw(&panel, door, &stale) == OSDP_OK && stale.present) {
        tell("withdrawn %zu %s\n", door + 1, command_text(&stale));
    }
    if (osdp_inputs_of(&report->reply, &inputs) == OSDP_OK && inputs.length > 0) {
        take_contact(door, inputs.states[0] == OSDP_STATE_ACTIVE, now);
    }
    /* a card that may have been told before unlocks nothing again, and one that is older than `--late` nothing at all */
    if (report->kind == OSDP_REPORT_EVENT && report->detail != OSDP_EVENT_MAYBE_AGAIN && osdp_raw_of(&report->reply, &card) == OSDP_OK && may_enter(&card, door)) {
        unlock(door, report->since + late_by());
    }
}

/* The buzzer sounds at each door that is held open. */
static void watch(uint64_t now)
{
    for (size_t door = 0; door < DOORS; door++) {
        if (held[door] <= now) {
            held[door] = UINT64_MAX - 1;
            sound(door, true);
        }
    }
}

/* A panel with its three doors. */
static osdp_status make(uint64_t now)
{
    static struct osdp_message red;
    struct osdp_panel_config config;
    osdp_panel_defaults(&config);
    osdp_status status = osdp_panel_new(&panel, &config);
    osdp_site_new(&site, entries, DOORS, OSDP_SITE_ANY_LENGTH, now);
    osdp_color(OSDP_COLOR_RED, &red);
    osdp_size door;
    for (size_t i = 0; i < DOORS && status == OSDP_OK; i++) {
        status = osdp_panel_add(&panel, (uint32_t)i + 1, 0, &door);
        (void)osdp_site_wants(&site, i, &red);
        take_contact(i, false, now);
    }
    return status;
}

int main(int count, char **words)
{
    static struct lines lines;
    static struct osdp_burst burst;
    uint8_t bytes[4096];
    words = take_just(count, words, 2, "three_doors [--late MS] PORT RATE\n", NULL);
    osdp_status status = make(moment());
    if (status != OSDP_OK) {
        stop(OUT_OF_MEMORY, "%s", osdp_status_text(status));
    }
    int port = open_port(words[0], number(words[1], "rate"));
    hear_all();
    for (;;) {
        uint64_t now, wait = osdp_site_wait(&site, &panel, moment(), 100);
        size_t length = read_port(port, &lines, wait, bytes, sizeof bytes, &now);
        watch(now);
        bool sends = osdp_site_turn(&site, &panel, bytes, length, now, take_report, NULL);
        now = moment(); /* what was done since the wait may have taken long */
        if (sends && osdp_panel_write(&panel, now, &burst) == OSDP_OK) {
            (void)write_all(port, &burst, now);
        }
    }
}
