/* A panel that opens a door for two cards: `door_panel [--keep FILE [--new]] PORT RATE`. The door is the device at address 5. What it reports is printed. A line
 * `move 7 9600` gives the device another address and rate, which FILE keeps: a panel that starts again finds it there. `--new` makes FILE. */
#include <string.h>

#include "door.h"
#include "port.h"
#include "words.h"

/* Whether a card opens the door: two cards of 26 bits do. */
static bool may_enter(const struct osdp_raw *card)
{
    static const uint8_t cards[][4] = { { 0x12, 0x34, 0x56, 0x40 }, { 0x65, 0x43, 0x21, 0x80 } };
    return card->bits == 26 && (memcmp(card->bytes, cards[0], 4) == 0 || memcmp(card->bytes, cards[1], 4) == 0);
}

#ifdef UNIT_TEST
int main(void)
{
    struct osdp_raw first = { .bits = 26, .length = 4, .bytes = { 0x12, 0x34, 0x56, 0x40 } }, second = first, third = first;
    memcpy(second.bytes, "\x65\x43\x21\x80", 4);
    third.bytes[3] = 0x80;
    return may_enter(&first) && may_enter(&second) && !may_enter(&third) ? 0 : 1;
}
#else
static osdp_panel panel;
static struct door door;

/* Orders the door's strike, its output 0, on for three seconds, for a card that was asked for at this moment. An order that would go out later than `--late` after
 * that doesn't go out. Where as many orders wait as may, that is told. In both cases the door stays closed. */
static void open_door(uint64_t since)
{
    static struct osdp_message command;
    uint64_t order;
    const struct osdp_output strike = { .output = 0, .control = OSDP_OUTPUT_ON_FOR_A_TIME, .timer = 30 };
    (void)osdp_out(&strike, 1, &command);
    (void)tell_refusal(osdp_panel_submit(&panel, door.entry, command.code, command.data, command.length, since + late_by(), &order));
}

/* Takes what the panel reports, and does what is to be done about it. */
static void take_reports(uint64_t now)
{
    static struct osdp_report report;
    static struct osdp_raw card;
    while (osdp_panel_next_report(&panel, &report) == OSDP_OK && report.kind != OSDP_REPORT_NONE) {
        tell_report(&report);
        heed_door(&door, &report, now);
        /* a card that may have been told before makes no second order */
        if (report.kind == OSDP_REPORT_EVENT && report.detail != OSDP_EVENT_MAYBE_AGAIN && door.may_order && osdp_raw_of(&report.reply, &card) == OSDP_OK && may_enter(&card)) {
            open_door(report.since);
        }
    }
}

int main(int count, char **words)
{
    static struct lines lines;
    struct osdp_panel_config config;
    uint8_t bytes[4096];
    struct kept_words kept = { 0 };
    words = take_just(count, words, 2, "door_panel [--keep FILE [--new]] [--late MS] PORT RATE\n", &kept);
    uint32_t rate = number(words[1], "rate");
    osdp_panel_defaults(&config);
    osdp_status status = osdp_panel_new(&panel, &config);
    status = status == OSDP_OK ? add_door(&panel, &door, &kept, 5, rate) : status;
    if (status != OSDP_OK) {
        stop(OUT_OF_MEMORY, "%s", osdp_status_text(status));
    }
    int port = open_port(words[0], rate);
    hear_all();
    for (;;) {
        uint32_t sends = 0;
        uint64_t now, wait = osdp_site_wait(&door.site, &panel, moment(), UINT64_MAX);
        size_t length = read_port(port, &lines, wait, bytes, sizeof bytes, &now);
        if (osdp_panel_bytes(&panel, bytes, length, now) == OSDP_MOMENT_TOO_FAR) {
            (void)osdp_panel_set_moment(&panel, now); /* the program was stopped for more than a day */
        }
        take_reports(now);
        for (const char *line = next_line(&lines); line != NULL; line = next_line(&lines)) {
            take_line(&panel, &door, line);
        }
        begin_door(&panel, &door, port, now);
        if (osdp_panel_tick(&panel, now, &sends) == OSDP_OK && sends != 0) {
            write_door(&panel, &door, port);
        }
    }
}
#endif
