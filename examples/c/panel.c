/* A panel on a serial port: `panel --help` prints what it takes and says. Words, lines and settings are those of examples/panel.py. */
#include <string.h>

#include "orders.h"
#include "places.h"
#include "port.h"
#include "search.h"
#include "words.h"

static const char usage[] =
    "panel [--trace FILE] [--keep FILE [--new]] [--late MS] PORT RATE ADDRESS,ADDRESS.. [SETTING VALUE]..\n"
    "\n"
    "Each line of standard input is an order: a reader's number and a command, as `1 OUT 0:5:30`. The number is the place of\n"
    "its ADDRESS in the list, from 1. docs/PROTOCOL.md has the texts of all commands. Each line of standard output is what\n"
    "was ordered, or what the panel reports: `opened`, `settled`, `event`, `lost` and others.\n"
    "Where no session opens, docs/INSTALLING.md tells the causes: \"A device that doesn't answer\".\n"
    "A reader whose session isn't open takes no order. Where a session is lost or moved, the orders that wait are taken\n"
    "back, and told `withdrawn`. A lost session begins again after a second. Where the program ends, at Ctrl-C or since its\n"
    "port is gone, they are told so too, and an order that is under way is told `lost` and `stopped` or `port-gone`.\n"
    "No order goes out that was given longer ago than `--late`: 100 to 60000 milliseconds, and 5000 where it isn't named.\n"
    "One that waited until then is told `expired`, and one that was sent already `withheld` with its `lost`. Where the\n"
    "program was stopped for longer than that, an order that was given meanwhile is refused. A session is let end, and is\n"
    "told `lost`, where a COMSET is answered neither by a COM nor by a NAK.\n"
    "A COMSET is taken where every session is open. One with another rate is given to each reader. While no session is\n"
    "open the port goes through the rates at which readers may be, told `rate`, and tries each reader there once. Readers\n"
    "whose sessions are open keep the port at their rate. One that may be at another rate is looked for there, told\n"
    "`looks for`, and gets a COMSET that brings it to the others. While none is found, it is told `out of reach`, and the\n"
    "next search comes after 2 s, 4 s and so on up to 64 s.\n"
    "The store of `--keep` has where each reader is, before a COMSET goes out and after its end, and what it is. A panel\n"
    "that starts again with the same words takes each reader there. A device that isn't the one which stood there is told\n"
    "`another device`, and gets no order until a line such as `1 accept` allows it. `--new` makes the store, where there\n"
    "is none. One that is gone, or was emptied or cut, is refused: the readers may be elsewhere than the words say.\n"
    "FILE of `--trace` gets each burst, both ways, as `osdp show` reads it.\n"
    "\n"
    "Settings: check sum or crc; reply-wait, poll-interval, busy-wait, quiet-wait and gap in milliseconds; sends,\n"
    "busy-limit and capacity.\n"
    "Status: 2 bad words or settings, 3 the port or standard output fails, 4 out of memory, 130 at Ctrl-C. Nothing is said\n"
    "at Ctrl-C and where nobody reads standard output any more, else one line that says why.\n";

static struct osdp_panel panel;
static int port;
static uint32_t rate;       /* of the port, while no reader is looked for at another one */
static uint32_t gap;        /* the panel's setting */
static uint64_t answer_due; /* up to when the last burst's answer is waited for */

/* A session has ended: the orders that wait are taken back, since another device may answer in the next one. */
static void close_reader(size_t entry, struct known *reader, uint64_t pause)
{
    static struct osdp_message command;
    reader_closed(reader, moment() + pause);
    for (uint64_t number = first_waiting(&panel, entry); osdp_panel_withdraw(&panel, entry, &command) == OSDP_OK && command.present; number++) {
        tell("withdrawn %zu %s\n", entry + 1, command_text(&command));
        order_ended(entry, number);
        if (command.code == OSDP_COMSET) {
            comset_over(reader);
        }
    }
}

/* Does what a report asks for. */
static void heed(const struct osdp_report *report)
{
    size_t entry = (size_t)report->entry;
    struct known *reader = known_reader(entry);
    if (report->kind == OSDP_REPORT_OPENED) {
        reader_opened(reader, report);
    } else if (report->kind == OSDP_REPORT_MOVED) {
        comset_done(reader, place_told(&report->reply, rate));
        close_reader(entry, reader, 0);
    } else if (report->kind == OSDP_REPORT_LOST) {
        close_reader(entry, reader, PAUSE);
    } else if (report->command.code == OSDP_COMSET && (report->reply.code == OSDP_NAK || report->kind == OSDP_REPORT_EXPIRED)) {
        comset_over(reader);
    } else if (report->command.code == OSDP_COMSET) {
        leave_reader(reader); /* its answer is no COM that can be read: it is at either place, and is looked for anew */
    }
}

/* Takes what the panel tells, and does what is to be done about it. */
static void take_reports(void)
{
    static struct osdp_report report;
    while (osdp_panel_next_report(&panel, &report) == OSDP_OK && report.kind != OSDP_REPORT_NONE) {
        tell_report(&report);
        if (report.numbered) {
            order_ended((size_t)report.entry, report.number);
        }
        heed(&report);
    }
}

/* Hands the panel the orders that have come. Each is as old as it may be. */
static void take_orders(struct lines *lines)
{
    for (const char *line = next_line(lines); line != NULL; line = next_line(lines)) {
        order(&panel, rate, line, lines->since);
    }
}

/* The earlier of two moments. */
static uint64_t earlier(uint64_t one, uint64_t other)
{
    return one < other ? one : other;
}

/* The moment at which the panel that speaks is due; NEVER where there is none. */
static uint64_t next_due(osdp_panel *speaks)
{
    struct osdp_moment due;
    return osdp_panel_next_deadline(speaks, &due) == OSDP_OK && due.present ? due.moment : NEVER;
}

/* How many milliseconds nothing is to be done, if nothing comes. */
static uint64_t until_due(osdp_panel *speaks)
{
    uint64_t now = moment(), first = next_due(speaks), search = next_search(rate);
    if (speaks == &panel) {
        first = earlier(first, next_rate(rate) != rate ? now : next_begin(rate));
        first = earlier(first, search > now || search == NEVER ? search : search + PATIENCE);
    }
    return first > now ? first - now : 0;
}

/* Whether the last burst was answered by the bytes that have just come: neither its answer nor the rest of it is waited for. */
static bool is_idle(size_t count, uint64_t now)
{
    uint64_t due = next_due(&panel);
    return count > 0 && due != answer_due && due != now + gap;
}

/* Begins a session of a reader at a place. Where the panel refuses the address, the session would begin at the one before, and its reader be taken for one at this place:
 * it is tried again later. */
static void begin_session(size_t entry, struct known *reader, struct place place, uint64_t now)
{
    osdp_status status = osdp_panel_retarget(&panel, entry, place.address);
    if (status != OSDP_OK) {
        tell("not begun %u %u %u: %s\n", (unsigned)entry + 1, (unsigned)place.address, (unsigned)place.rate, osdp_status_text(status));
        reader_closed(reader, now + PAUSE);
        return;
    }
    begin_at(reader, place);
    (void)osdp_panel_begin(&panel, entry, now);
}

/* Sets the port to the rate that it is to have, and begins the sessions whose moment has come. */
static void begin_sessions(uint64_t now)
{
    uint32_t next = next_rate(rate);
    if (next != rate) {
        demand_rate(port, next);
        rate = next;
        rate_set();
        tell("rate %u\n", (unsigned)rate);
    }
    for (size_t i = 0; known_reader(i) != NULL; i++) {
        struct known *reader = known_reader(i);
        const struct place *place = next_place(reader, rate);
        if (place != NULL && reader->begins <= now) {
            begin_session(i, reader, *place, now);
        }
    }
}

/* Does what is due. Where a burst is to go out it is asked for at the moment that it is now, and written, but for a reader that is left. */
static void speak(osdp_panel *speaks, uint64_t now)
{
    static struct osdp_burst burst;
    uint32_t sends = 0;
    if (osdp_panel_tick(speaks, now, &sends) != OSDP_OK || sends == 0) {
        return;
    }
    now = moment();
    if (osdp_panel_write(speaks, now, &burst) == OSDP_OK && burst.length > 0) {
        const struct known *reader = speaks == &panel ? known_reader(reader_at(burst.bytes[1]) - 1) : NULL;
        if (reader == NULL || !reader->is_left) {
            (void)write_all(port, &burst, now);
        }
        answer_due = next_due(speaks);
    }
}

/* Waits for bytes, for orders or for what is due, and hands it to the panel that speaks: that of the line, or that which looks for a reader. */
static void turn(struct lines *lines)
{
    uint8_t bytes[4096];
    osdp_panel *speaks = searching() != NULL ? searching() : &panel;
    uint64_t now; /* of the wait's end, before what is there was read */
    size_t count = read_port(port, lines, until_due(speaks), bytes, sizeof bytes, &now);
    if (osdp_panel_bytes(speaks, bytes, count, now) == OSDP_MOMENT_TOO_FAR) {
        (void)osdp_panel_set_moment(speaks, now); /* the program was stopped for more than a day */
    }
    (void)osdp_panel_set_moment(&panel, now); /* the line's panel too while the other one speaks: in this turn it may begin sessions again */
    take_found(now);
    take_reports();
    take_orders(lines);
    if (searching() == NULL) {
        begin_search(rate, now, is_idle(count, now));
    }
    speaks = searching();
    if (speaks == NULL) {
        begin_sessions(now);
        speaks = &panel;
    }
    speak(speaks, now);
}

/* The program ends: what becomes of the orders is told. */
static void tell_last_ends(const char *cause)
{
    tell_search_end(cause);
    tell_ends(&panel, cause);
}

/* Adds a reader, by the address that its word is. */
static void add_reader(const char *word)
{
    osdp_size entry;
    uint32_t name = number(word, "address");
    if (name > 126) {
        stop(BAD_WORDS, "bad address: %s is above 126", word);
    }
    osdp_status status = osdp_panel_add(&panel, join_reader(name, rate), 0, &entry); /* no order is stored, so they are counted from 0 */
    if (status != OSDP_OK) {
        stop(status == OSDP_PANEL_NO_MEMORY ? OUT_OF_MEMORY : BAD_WORDS, "device %s: %s", word, osdp_status_text(status));
    }
}

/* Adds a reader at each address of a word, which has commas between them. */
static void add_readers(char *word)
{
    for (char *end = strchr(word, ','); end != NULL; end = strchr(word, ',')) {
        *end = '\0';
        add_reader(word);
        word = end + 1;
    }
    add_reader(word);
}

int main(int count, char **words)
{
    static struct lines lines;
    struct osdp_panel_config config;
    struct kept_words kept = { 0 };
    osdp_panel_defaults(&config);
    words = take_words(&count, words, 3, usage, &kept);
    for (int i = 3; i < count; i += 2) {
        set_panel(&config, words[i], words[i + 1]);
    }
    rate = number(words[1], "rate");
    osdp_status status = osdp_panel_new(&panel, &config);
    if (status == OSDP_PANEL_NO_MEMORY) {
        stop(OUT_OF_MEMORY, "out of memory");
    }
    if (status != OSDP_OK) {
        stop(BAD_WORDS, "a setting is out of its range");
    }
    read_places(&kept);
    add_readers(words[2]);
    make_places();
    port = open_port(words[0], rate);
    demand_rates();
    gap = config.gap;
    prepare_search(&config, port);
    hear_all();
    before_end(tell_last_ends);
    for (;;) {
        turn(&lines);
    }
}
