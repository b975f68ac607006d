/* A panel that stores its orders and its reports: `stored_panel [--new] [--retain N] STORE PORT RATE`. The door is the device at address 5, or where STORE has it, which two
 * cards open. `--new` makes STORE. It keeps N ended orders and N handled events, 1000 if not said, beside all others.
 *
 * Each line is an order, such as `OUT 1:2:0`. It is stored before it is given, by the number that it has in the panel, and each report before it is acted on, both in the
 * transaction of their turn, which ends before the packet of that turn goes out. So the program may be ended at any moment, also by a loss of power: when it starts again it tells which orders are in doubt, makes no
 * second order for a card, and acts on no order twice. `again:` stands before what it tells then, and may have told already. After a COMSET it looks for the door at both
 * places. Another device in the door's place gets no order.
 *
 * No order goes out later than `--late` after it was given, or after its card was asked for, however long the disk takes. One that waited until then is taken back (`back`), and
 * one that was sent already is in doubt. Where STORE can't be written the program ends with status 3, and nothing of that turn has happened. */
#include <stdio.h>
#include <string.h>

#include "kept.h"
#include "ledger.h"
#include "orders.h"
#include "port.h"
#include "store.h"
#include "words.h"

#define NAME 5     /* the address at which the door was first: the store names it so */
#define PAUSE 1000 /* from a session that was lost to the next one, in milliseconds */
#define NEVER UINT64_MAX
#define ORDERS 16 /* how many orders may wait */
#define STANDS 64

static osdp_panel panel;
static osdp_size entry;
static int port;
static struct stand stands[STANDS], *door;
static size_t stand_count;
static bool is_asked;           /* whether the question after the state has no end yet */
static uint64_t begins;         /* the moment at which the next session begins; NEVER while one goes on */
static bool is_new = true;      /* since the start no event was reported */
static bool is_left;            /* whether nothing more is said to the device, so that its session ends */
static bool is_other;           /* whether another device than the door has answered last: */
static struct osdp_pd_id other; /* what that is, */
static struct place there;      /* and where it stands */

/* Whether a card opens the door: two cards of 26 bits do. */
static bool may_enter(const struct osdp_raw *card)
{
    static const uint8_t cards[][4] = { { 0x12, 0x34, 0x56, 0x40 }, { 0x65, 0x43, 0x21, 0x80 } };
    return card->bits == 26 && (memcmp(card->bytes, cards[0], 4) == 0 || memcmp(card->bytes, cards[1], 4) == 0);
}

/* The door is here, and nowhere else. */
static void stand_at(struct place place)
{
    stands_at(door, place);
    demand_store(write_stand(door));
}

/* Gives an order, which is stored with the turn, and goes out until a moment. Whether the panel has taken it. */
static bool give(const char *text, uint64_t now, uint64_t until)
{
    uint64_t number = 0;
    (void)osdp_panel_next_number(&panel, entry, &number);
    note_order(number, text, until > now ? until - now : 0);
    osdp_status status = osdp_panel_submit_text(&panel, entry, text, strlen(text), until, &number);
    if (status != OSDP_OK) {
        drop_order(number);
        say("refused (%s) %s\n", osdp_status_text(status), text);
        return false;
    }
    say("order %llu %s\n", (unsigned long long)number, text);
    return true;
}

/* Gives a COMSET. Where it leads is stored with it, before it goes out. Whether it was one that may be given. */
static bool move(const char *text, uint64_t now)
{
    unsigned address, rate;
    char more;
    if (sscanf(text, "COMSET %3u %10u%c", &address, &rate, &more) != 2 || door->count > 1 || begins != NEVER || is_left || !has_rate(rate)
        || is_taken(stands, stand_count, door, address)) {
        return false;
    }
    if (give(text, now, now + late_by())) {
        may_move(door, (struct place){ address, rate });
        demand_store(write_stand(door));
    }
    return true;
}

/* An order has its end: it is settled so, or taken back, or in doubt where no state is named. The question after the state isn't stored: it may be asked twice. */
static void ended(const struct osdp_message *command, uint64_t number, const char *state, const char *answer)
{
    bool is_question = command->code == OSDP_OSTAT;
    is_asked = is_asked && !is_question;
    if (is_question && answer != NULL) {
        say("state %s\n", answer);
        heard_all();
    } else if (!is_question && state == NULL) {
        doubt(number);
    } else if (!is_question) {
        note_end(number, state, answer);
    }
}

/* An order was never sent. A COMSET sends the door nowhere then. */
static void take_back(const struct osdp_message *command, uint64_t number)
{
    ended(command, number, "back", NULL);
    if (command->code == OSDP_COMSET) {
        stand_at(place_of(door));
    }
}

/* A session has ended: the orders that wait are taken back, since another device may answer in the next one. */
static void close_session(uint64_t until)
{
    static struct osdp_message command;
    for (uint64_t number = first_waiting(&panel, entry); osdp_panel_withdraw(&panel, entry, &command) == OSDP_OK && command.present; number++) {
        take_back(&command, number);
    }
    begins = until;
    is_left = false;
}

/* Asks for the state of the outputs, before anybody gives an order in doubt again. A question is never too late. */
static void ask(void)
{
    uint64_t number;
    is_asked = is_asked || (any_doubt() && osdp_panel_submit_text(&panel, entry, "OSTAT", 5, OSDP_NEVER, &number) == OSDP_OK);
}

/* Another device than the door gets no order: its session is let end, and the door is looked for at its next place. */
static void opened(const struct osdp_report *report)
{
    struct osdp_pd_id id = { 0 };
    struct place place = place_of(door);
    (void)osdp_pd_id_of(&report->reply, &id);
    if (is_same(door, &id)) {
        door->is_known = true;
        door->id = id;
        is_other = false;
        stand_at(place);
        say("opened %s\n", reply_text(&report->reply));
        ask();
        return;
    }
    if (!is_other || !is_same_device(&other, &id) || !is_same_place(there, place)) {
        say("another device at %u: it gets no order\n", (unsigned)place.address);
    }
    other = id;
    there = place;
    is_other = is_left = true;
}

static void settled(const struct osdp_report *report)
{
    ended(&report->command, report->number, "settled", reply_text(&report->reply));
    if (report->command.code == OSDP_COMSET && report->reply.code == OSDP_NAK) {
        stand_at(place_of(door));
    } else if (report->command.code == OSDP_COMSET) {
        is_left = true; /* after another answer it is at either place */
    }
}

/* The door has moved to where its COM says. Where the port hasn't that rate, the door is taken to have kept its own. */
static void moved(const struct osdp_report *report, uint64_t now)
{
    struct osdp_communication com = { 0 };
    (void)osdp_com_of(&report->reply, &com); /* what moved a device is a COM */
    ended(&report->command, report->number, "settled", reply_text(&report->reply));
    if (!has_rate(com.baud_rate)) {
        say("no rate %u\n", (unsigned)com.baud_rate);
        com.baud_rate = place_of(door).rate;
    }
    stand_at((struct place){ com.address, com.baud_rate });
    close_session(now);
}

/* An answer can't be read. What became of an order that it answers nobody knows; there is none where it answers a POLL. */
static void unread(const struct osdp_report *report)
{
    say("unread code %02X\n", (unsigned)report->detail);
    if (report->numbered) {
        ended(&report->command, report->number, NULL, NULL);
    }
    if (report->command.code == OSDP_COMSET) {
        is_left = true;
    } else {
        ask();
    }
}

static void lost(const struct osdp_report *report, uint64_t now)
{
    if (report->numbered) {
        ended(&report->command, report->number, NULL, NULL);
    }
    close_session(now + PAUSE);
}

/* Stores an event, and opens the door for a card. One that may have been reported before makes no second order: the panel has marked it, or it is the first one since
 * this program has started, and the last one that is stored. */
static void take_event(const struct osdp_report *report, uint64_t now)
{
    static struct osdp_raw card;
    const char *text = reply_text(&report->reply);
    bool is_again = report->detail == OSDP_EVENT_MAYBE_AGAIN || (is_new && is_last_event(text));
    is_new = false;
    note_event(text, is_again);
    say("%s %s\n", is_again ? "maybe again" : "event", text);
    if (!is_again && !is_left && osdp_raw_of(&report->reply, &card) == OSDP_OK && may_enter(&card)) {
        (void)give("OUT 0:5:30", now, report->since + late_by()); /* output 0, on for three seconds */
    }
}

static void take_report(const struct osdp_report *report, uint64_t now)
{
    if (report->kind == OSDP_REPORT_OPENED) {
        opened(report);
    } else if (report->kind == OSDP_REPORT_SETTLED) {
        settled(report);
    } else if (report->kind == OSDP_REPORT_MOVED) {
        moved(report, now);
    } else if (report->kind == OSDP_REPORT_UNREAD) {
        unread(report);
    } else if (report->kind == OSDP_REPORT_EVENT) {
        take_event(report, now);
    } else if (report->kind == OSDP_REPORT_LOST) {
        lost(report, now);
    } else if (report->kind == OSDP_REPORT_EXPIRED) {
        take_back(&report->command, report->number);
    }
}

static void take_reports(uint64_t now)
{
    static struct osdp_report report;
    while (osdp_panel_next_report(&panel, &report) == OSDP_OK && report.kind != OSDP_REPORT_NONE) {
        take_report(&report, now);
    }
}

/* Whether a text is that of a command of this name. */
static bool is_command(const char *text, const char *name)
{
    size_t length = strlen(name);
    return strncmp(text, name, length) == 0 && (text[length] == '\0' || text[length] == ' ');
}

/* Takes a line as an order. It was typed at this moment, or later. */
static void take_line(const char *line, uint64_t since, uint64_t now)
{
    line += strspn(line, " ");
    if (was_stopped()) {
        say("too old %s\n", line); /* it may be of long ago */
    } else if (line[0] == '\0' || is_command(line, "OSTAT") || (is_command(line, "COMSET") && !move(line, now))) {
        say("refused line\n");
    } else if (!is_command(line, "COMSET")) {
        (void)give(line, now, since + late_by());
    }
}

/* Begins the next session once it is due, at each place in turn. */
static void begin(uint64_t now)
{
    if (begins <= now) {
        struct place place = door->places[0];
        try_place(door, place);
        demand_rate(port, place.rate);
        (void)osdp_panel_retarget(&panel, entry, place.address);
        (void)osdp_panel_begin(&panel, entry, now);
        begins = NEVER;
    }
}

/* How many milliseconds there are until something is to be done. */
static uint64_t wait_for(uint64_t now)
{
    struct osdp_moment deadline = { 0 };
    (void)osdp_panel_next_deadline(&panel, &deadline);
    uint64_t until = deadline.present && deadline.moment < begins ? deadline.moment : begins;
    return until == NEVER ? NEVER : until > now ? until - now : 0;
}

/* Writes what the panel's tick has made, at the moment that it is now: the disk may have taken long. */
static void write_burst(void)
{
    static struct osdp_burst burst;
    uint64_t now = moment();
    if (osdp_panel_write(&panel, now, &burst) == OSDP_OK && !is_left) {
        (void)write_all(port, &burst, now);
    }
}

static void turn(struct lines *lines)
{
    static uint8_t bytes[4096];
    uint32_t sends = 0;
    uint64_t now; /* of the wait's end, before what is there was read */
    size_t length = read_port(port, lines, wait_for(moment()), bytes, sizeof bytes, &now);
    begin_turn();
    (void)osdp_panel_set_moment(&panel, now); /* also where the program was stopped for more than a day */
    (void)osdp_panel_bytes(&panel, bytes, length, now);
    take_reports(now);
    for (const char *line = next_line(lines); line != NULL; line = next_line(lines)) {
        take_line(line, lines->since, now);
    }
    begin(now);
    (void)osdp_panel_tick(&panel, now, &sends);
    end_turn(); /* before the packet goes out: by that the device may forget an event */
    if (sends != 0) {
        write_burst();
    }
}

int main(int count, char **words)
{
    static struct lines lines;
    struct osdp_panel_config config;
    struct kept_words kept = { .is_word = true };
    words = take_just(count, words, 3, "stored_panel [--new] [--retain N] [--late MS] STORE PORT RATE\n", &kept);
    uint32_t rate = number(words[2], "rate");
    kept.path = words[0];
    osdp_panel_defaults(&config);
    config.capacity = ORDERS;
    stand_count = read_stands(&kept, stands, STANDS);
    door = stand_of(stands, &stand_count, STANDS, NAME, rate);
    demand_store(keep_stands(stands, stand_count));
    osdp_status status = osdp_panel_new(&panel, &config);
    status = status == OSDP_OK ? osdp_panel_add(&panel, place_of(door).address, next_order(NAME), &entry) : status;
    if (status != OSDP_OK) {
        stop(OUT_OF_MEMORY, "%s", osdp_status_text(status));
    }
    port = open_port(words[1], rate);
    open_ledger(NAME, kept.retain);
    end_turn();
    hear_all();
    for (;;) {
        turn(&lines);
    }
}
