/* How old an order may be: its last moment passes while it waits, before a repeat, or between a tick and its write. And the numbers of orders: over a restart, and up to
 * the last one. The panel asks a device of this library, whose answers may be lost. */
#include <string.h>

#include "demands.h"
#include "osdp.h"
#include "panels.h"

#define OUT "OUT 0:5:30"

static osdp_panel panel;
static osdp_device device;
static uint64_t now = 5000;
static struct osdp_burst burst;
static struct osdp_report report;
static unsigned done; /* how many orders the device has done */

static void make(uint64_t next_number)
{
    const struct osdp_device_config what = { .address = 5, .capacity = 4, .gap = 20 };
    const uint8_t off[1] = { 0 };
    struct osdp_panel_config config;
    osdp_size entry = 9;
    osdp_panel_defaults(&config);
    config.capacity = 4;
    demand(osdp_panel_new(&panel, &config) == OSDP_OK && osdp_panel_add(&panel, 5, next_number, &entry) == OSDP_OK && entry == 0);
    demand(osdp_device_new(&device, &what, NULL, 0) == OSDP_OK && osdp_device_set_outputs(&device, off, 1) == OSDP_OK);
    done = 0;
}

static void unmake(void)
{
    demand(osdp_panel_free(&panel) == OSDP_OK && osdp_device_free(&device) == OSDP_OK);
}

static uint64_t orders(const char *text, uint64_t until)
{
    uint64_t number = 0;
    demand(osdp_panel_submit_text(&panel, 0, text, strlen(text), until, &number) == OSDP_OK);
    return number;
}

/* Whether a tick has a burst go out. */
static bool sends(void)
{
    uint32_t told = 9;
    demand(osdp_panel_tick(&panel, now, &told) == OSDP_OK && told <= 1);
    return told == 1;
}

/* Whether the burst of the last tick is given out. */
static bool writes(void)
{
    memset(&burst, pattern, sizeof burst);
    demand(osdp_panel_write(&panel, now, &burst) == OSDP_OK);
    demand(burst.length > 0 || is_pattern(burst.bytes, sizeof burst.bytes));
    return burst.length > 0;
}

/* The device hears the last burst, and the panel its answer. */
static void is_answered(void)
{
    static struct osdp_answer answer;
    osdp_size at = 0, taken;
    do {
        demand(osdp_device_step(&device, burst.bytes + at, burst.length - at, now, &taken, &answer) == OSDP_OK);
        at += taken;
        done += answer.order == OSDP_ORDER_ONCE;
        demand(osdp_panel_bytes(&panel, answer.burst.bytes, answer.burst.length, now) == OSDP_OK);
    } while (at < burst.length || answer.kind != OSDP_SAID_NONE);
}

/* What is told next is of this kind. */
static bool tells(uint32_t kind)
{
    memset(&report, pattern, sizeof report);
    demand(osdp_panel_next_report(&panel, &report) == OSDP_OK);
    return report.kind == kind;
}

/* .. and is about the order of this number. */
static bool tells_order(uint32_t kind, uint64_t number)
{
    return tells(kind) && report.numbered == 1 && report.number == number && report.since == 0 && report.command.present == 1;
}

/* A packet with this code goes out after so many milliseconds, and is answered. */
static void exchanges(uint64_t wait, uint8_t code)
{
    now += wait;
    demand(sends() && writes() && burst.bytes[5] == code);
    is_answered();
}

/* A session opens, and the turn that has brought it has ended. */
static void opens(void)
{
    demand(osdp_panel_begin(&panel, 0, now) == OSDP_OK);
    exchanges(400, OSDP_ID);
    demand(tells(OSDP_REPORT_OPENED) && report.numbered == 0 && tells(OSDP_REPORT_NONE) && !sends());
}

/* An order goes out at its last moment, and is settled later. A millisecond after its last moment it is told, with its number, and never goes out. */
static void at_its_last_moment(void)
{
    make(7);
    opens();
    demand(orders(OUT, now) == 7);
    demand(sends() && writes() && burst.bytes[5] == OSDP_OUT);
    now += 150;
    is_answered();
    demand(tells_order(OSDP_REPORT_SETTLED, 7) && done == 1 && tells(OSDP_REPORT_NONE) && !sends());
    exchanges(50, OSDP_POLL);
    demand(orders(OUT, now - 1) == 8);
    demand(tells_order(OSDP_REPORT_EXPIRED, 8) && report.detail == 0 && report.too_late == 0 && report.reply.present == 0);
    demand(report.command.code == OSDP_OUT && report.command.length == 4 && memcmp(report.command.data, "\0\5\36\0", 4) == 0);
    demand(tells(OSDP_REPORT_NONE) && report.numbered == 0 && report.number == 0 && !sends());
    exchanges(50, OSDP_POLL);
    demand(done == 1);
    unmake();
}

/* Orders that wait for one which is on its way expire once that has its end, each when it is in front. Nothing goes out before all that is told, and then the next one. */
static void in_front(void)
{
    make(0);
    opens();
    demand(orders("LSTAT", OSDP_NEVER) == 0 && orders(OUT, now + 100) == 1 && orders("ISTAT", now + 50) == 2 && orders("OSTAT", OSDP_NEVER) == 3);
    demand(sends() && writes() && burst.bytes[5] == OSDP_LSTAT);
    now += 150;
    demand(tells(OSDP_REPORT_NONE));
    is_answered();
    demand(tells_order(OSDP_REPORT_SETTLED, 0) && !sends());
    demand(tells_order(OSDP_REPORT_EXPIRED, 1) && report.command.code == OSDP_OUT && !sends());
    demand(tells_order(OSDP_REPORT_EXPIRED, 2) && report.command.code == OSDP_ISTAT && tells(OSDP_REPORT_NONE));
    exchanges(50, OSDP_POLL);
    exchanges(0, OSDP_OSTAT);
    demand(tells_order(OSDP_REPORT_SETTLED, 3) && done == 2); /* both questions */
    unmake();
}

/* Without a session an order expires too, as the deadline says. A COMSET that has expired keeps its address no longer. */
static void without_a_session(void)
{
    struct osdp_moment due;
    osdp_size waiting;
    uint64_t number = 99;
    make(0);
    demand(osdp_panel_bytes(&panel, NULL, 0, now) == OSDP_OK && orders("COMSET 9 9600", now + 30) == 0);
    demand(osdp_panel_submit_text(&panel, 0, "COMSET 8 9600", 13, OSDP_NEVER, &number) == OSDP_ADDRESS_TAKEN && number == 99);
    demand(osdp_panel_next_deadline(&panel, &due) == OSDP_OK && due.present == 1 && due.moment == now + 31);
    now += 30;
    demand(osdp_panel_bytes(&panel, NULL, 0, now) == OSDP_OK && tells(OSDP_REPORT_NONE));
    now++;
    demand(osdp_panel_bytes(&panel, NULL, 0, now) == OSDP_OK && tells_order(OSDP_REPORT_EXPIRED, 0) && report.command.code == OSDP_COMSET);
    demand(osdp_panel_next_deadline(&panel, &due) == OSDP_OK && due.present == 0);
    demand(orders("COMSET 8 9600", OSDP_NEVER) == 1 && osdp_panel_waiting(&panel, 0, &waiting) == OSDP_OK && waiting == 1);
    unmake();
}

/* Nobody answers. A packet goes out once more within its last moment, and no more after it: the session is lost, and tells so. One that is never too late goes out as
 * often as the settings say, and so does that of a session which is lost without an order. */
static void before_a_repeat(void)
{
    make(0);
    opens();
    demand(orders(OUT, now + 250) == 0 && sends() && writes());
    now += 200;
    demand(sends() && writes() && burst.bytes[5] == OSDP_OUT);
    now += 200;
    demand(!sends() && !writes() && tells(OSDP_REPORT_NONE));
    now += 200;
    demand(!sends() && tells_order(OSDP_REPORT_LOST, 0) && report.detail == OSDP_LOST_NO_REPLY && report.too_late == 1);
    opens();
    demand(orders(OUT, OSDP_NEVER) == 1);
    for (int i = 0; i < 3; i++, now += 200) {
        demand(sends() && writes() && burst.bytes[5] == OSDP_OUT);
    }
    demand(!sends() && tells_order(OSDP_REPORT_LOST, 1) && report.too_late == 0);
    demand(osdp_panel_begin(&panel, 0, now) == OSDP_OK);
    now += 400;
    for (int i = 0; i < 3; i++, now += 200) {
        demand(sends() && writes() && burst.bytes[5] == OSDP_ID);
    }
    demand(!sends() && tells(OSDP_REPORT_LOST) && report.numbered == 0 && report.number == 0 && report.too_late == 0 && done == 0);
    unmake();
}

/* The program stands still between a tick and its write: at its last moment the packet is given out, and after it not, nor later. A POLL is never too late. */
static void before_it_is_written(void)
{
    make(0);
    opens();
    demand(orders(OUT, now + 10) == 0 && sends());
    now += 10;
    demand(writes());
    is_answered();
    demand(tells_order(OSDP_REPORT_SETTLED, 0) && done == 1 && !writes() && !sends());
    exchanges(50, OSDP_POLL);
    demand(orders(OUT, now + 10) == 1 && sends());
    now += 11;
    demand(!writes() && tells(OSDP_REPORT_NONE));
    for (int i = 0; i < 2; i++) {
        now += 200;
        demand(!sends() && !writes() && tells(OSDP_REPORT_NONE));
    }
    now += 200;
    demand(!sends() && tells_order(OSDP_REPORT_LOST, 1) && report.too_late == 1 && done == 1);
    opens();
    now += 50;
    demand(sends());
    now += 60000;
    demand(writes() && burst.bytes[5] == OSDP_POLL);
    is_answered();
    demand(tells(OSDP_REPORT_NONE));
    unmake();
}

/* A card tells when it was asked for: at the first of the copies of its POLL. */
static void asked_for(void)
{
    make(0);
    opens();
    demand(osdp_device_event_text(&device, "RAW 0 0 26 12345640", 19) == OSDP_OK);
    now += 50;
    const uint64_t asked = now;
    demand(sends() && writes() && burst.bytes[5] == OSDP_POLL);
    now += 200;
    demand(sends() && writes() && burst.bytes[5] == OSDP_POLL);
    now += 70;
    is_answered();
    demand(tells(OSDP_REPORT_EVENT) && report.since == asked && report.detail == 0 && report.numbered == 0 && report.number == 0);
    unmake();
}

/* What is refused takes no number, and what is taken back has had its own. After a restart the numbers go on. */
static void over_a_restart(void)
{
    static struct osdp_message command;
    uint64_t number = 99;
    make(41);
    demand(orders(OUT, OSDP_NEVER) == 41 && osdp_panel_submit_text(&panel, 0, "POLL", 4, OSDP_NEVER, &number) == OSDP_POLL_SUBMITTED && number == 99);
    demand(orders(OUT, OSDP_NEVER) == 42 && osdp_panel_withdraw(&panel, 0, &command) == OSDP_OK && command.present == 1);
    demand(orders(OUT, OSDP_NEVER) == 43 && orders(OUT, OSDP_NEVER) == 44 && orders(OUT, OSDP_NEVER) == 45);
    demand(osdp_panel_submit_text(&panel, 0, OUT, strlen(OUT), OSDP_NEVER, &number) == OSDP_COMMANDS_FULL && number == 99);
    demand(osdp_panel_next_number(&panel, 0, &number) == OSDP_OK && number == 46);
    unmake();
    make(number);
    opens();
    demand(orders(OUT, OSDP_NEVER) == 46);
    exchanges(0, OSDP_OUT);
    demand(tells_order(OSDP_REPORT_SETTLED, 46) && osdp_panel_next_number(&panel, 0, &number) == OSDP_OK && number == 47);
    unmake();
}

/* The last number that an order has is 2^64 - 2. Then no order is taken, whatever it is. */
static void used_up(void)
{
    const uint8_t off[] = { 0, 1, 0, 0 };
    uint64_t number = 99;
    make(UINT64_MAX - 1);
    opens();
    demand(orders(OUT, OSDP_NEVER) == UINT64_MAX - 1 && osdp_panel_next_number(&panel, 0, &number) == OSDP_OK && number == UINT64_MAX);
    number = 99;
    demand(osdp_panel_submit(&panel, 0, OSDP_OUT, off, 4, OSDP_NEVER, &number) == OSDP_NUMBERS_USED_UP);
    demand(osdp_panel_submit_text(&panel, 0, "POLL", 4, OSDP_NEVER, &number) == OSDP_NUMBERS_USED_UP);
    demand(osdp_panel_submit(&panel, 0, OSDP_OUT, off, 3, OSDP_NEVER, &number) == OSDP_BAD_LENGTH);
    demand(osdp_panel_submit(&panel, 1, OSDP_OUT, off, 4, OSDP_NEVER, &number) == OSDP_NO_ENTRY && number == 99);
    exchanges(0, OSDP_OUT);
    demand(tells_order(OSDP_REPORT_SETTLED, UINT64_MAX - 1) && tells(OSDP_REPORT_NONE));
    unmake();
    make(UINT64_MAX);
    demand(osdp_panel_submit(&panel, 0, OSDP_OUT, off, 4, OSDP_NEVER, &number) == OSDP_NUMBERS_USED_UP && number == 99);
    unmake();
}

int main(void)
{
    at_its_last_moment();
    in_front();
    without_a_session();
    before_a_repeat();
    before_it_is_written();
    asked_for();
    over_a_restart();
    used_up();
    return 0;
}
