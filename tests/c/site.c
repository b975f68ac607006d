/* A site (osdp_site.h) over a panel and a device of this library, which are joined in memory: what is refused; that states come once after each opening, the latest of
 * each, and in their order, also where the panel has room for one command; that a state which is longer than the panel's room keeps none waiting; that orders for a
 * time are not repeated; when sessions begin; that after a turn which comes late no order goes out whose last moment has passed, and that a card tells when it was asked
 * for; and that a moment which lies too far ahead takes nothing back. */
#include <string.h>

#include "demands.h"
#include "osdp_site.h"
#include "panels.h"

static osdp_panel panel;
static osdp_device device;
static osdp_site site;
static struct osdp_site_entry entries[1];
static bool is_there = true;
static uint64_t now = 1000;
static char taken[2048]; /* the texts of the orders that the device took */
static char told[256];   /* each change of presence, with its moment */
static unsigned events, losses, withheld, expired; /* how many of these were reported: of sessions those that were lost with an order, and for an order that was too old */
static uint64_t asked_for;                         /* when the last event was asked for */
static uint8_t answered[4096];
static size_t length;

/* The text of an order, after those before it. */
static void note(const struct osdp_message *command)
{
    char text[256];
    size_t count;
    demand(osdp_command_text(command->code, command->data, command->length, text, sizeof text, &count) == OSDP_OK);
    demand(strlen(taken) + count + 2 < sizeof taken);
    strcat(strncat(taken, text, count), ";");
}

static void take_answer(void *of, const struct osdp_answer *answer, uint64_t at)
{
    (void)at;
    demand(of == answered); /* what was handed to the turn */
    if (answer->order == OSDP_ORDER_ONCE) {
        note(&answer->command);
    }
    memcpy(answered + length, answer->burst.bytes, answer->burst.length);
    length += answer->burst.length;
}

static void take_report(void *of, const struct osdp_report *report, bool has_changed, uint64_t at)
{
    demand(of == entries);
    events += report->kind == OSDP_REPORT_EVENT;
    asked_for = report->kind == OSDP_REPORT_EVENT ? report->since : asked_for;
    losses += report->kind == OSDP_REPORT_LOST && report->command.present;
    withheld += report->too_late;
    expired += report->kind == OSDP_REPORT_EXPIRED;
    if (has_changed) {
        demand(entries[report->entry].since == at);
        sprintf(told + strlen(told), "%s %u;", entries[report->entry].is_online ? "online" : "offline", (unsigned)at);
    }
}

/* A turn of a panel, whose burst is written at once. It has no length where none is to go out. */
static void turn(osdp_panel *its, const uint8_t *bytes, size_t count, uint64_t at, struct osdp_burst *burst)
{
    burst->length = 0;
    if (osdp_site_turn(&site, its, bytes, count, at, take_report, entries)) {
        demand(osdp_panel_write(its, at, burst) == OSDP_OK && burst->length > 0);
    }
}

/* Both ends run up to a moment, a millisecond each time. */
static void run(uint64_t until)
{
    static struct osdp_burst burst;
    static uint8_t bytes[sizeof answered];
    for (; now < until; now++) {
        size_t count = length;
        memcpy(bytes, answered, count);
        length = 0;
        turn(&panel, bytes, count, now, &burst);
        if (is_there) {
            osdp_device_turn(&device, burst.bytes, burst.length, now, take_answer, answered);
        }
    }
}

static osdp_site_status wants_text(const char *text)
{
    static struct osdp_message command;
    static osdp_panel reads; /* reads a text: its queue gives the command back */
    size_t entry;
    struct osdp_panel_config config;
    osdp_panel_defaults(&config);
    demand(osdp_panel_new(&reads, &config) == OSDP_OK && osdp_panel_add(&reads, 1, 0, &entry) == OSDP_OK);
    demand(gives(&reads, entry, text) == OSDP_OK);
    demand(osdp_panel_withdraw(&reads, entry, &command) == OSDP_OK && command.present);
    demand(osdp_panel_free(&reads) == OSDP_OK);
    return osdp_site_wants(&site, 0, &command);
}

static void refusals(void)
{
    static const struct {
        const char *text;
        osdp_site_status status;
    } rows[] = {
        { "OUT 0:5:30", OSDP_SITE_TIMED }, { "OUT 0:6:30", OSDP_SITE_TIMED }, { "OUT 0:0:0", OSDP_SITE_NO_STATE }, { "OUT 0:7:0", OSDP_SITE_NO_STATE },
        { "OUT 0:1:0 1:1:0", OSDP_SITE_SEVERAL }, { "LED 0:0:2:1:0:2:2:50:1:1:0:1:1", OSDP_SITE_TIMED }, { "LED 0:0:0:0:0:0:0:0:0:1:0:1:1", OSDP_SITE_NO_STATE },
        { "LED 0:0:0:0:0:0:0:0:1:1:0:1:1 0:1:0:0:0:0:0:0:1:1:0:1:1", OSDP_SITE_SEVERAL },
        { "BUZ 0 2 5 5 3", OSDP_SITE_TIMED }, { "BUZ 0 2 5 5 1", OSDP_SITE_TIMED }, { "BUZ 0 0 5 5 0", OSDP_SITE_NO_STATE },
        { "TEXT 0 3 5 1 1 4142", OSDP_SITE_TIMED }, { "TEXT 0 4 5 1 1 4142", OSDP_SITE_TIMED }, { "TEXT 0 5 0 1 1 4142", OSDP_SITE_NO_STATE },
        { "ISTAT", OSDP_SITE_NO_STATE }, { "COMSET 7 9600", OSDP_SITE_NO_STATE }, { "MFG 535349 01", OSDP_SITE_NO_STATE }, { "ID 0", OSDP_SITE_NO_STATE },
    };
    struct osdp_message none = { 0 };
    for (size_t i = 0; i < sizeof rows / sizeof rows[0]; i++) {
        demand(wants_text(rows[i].text) == rows[i].status && entries[0].count == 0);
    }
    osdp_sound(false, &none);
    demand(osdp_site_wants(&site, 1, &none) == OSDP_SITE_NO_ENTRY);
    none.length = 4; /* no BUZ has four bytes */
    demand(osdp_site_wants(&site, 0, &none) == OSDP_SITE_NO_STATE && entries[0].count == 0);
    osdp_sound(false, &none);
    none.present = 0;
    demand(osdp_site_wants(&site, 0, &none) == OSDP_SITE_NO_STATE && entries[0].count == 0);
    demand(!osdp_site_is_refreshed(&site, 0)); /* nothing is wanted of it, and it is offline */
}

/* Each control, each kind of LED, buzzer and text that says a state is taken as one. */
static void states(void)
{
    static const char *const texts[] = {
        "OUT 0:1:0", "OUT 1:2:0", "OUT 2:3:7", "OUT 3:4:7", "LED 0:0:0:0:0:0:0:0:1:1:0:1:1", "LED 0:1:1:0:0:0:0:0:1:1:0:1:1", "BUZ 0 1 5 5 3", "BUZ 1 2 5 5 0",
        "TEXT 0 1 0 1 1 41", "TEXT 0 2 0 2 1 41",
    };
    for (unsigned i = 0; i < sizeof texts / sizeof texts[0]; i++) {
        demand(wants_text(texts[i]) == OSDP_SITE_OK && entries[0].count == i + 1);
    }
    osdp_site_new(&site, entries, 1, OSDP_SITE_ANY_LENGTH, now);
}

/* The commands that panels mostly give, each by its text: a strike of output 3 for half a minute, and the first LED and the buzzer of the first reader. */
static void commands(void)
{
    static struct osdp_message command;
    taken[0] = '\0';
    osdp_output_for(3, 300, &command);
    note(&command);
    osdp_color(OSDP_COLOR_AMBER, &command);
    note(&command);
    osdp_color_for(OSDP_COLOR_RED, 50, &command);
    note(&command);
    osdp_sound(true, &command);
    note(&command);
    osdp_sound(false, &command);
    note(&command);
    demand(strcmp(taken, "OUT 3:5:300;LED 0:0:0:0:0:0:0:0:1:1:0:3:3;LED 0:0:2:1:0:1:1:50:0:0:0:0:0;BUZ 0 2 5 5 0;BUZ 0 1 5 5 0;") == 0);
    taken[0] = '\0';
}

/* Seventeen outputs are one too many; the same again needs no room. */
static void room(void)
{
    char text[16];
    for (unsigned i = 0; i <= OSDP_SITE_ROOM; i++) {
        sprintf(text, "OUT %u:2:0", i);
        demand(wants_text(text) == (i < OSDP_SITE_ROOM ? OSDP_SITE_OK : OSDP_SITE_FULL));
    }
    demand(wants_text("OUT 3:1:0") == OSDP_SITE_OK && entries[0].count == OSDP_SITE_ROOM);
    osdp_site_new(&site, entries, 1, OSDP_SITE_ANY_LENGTH, now);
}

/* Two outputs, LEDs, buzzers or texts at two places are two states; each of them again is none. */
static void subjects(void)
{
    static const char *const texts[] = {
        "OUT 0:2:0", "OUT 1:2:0", "LED 0:0:0:0:0:0:0:0:1:1:0:1:1", "LED 0:1:0:0:0:0:0:0:1:1:0:1:1", "LED 1:0:0:0:0:0:0:0:1:1:0:1:1",
        "BUZ 0 1 0 0 0", "BUZ 1 1 0 0 0", "TEXT 0 1 0 1 1 41", "TEXT 0 1 0 1 2 41", "TEXT 0 1 0 2 1 41", "TEXT 1 1 0 1 1 41",
    };
    for (unsigned i = 0; i < 2 * sizeof texts / sizeof texts[0]; i++) {
        demand(wants_text(texts[i % (sizeof texts / sizeof texts[0])]) == OSDP_SITE_OK);
    }
    demand(entries[0].count == sizeof texts / sizeof texts[0]);
    osdp_site_new(&site, entries, 1, OSDP_SITE_ANY_LENGTH, now);
}

static void lives(void)
{
    static struct osdp_message order;
    uint64_t number = 9;
    demand(wants_text("LED 0:0:0:0:0:0:0:0:1:1:0:1:1") == OSDP_SITE_OK); /* red, which is wanted no more once green is */
    demand(wants_text("BUZ 0 1 0 0 0") == OSDP_SITE_OK);
    demand(wants_text("LED 0:0:0:0:0:0:0:0:1:1:0:2:2") == OSDP_SITE_OK);
    demand(wants_text("TEXT 0 1 0 1 1 4142") == OSDP_SITE_OK);
    demand(osdp_site_next_deadline(&site) == 1000 && osdp_site_is_due(&site, 0, 1000) && !osdp_site_is_due(&site, 0, 999));
    osdp_output_for(0, 50, &order);
    demand(!osdp_site_order(&site, &panel, 0, &order, OSDP_NEVER, &number) && number == 9); /* it is offline still */
    run(3000);
    demand(strcmp(taken, "BUZ 0 1 0 0 0;LED 0:0:0:0:0:0:0:0:1:1:0:2:2;TEXT 0 1 0 1 1 4142;") == 0);
    demand(osdp_site_is_refreshed(&site, 0) && osdp_site_next_deadline(&site) == UINT64_MAX && strcmp(told, "online 1401;") == 0);
    taken[0] = '\0';
    demand(osdp_site_order(&site, &panel, 0, &order, OSDP_NEVER, &number) && number == 3); /* three states have gone out */
    run(3500);
    demand(strcmp(taken, "OUT 0:5:50;") == 0);
    demand(wants_text("BUZ 0 2 5 5 0") == OSDP_SITE_OK && !osdp_site_is_refreshed(&site, 0));
    run(4000);
    demand(strcmp(taken, "OUT 0:5:50;BUZ 0 2 5 5 0;") == 0);
    taken[0] = told[0] = '\0';
}

/* The device is gone for a while, and comes back: states come again, in the order in which they were wanted last, and the order doesn't. */
static void comes_back(void)
{
    static struct osdp_message stale;
    uint32_t closed = 0;
    is_there = false;
    length = 0;
    for (run(6000); !closed; run(now + 1)) { /* up to a pause */
        demand(osdp_panel_is_closed(&panel, 0, &closed) == OSDP_OK);
    }
    osdp_output_for(0, 50, &stale); /* ordered all the same: it is taken back before the next session */
    demand(gives_data(&panel, 0, stale.code, stale.data, stale.length) == OSDP_OK);
    demand(strncmp(told, "offline ", 8) == 0 && strchr(told, ';') == told + strlen(told) - 1); /* once, though sessions were lost again */
    demand(!entries[0].is_online && entries[0].since > 4000 && entries[0].since < 5000);
    is_there = true;
    run(12000);
    demand(strcmp(taken, "LED 0:0:0:0:0:0:0:0:1:1:0:2:2;TEXT 0 1 0 1 1 4142;BUZ 0 2 5 5 0;") == 0);
    demand(entries[0].is_online && osdp_site_is_refreshed(&site, 0));
}

/* Runs until a packet of this code has been answered, and the answer has not been heard. */
static void run_until_answered(uint8_t code)
{
    for (unsigned i = 0; i < 5000 && (length <= 5 || answered[5] != code); i++) {
        run(now + 1);
    }
    demand(length > 5 && answered[5] == code);
}

/* Where a turn comes late, the order that was under way isn't sent again, and the one that waited expires. An answer that came meanwhile is read: its event tells when it
 * was asked for. */
static void stands_still(void)
{
    static struct osdp_message order;
    uint64_t first, second, asked;
    osdp_output_for(0, 50, &order);
    demand(osdp_site_order(&site, &panel, 0, &order, now + 2000, &first));
    is_there = false;
    run(now + 50); /* it has gone out, and nobody has heard it */
    demand(osdp_site_order(&site, &panel, 0, &order, now + 2000, &second) && second == first + 1);
    is_there = true;
    taken[0] = told[0] = '\0';
    events = losses = withheld = expired = 0;
    now += 5000;
    run(now + 5000);
    demand(strstr(taken, "OUT") == NULL && losses == 1 && withheld == 1 && expired == 1);
    demand(strncmp(told, "offline ", 8) == 0 && strstr(told, "online ") != NULL && entries[0].is_online && osdp_site_is_refreshed(&site, 0));
    told[0] = '\0';
    demand(osdp_device_event_text(&device, "KEYPAD 0 31", 11) == OSDP_OK);
    run_until_answered(OSDP_KEYPAD);
    asked = now - 1; /* each turn takes a millisecond */
    now += 60000;
    run(now + 1);
    demand(events == 1 && asked_for == asked);
    run_until_answered(OSDP_ACK);
    now += 25 * 3600000ull; /* further than a moment may lie after the one before */
    run(now + 300);
    demand(events == 1 && told[0] == '\0' && entries[0].is_online); /* its session has gone on */
    taken[0] = '\0';
    demand(osdp_site_order(&site, &panel, 0, &order, now - 1, &second)); /* too old already */
    demand(osdp_site_order(&site, &panel, 0, &order, now, &second) == false); /* there is room for one */
    run(now + 300);
    demand(taken[0] == '\0' && expired == 2 && losses == 1 && osdp_site_order(&site, &panel, 0, &order, now + 100, &second));
    run(now + 300);
    demand(strcmp(taken, "OUT 0:5:50;") == 0 && expired == 2);
}

/* After the end of a session the next is due after the pause, at each entry by itself. */
static void pauses(void)
{
    static struct osdp_site_entry two[2];
    static struct osdp_report report;
    osdp_site other;
    osdp_site_new(&other, two, 2, OSDP_SITE_ANY_LENGTH, 0);
    other.pause = 300;
    two[0].begins = two[1].begins = UINT64_MAX; /* both have begun */
    report.kind = OSDP_REPORT_LOST;
    report.entry = 1;
    demand(!osdp_site_heed(&other, &report, 1000)); /* it was offline before */
    demand(two[1].since == 0 && osdp_site_next_deadline(&other) == 1300);
    demand(!osdp_site_is_due(&other, 1, 1299) && osdp_site_is_due(&other, 1, 1300) && !osdp_site_is_due(&other, 0, 5000) && !osdp_site_is_due(&other, 2, 5000));
    report.entry = 2;
    demand(!osdp_site_heed(&other, &report, 1000));
    report.entry = 0;
    report.kind = OSDP_REPORT_OPENED;
    demand(osdp_site_heed(&other, &report, 1100) && !osdp_site_heed(&other, &report, 1200) && two[0].since == 1100);
    report.kind = OSDP_REPORT_MOVED;
    demand(osdp_site_heed(&other, &report, 1250) && two[0].since == 1250 && two[0].begins == 1550 && osdp_site_next_deadline(&other) == 1300);
    report.kind = OSDP_REPORT_SETTLED;
    demand(!osdp_site_heed(&other, &report, 1400) && two[0].begins == 1550);
    report.kind = OSDP_REPORT_LOST;
    (void)osdp_site_heed(&other, &report, UINT64_MAX - 300); /* the greatest moment stands for a session that has begun: this one is due all the same */
    demand(osdp_site_is_due(&other, 0, UINT64_MAX - 1) && !osdp_site_is_due(&other, 0, UINT64_MAX - 2));
    osdp_site_new(&other, two, 2, OSDP_SITE_ANY_LENGTH, 700);
    (void)osdp_site_heed(&other, &report, 1000);
    demand(two[0].begins == 2000 && two[1].begins == 700 && two[0].since == 700 && two[1].since == 700); /* a second, where no pause was set */
}

/* A panel whose packet goes out once, 400 ms after its session has begun, and is answered within 200 ms or not at all. */
static void make_brisk(osdp_panel *brisk, uint32_t capacity)
{
    struct osdp_panel_config config;
    size_t entry;
    osdp_panel_defaults(&config);
    config.check = OSDP_CHECK_SUM;
    config.quiet_wait = 400;
    config.reply_wait = 200;
    config.sends = 1;
    config.capacity = capacity;
    demand(osdp_panel_new(brisk, &config) == OSDP_OK && osdp_panel_add(brisk, 5, 0, &entry) == OSDP_OK);
}

/* A state that waits for room and is wanted anew brings none again that was submitted. */
static void is_submitted_once(void)
{
    static struct osdp_site_entry one[1];
    static struct osdp_message command;
    static struct osdp_report report;
    osdp_panel brisk = { 0 };
    osdp_site its;
    size_t waiting;
    make_brisk(&brisk, 1);
    osdp_site_new(&its, one, 1, OSDP_SITE_ANY_LENGTH, 1000);
    osdp_color(OSDP_COLOR_RED, &command);
    demand(osdp_site_wants(&its, 0, &command) == OSDP_SITE_OK);
    osdp_sound(true, &command);
    demand(osdp_site_wants(&its, 0, &command) == OSDP_SITE_OK);
    osdp_site_act(&its, &brisk, 1000);
    report.kind = OSDP_REPORT_OPENED;
    demand(osdp_site_heed(&its, &report, 1500));
    osdp_site_act(&its, &brisk, 1500);
    demand(one[0].done == 1 && osdp_panel_waiting(&brisk, 0, &waiting) == OSDP_OK && waiting == 1);
    osdp_sound(false, &command);
    demand(osdp_site_wants(&its, 0, &command) == OSDP_SITE_OK && one[0].count == 2 && one[0].done == 1);
    uint64_t number;
    demand(!osdp_site_order(&its, &brisk, 1, &command, OSDP_NEVER, &number)); /* the site has one entry */
    demand(osdp_panel_free(&brisk) == OSDP_OK);
}

/* How long a program waits: up to the site's next session, the panel's next packet, or as long as it says, whichever is first. */
static void waits(void)
{
    static struct osdp_site_entry two[2];
    static struct osdp_report report;
    osdp_panel brisk = { 0 };
    osdp_site its;
    size_t entry;
    make_brisk(&brisk, 1);
    demand(osdp_panel_add(&brisk, 6, 0, &entry) == OSDP_OK && entry == 1);
    osdp_site_new(&its, two, 2, OSDP_SITE_ANY_LENGTH, 1000);
    its.pause = 300;
    demand(osdp_site_wait(&its, &brisk, 900, 5000) == 100 && osdp_site_wait(&its, &brisk, 1000, 5000) == 0 && osdp_site_wait(&its, &brisk, 1001, 5000) == 0);
    osdp_site_act(&its, &brisk, 1000);
    demand(osdp_site_wait(&its, &brisk, 1000, 5000) == 400 && osdp_site_wait(&its, &brisk, 1000, 399) == 399 && osdp_site_wait(&its, &brisk, 1399, 5000) == 1);
    report.kind = OSDP_REPORT_LOST;
    report.entry = 1;
    (void)osdp_site_heed(&its, &report, 1000);
    demand(osdp_site_wait(&its, &brisk, 1000, 5000) == 300);
    demand(osdp_panel_free(&brisk) == OSDP_OK);
}

/* A turn takes what its bytes have reported, and the next one sends what is wanted then. What a tick has reported the next turn takes. So it is also after a long sleep, whose
 * moment lies too far ahead. Without a panel nothing is to go out. */
static void turns(void)
{
    static struct osdp_burst burst;
    static const uint8_t identifies[] = { 0x53, 0x85, 19, 0, 0, OSDP_PDID, 1, 2, 3, 4, 5, 6, 7, 8, 9, 10, 11, 12, 0x82 };
    const uint64_t late = 1000 + 2 * 86400000ull;
    osdp_panel brisk = { 0 };
    for (int hears = 0; hears < 3; hears++) {
        make_brisk(&brisk, 1);
        osdp_site_new(&site, entries, 1, OSDP_SITE_ANY_LENGTH, 1000);
        demand(wants_text("BUZ 0 1 5 5 0") == OSDP_SITE_OK);
        turn(&brisk, NULL, 0, 1000, &burst);
        demand(burst.length == 0 && !osdp_site_is_due(&site, 0, UINT64_MAX)); /* its session has begun */
        turn(&brisk, NULL, 0, hears ? 1400 : late, &burst);
        demand(burst.length > 5 && burst.bytes[1] == 5 && burst.bytes[5] == OSDP_ID);
        if (hears == 0) {
            turn(&brisk, NULL, 0, late + 200, &burst);
            turn(&brisk, NULL, 0, late + 201, &burst);
            demand(burst.length == 0 && entries[0].begins == late + 1201);
        } else {
            uint64_t at = hears == 1 ? 1599 : late;
            turn(&brisk, identifies, sizeof identifies, at, &burst);
            demand(burst.length == 0 && entries[0].is_online && entries[0].since == at && osdp_site_wait(&site, &brisk, at, 5000) == 0);
            turn(&brisk, NULL, 0, at, &burst);
            demand(burst.length > 5 && burst.bytes[5] == OSDP_BUZ);
        }
        demand(osdp_panel_free(&brisk) == OSDP_OK);
        turn(&brisk, NULL, 0, late + 200, &burst);
        demand(burst.length == 0);
    }
}

/* At a moment that lies too far ahead nothing is taken back, and the session stays due: it begins once the clock is right. */
static void keeps_what_waits(void)
{
    static struct osdp_message command;
    static struct osdp_site_entry one[1];
    osdp_panel far = { 0 };
    osdp_site its;
    size_t entry, waiting;
    uint32_t closed;
    struct osdp_panel_config config;
    osdp_panel_defaults(&config); /* a moment may lie a day after the one before */
    demand(osdp_panel_new(&far, &config) == OSDP_OK && osdp_panel_add(&far, 5, 0, &entry) == OSDP_OK);
    demand(osdp_panel_bytes(&far, NULL, 0, 1000) == OSDP_OK && gives(&far, entry, "LSTAT") == OSDP_OK);
    osdp_site_new(&its, one, 1, OSDP_SITE_ANY_LENGTH, 1000);
    osdp_site_act(&its, &far, 1000 + 2 * 86400000ull);
    demand(osdp_site_is_due(&its, 0, 1000) && osdp_panel_is_closed(&far, entry, &closed) == OSDP_OK && closed == 1);
    demand(osdp_panel_withdraw(&far, entry, &command) == OSDP_OK && command.present);
    demand(gives(&far, entry, "LSTAT") == OSDP_OK && gives(&far, entry, "ISTAT") == OSDP_OK);
    osdp_site_act(&its, &far, 1001);
    demand(osdp_site_next_deadline(&its) == UINT64_MAX && osdp_panel_is_closed(&far, entry, &closed) == OSDP_OK && closed == 0);
    demand(osdp_panel_waiting(&far, entry, &waiting) == OSDP_OK && waiting == 0);
    demand(osdp_panel_free(&far) == OSDP_OK);
}

/* Both ends, and a site. The panel has room for one command, of so many bytes. */
static void make(size_t bytes)
{
    struct osdp_panel_config config;
    const struct osdp_device_config reader = { .address = 5, .capacity = 2, .gap = 20 };
    const uint8_t off[1] = { 0 };
    size_t entry;
    osdp_panel_defaults(&config);
    config.capacity = 1; /* so the queue is full after the first state */
    demand((bytes == OSDP_SITE_ANY_LENGTH ? osdp_panel_new(&panel, &config) : osdp_panel_new_with_room(&panel, &config, bytes)) == OSDP_OK);
    demand(osdp_panel_add(&panel, 5, 0, &entry) == OSDP_OK);
    demand(osdp_device_new(&device, &reader, NULL, 0) == OSDP_OK && osdp_device_set_outputs(&device, off, 1) == OSDP_OK);
    osdp_site_new(&site, entries, 1, bytes, now);
    length = 0;
    taken[0] = told[0] = '\0';
}

static void unmake(void)
{
    demand(osdp_panel_free(&panel) == OSDP_OK && osdp_device_free(&device) == OSDP_OK);
}

/* A state that is longer than the panel's room is refused: it would keep each state after it waiting. One that just fits goes out, and so do those after it. */
static void lengths(void)
{
    make(12);
    demand(wants_text("TEXT 0 1 0 1 1 414243444546") == OSDP_SITE_TOO_LONG && entries[0].count == 0); /* 13 bytes with its code */
    demand(wants_text("TEXT 0 1 0 1 1 4142434445") == OSDP_SITE_OK && wants_text("BUZ 0 1 0 0 0") == OSDP_SITE_OK);
    demand(wants_text("TEXT 0 1 0 1 1 464544434241") == OSDP_SITE_TOO_LONG && entries[0].count == 2); /* what was wanted stays */
    demand(wants_text("TEXT 0 3 5 1 1 464544434241") == OSDP_SITE_TIMED);
    run(now + 3000);
    demand(strcmp(taken, "TEXT 0 1 0 1 1 4142434445;BUZ 0 1 0 0 0;") == 0 && osdp_site_is_refreshed(&site, 0));
    unmake();
}

int main(void)
{
    make(OSDP_SITE_ANY_LENGTH);
    refusals();
    states();
    commands();
    room();
    subjects();
    lives();
    comes_back();
    stands_still();
    pauses();
    is_submitted_once();
    waits();
    turns();
    keeps_what_waits();
    unmake();
    lengths();
    return 0;
}
