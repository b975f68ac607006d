/* A session without a C library, from one seed: a panel and two devices on a line that loses 5% of all bursts, damages 5% and brings 4% twice. There are orders,
 * of which some may soon be too late, and cards, each device starts anew now and then, the panel too, and addresses are set by COMSET. A monitor listens, and another one now and then takes its
 * place. All that either end and the monitor say, tell and do goes into one number.
 * So two builds of the calls that differ in one answer print different lines. */
#include "osdp_layout.h"
#include "reach.h"

#ifndef STEPS
#define STEPS 12000
#endif

enum { DEVICES = 2, HELD = 8 };

static osdp_panel panel;
static osdp_device devices[DEVICES];
static osdp_monitor monitor;
static uint32_t addresses[DEVICES], waits[DEVICES];
static uint64_t now, seed = 0x9E3779B97F4A7C15u, hash = 0xCBF29CE484222325u;
static uint32_t opened, settled, moved, told, lost, expired, orders, sent, restarts, refused, heard;

/* The next number of the seed, below a bound. */
static uint32_t chance(uint32_t below)
{
    seed ^= seed << 13;
    seed ^= seed >> 7;
    seed ^= seed << 17;
    return (uint32_t)(seed >> 33) % below;
}

static void hash_number(uint64_t number)
{
    for (int i = 0; i < 8; i++) {
        hash = (hash ^ (number >> (8 * i) & 255)) * 0x100000001B3u;
    }
}

static void hash_bytes(const uint8_t *bytes, uint32_t length)
{
    hash_number(length);
    for (uint32_t i = 0; i < length; i++) {
        hash = (hash ^ bytes[i]) * 0x100000001B3u;
    }
}

static void hash_message(const struct osdp_message *message)
{
    hash_number(message->present);
    hash_number(message->code);
    hash_bytes(message->data, message->length);
}

/* A status goes into the number too, and what is refused is counted. */
static bool is_done(osdp_status status)
{
    hash_number(status);
    refused += status != OSDP_OK;
    return status == OSDP_OK;
}

static void begin_device(int i)
{
    static const uint8_t capabilities[] = { 1, 1, 4, 2, 1, 4, 3, 1, 0, 8, 1, 0 }, outputs[] = { 0, 1, 0, 1 };
    const struct osdp_device_config config = { addresses[i], 8, 20, 1000 + (uint32_t)i, 0, { { 0x53, 0x49, 0x4D }, 1, 2, 3, 4, 5 } };
    (void)is_done(osdp_device_new(&devices[i], &config, capabilities, sizeof capabilities));
    (void)is_done(osdp_device_set_outputs(&devices[i], outputs, sizeof outputs));
    (void)is_done(osdp_device_set_inputs(&devices[i], outputs, sizeof outputs));
}

static void begin_panel(void)
{
    struct osdp_panel_config config;
    osdp_size entry = 0;
    osdp_panel_defaults(&config);
    config.capacity = 4;
    config.check = chance(2);
    (void)is_done(osdp_panel_new(&panel, &config));
    for (int i = 0; i < DEVICES; i++) {
        (void)is_done(osdp_panel_add(&panel, addresses[i], chance(1000), &entry));
        waits[i] = 0;
    }
}

/* What is on its way to one end: each burst comes whole, or in two parts. */
static struct line {
    struct osdp_burst bursts[HELD];
    uint32_t count;
} to_panel, to_devices;

/* A burst goes on the line: it is lost, damaged, comes twice, or as it is. */
static void carry(struct line *line, const struct osdp_burst *burst)
{
    uint32_t fate = chance(100);
    uint32_t times = fate >= 5 ? 1u + (fate >= 96) : 0;
    hash_bytes(burst->bytes, burst->length);
    sent++;
    while (times > 0 && line->count < HELD) {
        struct osdp_burst *on = &line->bursts[line->count++];
        *on = *burst;
        if (fate < 10) {
            on->bytes[chance(on->length)] ^= (uint8_t)(1 + chance(255));
        }
        times--;
    }
}

/* A COMSET that was taken moves the device. What is done counts once. */
static void take_answer(int i, const struct osdp_answer *answer)
{
    hash_number(answer->kind);
    hash_number(answer->order);
    hash_message(&answer->command);
    orders += answer->order == OSDP_ORDER_ONCE;
    if (answer->moved) {
        hash_number(answer->address);
        hash_number(answer->baud_rate);
        addresses[i] = answer->address;
    }
    if (answer->order == OSDP_ORDER_PENDING && chance(4) == 0) {
        (void)is_done(osdp_device_answer_refused(&devices[i], OSDP_NAK_RECORD_NOT_PROCESSED));
    }
    if (answer->burst.length > 0) {
        carry(&to_panel, &answer->burst);
    }
}

static void device_hears(int i, const uint8_t *bytes, uint32_t length)
{
    static struct osdp_answer answer;
    osdp_size at = 0, taken = 0;
    do {
        if (!is_done(osdp_device_step(&devices[i], bytes + at, length - at, now, &taken, &answer))) {
            return;
        }
        at += taken;
        take_answer(i, &answer);
    } while (at < length || answer.kind != OSDP_SAID_NONE);
}

static void take_reports(void)
{
    static struct osdp_report report;
    while (osdp_panel_next_report(&panel, &report) == OSDP_OK && report.kind != OSDP_REPORT_NONE) {
        hash_number(report.entry);
        hash_number(report.number);
        hash_number(report.since);
        hash_number(report.numbered);
        hash_number(report.too_late);
        hash_number(report.kind);
        hash_number(report.detail);
        hash_message(&report.command);
        hash_message(&report.reply);
        opened += report.kind == OSDP_REPORT_OPENED;
        settled += report.kind == OSDP_REPORT_SETTLED;
        moved += report.kind == OSDP_REPORT_MOVED;
        told += report.kind == OSDP_REPORT_EVENT;
        lost += report.kind == OSDP_REPORT_LOST;
        expired += report.kind == OSDP_REPORT_EXPIRED;
    }
}

/* The text that waits at the monitor goes into the number. */
static void take_text(void)
{
    static char text[64];
    osdp_size length = 0;
    while (is_done(osdp_monitor_next_text(&monitor, text, 1 + chance(sizeof text), &length)) && length > 0) {
        hash_bytes((const uint8_t *)text, (uint32_t)length);
        heard += (uint32_t)length;
    }
}

/* A burst comes by the monitor, in one part or two. */
static void listen(const struct osdp_burst *burst, uint32_t part)
{
    (void)is_done(osdp_monitor_bytes(&monitor, burst->bytes, part));
    (void)is_done(osdp_monitor_bytes(&monitor, burst->bytes + part, burst->length - part));
    (void)is_done(osdp_monitor_silence(&monitor));
    take_text();
}

/* Another monitor takes the place of the one before, which tells its table. */
static void begin_monitor(uint32_t number)
{
    uint32_t wrong = 0;
    (void)is_done(osdp_monitor_table(&monitor));
    take_text();
    (void)is_done(osdp_monitor_is_wrong(&monitor, &wrong));
    hash_number(wrong);
    (void)is_done(osdp_monitor_free(&monitor));
    (void)is_done(osdp_monitor_new(&monitor, number % 3, number % 2));
}

/* What is on the line comes to its ends. */
static void arrive(void)
{
    static struct line taken;
    taken = to_devices;
    to_devices.count = 0;
    for (uint32_t k = 0; k < taken.count; k++) {
        uint32_t length = taken.bursts[k].length, part = chance(2) ? chance(length) : length;
        listen(&taken.bursts[k], part);
        for (int i = 0; i < DEVICES; i++) {
            device_hears(i, taken.bursts[k].bytes, part);
            device_hears(i, taken.bursts[k].bytes + part, length - part);
        }
    }
    taken = to_panel;
    to_panel.count = 0;
    for (uint32_t k = 0; k < taken.count; k++) {
        listen(&taken.bursts[k], chance(taken.bursts[k].length));
        (void)is_done(osdp_panel_bytes(&panel, taken.bursts[k].bytes, taken.bursts[k].length, now));
        take_reports();
    }
}

/* One of the orders that a panel gives. */
static void order(int i)
{
    static const char *const texts[] = { "OUT 0:5:30", "LSTAT", "OSTAT", "LED 0:0:2:1:0:2:0:50:1:1:0:1:0", "BUZ 0:2:5:5:3", "TEXT 0 1 0 1 1 48656C6C6F", "ISTAT" };
    static struct osdp_message command;
    const char *text = texts[chance(sizeof texts / sizeof texts[0])];
    uint64_t number = 0, until = chance(4) == 0 ? now + chance(400) : OSDP_NEVER;
    uint32_t length = 0;
    while (text[length] != 0) {
        length++;
    }
    if (chance(12) != 0) {
        (void)is_done(osdp_panel_submit_text(&panel, (osdp_size)i, text, length, until, &number));
    } else if (is_done(osdp_comset(1 + chance(100), 9600, &command))) {
        (void)is_done(osdp_panel_submit(&panel, (osdp_size)i, command.code, command.data, command.length, until, &number));
    }
    hash_number(number);
}

static void read_card(int i)
{
    static struct osdp_message event;
    struct osdp_keypad keys = { 0, 4, { 0 } };
    for (int k = 0; k < 4; k++) {
        keys.digits[k] = (uint8_t)(0x30 + chance(10));
    }
    osdp_keypad(&keys, &event);
    (void)is_done(osdp_device_event(&devices[i], event.code, event.data, event.length));
}

/* A session that is closed begins where its device is. */
static void begin_sessions(void)
{
    for (int i = 0; i < DEVICES; i++) {
        uint32_t closed = 0;
        if (is_done(osdp_panel_is_closed(&panel, (osdp_size)i, &closed)) && closed && waits[i]++ % 8 == 7) {
            (void)is_done(osdp_panel_retarget(&panel, (osdp_size)i, addresses[i]));
            (void)is_done(osdp_panel_begin(&panel, (osdp_size)i, now));
        }
    }
}

/* The power of an end fails now and then, and it starts anew. */
static void restart(void)
{
    uint32_t which = chance(3000);
    if (which < DEVICES) {
        (void)is_done(osdp_device_free(&devices[which]));
        begin_device((int)which);
        restarts++;
    } else if (which == DEVICES) {
        (void)is_done(osdp_panel_free(&panel));
        begin_panel();
        restarts++;
    }
}

static void step(void)
{
    static struct osdp_burst burst;
    static struct osdp_message event;
    uint32_t gone = 0, sends = 0;
    int i = (int)chance(DEVICES);
    now += 5 + chance(40);
    restart();
    begin_sessions();
    if (chance(8) == 0) {
        order(i);
    }
    if (chance(16) == 0) {
        read_card(i);
    }
    arrive();
    if (is_done(osdp_device_expire_event(&devices[i], now, 5000, &gone, &event))) {
        hash_number(gone);
    }
    if (is_done(osdp_panel_tick(&panel, now, &sends)) && sends != 0 && is_done(osdp_panel_write(&panel, now + chance(3), &burst)) && burst.length > 0) {
        carry(&to_devices, &burst);
    }
    take_reports();
}

/* Prints a name, and a number in decimal. */
static void tell(const char *name, uint64_t number)
{
    char text[24];
    int at = sizeof text - 1;
    text[at] = 0;
    do {
        uint64_t tenth = 0, rest = 0;
        for (int bit = 63; bit >= 0; bit--) { /* a division that asks for no helper */
            rest = rest << 1 | (number >> bit & 1);
            tenth = tenth << 1 | (rest >= 10);
            rest -= rest >= 10 ? 10 : 0;
        }
        text[--at] = (char)('0' + rest);
        number = tenth;
    } while (number > 0);
    print(name);
    print(text + at);
}

void session(void)
{
    for (int i = 0; i < DEVICES; i++) {
        addresses[i] = 101 + (uint32_t)i;
        begin_device(i);
    }
    begin_panel();
    for (uint32_t k = 0; k < STEPS; k++) {
        if (k % 400 == 0) {
            begin_monitor(k / 400);
        }
        step();
    }
    tell("opened ", opened);
    tell(" settled ", settled);
    tell(" moved ", moved);
    tell(" told ", told);
    tell(" lost ", lost);
    tell(" expired ", expired);
    tell(" orders ", orders);
    tell(" sent ", sent);
    tell(" restarts ", restarts);
    tell(" refused ", refused);
    tell(" heard ", heard);
    tell(" hash ", hash);
    print("\n");
}
