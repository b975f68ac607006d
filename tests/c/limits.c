/* What just fits and what is one more: capacities, addresses, states and texts; any number but 0 as busy; and each kind of report with each of its fields.
 * Each struct is filled with a pattern before the call that writes it. Packets are worked out here from the standard's tables, with a checksum. */
#include <string.h>

#include "demands.h"
#include "osdp.h"
#include "panels.h"

/* The packet with this address, number, code and data. */
static size_t packet(uint8_t *bytes, uint8_t address, uint8_t number, uint8_t code, const uint8_t *data, size_t length)
{
    size_t whole = 6 + length + 1;
    const uint8_t head[] = { 0x53, address, (uint8_t)whole, (uint8_t)(whole >> 8), number, code };
    uint8_t sum = 0;
    memcpy(bytes, head, 6);
    memcpy(bytes + 6, data, length);
    for (size_t i = 0; i < 6 + length; i++) {
        sum = (uint8_t)(sum + bytes[i]);
    }
    bytes[6 + length] = (uint8_t)-sum;
    return whole;
}

static bool is_burst(const struct osdp_burst *burst, uint8_t address, uint8_t number, uint8_t code, const uint8_t *data, size_t length)
{
    uint8_t wanted[1440];
    size_t whole = packet(wanted, address, number, code, data, length);
    return burst->length == whole && memcmp(burst->bytes, wanted, whole) == 0;
}

static struct osdp_panel_config panel_config(void)
{
    struct osdp_panel_config config;
    osdp_panel_defaults(&config);
    config.check = OSDP_CHECK_SUM;
    return config;
}

static struct osdp_device_config reader_config(void)
{
    struct osdp_device_config config = { .address = 6, .capacity = 2, .gap = 20, .product.vendor = { 'S', 'I', 'M' } };
    return config;
}

/* A panel with room for 1,024 commands takes as many, and no reader more events. */
static void capacities(void)
{
    struct osdp_panel panel = { 0 };
    struct osdp_panel_config config = panel_config();
    size_t entry, waiting;
    config.capacity = 1025;
    demand(osdp_panel_new(&panel, &config) == OSDP_PANEL_OUT_OF_RANGE);
    config.capacity = 1024;
    demand(osdp_panel_new(&panel, &config) == OSDP_OK && osdp_panel_add(&panel, 126, 0, &entry) == OSDP_OK);
    for (int i = 0; i < 1024; i++) {
        demand(gives(&panel, entry, "LSTAT") == OSDP_OK);
    }
    demand(gives(&panel, entry, "LSTAT") == OSDP_COMMANDS_FULL);
    demand(osdp_panel_free(&panel) == OSDP_OK);

    struct osdp_device reader = { 0 };
    struct osdp_device_config what = reader_config();
    const uint8_t none[] = { 0 };
    what.capacity = 1025;
    demand(osdp_device_new(&reader, &what, none, 0) == OSDP_DEVICE_OUT_OF_RANGE);
    what.capacity = 1024;
    demand(osdp_device_new(&reader, &what, none, 0) == OSDP_OK);
    for (int i = 0; i < 1024; i++) {
        demand(osdp_device_event_text(&reader, "LSTATR 1 0", 10) == OSDP_OK);
    }
    demand(osdp_device_event_text(&reader, "LSTATR 1 0", 10) == OSDP_EVENTS_FULL);
    demand(osdp_device_waiting(&reader, &waiting) == OSDP_OK && waiting == 1024);
    demand(osdp_device_free(&reader) == OSDP_OK);
}

/* Of so many bytes two OUTs of five fit, or three events of three, and not a byte more. */
static void rooms(void)
{
    const uint8_t off[] = { 0, 1, 0, 0 };
    struct osdp_panel panel = { 0 };
    struct osdp_panel_config config = panel_config();
    size_t entry, waiting;
    config.capacity = 4;
    demand(osdp_panel_new_with_room(&panel, &config, 0) == OSDP_PANEL_OUT_OF_RANGE);
    demand(osdp_panel_new_with_room(&panel, &config, 1024 * 1433 + 1) == OSDP_PANEL_OUT_OF_RANGE);
    demand(osdp_panel_new_with_room(&panel, &config, 11) == OSDP_OK && osdp_panel_add(&panel, 126, 0, &entry) == OSDP_OK);
    demand(osdp_panel_new_with_room(&panel, &config, 11) == OSDP_IN_USE);
    demand(gives_data(&panel, entry, 0x68, off, 4) == OSDP_OK && gives_data(&panel, entry, 0x68, off, 4) == OSDP_OK);
    demand(gives_data(&panel, entry, 0x68, off, 4) == OSDP_COMMANDS_FULL);
    demand(gives(&panel, entry, "LSTAT") == OSDP_OK);
    demand(gives(&panel, entry, "LSTAT") == OSDP_COMMANDS_FULL);
    demand(osdp_panel_waiting(&panel, entry, &waiting) == OSDP_OK && waiting == 3);
    demand(osdp_panel_free(&panel) == OSDP_OK);

    struct osdp_device reader = { 0 };
    struct osdp_device_config what = reader_config();
    what.capacity = 4;
    demand(osdp_device_new_with_room(&reader, &what, NULL, 0, 0) == OSDP_DEVICE_OUT_OF_RANGE);
    demand(osdp_device_new_with_room(&reader, &what, NULL, 0, 1024 * 1433 + 1) == OSDP_DEVICE_OUT_OF_RANGE);
    demand(osdp_device_new_with_room(&reader, &what, NULL, 1, 9) == OSDP_BAD_LENGTH);
    demand(osdp_device_new_with_room(&reader, &what, NULL, 0, 9) == OSDP_OK);
    demand(osdp_device_new_with_room(&reader, &what, NULL, 0, 9) == OSDP_IN_USE);
    for (int i = 0; i < 3; i++) {
        demand(osdp_device_event_text(&reader, "LSTATR 1 0", 10) == OSDP_OK);
    }
    demand(osdp_device_event_text(&reader, "LSTATR 1 0", 10) == OSDP_EVENTS_FULL);
    demand(osdp_device_waiting(&reader, &waiting) == OSDP_OK && waiting == 3);
    demand(osdp_device_free(&reader) == OSDP_OK);
}

/* Numbers whose low byte, or low seven bits, would be a device's address are none. */
static void addresses(void)
{
    const uint32_t bad[] = { 127, 128, 133, 255, 256, 261, 65536, 0x80000005, 0xFFFFFFFF };
    struct osdp_panel panel = { 0 };
    struct osdp_device reader = { 0 };
    struct osdp_panel_config config = panel_config();
    struct osdp_device_config what = reader_config();
    const uint8_t none[] = { 0 };
    size_t entry = 99;
    demand(osdp_panel_new(&panel, &config) == OSDP_OK && osdp_panel_add(&panel, 0, 0, &entry) == OSDP_OK && entry == 0);
    for (size_t i = 0; i < sizeof bad / sizeof bad[0]; i++) {
        entry = 99;
        demand(osdp_panel_add(&panel, bad[i], 0, &entry) == OSDP_PANEL_OUT_OF_RANGE && entry == 99);
        demand(osdp_panel_retarget(&panel, 0, bad[i]) == OSDP_PANEL_OUT_OF_RANGE);
        what.address = bad[i];
        demand(osdp_device_new(&reader, &what, none, 0) == OSDP_DEVICE_OUT_OF_RANGE);
    }
    demand(osdp_panel_add(&panel, 126, 0, &entry) == OSDP_OK && entry == 1);
    what.address = 126;
    demand(osdp_device_new(&reader, &what, none, 0) == OSDP_OK);
    demand(osdp_device_free(&reader) == OSDP_OK && osdp_panel_free(&panel) == OSDP_OK);
}

/* The reader's answer to a question with number 0. */
static const struct osdp_burst *answer_to(struct osdp_device *reader, uint8_t code)
{
    static struct osdp_answer answer;
    uint8_t asked[8];
    size_t taken, length = packet(asked, 6, 0, code, asked, 0);
    memset(&answer, pattern, sizeof answer);
    demand(osdp_device_step(reader, asked, length, 0, &taken, &answer) == OSDP_OK && taken == length);
    if (answer.kind == OSDP_SAID_PENDING) {
        demand(osdp_device_step(reader, asked, 0, 0, &taken, &answer) == OSDP_OK && taken == 0);
    }
    return &answer.burst;
}

/* A new device's session is closed, and open once it was asked with number 0, also while it is busy. */
static void closed(void)
{
    osdp_device device = { 0 };
    struct osdp_device_config what = reader_config();
    uint32_t told = 9;
    demand(osdp_device_is_closed(&device, &told) == OSDP_NO_MACHINE && told == 9);
    demand(osdp_device_new(&device, &what, NULL, 0) == OSDP_OK);
    demand(osdp_device_is_closed(&device, &told) == OSDP_OK && told == 1);
    (void)answer_to(&device, 0x64);
    demand(osdp_device_is_closed(&device, &told) == OSDP_OK && told == 0);
    demand(osdp_device_set_busy(&device, 1) == OSDP_OK);
    demand(osdp_device_is_closed(&device, &told) == OSDP_OK && told == 0);
    demand(osdp_device_free(&device) == OSDP_OK);
}

typedef osdp_status set_call(struct osdp_device *, const uint8_t *, size_t);

/* 1,432 states are told as they were set; one more is refused, and changes nothing. */
static void states(void)
{
    static const struct {
        set_call *set;
        uint8_t question, answer;
    } each[] = {
        { osdp_device_set_inputs, 0x65, 0x49 },
        { osdp_device_set_outputs, 0x66, 0x4A },
        { osdp_device_set_readers, 0x67, 0x4B },
    };
    static uint8_t data[1433];
    struct osdp_device reader = { 0 };
    struct osdp_device_config what = reader_config();
    demand(osdp_device_new(&reader, &what, data, 0) == OSDP_OK);
    for (size_t i = 0; i < sizeof each / sizeof each[0]; i++) {
        for (size_t j = 0; j < sizeof data; j++) {
            data[j] = (uint8_t)(j * 5 + i);
        }
        demand(each[i].set(&reader, data, 1432) == OSDP_OK);
        demand(each[i].set(&reader, data, 1433) == OSDP_BAD_LENGTH);
        demand(is_burst(answer_to(&reader, each[i].question), 0x86, 0, each[i].answer, data, 1432));
    }
    demand(osdp_device_free(&reader) == OSDP_OK);
}

/* Any number but 0 is busy. */
static void busy(void)
{
    const uint32_t numbers[] = { 1, 2, 256, 0x80000000 };
    const uint8_t none[] = { 0 }, local[] = { 0, 0 };
    struct osdp_device reader = { 0 };
    struct osdp_device_config what = reader_config();
    demand(osdp_device_new(&reader, &what, none, 0) == OSDP_OK);
    for (size_t i = 0; i < sizeof numbers / sizeof numbers[0]; i++) {
        demand(osdp_device_set_busy(&reader, numbers[i]) == OSDP_OK);
        demand(is_burst(answer_to(&reader, 0x64), 0x86, 0, 0x79, none, 0));
        demand(osdp_device_set_busy(&reader, 0) == OSDP_OK);
        demand(is_burst(answer_to(&reader, 0x64), 0x86, 0, 0x48, local, 2));
    }
    demand(osdp_device_free(&reader) == OSDP_OK);
}

typedef osdp_status text_call(uint8_t, const uint8_t *, size_t, char *, size_t, size_t *);

/* A text of so many characters fits in as many bytes, and not in one less; with one more there is a zero after it. Nothing else is written. */
static void text_fits(text_call *call, uint8_t code, const uint8_t *data, size_t length, size_t wanted)
{
    static char text[6144];
    size_t told = 0;
    memset(text, pattern, sizeof text);
    demand(call(code, data, length, text, wanted - 1, &told) == OSDP_TOO_SMALL && told == wanted);
    demand(is_pattern(text, sizeof text));
    told = 0;
    demand(call(code, data, length, text, wanted, &told) == OSDP_OK && told == wanted);
    demand(is_pattern(text + wanted, sizeof text - wanted));
    demand(call(code, data, length, text, wanted + 1, &told) == OSDP_OK && told == wanted && strlen(text) == wanted);
    demand(is_pattern(text + wanted + 1, sizeof text - wanted - 1));
}

/* The same text in each room up to two bytes more: it is written whole, or none of it is. */
static void text_is(text_call *call, uint8_t code, const uint8_t *data, size_t length, const char *wanted)
{
    char text[64];
    size_t told = 0, most = strlen(wanted);
    for (size_t room = 0; room <= most + 2; room++) {
        size_t written = room < most ? 0 : room == most ? most : most + 1;
        memset(text, pattern, sizeof text);
        demand(call(code, data, length, text, room, &told) == (room < most ? OSDP_TOO_SMALL : OSDP_OK) && told == most);
        demand(memcmp(text, wanted, written) == 0 && is_pattern(text + written, sizeof text - written));
    }
}

static void texts(void)
{
    static uint8_t data[1432];
    const uint8_t keys[] = { 0, 2, '4', '2' }, outputs[] = { 0, 5, 30, 0, 1, 2, 255, 255 }, device[] = { 1, 2, 255, 3, 4, 4, 3, 2, 1, 5, 6, 7 };
    text_is(osdp_command_text, 0x68, outputs, 8, "OUT 0:5:30 1:2:65535");
    text_is(osdp_reply_text, 0x45, device, 12, "PDID 0102FF 3 4 16909060 5 6 7");
    text_fits(osdp_command_text, 0x60, keys, 0, 4);
    text_fits(osdp_reply_text, 0x53, keys, 4, 13);
    memset(data, 255, sizeof data);
    text_fits(osdp_command_text, 0x68, data, 1432, 3 + 358 * (1 + 4 + 4 + 5));
    text_fits(osdp_command_text, 0x69, data, 1428, 3 + 102 * (1 + 12 * 4 + 5));
    text_fits(osdp_reply_text, 0x46, data, 1431, 5 + 477 * (1 + 4 + 4 + 3));
    text_fits(osdp_reply_text, 0x49, data, 1432, 7 + 2 * 1432);
}

/* ---- reports ---- */

static struct osdp_panel panel;
static uint64_t now, asked_at, order; /* the moment of the last packet, and the number of the last order */
static uint8_t number;

static const uint8_t out[] = { 0, 2, 0, 0 }, id[] = { 'S', 'I', 'M', 7, 8, 1, 2, 3, 4, 9, 10, 11 };

/* A message of a report: its code and data; 0 for none. */
struct wanted {
    uint8_t code;
    const uint8_t *data;
    size_t length;
};

static const struct wanted none = { 0, NULL, 0 }, is_out = { 0x68, out, 4 };

static bool is_message(const struct osdp_message *message, struct wanted wanted)
{
    return message->present == (wanted.code != 0) && message->code == wanted.code && message->length == wanted.length
        && (wanted.length == 0 || memcmp(message->data, wanted.data, wanted.length) == 0)
        && is_pattern(message->data + wanted.length, sizeof message->data - wanted.length);
}

/* The report that waits is this one, of entry 1, and then none waits. The turn that has brought it sends nothing. */
static void is_told(uint32_t kind, uint32_t detail, struct wanted command, struct wanted reply)
{
    static struct osdp_report report;
    uint32_t sends = 9;
    memset(&report, pattern, sizeof report);
    demand(osdp_panel_next_report(&panel, &report) == OSDP_OK);
    demand(report.kind == kind && report.entry == 1 && report.detail == detail && report.too_late == 0);
    demand(report.numbered == (command.code != 0) && report.number == (command.code != 0 ? order : 0));
    demand(report.since == (kind == OSDP_REPORT_EVENT ? asked_at : 0));
    demand(is_message(&report.command, command) && is_message(&report.reply, reply));
    memset(&report, pattern, sizeof report);
    demand(osdp_panel_next_report(&panel, &report) == OSDP_OK);
    demand(report.kind == OSDP_REPORT_NONE && report.entry == 0 && report.detail == 0);
    demand(report.numbered == 0 && report.number == 0 && report.since == 0 && report.too_late == 0);
    demand(is_message(&report.command, none) && is_message(&report.reply, none));
    demand(osdp_panel_tick(&panel, now, &sends) == OSDP_OK && sends == 0);
}

/* After so many milliseconds this command goes out, to address 6 with the number that has its turn. */
static void asks(uint64_t wait, uint8_t code, const uint8_t *data, size_t length)
{
    static struct osdp_burst burst;
    now += wait;
    asked_at = now;
    demand(ticks(&panel, now, &burst) == OSDP_OK);
    demand(is_burst(&burst, 6, number, code, data, length));
    now += 3; /* until it is answered */
}

static void answers(uint8_t with, uint8_t code, const uint8_t *data, size_t length)
{
    uint8_t bytes[64];
    size_t whole = packet(bytes, 0x86, with, code, data, length);
    demand(osdp_panel_bytes(&panel, bytes, whole, now) == OSDP_OK);
}

static void next_number(void)
{
    number = (uint8_t)(number % 3 + 1);
}

static void opens(void)
{
    const uint8_t asked[] = { 0 };
    const struct wanted pdid = { 0x45, id, sizeof id };
    demand(osdp_panel_begin(&panel, 1, now) == OSDP_OK);
    number = 0;
    asks(400, 0x61, asked, 1);
    answers(0, 0x45, id, sizeof id);
    is_told(OSDP_REPORT_OPENED, 0, none, pdid);
}

static void orders(void)
{
    demand(osdp_panel_submit(&panel, 1, 0x68, out, 4, OSDP_NEVER, &order) == OSDP_OK);
    next_number();
    asks(0, 0x68, out, 4);
}

static void polls(void)
{
    next_number();
    asks(50, 0x60, out, 0);
}

/* A POLL is answered so with its number, and this is told of it; or an OUT is, with this number. */
static void polled(struct wanted answer, uint32_t kind, uint32_t detail, struct wanted reply)
{
    polls();
    answers(number, answer.code, answer.data, answer.length);
    is_told(kind, detail, none, reply);
}

static void ordered(uint8_t with, struct wanted answer, uint32_t kind, uint32_t detail, struct wanted reply)
{
    orders();
    answers(with, answer.code, answer.data, answer.length);
    is_told(kind, detail, is_out, reply);
}

/* A session that settles, is told events and other answers, and is lost since its number is refused. */
static void long_session(void)
{
    const uint8_t keys[] = { 0, 1, '7' }, caps[] = { 2, 1, 8 }, wrong[] = { 4 };
    const struct wanted ack = { 0x40, out, 0 }, keypad = { 0x53, keys, 3 }, pdcap = { 0x46, caps, 3 };
    const struct wanted short_id = { 0x45, id, 11 }, unknown = { 0x55, out, 4 }, nak = { 0x41, wrong, 1 };
    opens();
    ordered(1, ack, OSDP_REPORT_SETTLED, 0, ack);
    polled(keypad, OSDP_REPORT_EVENT, 0, keypad);
    polled(pdcap, OSDP_REPORT_ANSWERED, 0, pdcap);
    polled(short_id, OSDP_REPORT_UNREAD, 0x45, none);
    ordered(2, unknown, OSDP_REPORT_UNREAD, 0x55, none);
    polled(nak, OSDP_REPORT_LOST, OSDP_LOST_NUMBER_REFUSED, none);
}

/* The first event of a session that is equal to the last one told before it may be that one; the second is new, and so is another one. */
static void events_again(void)
{
    const uint8_t wrong[] = { 4 }, keys[] = { 0, 1, '7' }, others[] = { 0, 2, '7', '7' };
    const struct wanted nak = { 0x41, wrong, 1 }, keypad = { 0x53, keys, 3 }, another = { 0x53, others, 4 };
    opens();
    polled(keypad, OSDP_REPORT_EVENT, OSDP_EVENT_MAYBE_AGAIN, keypad);
    polled(keypad, OSDP_REPORT_EVENT, 0, keypad);
    polled(nak, OSDP_REPORT_LOST, OSDP_LOST_NUMBER_REFUSED, none);
    opens();
    polled(another, OSDP_REPORT_EVENT, 0, another);
    polled(nak, OSDP_REPORT_LOST, OSDP_LOST_NUMBER_REFUSED, none);
    opens();
    polled(keypad, OSDP_REPORT_EVENT, 0, keypad);
    polled(nak, OSDP_REPORT_LOST, OSDP_LOST_NUMBER_REFUSED, none);
    opens();
    polled(nak, OSDP_REPORT_LOST, OSDP_LOST_NUMBER_REFUSED, none);
    opens();
    polled(keypad, OSDP_REPORT_EVENT, OSDP_EVENT_MAYBE_AGAIN, keypad);
    polled(nak, OSDP_REPORT_LOST, OSDP_LOST_NUMBER_REFUSED, none);
}

static void reports(void)
{
    /* 19,200 is ordered, and 9,600 confirmed */
    const uint8_t set[] = { 9, 0x00, 0x4B, 0, 0 }, confirmed[] = { 9, 0x80, 0x25, 0, 0 }, wrong[] = { 4 };
    const struct wanted comset = { 0x6E, set, 5 }, com = { 0x54, confirmed, 5 }, nak = { 0x41, wrong, 1 }, busy_reply = { 0x79, out, 0 };
    struct osdp_panel_config config = panel_config();
    uint32_t sends = 9;
    size_t entry;
    config.sends = 1;
    config.busy_limit = 0;
    demand(osdp_panel_new(&panel, &config) == OSDP_OK);
    demand(osdp_panel_add(&panel, 5, 0, &entry) == OSDP_OK && osdp_panel_add(&panel, 6, 1000, &entry) == OSDP_OK && entry == 1);
    long_session();
    events_again();
    opens();
    ordered(0, busy_reply, OSDP_REPORT_LOST, OSDP_LOST_TOO_BUSY, none);
    opens();
    ordered(number % 3 + 1, nak, OSDP_REPORT_LOST, OSDP_LOST_NUMBER_REFUSED, none);
    opens();
    orders();
    demand(osdp_panel_tick(&panel, now += 200, &sends) == OSDP_OK && sends == 0);
    is_told(OSDP_REPORT_LOST, OSDP_LOST_NO_REPLY, is_out, none);
    opens();
    demand(osdp_panel_submit(&panel, 1, 0x6E, set, 5, OSDP_NEVER, &order) == OSDP_OK && order > 1000);
    next_number();
    asks(0, 0x6E, set, 5);
    answers(number, 0x54, confirmed, 5);
    is_told(OSDP_REPORT_MOVED, 0, comset, com);
    demand(osdp_panel_free(&panel) == OSDP_OK);
}

/* The longest answer of a maker's own is said as it was set. */
static void longest_answer(void)
{
    static struct osdp_answer answer;
    static uint8_t data[3 + 1429] = { 'S', 'I', 'M' };
    const uint8_t mfg[] = { 0x53, 0x06, 0x0A, 0x00, 0x00, 0x80, 'S', 'I', 'M', 0x34 };
    struct osdp_device told = { 0 };
    struct osdp_device_config what = reader_config();
    size_t taken = 0;
    for (size_t i = 3; i < sizeof data; i++) {
        data[i] = (uint8_t)(i % 251);
    }
    demand(osdp_device_new(&told, &what, NULL, 0) == OSDP_OK);
    demand(osdp_device_step(&told, mfg, sizeof mfg, 0, &taken, &answer) == OSDP_OK && answer.kind == OSDP_SAID_PENDING);
    demand(osdp_device_answer_maker(&told, data, data + 3, 1429) == OSDP_OK);
    demand(osdp_device_step(&told, mfg, 0, 0, &taken, &answer) == OSDP_OK && answer.kind == OSDP_SAID_ZERO);
    demand(is_burst(&answer.burst, 0x86, 0, 0x90, data, sizeof data) && osdp_device_free(&told) == OSDP_OK);
}

/* A pointer may be null where its length is 0: each call does what it does for no bytes. */
static void nulls(void)
{
    static struct osdp_message command;
    static struct osdp_answer answer;
    osdp_panel asks = { 0 };
    osdp_device told = { 0 };
    struct osdp_panel_config config = panel_config();
    struct osdp_device_config what = reader_config();
    size_t length = 9, entry;
    demand(osdp_command_text(0x60, NULL, 0, NULL, 0, &length) == OSDP_TOO_SMALL && length == 4);
    demand(osdp_reply_text(0x40, NULL, 0, NULL, 0, &length) == OSDP_TOO_SMALL && length == 3);
    demand(osdp_out(NULL, 0, &command) == OSDP_BAD_LENGTH && osdp_led(NULL, 0, &command) == OSDP_BAD_LENGTH);
    demand(osdp_panel_new(&asks, &config) == OSDP_OK && osdp_panel_add(&asks, 5, 0, &entry) == OSDP_OK);
    demand(gives_data(&asks, 0, 0x64, NULL, 0) == OSDP_OK && osdp_panel_submit_text(&asks, 0, NULL, 0, OSDP_NEVER, &order) == OSDP_BAD_TEXT);
    demand(osdp_panel_bytes(&asks, NULL, 0, 0) == OSDP_OK && osdp_panel_free(&asks) == OSDP_OK);
    demand(osdp_device_new(&told, &what, NULL, 0) == OSDP_OK && osdp_device_event_text(&told, NULL, 0) == OSDP_BAD_TEXT);
    demand(osdp_device_event(&told, 0x40, NULL, 0) == OSDP_NO_EVENT && osdp_device_set_inputs(&told, NULL, 0) == OSDP_OK);
    demand(osdp_device_set_outputs(&told, NULL, 0) == OSDP_OK && osdp_device_set_readers(&told, NULL, 0) == OSDP_OK);
    demand(osdp_device_step(&told, NULL, 0, 0, &length, &answer) == OSDP_OK && length == 0 && answer.kind == OSDP_SAID_NONE);
    demand(osdp_device_answer_list(&told, NULL, 0) == OSDP_NOT_ASKED);
    demand(osdp_device_answer_maker(&told, what.product.vendor, NULL, 0) == OSDP_NOT_ASKED && osdp_device_free(&told) == OSDP_OK);
}

int main(void)
{
    nulls();
    closed();
    capacities();
    rooms();
    addresses();
    states();
    busy();
    texts();
    reports();
    longest_answer();
    return 0;
}
