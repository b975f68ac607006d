/* A panel and two readers, joined in memory: what each sends comes to the other, but one answer in five is lost, and one is cut by a silence. */
#include "line.h"
#include "panels.h"

#include <inttypes.h>
#include <stdarg.h>
#include <stdio.h>
#include <stdlib.h>
#include <string.h>

struct osdp_panel panel;
struct osdp_device readers[READERS];
bool is_silent[READERS];
struct record told[READERS];
struct record done[READERS];
uint64_t now;

static uint64_t next_told[READERS]; /* no order of lower number is told any more */
static uint32_t order_before[READERS];
static uint32_t said_before[READERS];
static struct osdp_burst stored[READERS]; /* the last answer of each that it may repeat */
static uint8_t line[4096];                /* the bytes on their way to the panel */
static size_t on_line;
static size_t answers;
static bool has_cut; /* whether an answer was cut by a silence */

void fail(const char *file, int where, const char *what)
{
    printf("%s:%d: %s\n", file, where, what);
    exit(1);
}

void clear_line(void)
{
    memset(told, 0, sizeof told);
    memset(done, 0, sizeof done);
    memset(is_silent, 0, sizeof is_silent);
    memset(next_told, 0, sizeof next_told);
    memset(order_before, 0, sizeof order_before);
    memset(said_before, 0, sizeof said_before);
    on_line = answers = 0;
    has_cut = false;
    now = 0;
}

static void note(struct record *record, const char *format, ...)
{
    va_list rest;
    va_start(rest, format);
    size_t room = sizeof record->text - record->length;
    int length = vsnprintf(record->text + record->length, room, format, rest);
    va_end(rest);
    demand(length >= 0 && (size_t)length < room);
    record->length += (size_t)length;
}

typedef osdp_status text_call(uint8_t, const uint8_t *, size_t, char *, size_t, size_t *);

/* Notes the text of a message, with a space before it. With a byte less of room it is refused, and its length is told. */
static void note_text(struct record *record, text_call *call, const struct osdp_message *message)
{
    static char text[6144];
    size_t length = 0, wanted = 0;
    demand(message->present == 1);
    demand(call(message->code, message->data, message->length, text, sizeof text, &length) == OSDP_OK);
    demand(0 < length && length < sizeof text);
    demand(call(message->code, message->data, message->length, text, length - 1, &wanted) == OSDP_TOO_SMALL);
    demand(wanted == length);
    note(record, " %.*s", (int)length, text);
}

/* What a report's kind is called, and whether it has a command and a reply. */
static const struct {
    const char *name;
    bool command, reply;
} kinds[] = {
    { "none", false, false }, { "opened", false, true },    { "settled", true, true },  { "moved", true, true },
    { "event", false, true }, { "answered", false, true }, { "unread", true, false }, { "lost", true, false },
};

/* A report about an order has its number: each has one of its own, and those of a device come in their order. Only an event has a moment, which has passed. */
static void judge_number(const struct osdp_report *report)
{
    demand(report->numbered == report->command.present && report->too_late == 0);
    demand(report->numbered ? report->number >= next_told[report->entry] : report->number == 0);
    next_told[report->entry] = report->numbered ? report->number + 1 : next_told[report->entry];
    demand(report->kind == OSDP_REPORT_EVENT ? 0 < report->since && report->since <= now : report->since == 0);
}

static void note_report(const struct osdp_report *report)
{
    demand(report->kind <= OSDP_REPORT_LOST && report->entry < READERS);
    struct record *record = &told[report->entry];
    judge_number(report);
    note(record, "%s", kinds[report->kind].name);
    if (report->kind == OSDP_REPORT_LOST || report->kind == OSDP_REPORT_UNREAD) {
        note(record, " %" PRIu32, report->detail);
    } else {
        demand(report->detail == 0 && report->command.present == kinds[report->kind].command);
    }
    demand(report->reply.present == kinds[report->kind].reply);
    if (report->command.present) {
        note_text(record, osdp_command_text, &report->command);
    }
    if (report->reply.present) {
        note_text(record, osdp_reply_text, &report->reply);
    }
    note(record, "\n");
}

/* How a packet was answered, against the bytes that go out: byte 4 has the number, byte 5 the code, and byte 6 the reason of a NAK. */
static void judge_kind(int i, const struct osdp_answer *answer)
{
    const uint8_t *bytes = answer->burst.bytes;
    size_t length = answer->burst.length;
    bool is_zero = (bytes[4] & 3) == 0, is_busy = bytes[5] == 0x79;
    switch (answer->kind) {
    case OSDP_SAID_ZERO:
    case OSDP_SAID_TAKEN:
        demand(is_zero == (answer->kind == OSDP_SAID_ZERO) && !is_busy);
        stored[i] = answer->burst;
        break;
    case OSDP_SAID_REPEAT:
        demand(length == stored[i].length && memcmp(bytes, stored[i].bytes, length) == 0);
        break;
    case OSDP_SAID_BUSY:
        demand(is_zero && is_busy);
        break;
    default:
        demand(answer->kind == OSDP_SAID_WRONG && bytes[5] == 0x41 && bytes[6] == 4);
    }
}

/* What is noted of each order. */
static const char *const orders[] = { "nothing", "once", "again", "refused" };

/* A command that is told is told refused exactly where the answer is a NAK, and else by its number. */
static void judge_order(const struct osdp_answer *answer)
{
    demand((answer->order != OSDP_ORDER_NONE) == answer->command.present);
    demand(answer->order <= OSDP_ORDER_REFUSED);
    if (answer->order != OSDP_ORDER_NONE) {
        uint32_t wanted = answer->kind == OSDP_SAID_ZERO ? OSDP_ORDER_AGAIN : OSDP_ORDER_ONCE;
        demand(answer->kind == OSDP_SAID_ZERO || answer->kind == OSDP_SAID_TAKEN);
        demand(answer->order == (answer->burst.bytes[5] == 0x41 ? OSDP_ORDER_REFUSED : wanted));
    }
}

/* The first of some answers BUSY, or NAK 4, is noted. */
static void note_kind(int i, uint32_t kind)
{
    if (kind != said_before[i] && (kind == OSDP_SAID_BUSY || kind == OSDP_SAID_WRONG)) {
        note(&done[i], kind == OSDP_SAID_BUSY ? "busy\n" : "wrong\n");
    }
    said_before[i] = kind;
}

/* A reader stops before each command that it doesn't answer by itself, once, and says nothing; then it answers that very command. */
static bool has_stopped(int i, const struct osdp_answer *answer)
{
    static struct osdp_message before[READERS];
    if (answer->kind == OSDP_SAID_PENDING) {
        demand(answer->order == OSDP_ORDER_PENDING && answer->command.present == 1 && before[i].present == 0);
        demand(answer->burst.length == 0 && answer->moved == 0);
        before[i] = answer->command;
        return true;
    }
    if (before[i].present == 1 && answer->kind != OSDP_SAID_BUSY) {
        demand(answer->command.code == before[i].code && answer->command.length == before[i].length);
        demand(memcmp(answer->command.data, before[i].data, before[i].length) == 0);
    }
    before[i].present = 0;
    return false;
}

/* What a reader says goes on the line, but one answer in five. What it is to do is noted. */
static void hear_answer(int i, const struct osdp_answer *answer)
{
    if (has_stopped(i, answer)) {
        return;
    }
    demand((answer->kind == OSDP_SAID_NONE) == (answer->burst.length == 0));
    if (answer->kind != OSDP_SAID_NONE) {
        judge_kind(i, answer);
        note_kind(i, answer->kind);
    }
    if (answer->burst.length > 0 && ++answers % 5 != 0) {
        demand(on_line + answer->burst.length <= sizeof line);
        memcpy(line + on_line, answer->burst.bytes, answer->burst.length);
        on_line += answer->burst.length;
    }
    judge_order(answer);
    bool same = answer->order == OSDP_ORDER_AGAIN && order_before[i] == OSDP_ORDER_AGAIN;
    if (answer->order != OSDP_ORDER_NONE && !same) { /* what came with number 0 comes again where its answer was lost */
        order_before[i] = answer->order;
        note(&done[i], "%s", orders[answer->order]);
        note_text(&done[i], osdp_command_text, &answer->command);
        note(&done[i], "\n");
    }
    if (answer->moved) {
        note(&done[i], "moved %" PRIu32 " %" PRIu32 "\n", answer->address, answer->baud_rate);
    }
}

/* A burst comes to each reader, in two pieces. */
static void to_readers(const struct osdp_burst *burst)
{
    static struct osdp_answer answer;
    for (int i = 0; i < READERS; i++) {
        size_t at = 0, taken = 0, half = burst->length / 2;
        while (!is_silent[i]) {
            size_t end = at < half ? half : burst->length;
            demand(osdp_device_step(&readers[i], burst->bytes + at, end - at, now, &taken, &answer) == OSDP_OK);
            hear_answer(i, &answer);
            at += taken;
            if (at == burst->length && answer.kind == OSDP_SAID_NONE) {
                break;
            }
        }
    }
}

static void demand_no_report(void)
{
    static struct osdp_report report;
    demand(osdp_panel_next_report(&panel, &report) == OSDP_OK && report.kind == OSDP_REPORT_NONE);
}

/* What is on the line comes to the panel in two pieces, and the first does nothing yet. Between those of the first answer of all the line is seen silent:
 * so this answer does nothing either, as one that was lost. */
static void to_panel(void)
{
    size_t half = on_line / 2;
    bool is_cut = on_line > 0 && !has_cut;
    demand(osdp_panel_bytes(&panel, line, half, now) == OSDP_OK);
    demand_no_report();
    if (is_cut) {
        demand(osdp_panel_silence(&panel, now) == OSDP_OK);
        has_cut = true;
        answers = 0; /* of those after it every fifth is lost */
    }
    demand(osdp_panel_bytes(&panel, line + half, on_line - half, now) == OSDP_OK);
    if (is_cut) {
        demand_no_report();
    }
    on_line = 0;
}

static void take_reports(void)
{
    static struct osdp_report report;
    while (osdp_panel_next_report(&panel, &report) == OSDP_OK && report.kind != OSDP_REPORT_NONE) {
        note_report(&report);
    }
}

void run(uint64_t end)
{
    static struct osdp_burst burst;
    struct osdp_moment due = { now, 1 };
    while (on_line > 0 || (due.present == 1 && due.moment <= end)) {
        now = on_line == 0 && due.moment > now ? due.moment : now;
        to_panel();
        take_reports();
        demand(ticks(&panel, now, &burst) == OSDP_OK);
        take_reports();
        to_readers(&burst);
        demand(osdp_panel_next_deadline(&panel, &due) == OSDP_OK);
    }
}
