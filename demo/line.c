/* What the page calls: a panel, two devices and a monitor in memory that stays, over include/osdp.h. Each call takes and gives whole numbers of 32 bits, so that a script
 * can make it; bytes and texts go through `room`, and texts come in `words`. A moment is in milliseconds since the page began. Nothing is decided here. */
#include "osdp.h"

#define EXPORT __attribute__((visibility("default"), used))

enum { DEVICES = 2, FIRST_ADDRESS = 5, OUTPUTS = 8, EVENTS = 16 };

static osdp_panel panel;
static osdp_device devices[DEVICES];
static osdp_monitor monitor;
static struct osdp_burst burst;
static struct osdp_report report;
static struct osdp_answer answer;
static struct osdp_message withdrawn;
static uint8_t bytes[8192];
static char text[OSDP_MOST_TEXT + 1];

/* Where the page writes what the next call reads, and reads what the last one has written. */
EXPORT uint8_t *room(void) { return bytes; }
EXPORT char *words(void) { return text; }
EXPORT uint8_t *burst_bytes(void) { return burst.bytes; }
EXPORT uint8_t *answer_bytes(void) { return answer.burst.bytes; }

/* How long the text of a message is, which stands in `words` then; 0 where there is none. */
static uint32_t text_of(uint8_t code, const uint8_t *data, osdp_size length, bool is_reply)
{
    osdp_size found = 0;
    osdp_status status = is_reply ? osdp_reply_text(code, data, length, text, sizeof text, &found) : osdp_command_text(code, data, length, text, sizeof text, &found);
    return status == OSDP_OK ? (uint32_t)found : 0;
}

static uint32_t text_of_message(const struct osdp_message *message, bool is_reply)
{
    return message->present ? text_of(message->code, message->data, message->length, is_reply) : 0;
}

/* The text of a code and of so many bytes in `room`. */
EXPORT uint32_t message_text(uint32_t code, uint32_t length, uint32_t is_reply)
{
    return text_of((uint8_t)code, bytes, length, is_reply != 0);
}

EXPORT uint32_t stop_panel(void) { return osdp_panel_free(&panel); }

/* A panel with all devices, whose packets end with a sum. */
EXPORT uint32_t start_panel(void)
{
    struct osdp_panel_config config;
    osdp_size entry;
    osdp_panel_defaults(&config);
    config.check = OSDP_CHECK_SUM;
    osdp_status status = osdp_panel_new(&panel, &config);
    for (uint32_t i = 0; i < DEVICES && status == OSDP_OK; i++) {
        status = osdp_panel_add(&panel, FIRST_ADDRESS + i, 0, &entry);
    }
    return status;
}

EXPORT uint32_t stop_device(uint32_t which) { return osdp_device_free(&devices[which]); }

EXPORT uint32_t start_device(uint32_t which)
{
    static const uint8_t outputs[OUTPUTS];
    struct osdp_device_config config = { .address = FIRST_ADDRESS + which, .capacity = EVENTS, .gap = 20, .serial = which + 1,
                                         .product = { { 'S', 'I', 'M' }, 1, 1, 1, 0, 0 } };
    osdp_status status = osdp_device_new(&devices[which], &config, outputs, 0);
    return status == OSDP_OK ? osdp_device_set_outputs(&devices[which], outputs, OUTPUTS) : status;
}

EXPORT uint32_t begin_session(uint32_t entry, uint32_t now) { return osdp_panel_begin(&panel, entry, now); }
EXPORT uint32_t panel_hears(uint32_t length, uint32_t now) { return osdp_panel_bytes(&panel, bytes, length, now); }

/* Orders what the text in `room` says. The page's time goes on as its user says, so no order is too late. */
EXPORT uint32_t submit(uint32_t entry, uint32_t length)
{
    uint64_t number;
    return osdp_panel_submit_text(&panel, entry, (const char *)bytes, length, OSDP_NEVER, &number);
}

/* Takes back the command that has waited longest: the length of its text; 0 where there is none. */
EXPORT uint32_t withdraw(uint32_t entry)
{
    return osdp_panel_withdraw(&panel, entry, &withdrawn) == OSDP_OK ? text_of_message(&withdrawn, false) : 0;
}

/* How many bytes are due, which stand in `burst_bytes`. A turn whose bytes brought a report sends nothing, so a second tick follows. */
EXPORT uint32_t panel_tick(uint32_t now)
{
    uint32_t sends = 0;
    for (int i = 0; i < 2 && sends == 0; i++) {
        if (osdp_panel_tick(&panel, now, &sends) != OSDP_OK) {
            return 0;
        }
    }
    return sends != 0 && osdp_panel_write(&panel, now, &burst) == OSDP_OK ? burst.length : 0;
}

/* Takes the report that waits: its kind, or 0. */
EXPORT uint32_t next_report(void) { return osdp_panel_next_report(&panel, &report) == OSDP_OK ? report.kind : 0; }
EXPORT uint32_t report_entry(void) { return (uint32_t)report.entry; }
EXPORT uint32_t report_detail(void) { return report.detail; }
EXPORT uint32_t report_command(void) { return text_of_message(&report.command, false); }
EXPORT uint32_t report_reply(void) { return text_of_message(&report.reply, true); }

EXPORT uint32_t panel_waiting(uint32_t entry)
{
    osdp_size count = 0;
    return osdp_panel_waiting(&panel, entry, &count) == OSDP_OK ? (uint32_t)count : 0;
}

EXPORT uint32_t panel_is_closed(uint32_t entry)
{
    uint32_t closed = 1;
    return osdp_panel_is_closed(&panel, entry, &closed) != OSDP_OK || closed;
}

EXPORT uint32_t tell_event(uint32_t which, uint32_t length) { return osdp_device_event_text(&devices[which], (const char *)bytes, length); }
EXPORT uint32_t set_busy(uint32_t which, uint32_t busy) { return osdp_device_set_busy(&devices[which], busy); }

/* Hands a device so many bytes of `room` from a place on: how many it has taken. What it says is told by the calls below. */
EXPORT uint32_t device_step(uint32_t which, uint32_t at, uint32_t length, uint32_t now)
{
    osdp_size taken = 0;
    return osdp_device_step(&devices[which], bytes + at, length, now, &taken, &answer) == OSDP_OK ? (uint32_t)taken : length;
}

EXPORT uint32_t answer_kind(void) { return answer.kind; }
EXPORT uint32_t answer_order(void) { return answer.order; }
EXPORT uint32_t answer_length(void) { return answer.burst.length; }
EXPORT uint32_t answer_command(void) { return text_of_message(&answer.command, false); }

EXPORT uint32_t device_waiting(uint32_t which)
{
    osdp_size count = 0;
    return osdp_device_waiting(&devices[which], &count) == OSDP_OK ? (uint32_t)count : 0;
}

EXPORT uint32_t device_is_closed(uint32_t which)
{
    uint32_t closed = 1;
    return osdp_device_is_closed(&devices[which], &closed) != OSDP_OK || closed;
}

EXPORT uint32_t device_is_offline(uint32_t which, uint32_t now)
{
    uint32_t offline = 1;
    return osdp_device_is_offline(&devices[which], now, &offline) != OSDP_OK || offline;
}

/* A monitor that has heard nothing: it tells what `osdp monitor` prints. */
EXPORT uint32_t start_monitor(void) { return osdp_monitor_new(&monitor, OSDP_PRINTS_FOUND, 0); }

/* The monitor hears so many bytes of `room`, after which the line is silent. */
EXPORT uint32_t monitor_hears(uint32_t length)
{
    osdp_status status = osdp_monitor_bytes(&monitor, bytes, length);
    return status == OSDP_OK ? osdp_monitor_silence(&monitor) : status;
}

EXPORT uint32_t monitor_tells_table(void) { return osdp_monitor_table(&monitor); }

/* How long the next of the monitor's text is, which stands in `words` then; 0 where none waits. */
EXPORT uint32_t monitor_text(void)
{
    osdp_size count = 0;
    return osdp_monitor_next_text(&monitor, text, sizeof text, &count) == OSDP_OK ? (uint32_t)count : 0;
}
