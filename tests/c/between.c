/* Commands of a device that come as fast as they go. The device is asked for its events between any two of them, so a card is told after two commands at the most.
 * What waits for a POLL is counted and withdrawn as any that waits. */
#include <string.h>

#include "demands.h"
#include "osdp.h"
#include "panels.h"

static osdp_panel panel;
static osdp_device device;
static uint64_t now;
static size_t entry, settled, cards;

static osdp_status submit(const char *text)
{
    return gives(&panel, entry, text);
}

static size_t waiting(void)
{
    size_t count;
    demand(osdp_panel_waiting(&panel, entry, &count) == OSDP_OK);
    return count;
}

static void new_panel(void)
{
    struct osdp_panel_config config;
    osdp_panel_defaults(&config);
    config.capacity = 4;
    demand(osdp_panel_new(&panel, &config) == OSDP_OK && osdp_panel_add(&panel, 5, 0, &entry) == OSDP_OK);
}

/* What the panel sends comes to the device at once, and its answer to the panel. */
static void carry(const uint8_t *bytes, size_t length)
{
    static struct osdp_answer answer;
    size_t at = 0, taken;
    do {
        demand(osdp_device_step(&device, bytes + at, length - at, now, &taken, &answer) == OSDP_OK);
        at += taken;
        demand(osdp_panel_bytes(&panel, answer.burst.bytes, answer.burst.length, now) == OSDP_OK);
    } while (at < length || answer.kind != OSDP_SAID_NONE);
}

/* The report that waits, counted. Whether there was one. */
static bool take_report(void)
{
    static struct osdp_report report;
    demand(osdp_panel_next_report(&panel, &report) == OSDP_OK && report.kind != OSDP_REPORT_LOST);
    settled += report.kind == OSDP_REPORT_SETTLED;
    cards += report.kind == OSDP_REPORT_EVENT;
    return report.kind != OSDP_REPORT_NONE;
}

/* A millisecond, with as many commands waiting as may. */
static void turn(void)
{
    static struct osdp_burst burst;
    now += 1;
    while (waiting() < 4) {
        demand(submit("LSTAT") == OSDP_OK);
    }
    demand(submit("LSTAT") == OSDP_COMMANDS_FULL);
    demand(ticks(&panel, now, &burst) == OSDP_OK);
    carry(burst.bytes, burst.length);
    while (take_report()) {
    }
}

/* A minute of a session with a card every second; so many milliseconds pass after it at the most until it is told. */
static void minute(void)
{
    const struct osdp_device_config what = { .address = 5, .capacity = 64, .gap = 20 };
    size_t shown = 0, at = 0;
    new_panel();
    demand(osdp_device_new(&device, &what, NULL, 0) == OSDP_OK && osdp_panel_begin(&panel, entry, now) == OSDP_OK);
    settled = cards = 0;
    for (int i = 0; i < 60000; i++) {
        if (i % 1000 == 500) {
            demand(osdp_device_event_text(&device, "KEYPAD 0 31", 11) == OSDP_OK);
            shown++;
            at = settled;
        }
        turn();
        demand(cards == shown || settled <= at + 2);
    }
    demand(shown == 60 && cards == 60 && settled > 1000 && settled < 1250); /* a POLL, 50 ms after the command before it, for each */
    demand(osdp_panel_free(&panel) == OSDP_OK && osdp_device_free(&device) == OSDP_OK);
}

/* Before its session four wait, a COMSET among them; they are withdrawn in their order. */
static void withdrawn(void)
{
    static const char *const texts[] = { "LSTAT", "COMSET 6 9600", "OSTAT", "RSTAT" };
    static const uint8_t codes[] = { 0x64, 0x6E, 0x66, 0x67 };
    static struct osdp_message command;
    new_panel();
    for (size_t i = 0; i < 4; i++) {
        demand(submit(texts[i]) == OSDP_OK && waiting() == i + 1);
    }
    demand(submit("LSTAT") == OSDP_COMMANDS_FULL && submit("POLL") == OSDP_POLL_SUBMITTED);
    for (size_t i = 0; i < 4; i++) {
        demand(osdp_panel_withdraw(&panel, entry, &command) == OSDP_OK && command.present == 1 && command.code == codes[i] && waiting() == 3 - i);
    }
    demand(osdp_panel_withdraw(&panel, entry, &command) == OSDP_OK && command.present == 0);
    demand(osdp_panel_free(&panel) == OSDP_OK);
}

int main(void)
{
    withdrawn();
    minute();
    return 0;
}
