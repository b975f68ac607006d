/* A clock that fails: the first moment may be any; one that lies more than the limit after the greatest one seen is refused, changes nothing and writes nothing;
 * and one that is set outright is seen. The limits are a second and, where none is set, a day. */
#include <string.h>

#include "demands.h"
#include "osdp.h"
#include "panels.h"

#define BEGIN UINT64_C(1000000000000) /* the first moment */
#define DAY 86400000

static osdp_panel new_panel(uint32_t limit)
{
    osdp_panel panel = { 0 };
    struct osdp_panel_config config;
    size_t entry;
    osdp_panel_defaults(&config);
    demand(config.clock_limit == DAY);
    config.clock_limit = limit;
    demand(osdp_panel_new(&panel, &config) == OSDP_OK && osdp_panel_add(&panel, 5, 0, &entry) == OSDP_OK);
    return panel;
}

static osdp_device new_device(uint32_t limit)
{
    osdp_device device = { 0 };
    struct osdp_device_config config = { .address = 5, .capacity = 2, .gap = 20, .clock_limit = limit };
    demand(osdp_device_new(&device, &config, NULL, 0) == OSDP_OK);
    return device;
}

/* The moment of the panel's next tick. */
static uint64_t due(osdp_panel *panel)
{
    struct osdp_moment moment;
    demand(osdp_panel_next_deadline(panel, &moment) == OSDP_OK && moment.present == 1);
    return moment.moment;
}

/* Each call of a panel that hands in a moment, at one that lies too far ahead. */
static void refuses(osdp_panel *panel, uint64_t now)
{
    static struct osdp_burst burst;
    uint32_t sends = 2;
    const uint8_t byte[] = { 0x53 };
    memset(&burst, pattern, sizeof burst);
    demand(osdp_panel_begin(panel, 0, now) == OSDP_MOMENT_TOO_FAR);
    demand(osdp_panel_bytes(panel, byte, 1, now) == OSDP_MOMENT_TOO_FAR);
    demand(osdp_panel_bytes(panel, NULL, 0, now) == OSDP_MOMENT_TOO_FAR);
    demand(osdp_panel_silence(panel, now) == OSDP_MOMENT_TOO_FAR);
    demand(osdp_panel_tick(panel, now, &sends) == OSDP_MOMENT_TOO_FAR && sends == 2);
    demand(osdp_panel_write(panel, now, &burst) == OSDP_MOMENT_TOO_FAR && is_pattern(&burst, sizeof burst));
}

/* A session that was begun goes on as if the wrong moments had not come. */
static void panels(void)
{
    static struct osdp_burst burst;
    uint32_t sends = 0;
    osdp_panel panel = new_panel(1000);
    demand(osdp_panel_begin(&panel, 0, BEGIN) == OSDP_OK);
    refuses(&panel, BEGIN + 1001);
    refuses(&panel, UINT64_MAX);
    demand(due(&panel) == BEGIN + 400);
    demand(osdp_panel_tick(&panel, BEGIN + 400, &sends) == OSDP_OK && sends == 1);
    refuses(&panel, BEGIN + 1401);
    /* the burst is still to go out then, once */
    demand(osdp_panel_write(&panel, BEGIN + 400, &burst) == OSDP_OK && burst.length > 0);
    demand(osdp_panel_write(&panel, BEGIN + 400, &burst) == OSDP_OK && burst.length == 0);
    /* an earlier moment is none that is refused, and moves nothing */
    demand(ticks(&panel, 0, &burst) == OSDP_OK && burst.length == 0);
    refuses(&panel, BEGIN + 1401);
    demand(osdp_panel_silence(&panel, BEGIN + 1400) == OSDP_OK);
    /* a host that slept */
    refuses(&panel, BEGIN + 3 * DAY);
    demand(osdp_panel_set_moment(&panel, BEGIN + 3 * (uint64_t)DAY) == OSDP_OK);
    demand(ticks(&panel, BEGIN + 3 * (uint64_t)DAY + 1000, &burst) == OSDP_OK);
    demand(osdp_panel_free(&panel) == OSDP_OK && osdp_panel_set_moment(&panel, 0) == OSDP_NO_MACHINE);
}

/* A `begin` that is refused for another cause isn't seen. */
static void refused_begins(void)
{
    osdp_panel panel = new_panel(1000);
    demand(osdp_panel_begin(&panel, 9, BEGIN) == OSDP_NO_ENTRY);
    demand(osdp_panel_begin(&panel, 0, 7) == OSDP_OK && due(&panel) == 407);
    demand(osdp_panel_begin(&panel, 0, 1007) == OSDP_NOT_CLOSED);
    demand(osdp_panel_silence(&panel, 1008) == OSDP_MOMENT_TOO_FAR && osdp_panel_silence(&panel, 1007) == OSDP_OK);
    demand(osdp_panel_free(&panel) == OSDP_OK);
}

static void devices(void)
{
    static struct osdp_answer answer;
    const uint8_t byte[] = { 0x53 };
    size_t taken = 9;
    osdp_device device = new_device(1000);
    demand(osdp_device_tick(&device, BEGIN, &answer) == OSDP_OK);
    memset(&answer, pattern, sizeof answer);
    demand(osdp_device_step(&device, byte, 1, BEGIN + 1001, &taken, &answer) == OSDP_MOMENT_TOO_FAR && taken == 9);
    demand(osdp_device_tick(&device, BEGIN + 1001, &answer) == OSDP_MOMENT_TOO_FAR);
    demand(osdp_device_silence(&device, UINT64_MAX, &answer) == OSDP_MOMENT_TOO_FAR && is_pattern(&answer, sizeof answer));
    demand(osdp_device_step(&device, byte, 1, BEGIN + 1000, &taken, &answer) == OSDP_OK && taken == 1);
    demand(osdp_device_tick(&device, 0, &answer) == OSDP_OK);
    demand(osdp_device_set_moment(&device, BEGIN + DAY) == OSDP_OK);
    demand(osdp_device_silence(&device, BEGIN + DAY + 1000, &answer) == OSDP_OK);
    demand(osdp_device_free(&device) == OSDP_OK && osdp_device_set_moment(&device, 0) == OSDP_NO_MACHINE);
}

/* Where no limit is set, it is a day. */
static void days(void)
{
    static struct osdp_answer answer;
    osdp_panel panel = new_panel(0);
    osdp_device device = new_device(0);
    demand(osdp_panel_silence(&panel, 5) == OSDP_OK && osdp_panel_silence(&panel, 5 + DAY + 1) == OSDP_MOMENT_TOO_FAR);
    demand(osdp_panel_silence(&panel, 5 + DAY) == OSDP_OK);
    demand(osdp_device_tick(&device, 5, &answer) == OSDP_OK && osdp_device_tick(&device, 5 + DAY + 1, &answer) == OSDP_MOMENT_TOO_FAR);
    demand(osdp_device_tick(&device, 5 + DAY, &answer) == OSDP_OK);
    demand(osdp_panel_free(&panel) == OSDP_OK && osdp_device_free(&device) == OSDP_OK);
}

int main(void)
{
    panels();
    refused_begins();
    devices();
    days();
    return 0;
}
