/* A turn of a device's loop (osdp_site.h): a packet after noise is answered in the turn that ends its run, and after a moment which lies too far ahead old events go first. */
#include <string.h>

#include "demands.h"
#include "osdp_site.h"

static uint8_t answered[4096];
static size_t length;

static void take_answer(void *of, const struct osdp_answer *answer, uint64_t at)
{
    (void)at;
    demand(of == answered && length + answer->burst.length <= sizeof answered); /* what was handed to the turn */
    memcpy(answered + length, answer->burst.bytes, answer->burst.length);
    length += answer->burst.length;
}

/* A device reads the packet that stands in a run after noise once that run is over, stops before its command, and answers it within the same turn. */
static void answers_after_a_gap(void)
{
    static const uint8_t noise[] = { 0x53, 5, 40, 0, 0, 0x53, 5, 11, 0, 0, OSDP_OUT, 0, 2, 0, 0, 0x33 };
    const struct osdp_device_config reader = { .address = 5, .capacity = 2, .gap = 20 };
    const uint8_t off[1] = { 0 };
    osdp_device hearing = { 0 };
    demand(osdp_device_new(&hearing, &reader, NULL, 0) == OSDP_OK && osdp_device_set_outputs(&hearing, off, 1) == OSDP_OK);
    length = 0;
    osdp_device_turn(&hearing, noise, sizeof noise, 1000, take_answer, answered);
    demand(length == 0);
    osdp_device_turn(&hearing, noise, 0, 1100, take_answer, answered);
    demand(length > 5 && answered[5] == OSDP_ACK);
    demand(osdp_device_free(&hearing) == OSDP_OK);
}

/* After a moment that lies too far ahead an event that has become too old leaves before a panel is answered, which would be told it. */
static void lets_go(void)
{
    static struct osdp_message event;
    static const uint8_t asks[] = { 0x53, 5, 8, 0, 0, OSDP_ID, 0, 0x3F }; /* a panel begins anew */
    const struct osdp_device_config reader = { .address = 5, .capacity = 2, .gap = 20 };
    const uint64_t late = 1000 + 2 * 86400000ull;
    osdp_device sleeper = { 0 };
    uint32_t expired;
    demand(osdp_device_new(&sleeper, &reader, NULL, 0) == OSDP_OK);
    osdp_device_turn(&sleeper, asks, 0, 1000, take_answer, answered);
    demand(osdp_device_event_text(&sleeper, "KEYPAD 0 31", 11) == OSDP_OK);
    length = 0;
    demand(osdp_device_expire_event(&sleeper, late, 30000, &expired, &event) == OSDP_MOMENT_TOO_FAR);
    osdp_device_turn(&sleeper, asks, sizeof asks, late, take_answer, answered);
    demand(length == 0);
    demand(osdp_device_expire_event(&sleeper, late, 30000, &expired, &event) == OSDP_OK && expired == OSDP_EXPIRED_WITHDRAWN);
    osdp_device_turn(&sleeper, asks, sizeof asks, late, take_answer, answered);
    demand(length > 5 && answered[5] == OSDP_PDID);
    demand(osdp_device_free(&sleeper) == OSDP_OK);
}

int main(void)
{
    answers_after_a_gap();
    lets_go();
    return 0;
}
