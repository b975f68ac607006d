/* What each example of a device does beside its own part. */
#include "devices.h"

#include "kept.h"
#include "port.h"
#include "words.h"

/* Frees a device, and tells the events that wait there. */
static void free_device(osdp_device *device)
{
    static struct osdp_message event;
    while (osdp_device_lapse_event(device, &event) == OSDP_OK && event.present) {
        tell("in doubt %s\n", reply_text(&event));
    }
    while (osdp_device_withdraw_event(device, &event) == OSDP_OK && event.present) {
        tell("withdrawn %s\n", reply_text(&event));
    }
    (void)osdp_device_free(device);
}

bool refuses_rate(osdp_device *device, const struct osdp_answer *answer)
{
    if (!answer->moved || has_rate(answer->baud_rate)) {
        return false;
    }
    tell("no rate %u\n", (unsigned)answer->baud_rate);
    free_device(device);
    return true;
}

void send_answer(int port, struct osdp_device_config *config, const struct osdp_answer *answer, uint64_t now)
{
    if (answer->moved) {
        keep(answer->address, answer->baud_rate);
    }
    (void)write_all(port, &answer->burst, now);
    if (answer->moved) {
        config->address = answer->address;
        demand_rate(port, answer->baud_rate);
    }
}

void let_go(osdp_device *device, uint64_t now, uint32_t too_old)
{
    static struct osdp_message event;
    uint32_t expired;
    while (osdp_device_expire_event(device, now, too_old, &expired, &event) == OSDP_OK && expired != OSDP_EXPIRED_NONE) {
        tell("%s %s\n", expired == OSDP_EXPIRED_WITHDRAWN ? "withdrawn" : "in doubt", reply_text(&event));
    }
}
