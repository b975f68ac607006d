/* What each example of a device does beside its own part: it refuses a rate that its port hasn't, goes where a COMSET says, and lets old events go. */
#ifndef DEVICES_H
#define DEVICES_H

#include "osdp.h"

/* Whether an answer confirms a COMSET to a rate that the port hasn't. Then this is told, and the device is freed: the answer isn't sent, and the program makes
 * the device anew where it was. A device confirms each COMSET, and there is no call that refuses one. So it is as after a loss of power: the panel loses the
 * session, and finds the device where it was. The events that wait are told, `withdrawn` or `in doubt`, and no panel gets them. */
bool refuses_rate(osdp_device *device, const struct osdp_answer *answer);

/* Sends what a device says. A new place is kept before the panel is told, if there is a store, so that it isn't lost with the power. The port goes to the new rate
 * after that. */
void send_answer(int port, struct osdp_device_config *config, const struct osdp_answer *answer, uint64_t now);

/* Lets the events go that have waited for longer than so many milliseconds while no panel was there, and tells each: `withdrawn`, or `in doubt` where the panel may
 * have it. A card of long ago would open the door when the panel comes back. */
void let_go(osdp_device *device, uint64_t now, uint32_t too_old);

#endif
