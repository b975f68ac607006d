/* A panel's only device, whose place is kept. */
#include "door.h"

#include <stdio.h>
#include <string.h>

#include "port.h"
#include "store.h"
#include "words.h"

#define KEPT 64 /* how many stands a file keeps at most */

static struct stand stands[KEPT];
static size_t count;

/* Writes where the device is. Whether that was done. */
static bool keep_door(void)
{
    bool is_kept = keep_stands(stands, count);
    if (!is_kept) {
        tell("not kept: %s\n", store_fault());
    }
    return is_kept;
}

osdp_status add_door(osdp_panel *panel, struct door *door, const struct kept_words *kept, uint32_t name, uint32_t rate)
{
    count = read_stands(kept, stands, KEPT);
    *door = (struct door){ .stand = stand_of(stands, &count, KEPT, name, rate) };
    (void)keep_door();
    osdp_site_new(&door->site, &door->place, 1, OSDP_SITE_ANY_LENGTH, 0);
    return osdp_panel_add(panel, place_of(door->stand).address, 0, &door->entry); /* its orders aren't stored, so they are counted from 0 */
}

/* Its open session is let end, by leaving out what the panel says: there is no call for it. */
static void leave_door(struct door *door)
{
    door->is_left = door->place.is_online;
    door->may_order = false;
}

/* The device is there, and is the door. */
static void note_door(struct door *door, const struct osdp_pd_id *id)
{
    door->may_order = !door->is_left;
    door->is_other = false;
    door->stand->is_known = true;
    door->stand->id = *id;
    stands_at(door->stand, place_of(door->stand));
    (void)keep_door();
}

/* Another device has answered, which is told once while it stands there. Of two places the door may be at the other one. */
static void meet_other(struct door *door, const struct osdp_pd_id *id)
{
    struct place there = place_of(door->stand);
    if (!door->is_other || !is_same_device(&door->other, id) || !is_same_place(door->there, there)) {
        tell("another device at %u: it gets no order until `accept`\n", (unsigned)there.address);
    }
    door->is_other = true;
    door->other = *id;
    door->there = there;
    if (door->stand->count > 1) {
        leave_door(door);
    }
}

/* The other device that was told last is the door from now on. Where it is, is known once its session opens again, if that doesn't stay open. */
static void accept_door(struct door *door)
{
    if (door->place.is_online && !door->is_left) {
        note_door(door, &door->other);
        return;
    }
    door->is_other = false;
    door->stand->id = door->other;
    (void)keep_door();
}

void write_door(osdp_panel *panel, const struct door *door, int port)
{
    static struct osdp_burst burst;
    uint64_t now = moment();
    if (osdp_panel_write(panel, now, &burst) == OSDP_OK && !door->is_left) {
        (void)write_all(port, &burst, now);
    }
}

/* It has moved to where its COM says. Where the port hasn't that rate, the device is taken to have kept its own. */
static void note_move(struct door *door, const struct osdp_message *reply)
{
    struct osdp_communication com = { 0 };
    (void)osdp_com_of(reply, &com); /* what moved a device is a COM */
    if (!has_rate(com.baud_rate)) {
        tell("no rate %u\n", (unsigned)com.baud_rate);
        com.baud_rate = place_of(door->stand).rate;
    }
    stands_at(door->stand, (struct place){ com.address, com.baud_rate });
    (void)keep_door();
}

void heed_door(struct door *door, const struct osdp_report *report, uint64_t now)
{
    struct osdp_pd_id id;
    (void)osdp_site_heed(&door->site, report, now);
    if (report->kind == OSDP_REPORT_OPENED && osdp_pd_id_of(&report->reply, &id) == OSDP_OK) {
        if (is_same(door->stand, &id)) {
            note_door(door, &id);
        } else {
            meet_other(door, &id);
        }
    } else if (report->kind == OSDP_REPORT_MOVED) {
        note_move(door, &report->reply);
    } else if (report->kind == OSDP_REPORT_SETTLED && report->command.code == OSDP_COMSET && report->reply.code == OSDP_NAK) {
        note_door(door, &door->stand->id);
    } else if (report->kind != OSDP_REPORT_LOST && report->command.code == OSDP_COMSET) {
        leave_door(door); /* its answer is no COM that can be read */
    }
    if (report->kind == OSDP_REPORT_LOST || report->kind == OSDP_REPORT_MOVED) {
        door->may_order = door->is_left = false;
    }
}

void begin_door(osdp_panel *panel, struct door *door, int port, uint64_t now)
{
    static struct osdp_message command;
    if (!osdp_site_is_due(&door->site, (size_t)door->entry, now)) {
        return;
    }
    while (osdp_panel_withdraw(panel, door->entry, &command) == OSDP_OK && command.present) {
        tell("withdrawn %s\n", command_text(&command));
        if (command.code == OSDP_COMSET) {
            stands_at(door->stand, place_of(door->stand));
        }
    }
    struct place place = door->stand->places[0];
    try_place(door->stand, place);
    demand_rate(port, place.rate);
    (void)osdp_panel_retarget(panel, door->entry, place.address);
    osdp_site_act(&door->site, panel, now);
}

void take_line(osdp_panel *panel, struct door *door, const char *line)
{
    static struct osdp_message comset;
    unsigned address, rate;
    uint64_t order;
    if (strcmp(line, "accept") == 0 && door->is_other) {
        accept_door(door);
    } else if (sscanf(line, "move %3u %6u", &address, &rate) == 2 && address <= 126 && has_rate(rate) && door->may_order && door->stand->count == 1
        && !is_taken(stands, count, door->stand, address) && osdp_comset(address, rate, &comset) == OSDP_OK) {
        may_move(door->stand, (struct place){ address, rate });
        if (!keep_door() || tell_refusal(osdp_panel_submit(panel, door->entry, comset.code, comset.data, comset.length, OSDP_NEVER, &order))) { /* the device may move at any moment */
            stands_at(door->stand, place_of(door->stand));
            (void)keep_door();
        }
    } else {
        tell("refused line %s\n", line);
    }
}
