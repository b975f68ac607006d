/* A panel's only device, whose place is kept: where it is, what it is, and when its session begins. */
#ifndef DOOR_H
#define DOOR_H

#include "kept.h"
#include "osdp_site.h"
#include "words.h"

struct door {
    osdp_size entry;
    struct stand *stand;
    bool may_order;         /* whether its session is open, and it is the device that stood there before */
    bool is_other;          /* whether another device than that one has answered last: */
    struct osdp_pd_id other; /* what that is, */
    struct place there;     /* and where it stands */
    bool is_left;           /* whether nothing more is said to it, so that its session ends */
    osdp_site site;         /* which says when its next session begins */
    struct osdp_site_entry place;
};

/* Adds the device that was at an address when it was first used, where the store has it, if one is named, or else at that address and this rate. Makes the store
 * where that is wanted. Ends the program where it has another device there. */
osdp_status add_door(osdp_panel *panel, struct door *door, const struct kept_words *kept, uint32_t name, uint32_t rate);

/* Does what a report asks for about its place and its session. Another device that answers is told, and gets no order. Where the door may be at two places, and
 * another device stands at one of them, that session is let end, and the door is looked for at the other place too. So it is also where a COMSET is answered neither by
 * a COM nor by a NAK: the device is at either place, and the panel may take no other COMSET for it until it is looked for anew. */
void heed_door(struct door *door, const struct osdp_report *report, uint64_t now);

/* Writes what the panel's tick has made, at the moment that it is now, but for a door that is left. */
void write_door(osdp_panel *panel, const struct door *door, int port);

/* Begins a session whose moment has come, at each of its places in turn. The orders that waited are taken back, and told: the device may be another one then. */
void begin_door(osdp_panel *panel, struct door *door, int port, uint64_t now);

/* Does what a line says: `move 7 9600` gives the device another address and rate, and `accept` takes the other device that was told last for it. */
void take_line(osdp_panel *panel, struct door *door, const char *line);

#endif
