/* The orders and events of a panel's only device in the program's store, and what is told of them: once the transaction of a turn stands on the disk, and not before it. What
 * was told for sure is noted with the next transaction. So what was told last before the program ended is told once more at its next start, after `again:`. */
#ifndef LEDGER_H
#define LEDGER_H

#include "osdp.h"

/* Takes what the store has of the device of this name: tells again what may not have been told, and tells each order without an end in doubt, since nobody knows whether it
 * was done. Its user may want that so many ended orders and handled events stay; 0 where he says nothing. */
void open_ledger(uint32_t name, uint32_t retain);

/* The number that the next order of a device has, by what is stored of those before: for `osdp_panel_add`, so that numbers count on over restarts. From 1. */
uint64_t next_order(uint32_t name);

/* Stores an order that is about to be given, by the number that it has in the panel, and goes out within so many milliseconds. And takes it out again where the panel
 * refuses it: then its number is still the next one. */
void note_order(uint64_t number, const char *text, uint64_t milliseconds);
void drop_order(uint64_t number);

/* Stores what became of an order: `settled`, with the reply, or `back`, where it never went out. */
void note_end(uint64_t number, const char *state, const char *answer);

/* An order is in doubt: that is told, and stored once its user has heard all that can be known of it. Then it has its end with the next turn. */
void doubt(uint64_t number);
bool any_doubt(void);
void heard_all(void);

/* Whether the event that was stored last has this text. And stores one. */
bool is_last_event(const char *text);
void note_event(const char *text, bool is_again);

/* Tells something with the end of the turn. */
void say(const char *format, ...);

/* A turn begins; and ends: the disk has all of it, and then it is told. Ends the program where the disk hasn't. */
void begin_turn(void);
void end_turn(void);

#endif
