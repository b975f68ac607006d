/* A reader that may be at another rate than those whose sessions are open is looked for there, by a panel of its own, while theirs waits: their sessions stay,
 * and nobody polls them for that while. A reader that is found gets a COMSET that brings it to the rate of the others. */
#ifndef SEARCH_H
#define SEARCH_H

#include "osdp.h"

/* The settings of the panel that looks for readers, and the port. */
void prepare_search(const struct osdp_panel_config *settings, int port);

#define PATIENCE 1000 /* for how many milliseconds a search waits until the line is idle */

/* Looks for the next reader in turn, where one is missing and it is time: as soon as no answer of the others is waited for, as far as that comes. The others are
 * at this rate. */
void begin_search(uint32_t rate, uint64_t now, bool is_idle);

/* The panel that looks for a reader; NULL where none is looked for. */
osdp_panel *searching(void);

/* The moment at which the next search begins; NEVER where none does. */
uint64_t next_search(uint32_t rate);

/* The next search comes at once, since a reader that was found as another device is allowed. */
void search_anew(void);

/* Takes what that panel reports, and does what is to be done about it. */
void take_found(uint64_t now);

/* Tells that the COMSET which the search has given has no end, since the program ends. */
void tell_search_end(const char *cause);

#endif
