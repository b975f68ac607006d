/* The orders of a panel's user, and which of them have had no end yet. */
#ifndef ORDERS_H
#define ORDERS_H

#include "osdp.h"

/* Takes an order, or refuses it: a line with a reader's number, from 1, and the command's text, or `accept`. The rate is that of the port, and the
 * moment that at which it was given: it goes out until so long after that as the program may be late. */
void order(struct osdp_panel *panel, uint32_t rate, const char *line, uint64_t now);

/* The number of the order of a reader that has waited longest; where none waits, that of its next one. */
uint64_t first_waiting(struct osdp_panel *panel, osdp_size entry);

/* The order of a reader with this number has its end. */
void order_ended(size_t entry, uint64_t number);

/* Tells what becomes of each order that has had no end, since the program ends: one that is under way may have been done or not, and the others are not. */
void tell_ends(struct osdp_panel *panel, const char *cause);

#endif
