/* The orders of a panel's user. */
#include "orders.h"

#include <stdio.h>
#include <stdlib.h>
#include <string.h>

#include "places.h"
#include "port.h"
#include "search.h"
#include "words.h"

/* Whether a text is that of a COMSET, and to which place. */
static bool is_comset(const char *text, struct place *place)
{
    unsigned long long address, speed;
    if (sscanf(text, " COMSET %3llu %10llu", &address, &speed) != 2 || speed > UINT32_MAX) {
        return false;
    }
    *place = (struct place){ (uint32_t)address, (uint32_t)speed };
    return true;
}

/* An order that has had no end yet. */
struct given {
    struct given *next;
    uint64_t number; /* as the panel has it */
    char text[];
};

static struct given *given[MOST]; /* of each reader, the first one first */

/* An order was taken. Nothing is told of its end where there is no memory to note it. */
static void order_given(size_t entry, uint64_t number, const char *text)
{
    struct given **last = &given[entry];
    struct given *order = malloc(sizeof *order + strlen(text) + 1);
    if (order == NULL) {
        return;
    }
    order->next = NULL;
    order->number = number;
    strcpy(order->text, text);
    while (*last != NULL) {
        last = &(*last)->next;
    }
    *last = order;
}

void order_ended(size_t entry, uint64_t number)
{
    struct given *first = given[entry];
    if (first != NULL && first->number == number) { /* of each reader they end in the order in which they were taken */
        given[entry] = first->next;
        free(first);
    }
}

uint64_t first_waiting(struct osdp_panel *panel, osdp_size entry)
{
    uint64_t next = 0;
    osdp_size waiting = 0;
    (void)osdp_panel_next_number(panel, entry, &next);
    (void)osdp_panel_waiting(panel, entry, &waiting);
    return next - waiting;
}

/* The same of a reader's orders. */
static void tell_own_ends(size_t entry, uint64_t waits, const char *cause)
{
    for (const struct given *first = given[entry]; first != NULL; first = given[entry]) {
        if (first->number < waits) {
            tell("lost %zu %s %s\n", entry + 1, cause, first->text);
        } else {
            tell("withdrawn %zu %s\n", entry + 1, first->text);
        }
        order_ended(entry, first->number);
    }
}

void tell_ends(struct osdp_panel *panel, const char *cause)
{
    for (size_t i = 0; known_reader(i) != NULL; i++) {
        tell_own_ends(i, first_waiting(panel, i), cause);
    }
}

/* Why an order isn't submitted, where it may be of long ago, or wait for long, or be for another device, or leave a reader where nobody finds it; else NULL. */
static const char *refusal(const struct known *reader, const char *text)
{
    struct place place;
    if (was_stopped()) {
        return "given while the program was stopped";
    }
    if (!is_open(reader)) {
        return "session not open";
    }
    if (reader->is_other) {
        return "another device answers there";
    }
    if (!is_comset(text, &place)) {
        return NULL;
    }
    if (is_kept_apart(place.address)) {
        return "a device that is kept, and isn't in the list, may have that address";
    }
    return has_rate(place.rate) ? comset_refusal() : "no such rate";
}

/* Says why the panel has refused an order, by what its user knows: the readers' addresses. */
static void tell_why(osdp_status status, size_t entry, const char *text)
{
    unsigned address = (unsigned)place_of(known_reader(entry)->stand).address;
    struct place place;
    if (status == OSDP_ADDRESS_TAKEN && is_comset(text, &place) && reader_at(place.address) > 0) {
        tell("refused address %u is that of device %zu\n", (unsigned)place.address, reader_at(place.address));
    } else if (status == OSDP_COMMANDS_FULL) {
        tell("refused as many orders wait for device %zu at %u as there is room for\n", entry + 1, address);
    } else {
        (void)tell_refusal(status);
    }
}

/* Hands the panel an order. Whether it was taken. Where a COMSET leads is kept before it can go out, but not where the panel refuses it for its address: no
 * loss of power may leave such a place. */
static bool submit(struct osdp_panel *panel, size_t entry, const char *text, uint64_t now)
{
    struct known *reader = known_reader(entry);
    struct place place;
    bool moves = is_comset(text, &place) && reader->stand->count == 1 && place.address <= 126 &&
        (reader_at(place.address) == 0 || reader_at(place.address) == entry + 1);
    if (moves && !comset_goes(reader, place)) {
        comset_over(reader);
        tell("refused its place can't be kept\n");
        return false;
    }
    uint64_t number;
    osdp_status status = osdp_panel_submit_text(panel, entry, text, strlen(text), now + late_by(), &number);
    if (status != OSDP_OK) {
        if (moves) {
            comset_over(reader);
        }
        tell_why(status, entry, text);
        return false;
    }
    order_given(entry, number, text + strspn(text, " "));
    return true;
}

/* Gives a COMSET with another rate to every other reader: the line has one rate. */
static void move_others(struct osdp_panel *panel, size_t entry, uint32_t rate, uint64_t now)
{
    char text[32];
    for (size_t i = 0; known_reader(i) != NULL; i++) {
        if (i != entry) {
            snprintf(text, sizeof text, "COMSET %u %u", (unsigned)place_of(known_reader(i)->stand).address, (unsigned)rate);
            tell("ordered %zu %s\n", i + 1, text);
            if (!submit(panel, i, text, now)) {
                tell("not taken %zu %s\n", i + 1, text);
            }
        }
    }
}

/* An order for a reader that isn't there. */
static void tell_readers(size_t entry)
{
    tell("refused no device %zu: the list has", entry + 1);
    for (size_t i = 0; known_reader(i) != NULL; i++) {
        tell("%s %zu at %u", i > 0 ? "," : "", i + 1, (unsigned)place_of(known_reader(i)->stand).address);
    }
    tell("\n");
}

/* Takes an order for a reader, or refuses it. Whether it was taken. */
static bool take(struct osdp_panel *panel, size_t entry, const char *text, uint64_t now)
{
    struct known *reader = known_reader(entry);
    const char *why = reader != NULL ? refusal(reader, text) : NULL;
    if (reader == NULL) {
        tell_readers(entry);
        return false;
    }
    if (strcmp(text + strspn(text, " "), "accept") == 0 && reader->is_other) {
        allow_other(reader);
        search_anew();
        return true;
    }
    if (why != NULL) {
        tell("refused %s\n", why);
        return false;
    }
    return submit(panel, entry, text, now);
}

void order(struct osdp_panel *panel, uint32_t rate, const char *line, uint64_t now)
{
    const char *first = line + strspn(line, " ");
    char *text = (char *)first;
    size_t entry = *first >= '1' && *first <= '9' ? strtoul(first, &text, 10) - 1 : SIZE_MAX;
    struct place place;
    tell("ordered %s\n", line);
    if (*text == ' ' && text != first ? !take(panel, entry, text, now) : tell_refusal(OSDP_BAD_TEXT)) {
        tell("not taken %s\n", line);
    } else if (is_comset(text, &place) && place.rate != rate) {
        move_others(panel, entry, place.rate, now);
    }
}
