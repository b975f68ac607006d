/* Structs with bytes around them, which are filled with a pattern before a call writes there. */
#ifndef AROUND_H
#define AROUND_H

#include <string.h>

#include "demands.h"
#include "osdp.h"

#define AROUND 64
#define MOST 6144

/* Room for a struct, with bytes around it. */
struct place {
    _Alignas(16) uint8_t bytes[AROUND + MOST + AROUND];
    size_t size;
};

static struct place first_place, second_place;

/* A struct of this size, filled with the pattern as the bytes around it are. */
static inline void *filled(struct place *place, size_t size)
{
    place->size = size;
    memset(place->bytes, pattern, sizeof place->bytes);
    return place->bytes + AROUND;
}

/* Nothing was written around it. */
#define demand_around(place) \
    demand(is_pattern((place)->bytes, AROUND) && is_pattern((place)->bytes + AROUND + (place)->size, AROUND))

/* Nothing was written at all. */
#define demand_untouched(place) demand(is_pattern((place)->bytes, AROUND + (place)->size + AROUND))

/* A message with these data, or none. */
static inline bool is_message(const struct osdp_message *message, uint8_t code, const uint8_t *data, size_t length)
{
    return message->present == 1 && message->code == code && message->length == length && memcmp(message->data, data, length) == 0
        && is_pattern(message->data + length, sizeof message->data - length);
}

static inline bool is_none(const struct osdp_message *message)
{
    return message->present == 0 && message->code == 0 && message->length == 0 && is_pattern(message->data, sizeof message->data);
}

#endif
