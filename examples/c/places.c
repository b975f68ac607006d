/* What a panel knows of its readers. */
#include "places.h"

#include "port.h"
#include "store.h"
#include "words.h"

#define KEPT 64 /* how many stands a file keeps at most: those of readers that aren't in the list too, which may be on the line still */

static struct stand stands[KEPT];
static size_t stand_count;
static struct known readers[MOST];
static size_t known_count;

void read_places(const struct kept_words *words)
{
    stand_count = read_stands(words, stands, KEPT);
}

bool keep_places(void)
{
    return keep_stands(stands, stand_count);
}

/* Writes where the readers are, and tells where that can't be done. */
static void try_keep(void)
{
    if (!keep_places()) {
        tell("not kept: %s\n", store_fault());
    }
}

void make_places(void)
{
    try_keep();
}

uint32_t join_reader(uint32_t name, uint32_t rate)
{
    if (known_count == MOST) {
        stop(BAD_WORDS, "device %u is one too many: a panel has %d at most", (unsigned)name, MOST);
    }
    for (size_t i = 0; i < known_count; i++) {
        if (readers[i].stand->name == name) {
            stop(BAD_WORDS, "device %u is in the list twice", (unsigned)name);
        }
    }
    struct stand *stand = stand_of(stands, &stand_count, KEPT, name, rate);
    readers[known_count++] = (struct known){ .stand = stand, .state = CLOSED };
    demand_rates();
    return place_of(stand).address;
}

void demand_rates(void)
{
    for (size_t i = 0; i < PLACES * known_count; i++) {
        const struct stand *stand = readers[i / PLACES].stand;
        if (i % PLACES < stand->count && !has_rate(stand->places[i % PLACES].rate)) {
            stop(FAILED, "the port has no such rate");
        }
    }
}

struct known *known_reader(size_t entry)
{
    return entry < known_count ? &readers[entry] : NULL;
}

size_t reader_at(uint32_t address)
{
    for (size_t i = 0; i < known_count; i++) {
        if (may_be_at(readers[i].stand, address)) {
            return i + 1;
        }
    }
    return 0;
}

bool is_kept_apart(uint32_t address)
{
    return reader_at(address) == 0 && is_taken(stands, stand_count, NULL, address);
}

/* The reader is this device. */
static void note_device(struct stand *stand, const struct osdp_pd_id *id)
{
    stand->is_known = true;
    stand->id = *id;
}

bool tell_other(struct known *reader, const struct osdp_report *opened)
{
    struct stand *stand = reader->stand;
    struct place there = place_of(stand);
    struct osdp_pd_id id = { 0 };
    (void)osdp_pd_id_of(&opened->reply, &id);
    if (is_same(stand, &id)) {
        reader->is_other = false;
        if (!stand->is_known) {
            note_device(stand, &id);
            try_keep();
        }
        return false;
    }
    if (!reader->is_other || !is_same_device(&reader->other, &id) || !is_same_place(reader->there, there)) {
        size_t which = (size_t)opened->entry + 1;
        tell("another device %zu at %u: it gets no order until `%zu accept`\n", which, (unsigned)there.address, which);
    }
    reader->is_other = true;
    reader->other = id;
    reader->there = there;
    return true;
}

void reader_opened(struct known *reader, const struct osdp_report *opened)
{
    reader->state = OPEN;
    reader->refuses = reader->is_told = false;
    if (tell_other(reader, opened)) {
        reader->is_left = reader->stand->count > 1;
    } else if (reader->stand->count > 1) {
        comset_over(reader);
    }
}

void allow_other(struct known *reader)
{
    reader->is_other = false;
    note_device(reader->stand, &reader->other);
    if (is_open(reader)) {
        comset_over(reader);
    } else {
        try_keep(); /* where it is, is known once its session opens here */
    }
}

void leave_reader(struct known *reader)
{
    reader->is_left = reader->state == OPEN;
}

bool is_open(const struct known *reader)
{
    return reader->state == OPEN && !reader->is_left;
}

void reader_closed(struct known *reader, uint64_t begins)
{
    reader->state = CLOSED;
    reader->begins = begins;
    reader->is_moving = reader->is_left = false;
}

bool comset_goes(struct known *reader, struct place place)
{
    may_move(reader->stand, place);
    reader->is_moving = true;
    return keep_places();
}

void comset_done(struct known *reader, struct place place)
{
    stands_at(reader->stand, place);
    reader->is_moving = false;
    try_keep();
}

void comset_over(struct known *reader)
{
    comset_done(reader, place_of(reader->stand));
}

struct place place_told(const struct osdp_message *com, uint32_t rate)
{
    struct osdp_communication told = { 0 };
    (void)osdp_com_of(com, &told); /* what moved a device is a COM */
    struct place place = { told.address, told.baud_rate };
    if (!has_rate(place.rate)) {
        tell("no rate %u\n", (unsigned)place.rate);
        place.rate = rate;
    }
    return place;
}

const char *comset_refusal(void)
{
    for (size_t i = 0; i < known_count; i++) {
        if (!is_open(&readers[i])) {
            return "another session not open";
        }
        if (readers[i].is_other) {
            return "another device at a reader's place";
        }
    }
    for (size_t i = 0; i < known_count; i++) {
        if (readers[i].stand->count > 1) {
            return "another COMSET not answered";
        }
    }
    return NULL;
}

bool comset_waits(void)
{
    for (size_t i = 0; i < known_count; i++) {
        if (readers[i].state == OPEN && readers[i].is_moving) {
            return true;
        }
    }
    return false;
}

bool any_open(void)
{
    for (size_t i = 0; i < known_count; i++) {
        if (readers[i].state == OPEN) {
            return true;
        }
    }
    return false;
}

/* The rate after this one, of those at which readers may be: the next greater one, and after the greatest the least. */
static uint32_t rate_after(uint32_t rate)
{
    uint32_t next = 0, least = rate;
    for (size_t i = 0; i < known_count * PLACES; i++) {
        const struct stand *stand = readers[i / PLACES].stand;
        uint32_t each = stand->places[i % PLACES < stand->count ? i % PLACES : 0].rate;
        next = each > rate && (next == 0 || each < next) ? each : next;
        least = each < least ? each : least;
    }
    return next != 0 ? next : least;
}

/* The first place of a reader that has this rate, or hasn't it; NULL where there is none. */
static const struct place *first_place(const struct known *reader, uint32_t rate, bool has_it)
{
    for (size_t i = 0; i < reader->stand->count; i++) {
        if ((reader->stand->places[i].rate == rate) == has_it) {
            return &reader->stand->places[i];
        }
    }
    return NULL;
}

uint32_t next_rate(uint32_t rate)
{
    for (size_t i = 0; i < known_count; i++) {
        if (readers[i].state != CLOSED || (!readers[i].is_tried && first_place(&readers[i], rate, true) != NULL)) {
            return rate;
        }
    }
    return rate_after(rate);
}

void rate_set(void)
{
    for (size_t i = 0; i < known_count; i++) {
        readers[i].is_tried = readers[i].refuses = false;
    }
}

const struct place *next_place(const struct known *reader, uint32_t rate)
{
    bool is_over = reader->is_tried && !any_open() && rate_after(rate) != rate; /* it waits for the others, and then for its turn at the next rate */
    return reader->state == CLOSED && !is_over ? first_place(reader, rate, true) : NULL;
}

const struct place *place_at(const struct known *reader, uint32_t rate)
{
    return first_place(reader, rate, true);
}

const struct place *place_elsewhere(const struct known *reader, uint32_t rate)
{
    return reader->state == OPEN || reader->refuses ? NULL : first_place(reader, rate, false);
}

void begin_at(struct known *reader, struct place place)
{
    try_place(reader->stand, place);
    reader->is_tried = true;
    reader->state = BEGUN;
}

uint64_t next_begin(uint32_t rate)
{
    uint64_t first = NEVER;
    for (size_t i = 0; i < known_count; i++) {
        if (readers[i].begins < first && next_place(&readers[i], rate) != NULL) {
            first = readers[i].begins;
        }
    }
    return first;
}
