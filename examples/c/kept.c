/* Where devices are while there is no power, in the program's store. */
#include "kept.h"

#include <stdio.h>
#include <string.h>

#include "store.h"
#include "words.h"

static uint32_t own_name; /* of a reader: the address at which it was first */

void read_kept(const struct kept_words *words, uint32_t *address, uint32_t *rate)
{
    if (words->path == NULL) {
        return;
    }
    open_store(words->path, "device", words->is_new);
    sqlite3_stmt *found = find_in_store("SELECT device, address, rate FROM places WHERE rank = 0", "");
    bool is_kept = next_row(found);
    if (is_kept) {
        own_name = (uint32_t)sqlite3_column_int64(found, 0);
        *address = (uint32_t)sqlite3_column_int64(found, 1);
        *rate = (uint32_t)sqlite3_column_int64(found, 2);
    }
    if (is_kept && next_row(found)) {
        stop(FAILED, "%s keeps several devices, and a reader is one: name another file", words->path);
    }
    (void)sqlite3_finalize(found);
    if (!is_kept) {
        own_name = *address;
        keep(*address, *rate);
    }
}

void keep(uint32_t address, uint32_t rate)
{
    struct stand stand = { .name = own_name, .count = 1, .places = { { address, rate } } };
    if (!keep_stands(&stand, 1)) {
        tell("not kept %u %u: %s\n", (unsigned)address, (unsigned)rate, store_fault());
    }
}

/* The stand whose name the row has. What the store takes has at least one place, and at most three. */
static void read_stand(sqlite3_stmt *row, struct stand *stand)
{
    const char *vendor = (const char *)sqlite3_column_text(row, 1);
    unsigned bytes = 0;
    *stand = (struct stand){ .name = (uint32_t)sqlite3_column_int64(row, 0), .is_known = vendor != NULL };
    if (vendor != NULL && sscanf(vendor, "%6x", &bytes) == 1) {
        stand->id.product = (struct osdp_product){ .vendor = { (uint8_t)(bytes >> 16), (uint8_t)(bytes >> 8), (uint8_t)bytes }, .model = (uint8_t)sqlite3_column_int(row, 2) };
        stand->id.serial = (uint32_t)sqlite3_column_int64(row, 3);
    }
    sqlite3_stmt *places = find_in_store("SELECT address, rate FROM places WHERE device = ? ORDER BY rank DESC", "i", (long long)stand->name);
    while (stand->count < PLACES && next_row(places)) { /* the place in use, of rank 0, is the last one */
        stand->places[stand->count++] = (struct place){ (uint32_t)sqlite3_column_int64(places, 0), (uint32_t)sqlite3_column_int64(places, 1) };
    }
    (void)sqlite3_finalize(places);
}

bool may_be_at(const struct stand *stand, uint32_t address)
{
    for (size_t i = 0; i < stand->count; i++) {
        if (stand->places[i].address == address) {
            return true;
        }
    }
    return false;
}

/* Whether two devices may be at one address. */
static bool do_meet(const struct stand *one, const struct stand *other)
{
    for (size_t i = 0; i < one->count; i++) {
        if (may_be_at(other, one->places[i].address)) {
            return true;
        }
    }
    return false;
}

/* A stand, of which an address is that of this one too; NULL where there is none. */
static const struct stand *neighbour(const struct stand *stands, size_t count, const struct stand *stand)
{
    for (size_t i = 0; i < count; i++) {
        if (&stands[i] != stand && do_meet(&stands[i], stand)) {
            return &stands[i];
        }
    }
    return NULL;
}

size_t read_stands(const struct kept_words *words, struct stand *stands, size_t most)
{
    size_t count = 0;
    if (words->path == NULL) {
        return 0;
    }
    open_store(words->path, "panel", words->is_new);
    sqlite3_stmt *found = find_in_store("SELECT name, vendor, model, serial FROM devices ORDER BY name", "");
    for (; next_row(found); count++) {
        if (count == most) {
            stop(FAILED, "%s keeps more than %zu devices", words->path, most);
        }
        read_stand(found, &stands[count]);
        if (stands[count].count == 0 || neighbour(stands, count, &stands[count]) != NULL) {
            stop(FAILED, "%s is damaged: device %u has no place of its own. Bring back a copy of it", words->path, (unsigned)stands[count].name);
        }
    }
    (void)sqlite3_finalize(found);
    return count;
}

/* Whether the store has this stand already. */
static bool is_kept(const struct stand *stand)
{
    struct stand kept = { 0 };
    sqlite3_stmt *found = find_in_store("SELECT name, vendor, model, serial FROM devices WHERE name = ?", "i", (long long)stand->name);
    bool has_row = next_row(found);
    if (has_row) {
        read_stand(found, &kept);
    }
    (void)sqlite3_finalize(found);
    bool is_equal = has_row && kept.count == stand->count && kept.is_known == stand->is_known && (!kept.is_known || is_same_device(&kept.id, &stand->id));
    for (size_t i = 0; is_equal && i < kept.count; i++) {
        is_equal = is_same_place(kept.places[i], stand->places[i]);
    }
    return is_equal;
}

/* What a device is, in its row. */
static bool write_identity(const struct stand *stand)
{
    char vendor[7];
    const uint8_t *bytes = stand->id.product.vendor;
    long long name = stand->name;
    (void)snprintf(vendor, sizeof vendor, "%02X%02X%02X", bytes[0], bytes[1], bytes[2]);
    if (!write_store("INSERT OR IGNORE INTO devices (name) VALUES (?)", "i", name)) {
        return false;
    }
    if (!stand->is_known) {
        return write_store("UPDATE devices SET vendor = NULL, model = NULL, serial = NULL WHERE name = ?", "i", name);
    }
    return write_store("UPDATE devices SET vendor = ?, model = ?, serial = ? WHERE name = ?", "tiii", vendor, (long long)stand->id.product.model,
        (long long)stand->id.serial, name);
}

bool write_stand(const struct stand *stand)
{
    long long name = stand->name;
    if (is_kept(stand)) {
        return true;
    }
    bool is_written = write_identity(stand) && write_store("DELETE FROM places WHERE device = ?", "i", name);
    for (size_t rank = 0; is_written && rank < stand->count; rank++) {
        struct place place = stand->places[stand->count - 1 - rank];
        is_written = write_store("INSERT INTO places VALUES (?, ?, ?, ?)", "iiii", name, (long long)rank, (long long)place.address, (long long)place.rate);
    }
    return is_written;
}

bool keep_stands(const struct stand *stands, size_t count)
{
    for (size_t i = 0; has_store() && i < count; i++) {
        if (!write_stand(&stands[i])) {
            return false;
        }
    }
    return commit_store();
}

struct stand *stand_of(struct stand *stands, size_t *count, size_t most, uint32_t name, uint32_t rate)
{
    for (size_t i = 0; i < *count; i++) {
        if (stands[i].name == name) {
            return &stands[i];
        }
    }
    if (*count == most) {
        stop(BAD_WORDS, "no room for device %u: %zu are kept already", (unsigned)name, most);
    }
    struct stand *stand = &stands[*count];
    *stand = (struct stand){ .name = name, .count = 1, .places = { { name, rate } } };
    const struct stand *other = neighbour(stands, *count, stand);
    if (other != NULL) {
        stop(BAD_WORDS, "no device can start at address %u: device %u, which is kept, may be there", (unsigned)name, (unsigned)other->name);
    }
    (*count)++;
    return stand;
}

bool is_taken(const struct stand *stands, size_t count, const struct stand *stand, uint32_t address)
{
    for (size_t i = 0; i < count; i++) {
        if (&stands[i] != stand && may_be_at(&stands[i], address)) {
            return true;
        }
    }
    return false;
}

void may_move(struct stand *stand, struct place place)
{
    stand->places[1] = place_of(stand);
    stand->places[0] = place;
    stand->count = 2;
}

void stands_at(struct stand *stand, struct place place)
{
    stand->places[0] = place;
    stand->count = 1;
}

struct place place_of(const struct stand *stand)
{
    return stand->places[stand->count - 1];
}

bool is_same_place(struct place one, struct place other)
{
    return one.address == other.address && one.rate == other.rate;
}

void try_place(struct stand *stand, struct place place)
{
    size_t at = 0;
    while (at + 1 < stand->count && !is_same_place(stand->places[at], place)) {
        at++;
    }
    for (; at + 1 < stand->count; at++) { /* the others come before it, in their order */
        stand->places[at] = stand->places[at + 1];
    }
    stand->places[stand->count - 1] = place;
}

bool is_same_device(const struct osdp_pd_id *one, const struct osdp_pd_id *other)
{
    return one->serial == other->serial && one->product.model == other->product.model &&
           memcmp(one->product.vendor, other->product.vendor, sizeof one->product.vendor) == 0;
}

bool is_same(const struct stand *stand, const struct osdp_pd_id *id)
{
    return !stand->is_known || is_same_device(&stand->id, id);
}
