/* Where devices are while there is no power, or while a program doesn't run: a reader's own place, and the stands of a panel's devices, in the program's store
 * (store.h). It is written only where it would change, so that flash lasts: when a COMSET is given or has its end, and when a device is seen for the first time or is
 * accepted in place of another.
 *
 * What has to be kept: a reader's place, since its panel looks for it where the COM said; of a panel's device its place, since it answers nowhere else; the
 * other places while a COMSET has no end, since the device may be at each; and vendor, model and serial number, since another device gets no order. */
#ifndef KEPT_H
#define KEPT_H

#include "osdp.h"

#define PLACES 3 /* of a device that gets another COMSET before the one before has its end */

/* What the words of a program say of its store. */
struct kept_words {
    const char *path; /* the file of `--keep`; NULL where none is named */
    bool is_new;      /* whether `--new` is there, which makes the file */
    bool is_word;     /* whether a word names the file, in place of `--keep`: then `--retain` may be there too, */
    uint32_t retain;  /* and so many ended orders and handled events stay; 0 where it isn't there */
};

/* A reader's address and rate: those of its words stay where nothing was kept yet, and are kept then. Ends the program where the store can't be used. Nothing is done where
 * no file is named. */
void read_kept(const struct kept_words *words, uint32_t *address, uint32_t *rate);

/* Keeps them. Tells where that can't be done. Nothing is done where there is no store. */
void keep(uint32_t address, uint32_t rate);

struct place {
    uint32_t address, rate;
};

/* Where a panel's device is, and what it is. */
struct stand {
    uint32_t name;          /* its address in the panel's words, wherever it has gone since */
    size_t count;           /* of places: more than 1 while a COMSET isn't answered, else 1 */
    struct place places[PLACES]; /* the one to be tried next stands first, and the one in use last */
    bool is_known;          /* whether it has told what it is: */
    struct osdp_pd_id id;   /* vendor, model and serial number count */
};

/* The stands that the store keeps, of which there are at most so many; none where no file is named. Ends the program where the store can't be used: after addresses were
 * exchanged, a panel that took another one for it would open the wrong door. */
size_t read_stands(const struct kept_words *words, struct stand *stands, size_t most);

/* Keeps these stands. Whether that was done; it is where there is no store. Else `store_fault` says why. */
bool keep_stands(const struct stand *stands, size_t count);

/* The same of one stand, in the transaction of this turn. */
bool write_stand(const struct stand *stand);

/* The stand of this name, which joins the others at a place if it isn't among them. Ends the program where another device may be at its address, or the
 * others are as many as there may be. */
struct stand *stand_of(struct stand *stands, size_t *count, size_t most, uint32_t name, uint32_t rate);

/* Whether another device than this one may be at an address, by what is kept: no device may be sent there. */
bool is_taken(const struct stand *stands, size_t count, const struct stand *stand, uint32_t address);

/* Whether a device may be at an address. */
bool may_be_at(const struct stand *stand, uint32_t address);

/* A COMSET goes out to a device: it may be at this place too. */
void may_move(struct stand *stand, struct place place);

/* A device is at this place. */
void stands_at(struct stand *stand, struct place place);

/* The place of a device that is in use. */
struct place place_of(const struct stand *stand);

bool is_same_place(struct place one, struct place other);

/* Takes the place that is in use after the others: of two places each is tried in its turn. */
void try_place(struct stand *stand, struct place place);

/* Whether two devices are one, by vendor, model and serial number; and whether a device is the one that stood here before, as far as that is known. */
bool is_same_device(const struct osdp_pd_id *one, const struct osdp_pd_id *other);
bool is_same(const struct stand *stand, const struct osdp_pd_id *id);

#endif
