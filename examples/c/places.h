/* What a panel knows of its readers: where each one is, what it is, and how its session stands. A line has one rate at a time. */
#ifndef PLACES_H
#define PLACES_H

#include "kept.h"
#include "osdp.h"
#include "words.h"

#define MOST 16 /* readers of a panel */
#define PAUSE 1000 /* from a lost session to the next one, in milliseconds */
#define NEVER UINT64_MAX

enum state { CLOSED, BEGUN, OPEN, SOUGHT };

struct known {
    struct stand *stand; /* where it may be, and what it is */
    enum state state;
    uint64_t begins; /* the moment at which a closed session begins */
    bool is_tried;   /* whether it was tried since the port has its rate */
    bool refuses;    /* whether it has refused the rate of the others */
    bool is_moving;  /* whether a COMSET to it waits or is under way */
    bool is_told;    /* whether it was told out of reach */
    bool is_other;   /* whether another device than before has answered last: it gets no order; */
    struct osdp_pd_id other; /* what that is, */
    struct place there;      /* and where it stands */
    bool is_left;    /* whether nothing more is said to it, so that its session ends */
};

/* Reads where the readers are from the store, if one is named: each one that isn't kept joins those that are, at its address and this rate. Ends the program
 * where two would be at one address. Gives the address at which the reader is. */
void read_places(const struct kept_words *words);
uint32_t join_reader(uint32_t name, uint32_t rate);

/* Keeps each reader that joined, in the store, if one is named. */
void make_places(void);

/* Ends the program where the port, which is open now, hasn't the rate of one of their places. */
void demand_rates(void);

/* Writes where they are to the store. Whether that was done. */
bool keep_places(void);

/* The reader of this number, from 0; NULL where there is none. */
struct known *known_reader(size_t entry);

/* Who has an address, or may have it: a reader's number, from 1; 0 where nobody has. */
size_t reader_at(uint32_t address);

/* Whether a device that is kept, and isn't in the list, may have an address: it may be on the line still. */
bool is_kept_apart(uint32_t address);

/* Whether another device than the reader has answered its opening, which is told once while it stands there: it gets no order, unless it is allowed. Else the
 * device is the reader. One that is allowed is the reader from then on. */
bool tell_other(struct known *reader, const struct osdp_report *opened);
void allow_other(struct known *reader);

/* Lets an open session end, by leaving out what the panel says to its reader: there is no call for it. */
void leave_reader(struct known *reader);

/* Whether its session is open, and isn't left. */
bool is_open(const struct known *reader);

/* Its session is open: it is where it was found, if it is no other device. Of two places where another device stands at one, that session is let end: the reader is
 * looked for at the other place. */
void reader_opened(struct known *reader, const struct osdp_report *opened);

/* Its session has ended, and begins again at a moment. */
void reader_closed(struct known *reader, uint64_t begins);

/* A COMSET goes out to it, to this place: false where that can't be kept. It was not done; it was. */
bool comset_goes(struct known *reader, struct place place);
void comset_over(struct known *reader);
void comset_done(struct known *reader, struct place place);

/* The place that a COM tells. Where the port hasn't that rate, which is told, the reader is taken to be at this one. */
struct place place_told(const struct osdp_message *com, uint32_t rate);

/* Why a COMSET would leave a reader where nobody finds it; NULL where it wouldn't. */
const char *comset_refusal(void);

/* Whether the session of a reader is open to which a COMSET is under way. */
bool comset_waits(void);

/* Whether any session is open. */
bool any_open(void);

/* The rate that the port is to have. It has another one where no session is open, and each reader that may be at this one has been tried: then the next
 * of the rates at which readers may be. So the rates take turns until a reader is found, and no reader that is reached is cut off. */
uint32_t next_rate(uint32_t rate);

/* The port has another rate. */
void rate_set(void);

/* Where a closed session can begin by this rate: at the first of its places that has it; NULL where none has. While no session is open, and another rate is
 * to have its turn, each reader begins once: so the round is over once the last one has ended. */
const struct place *next_place(const struct known *reader, uint32_t rate);

/* The first place of a reader that has this rate, whether or not its session can begin; NULL where none has. */
const struct place *place_at(const struct known *reader, uint32_t rate);

/* The first place of a reader that has another rate; NULL where none has. */
const struct place *place_elsewhere(const struct known *reader, uint32_t rate);

/* A session begins at a place of the reader. Of two places each is tried in its turn. */
void begin_at(struct known *reader, struct place place);

/* The moment at which the next session begins, by this rate of the port; NEVER where none does. */
uint64_t next_begin(uint32_t rate);

#endif
