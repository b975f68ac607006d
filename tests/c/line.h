/* A panel and two readers, joined in memory, and the records of what both ends tell. */
#ifndef LINE_H
#define LINE_H

#include "osdp.h"

#define READERS 2

struct record {
    char text[4096];
    size_t length;
};

extern struct osdp_panel panel;
extern struct osdp_device readers[READERS];
extern bool is_silent[READERS];      /* nothing comes to such a reader */
extern struct record told[READERS]; /* what the panel tells of each */
extern struct record done[READERS]; /* what each is to do, and where it is busy, or doesn't expect a number */
extern uint64_t now;

/* Nothing is on the line or in the records, and the moment is 0. */
void clear_line(void);

/* Runs the line until a moment, or until nothing is due any more. */
void run(uint64_t end);

/* Ends the program with a line that tells what doesn't hold. */
#define demand(holds) ((holds) ? (void)0 : fail(__FILE__, __LINE__, #holds))
void fail(const char *file, int where, const char *what);

#endif
