/* A serial port and the trace of what goes over it, a clock, and lines of standard input. */
#ifndef PORT_H
#define PORT_H

#include "osdp.h"

/* Lines that come in pieces. */
struct lines {
    char held[8194];
    size_t length, start;
    bool ended, skips;
    uint64_t since; /* none of the lines that the last read left was typed before this moment */
    uint64_t empty; /* a moment after which all was typed that isn't read yet; 0 before the first read */
};

/* Milliseconds of a clock that never goes backwards, and goes on while the computer sleeps. */
uint64_t moment(void);

/* How late the program may be, in milliseconds; 5000 at first. And whether more than that has passed since a moment. An order of a panel goes out until so long after
 * it was given, or, of a card, after the card was asked for: nobody stands at the door any more then. */
void set_late(uint32_t milliseconds);
uint32_t late_by(void);
bool is_too_late(uint64_t since);

/* Opens a port, which no other program may open then; ends the program where it can't, or where another program has it. At Ctrl-C, and where its
 * terminal is closed, the program ends. */
int open_port(const char *path, uint32_t rate);

/* What is to be told before the program ends at Ctrl-C (`stopped`) or since its port has failed (`port-gone`). */
void before_end(void (*tells)(const char *cause));

/* Whether the port has this rate, in bits for a second. Before it is open: whether any port may have it. */
bool has_rate(uint32_t rate);

/* Sets the port raw: 8 bits, no parity, 1 stop bit, and each byte as it is. What was written goes out before, at the old rate, and bytes that have come
 * are kept. Whether the port has this rate then, by what is read back of it; else it stays as it is. */
bool set_rate(int port, uint32_t rate);

/* Sets a rate that the port has; ends the program where it can't be set. */
void demand_rate(int port, uint32_t rate);

/* Writes a burst whole, if not too much has passed since a moment: that for which it was made. Whether it was written: one that wasn't is lost on the line for whoever
 * made it. Ends the program where the port takes nothing for five seconds: what it holds is too old then, and is
 * dropped. */
bool write_all(int port, const struct osdp_burst *burst, uint64_t since);

/* Waits so many milliseconds at most for bytes and lines, takes the moment, and then reads all that is there. So nothing of it came before the wait, as far as the
 * program didn't stand still. How many bytes came from the port: none where another program has taken them away. */
size_t read_port(int port, struct lines *lines, uint64_t wait, uint8_t *bytes, size_t room, uint64_t *now);

/* Whether the program stood still for longer than it may be late, by the last read: it was stopped, or the computer has slept, or what it did before the read took so
 * long. The bytes that had come by then are dropped, as a line may lose them: a device would do an order that its panel has given up. */
bool was_stopped(void);

/* From now on such bytes are read too: for a program that only listens, and for a panel, which knows how old an order and a card is. */
void hear_all(void);

/* The next line, without its end; NULL where none has come whole. It stays until the next read. The last line needs no line feed. A line that is too long,
 * or has bytes that aren't printable ASCII, is no call: it is told to be refused, and passed over. */
const char *next_line(struct lines *lines);

/* Opens the file to which each burst is appended for `osdp show`: a line of digits, after a comment that has its moment and its way. */
void open_trace(const char *path);

/* A burst has been sent; bytes have come, or none. Those that came less than 20 ms after others are one burst with them. */
void trace_sent(const uint8_t *bytes, size_t length);
void trace_came(const uint8_t *bytes, size_t length);

#endif
