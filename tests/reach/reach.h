/* What the seeded session asks of the machine that it runs on. */
#ifndef REACH_H
#define REACH_H

/* Prints a text that ends with a zero. */
void print(const char *text);

/* Runs the session, and prints what came of it. */
void session(void);

#endif
