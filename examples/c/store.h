/* The store of a program: one file of SQLite for where devices are, for orders and for events. docs/STORE.md tells what is in it, and what it stands.
 *
 * A turn of a program is one transaction. The first call that writes begins it, and `commit_store` ends it: before the packet of that turn goes out, and before anything
 * is told. Where the disk takes it, it is there after a loss of power; where not, nothing of the turn is. */
#ifndef STORE_H
#define STORE_H

#include <sqlite3.h>
#include <stdbool.h>

/* Opens the store of this program, and makes it before that where it is to be new. `role` is "panel" or "device". It is this program's alone, while that runs. Ends the
 * program where the store can't be used: the line on standard error says why, and what to do. */
void open_store(const char *path, const char *role, bool is_new);

/* Whether a store is open. */
bool has_store(void);

/* Does a statement in the transaction of this turn, with its values: of each letter of `types` one, `i` for a number (long long) and `t` for a text, which may be NULL.
 * Whether that was done; else the transaction is taken back, and `store_fault` says why. */
bool write_store(const char *statement, const char *types, ...);

/* Ends the transaction of this turn, if it has one: from here on it stands a loss of power. Whether it does. */
bool commit_store(void);

/* Ends the program where `is_done` is false: it may not act on what isn't stored. */
void demand_store(bool is_done);

/* Why the last call has failed, as `the store PATH can't be written: disk I/O error`. */
const char *store_fault(void);

/* A statement that finds rows, with its values. The caller steps through it, and finalizes it. Ends the program where it can't be made. */
sqlite3_stmt *find_in_store(const char *statement, const char *types, ...);

/* Whether there is one more row. Ends the program where the store can't be read. */
bool next_row(sqlite3_stmt *found);

/* The number in the first row; `otherwise` where there is none. */
long long number_in_store(long long otherwise, const char *statement, const char *types, ...);

/* All that is stored was told. The next transaction notes it, so that no card costs the disk one more. */
void note_told(void);

#endif
