/* The orders and events of a panel's only device in the program's store. */
#define _DEFAULT_SOURCE
#include "ledger.h"

#include <inttypes.h>
#include <stdarg.h>
#include <stdio.h>
#include <stdlib.h>
#include <string.h>
#include <time.h>

#include "store.h"
#include "words.h"

/* An order in doubt. */
struct doubted {
    struct doubted *next;
    uint64_t number;
};

static long long device;
static struct doubted *doubts;
static bool is_heard; /* whether their user has heard all that can be known of them */
static char *said;    /* what is told with the end of the turn */
static size_t said_length;

static _Noreturn void no_memory(void)
{
    stop(OUT_OF_MEMORY, "out of memory");
}

void say(const char *format, ...)
{
    static char line[12800]; /* two texts, which have 6,144 bytes at most each */
    va_list rest;
    va_start(rest, format);
    int length = vsnprintf(line, sizeof line, format, rest);
    va_end(rest);
    size_t room = length > 0 && (size_t)length < sizeof line ? (size_t)length : 0;
    char *longer = realloc(said, said_length + room + 1);
    if (longer == NULL) {
        no_memory();
    }
    said = longer;
    memcpy(said + said_length, line, room + 1);
    said_length += room;
}

/* Milliseconds since 1970, as a store has them. */
static long long date(void)
{
    struct timespec now;
    (void)clock_gettime(CLOCK_REALTIME, &now);
    return (long long)now.tv_sec * 1000 + now.tv_nsec / 1000000;
}

uint64_t next_order(uint32_t name)
{
    return 1 + (uint64_t)number_in_store(0, "SELECT max(number) FROM orders WHERE device = ?", "i", (long long)name);
}

void note_order(uint64_t number, const char *text, uint64_t milliseconds)
{
    demand_store(write_store("INSERT INTO orders (device, number, text, until) VALUES (?, ?, ?, ?)", "iiti", device, (long long)number, text, date() + (long long)milliseconds));
}

void drop_order(uint64_t number)
{
    demand_store(write_store("DELETE FROM orders WHERE device = ? AND number = ?", "ii", device, (long long)number));
}

/* Tells what became of an order, after these words. */
static void say_end(const char *before, uint64_t number, const char *state, const char *answer)
{
    sqlite3_stmt *found = find_in_store("SELECT text FROM orders WHERE device = ? AND number = ?", "ii", device, (long long)number);
    const char *text = next_row(found) ? (const char *)sqlite3_column_text(found, 0) : "";
    bool is_refused = strcmp(state, "refused") == 0;
    say("%s%s%s%s%s %" PRIu64 " %s\n", before, state, answer != NULL ? is_refused ? " (" : " " : "", answer != NULL ? answer : "", answer != NULL && is_refused ? ")" : "",
        number, text);
    (void)sqlite3_finalize(found);
}

/* Stores what became of an order, and whether that was told. */
static void write_end(uint64_t number, const char *state, const char *answer, bool is_told)
{
    demand_store(write_store("UPDATE orders SET state = ?, answer = ?, told = ? WHERE device = ? AND number = ?", "ttiii", state, answer, (long long)is_told, device,
        (long long)number));
}

void note_end(uint64_t number, const char *state, const char *answer)
{
    write_end(number, state, answer, false);
    say_end("", number, state, answer);
}

void doubt(uint64_t number)
{
    struct doubted *one = malloc(sizeof *one);
    if (one == NULL) {
        no_memory();
    }
    *one = (struct doubted){ doubts, number };
    doubts = one;
    say_end("", number, "doubt", NULL);
}

bool any_doubt(void)
{
    return doubts != NULL;
}

void heard_all(void)
{
    is_heard = true;
}

bool is_last_event(const char *text)
{
    sqlite3_stmt *found = find_in_store("SELECT text FROM events WHERE device = ? ORDER BY number DESC LIMIT 1", "i", device);
    bool is_last = next_row(found) && strcmp((const char *)sqlite3_column_text(found, 0), text) == 0;
    (void)sqlite3_finalize(found);
    return is_last;
}

void note_event(const char *text, bool is_again)
{
    demand_store(write_store("INSERT INTO events (device, text, since, again) VALUES (?, ?, ?, ?)", "itii", device, text, date(), (long long)is_again));
}

void begin_turn(void)
{
    while (is_heard && doubts != NULL) {
        struct doubted *one = doubts;
        doubts = one->next;
        write_end(one->number, "doubt", NULL, true);
        free(one);
    }
    is_heard = false;
}

void end_turn(void)
{
    demand_store(commit_store());
    if (said_length > 0) {
        said_length = 0;
        tell("%s", said);
        note_told();
    }
}

/* Tells again what may not have been told. */
static void say_again(void)
{
    sqlite3_stmt *found = find_in_store("SELECT number, state, answer FROM orders WHERE device = ? AND state <> 'open' AND told = 0 ORDER BY number", "i", device);
    while (next_row(found)) {
        say_end("again: ", (uint64_t)sqlite3_column_int64(found, 0), (const char *)sqlite3_column_text(found, 1), (const char *)sqlite3_column_text(found, 2));
    }
    (void)sqlite3_finalize(found);
    found = find_in_store("SELECT text FROM events WHERE device = ? AND handled = 0 ORDER BY number", "i", device);
    while (next_row(found)) {
        say("again: event %s\n", (const char *)sqlite3_column_text(found, 0));
    }
    (void)sqlite3_finalize(found);
}

void open_ledger(uint32_t name, uint32_t retain)
{
    device = name;
    if (retain > 0) {
        demand_store(write_store("UPDATE store SET kept_orders = ?, kept_events = ?", "ii", (long long)retain, (long long)retain));
    }
    say_again();
    sqlite3_stmt *found = find_in_store("SELECT number FROM orders WHERE device = ? AND state = 'open' ORDER BY number", "i", device);
    while (next_row(found)) {
        doubt((uint64_t)sqlite3_column_int64(found, 0));
    }
    (void)sqlite3_finalize(found);
}
