/* The store of a program: its file, and its transactions. */
#define _DEFAULT_SOURCE
#include "store.h"

#include <errno.h>
#include <fcntl.h>
#include <libgen.h>
#include <limits.h>
#include <stdarg.h>
#include <stdio.h>
#include <stdlib.h>
#include <string.h>
#include <sys/file.h>
#include <sys/stat.h>
#include <unistd.h>

#include "words.h"
#ifndef STORE_SQL
#define STORE_SQL "store_sql.h"
#endif
#include STORE_SQL

#define VERSION ((int)(sizeof store_parts / sizeof store_parts[0])) /* of the schema that this program knows */
#define APPLICATION 1330857040 /* the number that the file has of these programs */
#define WAIT 2000              /* so many milliseconds another program may write, as a shell that somebody has open */
#define DO "Bring back a copy of it; or see at which address each device is, say that, and start once with --new and no such file"

static const char *name;           /* as the words have it, */
static char path[PATH_MAX + 300];  /* and without links in its folder's name */
static int held = -1;              /* the file, which is held for as long as the program runs: by closing it the program would lose the locks of SQLite too */
static sqlite3 *base;
static bool is_told;               /* whether all that is stored was told, and that isn't stored yet */
static char fault[600];

/* Ends the program, since SQLite has failed: of a disk that is full or fails, or may not be written, nothing is lost; else the file is damaged. */
static _Noreturn void refuse(const char *what, sqlite3 *failed, int code)
{
    bool is_damaged = (code & 0xFF) == SQLITE_CORRUPT || (code & 0xFF) == SQLITE_NOTADB;
    const char *why = failed != NULL && sqlite3_errcode(failed) != SQLITE_OK ? sqlite3_errmsg(failed) : sqlite3_errstr(code);
    stop(FAILED, "%s can't be %s: %s. %s", name, what, why, is_damaged ? DO : "See that its disk has room, and may be written");
}

static void demand_done(int code, const char *what, sqlite3 *used)
{
    if (code != SQLITE_OK) {
        refuse(what, used, code);
    }
}

static sqlite3 *open_base(const char *file, const char *what)
{
    sqlite3 *opened = NULL;
    int code = sqlite3_open_v2(file, &opened, SQLITE_OPEN_READWRITE | SQLITE_OPEN_NOFOLLOW | SQLITE_OPEN_PRIVATECACHE, NULL);
    demand_done(code, what, opened);
    (void)sqlite3_busy_timeout(opened, WAIT);
    return opened;
}

/* Does the statements that bring a store from a version to this program's, and then some more, in one transaction. */
static void bring_up(sqlite3 *used, int version, const char *more, const char *what)
{
    demand_done(sqlite3_exec(used, "PRAGMA synchronous = EXTRA; BEGIN IMMEDIATE", NULL, NULL, NULL), what, used);
    for (; version < VERSION; version++) {
        demand_done(sqlite3_exec(used, store_parts[version], NULL, NULL, NULL), what, used);
    }
    demand_done(sqlite3_exec(used, more, NULL, NULL, NULL), what, used);
    demand_done(sqlite3_exec(used, "COMMIT", NULL, NULL, NULL), what, used);
}

/* Where the store is, without links in the name of its folder. */
static void find_path(void)
{
    char folder[PATH_MAX], whole[PATH_MAX], last[PATH_MAX];
    if (strlen(name) >= PATH_MAX - 300) {
        stop(FAILED, "%s can't be opened: %s", name, strerror(ENAMETOOLONG));
    }
    strcpy(folder, name);
    strcpy(last, name);
    if (realpath(dirname(folder), whole) == NULL) {
        stop(FAILED, "%s can't be opened: %s", name, strerror(errno));
    }
    (void)snprintf(path, sizeof path, "%s/%s", strcmp(whole, "/") == 0 ? "" : whole, basename(last));
}

/* Puts the new file in its place, on the disk. */
static void put_in_place(const char *new)
{
    char folder[sizeof path];
    if (link(new, path) != 0) {
        stop(FAILED, "%s can't be made: %s", name, strerror(errno));
    }
    (void)unlink(new);
    strcpy(folder, path);
    int opened = open(dirname(folder), O_RDONLY | O_CLOEXEC);
    if (opened < 0 || fsync(opened) != 0) {
        stop(FAILED, "%s can't be made: %s", name, strerror(errno));
    }
    close(opened);
}

/* Makes the file beside its place, whole, and then puts it there: one whose making was cut is no store, and the next `--new` removes it. */
static void make_store(const char *role)
{
    char new[sizeof path + 4], more[120];
    struct stat found;
    if (lstat(path, &found) == 0) {
        stop(FAILED, "there is a store already: %s. Start without --new", name);
    }
    (void)snprintf(new, sizeof new, "%s.new", path);
    (void)snprintf(more, sizeof more, "INSERT INTO store (one, role) VALUES (1, '%s')", role);
    (void)unlink(new);
    int file = open(new, O_RDWR | O_CREAT | O_EXCL | O_NOFOLLOW | O_CLOEXEC, 0600);
    if (file < 0 || close(file) != 0) {
        stop(FAILED, "%s can't be made: %s", name, strerror(errno));
    }
    sqlite3 *made = open_base(new, "made");
    bring_up(made, 0, more, "made");
    demand_done(sqlite3_exec(made, "PRAGMA journal_mode = WAL", NULL, NULL, NULL), "made", made);
    demand_done(sqlite3_close(made), "made", NULL);
    put_in_place(new);
}

/* Opens the file without following a link. */
static void open_file(void)
{
    struct stat found;
    held = open(path, O_RDWR | O_NOFOLLOW | O_CLOEXEC | O_NONBLOCK);
    if (held < 0 && errno == ENOENT) {
        stop(FAILED, "there is no store at %s. " DO, name);
    }
    if (held < 0 && lstat(path, &found) == 0 && S_ISLNK(found.st_mode)) {
        stop(FAILED, "%s is a symbolic link: name the file itself", name);
    }
    if (held < 0) {
        stop(FAILED, "%s can't be opened: %s", name, strerror(errno));
    }
}

/* Holds the file, which is a store by its first bytes. Only its owner reads it from now on. */
static void hold_file(void)
{
    char head[16] = "";
    struct stat found;
    if (fstat(held, &found) != 0 || !S_ISREG(found.st_mode)) {
        stop(FAILED, "%s is no file", name);
    }
    if (found.st_size == 0) {
        stop(FAILED, "%s has 0 bytes, and is no store. " DO, name);
    }
    if (pread(held, head, sizeof head, 0) != sizeof head || memcmp(head, "SQLite format 3", sizeof head) != 0) {
        stop(FAILED, "%s is no store of osdp. " DO, name);
    }
    if (flock(held, LOCK_EX | LOCK_NB) != 0) {
        stop(FAILED, "another program has the store %s", name);
    }
    if ((found.st_mode & 077) != 0) {
        (void)fchmod(held, 0600);
    }
}

/* Whether the file at the path is the one that is held. */
static bool is_held(void)
{
    struct stat mine, found;
    return fstat(held, &mine) == 0 && lstat(path, &found) == 0 && mine.st_dev == found.st_dev && mine.st_ino == found.st_ino;
}

/* Whether the text that a statement finds is this one; else it is copied. */
static bool is_text(const char *statement, const char *text, char *other, size_t room)
{
    sqlite3_stmt *found = find_in_store(statement, "");
    const char *column = next_row(found) ? (const char *)sqlite3_column_text(found, 0) : NULL;
    bool is_same = column != NULL && strcmp(column, text) == 0;
    (void)snprintf(other, room, "%s", column != NULL ? column : "nothing");
    (void)sqlite3_finalize(found);
    return is_same;
}

/* Brings a store of an earlier version to that of this program, and refuses one of a later version. */
static void upgrade(void)
{
    long long version = number_in_store(0, "SELECT max(number) FROM version", "");
    if (version < 1 || version > VERSION) {
        stop(FAILED, "%s is of version %lld, and this program knows %d: take a program of that version", name, version, VERSION);
    }
    if (version < VERSION) {
        bring_up(base, (int)version, "", "opened");
    }
}

/* Refuses a store that isn't whole, is another program's, or is of a later version. */
static void look_at_store(const char *role)
{
    char found[200];
    if (number_in_store(0, "PRAGMA application_id", "") != APPLICATION) {
        stop(FAILED, "%s is no store of osdp. " DO, name);
    }
    if (!is_text("PRAGMA quick_check(1)", "ok", found, sizeof found)) {
        stop(FAILED, "%s is damaged: %s. " DO, name, found);
    }
    upgrade();
    if (!is_text("SELECT role FROM store", role, found, sizeof found)) {
        stop(FAILED, "%s is the store of a %s, and not of a %s: name another file", name, found, role);
    }
    /* without a log each transaction is to be on the disk with the removal of its journal, too */
    bool has_log = is_text("PRAGMA journal_mode", "wal", found, sizeof found);
    demand_done(sqlite3_exec(base, has_log ? "PRAGMA synchronous = FULL" : "PRAGMA synchronous = EXTRA", NULL, NULL, NULL), "opened", base);
    demand_done(sqlite3_exec(base, "PRAGMA foreign_keys = ON", NULL, NULL, NULL), "opened", base);
}

void open_store(const char *words, const char *role, bool is_new)
{
    name = words;
    find_path();
    if (is_new) {
        make_store(role);
    }
    open_file();
    hold_file();
    base = open_base(path, "opened");
    if (!is_held()) {
        stop(FAILED, "%s was replaced while it was opened: start again", name);
    }
    look_at_store(role);
}

bool has_store(void)
{
    return base != NULL;
}

const char *store_fault(void)
{
    return fault;
}

/* A statement with its values. Whether it can be made. */
static int make_statement(sqlite3_stmt **made, const char *statement, const char *types, va_list values)
{
    int code = sqlite3_prepare_v2(base, statement, -1, made, NULL);
    for (int at = 1; code == SQLITE_OK && *types != '\0'; at++, types++) {
        code = *types == 'i' ? sqlite3_bind_int64(*made, at, va_arg(values, long long)) : sqlite3_bind_text(*made, at, va_arg(values, const char *), -1, SQLITE_TRANSIENT);
    }
    return code;
}

/* The transaction can't go on. */
static bool fails(void)
{
    (void)snprintf(fault, sizeof fault, "the store %s can't be written: %s", name, sqlite3_errmsg(base));
    if (!sqlite3_get_autocommit(base)) {
        (void)sqlite3_exec(base, "ROLLBACK", NULL, NULL, NULL);
    }
    return false;
}

/* Begins the transaction of this turn, which notes what was told since the last one. */
static bool begin(void)
{
    static const char told[] = "UPDATE orders SET told = 1 WHERE state <> 'open' AND told = 0; UPDATE events SET handled = 1 WHERE handled = 0";
    if (!sqlite3_get_autocommit(base)) {
        return true;
    }
    return sqlite3_exec(base, "BEGIN IMMEDIATE", NULL, NULL, NULL) == SQLITE_OK && (!is_told || sqlite3_exec(base, told, NULL, NULL, NULL) == SQLITE_OK);
}

bool write_store(const char *statement, const char *types, ...)
{
    sqlite3_stmt *made = NULL;
    va_list values;
    if (!begin()) {
        return fails();
    }
    va_start(values, types);
    bool is_done = make_statement(&made, statement, types, values) == SQLITE_OK && sqlite3_step(made) == SQLITE_DONE;
    va_end(values);
    is_done = is_done || fails();
    (void)sqlite3_finalize(made);
    return is_done;
}

bool commit_store(void)
{
    if (base == NULL || sqlite3_get_autocommit(base)) {
        return true;
    }
    if (sqlite3_exec(base, "COMMIT", NULL, NULL, NULL) != SQLITE_OK) {
        return fails();
    }
    is_told = false;
    return true;
}

void demand_store(bool is_done)
{
    if (!is_done) {
        stop(FAILED, "%s", fault);
    }
}

void note_told(void)
{
    is_told = true;
}

/* A statement that finds rows. */
static sqlite3_stmt *find(const char *statement, const char *types, va_list values)
{
    sqlite3_stmt *made = NULL;
    demand_done(make_statement(&made, statement, types, values), "read", base);
    return made;
}

sqlite3_stmt *find_in_store(const char *statement, const char *types, ...)
{
    va_list values;
    va_start(values, types);
    sqlite3_stmt *made = find(statement, types, values);
    va_end(values);
    return made;
}

bool next_row(sqlite3_stmt *found)
{
    int code = sqlite3_step(found);
    if (code != SQLITE_ROW && code != SQLITE_DONE) {
        refuse("read", base, code);
    }
    return code == SQLITE_ROW;
}

long long number_in_store(long long otherwise, const char *statement, const char *types, ...)
{
    va_list values;
    va_start(values, types);
    sqlite3_stmt *found = find(statement, types, values);
    va_end(values);
    long long number = next_row(found) && sqlite3_column_type(found, 0) != SQLITE_NULL ? sqlite3_column_int64(found, 0) : otherwise;
    (void)sqlite3_finalize(found);
    return number;
}
