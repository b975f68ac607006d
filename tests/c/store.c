/* The store of the programs in C (examples/c/{store,kept,ledger}.c): what is kept is read again, what is kept already isn't written again, files that are no store of this
 * program are refused, a disk that takes nothing leaves what stood there, and a ledger tells at the next start what it may not have told. It needs no archive:
 * `store FOLDER`. With LATER it is a program of a later schema, which upgrades a store. Each fault is told, and the status is 1 then. */
#define _GNU_SOURCE
#include "store.h"

#include <fcntl.h>
#include <signal.h>
#include <stdarg.h>
#include <stdio.h>
#include <stdlib.h>
#include <string.h>
#include <sys/resource.h>
#include <sys/stat.h>
#include <sys/wait.h>
#include <unistd.h>

#include "kept.h"
#include "ledger.h"
#include "words.h"

static int faults;
static char told[1000], ended[1000];

static void demand(bool holds, const char *what)
{
    if (!holds) {
        printf("store: %s (told: %s, ended: %s)\n", what, told, ended);
        faults++;
    }
}

void tell(const char *format, ...)
{
    size_t length = strlen(told);
    va_list rest;
    va_start(rest, format);
    vsnprintf(told + length, sizeof told - length, format, rest);
    va_end(rest);
}

void stop(int status, const char *format, ...)
{
    va_list rest;
    va_start(rest, format);
    vfprintf(stderr, format, rest);
    va_end(rest);
    exit(status);
}

/* Runs a part in a program of its own, which may end by itself: what it says then is in `ended`. Its status; its faults count. */
static int runs(void (*part)(const char *), const char *path)
{
    int ends[2], status = 0;
    demand(pipe(ends) == 0, "there is no pipe");
    fflush(stdout);
    pid_t child = fork();
    if (child == 0) {
        (void)dup2(ends[1], STDERR_FILENO);
        told[0] = '\0';
        part(path);
        exit(faults > 0 ? 100 : 0);
    }
    close(ends[1]);
    ssize_t length = read(ends[0], ended, sizeof ended - 1);
    ended[length > 0 ? length : 0] = '\0';
    close(ends[0]);
    (void)waitpid(child, &status, 0);
    status = WIFEXITED(status) ? WEXITSTATUS(status) : -1;
    demand(status != 100 && status >= 0, "a part has faults");
    return status;
}

static long size_of(const char *path, const char *end)
{
    char name[300];
    struct stat found;
    (void)snprintf(name, sizeof name, "%s%s", path, end);
    return stat(name, &found) == 0 ? (long)found.st_size : -1;
}

static size_t read_panel(const char *path, bool is_new, struct stand *stands)
{
    const struct kept_words words = { .path = path, .is_new = is_new };
    return read_stands(&words, stands, 4);
}

static void makes(const char *path)
{
    struct stand none[4];
    demand(read_panel(path, true, none) == 0, "a new store has devices");
}

static void opens(const char *path)
{
    struct stand some[4];
    (void)read_panel(path, false, some);
}

static void opens_as_reader(const char *path)
{
    const struct kept_words words = { .path = path };
    uint32_t address = 5, rate = 9600;
    read_kept(&words, &address, &rate);
}

/* The stands of a panel: the same again writes nothing, whatever else of a device has changed. */
static void keeps_stands(const char *path)
{
    struct stand stands[4] = { { .name = 5, .count = 1, .places = { { 5, 9600 } } }, { .name = 6, .count = 1, .places = { { 6, 9600 } } } };
    struct stand none[4];
    (void)read_panel(path, true, none);
    demand(keep_stands(stands, 2), "stands aren't kept");
    long size = size_of(path, "-wal");
    stands[0].id.product.version = 9; /* nobody asks for that */
    demand(keep_stands(stands, 2) && size_of(path, "-wal") == size && size > 0, "stands that are kept are written again");
    may_move(&stands[0], (struct place){ 7, 19200 });
    stands[1].is_known = true;
    stands[1].id = (struct osdp_pd_id){ .product = { .vendor = { 'S', 'I', 'M' }, .model = 7 }, .serial = 4294967295 };
    demand(keep_stands(stands, 2) && size_of(path, "-wal") > size, "a second place isn't kept");
    stands[1].places[0].address = 7;
    demand(!keep_stands(stands, 2) && strstr(store_fault(), "another device may be at that address") != NULL, "two devices are kept at one address");
}

static void reads_stands(const char *path)
{
    struct stand stands[4];
    struct stat found;
    demand(read_panel(path, false, stands) == 2 && stands[0].name == 5 && stands[1].name == 6, "what was kept is read otherwise");
    demand(stands[0].count == 2 && stands[0].places[0].address == 7 && stands[0].places[0].rate == 19200 && place_of(&stands[0]).address == 5, "two places are read otherwise");
    demand(!stands[0].is_known && stands[1].is_known && memcmp(stands[1].id.product.vendor, "SIM", 3) == 0 && stands[1].id.product.model == 7, "what a device is, is read otherwise");
    demand(stands[1].id.serial == 4294967295 && stands[1].count == 1 && stands[1].places[0].address == 6, "a place is read otherwise");
    demand(stat(path, &found) == 0 && (found.st_mode & 0777) == 0600, "others may read where devices are");
}

/* Of two devices with one difference neither is the other; and three places are tried in their turn. */
static void tells_apart(void)
{
    struct stand stands[2] = { { .name = 5, .count = 1, .places = { { 126, 9600 } }, .is_known = true }, { .name = 6, .count = 1, .places = { { 6, 9600 } } } };
    struct osdp_pd_id other[4];
    memset(other, 0, sizeof other);
    other[0].serial++;
    other[1].product.model++;
    other[2].product.vendor[2]++;
    other[3].product.version++;
    for (size_t i = 0; i < 4; i++) {
        demand(is_same(&stands[0], &other[i]) == (i == 3), "a device is taken for another one, or for none");
        demand(is_same(&stands[1], &other[i]), "a device that hasn't told what it is may be any");
    }
    may_move(&stands[0], (struct place){ 7, 9600 });
    demand(is_taken(stands, 2, &stands[1], 7) && is_taken(stands, 2, &stands[1], 126), "an address at which a device may be is free");
    demand(!is_taken(stands, 2, &stands[0], 7), "an address is taken by the device itself");
    struct stand three = { .name = 5, .count = 3, .places = { { 1, 1 }, { 2, 2 }, { 3, 3 } } };
    for (uint32_t turn = 0; turn < 6; turn++) {
        try_place(&three, three.places[0]);
        demand(place_of(&three).address == turn % 3 + 1, "a place isn't tried in its turn");
    }
    try_place(&three, (struct place){ 1, 1 });
    demand(three.places[0].address == 2 && three.places[1].address == 3 && place_of(&three).address == 1, "a place that is named isn't in use");
}

/* A file with some bytes; and what is refused, with what is said. */
static void write_file(const char *path, const char *bytes, size_t length)
{
    FILE *file = fopen(path, "w");
    demand(file != NULL && fwrite(bytes, 1, length, file) == length && fclose(file) == 0, "there is no file");
}

static void is_refused(void (*part)(const char *), const char *path, const char *said)
{
    demand(runs(part, path) == FAILED && strstr(ended, said) != NULL && strstr(ended, path) != NULL, said);
}

static void others_are_refused(void)
{
    char head[5000] = "SQLite format 3";
    write_file("empty", "", 0);
    is_refused(opens, "empty", "has 0 bytes, and is no store. Bring back a copy of it; or see at which address each device is");
    demand(size_of("empty", "") == 0, "an empty file was written");
    write_file("text", "5 at 5 9600\n", 12);
    is_refused(opens, "text", "is no store of osdp. Bring back");
    write_file("head", head, sizeof head);
    is_refused(opens, "head", "can't be read: ");
    is_refused(opens, "gone", "there is no store at gone. Bring back");
    demand(size_of("gone", "") == -1, "a store was made without --new");
    is_refused(makes, "none/store", "none/store can't be opened: No such file or directory");
    demand(mkdir("folder", 0700) == 0, "there is no folder");
    is_refused(opens, "folder", "can't be opened: Is a directory");
    demand(runs(makes, "made") == 0 && size_of("made", "") > 0 && size_of("made", ".new") == -1, "a store isn't made");
    is_refused(makes, "made", "there is a store already: made. Start without --new");
    is_refused(opens_as_reader, "made", "made is the store of a panel, and not of a device: name another file");
    demand(symlink("made", "link") == 0, "there is no link");
    is_refused(opens, "link", "link is a symbolic link: name the file itself");
    is_refused(makes, "link", "there is a store already: link");
    demand(symlink("elsewhere", "far.new") == 0 && runs(makes, "far") == 0 && size_of("elsewhere", "") == -1, "a link beside was followed");
    demand(chmod("made", 0644) == 0 && runs(opens, "made") == 0, "a store that others may read isn't opened");
    struct stat found;
    demand(stat("made", &found) == 0 && (found.st_mode & 0777) == 0600, "others may read it still");
}

static void opens_twice(const char *path)
{
    opens(path);
    is_refused(opens, path, "another program has the store");
}

/* The place of a reader, on a disk that takes nothing at last. */
static void keeps_place(const char *path)
{
    const struct kept_words words = { .path = path, .is_new = size_of(path, "") < 0 };
    const struct rlimit none = { 0, 0 };
    uint32_t address = 5, rate = 9600;
    read_kept(&words, &address, &rate);
    demand(words.is_new == (address == 5) && (address == 5 || (address == 7 && rate == 19200)), "the place is read otherwise");
    keep(7, 19200);
    long size = size_of(path, "-wal");
    keep(7, 19200);
    demand(told[0] == '\0' && size_of(path, "-wal") == size, "a place that is kept is written again");
    (void)signal(SIGXFSZ, SIG_IGN);
    demand(setrlimit(RLIMIT_FSIZE, &none) == 0, "there is no limit");
    keep(8, 9600);
    demand(strstr(told, "not kept 8 9600: the store place can't be written: ") == told, "a disk that fails isn't told");
    demand(number_in_store(0, "SELECT address FROM places", "") == 7, "a disk that fails has changed the store");
}

/* A ledger: three orders, of which one has its end, one is refused, and one is in doubt at the next start. */
static void writes_ledger(const char *path)
{
    const struct stand stand = { .name = 5, .count = 1, .places = { { 5, 9600 } } };
    makes(path);
    demand(keep_stands(&stand, 1), "the device isn't kept");
    open_ledger(5, 0);
    end_turn();
    demand(next_order(5) == 1, "the first order has another number");
    note_order(1, "OUT 0:5:30", 5000);
    note_order(2, "OUT 0:5:31", 5000);
    note_order(3, "OUT 0:5:32", 5000);
    note_order(4, "OUT 0:5:33", 5000);
    drop_order(4);
    demand(next_order(5) == 4 && next_order(6) == 1, "the numbers don't go on, or another device has them");
    end_turn();
    begin_turn();
    note_end(1, "settled", "ACK");
    note_event("RAW 0 0 26 12345640", false);
    say("event RAW 0 0 26 12345640\n");
    demand(told[0] == '\0', "a turn is told before it stands on the disk");
    end_turn();
    demand(strcmp(told, "settled ACK 1 OUT 0:5:30\nevent RAW 0 0 26 12345640\n") == 0, "a turn isn't told");
    told[0] = '\0';
    begin_turn();
    note_end(2, "refused", "why");
    end_turn();
    demand(strcmp(told, "refused (why) 2 OUT 0:5:31\n") == 0, "a refusal isn't told");
    note_end(3, "back", NULL); /* the program ends before its turn does */
}

static void reads_ledger(const char *path)
{
    opens(path);
    open_ledger(5, 0);
    end_turn();
    demand(strcmp(told, "again: refused (why) 2 OUT 0:5:31\ndoubt 3 OUT 0:5:32\n") == 0, "what may not have been told, or is in doubt, is told otherwise");
    demand(any_doubt() && is_last_event("RAW 0 0 26 12345640") && !is_last_event("RAW 0 0 26 65432180"), "the last event is another one");
    heard_all();
    demand(number_in_store(0, "SELECT count(*) FROM orders WHERE state = 'doubt'", "") == 0, "what is in doubt is noted before its user has heard of it");
    begin_turn();
    demand(next_order(5) == 4 && !any_doubt(), "the numbers don't go on over a start");
    note_order(4, "OUT 0:5:33", 5000);
    end_turn();
    demand(number_in_store(0, "SELECT count(*) FROM orders WHERE state = 'doubt' AND told = 1", "") == 1, "what is in doubt isn't noted");
}

/* So many ended orders and handled events stay, and all that are open or not handled. */
static void retains(const char *path)
{
    opens(path);
    open_ledger(5, 3);
    end_turn();
    for (int i = 0; i < 20; i++) {
        begin_turn();
        note_order(next_order(5), "OUT 0:5:30", 5000);
        note_end(next_order(5) - 1, "settled", "ACK");
        note_event("RAW 0 0 26 12345640", false);
        say("told\n");
        end_turn();
        told[0] = '\0';
    }
    demand(number_in_store(0, "SELECT max(number) FROM orders", "") == 24, "the numbers begin anew");
    demand(number_in_store(0, "SELECT count(*) FROM orders WHERE state <> 'open'", "") <= 4, "ended orders stay");
    demand(number_in_store(0, "SELECT number FROM orders WHERE state = 'open'", "") == 4, "an open order is gone");
    demand(number_in_store(0, "SELECT count(*) FROM events", "") <= 4, "handled events stay");
}

/* The same file with the program of a later schema, and back. */
static int is_upgraded(void)
{
#ifdef LATER
    demand(runs(opens, "ledger") == 0 && runs(opens, "ledger") == 0, "a store isn't upgraded");
#else
    is_refused(opens, "ledger", "ledger is of version 2, and this program knows 1");
#endif
    return faults == 0 ? 0 : 1;
}

int main(int count, char **words)
{
    if (count < 2 || chdir(words[1]) != 0) {
        stop(BAD_WORDS, "usage: store FOLDER [upgraded]");
    }
    if (count > 2) {
        return is_upgraded();
    }
    tells_apart();
    demand(runs(keeps_stands, "stands") == 0 && runs(reads_stands, "stands") == 0, "stands");
    others_are_refused();
    demand(runs(opens_twice, "made") == 0, "twice");
    demand(runs(keeps_place, "place") == 0 && runs(keeps_place, "place") == 0, "place");
    demand(runs(writes_ledger, "ledger") == 0 && runs(reads_ledger, "ledger") == 0 && runs(retains, "ledger") == 0, "ledger");
    return faults == 0 ? 0 : 1;
}
