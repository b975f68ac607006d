/* A port in simulated time for examples/c/door_panel.c, which runs on it as it stands: `repeated CARDS RATE`, in place of a port's name how many cards are read.
 *
 * At the other end of the line stands a device. In each direction 5% of all bursts are lost, the last byte of 5% is changed, and 5% come twice, by a seeded
 * generator. Two cards that open the door are read in turn, each eighth one once more, and the next one once the last was told. An event is to be marked exactly
 * where it is the first of its session and has the bytes of the last one before it. An order is an OUT that goes out and isn't a repeat. A marked card makes none,
 * and each other one makes one before the next event. Status 1 where that is otherwise, where a card is missing, or where nothing was tried: no card was told again,
 * or the same card wasn't read twice within a session. */
#include "port.h"

#include <stdio.h>
#include <stdlib.h>
#include <string.h>

#include "words.h"

enum { DELAY = 10, BETWEEN = 200, HELD = 64, OUT = 0, IN = 1 };

/* A burst on its way. */
static struct coming {
    uint64_t at;
    int way;
    struct osdp_burst burst;
} coming[HELD];
static size_t held;

static uint64_t now, next_card = 500, chances[2] = { 0x9E3779B97F4A7C15u, 0xD1B54A32D192ED03u };
static osdp_device device;
static struct osdp_burst last;       /* that the panel has sent */
static struct osdp_message last_card; /* that the panel has told */
static bool is_first = true, may_order; /* whether no event of this session was told; whether the event that was told last is to make an order */
static unsigned cards, read_cards, told, again, same, orders, second, missing, marks, unlocks, lost, orders_of_event;

/* The next number of a direction, from 0 to 99. */
static unsigned chance(int way)
{
    uint64_t *state = &chances[way];
    *state ^= *state << 13;
    *state ^= *state >> 7;
    *state ^= *state << 17;
    return (unsigned)(*state % 100);
}

static void put(int way, const struct osdp_burst *burst, uint64_t at)
{
    if (held == HELD) {
        stop(FAILED, "repeated: too many bursts on the way");
    }
    coming[held++] = (struct coming){ at, way, *burst };
}

/* What becomes of a burst: it is lost, damaged, comes twice, or comes as it is. */
static void carry(int way, const struct osdp_burst *burst)
{
    struct osdp_burst heard = *burst;
    unsigned found = chance(way);
    if (burst->length == 0 || found < 5) {
        return;
    }
    if (found < 10) {
        heard.bytes[heard.length - 1] ^= 0x5A;
    }
    put(way, &heard, now + DELAY);
    if (found >= 10 && found < 15) {
        put(way, &heard, now + DELAY + 1);
    }
}

static void take_answer(const struct osdp_answer *answer)
{
    unlocks += answer->order == OSDP_ORDER_ONCE && answer->command.code == OSDP_OUT;
    carry(IN, &answer->burst);
}

/* Hands bytes to the device, until nothing is said to them. */
static void device_hears(const uint8_t *bytes, size_t length)
{
    static struct osdp_answer answer;
    size_t at = 0, taken;
    while (osdp_device_step(&device, bytes + at, length - at, now, &taken, &answer) == OSDP_OK) {
        at += taken;
        take_answer(&answer);
        if (at == length && answer.kind == OSDP_SAID_NONE) {
            return;
        }
    }
}

/* The card that is read as the Nth. */
static const uint8_t *card_of(unsigned at)
{
    static const uint8_t known[2][8] = { { 0, 0, 26, 0, 0x12, 0x34, 0x56, 0x40 }, { 0, 0, 26, 0, 0x65, 0x43, 0x21, 0x80 } };
    return known[(at - at / 8) % 2];
}

static void read_card(void)
{
    if (osdp_device_event(&device, OSDP_RAW, card_of(read_cards), 8) != OSDP_OK) {
        stop(FAILED, "repeated: a card isn't taken");
    }
    read_cards++;
}

/* The event that was told last has made its orders: as many as it may. */
static void has_ordered(void)
{
    missing += may_order && orders_of_event == 0;
    second += orders_of_event > may_order;
    may_order = false;
    orders_of_event = 0;
}

/* All cards were read and told, or too much time has passed. */
static _Noreturn void ends(void)
{
    has_ordered();
    bool holds = told == cards && second + missing + marks == 0 && again > 1 && same > 1;
    printf("repeated: %u cards told of %u, %u of them again, %u the same in turn, %u orders, %u second orders, %u missing orders, %u wrong marks, %u unlocks, %u sessions lost\n",
           told, cards, again, same, orders, second, missing, marks, unlocks, lost);
    osdp_device_free(&device);
    exit(holds ? 0 : 1);
}

/* Whether an event that the panel has told is one that it has told before: the device still holds it before the card that was read last, or that one was told. */
static bool is_told_again(void)
{
    osdp_size waiting = 0;
    (void)osdp_device_waiting(&device, &waiting);
    return told == read_cards || waiting > 1;
}

/* What the panel tells. */
void __wrap_tell_report(const struct osdp_report *report);
void __wrap_tell_report(const struct osdp_report *report)
{
    lost += report->kind == OSDP_REPORT_LOST;
    is_first = is_first || report->kind == OSDP_REPORT_OPENED;
    if (report->kind != OSDP_REPORT_EVENT) {
        return;
    }
    bool is_equal = last_card.code == report->reply.code && last_card.length == report->reply.length && memcmp(last_card.data, report->reply.data, last_card.length) == 0;
    bool is_marked = is_first && is_equal, is_again = is_told_again();
    has_ordered();
    marks += report->detail != (is_marked ? OSDP_EVENT_MAYBE_AGAIN : 0u);
    may_order = !is_marked;
    is_first = false;
    last_card = report->reply;
    again += is_again;
    same += is_equal && !is_marked;
    if (!is_again) {
        told++;
        next_card = now + BETWEEN;
    }
}

uint64_t moment(void)
{
    return now;
}

int open_port(const char *path, uint32_t rate)
{
    const struct osdp_device_config config = { .address = 5, .capacity = 64, .gap = 20, .serial = 1, .product.vendor = { 'S', 'I', 'M' } };
    const uint8_t outputs[2] = { 0, 0 };
    (void)rate;
    cards = (unsigned)strtoul(path, NULL, 10);
    if (osdp_device_new(&device, &config, outputs, 0) != OSDP_OK || osdp_device_set_outputs(&device, outputs, 2) != OSDP_OK) {
        stop(OUT_OF_MEMORY, "repeated: no device");
    }
    return 0;
}

void before_end(void (*tells)(const char *cause))
{
    (void)tells;
}

bool has_rate(uint32_t rate)
{
    return rate != 0;
}

bool set_rate(int port, uint32_t rate)
{
    (void)port;
    return has_rate(rate);
}

void demand_rate(int port, uint32_t rate)
{
    (void)set_rate(port, rate);
}

bool was_stopped(void)
{
    return false;
}

void hear_all(void)
{
}

uint32_t late_by(void)
{
    return 5000;
}

void set_late(uint32_t milliseconds)
{
    (void)milliseconds;
}

bool write_all(int port, const struct osdp_burst *burst, uint64_t since)
{
    (void)port;
    (void)since;
    if (burst->length == 0) {
        return true;
    }
    if (burst->bytes[5] == OSDP_OUT && (last.length != burst->length || memcmp(last.bytes, burst->bytes, burst->length) != 0)) {
        orders++;
        orders_of_event++;
    }
    last = *burst;
    carry(OUT, burst);
    return true;
}

/* The burst that comes first; NULL where none comes up to a moment. */
static struct coming *first_until(uint64_t until)
{
    struct coming *found = NULL;
    for (size_t i = 0; i < held; i++) {
        if (coming[i].at <= until && (found == NULL || coming[i].at < found->at)) {
            found = &coming[i];
        }
    }
    return found;
}

/* How many bytes come to the panel within a wait. */
static size_t next_bytes(uint64_t wait, uint8_t *bytes, size_t room)
{
    uint64_t until = wait > BETWEEN ? now + BETWEEN : now + wait;
    for (;;) {
        struct coming *found = first_until(until), burst;
        bool is_next = read_cards == told && next_card <= (found == NULL ? until : found->at);
        if ((is_next && told == cards) || now > (uint64_t)cards * 5000) {
            ends();
        }
        if (is_next) {
            now = next_card > now ? next_card : now;
            next_card = UINT64_MAX;
            read_card();
            continue;
        }
        if (found == NULL) {
            now = until;
            return 0;
        }
        burst = *found;
        *found = coming[--held];
        now = burst.at > now ? burst.at : now;
        if (burst.way == OUT) {
            static struct osdp_answer answer;
            if (osdp_device_tick(&device, now, &answer) == OSDP_OK) {
                take_answer(&answer);
            }
            device_hears(burst.burst.bytes, burst.burst.length);
            continue;
        }
        if (burst.burst.length > room) {
            stop(FAILED, "repeated: a burst is too long");
        }
        memcpy(bytes, burst.burst.bytes, burst.burst.length);
        return burst.burst.length;
    }
}

size_t read_port(int port, struct lines *lines, uint64_t wait, uint8_t *bytes, size_t room, uint64_t *at)
{
    size_t length = next_bytes(wait, bytes, room);
    (void)port;
    (void)lines;
    *at = now;
    return length;
}

const char *next_line(struct lines *lines)
{
    (void)lines;
    return NULL;
}

void open_trace(const char *path)
{
    (void)path;
}
