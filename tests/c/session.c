/* A panel and two readers in one program, joined in memory: a whole session, with answers that are lost or cut in two, a reader that moves, is busy and
 * restarts, one that falls silent, and each refusal. What both ends tell is compared with the record that it must be. As the machines are freed, commands
 * wait for three devices, of which one holds the line, and events at both readers.
 *
 * With a heap over malloc it is run once more for each block that it asks for, and that block is refused: the call answers that there is no
 * memory, has changed nothing, and is done when it is called again; the record is the same, and no block is held in the end. Each call takes as many
 * bytes as the header says. */
#include <stdio.h>
#include <stdlib.h>
#include <string.h>

#include "counted.h"
#include "line.h"
#include "panels.h"

#define PANEL_BYTES 5232 /* of a panel, where its bus has 5,160 of them */

static size_t lacks; /* how often a call told that there is no memory */
static size_t made;  /* how many blocks were asked for when the last machine was made */

/* One of the two statuses of a lack of memory. */
static bool is_lack(osdp_status status)
{
    bool is = status == OSDP_PANEL_NO_MEMORY || status == OSDP_DEVICE_NO_MEMORY;
    lacks += is;
    return is;
}

/* How many bytes a call has to take that takes so many of malloc: none over the pool. */
static size_t counted(size_t bytes)
{
    return blocks_asked > 0 ? bytes : 0;
}

static void submit(size_t entry, const char *text)
{
    demand(gives(&panel, entry, text) == OSDP_OK);
}

/* A panel with room for four commands for each of its devices. */
static void new_panel(void)
{
    struct osdp_panel_config config;
    size_t entry = 99, before = bytes_given;
    osdp_panel_defaults(&config);
    demand(osdp_panel_add(&panel, 5, 0, &entry) == OSDP_NO_MACHINE && entry == 99);
    config.sends = 0;
    demand(osdp_panel_new(&panel, &config) == OSDP_PANEL_OUT_OF_RANGE);
    config.sends = 3;
    config.capacity = 4;
    osdp_status status = osdp_panel_new(&panel, &config);
    if (is_lack(status)) {
        demand(osdp_panel_free(&panel) == OSDP_NO_MACHINE);
        before = bytes_given;
        status = osdp_panel_new(&panel, &config);
    }
    demand(status == OSDP_OK && bytes_given - before == counted(PANEL_BYTES + 16 + 1448 + 2 * 16 * 8 + 16 * 40)); /* the panel, its clock, the burst; two lists of sixteen, and one for their orders */
    demand(osdp_panel_new(&panel, &config) == OSDP_IN_USE);
    demand(osdp_panel_add(&panel, 127, 0, &entry) == OSDP_PANEL_OUT_OF_RANGE);
}

static void add_device(size_t i)
{
    uint32_t address = 5 + (uint32_t)i;
    size_t entry = 99, before = bytes_given;
    osdp_status status = osdp_panel_add(&panel, address, 0, &entry);
    if (is_lack(status)) {
        demand(entry == 99 && osdp_panel_begin(&panel, i, 0) == OSDP_NO_ENTRY);
        before = bytes_given;
        status = osdp_panel_add(&panel, address, 0, &entry);
    }
    demand(status == OSDP_OK && entry == i && bytes_given - before == counted(168 + 1456 + 5 * (1435 + 8))); /* a last moment for each place too */
    demand(osdp_panel_add(&panel, address, 0, &entry) == OSDP_ADDRESS_TAKEN && entry == i);
}

/* A reader with room for two events. */
static void new_reader(int i, uint32_t address)
{
    struct osdp_device_config config = { .capacity = 2, .gap = 20, .product = { .vendor = { 'S', 'I', 'M' }, .model = 1, .version = 2 } };
    const uint8_t capabilities[] = { 2, 1, 8, 8, 1, 0 }, states[] = { 0, 1 };
    size_t count = 9, before = bytes_given;
    demand(osdp_device_waiting(&readers[i], &count) == OSDP_NO_MACHINE && count == 9);
    config.address = 127;
    demand(osdp_device_new(&readers[i], &config, capabilities, 6) == OSDP_DEVICE_OUT_OF_RANGE);
    config.address = address;
    config.serial = 70000 + (uint32_t)i;
    demand(osdp_device_new(&readers[i], &config, capabilities, 5) == OSDP_BAD_LENGTH);
    osdp_status status = osdp_device_new(&readers[i], &config, capabilities, 6);
    if (is_lack(status)) {
        demand(osdp_device_free(&readers[i]) == OSDP_NO_MACHINE);
        before = bytes_given;
        status = osdp_device_new(&readers[i], &config, capabilities, 6);
    }
    demand(status == OSDP_OK && bytes_given - before == counted(11000 + 6 + 2 * 1443));
    demand(osdp_device_new(&readers[i], &config, capabilities, 6) == OSDP_IN_USE);
    demand(osdp_device_set_outputs(&readers[i], states, 2) == OSDP_OK);
    demand(osdp_device_set_inputs(&readers[i], states, 2) == OSDP_OK);
    demand(osdp_device_set_readers(&readers[i], states, 1) == OSDP_OK);
    demand(osdp_device_set_local(&readers[i], 1, 0) == OSDP_OK);
}

static void new_machines(void)
{
    clear_line();
    lacks = 0;
    new_panel();
    for (int i = 0; i < READERS; i++) {
        add_device((size_t)i);
        new_reader(i, 5 + (uint32_t)i);
    }
    made = blocks_asked;
}

/* What is refused, and changes nothing. */
static void refusals(void)
{
    const uint8_t out[] = { 0, 2, 0, 0 }, keys[] = { 0, 2, '4' };
    demand(gives_data(&panel, 0, 0x01, out, 4) == OSDP_UNKNOWN_CODE);
    demand(gives_data(&panel, 0, 0x68, out, 3) == OSDP_BAD_LENGTH);
    demand(gives_data(&panel, 7, 0x68, out, 4) == OSDP_NO_ENTRY);
    demand(gives_data(&panel, 0, 0x60, out, 0) == OSDP_POLL_SUBMITTED);
    demand(gives(&panel, 0, "OUT 0:2") == OSDP_BAD_TEXT);
    demand(gives(&panel, 0, "COMSET 6 9600") == OSDP_ADDRESS_TAKEN);
    demand(gives(&panel, 0, "COMSET 127 9600") == OSDP_ADDRESS_OUT_OF_RANGE);
    demand(gives(&panel, 7, "COMSET 127 9600") == OSDP_NO_ENTRY);
    demand(osdp_panel_begin(&panel, 7, now) == OSDP_NO_ENTRY);
    demand(osdp_panel_retarget(&panel, 0, 6) == OSDP_ADDRESS_TAKEN);
    demand(osdp_panel_retarget(&panel, 0, 127) == OSDP_PANEL_OUT_OF_RANGE);
    demand(osdp_device_event(&readers[0], 0x40, keys, 0) == OSDP_NO_EVENT);
    demand(osdp_device_event(&readers[0], 0x53, keys, 3) == OSDP_BAD_COUNT);
    demand(osdp_device_event_text(&readers[0], "POLL", 4) == OSDP_BAD_TEXT);
}

/* A POLL with a security block is answered NAK 5, and nothing comes of it. Both packets are worked by hand. */
static void secured(void)
{
    static struct osdp_answer answer;
    const uint8_t poll[] = { 0x53, 0x05, 0x09, 0x00, 0x08, 0x02, 0x15, 0x60, 0x20 };
    const uint8_t nak[] = { 0x53, 0x85, 0x08, 0x00, 0x00, 0x41, 0x05, 0xDA };
    size_t taken = 0;
    demand(osdp_device_step(&readers[0], poll, sizeof poll, now, &taken, &answer) == OSDP_OK && taken == sizeof poll);
    demand(answer.kind == OSDP_SAID_SECURED && answer.order == OSDP_ORDER_NONE && answer.moved == 0);
    demand(answer.burst.length == sizeof nak && memcmp(answer.burst.bytes, nak, sizeof nak) == 0);
    demand(osdp_device_step(&readers[0], poll, 0, now, &taken, &answer) == OSDP_OK && answer.kind == OSDP_SAID_NONE);
}

/* An OUT of an output that isn't there is refused with number 0 too: NAK 9. Both packets are worked by hand. */
static void refused_at_zero(void)
{
    static struct osdp_answer answer;
    const uint8_t out[] = { 0x53, 0x05, 0x0B, 0x00, 0x00, 0x68, 0x09, 0x02, 0x00, 0x00, 0x2A };
    const uint8_t nak[] = { 0x53, 0x85, 0x08, 0x00, 0x00, 0x41, 0x09, 0xD6 };
    size_t taken = 0;
    demand(osdp_device_step(&readers[0], out, sizeof out, now, &taken, &answer) == OSDP_OK && taken == sizeof out);
    demand(answer.kind == OSDP_SAID_PENDING && answer.order == OSDP_ORDER_PENDING && answer.burst.length == 0);
    demand(osdp_device_step(&readers[0], out, 0, now, &taken, &answer) == OSDP_OK);
    demand(answer.kind == OSDP_SAID_ZERO && answer.order == OSDP_ORDER_REFUSED && answer.moved == 0);
    demand(answer.command.code == 0x68 && answer.command.length == 4 && memcmp(answer.command.data, out + 6, 4) == 0);
    demand(answer.burst.length == sizeof nak && memcmp(answer.burst.bytes, nak, sizeof nak) == 0);
    demand(osdp_device_step(&readers[0], out, 0, now, &taken, &answer) == OSDP_OK && answer.kind == OSDP_SAID_NONE);
}

/* What a device's program sets is said to the command before which the device has stopped, once, and to no other: an MFG is answered by the maker's own
 * reply, the next one by NAK 9, and where nothing is asked nothing is set. The packets are worked by hand. */
static void decided(void)
{
    static struct osdp_answer answer;
    static struct osdp_message pending;
    const uint8_t mfg[] = { 0x53, 0x05, 0x0B, 0x00, 0x00, 0x80, 0x01, 0x02, 0x03, 0x04, 0x13 };
    const uint8_t told[] = { 0x53, 0x85, 0x0B, 0x00, 0x00, 0x90, 0x01, 0x02, 0x03, 0x09, 0x7E };
    const uint8_t nak[] = { 0x53, 0x85, 0x08, 0x00, 0x00, 0x41, 0x09, 0xD6 };
    const uint8_t vendor[] = { 1, 2, 3 }, own[] = { 9 };
    size_t taken = 0;
    demand(osdp_device_answer_done(&readers[0]) == OSDP_NOT_ASKED);
    demand(osdp_device_pending(&readers[0], &pending) == OSDP_OK && pending.present == 0);
    demand(osdp_device_step(&readers[0], mfg, sizeof mfg, now, &taken, &answer) == OSDP_OK && taken == sizeof mfg);
    demand(answer.kind == OSDP_SAID_PENDING && answer.command.code == OSDP_MFG && answer.command.length == 4);
    demand(osdp_device_pending(&readers[0], &pending) == OSDP_OK && pending.code == OSDP_MFG && pending.length == 4);
    demand(osdp_device_answer_done(&readers[0]) == OSDP_OK);
    demand(osdp_device_answer_maker(&readers[0], vendor, own, 1) == OSDP_OK); /* in place of what was set before */
    demand(osdp_device_step(&readers[0], mfg, 0, now, &taken, &answer) == OSDP_OK && answer.order == OSDP_ORDER_AGAIN);
    demand(answer.burst.length == sizeof told && memcmp(answer.burst.bytes, told, sizeof told) == 0);
    demand(osdp_device_answer_done(&readers[0]) == OSDP_NOT_ASKED);
    demand(osdp_device_step(&readers[0], mfg, sizeof mfg, now, &taken, &answer) == OSDP_OK && answer.kind == OSDP_SAID_PENDING);
    demand(osdp_device_step(&readers[0], mfg, 0, now, &taken, &answer) == OSDP_OK && answer.order == OSDP_ORDER_REFUSED);
    demand(answer.burst.length == sizeof nak && memcmp(answer.burst.bytes, nak, sizeof nak) == 0);
}

static void queue_events(void)
{
    const uint8_t keys[] = { 0, 1, '4' };
    const char *card = "RAW 0 1 26 12345640";
    size_t count = 0;
    demand(osdp_device_event(&readers[0], 0x53, keys, 3) == OSDP_OK);
    demand(osdp_device_event_text(&readers[0], card, strlen(card)) == OSDP_OK);
    demand(osdp_device_event(&readers[0], 0x53, keys, 3) == OSDP_EVENTS_FULL);
    demand(osdp_device_waiting(&readers[0], &count) == OSDP_OK && count == 2);
}

/* Both sessions open, the commands are settled, and the events told. */
static void settle(void)
{
    const uint8_t out[] = { 0, 2, 0, 0 };
    uint32_t sends = 9;
    for (size_t i = 0; i < READERS; i++) {
        demand(osdp_panel_begin(&panel, i, now) == OSDP_OK);
        demand(osdp_panel_begin(&panel, i, now) == OSDP_NOT_CLOSED);
    }
    demand(osdp_panel_tick(&panel, 399, &sends) == OSDP_OK && sends == 0);
    demand(gives_data(&panel, 0, 0x68, out, 4) == OSDP_OK);
    submit(0, "ISTAT");
    submit(0, "OUT  9:2:0");
    submit(0, "LSTAT");
    demand(gives_data(&panel, 0, 0x68, out, 4) == OSDP_COMMANDS_FULL);
    submit(1, "BUZ 0 2 5 5 1");
    submit(1, "CAP 0");
    submit(1, "COMSET 9 19200");
    run(10000);
    demand(osdp_panel_begin(&panel, 1, now) == OSDP_OK);
    submit(1, "RSTAT");
    run(20000);
}

/* The first reader falls silent: what waits for it is taken back, and its entry goes to another address. */
static void fall_silent(void)
{
    struct osdp_message command;
    submit(0, "OUT 1:2:0");
    is_silent[0] = true;
    run(30000);
    submit(0, "OUT 1:1:0");
    demand(osdp_panel_withdraw(&panel, 0, &command) == OSDP_OK && command.present == 1 && command.code == 0x68);
    demand(command.length == 4 && memcmp(command.data, "\1\1\0\0", 4) == 0);
    demand(osdp_panel_withdraw(&panel, 0, &command) == OSDP_OK && command.present == 0 && command.length == 0);
    demand(osdp_panel_withdraw(&panel, 7, &command) == OSDP_NO_ENTRY);
    demand(osdp_panel_retarget(&panel, 0, 9) == OSDP_ADDRESS_TAKEN);
    demand(osdp_panel_retarget(&panel, 0, 20) == OSDP_OK);
}

/* The second reader is busy for less than 21 answers, after which its session would be lost, and then for more. */
static void be_busy(void)
{
    demand(osdp_device_set_busy(&readers[1], 1) == OSDP_OK);
    submit(1, "LSTAT");
    run(30500);
    demand(osdp_device_set_busy(&readers[1], 0) == OSDP_OK);
    run(32000);
    demand(osdp_device_set_busy(&readers[1], 1) == OSDP_OK);
    submit(1, "ISTAT");
    run(40000);
    demand(osdp_device_set_busy(&readers[1], 0) == OSDP_OK);
}

/* Its session opens again, and then it restarts: it expects the number 0, and the panel goes on with another. */
static void restart(void)
{
    demand(osdp_panel_begin(&panel, 1, now) == OSDP_OK);
    run(50000);
    demand(blocks_asked == made); /* no call but those that make a machine or add a device takes memory */
    demand(osdp_device_free(&readers[1]) == OSDP_OK);
    new_reader(1, 9);
    made = blocks_asked;
    run(60000);
    demand(blocks_asked == made);
}

/* After each command a POLL asks for events, so the two that wait are told after the first two commands. */
static const char *const must_be_told[READERS] = {
    "opened PDID 53494D 1 2 70000 0 0 0\n"
    "settled OUT 0:2:0 ACK\n"
    "event KEYPAD 0 34\n"
    "settled ISTAT ISTATR 0001\n"
    "event RAW 0 1 26 12345640\n"
    "settled OUT 9:2:0 NAK 9\n"
    "settled LSTAT LSTATR 1 0\n"
    "lost 1 OUT 1:2:0\n",
    "opened PDID 53494D 1 2 70001 0 0 0\n"
    "settled BUZ 0 2 5 5 1 ACK\n"
    "settled CAP 0 PDCAP 2:1:8 8:1:0\n"
    "moved COMSET 9 19200 COM 9 19200\n"
    "opened PDID 53494D 1 2 70001 0 0 0\n"
    "settled RSTAT RSTATR 00\n"
    "settled LSTAT LSTATR 1 0\n"
    "lost 2 ISTAT\n"
    "opened PDID 53494D 1 2 70001 0 0 0\n"
    "lost 3\n",
};

static const char *const must_be_done[READERS] = {
    "again ID 0\n"
    "once OUT 0:2:0\n"
    "once ISTAT\n"
    "refused OUT 9:2:0\n"
    "once LSTAT\n",
    "again ID 0\n"
    "once BUZ 0 2 5 5 1\n"
    "once CAP 0\n"
    "once COMSET 9 19200\n"
    "moved 9 19200\n"
    "again ID 0\n"
    "once RSTAT\n"
    "busy\n"
    "once LSTAT\n"
    "busy\n"
    "again ID 0\n"
    "wrong\n",
};

static void compare(const char *what, int i, const struct record *record, const char *wanted)
{
    if (strcmp(record->text, wanted) != 0) {
        printf("session.c: %s %d:\n%sand not\n%s", what, i, record->text, wanted);
        exit(1);
    }
}

/* A third device is added, which has no reader; commands wait for each device, and events at each reader. So all of these are there as the machines are
 * freed. */
static void leave_waiting(void)
{
    const char *card = "RAW 0 1 26 12345640";
    struct osdp_burst burst;
    size_t count = 0;
    add_device(READERS);
    for (size_t i = 0; i <= READERS; i++) {
        submit(i, "OUT 1:2:0");
        submit(i, "BUZ 0 2 5 5 1");
    }
    demand(osdp_panel_begin(&panel, READERS, now) == OSDP_OK);
    demand(ticks(&panel, now + 400, &burst) == OSDP_OK && burst.length == 9 && burst.bytes[1] == 5 + READERS);
    for (int i = 0; i < READERS; i++) {
        demand(osdp_device_event_text(&readers[i], card, strlen(card)) == OSDP_OK);
        demand(osdp_device_event_text(&readers[i], card, strlen(card)) == OSDP_OK);
        demand(osdp_device_waiting(&readers[i], &count) == OSDP_OK && count == 2);
    }
}

/* The records are compared, and all is given back. */
static void end(void)
{
    for (int i = 0; i < READERS; i++) {
        compare("told of", i, &told[i], must_be_told[i]);
        compare("done by", i, &done[i], must_be_done[i]);
        demand(osdp_device_free(&readers[i]) == OSDP_OK && readers[i].device == NULL && readers[i].device_live == 0);
        demand(osdp_device_free(&readers[i]) == OSDP_NO_MACHINE);
    }
    demand(osdp_panel_free(&panel) == OSDP_OK && panel.panel == NULL && panel.panel_live == 0);
    demand(osdp_panel_free(&panel) == OSDP_NO_MACHINE);
    demand(blocks_held == 0);
}

static void session(void)
{
    new_machines();
    refusals();
    secured();
    refused_at_zero();
    decided();
    queue_events();
    settle();
    fall_silent();
    be_busy();
    restart();
    leave_waiting();
    end();
}

int main(void)
{
    size_t count;
    session();
    demand(lacks == 0);
    count = blocks_asked;
    for (size_t refused = 1; refused <= count; refused++) {
        blocks_asked = 0;
        block_refused = refused;
        session();
        demand(lacks == 1 && blocks_asked > count);
    }
    printf("session: %zu blocks, each refused once\n", count);
    return 0;
}
