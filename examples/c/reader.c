/* A reader on a serial port: `reader --help` prints what it takes and says. Words and settings are those of examples/reader.py. */
#include <stdio.h>
#include <string.h>

#include "devices.h"
#include "kept.h"
#include "port.h"
#include "words.h"

#define TURN 10       /* how long a read waits, in milliseconds */
#define TOO_OLD 10000 /* how long an event may wait while no panel is there, in milliseconds */
#define OUTPUTS 8

static const char usage[] =
    "reader [--trace FILE] [--keep FILE [--new]] [--late MS] PORT RATE [SETTING VALUE]..\n"
    "\n"
    "Each line of standard input is a call: `event KEYPAD 0 31`, `busy on`, `inputs 0100`, `readers 00`, `local 0 0`.\n"
    "`inputs` alone tells the panel nothing; `event ISTATR 0100` does.\n"
    "Each line of standard output is such a line, or what the reader tells. `taken` and a command is for the device to do,\n"
    "once: an OUT is done here. `refused` and a command was answered by a NAK: nothing of it is done. `again` and a command\n"
    "came with number 0, and may come once more: nothing of it is done here. A panel of osdp sends nothing but ID with it.\n"
    "`moved` is a new address and rate. A COMSET to a rate that the port hasn't is told `refused` and `no rate`: it isn't\n"
    "answered, and the reader begins anew where it was. The store of `--keep` keeps them, before the panel is told, and a\n"
    "reader that starts again is there, whatever its words say. `--new` makes the store, where there is none. Without a store\n"
    "the reader is where its words say, and the panel doesn't find it. `not kept` tells that the store couldn't be written.\n"
    "`offline` and `online` tell that the panel went and came. Events that have waited for more than 10 s while it was gone\n"
    "leave: `withdrawn`, or `in doubt` where the panel may have the event. Where the program was stopped for more than\n"
    "`--late`, 100 to 60000 milliseconds, and 5000 where it isn't named, no order is done that came meanwhile. A card, or\n"
    "keys, that came then is told `too old`, and to no panel. An answer that is so late isn't sent.\n"
    "The reader has eight outputs, which an OUT switches; the time of an output is counted here.\n"
    "The file of `--trace` gets each burst, both ways, as `osdp show` reads it.\n"
    "\n"
    "Settings: address, vendor HEX, model, version, serial, firmware A:B:C, cap F:L:N for each capability, room, and gap in\n"
    "milliseconds.\n"
    "Status: 2 bad words or settings, 3 the port or standard output fails, 4 out of memory, 130 at Ctrl-C. Nothing is said\n"
    "at Ctrl-C and where nobody reads standard output any more, else one line that says why.\n";

/* An output: whether it is on for good, and whether it is on for a time, which counts until a moment. */
struct output {
    bool for_good, for_a_time;
    uint64_t until;
};

static struct reader_settings settings = { .config = { .capacity = 64, .gap = 20 } }; /* the address is where the reader is */
static struct osdp_device reader;
static int port;
static struct kept_words kept; /* the store that keeps address and rate, if one is named */
static struct output outputs[OUTPUTS];

/* Tells the reader which outputs are on, by which it answers OSTAT. */
static void tell_outputs(uint64_t now)
{
    uint8_t states[OUTPUTS];
    for (size_t i = 0; i < OUTPUTS; i++) {
        states[i] = now < outputs[i].until ? outputs[i].for_a_time : outputs[i].for_good;
    }
    (void)osdp_device_set_outputs(&reader, states, OUTPUTS);
}

/* Does what one record of an OUT says. Controls that aren't named here ask for nothing, though the reader confirms them too. */
static void switch_output(const struct osdp_output *record, uint64_t now)
{
    struct output *output = &outputs[record->output];
    uint8_t control = record->control;
    if (control == OSDP_OUTPUT_ON_FOR_A_TIME || control == OSDP_OUTPUT_OFF_FOR_A_TIME) {
        output->for_a_time = control == OSDP_OUTPUT_ON_FOR_A_TIME;
        output->until = now + 100 * (uint64_t)record->timer;
    } else if (control == OSDP_OUTPUT_ON || control == OSDP_OUTPUT_OFF || control == OSDP_OUTPUT_ON_AFTER || control == OSDP_OUTPUT_OFF_AFTER) {
        output->for_good = control == OSDP_OUTPUT_ON || control == OSDP_OUTPUT_ON_AFTER;
        output->until = control == OSDP_OUTPUT_ON || control == OSDP_OUTPUT_OFF ? 0 : output->until; /* else a time that runs goes on */
    }
}

/* Does what an OUT says. One of an output that isn't here was refused. */
static void switch_outputs(const struct osdp_message *out, uint64_t now)
{
    struct osdp_output record;
    for (size_t i = 0; osdp_output_of(out, i, &record) == OSDP_OK && record.output < OUTPUTS; i++) {
        switch_output(&record, now);
    }
    tell_outputs(now);
}

/* Makes the reader where it is. */
static void make_reader(void)
{
    osdp_status status = osdp_device_new(&reader, &settings.config, settings.capabilities, settings.length);
    if (status == OSDP_DEVICE_NO_MEMORY) {
        stop(OUT_OF_MEMORY, "out of memory");
    }
    if (status != OSDP_OK) {
        stop(BAD_WORDS, "a setting is out of its range");
    }
}

/* Makes the reader anew where it was. What `inputs`, `readers`, `local` and `busy` have set is gone. */
static void begin_anew(uint64_t now)
{
    make_reader();
    (void)osdp_device_set_moment(&reader, now);
    tell_outputs(now);
}

/* Does what the reader is to do, and then sends what it says: so an order that is answered was done, also where power is lost in between. Where the reader
 * is from now on is kept before the panel is told. */
static void act(const struct osdp_answer *answer, uint64_t now)
{
    static const char *const names[] = { "", "taken", "again", "refused" };
    if (answer->moved && !has_rate(answer->baud_rate)) {
        tell("refused %s\n", command_text(&answer->command));
    }
    if (refuses_rate(&reader, answer)) {
        begin_anew(now);
        return;
    }
    if (answer->order != OSDP_ORDER_NONE && answer->order != OSDP_ORDER_PENDING) { /* what is pending is answered as it was set beforehand */
        tell("%s %s\n", names[answer->order & 3], command_text(&answer->command));
    }
    if (answer->order == OSDP_ORDER_ONCE && answer->command.code == OSDP_OUT) {
        switch_outputs(&answer->command, now);
    }
    send_answer(port, &settings.config, answer, now);
    if (answer->moved) {
        tell("moved %u %u\n", (unsigned)answer->address, (unsigned)answer->baud_rate);
    }
}

/* Hands bytes to the reader, until nothing is said to them. */
static void hear(const uint8_t *bytes, size_t length, uint64_t now)
{
    static struct osdp_answer answer;
    osdp_size at = 0, taken;
    while (osdp_device_step(&reader, bytes + at, length - at, now, &taken, &answer) == OSDP_OK) {
        at += taken;
        act(&answer, now);
        if (at == length && answer.kind == OSDP_SAID_NONE) {
            return;
        }
    }
}

/* Does what a line says. */
static osdp_status call(const char *line)
{
    uint8_t bytes[1432];
    unsigned tamper, power;
    const char *rest = strchr(line, ' ') != NULL ? strchr(line, ' ') + 1 : "";
    size_t length = digits(rest, bytes, sizeof bytes);
    if (strncmp(line, "event ", 6) == 0) {
        return osdp_device_event_text(&reader, rest, strlen(rest));
    }
    if (strcmp(line, "busy on") == 0 || strcmp(line, "busy off") == 0) {
        return osdp_device_set_busy(&reader, strcmp(rest, "on") == 0);
    }
    if (sscanf(line, "local %u %u", &tamper, &power) == 2 && tamper < 256 && power < 256) {
        return osdp_device_set_local(&reader, (uint8_t)tamper, (uint8_t)power);
    }
    if (strncmp(line, "inputs ", 7) == 0 && length <= sizeof bytes) {
        return osdp_device_set_inputs(&reader, bytes, length);
    }
    if (strncmp(line, "readers ", 8) == 0 && length <= sizeof bytes) {
        return osdp_device_set_readers(&reader, bytes, length);
    }
    return OSDP_BAD_TEXT;
}

/* Does what the lines say that have come. */
static void take_lines(struct lines *lines)
{
    for (const char *line = next_line(lines); line != NULL; line = next_line(lines)) {
        tell("%s\n", line);
        if (strncmp(line, "event ", 6) == 0 && is_too_old(line + 6)) {
            continue;
        }
        osdp_status status = call(line);
        if (status == OSDP_EVENTS_FULL) {
            tell("refused as many events wait at this device as there is room for\n");
        } else {
            (void)tell_refusal(status);
        }
    }
}

/* Tells whether the panel went or came, and lets events go that have waited for too long while it was gone. */
static void look(uint64_t now)
{
    static bool was_gone = true; /* no panel has been there yet */
    uint32_t gone;
    if (osdp_device_is_offline(&reader, now, &gone) == OSDP_OK && (gone != 0) != was_gone) {
        was_gone = !was_gone;
        tell(was_gone ? "offline\n" : "online\n");
    }
    let_go(&reader, now, TOO_OLD);
}

/* Waits for bytes and for lines, and hands them to the reader. */
static void turn(struct lines *lines)
{
    static struct osdp_answer answer;
    uint8_t bytes[4096];
    uint64_t now; /* of the wait's end, before what is there was read */
    size_t count = read_port(port, lines, TURN, bytes, sizeof bytes, &now);
    (void)osdp_device_set_moment(&reader, now); /* also where the program was stopped for more than a day */
    look(now); /* before anything is heard: so a panel that is back gets no card of long ago */
    tell_outputs(now);
    hear(bytes, count, now);
    take_lines(lines);
    if (osdp_device_tick(&reader, now, &answer) == OSDP_OK) {
        act(&answer, now);
        hear(bytes, 0, now);
        look(now);
    }
}

int main(int count, char **words)
{
    static struct lines lines;
    words = take_words(&count, words, 2, usage, &kept);
    for (int i = 2; i < count; i += 2) {
        set_reader(&settings, words[i], words[i + 1]);
    }
    uint32_t rate = number(words[1], "rate");
    read_kept(&kept, &settings.config.address, &rate);
    make_reader();
    port = open_port(words[0], rate);
    for (;;) {
        turn(&lines);
    }
}
