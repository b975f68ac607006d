/* A device with a card reader, a keypad and a relay: `keypad_reader [--keep FILE [--new]] PORT RATE ADDRESS`. A line `RAW 0 0 26 12345640` is a card, `KEYPAD 0 31323334`
 * are keys, and `ISTATR 01` the door's contact. The relay, output 0, is on for the time that is ordered. LED and buzzer are told as they are ordered. A COMSET
 * gives the device another address and rate, which FILE keeps. What has waited for 30 s while no panel is there is told to nobody any more. */
#include <stdio.h>
#include <stdlib.h>
#include <string.h>

#include "devices.h"
#include "kept.h"
#include "osdp_site.h"
#include "port.h"
#include "words.h"

#define TOO_OLD 30000 /* how long an event may wait while no panel is there, in milliseconds */

static struct osdp_device_config config = { .capacity = 64, .gap = 20, .serial = 1, .product.vendor = { 'S', 'I', 'M' } }; /* the address is where the device is */
static uint8_t contact[1]; /* the door's: 1 where it is open */
static osdp_device device;
static int port;
static struct kept_words kept; /* the store that keeps address and rate, if one is named */
static uint64_t relay_ends = UINT64_MAX; /* when the relay goes off; UINT64_MAX while it is off */

/* Whether an output may be switched so: the relay for a time, or off. A door may not stand open for good. */
static bool may_be_done(const struct osdp_output *record)
{
    return record->output == 0 && (record->control == OSDP_OUTPUT_OFF || record->control == OSDP_OUTPUT_ON_FOR_A_TIME);
}

/* Tells the device the states of relay and contact, by which it answers OSTAT and ISTAT. */
static void tell_states(void)
{
    const uint8_t states[1] = { relay_ends != UINT64_MAX };
    (void)osdp_device_set_outputs(&device, states, 1);
    (void)osdp_device_set_inputs(&device, contact, 1);
}

static void switch_relay(bool on, uint64_t ends)
{
    relay_ends = ends;
    tell_states();
    tell("relay %s\n", on ? "on" : "off");
}

/* Makes the device where it is. */
static void make_device(void)
{
    osdp_status status = osdp_device_new(&device, &config, NULL, 0);
    if (status != OSDP_OK) {
        stop(status == OSDP_DEVICE_OUT_OF_RANGE ? BAD_WORDS : OUT_OF_MEMORY, "%s", osdp_status_text(status));
    }
    tell_states();
}

/* However the program ends, the relay goes off: nobody else would switch it. What is told here may fail. */
static void release(void)
{
    (void)puts("relay off");
}

/* An OUT that may not be done is refused before it is answered; one that was confirmed is done. */
static void take_out(const struct osdp_answer *answer, uint64_t now)
{
    struct osdp_output record;
    for (size_t i = 0; osdp_output_of(&answer->command, i, &record) == OSDP_OK; i++) {
        if (answer->order == OSDP_ORDER_PENDING && !may_be_done(&record)) {
            (void)osdp_device_answer_refused(&device, OSDP_NAK_RECORD_NOT_PROCESSED);
        } else if (answer->order == OSDP_ORDER_ONCE) {
            bool on = record.control == OSDP_OUTPUT_ON_FOR_A_TIME && record.timer > 0; /* a timer of 0 ends it */
            switch_relay(on, on ? now + 100u * record.timer : UINT64_MAX);
        }
    }
}

/* The device does what it is to do, and then what it says goes out: so an order that is answered was done. */
static void take_answer(void *of, const struct osdp_answer *answer, uint64_t now)
{
    (void)of; /* the one device of this program */
    if (refuses_rate(&device, answer)) {
        make_device();
        return;
    }
    take_out(answer, now);
    if (answer->order == OSDP_ORDER_ONCE && (answer->command.code == OSDP_LED || answer->command.code == OSDP_BUZ)) {
        tell("%s\n", command_text(&answer->command));
    }
    send_answer(port, &config, answer, now);
}

/* A card, keys or the contact, by its text: it is told to the next POLL. What the contact is from now on is the answer to ISTAT, also where as many events wait
 * as may. */
static void take_line(const char *line)
{
    uint8_t state[1];
    if (is_too_old(line)) {
        return;
    }
    osdp_status status = osdp_device_event_text(&device, line, strlen(line));
    (void)tell_refusal(status);
    if (status != OSDP_BAD_TEXT && strncmp(line, "ISTATR ", 7) == 0 && digits(line + 7, state, 1) == 1) {
        contact[0] = state[0];
        tell_states();
    }
}

int main(int count, char **words)
{
    static struct lines lines;
    uint8_t bytes[4096];
    words = take_just(count, words, 3, "keypad_reader [--keep FILE [--new]] [--late MS] PORT RATE ADDRESS\n", &kept);
    uint32_t rate = number(words[1], "rate");
    config.address = number(words[2], "address");
    read_kept(&kept, &config.address, &rate);
    make_device();
    port = open_port(words[0], rate);
    switch_relay(false, UINT64_MAX); /* the program before this one may have left it on */
    (void)atexit(release);
    for (;;) {
        uint64_t now;
        size_t length = read_port(port, &lines, 10, bytes, sizeof bytes, &now);
        let_go(&device, now, TOO_OLD); /* before anything is heard: so a panel that is back gets no card of long ago */
        if (relay_ends <= now) {
            switch_relay(false, UINT64_MAX);
        }
        osdp_device_turn(&device, bytes, length, now, take_answer, NULL);
        for (const char *line = next_line(&lines); line != NULL; line = next_line(&lines)) {
            take_line(line);
        }
    }
}
