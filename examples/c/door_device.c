/* A device with two outputs: `door_device [--keep FILE [--new]] PORT RATE`, at address 5, or where the file has it after a COMSET. A line `card 12345640` says that a
 * card was read. Each output that is switched on is printed, and so is a card that was too old: `withdrawn`, or `in doubt` where the panel may have it. */
#include <string.h>

#include "devices.h"
#include "kept.h"
#include "osdp_site.h"
#include "port.h"
#include "words.h"

/* Whether an output may be switched so: for a time, or off. A door may not stand open for good. */
static bool may_be_done(const struct osdp_output *record)
{
    return record->output < 2 && (record->control == OSDP_OUTPUT_OFF || record->control == OSDP_OUTPUT_ON_FOR_A_TIME);
}

#ifdef UNIT_TEST
int main(void)
{
    const struct osdp_output opens = { 30, 0, OSDP_OUTPUT_ON_FOR_A_TIME }, closes = { 0, 1, OSDP_OUTPUT_OFF };
    const struct osdp_output for_good = { 0, 0, OSDP_OUTPUT_ON }, third = { 30, 2, OSDP_OUTPUT_ON_FOR_A_TIME };
    return may_be_done(&opens) && may_be_done(&closes) && !may_be_done(&for_good) && !may_be_done(&third) ? 0 : 1;
}
#else
#define TOO_OLD 30000 /* how long a card may wait while no panel is there, in milliseconds */

/* each device has a serial number of its own, by which a panel knows it; the address is where the device is */
static struct osdp_device_config config = { .address = 5, .capacity = 64, .gap = 20, .serial = 1, .product.vendor = { 'S', 'I', 'M' } };
static osdp_device device;
static int port;
static struct kept_words kept; /* the store that keeps address and rate, if one is named */

/* An OUT that may not be done is refused before it is answered; one that was confirmed is done. All else is answered as it was set. */
static void take_out(const struct osdp_message *out, uint32_t order)
{
    struct osdp_output record;
    for (size_t i = 0; osdp_output_of(out, i, &record) == OSDP_OK; i++) {
        if (order == OSDP_ORDER_PENDING && !may_be_done(&record)) {
            (void)osdp_device_answer_refused(&device, OSDP_NAK_RECORD_NOT_PROCESSED);
        } else if (order == OSDP_ORDER_ONCE && record.control == OSDP_OUTPUT_ON_FOR_A_TIME) {
            tell("on %u\n", (unsigned)record.output);
        }
    }
}

/* Makes the device where it is. */
static void make_device(void)
{
    static const uint8_t outputs[2] = { 0, 0 };
    osdp_status status = osdp_device_new(&device, &config, outputs, 0);
    if (status != OSDP_OK || osdp_device_set_outputs(&device, outputs, 2) != OSDP_OK) {
        stop(OUT_OF_MEMORY, "%s", osdp_status_text(status));
    }
}

/* The device does what it is to do, and then what it says goes out: so an order that is answered was done, also where power is lost in between. */
static void take_answer(void *of, const struct osdp_answer *answer, uint64_t now)
{
    (void)of; /* the one device of this program */
    if (refuses_rate(&device, answer)) {
        make_device();
        return;
    }
    take_out(&answer->command, answer->order);
    send_answer(port, &config, answer, now);
}

/* A card of 26 bits was read, where a line says so: it is told to the next POLL. */
static void take_line(const char *line)
{
    static struct osdp_raw card = { .format = OSDP_CARD_RAW, .bits = 26, .length = 4 };
    static struct osdp_message event;
    if (strncmp(line, "card ", 5) != 0 || digits(line + 5, card.bytes, 4) != 4 || osdp_raw(&card, &event) != OSDP_OK) {
        (void)tell_refusal(OSDP_BAD_TEXT);
    } else if (!is_too_old(reply_text(&event))) {
        (void)tell_refusal(osdp_device_event(&device, event.code, event.data, event.length));
    }
}

int main(int count, char **words)
{
    static struct lines lines;
    uint8_t bytes[4096];
    words = take_just(count, words, 2, "door_device [--keep FILE [--new]] [--late MS] PORT RATE\n", &kept);
    uint32_t rate = number(words[1], "rate");
    read_kept(&kept, &config.address, &rate);
    make_device();
    port = open_port(words[0], rate);
    for (;;) {
        uint64_t now;
        size_t length = read_port(port, &lines, 10, bytes, sizeof bytes, &now);
        let_go(&device, now, TOO_OLD); /* before anything is heard: so a panel that is back gets no card of long ago */
        osdp_device_turn(&device, bytes, length, now, take_answer, NULL);
        for (const char *line = next_line(&lines); line != NULL; line = next_line(&lines)) {
            take_line(line);
        }
    }
}
#endif
