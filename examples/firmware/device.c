/* A device with keys and a relay on a Cortex-M: the line's bytes come by interrupt into a ring, and each turn of the loop makes one call with them.
 *
 * There is no operating system and no C library. The pool has room for a device with four events (`OSDP_POOL`, by `build`). */
#include "board.h"
#include "osdp_site.h"

enum { ADDRESS = 5, RATE = 9600, EVENTS = 4, KEY_BYTES = 4, TOO_OLD = 30000 }; /* an event of one key has four bytes */

static struct osdp_device_config config = { ADDRESS, EVENTS, 20, 1, 0, { { 'S', 'I', 'M' }, 1, 1, 0, 1, 0 } }; /* the address is where the device is */
static osdp_device device;
static uint64_t relay_ends = UINT64_MAX; /* when the relay goes off; UINT64_MAX while it is off */

static void switch_relay(bool on, uint64_t ends)
{
    const uint8_t states[1] = { on };
    relay_ends = ends;
    (void)osdp_device_set_outputs(&device, states, 1);
    board_show(on ? "relay on\n" : "relay off\n");
}

/* Whether the relay may be switched so: for a time, or off. A door may not stand open for good. */
static bool may_be_done(const struct osdp_output *record)
{
    return record->output == 0 && (record->control == OSDP_OUTPUT_OFF || record->control == OSDP_OUTPUT_ON_FOR_A_TIME);
}

/* An OUT that may not be done is refused before it is answered; one that was confirmed is done. */
static void take_out(const struct osdp_answer *answer, uint64_t now)
{
    struct osdp_output record;
    for (osdp_size i = 0; osdp_output_of(&answer->command, i, &record) == OSDP_OK; i++) {
        if (answer->order == OSDP_ORDER_PENDING && !may_be_done(&record)) {
            (void)osdp_device_answer_refused(&device, OSDP_NAK_RECORD_NOT_PROCESSED);
        } else if (answer->order == OSDP_ORDER_ONCE) {
            bool on = record.control == OSDP_OUTPUT_ON_FOR_A_TIME && record.timer > 0; /* a timer of 0 ends it */
            switch_relay(on, on ? now + 100u * record.timer : UINT64_MAX);
        }
    }
}

/* Makes the device where it is. */
static bool make_device(void)
{
    static const struct osdp_capability capabilities[] = { { OSDP_FUNCTION_OUTPUT_CONTROL, 1, 1 }, { OSDP_FUNCTION_CHECK_CHARACTERS, 1, 0 } };
    const uint8_t states[1] = { relay_ends != UINT64_MAX };
    return osdp_device_new_with_room(&device, &config, (const uint8_t *)capabilities, sizeof capabilities, EVENTS * KEY_BYTES) == OSDP_OK &&
           osdp_device_set_outputs(&device, states, 1) == OSDP_OK;
}

/* The device does what it is to do, and then what it says goes out: so an order that is answered was done. A new address is kept before the panel is told. A COMSET
 * to a rate that the line can't have isn't answered, and the device is made anew where it was: the panel finds it there. The keys that wait are gone then. */
static void take_answer(void *of, const struct osdp_answer *answer, uint64_t now)
{
    (void)of; /* the one device of this program */
    if (answer->moved && !board_has_rate(answer->baud_rate)) {
        (void)osdp_device_free(&device);
        (void)make_device(); /* the pool has the room that the one before has left */
        return;
    }
    if (answer->moved) {
        board_keep(answer->address, answer->baud_rate);
        config.address = answer->address;
    }
    take_out(answer, now);
    board_write(answer->burst.bytes, answer->burst.length);
    if (answer->moved) {
        board_set_rate(answer->baud_rate);
    }
}

/* The key `?` shows how much of the stack was used. Each other key is an event. */
static void take_keys(void)
{
    static struct osdp_message event;
    struct osdp_keypad keys = { 0, 1, { 0 } };
    char text[] = "stack 00000\n";
    for (uint8_t key = board_key(); key != 0; key = board_key()) {
        if (key == '?') {
            uint32_t used = board_stack();
            for (size_t at = 10; at >= 6; at--, used /= 10) {
                text[at] = (char)('0' + used % 10);
            }
            board_show(text);
            continue;
        }
        keys.digits[0] = key;
        osdp_keypad(&keys, &event);
        (void)osdp_device_event(&device, event.code, event.data, event.length);
    }
}

/* A key that has waited for too long, while no panel was there, is told to nobody any more. */
static void let_go(uint64_t now)
{
    static struct osdp_message event;
    uint32_t expired;
    while (osdp_device_expire_event(&device, now, TOO_OLD, &expired, &event) == OSDP_OK && expired != OSDP_EXPIRED_NONE) {
        board_show("too old\n");
    }
}

int main(void)
{
    static uint8_t bytes[512]; /* as many as the board holds, so that a read takes all */
    uint32_t rate = RATE; /* of the line */
    (void)board_kept(&config.address, &rate);
    board_set_rate(rate);
    if (!make_device()) {
        board_show("no memory\n");
        return 1;
    }
    switch_relay(false, UINT64_MAX);
    for (;;) {
        board_sleep();
        uint64_t now = board_moment(); /* after the wait, and before the read: what lies in the ring is no older than that says where an interrupt takes long */
        size_t length = board_read(bytes, sizeof bytes); /* all that is there */
        let_go(now); /* before anything is heard, and before keys: an event that is put before any moment is never too old */
        take_keys();
        if (relay_ends <= now) {
            switch_relay(false, UINT64_MAX);
        }
        osdp_device_turn(&device, bytes, length, now, take_answer, NULL);
    }
}
