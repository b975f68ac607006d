/* Each message, made and read by the names that docs/MESSAGES.md has for it, one function for each. The bytes are worked by hand from the standard's tables.
 *
 * What a call writes is filled with a pattern before, four patterns in turn: each field has its value after it, the bytes of an array beyond its length are
 * still the pattern, and so are the bytes around a struct. A call that reads another message writes nothing. */
#include <string.h>

#include "demands.h"
#include "osdp.h"
#include "panels.h"

#define AROUND 16
#define WHAT { { 0x5C, 0xD1, 0x2E }, 1, 2, 5, 6, 7 }

_Static_assert(sizeof(struct osdp_formatted) == 258 && sizeof(struct osdp_local_state) == 2 && sizeof(struct osdp_capability) == 3, "replies");
_Static_assert(sizeof(struct osdp_communication) == 8 && sizeof(struct osdp_maker) == 1434, "what both ends have");

/* Room for what is written, with bytes around it. */
static struct {
    _Alignas(16) uint8_t bytes[AROUND + 2048 + AROUND];
    size_t size;
} message_place, fields_place;

static void *filled_message(void)
{
    message_place.size = sizeof(struct osdp_message);
    return (uint8_t *)memset(message_place.bytes, pattern, sizeof message_place.bytes) + AROUND;
}

static void *filled(size_t size)
{
    fields_place.size = size;
    return (uint8_t *)memset(fields_place.bytes, pattern, sizeof fields_place.bytes) + AROUND;
}

#define demand_around(place) demand(is_pattern((place).bytes, AROUND) && is_pattern((place).bytes + AROUND + (place).size, AROUND))
#define demand_untouched(place) demand(is_pattern((place).bytes, AROUND + (place).size + AROUND))

/* What was made is a message of this code and these data, and nothing else was written. */
static bool is(const struct osdp_message *made, uint8_t code, size_t length, const char *data)
{
    demand_around(message_place);
    return made->present == 1 && made->code == code && made->length == length && memcmp(made->data, data, length) == 0
        && is_pattern(made->data + length, sizeof made->data - length);
}

/* Nothing is read of another message, or where there is none. */
static const struct osdp_message other_command = { 0, 1, OSDP_POLL, { 0 } }, other_reply = { 0, 1, OSDP_ACK, { 0 } }, none;

#define demand_others(call, other, ...) \
    do { \
        demand(call(&(other), __VA_ARGS__) == OSDP_OTHER_MESSAGE && call(&none, __VA_ARGS__) == OSDP_UNKNOWN_CODE); \
        demand_untouched(fields_place); \
    } while (0)

/* ---- Commands ---- */

static void id(void)
{
    struct osdp_message *command = filled_message();
    osdp_id(command);
    demand(is(command, OSDP_ID, 1, "\0"));
}

static void cap(void)
{
    struct osdp_message *command = filled_message();
    osdp_cap(command);
    demand(is(command, OSDP_CAP, 1, "\0"));
}

/* The command at the head of what waits, which has no data. */
static bool waits(osdp_panel *panel, uint8_t code)
{
    struct osdp_message *command = filled_message();
    return gives_data(panel, 0, code, NULL, 0) == OSDP_OK && osdp_panel_withdraw(panel, 0, command) == OSDP_OK && is(command, code, 0, "");
}

static void lstat(osdp_panel *panel)
{
    demand(OSDP_LSTAT == 0x64 && waits(panel, OSDP_LSTAT));
}

static void istat(osdp_panel *panel)
{
    demand(OSDP_ISTAT == 0x65 && waits(panel, OSDP_ISTAT));
}

static void ostat(osdp_panel *panel)
{
    demand(OSDP_OSTAT == 0x66 && waits(panel, OSDP_OSTAT));
}

static void rstat(osdp_panel *panel)
{
    demand(OSDP_RSTAT == 0x67 && waits(panel, OSDP_RSTAT));
}

/* ID and CAP carry a byte: without it they are no commands. */
static void asked(osdp_panel *panel)
{
    demand(gives_data(panel, 0, OSDP_ID, NULL, 0) == OSDP_BAD_LENGTH && gives_data(panel, 0, OSDP_CAP, NULL, 0) == OSDP_BAD_LENGTH);
}

static void out(void)
{
    const struct osdp_output outputs[] = { { 300, 1, OSDP_OUTPUT_ON_FOR_A_TIME }, { 0, 2, OSDP_OUTPUT_OFF } };
    struct osdp_message *command = filled_message();
    demand(osdp_out(outputs, 2, command) == OSDP_OK && is(command, OSDP_OUT, 8, "\1\5\x2C\1\2\1\0\0"));
    struct osdp_output *output = filled(sizeof *output);
    demand_others(osdp_output_of, other_command, 0, output);
    demand(osdp_output_of(command, 2, output) == OSDP_OTHER_MESSAGE);
    demand_untouched(fields_place);
    demand(osdp_output_of(command, 0, output) == OSDP_OK && output->output == 1 && output->control == OSDP_OUTPUT_ON_FOR_A_TIME && output->timer == 300);
    demand_around(fields_place);
}

static void led(void)
{
    const struct osdp_led record = {
        300, 0, 1, { OSDP_LED_SET_TEMPORARY, 3, 4, OSDP_COLOR_RED, OSDP_COLOR_BLUE }, { OSDP_LED_SET_PERMANENT, 5, 6, OSDP_COLOR_GREEN, OSDP_COLOR_WHITE }
    };
    struct osdp_message *command = filled_message();
    demand(osdp_led(&record, 1, command) == OSDP_OK && is(command, OSDP_LED, 14, "\0\1\2\3\4\1\4\x2C\1\1\5\6\2\7"));
    struct osdp_led *told = filled(sizeof *told);
    demand_others(osdp_led_of, other_command, 0, told);
    demand(osdp_led_of(command, 1, told) == OSDP_OTHER_MESSAGE);
    demand_untouched(fields_place);
    demand(osdp_led_of(command, 0, told) == OSDP_OK && memcmp(told, &record, sizeof record) == 0);
    demand_around(fields_place);
}

static void buz(void)
{
    const struct osdp_buzzer buzzer = { 1, OSDP_TONE_DEFAULT, 3, 4, 5 };
    struct osdp_message *command = filled_message();
    osdp_buzzer(&buzzer, command);
    demand(is(command, OSDP_BUZ, 5, "\1\2\3\4\5"));
    struct osdp_buzzer *told = filled(sizeof *told);
    demand_others(osdp_buzzer_of, other_command, told);
    demand(osdp_buzzer_of(command, told) == OSDP_OK && memcmp(told, &buzzer, sizeof buzzer) == 0);
    demand_around(fields_place);
}

static void text(void)
{
    const struct osdp_text shown = { 1, OSDP_TEXT_TEMPORARY, 9, 2, 4, 2, "Hi" };
    struct osdp_message *command = filled_message();
    osdp_text(&shown, command);
    demand(is(command, OSDP_TEXT, 8, "\1\3\11\2\4\2Hi"));
    struct osdp_text *told = filled(sizeof *told);
    demand_others(osdp_text_of, other_command, told);
    demand(osdp_text_of(command, told) == OSDP_OK && memcmp(told, &shown, 8) == 0);
    demand(is_pattern(told->characters + 2, sizeof told->characters - 2));
    demand_around(fields_place);
}

/* 115,200 baud: 00 C2 01 00, the low byte first. */
static const char communicated[] = "\7\0\xC2\1\0";

static void comset(void)
{
    struct osdp_message *command = filled_message();
    demand(osdp_comset(7, 115200, command) == OSDP_OK && is(command, OSDP_COMSET, 5, communicated));
    struct osdp_communication *told = filled(sizeof *told);
    demand_others(osdp_comset_of, other_command, told);
    demand(osdp_comset_of(command, told) == OSDP_OK && told->address == 7 && told->baud_rate == 115200);
    demand_around(fields_place);
}

static void mfg(void)
{
    static struct osdp_maker maker = { 2, { 0x5C, 0xD1, 0x2E }, { 1, 2 } };
    struct osdp_message *command = filled_message();
    demand(osdp_maker(&maker, command) == OSDP_OK && is(command, OSDP_MFG, 5, "\x5C\xD1\x2E\1\2"));
    struct osdp_maker *told = filled(sizeof *told);
    demand_others(osdp_maker_of, other_command, told);
    demand(osdp_maker_of(command, told) == OSDP_OK && told->length == 2 && memcmp(told->vendor, maker.vendor, 3) == 0);
    demand(memcmp(told->bytes, maker.bytes, 2) == 0 && is_pattern(told->bytes + 2, sizeof told->bytes - 2));
    demand_around(fields_place);
    command = filled_message();
    maker.length = 1430;
    demand(osdp_maker(&maker, command) == OSDP_BAD_LENGTH);
    demand_untouched(message_place);
    maker.length = 1429;
    demand(osdp_maker(&maker, command) == OSDP_OK && command->length == 1432);
    maker.length = 2;
}

/* ---- Events ---- */

static void lstatr(void)
{
    const struct osdp_local_state state = { OSDP_STATE_TAMPERED, OSDP_STATE_NORMAL };
    struct osdp_message *event = filled_message();
    osdp_local_state(&state, event);
    demand(is(event, OSDP_LSTATR, 2, "\1\0"));
    struct osdp_local_state *told = filled(sizeof *told);
    demand_others(osdp_local_state_of, other_reply, told);
    demand(osdp_local_state_of(event, told) == OSDP_OK && told->tamper == OSDP_STATE_TAMPERED && told->power == OSDP_STATE_NORMAL);
    demand_around(fields_place);
}

/* States that are more than there is room for make nothing; 1,432 do. */
#define demand_states(make, event, states) \
    do { \
        event = filled_message(); \
        states.length = 1433; \
        demand(make(&states, event) == OSDP_BAD_LENGTH); \
        demand_untouched(message_place); \
        states.length = 1432; \
        demand(make(&states, event) == OSDP_OK && event->length == 1432); \
        states.length = 2; \
    } while (0)

/* What was read of two states is these. */
static bool are(const struct osdp_states *told, uint8_t first, uint8_t second)
{
    demand_around(fields_place);
    return told->length == 2 && told->states[0] == first && told->states[1] == second && is_pattern(told->states + 2, sizeof told->states - 2);
}

static void istatr(void)
{
    static struct osdp_states inputs = { 2, { OSDP_STATE_INACTIVE, OSDP_STATE_ACTIVE } };
    struct osdp_message *event = filled_message();
    demand(osdp_inputs(&inputs, event) == OSDP_OK && is(event, OSDP_ISTATR, 2, "\0\1"));
    struct osdp_states *told = filled(sizeof *told);
    demand_others(osdp_inputs_of, other_reply, told);
    demand(osdp_inputs_of(event, told) == OSDP_OK && are(told, OSDP_STATE_INACTIVE, OSDP_STATE_ACTIVE));
    demand_states(osdp_inputs, event, inputs);
}

static void ostatr(void)
{
    static struct osdp_states outputs = { 2, { OSDP_STATE_ACTIVE, OSDP_STATE_INACTIVE } };
    struct osdp_message *event = filled_message();
    demand(osdp_outputs(&outputs, event) == OSDP_OK && is(event, OSDP_OSTATR, 2, "\1\0"));
    struct osdp_states *told = filled(sizeof *told);
    demand_others(osdp_outputs_of, other_reply, told);
    demand(osdp_outputs_of(event, told) == OSDP_OK && are(told, OSDP_STATE_ACTIVE, OSDP_STATE_INACTIVE));
    demand_states(osdp_outputs, event, outputs);
}

static void rstatr(void)
{
    static struct osdp_states readers = { 2, { OSDP_READER_NORMAL, OSDP_READER_TAMPERED } };
    struct osdp_message *event = filled_message();
    demand(osdp_readers(&readers, event) == OSDP_OK && is(event, OSDP_RSTATR, 2, "\0\2"));
    struct osdp_states *told = filled(sizeof *told);
    demand_others(osdp_readers_of, other_reply, told);
    demand(osdp_readers_of(event, told) == OSDP_OK && are(told, OSDP_READER_NORMAL, OSDP_READER_TAMPERED));
    demand_states(osdp_readers, event, readers);
}

static void raw(void)
{
    static struct osdp_raw card = { 1, OSDP_CARD_WIEGAND, 26, 4, { 0x0A, 0x0B, 0x0C, 0x40 } };
    struct osdp_message *event = filled_message();
    demand(osdp_raw(&card, event) == OSDP_OK && is(event, OSDP_RAW, 8, "\1\1\x1A\0\x0A\x0B\x0C\x40"));
    struct osdp_raw *told = filled(sizeof *told);
    demand_others(osdp_raw_of, other_reply, told);
    demand(osdp_raw_of(event, told) == OSDP_OK && told->reader == 1 && told->format == OSDP_CARD_WIEGAND && told->bits == 26 && told->length == 4);
    demand(memcmp(told->bytes, card.bytes, 4) == 0 && is_pattern(told->bytes + 4, sizeof told->bytes - 4));
    demand_around(fields_place);
    /* 26 bits need four bytes, and there is room for 1,428 */
    event = filled_message();
    card.length = 5;
    demand(osdp_raw(&card, event) == OSDP_BAD_COUNT);
    card.length = 3;
    demand(osdp_raw(&card, event) == OSDP_BAD_COUNT);
    card.length = 1429;
    demand(osdp_raw(&card, event) == OSDP_BAD_LENGTH);
    card.bits = 11425;
    demand(osdp_raw(&card, event) == OSDP_BAD_LENGTH);
    demand_untouched(message_place);
    card.bits = 11424;
    card.length = 1428;
    demand(osdp_raw(&card, event) == OSDP_OK && event->length == 1432);
    card.bits = 26;
    card.length = 4;
}

static void fmt(void)
{
    const struct osdp_formatted card = { 1, OSDP_CARD_REVERSE, 2, "12" };
    struct osdp_message *event = filled_message();
    osdp_formatted(&card, event);
    demand(is(event, OSDP_FMT, 5, "\1\1\2" "12"));
    struct osdp_formatted *told = filled(sizeof *told);
    demand_others(osdp_formatted_of, other_reply, told);
    demand(osdp_formatted_of(event, told) == OSDP_OK && memcmp(told, &card, 5) == 0 && is_pattern(told->digits + 2, sizeof told->digits - 2));
    demand_around(fields_place);
}

static void keypad(void)
{
    const struct osdp_keypad keys = { 1, 2, "12" };
    struct osdp_message *event = filled_message();
    osdp_keypad(&keys, event);
    demand(is(event, OSDP_KEYPAD, 4, "\1\2" "12"));
    struct osdp_keypad *told = filled(sizeof *told);
    demand_others(osdp_keypad_of, other_reply, told);
    demand(osdp_keypad_of(event, told) == OSDP_OK && memcmp(told, &keys, 4) == 0 && is_pattern(told->digits + 2, sizeof told->digits - 2));
    demand_around(fields_place);
}

/* ---- Other replies: a device's answers, and what its settings tell ---- */

/* The device that the tests below ask, and what it has said last. */
static osdp_device device;
static struct osdp_answer told_last;

/* A device with these settings, at address 5. */
static void new_device(void)
{
    const struct osdp_device_config what = { 5, 4, 20, 0x04030201, 0, WHAT };
    const struct osdp_capability capabilities[] = { { OSDP_FUNCTION_OUTPUT_CONTROL, 1, 4 }, { OSDP_FUNCTION_VERSION, 2, 0 } };
    demand(osdp_device_new(&device, &what, (const uint8_t *)capabilities, sizeof capabilities) == OSDP_OK);
}

/* The device hears a command to address 5, by number 0, with a checksum. */
static void asks(uint8_t code, const char *data, uint8_t length)
{
    uint8_t sum = 0, bytes[64] = { 0x53, 5, (uint8_t)(7 + length), 0, 0, code };
    size_t taken;
    memcpy(bytes + 6, data, length);
    for (size_t i = 0; i < 6U + length; i++) {
        sum = (uint8_t)(sum - bytes[i]);
    }
    bytes[6 + length] = sum;
    demand(osdp_device_step(&device, bytes, 7U + length, 0, &taken, &told_last) == OSDP_OK && taken == 7U + length);
}

/* The reply of the device, which is freed. */
static struct osdp_message says(void)
{
    struct osdp_message reply = { 0 };
    size_t taken;
    if (told_last.order == OSDP_ORDER_PENDING) {
        demand(osdp_device_step(&device, NULL, 0, 0, &taken, &told_last) == OSDP_OK);
    }
    reply.present = 1;
    reply.code = told_last.burst.bytes[5];
    reply.length = (uint16_t)(told_last.burst.length - 7);
    memcpy(reply.data, told_last.burst.bytes + 6, reply.length);
    demand(osdp_device_free(&device) == OSDP_OK);
    return reply;
}

static bool tells(const struct osdp_message *reply, uint8_t code, size_t length, const char *data)
{
    return reply->code == code && reply->length == length && memcmp(reply->data, data, length) == 0;
}

static void ack(void)
{
    new_device();
    asks(OSDP_BUZ, "\0\2\1\1\1", 5);
    demand(osdp_device_answer_done(&device) == OSDP_OK);
    struct osdp_message reply = says();
    demand(OSDP_ACK == 0x40 && tells(&reply, OSDP_ACK, 0, ""));
}

static void busy(void)
{
    new_device();
    demand(osdp_device_set_busy(&device, 1) == OSDP_OK);
    asks(OSDP_BUZ, "\0\2\1\1\1", 5);
    struct osdp_message reply = says();
    demand(OSDP_BUSY == 0x79 && tells(&reply, OSDP_BUSY, 0, ""));
}

static void nak(void)
{
    new_device();
    asks(OSDP_BUZ, "\0\2\1\1\1", 5);
    demand(osdp_device_answer_refused(&device, OSDP_NAK_RECORD_NOT_PROCESSED) == OSDP_OK);
    struct osdp_message reply = says();
    demand(OSDP_NAK == 0x41 && tells(&reply, OSDP_NAK, 1, "\x9"));
    struct osdp_nak *told = filled(sizeof *told);
    demand_others(osdp_nak_of, other_reply, told);
    demand(osdp_nak_of(&reply, told) == OSDP_OK && told->reason == OSDP_NAK_RECORD_NOT_PROCESSED && told->length == 0);
    demand_around(fields_place);
}

static void pdid(void)
{
    const struct osdp_device_config what = { 5, 4, 20, 0x04030201, 0, WHAT };
    new_device();
    asks(OSDP_ID, "\0", 1);
    struct osdp_message reply = says();
    demand(tells(&reply, OSDP_PDID, 12, "\x5C\xD1\x2E\1\2\1\2\3\4\5\6\7"));
    struct osdp_pd_id *told = filled(sizeof *told);
    demand_others(osdp_pd_id_of, other_reply, told);
    demand(osdp_pd_id_of(&reply, told) == OSDP_OK && told->serial == what.serial && memcmp(&told->product, &what.product, sizeof what.product) == 0);
    demand_around(fields_place);
}

static void pdcap(void)
{
    new_device();
    asks(OSDP_CAP, "\0", 1);
    struct osdp_message reply = says();
    demand(tells(&reply, OSDP_PDCAP, 6, "\2\1\4\20\2\0"));
    struct osdp_capability *told = filled(sizeof *told);
    demand_others(osdp_capability_of, other_reply, 0, told);
    demand(osdp_capability_of(&reply, 2, told) == OSDP_OTHER_MESSAGE);
    demand_untouched(fields_place);
    demand(osdp_capability_of(&reply, 1, told) == OSDP_OK && told->function == OSDP_FUNCTION_VERSION && told->level == 2 && told->count == 0);
    demand(osdp_capability_of(&reply, 0, told) == OSDP_OK && told->function == OSDP_FUNCTION_OUTPUT_CONTROL && told->level == 1 && told->count == 4);
    demand_around(fields_place);
}

static void com(void)
{
    new_device();
    asks(OSDP_COMSET, communicated, 5);
    struct osdp_message reply = says();
    demand(tells(&reply, OSDP_COM, 5, communicated));
    struct osdp_communication *told = filled(sizeof *told);
    demand_others(osdp_com_of, other_reply, told);
    demand(osdp_comset_of(&reply, told) == OSDP_UNKNOWN_CODE);
    demand_untouched(fields_place);
    demand(osdp_com_of(&reply, told) == OSDP_OK && told->address == 7 && told->baud_rate == 115200);
    demand_around(fields_place);
}

static void mfgrep(void)
{
    new_device();
    asks(OSDP_MFG, "\x5C\xD1\x2E\7", 4);
    demand(osdp_device_answer_maker(&device, (const uint8_t *)"\x5C\xD1\x2E", (const uint8_t *)"\1\2", 2) == OSDP_OK);
    struct osdp_message reply = says();
    demand(tells(&reply, OSDP_MFGREP, 5, "\x5C\xD1\x2E\1\2"));
    struct osdp_maker *told = filled(sizeof *told);
    demand_others(osdp_maker_reply_of, other_reply, told);
    demand(osdp_maker_reply_of(&reply, told) == OSDP_OK && told->length == 2 && memcmp(told->vendor, "\x5C\xD1\x2E", 3) == 0);
    demand(memcmp(told->bytes, "\1\2", 2) == 0 && is_pattern(told->bytes + 2, sizeof told->bytes - 2));
    demand_around(fields_place);
}

int main(void)
{
    static const uint8_t patterns[] = { 0xA5, 0x00, 0xFF, 0x5A };
    static osdp_panel panel;
    struct osdp_panel_config config;
    size_t entry;
    osdp_panel_defaults(&config);
    demand(osdp_panel_new(&panel, &config) == OSDP_OK && osdp_panel_add(&panel, 5, 0, &entry) == OSDP_OK);
    for (size_t i = 0; i < sizeof patterns; i++) {
        pattern = patterns[i];
        id(), cap(), lstat(&panel), istat(&panel), ostat(&panel), rstat(&panel), asked(&panel);
        out(), led(), buz(), text(), comset(), mfg();
        lstatr(), istatr(), ostatr(), rstatr(), raw(), fmt(), keypad();
        ack(), nak(), busy(), pdid(), pdcap(), com(), mfgrep();
    }
    demand(osdp_panel_free(&panel) == OSDP_OK);
    return 0;
}
