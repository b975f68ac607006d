/* What the calls on messages write, and the bytes around it, filled with a pattern before the call: the fields of messages, commands that are made, and texts. Each field has
 * its value after the call, the bytes of an array beyond its length are still the pattern, and so are the bytes around the struct. A refused call has written nothing. All of
 * this is done with four patterns, so no field has its value by chance. */
#include "around.h"

_Static_assert(sizeof(struct osdp_raw) == 1434 && sizeof(struct osdp_keypad) == 257 && sizeof(struct osdp_states) == 1434, "fields");
_Static_assert(sizeof(struct osdp_product) == 8 && sizeof(struct osdp_pd_id) == 12 && sizeof(struct osdp_nak) == 1434 && sizeof(struct osdp_output) == 4, "fields");
_Static_assert(sizeof(struct osdp_led_state) == 5 && sizeof(struct osdp_led) == 14 && sizeof(struct osdp_buzzer) == 5 && sizeof(struct osdp_text) == 261, "commands");

/* The fields of messages: each is read as it was made or spelled out, and what isn't that message writes nothing. */
static void fields(void)
{
    static const struct osdp_message raw = { 8, 1, OSDP_RAW, { 1, 2, 26, 0, 0x12, 0x34, 0x56, 0x40 } }, keys = { 4, 1, OSDP_KEYPAD, { 3, 2, '4', '2' } };
    static const struct osdp_message inputs = { 2, 1, OSDP_ISTATR, { 1, 0 } }, outputs = { 3, 1, OSDP_OSTATR, { 0, 1, 1 } };
    static const struct osdp_message id = { 12, 1, OSDP_PDID, { 'S', 'I', 'M', 7, 8, 1, 2, 3, 4, 9, 10, 11 } }, nak = { 2, 1, OSDP_NAK, { 9, 5 } };
    struct osdp_raw *card = filled(&first_place, sizeof *card);
    demand(osdp_raw_of(&keys, card) == OSDP_OTHER_MESSAGE);
    demand_untouched(&first_place);
    demand(osdp_raw_of(&raw, card) == OSDP_OK && card->reader == 1 && card->format == 2 && card->bits == 26 && card->length == 4);
    demand(memcmp(card->bytes, raw.data + 4, 4) == 0 && is_pattern(card->bytes + 4, sizeof card->bytes - 4));
    demand_around(&first_place);
    struct osdp_keypad *pressed = filled(&first_place, sizeof *pressed);
    demand(osdp_keypad_of(&raw, pressed) == OSDP_OTHER_MESSAGE);
    demand_untouched(&first_place);
    demand(osdp_keypad_of(&keys, pressed) == OSDP_OK && pressed->reader == 3 && pressed->count == 2 && memcmp(pressed->digits, "42", 2) == 0);
    demand_around(&first_place);
    struct osdp_states *states = filled(&first_place, sizeof *states);
    demand(osdp_inputs_of(&outputs, states) == OSDP_OTHER_MESSAGE && osdp_outputs_of(&inputs, states) == OSDP_OTHER_MESSAGE);
    demand_untouched(&first_place);
    demand(osdp_inputs_of(&inputs, states) == OSDP_OK && states->length == 2 && states->states[0] == 1 && states->states[1] == 0);
    demand(osdp_outputs_of(&outputs, states) == OSDP_OK && states->length == 3 && states->states[2] == 1);
    demand_around(&first_place);
    const struct osdp_product product = { { 0x53, 0x49, 0x4D }, 7, 8, 9, 10, 11 };
    struct osdp_pd_id *device = filled(&first_place, sizeof *device);
    demand(osdp_pd_id_of(&nak, device) == OSDP_OTHER_MESSAGE);
    demand_untouched(&first_place);
    demand(osdp_pd_id_of(&id, device) == OSDP_OK && device->serial == 0x04030201 && memcmp(&device->product, &product, sizeof product) == 0);
    demand_around(&first_place);
    struct osdp_nak *why = filled(&first_place, sizeof *why);
    demand(osdp_nak_of(&id, why) == OSDP_OTHER_MESSAGE);
    demand_untouched(&first_place);
    demand(osdp_nak_of(&nak, why) == OSDP_OK && why->reason == OSDP_NAK_RECORD_NOT_PROCESSED && why->length == 1 && why->detail[0] == 5);
    demand_around(&first_place);
}

/* Commands that are made: their data are as the standard's tables have them. */
static void commands(void)
{
    const struct osdp_output outs[] = { { 30, 0, 5 }, { 0x0201, 1, 2 } };
    const struct osdp_led led = { 0x0201, 3, 4, { 5, 6, 7, 8, 9 }, { 10, 11, 12, 13, 14 } };
    const struct osdp_buzzer buzzer = { 1, 2, 3, 4, 5 };
    const struct osdp_text text = { 1, 2, 3, 4, 5, 2, "OK" };
    const uint8_t out_data[] = { 0, 5, 30, 0, 1, 2, 1, 2 }, led_data[] = { 3, 4, 5, 6, 7, 8, 9, 1, 2, 10, 11, 12, 13, 14 };
    const uint8_t buzzer_data[] = { 1, 2, 3, 4, 5 }, text_data[] = { 1, 2, 3, 4, 5, 2, 'O', 'K' }, set_data[] = { 9, 0, 0x4B, 0, 0 };
    struct osdp_message *command = filled(&first_place, sizeof *command);
    demand(osdp_out(outs, 0, command) == OSDP_BAD_LENGTH && osdp_led(&led, 0, command) == OSDP_BAD_LENGTH);
    demand_untouched(&first_place);
    demand(osdp_out(outs, 2, command) == OSDP_OK && is_message(command, OSDP_OUT, out_data, 8));
    struct osdp_output *output = filled(&second_place, sizeof *output);
    demand(osdp_output_of(command, 2, output) == OSDP_OTHER_MESSAGE);
    demand_untouched(&second_place);
    demand(osdp_output_of(command, 1, output) == OSDP_OK && output->output == 1 && output->control == 2 && output->timer == 0x0201);
    demand_around(&second_place);
    command = filled(&first_place, sizeof *command);
    demand(osdp_led(&led, 1, command) == OSDP_OK && is_message(command, OSDP_LED, led_data, 14));
    command = filled(&first_place, sizeof *command);
    osdp_buzzer(&buzzer, command);
    demand(is_message(command, OSDP_BUZ, buzzer_data, 5));
    command = filled(&first_place, sizeof *command);
    osdp_text(&text, command);
    demand(is_message(command, OSDP_TEXT, text_data, 8));
    command = filled(&first_place, sizeof *command);
    demand(osdp_comset(9, 19200, command) == OSDP_OK && is_message(command, OSDP_COMSET, set_data, 5));
    demand_around(&first_place);
    /* what a byte would cut to 126 and to 5 */
    command = filled(&first_place, sizeof *command);
    demand(osdp_comset(127, 19200, command) == OSDP_ADDRESS_OUT_OF_RANGE && osdp_comset(382, 19200, command) == OSDP_ADDRESS_OUT_OF_RANGE);
    demand(osdp_comset(261, 19200, command) == OSDP_ADDRESS_OUT_OF_RANGE);
    demand_untouched(&first_place);
    demand(osdp_comset(126, 19200, command) == OSDP_OK && command->data[0] == 126);
}

static void texts(void)
{
    const uint8_t out[] = { 1, 5, 30, 0 }, keys[] = { 0, 2, '4', '2' };
    char *text = filled(&first_place, MOST);
    size_t *length = filled(&second_place, sizeof *length);
    demand(osdp_command_text(0x68, out, 3, text, MOST, length) == OSDP_BAD_LENGTH);
    demand(osdp_command_text(0x01, out, 4, text, MOST, length) == OSDP_UNKNOWN_CODE);
    demand(osdp_reply_text(0x53, keys, 3, text, MOST, length) == OSDP_BAD_COUNT);
    demand_untouched(&first_place);
    demand_untouched(&second_place);
    demand(osdp_command_text(0x68, out, 4, text, 9, length) == OSDP_TOO_SMALL && *length == 10);
    demand_untouched(&first_place);
    demand_around(&second_place);
    demand(osdp_command_text(0x68, out, 4, text, 10, length) == OSDP_OK && *length == 10 && memcmp(text, "OUT 1:5:30", 10) == 0);
    demand(is_pattern(text + 10, MOST - 10));
    demand_around(&first_place);
    demand(osdp_command_text(0x68, out, 4, text, MOST, length) == OSDP_OK && strcmp(text, "OUT 1:5:30") == 0);
    demand(is_pattern(text + 11, MOST - 11));

    text = filled(&first_place, MOST);
    length = filled(&second_place, sizeof *length);
    demand(osdp_reply_text(0x53, keys, 4, text, MOST, length) == OSDP_OK && *length == 13 && memcmp(text, "KEYPAD 0 3432", 13) == 0);
    demand(text[13] == 0 && is_pattern(text + 14, MOST - 14));
    demand_around(&first_place);
    demand_around(&second_place);
}

/* The longest text of a command is that of 102 LED records, and the longest of all that of a PDCAP with 477 abilities: 5,729 characters. Each number has
 * as many digits as it can have. */
static void longest_texts(void)
{
    static uint8_t data[1431];
    char *text = filled(&first_place, MOST);
    size_t *length = filled(&second_place, sizeof *length);
    memset(data, 255, sizeof data);
    demand(osdp_command_text(0x69, data, 1428, text, MOST, length) == OSDP_OK);
    demand(*length == 3 + 102 * (1 + 12 * 4 + 5) && memcmp(text, "LED 255:255:", 12) == 0);
    demand(text[*length] == 0 && is_pattern(text + *length + 1, MOST - *length - 1));
    demand(osdp_reply_text(0x46, data, 1431, text, MOST, length) == OSDP_OK);
    demand(*length == 5729 && memcmp(text, "PDCAP 255:255:255 ", 18) == 0);
    demand(text[*length] == 0 && is_pattern(text + *length + 1, MOST - *length - 1));
    demand_around(&first_place);
    demand_around(&second_place);
}

int main(void)
{
    const uint8_t patterns[] = { 0x00, 0x5A, 0xA5, 0xFF };
    for (size_t i = 0; i < sizeof patterns; i++) {
        pattern = patterns[i];
        fields();
        commands();
        texts();
        longest_texts();
    }
    return 0;
}
