/* A null pointer: it is taken where there are no bytes, and refused where there are to be some. Nothing is queued or written then. A caller that the
 * address sanitizer looks at calls each function that takes bytes, a text or records. */
#include <string.h>

#include "demands.h"
#include "osdp.h"

static struct osdp_panel panel;
static struct osdp_device device;

static void made(void)
{
    const struct osdp_device_config reader = { .address = 5, .capacity = 2, .gap = 20, .product.vendor = { 'S', 'I', 'M' } };
    struct osdp_panel_config config;
    size_t entry;
    osdp_panel_defaults(&config);
    demand(osdp_panel_new(&panel, &config) == OSDP_OK && osdp_panel_add(&panel, 5, 0, &entry) == OSDP_OK && entry == 0);
    demand(osdp_device_new(&device, &reader, NULL, 3) == OSDP_BAD_LENGTH);
    demand(osdp_device_new(&device, &reader, NULL, 0) == OSDP_OK);
}

static size_t commands(void)
{
    size_t count;
    demand(osdp_panel_waiting(&panel, 0, &count) == OSDP_OK);
    return count;
}

static void panel_calls(void)
{
    uint64_t number = 7;
    demand(osdp_panel_submit(&panel, 0, OSDP_MFG, NULL, 64, OSDP_NEVER, &number) == OSDP_BAD_LENGTH);
    demand(osdp_panel_submit(&panel, 0, OSDP_ID, NULL, 1, OSDP_NEVER, &number) == OSDP_BAD_LENGTH);
    demand(osdp_panel_submit_text(&panel, 0, NULL, 5, OSDP_NEVER, &number) == OSDP_BAD_LENGTH);
    demand(osdp_panel_bytes(&panel, NULL, 1, 0) == OSDP_BAD_LENGTH);
    demand(commands() == 0 && number == 7);
    demand(osdp_panel_submit(&panel, 0, OSDP_LSTAT, NULL, 0, OSDP_NEVER, &number) == OSDP_OK && commands() == 1 && number == 0);
    demand(osdp_panel_submit_text(&panel, 0, NULL, 0, OSDP_NEVER, &number) == OSDP_BAD_TEXT && number == 0);
    demand(osdp_panel_bytes(&panel, NULL, 0, 0) == OSDP_OK);
}

static void device_calls(void)
{
    static struct osdp_answer answer;
    size_t taken, waiting;
    demand(osdp_device_set_inputs(&device, NULL, 1) == OSDP_BAD_LENGTH && osdp_device_set_inputs(&device, NULL, 0) == OSDP_OK);
    demand(osdp_device_set_outputs(&device, NULL, 1) == OSDP_BAD_LENGTH && osdp_device_set_outputs(&device, NULL, 0) == OSDP_OK);
    demand(osdp_device_set_readers(&device, NULL, 1) == OSDP_BAD_LENGTH && osdp_device_set_readers(&device, NULL, 0) == OSDP_OK);
    demand(osdp_device_event(&device, OSDP_ISTATR, NULL, 2) == OSDP_BAD_LENGTH);
    demand(osdp_device_event_text(&device, NULL, 2) == OSDP_BAD_LENGTH && osdp_device_event_text(&device, NULL, 0) == OSDP_BAD_TEXT);
    demand(osdp_device_waiting(&device, &waiting) == OSDP_OK && waiting == 0);
    demand(osdp_device_step(&device, NULL, 1, 0, &taken, &answer) == OSDP_BAD_LENGTH);
    demand(osdp_device_step(&device, NULL, 0, 0, &taken, &answer) == OSDP_OK && taken == 0);
    demand(osdp_device_answer_list(&device, NULL, 1) == OSDP_BAD_LENGTH);
    demand(osdp_device_answer_maker(&device, (const uint8_t *)"SIM", NULL, 1) == OSDP_BAD_LENGTH);
    demand(osdp_device_answer_list(&device, NULL, 0) == OSDP_NOT_ASKED);
}

static void messages(void)
{
    struct osdp_message command;
    char text[64];
    size_t length = 7;
    memset(&command, pattern, sizeof command);
    demand(osdp_out(NULL, 1, &command) == OSDP_BAD_LENGTH && osdp_out(NULL, 0, &command) == OSDP_BAD_LENGTH);
    demand(osdp_led(NULL, 1, &command) == OSDP_BAD_LENGTH && osdp_led(NULL, 0, &command) == OSDP_BAD_LENGTH);
    demand(is_pattern(&command, sizeof command));
    demand(osdp_command_text(OSDP_MFG, NULL, 5, text, sizeof text, &length) == OSDP_BAD_LENGTH && length == 7);
    demand(osdp_command_text(OSDP_LSTAT, NULL, 0, NULL, 9, &length) == OSDP_BAD_LENGTH && length == 7);
    demand(osdp_reply_text(OSDP_KEYPAD, NULL, 3, text, sizeof text, &length) == OSDP_BAD_LENGTH && length == 7);
    demand(osdp_reply_text(OSDP_ACK, NULL, 0, NULL, 3, &length) == OSDP_BAD_LENGTH && length == 7);
    demand(osdp_reply_text(OSDP_ACK, NULL, 0, NULL, 0, &length) == OSDP_TOO_SMALL && length == 3);
}

int main(void)
{
    made();
    panel_calls();
    device_calls();
    messages();
    demand(osdp_panel_free(&panel) == OSDP_OK && osdp_device_free(&device) == OSDP_OK);
    return 0;
}
