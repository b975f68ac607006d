/* What the calls hand on that include/osdp.h itself has: each word in its place, and a pointer that isn't null where there are no bytes. The calls of the archive are
 * stood in for here, so it needs none. */
#include "osdp.h"

#include <stdio.h>
#include <stdlib.h>

static const void *pointers[4]; /* what was handed on, in its order, but the handle */
static uint64_t numbers[4];
static const void *handle;
static int calls;

#define demand(holds) ((holds) ? (void)0 : fail(__LINE__, #holds))

static void fail(int where, const char *what)
{
    printf("%s:%d: %s\n", __FILE__, where, what);
    exit(1);
}

static osdp_status handed(const void *first, const void *p0, const void *p1, const void *p2, const void *p3, uint64_t n0, uint64_t n1, uint64_t n2, uint64_t n3)
{
    calls++;
    handle = first;
    pointers[0] = p0, pointers[1] = p1, pointers[2] = p2, pointers[3] = p3;
    numbers[0] = n0, numbers[1] = n1, numbers[2] = n2, numbers[3] = n3;
    return OSDP_NOT_ASKED; /* a status of its own, which is handed back */
}

#define HANDED(first, p0, p1, p2, p3, n0, n1, n2) { return handed(first, p0, p1, p2, p3, n0, n1, n2, 0); }
#define HANDED_UNTIL(first, p0, p1, n0, n1, n2, until) { return handed(first, p0, p1, NULL, NULL, n0, n1, n2, until); }

osdp_status osdp_command_text_nonnull(uint8_t code, const uint8_t *data, osdp_size length, char *text, osdp_size room, osdp_size *text_length) HANDED(NULL, data, text, text_length, NULL, code, length, room)
osdp_status osdp_reply_text_nonnull(uint8_t code, const uint8_t *data, osdp_size length, char *text, osdp_size room, osdp_size *text_length) HANDED(NULL, data, text, text_length, pointers, code, length, room)
osdp_status osdp_out_nonnull(const struct osdp_output *outputs, osdp_size count, struct osdp_message *command) HANDED(NULL, outputs, command, NULL, NULL, count, 0, 0)
osdp_status osdp_led_nonnull(const struct osdp_led *leds, osdp_size count, struct osdp_message *command) HANDED(NULL, leds, command, NULL, pointers, count, 0, 0)
osdp_status osdp_panel_submit_nonnull(osdp_panel *panel, osdp_size entry, uint8_t code, const uint8_t *data, osdp_size length, uint64_t until, uint64_t *number) HANDED_UNTIL(panel, data, number, entry, code, length, until)
osdp_status osdp_panel_submit_text_nonnull(osdp_panel *panel, osdp_size entry, const char *text, osdp_size length, uint64_t until, uint64_t *number) HANDED_UNTIL(panel, text, number, entry, length, 0, until)
osdp_status osdp_panel_bytes_nonnull(osdp_panel *panel, const uint8_t *bytes, osdp_size length, uint64_t now) HANDED(panel, bytes, NULL, NULL, NULL, length, now, 0)
osdp_status osdp_device_new_nonnull(osdp_device *device, const struct osdp_device_config *config, const uint8_t *bytes, osdp_size length) HANDED(device, bytes, config, NULL, NULL, length, 0, 0)
osdp_status osdp_device_new_with_room_nonnull(osdp_device *device, const struct osdp_device_config *config, const uint8_t *bytes, osdp_size length, osdp_size room) HANDED(device, bytes, config, NULL, NULL, length, room, 0)
osdp_status osdp_device_set_inputs_nonnull(osdp_device *device, const uint8_t *states, osdp_size length) HANDED(device, states, NULL, NULL, NULL, length, 1, 0)
osdp_status osdp_device_set_outputs_nonnull(osdp_device *device, const uint8_t *states, osdp_size length) HANDED(device, states, NULL, NULL, NULL, length, 2, 0)
osdp_status osdp_device_set_readers_nonnull(osdp_device *device, const uint8_t *states, osdp_size length) HANDED(device, states, NULL, NULL, NULL, length, 3, 0)
osdp_status osdp_device_event_nonnull(osdp_device *device, uint8_t code, const uint8_t *data, osdp_size length) HANDED(device, data, NULL, NULL, NULL, code, length, 0)
osdp_status osdp_device_event_text_nonnull(osdp_device *device, const char *text, osdp_size length) HANDED(device, text, NULL, NULL, NULL, length, 4, 0)
osdp_status osdp_device_step_nonnull(osdp_device *device, const uint8_t *bytes, osdp_size length, uint64_t now, osdp_size *taken, struct osdp_answer *answer) HANDED(device, bytes, taken, answer, NULL, length, now, 0)
osdp_status osdp_device_answer_list_nonnull(osdp_device *device, const uint8_t *states, osdp_size length) HANDED(device, states, NULL, NULL, NULL, length, 5, 0)
osdp_status osdp_device_answer_maker_nonnull(osdp_device *device, const uint8_t *vendor, const uint8_t *bytes, osdp_size length) HANDED(device, bytes, vendor, NULL, NULL, length, 6, 0)
osdp_status osdp_monitor_bytes_nonnull(osdp_monitor *monitor, const uint8_t *bytes, osdp_size length) HANDED(monitor, bytes, NULL, NULL, NULL, length, 7, 0)
osdp_status osdp_monitor_next_text_nonnull(osdp_monitor *monitor, char *text, osdp_size room, osdp_size *text_length) HANDED(monitor, text, text_length, NULL, NULL, room, 8, 0)

/* Whether the last call has handed on these words, and what it was answered. */
static bool hands(osdp_status status, const void *first, const void *p1, const void *p2, const void *p3, uint64_t n0, uint64_t n1, uint64_t n2)
{
    return status == OSDP_NOT_ASKED && handle == first && pointers[1] == p1 && pointers[2] == p2 && pointers[3] == p3 && numbers[0] == n0 && numbers[1] == n1 && numbers[2] == n2;
}

/* The call is made with nothing where LENGTH bytes are to be, which is refused; with nothing where none are, which hands on a pointer that isn't null; and with MANY. */
#define LOOKS(some, call, nothing, many) \
    do { \
        const int before = calls; \
        demand((nothing(NULL, 1)) == OSDP_BAD_LENGTH && (nothing(NULL, SIZE_MAX)) == OSDP_BAD_LENGTH && calls == before); \
        demand(call(nothing(NULL, 0), 0) && pointers[0] != NULL && calls == before + 1); \
        demand(call(nothing(some, 0), 0) && pointers[0] == (some)); \
        demand(call(nothing(some, many), many) && pointers[0] == (some) && calls == before + 3); \
    } while (0)

static osdp_panel panel;
static osdp_device device;
static osdp_monitor monitor;
static struct osdp_message message;
static struct osdp_answer answer;
static const struct osdp_device_config config;
static char text[9];
static uint8_t bytes[9], vendor[3];
static osdp_size count;
static uint64_t order;

static void texts(void)
{
#define COMMAND_DATA(data, length) osdp_command_text(0x68, data, length, text, 9, &count)
#define COMMAND_DATA_HANDS(status, length) hands(status, NULL, text, &count, NULL, 0x68, length, 9)
    LOOKS(bytes, COMMAND_DATA_HANDS, COMMAND_DATA, 7);
#define REPLY_DATA(data, length) osdp_reply_text(0x48, data, length, text, 9, &count)
#define REPLY_DATA_HANDS(status, length) hands(status, NULL, text, &count, pointers, 0x48, length, 9)
    LOOKS(bytes, REPLY_DATA_HANDS, REPLY_DATA, 7);
    demand(osdp_command_text(0x68, bytes, 4, NULL, 1, &count) == OSDP_BAD_LENGTH && osdp_reply_text(0x48, bytes, 2, NULL, 1, &count) == OSDP_BAD_LENGTH);
    demand(osdp_command_text(0x68, bytes, 4, NULL, 0, &count) == OSDP_NOT_ASKED && pointers[1] != NULL && numbers[2] == 0);
    demand(osdp_reply_text(0x48, bytes, 2, NULL, 0, &count) == OSDP_NOT_ASKED && pointers[1] != NULL && numbers[2] == 0);
#define NEXT_TEXT(room, length) osdp_monitor_next_text(&monitor, room, length, &count)
#define NEXT_TEXT_HANDS(status, length) hands(status, &monitor, &count, NULL, NULL, length, 8, 0)
    LOOKS(text, NEXT_TEXT_HANDS, NEXT_TEXT, 9);
}

static void records(void)
{
    static const struct osdp_output outputs[3];
    static const struct osdp_led leds[3];
#define OUTPUTS(records, length) osdp_out(records, length, &message)
#define OUTPUTS_HANDS(status, length) hands(status, NULL, &message, NULL, NULL, length, 0, 0)
    LOOKS(outputs, OUTPUTS_HANDS, OUTPUTS, 3);
#define LEDS(records, length) osdp_led(records, length, &message)
#define LEDS_HANDS(status, length) hands(status, NULL, &message, NULL, pointers, length, 0, 0)
    LOOKS(leds, LEDS_HANDS, LEDS, 3);
}

static void of_a_panel(void)
{
#define SUBMIT(data, length) osdp_panel_submit(&panel, 15, 0x68, data, length, 7000, &order)
#define SUBMIT_HANDS(status, length) (hands(status, &panel, &order, NULL, NULL, 15, 0x68, length) && numbers[3] == 7000)
    LOOKS(bytes, SUBMIT_HANDS, SUBMIT, 8);
#define SUBMIT_TEXT(line, length) osdp_panel_submit_text(&panel, 15, line, length, OSDP_NEVER, &order)
#define SUBMIT_TEXT_HANDS(status, length) (hands(status, &panel, &order, NULL, NULL, 15, length, 0) && numbers[3] == UINT64_MAX)
    LOOKS(text, SUBMIT_TEXT_HANDS, SUBMIT_TEXT, 8);
#define BYTES(data, length) osdp_panel_bytes(&panel, data, length, 1000)
#define BYTES_HANDS(status, length) hands(status, &panel, NULL, NULL, NULL, length, 1000, 0)
    LOOKS(bytes, BYTES_HANDS, BYTES, 8);
    demand(osdp_panel_bytes(&panel, bytes, 8, 0) == OSDP_NOT_ASKED && numbers[1] == 0);
#define HEARD(data, length) osdp_monitor_bytes(&monitor, data, length)
#define HEARD_HANDS(status, length) hands(status, &monitor, NULL, NULL, NULL, length, 7, 0)
    LOOKS(bytes, HEARD_HANDS, HEARD, 8);
}

static void of_a_device(void)
{
#define NEW(data, length) osdp_device_new(&device, &config, data, length)
#define NEW_HANDS(status, length) hands(status, &device, &config, NULL, NULL, length, 0, 0)
    LOOKS(bytes, NEW_HANDS, NEW, 3);
#define WITH_ROOM(data, length) osdp_device_new_with_room(&device, &config, data, length, 36)
#define WITH_ROOM_HANDS(status, length) hands(status, &device, &config, NULL, NULL, length, 36, 0)
    LOOKS(bytes, WITH_ROOM_HANDS, WITH_ROOM, 3);
#define INPUTS(states, length) osdp_device_set_inputs(&device, states, length)
#define INPUTS_HANDS(status, length) hands(status, &device, NULL, NULL, NULL, length, 1, 0)
    LOOKS(bytes, INPUTS_HANDS, INPUTS, 5);
#define OUTPUT_STATES(states, length) osdp_device_set_outputs(&device, states, length)
#define OUTPUT_STATES_HANDS(status, length) hands(status, &device, NULL, NULL, NULL, length, 2, 0)
    LOOKS(bytes, OUTPUT_STATES_HANDS, OUTPUT_STATES, 5);
#define READERS(states, length) osdp_device_set_readers(&device, states, length)
#define READERS_HANDS(status, length) hands(status, &device, NULL, NULL, NULL, length, 3, 0)
    LOOKS(bytes, READERS_HANDS, READERS, 5);
#define EVENT(data, length) osdp_device_event(&device, 0x53, data, length)
#define EVENT_HANDS(status, length) hands(status, &device, NULL, NULL, NULL, 0x53, length, 0)
    LOOKS(bytes, EVENT_HANDS, EVENT, 5);
#define EVENT_TEXT(line, length) osdp_device_event_text(&device, line, length)
#define EVENT_TEXT_HANDS(status, length) hands(status, &device, NULL, NULL, NULL, length, 4, 0)
    LOOKS(text, EVENT_TEXT_HANDS, EVENT_TEXT, 5);
#define STEP(data, length) osdp_device_step(&device, data, length, 1000, &count, &answer)
#define STEP_HANDS(status, length) hands(status, &device, &count, &answer, NULL, length, 1000, 0)
    LOOKS(bytes, STEP_HANDS, STEP, 5);
#define LIST(states, length) osdp_device_answer_list(&device, states, length)
#define LIST_HANDS(status, length) hands(status, &device, NULL, NULL, NULL, length, 5, 0)
    LOOKS(bytes, LIST_HANDS, LIST, 5);
    demand(osdp_device_answer_list(&device, bytes, 1433) == OSDP_NOT_ASKED && numbers[0] == 1433); /* what is too long the archive says */
#define MAKER(data, length) osdp_device_answer_maker(&device, vendor, data, length)
#define MAKER_HANDS(status, length) hands(status, &device, vendor, NULL, NULL, length, 6, 0)
    LOOKS(bytes, MAKER_HANDS, MAKER, 5);
}

int main(void)
{
    texts();
    records();
    of_a_panel();
    of_a_device();
    return 0;
}
