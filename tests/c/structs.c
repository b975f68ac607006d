/* Each struct that a call writes, and the bytes around it, filled with a pattern before the call: each field has its value after it, the bytes of an
 * array beyond its length are still the pattern, and so are the bytes around the struct. A refused call has written nothing. What a call only reads stays
 * as it was. All of this is done with four patterns, so no field has its value by chance.
 *
 * The packets that are expected are written down from the standard's tables, with a CRC that is computed here bit by bit. */
#include "around.h"
#include "panels.h"

_Static_assert(sizeof(struct osdp_message) == 1436 && sizeof(struct osdp_burst) == 1444, "messages and bursts");
_Static_assert(sizeof(struct osdp_panel) == 16 && sizeof(struct osdp_panel_config) == 40, "panels");
_Static_assert(sizeof(struct osdp_moment) == 16 && sizeof(struct osdp_report) == 2912, "reports");
_Static_assert(sizeof(struct osdp_device) == 16 && sizeof(struct osdp_device_config) == 28, "readers");
_Static_assert(sizeof(struct osdp_answer) == 2900, "answers");

static struct place panel_place, reader_place;

/* The packet with this address, number, code and data, whose CRC is computed bit by bit. */
static size_t packet(uint8_t *bytes, uint8_t address, uint8_t number, uint8_t code, const uint8_t *data, size_t length)
{
    size_t whole = 6 + length + 2;
    const uint8_t head[] = { 0x53, address, (uint8_t)whole, (uint8_t)(whole >> 8), (uint8_t)(number | 4), code };
    uint16_t crc = 0x1D0F;
    memcpy(bytes, head, 6);
    memcpy(bytes + 6, data, length);
    for (size_t i = 0; i < 6 + length; i++) {
        crc ^= (uint16_t)(bytes[i] << 8);
        for (int bit = 0; bit < 8; bit++) {
            crc = (uint16_t)(crc & 0x8000 ? crc << 1 ^ 0x1021 : crc << 1);
        }
    }
    bytes[6 + length] = (uint8_t)crc;
    bytes[7 + length] = (uint8_t)(crc >> 8);
    return whole;
}

static bool is_burst(const struct osdp_burst *burst, uint8_t address, uint8_t number, uint8_t code, const uint8_t *data, size_t length)
{
    uint8_t wanted[1440];
    size_t whole = packet(wanted, address, number, code, data, length);
    return burst->length == whole && memcmp(burst->bytes, wanted, whole) == 0
        && is_pattern(burst->bytes + whole, sizeof burst->bytes - whole);
}

static void settings(void)
{
    struct osdp_panel_config *config = filled(&first_place, sizeof *config);
    osdp_panel_defaults(config);
    demand_around(&first_place);
    demand(config->check == OSDP_CHECK_CRC && config->reply_wait == 200 && config->poll_interval == 50);
    demand(config->sends == 3 && config->busy_wait == 50 && config->busy_limit == 20);
    demand(config->quiet_wait == 400 && config->gap == 20 && config->capacity == 64 && config->clock_limit == 86400000);
}

/* A handle that is none, with the pattern around it. */
static void *no_machine(struct place *place, size_t size)
{
    return memset(filled(place, size), 0, size);
}

static bool is_zero(const void *bytes, size_t count)
{
    const uint8_t *each = bytes;
    while (count > 0 && each[count - 1] == 0) {
        count--;
    }
    return count == 0;
}

/* Every call on a handle without a machine is refused, and writes nothing. */
static void no_machines(struct osdp_panel *panel, struct osdp_device *reader)
{
    const uint8_t bytes[] = { 0 };
    void *first = filled(&first_place, MOST), *second = filled(&second_place, MOST);
    demand(osdp_panel_free(panel) == OSDP_NO_MACHINE);
    demand(osdp_panel_add(panel, 5, 0, first) == OSDP_NO_MACHINE);
    demand(osdp_panel_next_number(panel, 0, first) == OSDP_NO_MACHINE);
    demand(osdp_panel_begin(panel, 0, 0) == OSDP_NO_MACHINE);
    demand(osdp_panel_submit(panel, 0, 0x64, bytes, 0, 0, first) == OSDP_NO_MACHINE);
    demand(osdp_panel_submit_text(panel, 0, "LSTAT", 5, 0, first) == OSDP_NO_MACHINE);
    demand(osdp_panel_withdraw(panel, 0, first) == OSDP_NO_MACHINE);
    demand(osdp_panel_retarget(panel, 0, 5) == OSDP_NO_MACHINE);
    demand(osdp_panel_bytes(panel, bytes, 1, 0) == OSDP_NO_MACHINE);
    demand(osdp_panel_silence(panel, 0) == OSDP_NO_MACHINE);
    demand(osdp_panel_tick(panel, 0, first) == OSDP_NO_MACHINE);
    demand(osdp_panel_write(panel, 0, first) == OSDP_NO_MACHINE);
    demand(osdp_panel_next_deadline(panel, first) == OSDP_NO_MACHINE);
    demand(osdp_panel_next_report(panel, first) == OSDP_NO_MACHINE);
    demand(osdp_panel_entries(panel, first) == OSDP_NO_MACHINE);
    demand(osdp_panel_address(panel, 0, first) == OSDP_NO_MACHINE);
    demand(osdp_panel_waiting(panel, 0, first) == OSDP_NO_MACHINE);
    demand(osdp_panel_is_closed(panel, 0, first) == OSDP_NO_MACHINE);
    demand(osdp_device_free(reader) == OSDP_NO_MACHINE);
    demand(osdp_device_set_inputs(reader, bytes, 1) == OSDP_NO_MACHINE);
    demand(osdp_device_set_outputs(reader, bytes, 1) == OSDP_NO_MACHINE);
    demand(osdp_device_set_readers(reader, bytes, 1) == OSDP_NO_MACHINE);
    demand(osdp_device_set_local(reader, 1, 1) == OSDP_NO_MACHINE);
    demand(osdp_device_set_busy(reader, 1) == OSDP_NO_MACHINE);
    demand(osdp_device_event(reader, 0x48, bytes, 1) == OSDP_NO_MACHINE);
    demand(osdp_device_event_text(reader, "KEYPAD 0 31", 11) == OSDP_NO_MACHINE);
    demand(osdp_device_waiting(reader, first) == OSDP_NO_MACHINE);
    demand(osdp_device_address(reader, first) == OSDP_NO_MACHINE);
    demand(osdp_device_pending(reader, first) == OSDP_NO_MACHINE);
    demand(osdp_device_answer_done(reader) == OSDP_NO_MACHINE);
    demand(osdp_device_answer_local(reader, 1, 1) == OSDP_NO_MACHINE);
    demand(osdp_device_answer_list(reader, bytes, 1) == OSDP_NO_MACHINE);
    demand(osdp_device_answer_refused(reader, 9) == OSDP_NO_MACHINE);
    demand(osdp_device_answer_maker(reader, (const uint8_t *)"SIM", bytes, 1) == OSDP_NO_MACHINE);
    demand(osdp_device_step(reader, bytes, 1, 0, second, first) == OSDP_NO_MACHINE);
    demand(osdp_device_tick(reader, 0, first) == OSDP_NO_MACHINE);
    demand(osdp_device_silence(reader, 0, first) == OSDP_NO_MACHINE);
    demand_untouched(&first_place);
    demand_untouched(&second_place);
    demand(is_zero(panel, sizeof *panel) && is_zero(reader, sizeof *reader));
}

static void new_machines(struct osdp_panel *panel, struct osdp_device *reader)
{
    struct osdp_panel_config config, config_before;
    struct osdp_device_config what = { 5, 3, 20, 0x04030201, 0, { { 0x53, 0x49, 0x4D }, 7, 8, 9, 10, 11 } }, what_before = what;
    osdp_panel_defaults(&config);
    config_before = config;
    demand(osdp_panel_new(panel, &config) == OSDP_OK && !is_zero(panel, sizeof *panel));
    demand(memcmp(&config, &config_before, sizeof config) == 0);
    size_t *entry = filled(&first_place, sizeof *entry);
    demand(osdp_panel_add(panel, 127, 0, entry) == OSDP_PANEL_OUT_OF_RANGE);
    demand_untouched(&first_place);
    demand(osdp_panel_add(panel, 5, 70, entry) == OSDP_OK && *entry == 0);
    demand_around(&first_place);
    demand(osdp_panel_add(panel, 6, 0, entry) == OSDP_OK && *entry == 1);

    const uint8_t capabilities[] = { 1, 2, 3 };
    demand(osdp_device_new(reader, &what, capabilities, 3) == OSDP_OK && !is_zero(reader, sizeof *reader));
    demand(memcmp(&what, &what_before, sizeof what) == 0);
    demand_around(&panel_place);
    demand_around(&reader_place);
}

/* The numbers of orders: the first device's begin with the one that it was added with. What is refused writes none. */
static void numbers(struct osdp_panel *panel)
{
    const uint8_t out[] = { 1, 2, 3, 4 };
    uint64_t *number = filled(&first_place, sizeof *number);
    demand(osdp_panel_next_number(panel, 2, number) == OSDP_NO_ENTRY);
    demand(osdp_panel_submit(panel, 0, 0x68, out, 3, OSDP_NEVER, number) == OSDP_BAD_LENGTH && osdp_panel_submit(panel, 2, 0x68, out, 4, OSDP_NEVER, number) == OSDP_NO_ENTRY);
    demand(osdp_panel_submit_text(panel, 0, "OUT", 3, OSDP_NEVER, number) == OSDP_BAD_TEXT && osdp_panel_submit_text(panel, 0, "POLL", 4, OSDP_NEVER, number) == OSDP_POLL_SUBMITTED);
    demand_untouched(&first_place);
    demand(osdp_panel_submit(panel, 0, 0x68, out, 4, OSDP_NEVER, number) == OSDP_OK && *number == 70);
    demand_around(&first_place);
    number = filled(&first_place, sizeof *number);
    demand(osdp_panel_submit_text(panel, 0, "LSTAT", 5, OSDP_NEVER, number) == OSDP_OK && *number == 71);
    demand_around(&first_place);
    number = filled(&first_place, sizeof *number);
    demand(osdp_panel_next_number(panel, 0, number) == OSDP_OK && *number == 72);
    demand_around(&first_place);
    demand(osdp_panel_next_number(panel, 1, number) == OSDP_OK && *number == 0);
    demand(osdp_panel_withdraw(panel, 0, filled(&second_place, sizeof(struct osdp_message))) == OSDP_OK);
    demand(osdp_panel_withdraw(panel, 0, filled(&second_place, sizeof(struct osdp_message))) == OSDP_OK);
    demand(osdp_panel_next_number(panel, 0, number) == OSDP_OK && *number == 72); /* what is taken back has had its number */
}

/* What waits, and how much. */
static void waiting(struct osdp_panel *panel, struct osdp_device *reader)
{
    const uint8_t out[] = { 1, 2, 3, 4 }, keys[] = { 0, 1, '7' };
    struct osdp_message *command = filled(&first_place, sizeof *command);
    demand(gives_data(panel, 1, 0x68, out, 4) == OSDP_OK);
    demand(osdp_panel_withdraw(panel, 2, command) == OSDP_NO_ENTRY);
    demand_untouched(&first_place);
    demand(osdp_panel_withdraw(panel, 1, command) == OSDP_OK && is_message(command, 0x68, out, 4));
    demand_around(&first_place);
    command = filled(&first_place, sizeof *command);
    demand(osdp_panel_withdraw(panel, 1, command) == OSDP_OK && is_none(command));
    demand_around(&first_place);

    size_t *count = filled(&first_place, sizeof *count);
    demand(osdp_device_event(reader, 0x53, keys, 3) == OSDP_OK);
    demand(osdp_device_waiting(reader, count) == OSDP_OK && *count == 1);
    demand_around(&first_place);
}

/* What the panel's devices are: the second entry has a command that waits. */
static void known(struct osdp_panel *panel, struct osdp_device *reader)
{
    const uint8_t out[] = { 1, 2, 3, 4 };
    demand(gives_data(panel, 1, 0x68, out, 4) == OSDP_OK);
    size_t *count = filled(&first_place, sizeof *count);
    demand(osdp_panel_entries(panel, count) == OSDP_OK && *count == 2);
    demand_around(&first_place);
    count = filled(&first_place, sizeof *count);
    demand(osdp_panel_waiting(panel, 2, count) == OSDP_NO_ENTRY);
    demand_untouched(&first_place);
    demand(osdp_panel_waiting(panel, 1, count) == OSDP_OK && *count == 1);
    demand_around(&first_place);
    demand(osdp_panel_withdraw(panel, 1, filled(&second_place, sizeof(struct osdp_message))) == OSDP_OK);
    uint32_t *address = filled(&first_place, sizeof *address);
    demand(osdp_panel_address(panel, 2, address) == OSDP_NO_ENTRY && osdp_panel_is_closed(panel, 2, address) == OSDP_NO_ENTRY);
    demand_untouched(&first_place);
    demand(osdp_panel_address(panel, 1, address) == OSDP_OK && *address == 6);
    demand(osdp_panel_is_closed(panel, 1, address) == OSDP_OK && *address == 1);
    demand(osdp_device_address(reader, address) == OSDP_OK && *address == 5);
    demand_around(&first_place);
}

static struct osdp_moment *deadline(struct osdp_panel *panel)
{
    struct osdp_moment *due = filled(&first_place, sizeof *due);
    demand(osdp_panel_next_deadline(panel, due) == OSDP_OK);
    demand_around(&first_place);
    return due;
}

static struct osdp_report *report_of(struct osdp_panel *panel)
{
    struct osdp_report *report = filled(&first_place, sizeof *report);
    demand(osdp_panel_next_report(panel, report) == OSDP_OK);
    demand_around(&first_place);
    return report;
}

/* Whether a tick has a burst go out. */
static bool sends(struct osdp_panel *panel, uint64_t now)
{
    uint32_t *told = filled(&first_place, sizeof *told);
    demand(osdp_panel_tick(panel, now, told) == OSDP_OK && *told <= 1);
    demand_around(&first_place);
    return *told == 1;
}

static struct osdp_burst *written(struct osdp_panel *panel, uint64_t now)
{
    struct osdp_burst *burst = filled(&first_place, sizeof *burst);
    demand(osdp_panel_write(panel, now, burst) == OSDP_OK);
    demand_around(&first_place);
    return burst;
}

/* The burst of a tick, which is written a millisecond later, and then no more. */
static struct osdp_burst *burst_of(struct osdp_panel *panel, uint64_t now)
{
    static struct osdp_burst burst;
    demand(sends(panel, now));
    burst = *written(panel, now + 1);
    const struct osdp_burst *again = written(panel, now + 1);
    demand(again->length == 0 && is_pattern(again->bytes, sizeof again->bytes));
    return &burst;
}

/* The reader hears a packet of the panel, and says what is told in the answer. */
static struct osdp_answer *answer_of(struct osdp_device *reader, const struct osdp_burst *heard, uint64_t now)
{
    struct osdp_burst before = *heard;
    struct osdp_answer *answer = filled(&first_place, sizeof *answer);
    size_t *taken = filled(&second_place, sizeof *taken);
    demand(osdp_device_step(reader, before.bytes, before.length, now, taken, answer) == OSDP_OK && *taken == before.length);
    demand_around(&first_place);
    demand_around(&second_place);
    return answer;
}

/* What the reader says after it has stopped before a command. */
static struct osdp_answer *answer_after(struct osdp_device *reader, uint64_t now)
{
    struct osdp_answer *answer = filled(&first_place, sizeof *answer);
    size_t *taken = filled(&second_place, sizeof *taken);
    demand(osdp_device_step(reader, &pattern, 0, now, taken, answer) == OSDP_OK && *taken == 0);
    demand_around(&first_place);
    demand_around(&second_place);
    return answer;
}

static bool says_nothing(const struct osdp_answer *answer)
{
    return answer->kind == OSDP_SAID_NONE && answer->order == OSDP_ORDER_NONE && answer->moved == 0 && answer->address == 0
        && answer->baud_rate == 0 && is_none(&answer->command) && answer->burst.length == 0
        && is_pattern(answer->burst.bytes, sizeof answer->burst.bytes);
}

static void silences(struct osdp_device *reader)
{
    struct osdp_answer *answer = filled(&first_place, sizeof *answer);
    demand(osdp_device_tick(reader, 0, answer) == OSDP_OK && says_nothing(answer));
    demand_around(&first_place);
    answer = filled(&first_place, sizeof *answer);
    demand(osdp_device_silence(reader, 0, answer) == OSDP_OK && says_nothing(answer));
    demand_around(&first_place);
}

/* The reader's answer comes to the panel, whose next turn is due at once: a report waits. */
static void to_panel(struct osdp_panel *panel, const struct osdp_burst *burst, uint64_t now)
{
    struct osdp_burst heard = *burst;
    demand(osdp_panel_bytes(panel, heard.bytes, heard.length, now) == OSDP_OK);
    struct osdp_moment *due = deadline(panel);
    demand(due->present == 1 && due->moment == now);
}

/* A turn whose bytes brought a report sends nothing. */
static void rests(struct osdp_panel *panel, uint64_t now)
{
    struct osdp_moment *due = deadline(panel);
    demand(due->present == 1 && due->moment == now);
    demand(!sends(panel, now));
    const struct osdp_burst *none = written(panel, now);
    demand(none->length == 0 && is_pattern(none->bytes, sizeof none->bytes));
}

/* A report about no order. */
static bool has_no_order(const struct osdp_report *report, uint64_t since)
{
    return report->numbered == 0 && report->number == 0 && report->since == since && report->too_late == 0;
}

static bool has_order(const struct osdp_report *report, uint64_t number)
{
    return report->numbered == 1 && report->number == number && report->since == 0 && report->too_late == 0;
}

static void opening(struct osdp_panel *panel, struct osdp_device *reader)
{
    const uint8_t asked[] = { 0 }, id[] = { 0x53, 0x49, 0x4D, 7, 8, 1, 2, 3, 4, 9, 10, 11 };
    struct osdp_moment *due = deadline(panel);
    demand(due->present == 0 && due->moment == 0);
    demand(osdp_panel_begin(panel, 0, 1000) == OSDP_OK);
    due = deadline(panel);
    demand(due->present == 1 && due->moment == 1400);
    demand(!sends(panel, 1399));
    const struct osdp_burst *burst = written(panel, 1399);
    demand(burst->length == 0 && is_pattern(burst->bytes, sizeof burst->bytes));
    burst = burst_of(panel, 1400);
    demand(is_burst(burst, 5, 0, 0x61, asked, 1));

    struct osdp_answer *answer = answer_of(reader, burst, 1400);
    demand(answer->kind == OSDP_SAID_ZERO && answer->order == OSDP_ORDER_AGAIN && answer->moved == 0);
    demand(answer->address == 0 && answer->baud_rate == 0);
    demand(is_message(&answer->command, 0x61, asked, 1) && is_burst(&answer->burst, 0x85, 0, 0x45, id, 12));

    to_panel(panel, &answer->burst, 1410);
    struct osdp_report *report = report_of(panel);
    demand(report->kind == OSDP_REPORT_OPENED && report->entry == 0 && report->detail == 0 && has_no_order(report, 0));
    demand(is_none(&report->command) && is_message(&report->reply, 0x45, id, 12));
    report = report_of(panel);
    demand(report->kind == OSDP_REPORT_NONE && report->entry == 0 && report->detail == 0 && has_no_order(report, 0));
    demand(is_none(&report->command) && is_none(&report->reply));
    rests(panel, 1410);
}

/* A command of the largest size there is, which the reader refuses: both arrays are full. */
static void largest(struct osdp_panel *panel, struct osdp_device *reader)
{
    static uint8_t data[1433];
    const uint8_t refused[] = { 9 };
    for (size_t i = 0; i < sizeof data; i++) {
        data[i] = (uint8_t)(i * 7 + 1);
    }
    demand(gives_data(panel, 0, 0x80, data, 1433) == OSDP_BAD_LENGTH);
    demand(gives_data(panel, 0, 0x80, data, 1432) == OSDP_OK);
    const struct osdp_burst *burst = burst_of(panel, 1500);
    demand(burst->length == 1440 && is_burst(burst, 5, 1, 0x80, data, 1432));
    struct osdp_answer *answer = answer_of(reader, burst, 1500);
    demand(answer->kind == OSDP_SAID_PENDING && answer->order == OSDP_ORDER_PENDING && answer->moved == 0);
    demand(answer->address == 0 && answer->baud_rate == 0 && is_message(&answer->command, 0x80, data, 1432));
    demand(answer->burst.length == 0 && is_pattern(answer->burst.bytes, sizeof answer->burst.bytes));
    struct osdp_message *pending = filled(&second_place, sizeof *pending);
    demand(osdp_device_pending(reader, pending) == OSDP_OK && is_message(pending, 0x80, data, 1432));
    demand_around(&second_place);
    demand(osdp_device_answer_maker(reader, data, data, 1430) == OSDP_BAD_LENGTH);
    demand(osdp_device_answer_list(reader, data, 1433) == OSDP_BAD_LENGTH);
    answer = answer_after(reader, 1500);
    demand(answer->kind == OSDP_SAID_TAKEN && answer->order == OSDP_ORDER_REFUSED && answer->moved == 0);
    demand(is_message(&answer->command, 0x80, data, 1432) && is_burst(&answer->burst, 0x85, 1, 0x41, refused, 1));
    to_panel(panel, &answer->burst, 1510);
    struct osdp_report *report = report_of(panel);
    demand(report->kind == OSDP_REPORT_SETTLED && report->entry == 0 && report->detail == 0 && has_order(report, 72));
    demand(is_message(&report->command, 0x80, data, 1432) && is_message(&report->reply, 0x41, refused, 1));
    rests(panel, 1510);
}

/* An event is told, and the reader moves. */
static void moving(struct osdp_panel *panel, struct osdp_device *reader)
{
    const uint8_t keys[] = { 0, 1, '7' }, none[] = { 0 }, set[] = { 9, 0x00, 0x4B, 0, 0 };
    const struct osdp_burst *burst = burst_of(panel, 1600);
    demand(is_burst(burst, 5, 2, 0x60, none, 0));
    struct osdp_answer *answer = answer_of(reader, burst, 1600);
    demand(answer->kind == OSDP_SAID_TAKEN && answer->order == OSDP_ORDER_NONE && is_none(&answer->command));
    demand(is_burst(&answer->burst, 0x85, 2, 0x53, keys, 3));
    to_panel(panel, &answer->burst, 1610);
    struct osdp_report *report = report_of(panel);
    demand(report->kind == OSDP_REPORT_EVENT && report->entry == 0 && report->detail == 0 && has_no_order(report, 1600));
    demand(is_none(&report->command) && is_message(&report->reply, 0x53, keys, 3));
    rests(panel, 1610);

    demand(gives_data(panel, 0, 0x6E, set, 5) == OSDP_OK);
    burst = burst_of(panel, 1700);
    demand(is_burst(burst, 5, 3, 0x6E, set, 5));
    answer = answer_of(reader, burst, 1700);
    demand(answer->kind == OSDP_SAID_TAKEN && answer->order == OSDP_ORDER_ONCE);
    demand(answer->moved == 1 && answer->address == 9 && answer->baud_rate == 19200);
    demand(is_message(&answer->command, 0x6E, set, 5) && is_burst(&answer->burst, 0x85, 3, 0x54, set, 5));
    to_panel(panel, &answer->burst, 1710);
    report = report_of(panel);
    demand(report->kind == OSDP_REPORT_MOVED && report->entry == 0 && report->detail == 0 && has_order(report, 73));
    demand(is_message(&report->command, 0x6E, set, 5) && is_message(&report->reply, 0x54, set, 5));
    rests(panel, 1710);
}

/* Nobody answers at the second entry: after three sends the session is lost. */
static void losing(struct osdp_panel *panel)
{
    const uint8_t asked[] = { 0 };
    demand(osdp_panel_begin(panel, 1, 2000) == OSDP_OK);
    for (uint64_t now = 2400; now < 3000; now += 200) {
        demand(is_burst(burst_of(panel, now), 6, 0, 0x61, asked, 1));
    }
    demand(!sends(panel, 3000));
    struct osdp_report *report = report_of(panel);
    demand(report->kind == OSDP_REPORT_LOST && report->entry == 1 && report->detail == OSDP_LOST_NO_REPLY && has_no_order(report, 0));
    demand(is_none(&report->command) && is_none(&report->reply));
}

int main(void)
{
    const uint8_t patterns[] = { 0x00, 0x5A, 0xA5, 0xFF };
    for (size_t i = 0; i < sizeof patterns; i++) {
        pattern = patterns[i];
        struct osdp_panel *panel = no_machine(&panel_place, sizeof *panel);
        struct osdp_device *reader = no_machine(&reader_place, sizeof *reader);
        settings();
        no_machines(panel, reader);
        new_machines(panel, reader);
        numbers(panel);
        waiting(panel, reader);
        known(panel, reader);
        silences(reader);
        opening(panel, reader);
        largest(panel, reader);
        moving(panel, reader);
        losing(panel);
        demand(osdp_panel_free(panel) == OSDP_OK && is_zero(panel, sizeof *panel));
        demand(osdp_device_free(reader) == OSDP_OK && is_zero(reader, sizeof *reader));
        demand_around(&panel_place);
        demand_around(&reader_place);
        no_machines(panel, reader);
    }
    return 0;
}
