/* What makers of panels write each time above a panel (osdp_site.h): plain C over the calls of a panel. */
#include "osdp_site.h"

#include <string.h>

/* How many bytes of a state's data say what it is of, from the first on; and a text's row and column, which stand further on. */
static size_t name_length(uint8_t code)
{
    return code == OSDP_LED ? 2 : 1;
}

/* Whether two states are of the same output, LED, buzzer or text. */
static bool is_same(const struct osdp_site_state *state, const struct osdp_message *command)
{
    return state->code == command->code && memcmp(state->data, command->data, name_length(state->code)) == 0 &&
           (state->code != OSDP_TEXT || memcmp(state->data + 3, command->data + 3, 2) == 0);
}

static osdp_site_status judge_output(const struct osdp_message *command)
{
    uint8_t control = command->data[1];
    if (command->length != 4) {
        return OSDP_SITE_SEVERAL;
    }
    if (control == OSDP_OUTPUT_ON_FOR_A_TIME || control == OSDP_OUTPUT_OFF_FOR_A_TIME) {
        return OSDP_SITE_TIMED;
    }
    return control >= OSDP_OUTPUT_OFF && control <= OSDP_OUTPUT_ON_AFTER ? OSDP_SITE_OK : OSDP_SITE_NO_STATE;
}

static osdp_site_status judge_led(const struct osdp_message *command)
{
    if (command->length != 14) {
        return OSDP_SITE_SEVERAL;
    }
    if (command->data[2] > OSDP_LED_CANCEL_TEMPORARY) {
        return OSDP_SITE_TIMED;
    }
    return command->data[9] == OSDP_LED_SET_PERMANENT ? OSDP_SITE_OK : OSDP_SITE_NO_STATE;
}

static osdp_site_status judge_buzzer(const struct osdp_message *command)
{
    uint8_t tone = command->data[1], count = command->data[4];
    if (tone == OSDP_TONE_NONE) {
        return OSDP_SITE_NO_STATE;
    }
    return tone > OSDP_TONE_OFF && count > 0 ? OSDP_SITE_TIMED : OSDP_SITE_OK;
}

static osdp_site_status judge_text(const struct osdp_message *command)
{
    uint8_t shown = command->data[1];
    if (shown == OSDP_TEXT_TEMPORARY || shown == OSDP_TEXT_TEMPORARY_WRAPPED) {
        return OSDP_SITE_TIMED;
    }
    return shown == OSDP_TEXT_PERMANENT || shown == OSDP_TEXT_PERMANENT_WRAPPED ? OSDP_SITE_OK : OSDP_SITE_NO_STATE;
}

/* Whether a command says a state, or why it says none. */
static osdp_site_status judge(const struct osdp_message *command)
{
    char text[1];
    osdp_size length;
    osdp_status status = osdp_command_text(command->code, command->data, command->length, text, 0, &length);
    if (!command->present || (status != OSDP_OK && status != OSDP_TOO_SMALL)) {
        return OSDP_SITE_NO_STATE;
    }
    switch (command->code) {
    case OSDP_OUT:
        return judge_output(command);
    case OSDP_LED:
        return judge_led(command);
    case OSDP_BUZ:
        return judge_buzzer(command);
    case OSDP_TEXT:
        return judge_text(command);
    default:
        return OSDP_SITE_NO_STATE;
    }
}

void osdp_site_new(osdp_site *site, struct osdp_site_entry *entries, size_t count, size_t bytes, uint64_t now)
{
    site->entries = entries;
    site->count = count;
    site->bytes = bytes;
    site->pause = OSDP_SITE_PAUSE;
    for (size_t i = 0; i < count; i++) {
        entries[i].begins = entries[i].since = now;
        entries[i].is_online = false;
        entries[i].count = entries[i].done = 0;
    }
}

/* Whether a command, its code and its data, has more bytes than the panel has room for. */
static bool is_too_long(const osdp_site *site, const struct osdp_message *command)
{
    return site->bytes != OSDP_SITE_ANY_LENGTH && (size_t)1 + command->length > site->bytes;
}

/* Takes out what was wanted of the same before. */
static void forget(struct osdp_site_entry *entry, const struct osdp_message *command)
{
    for (uint16_t i = 0; i < entry->count; i++) {
        if (is_same(&entry->wanted[i], command)) {
            entry->count--;
            if (i < entry->done) {
                entry->done--;
            }
            memmove(&entry->wanted[i], &entry->wanted[i + 1], (entry->count - i) * sizeof entry->wanted[0]);
            return;
        }
    }
}

osdp_site_status osdp_site_wants(osdp_site *site, size_t number, const struct osdp_message *command)
{
    if (number >= site->count) {
        return OSDP_SITE_NO_ENTRY;
    }
    osdp_site_status status = judge(command);
    if (status != OSDP_SITE_OK) {
        return status;
    }
    if (is_too_long(site, command)) {
        return OSDP_SITE_TOO_LONG;
    }
    struct osdp_site_entry *entry = &site->entries[number];
    forget(entry, command); /* where all room is taken and nothing is forgotten, nothing has changed */
    if (entry->count == OSDP_SITE_ROOM) {
        return OSDP_SITE_FULL;
    }
    struct osdp_site_state *state = &entry->wanted[entry->count++];
    state->code = command->code;
    state->length = command->length;
    memcpy(state->data, command->data, command->length);
    return OSDP_SITE_OK;
}

bool osdp_site_heed(osdp_site *site, const struct osdp_report *report, uint64_t now)
{
    bool opens = report->kind == OSDP_REPORT_OPENED, ends = report->kind == OSDP_REPORT_LOST || report->kind == OSDP_REPORT_MOVED;
    if ((!opens && !ends) || report->entry >= site->count) {
        return false;
    }
    struct osdp_site_entry *entry = &site->entries[report->entry];
    if (opens) {
        entry->done = 0;
    } else {
        entry->begins = now < UINT64_MAX - site->pause ? now + site->pause : UINT64_MAX - 1;
    }
    if (entry->is_online == opens) {
        return false;
    }
    entry->is_online = opens;
    entry->since = now;
    return true;
}

/* The session begins, where none has, and what waits is taken back: so no state goes out twice. At a moment that the panel refuses nothing is done: a call with no bytes asks
 * whether it does. */
static bool begin_anew(osdp_panel *panel, size_t number, uint64_t now)
{
    static struct osdp_message stale;
    if (osdp_panel_bytes(panel, NULL, 0, now) == OSDP_MOMENT_TOO_FAR) {
        return false;
    }
    if (osdp_panel_begin(panel, number, now) != OSDP_OK) {
        return true;
    }
    while (osdp_panel_withdraw(panel, number, &stale) == OSDP_OK && stale.present) {
    }
    return true;
}

/* What is wanted and not submitted yet goes to the panel, up to the first that it refuses. */
static void refresh(struct osdp_site_entry *entry, osdp_panel *panel, size_t number)
{
    uint64_t order;
    while (entry->is_online && entry->done < entry->count) {
        const struct osdp_site_state *state = &entry->wanted[entry->done];
        if (osdp_panel_submit(panel, number, state->code, state->data, state->length, OSDP_NEVER, &order) != OSDP_OK) {
            return;
        }
        entry->done++;
    }
}

void osdp_site_act(osdp_site *site, osdp_panel *panel, uint64_t now)
{
    for (size_t i = 0; i < site->count; i++) {
        if (osdp_site_is_due(site, i, now) && begin_anew(panel, i, now)) {
            site->entries[i].begins = UINT64_MAX;
        }
        refresh(&site->entries[i], panel, i);
    }
}

uint64_t osdp_site_next_deadline(const osdp_site *site)
{
    uint64_t first = UINT64_MAX;
    for (size_t i = 0; i < site->count; i++) {
        first = site->entries[i].begins < first ? site->entries[i].begins : first;
    }
    return first;
}

bool osdp_site_is_due(const osdp_site *site, size_t number, uint64_t now)
{
    return number < site->count && site->entries[number].begins != UINT64_MAX && site->entries[number].begins <= now;
}

bool osdp_site_is_refreshed(const osdp_site *site, size_t number)
{
    return number < site->count && site->entries[number].is_online && site->entries[number].done == site->entries[number].count;
}

/* When the site or its panel is due; UINT64_MAX where neither is. */
static uint64_t next_due(const osdp_site *site, osdp_panel *panel)
{
    struct osdp_moment due;
    uint64_t first = osdp_site_next_deadline(site);
    return osdp_panel_next_deadline(panel, &due) == OSDP_OK && due.present && due.moment < first ? due.moment : first;
}

uint64_t osdp_site_wait(const osdp_site *site, osdp_panel *panel, uint64_t now, uint64_t most)
{
    uint64_t first = next_due(site, panel);
    if (first <= now) {
        return 0;
    }
    return first - now < most ? first - now : most;
}

bool osdp_site_order(
    const osdp_site *site, osdp_panel *panel, size_t number, const struct osdp_message *command, uint64_t until, uint64_t *order)
{
    return number < site->count && site->entries[number].is_online &&
           osdp_panel_submit(panel, number, command->code, command->data, command->length, until, order) == OSDP_OK;
}

/* Hands each report to the program, once it is heeded. */
static void take_reports(osdp_site *site, osdp_panel *panel, uint64_t now, osdp_site_takes *takes, void *of)
{
    static struct osdp_report report;
    while (osdp_panel_next_report(panel, &report) == OSDP_OK && report.kind != OSDP_REPORT_NONE) {
        takes(of, &report, osdp_site_heed(site, &report, now), now);
    }
}

bool osdp_site_turn(osdp_site *site, osdp_panel *panel, const uint8_t *bytes, size_t length, uint64_t now, osdp_site_takes *takes, void *of)
{
    uint32_t sends = 0;
    if (osdp_panel_bytes(panel, bytes, length, now) == OSDP_MOMENT_TOO_FAR) {
        (void)osdp_panel_set_moment(panel, now);
        (void)osdp_panel_bytes(panel, bytes, length, now);
    }
    take_reports(site, panel, now, takes, of);
    osdp_site_act(site, panel, now);
    return osdp_panel_tick(panel, now, &sends) == OSDP_OK && sends != 0;
}

/* Hands bytes to the device, until all are taken and nothing is said. */
static osdp_status hear(osdp_device *device, const uint8_t *bytes, size_t length, uint64_t now, osdp_device_takes *takes, void *of)
{
    static struct osdp_answer answer;
    osdp_size at = 0, taken;
    for (;;) {
        osdp_status status = osdp_device_step(device, bytes + at, length - at, now, &taken, &answer);
        at += status == OSDP_OK ? taken : 0;
        if (status != OSDP_OK || (at == length && answer.kind == OSDP_SAID_NONE)) {
            return status;
        }
        if (answer.kind != OSDP_SAID_NONE) {
            takes(of, &answer, now);
        }
    }
}

void osdp_device_turn(osdp_device *device, const uint8_t *bytes, size_t length, uint64_t now, osdp_device_takes *takes, void *of)
{
    static const uint8_t none[1] = { 0 };
    static struct osdp_answer answer;
    if (hear(device, bytes, length, now, takes, of) == OSDP_MOMENT_TOO_FAR) {
        (void)osdp_device_set_moment(device, now); /* the bytes are left: an answer to them would keep what is too old from leaving */
    }
    if (osdp_device_tick(device, now, &answer) == OSDP_OK && answer.kind != OSDP_SAID_NONE) {
        takes(of, &answer, now);
        (void)hear(device, none, 0, now, takes, of);
    }
}

void osdp_output_for(uint8_t output, uint16_t tenths, struct osdp_message *command)
{
    const struct osdp_output record = { tenths, output, OSDP_OUTPUT_ON_FOR_A_TIME };
    (void)osdp_out(&record, 1, command);
}

void osdp_color(uint8_t color, struct osdp_message *command)
{
    const struct osdp_led record = { 0, 0, 0, { OSDP_LED_NOTHING, 0, 0, 0, 0 }, { OSDP_LED_SET_PERMANENT, 1, 0, color, color } };
    (void)osdp_led(&record, 1, command);
}

void osdp_color_for(uint8_t color, uint16_t tenths, struct osdp_message *command)
{
    const struct osdp_led record = { tenths, 0, 0, { OSDP_LED_SET_TEMPORARY, 1, 0, color, color }, { OSDP_LED_NOTHING, 0, 0, 0, 0 } };
    (void)osdp_led(&record, 1, command);
}

void osdp_sound(bool sounds, struct osdp_message *command)
{
    struct osdp_buzzer buzzer = { 0, OSDP_TONE_OFF, 5, 5, 0 };
    if (sounds) {
        buzzer.tone = OSDP_TONE_DEFAULT;
    }
    osdp_buzzer(&buzzer, command);
}
