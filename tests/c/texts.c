/* Each status has words of its own, in which stands what its line in the header says, but those that differ by their machine alone; the version is
 * that of the header; each handle is a type of its own. */
#include <stdio.h>
#include <string.h>

#include "osdp.h"

int main(void)
{
    static const struct {
        osdp_status status;
        const char *word;
    } each[] = {
        { OSDP_OK, "done" }, { OSDP_NO_MACHINE, "no machine" }, { OSDP_IN_USE, "holds a machine already" }, { OSDP_BAD_TEXT, "no command and" },
        { OSDP_NO_EVENT, "tells" }, { OSDP_TOO_SMALL, "too small" }, { OSDP_NOT_ASKED, "an answer" }, { OSDP_OTHER_MESSAGE, "another" },
        { OSDP_MOMENT_TOO_FAR, "too far" }, { OSDP_UNKNOWN_CODE, "table" }, { OSDP_BAD_LENGTH, "allowed" }, { OSDP_BAD_COUNT, "disagrees" },
        { OSDP_PANEL_NO_MEMORY, "memory" }, { OSDP_TOO_MANY, "sixteen" }, { OSDP_ADDRESS_TAKEN, "is taken" }, { OSDP_NO_ENTRY, "no such device" },
        { OSDP_PANEL_OUT_OF_RANGE, "range" }, { OSDP_ADDRESS_OUT_OF_RANGE, "126" }, { OSDP_COMMANDS_FULL, "no more commands" }, { OSDP_POLL_SUBMITTED, "POLL" },
        { OSDP_NUMBERS_USED_UP, "number" }, { OSDP_NOT_CLOSED, "session" }, { OSDP_EVENTS_FULL, "events wait" }, { OSDP_MONITOR_TOO_LONG, "counted" }, { OSDP_MONITOR_STOPPED, "stopped" },
    };
    size_t count = sizeof each / sizeof each[0];
    for (size_t i = 0; i < count; i++) {
        for (size_t j = 0; j < count; j++) {
            const char *text = osdp_status_text(each[j].status);
            if ((strstr(text, each[i].word) != NULL) != (i == j)) {
                printf("texts.c: the words of %d: %s\n", (int)each[j].status, text);
                return 1;
            }
        }
    }
    if (strcmp(osdp_status_text(OSDP_DEVICE_NO_MEMORY), osdp_status_text(OSDP_PANEL_NO_MEMORY)) != 0
        || strcmp(osdp_status_text(OSDP_MONITOR_NO_MEMORY), osdp_status_text(OSDP_PANEL_NO_MEMORY)) != 0
        || strcmp(osdp_status_text(OSDP_DEVICE_OUT_OF_RANGE), osdp_status_text(OSDP_PANEL_OUT_OF_RANGE)) != 0
        || strcmp(osdp_status_text(OSDP_MONITOR_OUT_OF_RANGE), osdp_status_text(OSDP_PANEL_OUT_OF_RANGE)) != 0
        || strcmp(osdp_status_text((osdp_status)99), "an unknown status") != 0 || strcmp(osdp_version(), OSDP_VERSION) != 0) {
        printf("texts.c: another text\n");
        return 1;
    }
    static const struct {
        const char *name;
        osdp_size size;
    } sizes[] = {
        { "osdp_message", 1436 }, { "osdp_burst", 1444 }, { "osdp_raw", 1434 }, { "osdp_keypad", 257 }, { "osdp_formatted", 258 }, { "osdp_local_state", 2 },
        { "osdp_states", 1434 }, { "osdp_product", 8 }, { "osdp_pd_id", 12 }, { "osdp_capability", 3 }, { "osdp_communication", 8 }, { "osdp_maker", 1434 },
        { "osdp_nak", 1434 }, { "osdp_output", 4 }, { "osdp_led_state", 5 }, { "osdp_led", 14 }, { "osdp_buzzer", 5 }, { "osdp_text", 261 }, { "osdp_panel", 16 },
        { "osdp_panel_config", 40 }, { "osdp_moment", 16 }, { "osdp_report", 2912 }, { "osdp_device", 16 }, { "osdp_device_config", 28 },
        { "osdp_answer", 2900 }, { "osdp_monitor", 16 }, { "osdp_block", 0 }, { "osdp_repor", 0 }, { "osdp_reports", 0 }, { "", 0 }
    };
    for (size_t at = 0; at < sizeof sizes / sizeof sizes[0]; at++) {
        if (osdp_struct_size(sizes[at].name) != sizes[at].size) {
            printf("texts.c: the size of %s is %d\n", sizes[at].name, (int)osdp_struct_size(sizes[at].name));
            return 1;
        }
    }
    unsigned major, minor, last;
    if (sscanf(OSDP_VERSION, "%u.%u.%u", &major, &minor, &last) != 3 || 10000 * major + 100 * minor + last != OSDP_VERSION_NUMBER) {
        printf("texts.c: the version has another number\n");
        return 1;
    }
    return 0;
}
