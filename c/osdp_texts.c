/* What statuses say, in words, the version, and the sizes of structs: plain C beside the archive, which gives and takes no such texts. */
#include "osdp.h"

#define SIZE(name) { #name, sizeof(struct name) }

/* Whether two texts are the same: nothing is needed of the C library here. */
static int are_same(const char *text, const char *other)
{
    size_t at = 0;
    while (text[at] != 0 && text[at] == other[at]) {
        at++;
    }
    return text[at] == other[at];
}

osdp_size osdp_struct_size(const char *name)
{
    static const struct {
        const char *name;
        osdp_size size;
    } structs[] = {
        SIZE(osdp_message), SIZE(osdp_burst), SIZE(osdp_raw), SIZE(osdp_keypad), SIZE(osdp_formatted), SIZE(osdp_local_state), SIZE(osdp_states),
        SIZE(osdp_product), SIZE(osdp_pd_id), SIZE(osdp_capability), SIZE(osdp_communication), SIZE(osdp_maker), SIZE(osdp_nak), SIZE(osdp_output),
        SIZE(osdp_led_state), SIZE(osdp_led), SIZE(osdp_buzzer), SIZE(osdp_text), SIZE(osdp_panel), SIZE(osdp_panel_config), SIZE(osdp_moment),
        SIZE(osdp_report), SIZE(osdp_device), SIZE(osdp_device_config), SIZE(osdp_answer), SIZE(osdp_monitor)
    };
    for (size_t at = 0; at < sizeof structs / sizeof structs[0]; at++) {
        if (are_same(structs[at].name, name)) {
            return structs[at].size;
        }
    }
    return 0;
}

const char *osdp_version(void)
{
    return OSDP_VERSION;
}

const char *osdp_status_text(osdp_status status)
{
    switch (status) {
    case OSDP_OK:
        return "done";
    case OSDP_NO_MACHINE:
        return "the handle holds no machine";
    case OSDP_IN_USE:
        return "the handle holds a machine already";
    case OSDP_BAD_TEXT:
        return "the text is that of no command and of no event";
    case OSDP_NO_EVENT:
        return "the reply tells no event";
    case OSDP_TOO_SMALL:
        return "the room is too small for the text";
    case OSDP_NOT_ASKED:
        return "no command waits for an answer";
    case OSDP_OTHER_MESSAGE:
        return "the message is another one";
    case OSDP_MOMENT_TOO_FAR:
        return "the moment lies too far ahead";
    case OSDP_UNKNOWN_CODE:
        return "the code is in no table";
    case OSDP_BAD_LENGTH:
        return "the length isn't allowed";
    case OSDP_BAD_COUNT:
        return "a count disagrees with the length";
    case OSDP_PANEL_NO_MEMORY:
    case OSDP_DEVICE_NO_MEMORY:
    case OSDP_MONITOR_NO_MEMORY:
        return "out of memory";
    case OSDP_TOO_MANY:
        return "sixteen devices are there";
    case OSDP_ADDRESS_TAKEN:
        return "the address is taken";
    case OSDP_NO_ENTRY:
        return "there is no such device";
    case OSDP_PANEL_OUT_OF_RANGE:
    case OSDP_DEVICE_OUT_OF_RANGE:
    case OSDP_MONITOR_OUT_OF_RANGE:
        return "an address or a setting is out of its range";
    case OSDP_ADDRESS_OUT_OF_RANGE:
        return "no device has an address above 126";
    case OSDP_NUMBERS_USED_UP:
        return "no number is left for an order of the device";
    case OSDP_COMMANDS_FULL:
        return "no more commands may wait now: there is no room, or a COMSET may not go out yet";
    case OSDP_POLL_SUBMITTED:
        return "a POLL can't be submitted";
    case OSDP_NOT_CLOSED:
        return "the session isn't closed";
    case OSDP_EVENTS_FULL:
        return "as many events wait as there is room for";
    case OSDP_MONITOR_TOO_LONG:
        return "the monitor has counted as much as it can";
    case OSDP_MONITOR_STOPPED:
        return "the monitor has stopped";
    }
    return "an unknown status";
}
