/* Holds the structs of osdp.h to the places that the archive reads and writes: their sizes, the bytes at which their fields stand, and what they are multiples
 * of. It is compiled for each target, and says nothing where all is well. */
#ifndef OSDP_LAYOUT_H
#define OSDP_LAYOUT_H

#include "osdp.h"

#define OSDP_SIZE(kind, bytes, multiple) _Static_assert(sizeof(struct kind) == (bytes) && _Alignof(struct kind) == (multiple), "the size of " #kind)
#define OSDP_AT(kind, field, byte) _Static_assert(offsetof(struct kind, field) == (byte), #kind "." #field " stands elsewhere")

_Static_assert(sizeof(osdp_size) == 8 && _Alignof(osdp_size) == 8, "a count has 64 bits");
_Static_assert(sizeof(osdp_status) == 4, "a status has 32 bits");

OSDP_SIZE(osdp_panel, 16, 8);
OSDP_AT(osdp_panel, panel_live, 8);
OSDP_SIZE(osdp_device, 16, 8);
OSDP_AT(osdp_device, device_live, 8);
OSDP_SIZE(osdp_monitor, 16, 8);
OSDP_AT(osdp_monitor, monitor_live, 8);
OSDP_SIZE(osdp_moment, 16, 8);
OSDP_AT(osdp_moment, present, 8);
OSDP_SIZE(osdp_panel_config, 40, 4);
OSDP_AT(osdp_panel_config, clock_limit, 36);
OSDP_SIZE(osdp_device_config, 28, 4);
OSDP_AT(osdp_device_config, clock_limit, 16);
OSDP_AT(osdp_device_config, product, 20);
OSDP_SIZE(osdp_message, 1436, 2);
OSDP_AT(osdp_message, present, 2);
OSDP_AT(osdp_message, code, 3);
OSDP_AT(osdp_message, data, 4);
OSDP_SIZE(osdp_burst, 1444, 4);
OSDP_AT(osdp_burst, bytes, 4);
OSDP_SIZE(osdp_report, 2912, 8);
OSDP_AT(osdp_report, number, 8);
OSDP_AT(osdp_report, since, 16);
OSDP_AT(osdp_report, kind, 24);
OSDP_AT(osdp_report, detail, 28);
OSDP_AT(osdp_report, numbered, 32);
OSDP_AT(osdp_report, too_late, 36);
OSDP_AT(osdp_report, command, 40);
OSDP_AT(osdp_report, reply, 1476);
OSDP_SIZE(osdp_answer, 2900, 4);
OSDP_AT(osdp_answer, moved, 8);
OSDP_AT(osdp_answer, baud_rate, 16);
OSDP_AT(osdp_answer, command, 20);
OSDP_AT(osdp_answer, burst, 1456);
OSDP_SIZE(osdp_raw, 1434, 2);
OSDP_AT(osdp_raw, bytes, 6);
OSDP_SIZE(osdp_keypad, 257, 1);
OSDP_SIZE(osdp_formatted, 258, 1);
OSDP_SIZE(osdp_local_state, 2, 1);
OSDP_SIZE(osdp_states, 1434, 2);
OSDP_AT(osdp_states, states, 2);
OSDP_SIZE(osdp_product, 8, 1);
OSDP_SIZE(osdp_pd_id, 12, 4);
OSDP_AT(osdp_pd_id, product, 4);
OSDP_SIZE(osdp_capability, 3, 1);
OSDP_SIZE(osdp_communication, 8, 4);
OSDP_SIZE(osdp_maker, 1434, 2);
OSDP_AT(osdp_maker, bytes, 5);
OSDP_SIZE(osdp_nak, 1434, 2);
OSDP_AT(osdp_nak, detail, 3);
OSDP_SIZE(osdp_output, 4, 2);
OSDP_AT(osdp_output, control, 3);
OSDP_SIZE(osdp_led_state, 5, 1);
OSDP_SIZE(osdp_led, 14, 2);
OSDP_AT(osdp_led, permanent, 9);
OSDP_SIZE(osdp_buzzer, 5, 1);
OSDP_SIZE(osdp_text, 261, 1);
OSDP_AT(osdp_text, characters, 6);

#undef OSDP_SIZE
#undef OSDP_AT

#endif
