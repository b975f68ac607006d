/* Panels as most of these tests use them: orders that are never too late, whose number nobody asks for, and bursts that are written at the moment of their tick. */
#ifndef PANELS_H
#define PANELS_H

#include <string.h>

#include "osdp.h"

static inline osdp_status gives(osdp_panel *panel, osdp_size entry, const char *text)
{
    uint64_t number;
    return osdp_panel_submit_text(panel, entry, text, strlen(text), OSDP_NEVER, &number);
}

static inline osdp_status gives_data(osdp_panel *panel, osdp_size entry, uint8_t code, const uint8_t *data, size_t length)
{
    uint64_t number;
    return osdp_panel_submit(panel, entry, code, data, length, OSDP_NEVER, &number);
}

/* Does what is due. The burst has no length where none is to go out. */
static inline osdp_status ticks(osdp_panel *panel, uint64_t now, struct osdp_burst *burst)
{
    uint32_t sends = 2;
    osdp_status status = osdp_panel_tick(panel, now, &sends);
    burst->length = 0;
    return status == OSDP_OK && sends == 1 ? osdp_panel_write(panel, now, burst) : status;
}

#endif
