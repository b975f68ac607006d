/* A panel that refuses another address the first two times, as where it is that of another device. It is put before the library by `-Wl,--wrap`. */
#include "osdp.h"

osdp_status __real_osdp_panel_retarget(osdp_panel *panel, osdp_size entry, uint32_t address);
osdp_status __wrap_osdp_panel_retarget(osdp_panel *panel, osdp_size entry, uint32_t address);

osdp_status __wrap_osdp_panel_retarget(osdp_panel *panel, osdp_size entry, uint32_t address)
{
    static int count;
    return count++ < 2 ? OSDP_ADDRESS_TAKEN : __real_osdp_panel_retarget(panel, entry, address);
}
