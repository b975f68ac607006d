/* A program that uses the library where `./install` has put it: a panel opens a session, and prints the digits of the packet that it sends. */
#include <osdp.h>
#include <stdio.h>

int main(void)
{
    static struct osdp_panel panel;
    static struct osdp_burst burst;
    uint32_t sends = 0;
    struct osdp_panel_config config;
    size_t entry;
    osdp_panel_defaults(&config);
    if (osdp_panel_new(&panel, &config) != OSDP_OK || osdp_panel_add(&panel, 5, 0, &entry) != OSDP_OK) {
        return 1;
    }
    if (osdp_panel_begin(&panel, entry, 0) != OSDP_OK || osdp_panel_tick(&panel, 400, &sends) != OSDP_OK) {
        return 1;
    }
    if (sends != 1 || osdp_panel_write(&panel, 400, &burst) != OSDP_OK) {
        return 1;
    }
    printf("%s ", OSDP_VERSION);
    for (size_t at = 0; at < burst.length; at++) {
        printf("%02X", (unsigned)burst.bytes[at]);
    }
    printf("\n");
    return osdp_panel_free(&panel) != OSDP_OK;
}
