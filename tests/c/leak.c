/* A panel that isn't freed: the leak detection that looks at session.c must see it. */
#include "osdp.h"

int main(void)
{
    struct osdp_panel panel = { 0 };
    struct osdp_panel_config config;
    osdp_panel_defaults(&config);
    if (osdp_panel_new(&panel, &config) != OSDP_OK) {
        return 0;
    }
    panel.panel = NULL;
    return 0;
}
