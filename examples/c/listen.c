/* A monitor on a line where a panel speaks already: `listen PORT RATE`. It prints what happens there and which end breaks the rules, as `osdp monitor` does, and
 * after a line of input a table of what was heard so far. It writes nothing to the line. */
#include <stdio.h>

#include "port.h"
#include "words.h"

enum { GAP = 20 }; /* milliseconds of silence after which a run of bytes is over */

static osdp_monitor monitor;

/* Prints the text that waits, in pieces. */
static void tell_text(void)
{
    static char text[1025];
    osdp_size count;
    while (osdp_monitor_next_text(&monitor, text, sizeof text - 1, &count) == OSDP_OK && count != 0) {
        tell("%s", text);
    }
}

/* A monitor without memory hears nothing more: the program ends. */
static void demand_heard(osdp_status status)
{
    if (status != OSDP_OK) {
        stop(OUT_OF_MEMORY, "%s", osdp_status_text(status));
    }
}

/* Hands over what has come by this moment, or that nothing has for the gap, once after bytes. */
static void hear(const uint8_t *bytes, size_t length, uint64_t now)
{
    static uint64_t last;
    static bool in_run;
    if (length != 0) {
        demand_heard(osdp_monitor_bytes(&monitor, bytes, length));
        last = now;
        in_run = true;
    } else if (in_run && now - last >= GAP) {
        demand_heard(osdp_monitor_silence(&monitor));
        in_run = false;
    }
}

int main(int count, char **words)
{
    static struct lines lines;
    uint8_t bytes[4096];
    words = take_just(count, words, 2, "listen PORT RATE\n", NULL);
    demand_heard(osdp_monitor_new(&monitor, OSDP_PRINTS_FOUND, 0));
    int port = open_port(words[0], number(words[1], "rate"));
    hear_all();
    for (;;) {
        uint64_t now;
        size_t length = read_port(port, &lines, GAP, bytes, sizeof bytes, &now);
        hear(bytes, length, now);
        if (next_line(&lines) != NULL) {
            demand_heard(osdp_monitor_table(&monitor));
        }
        tell_text();
    }
}
