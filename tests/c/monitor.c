/* A monitor in C, as `osdp monitor --hex`: `monitor PRINTS STANDARD PIECE ROOM` reads lines of hexadecimal digits, each of which is a run, hands them over in
 * pieces of PIECE bytes, and writes what is told, in texts of at most ROOM bytes, and the table. It ends with 1 where something is wrong.
 *
 * `monitor` alone needs no input: two readers speak, and each block that this takes is refused in turn. Then the monitor stops, says so at each later call, and
 * another one made after it hears all. It also makes each refusal that the header names, and looks at what was written, byte by byte. */
#include <string.h>

#include "counted.h"
#include "demands.h"
#include "osdp.h"

enum { LONGEST = 16384 };

static const char *const RUNS[] = {
    "530508000061003F", "53851300004553494D010105000000010000DF", "530608000061003E", "53861300004553494D010106000000010000DD",
    "53050700016040",   "538507000140E0",                         "5306070001603F",   "53860A00015300013197",
    "5306070001603F",   "53860A00015300013296",
};
enum { COUNT = sizeof RUNS / sizeof RUNS[0] };

static int digit(char letter)
{
    return letter >= 'A' ? (letter | 0x20) - 'a' + 10 : letter - '0';
}

/* The bytes of a line of digits, which ends at its end or at a line feed: how many they are. */
static size_t bytes_of(const char *line, uint8_t *bytes)
{
    size_t count = 0;
    for (const char *at = line; *at != 0 && *at != '\n' && *at != '\r';) {
        if (*at == ' ') {
            at++;
        } else {
            bytes[count++] = (uint8_t)(digit(at[0]) << 4 | digit(at[1]));
            at += 2;
        }
    }
    return count;
}

static void tell(osdp_monitor *monitor, size_t room)
{
    static char text[LONGEST];
    osdp_size count = 0;
    do {
        demand(osdp_monitor_next_text(monitor, text, room, &count) == OSDP_OK && count <= room);
        demand(count == room || text[count] == 0);
        fwrite(text, 1, count, stdout);
    } while (count != 0);
}

/* Hears what stands on the standard input. */
static int hear_all(uint32_t prints, uint32_t standard, size_t piece, size_t room)
{
    static char line[4 * LONGEST];
    static uint8_t bytes[2 * LONGEST];
    osdp_monitor monitor = { 0 };
    uint32_t wrong = 9;
    demand(osdp_monitor_new(&monitor, prints, standard) == OSDP_OK);
    while (fgets(line, sizeof line, stdin) != NULL) {
        size_t count = line[0] == '#' ? 0 : bytes_of(line, bytes);
        for (size_t at = 0; at < count; at += piece) {
            demand(osdp_monitor_bytes(&monitor, bytes + at, count - at < piece ? count - at : piece) == OSDP_OK);
        }
        if (line[0] != '\n' && line[0] != '#') {
            demand(osdp_monitor_silence(&monitor) == OSDP_OK);
        }
        tell(&monitor, room);
    }
    demand(osdp_monitor_table(&monitor) == OSDP_OK);
    tell(&monitor, room);
    demand(osdp_monitor_is_wrong(&monitor, &wrong) == OSDP_OK && wrong < 2);
    demand(osdp_monitor_free(&monitor) == OSDP_OK);
    return (int)wrong;
}

/* What is told of RUNS, or as much as was told until memory was refused. */
static osdp_status hear_runs(osdp_monitor *monitor, char *text, size_t room, osdp_size *length)
{
    uint8_t bytes[64];
    osdp_status status = osdp_monitor_new(monitor, OSDP_PRINTS_PACKETS, 0);
    for (int i = 0; i < COUNT && status == OSDP_OK; i++) {
        status = osdp_monitor_bytes(monitor, bytes, bytes_of(RUNS[i], bytes));
        status = status == OSDP_OK ? osdp_monitor_silence(monitor) : status;
    }
    status = status == OSDP_OK ? osdp_monitor_table(monitor) : status;
    if (monitor->monitor != NULL) {
        demand(osdp_monitor_next_text(monitor, text, room, length) == OSDP_OK);
    }
    return status;
}

/* A monitor that has stopped hears nothing, and has no text. */
static void is_stopped(osdp_monitor *monitor)
{
    char text[8] = "unread";
    osdp_size length = 9;
    uint32_t wrong = 9;
    demand(osdp_monitor_bytes(monitor, NULL, 0) == OSDP_MONITOR_STOPPED);
    demand(osdp_monitor_bytes(monitor, (const uint8_t *)"S", 1) == OSDP_MONITOR_STOPPED);
    demand(osdp_monitor_silence(monitor) == OSDP_MONITOR_STOPPED && osdp_monitor_table(monitor) == OSDP_MONITOR_STOPPED);
    demand(osdp_monitor_is_wrong(monitor, &wrong) == OSDP_MONITOR_STOPPED && wrong == 9);
    demand(osdp_monitor_next_text(monitor, text, sizeof text, &length) == OSDP_OK && length == 0 && text[0] == 0 && text[1] == 'n');
    demand(osdp_monitor_new(monitor, OSDP_PRINTS_FOUND, 0) == OSDP_IN_USE);
}

static void refuse_each_block(void)
{
    static char whole[LONGEST], text[LONGEST];
    osdp_size length = 0, again = 0;
    osdp_monitor monitor = { 0 };
    demand(hear_runs(&monitor, whole, sizeof whole, &length) == OSDP_OK && length != 0 && length < sizeof whole);
    demand(osdp_monitor_free(&monitor) == OSDP_OK && blocks_held == 0);
    size_t asked = blocks_asked, stopped = 0;
    for (size_t refused = 1; refused <= asked; refused++) {
        blocks_asked = 0, block_refused = refused;
        demand(hear_runs(&monitor, text, sizeof text, &again) == OSDP_MONITOR_NO_MEMORY);
        if (monitor.monitor != NULL) {
            stopped++;
            demand(again == 0);
            is_stopped(&monitor);
            demand(osdp_monitor_free(&monitor) == OSDP_OK);
        }
        demand(osdp_monitor_free(&monitor) == OSDP_NO_MACHINE && blocks_held == 0);
        block_refused = 0;
        demand(hear_runs(&monitor, text, sizeof text, &again) == OSDP_OK && again == length && memcmp(text, whole, length) == 0);
        demand(osdp_monitor_free(&monitor) == OSDP_OK && blocks_held == 0);
    }
    demand(stopped >= 3 && asked > stopped);
    printf("monitor: %zu blocks, each refused once; at %zu of them it had to stop\n", asked, stopped);
}

/* Each refusal, and what is written where a text is cut. */
static void refuse(void)
{
    osdp_monitor monitor = { 0 };
    uint32_t wrong = 9;
    osdp_size length = 9;
    char text[64];
    demand(osdp_monitor_bytes(&monitor, NULL, 0) == OSDP_NO_MACHINE && osdp_monitor_silence(&monitor) == OSDP_NO_MACHINE);
    demand(osdp_monitor_table(&monitor) == OSDP_NO_MACHINE && osdp_monitor_is_wrong(&monitor, &wrong) == OSDP_NO_MACHINE && wrong == 9);
    demand(osdp_monitor_next_text(&monitor, text, sizeof text, &length) == OSDP_NO_MACHINE && length == 9);
    demand(osdp_monitor_free(&monitor) == OSDP_NO_MACHINE);
    demand(osdp_monitor_new(&monitor, 3, 0) == OSDP_MONITOR_OUT_OF_RANGE && osdp_monitor_free(&monitor) == OSDP_NO_MACHINE);
    size_t before = bytes_given;
    demand(osdp_monitor_new(&monitor, OSDP_PRINTS_TALK, 1) == OSDP_OK && bytes_given - before == 2048 + 20480 + 3808 && osdp_monitor_new(&monitor, OSDP_PRINTS_TALK, 1) == OSDP_IN_USE);
    demand(osdp_monitor_bytes(&monitor, NULL, 1) == OSDP_BAD_LENGTH && osdp_monitor_bytes(&monitor, NULL, 0) == OSDP_OK);
    demand(osdp_monitor_next_text(&monitor, NULL, 1, &length) == OSDP_BAD_LENGTH && length == 9);
    demand(osdp_monitor_next_text(&monitor, NULL, 0, &length) == OSDP_OK && length == 0);
    demand(osdp_monitor_is_wrong(&monitor, &wrong) == OSDP_OK && wrong == 0);
    /* one byte that begins no packet: `1:0 skip 41` and a line feed, of which six bytes come first */
    demand(osdp_monitor_bytes(&monitor, (const uint8_t *)"A", 1) == OSDP_OK && osdp_monitor_silence(&monitor) == OSDP_OK);
    memset(text, pattern, sizeof text);
    demand(osdp_monitor_next_text(&monitor, text, 6, &length) == OSDP_OK && length == 6 && memcmp(text, "1:0 sk", 6) == 0 && is_pattern(text + 6, sizeof text - 6));
    demand(osdp_monitor_next_text(&monitor, text, 32, &length) == OSDP_OK && length == 6 && memcmp(text, "ip 41\n", 7) == 0 && is_pattern(text + 7, sizeof text - 7));
    demand(osdp_monitor_next_text(&monitor, text, 32, &length) == OSDP_OK && length == 0);
    demand(osdp_monitor_free(&monitor) == OSDP_OK && osdp_monitor_free(&monitor) == OSDP_NO_MACHINE);
}

int main(int count, char **words)
{
    if (count == 1) {
        refuse();
        blocks_asked = 0;
        refuse_each_block();
        return 0;
    }
    if (count != 5) {
        printf("monitor [PRINTS STANDARD PIECE ROOM]\n");
        return 2;
    }
    return hear_all((uint32_t)atoi(words[1]), (uint32_t)atoi(words[2]), (size_t)atoi(words[3]), (size_t)atoi(words[4]));
}
