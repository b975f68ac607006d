/* Through C: the stack that each call takes, beside what is wanted (`exchange`), or how many POLL exchanges are done for a second of processor
 * time (`exchange COUNT`).
 *
 * An exchange is the panel's tick, the burst that it writes, the reader's step over it with its answer, and that answer's bytes to the panel: the calls that a
 * program makes. The stack is measured as what a call changes of a stack that was filled with a pattern, less what is changed where
 * nothing is called. */
#define _XOPEN_SOURCE 700
#define _DEFAULT_SOURCE
#include <stdio.h>
#include <stdlib.h>
#include <string.h>
#include <time.h>
#include <ucontext.h>

#include "osdp.h"

static struct osdp_panel panel;
static struct osdp_device reader;
static struct osdp_monitor monitor;
static struct osdp_burst burst;
static struct osdp_answer answer;
static struct osdp_report report;
static struct osdp_message message;
static struct osdp_moment due;
static size_t taken;
static uint64_t now;

static void demand(bool holds, const char *what)
{
    if (!holds) {
        printf("exchange: %s\n", what);
        exit(1);
    }
}

static void tick(void)
{
    uint32_t sends;
    (void)osdp_panel_tick(&panel, now, &sends);
}

static void write_burst(void)
{
    (void)osdp_panel_write(&panel, now, &burst);
}

static void step(void)
{
    (void)osdp_device_step(&reader, burst.bytes, burst.length, now, &taken, &answer);
    if (answer.kind == OSDP_SAID_PENDING) { /* it is answered as it was set beforehand */
        (void)osdp_device_step(&reader, burst.bytes, 0, now, &taken, &answer);
    }
}

static void bytes(void)
{
    (void)osdp_panel_bytes(&panel, answer.burst.bytes, answer.burst.length, now);
}

static void next_report(void)
{
    (void)osdp_panel_next_report(&panel, &report);
}

static void next_deadline(void)
{
    (void)osdp_panel_next_deadline(&panel, &due);
}

static void submit(void)
{
    uint64_t number;
    (void)osdp_panel_submit_text(&panel, 0, "OUT 0:5:30", 10, OSDP_NEVER, &number);
}

static void event(void)
{
    (void)osdp_device_event_text(&reader, "RAW 0 0 26 12345640", 19);
}

static void event_read(void)
{
    static const uint8_t card[] = { 0, 0, 26, 0, 0x12, 0x34, 0x56, 0x40 };
    (void)osdp_device_event(&reader, 0x50, card, sizeof card);
}

static void text(void)
{
    static char room[6144];
    size_t length;
    (void)osdp_command_text(message.code, message.data, message.length, room, sizeof room, &length);
}

static void new_panel(void)
{
    struct osdp_panel_config config;
    size_t entry;
    osdp_panel_defaults(&config);
    demand(osdp_panel_new(&panel, &config) == OSDP_OK && osdp_panel_add(&panel, 5, 0, &entry) == OSDP_OK, "no panel");
}

static void new_reader(void)
{
    const uint8_t outputs[] = { 0 };
    struct osdp_device_config config = { .address = 5, .capacity = 16, .gap = 20 };
    demand(osdp_device_new(&reader, &config, outputs, 0) == OSDP_OK, "no reader");
    demand(osdp_device_set_outputs(&reader, outputs, 1) == OSDP_OK, "no outputs");
}

static void new_monitor(void)
{
    demand(osdp_monitor_new(&monitor, OSDP_PRINTS_PACKETS, 0) == OSDP_OK, "no monitor");
}

/* An order, a reply to it and another reply to it, by which the device is accused. */
static void monitor_bytes(void)
{
    static const uint8_t heard[] = { 0x53, 5, 11, 0, 1, 0x68, 0, 2, 0, 0, 0x32, 0x53, 0x85, 7, 0, 1, 0x40, 0xE0, 0x53, 0x85, 7, 0, 1, 0x40, 0xE0 };
    (void)osdp_monitor_bytes(&monitor, heard, sizeof heard);
}

static void monitor_silence(void)
{
    (void)osdp_monitor_silence(&monitor);
}

static void monitor_table(void)
{
    (void)osdp_monitor_table(&monitor);
}

static void monitor_text(void)
{
    static char told[4096];
    (void)osdp_monitor_next_text(&monitor, told, sizeof told, &taken);
}

static void nothing(void)
{
}

static void (*measured)(void);
static ucontext_t outside, inside;

static void call_it(void)
{
    measured();
}

/* How many bytes a call has changed of a stack of its own. */
static size_t changed(void (*call)(void))
{
    static _Alignas(64) unsigned char stack[262144];
    size_t untouched = 0;
    memset(stack, 0xA5, sizeof stack);
    measured = call;
    demand(getcontext(&inside) == 0, "no context");
    inside.uc_stack.ss_sp = stack;
    inside.uc_stack.ss_size = sizeof stack;
    inside.uc_link = &outside;
    makecontext(&inside, call_it, 0);
    demand(swapcontext(&outside, &inside) == 0, "no context");
    while (stack[untouched] == 0xA5) {
        untouched++;
    }
    return sizeof stack - untouched;
}

static void print_line(const char *name, size_t depth, unsigned wanted)
{
    printf("stack of %-30s %6zu bytes, wanted %6u\n", name, depth, wanted);
}

static void print_depth(const char *name, void (*call)(void), unsigned wanted)
{
    print_line(name, changed(call) - changed(nothing), wanted);
}

/* One exchange, whose moments go on by the poll interval. */
static void exchange(void)
{
    now += 50;
    tick();
    write_burst();
    step();
    bytes();
}

static double seconds(void)
{
    struct timespec spent;
    clock_gettime(CLOCK_PROCESS_CPUTIME_ID, &spent);
    return (double)spent.tv_sec + (double)spent.tv_nsec / 1e9;
}

/* How many exchanges are done for a second. */
static double rate(long count)
{
    double begun = seconds();
    for (long i = 0; i < count; i++) {
        exchange();
        demand(burst.length == 8 && answer.burst.length == 8, "no POLL, or no ACK");
    }
    return (double)count / (seconds() - begun);
}

static void print_depths(void)
{
    print_depth("osdp_panel_submit_text", submit, 4096);
    print_depth("osdp_device_event_text", event, 4096);
    print_depth("osdp_device_event", event_read, 4096);
    now += 50;
    print_depth("osdp_panel_tick", tick, 4096);
    print_depth("osdp_panel_write", write_burst, 4096);
    print_depth("osdp_device_step", step, 4096);
    print_depth("osdp_panel_bytes", bytes, 4096);
    print_depth("osdp_panel_next_report", next_report, 4096);
    print_depth("osdp_panel_next_deadline", next_deadline, 4096);
    tick(); /* a turn whose bytes brought a report sends nothing */
    message = answer.command;
    demand(report.kind == OSDP_REPORT_SETTLED && message.code == 0x68, "the order was not settled");
    print_depth("osdp_command_text", text, 4096);
    print_depth("osdp_monitor_new", new_monitor, 6000);
    print_depth("osdp_monitor_bytes", monitor_bytes, 4096);
    print_depth("osdp_monitor_silence", monitor_silence, 4096);
    print_depth("osdp_monitor_table", monitor_table, 4096);
    print_depth("osdp_monitor_next_text", monitor_text, 4096);
    demand(taken > 100, "the monitor told nothing");
    now += 50; /* the next POLL is answered by the event */
    tick();
    write_burst();
    step();
    print_depth("osdp_panel_bytes, event", bytes, 4096);
    print_depth("osdp_panel_next_report, event", next_report, 4096);
    demand(report.kind == OSDP_REPORT_EVENT, "no event was told");
}

int main(int count, char **words)
{
    size_t panel_depth = changed(new_panel) - changed(nothing), reader_depth = changed(new_reader) - changed(nothing);
    demand(osdp_panel_begin(&panel, 0, now) == OSDP_OK, "no session");
    now = 400;
    tick();
    write_burst();
    step();
    bytes();
    next_report();
    tick();
    demand(report.kind == OSDP_REPORT_OPENED, "no session");
    if (count > 1) {
        printf("%.0f\n", rate(atol(words[1])));
        return 0;
    }
    print_line("osdp_panel_new and add", panel_depth, 6000);
    print_line("osdp_device_new", reader_depth, 4096);
    exchange();
    print_depths();
    return 0;
}
