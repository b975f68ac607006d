/* A board with a Cortex-M4 as Arm's `mps2-an386` has it, which `qemu-system-arm` shows: the line on its first serial port, keys and texts on its second. */
#include "board.h"

#define REGISTER(address) (*(volatile uint32_t *)(address))

enum {
    CLOCK = 25000000, /* in Hz */
    LINE = 0x40004000,
    KEYS = 0x40005000,
    SYSTICK = 0xE000E010
};

/* What a serial port has at these bytes. */
enum { DATA = 0, STATE = 4, CONTROL = 8, TOLD = 12, DIVIDER = 16 };
enum { IS_FULL = 1, HAS_BYTE = 2, SENDS_AND_HEARS = 1 | 2 | 8 };

/* Bytes between an interrupt, which puts, and the loop, which takes: each changes one number alone, so neither waits. */
enum { ROOM = 512 };
struct ring {
    volatile uint32_t put, taken;
    uint8_t bytes[ROOM];
};

static struct ring from_line, from_keys;
static volatile uint32_t ticks, wraps;
enum { MARK = 0x4F534450 };
static volatile struct {
    uint32_t mark; /* MARK where the first of both places is kept, MARK + 1 where the second is */
    struct {
        uint32_t address, rate;
    } places[2];
} kept __attribute__((section(".noinit")));

static void hear(uint32_t port, struct ring *ring)
{
    REGISTER(port + TOLD) = 2;
    while (REGISTER(port + STATE) & HAS_BYTE) {
        uint8_t byte = (uint8_t)REGISTER(port + DATA);
        if (ring->put - ring->taken < ROOM) { /* else it is lost, as on the line: what it belongs to is sent again */
            ring->bytes[ring->put % ROOM] = byte;
            ring->put = ring->put + 1;
        }
    }
}

void line_heard(void);
void keys_heard(void);
void ticked(void);
void failed(void);
void reset(void);
int main(void);

void line_heard(void)
{
    hear(LINE, &from_line);
}

void keys_heard(void)
{
    hear(KEYS, &from_keys);
}

void ticked(void)
{
    ticks = ticks + 1;
    wraps = wraps + (ticks == 0);
}

/* The two numbers are read until none has changed in between. */
uint64_t board_moment(void)
{
    uint32_t high, low;
    do {
        high = wraps;
        low = ticks;
    } while (high != wraps || low > ticks);
    return (uint64_t)high << 32 | low;
}

size_t board_read(uint8_t *bytes, size_t room)
{
    size_t count = 0;
    while (count < room && from_line.taken != from_line.put) {
        bytes[count++] = from_line.bytes[from_line.taken % ROOM];
        from_line.taken = from_line.taken + 1;
    }
    return count;
}

uint8_t board_key(void)
{
    uint8_t key = 0;
    if (from_keys.taken != from_keys.put) {
        key = from_keys.bytes[from_keys.taken % ROOM];
        from_keys.taken = from_keys.taken + 1;
    }
    return key;
}

static void send(uint32_t port, uint8_t byte)
{
    while (REGISTER(port + STATE) & IS_FULL) {
    }
    REGISTER(port + DATA) = byte;
}

void board_write(const uint8_t *bytes, size_t length)
{
    for (size_t i = 0; i < length; i++) {
        send(LINE, bytes[i]);
    }
}

void board_show(const char *text)
{
    while (*text != 0) {
        send(KEYS, (uint8_t)*text++);
    }
}

/* The divider has 20 bits, and is 16 at least. */
_Bool board_has_rate(uint32_t rate)
{
    return rate >= 300 && rate <= CLOCK / 16;
}

/* What was sent goes out at the old rate: the port doesn't tell when the byte under way has gone, so the time of two bytes and a millisecond is waited for. */
void board_set_rate(uint32_t rate)
{
    while (REGISTER(LINE + STATE) & IS_FULL) {
    }
    uint32_t begin = ticks, wait = 2 * 10 * REGISTER(LINE + DIVIDER) / (CLOCK / 1000) + 2;
    while (ticks - begin < wait) {
    }
    REGISTER(LINE + DIVIDER) = board_has_rate(rate) ? CLOCK / rate : CLOCK / 9600;
}

_Bool board_kept(uint32_t *address, uint32_t *rate)
{
    uint32_t which = kept.mark - MARK;
    if (which > 1) {
        return 0;
    }
    *address = kept.places[which].address;
    *rate = kept.places[which].rate;
    return 1;
}

/* The place that isn't kept is written, and then one word makes it the one that is: a reset in between leaves the old one whole. */
void board_keep(uint32_t address, uint32_t rate)
{
    uint32_t which = kept.mark == MARK;
    kept.places[which].address = address;
    kept.places[which].rate = rate;
    kept.mark = MARK + which;
}

void board_sleep(void)
{
    __asm__ volatile("wfi");
}

extern uint32_t stack_low[], stack_top[], zeros_begin[], zeros_end[], data_begin[], data_end[], data_from[];

/* The stack was filled with ones when the program began: what is something else was used. */
uint32_t board_stack(void)
{
    const uint32_t *at = stack_low;
    while (at < stack_top && *at == UINT32_MAX) {
        at++;
    }
    return (uint32_t)((const uint8_t *)stack_top - (const uint8_t *)at);
}

static void fill(uint32_t *from, const uint32_t *to, uint32_t with)
{
    while (from < to) {
        *from++ = with;
    }
}

/* The processor has found a fault of the program, or an interrupt that nobody asked for. */
void failed(void)
{
    board_show("fault\n");
    for (;;) {
    }
}

void reset(void)
{
    uint32_t *here;
    __asm__ volatile("mov %0, sp" : "=r"(here));
    fill(zeros_begin, zeros_end, 0);
    fill(stack_low, here - 32, UINT32_MAX); /* below what this function and `fill` use */
    for (size_t i = 0; data_begin + i < data_end; i++) {
        data_begin[i] = data_from[i];
    }
    REGISTER(KEYS + DIVIDER) = CLOCK / 115200;
    REGISTER(KEYS + CONTROL) = SENDS_AND_HEARS;
    REGISTER(LINE + DIVIDER) = CLOCK / 9600;
    REGISTER(LINE + CONTROL) = SENDS_AND_HEARS;
    REGISTER(SYSTICK + 4) = CLOCK / 1000 - 1;
    REGISTER(SYSTICK) = 7;
    REGISTER(0xE000E100) = 1u << 0 | 1u << 2; /* the interrupts of what both ports hear */
    (void)main();
    for (;;) {
        board_sleep();
    }
}

typedef void handler(void);
__attribute__((section(".vectors"), used)) static const struct {
    uint32_t *stack;
    handler *of[15], *interrupts[4];
} vectors = { stack_top, { reset, failed, failed, failed, failed, failed, 0, 0, 0, 0, failed, failed, 0, failed, ticked }, { line_heard, failed, keys_heard, failed } };
