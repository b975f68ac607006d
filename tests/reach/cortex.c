/* The session on a Cortex-M of an emulator: it prints by semihosting, and needs no C library. */
#include <stdint.h>

#include "reach.h"

extern uint32_t stack_top[];

static uint32_t ask(uint32_t call, const void *what)
{
    register uint32_t r0 __asm__("r0") = call;
    register const void *r1 __asm__("r1") = what;
    __asm__ volatile("bkpt 0xAB" : "+r"(r0) : "r"(r1) : "memory");
    return r0;
}

void print(const char *text)
{
    (void)ask(0x04, text);
}

void reset(void);

void reset(void)
{
    session();
    (void)ask(0x18, (const void *)0x20026); /* the program has ended by itself */
    for (;;) {
    }
}

__attribute__((section(".vectors"), used)) static const void *const vectors[] = { stack_top, (const void *)reset };
