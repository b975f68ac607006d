/* The session on Linux without a C library, for a processor that an emulator shows. */
#include <stddef.h>

#include "reach.h"

#if defined __i386__
static long ask(long call, long first, const void *second, long third)
{
    long gives;
    __asm__ volatile("int $0x80" : "=a"(gives) : "a"(call), "b"(first), "c"(second), "d"(third) : "memory");
    return gives;
}
enum { WRITE = 4, EXIT = 1 };
#elif defined __aarch64__
static long ask(long call, long first, const void *second, long third)
{
    register long x8 __asm__("x8") = call, x0 __asm__("x0") = first, x2 __asm__("x2") = third;
    register const void *x1 __asm__("x1") = second;
    __asm__ volatile("svc 0" : "+r"(x0) : "r"(x8), "r"(x1), "r"(x2) : "memory");
    return x0;
}
enum { WRITE = 64, EXIT = 93 };
#elif defined __riscv
static long ask(long call, long first, const void *second, long third)
{
    register long a7 __asm__("a7") = call, a0 __asm__("a0") = first, a2 __asm__("a2") = third;
    register const void *a1 __asm__("a1") = second;
    __asm__ volatile("ecall" : "+r"(a0) : "r"(a7), "r"(a1), "r"(a2) : "memory");
    return a0;
}
enum { WRITE = 64, EXIT = 93 };
#endif

void print(const char *text)
{
    long length = 0;
    while (text[length] != 0) {
        length++;
    }
    (void)ask(WRITE, 1, text, length);
}

void start(void);

void start(void)
{
    session();
    (void)ask(EXIT, 0, NULL, 0);
    __builtin_trap();
}

/* Linux starts a program with an aligned stack, and without a return address. */
#if defined __i386__
__asm__(".globl _start\n_start:\n xor %ebp, %ebp\n and $-16, %esp\n call start\n");
#elif defined __aarch64__
__asm__(".globl _start\n_start:\n bl start\n");
#elif defined __riscv
__asm__(".globl _start\n_start:\n call start\n");
#endif
