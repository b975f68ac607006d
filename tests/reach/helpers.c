/* What a compiler for a Cortex-M0 brings along, for a link without its library. */
#include <stdint.h>

uint64_t __aeabi_lmul(uint64_t one, uint64_t other);
uint64_t __aeabi_llsl(uint64_t value, int by);
uint64_t __aeabi_llsr(uint64_t value, int by);
uint64_t __aeabi_uidivmod_of(uint32_t value, uint32_t by);

uint64_t __aeabi_llsl(uint64_t value, int by)
{
    while (by-- > 0) {
        value += value;
    }
    return value;
}

uint64_t __aeabi_llsr(uint64_t value, int by)
{
    while (by-- > 0) {
        value >>= 1;
    }
    return value;
}

/* A product of 64 bits: a sum for each bit, so that nothing is asked for again. */
uint64_t __aeabi_lmul(uint64_t one, uint64_t other)
{
    uint64_t sum = 0;
    while (other != 0) {
        sum += other & 1 ? one : 0;
        one += one;
        other >>= 1;
    }
    return sum;
}

/* The quotient stands in the low word, and the rest in the high one: that is how the two come back in registers. */
uint64_t __aeabi_uidivmod_of(uint32_t value, uint32_t by)
{
    uint32_t quotient = 0, rest = 0;
    for (int bit = 31; bit >= 0; bit--) {
        rest = rest << 1 | (value >> bit & 1);
        quotient = quotient << 1 | (rest >= by);
        rest -= rest >= by ? by : 0;
    }
    return (uint64_t)rest << 32 | quotient;
}

__asm__(".globl __aeabi_uidivmod\n.thumb_func\n__aeabi_uidivmod:\n push {r4, lr}\n bl __aeabi_uidivmod_of\n pop {r4, pc}\n");
