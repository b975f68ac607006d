/* The calls of C that the archive and a program ask for, where there is no C library. */
#include <string.h>

void *memmove(void *to, const void *from, size_t length)
{
    unsigned char *at = to;
    const unsigned char *bytes = from;
    if (at <= bytes) {
        for (size_t i = 0; i < length; i++) {
            at[i] = bytes[i];
        }
    } else {
        for (size_t i = length; i > 0; i--) {
            at[i - 1] = bytes[i - 1];
        }
    }
    return to;
}

void *memcpy(void *to, const void *from, size_t length)
{
    return memmove(to, from, length);
}

void *memset(void *to, int value, size_t length)
{
    unsigned char *at = to;
    for (size_t i = 0; i < length; i++) {
        at[i] = (unsigned char)value;
    }
    return to;
}

int memcmp(const void *one, const void *other, size_t length)
{
    const unsigned char *left = one, *right = other;
    for (size_t i = 0; i < length; i++) {
        if (left[i] != right[i]) {
            return left[i] < right[i] ? -1 : 1;
        }
    }
    return 0;
}
