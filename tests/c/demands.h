/* What a program of these tests demands, and the pattern with which it fills what a call is to write. */
#ifndef DEMANDS_H
#define DEMANDS_H

#include <stdbool.h>
#include <stdint.h>
#include <stdio.h>
#include <stdlib.h>

static uint8_t pattern = 0xA5;

#define demand(holds) ((holds) ? (void)0 : fail(__FILE__, __LINE__, #holds))

static inline void fail(const char *file, int where, const char *what)
{
    printf("%s:%d: with the pattern %02X: %s\n", file, where, (unsigned)pattern, what);
    exit(1);
}

/* Whether each of so many bytes is the pattern. */
static inline bool is_pattern(const void *bytes, size_t count)
{
    for (size_t i = 0; i < count; i++) {
        if (((const uint8_t *)bytes)[i] != pattern) {
            return false;
        }
    }
    return true;
}

#endif
