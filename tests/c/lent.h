/*
 * A buffer that is lent to the library: what it is filled with before the call, and whether it still
 * is from some byte on.
 */
#ifndef LENT_H
#define LENT_H

#include <stddef.h>
#include <stdint.h>

#define FILL 0xA5

static inline int is_filled(const uint8_t *buffer, size_t start, size_t length)
{
    for (size_t i = start; i < length; i++)
        if (buffer[i] != FILL)
            return 0;
    return 1;
}

#endif
