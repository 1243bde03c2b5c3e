/* Big-endian numbers of any width. */
#ifndef NUMBERS_H
#define NUMBERS_H

#include <stddef.h>
#include <stdint.h>

static inline uint64_t number_at(const uint8_t *at, size_t width)
{
    uint64_t number = 0;
    size_t i;

    for (i = 0; i < width; i++)
        number = number << 8 | at[i];
    return number;
}

#endif
