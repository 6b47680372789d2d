// What the guests that are linked with a C library (musl) share. They print by its printf and end by its exit.
#pragma once
#include <stddef.h>
#include <stdint.h>

// The library's own memset clears many bytes by DC ZVA, which has no row.
void *memset(void *to, int value, size_t count)
{
    for (size_t at = 0; at < count; at++)
        ((volatile unsigned char *)to)[at] = (unsigned char)value;
    return to;
}

// The next of a fixed row of numbers.
static inline uint32_t next_number(uint32_t *seed)
{
    *seed = *seed * 1664525 + 1013904223;
    return *seed >> 8;
}
