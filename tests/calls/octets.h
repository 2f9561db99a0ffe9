/*
 * octets.h - octets with their length, and numbers among them
 *
 * Numbers have the least significant octet first.
 */
#ifndef OCTETS_H
#define OCTETS_H

#include <stdbool.h>
#include <stddef.h>
#include <stdint.h>
#include <stdio.h>
#include <stdlib.h>
#include <string.h>

struct octets {
    const uint8_t *start;
    size_t length;
};

static inline void stop(const char *why)
{
    fprintf(stderr, "calls: %s\n", why);
    exit(2);
}

static inline uint8_t *put_number(uint8_t *to, uint64_t number, int octets)
{
    for (; octets > 0; octets--, number >>= 8)
        *to++ = (uint8_t)number;
    return to;
}

static inline uint64_t get_number(const uint8_t *from, int octets)
{
    uint64_t number = 0;
    while (octets-- > 0)
        number = number << 8 | from[octets];
    return number;
}

#endif
