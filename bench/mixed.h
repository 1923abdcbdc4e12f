/* Routes spread over the lengths about as in a full table of the open network, and the filters to suit them. */
#ifndef MIXED_H
#define MIXED_H

#include "random.h"

#include <stdint.h>

enum { LENGTHS = 32, LEAST_D = 4, MOST_D = 11 };

/* The counters to a route that docs/SETTINGS.md advises. */
enum { GOOD_COUNTERS = 16 };

/* How many of a thousand routes have each length. */
static const uint32_t per_thousand[LENGTHS + 1] = {
    [8] = 1,   [9] = 1,   [10] = 1,  [11] = 1,  [12] = 1,  [13] = 1,   [14] = 2,   [15] = 2,  [16] = 15,
    [17] = 9,  [18] = 14, [19] = 26, [20] = 44, [21] = 52, [22] = 115, [23] = 100, [24] = 615,
};

static uint32_t random_length(void)
{
    uint32_t left = random_below(1000), length = 8;
    while (left >= per_thousand[length])
        left -= per_thousand[length++];
    return length;
}

/* How many of so many routes have a length, rounded up. */
static uint32_t routes_of(uint32_t length, uint32_t routes)
{
    return (per_thousand[length] * routes + 999) / 1000;
}

/* The smallest filter that has so many counters to each of so many routes, or else the largest there is. */
static uint32_t smallest_d(uint32_t routes, uint32_t counters)
{
    uint32_t d = LEAST_D;
    while (d < MOST_D && (uint32_t)1 << d < counters * routes)
        d++;
    return d;
}

/* The D of each length, by its share of so many mixed routes. */
static inline void choose_filters(uint8_t d[LENGTHS], uint32_t routes, uint32_t counters)
{
    for (uint32_t length = 1; length <= LENGTHS; length++)
        d[length - 1] = (uint8_t)smallest_d(routes_of(length, routes), counters);
}

#endif
