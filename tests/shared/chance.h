/* Numbers by chance. No expression draws twice in an order that the compiler chooses, so that a seed gives the same everywhere. */
#ifndef CHANCE_H
#define CHANCE_H

#include <stdbool.h>
#include <stddef.h>
#include <stdint.h>

struct chance {
    uint64_t state; /* not 0 */
};

static inline struct chance chance_from(uint64_t seed)
{
    struct chance chance = {seed * UINT64_C(0x9E3779B97F4A7C15) + 1};

    if (chance.state == 0)
        chance.state = 1;
    return chance;
}

/* xorshift64*, by its upper half. */
static inline uint32_t draw(struct chance *chance)
{
    uint64_t x = chance->state;

    x ^= x >> 12;
    x ^= x << 25;
    x ^= x >> 27;
    chance->state = x;
    return (uint32_t)((x * UINT64_C(2685821657736338717)) >> 32);
}

/* 0 to limit - 1. */
static inline uint32_t below(struct chance *chance, uint32_t limit)
{
    return draw(chance) % limit;
}

static inline bool one_in(struct chance *chance, uint32_t limit)
{
    return below(chance, limit) == 0;
}

static inline void fill(struct chance *chance, uint8_t *bytes, size_t length)
{
    size_t i;

    for (i = 0; i < length; i++)
        bytes[i] = (uint8_t)draw(chance);
}

#endif
