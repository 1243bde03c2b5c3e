/* Random numbers, the same in every run with the same seed (splitmix64). */
#ifndef CHANCE_H
#define CHANCE_H

#include <stddef.h>
#include <stdint.h>

struct chance {
    uint64_t state;
};

/* The chance of a case: cases of one seed have nothing to do with each other. */
static inline struct chance chance_of(uint64_t seed, uint64_t number)
{
    struct chance chance = {seed * 0xD1342543DE82EF95u + number * 0xAF251AF3B0F025B5u};

    return chance;
}

static inline uint64_t any(struct chance *chance)
{
    uint64_t z = chance->state += 0x9E3779B97F4A7C15u;

    z = (z ^ (z >> 30)) * 0xBF58476D1CE4E5B9u;
    z = (z ^ (z >> 27)) * 0x94D049BB133111EBu;
    return z ^ (z >> 31);
}

/* A number below another, which is not 0. */
static inline size_t below(struct chance *chance, size_t bound)
{
    return (size_t)(any(chance) % bound);
}

/* Whether: once in so many times. */
static inline int once_in(struct chance *chance, size_t times)
{
    return below(chance, times) == 0;
}

static inline void fill_by_chance(struct chance *chance, uint8_t *bytes, size_t len)
{
    size_t i;

    for (i = 0; i < len; i++)
        bytes[i] = (uint8_t)any(chance);
}

#endif
