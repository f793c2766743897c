/* A small seeded random number generator (splitmix64).
   Assumes one per generated file, which depends on seed and index only. */

#ifndef RNG_H
#define RNG_H

#include <stddef.h>
#include <stdint.h>
#include <string.h>

struct rng {
    uint64_t state;
};

static inline uint64_t rng_word(struct rng *rng)
{
    uint64_t z = rng->state += 0x9e3779b97f4a7c15u;

    z = (z ^ (z >> 30)) * 0xbf58476d1ce4e5b9u;
    z = (z ^ (z >> 27)) * 0x94d049bb133111ebu;
    return z ^ (z >> 31);
}

/* Seeds the generator of file `index`; neighbours share no states. */
static inline struct rng rng_for(uint64_t seed, uint64_t index)
{
    struct rng rng = { seed };

    rng.state = rng_word(&rng) ^ (index * 0xd1342543de82ef95u);
    rng.state = rng_word(&rng);
    return rng;
}

/* A number from 0 to limit - 1. The slight bias does not matter here. */
static inline uint32_t rng_below(struct rng *rng, uint32_t limit)
{
    return (uint32_t)(((rng_word(rng) >> 32) * limit) >> 32);
}

/* A number from low to high, both included. */
static inline uint32_t rng_between(struct rng *rng, uint32_t low,
                                   uint32_t high)
{
    return low + rng_below(rng, high - low + 1);
}

/* True once in `times` on average. */
static inline int rng_once_in(struct rng *rng, uint32_t times)
{
    return rng_below(rng, times) == 0;
}

/* Any bytes. */
static inline void rng_fill(struct rng *rng, uint8_t *bytes, size_t length)
{
    size_t i;

    for (i = 0; i + 8 <= length; i += 8) {
        uint64_t word = rng_word(rng);

        memcpy(bytes + i, &word, 8);
    }
    for (; i < length; i++)
        bytes[i] = (uint8_t)rng_word(rng);
}

#endif
