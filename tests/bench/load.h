/* Words of 64 bits in bytes, read and written in one step.
   Assumes a little-endian machine, as the benchmark does. */

#ifndef LOAD_H
#define LOAD_H

#include <stdint.h>
#include <string.h>

static inline uint64_t load_64(const uint8_t *bytes)
{
    uint64_t word;

    memcpy(&word, bytes, sizeof word);
    return word;
}

static inline void store_64(uint8_t *bytes, uint64_t word)
{
    memcpy(bytes, &word, sizeof word);
}

#endif
