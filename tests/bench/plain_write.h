/* Writes a trimmed file: a copy of the file, and then the keep words.
   Assumes a little-endian machine, and a mask of 8 bytes for each record. */

#ifndef PLAIN_WRITE_H
#define PLAIN_WRITE_H

#include <string.h>

#include "../model/record.h"
#include "load.h"

enum { KEEP_AT = 16 };

static inline void write_trimmed(const uint8_t *restrict file, size_t length,
                                 const uint8_t *restrict masks,
                                 size_t masks_length,
                                 uint8_t *restrict destination)
{
    size_t i;

    memcpy(destination, file, length);
    for (i = 0; i < masks_length; i += 8) {
        uint8_t *keep = destination + HEADER_BYTES + 3 * i + KEEP_AT;

        store_64(keep, load_64(keep) & load_64(masks + i));
    }
}

#endif
