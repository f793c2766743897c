/* The plain model's view of bytes: limits, kinds, fields of a netlist file.
   Assumes file version 1 as in 01, and that callers stay inside the bytes. */

#ifndef MODEL_RECORD_H
#define MODEL_RECORD_H

#include <stddef.h>
#include <stdint.h>

enum {
    WIDTH_LIMIT = 64,
    MULTIPLIER_LIMIT = 32,
    COUNT_LIMIT = 2048,
    HEADER_BYTES = 8,
    RECORD_BYTES = 24
};

enum kind {
    KIND_INPUT,
    KIND_CONSTANT,
    KIND_REGISTER,
    KIND_OUTPUT,
    KIND_EXTRACT,
    KIND_CONCAT,
    KIND_AND,
    KIND_OR,
    KIND_XOR,
    KIND_MUX,
    KIND_ADD,
    KIND_SUB,
    KIND_MUL,
    KIND_EQUAL,
    KIND_BELOW,
    KIND_LEFT_SHIFT,
    KIND_RIGHT_SHIFT,
    KIND_ARITHMETIC_SHIFT,
    KIND_SIGNED_BELOW,
    KIND_COUNT
};

/* Operand numbers are held in 32 bits so that a wider file version fits. */
struct record {
    uint8_t kind;
    uint8_t width;
    uint32_t operand[3];
    uint64_t k;
    uint64_t keep;
};

static inline uint32_t read_16(const uint8_t *bytes)
{
    return (uint32_t)bytes[0] | (uint32_t)bytes[1] << 8;
}

static inline uint64_t read_64(const uint8_t *bytes)
{
    return (uint64_t)bytes[0] | (uint64_t)bytes[1] << 8
         | (uint64_t)bytes[2] << 16 | (uint64_t)bytes[3] << 24
         | (uint64_t)bytes[4] << 32 | (uint64_t)bytes[5] << 40
         | (uint64_t)bytes[6] << 48 | (uint64_t)bytes[7] << 56;
}

static inline void write_16(uint8_t *bytes, uint32_t number)
{
    bytes[0] = (uint8_t)number;
    bytes[1] = (uint8_t)(number >> 8);
}

static inline void write_64(uint8_t *bytes, uint64_t number)
{
    int i;

    for (i = 0; i < 8; i++)
        bytes[i] = (uint8_t)(number >> 8 * i);
}

static inline const uint8_t *record_at(const uint8_t *file, uint32_t number)
{
    return file + HEADER_BYTES + (size_t)RECORD_BYTES * number;
}

static inline uint8_t kind_at(const uint8_t *file, uint32_t number)
{
    return record_at(file, number)[0];
}

static inline uint8_t width_at(const uint8_t *file, uint32_t number)
{
    return record_at(file, number)[1];
}

static inline struct record read_record(const uint8_t *file, uint32_t number)
{
    const uint8_t *bytes = record_at(file, number);
    struct record record;

    record.kind = bytes[0];
    record.width = bytes[1];
    record.operand[0] = read_16(bytes + 2);
    record.operand[1] = read_16(bytes + 4);
    record.operand[2] = read_16(bytes + 6);
    record.k = read_64(bytes + 8);
    record.keep = read_64(bytes + 16);
    return record;
}

static inline void write_record(uint8_t *bytes, const struct record *record)
{
    bytes[0] = record->kind;
    bytes[1] = record->width;
    write_16(bytes + 2, record->operand[0]);
    write_16(bytes + 4, record->operand[1]);
    write_16(bytes + 6, record->operand[2]);
    write_64(bytes + 8, record->k);
    write_64(bytes + 16, record->keep);
}

/* All ones from bit 0 up to the width. A shift by 64 has no meaning in C. */
static inline uint64_t width_mask(unsigned width)
{
    return width >= 64 ? ~(uint64_t)0 : ((uint64_t)1 << width) - 1;
}

#endif
