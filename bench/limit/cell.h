/*
 * A cell and what is done to it: the check code, the error registers, and the bytes of a doubleword as they are read and written.
 */
#ifndef CELL_H
#define CELL_H

#include "locate.h"

/* The parts of an answer. One that was corrected has its flip bit in the next byte, and stands in PART. */
enum { CLEAN = 1, UNCORRECTABLE = 3, STORED, NO_BANK };

INLINE uint64_t load64(const uint8_t *p)
{
    uint64_t x;
    memcpy(&x, p, 8);
    return x;
}

INLINE void store64(uint8_t *p, uint64_t x)
{
    memcpy(p, &x, 8);
}

/* ---- the check code ---- */

INLINE uint32_t check_byte(const uint8_t *p)
{
    uint8_t a = CHECK[p[0]], b = CHECK[256 + p[1]];
    a ^= CHECK[512 + p[2]];
    b ^= CHECK[768 + p[3]];
    a ^= CHECK[1024 + p[4]];
    b ^= CHECK[1280 + p[5]];
    a ^= CHECK[1536 + p[6]];
    b ^= CHECK[1792 + p[7]];
    return (uint32_t)(uint8_t)(a ^ b);
}

/* ---- the error registers ---- */

INLINE void detect(uint8_t *registers, uint32_t offset, uint8_t bit, uint32_t address)
{
    if ((registers[0xc1] | registers[0xc5]) == 0)
        memcpy(registers + 0xc8, &address, 4);
    registers[offset] |= bit;
}

/* Counts a correction and reports it where the trigger is reached. The syndrome gives its part. */
INLINE uint32_t corrected(uint8_t *registers, uint32_t s, uint32_t address)
{
    uint32_t n = registers[0xb8] + 1u;
    if (n < 256) {
        registers[0xb8] = (uint8_t)n;
        if (n == registers[0xb9] && (registers[0xc0] & 4))
            detect(registers, 0xc1, 4, address);
    }
    return PART[s];
}

INLINE uint32_t uncorrectable(uint8_t *registers, uint32_t address)
{
    if (registers[0xc4] & 8)
        detect(registers, 0xc5, 8, address);
    return UNCORRECTABLE;
}

INLINE uint32_t no_bank(uint8_t *registers, uint32_t address)
{
    if (registers[0xc0] & 0x20)
        detect(registers, 0xc1, 0x20, address);
    return NO_BANK;
}

/* ---- bytes ---- */

/* The first n of the bytes, lowest first; n is 1 to 8. */
INLINE void put(uint8_t *to, uint64_t x, size_t n)
{
    if (n == 8) {
        store64(to, x);
    } else if (n >= 4) {
        uint32_t a = (uint32_t)x, b = (uint32_t)(x >> (8 * n - 32));
        memcpy(to, &a, 4);
        memcpy(to + n - 4, &b, 4);
    } else {
        to[0] = (uint8_t)x;
        if (n > 1) {
            to[1] = (uint8_t)(x >> 8);
            to[n - 1] = (uint8_t)(x >> (8 * n - 8));
        }
    }
}

INLINE uint64_t get(const uint8_t *from, size_t n)
{
    if (n == 1)
        return from[0];
    if (n >= 4) {
        uint32_t a, b;
        memcpy(&a, from, 4);
        memcpy(&b, from + n - 4, 4);
        return a | (uint64_t)b << (8 * n - 32);
    }
    return from[0] | (uint64_t)from[1] << 8 | (uint64_t)from[n - 1] << (8 * n - 8);
}

/* ---- doublewords ---- */

INLINE uint32_t syndrome(const uint8_t *cell)
{
    return check_byte(cell) ^ cell[8];
}

/* The data of a cell with this syndrome as a read finds it. */
INLINE uint64_t read_data(uint8_t *registers, uint64_t d, uint32_t s, uint32_t address, uint32_t *part)
{
    *part = CLEAN;
    if (RARE(s)) {
        d ^= FIX[s];
        *part = PART[s] != UNCORRECTABLE ? corrected(registers, s, address) : uncorrectable(registers, address);
    }
    return d;
}

INLINE uint64_t read_cell(uint8_t *registers, const uint8_t *cell, uint32_t address, uint32_t *part)
{
    return read_data(registers, load64(cell), syndrome(cell), address, part);
}

INLINE void store_cell(uint8_t *cell, uint64_t d, uint32_t check)
{
    store64(cell, d);
    cell[8] = (uint8_t)check;
}

INLINE uint32_t write_whole(uint8_t *cell, const uint8_t *bytes)
{
    store_cell(cell, load64(bytes), check_byte(bytes));
    return STORED;
}

#endif
