/*
 * What the calls share: the numbers of the refusals, the answer of one part, and whether a cell is lent.
 */
#ifndef CALLS_H
#define CALLS_H

#include "cell.h"

enum {
    ACCEPTED = 0,
    NOT_READY = 5,
    BAD_COUNT = 6,
    PASSES_LAST_ADDRESS = 7,
    BAD_BIT = 8,
    NOT_LENT = 9,
    FLIP_WITHOUT_BANK = 10,
    MISALIGNED = 19,
    NOT_CACHE_LINE = 20
};

/* Not inlined, so that the other calls do not carry it along. */
#define APART static __attribute__((noinline))

uint32_t limit_read(uint8_t *registers, const uint8_t *cells, size_t cells_length, uint32_t address, uint8_t *buffer, size_t n,
                    uint32_t *answer);
uint32_t limit_write(uint8_t *registers, uint8_t *cells, size_t cells_length, uint32_t address, const uint8_t *bytes, size_t n,
                     uint32_t *answer);

INLINE uint32_t answered(uint32_t *answer, uint32_t part)
{
    answer[0] = 1;
    answer[1] = part;
    answer[2] = answer[3] = answer[4] = 0;
    return ACCEPTED;
}

INLINE int is_lent(struct location at, size_t cells_length)
{
    return (size_t)at.cell * 9 + 9 <= cells_length;
}

#endif
