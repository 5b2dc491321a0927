/*
 * Reads and writes that run into the next doubleword: one decode finds both cells, and the bytes of both are one number, shifted together. A span is
 * whole megabytes, and a bank has cells for whole megabytes. So the next doubleword has the same bank and the next cell, or no bank like the first,
 * unless it starts a megabyte; only then are the two parts judged and made one by one.
 */
#ifndef SPLITS_H
#define SPLITS_H

#include "calls.h"

INLINE int is_split(uint32_t address, size_t n)
{
    return (address & 7) + n > 8;
}

/* The address of the second part; 0 if the bytes run past the last address. */
INLINE uint32_t next_doubleword(uint32_t address)
{
    return (address | 7) + 1;
}

INLINE int starts_megabyte(uint32_t address)
{
    return (address & 0xfffff) == 0;
}

INLINE int are_lent(struct location first, size_t cells_length)
{
    return (size_t)first.cell * 9 + 18 <= cells_length;
}

INLINE uint32_t answered_split(uint32_t *answer, uint32_t first, uint32_t second)
{
    answer[0] = 2;
    answer[1] = first;
    answer[2] = second;
    answer[3] = answer[4] = 0;
    return ACCEPTED;
}

/* Neither part has a bank: the report of the second changes nothing more. */
INLINE uint32_t answered_no_bank(uint8_t *registers, uint32_t address, uint32_t *answer)
{
    return answered_split(answer, no_bank(registers, address), NO_BANK);
}

/* The eight bytes from the address on; `shift` is eight times its place in the first doubleword. */
INLINE uint64_t joined(uint64_t first, uint64_t second, uint32_t shift)
{
    return first >> shift | second << (64 - shift);
}

INLINE int is_unlent(struct location at, size_t cells_length)
{
    return at.found == HELD && !is_lent(at, cells_length);
}

/* Why a split over the end of a megabyte is refused. */
APART uint32_t refused_over_megabyte(const uint8_t *registers, size_t cells_length, uint32_t address)
{
    uint32_t next = next_doubleword(address);
    if (next == 0)
        return PASSES_LAST_ADDRESS;
    if (is_unlent(locate(registers, address), cells_length) || is_unlent(locate(registers, next), cells_length))
        return NOT_LENT;
    return ACCEPTED;
}

/* ---- reads ---- */

APART uint32_t read_over_megabyte(uint8_t *registers, const uint8_t *cells, size_t cells_length, uint32_t address, uint8_t *buffer, size_t n,
                                  uint32_t *answer)
{
    uint32_t refused = refused_over_megabyte(registers, cells_length, address), first[5], second[5];
    size_t m = 8 - (address & 7);
    if (refused)
        return refused;
    limit_read(registers, cells, cells_length, address, buffer, m, first);
    limit_read(registers, cells, cells_length, next_doubleword(address), buffer + m, n - m, second);
    return answered_split(answer, first[1], second[1]);
}

APART uint32_t read_both(uint8_t *registers, const uint8_t *cell, uint32_t address, uint8_t *buffer, size_t n, uint32_t *answer)
{
    uint64_t d = load64(cell), e = load64(cell + 9);
    uint32_t s = syndrome(cell), t = syndrome(cell + 9), first = CLEAN, second = CLEAN;
    if (RARE(s | t)) {
        d = read_data(registers, d, s, address, &first);
        e = read_data(registers, e, t, next_doubleword(address), &second);
    }
    put(buffer, joined(d, e, 8 * (address & 7)), n);
    return answered_split(answer, first, second);
}

INLINE uint32_t split_read(struct location at, uint8_t *registers, const uint8_t *cells, size_t cells_length, uint32_t address, uint8_t *buffer,
                           size_t n, uint32_t *answer)
{
    if (RARE(starts_megabyte(next_doubleword(address))))
        return read_over_megabyte(registers, cells, cells_length, address, buffer, n, answer);
    if (RARE(at.found == UNHELD)) {
        put(buffer, ~0ull, n);
        return answered_no_bank(registers, address, answer);
    }
    if (RARE(!are_lent(at, cells_length)))
        return NOT_LENT;
    return read_both(registers, cells + (size_t)at.cell * 9, address, buffer, n, answer);
}

/* ---- writes ---- */

APART uint32_t write_one_by_one(uint8_t *registers, uint8_t *cells, size_t cells_length, uint32_t address, const uint8_t *bytes, size_t n,
                                uint32_t *answer)
{
    uint32_t first[5], second[5];
    size_t m = 8 - (address & 7);
    limit_write(registers, cells, cells_length, address, bytes, m, first);
    limit_write(registers, cells, cells_length, next_doubleword(address), bytes + m, n - m, second);
    return answered_split(answer, first[1], second[1]);
}

APART uint32_t write_over_megabyte(uint8_t *registers, uint8_t *cells, size_t cells_length, uint32_t address, const uint8_t *bytes, size_t n,
                                   uint32_t *answer)
{
    uint32_t refused = refused_over_megabyte(registers, cells_length, address);
    return refused ? refused : write_one_by_one(registers, cells, cells_length, address, bytes, n, answer);
}

/*
 * How the check bytes of both doublewords change with the bytes from the address on: that of the first in the low byte, that of the second in the
 * high one. There are always eight lookups, since the processor could not foresee the end of a loop over one part.
 */
INLINE uint32_t change_of_checks(uint32_t address, uint64_t change)
{
    const uint16_t *check = SPLIT_CHECK + 256 * (address & 7);
    uint32_t c = 0;
    for (int i = 0; i < 8; i++, check += 256, change >>= 8)
        c ^= check[change & 255];
    return c;
}

/* Writes if both cells are clean, and says whether they are. */
APART int write_clean(uint8_t *cell, uint32_t address, const uint8_t *bytes, size_t n)
{
    uint64_t d = load64(cell), e = load64(cell + 9);
    uint32_t c = check_byte(cell), f = check_byte(cell + 9), shift = 8 * (address & 7);
    if (RARE((c ^ cell[8]) | (f ^ cell[17])))
        return 0;
    uint64_t change = (joined(d, e, shift) ^ get(bytes, n)) & ~0ull >> (64 - 8 * n);
    uint32_t checks = change_of_checks(address, change);
    store_cell(cell, d ^ change << shift, c ^ checks);
    store_cell(cell + 9, e ^ change >> (64 - shift), f ^ checks >> 8);
    return 1;
}

INLINE uint32_t split_write(struct location at, uint8_t *registers, uint8_t *cells, size_t cells_length, uint32_t address, const uint8_t *bytes,
                            size_t n, uint32_t *answer)
{
    if (RARE(starts_megabyte(next_doubleword(address))))
        return write_over_megabyte(registers, cells, cells_length, address, bytes, n, answer);
    if (RARE(at.found == UNHELD))
        return answered_no_bank(registers, address, answer);
    if (RARE(!are_lent(at, cells_length)))
        return NOT_LENT;
    if (RARE(!write_clean(cells + (size_t)at.cell * 9, address, bytes, n)))
        return write_one_by_one(registers, cells, cells_length, address, bytes, n, answer);
    return answered_split(answer, CLEAN, CLEAN);
}

#endif
