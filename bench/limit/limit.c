/*
 * The limit of speed: read, write, flip, scrub, bursts and map written by hand, as fast as we know how, with the contract of the functions
 * MPC106_RAW(..) of include/mpc106.h. Nothing is kept between calls: each call judges the record, as in the proved library. Nothing here is proved; the tests
 * compare its answers with the library's. Reads and writes that run into the next doubleword are in splits.h, bursts in bursts.c.
 */
#include "calls.h"
#include "splits.h"

uint32_t limit_read(uint8_t *registers, const uint8_t *cells, size_t cells_length, uint32_t address, uint8_t *buffer,
                    size_t n, uint32_t *answer)
{
    struct location at = locate(registers, address);
    if (RARE(at.found == UNREADY))
        return NOT_READY;
    if (RARE(n - 1 > 7))
        return BAD_COUNT;
    if (RARE(is_split(address, n)))
        return split_read(at, registers, cells, cells_length, address, buffer, n, answer);
    if (RARE(at.found == UNHELD)) {
        put(buffer, ~0ull, n);
        return answered(answer, no_bank(registers, address));
    }
    if (RARE(!is_lent(at, cells_length)))
        return NOT_LENT;
    uint32_t part;
    uint64_t d = read_cell(registers, cells + (size_t)at.cell * 9, address, &part);
    put(buffer, d >> 8 * (address & 7), n);
    return answered(answer, part);
}

/* The check byte follows from the old one and the bits that change. */
INLINE uint32_t write_part(uint8_t *registers, uint8_t *cell, uint32_t address, const uint8_t *bytes, size_t n)
{
    uint64_t d = load64(cell);
    uint32_t c = check_byte(cell), s = c ^ cell[8], part = CLEAN;
    if (RARE(s)) {
        if (PART[s] == UNCORRECTABLE)
            return uncorrectable(registers, address);
        part = corrected(registers, s, address);
        if (FIX[s]) {
            d ^= FIX[s];
            c ^= s;
        }
    }
    uint32_t shift = 8 * (address & 7);
    uint64_t mask = (~0ull >> (64 - 8 * n)) << shift;
    uint64_t merged = (d & ~mask) | get(bytes, n) << shift;
    uint64_t change = (d ^ merged) >> shift;
    const uint8_t *check = CHECK + 256 * (address & 7);
    for (size_t i = 0; i < n; i++, check += 256, change >>= 8)
        c ^= check[change & 255];
    store_cell(cell, merged, c);
    return part;
}

uint32_t limit_write(uint8_t *registers, uint8_t *cells, size_t cells_length, uint32_t address, const uint8_t *bytes,
                     size_t n, uint32_t *answer)
{
    struct location at = locate(registers, address);
    if (RARE(at.found == UNREADY))
        return NOT_READY;
    if (RARE(n - 1 > 7))
        return BAD_COUNT;
    if (RARE(is_split(address, n)))
        return split_write(at, registers, cells, cells_length, address, bytes, n, answer);
    if (RARE(at.found == UNHELD))
        return answered(answer, no_bank(registers, address));
    if (RARE(!is_lent(at, cells_length)))
        return NOT_LENT;
    uint8_t *cell = cells + (size_t)at.cell * 9;
    if (n == 8)
        return answered(answer, write_whole(cell, bytes));
    return answered(answer, write_part(registers, cell, address, bytes, n));
}

uint32_t limit_flip(const uint8_t *registers, uint8_t *cells, size_t cells_length, uint32_t address, uint32_t bit)
{
    struct location at = locate(registers, address);
    if (RARE(at.found == UNREADY))
        return NOT_READY;
    if (RARE(bit > 71))
        return BAD_BIT;
    if (RARE(at.found == UNHELD))
        return FLIP_WITHOUT_BANK;
    if (RARE(!is_lent(at, cells_length)))
        return NOT_LENT;
    cells[(size_t)at.cell * 9 + (bit >> 3)] ^= (uint8_t)(1u << ((bit & 7) ^ (bit < 64 ? 7 : 0)));
    return ACCEPTED;
}

uint32_t limit_scrub(uint8_t *registers, uint8_t *cells, size_t cells_length, uint32_t address, uint32_t *answer)
{
    struct location at = locate(registers, address);
    if (RARE(at.found == UNREADY))
        return NOT_READY;
    if (RARE(at.found == UNHELD))
        return answered(answer, no_bank(registers, address));
    if (RARE(!is_lent(at, cells_length)))
        return NOT_LENT;
    uint8_t *cell = cells + (size_t)at.cell * 9;
    uint64_t d = load64(cell);
    uint32_t c = check_byte(cell), s = c ^ cell[8];
    if (!RARE(s))
        return answered(answer, CLEAN);
    if (PART[s] == UNCORRECTABLE)
        return answered(answer, uncorrectable(registers, address));
    if (FIX[s])
        store64(cell, d ^ FIX[s]);
    else
        cell[8] = (uint8_t)c;
    return answered(answer, corrected(registers, s, address));
}

uint32_t limit_map(const uint8_t *registers, uint32_t address, uint32_t *place)
{
    struct location at = locate(registers, address);
    if (RARE(at.found == UNREADY))
        return NOT_READY;
    if (RARE(at.found == UNHELD)) {
        memset(place, 0, 5 * sizeof *place);
        return ACCEPTED;
    }
    uint16_t codes;
    memcpy(&codes, registers + 0xf0, 2);
    uint32_t bits = 32 - (uint32_t)__builtin_clz(at.mask);
    uint32_t columns = bits == 25 ? 12 : bits - 9 - (codes >> 2 * at.bank & 3);
    place[0] = 1;
    place[1] = at.bank;
    place[2] = at.number >> columns;
    place[3] = at.number & ((1u << columns) - 1);
    place[4] = at.cell;
    return ACCEPTED;
}
