/*
 * Where an address is kept. Each call judges the record: if one or two banks are enabled they are judged one by one; otherwise the eight starts and
 * ends are vectors of sixteen-bit numbers, handled with instructions that every x86-64 has.
 */
#ifndef LOCATE_H
#define LOCATE_H

#include <immintrin.h>
#include <stddef.h>
#include <stdint.h>
#include <string.h>

/* CHECK, SPLIT_CHECK, FIX, PART, OFF, ROWS, BELOW: written by build.rs, which says what they hold. */
#include "tables.h"

#define INLINE static inline __attribute__((always_inline))
#define RARE(x) __builtin_expect(!!(x), 0)

/* Whether there is a cell, and where: `number` counts within the bank, `cell` within the memory; `mask` is the bank's number of cells less 1. */
enum found { HELD, UNHELD, UNREADY };
struct location {
    enum found found;
    uint32_t bank, number, cell, mask;
};

INLINE struct location nowhere(enum found found)
{
    struct location at = {found, 0, 0, 0, 0};
    return at;
}

/* `size` is a power of two of megabytes, less 1; `base` is the megabytes of the lower banks. */
INLINE struct location in_bank(uint32_t bank, uint32_t size, uint32_t base, uint32_t address)
{
    struct location at = {HELD, bank, 0, 0, size << 17 | 0x1ffff};
    at.number = address >> 3 & at.mask;
    at.cell = (base << 17) + at.number;
    return at;
}

/* The longest bank of each row code, in megabytes. */
#define LONGEST 0x0100002000080002ull

struct bank {
    uint32_t start, span, too_long, size;
};

INLINE struct bank bank_of(const uint8_t *registers, uint32_t n, uint32_t codes)
{
    struct bank b;
    uint32_t code = codes >> 2 * n & 3;
    b.start = registers[0x80 + n] | (registers[0x88 + n] & 3u) << 8;
    b.span = (registers[0x90 + n] | (registers[0x98 + n] & 3u) << 8) - b.start;
    b.too_long = (uint16_t)(LONGEST >> 16 * code); /* an end below its start wraps around, above this */
    uint32_t megabytes = b.span | ((1u << code) - 1);
    b.size = (1u << (31 - __builtin_clz(2 * megabytes + 1))) - 1;
    return b;
}

INLINE struct location locate_in_one(const uint8_t *registers, uint32_t address, uint32_t on, uint32_t codes)
{
    if (RARE(on == 0 || !(registers[0xf2] & 8)))
        return nowhere(UNREADY);
    uint32_t n = (uint32_t)__builtin_ctz(on);
    struct bank b = bank_of(registers, n, codes);
    if (RARE(b.span >= b.too_long))
        return nowhere(UNREADY);
    if (RARE((address >> 20) - b.start > b.span))
        return nowhere(UNHELD);
    return in_bank(n, b.size, 0, address);
}

INLINE struct location locate_in_two(const uint8_t *registers, uint32_t address, uint32_t on, uint32_t codes)
{
    uint32_t n = (uint32_t)__builtin_ctz(on), m = (uint32_t)__builtin_ctz(on & (on - 1)), mb = address >> 20;
    struct bank b = bank_of(registers, n, codes), c = bank_of(registers, m, codes);
    if (RARE(!(registers[0xf2] & 8)) || RARE((b.span >= b.too_long) | (c.span >= c.too_long)))
        return nowhere(UNREADY);
    if (RARE((c.start - b.start <= b.span) | (b.start - c.start <= c.span)))
        return nowhere(UNREADY);
    if (mb - b.start <= b.span)
        return in_bank(n, b.size, 0, address);
    if (mb - c.start <= c.span)
        return in_bank(m, c.size, b.size + 1, address);
    return nowhere(UNHELD);
}

INLINE __m128i pairs(const uint8_t *low, const uint8_t *high)
{
    return _mm_unpacklo_epi8(_mm_loadl_epi64((const __m128i *)low), _mm_loadl_epi64((const __m128i *)high));
}

INLINE __m128i halves(const uint8_t *low, const uint8_t *high)
{
    return _mm_unpacklo_epi64(_mm_loadl_epi64((const __m128i *)low), _mm_loadl_epi64((const __m128i *)high));
}

/* How often a start is above an end. Of two spans at most one starts above the other's end, and exactly one does if they are disjoint. */
INLINE __m128i starts_above_ends(__m128i start, __m128i end)
{
#define ABOVE(v) (above = _mm_sub_epi16(above, _mm_cmpgt_epi16(v, end)))
    __m128i above = _mm_setzero_si128(), next = _mm_or_si128(_mm_srli_si128(start, 2), _mm_slli_si128(start, 14));
    ABOVE(next);
    ABOVE(_mm_shuffle_epi32(start, 0x39));
    ABOVE(_mm_shuffle_epi32(next, 0x39));
    ABOVE(_mm_shuffle_epi32(start, 0x4e));
    ABOVE(_mm_shuffle_epi32(next, 0x4e));
    ABOVE(_mm_shuffle_epi32(start, 0x93));
    ABOVE(_mm_shuffle_epi32(next, 0x93));
#undef ABOVE
    return above;
}

/* What the registers say about the eight banks. */
struct lanes {
    __m128i none;           /* FFFF where the bank is off */
    __m128i start, end;     /* in megabytes; -1 where the bank is off */
    __m128i longest, least; /* the longest length less 1, and the least size less 1 */
    uint32_t disjoint;      /* how often a start is above an end, where the enabled spans are disjoint */
    const uint8_t *lower;   /* how many lower banks are enabled, two bytes a bank */
};

INLINE struct lanes lanes_of(const uint8_t *registers)
{
    const uint8_t *off = (const uint8_t *)&OFF[(size_t)registers[0xa0] * 16];
    const uint8_t *low = (const uint8_t *)&ROWS[(size_t)registers[0xf0] * 8];
    const uint8_t *high = (const uint8_t *)&ROWS[(size_t)registers[0xf1] * 8];
    const __m128i ten_bits = _mm_set1_epi16(0x3ff);
    struct lanes l;
    l.none = _mm_load_si128((const __m128i *)off);
    l.start = _mm_or_si128(_mm_and_si128(pairs(registers + 0x80, registers + 0x88), ten_bits), l.none);
    l.end = _mm_or_si128(_mm_and_si128(pairs(registers + 0x90, registers + 0x98), ten_bits), l.none);
    l.longest = halves(low, high);
    l.least = halves(low + 8, high + 8);
    l.disjoint = off[17];
    l.lower = off + 16;
    return l;
}

/* The next power of two less 1, of numbers below 256. */
INLINE __m128i filled(__m128i x)
{
    x = _mm_or_si128(x, _mm_srli_epi16(x, 1));
    x = _mm_or_si128(x, _mm_srli_epi16(x, 2));
    return _mm_or_si128(x, _mm_srli_epi16(x, 4));
}

INLINE struct location locate_in_many(const uint8_t *registers, uint32_t address)
{
    struct lanes l = lanes_of(registers);
    const __m128i zero = _mm_setzero_si128();

    /* An end below its start wraps around, above every longest length. */
    __m128i span = _mm_sub_epi16(l.end, l.start);
    __m128i good = _mm_cmpeq_epi16(_mm_subs_epu16(span, l.longest), zero);
    __m128i above = starts_above_ends(l.start, l.end);

    __m128i mb = _mm_set1_epi16((short)(address >> 20));
    __m128i outside = _mm_or_si128(_mm_cmpgt_epi16(l.start, mb), _mm_cmpgt_epi16(mb, l.end));
    uint32_t miss = (uint32_t)_mm_movemask_epi8(outside);
    uint32_t lane = (uint32_t)__builtin_ctz(~miss); /* twice the bank; 16 where there is none */

    uint8_t sizes[32] __attribute__((aligned(16))); /* in megabytes, less 1 */
    __m128i size = filled(_mm_or_si128(span, l.least));
    _mm_store_si128((__m128i *)sizes, size);
    __m128i below = _mm_load_si128((const __m128i *)((const uint8_t *)BELOW + (lane & 14) * 8));
    __m128i lower = _mm_and_si128(_mm_andnot_si128(l.none, size), below);
    __m128i sums = _mm_sad_epu8(_mm_packus_epi16(above, lower), zero);

    uint32_t meets = (uint32_t)_mm_cvtsi128_si32(sums) ^ l.disjoint;
    if (RARE(!(registers[0xf2] & 8)) || RARE(meets | ((uint32_t)_mm_movemask_epi8(good) ^ 0xffff)))
        return nowhere(UNREADY);
    if (RARE(miss == 0xffff))
        return nowhere(UNHELD);
    uint16_t own;
    memcpy(&own, sizes + lane, 2);
    return in_bank(lane >> 1, own, (uint32_t)_mm_extract_epi16(sums, 4) + l.lower[lane], address);
}

INLINE struct location locate(const uint8_t *registers, uint32_t address)
{
    uint32_t on = registers[0xa0], codes = registers[0xf0] | (uint32_t)registers[0xf1] << 8, rest = on & (on - 1);
    if (rest == 0)
        return locate_in_one(registers, address, on, codes);
    if ((rest & (rest - 1)) == 0)
        return locate_in_two(registers, address, on, codes);
    return locate_in_many(registers, address);
}

#endif
