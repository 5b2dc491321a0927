/*
 * The bit of a correction, MPC106_FLIP_BIT, through the calls of mpc106.h: each of the 72 flip bits (ECC-3) at reads, short writes, scrubs, bursts and
 * splits, against the bit that was inverted; and 0 in a part of any other kind.
 */
#include "sides.h"

#define BITS 72

/* What each doubleword of the line at 20 holds. */
static const uint8_t held[8] = {0xa5, 0x3c, 0x0f, 0x69, 0xc3, 0x5a, 0x96, 0xf1};

static void start_line(void)
{
    both_start(1);
    for (uint32_t address = 0x20; address < 0x40; address += 8)
        CHECK(mpc106_write(&memory, address, held, 8, &a.answer) == 0);
}

static int is_corrected(uint32_t part, uint32_t bit)
{
    return MPC106_KIND(part) == MPC106_CORRECTED && MPC106_FLIP_BIT(part) == bit;
}

/* Of this kind, which is not MPC106_CORRECTED, so that there is no bit. */
static int is_other(uint32_t part, uint32_t kind)
{
    return MPC106_KIND(part) == kind && MPC106_FLIP_BIT(part) == 0;
}

/* An answer of one part, which was corrected at this bit. */
static int is_one_corrected(const mpc106_answer *answer, uint32_t bit)
{
    return answer->count == 1 && is_corrected(answer->part[0], bit);
}

static int is_one_other(const mpc106_answer *answer, uint32_t kind)
{
    return answer->count == 1 && is_other(answer->part[0], kind);
}

/* A later version may put more above the bit; the argument may be any expression. */
static void macros_take_their_own_byte(void)
{
    CHECK(MPC106_FLIP_BIT(0x4702u) == 71 && MPC106_KIND(0x4702u) == MPC106_CORRECTED);
    CHECK(MPC106_FLIP_BIT(0xffff0902u) == 9 && MPC106_KIND(0xffff0902u) == MPC106_CORRECTED);
    CHECK(MPC106_FLIP_BIT(0x4000u | 2u) == 64);
}

/* The bit is that of the doubleword, whichever of its bytes are asked for. */
static void check_access(uint32_t bit, uint32_t place, uint32_t count)
{
    start_line();
    CHECK(mpc106_flip(&memory, 0x28, bit) == 0);
    CHECK(mpc106_read(&memory, 0x28 + place, a.buffer, count, &a.answer) == 0);
    CHECK(is_one_corrected(&a.answer, bit));
    CHECK(memcmp(a.buffer, held + place, count) == 0);
    if (count == 8)
        return;
    CHECK(mpc106_write(&memory, 0x28 + place, held, count, &a.answer) == 0);
    CHECK(is_one_corrected(&a.answer, bit));
    CHECK(mpc106_write(&memory, 0x28 + place, held, count, &a.answer) == 0);
    CHECK(is_one_other(&a.answer, MPC106_CLEAN));
}

static void reads_and_short_writes(void)
{
    for (uint32_t bit = 0; bit < BITS; bit++)
        for (uint32_t place = 0; place < 8; place++)
            for (uint32_t count = 1; count <= 8 - place; count++)
                check_access(bit, place, count);
}

static void scrubs(void)
{
    for (uint32_t bit = 0; bit < BITS; bit++) {
        start_line();
        CHECK(mpc106_flip(&memory, 0x28, bit) == 0);
        CHECK(mpc106_scrub(&memory, 0x2d, &a.answer) == 0);
        CHECK(is_one_corrected(&a.answer, bit));
        CHECK(mpc106_scrub(&memory, 0x2d, &a.answer) == 0);
        CHECK(is_one_other(&a.answer, MPC106_CLEAN));
    }
}

/* One bit of each doubleword but one, which is clean. The bits are in the order of the beats, not in that of addresses. */
static void check_burst(uint32_t bit, uint32_t first)
{
    const uint32_t clean = (first + 2) % 4;
    start_line();
    for (uint32_t place = 0; place < 4; place++)
        if (place != clean)
            CHECK(mpc106_flip(&memory, 0x20 + 8 * place, (bit + 19 * place) % BITS) == 0);
    CHECK(mpc106_burst_read(&memory, 0x20 + 8 * first, a.buffer, MPC106_LINE_BYTES, &a.answer) == 0);
    CHECK(a.answer.count == 4);
    for (uint32_t beat = 0; beat < 4; beat++) {
        uint32_t place = (first + beat) % 4, part = a.answer.part[beat];
        CHECK(place == clean ? is_other(part, MPC106_CLEAN) : is_corrected(part, (bit + 19 * place) % BITS));
        CHECK(memcmp(a.buffer + 8 * beat, held, 8) == 0);
    }
}

static void bursts(void)
{
    for (uint32_t bit = 0; bit < BITS; bit++)
        for (uint32_t first = 0; first < 4; first++)
            check_burst(bit, first);
}

/* Two parts; those that were flipped were corrected at these bits, and the others are clean. */
static int are_parts(const mpc106_answer *answer, int flipped, uint32_t bit, uint32_t other)
{
    const uint32_t *part = answer->part;
    return answer->count == 2 && part[2] == 0 && part[3] == 0 &&
           ((flipped & 1) ? is_corrected(part[0], bit) : is_other(part[0], MPC106_CLEAN)) &&
           ((flipped & 2) ? is_corrected(part[1], other) : is_other(part[1], MPC106_CLEAN));
}

/* Bit 0 of flipped: the first doubleword; bit 1: the second. */
static void check_split(uint32_t bit, uint32_t place, int flipped)
{
    const uint32_t other = (bit + 35) % BITS, address = 0x28 + place;
    start_line();
    if (flipped & 1)
        CHECK(mpc106_flip(&memory, 0x28, bit) == 0);
    if (flipped & 2)
        CHECK(mpc106_flip(&memory, 0x30, other) == 0);
    CHECK(mpc106_read(&memory, address, a.buffer, 9 - place, &a.answer) == 0);
    CHECK(are_parts(&a.answer, flipped, bit, other));
    CHECK(mpc106_write(&memory, address, held, 8, &a.answer) == 0);
    CHECK(are_parts(&a.answer, flipped, bit, other));
    CHECK(mpc106_read(&memory, address, a.buffer, 8, &a.answer) == 0);
    CHECK(are_parts(&a.answer, 0, 0, 0) && memcmp(a.buffer, held, 8) == 0);
}

static void splits(void)
{
    for (uint32_t bit = 0; bit < BITS; bit++)
        for (uint32_t place = 1; place < 8; place++)
            for (int flipped = 0; flipped < 4; flipped++)
                check_split(bit, place, flipped);
}

/* Two inverted bits cannot be corrected, a whole doubleword is stored without a look at the old one, and 500000 has no bank. */
static void other_kinds(void)
{
    static const uint8_t zeros[MPC106_LINE_BYTES] = {0};
    start_line();
    CHECK(mpc106_flip(&memory, 0x28, 5) == 0 && mpc106_flip(&memory, 0x28, 70) == 0 && mpc106_flip(&memory, 0x30, 9) == 0);
    CHECK(mpc106_read(&memory, 0x28, a.buffer, 8, &a.answer) == 0 && is_one_other(&a.answer, MPC106_UNCORRECTABLE));
    CHECK(mpc106_write(&memory, 0x29, held, 1, &a.answer) == 0 && is_one_other(&a.answer, MPC106_UNCORRECTABLE));
    CHECK(mpc106_scrub(&memory, 0x28, &a.answer) == 0 && is_one_other(&a.answer, MPC106_UNCORRECTABLE));
    CHECK(mpc106_read(&memory, 0x2e, a.buffer, 4, &a.answer) == 0);
    CHECK(a.answer.count == 2 && is_other(a.answer.part[0], MPC106_UNCORRECTABLE) && is_corrected(a.answer.part[1], 9));
    CHECK(mpc106_write(&memory, 0x30, held, 8, &a.answer) == 0 && is_one_other(&a.answer, MPC106_STORED));
    CHECK(mpc106_read(&memory, 0x500000, a.buffer, 8, &a.answer) == 0 && is_one_other(&a.answer, MPC106_NO_BANK));
    CHECK(mpc106_scrub(&memory, 0x500000, &a.answer) == 0 && is_one_other(&a.answer, MPC106_NO_BANK));
    CHECK(mpc106_flip(&memory, 0x38, 9) == 0);
    CHECK(mpc106_burst_write(&memory, 0x28, zeros, sizeof zeros, &a.answer) == 0);
    for (uint32_t beat = 0; beat < 4; beat++)
        CHECK(is_other(a.answer.part[beat], MPC106_STORED));
}

int main(void)
{
    macros_take_their_own_byte();
    reads_and_short_writes();
    scrubs();
    bursts();
    splits();
    other_kinds();
    return 0;
}
