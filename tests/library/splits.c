/*
 * Reads and writes that run into the next doubleword (MEM-17, MEM-18), against what was worked out by hand: the count of parts and the two
 * parts, the bytes, the reports, and the refusals; and each of mpc106.h against the function of the archive that it stands for.
 */
#include "sides.h"

/* What the doublewords at 20 and 28 hold. */
static const uint8_t held[16] = {1, 2, 3, 4, 5, 6, 7, 8, 9, 10, 11, 12, 13, 14, 15, 16};

/* What a write gives them. */
static const uint8_t given[8] = {0xa0, 0xa1, 0xa2, 0xa3, 0xa4, 0xa5, 0xa6, 0xa7};

/* All errors are reported, of corrections the second. */
static void start_holding(void)
{
    both_start(1);
    CHECK(mpc106_register_write(&a.record, MPC106_SINGLE_BIT_TRIGGER, 2) == 0);
    CHECK(mpc106_register_write(&a.record, MPC106_ERROR_ENABLE_2, 8) == 0);
    CHECK(mpc106_write(&memory, 0x20, held, 8, &a.answer) == 0);
    CHECK(mpc106_write(&memory, 0x28, held + 8, 8, &a.answer) == 0);
    memcpy(&b, &a, sizeof b);
}

/* Two parts of these kinds; the parts that are not used are 0. */
static int has_parts(const mpc106_answer *answer, uint32_t first, uint32_t second)
{
    return answer->count == 2 && MPC106_KIND(answer->part[0]) == first && MPC106_KIND(answer->part[1]) == second &&
           answer->part[2] == 0 && answer->part[3] == 0;
}

/* A split at this place of the doubleword at 20, in both ways of calling. */
static void check_clean(uint32_t place, uint32_t count)
{
    uint8_t merged[16], found[16];
    start_holding();
    SAME(mpc106_read(&memory, 0x20 + place, a.buffer, count, &a.answer),
         MPC106_RAW(read)(b.record.registers, b.cells, sizeof b.cells, 0x20 + place, b.buffer, count, (uint32_t *)&b.answer));
    CHECK(has_parts(&a.answer, MPC106_CLEAN, MPC106_CLEAN));
    CHECK(memcmp(a.buffer, held + place, count) == 0 && a.buffer[count] == 0xa6);
    SAME(mpc106_write(&memory, 0x20 + place, given, count, &a.answer),
         MPC106_RAW(write)(b.record.registers, b.cells, sizeof b.cells, 0x20 + place, given, count, (uint32_t *)&b.answer));
    CHECK(has_parts(&a.answer, MPC106_CLEAN, MPC106_CLEAN));
    memcpy(merged, held, sizeof merged);
    memcpy(merged + place, given, count);
    for (uint32_t doubleword = 0; doubleword < 16; doubleword += 8) {
        CHECK(mpc106_read(&memory, 0x20 + doubleword, found + doubleword, 8, &a.answer) == 0);
        CHECK(a.answer.count == 1 && MPC106_KIND(a.answer.part[0]) == MPC106_CLEAN);
    }
    CHECK(memcmp(found, merged, sizeof merged) == 0);
}

static void parts_are_clean(void)
{
    for (uint32_t place = 1; place < 8; place++)
        for (uint32_t count = 9 - place; count <= 8; count++)
            check_clean(place, count);
}

/* An uncorrectable first part stays, and does not stop the second. */
static void first_is_uncorrectable(void)
{
    static const uint8_t as_stored[4] = {7, 0x88, 9, 10};
    start_holding();
    CHECK(mpc106_flip(&memory, 0x20, 56) == 0 && mpc106_flip(&memory, 0x20, 0) == 0);
    memcpy(&b, &a, sizeof b);
    CHECK(mpc106_read(&memory, 0x26, a.buffer, 4, &a.answer) == 0);
    CHECK(has_parts(&a.answer, MPC106_UNCORRECTABLE, MPC106_CLEAN));
    CHECK(memcmp(a.buffer, as_stored, 4) == 0);
    CHECK(a.record.registers[MPC106_ERROR_DETECTION_2] == 8 && mpc106_error_address(&a.record) == 0x26);
    CHECK(mpc106_write(&memory, 0x26, given, 4, &a.answer) == 0);
    CHECK(has_parts(&a.answer, MPC106_UNCORRECTABLE, MPC106_CLEAN));
    CHECK(memcmp(a.cells + 9 * 4, b.cells + 9 * 4, 9) == 0);
    CHECK(memcmp(a.cells + 9 * 5, given + 2, 2) == 0 && a.cells[9 * 5 + 2] == held[10]);
}

/* The second correction reaches the trigger, so the address is that of the second part. */
static void both_are_corrected(void)
{
    start_holding();
    CHECK(mpc106_flip(&memory, 0x20, 63) == 0 && mpc106_flip(&memory, 0x28, 71) == 0);
    memcpy(&b, &a, sizeof b);
    CHECK(mpc106_read(&memory, 0x27, a.buffer, 8, &a.answer) == 0);
    CHECK(has_parts(&a.answer, MPC106_CORRECTED, MPC106_CORRECTED));
    CHECK(memcmp(a.buffer, held + 7, 8) == 0 && memcmp(a.cells, b.cells, sizeof a.cells) == 0);
    CHECK(a.record.registers[MPC106_SINGLE_BIT_COUNTER] == 2);
    CHECK(a.record.registers[MPC106_ERROR_DETECTION_1] == 4 && mpc106_error_address(&a.record) == 0x28);
    CHECK(mpc106_write(&memory, 0x27, given, 8, &a.answer) == 0);
    CHECK(has_parts(&a.answer, MPC106_CORRECTED, MPC106_CORRECTED));
    CHECK(a.record.registers[MPC106_SINGLE_BIT_COUNTER] == 4);
}

/* At 200000 bank 3 follows bank 0; at 500000 it ends. Every cell is lent. */
static void parts_have_other_banks(void)
{
    static const uint8_t at_the_end[8] = {0, 0, 0, 0, 0, 0xff, 0xff, 0xff};
    uint32_t cells;
    both_start(1);
    CHECK(mpc106_cell_count(&a.record, &cells) == 0);
    mpc106_memory whole = mpc106_lend(&a.record, (uint8_t *)calloc(cells, MPC106_CELL_BYTES), (size_t)cells * MPC106_CELL_BYTES);
    CHECK(whole.cells != NULL);
    CHECK(mpc106_write(&whole, 0x1ffffb, given, 8, &a.answer) == 0);
    CHECK(has_parts(&a.answer, MPC106_CLEAN, MPC106_CLEAN));
    CHECK(memcmp(whole.cells + 9 * 262143 + 3, given, 5) == 0 && memcmp(whole.cells + 9 * 524288, given + 5, 3) == 0);
    CHECK(mpc106_read(&whole, 0x1ffffb, a.buffer, 8, &a.answer) == 0);
    CHECK(has_parts(&a.answer, MPC106_CLEAN, MPC106_CLEAN));
    CHECK(memcmp(a.buffer, given, 8) == 0);
    CHECK(mpc106_read(&whole, 0x4ffffb, a.buffer, 8, &a.answer) == 0);
    CHECK(has_parts(&a.answer, MPC106_CLEAN, MPC106_NO_BANK));
    CHECK(memcmp(a.buffer, at_the_end, 8) == 0);
    CHECK(a.record.registers[MPC106_ERROR_DETECTION_1] == 0x20 && mpc106_error_address(&a.record) == 0x500000);
    free(whole.cells);
}

/* Megabyte 1 alone is bank 0, so the doubleword at 100000 has cell 0. */
static void first_has_no_bank(void)
{
    static const uint8_t at_the_start[4] = {0xff, 0, 0, 0};
    both_start(0);
    CHECK(mpc106_register_write(&a.record, MPC106_START, 1) == 0);
    CHECK(mpc106_register_write(&a.record, MPC106_BANK_ENABLE, 1) == 0);
    CHECK(mpc106_register_write(&a.record, MPC106_MEMORY, 8) == 0);
    CHECK(mpc106_read(&memory, 0xfffff, a.buffer, 4, &a.answer) == 0);
    CHECK(has_parts(&a.answer, MPC106_NO_BANK, MPC106_CLEAN));
    CHECK(memcmp(a.buffer, at_the_start, 4) == 0);
    CHECK(a.record.registers[MPC106_ERROR_DETECTION_1] == 0x20 && mpc106_error_address(&a.record) == 0xfffff);
    CHECK(mpc106_write(&memory, 0xfffff, given, 4, &a.answer) == 0);
    CHECK(has_parts(&a.answer, MPC106_NO_BANK, MPC106_CLEAN));
    CHECK(memcmp(a.cells, given + 1, 3) == 0);
}

/* Bank 3 ends at 500000, so neither part has one; nothing needs to be lent. The first report keeps its address. */
static void both_have_no_bank(void)
{
    static const uint8_t ones[4] = {0xff, 0xff, 0xff, 0xff};
    both_start(1);
    mpc106_memory none = mpc106_lend(&a.record, a.cells, 0);
    CHECK(mpc106_read(&none, 0x600006, a.buffer, 4, &a.answer) == 0);
    CHECK(has_parts(&a.answer, MPC106_NO_BANK, MPC106_NO_BANK));
    CHECK(memcmp(a.buffer, ones, 4) == 0 && a.buffer[4] == 0xa6);
    CHECK(a.record.registers[MPC106_ERROR_DETECTION_1] == 0x20 && mpc106_error_address(&a.record) == 0x600006);
    CHECK(mpc106_write(&none, 0x600006, given, 4, &a.answer) == 0);
    CHECK(has_parts(&a.answer, MPC106_NO_BANK, MPC106_NO_BANK));
    CHECK(memcmp(a.cells, b.cells, sizeof a.cells) == 0);
}

/* What ends with FFFFFFFF is no split and passes nothing. */
static void last_address_is_accepted(void)
{
    both_start(1);
    for (uint32_t place = 0; place < 8; place++) {
        CHECK(mpc106_read(&memory, 0xfffffff8u + place, a.buffer, 8 - place, &a.answer) == 0);
        CHECK(a.answer.count == 1 && MPC106_KIND(a.answer.part[0]) == MPC106_NO_BANK);
    }
}

/* A read and a write are refused with this number, and leave everything as it was. */
static void check_refused(uint32_t refusal, size_t lent, uint32_t address, size_t count)
{
    mpc106_memory less = mpc106_lend(&a.record, a.cells, lent);
    const uint8_t bytes[9] = {1, 2, 3, 4, 5, 6, 7, 8, 9};
    SAME(mpc106_read(&less, address, a.buffer, count, &a.answer), refusal);
    SAME(mpc106_write(&less, address, bytes, count, &a.answer), refusal);
}

/* Each refusal with every cause that comes after it; 7 wherever a byte would be past FFFFFFFF. */
static void splits_are_refused(void)
{
    both_start(0);
    check_refused(MPC106_NOT_READY, 0, 0xffffffffu, 9);
    start_holding();
    check_refused(MPC106_COUNT_OUT_OF_RANGE, 0, 0xffffffffu, 9);
    check_refused(MPC106_COUNT_OUT_OF_RANGE, 0, 0xffffffffu, 0);
    for (uint32_t place = 1; place < 8; place++)
        for (uint32_t count = 9 - place; count <= 8; count++)
            check_refused(MPC106_PASSES_LAST_ADDRESS, sizeof a.cells, 0xfffffff8u + place, count);
    /* The cells of 20 and 28 are 4 and 5. */
    for (size_t lent = 9 * 4; lent < 9 * 6; lent++)
        check_refused(MPC106_NOT_LENT, lent, 0x25, 6);
}

int main(void)
{
    parts_are_clean();
    first_is_uncorrectable();
    both_are_corrected();
    parts_have_other_banks();
    first_has_no_bank();
    both_have_no_bank();
    last_address_is_accepted();
    splits_are_refused();
    return 0;
}
