/*
 * Reads and writes of 16, 32 and 64 bits: the number against bytes that were put in order by hand, and all else against mpc106_read and mpc106_write of as
 * many bytes, at every place of a doubleword. The error address as one number.
 */
#include "sides.h"

/* What the doublewords at 20 and 28 hold. */
static const uint8_t held[16] = {0x11, 0x22, 0x33, 0x44, 0x55, 0x66, 0x77, 0x88, 0x99, 0xaa, 0xbb, 0xcc, 0xdd, 0xee, 0xf0, 0x0f};

static mpc106_memory other;

/* One bit of the doubleword at 28 is wrong, so that answers have something to say. */
static void start_holding(void)
{
    both_start(1);
    CHECK(mpc106_write(&memory, 0x20, held, 8, &a.answer) == 0);
    CHECK(mpc106_write(&memory, 0x28, held + 8, 8, &a.answer) == 0);
    CHECK(mpc106_flip(&memory, 0x28, 40) == 0);
    memcpy(&b, &a, sizeof b);
    other = mpc106_lend(&b.record, b.cells, sizeof b.cells);
}

static void check_reads(uint32_t place, uint16_t two, uint32_t four, uint64_t eight)
{
    uint16_t found_two = 0;
    uint32_t found_four = 0;
    uint64_t found_eight = 0;
    uint8_t bytes[8];
    start_holding();
    SAME(mpc106_read_16(&memory, 0x20 + place, &found_two, &a.answer), mpc106_read(&other, 0x20 + place, bytes, 2, &b.answer));
    SAME(mpc106_read_32(&memory, 0x20 + place, &found_four, &a.answer), mpc106_read(&other, 0x20 + place, bytes, 4, &b.answer));
    SAME(mpc106_read_64(&memory, 0x20 + place, &found_eight, &a.answer), mpc106_read(&other, 0x20 + place, bytes, 8, &b.answer));
    CHECK(found_two == two && found_four == four && found_eight == eight);
    CHECK(a.answer.count == (place == 0 ? 1u : 2u));
}

static void reads(void)
{
    check_reads(0, 0x1122, 0x11223344, 0x1122334455667788);
    check_reads(1, 0x2233, 0x22334455, 0x2233445566778899);
    check_reads(2, 0x3344, 0x33445566, 0x33445566778899aa);
    check_reads(3, 0x4455, 0x44556677, 0x445566778899aabb);
    check_reads(4, 0x5566, 0x55667788, 0x5566778899aabbcc);
    check_reads(5, 0x6677, 0x66778899, 0x66778899aabbccdd);
    check_reads(6, 0x7788, 0x778899aa, 0x778899aabbccddee);
    check_reads(7, 0x8899, 0x8899aabb, 0x8899aabbccddeef0);
}

static void check_writes(uint32_t place)
{
    static const uint8_t two[2] = {0xca, 0xfe}, four[4] = {0xde, 0xad, 0xbe, 0xef}, eight[8] = {0x80, 1, 2, 3, 4, 5, 6, 7};
    start_holding();
    SAME(mpc106_write_16(&memory, 0x20 + place, 0xcafe, &a.answer), mpc106_write(&other, 0x20 + place, two, 2, &b.answer));
    start_holding();
    SAME(mpc106_write_32(&memory, 0x20 + place, 0xdeadbeef, &a.answer), mpc106_write(&other, 0x20 + place, four, 4, &b.answer));
    start_holding();
    SAME(mpc106_write_64(&memory, 0x20 + place, 0x8001020304050607, &a.answer),
         mpc106_write(&other, 0x20 + place, eight, 8, &b.answer));
    CHECK(a.answer.count == (place == 0 ? 1u : 2u));
}

/* The check bytes of EX-1: data bit 0 is the top bit of the number, data bit 63 the lowest. */
static void bits_are_in_order(void)
{
    both_start(1);
    CHECK(mpc106_write_64(&memory, 0x20, 0x8000000000000000, &a.answer) == 0);
    CHECK(a.cells[9 * 4] == 0x80 && a.cells[9 * 4 + 8] == 0x07);
    CHECK(mpc106_write_64(&memory, 0x20, 1, &a.answer) == 0);
    CHECK(a.cells[9 * 4 + 7] == 0x01 && a.cells[9 * 4 + 8] == 0x57);
}

/* Bank 0 starts at megabyte 1; the doubleword before it has no bank, and its bytes are FF. */
static void half_has_no_bank(void)
{
    uint32_t value;
    both_start(0);
    CHECK(mpc106_register_write(&a.record, MPC106_START, 1) == 0);
    CHECK(mpc106_register_write(&a.record, MPC106_BANK_ENABLE, 1) == 0);
    CHECK(mpc106_register_write(&a.record, MPC106_MEMORY, 8) == 0);
    CHECK(mpc106_write_16(&memory, 0x100000, 0x1234, &a.answer) == 0);
    CHECK(mpc106_read_32(&memory, 0xffffe, &value, &a.answer) == 0);
    CHECK(value == 0xffff1234 && MPC106_KIND(a.answer.part[0]) == MPC106_NO_BANK && MPC106_KIND(a.answer.part[1]) == MPC106_CLEAN);
}

/* A refused read leaves the number as it was. */
static void check_refused(uint32_t refusal, uint32_t address)
{
    uint16_t two = 0x5a5a;
    uint32_t four = 0x5a5a5a5a;
    uint64_t eight = 0x5a5a5a5a5a5a5a5a;
    memcpy(&b, &a, sizeof b);
    SAME(mpc106_read_16(&memory, address, &two, &a.answer), refusal);
    SAME(mpc106_read_32(&memory, address, &four, &a.answer), refusal);
    SAME(mpc106_read_64(&memory, address, &eight, &a.answer), refusal);
    CHECK(two == 0x5a5a && four == 0x5a5a5a5a && eight == 0x5a5a5a5a5a5a5a5a);
    SAME(mpc106_write_16(&memory, address, two, &a.answer), refusal);
    SAME(mpc106_write_32(&memory, address, four, &a.answer), refusal);
    SAME(mpc106_write_64(&memory, address, eight, &a.answer), refusal);
}

static void refusals(void)
{
    both_start(0);
    check_refused(MPC106_NOT_READY, 0x20);
    both_start(1);
    check_refused(MPC106_PASSES_LAST_ADDRESS, 0xffffffff);
    check_refused(MPC106_NOT_LENT, 8 * LENT);
}

static void error_addresses(void)
{
    uint32_t value;
    both_start(1);
    CHECK(mpc106_error_address(&a.record) == 0);
    CHECK(mpc106_read_32(&memory, 0x89abcdec, &value, &a.answer) == 0);
    memcpy(&b, &a, sizeof b);
    SAME(mpc106_error_address(&a.record), 0x89abcdec);
    CHECK(a.record.registers[0xc8] == 0xec && a.record.registers[0xc9] == 0xcd && a.record.registers[0xca] == 0xab && a.record.registers[0xcb] == 0x89);
}

int main(void)
{
    reads();
    for (uint32_t place = 0; place < 8; place++)
        check_writes(place);
    bits_are_in_order();
    half_has_no_bank();
    refusals();
    error_addresses();
    return 0;
}
