/*
 * Each call of mpc106.h against the function of the archive that it stands for: what they return, give and leave is the same, with memory on and
 * with memory off. The structs that are passed as numbers have no gaps. Each refusal has a text of its own. Bursts give what was worked out by
 * hand: the order of their beats, their reports, and their refusals.
 */
#include "sides.h"

static void record_calls(void)
{
    SAME(mpc106_judge(&a.record), MPC106_RAW(judge)(b.record.registers));
    SAME(mpc106_cell_count(&a.record, &a.number), MPC106_RAW(cell_count)(b.record.registers, &b.number));
    for (uint32_t offset = 0; offset < 600; offset++)
        SAME(mpc106_register_read(&a.record, offset, &a.value), MPC106_RAW(register_read)(b.record.registers, offset, &b.value));
    SAME(mpc106_register_write(&a.record, 0xb9, 1), MPC106_RAW(register_write)(b.record.registers, 0xb9, 1));
    for (uint32_t address = 0; address < 0x600000; address += 0x7fff8)
        SAME(mpc106_map(&a.record, address, &a.place), MPC106_RAW(map)(b.record.registers, address, (uint32_t *)&b.place));
    for (uint32_t bank = 0; bank < 9; bank++)
        SAME(mpc106_way_back(&a.record, bank, 512 - bank, 3, &a.number),
             MPC106_RAW(way_back)(b.record.registers, bank, 512 - bank, 3, &b.number));
    SAME(mpc106_alike(&a.record, &b.record, &a.number), MPC106_RAW(alike)(a.record.registers, b.record.registers, &b.number));
}

static void memory_calls(void)
{
    const uint8_t bytes[8] = {1, 2, 3, 4, 5, 6, 7, 8};
    for (uint32_t i = 0; i < 40; i++) {
        uint32_t address = 31 * i, count = i % 10, bit = 2 * i;
        SAME(mpc106_write(&memory, address, bytes, count, &a.answer),
             MPC106_RAW(write)(b.record.registers, b.cells, sizeof b.cells, address, bytes, count, (uint32_t *)&b.answer));
        SAME(mpc106_flip(&memory, address, bit), MPC106_RAW(flip)(b.record.registers, b.cells, sizeof b.cells, address, bit));
        SAME(mpc106_read(&memory, address, a.buffer, count % 9, &a.answer),
             MPC106_RAW(read)(b.record.registers, b.cells, sizeof b.cells, address, b.buffer, count % 9, (uint32_t *)&b.answer));
        SAME(mpc106_scrub(&memory, address, &a.answer),
             MPC106_RAW(scrub)(b.record.registers, b.cells, sizeof b.cells, address, (uint32_t *)&b.answer));
    }
}

static void burst_calls(void)
{
    uint8_t bytes[40];
    for (uint32_t i = 0; i < 40; i++)
        bytes[i] = (uint8_t)(7 * i);
    for (uint32_t i = 0; i < 120; i++) {
        uint32_t address = i % 5 == 0 ? 7 * i : 8 * i, count = i % 7 == 0 ? i % 40 : MPC106_LINE_BYTES, bit = i % 72;
        SAME(mpc106_burst_write(&memory, address, bytes, count, &a.answer),
             MPC106_RAW(burst_write)(b.record.registers, b.cells, sizeof b.cells, address, bytes, count, (uint32_t *)&b.answer));
        SAME(mpc106_flip(&memory, address, bit), MPC106_RAW(flip)(b.record.registers, b.cells, sizeof b.cells, address, bit));
        SAME(mpc106_burst_read(&memory, address, a.buffer, count, &a.answer),
             MPC106_RAW(burst_read)(b.record.registers, b.cells, sizeof b.cells, address, b.buffer, count, (uint32_t *)&b.answer));
    }
}

/* The doublewords of a line in the order of addresses, and their check bytes. */
static const uint8_t line[4][9] = {
    {0x80, 0, 0, 0, 0, 0, 0, 0, 0x07},
    {0xff, 0, 0, 0, 0, 0, 0, 0, 0x06},
    {0, 0, 0, 0, 0, 0, 0, 0x01, 0x57},
    {0xff, 0xff, 0xff, 0xff, 0xff, 0xff, 0xff, 0xff, 0xd8},
};

/* The bytes of a burst of that line, from one of its doublewords on. */
static void in_order_of_beats(uint32_t first, uint8_t bytes[MPC106_LINE_BYTES])
{
    for (uint32_t beat = 0; beat < 4; beat++)
        memcpy(bytes + 8 * beat, line[(first + beat) % 4], 8);
}

static int has_kinds(const mpc106_answer *answer, uint32_t k0, uint32_t k1, uint32_t k2, uint32_t k3)
{
    return answer->count == 4 && MPC106_KIND(answer->part[0]) == k0 && MPC106_KIND(answer->part[1]) == k1 &&
           MPC106_KIND(answer->part[2]) == k2 && MPC106_KIND(answer->part[3]) == k3;
}

/* From each doubleword of the line at 20 a burst write stores that line, and nothing else; a burst read gives its bytes again. */
static void bursts_wrap(void)
{
    for (uint32_t first = 0; first < 4; first++) {
        uint8_t bytes[MPC106_LINE_BYTES];
        both_start(1);
        in_order_of_beats(first, bytes);
        CHECK(mpc106_burst_write(&memory, 0x20 + 8 * first, bytes, sizeof bytes, &a.answer) == 0);
        CHECK(has_kinds(&a.answer, MPC106_STORED, MPC106_STORED, MPC106_STORED, MPC106_STORED));
        memcpy(b.cells + 9 * 4, line, sizeof line);
        CHECK(memcmp(a.cells, b.cells, sizeof a.cells) == 0);
        CHECK(mpc106_burst_read(&memory, 0x20 + 8 * first, a.buffer, sizeof bytes, &a.answer) == 0);
        CHECK(has_kinds(&a.answer, MPC106_CLEAN, MPC106_CLEAN, MPC106_CLEAN, MPC106_CLEAN));
        CHECK(memcmp(a.buffer, bytes, sizeof bytes) == 0 && a.buffer[MPC106_LINE_BYTES] == 0xa6);
        CHECK(memcmp(&a.record, &b.record, sizeof a.record) == 0);
    }
}

/* A burst at 28 finds one bit inverted in its second beat, two in its third and one in its fourth. The second correction reaches the trigger. */
static void bursts_report(void)
{
    static const uint8_t expected[MPC106_LINE_BYTES] = {0xff, 0, 0, 0, 0, 0, 0, 0, 0, 0, 0, 0, 0, 0, 0, 0x01, 0x3f, 0xff, 0xff, 0xff, 0xff, 0xff,
                                                        0xff, 0xff, 0x80, 0, 0, 0, 0, 0, 0, 0};
    both_start(1);
    memcpy(a.cells + 9 * 4, line, sizeof line);
    CHECK(mpc106_register_write(&a.record, MPC106_SINGLE_BIT_TRIGGER, 2) == 0);
    CHECK(mpc106_register_write(&a.record, MPC106_ERROR_ENABLE_2, 8) == 0);
    CHECK(mpc106_flip(&memory, 0x30, 71) == 0 && mpc106_flip(&memory, 0x20, 13) == 0);
    CHECK(mpc106_flip(&memory, 0x38, 0) == 0 && mpc106_flip(&memory, 0x38, 1) == 0);
    memcpy(&b, &a, sizeof b);
    CHECK(mpc106_burst_read(&memory, 0x28, a.buffer, MPC106_LINE_BYTES, &a.answer) == 0);
    CHECK(has_kinds(&a.answer, MPC106_CLEAN, MPC106_CORRECTED, MPC106_UNCORRECTABLE, MPC106_CORRECTED));
    CHECK(memcmp(a.buffer, expected, sizeof expected) == 0);
    CHECK(memcmp(a.cells, b.cells, sizeof a.cells) == 0);
    CHECK(a.record.registers[MPC106_SINGLE_BIT_COUNTER] == 2);
    CHECK(a.record.registers[MPC106_ERROR_DETECTION_1] == 4 && a.record.registers[MPC106_ERROR_DETECTION_2] == 8);
    CHECK(mpc106_error_address(&a.record) == 0x38);
}

/* The last line of the address space has no bank: nothing need be lent for it, and the first beat is reported. */
static void bursts_without_bank(void)
{
    both_start(1);
    memory = mpc106_lend(&a.record, a.cells, 0);
    CHECK(mpc106_burst_read(&memory, 0xfffffff0u, a.buffer, MPC106_LINE_BYTES, &a.answer) == 0);
    CHECK(has_kinds(&a.answer, MPC106_NO_BANK, MPC106_NO_BANK, MPC106_NO_BANK, MPC106_NO_BANK));
    for (uint32_t i = 0; i < MPC106_LINE_BYTES; i++)
        CHECK(a.buffer[i] == 0xff);
    CHECK(a.record.registers[MPC106_ERROR_DETECTION_1] == 0x20 && mpc106_error_address(&a.record) == 0xfffffff0u);
    both_start(1);
    memory = mpc106_lend(&a.record, a.cells, 0);
    CHECK(mpc106_burst_write(&memory, 0xffffffe8u, a.buffer, MPC106_LINE_BYTES, &a.answer) == 0);
    CHECK(has_kinds(&a.answer, MPC106_NO_BANK, MPC106_NO_BANK, MPC106_NO_BANK, MPC106_NO_BANK));
    CHECK(a.record.registers[MPC106_ERROR_DETECTION_1] == 0x20 && mpc106_error_address(&a.record) == 0xffffffe8u);
}

/* A burst read and a burst write are refused with this number, and leave everything as it was. */
static void check_refused(uint32_t refusal, size_t lent, uint32_t address, size_t count)
{
    static const uint8_t bytes[sizeof a.buffer] = {1, 2, 3};
    memory = mpc106_lend(&a.record, a.cells, lent);
    memcpy(&b, &a, sizeof b);
    SAME(mpc106_burst_read(&memory, address, a.buffer, count, &a.answer), refusal);
    SAME(mpc106_burst_write(&memory, address, bytes, count, &a.answer), refusal);
}

/* Each refusal with every cause that comes after it. One byte is missing of the last cell of the line at 20, whichever beat that is. */
static void bursts_are_refused(void)
{
    const size_t lent = 9 * 8 - 1;
    both_start(0);
    check_refused(MPC106_NOT_READY, lent, 0x24, 31);
    both_start(1);
    check_refused(MPC106_MISALIGNED, lent, 0x24, 31);
    check_refused(MPC106_MISALIGNED, lent, 0x21, MPC106_LINE_BYTES);
    check_refused(MPC106_NOT_CACHE_LINE, lent, 0x28, 31);
    check_refused(MPC106_NOT_CACHE_LINE, lent, 0x28, 33);
    check_refused(MPC106_NOT_CACHE_LINE, lent, 0x28, 0);
    check_refused(MPC106_NOT_CACHE_LINE, lent, 0x28, MPC106_LINE_BYTES + 256);
    for (uint32_t first = 0; first < 4; first++)
        check_refused(MPC106_NOT_LENT, lent, 0x20 + 8 * first, MPC106_LINE_BYTES);
}

static void structs_have_no_gaps(void)
{
    CHECK(sizeof(mpc106_record) == 256);
    CHECK(sizeof(mpc106_answer) == 20 && offsetof(mpc106_answer, part) == 4);
    CHECK(sizeof(mpc106_place) == 20 && offsetof(mpc106_place, bank) == 4 && offsetof(mpc106_place, row) == 8);
    CHECK(offsetof(mpc106_place, column) == 12 && offsetof(mpc106_place, cell) == 16);
    CHECK(MPC106_VERSION >= 40000);
}

static void refusals_have_sentences(void)
{
    for (uint32_t n = 0; n <= 20; n++) {
        CHECK(mpc106_refusal_text(n)[0] != '\0');
        CHECK(strcmp(mpc106_refusal_text(n), mpc106_refusal_text(n + 0x500)) == 0);
        for (uint32_t m = 0; m < n; m++)
            CHECK(strcmp(mpc106_refusal_text(n), mpc106_refusal_text(m)) != 0);
    }
}

int main(void)
{
    structs_have_no_gaps();
    refusals_have_sentences();
    for (int on = 0; on < 2; on++) {
        both_start(on);
        record_calls();
        memory_calls();
        burst_calls();
    }
    bursts_wrap();
    bursts_report();
    bursts_without_bank();
    bursts_are_refused();
    return 0;
}
