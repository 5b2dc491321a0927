/*
 * mpc106_load: images of each length at each place, against the bytes in memory before and after; how far it gets where a cell is not lent, there is no bank, or an
 * end can't be corrected; and that it writes no doubleword twice.
 */
#include "sides.h"

#define BYTES 64

static uint8_t image[BYTES];

/* The bytes of side a from address 0 on. */
static void read_all(uint8_t bytes[BYTES])
{
    for (uint32_t i = 0; i < BYTES; i += 8)
        CHECK(mpc106_read(&memory, i, bytes + i, 8, &b.answer) == 0);
}

/* Memory holds 80, 81 and so on before. */
static void start_filled(void)
{
    both_start(1);
    for (uint32_t i = 0; i < BYTES; i++) {
        uint8_t byte = (uint8_t)(0x80 + i);
        CHECK(mpc106_write(&memory, i, &byte, 1, &a.answer) == 0);
    }
}

static void check_whole(uint32_t address, size_t length)
{
    uint8_t before[BYTES], after[BYTES];
    uint32_t result = 1;
    start_filled();
    read_all(before);
    CHECK(mpc106_load(&memory, address, image, length, &result, &a.answer) == length);
    CHECK(result == 0 && a.answer.count == (length == 0 ? 0u : 1u));
    read_all(after);
    CHECK(memcmp(after + address, image, length) == 0);
    CHECK(memcmp(after, before, address) == 0);
    CHECK(memcmp(after + address + length, before + address + length, BYTES - address - length) == 0);
}

static void whole_images(void)
{
    for (uint32_t address = 0; address < 17; address++)
        for (size_t length = 0; length <= 40; length++)
            check_whole(address, length);
}

/* Each doubleword is one access: a wrong bit at either end is counted once, one in between is not looked at. */
static void ends_are_corrected(void)
{
    uint32_t result;
    start_filled();
    CHECK(mpc106_flip(&memory, 0x08, 3) == 0 && mpc106_flip(&memory, 0x10, 3) == 0 && mpc106_flip(&memory, 0x18, 3) == 0);
    CHECK(mpc106_load(&memory, 0x0d, image, 14, &result, &a.answer) == 14 && result == 0);
    CHECK(MPC106_KIND(a.answer.part[0]) == MPC106_CORRECTED);
    CHECK(a.record.registers[MPC106_SINGLE_BIT_COUNTER] == 2);
}

/* Three cells are lent, and so is a part of the fourth. */
static void ends_where_nothing_is_lent(void)
{
    uint32_t result;
    start_filled();
    memory = mpc106_lend(&a.record, a.cells, 9 * 4 - 1);
    CHECK(mpc106_load(&memory, 0x05, image, 40, &result, &a.answer) == 0x18 - 0x05);
    CHECK(result == MPC106_NOT_LENT && a.answer.count == 0);
    memory = mpc106_lend(&a.record, a.cells, sizeof a.cells);
    CHECK(mpc106_read(&memory, 0x18, a.buffer, 8, &a.answer) == 0);
    CHECK(a.buffer[0] == 0x98 && a.buffer[7] == 0x9f);
}

/* Bank 0 has megabyte 1 alone, so it ends at 200000; the cell of 1FFFF8 is 131071. */
static void ends_where_the_bank_does(void)
{
    size_t lent = (size_t)MPC106_CELL_BYTES << 17;
    uint8_t *cells = (uint8_t *)calloc(lent, 1);
    uint32_t result;
    CHECK(cells != NULL);
    both_start(0);
    CHECK(mpc106_register_write(&a.record, MPC106_START, 1) == 0);
    CHECK(mpc106_register_write(&a.record, MPC106_BANK_ENABLE, 1) == 0);
    CHECK(mpc106_register_write(&a.record, MPC106_MEMORY, 8) == 0);
    memory = mpc106_lend(&a.record, cells, lent);
    CHECK(mpc106_load(&memory, 0x1ffff3, image, 40, &result, &a.answer) == 13);
    CHECK(result == 0 && a.answer.count == 1 && MPC106_KIND(a.answer.part[0]) == MPC106_NO_BANK);
    CHECK(memcmp(cells + lent - 9, image + 5, 8) == 0 && mpc106_error_address(&a.record) == 0x200000);
    CHECK(mpc106_load(&memory, 0xffffe, image, 40, &result, &a.answer) == 0);
    CHECK(result == 0 && a.answer.count == 1 && MPC106_KIND(a.answer.part[0]) == MPC106_NO_BANK);
    CHECK(mpc106_load(&memory, 0xffffffff, image, 40, &result, &a.answer) == 0);
    CHECK(result == 0 && a.answer.count == 1 && MPC106_KIND(a.answer.part[0]) == MPC106_NO_BANK);
    free(cells);
}

static void ends_where_nothing_can_be_corrected(void)
{
    uint32_t result;
    start_filled();
    CHECK(mpc106_flip(&memory, 0x18, 3) == 0 && mpc106_flip(&memory, 0x18, 4) == 0);
    CHECK(mpc106_load(&memory, 0x08, image, 20, &result, &a.answer) == 16);
    CHECK(result == 0 && a.answer.count == 1 && MPC106_KIND(a.answer.part[0]) == MPC106_UNCORRECTABLE);
    CHECK(mpc106_load(&memory, 0x08, image, 24, &result, &a.answer) == 24);
    CHECK(result == 0 && MPC106_KIND(a.answer.part[0]) == MPC106_STORED);
}

static void ends_where_memory_is_off(void)
{
    uint32_t result;
    both_start(0);
    CHECK(mpc106_load(&memory, 0, image, 8, &result, &a.answer) == 0);
    CHECK(result == MPC106_NOT_READY && a.answer.count == 0);
}

int main(void)
{
    for (uint32_t i = 0; i < BYTES; i++)
        image[i] = (uint8_t)(i + 1);
    whole_images();
    ends_are_corrected();
    ends_where_nothing_is_lent();
    ends_where_the_bank_does();
    ends_where_nothing_can_be_corrected();
    ends_where_memory_is_off();
    return 0;
}
