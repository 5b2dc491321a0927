/*
 * Banks of more than 128 megabytes through the calls of mpc106.h: the longest that is accepted, how many cells they have, and what of them is lent. What is
 * expected is worked out from the rules REG-13, REG-14, ON-3 and MAP-7.
 */
#include "sides.h"

/* Bank n has this span and row code 3, and is enabled. */
static void set_bank(uint32_t n, uint32_t start, uint32_t last)
{
    uint8_t *registers = a.record.registers;
    CHECK(mpc106_register_write(&a.record, MPC106_START + n, (uint8_t)(start & 255)) == 0);
    CHECK(mpc106_register_write(&a.record, MPC106_START_EXTENDED + n, (uint8_t)(start >> 8)) == 0);
    CHECK(mpc106_register_write(&a.record, MPC106_END + n, (uint8_t)(last & 255)) == 0);
    CHECK(mpc106_register_write(&a.record, MPC106_END_EXTENDED + n, (uint8_t)(last >> 8)) == 0);
    CHECK(mpc106_register_write(&a.record, MPC106_ROW_CODES, 0xff) == 0);
    CHECK(mpc106_register_write(&a.record, MPC106_ROW_CODES + 1, 0xff) == 0);
    CHECK(mpc106_register_write(&a.record, MPC106_BANK_ENABLE, (uint8_t)(registers[MPC106_BANK_ENABLE] | 1u << n)) == 0);
}

static uint32_t switched_on(void)
{
    return mpc106_register_write(&a.record, MPC106_MEMORY, 8);
}

static uint32_t count(void)
{
    CHECK(mpc106_cell_count(&a.record, &a.number) == 0);
    return a.number;
}

/* From megabyte 7 on, as bank 0. */
static void one_bank(uint32_t megabytes)
{
    mpc106_fresh(&a.record);
    set_bank(0, 7, 6 + megabytes);
}

static void lengths(void)
{
    one_bank(128);
    CHECK(switched_on() == 0 && count() == 1u << 24);
    one_bank(129);
    CHECK(switched_on() == 0 && count() == 1u << 25);
    one_bank(256);
    CHECK(switched_on() == 0 && count() == 1u << 25);
    one_bank(257);
    CHECK(MPC106_REFUSAL(switched_on()) == MPC106_TOO_LONG);
}

/* No set-up has more cells than this one; their bytes are still counted exactly. */
static void most_cells(void)
{
    mpc106_fresh(&a.record);
    for (uint32_t n = 0; n < 8; n++)
        set_bank(n, 129 * n, n < 7 ? 129 * n + 128 : 1023);
    CHECK(switched_on() == 0 && count() == 251658240);
    CHECK((size_t)count() * MPC106_CELL_BYTES == 2264924160u);
    CHECK(mpc106_map(&a.record, 0x3ffffff8, &a.place) == 0);
    CHECK(a.place.bank == 7 && a.place.row == 4095 && a.place.column == 4095 && a.place.cell == 251658239);
}

/* The cell of 0FFFFFF8 is the last of a bank that begins at megabyte 0. */
static void last_cell(void)
{
    size_t all = (size_t)MPC106_CELL_BYTES << 25;
    uint8_t *cells = (uint8_t *)calloc(all, 1);
    CHECK(cells != NULL);
    memory = mpc106_lend(&a.record, cells, all - 1);
    mpc106_fresh(&a.record);
    set_bank(0, 0, 255);
    CHECK(switched_on() == 0);
    CHECK(mpc106_read(&memory, 0x0ffffff8, a.buffer, 8, &a.answer) == MPC106_NOT_LENT);
    memory = mpc106_lend(&a.record, cells, all);
    CHECK(mpc106_flip(&memory, 0x0ffffff8, 71) == 0 && cells[all - 1] == 0x80);
    CHECK(mpc106_read(&memory, 0x0ffffff8, a.buffer, 8, &a.answer) == 0);
    CHECK(MPC106_KIND(a.answer.part[0]) == MPC106_CORRECTED && MPC106_FLIP_BIT(a.answer.part[0]) == 71);
    free(cells);
}

int main(void)
{
    lengths();
    most_cells();
    last_cell();
    return 0;
}
