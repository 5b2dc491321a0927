/*
 * What the tests of the C interface share: two sides with a record, cells, a buffer and an answer each, and how they are compared.
 */
#ifndef SIDES_H
#define SIDES_H

#include <stdio.h>
#include <stdlib.h>
#include <string.h>

#include <mpc106.h>

#define LENT 100

/* What is lent to one side. */
typedef struct {
    mpc106_record record;
    uint8_t cells[9 * LENT];
    uint8_t buffer[MPC106_LINE_BYTES + 256];
    mpc106_answer answer;
    mpc106_place place;
    uint32_t number;
    uint8_t value;
} side;

static side a, b;

/* What is lent of side a: all of it, after both_start. */
static mpc106_memory memory;

#define CHECK(condition)                                                                                               \
    do {                                                                                                               \
        if (!(condition)) {                                                                                            \
            printf("line %d: %s\n", __LINE__, #condition);                                                             \
            exit(1);                                                                                                   \
        }                                                                                                              \
    } while (0)

/* Two results are the same, and so is all that was lent. */
#define SAME(first, second) CHECK((first) == (second) && memcmp(&a, &b, sizeof a) == 0)

/* Bank 0 is megabytes 0 to 1, so cell k is that of address 8 * k; bank 3 is megabytes 2 to 4. Both sides get the same. */
static inline void both_start(int on)
{
    memset(&a, 0xa6, sizeof a);
    memset(a.cells, 0, sizeof a.cells);
    mpc106_fresh(&a.record);
    CHECK(mpc106_register_write(&a.record, MPC106_END, 1) == 0);
    CHECK(mpc106_register_write(&a.record, MPC106_START + 3, 2) == 0);
    CHECK(mpc106_register_write(&a.record, MPC106_END + 3, 4) == 0);
    CHECK(mpc106_register_write(&a.record, MPC106_ROW_CODES, 0x40) == 0);
    CHECK(mpc106_register_write(&a.record, MPC106_BANK_ENABLE, 9) == 0);
    CHECK(mpc106_register_write(&a.record, MPC106_ERROR_ENABLE_1, 0x24) == 0);
    if (on)
        CHECK(mpc106_register_write(&a.record, MPC106_MEMORY, 8) == 0);
    memcpy(&b, &a, sizeof b);
    memory = mpc106_lend(&a.record, a.cells, sizeof a.cells);
}

#endif
