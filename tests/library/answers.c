/*
 * What mpc106.h makes of results: the worst kind of an answer, for every answer of up to four known kinds; the value that a refusal is about; and what is lent or
 * loaded, which functions fill in.
 */
#include "sides.h"

static int holds(const mpc106_answer *answer, uint32_t kind)
{
    for (uint32_t i = 0; i < answer->count; i++)
        if (MPC106_KIND(answer->part[i]) == kind)
            return 1;
    return 0;
}

/* By the order that the header documents, asked for kind by kind. */
static uint32_t expected_worst(const mpc106_answer *answer)
{
    if (holds(answer, MPC106_UNCORRECTABLE))
        return MPC106_UNCORRECTABLE;
    if (holds(answer, MPC106_NO_BANK))
        return MPC106_NO_BANK;
    if (holds(answer, MPC106_CORRECTED))
        return MPC106_CORRECTED;
    return answer->count == 0 ? 0 : MPC106_KIND(answer->part[0]);
}

/* Above the kind stands a bit, as in a corrected part, and above that what a later version may put there. The parts that are not used are the worst. */
static void worst_of_all(void)
{
    for (uint32_t kinds = 0; kinds < 5 * 5 * 5 * 5; kinds++)
        for (uint32_t count = 0; count <= MPC106_PARTS; count++) {
            mpc106_answer answer = {count, {MPC106_UNCORRECTABLE, MPC106_UNCORRECTABLE, MPC106_UNCORRECTABLE, MPC106_UNCORRECTABLE}};
            for (uint32_t i = 0, rest = kinds; i < count; i++, rest /= 5)
                answer.part[i] = (0xab004700u & (i % 2 ? 0xffffffffu : 0)) | (1 + rest % 5);
            CHECK(mpc106_worst_kind(&answer) == expected_worst(&answer));
        }
}

static void worst_of_the_unknown(void)
{
    mpc106_answer answer = {2, {MPC106_UNCORRECTABLE, 77, 0, 0}};
    CHECK(mpc106_worst_kind(&answer) == 77);
}

/* The second half of a split is what is wrong, and the first says nothing of it. */
static void worst_of_a_split(void)
{
    both_start(1);
    CHECK(mpc106_flip(&memory, 0x28, 1) == 0 && mpc106_flip(&memory, 0x28, 2) == 0);
    CHECK(mpc106_read(&memory, 0x26, a.buffer, 4, &a.answer) == 0);
    CHECK(MPC106_KIND(a.answer.part[0]) == MPC106_CLEAN && mpc106_worst_kind(&a.answer) == MPC106_UNCORRECTABLE);
}

/* Bank 3 ends before it starts. */
static void refusals_have_values(void)
{
    both_start(0);
    CHECK(mpc106_register_write(&a.record, MPC106_START + 3, 9) == 0);
    uint32_t result = mpc106_register_write(&a.record, MPC106_MEMORY, 8);
    CHECK(MPC106_REFUSAL(result) == MPC106_START_ABOVE_END && MPC106_REFUSED_VALUE(result) == 3);
    CHECK(MPC106_REFUSED_VALUE(mpc106_register_write(&a.record, 0, 8)) == 0);
    CHECK(MPC106_REFUSED_VALUE(0x12344018u) == 0x40);
}

static void lending_fills_the_memory(void)
{
    mpc106_memory lent = mpc106_lend(&b.record, b.cells + 9, 18);
    CHECK(lent.record == &b.record && lent.cells == b.cells + 9 && lent.cells_length == 18);
}

/* The 256 bytes of a save, whatever they are: the rest of the record, if it has more, is that of a fresh one. */
static void saves_are_loaded(void)
{
    uint8_t save[256];
    both_start(1);
    for (uint32_t i = 0; i < 256; i++)
        save[i] = (uint8_t)(7 * i + 3);
    mpc106_fresh(&b.record);
    memcpy(b.record.registers, save, sizeof save);
    mpc106_from_registers(&a.record, save);
    CHECK(memcmp(&a.record, &b.record, sizeof a.record) == 0);
    both_start(1);
    memcpy(save, a.record.registers, sizeof save);
    memset(&b.record, 0xa6, sizeof b.record);
    mpc106_from_registers(&b.record, save);
    CHECK(mpc106_alike(&a.record, &b.record, &a.number) == 0 && a.number == 1);
}

int main(void)
{
    worst_of_all();
    worst_of_the_unknown();
    worst_of_a_split();
    refusals_have_values();
    lending_fills_the_memory();
    saves_are_loaded();
    return 0;
}
