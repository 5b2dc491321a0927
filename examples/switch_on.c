/*
 * Switches on two banks (bank 0: megabytes 0 to 1, 9 row bits; bank 1: megabytes 2 to 4, 10 row bits),
 * writes, inverts bits, reads, loads an image, and prints the answers.
 *
 *   tools/install "$HOME/.local"
 *   export PKG_CONFIG_PATH=$HOME/.local/lib/pkgconfig
 *   gcc $(pkg-config --cflags mpc106) examples/switch_on.c $(pkg-config --libs mpc106) -o switch_on
 */
#include <stdio.h>
#include <stdlib.h>

#include <mpc106.h>

static mpc106_record record;
static mpc106_memory memory;

static const char *kind_name(uint32_t kind)
{
    switch (kind) {
    case MPC106_CLEAN: return "clean";
    case MPC106_CORRECTED: return "corrected";
    case MPC106_UNCORRECTABLE: return "uncorrectable";
    case MPC106_STORED: return "stored";
    case MPC106_NO_BANK: return "no bank";
    default: return "unknown";
    }
}

/* Prints why a call was refused. True if it was. */
static int print_refusal(uint32_t result)
{
    uint32_t number = MPC106_REFUSAL(result);
    if (result == 0)
        return 0;
    printf("refusal %u, %s", number, mpc106_refusal_text(result));
    if (MPC106_START_ABOVE_END <= number && number <= MPC106_OVERLAP)
        printf(" (bank %u)", MPC106_REFUSED_VALUE(result));
    printf("\n");
    return 1;
}

static void print_answer(const char *call, uint32_t address, uint32_t result, const mpc106_answer *answer)
{
    printf("%s %08x: ", call, address);
    if (print_refusal(result))
        return;
    for (uint32_t i = 0; i < answer->count; i++) {
        printf("%s%s", i == 0 ? "" : ", ", kind_name(MPC106_KIND(answer->part[i])));
        if (MPC106_KIND(answer->part[i]) == MPC106_CORRECTED)
            printf(" bit %u", MPC106_FLIP_BIT(answer->part[i]));
    }
    printf("\n");
}

static void set_register(uint32_t offset, uint8_t value)
{
    uint32_t result = mpc106_register_write(&record, offset, value);
    printf("register %02x = %02x: ", offset, value);
    if (!print_refusal(result))
        printf("accepted\n");
}

static void show_register(uint32_t offset)
{
    uint8_t value;
    uint32_t result = mpc106_register_read(&record, offset, &value);
    printf("register %02x: ", offset);
    if (!print_refusal(result))
        printf("%02x\n", value);
}

static void show_error_address(void)
{
    printf("error address: %08x\n", mpc106_error_address(&record));
}

static void show_place(uint32_t address)
{
    mpc106_place place;
    uint32_t result = mpc106_map(&record, address, &place);
    printf("map %08x: ", address);
    if (print_refusal(result))
        return;
    if (place.found)
        printf("bank %u, row %u, column %u, cell %u\n", place.bank, place.row, place.column, place.cell);
    else
        printf("no bank\n");
}

static void show_address(uint32_t bank, uint32_t row, uint32_t column)
{
    uint32_t address;
    uint32_t result = mpc106_way_back(&record, bank, row, column, &address);
    printf("way back bank %u, row %u, column %u: ", bank, row, column);
    if (!print_refusal(result))
        printf("%08x\n", address);
}

static void read_bytes(uint32_t address, size_t count)
{
    uint8_t buffer[8];
    mpc106_answer answer;
    uint32_t result = mpc106_read(&memory, address, buffer, count, &answer);
    print_answer("read", address, result, &answer);
    if (result != 0)
        return;
    for (size_t i = 0; i < count; i++)
        printf(" %02x", buffer[i]);
    printf("\n");
}

static void write_bytes(uint32_t address, const uint8_t *bytes, size_t count)
{
    mpc106_answer answer;
    uint32_t result = mpc106_write(&memory, address, bytes, count, &answer);
    print_answer("write", address, result, &answer);
}

/* As the processor of the board reads a word: one number, whichever doublewords its bytes are in. */
static void read_word(uint32_t address)
{
    uint32_t word = 0;
    mpc106_answer answer;
    uint32_t result = mpc106_read_32(&memory, address, &word, &answer);
    printf("word %08x: ", address);
    if (!print_refusal(result))
        printf("%08x, %s\n", word, kind_name(mpc106_worst_kind(&answer)));
}

static void load(uint32_t address, const uint8_t *image, size_t length)
{
    uint32_t result;
    mpc106_answer answer;
    size_t stored = mpc106_load(&memory, address, image, length, &result, &answer);
    printf("load %08x: %zu of %zu bytes", address, stored, length);
    if (result != 0)
        printf(", refusal %u, %s", MPC106_REFUSAL(result), mpc106_refusal_text(result));
    else if (stored < length)
        printf(", %s", kind_name(mpc106_worst_kind(&answer)));
    printf("\n");
}

static void flip(uint32_t address, uint32_t bit)
{
    uint32_t result = mpc106_flip(&memory, address, bit);
    printf("flip %08x: ", address);
    if (!print_refusal(result))
        printf("flipped\n");
}

static void scrub(uint32_t address)
{
    mpc106_answer answer;
    uint32_t result = mpc106_scrub(&memory, address, &answer);
    print_answer("scrub", address, result, &answer);
}

static void switch_on(void)
{
    mpc106_fresh(&record);
    set_register(MPC106_END, 1);               /* bank 0: last megabyte */
    set_register(MPC106_START + 1, 2);         /* bank 1: start */
    set_register(MPC106_END + 1, 1);           /* and an end below it */
    set_register(MPC106_ROW_CODES, 0x04);      /* bank 0 has 9 row bits, bank 1 10 */
    set_register(MPC106_BANK_ENABLE, 0x03);    /* both enabled */
    set_register(MPC106_MEMORY, 8);            /* refused, for bank 1 */
    set_register(MPC106_END + 1, 4);
    set_register(MPC106_MEMORY, 8);            /* memory on */
    set_register(MPC106_BANK_ENABLE, 0x01);    /* refused: memory is on */
    set_register(MPC106_ERROR_ENABLE_1, 0x20); /* report addresses without a bank */
}

/* As many cells as the set-up needs, all zero. */
static int lend_cells(void)
{
    uint32_t count;
    uint32_t result = mpc106_cell_count(&record, &count);
    printf("cells: ");
    if (print_refusal(result))
        return 0;
    printf("%u\n", count);
    memory = mpc106_lend(&record, calloc(count, MPC106_CELL_BYTES), (size_t)count * MPC106_CELL_BYTES);
    return memory.cells != NULL;
}

static void map_both_ways(void)
{
    show_place(0x00001008);
    show_place(0x00200000);
    show_place(0x00400000);
    show_place(0x00500000);
    show_address(1, 512, 0);
    show_address(1, 256, 0);
}

static void turn_bits_over(void)
{
    static const uint8_t eight[8] = {0x80, 1, 2, 3, 4, 5, 6, 7};
    static const uint8_t two[2] = {0xca, 0xfe};

    write_bytes(0x00001008, eight, sizeof eight);
    flip(0x00001008, 2);
    read_bytes(0x00001008, 8);
    show_register(MPC106_SINGLE_BIT_COUNTER);
    write_bytes(0x0000100a, two, sizeof two);
    read_bytes(0x00001008, 8);
    flip(0x00001008, 0);
    flip(0x00001008, 71);
    read_bytes(0x00001008, 1);
    flip(0x00001008, 0);
    scrub(0x00001008);
    read_bytes(0x0000100a, 2);
}

/* Two bytes of each call lie in one doubleword and two in the next, so its answer has two parts. */
static void run_into_the_next(void)
{
    static const uint8_t four[4] = {0xde, 0xad, 0xbe, 0xef};

    write_bytes(0x00001006, four, sizeof four);
    flip(0x00001008, 5);
    read_bytes(0x00001006, 4);
    read_bytes(0x004ffffe, 4);
    show_register(MPC106_ERROR_DETECTION_1);
    show_error_address();
    set_register(MPC106_ERROR_DETECTION_1, 0x20); /* clears the bit, so that the next one is reported too */
}

static void leave_the_banks(void)
{
    read_bytes(0x00500000, 2);
    show_register(MPC106_ERROR_DETECTION_1);
    show_error_address();
    read_bytes(0xffffffff, 2);
    flip(0x00001008, 72);
}

/* The second image runs past the last bank; what is before its end is stored. */
static void load_images(void)
{
    static const uint8_t image[12] = {1, 2, 3, 4, 5, 6, 7, 8, 9, 10, 11, 12};

    load(0x00001ffa, image, sizeof image);
    read_word(0x00001ffe);
    load(0x004ffffa, image, sizeof image);
    read_word(0x004ffffe);
}

/* Numbers that would be in range if they were cut to a byte. */
static void go_out_of_range(void)
{
    flip(0x00001008, 261);
    show_register(0x180);
    show_address(256, 0, 0);
}

int main(void)
{
    switch_on();
    if (!lend_cells())
        return 1;
    map_both_ways();
    turn_bits_over();
    run_into_the_next();
    leave_the_banks();
    load_images();
    go_out_of_range();
    free(memory.cells);
    return 0;
}
