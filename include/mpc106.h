/*
 * mpc106.h - the memory side of the MPC106: registers, banks, cells and correction.
 *
 * Link with libmpc106.a (x86-64 Linux). `tools/install PREFIX` puts this header, the archive and a pkg-config
 * file in place; `tools/prove mpc106` writes the archive alone, to crates/mpc106/out/.
 * The library keeps no state and allocates no memory: all state is in what the caller lends.
 * So calls that are lent different records and cells may run in different threads.
 *
 *   mpc106_record record;
 *   mpc106_fresh(&record);                                    all registers zero, memory off
 *   mpc106_register_write(&record, MPC106_END, 1);            bank 0 ends at megabyte 1,
 *   mpc106_register_write(&record, MPC106_BANK_ENABLE, 1);    is enabled,
 *   mpc106_register_write(&record, MPC106_MEMORY, 8);         and memory is switched on
 *   uint32_t count;
 *   mpc106_cell_count(&record, &count);
 *   uint8_t *cells = calloc(count, MPC106_CELL_BYTES);
 *   mpc106_memory memory = mpc106_lend(&record, cells, (size_t)count * MPC106_CELL_BYTES);
 *   mpc106_answer answer;
 *   uint32_t word;
 *   if (mpc106_read_32(&memory, 0x1008, &word, &answer) == 0 && mpc106_worst_kind(&answer) == MPC106_CLEAN) ..
 *
 * RESULTS
 *   A call that is accepted returns 0, and puts what it gives where its last pointer points. mpc106_load alone makes
 *   several calls, and returns a count.
 *   A call that is refused returns why: the number of the refusal in the low byte, MPC106_REFUSAL(result), and in
 *   the next byte what it is about, MPC106_REFUSED_VALUE(result): the bank of refusals 12 to 14, and 0 for any other.
 *   mpc106_refusal_text(result) says it in words.
 *   No call fails in any other way, on any input. A REFUSED CALL LEAVES EVERYTHING AS IT WAS: record, cells,
 *   buffer, and what its other pointers point to.
 *   If two refusals apply, the lower number is returned, except that 10, 19 and 20 come before 9, and that switching
 *   on looks for 11; then through the banks in ascending order, at each for 12 and then 13; last for 14, whose bank
 *   is the lowest that has it.
 *
 * WHAT IS LENT
 *   record   an mpc106_record. Make it with mpc106_fresh or mpc106_from_registers; it may be copied. Its bytes may
 *            also be set by hand, since each call judges the record again (refusal 5); of its extended bytes only
 *            bits 0 and 1 count. Later versions may add members to it.
 *   cells    the memory's own bytes, nine for each doubleword of 8 bytes: eight data bytes, then the
 *            check byte. Cell k starts at 9 * k; mpc106_map gives the cell of an address. Nine zero
 *            bytes are a valid cell that holds zeros. mpc106_cell_count says how many a set-up needs. If fewer
 *            are lent, calls that need a higher cell get refusal 9. Bytes after the last whole cell are
 *            ignored.
 *   Pointers must not be null, not even with a length of 0, and what a call may change must not overlap anything
 *   else that the call is lent.
 *
 * SAVE STATES
 *   Record and cells are all the state that there is. Store the bytes of both, and MPC106_VERSION with them; the same
 *   version loads them as they are. Every version up to this one has a record of 256 bytes, its registers, and the same
 *   cells. A later one may add to the record: it loads the 256 bytes of an earlier one by mpc106_from_registers, which
 *   makes a fresh record and puts the registers in, so that whatever was added is as if it had never been set.
 *
 * REGISTERS
 *   Offsets are written in hexadecimal, n stands for one of the eight banks, and bit 0 is the lowest. A megabyte is 2^20 bytes.
 *
 *   80+n     start of bank n in megabytes, low eight bits
 *   88+n     the same, extended: bits 8 and 9, a value of 0 to 3
 *   90+n     last megabyte of bank n, inclusive, low eight bits
 *   98+n     the same, extended: bits 8 and 9, a value of 0 to 3
 *   A0       bit n enables bank n
 *   B8       single-bit counter: each MPC106_CORRECTED adds one to it, up to 255
 *   B9       single-bit trigger
 *   C0       error enables 1: bit 5 lets C1 bit 5 be set, and bit 2 C1 bit 2; its other bits do nothing
 *   C1       error detection 1: bit 5, a part of a read, write, scrub or burst found no bank; bit 2, B8 rose and was
 *            then equal to B9. A bit that is 1 in what is written is cleared
 *   C4       error enables 2: bit 3 lets C5 bit 3 be set; its other bits do nothing
 *   C5       error detection 2: bit 3, a doubleword was uncorrectable. Cleared as in C1
 *   C8..CB   error address, four bytes from the lowest up, which cannot be written: the address of the last call that set a bit of C1 or C5
 *            while all bits of both were zero, as the call was given it and not rounded down to its doubleword.
 *            Each part of a split read or write and each beat of a burst counts as a call here, with its own address
 *   F0, F1   row codes: for n from 0 to 3, bits 2n and 2n + 1 of F0 are that of bank n, those of F1 that of bank n + 4. Codes
 *            0, 1, 2 mean 9, 10, 11 row bits. With code 3 a bank has 12 row bits if its length is at most 128
 *            megabytes, and 13 otherwise. The longest bank of code 0, 1, 2, 3 has 2, 8, 32, 256 megabytes
 *   F2       bit 3 switches memory on: write 8 for on, 0 for off, and no other value
 *
 *   80 to A0, F0 and F1 can be written only while memory is off. No other offset has a register.
 *
 * OTHER LANGUAGES
 *   The calls here are short inline functions over those of the archive, which are what is proved. Those take only
 *   bytes and numbers, and any language that can call C can call them. Their names are mpc106_vN_read and so on,
 *   where N is the major version.
 */
#ifndef MPC106_H
#define MPC106_H

#include <stddef.h>
#include <stdint.h>

/* The version of this interface: a program that compiles with one compiles with every later one of the same major version. */
#define MPC106_VERSION_MAJOR 4
#define MPC106_VERSION_MINOR 0
#define MPC106_VERSION_PATCH 0
#define MPC106_VERSION (MPC106_VERSION_MAJOR * 10000 + MPC106_VERSION_MINOR * 100 + MPC106_VERSION_PATCH)

/*
 * The name of a function of the archive: MPC106_RAW(read) is mpc106_vN_read, where N is the major version. So a program
 * compiled with a header of another major version finds none of its functions in the archive, and is not linked.
 * The name is joined to something at once, so that a program may have a macro of that name.
 */
#define MPC106_RAW(name) MPC106_JOINED(MPC106_VERSION_MAJOR, _##name)
#define MPC106_JOINED(major, rest) MPC106_PASTED(major, rest)
#define MPC106_PASTED(major, rest) mpc106_v##major##rest

/* The number of bytes of a cell and of a cache line, and the most parts that an answer has. */
#define MPC106_CELL_BYTES 9
#define MPC106_LINE_BYTES 32
#define MPC106_PARTS 4

/* The offsets of the registers; the table above says what each holds. */
#define MPC106_START 0x80u /* of bank 0; that of bank n is n further on, and so for the next three */
#define MPC106_START_EXTENDED 0x88u
#define MPC106_END 0x90u
#define MPC106_END_EXTENDED 0x98u
#define MPC106_BANK_ENABLE 0xa0u
#define MPC106_SINGLE_BIT_COUNTER 0xb8u
#define MPC106_SINGLE_BIT_TRIGGER 0xb9u
#define MPC106_ERROR_ENABLE_1 0xc0u
#define MPC106_ERROR_DETECTION_1 0xc1u
#define MPC106_ERROR_ENABLE_2 0xc4u
#define MPC106_ERROR_DETECTION_2 0xc5u
#define MPC106_ERROR_ADDRESS 0xc8u /* the lowest byte; three more follow */
#define MPC106_ROW_CODES 0xf0u     /* of banks 0 to 3; those of 4 to 7 are at the next offset */
#define MPC106_MEMORY 0xf2u

/* What the result of a refused call says. */
#define MPC106_REFUSAL(result) ((result) & 0xffu)
#define MPC106_REFUSED_VALUE(result) (((result) >> 8) & 0xffu)

/* The refusals. No call returns 18. */
enum mpc106_refusal {
    MPC106_UNLISTED_OFFSET = 1,         /* the offset has no register */
    MPC106_READ_ONLY = 2,               /* a write at C8 to CB */
    MPC106_VALUE_OUT_OF_RANGE = 3,      /* extended bytes take 0 to 3, F2 takes 0 or 8 */
    MPC106_LOCKED_WHILE_ON = 4,         /* a write at 80 to A0, F0 or F1 while memory is on */
    MPC106_NOT_READY = 5,               /* memory is off, or the record would not be switched on */
    MPC106_COUNT_OUT_OF_RANGE = 6,      /* a count of 0 or above 8 */
    MPC106_PASSES_LAST_ADDRESS = 7,     /* address + count of a read or write is above 2^32 */
    MPC106_BIT_OUT_OF_RANGE = 8,        /* a flip of a bit above 71 */
    MPC106_NOT_LENT = 9,                /* a cell that the call needs is not wholly within the lent cells */
    MPC106_FLIP_WITHOUT_BANK = 10,      /* a flip where no bank holds the address */
    MPC106_NO_BANK_ENABLED = 11,        /* switching on with no bank enabled */
    MPC106_START_ABOVE_END = 12,        /* with the bank: it starts above its end */
    MPC106_TOO_LONG = 13,               /* with the bank: it is too long for its rows */
    MPC106_OVERLAP = 14,                /* with the bank: its span meets a lower enabled bank's */
    MPC106_BANK_OFF = 15,               /* the way back of a bank above 7, or of one that is off */
    MPC106_ROW_OR_COLUMN_TOO_LARGE = 16, /* the way back of a row or column that the bank does not have */
    MPC106_NO_ADDRESS = 17,             /* no address has that bank, row and column */
    MPC106_MISALIGNED = 19,             /* the address of a burst is no multiple of 8 */
    MPC106_NOT_CACHE_LINE = 20          /* a burst of more or fewer than 32 bytes */
};

/* The kind of one part of an accepted read, write, scrub or burst. 0 is no kind. */
enum mpc106_kind {
    MPC106_CLEAN = 1,         /* nothing was wrong */
    MPC106_CORRECTED = 2,     /* one bit was wrong and was corrected: MPC106_FLIP_BIT(part) */
    MPC106_UNCORRECTABLE = 3, /* more bits were wrong than can be corrected */
    MPC106_STORED = 4,        /* a write of 8 bytes that fill one doubleword, or a beat of a burst write */
    MPC106_NO_BANK = 5        /* no enabled bank holds the address */
};

/* The kind that a part of an answer holds. Later versions may put more into a part, so do not compare whole parts. */
#define MPC106_KIND(part) ((part) & 0xffu)

/*
 * The bit that was corrected, if the kind is MPC106_CORRECTED; 0 for any other kind. It is numbered as mpc106_flip
 * numbers bits: 0 to 63 are data bits of the whole doubleword, whichever of its bytes were asked for, and 64 to 71
 * check bits. It is the bit that the check byte names: if three or more were wrong, that can be one that was right.
 */
#define MPC106_FLIP_BIT(part) (((part) >> 8) & 0xffu)

/* The register record: a byte for each offset. */
typedef struct mpc106_record {
    uint8_t registers[256];
} mpc106_record;

/*
 * What is lent to a memory call: the record, and the cells with their length in bytes. Fill it with mpc106_lend, which
 * also fills the members that later versions add.
 */
typedef struct mpc106_memory {
    mpc106_record *record;
    uint8_t *cells;
    size_t cells_length;
} mpc106_memory;

/*
 * What an accepted read, write, scrub or burst gives: the number of its parts, and the parts in the order in which
 * they were performed; unused ones are 0. A burst has 4 parts, one for each beat; a read or write that runs into the
 * next doubleword, a split, has 2, that of the lower address first; any other call has 1.
 */
typedef struct mpc106_answer {
    uint32_t count;
    uint32_t part[MPC106_PARTS];
} mpc106_answer;

/* Where a doubleword is kept. */
typedef struct mpc106_place {
    uint32_t found; /* 1, or 0 if no enabled bank holds the address; then the others are 0 too */
    uint32_t bank;
    uint32_t row;
    uint32_t column;
    uint32_t cell; /* the number of the cell in the memory: it starts at byte 9 * cell of the lent cells */
} mpc106_place;

/*
 * What the archive contains. Each MPC106_RAW(NAME) does what mpc106_NAME below does, and returns the same. Its parameters:
 *   registers, first, second       the 256 bytes of a record
 *   cells, cells_length            the lent cells, and how many bytes they have
 *   buffer or bytes, its length    of a read, write or burst; the length is the count of bytes
 *   answer                         five numbers: the count, then four parts, each with its kind in the low byte and in
 *                                  the next byte the bit of MPC106_CORRECTED, or 0
 *   place                          five numbers: found, bank, row, column, cell
 *   count, value, address, alike   the one number that the call gives
 */
#ifdef __cplusplus
extern "C" {
#endif
void MPC106_RAW(fresh)(uint8_t registers[256]);
uint32_t MPC106_RAW(judge)(const uint8_t registers[256]);
uint32_t MPC106_RAW(cell_count)(const uint8_t registers[256], uint32_t count[1]);
uint32_t MPC106_RAW(register_read)(const uint8_t registers[256], uint32_t offset, uint8_t value[1]);
uint32_t MPC106_RAW(register_write)(uint8_t registers[256], uint32_t offset, uint8_t value);
uint32_t MPC106_RAW(map)(const uint8_t registers[256], uint32_t address, uint32_t place[5]);
uint32_t MPC106_RAW(way_back)(const uint8_t registers[256], uint32_t bank, uint32_t row, uint32_t column,
                              uint32_t address[1]);
uint32_t MPC106_RAW(alike)(const uint8_t first[256], const uint8_t second[256], uint32_t alike[1]);
uint32_t MPC106_RAW(read)(uint8_t registers[256], const uint8_t *cells, size_t cells_length, uint32_t address,
                          uint8_t *buffer, size_t buffer_length, uint32_t answer[5]);
uint32_t MPC106_RAW(write)(uint8_t registers[256], uint8_t *cells, size_t cells_length, uint32_t address,
                           const uint8_t *bytes, size_t bytes_length, uint32_t answer[5]);
uint32_t MPC106_RAW(flip)(const uint8_t registers[256], uint8_t *cells, size_t cells_length, uint32_t address,
                          uint32_t bit);
uint32_t MPC106_RAW(scrub)(uint8_t registers[256], uint8_t *cells, size_t cells_length, uint32_t address,
                           uint32_t answer[5]);
uint32_t MPC106_RAW(burst_read)(uint8_t registers[256], const uint8_t *cells, size_t cells_length, uint32_t address,
                                uint8_t *buffer, size_t buffer_length, uint32_t answer[5]);
uint32_t MPC106_RAW(burst_write)(uint8_t registers[256], uint8_t *cells, size_t cells_length, uint32_t address,
                                 const uint8_t *bytes, size_t bytes_length, uint32_t answer[5]);
#ifdef __cplusplus
}
#endif

/*
 * Why a call was refused, in words, without a capital letter or a full stop; each refusal has its own text.
 * Takes what the call returned. For 0 the text is "accepted".
 */
static inline const char *mpc106_refusal_text(uint32_t result)
{
    switch (MPC106_REFUSAL(result)) {
    case 0: return "accepted";
    case MPC106_UNLISTED_OFFSET: return "there is no register at this offset";
    case MPC106_READ_ONLY: return "the error address at C8 to CB can only be read";
    case MPC106_VALUE_OUT_OF_RANGE: return "an extended byte takes 0 to 3, and F2 takes 0 or 8";
    case MPC106_LOCKED_WHILE_ON: return "the banks' registers can't be written while memory is on";
    case MPC106_NOT_READY: return "memory is off, or its banks would not be switched on";
    case MPC106_COUNT_OUT_OF_RANGE: return "the number of bytes is not 1 to 8";
    case MPC106_PASSES_LAST_ADDRESS: return "the bytes run past the last address, FFFFFFFF";
    case MPC106_BIT_OUT_OF_RANGE: return "the bit is above 71";
    case MPC106_NOT_LENT: return "a cell that the call needs is not wholly within the lent cells";
    case MPC106_FLIP_WITHOUT_BANK: return "there is no bit to flip: no enabled bank holds the address";
    case MPC106_NO_BANK_ENABLED: return "no bank is enabled";
    case MPC106_START_ABOVE_END: return "an enabled bank starts above its end";
    case MPC106_TOO_LONG: return "an enabled bank is too long for its rows";
    case MPC106_OVERLAP: return "an enabled bank meets another of lower number";
    case MPC106_BANK_OFF: return "the bank is above 7 or not enabled";
    case MPC106_ROW_OR_COLUMN_TOO_LARGE: return "the bank has no such row or column";
    case MPC106_NO_ADDRESS: return "no address has this bank, row and column";
    case MPC106_MISALIGNED: return "the address of the burst is not a multiple of 8";
    case MPC106_NOT_CACHE_LINE: return "the number of bytes of the burst is not 32";
    default: return "a refusal that this header doesn't know";
    }
}

/*
 * Makes a fresh record: all registers zero, memory off. It cannot be refused.
 */
static inline void mpc106_fresh(mpc106_record *record)
{
    MPC106_RAW(fresh)(record->registers);
}

/*
 * Makes a fresh record with these registers, those of a save state: whatever a record has besides is as mpc106_fresh
 * leaves it. It cannot be refused; a record that could not be switched on gets refusal 5 when it is used.
 */
static inline void mpc106_from_registers(mpc106_record *record, const uint8_t registers[256])
{
    mpc106_fresh(record);
    for (size_t offset = 0; offset < sizeof record->registers; offset++)
        record->registers[offset] = registers[offset];
}

/*
 * What is lent to memory calls: this record, and these cells, which have cells_length bytes.
 */
static inline mpc106_memory mpc106_lend(mpc106_record *record, uint8_t *cells, size_t cells_length)
{
    mpc106_memory memory;
    memory.record = record;
    memory.cells = cells;
    memory.cells_length = cells_length;
    return memory;
}

/*
 * What switching the record on would return, whether or not memory is on. Changes nothing.
 * Refused: 11; then, with the banks in ascending order, 12 and 13; last 14, with the lowest bank that has it. All
 * but 11 also return the bank. So if bank 0 is too long and bank 1 starts above its end, 13 is returned, and 14 comes last of all.
 * Disabled banks are ignored.
 */
static inline uint32_t mpc106_judge(const mpc106_record *record)
{
    return MPC106_RAW(judge)(record->registers);
}

/*
 * How many cells the memory has: lend MPC106_CELL_BYTES times as many bytes. It is never above 251,658,240, which is
 * 15 * 2^24, so that at most 2,264,924,160 bytes need be lent: more than an int holds.
 * An enabled bank with R row bits has 2^(R+C) cells, where C, its column bits, is the smallest of 8, 9, .., R (of
 * 8, 9, .., 12 if R is 13) with 2^(R+C+3) >= its length in bytes; the memory has the sum of this over the enabled
 * banks. A bank has at most 2^25.
 * Refused: 5.
 */
static inline uint32_t mpc106_cell_count(const mpc106_record *record, uint32_t *count)
{
    return MPC106_RAW(cell_count)(record->registers, count);
}

/*
 * Reads the register at an offset.
 * Refused: 1, for an offset above 255 too.
 */
static inline uint32_t mpc106_register_read(const mpc106_record *record, uint32_t offset, uint8_t *value)
{
    return MPC106_RAW(register_read)(record->registers, offset, value);
}

/*
 * Writes a register. At C1 and C5 each 1 of the value clears that bit; elsewhere the value is stored.
 * Writing 8 to F2 while memory is off judges the banks and switches memory on; writing 0 there
 * switches it off. Writing 8 to F2 while memory is on checks nothing, and leaves 08 there.
 * Accepted: changes that one byte of the record.
 * Refused: 1, 2, 3, 4; and when memory is switched on, as mpc106_judge is.
 */
static inline uint32_t mpc106_register_write(mpc106_record *record, uint32_t offset, uint8_t value)
{
    return MPC106_RAW(register_write)(record->registers, offset, value);
}

/*
 * The error address, C8 to CB, as one number. It cannot be refused.
 */
static inline uint32_t mpc106_error_address(const mpc106_record *record)
{
    uint32_t address = 0;
    for (uint32_t place = 0; place < 4; place++) {
        uint8_t value = 0;
        mpc106_register_read(record, MPC106_ERROR_ADDRESS + place, &value);
        address |= (uint32_t)value << 8 * place;
    }
    return address;
}

/*
 * Finds where an address is kept. If no bank holds it, nothing is reported: the record stays as it is.
 * Refused: 5.
 */
static inline uint32_t mpc106_map(const mpc106_record *record, uint32_t address, mpc106_place *place)
{
    return MPC106_RAW(map)(record->registers, address, (uint32_t *)place);
}

/*
 * The way back: finds the address of the doubleword at a row and a column of a bank.
 * Refused: 5, 15, 16, 17.
 */
static inline uint32_t mpc106_way_back(const mpc106_record *record, uint32_t bank, uint32_t row, uint32_t column,
                                       uint32_t *address)
{
    return MPC106_RAW(way_back)(record->registers, bank, row, column, address);
}

/*
 * Whether the two records map all 2^32 addresses in the same way (bank, row and column, or no bank): 1 or 0.
 * The two may be one record.
 * Refused: 5, if memory is off in either record or its banks would not be switched on.
 */
static inline uint32_t mpc106_alike(const mpc106_record *first, const mpc106_record *second, uint32_t *alike)
{
    return MPC106_RAW(alike)(first->registers, second->registers, alike);
}

/*
 * Reads count bytes, 1 to 8, into buffer.
 * Gives MPC106_CLEAN or MPC106_CORRECTED with the right bytes in buffer, MPC106_UNCORRECTABLE with the bytes as
 * they are stored, or MPC106_NO_BANK with FF in every byte. With MPC106_CORRECTED the part of the answer also holds
 * the bit that was wrong, MPC106_FLIP_BIT; it need not lie in one of these bytes.
 * The error registers of the record (B8, C1, C5, C8 to CB) are brought up to date. Cells are never changed.
 * If the bytes run into the next doubleword, that is if address % 8 + count is above 8, the read is a split. It has
 * two parts: the bytes up to the end of the first doubleword, at address, and the rest, at the next doubleword. Each
 * is what mpc106_read of its own bytes is, and gives a part of the answer, with a bit of its own if it was corrected;
 * one that finds no bank sets its own bytes of buffer to FF, and no others. The second is performed even if the first
 * is uncorrectable or finds no bank, and the two may lie in different banks. The error registers are left as two such
 * calls leave them.
 * If one of the two cells is not lent, the split is refused whole.
 * Refused: 5, 6, 7, 9.
 */
static inline uint32_t mpc106_read(const mpc106_memory *memory, uint32_t address, uint8_t *buffer, size_t count,
                                   mpc106_answer *answer)
{
    return MPC106_RAW(read)(memory->record->registers, memory->cells, memory->cells_length, address, buffer, count,
                            (uint32_t *)answer);
}

/*
 * Writes count bytes, 1 to 8.
 * 8 bytes in one doubleword: gives MPC106_STORED; data and check byte are stored, whatever was there before.
 * Fewer: the doubleword is corrected, the bytes are merged into it, and it is stored; gives MPC106_CLEAN or
 * MPC106_CORRECTED, with the bit that was wrong before. If it cannot be corrected, gives MPC106_UNCORRECTABLE, and
 * cells are left as they were.
 * No bank: gives MPC106_NO_BANK, and cells are left as they were.
 * The error registers of the record are brought up to date.
 * If the bytes run into the next doubleword, the write is a split, with the two parts of mpc106_read. Each is what
 * mpc106_write of its own bytes is. It has fewer than 8, so a split never gives MPC106_STORED, even if count is 8. The
 * second is performed even if the first stores nothing. The error registers are left as two such calls leave them.
 * If one of the two cells is not lent, the split is refused whole.
 * Refused: 5, 6, 7, 9.
 */
static inline uint32_t mpc106_write(const mpc106_memory *memory, uint32_t address, const uint8_t *bytes, size_t count,
                                    mpc106_answer *answer)
{
    return MPC106_RAW(write)(memory->record->registers, memory->cells, memory->cells_length, address, bytes, count,
                             (uint32_t *)answer);
}

/*
 * Inverts one bit of the cell of the doubleword that holds the address, as a fault would: bit 0 is
 * the top bit of data byte 0, bit 63 the bottom bit of data byte 7, bit 64 + j is bit j of the check byte.
 * The record is not changed.
 * Refused: 5, 8, 10, 9.
 */
static inline uint32_t mpc106_flip(const mpc106_memory *memory, uint32_t address, uint32_t bit)
{
    const mpc106_record *record = memory->record;
    return MPC106_RAW(flip)(record->registers, memory->cells, memory->cells_length, address, bit);
}

/*
 * Scrubs the doubleword that holds the address: a cell that needs a correction is corrected and stored again.
 * Gives MPC106_CLEAN, MPC106_CORRECTED with the bit that was wrong, MPC106_UNCORRECTABLE or MPC106_NO_BANK; cells
 * change only with MPC106_CORRECTED. The error registers of the record are brought up to date.
 * Refused: 5, 9.
 */
static inline uint32_t mpc106_scrub(const mpc106_memory *memory, uint32_t address, mpc106_answer *answer)
{
    return MPC106_RAW(scrub)(memory->record->registers, memory->cells, memory->cells_length, address,
                             (uint32_t *)answer);
}

/*
 * Reads a cache line, the 32 bytes from a multiple of 32 on, into buffer, in four beats of one doubleword each.
 * So count must be MPC106_LINE_BYTES.
 * The first beat is at address, which must be a multiple of 8. Each further beat is at the next doubleword, and after
 * the last doubleword of the line comes the first: the beats of a burst at 0x50 are at 0x50, 0x58, 0x40 and 0x48.
 * Each beat is what mpc106_read of 8 bytes is. It gives a part of the answer, with a bit of its own if it was
 * corrected, and eight bytes of buffer, both in the order of the beats; a beat that is uncorrectable or finds no bank
 * does not stop the others. The error registers are left as four such calls leave them.
 * If one of the four cells is not lent, the burst is refused whole.
 * Refused: 5, 19, 20, 9.
 */
static inline uint32_t mpc106_burst_read(const mpc106_memory *memory, uint32_t address, uint8_t *buffer, size_t count,
                                         mpc106_answer *answer)
{
    return MPC106_RAW(burst_read)(memory->record->registers, memory->cells, memory->cells_length, address, buffer,
                                  count, (uint32_t *)answer);
}

/*
 * Writes a cache line in four beats, with the addresses and the order of mpc106_burst_read. So count must be
 * MPC106_LINE_BYTES, and the first eight bytes go to address.
 * Each beat is what mpc106_write of 8 bytes is: it gives MPC106_STORED, whatever was there before, or
 * MPC106_NO_BANK. The error registers are left as four such calls leave them.
 * If one of the four cells is not lent, the burst is refused whole.
 * Refused: 5, 19, 20, 9.
 */
static inline uint32_t mpc106_burst_write(const mpc106_memory *memory, uint32_t address, const uint8_t *bytes,
                                          size_t count, mpc106_answer *answer)
{
    return MPC106_RAW(burst_write)(memory->record->registers, memory->cells, memory->cells_length, address, bytes,
                                   count, (uint32_t *)answer);
}

/* How bad a kind is: the higher the number, the worse. */
static inline int mpc106_badness(uint32_t kind)
{
    switch (kind) {
    case MPC106_CLEAN:
    case MPC106_STORED: return 1;
    case MPC106_CORRECTED: return 2;
    case MPC106_NO_BANK: return 3;
    case MPC106_UNCORRECTABLE: return 4;
    default: return 5;
    }
}

/*
 * The worst kind of the parts of an answer, so that no part of a split or of a burst goes unnoticed. From the best on:
 * MPC106_CLEAN and MPC106_STORED, which one answer never holds both; MPC106_CORRECTED, since the bytes are right;
 * MPC106_NO_BANK, since nothing that was stored is lost, and firmware that looks for the end of memory expects it;
 * MPC106_UNCORRECTABLE, since bytes are lost; and a kind that this header does not know.
 * A refused call has no parts and gives no answer: do not ask for one. Of an answer with count 0 it is 0, no kind.
 */
static inline uint32_t mpc106_worst_kind(const mpc106_answer *answer)
{
    uint32_t worst = 0;
    for (uint32_t i = 0; i < answer->count; i++) {
        uint32_t kind = MPC106_KIND(answer->part[i]);
        if (i == 0 || mpc106_badness(kind) > mpc106_badness(worst))
            worst = kind;
    }
    return worst;
}

/*
 * The number that some bytes are in the byte order of the board, that of the PowerPC: the byte of the lowest address is
 * the highest of the number, so that data bit 0 of a doubleword is the top bit of a number of 64 bits.
 */
static inline uint64_t mpc106_number_of(const uint8_t *bytes, size_t count)
{
    uint64_t number = 0;
    for (size_t i = 0; i < count; i++)
        number = number << 8 | bytes[i];
    return number;
}

/* The reverse: the lowest bytes of a number in the byte order of the board. */
static inline void mpc106_bytes_of(uint64_t number, uint8_t *bytes, size_t count)
{
    for (size_t i = 0; i < count; i++)
        bytes[i] = (uint8_t)(number >> 8 * (count - 1 - i));
}

/*
 * Reads a number of 16, 32 or 64 bits in the byte order of the board, at any address: what mpc106_read of 2, 4 or 8
 * bytes is, a split where they run into the next doubleword, with the number in place of the buffer.
 * Refused: 5, 7, 9.
 */
static inline uint32_t mpc106_read_16(const mpc106_memory *memory, uint32_t address, uint16_t *value,
                                      mpc106_answer *answer)
{
    uint8_t bytes[2];
    uint32_t result = mpc106_read(memory, address, bytes, sizeof bytes, answer);
    if (result == 0)
        *value = (uint16_t)mpc106_number_of(bytes, sizeof bytes);
    return result;
}

static inline uint32_t mpc106_read_32(const mpc106_memory *memory, uint32_t address, uint32_t *value,
                                      mpc106_answer *answer)
{
    uint8_t bytes[4];
    uint32_t result = mpc106_read(memory, address, bytes, sizeof bytes, answer);
    if (result == 0)
        *value = (uint32_t)mpc106_number_of(bytes, sizeof bytes);
    return result;
}

static inline uint32_t mpc106_read_64(const mpc106_memory *memory, uint32_t address, uint64_t *value,
                                      mpc106_answer *answer)
{
    uint8_t bytes[8];
    uint32_t result = mpc106_read(memory, address, bytes, sizeof bytes, answer);
    if (result == 0)
        *value = mpc106_number_of(bytes, sizeof bytes);
    return result;
}

/*
 * Writes a number of 16, 32 or 64 bits in the byte order of the board, at any address: what mpc106_write of its 2, 4 or
 * 8 bytes is.
 * Refused: 5, 7, 9.
 */
static inline uint32_t mpc106_write_16(const mpc106_memory *memory, uint32_t address, uint16_t value,
                                       mpc106_answer *answer)
{
    uint8_t bytes[2];
    mpc106_bytes_of(value, bytes, sizeof bytes);
    return mpc106_write(memory, address, bytes, sizeof bytes, answer);
}

static inline uint32_t mpc106_write_32(const mpc106_memory *memory, uint32_t address, uint32_t value,
                                       mpc106_answer *answer)
{
    uint8_t bytes[4];
    mpc106_bytes_of(value, bytes, sizeof bytes);
    return mpc106_write(memory, address, bytes, sizeof bytes, answer);
}

static inline uint32_t mpc106_write_64(const mpc106_memory *memory, uint32_t address, uint64_t value,
                                       mpc106_answer *answer)
{
    uint8_t bytes[8];
    mpc106_bytes_of(value, bytes, sizeof bytes);
    return mpc106_write(memory, address, bytes, sizeof bytes, answer);
}

/*
 * Loads an image: writes its bytes from an address on, by one mpc106_write for each doubleword that they reach.
 * Returns how many bytes are stored, the first ones of the image. ALL OF IT IS LOADED EXACTLY IF THAT IS length.
 * Otherwise the next call stored nothing, and the load stopped there; what is stored stays. *result is what that call
 * returned: refusal 5 or 9, or 0 if it was accepted. Then mpc106_worst_kind(answer) is MPC106_NO_BANK, or
 * MPC106_UNCORRECTABLE where the image begins or ends inside a doubleword that can't be corrected.
 * If all is loaded, *result is 0 and *answer that of the last call. With no call, or a refused one, answer->count is 0.
 */
static inline size_t mpc106_load(const mpc106_memory *memory, uint32_t address, const uint8_t *image, size_t length,
                                 uint32_t *result, mpc106_answer *answer)
{
    size_t stored = 0;
    *result = 0;
    answer->count = 0;
    while (stored < length) {
        /* It does not pass 2^32: no bank reaches so far, and the load ends where there is none. */
        uint32_t next = address + (uint32_t)stored;
        size_t count = 8 - next % 8;
        if (count > length - stored)
            count = length - stored;
        answer->count = 0;
        *result = mpc106_write(memory, next, image + stored, count, answer);
        if (*result != 0 || mpc106_badness(mpc106_worst_kind(answer)) > mpc106_badness(MPC106_CORRECTED))
            break;
        stored += count;
    }
    return stored;
}

#endif
