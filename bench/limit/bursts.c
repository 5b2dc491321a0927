/*
 * Bursts of a cache line.
 */
#include "calls.h"

/* Why a burst is refused. A span is whole megabytes, so a line has one bank, and four cells next to each other in the order of addresses. */
INLINE uint32_t line_refused(struct location at, uint32_t address, size_t n, size_t cells_length)
{
    if (RARE(at.found == UNREADY))
        return NOT_READY;
    if (RARE(address & 7))
        return MISALIGNED;
    if (RARE(n != 32))
        return NOT_CACHE_LINE;
    at.cell |= 3;
    return RARE(at.found == HELD && !is_lent(at, cells_length)) ? NOT_LENT : ACCEPTED;
}

INLINE uint32_t answered_line(uint32_t *answer, uint32_t part)
{
    answer[0] = 4;
    answer[1] = answer[2] = answer[3] = answer[4] = part;
    return ACCEPTED;
}

/* Where a beat has its doubleword in the line. */
INLINE uint32_t place_of_beat(uint32_t address, uint32_t beat)
{
    return ((address >> 3) + beat) & 3;
}

INLINE uint32_t read_beat(uint8_t *registers, const uint8_t *cell, uint32_t address, uint8_t *buffer)
{
    uint32_t part;
    store64(buffer, read_cell(registers, cell, address, &part));
    return part;
}

uint32_t limit_burst_read(uint8_t *registers, const uint8_t *cells, size_t cells_length, uint32_t address, uint8_t *buffer,
                          size_t n, uint32_t *answer)
{
    struct location at = locate(registers, address);
    uint32_t refused = line_refused(at, address, n, cells_length);
    if (RARE(refused))
        return refused;
    if (RARE(at.found == UNHELD)) {
        memset(buffer, 0xff, 32);
        return answered_line(answer, no_bank(registers, address));
    }
    const uint8_t *line = cells + (size_t)(at.cell & ~3u) * 9;
    answer[0] = 4;
    for (uint32_t beat = 0; beat < 4; beat++) {
        uint32_t place = place_of_beat(address, beat);
        answer[1 + beat] = read_beat(registers, line + 9 * place, (address & ~31u) + 8 * place, buffer + 8 * beat);
    }
    return ACCEPTED;
}

uint32_t limit_burst_write(uint8_t *registers, uint8_t *cells, size_t cells_length, uint32_t address, const uint8_t *bytes,
                           size_t n, uint32_t *answer)
{
    struct location at = locate(registers, address);
    uint32_t refused = line_refused(at, address, n, cells_length);
    if (RARE(refused))
        return refused;
    if (RARE(at.found == UNHELD))
        return answered_line(answer, no_bank(registers, address));
    uint8_t *line = cells + (size_t)(at.cell & ~3u) * 9;
    for (uint32_t beat = 0; beat < 4; beat++)
        write_whole(line + 9 * place_of_beat(address, beat), bytes + 8 * beat);
    return answered_line(answer, STORED);
}
