//! The check byte: columns, syndrome and its reading, flips.

/// MAP-8: nine bytes, the last of which is the check byte.
pub const CELL_BYTES: usize = 9;

/// Flip bits: 64 data bits and 8 check bits.
pub const FLIP_BITS: u8 = 72;

/// ECC-2, ECC-3: the column of each flip bit.
pub const COLUMNS: [u8; FLIP_BITS as usize] = columns();

const FIVE_ONES: [u8; 8] = [31, 47, 55, 59, 61, 62, 79, 87];

const fn columns() -> [u8; FLIP_BITS as usize] {
    let mut columns = [0; FLIP_BITS as usize];
    let mut bit = 0;
    let mut number: u8 = 0;
    while bit < 56 {
        if number.count_ones() == 3 {
            columns[bit] = number;
            bit += 1;
        }
        number += 1;
    }
    let mut j = 0;
    while j < 8 {
        columns[56 + j] = FIVE_ONES[j];
        columns[64 + j] = 1 << j;
        j += 1;
    }
    columns
}

/// For each data byte and each of its values, the exclusive-or of the columns
/// of its one bits, so that a check byte takes eight look-ups.
static BYTE_CHECKS: [[u8; 256]; 8] = byte_checks();

const fn byte_checks() -> [[u8; 256]; 8] {
    let mut checks = [[0; 256]; 8];
    let mut place = 0;
    while place < 8 {
        let mut value: usize = 1;
        while value < 256 {
            // A value is its lowest one bit and a smaller value.
            let lowest = value.trailing_zeros() as usize;
            let rest = value & (value - 1);
            checks[place][value] = checks[place][rest] ^ COLUMNS[8 * place + 7 - lowest];
            value += 1;
        }
        place += 1;
    }
    checks
}

/// What a syndrome says.
#[derive(Clone, Copy, Debug, PartialEq, Eq)]
pub enum Reading {
    Clean,
    /// The one flip bit (0 to 71) that is corrected.
    Corrected(u8),
    Uncorrectable,
}

static READINGS: [Reading; 256] = readings();

const fn readings() -> [Reading; 256] {
    let mut readings = [Reading::Uncorrectable; 256];
    readings[0] = Reading::Clean;
    let mut bit = 0;
    while bit < FLIP_BITS {
        readings[COLUMNS[bit as usize] as usize] = Reading::Corrected(bit);
        bit += 1;
    }
    readings
}

/// ECC-4: the check byte.
pub fn check_byte(data: &[u8; 8]) -> u8 {
    data.iter()
        .zip(&BYTE_CHECKS)
        .fold(0, |check, (&byte, checks)| {
            check ^ checks[usize::from(byte)]
        })
}

/// ECC-5: the syndrome.
pub fn syndrome(data: &[u8; 8], stored_check: u8) -> u8 {
    check_byte(data) ^ stored_check
}

/// ECC-6: what a syndrome means.
pub fn reading(syndrome: u8) -> Reading {
    READINGS[usize::from(syndrome)]
}

/// Data and check byte of a cell.
pub fn split_cell(cell: &[u8; CELL_BYTES]) -> ([u8; 8], u8) {
    let [a, b, c, d, e, f, g, h, check] = *cell;
    ([a, b, c, d, e, f, g, h], check)
}

/// Decodes a cell: its reading, and its data, corrected if possible.
pub fn read_cell(cell: &[u8; CELL_BYTES]) -> (Reading, [u8; 8]) {
    let (data, check) = split_cell(cell);
    let reading = reading(syndrome(&data, check));
    match reading {
        Reading::Corrected(bit) => {
            let mut right = *cell;
            flip(&mut right, bit);
            (reading, split_cell(&right).0)
        }
        Reading::Clean | Reading::Uncorrectable => (reading, data),
    }
}

/// Stores data with its check byte.
pub fn store_cell(cell: &mut [u8; CELL_BYTES], data: &[u8; 8]) {
    cell[..8].copy_from_slice(data);
    cell[8] = check_byte(data);
}

/// ECC-1, ECC-3: inverts one of the flip bits 0 to 71.
pub fn flip(cell: &mut [u8; CELL_BYTES], bit: u8) {
    if bit < 64 {
        cell[usize::from(bit / 8)] ^= 0x80 >> (bit % 8);
    } else {
        cell[8] ^= 1 << (bit - 64);
    }
}

#[cfg(test)]
mod tests {
    use super::*;
    use crate::gen::Rng;

    /// The definition bit by bit, without the table of bytes.
    fn check_by_bits(data: &[u8; 8]) -> u8 {
        let word = u64::from_be_bytes(*data);
        (0..64)
            .filter(|bit| word >> (63 - bit) & 1 == 1)
            .fold(0, |check, bit| check ^ COLUMNS[bit])
    }

    #[test]
    fn columns_follow_the_rule() {
        assert_eq!(COLUMNS[..5], [7, 11, 13, 14, 19]);
        assert_eq!(COLUMNS[55], 0b1110_0000);
        assert!(COLUMNS[..56].windows(2).all(|pair| pair[0] < pair[1]));
        assert!(COLUMNS[..56].iter().all(|c| c.count_ones() == 3));
        assert!(COLUMNS[56..64].iter().all(|c| c.count_ones() == 5));
        let mut all = COLUMNS.to_vec();
        all.sort_unstable();
        all.dedup();
        assert_eq!(all.len(), 72);
    }

    #[test]
    fn table_of_bytes_gives_the_definition() {
        let mut rng = Rng::new(1);
        for _ in 0..10_000 {
            let data = rng.next_u64().to_be_bytes();
            assert_eq!(check_byte(&data), check_by_bits(&data));
        }
    }

    #[test]
    fn one_flip_is_put_right_and_two_are_uncorrectable() {
        let mut rng = Rng::new(2);
        let data = rng.next_u64().to_be_bytes();
        let mut cell = [0; CELL_BYTES];
        store_cell(&mut cell, &data);
        assert_eq!(read_cell(&cell), (Reading::Clean, data));
        for one in 0..FLIP_BITS {
            let mut once = cell;
            flip(&mut once, one);
            assert_eq!(read_cell(&once), (Reading::Corrected(one), data));
            for two in (0..FLIP_BITS).filter(|&two| two != one) {
                let mut twice = once;
                flip(&mut twice, two);
                assert_eq!(read_cell(&twice).0, Reading::Uncorrectable);
                assert_eq!(read_cell(&twice).1, twice[..8]);
            }
        }
    }
}
