//! ECC-6: the reading of each of the 256 syndromes.

use model::code::{self, reading, Reading};
use model::memory::{read, scrub, write};
use model::Answer;
use model::Answers::Single;

use crate::rules::{self, right_cell, COLUMNS};
use crate::{switched_on, PATTERNS};

/// Worked on paper. A number of three ones below 2^k is one of the C(k, 3) that
/// come first, so 2^k + 3 is the column of data bit C(k, 3), and the number just
/// before it has its ones at the top of the k bits.
const WORKED: [(u8, u8); 24] = [
    (0x07, 0),
    (0x0B, 1),
    (0x0D, 2),
    (0x0E, 3),
    (0x13, 4),
    (0x1C, 9),
    (0x23, 10),
    (0x38, 19),
    (0x43, 20),
    (0x70, 34),
    (0x83, 35),
    (0xE0, 55),
    (0x1F, 56),
    (0x2F, 57),
    (0x37, 58),
    (0x3E, 61),
    (0x4F, 62),
    (0x57, 63),
    (0x01, 64),
    (0x02, 65),
    (0x08, 67),
    (0x20, 69),
    (0x40, 70),
    (0x80, 71),
];

#[test]
fn worked_syndromes_name_their_bits() {
    for (syndrome, bit) in WORKED {
        assert_eq!(reading(syndrome), Reading::Corrected(bit), "{syndrome:02x}");
    }
    assert_eq!(reading(0x00), Reading::Clean);
    // Two ones; five and seven that are no column; all eight.
    for syndrome in [0x03, 0xC0, 0x5B, 0xF8, 0x7F, 0xFE, 0xFF] {
        assert_eq!(reading(syndrome), Reading::Uncorrectable, "{syndrome:02x}");
    }
}

#[test]
fn the_columns_are_those_of_the_rules() {
    assert_eq!(COLUMNS.len(), 72);
    assert_eq!(COLUMNS[..6], [7, 11, 13, 14, 19, 21]);
    assert_eq!(code::COLUMNS[..], COLUMNS[..]);
}

#[test]
fn all_syndromes_against_a_search_of_the_columns() {
    let mut counts = [0; 3];
    for syndrome in 0..=255 {
        let expected = rules::meaning(syndrome);
        assert_eq!(Answer::from(reading(syndrome)), expected, "{syndrome:02x}");
        match expected {
            Answer::Clean => counts[0] += 1,
            Answer::Corrected(_) => counts[1] += 1,
            _ => counts[2] += 1,
        }
    }
    assert_eq!(counts, [1, 72, 256 - 73]);
}

/// The bit that is named is the one whose inversion makes the cell right, and
/// where there is none the cell is uncorrectable: no column is looked at.
#[test]
fn all_syndromes_against_a_search_for_the_repair() {
    for data in PATTERNS {
        for syndrome in 0..=255 {
            let mut cell = right_cell(&data);
            cell[8] ^= syndrome;
            let expected = match rules::repairs(cell)[..] {
                [] if syndrome == 0 => Reading::Clean,
                [] => Reading::Uncorrectable,
                [bit] => Reading::Corrected(bit),
                _ => panic!("{syndrome:02x}: two bits have one column"),
            };
            assert_eq!(reading(syndrome), expected, "{syndrome:02x}");
            assert_eq!(code::read_cell(&cell).0, expected, "{syndrome:02x}");
        }
    }
}

/// A cell with any syndrome, through each call that decodes it.
#[test]
fn all_syndromes_through_calls() {
    for data in PATTERNS {
        for syndrome in 0..=255 {
            let expected = rules::meaning(syndrome);
            let mut cells = right_cell(&data);
            cells[8] ^= syndrome;
            let record = &mut switched_on();
            let answer = read(record, &cells, 0, &mut [0; 8]);
            assert_eq!(answer, Ok(Single(expected)), "{syndrome:02x}");
            let answer = write(record, &mut cells.clone(), 5, &[1]);
            assert_eq!(answer, Ok(Single(expected)), "{syndrome:02x}");
            let answer = scrub(record, &mut cells.clone(), 3);
            assert_eq!(answer, Ok(expected), "{syndrome:02x}");
        }
    }
}
