//! Three wrong bits can look like a single one. What is named is then the bit of
//! the syndrome (ECC-6), which is none of the three.

use model::lines::run;
use model::memory::{burst_read, flip, read, scrub, write};
use model::Answer::{self, Clean, Corrected, Uncorrectable};
use model::Answers::{Single, Split};

use crate::rules::{self, inverted, right_cell, COLUMNS};
use crate::{switched_on, PATTERNS};

/// Three flips of a doubleword of zeros, the bit that they look like, and the
/// bytes that are taken for right. Worked on paper by the columns.
const WORKED: [([u8; 3], u8, [u8; 8]); 8] = [
    // 01, 02 and 04 make 07.
    ([64, 65, 66], 0, [0x80, 0, 0, 0, 0, 0, 0, 0]),
    // 07, 0B and 0D make 01: the data stay wrong.
    ([0, 1, 2], 64, [0xE0, 0, 0, 0, 0, 0, 0, 0]),
    // 07, 0B and 01 make 0D.
    ([0, 1, 64], 2, [0xE0, 0, 0, 0, 0, 0, 0, 0]),
    // 07, 1F and 01 make 19, the eighth number with three ones.
    ([0, 56, 64], 7, [0x81, 0, 0, 0, 0, 0, 0, 0x80]),
    // 20, 40 and 80 make E0.
    ([69, 70, 71], 55, [0, 0, 0, 0, 0, 0, 0x01, 0]),
    // E0, 40 and 80 make 20.
    ([55, 70, 71], 69, [0, 0, 0, 0, 0, 0, 0x01, 0]),
    // 57, 01 and 02 make 54: 43, 45, 46, 49, 4A, 4C, 51 and 52 are before it,
    // and 43 is the column of bit 20.
    ([63, 64, 65], 28, [0, 0, 0, 0x08, 0, 0, 0, 0x01]),
    // 07, 08 and 10 make 1F.
    ([0, 67, 68], 56, [0x80, 0, 0, 0, 0, 0, 0, 0x80]),
];

/// Cells 0 to 3 with zeros, after three flips in cell 1.
fn flipped(bits: [u8; 3]) -> Vec<u8> {
    let mut cells = vec![0; 36];
    for bit in bits {
        flip(&switched_on(), &mut cells, 8, bit).unwrap();
    }
    cells
}

#[test]
fn three_flips_name_the_bit_of_the_syndrome() {
    for (bits, named, taken) in WORKED {
        let cells = flipped(bits);
        let mut buffer = [0; 8];
        let answer = read(&mut switched_on(), &cells, 8, &mut buffer);
        assert_eq!(answer, Ok(Single(Corrected(named))), "{bits:?}");
        assert_eq!(buffer, taken, "{bits:?}");
        assert_eq!(cells, flipped(bits));
    }
}

/// The wrong bytes are stored as right ones, and nothing is named any more.
#[test]
fn a_scrub_stores_what_it_took_for_right() {
    for (bits, named, taken) in WORKED {
        let mut cells = flipped(bits);
        let answer = scrub(&mut switched_on(), &mut cells, 12);
        assert_eq!(answer, Ok(Corrected(named)), "{bits:?}");
        assert_eq!(cells[9..18], right_cell(&taken));
        assert_eq!(scrub(&mut switched_on(), &mut cells, 12), Ok(Clean));
    }
}

#[test]
fn a_short_write_merges_into_what_it_took_for_right() {
    for (bits, named, taken) in WORKED {
        let mut cells = flipped(bits);
        let answer = write(&mut switched_on(), &mut cells, 10, &[0x99]);
        assert_eq!(answer, Ok(Single(Corrected(named))), "{bits:?}");
        let mut merged = taken;
        merged[2] = 0x99;
        assert_eq!(cells[9..18], right_cell(&merged));
    }
}

#[test]
fn beats_and_accesses_of_splits_name_the_same_bit() {
    for (bits, named, _) in WORKED {
        let record = &mut switched_on();
        let mut cells = flipped(bits);
        let named = Corrected(named);
        let answers = burst_read(record, &cells, 0x18, &mut [0; 32]);
        assert_eq!(answers, Ok([Clean, Clean, named, Clean]), "{bits:?}");
        let answers = read(record, &cells, 7, &mut [0; 2]);
        assert_eq!(answers, Ok(Split([Clean, named])), "{bits:?}");
        let answers = write(record, &mut cells, 15, &[0; 2]);
        assert_eq!(answers, Ok(Split([named, Clean])), "{bits:?}");
    }
}

#[test]
fn the_line_prints_the_bit_of_the_syndrome() {
    let input = "c,a0,01\nc,f2,08\nf,00000000,64\nf,00000000,65\nf,00000000,66\n\
                 r,00000000,8\nf,00000000,71\nr,00000000,8\nf,00000000,71\ns,00000000\n\
                 r,00000000,8\n";
    let expected = "c,0\nc,0\nf,0\nf,0\nf,0\nr,0,c,0,8000000000000000\nf,0\n\
                    r,0,u,0000000000000000\nf,0\ns,0,c,0\nr,0,n,8000000000000000\n";
    let mut output = Vec::new();
    run(input.as_bytes(), &mut output).unwrap();
    assert_eq!(String::from_utf8(output).unwrap(), expected);
}

/// 1F, 01 and 80 make 9E, which is no column; nor is 7F, of 1F, 20 and 40.
#[test]
fn three_flips_can_be_uncorrectable() {
    for bits in [[56, 64, 71], [56, 69, 70]] {
        let answer = read(&mut switched_on(), &flipped(bits), 8, &mut [0; 8]);
        assert_eq!(answer, Ok(Single(Uncorrectable)), "{bits:?}");
    }
}

/// All sets of three bits against the columns; never one of the three is named.
#[test]
fn every_three_flips() {
    let mut kinds = [0; 2];
    for one in 0..72 {
        for other in 0..one {
            for third in 0..other {
                let bits = [one, other, third];
                let syndrome = bits.iter().fold(0, |s, &bit| s ^ COLUMNS[bit as usize]);
                kinds[usize::from(names(bits, syndrome))] += 1;
            }
        }
    }
    assert_eq!(kinds, [25_476, 34_164]);
}

/// Checks the answer to three wrong bits. True if they look like a single one.
fn names(bits: [u8; 3], syndrome: u8) -> bool {
    let data = PATTERNS[usize::from(bits[0]) % PATTERNS.len()];
    let cells = bits.into_iter().fold(right_cell(&data), inverted);
    let expected: Answer = rules::meaning(syndrome);
    let answer = read(&mut switched_on(), &cells, 0, &mut [0; 8]);
    assert_eq!(answer, Ok(Single(expected)), "{bits:?}");
    match expected {
        Corrected(bit) => {
            assert!(!bits.contains(&bit), "{bits:?}");
            true
        }
        _ => false,
    }
}
