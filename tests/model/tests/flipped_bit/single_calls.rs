//! MEM-3, MEM-5, MEM-8: the bit that reads, short writes and scrubs name.

use model::memory::{flip, read, scrub, write};
use model::Answer::{Clean, Corrected, Stored, Uncorrectable};
use model::Answers::Single;

use crate::rules::{inverted, right_cell, spoilt};
use crate::{each_flip, parts, switched_on, PATTERNS};

/// The doubleword of the tests has cell 1, between two that are right.
const ADDRESS: u32 = 8;

fn lent(cell: [u8; 9]) -> Vec<u8> {
    [[0; 9], cell, [0; 9]].concat()
}

/// Whatever part of the doubleword is read, wherever in it the bit is.
#[test]
fn a_read_names_the_bit() {
    for (data, bit) in each_flip() {
        let cells = lent(spoilt(&data, bit));
        for part in parts() {
            let mut record = switched_on();
            let mut buffer = vec![0; part.len()];
            let address = ADDRESS + part.start as u32;
            let answer = read(&mut record, &cells, address, &mut buffer);
            assert_eq!(answer, Ok(Single(Corrected(bit))), "{part:?}");
            assert_eq!(buffer, data[part]);
            assert_eq!(record.at(0xB8), 1);
        }
    }
}

/// The same read once more has the same answer.
#[test]
fn a_read_names_the_bit_again() {
    for (data, bit) in each_flip() {
        let cells = lent(spoilt(&data, bit));
        let mut record = switched_on();
        for _ in 0..3 {
            let answer = read(&mut record, &cells, ADDRESS, &mut [0; 8]);
            assert_eq!(answer, Ok(Single(Corrected(bit))));
        }
    }
}

/// A bit in the bytes that are written anew is named all the same.
#[test]
fn a_short_write_names_the_bit() {
    for (data, bit) in each_flip() {
        for part in parts().filter(|part| part.len() < 8) {
            let mut cells = lent(spoilt(&data, bit));
            let mut record = switched_on();
            let address = ADDRESS + part.start as u32;
            let bytes = vec![0x3C; part.len()];
            let answer = write(&mut record, &mut cells, address, &bytes);
            assert_eq!(answer, Ok(Single(Corrected(bit))), "{part:?}");
            let mut merged = data;
            merged[part].copy_from_slice(&bytes);
            assert_eq!(cells, lent(right_cell(&merged)));
            let answer = write(&mut record, &mut cells, address, &bytes);
            assert_eq!(answer, Ok(Single(Clean)));
            assert_eq!(record.at(0xB8), 1);
        }
    }
}

/// The bit that was wrong before the repair.
#[test]
fn a_scrub_names_the_bit() {
    for (data, bit) in each_flip() {
        for address in ADDRESS..ADDRESS + 8 {
            let mut cells = lent(spoilt(&data, bit));
            let mut record = switched_on();
            let answer = scrub(&mut record, &mut cells, address);
            assert_eq!(answer, Ok(Corrected(bit)), "{address:02x}");
            assert_eq!(cells, lent(right_cell(&data)));
            assert_eq!(scrub(&mut record, &mut cells, address), Ok(Clean));
            assert_eq!(record.at(0xB8), 1);
        }
    }
}

/// MEM-4: nothing old is looked at.
#[test]
fn a_full_write_names_no_bit() {
    for (data, bit) in each_flip() {
        let mut cells = lent(spoilt(&data, bit));
        let answer = write(&mut switched_on(), &mut cells, ADDRESS, &[0x3C; 8]);
        assert_eq!(answer, Ok(Single(Stored)));
        assert_eq!(cells, lent(right_cell(&[0x3C; 8])));
    }
}

/// MEM-7: the bit of a flip is the bit that is named later.
#[test]
fn a_flip_inverts_the_bit_that_is_named() {
    for (data, bit) in each_flip() {
        let mut cells = lent(right_cell(&data));
        flip(&switched_on(), &mut cells, ADDRESS + 5, bit).unwrap();
        assert_eq!(cells, lent(spoilt(&data, bit)), "{bit}");
        let answer = scrub(&mut switched_on(), &mut cells, ADDRESS);
        assert_eq!(answer, Ok(Corrected(bit)));
    }
}

/// Two wrong bits name neither, and the same bit twice is right again.
#[test]
fn two_flips_name_no_bit() {
    for data in PATTERNS {
        for one in 0..72 {
            for other in 0..72 {
                let cells = lent(inverted(spoilt(&data, one), other));
                let expected = if one == other { Clean } else { Uncorrectable };
                let answer = read(&mut switched_on(), &cells, ADDRESS, &mut [0; 8]);
                assert_eq!(answer, Ok(Single(expected)), "{one}, {other}");
            }
        }
    }
}

/// Of two flips with a scrub or a short write between them, the later is named.
#[test]
fn the_bit_is_not_that_of_an_earlier_flip() {
    let mut record = switched_on();
    let mut cells = lent(right_cell(&PATTERNS[4]));
    for step in 1..72 {
        for turn in 0..72 {
            let bit = (turn * step % 72) as u8;
            flip(&record, &mut cells, ADDRESS, bit).unwrap();
            let answer = read(&mut record, &cells, ADDRESS + 2, &mut [0; 3]);
            assert_eq!(answer, Ok(Single(Corrected(bit))));
            if turn % 2 == 0 {
                let answer = scrub(&mut record, &mut cells, ADDRESS);
                assert_eq!(answer, Ok(Corrected(bit)));
            } else {
                let answer = write(&mut record, &mut cells, ADDRESS, &[0x77]);
                assert_eq!(answer, Ok(Single(Corrected(bit))));
            }
        }
    }
}
