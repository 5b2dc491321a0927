//! MEM-18: the bits that the accesses of a split name.

use model::memory::{read, write};
use model::Answer::{self, Clean, Corrected, NoBank, Uncorrectable};
use model::Answers::Split;

use crate::rules::{inverted, right_cell, spoilt};
use crate::{each_flip, split_counts, switched_on};

/// Between the doublewords of cells 1 and 2.
const EDGE: u32 = 16;

fn lent(pair: [[u8; 9]; 2]) -> Vec<u8> {
    [[0; 9], pair[0], pair[1], [0; 9]].concat()
}

/// All split reads and writes over the edge have these answers.
fn all_splits(pair: [[u8; 9]; 2], answers: [Answer; 2]) {
    let is_corrected = |answer: &&Answer| matches!(answer, Corrected(_));
    let corrected = answers.iter().filter(is_corrected).count();
    for (front, back) in split_counts() {
        let cells = lent(pair);
        let address = EDGE - front as u32;
        let mut record = switched_on();
        let mut buffer = vec![0; front + back];
        let read = read(&mut record, &cells, address, &mut buffer);
        assert_eq!(read, Ok(Split(answers)), "{front}, {back}");
        let written = write(&mut record, &mut cells.clone(), address, &buffer);
        assert_eq!(written, Ok(Split(answers)), "{front}, {back}");
        assert_eq!(usize::from(record.at(0xB8)), 2 * corrected);
    }
}

#[test]
fn one_access_names_the_bit() {
    for (data, bit) in each_flip() {
        let (right, wrong) = (right_cell(&data), spoilt(&data, bit));
        all_splits([wrong, right], [Corrected(bit), Clean]);
        all_splits([right, wrong], [Clean, Corrected(bit)]);
    }
}

#[test]
fn each_access_names_its_own_bit() {
    for (data, bit) in each_flip() {
        for other in [bit, 71 - bit, (bit + 1) % 72, (bit + 8) % 72] {
            let pair = [spoilt(&data, bit), spoilt(&data, other)];
            all_splits(pair, [Corrected(bit), Corrected(other)]);
        }
    }
}

#[test]
fn an_access_names_its_bit_beside_a_lost_doubleword() {
    for (data, bit) in each_flip() {
        let wrong = spoilt(&data, bit);
        let lost = inverted(wrong, (bit + 5) % 72);
        all_splits([wrong, lost], [Corrected(bit), Uncorrectable]);
        all_splits([lost, wrong], [Uncorrectable, Corrected(bit)]);
    }
}

/// Out of MB 0, and into MB 1 where that is the only one.
#[test]
fn an_access_names_its_bit_beside_no_bank() {
    let into = &mut switched_on();
    into.write_register(0xF2, 0).unwrap();
    for (offset, value) in [(0x80, 1), (0x90, 1), (0xF2, 8)] {
        into.write_register(offset, value).unwrap();
    }
    let out = &mut switched_on();
    let mut cells = vec![0; 9 << 17];
    for (data, bit) in each_flip() {
        let wrong = spoilt(&data, bit);
        cells[..9].copy_from_slice(&wrong);
        let answers = read(into, &cells, 0x000F_FFFE, &mut [0; 5]);
        assert_eq!(answers, Ok(Split([NoBank, Corrected(bit)])));
        let answers = write(into, &mut cells, 0x000F_FFFF, &[0; 2]);
        assert_eq!(answers, Ok(Split([NoBank, Corrected(bit)])));
        cells[(9 << 17) - 9..].copy_from_slice(&wrong);
        let answers = read(out, &cells, 0x000F_FFFE, &mut [0; 5]);
        assert_eq!(answers, Ok(Split([Corrected(bit), NoBank])));
        let answers = write(out, &mut cells, 0x000F_FFFF, &[0; 2]);
        assert_eq!(answers, Ok(Split([Corrected(bit), NoBank])));
    }
}

/// MEM-5: both cells are right afterwards, and name nothing more.
#[test]
fn a_split_write_leaves_nothing_to_name() {
    for (data, bit) in each_flip() {
        let other = (3 * bit + 7) % 72;
        let mut cells = lent([spoilt(&data, bit), spoilt(&data, other)]);
        let mut record = switched_on();
        let bytes = [0x3C; 5];
        let answers = write(&mut record, &mut cells, EDGE - 3, &bytes);
        assert_eq!(answers, Ok(Split([Corrected(bit), Corrected(other)])));
        let (mut lower, mut upper) = (data, data);
        lower[5..].fill(0x3C);
        upper[..2].fill(0x3C);
        assert_eq!(cells, lent([right_cell(&lower), right_cell(&upper)]));
        let answers = write(&mut record, &mut cells, EDGE - 3, &bytes);
        assert_eq!(answers, Ok(Split([Clean; 2])));
    }
}
