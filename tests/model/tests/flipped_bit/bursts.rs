//! MEM-15: the bits that the beats of a burst name.

use model::memory::{burst_read, burst_write};
use model::Answer::{self, Clean, Corrected, Stored, Uncorrectable};

use crate::rules::{inverted, right_cell, spoilt};
use crate::{each_flip, switched_on, PATTERNS};

/// The line of the tests has cells 4 to 7.
const LINE: u32 = 0x20;

/// MEM-14, written out: the doublewords of the beats for each start in a line.
const ORDERS: [[usize; 4]; 4] = [[0, 1, 2, 3], [1, 2, 3, 0], [2, 3, 0, 1], [3, 0, 1, 2]];

fn lent(line: [[u8; 9]; 4]) -> Vec<u8> {
    [[[0; 9]; 4], line, [[0; 9]; 4]].as_flattened().concat()
}

/// A burst read from each start; `line` has the answers by doubleword.
fn burst_reads(cells: &[u8], line: [Answer; 4]) {
    for order in ORDERS {
        let mut record = switched_on();
        let address = LINE + 8 * order[0] as u32;
        let answers = burst_read(&mut record, cells, address, &mut [0; 32]);
        assert_eq!(answers, Ok(order.map(|n| line[n])), "{address:02x}");
        let is_corrected = |answer: &&Answer| matches!(answer, Corrected(_));
        let corrected = line.iter().filter(is_corrected).count();
        assert_eq!(usize::from(record.at(0xB8)), corrected);
    }
}

/// One wrong bit in a line, in each doubleword and so in each beat.
#[test]
fn one_beat_names_the_bit() {
    for (data, bit) in each_flip() {
        for n in 0..4 {
            let mut line = [right_cell(&data); 4];
            let mut answers = [Clean; 4];
            line[n] = spoilt(&data, bit);
            answers[n] = Corrected(bit);
            burst_reads(&lent(line), answers);
        }
    }
}

/// Four wrong bits: each beat names its own.
#[test]
fn each_beat_names_its_own_bit() {
    for (data, bit) in each_flip() {
        for steps in [[0, 1, 2, 3], [0, 8, 64, 7], [0, 0, 36, 36], [71, 40, 9, 0]] {
            let bits = steps.map(|step| (bit + step) % 72);
            let line = bits.map(|bit| spoilt(&data, bit));
            burst_reads(&lent(line), bits.map(Corrected));
        }
    }
}

/// A beat beside uncorrectable ones.
#[test]
fn a_beat_names_its_bit_beside_lost_doublewords() {
    for (data, bit) in each_flip() {
        let other = (bit + 1) % 72;
        let lost = inverted(spoilt(&data, bit), other);
        let line = [lost, spoilt(&data, bit), lost, spoilt(&data, other)];
        let answers = [
            Uncorrectable,
            Corrected(bit),
            Uncorrectable,
            Corrected(other),
        ];
        burst_reads(&lent(line), answers);
    }
}

/// MEM-13: a beat of a burst write stores eight bytes.
#[test]
fn a_burst_write_names_no_bit() {
    for bit in 0..72 {
        for order in ORDERS {
            let line = [0, 1, 2, 3].map(|n| spoilt(&PATTERNS[n], bit));
            let mut cells = lent(line);
            let address = LINE + 8 * order[0] as u32;
            let answers = burst_write(&mut switched_on(), &mut cells, address, &[0x3C; 32]);
            assert_eq!(answers, Ok([Stored; 4]));
            assert_eq!(cells, lent([right_cell(&[0x3C; 8]); 4]));
        }
    }
}
