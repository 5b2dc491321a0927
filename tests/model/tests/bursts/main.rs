//! Burst reads and burst writes: their beats, the error registers, refusals,
//! and comparisons with four single calls and with the flat machine.

mod lists;
mod order;
mod refusals;
mod reports;
mod single_calls;

use model::memory::{flip, write};
use model::{Answer, Answers, Record};

/// The line that the small tests use. In [`set_up`] it has cells 4 to 7.
pub(crate) const LINE: u32 = 0x20;

/// MEM-14, written out: the doublewords of the beats for each start in a line.
pub(crate) const ORDERS: [[u32; 4]; 4] = [[0, 1, 2, 3], [1, 2, 3, 0], [2, 3, 0, 1], [3, 0, 1, 2]];

/// Four cells of EX-1, so that their check bytes are known.
pub(crate) const KNOWN_CELLS: [[u8; 9]; 4] = [
    [0x80, 0, 0, 0, 0, 0, 0, 0, 0x07],
    [0xFF, 0, 0, 0, 0, 0, 0, 0, 0x06],
    [0, 0, 0, 0, 0, 0, 0, 0x01, 0x57],
    [0xFF, 0xFF, 0xFF, 0xFF, 0xFF, 0xFF, 0xFF, 0xFF, 0xD8],
];

/// Addresses of the beats of a burst at an aligned address.
pub(crate) fn beats(address: u32) -> [u32; 4] {
    let line = address & !31;
    ORDERS[(address - line) as usize / 8].map(|doubleword| line + 8 * doubleword)
}

/// Bank 0: MB 0, all errors enabled, and the cells of three lines.
pub(crate) fn set_up() -> (Record, Vec<u8>) {
    let mut record = Record::fresh();
    for (offset, value) in [(0xA0, 1), (0xC0, 0x24), (0xC4, 0x08), (0xF2, 8)] {
        record.write_register(offset, value).unwrap();
    }
    (record, vec![0; 9 * 12])
}

/// The same; each doubleword of the line takes that many flips.
pub(crate) fn with_flips(flips: [u8; 4]) -> (Record, Vec<u8>) {
    let (mut record, mut cells) = set_up();
    for (n, flips) in (0..4).zip(flips) {
        let address = LINE + 8 * n;
        write(&mut record, &mut cells, address, &[n as u8 + 1; 8]).unwrap();
        for bit in [0, 64].into_iter().take(flips.into()) {
            flip(&record, &mut cells, address, bit).unwrap();
        }
    }
    (record, cells)
}

/// The answer of a read or write inside a doubleword.
pub(crate) fn single(answers: Answers) -> Answer {
    match answers {
        Answers::Single(answer) => answer,
        Answers::Split(_) => panic!("a doubleword was split: {answers:?}"),
    }
}

pub(crate) fn error_address(record: &Record) -> u32 {
    u32::from_le_bytes([0xC8, 0xC9, 0xCA, 0xCB].map(|offset| record.at(offset)))
}

/// Counter and detections.
pub(crate) fn reported(record: &Record) -> [u8; 3] {
    [0xB8, 0xC1, 0xC5].map(|offset| record.at(offset))
}
