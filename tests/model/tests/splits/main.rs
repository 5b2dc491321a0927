//! Splits: reads and writes that run into the next doubleword. Their accesses,
//! the error registers, refusals, and comparisons with two single calls and with
//! the flat machine.

mod accesses;
mod banks;
mod lines;
mod lists;
mod refusals;
mod reports;
mod single_calls;

use model::memory::{flip, write};
use model::Record;

/// The doublewords that the small tests use. In [`set_up`] they have cells 4
/// and 5.
pub(crate) const LOWER: u32 = 0x20;
pub(crate) const UPPER: u32 = 0x28;

/// MEM-17, written out: how many bytes of a split can stand before an edge and
/// how many after it.
pub(crate) fn splits() -> impl Iterator<Item = (u32, u32)> {
    (1..=7).flat_map(|before| (1..=8 - before).map(move |behind| (before, behind)))
}

/// Bank 0: MB 0, all errors enabled, and twelve cells.
pub(crate) fn set_up() -> (Record, Vec<u8>) {
    let mut record = Record::fresh();
    for (offset, value) in [(0xA0, 1), (0xC0, 0x24), (0xC4, 0x08), (0xF2, 8)] {
        record.write_register(offset, value).unwrap();
    }
    (record, vec![0; 9 * 12])
}

/// The same; each byte is its own address.
pub(crate) fn with_addresses() -> (Record, Vec<u8>) {
    let (mut record, mut cells) = set_up();
    for address in (0..0x60).step_by(8) {
        let bytes: Vec<u8> = (address as u8..).take(8).collect();
        write(&mut record, &mut cells, address, &bytes).unwrap();
    }
    (record, cells)
}

/// The same as [`set_up`]; both doublewords hold ones and twos and take that
/// many flips. The first flip is in the byte beside the edge.
pub(crate) fn with_flips(flips: [usize; 2]) -> (Record, Vec<u8>) {
    let (mut record, mut cells) = set_up();
    let doublewords = [(LOWER, [1; 8], [63, 64]), (UPPER, [2; 8], [0, 64])];
    for ((address, bytes, bits), flips) in doublewords.into_iter().zip(flips) {
        write(&mut record, &mut cells, address, &bytes).unwrap();
        for bit in bits.into_iter().take(flips) {
            flip(&record, &mut cells, address, bit).unwrap();
        }
    }
    (record, cells)
}

/// Every mixture of flips in both doublewords that [`with_flips`] makes.
pub(crate) fn mixtures() -> impl Iterator<Item = [usize; 2]> {
    (0..9).map(|mixture| [mixture / 3, mixture % 3])
}

/// Cell k of the lent bytes.
pub(crate) fn cell(cells: &[u8], k: usize) -> &[u8] {
    &cells[9 * k..9 * k + 9]
}

pub(crate) fn error_address(record: &Record) -> u32 {
    u32::from_le_bytes([0xC8, 0xC9, 0xCA, 0xCB].map(|offset| record.at(offset)))
}

/// Counter and detections.
pub(crate) fn reported(record: &Record) -> [u8; 3] {
    [0xB8, 0xC1, 0xC5].map(|offset| record.at(offset))
}
