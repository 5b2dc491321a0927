//! Banks with thirteen row bits: which lengths have them, their places and cells,
//! the way back, alike, and calls that run through them.
//!
//! Such a bank has 8192 rows of 4096 columns, 2^25 cells in all. A row is 32 KB
//! and a megabyte 32 rows, so megabyte m begins with row 32 * (m mod 256), and
//! at a multiple of 256 MB the rows begin again. With twelve row bits there are
//! 4096 rows and 2^24 cells, and the rows begin again at multiples of 128 MB.

mod alike;
mod corners;
mod lengths;
mod lent;
mod lines;
mod lists;
mod random;
mod several;
mod way_back;

use model::map::{map, Column, Place, Row};
use model::{Record, Refusal};

/// A bank that is to be enabled: its number, first and last MB, and row code.
pub(crate) type Card = (u8, u32, u32, u8);

/// A record that is off, with these banks written through the registers.
pub(crate) fn draft(cards: &[Card]) -> Record {
    let mut record = Record::fresh();
    for &(n, start_mb, last_mb, code) in cards {
        let row_codes = 0xF0 + n / 4;
        let [start, start_extended, ..] = start_mb.to_le_bytes();
        let [last, last_extended, ..] = last_mb.to_le_bytes();
        for (offset, value) in [
            (0x80 + n, start),
            (0x88 + n, start_extended),
            (0x90 + n, last),
            (0x98 + n, last_extended),
            (0xA0, record.at(0xA0) | 1 << n),
            (row_codes, record.at(row_codes) | code << (2 * (n % 4))),
        ] {
            record.write_register(offset, value).unwrap();
        }
    }
    record
}

/// The same switched on, or the refusal, which has changed nothing.
pub(crate) fn switch_on(cards: &[Card]) -> Result<Record, Refusal> {
    let off = draft(cards);
    let mut record = off;
    let switched = record.write_register(0xF2, 8);
    if switched.is_err() {
        assert_eq!(record, off, "{cards:?}");
    }
    switched.map(|()| record)
}

/// The same, accepted.
pub(crate) fn on(cards: &[Card]) -> Record {
    switch_on(cards).unwrap()
}

/// The address of a megabyte's first byte.
pub(crate) const fn mb(megabyte: u32) -> u32 {
    megabyte << 20
}

/// The address of a megabyte's last doubleword.
pub(crate) const fn end_of(megabyte: u32) -> u32 {
    (megabyte << 20) + 0xF_FFF8
}

/// Row, column and cell number that an address has in bank n.
pub(crate) fn has_place(record: &Record, address: u32, n: u8, place: (u32, u32, u32)) {
    let (row, column, cell) = place;
    let expected = Place {
        bank: n,
        row: Row(row),
        column: Column(column),
        cell,
    };
    let found = map(record, address);
    assert_eq!(found, Ok(Some(expected)), "{address:08x}");
}

/// The largest set-up: seven banks of 129 MB and after them one of 121 MB, from
/// MB 0 to MB 1023. 7 * 2^25 + 2^24 cells.
pub(crate) const LARGEST: [Card; 8] = [
    (0, 0, 128, 3),
    (1, 129, 257, 3),
    (2, 258, 386, 3),
    (3, 387, 515, 3),
    (4, 516, 644, 3),
    (5, 645, 773, 3),
    (6, 774, 902, 3),
    (7, 903, 1023, 3),
];

/// 15 * 2^24
pub(crate) const LARGEST_CELLS: usize = 251_658_240;
