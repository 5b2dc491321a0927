//! What is lent: a few cells of all conditions, records that have addresses for
//! them, and those addresses.

use model::code::{self, CELL_BYTES, FLIP_BITS};
use model::gen::Rng;
use model::map::Layout;
use model::Record;

use crate::case::Case;
use crate::draw;

const MOST_CELLS: u32 = 12;

/// How often a record is drawn again because no address has a lent cell.
const REDRAWS: usize = 20;

/// A case without calls yet, and addresses of its cells and of those just past
/// the end of what is lent.
pub fn few_cells(rng: &mut Rng) -> (Case, Vec<u32>) {
    let count = rng.below(MOST_CELLS + 1);
    // The cells at and past the end of what is lent are asked for too.
    let numbers: Vec<u32> = (0..count + 2).collect();
    let record = if rng.percent(85) {
        record_with_cells(rng, &numbers)
    } else {
        draw::mostly_on(rng)
    };
    let mut cells = cells(rng, count);
    if rng.percent(40) {
        let length = cells.len().saturating_sub(1 + rng.below(8) as usize);
        cells.truncate(length);
    }
    let hot = draw::addresses_of_cells(&record, &numbers);
    let case = Case {
        record,
        cells,
        requests: Vec::new(),
    };
    (case, hot)
}

/// A record that has an address for one of the cells, if one is found.
fn record_with_cells(rng: &mut Rng, numbers: &[u32]) -> Record {
    let mut record = draw::mostly_on(rng);
    for _ in 0..REDRAWS {
        if !draw::addresses_of_cells(&record, numbers).is_empty() {
            break;
        }
        record = draw::mostly_on(rng);
    }
    record
}

/// A record that is ready, and the address of that cell.
pub fn record_with_cell(rng: &mut Rng, cell: u32) -> (Record, u32) {
    loop {
        let record = record_with_cells(rng, &[cell]);
        if let Some(&address) = draw::addresses_of_cells(&record, &[cell]).first() {
            return (record, address);
        }
    }
}

/// Mostly an address of a cell that is lent or nearly so.
pub fn hot_address(rng: &mut Rng, layout: Option<&Layout>, hot: &[u32]) -> u32 {
    if hot.is_empty() || rng.percent(10) {
        draw::address(rng, layout)
    } else {
        rng.pick(hot) + rng.below(8)
    }
}

/// Cells of all conditions.
pub fn cells(rng: &mut Rng, count: u32) -> Vec<u8> {
    (0..count).flat_map(|_| cell(rng)).collect()
}

/// Zero, any nine bytes, or random data with up to two bits inverted.
fn cell(rng: &mut Rng) -> [u8; CELL_BYTES] {
    match rng.below(8) {
        0 => [0; CELL_BYTES],
        1 => random(rng),
        2..=4 => flipped_cell(rng, 0),
        5 | 6 => flipped_cell(rng, 1),
        _ => flipped_cell(rng, 2),
    }
}

/// Random data with its check byte, and then up to two bits inverted: with none
/// the cell is clean, with one it can be corrected, with two it cannot.
pub fn flipped_cell(rng: &mut Rng, flips: usize) -> [u8; CELL_BYTES] {
    let mut cell = [0; CELL_BYTES];
    code::store_cell(&mut cell, &random(rng));
    let first = rng.below(u32::from(FLIP_BITS)) as u8;
    let other = 1 + rng.below(u32::from(FLIP_BITS) - 1) as u8;
    let bits = [first, (first + other) % FLIP_BITS];
    for bit in bits.into_iter().take(flips) {
        code::flip(&mut cell, bit);
    }
    cell
}

fn random<const COUNT: usize>(rng: &mut Rng) -> [u8; COUNT] {
    [0; COUNT].map(|_| rng.byte())
}
