//! From address to cell: the map and the way back. Judging the banks, and
//! whether two records are alike, have files of their own.

mod alike;
mod judge;

pub use alike::{alike, alike_exhaustive};
pub use judge::{column_bits, judge, switched_on};

use crate::record::{Record, BANKS};
use crate::refusal::Refusal;

/// Doublewords in one MB.
const DOUBLEWORDS_PER_MB: u32 = 1 << 17;

/// MAP-5: a type of its own, as is [`Column`].
#[derive(Clone, Copy, Debug, PartialEq, Eq)]
pub struct Row(pub u32);

/// The other half of a place in a bank; see [`Row`].
#[derive(Clone, Copy, Debug, PartialEq, Eq)]
pub struct Column(pub u32);

/// What the map gives for an address that selects a bank.
#[derive(Clone, Copy, Debug, PartialEq, Eq)]
pub struct Place {
    pub bank: u8,
    pub row: Row,
    pub column: Column,
    pub cell: u32,
}

/// An enabled bank without a fault.
#[derive(Clone, Copy, Debug, PartialEq, Eq)]
pub struct Bank {
    pub start_mb: u32,
    pub last_mb: u32,
    pub row_bits: u32,
    pub column_bits: u32,
}

impl Bank {
    /// The bank's own 2^(R+C).
    pub fn cells(&self) -> u32 {
        1 << (self.row_bits + self.column_bits)
    }

    fn holds(&self, megabyte: u32) -> bool {
        self.start_mb <= megabyte && megabyte <= self.last_mb
    }

    fn meets(&self, other: &Bank) -> bool {
        self.start_mb <= other.last_mb && other.start_mb <= self.last_mb
    }
}

/// The banks of a record that switching on would accept; `None` where a bank
/// is off.
#[derive(Clone, Copy, Debug, PartialEq, Eq)]
pub struct Layout {
    pub banks: [Option<Bank>; BANKS as usize],
}

impl Layout {
    /// Enabled banks in ascending order.
    pub fn enabled(&self) -> impl Iterator<Item = (u8, &Bank)> {
        (0..BANKS)
            .zip(&self.banks)
            .filter_map(|(n, bank)| bank.as_ref().map(|bank| (n, bank)))
    }

    /// Cells of all enabled banks together. MAP-7: no more than 15 times 2^24, by
    /// seven banks of 129 MB and one of 121; there is no room for eight of 129.
    pub fn cells(&self) -> u32 {
        self.enabled().map(|(_, bank)| bank.cells()).sum()
    }

    /// MAP-2: the bank that an address selects.
    pub fn locate(&self, address: u32) -> Option<Place> {
        // MAP-6: the cells of the lower enabled banks come first.
        let mut lower_cells = 0;
        for (n, bank) in self.enabled() {
            if bank.holds(address >> 20) {
                return Some(place(n, bank, lower_cells, address));
            }
            lower_cells += bank.cells();
        }
        None
    }

    /// True if the span of bank n meets that of any lower enabled bank.
    fn meets_lower(&self, n: u8, bank: &Bank) -> bool {
        self.enabled()
            .take_while(|&(lower, _)| lower < n)
            .any(|(_, lower)| lower.meets(bank))
    }
}

/// MAP-3, MAP-4: w from the whole address, then row and column.
fn place(n: u8, bank: &Bank, lower_cells: u32, address: u32) -> Place {
    let w = address / 8 % bank.cells();
    let columns = 1 << bank.column_bits;
    Place {
        bank: n,
        row: Row(w / columns),
        column: Column(w % columns),
        cell: lower_cells + w,
    }
}

/// MAP-9: the map; `None` is "no bank".
pub fn map(record: &Record, address: u32) -> Result<Option<Place>, Refusal> {
    Ok(switched_on(record)?.locate(address))
}

/// BACK-1: the way back.
pub fn way_back(record: &Record, n: u8, row: Row, column: Column) -> Result<u32, Refusal> {
    let layout = switched_on(record)?;
    let bank = layout
        .banks
        .get(usize::from(n))
        .copied()
        .flatten()
        .ok_or(Refusal::NoSuchBank)?;
    if row.0 >= 1 << bank.row_bits || column.0 >= 1 << bank.column_bits {
        return Err(Refusal::RowOrColumnTooLarge);
    }
    find_doubleword(&bank, row, column).ok_or(Refusal::NoAddress)
}

/// Tries w in each stretch of 2^(R+C) doublewords that reaches into the span.
/// A span is no longer than one such stretch, so it touches at most two of them
/// and holds w at most once.
fn find_doubleword(bank: &Bank, row: Row, column: Column) -> Option<u32> {
    let w = row.0 * (1 << bank.column_bits) + column.0;
    let first = bank.start_mb * DOUBLEWORDS_PER_MB;
    let end = (bank.last_mb + 1) * DOUBLEWORDS_PER_MB;
    let lowest_multiple = first - first % bank.cells();
    (lowest_multiple..end)
        .step_by(bank.cells() as usize)
        .map(|multiple| multiple + w)
        .find(|doubleword| (first..end).contains(doubleword))
        .map(|doubleword| doubleword * 8)
}
