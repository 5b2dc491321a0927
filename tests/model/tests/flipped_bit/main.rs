//! "Corrected" names its flip bit: in the reading of a syndrome, in reads, short
//! writes, scrubs, beats of bursts and accesses of splits, in the marks of the
//! flat machine and in the lines that are printed.
//!
//! The cells are put together here, by the rules alone: a mistake in how the
//! model numbers the bits cannot be hidden by the same mistake in its flips.

mod bursts;
mod generated;
mod lines;
mod lists;
mod marks;
mod miscorrections;
mod rules;
mod single_calls;
mod splits;
mod syndromes;

use std::ops::Range;

use model::Record;

/// Doublewords of zeros, of ones, with one bit at either end, and mixed ones.
pub(crate) const PATTERNS: [[u8; 8]; 6] = [
    [0; 8],
    [0xFF; 8],
    [0x80, 0, 0, 0, 0, 0, 0, 0],
    [0, 0, 0, 0, 0, 0, 0, 0x01],
    [0x01, 0x23, 0x45, 0x67, 0x89, 0xAB, 0xCD, 0xEF],
    [0xA5, 0x5A, 0xF0, 0x0F, 0xCC, 0x33, 0xAA, 0x55],
];

/// Bank 0: MB 0. The cell of doubleword k is cell k.
pub(crate) fn switched_on() -> Record {
    let mut record = Record::fresh();
    record.write_register(0xA0, 1).unwrap();
    record.write_register(0xF2, 8).unwrap();
    record
}

/// Each flip bit, on each of the patterns.
pub(crate) fn each_flip() -> impl Iterator<Item = ([u8; 8], u8)> {
    let bits = |data| (0..72).map(move |bit| (data, bit));
    PATTERNS.into_iter().flat_map(bits)
}

/// MEM-2: the bytes of a doubleword that one access can have, eight among them.
pub(crate) fn parts() -> impl Iterator<Item = Range<usize>> {
    (0..8).flat_map(|start| (start + 1..=8).map(move |end| start..end))
}

/// MEM-17: how many bytes of a split can stand before an edge and how many
/// after it.
pub(crate) fn split_counts() -> impl Iterator<Item = (usize, usize)> {
    (1..8).flat_map(|front| (1..=8 - front).map(move |back| (front, back)))
}
