//! Places that are worth a split or a burst, and random splits.

use super::{setups, Rng};
use crate::map::{Bank, Layout};

/// The address of a doubleword at whose end something can change: the bank, the
/// megabyte, the run of cells, or the address space, which ends or goes on. If
/// the banks have no such place, it is in the first megabyte of one of them.
pub fn edge(rng: &mut Rng, layout: &Layout) -> u32 {
    let banks: Vec<Bank> = layout.enabled().map(|(_, bank)| *bank).collect();
    let bank = rng.pick(&banks);
    let inner = bank.last_mb - bank.start_mb;
    let megabyte = match rng.below(10) {
        0 | 1 => Some(bank.last_mb + 1),
        2 | 3 => (bank.start_mb > 0).then_some(bank.start_mb),
        4 => (inner > 0).then(|| bank.last_mb - rng.below(inner)),
        5 => first_cell_again(&bank),
        6 | 7 => meeting(rng, &banks),
        8 => return rng.pick(&[0xFFFF_FFF0, 0xFFFF_FFF8]),
        _ => None,
    };
    let behind = match megabyte {
        Some(megabyte) => megabyte << 20,
        None => (bank.start_mb << 20) + 8 * (1 + rng.below((1 << 17) - 1)),
    };
    behind - 8
}

/// MAP-3: the megabyte of the span in which the cells of the bank begin again
/// with its first.
fn first_cell_again(bank: &Bank) -> Option<u32> {
    let megabytes = bank.cells() >> 17;
    let multiple = bank.last_mb - bank.last_mb % megabytes;
    (multiple > bank.start_mb).then_some(multiple)
}

/// The start of a bank that follows directly on another.
fn meeting(rng: &mut Rng, banks: &[Bank]) -> Option<u32> {
    let starts: Vec<u32> = banks.iter().map(|bank| bank.start_mb).collect();
    let ends = banks.iter().map(|bank| bank.last_mb + 1);
    let meetings: Vec<u32> = ends.filter(|end| starts.contains(end)).collect();
    (!meetings.is_empty()).then(|| rng.pick(&meetings))
}

/// MEM-17: address and count of a split over the end of a doubleword.
pub fn split(rng: &mut Rng, doubleword: u32) -> (u32, usize) {
    let start = 1 + rng.below(7);
    let count = 9 - start + rng.below(start);
    (doubleword + start, count as usize)
}

/// Lines where a burst that does not wrap, or wraps elsewhere, is found out: the
/// first and the last line of a bank, a line just outside of it, and one at an
/// end of the address space. Two more are anywhere.
pub fn lines(rng: &mut Rng, layout: &Layout) -> [u32; 6] {
    let banks: Vec<_> = layout.enabled().map(|(_, bank)| *bank).collect();
    let bank = rng.pick(&banks);
    let first = bank.start_mb << 20;
    let after = (bank.last_mb + 1) << 20;
    [
        first,
        after - 32,
        rng.pick(&[first.wrapping_sub(32), after]),
        rng.pick(&[0xFFFF_FFE0, 0xFFFF_FFC0, 0]),
        setups::address(rng, layout) & !31,
        setups::address(rng, layout) & !31,
    ]
}
