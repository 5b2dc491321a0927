//! Splits: reads and writes that run into the next doubleword (MEM-17). Each is
//! two accesses, the lower address first.
//!
//! They are not inlined in the single calls: an access inside a doubleword is a
//! baseline for speed and does not carry them along.

use std::ops::Range;

use crate::answers::Answers;
use crate::map::Layout;
use crate::memory;
use crate::record::Record;
use crate::refusal::Refusal;

/// The two accesses of a split that is accepted.
struct Split {
    /// Where the first begins in its doubleword, which it takes to the end.
    start: usize,
    /// MEM-17: the address of the second, which is reported with it.
    next: u32,
    /// The ranges of both cells; none without a bank.
    cells: [Option<Range<usize>>; 2],
}

/// MEM-18: a read whose bytes lie in two doublewords.
#[inline(never)]
pub(crate) fn read(
    record: &mut Record,
    cells: &[u8],
    layout: &Layout,
    address: u32,
    buffer: &mut [u8],
) -> Result<Answers, Refusal> {
    let split = judge(layout, cells.len(), address)?;
    let [lower, upper] = split.cells;
    let (front, back) = buffer.split_at_mut(8 - split.start);
    let first = memory::read_part(cells, lower, split.start..8, front);
    memory::report(record, first, address);
    let second = memory::read_part(cells, upper, 0..back.len(), back);
    memory::report(record, second, split.next);
    Ok(Answers::Split([first, second]))
}

/// MEM-17, MEM-18: a write whose bytes lie in two doublewords. Neither access
/// has eight of them, so both correct, merge and store (MEM-5).
#[inline(never)]
pub(crate) fn write(
    record: &mut Record,
    cells: &mut [u8],
    layout: &Layout,
    address: u32,
    bytes: &[u8],
) -> Result<Answers, Refusal> {
    let split = judge(layout, cells.len(), address)?;
    let [lower, upper] = split.cells;
    let (front, back) = bytes.split_at(8 - split.start);
    let first = memory::write_part(cells, lower, split.start..8, front);
    memory::report(record, first, address);
    let second = memory::write_part(cells, upper, 0..back.len(), back);
    memory::report(record, second, split.next);
    Ok(Answers::Split([first, second]))
}

/// MEM-16, REF-104: judges both accesses, by 7 and then by 9, before either
/// changes anything. The call has passed 5 and 6 by then. Inlined by name, as
/// are the functions that single calls share.
#[inline(always)]
fn judge(layout: &Layout, lent: usize, address: u32) -> Result<Split, Refusal> {
    let start = address % 8;
    // REF-7: a split passes the last address exactly if no doubleword follows.
    let next = address
        .checked_add(8 - start)
        .ok_or(Refusal::PassesLastAddress)?;
    let lower = memory::lent_cell(layout, lent, address)?;
    let upper = memory::lent_cell(layout, lent, next)?;
    Ok(Split {
        start: start as usize,
        next,
        cells: [lower, upper],
    })
}
