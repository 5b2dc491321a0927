//! Line bursts: a cache line is read or written in four beats.

use std::ops::Range;

use crate::answers::Answer;
use crate::map::{self, Layout};
use crate::memory;
use crate::record::Record;
use crate::refusal::Refusal;

/// MEM-13: the bytes of a cache line.
const LINE_BYTES: u32 = 32;

/// MEM-13: the bytes of a beat, which are those of a doubleword.
const BEAT_BYTES: usize = 8;

/// One beat of a burst that is accepted.
struct Beat {
    /// MEM-16: a beat is reported with its own address.
    address: u32,
    /// The range of its cell; none without a bank.
    cell: Option<Range<usize>>,
}

/// MEM-13: a burst read. Bytes and answers stand in the order of the beats.
pub fn burst_read(
    record: &mut Record,
    cells: &[u8],
    address: u32,
    buffer: &mut [u8],
) -> Result<[Answer; 4], Refusal> {
    let beats = judge(record, cells.len(), address, buffer.len())?;
    let mut answers = [Answer::NoBank; 4];
    let parts = buffer.chunks_exact_mut(BEAT_BYTES);
    for ((answer, beat), part) in answers.iter_mut().zip(beats).zip(parts) {
        *answer = memory::read_part(cells, beat.cell, 0..BEAT_BYTES, part);
        memory::report(record, *answer, beat.address);
    }
    Ok(answers)
}

/// MEM-13: a burst write. Bytes and answers stand in the order of the beats.
pub fn burst_write(
    record: &mut Record,
    cells: &mut [u8],
    address: u32,
    bytes: &[u8],
) -> Result<[Answer; 4], Refusal> {
    let beats = judge(record, cells.len(), address, bytes.len())?;
    let mut answers = [Answer::NoBank; 4];
    let parts = bytes.chunks_exact(BEAT_BYTES);
    for ((answer, beat), part) in answers.iter_mut().zip(beats).zip(parts) {
        *answer = memory::write_part(cells, beat.cell, 0..BEAT_BYTES, part);
        memory::report(record, *answer, beat.address);
    }
    Ok(answers)
}

/// MEM-16, REF-104: judges a burst whole, by 5, 19, 20 and 9 in this order, and
/// gives its beats. Nothing has been changed by then, so a refusal leaves
/// everything as it was.
fn judge(record: &Record, lent: usize, address: u32, count: usize) -> Result<[Beat; 4], Refusal> {
    let layout = map::switched_on(record)?;
    if !(address as usize).is_multiple_of(BEAT_BYTES) {
        return Err(Refusal::Misaligned);
    }
    if count != LINE_BYTES as usize {
        return Err(Refusal::NotCacheLine);
    }
    Ok([
        lent_beat(&layout, lent, beat_address(address, 0))?,
        lent_beat(&layout, lent, beat_address(address, 1))?,
        lent_beat(&layout, lent, beat_address(address, 2))?,
        lent_beat(&layout, lent, beat_address(address, 3))?,
    ])
}

/// The beat at an address, or refusal 9. Inlined by name: a result that is
/// spilled to the stack costs more than finding the cell.
#[inline(always)]
fn lent_beat(layout: &Layout, lent: usize, address: u32) -> Result<Beat, Refusal> {
    let cell = memory::lent_cell(layout, lent, address)?;
    Ok(Beat { address, cell })
}

/// MEM-14: the address of a beat. The sum is taken within the line, so it does
/// not overflow at the end of the address space.
fn beat_address(address: u32, beat: u32) -> u32 {
    let line = address / LINE_BYTES * LINE_BYTES;
    line + (address % LINE_BYTES + BEAT_BYTES as u32 * beat) % LINE_BYTES
}
