//! Memory calls on a record and lent cells, and what they do to the error
//! registers. Bursts and splits have files of their own.

use std::ops::Range;

pub use crate::answers::{Answer, Answers};
pub use crate::bursts::{burst_read, burst_write};

use crate::code::{self, Reading, CELL_BYTES, FLIP_BITS};
use crate::map::{self, Layout};
use crate::record::{offset::*, Record};
use crate::refusal::Refusal;
use crate::splits;

/// C0 and C1, bit 2: the single-bit counter reached its trigger.
const TRIGGER_BIT: u8 = 1 << 2;
/// C0 and C1, bit 5: no bank.
const NO_BANK_BIT: u8 = 1 << 5;
/// C4 and C5, bit 3: uncorrectable.
const UNCORRECTABLE_BIT: u8 = 1 << 3;

/// MEM-2, MEM-3: a read; its count is the length of the buffer.
pub fn read(
    record: &mut Record,
    cells: &[u8],
    address: u32,
    buffer: &mut [u8],
) -> Result<Answers, Refusal> {
    let layout = map::switched_on(record)?;
    let Some(part) = inside(address, buffer.len())? else {
        return splits::read(record, cells, &layout, address, buffer);
    };
    let range = lent_cell(&layout, cells.len(), address)?;
    let answer = read_part(cells, range, part, buffer);
    report(record, answer, address);
    Ok(Answers::Single(answer))
}

/// Fills a buffer with a part of a doubleword. This and the functions that
/// bursts and splits share with single calls are inlined by name: the compiler
/// does not do it for several callers, and the calls are a baseline for speed.
#[inline(always)]
pub(crate) fn read_part(
    cells: &[u8],
    range: Option<Range<usize>>,
    part: Range<usize>,
    buffer: &mut [u8],
) -> Answer {
    // MEM-9
    let Some(range) = range else {
        buffer.fill(0xFF);
        return Answer::NoBank;
    };
    // MEM-3: the right bytes, or if they are lost the stored ones.
    let (reading, data) = code::read_cell(cell(cells, range));
    buffer.copy_from_slice(&data[part]);
    reading.into()
}

/// MEM-2: a write.
pub fn write(
    record: &mut Record,
    cells: &mut [u8],
    address: u32,
    bytes: &[u8],
) -> Result<Answers, Refusal> {
    let layout = map::switched_on(record)?;
    let Some(part) = inside(address, bytes.len())? else {
        return splits::write(record, cells, &layout, address, bytes);
    };
    let range = lent_cell(&layout, cells.len(), address)?;
    let answer = write_part(cells, range, part, bytes);
    report(record, answer, address);
    Ok(Answers::Single(answer))
}

/// Puts bytes in a part of a doubleword; MEM-9 without a bank.
#[inline(always)]
pub(crate) fn write_part(
    cells: &mut [u8],
    range: Option<Range<usize>>,
    part: Range<usize>,
    bytes: &[u8],
) -> Answer {
    match range {
        None => Answer::NoBank,
        Some(range) => write_cell(cell_mut(cells, range), part, bytes),
    }
}

/// MEM-4 for eight bytes; MEM-5 and MEM-6 for fewer.
fn write_cell(cell: &mut [u8; CELL_BYTES], part: Range<usize>, bytes: &[u8]) -> Answer {
    if let Ok(data) = bytes.try_into() {
        code::store_cell(cell, data);
        return Answer::Stored;
    }
    let (reading, mut data) = code::read_cell(cell);
    if reading != Reading::Uncorrectable {
        data[part].copy_from_slice(bytes);
        code::store_cell(cell, &data);
    }
    reading.into()
}

/// MEM-7: a flip. It changes no register (ERR-8), hence the shared record.
pub fn flip(record: &Record, cells: &mut [u8], address: u32, bit: u8) -> Result<(), Refusal> {
    let layout = map::switched_on(record)?;
    if bit >= FLIP_BITS {
        return Err(Refusal::BadFlipBit);
    }
    // 10 comes before 9: without a bank there is no cell to be lent.
    let range = lent_cell(&layout, cells.len(), address)?.ok_or(Refusal::FlipWithoutBank)?;
    code::flip(cell_mut(cells, range), bit);
    Ok(())
}

/// MEM-8: a scrub.
pub fn scrub(record: &mut Record, cells: &mut [u8], address: u32) -> Result<Answer, Refusal> {
    let layout = map::switched_on(record)?;
    let answer = match lent_cell(&layout, cells.len(), address)? {
        None => Answer::NoBank,
        Some(range) => scrub_cell(cell_mut(cells, range)),
    };
    report(record, answer, address);
    Ok(answer)
}

fn scrub_cell(cell: &mut [u8; CELL_BYTES]) -> Answer {
    let (reading, data) = code::read_cell(cell);
    if let Reading::Corrected(_) = reading {
        code::store_cell(cell, &data);
    }
    reading.into()
}

/// The bytes of a doubleword that a read or write takes, or refusal 6; none if
/// it runs into the next one (MEM-17). Only then can it pass the last address,
/// which ends a doubleword, so refusal 7 is left to splits.
fn inside(address: u32, count: usize) -> Result<Option<Range<usize>>, Refusal> {
    if count == 0 || count > 8 {
        return Err(Refusal::BadCount);
    }
    let first = (address % 8) as usize;
    let end = first + count;
    Ok((end <= 8).then_some(first..end))
}

/// MAP-8, MEM-11: the range of cell k; none without a bank, or refusal 9 if not
/// all nine bytes are lent.
#[inline(always)]
pub(crate) fn lent_cell(
    layout: &Layout,
    lent: usize,
    address: u32,
) -> Result<Option<Range<usize>>, Refusal> {
    let Some(place) = layout.locate(address) else {
        return Ok(None);
    };
    let first = CELL_BYTES * place.cell as usize;
    let range = first..first + CELL_BYTES;
    if range.end <= lent {
        Ok(Some(range))
    } else {
        Err(Refusal::CellNotLent)
    }
}

fn cell(cells: &[u8], range: Range<usize>) -> &[u8; CELL_BYTES] {
    cells[range].try_into().expect("a cell is nine bytes")
}

fn cell_mut(cells: &mut [u8], range: Range<usize>) -> &mut [u8; CELL_BYTES] {
    (&mut cells[range])
        .try_into()
        .expect("a cell is nine bytes")
}

/// The error registers after one access, with its own address.
#[inline(always)]
pub(crate) fn report(record: &mut Record, answer: Answer, address: u32) {
    let was_quiet = record.at(ERROR_DETECTION_1) == 0 && record.at(ERROR_DETECTION_2) == 0;
    let detected = match answer {
        Answer::Clean | Answer::Stored => false,
        Answer::Corrected(_) => count_correction(record),
        // ERR-3
        Answer::NoBank => detect(record, ERROR_ENABLE_1, ERROR_DETECTION_1, NO_BANK_BIT),
        // ERR-4
        Answer::Uncorrectable => {
            detect(record, ERROR_ENABLE_2, ERROR_DETECTION_2, UNCORRECTABLE_BIT)
        }
    };
    // ERR-5, ERR-6
    if detected && was_quiet {
        for (offset, byte) in (ERROR_ADDRESS..).zip(address.to_le_bytes()) {
            record.set(offset, byte);
        }
    }
}

/// ERR-1, ERR-2: counts a correction. True if C1 bit 2 was set.
fn count_correction(record: &mut Record) -> bool {
    let Some(count) = record.at(COUNTER).checked_add(1) else {
        return false;
    };
    record.set(COUNTER, count);
    count == record.at(TRIGGER) && detect(record, ERROR_ENABLE_1, ERROR_DETECTION_1, TRIGGER_BIT)
}

/// Sets a detection bit if its enable bit is set. True if it was set.
fn detect(record: &mut Record, enables: u8, detections: u8, bit: u8) -> bool {
    if record.at(enables) & bit == 0 {
        return false;
    }
    record.set(detections, record.at(detections) | bit);
    true
}
