//! REF-6, REF-7, REF-9: splits that are refused whole.

use model::memory::{read, write};
use model::{Answer, Answers, Record, Refusal};

use crate::{splits, with_flips, UPPER};

/// How many addresses there are.
const END: u64 = 1 << 32;

/// A read and a write get this refusal; nothing changes.
fn both_refused(record: &Record, cells: &[u8], address: u32, count: usize, refusal: Refusal) {
    let mut after = *record;
    let mut left = cells.to_vec();
    let mut buffer = vec![0x77; count];
    let result = read(&mut after, &left, address, &mut buffer);
    assert_eq!(result, Err(refusal), "{address:08x}, {count}");
    let result = write(&mut after, &mut left, address, &vec![0x33; count]);
    assert_eq!(result, Err(refusal), "{address:08x}, {count}");
    assert_eq!(after, *record);
    assert_eq!(left, cells);
    assert_eq!(buffer, vec![0x77; count]);
}

/// A read and a write are accepted with these answers.
fn both_accepted(record: &Record, cells: &[u8], address: u32, count: usize, answers: Answers) {
    let result = read(&mut record.clone(), cells, address, &mut vec![0; count]);
    assert_eq!(result, Ok(answers), "{address:08x}, {count}");
    let left = &mut cells.to_vec();
    let result = write(&mut record.clone(), left, address, &vec![0; count]);
    assert_eq!(result, Ok(answers), "{address:08x}, {count}");
}

/// Both accesses would report: one performed too early is seen in the record.
fn touchy() -> (Record, Vec<u8>) {
    let (mut record, cells) = with_flips([1, 2]);
    record.set(0xB9, 1);
    (record, cells)
}

/// REF-7 for every address in the last doublewords and every count. What ends
/// with the byte at FFFFFFFF passes nothing.
#[test]
fn only_what_passes_the_last_address_gets_7() {
    let (record, _) = touchy();
    for address in 0xFFFF_FFE0..=0xFFFF_FFFF {
        both_refused(&record, &[], address, 0, Refusal::BadCount);
        both_refused(&record, &[], address, 9, Refusal::BadCount);
        for count in 1..=8 {
            let end = u64::from(address) + count as u64;
            if end > END {
                both_refused(&record, &[], address, count, Refusal::PassesLastAddress);
            } else if u64::from(address) / 8 == (end - 1) / 8 {
                let answers = Answers::Single(Answer::NoBank);
                both_accepted(&record, &[], address, count, answers);
            } else {
                let answers = Answers::Split([Answer::NoBank; 2]);
                both_accepted(&record, &[], address, count, answers);
            }
        }
    }
    assert_eq!(Refusal::PassesLastAddress.number(), 7);
}

/// Elsewhere no split gets 7, whichever bank its accesses have.
#[test]
fn no_split_below_the_last_doubleword_gets_7() {
    let (record, cells) = touchy();
    for (front, back) in splits() {
        let count = (front + back) as usize;
        for edge in [UPPER, 8, 0x0020_0000, 0x4000_0000, 0x8000_0000, 0xFFFF_FFF8] {
            let result = read(
                &mut record.clone(),
                &cells,
                edge - front,
                &mut vec![0; count],
            );
            assert!(result.is_ok(), "{edge:08x}");
        }
        let address = 0_u32.wrapping_sub(front);
        both_refused(&record, &cells, address, count, Refusal::PassesLastAddress);
    }
}

/// REF-104: 5, 6, 7, 9.
#[test]
fn the_order_of_refusals_of_a_split() {
    let (on, cells) = touchy();
    let mut off = on;
    off.set(0xF2, 0xF7);
    let mut broken = on;
    broken.set(0x80, 1);
    for record in [off, broken] {
        both_refused(&record, &cells, UPPER - 3, 8, Refusal::NotSwitchedOn);
        both_refused(&record, &[], UPPER - 3, 8, Refusal::NotSwitchedOn);
        both_refused(&record, &[], UPPER - 3, 9, Refusal::NotSwitchedOn);
        both_refused(&record, &[], 0xFFFF_FFFD, 8, Refusal::NotSwitchedOn);
    }
    both_refused(&on, &[], UPPER - 3, 9, Refusal::BadCount);
    both_refused(&on, &[], 0xFFFF_FFFD, 9, Refusal::BadCount);
    both_refused(&on, &[], 0xFFFF_FFFD, 256 + 8, Refusal::BadCount);
    both_refused(&on, &[], 0xFFFF_FFFD, 8, Refusal::PassesLastAddress);
    both_refused(&on, &[], UPPER - 3, 8, Refusal::CellNotLent);
}

/// MEM-16: lending is judged for both accesses before either changes anything.
#[test]
fn a_split_that_is_partly_lent_is_refused_whole() {
    let (record, cells) = touchy();
    let answers = Answers::Split([Answer::Corrected(63), Answer::Uncorrectable]);
    for (front, back) in splits() {
        let (address, count) = (UPPER - front, (front + back) as usize);
        // The two cells end at 45 and 54.
        for lent in 0..54 {
            both_refused(
                &record,
                &cells[..lent],
                address,
                count,
                Refusal::CellNotLent,
            );
        }
        both_accepted(&record, &cells[..54], address, count, answers);
    }
}

/// EX-6: the cells of bank 1 begin again at MB 4, so that the lower access can
/// lack its cell while the upper one has it.
#[test]
fn a_split_whose_lower_cell_is_not_lent_is_refused_whole() {
    let mut record = touchy().0;
    record.set(0xF2, 0);
    for (offset, value) in [
        (0x90, 1),
        (0x81, 2),
        (0x91, 4),
        (0xA0, 3),
        (0xF0, 4),
        (0xF2, 8),
    ] {
        record.write_register(offset, value).unwrap();
    }
    // Syndrome 03 in the upper cell: an access to it would report.
    let mut cells = vec![0; 9 * 262_145];
    *cells.last_mut().unwrap() = 0x03;
    both_refused(&record, &cells, 0x003F_FFFE, 4, Refusal::CellNotLent);
    let upper = read(&mut record.clone(), &cells, 0x0040_0000, &mut [0; 2]);
    assert_eq!(upper, Ok(Answers::Single(Answer::Uncorrectable)));
}

/// MEM-11: an access without a bank needs no cell, beside one that does.
#[test]
fn only_the_access_with_a_bank_needs_its_cell() {
    let mut record = touchy().0;
    record.set(0xF2, 0);
    for (offset, value) in [(0x80, 1), (0x90, 1), (0xF2, 8)] {
        record.write_register(offset, value).unwrap();
    }
    let cells = vec![0; 9 << 17];
    let into = Answers::Split([Answer::NoBank, Answer::Clean]);
    both_refused(&record, &cells[..8], 0x000F_FFFB, 8, Refusal::CellNotLent);
    both_accepted(&record, &cells[..9], 0x000F_FFFB, 8, into);
    let out = Answers::Split([Answer::Clean, Answer::NoBank]);
    let short = &cells[..cells.len() - 1];
    both_refused(&record, short, 0x001F_FFFB, 8, Refusal::CellNotLent);
    both_accepted(&record, &cells, 0x001F_FFFB, 8, out);
    let none = Answers::Split([Answer::NoBank; 2]);
    both_accepted(&record, &[], 0x0020_000B, 8, none);
}
