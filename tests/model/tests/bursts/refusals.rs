//! REF-19, REF-20, REF-9: bursts that are refused whole.

use model::memory::{burst_read, burst_write};
use model::{Record, Refusal};

use crate::{beats, with_flips, LINE};

/// Both bursts get this refusal; nothing changes.
fn both_refused(record: &Record, cells: &[u8], address: u32, count: usize, refusal: Refusal) {
    let mut after = *record;
    let mut left = cells.to_vec();
    let mut buffer = vec![0x77; count];
    let result = burst_read(&mut after, &left, address, &mut buffer);
    assert_eq!(result, Err(refusal), "{address:08x}, {count}");
    let result = burst_write(&mut after, &mut left, address, &vec![0x33; count]);
    assert_eq!(result, Err(refusal), "{address:08x}, {count}");
    assert_eq!(after, *record);
    assert_eq!(left, cells);
    assert_eq!(buffer, vec![0x77; count]);
}

/// Every beat would report: a beat performed too early is seen in the record.
fn touchy() -> (Record, Vec<u8>) {
    let (mut record, cells) = with_flips([1, 2, 1, 2]);
    record.set(0xB9, 1);
    (record, cells)
}

#[test]
fn each_refusal_of_a_burst_alone() {
    let (on, cells) = touchy();
    let mut off = on;
    off.set(0xF2, 0xF7);
    let mut broken = on;
    broken.set(0x80, 1);
    both_refused(&off, &cells, LINE, 32, Refusal::NotSwitchedOn);
    both_refused(&broken, &cells, LINE, 32, Refusal::NotSwitchedOn);
    for first in beats(LINE) {
        for address in first + 1..first + 8 {
            both_refused(&on, &cells, address, 32, Refusal::Misaligned);
        }
        for count in (0..32).chain(33..=72).chain([256 + 32]) {
            both_refused(&on, &cells, first, count, Refusal::NotCacheLine);
        }
    }
    both_refused(&on, &[], LINE, 32, Refusal::CellNotLent);
    let numbers = [Refusal::Misaligned, Refusal::NotCacheLine].map(Refusal::number);
    assert_eq!(numbers, [19, 20]);
}

/// REF-104: 5, 19, 20, 9.
#[test]
fn the_order_of_refusals_of_a_burst() {
    let (on, cells) = touchy();
    let mut off = on;
    off.set(0xF2, 0);
    both_refused(&off, &[], LINE, 32, Refusal::NotSwitchedOn);
    both_refused(&off, &[], LINE, 31, Refusal::NotSwitchedOn);
    both_refused(&off, &[], LINE + 4, 31, Refusal::NotSwitchedOn);
    both_refused(&off, &cells, LINE + 4, 32, Refusal::NotSwitchedOn);
    both_refused(&on, &cells, LINE + 4, 31, Refusal::Misaligned);
    both_refused(&on, &[], LINE + 4, 33, Refusal::Misaligned);
    both_refused(&on, &[], LINE + 4, 32, Refusal::Misaligned);
    both_refused(&on, &[], LINE, 8, Refusal::NotCacheLine);
    // Where there is no bank the arguments are judged all the same.
    both_refused(&on, &[], 0xFFFF_FFFF, 32, Refusal::Misaligned);
    both_refused(&on, &[], 0xFFFF_FFE4, 0, Refusal::Misaligned);
    both_refused(&on, &[], 0xFFFF_FFF8, 8, Refusal::NotCacheLine);
}

/// MEM-16: whichever cell of the line is the first that is not lent, and at
/// whichever beat it comes.
#[test]
fn a_line_that_is_partly_lent_is_refused_whole() {
    let (record, cells) = touchy();
    for first in beats(LINE) {
        for lent in 0..9 * 8 {
            both_refused(&record, &cells[..lent], first, 32, Refusal::CellNotLent);
        }
        let lent = &mut cells[..9 * 8].to_vec();
        assert!(burst_read(&mut record.clone(), lent, first, &mut [0; 32]).is_ok());
        assert!(burst_write(&mut record.clone(), lent, first, &[0; 32]).is_ok());
    }
}
