//! MEM-16, ERR-5: what the accesses of a split report, each with its own
//! address.

use std::collections::HashSet;

use model::memory::{read, write};
use model::Record;

use crate::single_calls::{same_reads, same_writes};
use crate::{error_address, mixtures, reported, splits, with_flips, UPPER};

/// The address of the splits here, which is not that of a doubleword.
const ADDRESS: u32 = UPPER - 3;

/// The record after a split read, which is also that after a split write.
fn after_split(record: &Record, cells: &[u8]) -> Record {
    let (mut after_read, mut after_write) = (*record, *record);
    read(&mut after_read, cells, ADDRESS, &mut [0; 8]).unwrap();
    write(&mut after_write, &mut cells.to_vec(), ADDRESS, &[0; 8]).unwrap();
    assert_eq!(after_read, after_write);
    after_read
}

#[test]
fn the_access_that_reaches_the_trigger_gives_its_address() {
    let (start, cells) = with_flips([1, 1]);
    for (trigger, detection, address) in
        [(0, 0, 0), (1, 0x04, ADDRESS), (2, 0x04, UPPER), (3, 0, 0)]
    {
        let mut record = start;
        record.set(0xB9, trigger);
        let after = after_split(&record, &cells);
        assert_eq!(reported(&after), [2, detection, 0]);
        assert_eq!(error_address(&after), address, "{trigger}");
    }
}

#[test]
fn a_correction_on_either_side_is_counted_once() {
    for (flips, address) in [([1, 0], ADDRESS), ([0, 1], UPPER)] {
        let (mut record, cells) = with_flips(flips);
        record.set(0xB9, 1);
        let after = after_split(&record, &cells);
        assert_eq!(reported(&after), [1, 0x04, 0]);
        assert_eq!(error_address(&after), address, "{flips:?}");
    }
}

#[test]
fn the_counter_stops_at_255_inside_a_split() {
    let (start, cells) = with_flips([1, 1]);
    // 255 is reached by the second access, by the first, or before the split.
    for (counter, detection, address) in [(253, 0x04, UPPER), (254, 0x04, ADDRESS), (255, 0, 0)] {
        let mut record = start;
        record.set(0xB8, counter);
        record.set(0xB9, 255);
        let after = after_split(&record, &cells);
        assert_eq!(reported(&after), [255, detection, 0]);
        assert_eq!(error_address(&after), address, "{counter}");
    }
}

#[test]
fn only_the_first_report_of_a_split_keeps_its_address() {
    for (flips, trigger, detections, address) in [
        // One uncorrectable access, then two.
        ([2, 0], 0, [0, 0x08], ADDRESS),
        ([0, 2], 0, [0, 0x08], UPPER),
        ([2, 2], 0, [0, 0x08], ADDRESS),
        // One and a correction that reaches the trigger, or does not.
        ([1, 2], 1, [0x04, 0x08], ADDRESS),
        ([2, 1], 1, [0x04, 0x08], ADDRESS),
        ([1, 2], 2, [0, 0x08], UPPER),
        ([2, 1], 2, [0, 0x08], ADDRESS),
    ] {
        let (mut record, cells) = with_flips(flips);
        record.set(0xB9, trigger);
        let after = after_split(&record, &cells);
        assert_eq!(reported(&after)[1..], detections);
        assert_eq!(error_address(&after), address, "{flips:?}, {trigger}");
    }
}

/// ERR-6: a bit that stands before the split keeps the address of both.
#[test]
fn a_standing_bit_keeps_the_error_address() {
    let (start, cells) = with_flips([2, 2]);
    for offset in [0xC1, 0xC5] {
        let mut record = start;
        record.set(offset, 0x80);
        assert_eq!(error_address(&after_split(&record, &cells)), 0);
    }
}

/// Counter and trigger at their edges, with each of some settings of the error
/// enables and of the bits that stand before the split.
fn error_settings(record: &Record) -> Vec<Record> {
    let mut settings = Vec::new();
    for [counter, trigger] in [[0, 0], [0, 1], [0, 2], [0, 3], [253, 255], [255, 255]] {
        for [c0, c4, c1, c5] in [
            [0x24, 0x08, 0, 0],
            [0x20, 0x08, 0, 0],
            [0x24, 0, 0, 0],
            [0xFF, 0xFF, 0, 0],
            [0x24, 0x08, 0x80, 0],
            [0x24, 0x08, 0, 0x08],
        ] {
            let mut set = *record;
            set.bytes[0xB8..=0xB9].copy_from_slice(&[counter, trigger]);
            set.bytes[0xC0..=0xC1].copy_from_slice(&[c0, c1]);
            set.bytes[0xC4..=0xC5].copy_from_slice(&[c4, c5]);
            settings.push(set);
        }
    }
    settings
}

/// MEM-16, for every split and every mixture of clean, corrected and
/// uncorrectable accesses.
#[test]
fn error_registers_are_those_after_two_single_calls() {
    let mut addresses = HashSet::new();
    for flips in mixtures() {
        let (record, cells) = with_flips(flips);
        for record in error_settings(&record) {
            for (front, back) in splits() {
                let (address, count) = (UPPER - front, (front + back) as usize);
                let (_, after) = same_reads(&record, &cells, address, count);
                addresses.insert(error_address(&after));
                let (mut one, mut two) = (cells.clone(), cells.clone());
                let bytes = vec![0xA5; count];
                let (_, after) = same_writes(&record, &mut one, &mut two, address, &bytes);
                addresses.insert(error_address(&after));
                assert_eq!(one, two, "{address:02x}, {count}");
            }
        }
    }
    // None, that of any split, or that of the upper doubleword; never that of
    // the lower one.
    assert_eq!(addresses, (0x21..=0x28).chain([0]).collect());
}
