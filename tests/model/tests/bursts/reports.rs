//! MEM-16: what the beats of a burst report.

use std::collections::HashSet;

use model::memory::burst_read;
use model::Record;

use crate::single_calls::same_reads;
use crate::{beats, error_address, reported, with_flips, LINE};

#[test]
fn the_beat_that_reaches_the_trigger_gives_its_address() {
    let (start, cells) = with_flips([1; 4]);
    for first in beats(LINE) {
        for trigger in 0..=5 {
            let mut record = start;
            record.set(0xB9, trigger);
            burst_read(&mut record, &cells, first, &mut [0; 32]).unwrap();
            let (detection, address) = match trigger {
                1..=4 => (0x04, beats(first)[usize::from(trigger) - 1]),
                _ => (0, 0),
            };
            assert_eq!(reported(&record), [4, detection, 0]);
            assert_eq!(error_address(&record), address, "{first:02x}, {trigger}");
        }
    }
}

#[test]
fn the_counter_stops_at_255_inside_a_burst() {
    let (start, cells) = with_flips([1; 4]);
    // 255 is reached by the last beat, by the first, or before the burst.
    for (counter, detection, address) in [(251, 0x04, 0x30), (254, 0x04, 0x38), (255, 0, 0)] {
        let mut record = start;
        record.set(0xB8, counter);
        record.set(0xB9, 255);
        burst_read(&mut record, &cells, 0x38, &mut [0; 32]).unwrap();
        assert_eq!(reported(&record), [255, detection, 0]);
        assert_eq!(error_address(&record), address, "{counter}");
    }
}

#[test]
fn only_the_first_report_of_a_burst_keeps_its_address() {
    for (flips, trigger, first, detections, address) in [
        // One uncorrectable beat: the third, then the fourth.
        ([0, 0, 2, 0], 0, 0x20, [0, 0x08], 0x30),
        ([0, 0, 2, 0], 0, 0x38, [0, 0x08], 0x30),
        // Two of them.
        ([0, 2, 0, 2], 0, 0x20, [0, 0x08], 0x28),
        ([0, 2, 0, 2], 0, 0x30, [0, 0x08], 0x38),
        // One and a correction that reaches the trigger.
        ([1, 0, 2, 0], 1, 0x20, [0x04, 0x08], 0x20),
        ([1, 0, 2, 0], 1, 0x28, [0x04, 0x08], 0x30),
    ] {
        let (mut record, cells) = with_flips(flips);
        record.set(0xB9, trigger);
        burst_read(&mut record, &cells, first, &mut [0; 32]).unwrap();
        assert_eq!(reported(&record)[1..], detections);
        assert_eq!(error_address(&record), address, "{flips:?}, {first:02x}");
    }
}

/// Counter and trigger at their edges, with each of some settings of the error
/// enables and of the bits that stand before the burst.
fn error_settings(record: &Record) -> Vec<Record> {
    let mut settings = Vec::new();
    for [counter, trigger] in [[0, 0], [0, 1], [0, 2], [0, 4], [253, 255], [255, 255]] {
        for [c0, c4, c1, c5] in [
            [0x24, 0x08, 0, 0],
            [0x20, 0x08, 0, 0],
            [0x24, 0, 0, 0],
            [0xFF, 0xFF, 0, 0],
            [0x24, 0x08, 0x80, 0],
            [0x24, 0x08, 0, 0x08],
        ] {
            let mut set = *record;
            set.bytes[0xB8..=0xB9].copy_from_slice(&[counter, trigger]);
            set.bytes[0xC0..=0xC1].copy_from_slice(&[c0, c1]);
            set.bytes[0xC4..=0xC5].copy_from_slice(&[c4, c5]);
            settings.push(set);
        }
    }
    settings
}

/// MEM-16, for every mixture of clean, corrected and uncorrectable beats.
#[test]
fn error_registers_are_those_after_four_single_reads() {
    let mut addresses = HashSet::new();
    for mixture in 0..81 {
        let (record, cells) = with_flips([1, 3, 9, 27].map(|place| mixture / place % 3));
        for record in error_settings(&record) {
            for first in beats(LINE) {
                let (_, after) = same_reads(&record, &cells, first);
                addresses.insert(error_address(&after));
            }
        }
    }
    // None, or that of any doubleword of the line.
    assert_eq!(addresses, HashSet::from([0, 0x20, 0x28, 0x30, 0x38]));
}
