//! What memory calls answer and do to the error registers.

use model::memory::{flip, read, scrub, write};
use model::Answers::Single;
use model::{Answer, Record};

/// Bank 0: MB 0, all errors enabled, and four zero cells.
fn set_up() -> (Record, Vec<u8>) {
    let mut record = Record::fresh();
    for (offset, value) in [(0xA0, 1), (0xC0, 0x24), (0xC4, 0x08), (0xF2, 8)] {
        record.write_register(offset, value).unwrap();
    }
    (record, vec![0; 36])
}

fn error_address(record: &Record) -> u32 {
    u32::from_le_bytes([0xC8, 0xC9, 0xCA, 0xCB].map(|offset| record.at(offset)))
}

fn detections(record: &Record) -> (u8, u8) {
    (record.at(0xC1), record.at(0xC5))
}

#[test]
fn the_counter_reports_when_it_reaches_the_trigger() {
    let (mut record, mut cells) = set_up();
    record.set(0xB9, 2);
    flip(&record, &mut cells, 8, 71).unwrap();
    for expected in [(1, 0), (2, 0x04), (3, 0x04)] {
        let answer = read(&mut record, &cells, 10 + expected.0, &mut [0]);
        assert_eq!(answer, Ok(Single(Answer::Corrected(71))));
        let seen = (u32::from(record.at(0xB8)), record.at(0xC1));
        assert_eq!(seen, expected);
    }
    assert_eq!(error_address(&record), 12);
}

#[test]
fn the_counter_stops_at_255_and_reports_nothing_there() {
    let (mut record, mut cells) = set_up();
    record.set(0xB8, 254);
    record.set(0xB9, 255);
    flip(&record, &mut cells, 0, 0).unwrap();
    read(&mut record, &cells, 0, &mut [0]).unwrap();
    assert_eq!((record.at(0xB8), record.at(0xC1)), (255, 4));
    record.write_register(0xC1, 0xFF).unwrap();
    let answer = scrub(&mut record, &mut cells, 0);
    assert_eq!(answer, Ok(Answer::Corrected(0)));
    assert_eq!((record.at(0xB8), record.at(0xC1)), (255, 0));
}

#[test]
fn no_bank_fills_with_ff_and_reports() {
    let (start, mut cells) = set_up();
    let address = 0x1234_5678;
    let mut record = start;
    let mut buffer = [0; 3];
    let answer = read(&mut record, &cells, address, &mut buffer);
    assert_eq!((answer, buffer), (Ok(Single(Answer::NoBank)), [0xFF; 3]));
    assert_eq!(detections(&record), (0x20, 0));
    assert_eq!(error_address(&record), address);
    for bytes in [&[1; 8][..], &[1; 3]] {
        let mut record = start;
        let answer = write(&mut record, &mut cells, address, bytes);
        assert_eq!(answer, Ok(Single(Answer::NoBank)));
        assert_eq!(detections(&record), (0x20, 0));
    }
    let mut record = start;
    record.set(0xC0, 0xDF);
    let answer = scrub(&mut record, &mut cells, address);
    assert_eq!(answer, Ok(Answer::NoBank));
    assert_eq!((detections(&record), error_address(&record)), ((0, 0), 0));
    assert!(cells.iter().all(|&byte| byte == 0));
}

#[test]
fn uncorrectable_is_an_answer_and_leaves_the_cell() {
    let (mut record, mut cells) = set_up();
    flip(&record, &mut cells, 16, 0).unwrap();
    flip(&record, &mut cells, 17, 64).unwrap();
    let before = cells.clone();
    let mut buffer = [0; 8];
    let answer = read(&mut record, &cells, 16, &mut buffer);
    assert_eq!(answer, Ok(Single(Answer::Uncorrectable)));
    assert_eq!(buffer, [0x80, 0, 0, 0, 0, 0, 0, 0]);
    assert_eq!(detections(&record), (0, 0x08));
    assert_eq!(error_address(&record), 16);
    let answer = write(&mut record, &mut cells, 19, &[1]);
    assert_eq!(answer, Ok(Single(Answer::Uncorrectable)));
    let answer = scrub(&mut record, &mut cells, 20);
    assert_eq!(answer, Ok(Answer::Uncorrectable));
    assert_eq!(cells, before);
    // Only the first report keeps its address.
    assert_eq!(error_address(&record), 16);
    let answer = write(&mut record, &mut cells, 16, &[7; 8]);
    assert_eq!(answer, Ok(Single(Answer::Stored)));
    assert_eq!(scrub(&mut record, &mut cells, 16), Ok(Answer::Clean));
    assert_eq!(record.at(0xB8), 0);
}

#[test]
fn any_standing_detection_bit_keeps_the_address() {
    let (mut record, cells) = set_up();
    record.set(0xC5, 0x80);
    read(&mut record, &cells, 0x8000_0000, &mut [0]).unwrap();
    assert_eq!(detections(&record), (0x20, 0x80));
    assert_eq!(error_address(&record), 0);
}

#[test]
fn a_read_leaves_the_cell_and_a_scrub_stores_it_again() {
    let (mut record, mut cells) = set_up();
    write(&mut record, &mut cells, 0, &[9; 8]).unwrap();
    let right = cells.clone();
    for bit in 0..72 {
        flip(&record, &mut cells, 0, bit).unwrap();
        let flipped = cells.clone();
        let mut buffer = [0; 8];
        let answer = read(&mut record, &cells, 0, &mut buffer);
        let corrected = Answer::Corrected(bit);
        assert_eq!((answer, buffer), (Ok(Single(corrected)), [9; 8]));
        assert_eq!(cells, flipped);
        assert_eq!(scrub(&mut record, &mut cells, 7), Ok(corrected));
        assert_eq!(cells, right);
    }
    assert_eq!(record.at(0xB8), 144);
}
