//! Each refusal but those of bursts and splits once, its order among the others,
//! and that it leaves everything as it was.

use model::map::{alike, map, way_back, Column, Row};
use model::memory::{flip, read, scrub, write};
use model::{Answer, Answers, Record, Refusal};

/// Bank 0: MB 0 to 1. Bank 2: MB 4. Both with nine row bits.
fn set_up() -> Record {
    let mut record = Record::fresh();
    for (offset, value) in [(0x90, 1), (0x82, 4), (0x92, 4), (0xA0, 5), (0xF2, 8)] {
        record.write_register(offset, value).unwrap();
    }
    record
}

fn refused_write(mut record: Record, offset: u8, value: u8, number: u8, bank: Option<u8>) {
    let before = record;
    let refusal = record.write_register(offset, value).unwrap_err();
    assert_eq!((refusal.number(), refusal.bank()), (number, bank));
    assert_eq!(record, before);
}

#[test]
fn register_refusals() {
    let on = set_up();
    refused_write(on, 0x00, 0, 1, None);
    refused_write(on, 0xA1, 0, 1, None);
    refused_write(on, 0xC8, 0, 2, None);
    refused_write(on, 0xCB, 0, 2, None);
    refused_write(on, 0x88, 4, 3, None);
    refused_write(on, 0x9F, 0xFF, 3, None);
    refused_write(on, 0xF2, 9, 3, None);
    for offset in [0x80, 0x8F, 0x97, 0x98, 0xA0, 0xF0, 0xF1] {
        refused_write(on, offset, 0, 4, None);
    }
}

#[test]
fn switching_on_refusals() {
    let mut off = set_up();
    off.write_register(0xF2, 0).unwrap();
    let with = |changes: &[(u8, u8)]| {
        let mut record = off;
        for &(offset, value) in changes {
            record.write_register(offset, value).unwrap();
        }
        record
    };
    refused_write(with(&[(0xA0, 0)]), 0xF2, 8, 11, None);
    refused_write(with(&[(0x82, 5)]), 0xF2, 8, 12, Some(2));
    refused_write(with(&[(0x92, 6)]), 0xF2, 8, 13, Some(2));
    refused_write(with(&[(0x82, 1)]), 0xF2, 8, 13, Some(2));
    refused_write(with(&[(0x82, 1), (0x92, 1)]), 0xF2, 8, 14, Some(2));
    // Bank by bank: 13 of bank 0 before 12 of bank 2.
    refused_write(with(&[(0x90, 9), (0x82, 5)]), 0xF2, 8, 13, Some(0));
    // 12 of a high bank before 14 of a low one.
    let low_overlap = [(0x82, 1), (0x92, 1), (0xA0, 0x85), (0x87, 1)];
    refused_write(with(&low_overlap), 0xF2, 8, 12, Some(7));
    // 14 at the lowest bank that meets a lower one.
    let two_overlaps = [(0x82, 1), (0x92, 1), (0xA0, 0x85)];
    refused_write(with(&two_overlaps), 0xF2, 8, 14, Some(2));
}

/// Read, write, flip and scrub get this refusal; nothing changes.
fn all_refused(record: &Record, lent: usize, address: u32, refusal: Refusal) {
    let mut after = *record;
    let mut cells = vec![0x5A; lent];
    let mut buffer = [0x77; 4];
    let result = read(&mut after, &cells, address, &mut buffer);
    assert_eq!(result, Err(refusal));
    let result = write(&mut after, &mut cells, address, &[1, 2, 3]);
    assert_eq!(result, Err(refusal));
    assert_eq!(flip(&after, &mut cells, address, 0), Err(refusal));
    assert_eq!(scrub(&mut after, &mut cells, address), Err(refusal));
    assert_eq!(after, *record);
    assert_eq!(buffer, [0x77; 4]);
    assert!(cells.iter().all(|&byte| byte == 0x5A));
}

#[test]
fn memory_refusals_5_and_9() {
    let on = set_up();
    let mut off = on;
    off.set(0xF2, 0xF7);
    let mut broken = on;
    broken.set(0x82, 1);
    all_refused(&off, 9, 0, Refusal::NotSwitchedOn);
    all_refused(&broken, 9, 0, Refusal::NotSwitchedOn);
    all_refused(&on, 0, 0, Refusal::CellNotLent);
    all_refused(&on, 17, 8, Refusal::CellNotLent);
    all_refused(&on, 17, 0x0040_0000, Refusal::CellNotLent);
    let after = read(&mut on.clone(), &[0; 18], 8, &mut [0]);
    assert_eq!(after, Ok(Answers::Single(Answer::Clean)));
}

#[test]
fn memory_refusals_6_and_7() {
    let mut on = set_up();
    let cells = &mut [0; 9];
    assert_eq!(read(&mut on, cells, 0, &mut []), Err(Refusal::BadCount));
    assert_eq!(read(&mut on, cells, 5, &mut [0; 9]), Err(Refusal::BadCount));
    assert_eq!(write(&mut on, cells, 0, &[]), Err(Refusal::BadCount));
    assert_eq!(write(&mut on, cells, 7, &[0; 9]), Err(Refusal::BadCount));
    // 7 before "no bank".
    let passes = Err(Refusal::PassesLastAddress);
    assert_eq!(read(&mut on, cells, 0xFFFF_FFF9, &mut [0; 8]), passes);
    assert_eq!(write(&mut on, cells, 0xFFFF_FFFF, &[0; 2]), passes);
    // 5 before 6.
    on.set(0xF2, 0);
    let off = Err(Refusal::NotSwitchedOn);
    assert_eq!(read(&mut on, cells, 0, &mut []), off);
}

#[test]
fn flip_refusals() {
    let on = set_up();
    let no_cells = &mut [][..];
    assert_eq!(flip(&on, no_cells, 0, 72), Err(Refusal::BadFlipBit));
    assert_eq!(flip(&on, no_cells, 2 << 20, 72), Err(Refusal::BadFlipBit));
    let no_bank = flip(&on, no_cells, 2 << 20, 71);
    assert_eq!(no_bank, Err(Refusal::FlipWithoutBank));
    assert_eq!(flip(&on, no_cells, 0, 71), Err(Refusal::CellNotLent));
}

#[test]
fn way_back_refusals() {
    let on = set_up();
    let back = |bank, row, column| way_back(&on, bank, Row(row), Column(column));
    assert_eq!(back(8, 512, 0), Err(Refusal::NoSuchBank));
    assert_eq!(back(255, 0, 0), Err(Refusal::NoSuchBank));
    assert_eq!(back(1, 0, 0), Err(Refusal::NoSuchBank));
    assert_eq!(back(0, 512, 0), Err(Refusal::RowOrColumnTooLarge));
    assert_eq!(back(0, 0, 512), Err(Refusal::RowOrColumnTooLarge));
    assert_eq!(back(2, 0, 256), Err(Refusal::RowOrColumnTooLarge));
    assert_eq!(back(0, u32::MAX, 0), Err(Refusal::RowOrColumnTooLarge));
    let mut long = on;
    long.set(0xF0, 1);
    let last = way_back(&long, 0, Row(1023), Column(255));
    assert_eq!(last, Ok(0x001F_FFF8));
    // Without MB 0 the bank keeps its 2^18 cells; half have no address.
    long.set(0x80, 1);
    let first = way_back(&long, 0, Row(0), Column(0));
    assert_eq!(first, Err(Refusal::NoAddress));
    let mut off = on;
    off.set(0xF2, 0);
    assert_eq!(
        way_back(&off, 9, Row(0), Column(0)),
        Err(Refusal::NotSwitchedOn)
    );
}

#[test]
fn map_and_alike_refusals() {
    let on = set_up();
    let off = Record::fresh();
    assert_eq!(map(&off, 0), Err(Refusal::NotSwitchedOn));
    assert_eq!(alike(&on, &off), Err(Refusal::NotSwitchedOn));
    assert_eq!(alike(&off, &on), Err(Refusal::NotSwitchedOn));
}
