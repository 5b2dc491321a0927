//! The worked examples EX-1 to EX-9, through the wrapper.
use mpc106::{Answer, Column, Kind, Memory, Place, Record, Refusal, Row, CELL_BYTES};

/// A record with these registers written, in order; each write must be accepted.
fn with(writes: &[(u32, u8)]) -> Record {
    let mut record = Record::fresh();
    for &(offset, value) in writes {
        assert_eq!(
            record.write_register(offset, value),
            Ok(()),
            "{offset:02x} = {value:02x}"
        );
    }
    record
}

/// EX-3, switched on.
fn two_banks() -> Record {
    with(&[
        (0x90, 1),
        (0x81, 2),
        (0x91, 4),
        (0xf0, 0x04),
        (0xa0, 3),
        (0xf2, 8),
    ])
}

/// Bank 0 with a row code and its last megabyte, not switched on.
fn one_bank(row_code: u8, last: u8) -> Record {
    with(&[(0x90, last), (0xf0, row_code), (0xa0, 1)])
}

/// The kind of an answer that has one part.
fn kind(answer: Result<Answer, Refusal>) -> Result<Kind, Refusal> {
    answer.map(|answer| {
        assert_eq!(answer.parts().len(), 1);
        answer.worst_kind()
    })
}

fn cells(count: usize) -> Vec<u8> {
    vec![0; count * CELL_BYTES]
}

#[test]
fn fresh_is_all_zero() {
    assert_eq!(Record::fresh().registers, [0; 256]);
    assert_eq!(Record::default(), Record::fresh());
}

#[test]
fn check_bytes() {
    let of = |bytes: [u8; 8]| {
        let mut cells = cells(1);
        assert_eq!(
            kind(two_banks().write(&mut cells, 0, &bytes)),
            Ok(Kind::Stored)
        );
        assert_eq!(cells[..8], bytes);
        cells[8]
    };
    assert_eq!(of([0; 8]), 0x00);
    assert_eq!(of([0x80, 0, 0, 0, 0, 0, 0, 0]), 0x07);
    assert_eq!(of([0xff, 0, 0, 0, 0, 0, 0, 0]), 0x06);
    assert_eq!(of([0, 0, 0, 0, 0, 0, 0, 0x01]), 0x57);
    assert_eq!(of([0xff; 8]), 0xd8);
}

#[test]
fn syndromes() {
    // If all data is zero the check byte is 00, so the stored check byte is the syndrome.
    let of = |syndrome: u8| {
        let mut cells = cells(1);
        cells[8] = syndrome;
        let mut record = two_banks();
        let mut buffer = [0xee; 8];
        let answer = kind(record.read(&cells, 0, &mut buffer));
        let scrubbed = kind(record.scrub(&mut cells, 0));
        assert_eq!(scrubbed, answer);
        (answer, buffer, cells[8])
    };
    assert_eq!(of(0x03), (Ok(Kind::Uncorrectable), [0; 8], 0x03));
    // Flip bit 70 is check bit 6: the data stays.
    assert_eq!(of(0x40), (Ok(Kind::Corrected(70)), [0; 8], 0));
    // Data bit 56 is the top bit of byte 7: the data with that bit has this check byte.
    assert_eq!(
        of(0x1f),
        (Ok(Kind::Corrected(56)), [0, 0, 0, 0, 0, 0, 0, 0x80], 0x1f)
    );
}

#[test]
fn map() {
    let place = |bank, row, column, cell| {
        Ok(Some(Place {
            bank,
            row: Row(row),
            column: Column(column),
            cell,
        }))
    };
    let record = two_banks();
    assert_eq!(record.map(0x0000_1008), place(0, 1, 1, 513));
    assert_eq!(record.map(0x0020_0000), place(1, 512, 0, 524_288));
    assert_eq!(record.map(0x0040_0000), place(1, 0, 0, 262_144));
    assert_eq!(record.map(0x0050_0000), Ok(None));
    assert_eq!(record.map(0xffff_ffff), Ok(None));
    assert_eq!(Record::fresh().map(0), Err(Refusal::NotReady));
}

#[test]
fn way_back() {
    let record = two_banks();
    assert_eq!(record.way_back(0, Row(1), Column(1)), Ok(0x0000_1008));
    assert_eq!(record.way_back(1, Row(512), Column(0)), Ok(0x0020_0000));
    assert_eq!(record.way_back(1, Row(0), Column(0)), Ok(0x0040_0000));
    assert_eq!(
        record.way_back(1, Row(256), Column(0)),
        Err(Refusal::NoAddress)
    );
    assert_eq!(record.way_back(2, Row(0), Column(0)), Err(Refusal::BankOff));
    assert_eq!(record.way_back(8, Row(0), Column(0)), Err(Refusal::BankOff));
    assert_eq!(
        record.way_back(0, Row(512), Column(0)),
        Err(Refusal::RowOrColumnTooLarge)
    );
    assert_eq!(
        record.way_back(0, Row(0), Column(u32::MAX)),
        Err(Refusal::RowOrColumnTooLarge)
    );
    assert_eq!(
        Record::fresh().way_back(0, Row(0), Column(0)),
        Err(Refusal::NotReady)
    );
}

#[test]
fn lengths_that_fit() {
    assert_eq!(one_bank(0, 1).judge(), Ok(()));
    assert_eq!(one_bank(0, 2).judge(), Err(Refusal::TooLong(0)));
    assert_eq!(one_bank(3, 127).judge(), Ok(()));
    assert_eq!(one_bank(3, 128).judge(), Ok(()));
    assert_eq!(one_bank(3, 255).judge(), Ok(()));
}

#[test]
fn switching_on_is_judged() {
    let mut record = Record::fresh();
    assert_eq!(record.write_register(0xf2, 8), Err(Refusal::NoBankEnabled));
    assert_eq!(record, Record::fresh());
    assert_eq!(
        with(&[(0x85, 3), (0x95, 2), (0xa0, 0x20)]).judge(),
        Err(Refusal::StartAboveEnd(5))
    );
    assert_eq!(with(&[(0xa0, 0x81)]).judge(), Err(Refusal::Overlap(7)));
    // Already on: nothing is checked.
    assert_eq!(two_banks().write_register(0xf2, 8), Ok(()));
}

#[test]
fn switching_on_refuses_bank_by_bank() {
    // Bank 0 is too long, bank 1 starts above its end, and banks 2 and 3 meet bank 0.
    let mut record = with(&[(0x90, 2), (0x81, 5), (0x91, 4), (0xa0, 0x0f)]);
    assert_eq!(record.judge(), Err(Refusal::TooLong(0)));
    assert_eq!(record.write_register(0x90, 1), Ok(()));
    assert_eq!(record.judge(), Err(Refusal::StartAboveEnd(1)));
    assert_eq!(record.write_register(0x91, 5), Ok(()));
    assert_eq!(record.judge(), Err(Refusal::Overlap(2)));
}

#[test]
fn register_refusals() {
    let mut record = two_banks();
    let before = record;
    assert_eq!(record.read_register(0x00), Err(Refusal::UnlistedOffset));
    assert_eq!(record.write_register(0xa1, 0), Err(Refusal::UnlistedOffset));
    assert_eq!(record.write_register(0xc8, 0), Err(Refusal::ReadOnly));
    assert_eq!(
        record.write_register(0x88, 4),
        Err(Refusal::ValueOutOfRange)
    );
    assert_eq!(
        record.write_register(0xf2, 9),
        Err(Refusal::ValueOutOfRange)
    );
    assert_eq!(record.write_register(0xa0, 1), Err(Refusal::LockedWhileOn));
    assert_eq!(record, before);
    assert_eq!(record.read_register(0x91), Ok(4));
}

#[test]
fn a_one_clears_a_detection_bit() {
    let mut record = two_banks();
    record.registers[0xc1] = 0x24;
    assert_eq!(record.write_register(0xc1, 0x20), Ok(()));
    assert_eq!(record.read_register(0xc1), Ok(0x04));
}

/// Two banks with one cell lent, and all of the next but its last byte.
fn partly_lent() -> (Record, Vec<u8>) {
    let mut lent = cells(2);
    lent.pop();
    (two_banks(), lent)
}

#[test]
fn a_refused_read_leaves_everything() {
    let (mut record, lent) = partly_lent();
    let before = record;
    let mut buffer = [0xee; 9];
    let mut refused = |address, count| record.read(&lent, address, &mut buffer[..count]);
    assert_eq!(refused(0, 0), Err(Refusal::CountOutOfRange));
    assert_eq!(refused(0, 9), Err(Refusal::CountOutOfRange));
    assert_eq!(refused(0xffff_ffff, 2), Err(Refusal::PassesLastAddress));
    assert_eq!(refused(7, 2), Err(Refusal::NotLent));
    assert_eq!(refused(8, 2), Err(Refusal::NotLent));
    assert_eq!(record, before);
    assert_eq!(buffer, [0xee; 9]);
}

#[test]
fn a_refused_write_leaves_everything() {
    let (mut record, mut lent) = partly_lent();
    let before = (record, lent.clone());
    let mut refused = |address, bytes: &[u8]| record.write(&mut lent, address, bytes);
    assert_eq!(refused(0, &[]), Err(Refusal::CountOutOfRange));
    assert_eq!(refused(0, &[0; 9]), Err(Refusal::CountOutOfRange));
    assert_eq!(
        refused(0xffff_ffff, &[0; 2]),
        Err(Refusal::PassesLastAddress)
    );
    assert_eq!(refused(1, &[1; 8]), Err(Refusal::NotLent));
    assert_eq!(refused(8, &[1]), Err(Refusal::NotLent));
    assert_eq!((record, lent), before);
}

#[test]
fn a_refused_flip_or_scrub_leaves_everything() {
    let (mut record, mut lent) = partly_lent();
    let before = (record, lent.clone());
    let mut refused = |address, bit| record.flip(&mut lent, address, bit);
    assert_eq!(refused(0, 72), Err(Refusal::BitOutOfRange));
    assert_eq!(refused(8, 0), Err(Refusal::NotLent));
    assert_eq!(refused(0x0050_0000, 0), Err(Refusal::FlipWithoutBank));
    assert_eq!(record.scrub(&mut lent, 8), Err(Refusal::NotLent));
    assert_eq!(record.scrub(&mut [], 0), Err(Refusal::NotLent));
    assert_eq!((record, lent), before);
}

#[test]
fn switched_off_comes_first() {
    let mut off = Record::fresh();
    assert_eq!(off.read(&[], 7, &mut []), Err(Refusal::NotReady));
    assert_eq!(off, Record::fresh());
}

#[test]
fn no_bank_is_reported_once() {
    let mut record = two_banks();
    let mut lent = cells(1);
    assert_eq!(record.write_register(0xc0, 0x20), Ok(()));
    let mut buffer = [0; 3];
    assert_eq!(
        kind(record.read(&lent, 0x1234_5678, &mut buffer)),
        Ok(Kind::NoBank)
    );
    assert_eq!(buffer, [0xff; 3]);
    assert_eq!(record.read_register(0xc1), Ok(0x20));
    assert_eq!(record.registers[0xc8..=0xcb], [0x78, 0x56, 0x34, 0x12]);
    assert_eq!(
        kind(record.write(&mut lent, 0xffff_fff8, &[1; 8])),
        Ok(Kind::NoBank)
    );
    assert_eq!(record.registers[0xc8..=0xcb], [0x78, 0x56, 0x34, 0x12]);
    assert_eq!(lent, cells(1));
}

#[test]
fn short_writes_merge_into_corrected_data() {
    let mut record = two_banks();
    let mut lent = cells(1);
    assert_eq!(
        kind(record.write(&mut lent, 0, &[1, 2, 3, 4, 5, 6, 7, 8])),
        Ok(Kind::Stored)
    );
    assert_eq!(record.flip(&mut lent, 0, 0), Ok(()));
    assert_eq!(
        kind(record.write(&mut lent, 3, &[0xaa])),
        Ok(Kind::Corrected(0))
    );
    assert_eq!(record.read_register(0xb8), Ok(1));
    let mut buffer = [0; 8];
    assert_eq!(kind(record.read(&lent, 0, &mut buffer)), Ok(Kind::Clean));
    assert_eq!(buffer, [1, 2, 3, 0xaa, 5, 6, 7, 8]);
}

#[test]
fn alike() {
    let record = two_banks();
    assert_eq!(record.is_alike(&record), Ok(true));
    // A disabled bank has no effect, whatever its registers hold.
    let other = with(&[
        (0x90, 1),
        (0x81, 2),
        (0x91, 4),
        (0x97, 9),
        (0xf0, 0x04),
        (0xa0, 3),
        (0xf2, 8),
    ]);
    assert_eq!(record.is_alike(&other), Ok(true));
    let shorter = with(&[
        (0x90, 1),
        (0x81, 2),
        (0x91, 3),
        (0xf0, 0x04),
        (0xa0, 3),
        (0xf2, 8),
    ]);
    assert_eq!(record.is_alike(&shorter), Ok(false));
    assert_eq!(record.is_alike(&Record::fresh()), Err(Refusal::NotReady));
    assert_eq!(Record::fresh().is_alike(&record), Err(Refusal::NotReady));
}

/// Numbers that would be in range if they were cut to a byte.
#[test]
fn wide_numbers_are_not_cut() {
    let (mut record, mut lent) = partly_lent();
    let before = (record, lent.clone());
    assert_eq!(record.flip(&mut lent, 0, 261), Err(Refusal::BitOutOfRange));
    assert_eq!(record.read_register(0x190), Err(Refusal::UnlistedOffset));
    assert_eq!(
        record.write_register(0x1b9, 0),
        Err(Refusal::UnlistedOffset)
    );
    assert_eq!(
        record.way_back(256, Row(0), Column(0)),
        Err(Refusal::BankOff)
    );
    assert_eq!((record, lent), before);
}

#[test]
fn a_memory_has_the_cells_of_its_banks() {
    assert_eq!(Record::fresh().cell_count(), Err(Refusal::NotReady));
    assert_eq!(Memory::new(Record::fresh()), Err(Refusal::NotReady));
    assert_eq!(two_banks().cell_count(), Ok((1 << 18) + (1 << 19)));
    let mut memory = Memory::new(two_banks()).expect("memory is on");
    assert_eq!(memory.cells, cells((1 << 18) + (1 << 19)));
    assert_eq!(kind(memory.write(0x40_0000, &[7; 8])), Ok(Kind::Stored));
    assert_eq!(memory.flip(0x40_0000, 9), Ok(()));
    let mut byte = [0];
    assert_eq!(
        kind(memory.read(0x40_0001, &mut byte)),
        Ok(Kind::Corrected(9))
    );
    assert_eq!(byte, [7]);
    assert_eq!(kind(memory.scrub(0x40_0007)), Ok(Kind::Corrected(9)));
    assert_eq!(kind(memory.scrub(0x40_0007)), Ok(Kind::Clean));
    let mut fewer = Memory::with_cells(memory.record, cells(1));
    assert_eq!(fewer.scrub(0x40_0007), Err(Refusal::NotLent));
}

#[test]
fn the_list_of_the_line_program() {
    let mut record = with(&[(0x90, 1), (0xa0, 1), (0xf2, 8)]);
    let mut lent = cells(7280);
    let data = [0x80, 0, 0, 0, 0, 0, 0, 0];
    assert_eq!(kind(record.write(&mut lent, 0x10, &data)), Ok(Kind::Stored));
    assert_eq!(record.flip(&mut lent, 0x10, 2), Ok(()));
    let mut buffer = [0; 8];
    assert_eq!(
        kind(record.read(&lent, 0x10, &mut buffer)),
        Ok(Kind::Corrected(2))
    );
    assert_eq!(buffer, data);
    assert_eq!(record.read_register(0xb8), Ok(1));
    let mut one = [0];
    assert_eq!(
        kind(record.read(&lent, 0x0020_0000, &mut one)),
        Ok(Kind::NoBank)
    );
    assert_eq!(one, [0xff]);
    let mut two = [0xee; 2];
    let split = record.read(&lent, 7, &mut two).expect("accepted");
    assert!(split.kinds().eq([Kind::Clean, Kind::Clean]));
    assert_eq!(two, [0; 2]);
}
