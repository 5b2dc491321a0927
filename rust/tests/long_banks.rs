//! Banks of more than 128 megabytes with row code 3 (REG-13) through the wrapper. What is expected is worked out from the rules: such a bank has 13 row
//! bits, 12 column bits and 2^25 cells.
use mpc106::{offset, Column, Kind, Memory, Record, Refusal, Row, CELL_BYTES};

/// The record with the banks enabled that have these starts and last megabytes, all with row code 3; not yet switched on.
fn off(spans: &[(u32, u32)]) -> Record {
    let mut record = Record::fresh();
    let mut set = |offset, value: u32| {
        let value = u8::try_from(value).expect("a byte");
        assert_eq!(record.write_register(offset, value), Ok(()));
    };
    for (n, &(start, last)) in (0..).zip(spans) {
        set(offset::START + n, start % 256);
        set(offset::START_EXTENDED + n, start / 256);
        set(offset::END + n, last % 256);
        set(offset::END_EXTENDED + n, last / 256);
    }
    set(offset::ROW_CODES, 0xff);
    set(offset::ROW_CODES + 1, 0xff);
    set(offset::BANK_ENABLE, (1 << spans.len()) - 1);
    record
}

fn on(spans: &[(u32, u32)]) -> Record {
    let mut record = off(spans);
    assert_eq!(record.write_register(offset::MEMORY, 8), Ok(()));
    record
}

#[test]
fn up_to_256_megabytes_are_accepted() {
    for length in [127, 128, 129, 255, 256] {
        assert_eq!(
            off(&[(5, 4 + length)]).judge(),
            Ok(()),
            "{length} megabytes"
        );
    }
    assert_eq!(off(&[(5, 261)]).judge(), Err(Refusal::TooLong(0)));
    assert_eq!(off(&[(0, 1023)]).judge(), Err(Refusal::TooLong(0)));
    // A bank that starts above its end has no length.
    assert_eq!(off(&[(300, 5)]).judge(), Err(Refusal::StartAboveEnd(0)));
}

#[test]
fn cells_are_counted_bank_by_bank() {
    assert_eq!(on(&[(0, 127)]).cell_count(), Ok(1 << 24));
    assert_eq!(on(&[(0, 128)]).cell_count(), Ok(1 << 25));
    assert_eq!(on(&[(768, 1023)]).cell_count(), Ok(1 << 25));
    // The most that any set-up has: seven banks of 129 megabytes, and 121 megabytes are left.
    let spans: Vec<_> = (0..8)
        .map(|n| (129 * n, (129 * n + 128).min(1023)))
        .collect();
    assert_eq!(on(&spans).cell_count(), Ok(15 << 24));
}

/// The first and last doubleword of both banks below, and in bank 0 those on both sides of megabyte 256, where its rows begin again.
const CORNERS: [u32; 6] = [
    0x0010_0000,
    0x0fff_fff8,
    0x1000_0000,
    0x100f_fff8,
    0x1010_0000,
    0x181f_fff8,
];

/// Megabytes 1 to 256 (EX-12), and 129 more after them.
fn two_long_banks() -> Record {
    on(&[(1, 256), (257, 385)])
}

#[test]
fn places_and_ways_back() {
    let record = two_long_banks();
    let expected = [
        (0, 32, 0, 131_072),
        (0, 8191, 4095, 33_554_431),
        (0, 0, 0, 0),
        (0, 31, 4095, 131_071),
        (1, 32, 0, 33_685_504),
        (1, 4159, 4095, 50_593_791),
    ];
    for (address, (bank, row, column, cell)) in CORNERS.into_iter().zip(expected) {
        let place = record.map(address).expect("accepted").expect("a bank");
        assert_eq!(
            (place.bank, place.row, place.column, place.cell),
            (bank, Row(row), Column(column), cell)
        );
        assert_eq!(record.way_back(bank, Row(row), Column(column)), Ok(address));
    }
    assert_eq!(
        record.way_back(0, Row(8192), Column(0)),
        Err(Refusal::RowOrColumnTooLarge)
    );
    assert_eq!(
        record.way_back(0, Row(0), Column(4096)),
        Err(Refusal::RowOrColumnTooLarge)
    );
    assert_eq!(
        record.way_back(1, Row(8191), Column(4095)),
        Err(Refusal::NoAddress)
    );
}

#[test]
fn the_last_cell_must_be_lent() {
    let record = two_long_banks();
    let cell = 33_554_431;
    for (length, expected) in [
        (CELL_BYTES * (cell + 1) - 1, Err(Refusal::NotLent)),
        (CELL_BYTES * (cell + 1), Ok(Kind::Stored)),
    ] {
        let mut memory = Memory::with_cells(record, vec![0; length]);
        let answer = memory.write(0x0fff_fff8, &[7; 8]);
        assert_eq!(answer.map(|answer| answer.worst_kind()), expected);
    }
}

#[test]
fn a_memory_of_two_long_banks_reads_what_was_written() {
    let mut memory = Memory::new(two_long_banks()).expect("accepted");
    for address in CORNERS {
        memory
            .write(address, &address.to_le_bytes())
            .expect("accepted");
        memory.flip(address, 3).expect("accepted");
    }
    let mut buffer = [0; 4];
    for address in CORNERS {
        let answer = memory.read(address, &mut buffer).expect("accepted");
        assert_eq!(
            (answer.worst_kind(), buffer),
            (Kind::Corrected(3), address.to_le_bytes())
        );
    }
}
