//! Line bursts through the wrapper, with values worked out by hand: where the beats go, what they report, and what is
//! refused.
use mpc106::{offset, Answer, Kind, Memory, Record, Refusal, CELL_BYTES, LINE_BYTES};

/// Bank 0 is megabytes 0 to 1, so cell k is that of address 8 * k. Everything is reported; of corrections the second.
fn switched_on() -> Record {
    let mut record = Record::fresh();
    for (offset, value) in [
        (offset::END, 1),
        (offset::BANK_ENABLE, 1),
        (offset::SINGLE_BIT_TRIGGER, 2),
        (offset::ERROR_ENABLE_1, 0x24),
        (offset::ERROR_ENABLE_2, 0x08),
        (offset::MEMORY, 8),
    ] {
        assert_eq!(record.write_register(offset, value), Ok(()));
    }
    record
}

/// Lines of four doublewords, each of one byte eight times.
fn line(bytes: [u8; 4]) -> [u8; LINE_BYTES] {
    std::array::from_fn(|i| bytes[i / 8])
}

fn kinds(answer: Result<Answer, Refusal>) -> Result<Vec<Kind>, Refusal> {
    answer.map(|answer| answer.kinds().collect())
}

fn error_address(record: &Record) -> [u8; 4] {
    std::array::from_fn(|i| record.registers[0xc8 + i])
}

/// For each starting doubleword of the line at 40, what the line holds after a burst write of bytes 10, 11, 12, 13.
const STARTS: [(u32, [u8; 4]); 4] = [
    (0x40, [10, 11, 12, 13]),
    (0x48, [13, 10, 11, 12]),
    (0x50, [12, 13, 10, 11]),
    (0x58, [11, 12, 13, 10]),
];

#[test]
fn bursts_wrap_in_their_line() {
    for (start, held) in STARTS {
        let mut memory = Memory::new(switched_on()).expect("memory is on");
        let given = line([10, 11, 12, 13]);
        let stored = Ok(vec![Kind::Stored; 4]);
        assert_eq!(kinds(memory.burst_write(start, &given)), stored);
        for (address, byte) in (0x40..).step_by(8).zip(held) {
            let mut doubleword = [0; 8];
            let answer = memory.read(address, &mut doubleword);
            assert_eq!(kinds(answer), Ok(vec![Kind::Clean]));
            assert_eq!(doubleword, [byte; 8]);
        }
        let (before, behind) = (
            &memory.cells[..8 * CELL_BYTES],
            &memory.cells[12 * CELL_BYTES..],
        );
        assert!(before.iter().chain(behind).all(|&byte| byte == 0));
        let mut buffer = [0; LINE_BYTES];
        let clean = Ok(vec![Kind::Clean; 4]);
        assert_eq!(kinds(memory.burst_read(start, &mut buffer)), clean);
        assert_eq!(buffer, given);
        assert_eq!(memory.record, switched_on());
    }
}

#[test]
fn each_beat_is_reported() {
    let mut memory = Memory::new(switched_on()).expect("memory is on");
    for (address, bit) in [(0x58, 71), (0x48, 0), (0x48, 9), (0x50, 13)] {
        assert_eq!(memory.flip(address, bit), Ok(()));
    }
    let mut buffer = [0xee; LINE_BYTES];
    let answer = memory.burst_read(0x58, &mut buffer);
    // Each beat has the bit of its own doubleword: 71 at 58, 13 at 50.
    let expected = [
        Kind::Corrected(71),
        Kind::Clean,
        Kind::Uncorrectable,
        Kind::Corrected(13),
    ];
    assert_eq!(kinds(answer), Ok(expected.to_vec()));
    // The two inverted bits of the uncorrectable doubleword stay.
    assert_eq!(buffer[..16], [0; 16]);
    assert_eq!(buffer[16..24], [0x80, 0x40, 0, 0, 0, 0, 0, 0]);
    assert_eq!(buffer[24..], [0; 8]);
    assert_eq!(memory.record.registers[0xb8], 2);
    assert_eq!(memory.record.registers[0xc1], 0x04);
    assert_eq!(memory.record.registers[0xc5], 0x08);
    // The third beat was the first to set a bit.
    assert_eq!(error_address(&memory.record), [0x48, 0, 0, 0]);
}

#[test]
fn a_line_without_a_bank_needs_no_cells() {
    let mut record = switched_on();
    let mut buffer = [0; LINE_BYTES];
    let answer = record.burst_read(&[], 0xffff_fff8, &mut buffer);
    assert_eq!(kinds(answer), Ok(vec![Kind::NoBank; 4]));
    assert_eq!(buffer, [0xff; LINE_BYTES]);
    assert_eq!(record.registers[0xc1], 0x20);
    assert_eq!(error_address(&record), [0xf8, 0xff, 0xff, 0xff]);
    let mut record = switched_on();
    let answer = record.burst_write(&mut [], 0x20_0010, &buffer);
    assert_eq!(kinds(answer), Ok(vec![Kind::NoBank; 4]));
    assert_eq!(record.registers[0xc1], 0x20);
    assert_eq!(error_address(&record), [0x10, 0, 0x20, 0]);
}

/// Each with all causes that come after it, and 9 for each starting doubleword.
const REFUSED: [(bool, u32, usize, Refusal); 7] = [
    (false, 0x1c, 31, Refusal::NotReady),
    (true, 0x1c, 31, Refusal::Misaligned),
    (true, 0x18, 31, Refusal::NotCacheLine),
    (true, 0x18, 32, Refusal::NotLent),
    (true, 0x10, 32, Refusal::NotLent),
    (true, 0x08, 32, Refusal::NotLent),
    (true, 0x00, 32, Refusal::NotLent),
];

#[test]
fn a_refused_burst_leaves_everything() {
    for (on, address, count, refusal) in REFUSED {
        let mut record = if on { switched_on() } else { Record::fresh() };
        // Only the check byte of the doubleword at 18 is missing.
        let mut cells = [0x5a; 4 * CELL_BYTES - 1];
        let mut buffer = [0xee; LINE_BYTES];
        let before = record;
        let read = record.burst_read(&cells, address, &mut buffer[..count]);
        assert_eq!(read, Err(refusal));
        assert_eq!(buffer, [0xee; LINE_BYTES]);
        let write = record.burst_write(&mut cells, address, &buffer[..count]);
        assert_eq!(write, Err(refusal));
        assert_eq!(cells, [0x5a; 4 * CELL_BYTES - 1]);
        assert_eq!(record, before);
    }
}

#[test]
fn a_burst_has_exactly_a_line() {
    let mut memory = Memory::new(switched_on()).expect("memory is on");
    for count in [0, 1, 8, 31, 33, 64, 288] {
        let mut buffer = vec![0xee; count];
        let refused = Err(Refusal::NotCacheLine);
        assert_eq!(memory.burst_read(0x40, &mut buffer), refused);
        assert_eq!(memory.burst_write(0x40, &buffer), refused);
    }
}
