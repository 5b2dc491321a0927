//! Splits through the wrapper, with values worked out by hand: reads and writes that run into the next doubleword
//! (MEM-17, MEM-18), what their two parts give and report, and what is refused.
use mpc106::{offset, Answer, Kind, Memory, Record, Refusal, CELL_BYTES};

/// What the doublewords at 40 and 48 hold where a test starts with bytes.
const HELD: [u8; 16] = [1, 2, 3, 4, 5, 6, 7, 8, 9, 10, 11, 12, 13, 14, 15, 16];

/// Each bank with its start and its last megabyte, all with 9 row bits. Everything is reported; of corrections the second.
fn switched_on(banks: &[(u32, u8, u8)]) -> Record {
    let mut record = Record::fresh();
    let mut write = |offset, value| assert_eq!(record.write_register(offset, value), Ok(()));
    let mut enabled = 0;
    for &(bank, start, end) in banks {
        write(offset::START + bank, start);
        write(offset::END + bank, end);
        enabled |= 1 << bank;
    }
    write(offset::BANK_ENABLE, enabled);
    write(offset::SINGLE_BIT_TRIGGER, 2);
    write(offset::ERROR_ENABLE_1, 0x24);
    write(offset::ERROR_ENABLE_2, 0x08);
    write(offset::MEMORY, 8);
    record
}

/// Bank 0 is megabytes 0 to 1, so cell k is that of address 8 * k.
fn one_bank() -> Memory {
    Memory::new(switched_on(&[(0, 0, 1)])).expect("memory is on")
}

/// The same with `HELD` at 40.
fn holding() -> Memory {
    let mut memory = one_bank();
    for (address, doubleword) in (0x40..).step_by(8).zip(HELD.chunks(8)) {
        let stored = kinds(memory.write(address, doubleword));
        assert_eq!(stored, Ok(vec![Kind::Stored]));
    }
    memory
}

/// What the doublewords at 40 and 48 hold.
fn held(memory: &mut Memory) -> [u8; 16] {
    let mut bytes = [0; 16];
    for (address, doubleword) in (0x40..).step_by(8).zip(bytes.chunks_mut(8)) {
        memory.read(address, doubleword).expect("accepted");
    }
    bytes
}

fn kinds(answer: Result<Answer, Refusal>) -> Result<Vec<Kind>, Refusal> {
    answer.map(|answer| answer.kinds().collect())
}

fn error_address(record: &Record) -> u32 {
    let bytes = std::array::from_fn(|i| record.registers[0xc8 + i]);
    u32::from_le_bytes(bytes)
}

/// Each place in a doubleword with each count that runs into the next.
fn splits() -> impl Iterator<Item = (usize, usize)> {
    (1..8).flat_map(|place| (9 - place..=8).map(move |count| (place, count)))
}

#[test]
fn both_parts_are_clean() {
    assert_eq!(splits().count(), 28);
    for (place, count) in splits() {
        let mut memory = holding();
        let before = memory.clone();
        let mut buffer = [0xee; 8];
        let read = memory.read(0x40 + place as u32, &mut buffer[..count]);
        assert_eq!(kinds(read), Ok(vec![Kind::Clean; 2]));
        assert_eq!(buffer[..count], HELD[place..place + count]);
        assert_eq!(buffer[count..], [0xee; 8][count..]);
        assert_eq!(memory, before);
    }
}

/// Also the one of 8 bytes merges: no part is a write of a whole doubleword.
#[test]
fn a_write_merges_into_both() {
    for (place, count) in splits() {
        let mut memory = holding();
        let record = memory.record;
        let given = [0xa0, 0xa1, 0xa2, 0xa3, 0xa4, 0xa5, 0xa6, 0xa7];
        let write = memory.write(0x40 + place as u32, &given[..count]);
        assert_eq!(kinds(write), Ok(vec![Kind::Clean; 2]));
        let mut merged = HELD;
        merged[place..place + count].copy_from_slice(&given[..count]);
        assert_eq!(held(&mut memory), merged);
        assert_eq!(memory.record, record);
        assert_eq!(memory.scrub(0x40).map(|x| x.worst_kind()), Ok(Kind::Clean));
        assert_eq!(memory.scrub(0x48).map(|x| x.worst_kind()), Ok(Kind::Clean));
    }
}

/// An uncorrectable first part does not stop the second.
#[test]
fn the_first_part_is_uncorrectable() {
    let mut memory = holding();
    assert_eq!(memory.flip(0x40, 56), Ok(()));
    assert_eq!(memory.flip(0x40, 0), Ok(()));
    let cells = memory.cells.clone();
    let mut buffer = [0; 4];
    let expected = Ok(vec![Kind::Uncorrectable, Kind::Clean]);
    assert_eq!(kinds(memory.read(0x46, &mut buffer)), expected);
    // Data bit 56 is the top bit of the last byte.
    assert_eq!(buffer, [7, 0x88, 9, 10]);
    assert_eq!(memory.record.registers[0xc5], 0x08);
    assert_eq!(error_address(&memory.record), 0x46);
    assert_eq!(kinds(memory.write(0x46, &[0xaa; 4])), expected);
    assert_eq!(memory.cells[..9 * CELL_BYTES], cells[..9 * CELL_BYTES]);
    assert_eq!(held(&mut memory)[8..12], [0xaa, 0xaa, 11, 12]);
    assert_eq!(memory.record.registers[0xb8], 0);
}

/// The second correction reaches the trigger, so the address is that of the second part.
#[test]
fn both_parts_are_corrected() {
    let mut memory = holding();
    assert_eq!(memory.flip(0x40, 63), Ok(()));
    assert_eq!(memory.flip(0x48, 71), Ok(()));
    let mut reader = memory.clone();
    let mut buffer = [0; 8];
    let expected = Ok(vec![Kind::Corrected(63), Kind::Corrected(71)]);
    assert_eq!(kinds(reader.read(0x47, &mut buffer)), expected);
    assert_eq!(buffer, HELD[7..15]);
    assert_eq!(reader.cells, memory.cells);
    assert_eq!(kinds(memory.write(0x47, &[0xaa; 8])), expected);
    let merged = [
        1, 2, 3, 4, 5, 6, 7, 0xaa, 0xaa, 0xaa, 0xaa, 0xaa, 0xaa, 0xaa, 0xaa, 16,
    ];
    assert_eq!(held(&mut memory), merged);
    for record in [&reader.record, &memory.record] {
        assert_eq!(record.registers[0xb8], 2);
        assert_eq!(record.registers[0xc1], 0x04);
        assert_eq!(error_address(record), 0x48);
    }
}

/// Bank 5 is megabyte 0 and bank 2 megabyte 1, whose cells come first.
#[test]
fn the_parts_lie_in_two_banks() {
    let record = switched_on(&[(5, 0, 0), (2, 1, 1)]);
    let mut memory = Memory::new(record).expect("memory is on");
    let clean = Ok(vec![Kind::Clean; 2]);
    assert_eq!(
        kinds(memory.write(0x0f_fffb, &[1, 2, 3, 4, 5, 6, 7, 8])),
        clean
    );
    let last_of_bank_5 = (2 * 0x2_0000 - 1) * CELL_BYTES;
    assert_eq!(memory.cells[..4], [6, 7, 8, 0]);
    assert_eq!(
        memory.cells[last_of_bank_5..][..8],
        [0, 0, 0, 1, 2, 3, 4, 5]
    );
    let mut buffer = [0; 8];
    assert_eq!(kinds(memory.read(0x0f_fffb, &mut buffer)), clean);
    assert_eq!(buffer, [1, 2, 3, 4, 5, 6, 7, 8]);
    assert_eq!(memory.record, record);
}

/// Both ends of megabyte 1, which is bank 0: what a read gives, what it gives after a write, and what is reported.
#[test]
fn one_part_has_no_bank() {
    let (none, clean) = (Kind::NoBank, Kind::Clean);
    let before = ([none, clean], [0xff, 0xff, 0, 0, 0], [0xff, 0xff, 1, 1, 1]);
    let behind = (
        [clean, none],
        [0, 0, 0xff, 0xff, 0xff],
        [1, 1, 0xff, 0xff, 0xff],
    );
    for (address, (expected, first, then), reported) in [
        (0x0f_fffe, before, 0x0f_fffe),
        (0x1f_fffe, behind, 0x20_0000),
    ] {
        let mut memory = Memory::new(switched_on(&[(0, 1, 1)])).expect("memory is on");
        let expected = Ok(expected.to_vec());
        let mut buffer = [0xee; 5];
        assert_eq!(kinds(memory.read(address, &mut buffer)), expected);
        assert_eq!(buffer, first);
        assert_eq!(memory.record.registers[0xc1], 0x20);
        assert_eq!(error_address(&memory.record), reported);
        assert_eq!(kinds(memory.write(address, &[1; 5])), expected);
        assert_eq!(kinds(memory.read(address, &mut buffer)), expected);
        assert_eq!(buffer, then);
    }
}

/// Past megabyte 1: neither part has a bank, and the first report keeps its address.
#[test]
fn no_part_has_a_bank() {
    let mut memory = one_bank();
    let before = memory.cells.clone();
    let expected = Ok(vec![Kind::NoBank, Kind::NoBank]);
    let mut buffer = [0xee; 5];
    assert_eq!(kinds(memory.read(0x60_0006, &mut buffer[..4])), expected);
    assert_eq!(buffer, [0xff, 0xff, 0xff, 0xff, 0xee]);
    assert_eq!(error_address(&memory.record), 0x60_0006);
    assert_eq!(kinds(memory.write(0x60_0006, &[1; 4])), expected);
    assert_eq!(memory.cells, before);
}

/// What a call of `count` bytes near the end of the address space gives.
fn expected_at_the_end(address: u32, count: usize) -> Result<Vec<Kind>, Refusal> {
    if count == 0 || count > 8 {
        Err(Refusal::CountOutOfRange)
    } else if u64::from(address) + count as u64 > 1 << 32 {
        Err(Refusal::PassesLastAddress)
    } else {
        Ok(vec![Kind::NoBank])
    }
}

#[test]
fn no_call_passes_the_last_address() {
    for address in 0xffff_fff8..=0xffff_ffff {
        for count in 0..=9 {
            let mut memory = one_bank();
            let before = memory.clone();
            let mut buffer = [0xee; 9];
            let expected = expected_at_the_end(address, count);
            let read = memory.read(address, &mut buffer[..count]);
            assert_eq!(kinds(read), expected);
            let write = memory.write(address, &[0xaa; 9][..count]);
            assert_eq!(kinds(write), expected);
            if expected.is_err() {
                assert_eq!(memory, before);
                assert_eq!(buffer, [0xee; 9]);
            }
        }
    }
}

/// A split is refused with 9, and leaves everything.
fn is_not_lent(record: Record, mut cells: Vec<u8>, address: u32) {
    let (mut after, before) = (record, cells.clone());
    let mut buffer = [0xee; 6];
    let read = after.read(&cells, address, &mut buffer);
    assert_eq!(read, Err(Refusal::NotLent));
    assert_eq!(buffer, [0xee; 6]);
    let write = after.write(&mut cells, address, &buffer);
    assert_eq!(write, Err(Refusal::NotLent));
    assert_eq!((after, cells), (record, before));
}

#[test]
fn both_cells_must_be_lent() {
    let record = switched_on(&[(0, 0, 1)]);
    // The cells of 40 and 48 are 8 and 9. The first is not clean, so performing its part would show.
    let mut cells = [0; 10 * CELL_BYTES];
    cells[8 * CELL_BYTES] = 0x03;
    for missing in 1..=CELL_BYTES + 1 {
        is_not_lent(record, cells[..cells.len() - missing].to_vec(), 0x44);
    }
    // At the megabyte between these two banks the first part has the higher cell.
    let swapped = switched_on(&[(5, 0, 0), (2, 1, 1)]);
    is_not_lent(swapped, vec![0x5a; CELL_BYTES], 0x0f_fffc);
    // A part without a bank needs no cell.
    let mut alone = switched_on(&[(0, 1, 1)]);
    let answer = alone.read(&[0; CELL_BYTES], 0x0f_fffc, &mut [0; 6]);
    assert_eq!(kinds(answer), Ok(vec![Kind::NoBank, Kind::Clean]));
}
