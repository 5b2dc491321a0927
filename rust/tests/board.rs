//! Numbers in the board's byte order, images and saves, against single bytes and what was worked out by hand.
use mpc106::{offset, Answer, Kind, LoadError, Memory, Record, Refusal};

/// What the doublewords at 20 and 28 hold.
const HELD: [u8; 16] = [
    0x11, 0x22, 0x33, 0x44, 0x55, 0x66, 0x77, 0x88, 0x99, 0xaa, 0xbb, 0xcc, 0xdd, 0xee, 0xf0, 0x0f,
];

/// Bank 0 is megabyte 1 alone, so that it has no bank before or after it; addresses without one are reported.
fn record_on() -> Record {
    let mut record = Record::fresh();
    for (offset, value) in [
        (offset::START, 1),
        (offset::END, 1),
        (offset::BANK_ENABLE, 1),
        (offset::ERROR_ENABLE_1, 0x20),
        (offset::MEMORY, 8),
    ] {
        record.write_register(offset, value).expect("accepted");
    }
    record
}

const BASE: u32 = 0x10_0000;
const END: u32 = 0x20_0000;

/// One bit of the second doubleword is wrong, so that answers have something to say.
fn memory_holding() -> Memory {
    let mut memory = Memory::new(record_on()).expect("memory is on");
    for (at, bytes) in [(BASE, &HELD[..8]), (BASE + 8, &HELD[8..])] {
        memory.write(at, bytes).expect("accepted");
    }
    memory.flip(BASE + 8, 40).expect("accepted");
    memory
}

/// The bytes from an address on, read one by one.
fn bytes_at(memory: &mut Memory, address: u32, count: u32) -> Vec<u8> {
    let mut byte = [0];
    let mut read = |at| memory.read(at, &mut byte).map(|_| byte[0]);
    (address..address + count)
        .map(|at| read(at).expect("accepted"))
        .collect()
}

/// The call gives what a read of as many bytes gives, and leaves the same; the number is this one.
fn check_read<T: PartialEq + std::fmt::Debug, const COUNT: usize>(
    address: u32,
    read: impl Fn(&mut Memory, u32) -> Result<(T, Answer), Refusal>,
    number: impl Fn([u8; COUNT]) -> T,
) {
    let (mut memory, mut other) = (memory_holding(), memory_holding());
    let mut bytes = [0; COUNT];
    let answer = other.read(address, &mut bytes).expect("accepted");
    assert_eq!(read(&mut memory, address), Ok((number(bytes), answer)));
    assert!(memory == other);
}

/// The lowest address has the highest byte: each byte is worth 256 times the next one.
fn number_of(bytes: &[u8]) -> u64 {
    bytes
        .iter()
        .fold(0, |number, byte| number * 256 + u64::from(*byte))
}

#[test]
fn numbers_are_read_in_the_order_of_the_board() {
    let mut memory = memory_holding();
    assert_eq!(memory.read_u16(BASE + 7).map(|x| x.0), Ok(0x8899));
    assert_eq!(memory.read_u32(BASE + 2).map(|x| x.0), Ok(0x3344_5566));
    assert_eq!(
        memory.read_u64(BASE).map(|x| x.0),
        Ok(0x1122_3344_5566_7788)
    );
    for address in BASE..BASE + 8 {
        check_read(address, Memory::read_u16, |x: [u8; 2]| number_of(&x) as u16);
        check_read(address, Memory::read_u32, |x: [u8; 4]| number_of(&x) as u32);
        check_read(address, Memory::read_u64, |x: [u8; 8]| number_of(&x));
    }
}

/// The call gives what a write of these bytes gives, and leaves the same.
fn check_write(address: u32, write: impl Fn(&mut Memory) -> Result<Answer, Refusal>, bytes: &[u8]) {
    let (mut memory, mut other) = (memory_holding(), memory_holding());
    assert_eq!(write(&mut memory), other.write(address, bytes));
    assert!(memory == other);
}

#[test]
fn numbers_are_written_in_the_order_of_the_board() {
    for at in BASE..BASE + 8 {
        check_write(at, |x| x.write_u16(at, 0xcafe), &[0xca, 0xfe]);
        let four = [0xde, 0xad, 0xbe, 0xef];
        check_write(at, |x| x.write_u32(at, 0xdead_beef), &four);
        let eight = [0x80, 1, 2, 3, 4, 5, 6, 7];
        check_write(at, |x| x.write_u64(at, 0x8001_0203_0405_0607), &eight);
    }
}

#[test]
fn numbers_are_refused_as_bytes_are() {
    let mut memory = memory_holding();
    let before = memory.clone();
    let last = Err(Refusal::PassesLastAddress);
    assert_eq!(memory.read_u16(u32::MAX).map(|_| ()), last);
    assert_eq!(memory.write_u64(u32::MAX, 0).map(|_| ()), last);
    memory.cells.truncate(9);
    let lent = memory.clone();
    let not_lent = Err(Refusal::NotLent);
    assert_eq!(memory.read_u32(BASE + 6).map(|_| ()), not_lent);
    assert_eq!(memory.write_u32(BASE + 6, 0).map(|_| ()), not_lent);
    assert!(memory == lent && memory.record == before.record);
}

#[test]
fn the_error_address_is_one_number() {
    let mut memory = memory_holding();
    assert_eq!(memory.record.error_address(), 0);
    let (number, answer) = memory.read_u32(0x89ab_cdec).expect("accepted");
    assert_eq!((number, answer.worst_kind()), (u32::MAX, Kind::NoBank));
    assert_eq!(memory.record.error_address(), 0x89ab_cdec);
    assert_eq!(
        memory.record.registers[0xc8..0xcc],
        [0xec, 0xcd, 0xab, 0x89]
    );
}

#[test]
fn the_worst_kind_is_of_both_halves_of_a_split() {
    let mut memory = memory_holding();
    memory.flip(BASE + 8, 41).expect("accepted");
    let (_, answer) = memory.read_u32(BASE + 6).expect("accepted");
    assert!(answer.kinds().eq([Kind::Clean, Kind::Uncorrectable]));
    assert_eq!(answer.worst_kind(), Kind::Uncorrectable);
}

#[test]
fn images_are_loaded_whole() {
    let image: Vec<u8> = (1..=40).collect();
    for address in BASE..BASE + 17 {
        for length in 0..=image.len() {
            let mut memory = memory_holding();
            let mut expected = bytes_at(&mut memory, BASE, 64);
            let from = (address - BASE) as usize;
            expected[from..from + length].copy_from_slice(&image[..length]);
            assert_eq!(memory.load(address, &image[..length]), Ok(()));
            assert_eq!(bytes_at(&mut memory, BASE, 64), expected);
        }
    }
}

fn stopped(given: Result<(), LoadError>) -> (usize, Result<Kind, Refusal>) {
    let error = given.expect_err("not loaded whole");
    (error.stored, error.given)
}

#[test]
fn loading_stops_where_nothing_is_stored() {
    let image: Vec<u8> = (1..=40).collect();
    let mut memory = memory_holding();
    let no_bank = Ok(Kind::NoBank);
    assert_eq!(stopped(memory.load(END - 13, &image)), (13, no_bank));
    assert_eq!(bytes_at(&mut memory, END - 13, 13), image[..13]);
    assert_eq!(memory.record.error_address(), END);
    assert_eq!(stopped(memory.load(BASE - 2, &image)), (0, no_bank));
    assert_eq!(stopped(memory.load(u32::MAX, &image)), (0, no_bank));

    memory.flip(BASE + 8, 41).expect("accepted");
    let uncorrectable = Ok(Kind::Uncorrectable);
    assert_eq!(stopped(memory.load(BASE, &image[..12])), (8, uncorrectable));
    assert_eq!(memory.load(BASE, &image[..16]), Ok(()));

    memory.cells.truncate(9 * 4 - 1);
    let not_lent = Err(Refusal::NotLent);
    assert_eq!(stopped(memory.load(BASE + 5, &image)), (0x18 - 5, not_lent));
    memory
        .record
        .write_register(offset::MEMORY, 0)
        .expect("accepted");
    let not_ready = Err(Refusal::NotReady);
    assert_eq!(stopped(memory.load(BASE, &image)), (0, not_ready));
}

#[test]
fn what_stopped_a_load_is_said_in_words() {
    let image = [0; 16];
    let mut memory = memory_holding();
    let text = |given: Result<(), LoadError>| given.expect_err("not loaded whole").to_string();
    assert_eq!(
        text(memory.load(END - 8, &image)),
        "8 bytes are loaded, and no more: no enabled bank holds the next address"
    );
    memory.cells.truncate(9);
    assert_eq!(
        text(memory.load(BASE, &image)),
        "8 bytes are loaded, and no more: a cell that the call needs is not wholly within the lent cells"
    );
}

#[test]
fn a_save_is_loaded_from_its_registers() {
    let record = record_on();
    let loaded = Record::from_registers(record.registers);
    assert!(loaded == record);
    assert_eq!(loaded.is_alike(&record), Ok(true));
    let bytes = std::array::from_fn(|i| (7 * i + 3) as u8);
    assert_eq!(Record::from_registers(bytes).registers, bytes);
}
