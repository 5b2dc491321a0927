//! The bit of a correction through the wrapper: every flip bit at every call that can correct, and the bits that the check
//! byte names where three bits are wrong. What is expected is worked out from the flips alone (ECC-3, ECC-6).
use mpc106::{offset, Answer, Kind, Memory, Record, Refusal, CELL_BYTES, LINE_BYTES};

const BITS: u8 = 72;

/// Data with ones and zeros in every byte, and the two extremes.
const PATTERNS: [[u8; 8]; 4] = [
    [0; 8],
    [0xff; 8],
    [0x80, 0x40, 0x20, 0x10, 0x08, 0x04, 0x02, 0x01],
    [0xa5, 0x3c, 0x0f, 0x69, 0xc3, 0x5a, 0x96, 0xf1],
];

/// Bank 0 is megabyte 0, so cell k is that of address 8 * k. Four cells are lent.
fn line_of(pattern: [u8; 8]) -> Memory {
    let mut record = Record::fresh();
    for (offset, value) in [(offset::BANK_ENABLE, 1), (offset::MEMORY, 8)] {
        assert_eq!(record.write_register(offset, value), Ok(()));
    }
    let mut memory = Memory::with_cells(record, vec![0; 4 * CELL_BYTES]);
    for address in [0, 8, 16, 24] {
        let stored = kinds(memory.write(address, &pattern));
        assert_eq!(stored, Ok(vec![Kind::Stored]));
    }
    memory
}

/// The same with these bits of its doublewords inverted.
fn flipped(pattern: [u8; 8], flips: &[(u32, u8)]) -> Memory {
    let mut memory = line_of(pattern);
    for &(address, bit) in flips {
        assert_eq!(memory.flip(address, bit.into()), Ok(()));
    }
    memory
}

fn kinds(answer: Result<Answer, Refusal>) -> Result<Vec<Kind>, Refusal> {
    answer.map(|answer| answer.kinds().collect())
}

fn corrected(bits: &[u8]) -> Result<Vec<Kind>, Refusal> {
    Ok(bits.iter().map(|&bit| Kind::Corrected(bit)).collect())
}

/// Each place in a doubleword with each count that stays in it.
fn inside() -> impl Iterator<Item = (usize, usize)> {
    (0..8).flat_map(|place| (1..=8 - place).map(move |count| (place, count)))
}

/// The bit is that of the doubleword, whichever of its bytes are read or written.
#[test]
fn reads_and_short_writes_name_the_bit() {
    assert_eq!(inside().count(), 36);
    for pattern in PATTERNS {
        for bit in 0..BITS {
            for (place, count) in inside() {
                one_access(pattern, bit, place, count);
            }
        }
    }
}

fn one_access(pattern: [u8; 8], bit: u8, place: usize, count: usize) {
    let mut memory = flipped(pattern, &[(8, bit)]);
    let address = 8 + place as u32;
    let mut buffer = [0; 8];
    let read = memory.read(address, &mut buffer[..count]);
    assert_eq!(kinds(read), corrected(&[bit]));
    assert_eq!(buffer[..count], pattern[place..place + count]);
    if count < 8 {
        let write = memory.write(address, &pattern[..count]);
        assert_eq!(kinds(write), corrected(&[bit]));
    }
    let beside = memory.read(16, &mut buffer);
    assert_eq!(kinds(beside), Ok(vec![Kind::Clean]));
}

#[test]
fn scrubs_name_the_bit_once() {
    for pattern in PATTERNS {
        for bit in 0..BITS {
            let mut memory = flipped(pattern, &[(16, bit)]);
            let scrub = memory.scrub(16 + u32::from(bit % 8));
            assert_eq!(kinds(scrub), corrected(&[bit]));
            assert_eq!(kinds(memory.scrub(16)), Ok(vec![Kind::Clean]));
        }
    }
}

/// The bits are in the order of the beats, which is not that of addresses if the burst wraps (MEM-15).
#[test]
fn beats_have_bits_of_their_own() {
    for pattern in PATTERNS {
        for bit in 0..BITS {
            let bits = [0, 1, 17, 40].map(|more| (bit + more) % BITS);
            let flips: Vec<_> = [0, 8, 16, 24].into_iter().zip(bits).collect();
            for first in 0..4 {
                let mut memory = flipped(pattern, &flips);
                let mut expected = bits;
                expected.rotate_left(first);
                let mut line = [0; LINE_BYTES];
                let answer = memory.burst_read(8 * first as u32, &mut line);
                assert_eq!(kinds(answer), corrected(&expected));
                assert_eq!(line[..], pattern.repeat(4));
            }
        }
    }
}

/// One part of a split is corrected or both are, with different bits (MEM-18).
#[test]
fn parts_of_splits_have_bits_of_their_own() {
    for bit in 0..BITS {
        let other = (bit + 35) % BITS;
        let (first, second) = (Kind::Corrected(bit), Kind::Corrected(other));
        for (flips, expected) in [
            (vec![(8, bit)], [first, Kind::Clean]),
            (vec![(16, other)], [Kind::Clean, second]),
            (vec![(8, bit), (16, other)], [first, second]),
        ] {
            let mut memory = flipped(PATTERNS[3], &flips);
            let read = memory.read(13, &mut [0; 8]);
            assert_eq!(kinds(read), Ok(expected.to_vec()));
            let write = memory.write(13, &[0x77; 8]);
            assert_eq!(kinds(write), Ok(expected.to_vec()));
        }
    }
}

/// Three wrong bits whose columns add up to that of a fourth, which is right (ECC-2, ECC-6): 7, 11, 13 to 1; 7, 11, 1 to
/// 13; 1, 2, 4 to 7; 8, 16, 7 to 31.
#[test]
fn a_miscorrection_names_the_bit_of_the_syndrome() {
    for (flips, named) in [
        ([0, 1, 2], 64),
        ([0, 1, 64], 2),
        ([64, 65, 66], 0),
        ([67, 68, 0], 56),
    ] {
        let mut memory = flipped([0; 8], &flips.map(|bit| (8, bit)));
        let read = memory.read(8, &mut [0; 8]);
        assert_eq!(kinds(read), corrected(&[named]));
        assert_eq!(kinds(memory.scrub(8)), corrected(&[named]));
    }
}

/// Two wrong bits are uncorrectable, and a full write looks at nothing: no bit then.
#[test]
fn other_kinds_have_no_bit() {
    let mut memory = flipped(PATTERNS[3], &[(8, 5), (8, 70), (16, 9)]);
    let uncorrectable = Ok(vec![Kind::Uncorrectable]);
    assert_eq!(kinds(memory.read(8, &mut [0; 8])), uncorrectable);
    assert_eq!(kinds(memory.scrub(8)), uncorrectable);
    assert_eq!(kinds(memory.write(9, &[1])), uncorrectable);
    let stored = Ok(vec![Kind::Stored]);
    assert_eq!(kinds(memory.write(16, &[1; 8])), stored);
    let none = Ok(vec![Kind::NoBank]);
    assert_eq!(kinds(memory.read(0x10_0000, &mut [0; 8])), none);
}
