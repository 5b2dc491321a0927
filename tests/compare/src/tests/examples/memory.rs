//! Check bytes, syndromes, short writes and reports.

use model::Answer::{self, Clean, Corrected, NoBank, Stored, Uncorrectable};

use super::sides::Sides;
use crate::answers::ACCEPTED;

pub fn memory_and_errors() -> Result<String, String> {
    check_bytes()?;
    syndromes()?;
    three_flips()?;
    short_write_into_a_corrected_cell()?;
    reports()?;
    counter_stops()?;
    Ok("the specification".to_string())
}

fn check_bytes() -> Result<(), String> {
    let mut sides = Sides::two_banks()?;
    let rest = |first: u8, last: u8| [first, 0, 0, 0, 0, 0, 0, last];
    for (bytes, check) in [
        ([0; 8], 0x00),
        (rest(0x80, 0), 0x07),
        (rest(0xFF, 0), 0x06),
        (rest(0, 0x01), 0x57),
        ([0xFF; 8], 0xD8),
    ] {
        sides.write(0, &bytes, &[Stored])?;
        sides.check_byte(check)?;
        sides.read(0, &[Clean], &bytes)?;
    }
    Ok(())
}

/// EX-2. Flips of check bits alone make any syndrome; data bit 56 is the top
/// bit of byte 7.
fn syndromes() -> Result<(), String> {
    for (syndrome, answer, byte_7) in [
        (0x00, Clean, 0),
        (0x03, Uncorrectable, 0),
        (0x40, Corrected(70), 0),
        (0x1F, Corrected(56), 0x80),
    ] {
        let check_bits = (0..8).filter(|bit| syndrome >> bit & 1 == 1);
        let flips: Vec<u8> = check_bits.map(|bit| 64 + bit).collect();
        after_flips(&flips, answer, [0, 0, 0, 0, 0, 0, 0, byte_7])?;
    }
    Ok(())
}

/// Three flips whose columns make that of a fourth bit, which was right and is
/// inverted too if it is a data bit (ECC-6, ECC-7): 7, 11 and 13 make 1; 7, 11
/// and 1 make 13; 32, 64 and 128 make 224; 87, 1 and 2 make 84, which is the
/// twenty-ninth number with three ones; 7, 8 and 32 make 47.
const THREE_FLIPS: [([u8; 3], u8, [u8; 8]); 5] = [
    ([0, 1, 2], 64, [0xE0, 0, 0, 0, 0, 0, 0, 0]),
    ([0, 1, 64], 2, [0xE0, 0, 0, 0, 0, 0, 0, 0]),
    ([69, 70, 71], 55, [0, 0, 0, 0, 0, 0, 0x01, 0]),
    ([63, 64, 65], 28, [0, 0, 0, 0x08, 0, 0, 0, 0x01]),
    ([0, 67, 69], 57, [0x80, 0, 0, 0, 0, 0, 0, 0x40]),
];

fn three_flips() -> Result<(), String> {
    for (flips, bit, bytes) in THREE_FLIPS {
        after_flips(&flips, Corrected(bit), bytes)?;
    }
    Ok(())
}

/// Bytes of zeros with these bits inverted: what a read gives.
fn after_flips(flips: &[u8], answer: Answer, bytes: [u8; 8]) -> Result<(), String> {
    let mut sides = Sides::two_banks()?;
    for &bit in flips {
        sides.flip(0, bit)?;
    }
    sides.read(0, &[answer], &bytes)
}

/// EX-11: a short write merges into corrected bytes (MEM-5).
fn short_write_into_a_corrected_cell() -> Result<(), String> {
    let mut sides = Sides::two_banks()?;
    sides.flip(3, 7)?;
    sides.write(1, &[0xAA], &[Corrected(7)])?;
    sides.read(0, &[Clean], &[0, 0xAA, 0, 0, 0, 0, 0, 0])?;
    // MEM-6
    sides.flip(0, 0)?;
    sides.flip(0, 1)?;
    sides.write(2, &[0xBB], &[Uncorrectable])?;
    sides.read(0, &[Uncorrectable], &[0xC0, 0xAA, 0, 0, 0, 0, 0, 0])?;
    // MEM-4
    sides.write(0, &[1; 8], &[Stored])?;
    sides.read(0, &[Clean], &[1; 8])
}

/// EX-11: nothing is reported while B8 and B9 are both 0 (ERR-2). The address
/// of the first report alone is stored, lowest byte first (ERR-5).
fn reports() -> Result<(), String> {
    let mut sides = Sides::two_banks()?;
    sides.set(0xC0, 0xFF, ACCEPTED)?;
    sides.set(0xC4, 0xFF, ACCEPTED)?;
    sides.read(0, &[Clean], &[0; 8])?;
    sides.get(0xC1, 0)?;
    sides.read(0x1234_5678, &[NoBank], &[0xFF; 8])?;
    sides.get(0xC1, 0x20)?;
    sides.read(0x5678_1234, &[NoBank], &[0xFF; 4])?;
    sides.reported_address(0x1234_5678)?;
    sides.set(0xC1, 0xFF, ACCEPTED)?;
    sides.set(0xB9, 2, ACCEPTED)?;
    sides.flip(8, 13)?;
    // MEM-3: the cell stays, so a second read corrects again.
    sides.read(8, &[Corrected(13)], &[0; 8])?;
    sides.get(0xC1, 0)?;
    sides.read(9, &[Corrected(13)], &[0; 2])?;
    sides.get(0xC1, 0x04)?;
    sides.get(0xC8, 9)?;
    sides.flip(8, 6)?;
    sides.scrub(8, Uncorrectable)?;
    sides.get(0xC5, 0x08)
}

/// B8 stops at 255, where a further correction reports nothing.
fn counter_stops() -> Result<(), String> {
    let mut sides = Sides::two_banks()?;
    for (offset, value) in [(0xB8, 254), (0xB9, 255), (0xC0, 4)] {
        sides.set(offset, value, ACCEPTED)?;
    }
    sides.flip(0, 71)?;
    sides.read(0, &[Corrected(71)], &[0; 8])?;
    sides.get(0xB8, 255)?;
    sides.get(0xC1, 4)?;
    sides.set(0xC1, 4, ACCEPTED)?;
    sides.scrub(0, Corrected(71))?;
    sides.get(0xB8, 255)?;
    sides.get(0xC1, 0)?;
    sides.scrub(0, Clean)
}
