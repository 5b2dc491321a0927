//! Splits with values worked out by hand (MEM-16 to MEM-18).

use model::Answer::{Clean, Corrected, NoBank, Stored, Uncorrectable};
use model::Call;

use super::sides::Sides;
use crate::answers::ACCEPTED;

/// What the doublewords at 10 and 18 hold.
const HELD: [u8; 16] = [1, 2, 3, 4, 5, 6, 7, 8, 9, 10, 11, 12, 13, 14, 15, 16];

/// Bank 3 is MB 1 and bank 1 is MB 2; all cells of both are lent.
pub fn splits() -> Result<String, String> {
    let mut sides = Sides::with(
        0x4_0000,
        &[
            (0x83, 1),
            (0x93, 1),
            (0x81, 2),
            (0x91, 2),
            (0xA0, 0x0A),
            (0xB9, 2),
            (0xC0, 0xFF),
            (0xC4, 0xFF),
            (0xF2, 8),
        ],
    )?;
    in_one_bank(&mut sides)?;
    uncorrectable_first(&mut sides)?;
    corrected_twice(&mut sides)?;
    at_the_ends_of_banks(&mut sides)?;
    at_the_last_address(&mut sides)?;
    Ok("in a bank, over the ends of two, and at the last address".to_string())
}

/// `HELD` is stored at 100010 and the error registers are cleared.
fn store(sides: &mut Sides) -> Result<(), String> {
    for (address, bytes) in (0x0010_0010..).step_by(8).zip(HELD.chunks(8)) {
        sides.write(address, bytes, &[Stored])?;
    }
    for (offset, value) in [(0xB8, 0), (0xC1, 0xFF), (0xC5, 0xFF)] {
        sides.set(offset, value, ACCEPTED)?;
    }
    Ok(())
}

/// MEM-17: a write of 8 bytes merges into both doublewords and stores neither
/// whole.
fn in_one_bank(sides: &mut Sides) -> Result<(), String> {
    store(sides)?;
    sides.read(0x0010_0013, &[Clean, Clean], &HELD[3..11])?;
    sides.read(0x0010_0017, &[Clean, Clean], &[8, 9])?;
    sides.write(0x0010_0013, &[0xAA; 8], &[Clean, Clean])?;
    sides.read(
        0x0010_0010,
        &[Clean],
        &[1, 2, 3, 0xAA, 0xAA, 0xAA, 0xAA, 0xAA],
    )?;
    sides.read(
        0x0010_0018,
        &[Clean],
        &[0xAA, 0xAA, 0xAA, 12, 13, 14, 15, 16],
    )?;
    sides.get(0xB8, 0)
}

/// The second part is performed all the same.
fn uncorrectable_first(sides: &mut Sides) -> Result<(), String> {
    store(sides)?;
    sides.flip(0x0010_0010, 56)?;
    sides.flip(0x0010_0010, 0)?;
    let parts = [Uncorrectable, Clean];
    sides.read(0x0010_0016, &parts, &[7, 0x88, 9, 10])?;
    sides.get(0xC5, 0x08)?;
    sides.reported_address(0x0010_0016)?;
    sides.write(0x0010_0016, &[0xBB; 4], &parts)?;
    sides.read(0x0010_0016, &parts, &[7, 0x88, 0xBB, 0xBB, 11])
}

/// B8 reaches B9 with the second part, whose address is stored.
fn corrected_twice(sides: &mut Sides) -> Result<(), String> {
    store(sides)?;
    sides.flip(0x0010_0010, 63)?;
    sides.flip(0x0010_0018, 71)?;
    sides.read(0x0010_0017, &[Corrected(63), Corrected(71)], &HELD[7..15])?;
    sides.get(0xB8, 2)?;
    sides.get(0xC1, 0x04)?;
    sides.reported_address(0x0010_0018)?;
    sides.write(0x0010_0017, &[0xCC; 2], &[Corrected(63), Corrected(71)])?;
    sides.read(0x0010_0016, &[Clean, Clean], &[7, 0xCC, 0xCC, 10])
}

/// MEM-18: from no bank into bank 3, on into bank 1, and out of it again.
fn at_the_ends_of_banks(sides: &mut Sides) -> Result<(), String> {
    store(sides)?;
    let cell = |sides: &Sides, number: usize| sides.library.cells()[9 * number..][..8].to_vec();
    sides.write(0x000F_FFFE, &[1, 2, 3, 4], &[NoBank, Clean])?;
    sides.reported_address(0x000F_FFFE)?;
    sides.read(0x000F_FFFE, &[NoBank, Clean], &[0xFF, 0xFF, 3, 4])?;
    sides.write(0x001F_FFFD, &[5, 6, 7, 8, 9], &[Clean, Clean])?;
    sides.read(0x001F_FFFD, &[Clean, Clean], &[5, 6, 7, 8, 9])?;
    sides.set(0xC1, 0xFF, ACCEPTED)?;
    sides.write(0x002F_FFFF, &[10, 11], &[Clean, NoBank])?;
    sides.reported_address(0x0030_0000)?;
    sides.read(0x002F_FFFF, &[Clean, NoBank], &[10, 0xFF])?;
    // The cells of bank 1 come first, though its addresses are the higher ones.
    for (number, bytes) in [
        (0x2_0000, [3, 4, 0, 0, 0, 0, 0, 0]),
        (0x3_FFFF, [0, 0, 0, 0, 0, 5, 6, 7]),
        (0x0_0000, [8, 9, 0, 0, 0, 0, 0, 0]),
        (0x1_FFFF, [0, 0, 0, 0, 0, 0, 0, 10]),
    ] {
        if cell(sides, number) != bytes {
            return Err(format!("cell {number} holds {:?}", cell(sides, number)));
        }
    }
    Ok(())
}

/// REF-7: the byte at FFFFFFFF can be reached, and none after it.
fn at_the_last_address(sides: &mut Sides) -> Result<(), String> {
    let write = |address, count| Call::Write {
        address,
        bytes: vec![0; count],
    };
    sides.read(0xFFFF_FFF8, &[NoBank], &[0xFF; 8])?;
    sides.read(0xFFFF_FFFF, &[NoBank], &[0xFF])?;
    for (address, count) in [(0xFFFF_FFF9, 8), (0xFFFF_FFFE, 3), (0xFFFF_FFFF, 2)] {
        sides.refused(Call::Read { address, count }, 7)?;
    }
    sides.refused(write(0xFFFF_FFFD, 4), 7)?;
    sides.write(0xFFFF_FFFD, &[0; 3], &[NoBank])?;
    sides.refused(write(0xFFFF_FFFF, 9), 6)
}
