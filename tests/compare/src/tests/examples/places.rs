//! Places, ways back, lengths and alike records, and numbers that would be in
//! range if they were cut to a byte.

use super::sides::Sides;
use crate::answers::ACCEPTED;
use crate::request::Request;

/// Bank 0 from MB 0, before it is switched on.
fn one_bank(length_mb: u32, row_code: u8) -> Result<Sides, String> {
    let [low, extended, ..] = (length_mb - 1).to_le_bytes();
    Sides::with(
        2,
        &[(0x90, low), (0x98, extended), (0xA0, 1), (0xF0, row_code)],
    )
}

pub fn places_and_lengths() -> Result<String, String> {
    let mut sides = Sides::two_banks()?;
    sides.no_bank(0x0050_0000)?;
    sides.no_bank(0xFFFF_FFFF)?;
    sides.place(0x0000_1008, [0, 1, 1, 513])?;
    sides.place(0x0020_0000, [1, 512, 0, 262_144 + 512 * 512])?;
    sides.place(0x0040_0000, [1, 0, 0, 262_144])?;
    sides.back(0, 1, 1, 0x0000_1008)?;
    sides.back(1, 512, 0, 0x0020_0000)?;
    sides.back(1, 0, 0, 0x0040_0000)?;
    let nowhere = Request::WayBack {
        bank: 1,
        row: 256,
        column: 0,
    };
    sides.goes(nowhere, 17)?;
    // ON-5
    sides.set(0xF2, 8, ACCEPTED)?;
    // EX-9, ON-3
    one_bank(2, 0)?.set(0xF2, 8, ACCEPTED)?;
    one_bank(3, 0)?.set(0xF2, 8, 13)?;
    for length in [128, 129, 256] {
        one_bank(length, 3)?.set(0xF2, 8, ACCEPTED)?;
    }
    one_bank(257, 3)?.set(0xF2, 8, 13)?;
    thirteen_row_bits()?;
    Sides::new(0).set(0xF2, 8, 11)?;
    different_registers_can_be_alike()?;
    Ok("the specification".to_string())
}

/// EX-12
fn thirteen_row_bits() -> Result<(), String> {
    let writes = [(0x80, 1), (0x98, 1), (0xA0, 1), (0xF0, 3), (0xF2, 8)];
    let mut sides = Sides::with(0, &writes)?;
    sides.place(0x0010_0000, [0, 32, 0, 131_072])?;
    sides.place(0x0FFF_FFFF, [0, 8191, 4095, 33_554_431])?;
    sides.place(0x100F_FFFF, [0, 31, 4095, 131_071])?;
    sides.back(0, 8191, 4095, 0x0FFF_FFF8)
}

/// The interface's own examples: numbers that would be in range if they were
/// cut to a byte, and the number of cells.
pub fn wide_numbers_and_cells() -> Result<String, String> {
    let mut sides = Sides::two_banks()?;
    let flip = Request::WideFlip {
        address: 0,
        bit: 261,
    };
    sides.goes(flip, 8)?;
    sides.goes(Request::WideGet { offset: 0x180 }, 1)?;
    let set = Request::WideSet {
        offset: 0x1B9,
        value: 0,
    };
    sides.goes(set, 1)?;
    let back = Request::WayBack {
        bank: 256,
        row: 0,
        column: 0,
    };
    sides.goes(back, 15)?;
    sides.goes(Request::CellCount, ACCEPTED + 262_144 + 524_288)?;
    sides.set(0xF2, 0, ACCEPTED)?;
    sides.goes(Request::CellCount, 5)?;
    Ok("the interface's own".to_string())
}

/// ALIKE-2: one MB is mapped alike with nine and with ten row bits if it is at
/// an even MB.
fn different_registers_can_be_alike() -> Result<(), String> {
    let on = |length, row_code| {
        let mut sides = one_bank(length, row_code)?;
        sides.set(0xF2, 8, ACCEPTED)?;
        Ok::<Sides, String>(sides)
    };
    let ask = |first: &mut Sides, second: &Sides, answer| {
        first.goes(Request::Alike(Box::new(second.model.record)), answer)
    };
    ask(&mut on(1, 0)?, &on(1, 1)?, ACCEPTED + 1)?;
    ask(&mut on(1, 0)?, &on(2, 0)?, ACCEPTED)?;
    ask(&mut on(1, 0)?, &one_bank(1, 0)?, 5)
}
