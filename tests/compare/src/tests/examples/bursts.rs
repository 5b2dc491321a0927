//! Bursts with values worked out by hand (MEM-13 to MEM-16).

use model::Answer::{self, Clean, Corrected, NoBank, Stored, Uncorrectable};
use model::Call;

use super::sides::Sides;
use crate::answers::ACCEPTED;

/// Bank 0 is MB 0, and all its cells are lent.
pub fn bursts() -> Result<String, String> {
    let writes = [(0xA0, 1), (0xF2, 8), (0xB9, 2), (0xC0, 0xFF), (0xC4, 0xFF)];
    let mut sides = Sides::with(0x2_0000, &writes)?;
    for line in [0, 0x000F_FFE0] {
        bursts_of_a_line(&mut sides, line)?;
    }
    for start in [
        0xFFFF_FFE0,
        0xFFFF_FFE8,
        0xFFFF_FFF0,
        0xFFFF_FFF8,
        0x0010_0000,
    ] {
        bursts_without_a_bank(&mut sides, start)?;
    }
    reports_of_a_burst(&mut sides)?;
    Ok("the first and the last line of a bank, and lines without a bank".to_string())
}

/// Whatever doubleword a burst starts at, doubleword k of the line gets k + 1.
fn bursts_of_a_line(sides: &mut Sides, line: u32) -> Result<(), String> {
    for (start, order) in [
        (0, [1, 2, 3, 4]),
        (8, [2, 3, 4, 1]),
        (16, [3, 4, 1, 2]),
        (24, [4, 1, 2, 3]),
    ] {
        sides.burst_write(line + 8, [[0xEE; 8]; 4], Stored)?;
        sides.burst_write(line + start, order.map(|byte| [byte; 8]), Stored)?;
        for (address, byte) in (line..).step_by(8).zip(1..=4) {
            sides.read(address, &[Clean], &[byte; 8])?;
        }
        sides.burst_read(line + start, order.map(|byte| (Clean, [byte; 8])))?;
    }
    Ok(())
}

/// The first beat is the one whose address is stored.
fn bursts_without_a_bank(sides: &mut Sides, start: u32) -> Result<(), String> {
    sides.set(0xC1, 0xFF, ACCEPTED)?;
    sides.burst_read(start, [(NoBank, [0xFF; 8]); 4])?;
    sides.get(0xC1, 0x20)?;
    sides.reported_address(start)?;
    sides.burst_write(start, [[0; 8]; 4], NoBank)
}

/// From 18 on the beats are corrected, clean, uncorrectable and corrected. The
/// third is the first to set a bit, and B8 reaches B9 with the fourth.
fn reports_of_a_burst(sides: &mut Sides) -> Result<(), String> {
    sides.set(0xC1, 0xFF, ACCEPTED)?;
    sides.burst_write(0, [[0; 8]; 4], Stored)?;
    for (address, bit) in [(0x18, 71), (0x08, 0), (0x08, 9), (0x10, 13)] {
        sides.flip(address, bit)?;
    }
    sides.burst_read(
        0x18,
        [
            (Corrected(71), [0; 8]),
            (Clean, [0; 8]),
            (Uncorrectable, [0x80, 0x40, 0, 0, 0, 0, 0, 0]),
            (Corrected(13), [0; 8]),
        ],
    )?;
    for (offset, value) in [
        (0xB8, 2),
        (0xC1, 0x04),
        (0xC5, 0x08),
        (0xC8, 0x08),
        (0xC9, 0),
    ] {
        sides.get(offset, value)?;
    }
    Ok(())
}

impl Sides {
    /// A burst read that gives these answers and doublewords, beat by beat.
    fn burst_read(&mut self, address: u32, beats: [(Answer, [u8; 8]); 4]) -> Result<(), String> {
        let answers = beats.map(|(answer, _)| answer);
        let bytes = beats.map(|(_, bytes)| bytes).concat();
        self.answers(Call::BurstRead { address, count: 32 }, &answers, &bytes)
    }

    /// A burst write of these doublewords that answers the same at each beat.
    fn burst_write(
        &mut self,
        address: u32,
        beats: [[u8; 8]; 4],
        answer: Answer,
    ) -> Result<(), String> {
        let bytes = beats.concat();
        self.answers(Call::BurstWrite { address, bytes }, &[answer; 4], &[])
    }
}
