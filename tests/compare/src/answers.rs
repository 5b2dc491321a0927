//! The model's results as numbers of the C interface.

use model::{Answer, Refusal};

/// What a call leaves of the numbers that are lent for its answer.
pub type Numbers = [u32; 5];

/// What stands in the lent numbers, and in a lent byte, before a call.
pub const UNFILLED: u32 = 0xDEAD_BEEF;
pub const UNFILLED_BYTE: u8 = 0xA6;

/// Added to what an accepted call gave, so that one number names the way that
/// a call went: a refusal is what the call returned, and below this.
pub const ACCEPTED: u32 = 0x1_0000;

/// The kind of a part that was corrected: its low byte.
const CORRECTED: u32 = 2;

/// A refusal is its number plus 256 times the bank that it returns.
pub fn of_refusal(refusal: Refusal) -> u32 {
    u32::from(refusal.number()) + 256 * u32::from(refusal.bank().unwrap_or(0))
}

/// What a call returns: 0 if it is accepted.
pub fn of_result<T>(result: &Result<T, Refusal>) -> u32 {
    match result {
        Ok(_) => 0,
        Err(refusal) => of_refusal(*refusal),
    }
}

/// A part as `mpc106.h` has it: the kind in the low byte, and in the next the
/// flip bit of a correction. For the other kinds that byte is 0.
fn part(answer: Answer) -> u32 {
    match answer {
        Answer::Clean => 1,
        Answer::Corrected(bit) => u32::from(bit) << 8 | CORRECTED,
        Answer::Uncorrectable => 3,
        Answer::Stored => 4,
        Answer::NoBank => 5,
    }
}

/// The flip bit of a part that was corrected, and of no other.
pub fn flip_bit(part: u32) -> Option<u32> {
    (part & 0xFF == CORRECTED).then_some(part >> 8)
}

/// The numbers that an accepted read, write, scrub or burst gives: how many
/// parts it has, and each of them.
pub fn numbers_of_parts(parts: &[Answer]) -> Numbers {
    let mut numbers = [0; 5];
    let (count, places) = numbers.split_first_mut().expect("five numbers");
    *count = parts.len() as u32;
    for (number, &answer) in places.iter_mut().zip(parts) {
        *number = part(answer);
    }
    numbers
}

/// What names the way of an accepted read, write, scrub or burst: the kind of
/// each part is a hexadecimal digit, and that of the first part comes first. The
/// bits of corrections are left out.
pub fn digits_of_parts([count, parts @ ..]: Numbers) -> u32 {
    parts
        .iter()
        .take(count as usize)
        .fold(0, |digits, part| digits << 4 | part & 0xF)
}

/// The numbers if an accepted call gives one.
pub fn one_number(number: u32) -> Numbers {
    [number, UNFILLED, UNFILLED, UNFILLED, UNFILLED]
}

/// A way as a reader would say it.
pub fn shown(way: u32) -> String {
    match (way >= ACCEPTED, way / 256, way % 256) {
        (true, _, _) => format!("accepted {}", way - ACCEPTED),
        (false, 0, number) => format!("refused {number}"),
        (false, bank, number) => format!("refused {number} bank {bank}"),
    }
}
