//! Both accesses of splits: each has the bit of its own doubleword (MEM-18).

use model::code::FLIP_BITS;
use model::gen::{edges, Rng};
use model::Answer::{Clean, Corrected};
use model::{Answer, Call};

use super::{cell, Setup, PATTERNS};
use crate::coverage::Coverage;
use crate::tests::splits::{of_both, places_and_counts};
use crate::ways::{every_bit, Met};

/// Every place with every count: the first access corrected, the second, or both
/// at different bits. Then every two bits, at some place.
pub fn of_parts(rng: &mut Rng) -> Result<String, String> {
    let mut coverage = Coverage::new();
    for pattern in PATTERNS {
        let setup = Setup::draw(rng);
        for bit in 0..FLIP_BITS {
            let other = (bit + 1 + rng.below(71) as u8) % FLIP_BITS;
            for flips in [
                [Some(bit), None],
                [None, Some(bit)],
                [Some(bit), Some(other)],
            ] {
                every_place(rng, &setup, pattern, flips, &mut coverage)?;
            }
        }
        every_two_bits(rng, &setup, pattern, &mut coverage)?;
    }
    coverage.check(of_both(|kind| every_bit(kind, 2)))?;
    Ok(format!(
        "{} patterns, each flip bit and each two",
        PATTERNS.len()
    ))
}

/// The bit that is inverted in each of the two doublewords, if any.
type Flips = [Option<u8>; 2];

fn every_place(
    rng: &mut Rng,
    setup: &Setup,
    pattern: [u8; 8],
    flips: Flips,
    coverage: &mut Coverage<Met>,
) -> Result<(), String> {
    for (place, count) in places_and_counts() {
        let split = (setup.address + place, count);
        read_and_write(rng, setup, split, pattern, flips, coverage)?;
    }
    Ok(())
}

fn every_two_bits(
    rng: &mut Rng,
    setup: &Setup,
    pattern: [u8; 8],
    coverage: &mut Coverage<Met>,
) -> Result<(), String> {
    for first in 0..FLIP_BITS {
        for second in 0..FLIP_BITS {
            let split = edges::split(rng, setup.address);
            let flips = [Some(first), Some(second)];
            read_and_write(rng, setup, split, pattern, flips, coverage)?;
        }
    }
    Ok(())
}

fn read_and_write(
    rng: &mut Rng,
    setup: &Setup,
    (address, count): (u32, usize),
    pattern: [u8; 8],
    flips: Flips,
    coverage: &mut Coverage<Met>,
) -> Result<(), String> {
    let cells = flips.map(|bit| cell(pattern, bit.as_slice())).concat();
    let expected: [Answer; 2] = flips.map(|flip| flip.map_or(Clean, Corrected));
    let bytes = rng.bytes(count);
    let read = Call::Read { address, count };
    setup.gives(&cells, read, &expected, coverage)?;
    setup.gives(&cells, Call::Write { address, bytes }, &expected, coverage)
}
