//! Beats of burst reads: each has the bit of its own doubleword, in the order of
//! the beats (MEM-15).

use model::code::FLIP_BITS;
use model::gen::Rng;
use model::Answer::{Clean, Corrected};
use model::{Answer, Call};

use super::{cell, Setup, PATTERNS};
use crate::coverage::Coverage;
use crate::ways::every_bit;

/// Each bit in each doubleword of the line alone, and all four with different
/// bits, from each doubleword of the line.
pub fn of_beats(rng: &mut Rng) -> Result<String, String> {
    let mut coverage = Coverage::new();
    for pattern in PATTERNS {
        let setup = Setup::draw(rng);
        for bit in 0..FLIP_BITS {
            for (flips, first) in lines(bit) {
                let cells = flips.map(|bit| cell(pattern, bit.as_slice())).concat();
                let call = Call::BurstRead {
                    address: setup.address + 8 * first as u32,
                    count: 32,
                };
                setup.gives(&cells, call, &in_order(flips, first), &mut coverage)?;
            }
        }
    }
    coverage.check(every_bit("burst read", 4))?;
    Ok(format!("{} patterns, each flip bit", PATTERNS.len()))
}

/// The bit that is inverted in a doubleword, if any.
type Flip = Option<u8>;

/// The flips of the doublewords of a line in the order of addresses, and the
/// doubleword at which the burst starts.
fn lines(bit: u8) -> impl Iterator<Item = ([Flip; 4], usize)> {
    let others = [0, 19, 31, 50].map(|more| Some((bit + more) % FLIP_BITS));
    let alone = (0..4).map(move |place| {
        let mut flips = [None; 4];
        flips[place] = Some(bit);
        flips
    });
    let flips = alone.chain([others]);
    flips.flat_map(|flips| (0..4).map(move |first| (flips, first)))
}

fn in_order(mut flips: [Flip; 4], first: usize) -> [Answer; 4] {
    flips.rotate_left(first);
    flips.map(|flip| flip.map_or(Clean, Corrected))
}
