//! Three inverted bits: if their columns make that of a fourth, it is named,
//! though it was right (ECC-6); otherwise they are uncorrectable.

use model::code::{COLUMNS, FLIP_BITS};
use model::gen::Rng;
use model::Answer::{self, Uncorrectable};
use std::ops::BitXor;

use super::{cell, every_call, meaning, Setup, PATTERNS};
use crate::coverage::Coverage;
use crate::ways::ways;

/// How many of the 59,640 sets of three bits look like a single one.
const LIKE_ONE: usize = 34_164;

/// Each set of three bits: a read, a short write, a scrub, and as one access of
/// a split and one beat of a burst.
pub fn of_three_flips(rng: &mut Rng) -> Result<String, String> {
    let mut coverage = Coverage::new();
    let mut like_one = 0;
    let setup = Setup::draw(rng);
    for bits in sets_of_three() {
        let answer = reading(bits);
        like_one += usize::from(answer != Uncorrectable);
        let pattern = rng.pick(&PATTERNS);
        every_call(rng, &setup, &cell(pattern, &bits), answer, &mut coverage)?;
    }
    if like_one != LIKE_ONE {
        return Err(format!("{like_one} sets look like one bit, not {LIKE_ONE}"));
    }
    let kinds = ["read", "write", "scrub"];
    coverage.check(kinds.into_iter().flat_map(|kind| ways(kind, &[2, 3], &[])))?;
    Ok(format!("{like_one} sets of three bits that look like one"))
}

fn sets_of_three() -> impl Iterator<Item = [u8; 3]> {
    (0..FLIP_BITS).flat_map(|a| {
        (a + 1..FLIP_BITS).flat_map(move |b| (b + 1..FLIP_BITS).map(move |c| [a, b, c]))
    })
}

/// The columns of three bits never make 0.
fn reading(bits: [u8; 3]) -> Answer {
    meaning(
        bits.map(|bit| COLUMNS[usize::from(bit)])
            .into_iter()
            .fold(0, BitXor::bitxor),
    )
}
