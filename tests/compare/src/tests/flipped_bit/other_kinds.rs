//! Parts that were not corrected hold nothing but their kind.

use model::code::FLIP_BITS;
use model::gen::Rng;
use model::Answer::{Clean, NoBank, Stored, Uncorrectable};
use model::Call;

use super::{cell, single_calls, Setup, PATTERNS};
use crate::coverage::Coverage;
use crate::ways::{ways, Met};

/// Clean cells, each two inverted bits, full writes over each bit, and addresses
/// without a bank.
pub fn none_without_correction(rng: &mut Rng) -> Result<String, String> {
    let mut coverage = Coverage::new();
    let setup = Setup::draw(rng);
    for pattern in PATTERNS {
        for call in single_calls(rng, setup.address) {
            setup.gives(&cell(pattern, &[]), call, &[Clean], &mut coverage)?;
        }
    }
    each_two_flips(rng, &setup, &mut coverage)?;
    full_writes(rng, &setup, &mut coverage)?;
    without_bank(rng, &setup, &mut coverage)?;
    coverage.check(ways("read", &[1, 3, 5], &[]))?;
    coverage.check(ways("write", &[1, 3, 4, 5], &[]))?;
    coverage.check(ways("scrub", &[1, 3, 5], &[]))?;
    Ok("clean, uncorrectable, stored and no bank".to_string())
}

fn each_two_flips(
    rng: &mut Rng,
    setup: &Setup,
    coverage: &mut Coverage<Met>,
) -> Result<(), String> {
    for first in 0..FLIP_BITS {
        for second in first + 1..FLIP_BITS {
            let cells = cell(rng.pick(&PATTERNS), &[first, second]);
            let mut calls = single_calls(rng, setup.address);
            let call = calls.swap_remove(rng.below(calls.len() as u32) as usize);
            setup.gives(&cells, call, &[Uncorrectable], coverage)?;
        }
    }
    Ok(())
}

/// MEM-4: the old cell is not looked at, so its bit is not named.
fn full_writes(rng: &mut Rng, setup: &Setup, coverage: &mut Coverage<Met>) -> Result<(), String> {
    let address = setup.address;
    for bit in 0..FLIP_BITS {
        let line = cell(rng.pick(&PATTERNS), &[bit]).repeat(4);
        let bytes = rng.bytes(8);
        setup.gives(&line, Call::Write { address, bytes }, &[Stored], coverage)?;
        let bytes = rng.bytes(32);
        let burst = Call::BurstWrite { address, bytes };
        setup.gives(&line, burst, &[Stored; 4], coverage)?;
    }
    Ok(())
}

/// There is no bank past the last address that ten bits of megabytes reach.
fn without_bank(rng: &mut Rng, setup: &Setup, coverage: &mut Coverage<Met>) -> Result<(), String> {
    for call in single_calls(rng, 0x4000_0000) {
        setup.gives(&[], call, &[NoBank], coverage)?;
    }
    Ok(())
}
