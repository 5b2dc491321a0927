//! The flip bit that "corrected" names (ECC-3, ECC-6): each of the 72, at reads,
//! short writes and scrubs here, and at bursts and splits in files of their own.
//! What is expected follows from the bits that were inverted, or from the
//! syndrome. The parts of the C functions, the enums of the Rust wrapper and the
//! model must all have it.

mod bursts;
mod miscorrections;
mod other_kinds;
mod splits;
mod syndromes;

pub use bursts::of_beats;
pub use miscorrections::of_three_flips;
pub use other_kinds::none_without_correction;
pub use splits::of_parts;
pub use syndromes::{of_stored_check_bytes, on_the_page};

use model::code::{self, CELL_BYTES, COLUMNS, FLIP_BITS};
use model::gen::Rng;
use model::Answer::{Clean, Corrected, Uncorrectable};
use model::{Answer, Call, Record};

use crate::answers;
use crate::case::Case;
use crate::coverage::Coverage;
use crate::lent;
use crate::request::{Given, Request, State};
use crate::ways::{every_bit_of_single_calls, Met};
use crate::wrapper;

/// Doublewords of zeros, of ones, with one bit at either end, and mixed ones.
const PATTERNS: [[u8; 8]; 6] = [
    [0; 8],
    [0xFF; 8],
    [0x80, 0, 0, 0, 0, 0, 0, 0],
    [0, 0, 0, 0, 0, 0, 0, 0x01],
    [0x01, 0x23, 0x45, 0x67, 0x89, 0xAB, 0xCD, 0xEF],
    [0xA5, 0x3C, 0x0F, 0x69, 0xC3, 0x5A, 0x96, 0xF1],
];

/// Every place in the doubleword with every count that stays in it: reads, and
/// short writes; and scrubs at every place.
pub fn of_single_calls(rng: &mut Rng) -> Result<String, String> {
    let mut coverage = Coverage::new();
    for pattern in PATTERNS {
        let setup = Setup::draw(rng);
        for bit in 0..FLIP_BITS {
            for call in single_calls(rng, setup.address) {
                let cells = cell(pattern, &[bit]);
                setup.gives(&cells, call, &[Corrected(bit)], &mut coverage)?;
            }
        }
    }
    coverage.check(every_bit_of_single_calls())?;
    Ok(format!("{} patterns, each flip bit", PATTERNS.len()))
}

/// All of them that look at the cell of a doubleword.
fn single_calls(rng: &mut Rng, doubleword: u32) -> Vec<Call> {
    let mut calls = Vec::new();
    for (place, count) in (0..8).flat_map(|place| (1..=8 - place).map(move |n| (place, n))) {
        let address = doubleword + place;
        let count = count as usize;
        calls.push(Call::Read { address, count });
        if count < 8 {
            let bytes = rng.bytes(count);
            calls.push(Call::Write { address, bytes });
        }
    }
    calls.extend(
        (doubleword..)
            .take(8)
            .map(|address| Call::Scrub { address }),
    );
    calls
}

/// A cell of these bytes with some bits inverted, found by ECC-1 and ECC-3 alone.
fn cell(data: [u8; 8], bits: &[u8]) -> [u8; CELL_BYTES] {
    let mut cell = [0; CELL_BYTES];
    code::store_cell(&mut cell, &data);
    for &bit in bits {
        match bit {
            0..=63 => cell[usize::from(bit / 8)] ^= 0x80 >> (bit % 8),
            _ => cell[8] ^= 1 << (bit - 64),
        }
    }
    cell
}

/// ECC-6, by a look through the columns.
fn meaning(syndrome: u8) -> Answer {
    if syndrome == 0 {
        return Clean;
    }
    (0..)
        .zip(COLUMNS)
        .find(|&(_, column)| column == syndrome)
        .map_or(Uncorrectable, |(bit, _)| Corrected(bit))
}

/// A record, and the address of the doubleword that has its cell 0. The next
/// doublewords have the next cells.
struct Setup {
    record: Record,
    address: u32,
}

impl Setup {
    fn draw(rng: &mut Rng) -> Self {
        let (record, address) = lent::record_with_cell(rng, 0);
        Setup { record, address }
    }

    /// A call on these lent cells: the library, the wrapper and the model all
    /// give these answers, and leave the same.
    fn gives(
        &self,
        cells: &[u8],
        call: Call,
        expected: &[Answer],
        coverage: &mut Coverage<Met>,
    ) -> Result<(), String> {
        let request = Request::Listed(call.clone());
        let case = Case {
            record: self.record,
            cells: cells.to_vec(),
            requests: vec![request.clone()],
        };
        let mut library = State::new(self.record, cells);
        let mut wrapped = library.clone();
        let from_library = library.ask_library(&request);
        if from_library.result != 0 || from_library.numbers != answers::numbers_of_parts(expected) {
            let shown = from_library.shown();
            return Err(format!("{case}: {shown}, not {expected:?}"));
        }
        let from_wrapper = wrapper::ask(&mut wrapped, &call).expect("a call with an answer");
        let by_wrapper = Given::difference(&from_library, &from_wrapper)
            .or_else(|| State::difference(&library, &wrapped));
        match by_wrapper {
            Some(text) => Err(format!("{case}, by the wrapper: {text}")),
            None => case.check(coverage),
        }
    }
}

/// A read, a short write, a scrub, a split and a burst. The cell stands second,
/// between clean ones, where a call has several.
fn every_call(
    rng: &mut Rng,
    setup: &Setup,
    flipped: &[u8],
    answer: Answer,
    coverage: &mut Coverage<Met>,
) -> Result<(), String> {
    let clean = cell(rng.pick(&PATTERNS), &[]);
    let line = [&clean, flipped, &clean, &clean].concat();
    let next = setup.address + 8;
    let read = Call::Read {
        address: next,
        count: 8,
    };
    let write = Call::Write {
        address: next + 3,
        bytes: rng.bytes(2),
    };
    let split = Call::Read {
        address: next - 2,
        count: 4,
    };
    let burst = Call::BurstRead {
        address: setup.address,
        count: 32,
    };
    setup.gives(&line, read, &[answer], coverage)?;
    setup.gives(&line, write, &[answer], coverage)?;
    setup.gives(&line, Call::Scrub { address: next }, &[answer], coverage)?;
    setup.gives(&line, split, &[Clean, answer], coverage)?;
    setup.gives(&line, burst, &[Clean, answer, Clean, Clean], coverage)
}
