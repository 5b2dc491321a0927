//! The Rust wrapper against the C functions that it calls: its enums have the
//! kinds and the flip bits of the parts, and its errors the refusals.

use model::gen::Rng;

use crate::case::Case;
use crate::coverage::Coverage;
use crate::request::{Given, Request, State};
use crate::tests::{bursts, memory, splits};
use crate::ways::{every_bit_of_single_calls, met, met_bits, ways, Met};
use crate::wrapper;

const CASES: usize = 4_000;

pub fn beside_the_library(rng: &mut Rng) -> Result<String, String> {
    let mut coverage = Coverage::new();
    for _ in 0..CASES {
        check(&memory::few_cells_case(rng), &mut coverage)?;
    }
    coverage.check(all_ways())?;
    Ok(format!("{CASES} records and cells"))
}

fn all_ways() -> impl Iterator<Item = Met> {
    ways("read", &[1, 2, 3, 5], &[5, 6, 9])
        .chain(ways("write", &[1, 2, 3, 4, 5], &[5, 6, 9]))
        .chain(ways("scrub", &[1, 2, 3, 5], &[5, 9]))
        .chain(every_bit_of_single_calls())
        .chain(splits::all_ways())
        .chain(bursts::all_ways())
}

/// Calls without an answer, which are asked of the library alone, change both
/// states.
fn check(case: &Case, coverage: &mut Coverage<Met>) -> Result<(), String> {
    let mut library = State::new(case.record, &case.cells);
    let mut wrapped = library.clone();
    for request in &case.requests {
        let from_library = library.ask_library(request);
        let asked = match request {
            Request::Listed(call) => wrapper::ask(&mut wrapped, call),
            _ => None,
        };
        let Some(from_wrapper) = asked else {
            wrapped.ask_library(request);
            continue;
        };
        coverage.meet(met(request, from_library.way(request)));
        coverage.extend(met_bits(request, &from_library));
        let text = Given::difference(&from_library, &from_wrapper)
            .or_else(|| State::difference(&library, &wrapped));
        if let Some(text) = text {
            return Err(format!("{case}, {request}, by the wrapper: {text}"));
        }
    }
    Ok(())
}
