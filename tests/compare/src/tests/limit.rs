//! The benchmark's hand-written library against the proved one: it is a limit
//! of speed only if its answers are the same.

use model::gen::Rng;
use model::map;

use crate::case::Case;
use crate::coverage::Coverage;
use crate::draw;
use crate::limit;
use crate::request::{nonzero, Given, Request, State};
use crate::tests::memory;
use crate::tests::splits::edges;
use crate::ways::{met, met_bits, ways, Met};

const CASES: usize = 12_000;
const MAPS: usize = 12;
const LAST_ADDRESSES: usize = 100;

pub fn beside_the_library(rng: &mut Rng) -> Result<String, String> {
    let mut coverage = Coverage::new();
    for _ in 0..CASES {
        check(&memory::few_cells_case(rng), &mut coverage)?;
        check(&maps(rng), &mut coverage)?;
    }
    for _ in 0..LAST_ADDRESSES {
        check(&edges::last_case(rng), &mut coverage)?;
    }
    for case in edges::cases(rng) {
        check(&case, &mut coverage)?;
    }
    let maps = ways("map", &[0, 1], &[5]);
    coverage.check(memory::all_ways().chain(edges::bank_ways()).chain(maps))?;
    Ok(format!("{CASES} records and cells"))
}

fn maps(rng: &mut Rng) -> Case {
    let record = draw::record(rng);
    let layout = map::judge(&record).ok();
    let request = |_| Request::Map(draw::address(rng, layout.as_ref()));
    Case {
        record,
        cells: Vec::new(),
        requests: (0..MAPS).map(request).collect(),
    }
}

/// Register calls, which only the proved library has, change both records.
fn check(case: &Case, coverage: &mut Coverage<Met>) -> Result<(), String> {
    let mut library = State::new(case.record, &case.cells);
    let mut by_hand = library.clone();
    for request in &case.requests {
        let before = by_hand.record;
        let from_library = library.ask_library(request);
        let Some(from_limit) = limit::ask(&mut by_hand, request) else {
            by_hand.ask_library(request);
            continue;
        };
        coverage.meet(met(request, from_library.way(request)));
        coverage.extend(met_bits(request, &from_library));
        let text = Given::difference(&from_library, &from_limit)
            .or_else(|| State::difference(&library, &by_hand));
        if let Some(text) = text {
            let record = nonzero(&before.bytes);
            let lent = case.cells.len();
            return Err(format!(
                "record {record}, {lent} lent bytes, {request}: {text}"
            ));
        }
    }
    Ok(())
}
