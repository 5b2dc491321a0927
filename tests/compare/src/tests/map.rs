//! The map, the way back, and whether records are alike.

use model::gen::{setups, Rng};
use model::map::{self, Layout};
use model::Record;

use crate::answers::{self, ACCEPTED};
use crate::case::Case;
use crate::coverage::Coverage;
use crate::draw;
use crate::library;
use crate::request::{nonzero, Request};
use crate::ways::{ways, Met};

const RECORDS: usize = 30_000;
const CALLS: usize = 24;
const PAIRS: usize = 4_000;
const SMALL_PAIRS: usize = 60;

/// The small set-ups end below this MB.
const SMALL_END: u32 = 16;

/// Addresses anywhere, in banks and at the edges of spans.
pub fn addresses(rng: &mut Rng) -> Result<String, String> {
    let mut coverage = Coverage::new();
    for _ in 0..RECORDS {
        let record = draw::record(rng);
        let layout = map::judge(&record).ok();
        let request = |_| Request::Map(draw::address(rng, layout.as_ref()));
        let requests = (0..CALLS).map(request).collect();
        check(record, requests, &mut coverage)?;
    }
    coverage.check(ways("map", &[0, 1], &[5]))?;
    Ok(format!("{RECORDS} records, {CALLS} addresses each"))
}

/// The number of cells of every kind of record.
pub fn cell_counts(rng: &mut Rng) -> Result<String, String> {
    let mut coverage = Coverage::new();
    for _ in 0..RECORDS {
        let record = draw::record(rng);
        check(record, vec![Request::CellCount], &mut coverage)?;
    }
    coverage.check(ways("count", &[0], &[5]))?;
    Ok(format!("{RECORDS} records"))
}

/// Places that the map gave, places near the limits, and any others.
pub fn way_back(rng: &mut Rng) -> Result<String, String> {
    let mut coverage = Coverage::new();
    for _ in 0..RECORDS {
        let record = draw::record(rng);
        let layout = map::judge(&record).ok();
        let request = |_| place(rng, &record, layout.as_ref());
        let requests = (0..CALLS).map(request).collect();
        check(record, requests, &mut coverage)?;
    }
    let wide = ways("wide way back", &[], &[5, 15]);
    coverage.check(ways("way back", &[0], &[5, 15, 16, 17]).chain(wide))?;
    Ok(format!("{RECORDS} records, {CALLS} places each"))
}

/// Pairs of records, asked in both orders.
pub fn alike(rng: &mut Rng) -> Result<String, String> {
    let mut coverage = Coverage::new();
    for _ in 0..PAIRS {
        let (first, second) = pair(rng);
        check(first, vec![Request::Alike(Box::new(second))], &mut coverage)?;
        check(second, vec![Request::Alike(Box::new(first))], &mut coverage)?;
    }
    coverage.check(ways("alike", &[0, 1], &[5]))?;
    Ok(format!("{PAIRS} pairs, both orders"))
}

/// The same question put to the model at every doubleword.
pub fn alike_exhaustive(rng: &mut Rng) -> Result<String, String> {
    let mut coverage = Coverage::new();
    for _ in 0..SMALL_PAIRS {
        let first = setups::small(rng, SMALL_END);
        let second = close_record(rng, &first);
        let mut alike = [answers::UNFILLED];
        let library = match library::alike(&first, &second, &mut alike) {
            0 => ACCEPTED + alike[0],
            refused => refused,
        };
        let model = match map::alike_exhaustive(&first, &second) {
            Ok(alike) => ACCEPTED + u32::from(alike),
            Err(refusal) => answers::of_refusal(refusal),
        };
        coverage.meet(("alike", model));
        if library != model {
            return Err(format!(
                "records {} and {}: {} / {}",
                nonzero(&first.bytes),
                nonzero(&second.bytes),
                answers::shown(library),
                answers::shown(model)
            ));
        }
    }
    coverage.check(ways("alike", &[0, 1], &[]))?;
    Ok(format!("{SMALL_PAIRS} pairs, every doubleword"))
}

fn check(
    record: Record,
    requests: Vec<Request>,
    coverage: &mut Coverage<Met>,
) -> Result<(), String> {
    let cells = Vec::new();
    let case = Case {
        record,
        cells,
        requests,
    };
    case.check(coverage)
}

fn place(rng: &mut Rng, record: &Record, layout: Option<&Layout>) -> Request {
    if rng.percent(40) {
        let address = draw::address(rng, layout);
        if let Ok(Some(place)) = map::map(record, address) {
            return Request::WayBack {
                bank: u32::from(place.bank) + wide(rng),
                row: place.row.0,
                column: place.column.0,
            };
        }
    }
    let bank = match rng.below(8) {
        0 => u32::from(rng.byte()),
        1 => 8,
        2 => rng.below(8) + wide(rng),
        _ => rng.below(8),
    };
    Request::WayBack {
        bank,
        row: part_of_place(rng),
        column: part_of_place(rng),
    }
}

/// Now and then what a byte would drop.
fn wide(rng: &mut Rng) -> u32 {
    if rng.percent(90) {
        return 0;
    }
    1 << (8 + rng.below(24))
}

/// A row or column: near a power of two that may be its limit, or any number.
fn part_of_place(rng: &mut Rng) -> u32 {
    let limit = 1 << (8 + rng.below(5));
    match rng.below(8) {
        0 => rng.next_u64() as u32,
        1 => 1 << rng.below(32),
        2 | 3 => limit - 1,
        4 => limit,
        _ => rng.below(limit),
    }
}

fn pair(rng: &mut Rng) -> (Record, Record) {
    match rng.below(10) {
        0 => (draw::record(rng), draw::record(rng)),
        1 => {
            let accepted = setups::accepted(rng, u32::MAX);
            (accepted, draw::record(rng))
        }
        2 => {
            let record = setups::made_by_hand(rng);
            (record, draw::harmless_change(rng, &record))
        }
        _ => {
            let accepted = setups::accepted(rng, u32::MAX);
            (accepted, close_record(rng, &accepted))
        }
    }
}

/// A record close to an accepted one, so that it may or may not be alike.
fn close_record(rng: &mut Rng, record: &Record) -> Record {
    match rng.below(4) {
        0 => draw::harmless_change(rng, record),
        1 => {
            let neighbour = setups::neighbour(rng, record);
            draw::harmless_change(rng, &neighbour)
        }
        _ => setups::neighbour(rng, record),
    }
}
