//! Register reads and writes, judging, and the fresh record.

use model::gen::Rng;
use model::record::{is_extended, offset};
use model::{Call, Record};

use crate::case::Case;
use crate::coverage::Coverage;
use crate::draw;
use crate::library;
use crate::request::Request;
use crate::ways::ways;

const RECORDS: usize = 8_000;
const WRITES: usize = 60;
const RECORDS_FOR_EVERY_WRITE: usize = 24;

/// Reads of every offset, then random calls, on random records.
pub fn random_calls(rng: &mut Rng) -> Result<String, String> {
    fresh_is_fresh()?;
    let mut coverage = Coverage::new();
    for _ in 0..RECORDS {
        let mut requests: Vec<Request> = (0..=255).map(get).collect();
        requests.push(Request::Judge);
        for _ in 0..WRITES {
            requests.push(register_call(rng));
        }
        let record = draw::record(rng);
        let cells = Vec::new();
        let case = Case {
            record,
            cells,
            requests,
        };
        case.check(&mut coverage)?;
    }
    let set = ways("set", &[0], &[1, 2, 3, 4, 11, 12, 13, 14]);
    let get = ways("get", &[0], &[1]);
    let judge = ways("judge", &[0], &[11, 12, 13, 14]);
    let wide = ways("wide get", &[], &[1]).chain(ways("wide set", &[], &[1]));
    coverage.check(set.chain(get).chain(judge).chain(wide))?;
    Ok(format!("{RECORDS} records, {WRITES} calls each"))
}

/// Every value at every offset, each on the same record.
pub fn every_write(rng: &mut Rng) -> Result<String, String> {
    let mut coverage = Coverage::new();
    for _ in 0..RECORDS_FOR_EVERY_WRITE {
        let record = draw::record(rng);
        for place in 0..=255 {
            for value in 0..=255 {
                let case = Case {
                    record,
                    cells: Vec::new(),
                    requests: vec![set(place, value)],
                };
                case.check(&mut coverage)?;
            }
        }
    }
    coverage.check(ways("set", &[0], &[1, 2, 3, 4]))?;
    Ok(format!(
        "{RECORDS_FOR_EVERY_WRITE} records, 65536 writes each"
    ))
}

/// The library makes a fresh record of whatever bytes it is given.
fn fresh_is_fresh() -> Result<(), String> {
    let mut record = Record { bytes: [0xA6; 256] };
    library::fresh(&mut record);
    if record == Record::fresh() {
        Ok(())
    } else {
        Err("the fresh record".to_string())
    }
}

fn register_call(rng: &mut Rng) -> Request {
    match rng.below(20) {
        0 => Request::Judge,
        1 => wide(rng),
        2 | 3 => get(rng.byte()),
        // Switching on judges the banks; both outcomes must be frequent enough.
        4 | 5 => set(offset::SWITCH, 8),
        6 | 7 => set(offset::SWITCH, 0),
        _ => {
            let place = place(rng);
            set(place, value(rng, place))
        }
    }
}

/// An offset that would be listed if it were cut to a byte.
fn wide(rng: &mut Rng) -> Request {
    let place = place(rng);
    let offset = u32::from(place) + (1 << (8 + rng.below(24)));
    if rng.percent(50) {
        Request::WideGet { offset }
    } else {
        let value = value(rng, place);
        Request::WideSet { offset, value }
    }
}

/// Mostly a listed offset, with the ones beside the ends of each group.
fn place(rng: &mut Rng) -> u8 {
    match rng.below(10) {
        0 => rng.byte(),
        1..=5 => 0x7F + rng.below(0x23) as u8,
        6 | 7 => 0xB7 + rng.below(0x16) as u8,
        8 => 0xEF + rng.below(5) as u8,
        _ => offset::BANK_ENABLES,
    }
}

/// Small values keep extended bytes accepted and spans short.
fn value(rng: &mut Rng, place: u8) -> u8 {
    match rng.below(4) {
        0 => rng.byte(),
        1 => rng.pick(&[0, 1, 2, 3, 4, 7, 8, 9, 16, 127, 128, 254, 255]),
        _ if is_extended(place) => rng.byte() & 3,
        _ => rng.byte() & 31,
    }
}

fn get(offset: u8) -> Request {
    Request::Listed(Call::ReadRegister { offset })
}

fn set(offset: u8, value: u8) -> Request {
    Request::Listed(Call::WriteRegister { offset, value })
}
