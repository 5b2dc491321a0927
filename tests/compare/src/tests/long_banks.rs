//! REG-13, REG-14: banks around the lengths at which row bits, column bits or
//! the verdict change, alone and several together.

mod most_cells;

pub use most_cells::every_cell_lent;

use model::gen::Rng;
use model::map::{self, Bank, Layout};
use model::record::{offset, SWITCH_ON};
use model::{Call, Record};

use crate::case::Case;
use crate::coverage::Coverage;
use crate::draw;
use crate::request::Request;
use crate::ways::{ways, Met};

/// Lengths in MB: the longest of each row code and of twelve row bits, with
/// their neighbours, and the longest span that ten bits can name.
const LENGTHS: [u32; 16] = [
    1, 2, 3, 7, 8, 9, 31, 32, 33, 127, 128, 129, 255, 256, 257, 1024,
];

/// The lengths of banks that stand together.
const TOGETHER: [u32; 7] = [2, 121, 127, 128, 129, 255, 256];

const MEGABYTES: u32 = 1024;
const SETUPS: usize = 2_000;
const NEIGHBOURS: usize = 6;

/// Each length with each row code, at several starts and as several banks.
pub fn alone() -> Result<String, String> {
    let mut coverage = Coverage::new();
    let mut records = 0;
    for length in LENGTHS {
        for start in starts(length) {
            for (code, bank) in (0..4).flat_map(|code| [0, 3, 4, 7].map(|bank| (code, bank))) {
                let mut off = Record::fresh();
                draw::set_bank(&mut off, bank, start, start + length - 1, code);
                check(&off, &mut coverage)?;
                records += 1;
            }
        }
    }
    coverage.check(judgements())?;
    coverage.check(ways("map", &[0, 1], &[5]))?;
    coverage.check(ways("way back", &[0], &[5, 15, 16, 17]))?;
    Ok(format!("{records} records"))
}

/// Set-ups of several banks up to MB 1023, some of which are too long or meet;
/// and records close to them, which may or may not be alike.
pub fn together(rng: &mut Rng) -> Result<String, String> {
    let mut coverage = Coverage::new();
    for _ in 0..SETUPS {
        let off = several(rng);
        check(&off, &mut coverage)?;
        check_alike(rng, &switched_on(&off), &mut coverage)?;
    }
    coverage.check(judgements())?;
    coverage.check(ways("judge", &[], &[14]))?;
    coverage.check(ways("alike", &[0, 1], &[5]))?;
    coverage.check(ways("count", &[0], &[5]))?;
    Ok(format!("{SETUPS} records, {NEIGHBOURS} others for each"))
}

fn judgements() -> impl Iterator<Item = Met> {
    ways("judge", &[0], &[13]).chain(ways("set", &[0], &[13]))
}

/// From the first MB, at odd places, at and beside a multiple of every size, and
/// up to the last MB.
fn starts(length: u32) -> Vec<u32> {
    let last = MEGABYTES - length;
    let mut starts = vec![0, 1, 100, 255, 256, 257, 511, last];
    starts.retain(|&start| start <= last);
    starts.dedup();
    starts
}

/// Banks one after the other, in any order of their numbers and with gaps; now
/// and then two of them meet.
fn several(rng: &mut Rng) -> Record {
    let mut off = Record::fresh();
    let mut next = rng.below(40);
    let mut numbers: Vec<u8> = (0..8).collect();
    while !numbers.is_empty() {
        let n = numbers.swap_remove(rng.below(numbers.len() as u32) as usize);
        let length = match rng.below(40) {
            0 => 257,
            _ => rng.pick(&TOGETHER),
        };
        if next + length > MEGABYTES {
            break;
        }
        let code = if rng.percent(95) { 3 } else { rng.byte() & 3 };
        draw::set_bank(&mut off, n, next, next + length - 1, code);
        let gap = if rng.percent(98) {
            rng.pick(&[0, 0, 1, 7])
        } else {
            -1
        };
        next = next.wrapping_add_signed(length as i32 + gap);
    }
    off
}

/// The same record as if switching on had accepted it.
fn switched_on(off: &Record) -> Record {
    let mut on = *off;
    on.set(offset::SWITCH, SWITCH_ON);
    on
}

/// Judging, switching on, and then the map of every corner and the way back.
fn check(off: &Record, coverage: &mut Coverage<Met>) -> Result<(), String> {
    let switch = Call::WriteRegister {
        offset: offset::SWITCH,
        value: SWITCH_ON,
    };
    let mut requests = vec![
        Request::Judge,
        Request::Listed(switch),
        Request::CellCount,
        Request::Map(0),
    ];
    if let Ok(layout) = map::judge(off) {
        requests.extend(corners(&layout).into_iter().map(Request::Map));
        requests.extend(ways_back(&layout));
    }
    requests.extend(beyond_every_bank());
    Case {
        record: *off,
        cells: Vec::new(),
        requests,
    }
    .check(coverage)
}

/// The addresses at both ends of each bank, inside and outside, and on both
/// sides of every multiple of its size, where row and column begin again.
pub fn corners(layout: &Layout) -> Vec<u32> {
    let of_bank = |bank: &Bank| {
        let first = bank.start_mb << 20;
        let last = (bank.last_mb << 20) + 0xF_FFFF;
        let multiples = (0..MEGABYTES << 20)
            .step_by(8 * bank.cells() as usize)
            .filter(move |multiple| (first..=last).contains(multiple));
        [first, last + 1]
            .into_iter()
            .chain(multiples)
            .flat_map(|at| [at.wrapping_sub(8), at.wrapping_sub(1), at, at + 8])
    };
    let mut addresses: Vec<u32> = layout
        .enabled()
        .flat_map(|(_, bank)| of_bank(bank))
        .collect();
    addresses.sort_unstable();
    addresses.dedup();
    addresses
}

/// From the last row and column of each bank, from the next ones, which it does
/// not have, and from rows that its span may or may not reach.
fn ways_back(layout: &Layout) -> Vec<Request> {
    let of_bank = |(n, bank): (u8, &Bank)| {
        let (rows, columns) = (1 << bank.row_bits, 1 << bank.column_bits);
        let places = [0, 1, rows / 2, rows - 1, rows]
            .into_iter()
            .flat_map(move |row| [0, columns - 1, columns].map(|column| (row, column)));
        places.map(move |(row, column)| Request::WayBack {
            bank: n.into(),
            row,
            column,
        })
    };
    layout.enabled().flat_map(of_bank).collect()
}

fn beyond_every_bank() -> impl Iterator<Item = Request> {
    (0..9).map(|bank| Request::WayBack {
        bank,
        row: 1 << 13,
        column: 1 << 12,
    })
}

fn check_alike(rng: &mut Rng, record: &Record, coverage: &mut Coverage<Met>) -> Result<(), String> {
    let requests = (0..NEIGHBOURS)
        .map(|_| Request::Alike(Box::new(neighbour(rng, record))))
        .collect();
    Case {
        record: *record,
        cells: Vec::new(),
        requests,
    }
    .check(coverage)
}

/// The record with other row codes, with a bank that ends 1 MB earlier or later,
/// or with changes that do not matter.
fn neighbour(rng: &mut Rng, record: &Record) -> Record {
    let bank = rng.below(8) as u8;
    let mut other = *record;
    let mut set_last = |last_mb: u32| {
        let [low, extended, ..] = last_mb.to_le_bytes();
        other.set(offset::LAST + bank, low);
        other.set(offset::LAST_EXTENDED + bank, extended);
    };
    match rng.below(4) {
        0 => other.set(offset::ROW_CODES_LOW + bank / 4, rng.byte()),
        1 => set_last((record.last_mb(bank) + 1) % MEGABYTES),
        2 => set_last(record.last_mb(bank).saturating_sub(1)),
        _ => return draw::harmless_change(rng, record),
    }
    other
}
